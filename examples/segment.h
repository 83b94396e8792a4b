/* What the examples share: a TCP segment in an IPv4 packet. */
#ifndef SEGMENT_H
#define SEGMENT_H

#include <nidhaaguf.h>

enum { FIN = 1, SYN = 2, RST = 4, ACK = 16 };

#define SEGMENT_LENGTH 40

static void put_word(uint8_t *at, uint16_t word) {
    at[0] = (uint8_t)(word >> 8);
    at[1] = (uint8_t)word;
}

static void put_address(uint8_t *at, uint32_t address) {
    put_word(at, (uint16_t)(address >> 16));
    put_word(at + 2, (uint16_t)address);
}

/* The checksum of an IPv4 header of 20 bytes whose checksum field is 0. */
static uint16_t header_checksum(const uint8_t *header) {
    uint32_t sum = 0;
    for (int i = 0; i < 20; i += 2)
        sum += (uint32_t)header[i] << 8 | header[i + 1];
    while (sum > 0xFFFF)
        sum = (sum & 0xFFFF) + (sum >> 16);
    return (uint16_t)~sum;
}

/* A TCP segment with no data; its own checksum is not judged by a director, and is left 0. */
static void make_segment(uint8_t packet[SEGMENT_LENGTH], uint32_t source, uint16_t source_port, uint32_t destination,
                         uint16_t destination_port, uint8_t flags) {
    for (int i = 0; i < SEGMENT_LENGTH; i++)
        packet[i] = 0;
    packet[0] = 0x45;
    packet[3] = SEGMENT_LENGTH;
    packet[8] = 64;
    packet[9] = NIDHAAGUF_TCP;
    put_address(packet + 12, source);
    put_address(packet + 16, destination);
    put_word(packet + 10, header_checksum(packet));
    put_word(packet + 20, source_port);
    put_word(packet + 22, destination_port);
    packet[32] = 0x50;
    packet[33] = flags;
}

#endif
