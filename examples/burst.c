/*
 * Many packets under one judgement, as a program with a ring of packets takes them: places of 2,048 bytes are filled with
 * packets of both ways, one call directs them all, and each place's record tells what to do with it. It prints
 * examples/burst.txt.
 *
 *     ./archives nidhaaguf
 *     cc -Iinclude examples/burst.c target/staticlib/libnidhaaguf.a -o burst
 *     ./burst | diff - examples/burst.txt
 */
#include "segment.h"

#include <stdio.h>
#include <string.h>

/* 192.0.2.10:5432, the service; 10.1.0.5:6432, its server; 10.0.0.1, where the clients are. */
static const uint32_t VIRTUAL = 0xC000020A;
static const uint32_t SERVER = 0x0A010005;
static const uint32_t CLIENT = 0x0A000001;

/* Room for two connections. */
#define WORDS (2 * NIDHAAGUF_WORDS_PER_SLOT)
static uint32_t row[WORDS];

static NidhaagufState state;

/* The ring: a place and a record for each packet, and how many are taken. */
#define PLACES 8
static uint8_t packets[PLACES * NIDHAAGUF_PLACE];
static NidhaagufRecord records[PLACES];
static size_t taken;

static void add(uint32_t source, uint16_t source_port, uint32_t destination, uint16_t destination_port, uint8_t flags) {
    uint8_t *place = packets + taken * NIDHAAGUF_PLACE;
    make_segment(place, source, source_port, destination, destination_port, flags);
    records[taken++].length = SEGMENT_LENGTH;
}

static void from_client(uint16_t port, uint8_t flags) {
    add(CLIENT, port, VIRTUAL, 5432, flags);
}

static void from_server(uint16_t port, uint8_t flags) {
    add(SERVER, 6432, CLIENT, port, flags);
}

static void tell_end(const uint8_t *address, const uint8_t *port) {
    printf("%u.%u.%u.%u:%u", address[0], address[1], address[2], address[3], (unsigned)port[0] << 8 | port[1]);
}

/* What became of a packet: an accepted one is to be sent as it now stands in its place. */
static void tell_packet(size_t k) {
    static const char *const changes[] = {"none", "opened", "kept", "ended"};
    const uint8_t *packet = packets + k * NIDHAAGUF_PLACE;
    if (records[k].refusal != NIDHAAGUF_ACCEPTED) {
        printf("  packet %zu: refused, number %u\n", k, records[k].refusal);
        return;
    }
    printf("  packet %zu: %s, server %u: send it from ", k, changes[records[k].change], records[k].server);
    tell_end(packet + 12, packet + 20);
    printf(" to ");
    tell_end(packet + 16, packet + 22);
    printf("\n");
}

/* Directs what is in the ring, tells each answer, and empties it. */
static void direct(uint32_t clock) {
    NidhaagufAnswer answer = nidhaaguf_burst(state, row, WORDS, packets, sizeof packets, (uint32_t *)records,
                                             taken * NIDHAAGUF_WORDS_PER_RECORD, clock);
    state = answer.state;
    printf("a burst of %zu at %u: ", taken, clock);
    if (answer.refusal != NIDHAAGUF_ACCEPTED) {
        printf("refused, number %u: the ring stays as it is\n", answer.refusal);
        return;
    }
    printf("%u removed as idle\n", answer.number);
    for (size_t k = 0; k < taken; k++)
        tell_packet(k);
    taken = 0;
}

int main(void) {
    NidhaagufService service = {VIRTUAL, 5432, NIDHAAGUF_TCP, NIDHAAGUF_ROUND_ROBIN, 1};
    NidhaagufServers servers = {{{SERVER, 6432, 1, 0}}};
    state = nidhaaguf_set_up(state, service, servers, row, WORDS).state;

    /* two clients, answers to one of them, a third client that finds no room, bytes that are no packet, and a packet of
       which a bit of the header was turned on its way */
    from_client(40001, SYN);
    from_client(40002, SYN);
    from_server(40001, SYN | ACK);
    from_client(40003, SYN);
    from_client(40001, ACK);
    memset(packets + taken * NIDHAAGUF_PLACE, 0xFF, SEGMENT_LENGTH);
    records[taken++].length = SEGMENT_LENGTH;
    from_client(40001, ACK);
    packets[(taken - 1) * NIDHAAGUF_PLACE + 8] ^= 1;
    direct(10);

    /* the first client finishes, both ways, and comes back with the same port; the second resets */
    from_client(40001, FIN | ACK);
    from_server(40001, FIN | ACK);
    from_client(40001, SYN);
    from_client(40002, RST);
    from_client(40003, SYN);
    direct(20);

    /* the clock never goes back; 900 s later both are idle, and the client is unknown */
    from_client(40001, ACK);
    direct(19);
    direct(920);
    return 0;
}
