/*
 * The story of crates/story, told from C: setup, three connections, a drain by weight 0, FIN both ways, an RST, idle
 * time, and a count that reads zero. It prints examples/story.txt.
 *
 *     ./archives nidhaaguf
 *     cc -Iinclude examples/story.c target/staticlib/libnidhaaguf.a -o story
 *     ./story | diff - examples/story.txt
 */
#include "segment.h"

#include <stdio.h>

/* 192.0.2.10:5432, the service; 10.1.0.5 and 10.1.0.6, port 6432, its servers; 10.0.0.1, where the clients are. */
static const uint32_t VIRTUAL = 0xC000020A;
static const uint32_t FIRST = 0x0A010005;
static const uint32_t SECOND = 0x0A010006;
static const uint32_t CLIENT = 0x0A000001;

/* Room for four connections. */
#define WORDS (4 * NIDHAAGUF_WORDS_PER_SLOT)
static uint32_t row[WORDS];

static NidhaagufState state;

/* Keeps the state after a call; false for a refusal, which is printed. */
static int accepted(NidhaagufAnswer answer) {
    state = answer.state;
    if (answer.refusal == NIDHAAGUF_ACCEPTED)
        return 1;
    printf("  refused, number %u\n", answer.refusal);
    return 0;
}

static void tell_done(NidhaagufAnswer answer) {
    if (accepted(answer))
        puts("  done");
}

static void tell_number(NidhaagufAnswer answer) {
    if (accepted(answer))
        printf("  number %u\n", answer.number);
}

static void tell_packet(NidhaagufAnswer answer) {
    static const char *const changes[] = {"none", "opened", "kept", "ended"};
    if (accepted(answer))
        printf("  %s, server %u\n", changes[answer.change], answer.number);
}

/* A packet of a client's port to the service. */
static void from_client(uint16_t port, uint8_t flags, uint32_t clock) {
    uint8_t packet[SEGMENT_LENGTH];
    make_segment(packet, CLIENT, port, VIRTUAL, 5432, flags);
    tell_packet(nidhaaguf_inbound(state, row, WORDS, packet, sizeof packet, clock));
}

/* A packet of the first server to a client's port. */
static void from_first(uint16_t port, uint8_t flags, uint32_t clock) {
    uint8_t packet[SEGMENT_LENGTH];
    make_segment(packet, FIRST, 6432, CLIENT, port, flags);
    tell_packet(nidhaaguf_outbound(state, row, WORDS, packet, sizeof packet, clock));
}

/* The first server's count; at zero it may be unplugged. */
static void ask(void) {
    puts("the count of server 0");
    tell_number(nidhaaguf_count(state, row, WORDS, 0));
}

int main(void) {
    NidhaagufService service = {VIRTUAL, 5432, NIDHAAGUF_TCP, NIDHAAGUF_ROUND_ROBIN, 2};
    NidhaagufServers servers = {{{FIRST, 6432, 1, 0}, {SECOND, 6432, 1, 0}}};

    puts("setup: two servers, round-robin");
    tell_done(nidhaaguf_set_up(state, service, servers, row, WORDS));

    puts("three clients open");
    from_client(40001, SYN, 1);
    from_client(40002, SYN, 2);
    from_client(40003, SYN, 3);

    puts("server 0 gets weight 0");
    tell_done(nidhaaguf_set_weight(state, row, WORDS, 0, 0));
    puts("its client goes on; a new client opens; a fifth finds no room");
    from_client(40001, ACK, 10);
    from_client(40004, SYN, 11);
    from_client(40005, SYN, 12);

    puts("FIN both ways: a finished connection still counts");
    from_client(40001, FIN, 20);
    from_first(40001, FIN, 21);
    ask();

    puts("an RST of the other client");
    from_client(40003, RST, 22);
    ask();

    puts("ticks at 140 and 141: the finished connection is idle");
    tell_number(nidhaaguf_tick(state, row, WORDS, 140));
    tell_number(nidhaaguf_tick(state, row, WORDS, 141));
    ask();
    return 0;
}
