/*
 * Nidhaaguf, a packet director: one virtual address and port over 1 to 64 servers, for TCP or UDP over IPv4.
 *
 * Eight calls, written and proved in Rattle (crates/nidhaaguf, nidhaaguf_c, nidhaaguf_serve). Each is handed the state and
 * gives the state after it back, by value; the connection table (the row) and the packets are lent. The library keeps nothing
 * between calls and allocates nothing.
 *
 * Six calls do one thing each. nidhaaguf_burst and nidhaaguf_serve are a tick and many packets under one judgement of the
 * state: what they do is what the single calls do one after another, at a fraction of the cost for each packet. A program
 * with packets in its own memory takes bursts; one whose packets come by a descriptor, as from a TUN device, can have them
 * read and written by a serve.
 *
 *     NidhaagufState   state = {0};
 *     uint32_t         row[5 * 1024];                         // 1,024 connections
 *     NidhaagufService service = {0xC000020A, 5432, 6, 1, 2}; // 192.0.2.10:5432, TCP, round-robin, two servers
 *     NidhaagufServers servers = {{{0x0A010005, 6432, 1, 0}, {0x0A010006, 6432, 1, 0}}};
 *
 *     NidhaagufAnswer answer = nidhaaguf_set_up(state, service, servers, row, 5 * 1024);
 *     state = answer.state;                                   // after each call, also after a refused one
 *     if (answer.refusal != NIDHAAGUF_ACCEPTED) ..
 *
 *     answer = nidhaaguf_inbound(state, row, 5 * 1024, packet, packet_length, seconds);
 *     state = answer.state;
 *     if (answer.refusal == NIDHAAGUF_ACCEPTED) ..            // send the packet: it is rewritten for server answer.number
 *
 * Two archives, which `./archives nidhaaguf nidhaaguf_serve` writes to target/staticlib; a program may be linked with
 * either or both. x86-64, System V calling convention.
 * - libnidhaaguf.a has the six calls and nidhaaguf_burst. It calls nothing but memcpy and memset.
 * - libnidhaaguf_serve.a has nidhaaguf_serve alone. It calls the C library's read and write, too.
 *
 * What the caller owes, in every call:
 * - What is lent is there: `row` points to `row_length` words, `packet` to `packet_length` bytes, and so on; a serve's
 *   `counters` to 46 numbers of 64 bits. Nothing else writes there during the call, and no two of them overlap. A length
 *   of 0 still takes a pointer that is not null and is aligned.
 * Nothing else: the state, the row, the packets and the other arguments may hold anything, and every call then ends with
 * the answer that its rules give (15, where the state and the row don't fit together). What a serve waits for is said there.
 *
 * State and row are plain numbers without pointers. Kept in a file or sent to another process, they go on there; any call
 * judges them first, and nidhaaguf_count changes nothing.
 *
 * The rules that each call keeps are in docs/SCOPE.md, cited here as SCOPE 4.12; rule 4.N is refusal N.
 *
 * Addresses and ports are numbers in the machine's byte order: 192.0.2.10 is 0xC000020A (ntohl, ntohs). Packets are
 * bytes as they stand on the wire, from the first byte of the IPv4 header on.
 */
#ifndef NIDHAAGUF_H
#define NIDHAAGUF_H

#include <stddef.h>
#include <stdint.h>

#ifdef __cplusplus
#define NIDHAAGUF_ASSERT static_assert
extern "C" {
#else
#define NIDHAAGUF_ASSERT _Static_assert
#endif

/* Places for servers in a state. */
#define NIDHAAGUF_SERVERS 64

/* A connection takes five words of the row; a row has 5 to 20,480 words, a multiple of five (SCOPE 2.4, 2.6). */
#define NIDHAAGUF_WORDS_PER_SLOT 5

/* A server. */
typedef struct {
    uint32_t address;
    uint16_t port;
    uint16_t weight; /* 0: gets no new connections, and keeps those that it has */
    uint32_t count;  /* its connections; the director's, setup doesn't read it */
} NidhaagufServer;

/* What is served. */
typedef struct {
    uint32_t address;   /* the virtual address.. */
    uint16_t port;      /* ..and port */
    uint8_t  protocol;  /* NidhaagufProtocol */
    uint8_t  scheduler; /* NidhaagufScheduler */
    uint32_t servers;   /* how many servers there are, 1 to 64 */
} NidhaagufService;

/* The servers that setup is given: places past service.servers are not read (SCOPE 2.3). */
typedef struct {
    NidhaagufServer server[NIDHAAGUF_SERVERS];
} NidhaagufServers;

/*
 * The state: made by setup, to be handed on from call to call together with its row. To look at, not to change.
 *
 * The last two fields are true after every accepted setup and weight call, whatever the scheduler, and a state in which they
 * are not gets 15. A state that was kept by a library without them is completed by a setup of its own service and servers
 * over a row of five words elsewhere: the two are in the state that it gives back.
 */
typedef struct {
    NidhaagufService service;
    uint32_t         clock; /* the latest accepted clock, in seconds */
    NidhaagufServer  servers[NIDHAAGUF_SERVERS];
    uint64_t         place;          /* the scheduler's walk: 0 before the first server, k + 1 at server k */
    uint16_t         level;          /* the level of weighted round-robin */
    uint16_t         largest_weight; /* of the servers in use (SCOPE 2.12); 0 where every weight is 0 */
    uint16_t         weight_divisor; /* the greatest common divisor of their weights; 0 where every weight is 0 */
} NidhaagufState;

/* What a call gives back. */
typedef struct {
    NidhaagufState state;   /* the state after the call */
    uint32_t       refusal; /* NidhaagufRefusal: 0 for accepted */
    uint32_t       number;  /* accepted: the count, how many connections a tick removed, a packet's server; else 0 */
    uint32_t       change;  /* NidhaagufChange of an accepted packet; else 0 */
} NidhaagufAnswer;

/* Packet k of a burst begins at byte 2,048 k of its packets. */
#define NIDHAAGUF_PLACE 2048

/* Of a burst's packet: its length in, its answer out. Four words, the form in which nidhaaguf_burst is lent them. */
typedef struct {
    uint32_t length;  /* the packet's bytes; all above 2,048 are taken as 2,048 */
    uint32_t refusal; /* NidhaagufRefusal: 0 for accepted */
    uint32_t server;  /* accepted: its connection's server; else 0 */
    uint32_t change;  /* NidhaagufChange of an accepted packet; else 0 */
} NidhaagufRecord;

/* Words of a record. */
#define NIDHAAGUF_WORDS_PER_RECORD 4

/* Of a packet that a serve has taken. Five words, the form in which nidhaaguf_serve is lent them. */
typedef struct {
    uint32_t length;  /* the packet's bytes, which stand in the buffer behind those of the packet before */
    uint32_t way;     /* which call it was given to: 0 inbound, 1 outbound */
    uint32_t refusal; /* NidhaagufRefusal: 0 for accepted */
    uint32_t server;  /* accepted: its connection's server; else 0 */
    uint32_t change;  /* NidhaagufChange of an accepted packet; else 0 */
} NidhaagufTraced;

/* Words of such a record. */
#define NIDHAAGUF_WORDS_PER_TRACED 5

/* No IPv4 packet is longer: a serve reads on while so many bytes of its buffer are left. */
#define NIDHAAGUF_LONGEST 65536

/*
 * A serve's counters: first those of inbound packets, then those of outbound ones. NIDHAAGUF_COUNTER tells a counter's place:
 * way 0 inbound, 1 outbound; refusal and change as an answer has them. counters[NIDHAAGUF_COUNTER(1, 12, 0)] counts the
 * outbound packets that were refused with 12, counters[NIDHAAGUF_COUNTER(0, 0, NIDHAAGUF_OPENED)] the openings. Refusals go by
 * their number, up to 20: the counters of numbers that no packet is refused with stay as they are.
 */
#define NIDHAAGUF_COUNTERS 46
#define NIDHAAGUF_COUNTER(way, refusal, change) (23 * (way) + ((refusal) != 0 ? 2 + (refusal) : (change) - 1))

/* What a serve gives back. */
typedef struct {
    NidhaagufState state;   /* the state after the tick and the packets */
    uint32_t       refusal; /* the tick's: 0, 11 or 15 */
    uint32_t       removed; /* how many connections the tick removed; 0 where it is refused */
    uint32_t       taken;   /* packets read, accepted or refused */
    uint32_t       unsent;  /* of these, accepted ones that the descriptor didn't take: write failed */
} NidhaagufServed;

/* The layout: each struct's size, and where its fields are. */
#define NIDHAAGUF_SIZE_IS(type, size) NIDHAAGUF_ASSERT(sizeof(type) == (size), "size of " #type)
#define NIDHAAGUF_OFFSET_IS(type, field, offset) NIDHAAGUF_ASSERT(offsetof(type, field) == (offset), "offset of " #field " in " #type)

NIDHAAGUF_SIZE_IS(NidhaagufServer, 12);
NIDHAAGUF_OFFSET_IS(NidhaagufServer, address, 0);
NIDHAAGUF_OFFSET_IS(NidhaagufServer, port, 4);
NIDHAAGUF_OFFSET_IS(NidhaagufServer, weight, 6);
NIDHAAGUF_OFFSET_IS(NidhaagufServer, count, 8);
NIDHAAGUF_SIZE_IS(NidhaagufService, 12);
NIDHAAGUF_OFFSET_IS(NidhaagufService, address, 0);
NIDHAAGUF_OFFSET_IS(NidhaagufService, port, 4);
NIDHAAGUF_OFFSET_IS(NidhaagufService, protocol, 6);
NIDHAAGUF_OFFSET_IS(NidhaagufService, scheduler, 7);
NIDHAAGUF_OFFSET_IS(NidhaagufService, servers, 8);
NIDHAAGUF_SIZE_IS(NidhaagufServers, 768);
NIDHAAGUF_SIZE_IS(NidhaagufState, 800);
NIDHAAGUF_OFFSET_IS(NidhaagufState, service, 0);
NIDHAAGUF_OFFSET_IS(NidhaagufState, clock, 12);
NIDHAAGUF_OFFSET_IS(NidhaagufState, servers, 16);
NIDHAAGUF_OFFSET_IS(NidhaagufState, place, 784);
NIDHAAGUF_OFFSET_IS(NidhaagufState, level, 792);
NIDHAAGUF_OFFSET_IS(NidhaagufState, largest_weight, 794);
NIDHAAGUF_OFFSET_IS(NidhaagufState, weight_divisor, 796);
NIDHAAGUF_SIZE_IS(NidhaagufAnswer, 816);
NIDHAAGUF_OFFSET_IS(NidhaagufAnswer, state, 0);
NIDHAAGUF_OFFSET_IS(NidhaagufAnswer, refusal, 800);
NIDHAAGUF_OFFSET_IS(NidhaagufAnswer, number, 804);
NIDHAAGUF_OFFSET_IS(NidhaagufAnswer, change, 808);
NIDHAAGUF_SIZE_IS(NidhaagufRecord, 16);
NIDHAAGUF_OFFSET_IS(NidhaagufRecord, length, 0);
NIDHAAGUF_OFFSET_IS(NidhaagufRecord, refusal, 4);
NIDHAAGUF_OFFSET_IS(NidhaagufRecord, server, 8);
NIDHAAGUF_OFFSET_IS(NidhaagufRecord, change, 12);
NIDHAAGUF_SIZE_IS(NidhaagufTraced, 20);
NIDHAAGUF_OFFSET_IS(NidhaagufTraced, length, 0);
NIDHAAGUF_OFFSET_IS(NidhaagufTraced, way, 4);
NIDHAAGUF_OFFSET_IS(NidhaagufTraced, refusal, 8);
NIDHAAGUF_OFFSET_IS(NidhaagufTraced, server, 12);
NIDHAAGUF_OFFSET_IS(NidhaagufTraced, change, 16);
NIDHAAGUF_SIZE_IS(NidhaagufServed, 816);
NIDHAAGUF_OFFSET_IS(NidhaagufServed, state, 0);
NIDHAAGUF_OFFSET_IS(NidhaagufServed, refusal, 800);
NIDHAAGUF_OFFSET_IS(NidhaagufServed, removed, 804);
NIDHAAGUF_OFFSET_IS(NidhaagufServed, taken, 808);
NIDHAAGUF_OFFSET_IS(NidhaagufServed, unsent, 812);

#undef NIDHAAGUF_SIZE_IS
#undef NIDHAAGUF_OFFSET_IS

/* NidhaagufService.protocol */
enum NidhaagufProtocol {
    NIDHAAGUF_TCP = 6,
    NIDHAAGUF_UDP = 17
};

/* NidhaagufService.scheduler (SCOPE 10.3, 10.5, 10.8, 10.9) */
enum NidhaagufScheduler {
    NIDHAAGUF_ROUND_ROBIN = 1,
    NIDHAAGUF_WEIGHTED_ROUND_ROBIN = 2,
    NIDHAAGUF_LEAST_CONNECTION = 3,
    NIDHAAGUF_WEIGHTED_LEAST_CONNECTION = 4
};

/*
 * NidhaagufAnswer.refusal (SCOPE section 4). Refusals 1 to 11, 15 and 20 change nothing: the state comes back as it was
 * handed in, in every field, and row and packet are as they were (SCOPE 5.3). 12, 13 and 14 store the clock and remove
 * idle connections, and change nothing else (SCOPE 5.4). 16 to 19 are not given.
 */
enum NidhaagufRefusal {
    NIDHAAGUF_ACCEPTED = 0,
    NIDHAAGUF_SIZE = 1,                 /* setup: servers not 1 to 64, or a row of a wrong length */
    NIDHAAGUF_SERVICE = 2,              /* setup: virtual address or port 0, unknown protocol or scheduler */
    NIDHAAGUF_SERVER_UNSET = 3,         /* setup: a server's address or port is 0 */
    NIDHAAGUF_SERVER_REPEATED = 4,      /* setup: two servers with equal address and port */
    NIDHAAGUF_NO_SERVER = 5,            /* weight, count: no server of that number */
    NIDHAAGUF_MALFORMED_HEADER = 6,     /* packet: the IPv4 header's lengths or version */
    NIDHAAGUF_FRAGMENT = 7,             /* packet: a fragment */
    NIDHAAGUF_OTHER_PROTOCOL = 8,       /* packet: not the service's protocol */
    NIDHAAGUF_MALFORMED_TRANSPORT = 9,  /* packet: the TCP or UDP header's lengths */
    NIDHAAGUF_OTHER_ENDPOINT = 10,      /* packet: inbound not to the service, outbound not from a server */
    NIDHAAGUF_EARLIER_CLOCK = 11,       /* tick, packet, burst, serve: a clock before state.clock */
    NIDHAAGUF_NO_CONNECTION = 12,       /* packet: it belongs to no connection and opens none */
    NIDHAAGUF_TABLE_FULL = 13,          /* packet: it would open a connection, and the row has no room */
    NIDHAAGUF_NO_WEIGHT = 14,           /* packet: it would open a connection, and every weight is 0 */
    NIDHAAGUF_UNSOUND = 15,             /* all but setup: state and row are not what the calls have made */
    NIDHAAGUF_BAD_CHECKSUM = 20         /* packet: the IPv4 header's checksum, tested after 6 and before 7 */
};

/* NidhaagufAnswer.change (SCOPE 7.9) */
enum NidhaagufChange {
    NIDHAAGUF_NONE = 0,   /* no packet was accepted */
    NIDHAAGUF_OPENED = 1, /* the packet opened a connection */
    NIDHAAGUF_KEPT = 2,   /* a packet of a connection */
    NIDHAAGUF_ENDED = 3   /* a TCP RST ended its connection */
};

/*
 * Sets up a service over the first service.servers of `servers`, whatever the state before; all counts and the clock
 * become 0 and the row is cleared (SCOPE 3.3). `state` is only what a refusal gives back: {0} will do the first time.
 * Refusals 1 to 4.
 */
NidhaagufAnswer nidhaaguf_set_up(NidhaagufState state, NidhaagufService service, NidhaagufServers servers,
                                 uint32_t *row, size_t row_length);

/* Sets the weight of server `number`. Its connections stay with it, also at weight 0. Refusals 15, 5 (SCOPE 5.1). */
NidhaagufAnswer nidhaaguf_set_weight(NidhaagufState state, const uint32_t *row, size_t row_length,
                                     uint32_t number, uint16_t weight);

/*
 * Gives in `number` how many connections server `number` has, as of the latest accepted clock: tick first to leave the
 * idle ones out (SCOPE 8.15). A server of weight 0 and count 0 may be taken away; docs/CLAIM.md says what that means.
 * Refusals 15, 5.
 */
NidhaagufAnswer nidhaaguf_count(NidhaagufState state, const uint32_t *row, size_t row_length, uint32_t number);

/*
 * Moves the clock to `clock`, in seconds, and removes the connections that are idle then (UDP 300 s; TCP 900 s, or
 * 120 s once both have sent FIN: SCOPE 8.12); `number` says how many. Refusals 15, 11.
 */
NidhaagufAnswer nidhaaguf_tick(NidhaagufState state, uint32_t *row, size_t row_length, uint32_t clock);

/*
 * Takes a packet from a client. Accepted, the packet is rewritten in place for server `number`, with its checksums, and
 * is to be sent there; `change` says what became of its connection. Refused, the packet is as it was.
 * A TCP SYN without ACK, RST and FIN opens a connection, also where its client has one that both sides have finished: that
 * one ends in the same call (SCOPE 8.16). On any other connection it is a packet like others (SCOPE 8.11).
 * Refusals 15, 6, 20, 7 to 14, in that order (SCOPE 5.1).
 */
NidhaagufAnswer nidhaaguf_inbound(NidhaagufState state, uint32_t *row, size_t row_length,
                                  uint8_t *packet, size_t packet_length, uint32_t clock);

/*
 * Takes a packet from a server, likewise: accepted, it is rewritten to come from the virtual address and port, and is to
 * be sent to its client. It opens no connection. Refusals 15, 6, 20, 7 to 12.
 */
NidhaagufAnswer nidhaaguf_outbound(NidhaagufState state, uint32_t *row, size_t row_length,
                                   uint8_t *packet, size_t packet_length, uint32_t clock);

/*
 * A tick at `clock`, then packets one after another at that clock, each as nidhaaguf_inbound or nidhaaguf_outbound by its
 * destination: inbound where it has fewer than 20 bytes or where bytes 16 to 19 are the virtual address, else outbound.
 *
 * Packet k has min(records[4 k], 2,048) bytes from byte 2,048 k of `packets` on. Its record's other three words become its
 * answer: refusal, server and change, as NidhaagufAnswer has them. There are as many packets as there are both whole places
 * and whole records: min(packets_length / 2,048, records_length / 4). A refused packet is as it was, and doesn't stop the
 * burst. Lengths, bytes past a packet's end, and places and records past the last packet stay as they are.
 *
 *     uint8_t         packets[64 * NIDHAAGUF_PLACE];
 *     NidhaagufRecord records[64];                            // records[k].length: how long packet k is
 *     answer = nidhaaguf_burst(state, row, 5 * 1024, packets, sizeof packets, (uint32_t *)records, 4 * 64, seconds);
 *
 * The answer is the tick's (its refusal; `number` connections removed; change 0), with the state after the packets. A refused
 * tick changes nothing at all: state, row, packets and records are as they came. Refusals 15, 11.
 */
NidhaagufAnswer nidhaaguf_burst(NidhaagufState state, uint32_t *row, size_t row_length,
                                uint8_t *packets, size_t packets_length, uint32_t *records, size_t records_length,
                                uint32_t clock);

/*
 * A tick at `clock`, then packets as they come: read from `descriptor` into `buffer`, taken as nidhaaguf_inbound or
 * nidhaaguf_outbound takes them at that clock (which of the two, as for a burst), and written back to it where they are
 * accepted. Each answer adds 1 to one of the 46 counters, and each packet is told: packet k has the five words of the records
 * from 5 k on (NidhaagufTraced), and its bytes stand in the buffer behind those of packet k - 1: rewritten, if it is accepted,
 * and as it came, if not. Other words of the records stay as they are.
 *
 * It ends
 * - when `most` packets are taken, or there is no whole record for the next: min(most, records_length / 5) packets;
 * - behind a packet after which fewer than 65,536 bytes of the buffer are left, so that no IPv4 packet is cut (a first one is
 *   read whatever the buffer's length: lend 65,536 bytes and what so many packets take);
 * - behind a packet that is refused with the number `stop`, for a caller that wants to know at once; 0 for none;
 * - when a read gives 0 bytes or fails, a signal's EINTR included. errno is then that read's; set it to 0 before the call to
 *   tell 0 bytes from an error (where packets were unsent, it may be the error of a write). A call that ended for another
 *   reason has made no such read.
 *
 *     static uint8_t         buffer[NIDHAAGUF_LONGEST + 256 * 2048];
 *     static NidhaagufTraced records[256];
 *     static uint64_t        counters[NIDHAAGUF_COUNTERS];
 *     served = nidhaaguf_serve(device, state, row, 5 * 1024, buffer, sizeof buffer, (uint32_t *)records, 5 * 256, counters,
 *                              seconds, 256, 0);
 *
 * - The descriptor: one read gives one packet, from the first byte of its IPv4 header on, and one write takes one. A TUN
 *   device without packet information (IFF_NO_PI) does so, and a datagram socket. A packet longer than the buffer's rest is cut
 *   by the read: refused with 6, unless what was cut off lies behind its total length.
 * - It waits where the descriptor waits. A signal that comes just before the read is not seen by it: repeat it until the call
 *   has returned.
 * - The clock stands still meanwhile: packets of a long wait are taken at the clock of its beginning.
 * - A write that fails makes its packet one of `unsent`; the packet has been taken, and its connection stands as if it had been
 *   sent. Where a write may raise SIGPIPE, ignore that signal.
 *
 * A refused tick reads nothing and changes nothing: the state comes back as it came. Refusals 15, 11.
 */
NidhaagufServed nidhaaguf_serve(int32_t descriptor, NidhaagufState state, uint32_t *row, size_t row_length,
                                uint8_t *buffer, size_t buffer_length, uint32_t *records, size_t records_length,
                                uint64_t *counters /* 46 */, uint32_t clock, uint32_t most, uint32_t stop);

#ifdef __cplusplus
}
#endif

#endif
