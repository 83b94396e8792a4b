/* Prints what include/nidhaaguf.h says of refusals and counters: each refusal, then each counter's place by its answer. */
#include "nidhaaguf.h"

#include <stdio.h>

int main(void) {
    static const unsigned refusals[] = {
        NIDHAAGUF_SIZE, NIDHAAGUF_SERVICE, NIDHAAGUF_SERVER_UNSET, NIDHAAGUF_SERVER_REPEATED, NIDHAAGUF_NO_SERVER,
        NIDHAAGUF_MALFORMED_HEADER, NIDHAAGUF_FRAGMENT, NIDHAAGUF_OTHER_PROTOCOL, NIDHAAGUF_MALFORMED_TRANSPORT,
        NIDHAAGUF_OTHER_ENDPOINT, NIDHAAGUF_EARLIER_CLOCK, NIDHAAGUF_NO_CONNECTION, NIDHAAGUF_TABLE_FULL,
        NIDHAAGUF_NO_WEIGHT, NIDHAAGUF_UNSOUND, NIDHAAGUF_BAD_CHECKSUM};
    static const unsigned changes[] = {NIDHAAGUF_OPENED, NIDHAAGUF_KEPT, NIDHAAGUF_ENDED};
    printf("%d counters\n", NIDHAAGUF_COUNTERS);
    for (unsigned way = 0; way < 2; way++) {
        for (size_t i = 0; i < sizeof changes / sizeof *changes; i++)
            printf("change %u %u\n", way, NIDHAAGUF_COUNTER(way, 0u, changes[i]));
        for (size_t i = 0; i < sizeof refusals / sizeof *refusals; i++)
            printf("refusal %u %u %u\n", way, refusals[i], NIDHAAGUF_COUNTER(way, refusals[i], 0u));
    }
    return 0;
}
