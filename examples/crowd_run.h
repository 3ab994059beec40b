/* Crowds on a virtual clock: sessions of the library's participants, and the same without reconsideration. */
#ifndef CROWD_RUN_H
#define CROWD_RUN_H

#include "crowd_svg.h"
#include "crowd_windows.h"

enum {
    ROOM = 1024,                        /* in a table, for others */
    HEADERS = 28,                       /* of UDP and IPv4 */
    REPORT = HEADERS + 36               /* a receiver report without blocks, and a CNAME of 17 octets */
};

extern const struct terms TERMS;        /* of each group */

/* What a run is of. Times are seconds since the join. */
struct plan {
    uint32_t participants, groups;
    uint32_t sender_step;               /* one in so many of a group sends RTP; 0: none */
    uint32_t turns;                     /* how many turns these take; 0: all send at a time, and all pause */
    uint32_t turn;                      /* how many packets are sent in one */
    uint32_t batch, every;              /* so many join, while as many leave, every so many seconds until half of those
                                           who are there leave; 0: nobody does */
    uint32_t leave, end;                /* when half of them leave, and when the run ends */
    uint32_t delay;                     /* microseconds until a datagram comes to the others */
    uint64_t seed;
};

/* A run of the library, and what its windows came to. */
struct findings run_library(const struct plan *plan, struct course *course);

/* What went out in a run of one group of the library, to be freed with `forget`. */
struct record run_record(const struct plan *plan);
void forget(const struct record *record);

/* The same crowd without reconsideration. */
void run_plainly(const struct plan *plan, struct course *course);

#endif
