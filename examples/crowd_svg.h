/* What a crowd sent in each of its sessions, second by second, and the picture of it. */
#ifndef CROWD_SVG_H
#define CROWD_SVG_H

#include <stdint.h>
#include <stdio.h>

/* What went out in one group in one second. */
struct second {
    uint32_t reports, byes, octets;     /* octets with the headers of UDP and IP */
};

/* What went out in a run. */
struct course {
    uint32_t participants, groups;
    uint32_t leave, end;                /* when half of them leave, and when the run ends: seconds since the join */
    uint32_t bandwidth;                 /* for the RTCP of a group, octets a second */
    struct second *seconds;             /* `end` of the first group, then those of the next */
    uint32_t byes, silent;              /* those who left with a BYE, and without, as they had sent nothing */
    uint64_t last_bye;                  /* microseconds since the join */
    uint64_t agreed;                    /* since when all who stay know how many they are, or UINT64_MAX */
};

/* What went out from a second on, for so many seconds: a group's average. */
struct rate {
    double compounds;                   /* a second */
    double share;                       /* of the bandwidth for RTCP, per cent */
};
struct rate rate_of(const struct course *course, uint32_t from, uint32_t seconds);

/* Writes the number in decimal, with commas: `text` has room for 16. Gives it back. */
const char *with_commas(uint32_t number, char *text);

/* The picture of two runs, each with reconsideration ([0]) and without ([1]). `report` is the octets of a report. */
void draw(FILE *to, const struct course groups[2], const struct course single[2], uint32_t report);

#endif
