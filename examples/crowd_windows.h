/* What the participants of a session send in windows of time, held against what crates/rtcp_session proves about it:
 * the laws `windows_hold_their_intervals`, `windows_keep_to_the_share` and `crowds_do_not_flood` (crowd_windows.c), and
 * `sessions_keep_to_their_bandwidth`, `joining_together_does_not_flood`, `leaving_together_does_not_flood` and
 * `delays_stretch_the_window` (crowd_waits.c). */
#ifndef CROWD_WINDOWS_H
#define CROWD_WINDOWS_H

#include <stdbool.h>
#include <stdint.h>
#include <stdio.h>

enum {
    COUNTED = 1025,             /* the most members that one counts: 1,024 in its table, and itself */
    WIDTHS = 10,
    PACE = 243656,              /* what is allowed of what fits: 2 * 1.21828, in 1/100,000 */
    WHOLE = 100000
};

/* The widths of the windows, in seconds. */
extern const uint32_t SECONDS[WIDTHS];

/* For products that pass 64 bits. */
typedef unsigned __int128 wide;

/* A compound that went out. */
struct sent {
    uint64_t moment;            /* microseconds, on one clock for all */
    uint64_t since;             /* of a BYE after a backoff: when its participant left; of all others UINT64_MAX */
    uint32_t from;              /* the number of who sent it */
    uint32_t octets;            /* with the headers of UDP and IPv4 */
    uint32_t members, senders;  /* of a report: what its participant counted, itself included; of a BYE after a backoff:
                                   1 and the BYE packets that came since the leave, and 0 */
    uint32_t average;           /* of a report: the average size of compounds that its interval follows, in 1/256 octet,
                                   before it moved that itself */
    bool sends_rtp;             /* a report of one who sent RTP lately: a sender report */
    bool is_bye;
};

/* All that went out in a session, by rising moments, and when each participant began. */
struct record {
    struct sent *sent;
    uint64_t *starts;
    uint32_t count, participants;       /* the participants' numbers lie below this */
    uint32_t delay;                     /* microseconds until a datagram comes to the others */
};

/* What the participants of a session go by. */
struct terms {
    uint32_t sender_bw, receiver_bw;    /* for the RTCP of senders and of the others, octets a second */
    uint32_t size;                      /* no compound of the session has fewer octets, with headers */
};

/* The laws, in the order of the columns that are printed, and what each allows. The later reports of a participant in a
 * window are all that it sends there but the oldest. What a bandwidth carries is 2.43656 times as much as it has octets
 * in that time, and so many percent of this, where those whom a law looks at are so many percent of those whom each of
 * them counts. */
enum law {
    INTERVALS,          /* the intervals (RFC 3550, 6.3.1) of a participant's later reports: 2.43656 times the window */
    SHARE,              /* for each of its later reports that is not of a sender, a compound of average size of each
                           member that it counts as none: what the bandwidth of those carries */
    SHARES,             /* the same of all participants with such reports: as much for each */
    LATER,              /* the later reports of all: what both bandwidths carry, in compounds of the least size */
    OTHERS,             /* those of them that are not of senders: what the bandwidth of those carries */
    REPORTS,            /* all reports: one more for each participant of the session */
    OCTETS,             /* their octets: as many reports of the greatest size */
    COMPOUNDS,          /* with the BYEs: nine more for each participant */

    KEPT_AVERAGES,      /* sessions_keep_to_their_bandwidth: a compound of average size for each later report: what both
                           bandwidths carry */
    KEPT_OTHERS,        /* those of such as do not send: what their bandwidth carries */
    KEPT_OCTETS,        /* the octets of reports, beyond the greatest report for each participant: the same as for
                           the averages, where reports pass the average by so many percent */
    KEPT_REPORTS,       /* the later reports: what both bandwidths carry, in compounds of the least average */
    KEPT_COMPOUNDS,     /* with the oldest reports and the BYEs: ten more for each participant */
    JOINED_OTHERS,      /* joining_together_does_not_flood: those who report for the first time and do not send, and
                           began in the window: what their bandwidth carries */
    JOINED_SENDERS,     /* those who do send: what both bandwidths carry */
    JOINED_REPORTS,     /* both, and the later reports: what both bandwidths carry twice, and that of the others */
    LEFT_BYES,          /* leaving_together_does_not_flood: the BYEs of those who left in the window, after a backoff:
                           what the bandwidth of such as do not send carries */

    AFTER_AVERAGES,     /* delays_stretch_the_window, of a session with a delay: the same as from KEPT_AVERAGES on, but
                           2,052,074 / (2,052,074 - delay) times what is carried, and by the percent of those who have
                           waited for longer than the delay */
    AFTER_OTHERS,
    AFTER_OCTETS,
    AFTER_REPORTS,
    AFTER_COMPOUNDS,
    LAWS
};

/* Whom a law looks at: those who wait for their next report, who join, who leave, and who have waited for longer than
 * the session's delay. */
enum those { WAITING, JOINING, LEAVING_TOGETHER, WAITING_AFTER, THOSE };

/* What all windows of one width came to. */
struct fullest {
    uint64_t reports, from;             /* of the one with the most reports, and when the first of them went out */
    uint64_t allowed, percent;          /* for it, by crowds_do_not_flood */
    uint64_t kept_reports;              /* the same number of reports, as crowd_waits.c finds it, */
    uint64_t kept, kept_percent;        /* and for it, by sessions_keep_to_their_bandwidth, */
    uint64_t stretched, stretched_percent;      /* and by delays_stretch_the_window */
    uint64_t percents[THOSE];           /* the greatest of any window */
    double used[LAWS];                  /* the most that was used of what each law allows, per cent */
};

/* What all windows of some sessions came to. Zeros before the first. */
struct findings {
    struct fullest of[WIDTHS];
    double spaced;              /* the same of a participant's interval, from one of its reports to the next */
    uint64_t reports, byes;
    uint32_t reporters;         /* how many ever report */
    uint32_t greatest;          /* the octets of the greatest report */
    uint32_t delay;             /* of the last session */
    uint32_t broken;            /* a bit for each law that is broken, by its place */
    bool goes_on;               /* nothing is said of a law that is broken, and all others are tested still */
};

/* Where a law is tested: in a window of a width, from its first compound to its last. */
struct spot {
    uint32_t width;             /* its place among the widths */
    const struct sent *first, *last;
};

/* Tests every window of what a session sent. The first that breaks a law is named on standard error, and no other is
 * tested then. */
void test_windows(struct findings *findings, const struct terms *terms, const struct record *record);

/* Two lines for each width, and one more where there was a delay. */
void print_findings(FILE *to, const struct findings *findings);

/* All that went out in a session, and what its windows came to by the laws of crowd_waits.c, for another program. */
void print_session(FILE *to, const struct terms *terms, const struct record *record, const struct findings *findings);

/* ---- For the other files */

/* Tests the laws of those who wait, join and leave. */
void test_waits(struct findings *findings, const struct terms *terms, const struct record *record);

/* A law is broken where more is used than it allows. */
void hold(struct findings *findings, const struct spot *spot, enum law law, wide used, wide allowed);

const char *name_of(enum law law);

/* Whether a law was broken, and nothing more is to be tested. */
bool is_over(const struct findings *findings);

/* How many a report counts that send RTP as its participant does, or do not as it does not. */
uint32_t alike(const struct sent *report);

/* The deterministic interval of a report that is not its participant's first, by an average size (RFC 3550, 6.3.1). */
uint64_t interval_by(const struct terms *terms, const struct sent *report, uint32_t average);

/* Ends the program with status 1. */
_Noreturn void stop(const char *why, uint32_t number);

/* Memory, all zeros. */
void *zeros(size_t count, size_t size);

#endif
