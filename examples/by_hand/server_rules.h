/* What a participant must know about the members of its session, by docs/PROTOCOL.md alone and from what they send: the
 * sources, and what changes. */
#ifndef SERVER_RULES_H
#define SERVER_RULES_H

#include "jalwedd.h"
#include "server_members.h"

enum { ROOM = 32, MOST_CHANGES = 8 };   /* in the table, and of the own SSRC */

/* What happens to the others; FULL is that the table becomes full. A source that joins by a packet sends as well. */
enum event { JOINED, LEFT, TIMED_OUT, BEGAN, STOPPED, FULL, EVENTS };

/* A source that is present. */
struct known_source {
    uint64_t sighted, left;             /* NEVER where it is not marked */
    uint64_t told, ntp;                 /* its last sender report, or NEVER and 0 */
    uint64_t counted;                   /* when its last packet was counted */
    int64_t first, greatest;            /* integers of its run */
    uint64_t received, jitter;          /* packets of the run: 0 where there is none; in 1/16 unit */
    uint64_t octets;                    /* of their payloads */
    int64_t expected_before;            /* packets of the run that were expected by the latest block, */
    uint64_t received_before;           /* and those received by then */
    uint32_t ssrc, transit, rtp;        /* the RTP timestamp of its last sender report, or 0 */
    uint32_t fraction, block_highest;   /* what the latest block about it said, or 0 */
    uint16_t stray;
    bool is_named, sends, has_stray;
    bool has_news, has_block;           /* whether a packet was counted since that block, and whether there was one */
};

struct known {
    struct known_source sources[ROOM];  /* by rising SSRC */
    uint64_t sent;                      /* when the participant's newest packet was sent */
    uint64_t peers[MOST_CHANGES];       /* whose datagrams changed its SSRC */
    uint32_t ssrc, count, changes;
    bool sends;
    bool others_changed;                /* whether a role did, if only for a moment of the last call */
    uint32_t tally[EVENTS];             /* how often each happened */
};

/* A datagram came. Returns the status that the call must have. `word` is the one that was passed to the participant for
 * a new SSRC: no other source has it. */
uint32_t know_datagram(struct known *known, uint64_t now, const struct datagram *datagram, uint32_t word);

/* The participant sent a packet. */
void know_sent(struct known *known, uint64_t now);

/* The participant was ticked. */
void know_tick(struct known *known, uint64_t now);

/* That tick handed out a report: it has room for a block about each source with news. Returns how many those are. */
uint32_t know_report(struct known *known);

/* What there is to know of the source at a place in the order of SSRCs. */
jalwedd_source_state known_state(const struct known *known, uint32_t at);

/* How many there are besides those who are not yet valid or left, the participant included. */
uint32_t known_members(const struct known *known);
uint32_t known_senders(const struct known *known);

#endif
