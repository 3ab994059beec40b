/* The members of one session of a conference, on a virtual clock: the datagrams that they send, and when. */
#ifndef SERVER_MEMBERS_H
#define SERVER_MEMBERS_H

#include <stdbool.h>
#include <stddef.h>
#include <stdint.h>

enum { SECOND = 1000000, FEWEST_MEMBERS = 5, MOST_MEMBERS = 20, RATE = 8000 };

static const uint64_t NEVER = UINT64_MAX;

/* A datagram, and what it says: of one source, as each here does. */
struct datagram {
    uint64_t peer;
    uint64_t ntp;                       /* in a sender report */
    uint32_t ssrc, timestamp;           /* the RTP timestamp of a packet, or in a sender report */
    uint16_t sequence;
    uint16_t payload;                   /* RTP: the octets of its payload */
    bool is_rtp;
    bool is_damaged;                    /* its last octet is missing; RTP: and all but 11 octets of its head */
    bool is_told, is_named, is_bye;     /* RTCP: it begins with a sender report, gives the CNAME, says goodbye */
    uint8_t octets[64];
    size_t size;
};

/* What a member does next. */
enum act { JOIN, REPORT, PACKET, TURN, END, ACTS };

struct member {
    uint64_t due[ACTS];                 /* NEVER for what it does not do */
    uint64_t peer;
    uint32_t ssrc, timestamp, loss;     /* of 100 packets so many are lost */
    uint16_t sequence;
    bool is_loop;                       /* it brings the server's own SSRC back */
    bool is_gone;
};

struct members {
    struct member all[MOST_MEMBERS];
    uint64_t random, peers;
    uint64_t flood, flood_end;          /* when the next invented SSRC comes, and when no more do */
    uint64_t due;                       /* when the next of all acts is */
    uint32_t next, count;               /* whose it is: `count` for the flood */
    uint32_t colliding, close;          /* of 100 who join so many take the server's SSRC, or one close to 0 */
};

/* The next word of splitmix64. */
uint32_t random_word(uint64_t *state);

/* The members of a session, by its number: in each eighth there is a flood of invented SSRCs, in each 25th half of
 * those who join take the server's SSRC, and in each tenth all SSRCs are close to 0. */
void begin_members(struct members *members, uint32_t number, uint64_t seed);

/* Does what is due at the moment `members->due`, and tells whether a datagram comes of it. `server` is the server's
 * SSRC. */
bool next_datagram(struct members *members, uint32_t server, struct datagram *datagram);

#endif
