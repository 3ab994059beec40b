/* The control half of an RTP participant (RFC 3550), proved: pass in the datagrams that arrive, the packets that are
 * sent and the time, and get back the reports to send, the members and the next deadline. It opens no socket, reads no
 * clock, draws no random number, starts no thread, takes no lock, and allocates only in jalwedd_new. Two threads that
 * call with one handle at the same time may lose the participant: see ONE CALL AT A TIME, below.
 *
 * A host keeps two sockets, a monotonic clock, and a source of random words. `now` is what its clock says, as it is:
 *
 *     jalwedd_handle session = JALWEDD_EMPTY;
 *     config.start = now, config.ntp_base = the time of day as an NTP timestamp;    both of this moment, read together
 *     status = jalwedd_new(&session, &config, cname, cname_size, items, item_count, random_word(), &step);
 *     assert(status == JALWEDD_TAKEN && step.next > now);    or else the start is not `now`, as below
 *     for (;;) {
 *         wait until step.next, or a second after the latest tick, or until a datagram comes
 *         jalwedd_arrive_rtcp(&session, now, peer, random_word(), datagram, size, &step, octets);    a datagram, or
 *         jalwedd_tick(&session, now, random_word(), random_word(), &step, octets);    at the first of these moments
 *         if (step.kind) send the first step.size of the octets to the others
 *     }
 *
 * Tick at step.next, and at least once a second: only a tick drops those who left or fell silent, and step.next may be
 * minutes away. jalwedd_tick says what follows from ticks that come less often.
 *
 * config.start and config.ntp_base are the same moment by two clocks. With a start of 0 and a clock that counts from
 * the boot, say, each report has an NTP timestamp that is ahead by all that the clock says. Others play in sync by it.
 * No call can tell, as each is passed only `now`. But a host can: the first step.next is more than a second later than
 * the start, so a start of 0 leaves it before `now`.
 *
 * WHAT THE HOST MUST ENSURE, as nothing tests it:
 * - Each pointer is valid, aligned, and not NULL, even if its size is 0: then any aligned address will do, such as that
 *   of the configuration. Only jalwedd_free accepts NULL.
 * - Each pointer leads to as many octets, items or sources as its size or count says. A datagram of more than 65,535
 *   octets, a CNAME of more than 255 and a list of more than 7 items are not read: such a call is refused. So is a size
 *   of -1, as returned by recv. But jalwedd_change reads a listing as far as its SSRCs rise, whatever its count says.
 * - Output arguments (all that are not const) do not overlap each other or any input.
 * - One call at a time uses a handle, also of those that only read. Several handles may be used side by side, by
 *   several threads too.
 * - The host does not change a handle's contents, and frees it before it goes out of scope. It may be moved, if the old
 *   copy is not used again. A child of fork does not use it: two processes would act as one participant.
 *
 * Everything else is tested: whatever a datagram holds, whatever the numbers are and in whatever order the calls come,
 * each call returns, with a status. A call whose status is not JALWEDD_TAKEN does not change the participant, and hands
 * out nothing. The step is written whatever the status, so step.next is always valid.
 *
 * ONE CALL AT A TIME: a call takes the participant out of its handle, and puts it back before it returns. If a second
 * thread calls meanwhile, it finds the handle empty: JALWEDD_IS_EMPTY, with step.next JALWEDD_NEVER. A loop that runs
 * until then ends, and the participant may be lost for good, without a further sign. So threads that share a handle
 * hold a lock around reading the clock *and* the call, and a debug build asserts that no status is JALWEDD_IS_EMPTY. A
 * call whose clock was read before the lock was taken may be refused as JALWEDD_BACKWARDS; if it passed an RTP packet
 * that came, this one counts as lost.
 *
 * jalwedd_new takes at most 12,288 octets of stack, and no other call more than 8,192; of those that a participant is
 * told by, none but jalwedd_configure takes more than 1,024, or 4,096 with a guard (as measured, at 1,000 members).
 *
 * Moments are those of the host's clock, in microseconds: of any that does not go back, whatever it counts from. A
 * session starts with jalwedd_new, at the moment config.start, 0 to 2^63 - 1. All moments that are passed in lie
 * between the start and 2^50 after it, and never go back; those that are told are of the same clock. Words are random,
 * from 0 to 2^32 - 1, each used once.
 *
 * A participant has one SSRC. A host that sends several streams into a session is as many participants there, each with
 * a handle. All have one CNAME, one clock, and NTP timestamps of one time of day. One that starts after the first, at
 * the moment `now`, has the start `now` and the ntp_base jalwedd_ntp_of(first.ntp_base, now - first.start). Pass to
 * each of them what came, and also what the others of this host sent, as if it had come, so that all count the same
 * members (RFC 3550, 6.2). But do not pass its own datagrams to a participant: if a multicast group brings them back,
 * it would take another SSRC (8.2).
 *
 * A structure of this header never grows or changes its layout under one SONAME of the shared object, and
 * JALWEDD_MEMORY never changes under one: a host that was compiled with an earlier header goes on with a later object.
 */
#ifndef JALWEDD_H
#define JALWEDD_H

#include <stddef.h>
#include <stdint.h>

#ifdef __cplusplus
extern "C" {
#endif

/* ---- The version of this header. If two versions share their first two numbers, the later one has everything of the
 * earlier one, under the same SONAME. */

#define JALWEDD_VERSION_MAJOR 0
#define JALWEDD_VERSION_MINOR 7
#define JALWEDD_VERSION_PATCH 0

/* The version of the linked library: 0x000503 for 0.5.3. */
uint32_t jalwedd_version(void);

/* What gcc and clang warn about: a result that is not used, and a pointer that is NULL. */
#ifdef __GNUC__
#define JALWEDD_TO_BE_USED __attribute__((warn_unused_result))
#define JALWEDD_NOT_NULL __attribute__((nonnull))
#else
#define JALWEDD_TO_BE_USED
#define JALWEDD_NOT_NULL
#endif

/* ---- Statuses. Two of them have two names, of which a switch can use only one: NO_BLOCK or NO_PART, and NO_SOURCE or
 * NO_CHANGE. */

enum {
    JALWEDD_TAKEN = 0,

    /* A call that the participant refused: the first of these that applies. */
    JALWEDD_LEFT = 1,           /* E1: it has left the session (RFC 3550, 6.3.7) */
    JALWEDD_BACKWARDS = 2,      /* E2: the moment lies before the start, or before that of the latest call that was
                                   taken */
    JALWEDD_TOO_FAR = 3,        /* E3: the moment lies more than 2^50 after the start */
    JALWEDD_TOO_MANY = 4,       /* E4: a session has fewer than 2^40 calls, and 2^40 - 1 were taken */
    JALWEDD_NO_COMPOUND = 5,    /* E5: the RTCP datagram is not a compound (6.1): jalwedd_check says why */
    JALWEDD_NO_RTP = 6,         /* E6: the RTP datagram has no valid head (5.1): jalwedd_rtp_fault says why */
    JALWEDD_OWN_SSRC = 7,       /* E7: the datagram uses our SSRC, and its peer may not change it (again) (8.2) */

    JALWEDD_NO_BLOCK = 8,       /* jalwedd_about: there is no such block */
    JALWEDD_NO_PART = 8,        /* jalwedd_next_sender to _next_app: no further part; jalwedd_sender to _app: no such
                                   part */
    JALWEDD_NO_SOURCE = 9,      /* jalwedd_source: there is no such source */
    JALWEDD_NO_CHANGE = 9,      /* jalwedd_change: no further source changed its role */
    JALWEDD_NOT_RISING = 10,    /* jalwedd_change: the SSRCs of a listing do not rise */

    /* A configuration that is refused: the first of these that applies, except that a CNAME of more than 255 octets,
     * more than 7 items, and clocks that are too many or of no payload type come before the others, in this order.
     * BANDWIDTH, RATE and ITEM are also settings that are refused (E8), by the same rules. */
    JALWEDD_CNAME = 11,         /* C1: the CNAME has 0 octets, or more than 255 */
    JALWEDD_CAPACITY = 12,      /* C2: the capacity is out of range 1 to 1,024 */
    JALWEDD_LIMIT = 13,         /* C3: the limit is out of range 576 to 1,472, or not a multiple of 4 */
    JALWEDD_BANDWIDTH = 14,     /* C4: one of the bandwidths is out of range 16 to 2^30 */
    JALWEDD_RATE = 15,          /* C5: the rate, or that of a clock, is out of range 1 to 2^20; or there are more than
                                   16 clocks, or the payload type of one is above 255: jalwedd_clocks_text says
                                   which */
    JALWEDD_ITEM = 16,          /* C6: the type of an item is out of range 2 to 8, or there are more than 7 items */
    JALWEDD_START = 17,         /* C7: the start is 2^63 or later */
    JALWEDD_GUARD = 18,         /* C8: the guard's names or trusted_names are above 1,024 */

    JALWEDD_IS_UNGUARDED = 19,  /* jalwedd_expect, _trust, _held_back: the session has no guard */
    JALWEDD_IS_EMPTY = 20,      /* the handle holds no participant */
    JALWEDD_IS_LIVE = 21,       /* jalwedd_new: the handle holds a participant already */
    JALWEDD_NO_MEMORY = 22,     /* jalwedd_new: there is no memory */
    JALWEDD_TOO_LONG = 23,      /* jalwedd_arrive_rtp, _rtp_head, _rtp_fault: no UDP datagram has more than 65,535
                                   octets */

    /* A datagram that the guard holds back (config.guard): the participant is not told of it. */
    JALWEDD_STRANGER = 24,      /* it names a source that belongs to another origin (8.2) */
    JALWEDD_CROWD = 25          /* it names more sources than its origin, or all origins, may have, or is a BYE too many
                                   of its origin. jalwedd_expect, _trust: the origin would have too many sources, or as
                                   many are trusted as may be */
};

/* A short text for each status, and for any other number. Two statuses with the same number share a text. */
static inline const char *jalwedd_text(uint32_t status)
{
    switch (status) {
    case JALWEDD_TAKEN:       return "taken";
    case JALWEDD_LEFT:        return "the participant has left";
    case JALWEDD_BACKWARDS:   return "the moment lies before the start or the last one";
    case JALWEDD_TOO_FAR:     return "the moment lies beyond 2^50 microseconds after the start";
    case JALWEDD_TOO_MANY:    return "too many calls for one session";
    case JALWEDD_NO_COMPOUND: return "no RTCP compound";
    case JALWEDD_NO_RTP:      return "no RTP packet";
    case JALWEDD_OWN_SSRC:    return "the datagram has the own SSRC";
    case JALWEDD_NO_BLOCK:    return "there is no such part";
    case JALWEDD_NO_SOURCE:   return "there is no such source";
    case JALWEDD_NOT_RISING:  return "the SSRCs of a listing do not rise";
    case JALWEDD_CNAME:       return "the CNAME is empty or too long";
    case JALWEDD_CAPACITY:    return "the capacity is out of range";
    case JALWEDD_LIMIT:       return "the limit is out of range";
    case JALWEDD_BANDWIDTH:   return "a bandwidth is out of range";
    case JALWEDD_RATE:        return "a clock is out of range, or there are more than 16";
    case JALWEDD_ITEM:        return "an item cannot be sent, or there are too many";
    case JALWEDD_START:       return "the start is out of range";
    case JALWEDD_GUARD:       return "a limit of the guard is out of range";
    case JALWEDD_IS_UNGUARDED: return "the session has no guard";
    case JALWEDD_IS_EMPTY:    return "the handle holds no participant";
    case JALWEDD_IS_LIVE:     return "the handle holds a participant already";
    case JALWEDD_NO_MEMORY:   return "there is no memory";
    case JALWEDD_TOO_LONG:    return "the datagram is longer than UDP carries";
    case JALWEDD_STRANGER:    return "held back: it names a source of another origin";
    case JALWEDD_CROWD:       return "held back: its origin has too many sources or goodbyes";
    default:                  return "no status of this version";
    }
}

/* A text for each reason of a jalwedd_fault, and for any other number: the rule as `rtcp check` and `rtcp replay` name
 * it, and what the datagram does. */
static inline const char *jalwedd_fault_text(uint32_t reason)
{
    switch (reason) {
    case 1:  return "F1 Short: fewer than 4 octets are left for a header";
    case 2:  return "F2 Version: the version is not 2";
    case 3:  return "F3 FirstType: the first packet is not a report";
    case 4:  return "F4 FirstPadding: the first packet is padded";
    case 5:  return "F5 Length: the packet runs past the end of the datagram";
    case 6:  return "F6 Padding: the padding is 0 octets, no multiple of 4, or too large";
    case 7:  return "F7 Body: the body does not have the size of its type and count";
    case 8:  return "F8 Item: an SDES item runs past its packet";
    case 9:  return "F9 Reason: the BYE reason does not end in the packet's last word";
    case 10: return "F10 TooLong: the datagram has more than 65,535 octets";
    case 11: return "G1 Short: fewer octets than the fixed part and its CSRCs";
    case 12: return "G2 Version: the version is not 2";
    case 13: return "G3 PayloadType: the payload type is reserved, 72 to 76";
    case 14: return "G4 Extension: the header extension runs past the datagram";
    case 15: return "G5 Padding: the number of padding octets is missing, 0 or too large";
    default: return "no reason of this version";
    }
}

/* ---- Values */

/* A participant, or none: NULL at first, and again after jalwedd_free. The field is private to the library. */
typedef struct jalwedd_handle {
    void *at;
} jalwedd_handle;

#define JALWEDD_EMPTY {NULL}

/* The clock in which the RTP timestamps of a payload type count (5.1). */
typedef struct jalwedd_clock {
    uint32_t payload_type;  /* 0 to 127; up to 255 is taken, but no RTP packet has such a type */
    uint32_t rate;          /* the units a second, 1 to 2^20 */
} jalwedd_clock;

/* Which datagrams are held back from the participant, by where they come from (8.2). An origin is a peer's number
 * without its lower 16 bits: for IPv4 with the port in these, the address. A source belongs to the origin that named it
 * first, or that it is expected from (jalwedd_expect), until it was not named for `hold`, and for as long as the
 * participant keeps a silent source. */
typedef struct jalwedd_guard {
    uint32_t names;         /* how many sources an origin may have, up to 1,024, those included that left within the
                               hold, and how many BYEs it may say as long as it has these; 0 for no guard. With more
                               than two for each second of the hold, one address can keep a participant from reporting:
                               usually 8 */
    uint32_t trusted_names; /* how many a trusted origin may have (jalwedd_trust), up to 1,024, if that is more */
    uint64_t hold;          /* in microseconds: usually 60,000,000 */
} jalwedd_guard;

/* What a guard held back so far. */
typedef struct jalwedd_counts {
    uint64_t strangers;     /* datagrams that named a source of another origin */
    uint64_t crowds;        /* datagrams that named too many sources, or were a BYE too many */
    uint64_t last_stranger; /* the origin of the last stranger, or JALWEDD_NEVER */
    uint64_t last_crowd;    /* the origin of the last crowd, or JALWEDD_NEVER */
} jalwedd_counts;

/* The session and the participant, as the host configures them. */
typedef struct jalwedd_config {
    uint64_t ntp_base;      /* the NTP timestamp of the start: seconds since 1900 in the upper 32 bits, their fraction
                               in the lower */
    uint64_t start;         /* the moment of jalwedd_new by the host's clock, in microseconds, 0 to 2^63 - 1: read it
                               together with the time of day of ntp_base */
    uint32_t ssrc;          /* the SSRC, to be chosen at random (8.1) */
    uint32_t capacity;      /* how many other sources are kept track of, 1 to 1,024 */
    uint32_t limit;         /* the maximum size of a compound in octets, without UDP and IP headers: 576 to 1,472, a
                               multiple of 4 */
    uint32_t sender_bw;     /* the RTCP bandwidth for senders, in octets a second, 16 to 2^30 (RFC 3556): usually 1.25
                               per cent of the session bandwidth */
    uint32_t receiver_bw;   /* the RTCP bandwidth for the others: usually 3.75 per cent */
    uint32_t rate;          /* the units a second of the clock of RTP timestamps, 1 to 2^20: of the host's own media,
                               and of the payload types that are none of clocks */
    uint32_t clock_count;   /* how many of clocks there are, 0 to 16 */
    jalwedd_clock clocks[16]; /* the clocks of other payload types: the first counts if several are of one type */
    uint32_t reserved;      /* not read */
    jalwedd_guard guard;    /* zeros for none */
} jalwedd_config;

/* What a host may change in a running session, besides items. jalwedd_settings_of gives those of a configuration. */
typedef struct jalwedd_settings {
    uint32_t sender_bw;     /* each field as in jalwedd_config */
    uint32_t receiver_bw;
    uint32_t clock_count;
    jalwedd_clock clocks[16];
    uint32_t rate;
    uint64_t ntp_base;      /* still of the start: jalwedd_ntp_base gives it, by the time of day now */
} jalwedd_settings;

/* The settings of a configuration, to change some of them. */
static inline jalwedd_settings jalwedd_settings_of(const jalwedd_config *config)
{
    jalwedd_settings settings;
    uint32_t at;
    settings.sender_bw = config->sender_bw;
    settings.receiver_bw = config->receiver_bw;
    settings.clock_count = config->clock_count;
    for (at = 0; at < 16; at++)
        settings.clocks[at] = config->clocks[at];
    settings.rate = config->rate;
    settings.ntp_base = config->ntp_base;
    return settings;
}

/* What an SDES item is (6.5): the kinds of a jalwedd_item, from NAME on, and of a jalwedd_item_place. JALWEDD_CNAME and
 * JALWEDD_ITEM are statuses, and equal none of these. */
enum {
    JALWEDD_SDES_CNAME = 1,     /* the name that stands for a participant in all of its streams (6.5.1) */
    JALWEDD_SDES_NAME = 2,      /* the user's name */
    JALWEDD_SDES_EMAIL = 3,     /* an address for electronic mail */
    JALWEDD_SDES_PHONE = 4,     /* a phone number */
    JALWEDD_SDES_LOC = 5,       /* where the user is */
    JALWEDD_SDES_TOOL = 6,      /* the name of the application */
    JALWEDD_SDES_NOTE = 7,      /* a message about the state of the source */
    JALWEDD_SDES_PRIV = 8       /* a prefix, with its length before it, and a value (6.5.8) */
};

/* A text for why clocks or a rate were refused as JALWEDD_RATE: by the clocks of the configuration or the settings that
 * were passed. If none of them is at fault, it is the rate beside them. */
static inline const char *jalwedd_clocks_text(uint32_t clock_count, const jalwedd_clock *clocks)
{
    uint32_t at;
    if (clock_count > 16)
        return "there are more than 16 clocks";
    for (at = 0; at < clock_count; at++)
        if (clocks[at].payload_type > 255)
            return "a clock is of no payload type";
    for (at = 0; at < clock_count; at++)
        if (clocks[at].rate < 1 || clocks[at].rate > 1 << 20)
            return "the rate of a clock is out of range 1 to 2^20";
    return "the rate is out of range 1 to 2^20";
}

/* What a participant says about itself besides its CNAME, one in every third report (RFC 3550, 6.5.2 to 6.5.8). */
typedef struct jalwedd_item {
    uint8_t kind;           /* JALWEDD_SDES_NAME to JALWEDD_SDES_PRIV */
    uint8_t size;           /* the octets of the text */
    uint8_t text[255];      /* the text in UTF-8, which nothing tests, and anything after it */
} jalwedd_item;

/* The size of the buffer for a compound, in octets. */
#define JALWEDD_OCTETS 1472

/* The value of step.next if there is no moment to tick at. */
#define JALWEDD_NEVER UINT64_MAX

/* What a call hands out. */
enum { JALWEDD_NOTHING = 0, JALWEDD_REPORT = 1, JALWEDD_BYE = 2 };

/* The result of a call. For an empty handle, next is JALWEDD_NEVER and all else 0. */
typedef struct jalwedd_step {
    uint64_t next;          /* when something may be due to be sent, by the host's clock, or JALWEDD_NEVER once the
                               participant has left. Call jalwedd_tick then, and at least once a second before that. It
                               may lie before the moment of the call: then tick at once */
    uint32_t members;       /* the members of the session, the participant included (6.2.1); in the backoff after a
                               leave, it and one for each BYE packet that came since (6.3.7); 0 once it has left */
    uint32_t senders;       /* how many of the members send RTP packets: 0 from a leave on */
    uint32_t ssrc;          /* the participant's SSRC */
    uint32_t changed;       /* 1 if the call changed the SSRC (8.2): media goes on under the new one. Otherwise 0 */
    uint32_t kind;          /* what the call hands out: send it now, in one datagram, to the other participants. Look at
                               this after each call: the next one may write over step and octets, and a compound that
                               was never sent counts as sent */
    uint32_t size;          /* its size in octets. It is read as any datagram is: jalwedd_next_sender gives the own
                               packets and octets, if it is a sender report, and jalwedd_next_block loss, jitter, lsr
                               and dlsr of each of its blocks, as they go out */
    uint32_t entries;       /* as jalwedd_entries: the table is full if this is config.capacity. It falls by a tick, by
                               jalwedd_forget or by a leave alone: by one for each source that is dropped, also one
                               that is not yet valid */
    uint32_t others_changed; /* 1 if the call changed which other sources are members or which of them send, if only
                               for a moment: list them again with jalwedd_source. 0 if each has the role it had. It is
                               also 1 for a leave, if others were members: then nobody is listed any more, and nothing
                               is to be compared. Whoever was listed did not fall silent */
} jalwedd_step;

/* Why a datagram is not a compound, or has no valid RTP head. */
typedef struct jalwedd_fault {
    uint64_t offset;        /* the offset of the packet at fault, in octets: 0 for an RTP datagram */
    uint32_t reason;        /* the rule broken, which jalwedd_fault_text tells. Of a compound 1 header cut short, 2
                               version, 3 first packet not a report, 4 first packet padded, 5 length, 6 padding, 7 body,
                               8 SDES item, 9 BYE reason, 10 more than 65,535 octets; of an RTP head 11 cut short, 12
                               version, 13 payload type, 14 header extension, 15 padding */
} jalwedd_fault;

/* What a report says about one source (6.4.1). */
typedef struct jalwedd_report {
    uint32_t reporter;      /* the SSRC of the source that sent the report */
    uint32_t ssrc;          /* the SSRC of the source that the block is about */
    uint32_t fraction;      /* the fraction of its packets lost since the previous report, in 1/256 */
    int32_t lost;           /* how many were lost since the beginning: negative if packets were repeated */
    uint32_t highest;       /* the highest sequence number in the low 16 bits, and above them how often it wrapped */
    uint32_t jitter;        /* the interarrival jitter, in units of its RTP timestamps */
    uint32_t lsr;           /* the middle 32 bits of the NTP timestamp of the source's latest sender report, or 0 */
    uint32_t dlsr;          /* the time since that report, in 1/65,536 of a second, or 0 */
} jalwedd_report;

/* What a sender report says about its sender (6.4.1). */
typedef struct jalwedd_sender_info {
    uint64_t ntp;           /* when it was sent, as an NTP timestamp: seconds since 1900 in the upper 32 bits, their
                               fraction in the lower */
    uint32_t ssrc;          /* the SSRC of the source that sent it */
    uint32_t rtp;           /* the same moment in units of the sender's RTP timestamps */
    uint32_t packets;       /* how many RTP packets it had sent by then */
    uint32_t octets;        /* how many payload octets they had, without headers and padding */
} jalwedd_sender_info;

/* An SDES item (6.5), and where its text is in the datagram. */
typedef struct jalwedd_item_place {
    uint64_t offset;        /* the offset of the text, in octets */
    uint64_t size;          /* the octets of the text, 0 to 255: no zero octet follows it */
    uint32_t ssrc;          /* the SSRC of the source that it describes */
    uint32_t kind;          /* JALWEDD_SDES_CNAME to JALWEDD_SDES_PRIV, or another number */
} jalwedd_item_place;

/* A source that leaves (6.6), and where the reason is in the datagram. */
typedef struct jalwedd_goodbye_place {
    uint64_t offset;        /* the offset of the reason's text, or 0 if there is no reason */
    uint64_t size;          /* the octets of the text, 0 to 255 */
    uint32_t ssrc;          /* the SSRC of the source */
    uint32_t has_reason;    /* 1 if the BYE gives a reason, even one of 0 octets, otherwise 0 */
} jalwedd_goodbye_place;

/* A packet that an application defines (6.7), and where its data are in the datagram. */
typedef struct jalwedd_app_place {
    uint64_t offset;        /* the offset of the data, in octets */
    uint64_t size;          /* the octets of the data, a multiple of 4, without the padding after them */
    uint32_t ssrc;          /* the SSRC of the source that sent it */
    uint32_t subtype;       /* its subtype, 0 to 31 */
    uint8_t name[4];        /* its name, usually ASCII: no zero octet follows it */
} jalwedd_app_place;

/* Where a walk over the parts of one kind in a datagram stands: JALWEDD_BEGIN at first. The fields are private to the
 * library. */
typedef struct jalwedd_cursor {
    uint64_t next;
    uint64_t place;
    uint64_t end;
    uint32_t left;
    uint32_t ssrc;
} jalwedd_cursor;

#define JALWEDD_BEGIN {0, 0, 0, 0, 0}

/* The head of an RTP datagram (5.1), and where its CSRCs and its payload are in the datagram. */
typedef struct jalwedd_head_place {
    uint64_t csrcs_offset;  /* the offset of the CSRCs, in octets: 12, even if there are none */
    uint64_t payload_offset; /* the offset of the payload, after the CSRCs and the header extension */
    uint64_t payload_size;  /* the octets of the payload, without the padding after it; may be 0 */
    uint32_t ssrc;          /* the SSRC of the source that sent it */
    uint32_t timestamp;     /* its timestamp, in units of the clock of its payload type */
    uint32_t sequence;      /* its sequence number, 0 to 65,535 */
    uint32_t payload_type;  /* its payload type, 0 to 127, but none of 72 to 76 (RFC 3551, 6) */
    uint32_t marker;        /* 1 if the marker bit is set, otherwise 0 */
    uint32_t csrcs;         /* how many CSRCs it has, of four octets each, in network order: 0 to 15 */
} jalwedd_head_place;

/* What is known about a source. */
typedef struct jalwedd_source_state {
    uint64_t heard;         /* when it was last heard before it left, by the host's clock, as the next two */
    uint64_t left;          /* when it said goodbye, or JALWEDD_NEVER */
    uint64_t told;          /* when its latest sender report came, or JALWEDD_NEVER */
    uint64_t ntp;           /* the NTP timestamp of that report, or 0 */
    uint64_t received;      /* how many of its packets were counted, late and repeated ones included, since it came or
                               its sequence numbers jumped (A.1). If none was, this is 0, and so are the next four and
                               rate */
    uint64_t octets;        /* how many payload octets these packets had, without headers and padding, modulo 2^64 */
    int32_t lost;           /* how many were lost since then: negative if packets were repeated */
    uint32_t highest;       /* the highest sequence number in the low 16 bits, and above them how often it wrapped */
    uint32_t jitter;        /* the interarrival jitter, in units of its RTP timestamps */
    uint32_t rtp;           /* the RTP timestamp of its latest sender report, or 0: the same moment as ntp, in units of
                               its RTP timestamps */
    uint32_t has_block;     /* 1 if a report was handed out that has a block about it (6.4.1), otherwise 0, and so are
                               the next two */
    uint32_t fraction;      /* by the latest such block, the fraction of its packets lost since the block before it, in
                               1/256: 0 to 255 */
    uint32_t block_highest; /* by that block, the highest sequence number, as in highest */
    uint32_t ssrc;
    uint32_t member;        /* 1 if it is a member (6.2.1), otherwise 0: it left, or, if left is JALWEDD_NEVER, is not
                               yet valid. One of these that is dropped is seen by step.entries, and by comparing
                               listings: neither others_changed nor jalwedd_change tells of it */
    uint32_t sender;        /* 1 if it sends RTP packets, otherwise 0 */
    uint32_t rate;          /* the units a second of jitter: those of the clock of its newest packet that was counted,
                               or 0 */
    uint32_t reserved;      /* 0 */
} jalwedd_source_state;

/* What the participant has sent under its present SSRC, as a sender report of now would tell it (6.4.1). */
typedef struct jalwedd_own_stream {
    uint32_t packets;       /* how many RTP packets, modulo 2^32 */
    uint32_t octets;        /* their payload octets, without headers and padding, modulo 2^32 */
    uint32_t sends;         /* 1 if it counts as a sender (6.3.8), and so reports as one, otherwise 0 */
} jalwedd_own_stream;

/* The role of a source in a session: away (not present, not yet valid, or left), a member (6.2.1) that does not send
 * RTP packets, or one that does. */
enum { JALWEDD_AWAY = 0, JALWEDD_MEMBER = 1, JALWEDD_SENDER = 2 };

/* A source whose role differs from before. */
typedef struct jalwedd_role_change {
    uint32_t ssrc;
    uint32_t was;           /* its role before */
    uint32_t is;            /* its role now */
    uint32_t left;          /* 1 if it said goodbye, by the later listing. If it is 0, a source that is away now was
                               silent for too long, or the host dismissed it (jalwedd_forget): the host knows whom */
} jalwedd_role_change;

/* ---- A participant */

/* The memory, in octets, that suffices for a participant of this capacity with any library of this SONAME, even if each
 * block is rounded up to a multiple of 16, as for its alignment. The library takes less: today a block of 2,760 octets,
 * and blocks of 136 and of 8 octets for each source of the capacity; with a guard one more of 48 octets for each of
 * them, and one of 496. */
#ifdef __cplusplus
#define JALWEDD_MEMORY(capacity) (sizeof(char[4096]) + sizeof(char[192]) * (capacity)) /* no cast in C's style */
#else
#define JALWEDD_MEMORY(capacity) (4096 + 192 * (size_t)(capacity))
#endif

/* Makes the library use `allocate` and `release` in place of malloc and free. `allocate` returns a block of `size`
 * octets, aligned as by malloc, or NULL. Call this at most once, before the first jalwedd_new. */
void jalwedd_memory(void *(*allocate)(size_t size), void (*release)(void *at)) JALWEDD_NOT_NULL;

/* Makes a participant in an empty handle; its session starts at the moment config->start, which is now. `word` is for
 * the draw of the first interval. Allocates at most JALWEDD_MEMORY(config->capacity) octets, in three blocks, or in
 * five with a guard; no other call allocates. step->next is later than config->start: if it is not later than `now` of
 * the host's clock, the start was not now, and each report tells a time of day that is ahead.
 * Statuses: TAKEN; IS_LIVE, and the step is that of the participant already there; CNAME to GUARD; NO_MEMORY. */
uint32_t jalwedd_new(jalwedd_handle *handle, const jalwedd_config *config, const uint8_t *cname, size_t cname_size,
                     const jalwedd_item *items, size_t item_count, uint32_t word, jalwedd_step *step)
    JALWEDD_NOT_NULL JALWEDD_TO_BE_USED;

/* Frees the participant of a handle and leaves the handle empty. It sends nothing: for a BYE call jalwedd_leave before
 * it. It may also end a leave whose BYE is not yet due. For NULL, as for an empty handle, it does nothing.
 * Statuses: TAKEN; IS_EMPTY. */
uint32_t jalwedd_free(jalwedd_handle *handle);

/* An RTCP datagram came at the moment `now`; `datagram` is its UDP payload (RFC 3550, 6.1). `peer` is a number for
 * where it came from, distinct for each address and port: for IPv4 these themselves, for IPv6 a hash of both with a
 * random key, such as SipHash. (A list of them would grow with each address that is forged.) `word` seeds a new SSRC if
 * one is needed (8.2). On an open network, pass on no datagram of more than 1,500 octets: one can name 8,057 sources.
 * Hands out nothing, or, if it changes the SSRC, the BYE of the old one if anything was sent under it. Read its reports
 * about the host's own stream before the call (jalwedd_next_block), as they name the SSRC before a change.
 * Statuses: TAKEN; LEFT to NO_COMPOUND; OWN_SSRC; STRANGER; CROWD; IS_EMPTY. */
uint32_t jalwedd_arrive_rtcp(jalwedd_handle *handle, uint64_t now, uint64_t peer, uint32_t word,
                             const uint8_t *datagram, size_t size, jalwedd_step *step, uint8_t octets[JALWEDD_OCTETS])
    JALWEDD_NOT_NULL;

/* An RTP datagram came: as jalwedd_arrive_rtcp. If both come to one port (RFC 5761, 4), a datagram whose second octet
 * is 192 to 223 is RTCP, and any other is RTP.
 * Statuses: TAKEN; IS_EMPTY; TOO_LONG; LEFT to TOO_MANY; NO_RTP; OWN_SSRC; STRANGER; CROWD. */
uint32_t jalwedd_arrive_rtp(jalwedd_handle *handle, uint64_t now, uint64_t peer, uint32_t word,
                            const uint8_t *datagram, size_t size, jalwedd_step *step, uint8_t octets[JALWEDD_OCTETS])
    JALWEDD_NOT_NULL;

/* The host sent an RTP packet at the moment `now`, with this RTP timestamp and `payload` octets of payload, not
 * counting padding (6.3.8, 6.4.1). The timestamp is that of `now`: if the packet's own is of another moment,
 * jalwedd_rtp_at moves it. Hands out nothing, and leaves `octets` as they are; but they have to be there.
 * Statuses: TAKEN; LEFT to TOO_MANY; IS_EMPTY. */
uint32_t jalwedd_sent_rtp(jalwedd_handle *handle, uint64_t now, uint32_t timestamp, uint32_t payload,
                          jalwedd_step *step, uint8_t octets[JALWEDD_OCTETS]) JALWEDD_NOT_NULL;

/* Hands out what is due at the moment `now`, and drops sources that were silent for too long, and those that said
 * goodbye 5 seconds ago or more (6.3.5 to 6.3.7). Call it at step.next, and at least once a second: but for
 * jalwedd_forget no other call drops anyone, and the time to step.next grows with the members and with the sizes of
 * compounds that come. Then a source that said goodbye and comes back is ignored for at most 6 seconds, and one that
 * fell silent gives up its entry once it may. With ticks at step.next alone this may take minutes, or hours under
 * attack, in which a full table admits nobody. A host that sends nothing, such as a recorder, ticks too, as otherwise
 * nobody falls silent; it need not send the reports.
 * `first_word` is for the draw that decides whether a report or BYE goes out now or is put off (6.3.6, 6.3.7), and
 * `second_word` for the draw of the interval after a report.
 * Hands out nothing, a report, or, after a leave, the BYE. Before step.next it hands out nothing, and takes less than a
 * microsecond, or less than ten if it drops someone of 1,000 (as measured).
 * Statuses: TAKEN; LEFT to TOO_MANY; IS_EMPTY. */
uint32_t jalwedd_tick(jalwedd_handle *handle, uint64_t now, uint32_t first_word, uint32_t second_word,
                      jalwedd_step *step, uint8_t octets[JALWEDD_OCTETS]) JALWEDD_NOT_NULL;

/* Changes the settings of a running session at the moment `now`, to these and these items: all of them, as if the
 * configuration had had them. A host calls it when the bandwidth of the session changes, since each participant
 * computes its intervals from that (6.2), when payload types get other clocks, when its own media does or its clock is
 * set, and to say something else about itself (6.5). Members, step.next and what was counted stay as they are. The tick
 * at step.next is the first to compute an interval by the new bandwidths; the next RTP packet that comes is the first
 * that counts by the new clocks; and the next item that is due is one of the new ones. The next sender report tells its
 * moment by the new rate and ntp_base alone: in RTP time from the newest packet on, as jalwedd_sent_rtp told it.
 * Another codec is announced so before its first packet. Round trips by sender reports from before the clock was set
 * are off by as much. Until five of the former intervals have passed, a source counts as
 * silent for too long by the lesser of the former and the new bandwidths, as others may not know of the change yet.
 * Hands out nothing, and leaves `octets` as they are; but they have to be there.
 * Statuses: TAKEN; IS_EMPTY; ITEM for more than 7 items; RATE for clocks that are too many or of no payload type; LEFT
 * to TOO_MANY; BANDWIDTH to ITEM. Of a RATE jalwedd_clocks_text says more. */
uint32_t jalwedd_configure(jalwedd_handle *handle, uint64_t now, const jalwedd_settings *settings,
                           const jalwedd_item *items, size_t item_count, jalwedd_step *step,
                           uint8_t octets[JALWEDD_OCTETS]) JALWEDD_NOT_NULL;

/* At the moment `now` another source is gone, as the host knows by other means, such as signalling, or so decides. Its
 * entry goes as if it had been silent for too long (6.3.5): it is no member any more, what was counted of it is
 * dropped, and there is room for another source. Named again, it comes as a new one. Nothing changes if the source has
 * no entry or said goodbye, nor for the participant's own SSRC, nor in the backoff after a leave. Listings do not tell
 * it from a source that fell silent: a host that tells them apart keeps whom it dismissed.
 * Hands out nothing, and leaves `octets` as they are; but they have to be there.
 * Statuses: TAKEN; LEFT to TOO_MANY; IS_EMPTY. */
uint32_t jalwedd_forget(jalwedd_handle *handle, uint64_t now, uint32_t ssrc, jalwedd_step *step,
                        uint8_t octets[JALWEDD_OCTETS]) JALWEDD_NOT_NULL;

/* Says to the guard at the moment `now` that a source is expected from a peer, as the host knows by signalling: it
 * belongs to the peer's origin, as if that had named it now, whoever named it before. Without this, whoever names an
 * SSRC first keeps its owner out. The participant is not told.
 * Statuses: TAKEN; BACKWARDS before the start; IS_UNGUARDED; IS_EMPTY; CROWD, and nothing changes. */
uint32_t jalwedd_expect(jalwedd_handle *handle, uint64_t now, uint32_t ssrc, uint64_t peer) JALWEDD_NOT_NULL;

/* Lets a peer's origin have config.guard.trusted_names sources: a relay, a mixer, or a network address translator. At
 * most 16 origins are trusted.
 * Statuses: TAKEN; IS_UNGUARDED; IS_EMPTY; CROWD if 16 others are trusted. */
uint32_t jalwedd_trust(jalwedd_handle *handle, uint64_t peer) JALWEDD_NOT_NULL;

/* What the guard held back so far.
 * Statuses: TAKEN; IS_UNGUARDED and IS_EMPTY, and nothing is written. */
uint32_t jalwedd_held_back(jalwedd_handle *handle, jalwedd_counts *counts) JALWEDD_NOT_NULL;

/* Leaves the session at the moment `now` (6.3.7). The BYE is handed out at once, or, in a session of more than 50
 * members, by a later tick. Go on until step.next is JALWEDD_NEVER, but for some seconds at most, and then call
 * jalwedd_free. A participant that sent nothing under its present SSRC leaves silently. `word` is for the draw of when
 * that tick is due.
 * If nobody else leaves, that tick comes within 3.1 seconds at usual bandwidths. But each BYE packet that comes counts
 * as one more who is leaving, even if it names nobody, and the formula spaces the BYEs of so many. One datagram of such
 * packets can hold this BYE back for days. A host need not wait: 6.3.7 lets a participant leave without a BYE, and the
 * others drop it once it was silent for too long.
 * From this call on nobody is listed. step->others_changed is 1 if others were members, but nobody fell silent or left:
 * do not compare listings from here on (jalwedd_change), which would give all of them as away.
 * Hands out nothing, or the BYE.
 * Statuses: TAKEN; LEFT to TOO_MANY; IS_EMPTY. */
uint32_t jalwedd_leave(jalwedd_handle *handle, uint64_t now, uint32_t word, jalwedd_step *step,
                       uint8_t octets[JALWEDD_OCTETS]) JALWEDD_NOT_NULL;

/* What step.members, .senders, .next and .ssrc would be. Of an empty handle: 0, and JALWEDD_NEVER. */
uint32_t jalwedd_members(jalwedd_handle *handle) JALWEDD_NOT_NULL;
uint32_t jalwedd_senders(jalwedd_handle *handle) JALWEDD_NOT_NULL;
uint64_t jalwedd_next(jalwedd_handle *handle) JALWEDD_NOT_NULL;
uint32_t jalwedd_ssrc(jalwedd_handle *handle) JALWEDD_NOT_NULL;

/* How many entries the participant's table holds: members, sources that are not yet valid, and those that left and are
 * held for a while. If this equals config.capacity the table is full, as under a flood of invented SSRCs, and admits no
 * other source until a tick drops one, or jalwedd_forget. 0 once the participant leaves, and for an empty handle. */
uint32_t jalwedd_entries(jalwedd_handle *handle) JALWEDD_NOT_NULL;

/* Gives what is known about the source with the lowest SSRC >= `from`: among members, sources that are not yet valid,
 * and those that left and are held for a while, but not the participant itself. It changes nothing. To list all, begin
 * with 0 and go on with (uint64_t)ssrc + 1 until the status is not TAKEN: then each source was given once. To look up
 * one source, pass its SSRC as `from` and compare source->ssrc with it. `source` is left as it is if there is no such
 * source, once the participant leaves, and for an empty handle.
 * Statuses: TAKEN; NO_SOURCE. */
uint32_t jalwedd_source(jalwedd_handle *handle, uint64_t from, jalwedd_source_state *source) JALWEDD_NOT_NULL;

/* Gives what the participant has sent under its present SSRC. `own` is left as it is if the status is not TAKEN.
 * Statuses: TAKEN; LEFT once the participant leaves; IS_EMPTY. */
uint32_t jalwedd_own(jalwedd_handle *handle, jalwedd_own_stream *own) JALWEDD_NOT_NULL;

/* Whether an RTP packet was counted (A.1): by what jalwedd_source gave about its source just before it came, and just
 * after. 0 for a packet of probation, or one whose number jumps. Before its first packet a source is all zeros. */
static inline uint32_t jalwedd_was_counted(const jalwedd_source_state *before, const jalwedd_source_state *after)
{
    return before->received != after->received || before->highest != after->highest;
}

/* ---- Listings */

/* Gives, of the sources whose roles differ between two listings, the one with the lowest SSRC >= `from`. A listing is
 * what jalwedd_source gave for each source, one after the other. Begin with 0 and go on with (uint64_t)ssrc + 1 until
 * the status is not TAKEN: then each such source was given once. `change` is left as it is then.
 *
 *     for (from = 0; jalwedd_change(before, before_count, after, after_count, from, &change) == JALWEDD_TAKEN;
 *          from = (uint64_t)change.ssrc + 1)
 *         if (change.was == JALWEDD_AWAY)      joined(change.ssrc);
 *         else if (change.is == JALWEDD_AWAY)  gone(change.ssrc, change.left ? "by a BYE" : "silent, or dismissed");
 *
 * A source that said goodbye is listed until a tick 5 seconds or more after that, or until an earlier tick finds it
 * silent for too long: so a host that lists after each call whose step.others_changed is 1 sees that it left by a BYE,
 * and one that lists less often may take it for silent. One that the host dismissed (jalwedd_forget) is given as if it
 * had been silent. A source that came and went between two listings is not given.
 * From jalwedd_leave on the participant's listing is empty, and says nothing about the others: compare none of then
 * with one before, as it gives all who were listed as away, and nobody of them fell silent.
 * Each call reads both listings, which takes 7 microseconds if they have 1,024 sources (as measured): so 7 milliseconds
 * if each of these changed.
 * Statuses: TAKEN; NO_CHANGE; NOT_RISING. */
uint32_t jalwedd_change(const jalwedd_source_state *before, size_t before_count, const jalwedd_source_state *after,
                        size_t after_count, uint64_t from, jalwedd_role_change *change) JALWEDD_NOT_NULL;

/* ---- Datagrams */

/* Accepts a datagram that is a compound (6.1), leaving `fault` as it is, or gives its first fault.
 * Statuses: TAKEN; NO_COMPOUND. */
uint32_t jalwedd_check(const uint8_t *datagram, size_t size, jalwedd_fault *fault) JALWEDD_NOT_NULL;

/* Writes a datagram as a line of text, as `rtcp check` shows it: its packets, or the first rule that it breaks.
 *
 *     ok RR(00000007,[],0) SDES([00000007{1=61}])
 *     F3 FirstType at 0
 *
 * A zero octet ends the text, and no line feed. All octets before it are printable ASCII, whatever the datagram holds.
 * At most `room` octets are written: what does not fit is cut, and nothing is written if `room` is 0. Returns the
 * octets of the whole text, without the zero octet: if that is `room` or more, the text was cut. */
size_t jalwedd_print(const uint8_t *datagram, size_t size, char *text, size_t room) JALWEDD_NOT_NULL;

/* The same in plain words, as `rtcp check --plain`. `rate` is how many units a second the jitter of its blocks has, if
 * all are about streams of one clock: jitter is then in milliseconds. With a rate of 0 it is in units.
 *
 *     ok RR ssrc=00000007 SDES ssrc=00000007 cname="a" */
size_t jalwedd_print_plain(const uint8_t *datagram, size_t size, uint32_t rate, char *text, size_t room)
    JALWEDD_NOT_NULL;

/* A walk over the parts of one kind in a datagram, of which each call gives the next, in the order of the datagram.
 * These are its sender reports, the blocks of all its reports, the items of all its source descriptions, the sources
 * that its BYEs name, or its APP packets. Each call takes the cursor past what it gives. So from JALWEDD_BEGIN on,
 * until the status is not TAKEN, each part is given once:
 *
 *     jalwedd_cursor cursor = JALWEDD_BEGIN;
 *     while (jalwedd_next_sdes_item(datagram, size, &cursor, &item) == JALWEDD_TAKEN)
 *         if (item.kind == JALWEDD_SDES_CNAME)
 *             name(item.ssrc, datagram + item.offset, item.size);
 *
 * For the blocks about one source, walk over all blocks and compare report.ssrc with it. The first call of a walk
 * checks the datagram, as jalwedd_check does, and no other checks it again. So a walk takes a time that grows with the
 * size of the datagram alone.
 * After the last part the status is NO_PART, also when asked again. Whenever it is not TAKEN the output is left as it
 * is; with NO_COMPOUND, which only the first call of a walk returns, the cursor too. A cursor may be copied, and the
 * copy goes on from there. It belongs to one datagram, with its size, and to one kind. With other octets, with another
 * kind, or changed by the host, it is safe all the same. Each call then reads and gives only what lies in the datagram,
 * each part takes the cursor on, and each walk ends; but which parts are given is not specified.
 * Statuses: TAKEN; NO_COMPOUND; NO_PART. */
uint32_t jalwedd_next_sender(const uint8_t *datagram, size_t size, jalwedd_cursor *cursor, jalwedd_sender_info *sender)
    JALWEDD_NOT_NULL;
uint32_t jalwedd_next_block(const uint8_t *datagram, size_t size, jalwedd_cursor *cursor, jalwedd_report *report)
    JALWEDD_NOT_NULL;
uint32_t jalwedd_next_sdes_item(const uint8_t *datagram, size_t size, jalwedd_cursor *cursor,
                                jalwedd_item_place *item) JALWEDD_NOT_NULL;
uint32_t jalwedd_next_goodbye(const uint8_t *datagram, size_t size, jalwedd_cursor *cursor,
                              jalwedd_goodbye_place *goodbye) JALWEDD_NOT_NULL;
uint32_t jalwedd_next_app(const uint8_t *datagram, size_t size, jalwedd_cursor *cursor, jalwedd_app_place *app)
    JALWEDD_NOT_NULL;

/* Gives who sent the next report of a datagram, sender reports and receiver reports alike, also one without a block. A
 * walk begins with a `place` of 0, and each call takes that past the report, until the status is not TAKEN; then `ssrc`
 * is left as it is. Only the first call checks the datagram. With another place it is safe, as a cursor is.
 * Statuses: TAKEN; NO_COMPOUND; NO_PART. */
static inline uint32_t jalwedd_next_reporter(const uint8_t *datagram, size_t size, size_t *place, uint32_t *ssrc)
{
    jalwedd_fault fault;
    if (*place == 0 && jalwedd_check(datagram, size, &fault) != JALWEDD_TAKEN)
        return JALWEDD_NO_COMPOUND;
    while (*place < size && size - *place >= 8) {
        const uint8_t *const packet = datagram + *place;
        const size_t words = packet[2] * 256u + packet[3];
        *place += 4 * words + 4;
        if (packet[1] == 200 || packet[1] == 201) {
            *ssrc = packet[4] * 16777216u + packet[5] * 65536u + packet[6] * 256u + packet[7];
            return JALWEDD_TAKEN;
        }
    }
    return JALWEDD_NO_PART;
}

/* Gives what the reports of a datagram say about the source `ssrc`: of the blocks about it, in their order, the one at
 * `index`, from 0 on. Go on until the status is not TAKEN; then `report` is left as it is. Each call reads the datagram
 * from its start: to read all blocks, walk with jalwedd_next_block.
 * Statuses: TAKEN; NO_COMPOUND; NO_BLOCK. */
uint32_t jalwedd_about(const uint8_t *datagram, size_t size, uint32_t ssrc, uint32_t index, jalwedd_report *report)
    JALWEDD_NOT_NULL;

/* Each gives the part of one kind at `index`, from 0 on, in the order of the datagram, or leaves the output as it is:
 * of 0, 1, .. each gives what a walk with a cursor gives. Each call reads the datagram from its start. So to read all
 * parts takes a time that grows with the square of the size: up to 2 milliseconds for 1,472 octets, and 4 seconds for
 * 65,504 (as measured). Walk with a cursor instead, and ask by index only for the first part or two.
 * Statuses: TAKEN; NO_COMPOUND; NO_PART. */
uint32_t jalwedd_sender(const uint8_t *datagram, size_t size, uint32_t index, jalwedd_sender_info *sender)
    JALWEDD_NOT_NULL;
uint32_t jalwedd_block(const uint8_t *datagram, size_t size, uint32_t index, jalwedd_report *report) JALWEDD_NOT_NULL;
uint32_t jalwedd_sdes_item(const uint8_t *datagram, size_t size, uint32_t index, jalwedd_item_place *item)
    JALWEDD_NOT_NULL;
uint32_t jalwedd_goodbye(const uint8_t *datagram, size_t size, uint32_t index, jalwedd_goodbye_place *goodbye)
    JALWEDD_NOT_NULL;
uint32_t jalwedd_app(const uint8_t *datagram, size_t size, uint32_t index, jalwedd_app_place *app) JALWEDD_NOT_NULL;

/* Accepts a datagram with a valid RTP head (5.1), leaving `fault` as it is, or gives the first rule that it breaks: why
 * jalwedd_arrive_rtp and jalwedd_rtp_head refuse it as JALWEDD_NO_RTP. Of a datagram of more than 65,535 octets nothing
 * is read.
 * Statuses: TAKEN; TOO_LONG; NO_RTP. */
uint32_t jalwedd_rtp_fault(const uint8_t *datagram, size_t size, jalwedd_fault *fault) JALWEDD_NOT_NULL;

/* Gives what the head of an RTP datagram says, and where its CSRCs and its payload are (5.1, 5.3.1): what
 * jalwedd_arrive_rtp reads, which need not be called for it. `head` is left as it is if the status is not TAKEN. Of a
 * datagram of more than 65,535 octets nothing is read.
 * Statuses: TAKEN; TOO_LONG; NO_RTP. */
uint32_t jalwedd_rtp_head(const uint8_t *datagram, size_t size, jalwedd_head_place *head) JALWEDD_NOT_NULL;

/* The round-trip time by a report, in 1/65,536 of a second and modulo 2^32: `arrival` is the middle 32 bits of the NTP
 * timestamp of the moment at which it came, (uint32_t)(jalwedd_ntp_of(ntp_base, now - start) >> 16). A report whose lsr
 * is 0 gives none; with a coarse remote clock the result may be negative: cast it to int32_t. */
uint32_t jalwedd_round_trip(uint32_t arrival, uint32_t lsr, uint32_t dlsr);

/* The NTP timestamp of the moment `now` (section 4), counted in microseconds from the one that has the timestamp
 * `ntp_base`. That is the start: at a moment `now` of the host's clock pass config.ntp_base and now - config.start. */
uint64_t jalwedd_ntp_of(uint64_t ntp_base, uint64_t now);

/* The other way round: the NTP timestamp of the start, where that of `elapsed` microseconds after it is `ntp`. For
 * settings.ntp_base once the clock of the day was set: pass the time of day now, and now - config.start. */
static inline uint64_t jalwedd_ntp_base(uint64_t ntp, uint64_t elapsed)
{
    return ntp - jalwedd_ntp_of(0, elapsed);
}

/* The RTP timestamp of the moment `now`, where that of the moment `sampled` is `timestamp` and the clock counts `rate`
 * units a second: modulo 2^32, and rounded to the nearest. `now` may be the earlier one. For jalwedd_sent_rtp, where a
 * packet does not go out at the moment of its timestamp: reports would tell a wrong one by all that it is early or
 * late, as by the length of a frame that was sampled before it was sent. */
static inline uint32_t jalwedd_rtp_at(uint32_t timestamp, uint64_t sampled, uint64_t now, uint32_t rate)
{
    const uint64_t apart = now >= sampled ? now - sampled : sampled - now;
    const uint64_t units = apart / 1000000 * rate + (apart % 1000000 * rate + 500000) / 1000000;
    return (now >= sampled ? timestamp + units : timestamp - units) & UINT32_MAX;
}

#ifdef __cplusplus
}
#endif

#endif
