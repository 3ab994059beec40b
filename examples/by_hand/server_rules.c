#include "server_rules.h"

#include <string.h>

/* Td is its minimum here: 33 members, each with a compound of 1,500 octets, take half a second of the least bandwidth,
 * which is 100,000 octets a second. Before the first report Td is half of this; but that report goes out within four
 * seconds, and until then all horizons are 0 with either. */
enum { TD = 5 * SECOND, HOLD = 5 * SECOND, MAX_DROPOUT = 3000, MAX_MISORDER = 100, NUMBERS = 65536 };

/* Valid are those who gave their CNAME, and those of whom a packet was counted. */
static uint32_t role_of(const struct known_source *source)
{
    if (source->left != NEVER || (!source->is_named && source->received == 0))
        return JALWEDD_AWAY;
    return source->sends ? JALWEDD_SENDER : JALWEDD_MEMBER;
}

/* ---- The packets of one source (A.1, A.3, A.8) */

/* Whether a number stands for an integer near the run's greatest one, and for which. */
static bool is_near(const struct known_source *source, uint16_t sequence, int64_t *integer)
{
    const int64_t ahead = (uint16_t)(sequence - source->greatest);
    *integer = source->greatest + ahead - (ahead < MAX_DROPOUT ? 0 : NUMBERS);
    return source->received != 0 && (ahead < MAX_DROPOUT || ahead > NUMBERS - MAX_MISORDER);
}

/* Whether the number follows that of the last stray, so that a run begins with it. */
static bool begins_run(struct known_source *source, uint16_t sequence)
{
    const bool follows = source->has_stray && sequence == (uint16_t)(source->stray + 1);
    source->stray = sequence;
    source->has_stray = !follows;
    if (!follows)
        return false;
    source->first = source->greatest = sequence;
    source->received = source->jitter = source->octets = source->received_before = 0;
    source->expected_before = 0;
    return true;
}

static void take_packet(struct known_source *source, uint64_t now, const struct datagram *datagram)
{
    int64_t integer;
    if (!is_near(source, datagram->sequence, &integer)) {
        if (!begins_run(source, datagram->sequence))
            return;
        integer = source->greatest;
    }
    const uint32_t transit = (uint32_t)(now * RATE / SECOND) - datagram->timestamp;
    const uint32_t ahead = transit - source->transit, distance = ahead < -ahead ? ahead : -ahead;
    if (source->received != 0)
        source->jitter = source->jitter + distance - (source->jitter + 8) / 16;
    if (integer > source->greatest)
        source->greatest = integer;
    source->transit = transit;
    source->counted = now;
    source->received++;
    source->octets += datagram->payload;
    source->sends = source->has_news = true;
}

/* ---- The table */

/* Where the source stands, or would. */
static uint32_t place_of(const struct known *known, uint32_t ssrc)
{
    uint32_t at = 0;
    while (at < known->count && known->sources[at].ssrc < ssrc)
        at++;
    return at;
}

static struct known_source *found(struct known *known, uint32_t ssrc)
{
    struct known_source *source = &known->sources[place_of(known, ssrc)];
    return source < known->sources + known->count && source->ssrc == ssrc ? source : NULL;
}

/* A full table admits nobody. */
static struct known_source *admitted(struct known *known, uint32_t ssrc)
{
    const uint32_t at = place_of(known, ssrc);
    struct known_source *source = &known->sources[at];
    if (known->count == ROOM)
        return NULL;
    memmove(source + 1, source, (known->count - at) * sizeof *source);
    *source = (struct known_source){.ssrc = ssrc, .left = NEVER, .told = NEVER};
    known->tally[FULL] += ++known->count == ROOM;
    return source;
}

/* What the datagram says of a source that is present and not marked, but for its goodbye. */
static void take_facts(struct known_source *source, uint64_t now, const struct datagram *datagram)
{
    source->sighted = now;
    if (datagram->is_rtp)
        take_packet(source, now, datagram);
    if (datagram->is_told) {
        source->told = now;
        source->ntp = datagram->ntp;
        source->rtp = datagram->timestamp;
    }
    source->is_named |= datagram->is_named;
}

/* Whether the datagram changes the participant's SSRC. */
static bool gives_way(struct known *known, uint64_t peer, uint32_t word)
{
    bool is_listed = false;
    for (uint32_t at = 0; at < known->changes; at++)
        is_listed |= known->peers[at] == peer;
    if (is_listed || known->changes == MOST_CHANGES)
        return false;
    known->peers[known->changes++] = peer;
    known->ssrc = word;
    return true;
}

uint32_t know_datagram(struct known *known, uint64_t now, const struct datagram *datagram, uint32_t word)
{
    known->others_changed = false;
    if (datagram->is_damaged)
        return datagram->is_rtp ? JALWEDD_NO_RTP : JALWEDD_NO_COMPOUND;
    if (datagram->ssrc == known->ssrc && !gives_way(known, datagram->peer, word))
        return JALWEDD_OWN_SSRC;
    struct known_source *source = found(known, datagram->ssrc);
    if (source == NULL)
        source = admitted(known, datagram->ssrc);
    if (source == NULL || source->left != NEVER)
        return JALWEDD_TAKEN;
    const uint32_t was = role_of(source);
    take_facts(source, now, datagram);
    const uint32_t before_bye = role_of(source);
    if (datagram->is_bye)
        source->left = now;
    const uint32_t is = role_of(source);
    known->others_changed = before_bye != was || is != before_bye;
    known->tally[JOINED] += was == JALWEDD_AWAY && is != JALWEDD_AWAY;
    known->tally[LEFT] += was != JALWEDD_AWAY && is == JALWEDD_AWAY;
    known->tally[BEGAN] += was == JALWEDD_MEMBER && is == JALWEDD_SENDER;
    return JALWEDD_TAKEN;
}

void know_sent(struct known *known, uint64_t now)
{
    known->sent = now;
    known->sends = true;
    known->others_changed = false;
}

/* ---- Checks (6.3.5, 6.3.7) */

static uint64_t before(uint64_t now, uint64_t time)
{
    return now < time ? 0 : now - time;
}

void know_tick(struct known *known, uint64_t now)
{
    const uint64_t silent = before(now, 5 * TD), idle = before(now, 2 * TD), gone = before(now + 1, HOLD);
    uint32_t kept = 0;
    known->others_changed = false;
    for (uint32_t at = 0; at < known->count; at++) {
        struct known_source source = known->sources[at];
        const uint32_t was = role_of(&source);
        const bool is_dropped = source.sighted < silent || source.left < gone;
        source.sends &= source.counted >= idle;
        known->tally[TIMED_OUT] += is_dropped && was != JALWEDD_AWAY;
        known->tally[STOPPED] += !is_dropped && was != role_of(&source);
        known->others_changed |= was != (is_dropped ? JALWEDD_AWAY : role_of(&source));
        known->sources[kept] = source;
        kept += !is_dropped;
    }
    known->count = kept;
    known->sends &= known->sent >= idle;
}

/* ---- Reports (6.4.1, A.3) */

static void make_block(struct known_source *source)
{
    const int64_t expected = source->greatest - source->first + 1, since = expected - source->expected_before;
    const int64_t lost = since - (int64_t)(source->received - source->received_before);
    source->fraction = lost <= 0 ? 0 : (uint32_t)(256 * lost / since);
    source->block_highest = (uint32_t)source->greatest;
    source->expected_before = expected;
    source->received_before = source->received;
    source->has_news = false;
    source->has_block = true;
}

uint32_t know_report(struct known *known)
{
    uint32_t blocks = 0;
    for (uint32_t at = 0; at < known->count; at++)
        if (known->sources[at].has_news && known->sources[at].left == NEVER) {
            make_block(&known->sources[at]);
            blocks++;
        }
    return blocks;
}

/* ---- What there is to know */

static int32_t lost_of(const struct known_source *source)
{
    return source->received == 0 ? 0 : (int32_t)(source->greatest - source->first + 1 - (int64_t)source->received);
}

jalwedd_source_state known_state(const struct known *known, uint32_t at)
{
    const struct known_source *source = &known->sources[at];
    const uint32_t role = role_of(source);
    return (jalwedd_source_state){
        .heard = source->sighted, .left = source->left, .told = source->told, .ntp = source->ntp,
        .received = source->received, .octets = source->octets, .lost = lost_of(source),
        .highest = (uint32_t)source->greatest, .jitter = (uint32_t)(source->jitter / 16), .rtp = source->rtp,
        .has_block = source->has_block, .fraction = source->fraction, .block_highest = source->block_highest,
        .ssrc = source->ssrc, .member = role != JALWEDD_AWAY, .sender = role == JALWEDD_SENDER};
}

static uint32_t at_least(const struct known *known, uint32_t role)
{
    uint32_t count = 0;
    for (uint32_t at = 0; at < known->count; at++)
        count += role_of(&known->sources[at]) >= role;
    return count;
}

uint32_t known_members(const struct known *known)
{
    return 1 + at_least(known, JALWEDD_MEMBER);
}

uint32_t known_senders(const struct known *known)
{
    return known->sends + at_least(known, JALWEDD_SENDER);
}
