#include "server_members.h"

#include <string.h>

/* Members act at whole hundredths of a second, so sometimes a datagram comes exactly at a horizon of a check. */
enum { HUNDREDTH = SECOND / 100, UNITS = RATE / 25, FLOOD_PEER = 0, HEAD = 12 };

uint32_t random_word(uint64_t *state)
{
    uint64_t word = *state += 0x9e3779b97f4a7c15u;
    word = (word ^ word >> 30) * 0xbf58476d1ce4e5b9u;
    word = (word ^ word >> 27) * 0x94d049bb133111ebu;
    return (uint32_t)((word ^ word >> 31) >> 32);
}

static bool happens(struct members *members, uint32_t of_a_thousand)
{
    return random_word(&members->random) % 1000 < of_a_thousand;
}

/* A moment from `least` to `most` hundredths of a second after the act that is due. */
static uint64_t later(struct members *members, uint32_t least, uint32_t most)
{
    return members->due + HUNDREDTH * (uint64_t)(least + random_word(&members->random) % (most - least + 1));
}

/* ---- Datagrams */

static void put(struct datagram *datagram, uint32_t word)
{
    const uint8_t octets[4] = {(uint8_t)(word >> 24), (uint8_t)(word >> 16), (uint8_t)(word >> 8), (uint8_t)word};
    memcpy(datagram->octets + datagram->size, octets, 4);
    datagram->size += 4;
}

/* Whether there are a header extension and padding, and how long payload and padding are, follows from the sequence
 * number. */
static void write_packet(struct datagram *datagram)
{
    const uint32_t sequence = datagram->sequence, padding = sequence % 5 == 0 ? 1 + sequence % 3 : 0;
    const bool is_extended = sequence % 7 == 0;
    put(datagram, 0x80000000u | (uint32_t)(padding != 0) << 29 | (uint32_t)is_extended << 28 | sequence);
    put(datagram, datagram->timestamp);
    put(datagram, datagram->ssrc);
    if (is_extended) {
        put(datagram, 0xbede0001);      /* one word */
        put(datagram, 0x10aa0000);
    }
    datagram->payload = (uint16_t)(sequence % 8);
    datagram->size += datagram->payload + padding;
    if (padding != 0)
        datagram->octets[datagram->size - 1] = (uint8_t)padding;
}

/* A report without blocks, and what else it is to say. */
static void write_compound(struct datagram *datagram, uint8_t letter)
{
    const uint32_t sender[5] = {(uint32_t)(datagram->ntp >> 32), (uint32_t)datagram->ntp, datagram->timestamp};
    put(datagram, datagram->is_told ? 0x80c80006 : 0x80c90001);
    put(datagram, datagram->ssrc);
    for (int at = 0; datagram->is_told && at < 5; at++)
        put(datagram, sender[at]);
    if (datagram->is_named) {
        put(datagram, 0x81ca0002);
        put(datagram, datagram->ssrc);
        put(datagram, 0x01010000u | (uint32_t)letter << 8);     /* a CNAME of one octet, and the zero octet */
    }
    if (datagram->is_bye) {
        put(datagram, 0x81cb0001);
        put(datagram, datagram->ssrc);
    }
}

/* ---- What one member does */

/* The SSRC that the member had before, or the server's, or any; or one of the least and the greatest, which follow one
 * another, and which another may have too. */
static uint32_t chosen_ssrc(struct members *members, const struct member *member, uint32_t server)
{
    if (member->peer != 0 && happens(members, 300))
        return member->ssrc;
    if (happens(members, 10 * members->colliding))
        return server;
    const uint32_t word = random_word(&members->random);
    return happens(members, 10 * members->close) ? word % 16 - 8 : word;
}

static void join(struct members *members, struct member *member, uint32_t server)
{
    const bool is_silent = happens(members, 200), is_mute = !is_silent && happens(members, 250);
    member->ssrc = chosen_ssrc(members, member, server);
    member->peer = ++members->peers;
    member->is_loop = is_mute && happens(members, 50);
    member->is_gone = false;
    member->loss = happens(members, 500) ? 0 : random_word(&members->random) % 20;
    member->sequence = (uint16_t)(happens(members, 250) ? 65000 + random_word(&members->random) % 536
                                                        : random_word(&members->random));
    member->timestamp = random_word(&members->random);
    member->due[JOIN] = NEVER;
    member->due[REPORT] = is_silent ? NEVER : later(members, 0, 200);
    member->due[TURN] = is_mute ? NEVER : later(members, 0, 300);
    member->due[END] = later(members, 500, 6000);
}

/* The report of a source that sends is a sender report. Some give no CNAME. */
static void write_report(struct members *members, struct member *member, uint32_t server, struct datagram *datagram)
{
    if (member->is_loop)
        member->ssrc = server;
    datagram->ssrc = member->ssrc;
    datagram->timestamp = member->timestamp;
    datagram->is_told = member->due[PACKET] != NEVER;
    datagram->ntp = datagram->is_told ? (uint64_t)random_word(&members->random) << 20 : 0;
    datagram->is_named = happens(members, 900);
    write_compound(datagram, (uint8_t)('a' + (member - members->all)));
}

static bool report(struct members *members, struct member *member, uint32_t server, struct datagram *datagram)
{
    write_report(members, member, server, datagram);
    member->due[REPORT] = member->is_gone ? NEVER : later(members, 100, 600);
    return true;
}

/* Each packet has the next number. It comes, or is lost, or instead of it an earlier one comes, late or again; now and
 * then the numbers jump. Both go as far as a run allows, and further. */
static bool packet(struct members *members, struct member *member, struct datagram *datagram)
{
    const uint32_t word = random_word(&members->random);
    const uint32_t back = happens(members, 25) ? 1 + word % 120 : 0;
    member->sequence += happens(members, 2) ? 2950 + word % 100 : 1;
    member->timestamp += UNITS;
    member->due[PACKET] = later(members, 3, 5);
    datagram->is_rtp = true;
    datagram->ssrc = member->ssrc;
    datagram->sequence = (uint16_t)(member->sequence - back);
    datagram->timestamp = member->timestamp - back * UNITS;
    write_packet(datagram);
    return !happens(members, 10 * member->loss);
}

/* Begins or ceases to send media. */
static void turn(struct members *members, struct member *member)
{
    const bool begins = member->due[PACKET] == NEVER;
    member->due[PACKET] = begins ? later(members, 1, 4) : NEVER;
    member->due[TURN] = later(members, 200, 2500);
}

/* Leaves with a BYE, after which a report may come late; or falls silent. */
static bool end(struct members *members, struct member *member, uint32_t server, struct datagram *datagram)
{
    datagram->is_bye = happens(members, 650);
    if (datagram->is_bye)
        write_report(members, member, server, datagram);
    const bool is_late = datagram->is_bye && happens(members, 400);
    for (int at = 0; at < ACTS; at++)
        member->due[at] = NEVER;
    member->is_gone = true;
    member->due[REPORT] = is_late ? later(members, 10, 800) : NEVER;
    member->due[JOIN] = later(members, 50, 4000);
    return datagram->is_bye;
}

/* ---- All of them */

static bool act_of(struct members *members, uint32_t server, enum act what, struct datagram *datagram)
{
    struct member *member = &members->all[members->next];
    datagram->peer = member->peer;
    switch (what) {
    case JOIN: return join(members, member, server), false;
    case REPORT: return report(members, member, server, datagram);
    case PACKET: return packet(members, member, datagram);
    case TURN: return turn(members, member), false;
    default: return end(members, member, server, datagram);
    }
}

/* An SSRC that nobody has: one packet, or a report with or without a CNAME. */
static bool invent(struct members *members, struct datagram *datagram)
{
    const uint64_t next = later(members, 1, 4);
    members->flood = next < members->flood_end ? next : NEVER;
    datagram->peer = FLOOD_PEER;
    datagram->ssrc = random_word(&members->random);
    datagram->is_rtp = happens(members, 400);
    datagram->is_named = !datagram->is_rtp && happens(members, 500);
    if (datagram->is_rtp)
        write_packet(datagram);
    else
        write_compound(datagram, 'z');
    return true;
}

static enum act next_of(const struct member *member)
{
    enum act first = JOIN;
    for (int at = JOIN; at < ACTS; at++)
        if (member->due[at] < member->due[first])
            first = (enum act)at;
    return first;
}

static void find_next(struct members *members)
{
    members->due = members->flood;
    members->next = members->count;
    for (uint32_t at = 0; at < members->count; at++) {
        const struct member *member = &members->all[at];
        const uint64_t due = member->due[next_of(member)];
        if (due < members->due) {
            members->due = due;
            members->next = at;
        }
    }
}

bool next_datagram(struct members *members, uint32_t server, struct datagram *datagram)
{
    *datagram = (struct datagram){0};
    const bool is_flood = members->next == members->count;
    const bool comes = is_flood ? invent(members, datagram)
        : act_of(members, server, next_of(&members->all[members->next]), datagram);
    datagram->is_damaged = happens(members, 10);
    if (datagram->is_damaged && comes)
        datagram->size = datagram->is_rtp ? HEAD - 1 : datagram->size - 1;
    find_next(members);
    return comes;
}

void begin_members(struct members *members, uint32_t number, uint64_t seed)
{
    *members = (struct members){.random = seed, .flood = NEVER, .colliding = number % 25 == 7 ? 50 : 2,
                                .close = number % 10 == 1 ? 100 : 5};
    members->count = FEWEST_MEMBERS + random_word(&members->random) % (MOST_MEMBERS - FEWEST_MEMBERS + 1);
    if (number % 8 == 3) {
        members->flood = later(members, 2000, 8000);
        members->flood_end = members->flood + 10 * SECOND;
    }
    for (uint32_t at = 0; at < members->count; at++) {
        struct member *member = &members->all[at];
        member->due[REPORT] = member->due[PACKET] = member->due[TURN] = member->due[END] = NEVER;
        member->due[JOIN] = later(members, 0, 2000);
    }
    find_next(members);
}
