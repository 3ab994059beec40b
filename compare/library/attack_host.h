/* A host on a virtual clock, and the datagrams that attackers send to it. (compare/library/attack.c) */
#ifndef ATTACK_HOST_H
#define ATTACK_HOST_H

#include "jalwedd.h"

#include <stdbool.h>
#include <stdint.h>
#include <stdio.h>
#include <stdlib.h>
#include <string.h>

enum {
    SECOND = 1000000,
    FULL = 65504,                       /* the most octets, in whole words, that UDP over IPv4 carries */
    INVENTED = 0x100000                 /* the SSRCs from here on are those that an attacker invents */
};

static const uint64_t NEVER = UINT64_MAX;

struct host {
    jalwedd_handle session;
    jalwedd_step step;
    uint64_t now, ticked, random;
    bool ticks_each_second;             /* or at step.next alone */
    uint64_t reported, least_gap;       /* the moment of the newest report, and the least time between two */
    uint32_t reports, byes;
};

/* ---- A host */

/* The next word of splitmix64. */
static inline uint32_t random_word(struct host *host)
{
    uint64_t word = host->random += 0x9e3779b97f4a7c15u;
    word = (word ^ word >> 30) * 0xbf58476d1ce4e5b9u;
    word = (word ^ word >> 27) * 0x94d049bb133111ebu;
    return (uint32_t)((word ^ word >> 31) >> 32);
}

/* In a session of 64,000 bits a second, which starts at this moment by the host's clock, behind a guard, if one is
 * given. */
static inline struct host begun_with(jalwedd_guard guard, uint64_t start, uint32_t capacity, bool ticks_each_second,
                              uint64_t seed)
{
    struct host host = {.now = start, .ticked = start, .random = seed * 1000003,
                        .ticks_each_second = ticks_each_second, .least_gap = NEVER};
    const jalwedd_config config = {.start = start, .ssrc = 1, .capacity = capacity, .limit = 1472, .sender_bw = 100,
                                   .receiver_bw = 300, .rate = 8000, .guard = guard};
    const jalwedd_item none = {0};
    if (jalwedd_new(&host.session, &config, (const uint8_t *)"a", 1, &none, 0, random_word(&host), &host.step)
        != JALWEDD_TAKEN) {
        printf("no participant\n");
        exit(1);
    }
    return host;
}

static inline struct host begun_at(uint64_t start, uint32_t capacity, bool ticks_each_second, uint64_t seed)
{
    return begun_with((jalwedd_guard){0}, start, capacity, ticks_each_second, seed);
}

static inline struct host begun(uint32_t capacity, bool ticks_each_second, uint64_t seed)
{
    return begun_at(0, capacity, ticks_each_second, seed);
}

static inline void count_out(struct host *host)
{
    host->byes += host->step.kind == JALWEDD_BYE;
    if (host->step.kind != JALWEDD_REPORT)
        return;
    if (host->reports++ != 0 && host->now - host->reported < host->least_gap)
        host->least_gap = host->now - host->reported;
    host->reported = host->now;
}

static inline void tick(struct host *host)
{
    static uint8_t octets[JALWEDD_OCTETS];
    const uint32_t first_word = random_word(host), second_word = random_word(host);
    jalwedd_tick(&host->session, host->now, first_word, second_word, &host->step, octets);
    host->ticked = host->now;
    count_out(host);
}

/* When the host ticks next. */
static inline uint64_t due(const struct host *host)
{
    const uint64_t at_latest = host->ticks_each_second ? host->ticked + SECOND : NEVER;
    const uint64_t next = host->step.next < at_latest ? host->step.next : at_latest;
    return next < host->now ? host->now : next;
}

/* Makes the ticks up to this moment, which comes. A tick that is due puts the next one later, so these end. */
static inline void pass(struct host *host, uint64_t until)
{
    while (host->step.next != JALWEDD_NEVER && due(host) <= until) {
        host->now = due(host);
        tick(host);
    }
    host->now = until;
}

static inline void rtcp(struct host *host, uint64_t peer, const uint8_t *datagram, size_t size)
{
    static uint8_t octets[JALWEDD_OCTETS];
    jalwedd_arrive_rtcp(&host->session, host->now, peer, random_word(host), datagram, size, &host->step, octets);
    count_out(host);
}

static inline void sent_rtp(struct host *host)
{
    static uint8_t octets[JALWEDD_OCTETS];
    jalwedd_sent_rtp(&host->session, host->now, 0, 160, &host->step, octets);
}

/* What is known of a source; all zeros if it is not listed. */
static inline jalwedd_source_state state_of(struct host *host, uint32_t ssrc)
{
    jalwedd_source_state source = {0};
    if (jalwedd_source(&host->session, ssrc, &source) != JALWEDD_TAKEN || source.ssrc != ssrc)
        return (jalwedd_source_state){0};
    return source;
}

/* ---- Datagrams */

static inline void put_word(uint8_t *at, uint32_t word)
{
    for (int byte = 0; byte < 4; byte++)
        at[byte] = (uint8_t)(word >> 8 * (3 - byte));
}

/* Puts the header and SSRC of a packet, and returns its end. */
static inline uint8_t *put_packet(uint8_t *at, uint32_t count, uint8_t type, uint32_t words, uint32_t ssrc)
{
    put_word(at, (0x80 | count) << 24 | (uint32_t)type << 16 | words);
    put_word(at + 4, ssrc);
    return at + 4 + 4 * words;
}

static inline uint8_t *put_report(uint8_t *at, uint32_t ssrc)
{
    return put_packet(at, 0, 201, 1, ssrc);
}

/* A report of a source with the CNAME `a`. */
static inline void name(struct host *host, uint32_t ssrc)
{
    uint8_t datagram[20] = {0};
    memcpy(put_packet(put_report(datagram, ssrc), 1, 202, 2, ssrc) - 4, "\1\1a", 4);
    rtcp(host, ssrc, datagram, sizeof datagram);
}

/* A goodbye of a source, whoever sends it: no address is kept with a source. */
static inline void say_goodbye(struct host *host, uint32_t ssrc)
{
    uint8_t datagram[16] = {0};
    put_packet(put_report(datagram, ssrc), 1, 203, 1, ssrc);
    rtcp(host, 0xbad, datagram, sizeof datagram);
}

/* An RTP packet of a source, without payload. */
static inline void rtp(struct host *host, uint32_t ssrc, uint16_t sequence)
{
    static uint8_t octets[JALWEDD_OCTETS];
    uint8_t datagram[12] = {0x80, 0, (uint8_t)(sequence >> 8), (uint8_t)sequence};
    put_word(datagram + 8, ssrc);
    jalwedd_arrive_rtp(&host->session, host->now, ssrc, random_word(host), datagram, sizeof datagram, &host->step,
                       octets);
    count_out(host);
}

/* One compound that gives so many sources a CNAME of 0 octets, 8 octets each: the SSRCs from `ssrc` on, `step` apart.
 * Returns its size. */
static inline size_t put_names(uint8_t *datagram, uint32_t ssrc, uint32_t step, uint32_t count)
{
    uint8_t *at = put_report(datagram, ssrc);
    for (uint32_t chunks; count != 0; count -= chunks) {
        chunks = count < 31 ? count : 31;
        put_word(at, (0x80 | chunks) << 24 | 202u << 16 | 2 * chunks);
        at += 4;
        for (uint32_t chunk = 0; chunk < chunks; chunk++, at += 8) {
            put_word(at, ssrc);
            ssrc += step;
            memcpy(at + 4, "\1\0\0", 4);
        }
    }
    return (size_t)(at - datagram);
}

/* An RTP packet of the source `ssrc` without payload, whose CSRCs are the 15 SSRCs from `first` on: 72 octets. */
static inline void rtp_with_csrcs(struct host *host, uint32_t ssrc, uint16_t sequence, uint32_t first)
{
    static uint8_t octets[JALWEDD_OCTETS];
    uint8_t datagram[12 + 4 * 15] = {0x8f, 0, (uint8_t)(sequence >> 8), (uint8_t)sequence};
    put_word(datagram + 8, ssrc);
    for (uint32_t at = 0; at < 15; at++)
        put_word(datagram + 12 + 4 * at, first + at);
    jalwedd_arrive_rtp(&host->session, host->now, ssrc, random_word(host), datagram, sizeof datagram, &host->step,
                       octets);
    count_out(host);
}

/* One compound of BYE packets that name nobody, 4 octets each, up to so many octets. */
static inline void put_empty_goodbyes(uint8_t *datagram, size_t size)
{
    for (uint8_t *at = put_report(datagram, INVENTED); at < datagram + size; at += 4)
        put_word(at, 0x80cb0000);
}

#endif
