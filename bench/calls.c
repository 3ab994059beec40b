/* Repeats one kind of call of jalwedd.h: prints the nanoseconds per call, the median of all batches, and a digest of
 * the answers. (bench/calls)
 *
 *     calls CALL SHAPE SOURCES [BATCHES]
 *
 * SHAPE says how the SSRCs of the sources are distributed: random, numbered or clusters, as in crates/rtcp_measure. The
 * table has room for SOURCES, from 1 to 1,024, and all of them come before anything is timed. CALL is one of these:
 *
 *     present      jalwedd_arrive_rtp of a packet of a source chosen at random
 *     sessions     the same in 200 sessions, one of them chosen at random
 *     absent       one with a random SSRC, which is almost never that of a source
 *     own-rtp      one with the participant's own SSRC, from a peer that used it before: it is refused
 *     own-rtcp     jalwedd_arrive_rtcp of such a compound
 *     join         jalwedd_arrive_rtcp of a compound by which a source joins, after all had left
 *     rising       jalwedd_source, for each source of a listing
 *     falling      jalwedd_source of each SSRC, from the greatest to the least
 *     unordered    the same in no order
 *     drop         a jalwedd_tick that drops every other source
 *     tick         two sources describe themselves, in rotation, and a jalwedd_tick finds that nobody was silent for
 *                  too long: 25 ms lie between two descriptions, so of a thousand sources the oldest was heard just
 *                  under 25 seconds ago, which is as long as it may be silent
 *     lapse        the same, but the two send RTP packets, so that the tick ends the sending of two others
 *
 * The times include putting an SSRC and a sequence number into a packet, and the digest. Under callgrind, the
 * difference between two invocations with different BATCHES gives the instructions per call. */
#define _GNU_SOURCE
#include "jalwedd.h"

#include <stdio.h>
#include <stdlib.h>
#include <string.h>
#include <time.h>

enum { MOST = 1024, BATCH = 1000, TURNS = 50, WARM = 20, BATCHES = 301, SESSIONS = 200, PEER = 7 };

static const uint64_t SECOND = 1000000, BETWEEN = 25000;

static jalwedd_handle all[SESSIONS];
static jalwedd_handle *session = all; /* the one that is called */
static jalwedd_step step;
static uint8_t octets[JALWEDD_OCTETS];
static uint64_t now;
static uint32_t sources;
static uint32_t ssrcs[MOST], in_order[MOST];
static uint16_t sequences[SESSIONS][MOST];
static uint64_t state = 1, digest = 1;

static uint8_t packet[172] = {0x80};
static uint8_t description[24] = {[0] = 0x80, 0xc9, 0, 1, [8] = 0x81, 0xca, 0, 3, [16] = 1, 2, 'm', 'e'};
static uint8_t goodbye[16] = {[0] = 0x80, 0xc9, 0, 1, [8] = 0x81, 0xcb, 0, 1};

static void expect(int holds, const char *what)
{
    if (!holds) {
        fprintf(stderr, "not so: %s\n", what);
        exit(1);
    }
}

/* The time by a clock that is not adjusted, which matters in a virtual machine. */
static double nanoseconds(void)
{
    struct timespec time;
    clock_gettime(CLOCK_MONOTONIC, &time);
    return time.tv_sec * 1e9 + time.tv_nsec;
}

/* ---- Random numbers, SSRCs and the digest */

/* xorshift64* (Vigna, 2016). */
static uint32_t random_word(void)
{
    state ^= state >> 12, state ^= state << 25, state ^= state >> 27;
    return (uint32_t)((state * 0x2545f4914f6cdd1du) >> 32);
}

static uint32_t random_below(uint32_t bound)
{
    return (uint32_t)(((uint64_t)random_word() * bound) >> 32);
}

static void mix(uint64_t number)
{
    digest = (digest ^ number) * 0x9e3779b97f4a7c15u;
    digest ^= digest >> 29;
}

static uint32_t ssrc_of(const char *shape, uint32_t source)
{
    uint32_t mixed = source + 0x9e3779b9;
    if (strcmp(shape, "numbered") == 0)
        return 0x5ee00000 + source;
    if (strcmp(shape, "clusters") == 0)
        return (source < sources / 2 ? 0x20000000 : 0xb0000000) + source;
    expect(strcmp(shape, "random") == 0, "SHAPE is random, numbered or clusters");
    mixed = (mixed ^ (mixed >> 16)) * 0x85ebca6b;
    mixed = (mixed ^ (mixed >> 13)) * 0xc2b2ae35;
    return mixed ^ (mixed >> 16);
}

static int by_rising(const void *one, const void *other)
{
    const uint32_t a = *(const uint32_t *)one, b = *(const uint32_t *)other;
    return (a > b) - (a < b);
}

/* ---- What comes */

static void put(uint8_t *to, uint32_t word)
{
    for (int octet = 0; octet < 4; octet++)
        to[octet] = (uint8_t)(word >> (24 - 8 * octet));
}

static void mix_step(uint32_t status)
{
    mix(((uint64_t)step.members << 32 | step.entries) ^ step.next ^ (uint64_t)status << 56);
}

static void come(uint32_t ssrc, uint16_t sequence)
{
    packet[2] = (uint8_t)(sequence >> 8), packet[3] = (uint8_t)sequence;
    put(packet + 8, ssrc);
    mix_step(jalwedd_arrive_rtp(session, now, PEER, 0, packet, sizeof packet, &step, octets));
}

static void speak(uint32_t source)
{
    come(ssrcs[source], ++sequences[session - all][source]);
}

static void describe(uint32_t ssrc)
{
    put(description + 4, ssrc), put(description + 12, ssrc);
    mix_step(jalwedd_arrive_rtcp(session, now, PEER, 0, description, sizeof description, &step, octets));
}

static void describe_source(uint32_t source)
{
    describe(ssrcs[source]);
}

static void leave(uint32_t ssrc)
{
    put(goodbye + 4, ssrc), put(goodbye + 12, ssrc);
    mix_step(jalwedd_arrive_rtcp(session, now, PEER, 0, goodbye, sizeof goodbye, &step, octets));
}

static void tick(void)
{
    mix_step(jalwedd_tick(session, now, random_word(), random_word(), &step, octets));
}

/* ---- Batches: each returns the nanoseconds of one call */

static double present(void)
{
    const double start = nanoseconds();
    for (int call = 0; call < BATCH; call++)
        speak(random_below(sources));
    return (nanoseconds() - start) / BATCH;
}

static double in_sessions(void)
{
    const double start = nanoseconds();
    for (int call = 0; call < BATCH; call++) {
        session = all + random_below(SESSIONS);
        speak(random_below(sources));
    }
    return (nanoseconds() - start) / BATCH;
}

static double absent(void)
{
    expect(step.entries == sources, "the table is full");
    const double start = nanoseconds();
    for (int call = 0; call < BATCH; call++)
        come(random_word(), 1);
    return (nanoseconds() - start) / BATCH;
}

/* The first time that a peer uses the participant's own SSRC, the SSRC is changed. */
static double own_rtp(void)
{
    come(step.ssrc, 1);
    const double start = nanoseconds();
    for (int call = 0; call < BATCH; call++)
        come(step.ssrc, 1);
    return (nanoseconds() - start) / BATCH;
}

static double own_rtcp(void)
{
    describe(step.ssrc);
    const double start = nanoseconds();
    for (int call = 0; call < BATCH; call++)
        describe(step.ssrc);
    return (nanoseconds() - start) / BATCH;
}

static double join(void)
{
    for (uint32_t source = 0; source < sources; source++)
        leave(ssrcs[source]);
    now += 6 * SECOND;
    tick();
    expect(step.entries == 0, "all left");
    const double start = nanoseconds();
    for (uint32_t source = 0; source < sources; source++)
        describe_source(source);
    const double spent = nanoseconds() - start;
    expect(step.entries == sources, "all joined");
    return spent / sources;
}

static double rising(void)
{
    jalwedd_source_state told;
    uint32_t count = 0;
    const double start = nanoseconds();
    for (uint64_t from = 0; jalwedd_source(session, from, &told) == JALWEDD_TAKEN; from = (uint64_t)told.ssrc + 1) {
        mix(told.ssrc ^ told.heard ^ told.received << 32);
        count++;
    }
    const double spent = nanoseconds() - start;
    expect(count == step.entries, "all are told");
    return spent / count;
}

/* Of each source in the order of in_order. */
static double asked(void)
{
    jalwedd_source_state told;
    const double start = nanoseconds();
    for (uint32_t at = 0; at < sources; at++) {
        mix(jalwedd_source(session, in_order[at], &told));
        mix(told.ssrc ^ told.heard);
    }
    return (nanoseconds() - start) / sources;
}

/* A tick just before sends any report that is due. */
static double drop(void)
{
    now += SECOND;
    for (uint32_t source = 0; source < sources; source++)
        describe_source(source);
    now += 20 * SECOND;
    for (uint32_t source = 0; source < sources; source += 2)
        describe_source(source);
    now += 4900000;
    tick();
    expect(step.kind == JALWEDD_REPORT && step.entries == sources, "a report goes out, and nobody is dropped");
    now += 200000;
    const double start = nanoseconds();
    tick();
    const double spent = nanoseconds() - start;
    expect(step.kind == JALWEDD_NOTHING && step.entries == (sources + 1) / 2, "every other is dropped, and no more");
    return spent;
}

/* The tick comes a little before the next description, so that the oldest moment that the previous one saw is past. */
static double turns_of(void (*hear)(uint32_t source))
{
    static uint32_t source = 0;
    const double start = nanoseconds();
    for (int turn = 0; turn < TURNS; turn++) {
        for (int count = 0; count < 2; count++) {
            now += BETWEEN;
            hear(source);
            source = source + 1 < sources ? source + 1 : 0;
        }
        const uint64_t then = now;
        now += BETWEEN - 1;
        tick();
        now = then;
    }
    const double spent = nanoseconds() - start;
    expect(step.entries == sources, "nobody is dropped");
    return spent / TURNS;
}

static double ticks(void)
{
    return turns_of(describe_source);
}

static double lapses(void)
{
    return turns_of(speak);
}

/* ---- A row */

/* In a session with enough bandwidth that a source may be silent for 25 seconds, from the first report on. */
static void begin(const char *shape)
{
    const jalwedd_config config = {.ssrc = 0x0badcafe, .capacity = sources, .limit = 1472, .sender_bw = 1 << 20,
                                   .receiver_bw = 1 << 20, .rate = 8000};
    const jalwedd_item none = {0};
    expect(jalwedd_new(session, &config, (const uint8_t *)"user@example.com", 16, &none, 0, 1, &step) == JALWEDD_TAKEN,
           "a participant begins");
    now = step.next;
    expect(jalwedd_tick(session, now, 0, 0, &step, octets) == JALWEDD_TAKEN && step.kind == JALWEDD_REPORT,
           "the first report goes out");
    for (uint32_t source = 0; source < sources; source++) {
        ssrcs[source] = ssrc_of(shape, source);
        describe_source(source);
        speak(source);
        speak(source);
    }
    expect(step.entries == sources && step.members == sources + 1, "all are there");
}

/* All SSRCs, rising. */
static void put_in_order(void)
{
    memcpy(in_order, ssrcs, sizeof in_order);
    qsort(in_order, sources, sizeof *in_order, by_rising);
}

static void swap(uint32_t one, uint32_t other)
{
    const uint32_t ssrc = in_order[one];
    in_order[one] = in_order[other], in_order[other] = ssrc;
}

static double falling(void)
{
    put_in_order();
    for (uint32_t at = 0; at < sources / 2; at++)
        swap(at, sources - 1 - at);
    return asked();
}

static double unordered(void)
{
    put_in_order();
    for (uint32_t at = sources - 1; at > 0; at--)
        swap(at, random_below(at + 1));
    return asked();
}

static double (*batch_of(const char *call))(void)
{
    static const struct {
        const char *call;
        double (*batch)(void);
    } batches[] = {{"present", present}, {"sessions", in_sessions}, {"absent", absent}, {"own-rtp", own_rtp},
                   {"own-rtcp", own_rtcp}, {"join", join}, {"rising", rising}, {"falling", falling},
                   {"unordered", unordered}, {"drop", drop}, {"tick", ticks}, {"lapse", lapses}};
    for (size_t at = 0; at < sizeof batches / sizeof *batches; at++)
        if (strcmp(call, batches[at].call) == 0)
            return batches[at].batch;
    return NULL;
}

static int by_time(const void *one, const void *other)
{
    const double a = *(const double *)one, b = *(const double *)other;
    return (a > b) - (a < b);
}

int main(int count, char **words)
{
    static double spent[BATCHES];
    expect((count == 4 || count == 5) && batch_of(words[1]) != NULL, "calls CALL SHAPE SOURCES [BATCHES]");
    double (*const batch)(void) = batch_of(words[1]);
    const int batches = count == 5 ? atoi(words[4]) : BATCHES;
    sources = (uint32_t)atoi(words[3]);
    expect(sources >= 1 && sources <= MOST, "SOURCES is one of 1 to 1,024");
    expect(batches >= 1 && batches <= BATCHES, "BATCHES is one of 1 to 301");
    for (session = all + (batch == in_sessions ? SESSIONS - 1 : 0); session > all; session--)
        begin(words[2]);
    begin(words[2]);
    for (int turn = 0; turn < WARM; turn++)
        batch();
    for (int turn = 0; turn < batches; turn++)
        spent[turn] = batch();
    rising();
    qsort(spent, (size_t)batches, sizeof *spent, by_time);
    printf("%.2f %016llx\n", spent[batches / 2], (unsigned long long)digest);
    return 0;
}
