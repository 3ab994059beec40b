/* A session whose bandwidth changes: all its participants run over the library, on one virtual clock. It goes up
 * tenfold, and down tenfold. Nobody may time out, and each window has to keep to the law on reports.
 * (compare/crowds/settings) */
#include "jalwedd.h"

#include <stdbool.h>
#include <stdint.h>
#include <stdio.h>
#include <stdlib.h>
#include <string.h>

enum {
    SECOND = 1000000,
    MEMBERS = 200,
    DELAY = 100000,                     /* microseconds until a compound comes to the others */
    TOLD_WITHIN = 10 * SECOND,          /* the participants are told of other settings in turn, in this time */
    RAISED = 600, LOWERED = 1200, END = 1800,       /* seconds since all joined */
    SENDER_BW = 100, RECEIVER_BW = 300, TIMES = 10, RATE = 8000,
    LEAST_SIZE = 28 + 20,               /* of a report without blocks, and a CNAME of one octet, with headers */
    MOST_SENT = 100000,
    MOST_OCTETS = 1472
};

static const uint64_t NEVER = UINT64_MAX;

struct compound {
    uint64_t sent;
    uint32_t from, size;
    uint8_t octets[64];
};

struct participant {
    jalwedd_handle session;
    jalwedd_step step;
    uint32_t told;                      /* how many compounds came to it, or are its own */
    uint32_t least, dropped;            /* the fewest members that it counted once it had counted all; who timed out */
    uint64_t raised, lowered;           /* when it is told of other settings */
    bool counted_all;
};

static struct participant all[MEMBERS];
static struct compound sent[MOST_SENT];
static uint32_t sent_count;
static uint64_t random_state;
static bool is_broken;

/* The next word of splitmix64. */
static uint32_t random_word(void)
{
    uint64_t word = random_state += 0x9e3779b97f4a7c15u;
    word = (word ^ word >> 30) * 0xbf58476d1ce4e5b9u;
    word = (word ^ word >> 27) * 0x94d049bb133111ebu;
    return (uint32_t)((word ^ word >> 31) >> 32);
}

static void stop(const char *why, uint32_t status)
{
    printf("%s: status %u\n", why, status);
    exit(1);
}

static void begin(struct participant *who, uint32_t ssrc)
{
    const jalwedd_config config = {.ssrc = ssrc, .capacity = 1024, .limit = MOST_OCTETS, .sender_bw = SENDER_BW,
                                   .receiver_bw = RECEIVER_BW, .rate = RATE};
    const jalwedd_item none = {0};
    const uint32_t status = jalwedd_new(&who->session, &config, (const uint8_t *)"a", 1, &none, 0, random_word(),
                                        &who->step);
    if (status != JALWEDD_TAKEN)
        stop("no participant", status);
    who->raised = RAISED * (uint64_t)SECOND + random_word() % TOLD_WITHIN;
    who->lowered = LOWERED * (uint64_t)SECOND + random_word() % TOLD_WITHIN;
}

/* What a participant counts now, after a call. */
static void counted(struct participant *who)
{
    if (who->step.members == MEMBERS)
        who->counted_all = true;
    if (who->counted_all && who->step.members < who->least)
        who->least = who->step.members;
}

static void configure(struct participant *who, uint64_t now, uint32_t times)
{
    uint8_t octets[JALWEDD_OCTETS];
    const jalwedd_settings settings = {.sender_bw = times * SENDER_BW, .receiver_bw = times * RECEIVER_BW,
                                       .rate = RATE};
    const jalwedd_item none = {0};
    const uint32_t status = jalwedd_configure(&who->session, now, &settings, &none, 0, &who->step, octets);
    if (status != JALWEDD_TAKEN)
        stop("other settings", status);
    counted(who);
}

/* What came to a participant by now. */
static void hear(struct participant *who, uint32_t number, uint64_t now)
{
    uint8_t octets[JALWEDD_OCTETS];
    for (; who->told < sent_count && sent[who->told].sent + DELAY <= now; who->told++) {
        const struct compound *came = &sent[who->told];
        if (came->from == number)
            continue;
        const uint32_t status = jalwedd_arrive_rtcp(&who->session, now, came->from, random_word(), came->octets,
                                                    came->size, &who->step, octets);
        if (status != JALWEDD_TAKEN)
            stop("a compound", status);
        counted(who);
    }
}

static void tick(struct participant *who, uint32_t number, uint64_t now)
{
    uint8_t octets[JALWEDD_OCTETS];
    const uint32_t before = who->step.members;
    const uint32_t status = jalwedd_tick(&who->session, now, random_word(), random_word(), &who->step, octets);
    if (status != JALWEDD_TAKEN)
        stop("a tick", status);
    if (who->step.members < before)
        who->dropped += before - who->step.members;
    counted(who);
    if (who->step.kind == JALWEDD_NOTHING)
        return;
    if (sent_count == MOST_SENT || who->step.size > sizeof sent->octets)
        stop("too much is sent", 0);
    struct compound *out = &sent[sent_count++];
    *out = (struct compound){.sent = now, .from = number, .size = (uint32_t)who->step.size};
    memcpy(out->octets, octets, who->step.size);
}

static void act(struct participant *who, uint32_t number, uint64_t now)
{
    hear(who, number, now);
    if (who->raised <= now) {
        configure(who, now, TIMES);
        who->raised = NEVER;
    }
    if (who->lowered <= now) {
        configure(who, now, 1);
        who->lowered = NEVER;
    }
    tick(who, number, now);
}

/* The most compounds in a window of so many seconds that begins from one moment on, and ends by another. */
static uint32_t most_in(uint64_t width, uint64_t from, uint64_t until)
{
    uint32_t most = 0, first = 0;
    for (uint32_t last = 0; last < sent_count; last++) {
        while (sent[first].sent < from || sent[first].sent + width < sent[last].sent)
            first++;
        if (sent[last].sent <= until && last >= first && last - first + 1 > most)
            most = last - first + 1;
    }
    return most;
}

/* What the law allows in any window: one of each participant, and so many beyond that, stretched by the delay. */
static uint32_t allowed(uint64_t width, uint32_t times)
{
    const double bandwidth = times * (SENDER_BW + RECEIVER_BW);
    const double beyond = 243656.0 * (double)width * bandwidth / (1e11 * LEAST_SIZE);
    return MEMBERS + (uint32_t)(beyond * 2052074.0 / (2052074.0 - DELAY));
}

static void windows(const char *when, uint64_t from, uint64_t until, uint32_t times)
{
    const uint32_t widths[] = {1, 10, 60, 300};
    for (size_t each = 0; each < sizeof widths / sizeof *widths; each++) {
        const uint64_t width = widths[each] * (uint64_t)SECOND;
        const uint32_t most = most_in(width, from * SECOND, until * SECOND), law = allowed(width, times);
        printf("    %s, %u s: at most %u compounds, of %u%s\n", when, widths[each], most, law,
               most > law ? ": BEYOND IT" : "");
        is_broken |= most > law;
    }
}

int main(void)
{
    random_state = 83;
    for (uint32_t number = 0; number < MEMBERS; number++) {
        all[number].least = MEMBERS;
        begin(&all[number], number + 1);
    }
    /* Each acts ten times a second, one after the other. */
    for (uint64_t now = 0; now < END * (uint64_t)SECOND; now += SECOND / 10)
        for (uint32_t number = 0; number < MEMBERS; number++)
            act(&all[number], number, now + number);
    uint32_t least = MEMBERS, dropped = 0, knew_all = 0;
    for (uint32_t number = 0; number < MEMBERS; number++) {
        least = all[number].least < least ? all[number].least : least;
        dropped += all[number].dropped;
        knew_all += all[number].counted_all;
    }
    printf("%u participants, bandwidth times %u at %u s, and back at %u s: %u counted all, the fewest members counted "
           "after that are %u, %u timed out\n", MEMBERS, TIMES, RAISED, LOWERED, knew_all, least, dropped);
    is_broken |= knew_all != MEMBERS || least != MEMBERS || dropped != 0;
    windows("before", 0, RAISED, 1);
    windows("with more", RAISED, LOWERED, TIMES);
    windows("after", LOWERED + TOLD_WITHIN / SECOND, END, 1);
    return is_broken;
}
