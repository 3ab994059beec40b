/* What a host may face from those who can send datagrams to it: each attack of docs/EMBEDDING.md, "Facing an open
 * network", against the library on a virtual clock. It prints what each costs, and the most of that which the page
 * says, if it says one; beyond it the program ends with status 1. (compare/library/attack) */
#define _POSIX_C_SOURCE 199309L
#include "attack_host.h"

#include <time.h>

enum {
    MTU = 1472,
    RUNS = 200,
    VICTIM = 0x1000,                    /* the SSRC of the other whom an attack is about */
    NEWCOMER = 0x2000,
    LEAVE_TIME = 5 * SECOND             /* how long a host waits for its BYE, as in docs/EMBEDDING.md */
};

static bool is_beyond;

/* A cost, and the most of it that the page says, or 0. */
static void told(const char *what, double is, const char *unit, double most)
{
    printf("    %s: %g%s%s", what, is, *unit ? " " : "", unit);
    if (most != 0)
        printf(", of at most %g%s", most, is > most ? ": BEYOND IT" : "");
    printf("\n");
    is_beyond |= most != 0 && is > most;
}

/* Something that has to be. */
static void holds(const char *what, bool is)
{
    printf("    %s: %s\n", what, is ? "yes" : "NO");
    is_beyond |= !is;
}

/* ---- Ticks at least once a second */

static double seconds(void)
{
    struct timespec now;
    clock_gettime(CLOCK_MONOTONIC, &now);
    return (double)now.tv_sec + (double)now.tv_nsec / 1e9;
}

static struct host among(uint32_t members, bool ticks_each_second, uint64_t seed)
{
    struct host host = begun(1024, ticks_each_second, seed);
    for (uint32_t other = 2; other < members; other++)
        name(&host, INVENTED + other);
    name(&host, VICTIM);
    return host;
}

/* What a tick takes that comes before it is due. */
static double early_tick(uint32_t members)
{
    enum { TICKS = 10000 };
    struct host host = among(members, true, 1);
    const double begin = seconds();
    for (host.now = 0; host.now < TICKS; host.now++)
        tick(&host);
    jalwedd_free(&host.session);
    return (seconds() - begin) / TICKS;
}

/* How long a source is ignored that said goodbye, or of whom another one said so, and that sends a packet each 20
 * milliseconds from `pause` after it on, among so many members. */
static double ignored(uint32_t members, uint64_t pause, bool ticks_each_second, uint64_t seed)
{
    struct host host = among(members, ticks_each_second, seed);
    uint16_t sequence = 0;
    pass(&host, 20 * SECOND + random_word(&host) % SECOND);
    say_goodbye(&host, VICTIM);
    pass(&host, host.now + pause);
    const uint64_t returned = host.now;
    for (; !state_of(&host, VICTIM).member; pass(&host, host.now + SECOND / 50))
        rtp(&host, VICTIM, sequence++);
    jalwedd_free(&host.session);
    return (double)(host.now - returned - SECOND / 50) / SECOND;
}

static void ignored_runs(const char *what, uint32_t members, uint64_t pause, bool ticks_each_second, double most)
{
    double longest = 0;
    for (uint64_t seed = 1; seed <= RUNS; seed++) {
        const double time = ignored(members, pause, ticks_each_second, seed);
        longest = time > longest ? time : longest;
    }
    told(what, longest, "s", most);
}

static void returning(void)
{
    printf("A source says goodbye, and sends again half a second later; how long it is ignored from then on:\n");
    ignored_runs("alone, ticked each second", 2, SECOND / 2, true, 6);
    ignored_runs("among 1,000, ticked each second", 1000, SECOND / 2, true, 6);
    ignored_runs("alone, ticked at next alone", 2, SECOND / 2, false, 0);
    ignored_runs("among 1,000, ticked at next alone", 1000, SECOND / 2, false, 0);
    printf("Someone else says goodbye for a source that goes on sending; how long it is ignored:\n");
    ignored_runs("alone, ticked each second", 2, SECOND / 50, true, 6.1);
    ignored_runs("among 1,000, ticked each second", 1000, SECOND / 50, true, 6.1);
    ignored_runs("alone, ticked at next alone", 2, SECOND / 50, false, 0);
    ignored_runs("among 1,000, ticked at next alone", 1000, SECOND / 50, false, 0);
    printf("A tick that is not yet due:\n");
    told("alone", early_tick(2) * 1e6, "us", 0);
    told("among 1,000", early_tick(1000) * 1e6, "us", 0);
}

/* Runs a host with one other, who reports each 5 seconds, that was told of so many names, some in each datagram, until
 * a newcomer who does so too is a member. Returns how long that was, and at `held` how long the tick after was away. */
static double shut_out(uint32_t names, uint32_t in_each, bool ticks_each_second, double *held)
{
    static uint8_t datagram[FULL];
    struct host host = begun(1024, ticks_each_second, 1);
    for (int turn = 0; turn < 12; turn++, pass(&host, host.now + 5 * SECOND))
        name(&host, VICTIM);
    const uint64_t since = host.now;
    for (uint32_t first = 0; first < names; first += in_each)
        rtcp(&host, 0xbad, datagram, put_names(datagram, INVENTED + first, 1, in_each));
    for (*held = 0; !state_of(&host, NEWCOMER).member; pass(&host, host.now + 5 * SECOND)) {
        const double away = ((double)host.step.next - (double)host.now) / SECOND;
        *held = away > *held ? away : *held;
        name(&host, VICTIM);
        name(&host, NEWCOMER);
    }
    jalwedd_free(&host.session);
    return (double)(host.now - 5 * SECOND - since) / SECOND;
}

/* What a datagram of so many names, `step` apart, and the tick after it take of a processor: the least times of some,
 * as other work only adds to them. */
static void cost_of_names(const char *order, uint32_t step, uint32_t names, double most)
{
    static uint8_t datagram[FULL];
    double call = 1e9, after = 1e9;
    for (int round = 0; round < 20; round++) {
        struct host host = begun(1024, true, 1);
        const size_t size = put_names(datagram, INVENTED, step, names);
        const double begin = seconds();
        rtcp(&host, 0xbad, datagram, size);
        const double taken = seconds();
        host.now = SECOND;
        tick(&host);
        after = seconds() - taken < after ? seconds() - taken : after;
        call = taken - begin < call ? taken - begin : call;
        jalwedd_free(&host.session);
    }
    printf("    SSRCs that %s:\n", order);
    told("time that its call takes", call * 1e3, "ms", most);
    told("time that the tick after it takes", after * 1e6, "us", 0);
}

/* The least time of some that a datagram of BYEs takes whose sources come at random, every other one of them listed, in
 * a full table, with nothing of it in a cache. */
static double random_goodbyes(void)
{
    enum { IN_CACHES = 96 << 20 };
    static uint8_t datagram[FULL];
    volatile char *other = calloc(1, IN_CACHES);
    double least = 1e9;
    for (int round = 0; round < 20; round++) {
        struct host host = begun(1024, true, 1);
        uint32_t listed[1024];
        for (int at = 0; at < 1024; at++)
            name(&host, listed[at] = random_word(&host));
        uint8_t *at = put_report(datagram, listed[0]);
        for (; at + 128 <= datagram + FULL; at += 128) {
            put_word(at, 0x9fcb001f);
            for (int source = 1; source <= 31; source++)
                put_word(at + 4 * source, source % 2 ? listed[random_word(&host) % 1024] : random_word(&host));
        }
        for (size_t place = 0; other != NULL && place < IN_CACHES; place += 64)
            other[place]++;
        const double begin = seconds();
        rtcp(&host, 0xbad, datagram, (size_t)(at - datagram));
        const double taken = seconds() - begin;
        least = taken < least ? taken : least;
        jalwedd_free(&host.session);
    }
    free((void *)other);
    return least;
}

static void names(void)
{
    enum { NAMES = 8057, IN_AN_MTU = 180, TO_FILL = 6 * IN_AN_MTU };
    static uint8_t datagram[FULL];
    double held;
    printf("One datagram names %d sources that do not exist, and a newcomer reports each 5 seconds:\n", NAMES);
    told("octets of the datagram", (double)put_names(datagram, INVENTED, 1, NAMES), "octets", FULL);
    cost_of_names("rise", 1, NAMES, 5);
    cost_of_names("fall", UINT32_MAX, NAMES, 5);
    cost_of_names("are scattered", 2654435761u, NAMES, 5);
    told("BYEs of sources at random, with cold caches", random_goodbyes() * 1e3, "ms", 5);
    const double each_second = shut_out(NAMES, NAMES, true, &held);
    told("longest time to next", held, "s", 0);
    told("the newcomer is a member after, ticked each second", each_second, "s", 1200);
    told("the newcomer is a member after, ticked at next alone", shut_out(NAMES, NAMES, false, &held), "s", 0);
    printf("Six datagrams name %d such sources:\n", TO_FILL);
    told("octets of each", (double)put_names(datagram, INVENTED, 1, IN_AN_MTU), "octets", MTU);
    told("the newcomer is a member after, ticked each second", shut_out(TO_FILL, IN_AN_MTU, true, &held), "s", 1200);
}

/* ---- A leave */

/* Leaves among 62 others, is told of so many octets of BYE packets that name nobody, and waits for its BYE for so long
 * at most. Returns how long it waited. */
static double waited(size_t octets_of_goodbyes, uint64_t at_most, uint32_t *byes)
{
    static uint8_t datagram[FULL], octets[JALWEDD_OCTETS];
    struct host host = begun(1024, true, 1);
    for (uint32_t other = 0; other < 62; other++)
        name(&host, INVENTED + other);
    sent_rtp(&host);
    pass(&host, 10 * SECOND);
    const uint64_t left = host.now;
    jalwedd_leave(&host.session, left, random_word(&host), &host.step, octets);
    put_empty_goodbyes(datagram, octets_of_goodbyes);
    if (octets_of_goodbyes != 0)
        rtcp(&host, 0xbad, datagram, octets_of_goodbyes);
    while (host.step.next != JALWEDD_NEVER && host.now - left < at_most) {
        const uint64_t until = due(&host) - left < at_most ? due(&host) : left + at_most;
        pass(&host, until);
    }
    *byes = host.byes;
    jalwedd_free(&host.session);        /* sends nothing */
    return (double)(host.now - left) / SECOND;
}

static void leaving(void)
{
    uint32_t byes;
    printf("A host leaves among 62 others, and BYE packets that name nobody come; how long it waits:\n");
    told("none come: until its BYE", waited(0, NEVER, &byes), "s", 3.079);
    told("one datagram of 1,472 octets: until its BYE", waited(MTU, NEVER, &byes), "s", 0);
    told("one datagram of 65,504 octets: until its BYE", waited(FULL, NEVER, &byes), "s", 0);
    told("the same, with a limit of 5 s", waited(FULL, LEAVE_TIME, &byes), "s", 5);
    holds("no BYE went out then", byes == 0);
    waited(0, LEAVE_TIME, &byes);
    holds("if none come, the BYE goes out within the limit", byes == 1);
}

/* ---- A full table */

/* An hour of a session of two others who report each 5 seconds, in which something else comes each 20 seconds, and a
 * newcomer reports from the first minute on. */
struct hour {
    uint32_t reports, most_entries;
    bool has_both, has_newcomer;        /* at its end */
};

static struct hour an_hour(uint32_t capacity, void (*attack)(struct host *host, uint32_t room))
{
    struct host host = begun(capacity, true, 1);
    struct hour hour = {.has_both = true};
    for (uint32_t second = 0; second < 3600; second += 5) {
        name(&host, VICTIM);
        name(&host, VICTIM + 1);
        if (second % 20 == 0)
            attack(&host, capacity - 2);
        if (second >= 60)
            name(&host, NEWCOMER);
        pass(&host, (second + 5ull) * SECOND);
        hour.has_both &= state_of(&host, VICTIM).member && state_of(&host, VICTIM + 1).member;
        hour.most_entries = host.step.entries > hour.most_entries ? host.step.entries : hour.most_entries;
    }
    hour.reports = host.reports;
    hour.has_newcomer = state_of(&host, NEWCOMER).member;
    jalwedd_free(&host.session);
    return hour;
}

static void no_attack(struct host *host, uint32_t room)
{
    (void)host, (void)room;
}

static void repeat_names(struct host *host, uint32_t room)
{
    static uint8_t datagram[FULL];
    rtcp(host, 0xbad, datagram, put_names(datagram, INVENTED, 1, room));
}

/* One RTP head of each: with the same number again, none is ever valid. */
static void repeat_heads(struct host *host, uint32_t room)
{
    for (uint32_t other = 0; other < room; other++)
        rtp(host, INVENTED + other, 7);
}

/* The same by CSRCs: packets of one source, which count up, name 15 others each. */
static void repeat_csrcs(struct host *host, uint32_t room)
{
    static uint16_t sequence;
    for (uint32_t other = 0; other < room; other += 15)
        rtp_with_csrcs(host, INVENTED, sequence++, INVENTED + 1 + other);
}

static void full_table(uint32_t capacity, double octets_a_second, void (*attack)(struct host *, uint32_t))
{
    const struct hour quiet = an_hour(capacity, no_attack), hour = an_hour(capacity, attack);
    told("what the attacker sends", octets_a_second, "octets a second", 0);
    holds("a newcomer was kept out to the end", !hour.has_newcomer && quiet.has_newcomer);
    holds("both that were present stayed members", hour.has_both);
    told("entries", hour.most_entries, "", capacity);
    told("reports of the host in an hour", hour.reports, "", quiet.reports);
}

static void full_tables(void)
{
    printf("A table of 20 is kept full by names that are repeated each 20 seconds, in one datagram:\n");
    full_table(20, (8 + 4 + 18 * 8) / 20.0, repeat_names);
    printf("A table of 1,024 is kept full by an RTP head of each SSRC each 20 seconds:\n");
    full_table(1024, 1022 * 12 / 20.0, repeat_heads);
    printf("A table of 1,024 is kept full by RTP packets of one source with 15 CSRCs each, each 20 seconds:\n");
    full_table(1024, 69 * 72 / 20.0, repeat_csrcs);
}

/* ---- A full table, in which the host makes room */

enum { MOST = 1024 };

/* The sources that were listed last, by rising SSRC, and since when. */
struct seen {
    uint32_t ssrc;
    uint64_t since;
};

struct listing {
    struct seen seen[MOST];
    size_t count;
};

/* Since when a source is listed: since now, if it was not before. `at` goes on with the SSRCs. */
static uint64_t since(const struct listing *before, size_t *at, uint32_t ssrc, uint64_t now)
{
    while (*at < before->count && before->seen[*at].ssrc < ssrc)
        ++*at;
    return *at < before->count && before->seen[*at].ssrc == ssrc ? before->seen[*at].since : now;
}

/* As docs/EMBEDDING.md says: if the table is full, forgets the source that was never valid and is listed for the
 * longest time. Returns whether there was one. */
static bool make_room(struct host *host, struct listing *listed, uint32_t capacity)
{
    static uint8_t octets[JALWEDD_OCTETS];
    struct listing now = {.count = 0};
    jalwedd_source_state source;
    const struct seen *oldest = NULL;
    size_t at = 0;
    for (uint64_t from = 0; jalwedd_source(&host->session, from, &source) == JALWEDD_TAKEN; from = source.ssrc + 1ull) {
        struct seen *seen = &now.seen[now.count++];
        *seen = (struct seen){source.ssrc, since(listed, &at, source.ssrc, host->now)};
        if (!source.member && source.left == JALWEDD_NEVER && (oldest == NULL || seen->since < oldest->since))
            oldest = seen;
    }
    const bool makes = now.count == capacity && oldest != NULL;
    if (makes)
        jalwedd_forget(&host->session, host->now, oldest->ssrc, &host->step, octets);
    *listed = now;
    return makes;
}

/* An hour in which an attacker sends a report of each of so many invented sources each 20 seconds, without a CNAME, and
 * a newcomer reports each 5 seconds from the first minute on, and says goodbye at the end. */
struct crowded {
    double after;                       /* how long after its first report the newcomer was a member, or -1 */
    uint32_t members, forgotten, entries; /* at the end, in all, and the most */
    bool stayed;                        /* the newcomer, from then on */
};

static struct crowded crowded(uint32_t capacity, uint32_t invented, bool makes_room)
{
    enum { FIRST = 60 };
    static struct listing listed;
    struct host host = begun(capacity, true, 1);
    struct crowded hour = {.after = -1, .stayed = true};
    uint8_t datagram[8];
    listed.count = 0;
    for (uint32_t turn = 0; turn < 3600; turn++) {
        for (uint32_t other = turn % 20; other < invented; other += 20) {
            put_report(datagram, INVENTED + other);
            rtcp(&host, 0xbad, datagram, sizeof datagram);
            if (makes_room)
                hour.forgotten += make_room(&host, &listed, capacity);
        }
        if (turn >= FIRST && turn % 5 == 0) {
            name(&host, NEWCOMER);
            if (makes_room)
                hour.forgotten += make_room(&host, &listed, capacity);
        }
        const bool is_member = state_of(&host, NEWCOMER).member;
        if (is_member && hour.after < 0)
            hour.after = turn - FIRST;
        hour.stayed &= is_member || hour.after < 0;
        hour.entries = host.step.entries > hour.entries ? host.step.entries : hour.entries;
        pass(&host, (turn + 1ull) * SECOND);
    }
    hour.members = host.step.members;
    jalwedd_free(&host.session);
    return hour;
}

static void making_room(void)
{
    const struct crowded without = crowded(20, 20, false), with = crowded(20, 20, true);
    const struct crowded large = crowded(1024, 2000, true);
    printf("A table of 20 is kept full by reports of 20 invented sources, one a second, without a CNAME:\n");
    told("what the attacker sends", 8, "octets a second", 0);
    holds("a newcomer is kept out to the end", without.after < 0 && without.members == 1 && without.entries == 20);
    printf("The host forgets whom it lists for the longest time of those who were never valid:\n");
    told("the newcomer is a member after", with.after, "s", 0);
    holds("at its first report, and it stays", with.after == 0 && with.stayed && with.members == 2);
    told("sources that it forgets in an hour", with.forgotten, "", 0);
    printf("The same for a table of 1,024, and 2,000 invented sources:\n");
    holds("the newcomer is a member at its first report, and stays", large.after == 0 && large.stayed);
    told("sources that it forgets in an hour", large.forgotten, "", 0);
}

/* ---- What is sent, whatever comes */

/* A report with the host's own SSRC, from this peer. */
static void name_own(struct host *host, uint64_t peer)
{
    uint8_t datagram[8];
    put_report(datagram, host->step.ssrc);
    rtcp(host, peer, datagram, sizeof datagram);
}

/* The host sends a packet each millisecond, and each millisecond another peer names its SSRC. */
static void collisions(void)
{
    struct host host = begun(1024, true, 1);
    uint32_t changes = 0, last = 0;
    for (uint32_t peer = 1; peer <= 1000; peer++) {
        sent_rtp(&host);
        name_own(&host, peer);
        changes += host.step.changed;
        last = host.step.changed ? peer : last;
        pass(&host, host.now + SECOND / 1000);
    }
    printf("1,000 peers name the host's own SSRC, one each millisecond, and it sends under it in between:\n");
    told("changes of its SSRC", changes, "", 8);
    told("BYEs", host.byes, "", 8);
    told("the last change comes after", last, "ms", 0);
    jalwedd_free(&host.session);
}

/* Something that an attacker, the others or the host does. */
static void something(struct host *host)
{
    static uint8_t datagram[FULL];
    const uint32_t ssrc = INVENTED + random_word(host) % 2000;
    switch (random_word(host) % 8) {
    case 0:
        sent_rtp(host);
        break;
    case 1:
        put_empty_goodbyes(datagram, MTU);
        rtcp(host, 0xbad, datagram, MTU);
        break;
    case 2:
        rtcp(host, 0xbad, datagram, put_names(datagram, ssrc, 1, 1 + random_word(host) % 180));
        break;
    case 3:
        say_goodbye(host, ssrc);
        break;
    case 4:
        sent_rtp(host);
        name_own(host, random_word(host));
        break;
    case 5:
        put_report(datagram, ssrc);     /* the smallest compound brings the average down */
        rtcp(host, 0xbad, datagram, 8);
        break;
    case 6:
        rtp(host, host->step.ssrc, 7);
        break;
    default:
        tick(host);
    }
}

/* Two minutes of this, then a leave, and two more. */
static struct host stormed(uint64_t seed)
{
    static uint8_t octets[JALWEDD_OCTETS];
    struct host host = begun(1024, seed % 2 == 0, seed);
    while (host.now < 120 * SECOND) {
        something(&host);
        pass(&host, host.now + random_word(&host) % (SECOND / 5));
    }
    jalwedd_leave(&host.session, host.now, random_word(&host), &host.step, octets);
    count_out(&host);
    while (host.step.next != JALWEDD_NEVER && host.now < 240 * SECOND) {
        if (seed % 4 != 0)              /* otherwise nothing holds back the BYE */
            something(&host);
        pass(&host, host.now + random_word(&host) % (SECOND / 5));
    }
    jalwedd_free(&host.session);
    return host;
}

static void storms(void)
{
    uint64_t least_gap = NEVER;
    uint32_t byes = 0, reports = 0;
    for (uint64_t seed = 1; seed <= RUNS; seed++) {
        const struct host host = stormed(seed);
        least_gap = host.least_gap < least_gap ? host.least_gap : least_gap;
        byes = host.byes > byes ? host.byes : byes;
        reports += host.reports;
    }
    printf("All of this at random, with the host's own SSRC from many peers, in %d sessions, %u reports in all:\n",
           RUNS, reports);
    told("BYEs of a session", byes, "", 9);
    told("least time between two reports", (double)least_gap / SECOND, "s", 0);
    holds("that is 2.052074 s or more", least_gap >= 2052074);
}

/* ---- Averages and statistics */

static uint8_t full[FULL];

/* Packets of this header, so many words after it, up to so many octets; what is left over is one APP packet. */
static void fill(uint32_t header, uint32_t words, size_t octets)
{
    uint8_t *at = put_report(full, VICTIM);
    memset(at, 0, sizeof full - 8);
    for (; at + 4 * (words + 1) + 12 <= full + octets; at += 4 * (words + 1))
        put_word(at, header | words);
    put_word(at, 0x80cc0000 | ((uint32_t)(full + octets - at) / 4 - 1));
}

/* The reports in an hour of a host among 200 others, each of whom reports once a minute, where so many datagrams of a
 * size come each 3 seconds. */
static uint32_t reports_by_size(uint32_t count, size_t octets)
{
    struct host host = begun(1024, true, 1);
    fill(0x80cc0000, 2, FULL);
    for (uint32_t turn = 0; turn < 3600 / 3; turn++) {
        for (uint32_t other = 0; other < 10; other++)
            name(&host, INVENTED + (turn * 10 + other) % 200);
        for (uint32_t datagram = 0; datagram < count; datagram++)
            rtcp(&host, 0xbad, full, octets);
        pass(&host, (turn + 1) * 3ull * SECOND);
    }
    jalwedd_free(&host.session);
    return host.reports;
}

static void averages(void)
{
    printf("Datagrams that move the average size, by which 201 members space their reports; reports in an hour:\n");
    told("none come", reports_by_size(0, 0), "", 0);
    told("100 a second of 8 octets", reports_by_size(300, 8), "", 1 + 3600 / 2.052074);
    told("one each 3 seconds of 1,472 octets", reports_by_size(1, MTU), "", 0);
    told("one each 3 seconds of 65,504 octets", reports_by_size(1, FULL), "", 0);
}

static void statistics(void)
{
    struct host host = begun(1024, true, 1);
    for (uint16_t sequence = 0; sequence < 1000; sequence++)
        if (sequence % 10 != 0)
            rtp(&host, VICTIM, sequence);
    const jalwedd_source_state before = state_of(&host, VICTIM);
    rtp(&host, VICTIM, 30000);
    rtp(&host, VICTIM, 30001);
    const jalwedd_source_state after = state_of(&host, VICTIM);
    printf("Two RTP heads with the SSRC of another sender and numbers far away:\n");
    told("packets lost of it before", before.lost, "", 0);
    told("packets lost of it after", after.lost, "", 0);
    told("packets received of it after", (double)after.received, "", 0);
    jalwedd_free(&host.session);
}

/* ---- Parts, with a cursor and by index */

static size_t size;                     /* of the datagram in `full` */

/* A walk with a cursor and one by index over the parts of a kind: how many there are. */
#define WALKS(kind, part)                                                                                              \
    static uint32_t walk_##kind(void)                                                                                  \
    {                                                                                                                  \
        jalwedd_cursor cursor = JALWEDD_BEGIN;                                                                         \
        part given;                                                                                                    \
        uint32_t count = 0;                                                                                            \
        while (jalwedd_next_##kind(full, size, &cursor, &given) == JALWEDD_TAKEN)                                      \
            count++;                                                                                                   \
        return count;                                                                                                  \
    }                                                                                                                  \
    static uint32_t index_##kind(void)                                                                                 \
    {                                                                                                                  \
        part given;                                                                                                    \
        uint32_t count = 0;                                                                                            \
        while (jalwedd_##kind(full, size, count, &given) == JALWEDD_TAKEN)                                             \
            count++;                                                                                                   \
        return count;                                                                                                  \
    }

WALKS(sdes_item, jalwedd_item_place)
WALKS(goodbye, jalwedd_goodbye_place)
WALKS(app, jalwedd_app_place)
WALKS(block, jalwedd_report)

static uint32_t check_whole(void)
{
    jalwedd_fault fault;
    return jalwedd_check(full, size, &fault) == JALWEDD_TAKEN;
}

/* A datagram of this size that is full of SDES items: of no other does the check take longer, as it reads each item. */
static uint8_t full_of_items[FULL];

static uint32_t check_items(void)
{
    jalwedd_fault fault;
    return jalwedd_check(full_of_items, size, &fault) == JALWEDD_TAKEN;
}

/* The least times that these take, of so many rounds in which each has its turn: other work on the machine only adds to
 * a time, and it adds to all of them alike. */
static void least_times(uint32_t (*const works[])(void), double least[], size_t count, uint32_t rounds)
{
    for (size_t work = 0; work < count; work++)
        least[work] = 1e9;
    for (uint32_t round = 0; round < rounds; round++)
        for (size_t work = 0; work < count; work++) {
            const double begin = seconds();
            works[work]();
            const double taken = seconds() - begin;
            least[work] = taken < least[work] ? taken : least[work];
        }
}

/* The times of a check and of a walk over all parts, which the page bounds by the longest check. If the check reads
 * each part, the walk is bounded by that of its datagram too; of BYEs and reports the check reads only heads. */
static void walk(const char *what, uint32_t (*walked)(void), uint32_t (*indexed)(void), bool reads_each)
{
    uint32_t (*const works[])(void) = {check_items, check_whole, walked};
    double least[3], by_index;
    least_times(works, least, 3, size == MTU ? 20000 : 2000);
    least_times(&indexed, &by_index, 1, size == MTU ? 20 : 1);
    const uint32_t parts = walked();
    printf("    %u %s: %.4f ms by the cursor, %.4f ms for the check, %.2f ms by index\n", parts, what, least[2] * 1e3,
           least[1] * 1e3, by_index * 1e3);
    holds("by index there are as many", parts != 0 && indexed() == parts);
    told("by the cursor", least[2] / least[0], "times the longest check of that size", 5);
    told("by the cursor", least[2] / least[1], "times its check", reads_each ? 5 : 0);
    told("by index", by_index / least[1], "times its check", 0);
}

/* One chunk of as many items as there is room for, each a NOTE of 0 octets. */
static void put_items(void)
{
    uint8_t *chunk = put_packet(put_report(full, VICTIM), 1, 202, (uint32_t)size / 4 - 3, VICTIM) - (size - 16);
    for (size_t at = 0; at < size - 16; at++)
        chunk[at] = at < size - 18 && at % 2 == 0 ? 7 : 0;
}

static void parts_of(size_t octets)
{
    printf("The parts of a datagram of %zu octets, which is full of one kind of part:\n", octets);
    size = octets;
    put_items();
    memcpy(full_of_items, full, size);
    walk("SDES items", walk_sdes_item, index_sdes_item, true);
    fill(0x9fcb0000, 31, octets);
    walk("sources of BYEs", walk_goodbye, index_goodbye, false);
    fill(0x80cc0000, 2, octets);
    walk("APP packets", walk_app, index_app, true);
    fill(0x9fc90000, 1 + 31 * 6, octets);
    walk("report blocks", walk_block, index_block, false);
}

static void parts(void)
{
    parts_of(MTU);
    parts_of(FULL);
}

/* ---- A session that does not start at 0 */

/* A host whose clock stands at ten minutes at the start, ticks at next alone until its first report. */
static void first_reports(void)
{
    enum { SEEDS = 1000 };
    const uint64_t start = 600ull * SECOND;
    uint64_t least = NEVER, most = 0;
    for (uint64_t seed = 1; seed <= SEEDS; seed++) {
        struct host host = begun_at(start, 1024, false, seed);
        while (host.reports == 0)
            pass(&host, due(&host));
        least = host.reported - start < least ? host.reported - start : least;
        most = host.reported - start > most ? host.reported - start : most;
        jalwedd_free(&host.session);
    }
    printf("The first report of a session that starts at 600 s by the host's clock, alone, in %d sessions:\n", SEEDS);
    told("earliest, after the start", (double)least / SECOND, "s", 0);
    told("latest, after the start", (double)most / SECOND, "s", 3.0782);
    holds("none comes before 1.026037 s", least >= 1026037);
}

int main(void)
{
    returning();
    names();
    leaving();
    full_tables();
    making_room();
    collisions();
    storms();
    averages();
    statistics();
    parts();
    first_reports();
    return is_beyond;
}
