/* A conference server: 200 sessions of 5 to 20 members on a virtual clock, with a participant in each. They start one
 * after the other by the server's clock. The server keeps no table of its own. When a step has `others_changed`, it
 * lists the sources again, and the role changes between the two listings say who joined, left, timed out, began to send
 * or stopped, until the participant leaves: from then on it lists nobody, and nobody times out. The server dismisses
 * nobody (jalwedd_forget), so whoever goes without a BYE was silent for too long. It ticks each session at step.next
 * and at each full second, as only a tick drops those who left or fell silent. The members lose packets, fall silent,
 * and take the server's SSRC; in some sessions a flood of invented SSRCs fills the table.
 *
 * Each second of each session, the server's listing and counts are compared with what docs/PROTOCOL.md requires
 * (server_rules.c), given the datagrams that came (server_members.c). The first difference ends the program with
 * status 1. The same seed gives the same sessions.
 *
 *     cc -std=c11 -O2 server.c server_members.c server_rules.c -o server $(pkg-config --cflags --libs jalwedd)
 *     server [SEED [SESSION]]         prints the role changes in that session
 *
 * The time that a listing takes is printed on standard error. The whole takes some three seconds of one core.
 */
#include "server_rules.h"

#include <stdio.h>
#include <stdlib.h>
#include <string.h>
#include <time.h>

enum { SESSIONS = 200, LENGTH = 150, LONG_TABLE = 1000, WALKS = 1000 };

static const char *const WORDS[EVENTS] = {"joined", "left", "timed out", "began to send", "stopped sending",
                                          "table full"};

/* Sources by rising SSRC. */
struct listing {
    jalwedd_source_state sources[ROOM];
    uint32_t count;
};

/* The roles of the members by the changes alone, in no order. */
struct roles {
    uint32_t ssrc[ROOM], role[ROOM], count;
};

struct session {
    jalwedd_handle participant;
    jalwedd_step step;
    struct listing listing;             /* who was there after the last call that changed others */
    uint32_t tally[EVENTS];             /* how often each happened */
    uint64_t start;                     /* when it starts by the server's clock */
    uint64_t now, random;               /* the time since then, by which its members act */
    uint32_t number;
    bool is_shown, is_full, has_left;   /* the last: the participant, with jalwedd_leave */
    struct roles roles;                 /* from here on for the comparison alone */
    struct members members;
    struct known known;
};

static _Noreturn void stop(const char *why)
{
    printf("server: %s\n", why);
    exit(1);
}

/* Ends the program where they differ. */
static void compare(const struct session *session, const char *what, uint64_t is, uint64_t has_to_be)
{
    if (is == has_to_be)
        return;
    printf("session %u after %.6f s: %s: %llu in place of %llu\n", session->number, (double)session->now / SECOND,
           what, (unsigned long long)is, (unsigned long long)has_to_be);
    exit(1);
}

/* The moment of the server's clock that is so much later than the session's start. */
static uint64_t by_clock(const struct session *session, uint64_t since_start)
{
    return since_start == NEVER ? NEVER : session->start + since_start;
}

/* When the next tick is due, as a time since the start. */
static uint64_t next_of(const struct session *session)
{
    return session->step.next == JALWEDD_NEVER ? NEVER : session->step.next - session->start;
}

/* ---- Roles by the changes */

static uint32_t role_of(const jalwedd_source_state *source)
{
    return source->member == 0 ? JALWEDD_AWAY : source->sender == 0 ? JALWEDD_MEMBER : JALWEDD_SENDER;
}

/* The place of a source, or that after the last one. */
static uint32_t place_in(const struct roles *roles, uint32_t ssrc)
{
    uint32_t at = 0;
    while (at < roles->count && roles->ssrc[at] != ssrc)
        at++;
    return at;
}

static uint32_t role_in(const struct roles *roles, uint32_t ssrc)
{
    const uint32_t at = place_in(roles, ssrc);
    return at < roles->count ? roles->role[at] : JALWEDD_AWAY;
}

static void move_role(struct roles *roles, const jalwedd_role_change *change)
{
    const uint32_t at = place_in(roles, change->ssrc);
    if (at == ROOM)
        stop("more members than there is room for");
    if (at == roles->count)
        roles->count++;
    roles->ssrc[at] = change->ssrc;
    roles->role[at] = change->is;
    if (change->is != JALWEDD_AWAY)
        return;
    roles->count--;
    roles->ssrc[at] = roles->ssrc[roles->count];
    roles->role[at] = roles->role[roles->count];
}

/* ---- The server */

static void list(jalwedd_handle *participant, struct listing *listing)
{
    jalwedd_source_state source;
    listing->count = 0;
    for (uint64_t from = 0; jalwedd_source(participant, from, &source) == JALWEDD_TAKEN;
         from = (uint64_t)source.ssrc + 1)
        listing->sources[listing->count++] = source;
}

static void happened(struct session *session, enum event event, uint32_t ssrc)
{
    session->tally[event]++;
    if (session->is_shown)
        printf("%10.6f s: %08x %s\n", (double)session->now / SECOND, ssrc, WORDS[event]);
}

static enum event event_of(const jalwedd_role_change *change)
{
    if (change->is == JALWEDD_AWAY)
        return change->left ? LEFT : TIMED_OUT;
    if (change->was == JALWEDD_AWAY)
        return JOINED;
    return change->is == JALWEDD_SENDER ? BEGAN : STOPPED;
}

/* Lists the sources again, and acts on what changed since the previous listing. */
static void take_changes(struct session *session)
{
    const struct listing before = session->listing;
    const struct listing *after = &session->listing;
    jalwedd_role_change change;
    list(&session->participant, &session->listing);
    for (uint64_t from = 0; jalwedd_change(before.sources, before.count, after->sources, after->count, from, &change)
         == JALWEDD_TAKEN; from = (uint64_t)change.ssrc + 1) {
        happened(session, event_of(&change), change.ssrc);
        compare(session, "an earlier role", change.was, role_in(&session->roles, change.ssrc));
        move_role(&session->roles, &change);
    }
}

/* Acts on the step of a call. A compound that it hands out would go to all members here. A leave has others_changed
 * too, but then nobody is listed, and listings are not compared. */
static void take_step(struct session *session)
{
    const bool was_full = session->is_full;
    session->is_full = session->step.entries == ROOM;
    if (session->step.others_changed && !session->has_left)
        take_changes(session);
    if (session->is_full && !was_full)
        happened(session, FULL, session->step.ssrc);
}

static void begin(struct session *session, uint32_t number, uint64_t seed)
{
    const jalwedd_item none = {0};
    *session = (struct session){.number = number, .random = seed, .start = (600 + number) * (uint64_t)SECOND};
    const uint32_t ssrc = random_word(&session->random);
    /* of a session of 64 million bits a second */
    const jalwedd_config config = {.ntp_base = (uint64_t)(3900000000u + number) << 32, .start = session->start,
                                   .ssrc = ssrc, .capacity = ROOM, .limit = 1472, .sender_bw = 100000,
                                   .receiver_bw = 300000, .rate = RATE};
    const uint8_t cname[] = "server@example.com";
    if (jalwedd_new(&session->participant, &config, cname, sizeof cname - 1, &none, 0, random_word(&session->random),
                    &session->step) != JALWEDD_TAKEN)
        stop("no participant");
    session->known.ssrc = ssrc;
    begin_members(&session->members, number, seed + SESSIONS);
}

/* What the blocks of a report say is what is known of the latest block about a source. */
static void compare_report(struct session *session, const uint8_t *octets, uint32_t blocks)
{
    jalwedd_cursor cursor = JALWEDD_BEGIN;
    jalwedd_report block;
    jalwedd_source_state source;
    uint32_t count = 0;
    for (; jalwedd_next_block(octets, session->step.size, &cursor, &block) == JALWEDD_TAKEN; count++) {
        const uint32_t status = jalwedd_source(&session->participant, block.ssrc, &source);
        compare(session, "status of the source of a block", status, JALWEDD_TAKEN);
        compare(session, "SSRC of a block", block.ssrc, source.ssrc);
        compare(session, "fraction lost of a block", block.fraction, source.fraction);
        compare(session, "highest sequence number of a block", block.highest, source.block_highest);
    }
    compare(session, "blocks", count, blocks);
}

static void tick(struct session *session)
{
    static uint8_t octets[JALWEDD_OCTETS];
    const uint32_t word = random_word(&session->random), another = random_word(&session->random);
    const uint64_t now = by_clock(session, session->now);
    const uint32_t status = jalwedd_tick(&session->participant, now, word, another, &session->step, octets);
    compare(session, "status of a tick", status, JALWEDD_TAKEN);
    take_step(session);
    know_tick(&session->known, session->now);
    compare(session, "others changed", session->step.others_changed, session->known.others_changed);
    if (session->step.kind == JALWEDD_REPORT)
        compare_report(session, octets, know_report(&session->known));
}

/* Passes what came to the participant, if anything did. */
static void hear(struct session *session)
{
    static uint8_t octets[JALWEDD_OCTETS];
    struct datagram came;
    if (!next_datagram(&session->members, session->step.ssrc, &came))
        return;
    const uint32_t word = random_word(&session->random);
    const uint32_t status = (came.is_rtp ? jalwedd_arrive_rtp : jalwedd_arrive_rtcp)(
        &session->participant, by_clock(session, session->now), came.peer, word, came.octets, came.size,
        &session->step, octets);
    take_step(session);
    compare(session, "status", status, know_datagram(&session->known, session->now, &came, word));
    compare(session, "others changed", session->step.others_changed, session->known.others_changed);
}

/* In each fourth session the server speaks as each minute begins: a packet a second, for ten seconds. */
static void speak(struct session *session)
{
    static uint8_t octets[JALWEDD_OCTETS];
    const uint64_t second = session->now / SECOND;
    if (session->number % 4 != 0 || second % 60 >= 10)
        return;
    jalwedd_sent_rtp(&session->participant, by_clock(session, session->now), (uint32_t)(second * RATE), 160,
                     &session->step, octets);
    take_step(session);
    know_sent(&session->known, session->now);
    compare(session, "others changed", session->step.others_changed, session->known.others_changed);
}

/* ---- The comparison */

static void compare_source(const struct session *session, const jalwedd_source_state *is,
                           const jalwedd_source_state *has_to_be)
{
    compare(session, "SSRC", is->ssrc, has_to_be->ssrc);
    compare(session, "moment of the goodbye", is->left, by_clock(session, has_to_be->left));
    compare(session, "moment of the last sighting", is->heard, by_clock(session, has_to_be->heard));
    compare(session, "member", is->member, has_to_be->member);
    compare(session, "sender", is->sender, has_to_be->sender);
    compare(session, "packets received", is->received, has_to_be->received);
    compare(session, "packets lost, modulo 2^32", (uint32_t)is->lost, (uint32_t)has_to_be->lost);
    compare(session, "octets received", is->octets, has_to_be->octets);
    compare(session, "highest sequence number", is->highest, has_to_be->highest);
    compare(session, "jitter", is->jitter, has_to_be->jitter);
    compare(session, "moment of the last sender report", is->told, by_clock(session, has_to_be->told));
    compare(session, "its NTP timestamp", is->ntp, has_to_be->ntp);
    compare(session, "its RTP timestamp", is->rtp, has_to_be->rtp);
    compare(session, "whether there was a block", is->has_block, has_to_be->has_block);
    compare(session, "fraction lost by the latest block", is->fraction, has_to_be->fraction);
    compare(session, "highest sequence number by it", is->block_highest, has_to_be->block_highest);
}

static void compare_listing(const struct session *session, const struct listing *listing)
{
    compare(session, "sources", listing->count, session->known.count);
    for (uint32_t at = 0; at < listing->count; at++) {
        const jalwedd_source_state *source = &listing->sources[at], known = known_state(&session->known, at);
        compare_source(session, source, &known);
        compare(session, "role by the changes", role_in(&session->roles, source->ssrc), role_of(source));
    }
}

static void compare_tallies(const struct session *session)
{
    for (int at = 0; at < EVENTS; at++)
        compare(session, WORDS[at], session->tally[at], session->known.tally[at]);
}

/* Each second, after a tick that may be due or not: a host ticks at least once a second, so that those who left or were
 * silent for too long are dropped in time. */
static void compare_all(struct session *session)
{
    const jalwedd_step *step = &session->step;
    const struct known *known = &session->known;
    struct listing listing;
    tick(session);
    list(&session->participant, &listing);
    compare_listing(session, &listing);
    compare_tallies(session);
    compare(session, "own SSRC", step->ssrc, known->ssrc);
    compare(session, "members", step->members, known_members(known));
    compare(session, "members by the changes", 1 + session->roles.count, known_members(known));
    compare(session, "senders", step->senders, known_senders(known));
    compare(session, "entries", step->entries, known->count);
}

/* One second: the datagrams that come in it, the ticks at step.next, and one at its end. The sessions advance side by
 * side, a second at a time: nothing goes from one to another. */
static void run_second(struct session *session, uint64_t end)
{
    const struct members *members = &session->members;
    speak(session);
    while (members->due < end || next_of(session) < end) {
        const bool is_tick = next_of(session) <= members->due;
        const uint64_t due = is_tick ? next_of(session) : members->due;
        if (due > session->now)         /* a departure may bring the next tick sooner than now */
            session->now = due;
        if (is_tick)
            tick(session);
        else
            hear(session);
    }
    session->now = end;
    compare_all(session);
}

/* ---- What a listing takes */

static void fill(jalwedd_handle *participant, jalwedd_step *step)
{
    static uint8_t octets[JALWEDD_OCTETS];
    uint8_t report[20] = {0x80, 0xc9, 0, 1, 0, 0, 0, 0, 0x81, 0xca, 0, 2, 0, 0, 0, 0, 1, 1, 'm', 0};
    uint64_t seed = 3550;
    for (uint32_t at = 0; at < LONG_TABLE; at++) {
        const uint32_t ssrc = random_word(&seed);
        memcpy(report + 4, &ssrc, 4);
        memcpy(report + 12, &ssrc, 4);
        jalwedd_arrive_rtcp(participant, 0, at, 0, report, sizeof report, step, octets);
    }
}

static void time_walks(void)
{
    const jalwedd_config config = {.ssrc = 0xaa, .capacity = 1024, .limit = 1472, .sender_bw = 100,
                                   .receiver_bw = 300, .rate = RATE};
    const jalwedd_item none = {0};
    jalwedd_handle participant = JALWEDD_EMPTY;
    jalwedd_step step;
    jalwedd_source_state source;
    uint64_t from = 0, count = 0;
    if (jalwedd_new(&participant, &config, (const uint8_t *)"a", 1, &none, 0, 0, &step) != JALWEDD_TAKEN)
        stop("no participant for the walks");
    fill(&participant, &step);
    const clock_t begin = clock();
    while (count < (uint64_t)WALKS * LONG_TABLE) {
        const bool is_end = jalwedd_source(&participant, from, &source) != JALWEDD_TAKEN;
        from = is_end ? 0 : (uint64_t)source.ssrc + 1;
        count += !is_end;
    }
    const double taken = (double)(clock() - begin) / CLOCKS_PER_SEC;
    fprintf(stderr, "a walk over %u sources takes %.0f nanoseconds a source\n", step.entries, taken * 1e9 / count);
    jalwedd_free(&participant);
}

/* ---- All sessions */

static struct session *begin_all(uint64_t seed, uint32_t shown)
{
    struct session *all = calloc(SESSIONS, sizeof *all);
    if (all == NULL)
        stop("no memory");
    for (uint32_t at = 0; at < SESSIONS; at++)
        begin(&all[at], at, seed * 1000003 + at * 2 * SESSIONS);
    if (shown < SESSIONS)
        all[shown].is_shown = true;
    return all;
}

/* The participants leave. From then on they list nobody, and nobody is told to have timed out. With so few members a
 * BYE is handed out at once; a server of larger sessions would tick for some seconds more, and then free the
 * participants whose BYE is not yet due. */
static void end_all(struct session *all)
{
    static uint8_t octets[JALWEDD_OCTETS];
    struct listing listing;
    for (uint32_t at = 0; at < SESSIONS; at++) {
        struct session *session = &all[at];
        const uint32_t timed_out = session->tally[TIMED_OUT];
        session->has_left = true;
        jalwedd_leave(&session->participant, by_clock(session, session->now), random_word(&session->random),
                      &session->step, octets);
        compare(session, "others changed by a leave", session->step.others_changed, session->roles.count > 0);
        take_step(session);
        compare(session, "time-outs by a leave", session->tally[TIMED_OUT], timed_out);
        list(&session->participant, &listing);
        compare(session, "sources after a leave", listing.count + session->step.entries, 0);
        jalwedd_free(&session->participant);
    }
    free(all);
}

static uint32_t sum_of(const struct session *all, enum event event)
{
    uint32_t sum = 0;
    for (uint32_t at = 0; at < SESSIONS; at++)
        sum += all[at].tally[event];
    return sum;
}

static void print_sums(const struct session *all)
{
    uint32_t changes = 0;
    for (uint32_t at = 0; at < SESSIONS; at++)
        changes += all[at].known.changes;
    printf("%u sessions, %u session-seconds compared: no difference;", SESSIONS, SESSIONS * LENGTH);
    for (int at = 0; at < EVENTS; at++)
        printf(" %s: %u,", WORDS[at], sum_of(all, (enum event)at));
    printf(" own SSRC changed: %u\n", changes);
}

int main(int count, char **words)
{
    if (count > 3) {
        fprintf(stderr, "usage: server [SEED [SESSION]]\n");
        return 2;
    }
    const uint64_t seed = count > 1 ? strtoull(words[1], NULL, 10) : 3550;
    const uint32_t shown = count > 2 ? (uint32_t)strtoul(words[2], NULL, 10) : SESSIONS;
    struct session *all = begin_all(seed, shown);
    for (uint32_t at = 0; at < SESSIONS * LENGTH; at++)
        run_second(&all[at % SESSIONS], (uint64_t)(at / SESSIONS + 1) * SECOND);
    print_sums(all);
    end_all(all);
    time_walks();
    return 0;
}
