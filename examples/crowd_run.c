/* The run of a crowd: its participants act one after the other, each when it is due, on one clock for all. What goes
 * out is written down as the laws look at it: with what its participant counted, and with the average size of compounds
 * by which its interval was computed, which is kept beside each participant. */
#include "crowd_run.h"
#include "jalwedd.h"

#include <stdlib.h>
#include <string.h>

enum {
    SECOND = 1000000,
    SENDER_BW = 100,                    /* of 64,000 bits a second: 5 per cent is for RTCP, a quarter of that for */
    RECEIVER_BW = 300,                  /* senders, and the rest for the others */
    GOODBYE = REPORT + 8,
    SENDER_REPORT = 200,                /* the type of the packet */
    CLOSE_TO = 50,                      /* who knows a count knows it but for one in so many */
    RATE = 8000,                        /* of the media clock, units a second */
    RTP_HEAD = 12,                      /* octets */
    RTP_EACH = 2                        /* seconds: sooner than a sender is forgotten (RFC 3550, 6.3.5) */
};

static const uint64_t NEVER = UINT64_MAX;
const struct terms TERMS = {.sender_bw = SENDER_BW, .receiver_bw = RECEIVER_BW, .size = REPORT};

enum phase { AWAY, PRESENT, LEAVING, GONE };

struct participant {
    jalwedd_handle session;
    jalwedd_step step;
    uint64_t joins, leaves;             /* microseconds of the virtual clock; NEVER for those who stay */
    uint64_t left;                      /* when it did leave */
    uint64_t rtp_due;                   /* when it sends its next RTP packet; NEVER for those who send none */
    uint64_t due;                       /* when it is to act next */
    uint32_t group, place;              /* its place in the heap */
    uint32_t told;                      /* how many datagrams of its group it was told, or joined too late for */
    uint32_t average;                   /* the average size of the compounds that it sent or was told, in 1/256 octet */
    uint32_t byes;                      /* after its leave: 1, and one for each BYE that it was told since */
    uint16_t sequence;                  /* the number of that packet */
    enum phase phase;
    bool is_wrong;                      /* it stays, and does not know how many stay */
    bool is_heard;                      /* without the library: a report of it went out */
};

/* A datagram that went out, and where its octets stand among those of its group. */
struct datagram {
    uint64_t comes;                     /* to all others */
    size_t at;
    uint32_t from, size;
    bool is_rtp, is_bye;
};

struct group {
    struct datagram *datagrams;
    uint8_t *octets;
    struct sent *sent;                  /* of each compound among these, what it was decided by */
    size_t datagrams_room, octets_room, sent_room;
    size_t size;                        /* of the octets */
    uint32_t count, sent_count;
    uint32_t came;                      /* how many of the datagrams had come when someone joined last */
    uint32_t staying;
    uint32_t heard;                     /* without the library: those of whom a report went out, and no BYE */
    uint32_t average;                   /* without the library: the average size of compounds, in 1/256 octet */
};

/* A BYE on its way. */
struct flight {
    uint64_t comes;
    uint32_t group;
};

/* The participants of all groups, one of each group after the other, and the heap of when they act next. */
struct crowd {
    struct participant *all, **heap;
    struct group *groups;
    struct flight *flights;             /* of all BYEs, of which so many have come */
    size_t flights_room;
    uint32_t flight_count, landed;
    uint64_t now, random;
    uint32_t delay, turns, turn;        /* of the plan */
    uint32_t drawn;                     /* the word for the next interval of who reports */
    uint32_t wrong;                     /* how many are */
    struct course course;
};

/* The next word of splitmix64. */
static uint32_t random_word(struct crowd *crowd)
{
    uint64_t word = crowd->random += 0x9e3779b97f4a7c15u;
    word = (word ^ word >> 30) * 0xbf58476d1ce4e5b9u;
    word = (word ^ word >> 27) * 0x94d049bb133111ebu;
    return (uint32_t)((word ^ word >> 31) >> 32);
}

/* An array, or the one that takes its place, with room for so many things of a size. */
static void *with_room(void *array, size_t *room, size_t count, size_t size)
{
    if (count <= *room)
        return array;
    *room = 2 * count + 1024;
    array = realloc(array, *room * size);
    if (array == NULL)
        stop("no memory", JALWEDD_NO_MEMORY);
    return array;
}

/* ---- The heap: whoever is due first stands at its top */

static void put(struct crowd *crowd, uint32_t place, struct participant *who)
{
    crowd->heap[place] = who;
    who->place = place;
}

static void rise(struct crowd *crowd, struct participant *who)
{
    uint32_t place = who->place;
    while (place > 0 && who->due < crowd->heap[(place - 1) / 2]->due) {
        put(crowd, place, crowd->heap[(place - 1) / 2]);
        place = (place - 1) / 2;
    }
    put(crowd, place, who);
}

/* The one below a place that is due first, or NULL. */
static struct participant *below(const struct crowd *crowd, uint32_t place)
{
    const uint32_t left = 2 * place + 1, count = crowd->course.participants;
    if (left >= count)
        return NULL;
    const bool is_right = left + 1 < count && crowd->heap[left + 1]->due < crowd->heap[left]->due;
    return crowd->heap[left + is_right];
}

static void sink(struct crowd *crowd, struct participant *who)
{
    uint32_t place = who->place;
    for (struct participant *next; (next = below(crowd, place)) != NULL && next->due < who->due;) {
        const uint32_t freed = next->place;
        put(crowd, place, next);
        place = freed;
    }
    put(crowd, place, who);
}

static void set_due(struct crowd *crowd, struct participant *who, uint64_t due)
{
    const uint64_t before = who->due;
    who->due = due;
    if (due < before)
        rise(crowd, who);
    else if (due > before)
        sink(crowd, who);
}

/* Whoever is due before the end, as the clock goes on to then; or NULL. */
static struct participant *next_due(struct crowd *crowd)
{
    struct participant *first = crowd->heap[0];
    if (first->due >= (uint64_t)crowd->course.end * SECOND)
        return NULL;
    if (first->due > crowd->now)        /* what a departure moved may be due since before now */
        crowd->now = first->due;
    return first;
}

/* ---- What is written down */

static void count_compound(struct crowd *crowd, const struct participant *who, bool is_bye, uint32_t octets)
{
    struct course *course = &crowd->course;
    struct second *second = &course->seconds[(size_t)who->group * course->end + crowd->now / SECOND];
    second->octets += octets;
    if (!is_bye) {
        second->reports++;
        return;
    }
    second->byes++;
    course->byes++;
    course->last_bye = crowd->now;
}

/* Takes down how many members one who stays knows of. */
static void compare_members(struct crowd *crowd, struct participant *who, uint32_t members)
{
    const int64_t stay = crowd->groups[who->group].staying, off = (int64_t)members - stay;
    const bool is_wrong = who->leaves == NEVER && (off > stay / CLOSE_TO || -off > stay / CLOSE_TO);
    if (is_wrong == who->is_wrong)
        return;
    who->is_wrong = is_wrong;
    crowd->wrong += is_wrong ? 1 : -1u;
    crowd->course.agreed = crowd->wrong == 0 ? crowd->now : NEVER;
}

/* ---- The crowd of the library's participants
 *
 * A datagram comes to all others at one moment. Neither a report nor an RTP packet moves anyone's next moment, so each
 * is told it, with the moment at which it came, when it acts next: then its table stays in the processor's cache for
 * many of them. */

/* Acts on the step of a call. */
static void take_step(struct crowd *crowd, struct participant *who)
{
    const uint64_t host = who->leaves < who->rtp_due ? who->leaves : who->rtp_due;
    uint64_t due = who->step.next;
    if (who->step.next == JALWEDD_NEVER) {
        who->phase = GONE;
        due = NEVER;
        jalwedd_free(&who->session);
    } else if (who->phase == PRESENT && host < due) {
        due = host;
    }
    set_due(crowd, who, due);
    compare_members(crowd, who, who->step.members);
}

/* The average after a compound of so many octets, with headers, that came or went out (RFC 3550, 6.3.3). The library
 * keeps it for itself; that of a backoff is not needed here. */
static uint32_t moved(uint32_t average, uint32_t octets)
{
    return (256 * octets + 15 * average) / 16;
}

static uint32_t tell(struct crowd *crowd, struct participant *who, const struct datagram *came)
{
    static uint8_t unused[JALWEDD_OCTETS];      /* only a change of SSRC hands out a compound here: none collide */
    const uint8_t *octets = &crowd->groups[who->group].octets[came->at];
    const uint32_t word = random_word(crowd);
    if (came->is_rtp)
        return jalwedd_arrive_rtp(&who->session, came->comes, came->from, word, octets, came->size, &who->step, unused);
    who->average = moved(who->average, came->size + HEADERS);
    who->byes += came->is_bye;
    return jalwedd_arrive_rtcp(&who->session, came->comes, came->from, word, octets, came->size, &who->step, unused);
}

/* Passes to a participant the datagrams of the others of its group that it has not been told yet. */
static void catch_up(struct crowd *crowd, struct participant *who)
{
    const struct group *group = &crowd->groups[who->group];
    for (; who->told < group->count && group->datagrams[who->told].comes <= crowd->now; who->told++) {
        const struct datagram *came = &group->datagrams[who->told];
        if (&crowd->all[came->from] == who)
            continue;
        const uint64_t next = who->step.next;
        const uint32_t status = tell(crowd, who, came);
        if (status != JALWEDD_TAKEN || who->step.kind != JALWEDD_NOTHING)
            stop("a datagram was not taken", status);
        if (who->step.next < next && came->comes < crowd->now)
            stop("a datagram was told too late", status);
        if (who->phase == LEAVING && who->step.members != who->byes)
            stop("one who leaves counts other BYEs", who->step.members);
    }
}

static void put_out(struct crowd *crowd, const struct participant *from, const uint8_t *octets, uint32_t size,
                    bool is_rtp, bool is_bye)
{
    struct group *group = &crowd->groups[from->group];
    const struct datagram datagram = {.comes = crowd->now + crowd->delay, .at = group->size, .size = size,
                                      .from = (uint32_t)(from - crowd->all), .is_rtp = is_rtp, .is_bye = is_bye};
    group->datagrams = with_room(group->datagrams, &group->datagrams_room, group->count + 1, sizeof *group->datagrams);
    group->octets = with_room(group->octets, &group->octets_room, group->size + size, 1);
    memcpy(&group->octets[group->size], octets, size);
    group->datagrams[group->count++] = datagram;
    group->size += size;
    if (!is_bye)
        return;
    crowd->flights = with_room(crowd->flights, &crowd->flights_room, crowd->flight_count + 1, sizeof *crowd->flights);
    crowd->flights[crowd->flight_count++] = (struct flight){.comes = datagram.comes, .group = from->group};
}

/* How many datagrams of a group came before now. */
static uint32_t come(const struct crowd *crowd, struct group *group)
{
    while (group->came < group->count && group->datagrams[group->came].comes <= crowd->now)
        group->came++;
    return group->came;
}

static uint32_t join(struct crowd *crowd, struct participant *who)
{
    const uint32_t number = (uint32_t)(who - crowd->all);
    /* an odd factor keeps all SSRCs distinct, and spreads them */
    const jalwedd_config config = {.ntp_base = (uint64_t)3900000000u << 32, .start = who->joins,
                                   .ssrc = (number + 1) * 2654435769u, .capacity = ROOM, .limit = 1472,
                                   .sender_bw = SENDER_BW, .receiver_bw = RECEIVER_BW, .rate = RATE};
    const jalwedd_item none = {0};
    char cname[32];
    const int size = snprintf(cname, sizeof cname, "p%04x@example.com", number);
    who->phase = PRESENT;
    who->told = come(crowd, &crowd->groups[who->group]);
    who->average = 256 * REPORT;
    return jalwedd_new(&who->session, &config, (const uint8_t *)cname, (size_t)size, &none, 0, random_word(crowd),
                       &who->step);
}

static uint32_t leave(struct crowd *crowd, struct participant *who, uint32_t word, uint8_t *octets)
{
    who->phase = LEAVING;
    who->left = crowd->now;
    who->byes = 1;
    const uint32_t status = jalwedd_leave(&who->session, crowd->now, word, &who->step, octets);
    crowd->course.silent += who->step.next == JALWEDD_NEVER && who->step.kind == JALWEDD_NOTHING;
    return status;
}

/* Sends an RTP packet; the others are told only its head. */
static uint32_t send_rtp(struct crowd *crowd, struct participant *who, uint8_t *octets)
{
    const uint32_t timestamp = (uint32_t)((crowd->now - who->joins) * RATE / SECOND), ssrc = who->step.ssrc;
    const uint8_t head[RTP_HEAD] = {
        0x80, 0, (uint8_t)(who->sequence >> 8), (uint8_t)who->sequence,
        (uint8_t)(timestamp >> 24), (uint8_t)(timestamp >> 16), (uint8_t)(timestamp >> 8), (uint8_t)timestamp,
        (uint8_t)(ssrc >> 24), (uint8_t)(ssrc >> 16), (uint8_t)(ssrc >> 8), (uint8_t)ssrc};
    put_out(crowd, who, head, RTP_HEAD, true, false);
    who->sequence++;
    const uint64_t pause = crowd->turn * (crowd->turns > 1 ? crowd->turns - 1 : 1);
    who->rtp_due += (who->sequence % crowd->turn == 0 ? pause + (crowd->turns > 1) : 1) * RTP_EACH * SECOND;
    return jalwedd_sent_rtp(&who->session, crowd->now, timestamp, RATE * RTP_EACH, &who->step, octets);
}

/* Does what is due for a participant; the compound, if it hands one out, goes to `octets`. */
static uint32_t act(struct crowd *crowd, struct participant *who, uint8_t *octets)
{
    if (who->phase == AWAY)
        return join(crowd, who);
    catch_up(crowd, who);
    const uint32_t word = random_word(crowd), another = random_word(crowd);
    if (who->phase == PRESENT && who->leaves <= crowd->now)
        return leave(crowd, who, word, octets);
    if (who->phase == PRESENT && who->rtp_due <= crowd->now)
        return send_rtp(crowd, who, octets);
    crowd->drawn = another;
    return jalwedd_tick(&who->session, crowd->now, word, another, &who->step, octets);
}

/* The next interval is drawn after a report, with the average as the report has moved it: if what was written down is
 * exact, the next moment follows. */
static void check_average(const struct crowd *crowd, const struct participant *who, const struct sent *report)
{
    const uint64_t factor = ((1ull << 31) + crowd->drawn) * WHOLE, divisor = (1ull << 31) * PACE;
    const wide product = (wide)interval_by(&TERMS, report, moved(report->average, report->octets)) * factor;
    const uint64_t interval = (uint64_t)((product + divisor - 1) / divisor);
    if (who->step.next != crowd->now + interval)
        stop("the average is not that of the library", report->average);
}

/* After a tick, its step has what a report was decided by, but for the average. */
static void write_down(struct crowd *crowd, struct participant *who, const jalwedd_step *step, const uint8_t *octets)
{
    struct group *group = &crowd->groups[who->group];
    const bool is_bye = step->kind == JALWEDD_BYE, is_backoff = is_bye && who->left < crowd->now;
    const struct sent sent = {
        .moment = crowd->now, .since = is_backoff ? who->left : UINT64_MAX, .from = (uint32_t)(who - crowd->all),
        .octets = step->size + HEADERS, .members = is_bye ? who->byes : step->members, .senders = step->senders,
        .average = who->average, .sends_rtp = octets[1] == SENDER_REPORT, .is_bye = is_bye};
    group->sent = with_room(group->sent, &group->sent_room, group->sent_count + 1, sizeof *group->sent);
    group->sent[group->sent_count++] = sent;
    count_compound(crowd, who, is_bye, sent.octets);
    who->average = moved(sent.average, sent.octets);
    if (!is_bye)
        check_average(crowd, who, &sent);
}

/* A BYE may bring the next report of those who stay sooner (reverse reconsideration): they are told as it comes. */
static void tell_group(struct crowd *crowd, uint32_t group)
{
    for (uint32_t at = group; at < crowd->course.participants; at += crowd->course.groups) {
        struct participant *who = &crowd->all[at];
        if (who->phase != PRESENT)
            continue;
        catch_up(crowd, who);
        take_step(crowd, who);
    }
}

/* Tells of the BYEs that come before anyone acts. */
static void land(struct crowd *crowd)
{
    while (crowd->landed < crowd->flight_count) {
        const struct flight *next = &crowd->flights[crowd->landed];
        const uint64_t due = crowd->heap[0]->due;
        if (next->comes > (due < crowd->now ? crowd->now : due) || next->comes >= (uint64_t)crowd->course.end * SECOND)
            return;
        crowd->landed++;
        crowd->now = next->comes;
        tell_group(crowd, next->group);
    }
}

static void run_with(struct crowd *crowd)
{
    static uint8_t octets[JALWEDD_OCTETS];
    for (struct participant *who; land(crowd), (who = next_due(crowd)) != NULL;) {
        const uint32_t status = act(crowd, who, octets);
        const jalwedd_step step = who->step;
        if (status != JALWEDD_TAKEN)
            stop("a call was refused", status);
        if (step.kind != JALWEDD_NOTHING)
            write_down(crowd, who, &step, octets);
        take_step(crowd, who);
        if (step.kind != JALWEDD_NOTHING)
            put_out(crowd, who, octets, step.size, false, step.kind == JALWEDD_BYE);
    }
}

/* ---- The crowd without reconsideration */

/* The members that one who was heard itself has heard of and has room for. */
static uint32_t members_of(const struct group *group)
{
    return group->heard < ROOM + 1 ? group->heard : ROOM + 1;
}

/* An interval of RFC 3550, 6.3.1, for one who does not send. It is not divided by 1.21828, which only makes up for what
 * reconsideration does to the mean. */
static uint64_t interval(const struct group *group, uint32_t members, uint64_t minimum, uint32_t word)
{
    const uint64_t shared = (uint64_t)SECOND * members * group->average / (256 * RECEIVER_BW);
    const uint64_t deterministic = shared > minimum ? shared : minimum;
    return (deterministic * ((1ull << 31) + word)) >> 32;
}

static void send_without(struct crowd *crowd, struct participant *who, bool is_bye)
{
    struct group *group = &crowd->groups[who->group];
    const uint32_t octets = is_bye ? GOODBYE : REPORT;
    group->heard += is_bye ? -1u : !who->is_heard;
    group->average = (256 * octets + 15 * group->average) / 16;
    who->is_heard = !is_bye;
    count_compound(crowd, who, is_bye, octets);
    compare_members(crowd, &crowd->all[who->group], members_of(group));     /* one who stays, for all of them */
}

static void act_without(struct crowd *crowd, struct participant *who)
{
    struct group *group = &crowd->groups[who->group];
    uint64_t due = NEVER;
    if (who->phase == AWAY) {
        who->phase = PRESENT;
        due = crowd->now + interval(group, 1, SECOND * 5 / 2, random_word(crowd));
    } else if (who->leaves <= crowd->now) {
        who->phase = GONE;
        crowd->course.silent += !who->is_heard;
        if (who->is_heard)
            send_without(crowd, who, true);
    } else {
        send_without(crowd, who, false);
        due = crowd->now + interval(group, members_of(group), SECOND * 5, random_word(crowd));
    }
    set_due(crowd, who, who->leaves < due && who->phase == PRESENT ? who->leaves : due);
}

/* All know the same members here, but for themselves: whoever has sent is heard by all. */
static void run_without(struct crowd *crowd)
{
    for (struct participant *who; (who = next_due(crowd)) != NULL;)
        act_without(crowd, who);
}

/* ---- A run */

/* How often so many leave while others join. */
static uint32_t rounds_of(const struct plan *plan)
{
    return plan->batch == 0 ? 0 : (plan->leave - 1) / plan->every;
}

/* Those who have been there longest leave when others join, and in the end one in two. */
static void set_moments(struct crowd *crowd, const struct plan *plan, uint32_t at)
{
    struct participant *who = &crowd->all[at];
    const uint32_t joins = at < plan->participants ? 0 : (at - plan->participants) / plan->batch + 1;
    const uint32_t leaves = plan->batch == 0 ? 1 : at / plan->batch + 1;
    const bool goes = leaves <= rounds_of(plan), stays = !goes && at / plan->groups % 2 == 0;
    who->joins = who->due = (uint64_t)joins * plan->every * SECOND + random_word(crowd) % SECOND;
    who->leaves = NEVER;
    if (!stays)
        who->leaves = (uint64_t)(goes ? leaves * plan->every : plan->leave) * SECOND + random_word(crowd) % SECOND;
    crowd->groups[who->group].staying += stays;
}

static void set_turn(struct participant *who, const struct plan *plan, uint32_t at)
{
    who->rtp_due = NEVER;
    if (plan->sender_step == 0 || at % plan->sender_step != 0)
        return;
    const uint64_t turn = plan->turns > 1 ? at / plan->sender_step % plan->turns : 0;
    who->rtp_due = who->joins + turn * plan->turn * RTP_EACH * SECOND;
}

static struct crowd set_up(const struct plan *plan)
{
    const uint32_t participants = plan->participants + rounds_of(plan) * plan->batch, groups = plan->groups;
    struct crowd crowd = {.random = plan->seed, .delay = plan->delay, .turns = plan->turns, .turn = plan->turn,
                          .course = {.participants = participants, .groups = groups, .leave = plan->leave,
                                     .end = plan->end, .bandwidth = SENDER_BW + RECEIVER_BW}};
    crowd.all = zeros(participants, sizeof *crowd.all);
    crowd.heap = zeros(participants, sizeof *crowd.heap);
    crowd.groups = zeros(groups, sizeof *crowd.groups);
    crowd.course.seconds = zeros((size_t)groups * plan->end, sizeof *crowd.course.seconds);
    crowd.course.agreed = NEVER;
    for (uint32_t at = 0; at < participants; at++) {
        struct participant *who = &crowd.all[at];
        who->group = at % groups;
        who->place = at;
        crowd.groups[who->group].average = 256 * REPORT;
        set_moments(&crowd, plan, at);
        set_turn(who, plan, at / groups);
        rise(&crowd, who);
    }
    return crowd;
}

static void tear_down(struct crowd *crowd)
{
    for (uint32_t at = 0; at < crowd->course.participants; at++)
        jalwedd_free(&crowd->all[at].session);          /* refused, and nothing done, where it has left */
    for (uint32_t at = 0; at < crowd->course.groups; at++) {
        free(crowd->groups[at].datagrams);
        free(crowd->groups[at].octets);
        free(crowd->groups[at].sent);
    }
    free(crowd->all);
    free(crowd->heap);
    free(crowd->groups);
    free(crowd->flights);
}

/* All that went out in a group, and when each participant of the crowd began. */
static struct record record_of(const struct crowd *crowd, uint32_t group)
{
    struct record record = {.sent = crowd->groups[group].sent, .count = crowd->groups[group].sent_count,
                            .participants = crowd->course.participants, .delay = crowd->delay};
    record.starts = zeros(record.participants, sizeof *record.starts);
    for (uint32_t at = 0; at < record.participants; at++)
        record.starts[at] = crowd->all[at].joins;
    return record;
}

/* What all windows of all groups come to. */
static struct findings find(const struct crowd *crowd)
{
    struct findings findings = {.broken = 0};
    for (uint32_t at = 0; at < crowd->course.groups && !is_over(&findings); at++) {
        const struct record record = record_of(crowd, at);
        test_windows(&findings, &TERMS, &record);
        free(record.starts);
    }
    return findings;
}

struct record run_record(const struct plan *plan)
{
    struct crowd crowd = set_up(plan);
    run_with(&crowd);
    const struct record record = record_of(&crowd, 0);
    crowd.groups[0].sent = NULL;        /* the record keeps it */
    free(crowd.course.seconds);
    tear_down(&crowd);
    return record;
}

void forget(const struct record *record)
{
    free(record->sent);
    free(record->starts);
}

struct findings run_library(const struct plan *plan, struct course *course)
{
    struct crowd crowd = set_up(plan);
    run_with(&crowd);
    const struct findings findings = find(&crowd);
    *course = crowd.course;
    tear_down(&crowd);
    return findings;
}

void run_plainly(const struct plan *plan, struct course *course)
{
    struct crowd crowd = set_up(plan);
    run_without(&crowd);
    *course = crowd.course;
    tear_down(&crowd);
}
