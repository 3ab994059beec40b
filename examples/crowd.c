/* A crowd on a virtual clock: 10,000 participants in one process join within a second, stay, and then half of them
 * leave within a second. It shows how many reports and BYEs go out, and what part of the RTCP bandwidth they take:
 *
 * - in groups of at most 1,025, for which a table has room: ten groups of 1,000;
 * - all in one group, where each knows 1,024 others and reports as often as if there were no more.
 *
 * Beside each is the same crowd without reconsideration, by this program's own arithmetic: a participant that has drawn
 * an interval sends at its end, and a BYE goes out at once. Each group is a session of 64,000 bits a second without
 * RTP; a datagram reaches all others of the group as it is sent, and none is lost. The same seed gives the same
 * picture.
 *
 * After each session of the library, every window of 1 to 300 seconds is held against the laws proved about what the
 * participants of a session send (crowd_windows.h). A window that breaks one is named with it, and the status is 1.
 * `crowd windows` does this for sessions of one group:
 *
 * - without RTP, with some five who send it, and, if a table has room for all, with every third sending it: they send
 *   for a minute and then pause as long;
 * - with all of them sending it for 20 seconds, about five at a time;
 * - with fifty who leave every half minute as others join;
 * - where a datagram reaches the others after 100 or 500 ms: these are held against the law on delays too.
 *
 * `crowd faults` plants faults into what was written down of three sessions, each of which the right laws have to find,
 * and `crowd record` prints two sessions for compare/crowds/crowd-windows.
 *
 *     cc -std=c11 -O2 crowd*.c -o crowd $(pkg-config --cflags --libs jalwedd) -lm
 *     crowd [PARTICIPANTS [SEED]] > crowd-10000.svg          figures on standard error
 *     crowd windows [PARTICIPANTS [SEED]]
 *     crowd faults
 *     crowd record
 *
 * A participant with room for 1,024 others takes 150 KB of heap, so 10,000 of them take 1.5 GB. The picture takes a
 * minute of one core, and `crowd windows` half a minute with 1,000 participants.
 */
#include "crowd_faults.h"
#include "crowd_run.h"

#include <stdlib.h>
#include <string.h>

enum {
    SECOND = 1000000,
    MILLISECOND = 1000,
    MOST = 10000,
    SEED = 3550,
    STEADY = 219,                       /* seconds before the leave: one interval of a full table */
    RTP_TURN = 30,                      /* packets, and then a pause of as long */
    SHORT_TURN = 10,
    FEW = 5,                            /* some so many send RTP, */
    MANY = 3,                           /* or one in so many */
    BATCH = 50,                         /* so many leave as others join, */
    EVERY = 30,                         /* every so many seconds */
    TEST_LEAVE = 900,                   /* seconds */
    TEST_END = 1200,
    FAULTY = 100,                       /* participants of the sessions into which faults are planted */
    FAULTY_LEAVE = 250,
    FAULTY_END = 300
};

static const uint64_t NEVER = UINT64_MAX;

/* ---- The figures of a run */

/* The most compounds of any group in a second from `from` on and before `to`. */
static uint32_t most(const struct course *course, uint32_t from, uint32_t to)
{
    uint32_t greatest = 0;
    for (uint32_t at = 0; at < course->groups * course->end; at++) {
        const struct second *second = &course->seconds[at];
        const bool is_within = at % course->end >= from && at % course->end < to;
        if (is_within && second->reports + second->byes > greatest)
            greatest = second->reports + second->byes;
    }
    return greatest;
}

static double since_leave(const struct course *course, uint64_t moment)
{
    return (double)moment / SECOND - course->leave;
}

static void print_figures(const struct course *course, const char *name)
{
    const uint32_t leave = course->leave, end = course->end;
    char known[32] = "never";
    if (course->agreed != NEVER)
        snprintf(known, sizeof known, "%.1f s after", since_leave(course, course->agreed));
    fprintf(stderr, "  %s\n", name);
    fprintf(stderr, "    most compounds of a group in a second: %u until the leave, %u from then on\n",
            most(course, 0, leave), most(course, leave, end));
    fprintf(stderr, "    per cent of the RTCP bandwidth: %.0f in the first 10 s, %.0f in the first 60 s, ",
            rate_of(course, 0, 10).share, rate_of(course, 0, 60).share);
    fprintf(stderr, "%.0f in the %d s before the leave, %.0f in the 10 s from it on\n",
            rate_of(course, leave - STEADY, STEADY).share, STEADY, rate_of(course, leave, 10).share);
    fprintf(stderr, "    BYEs: %u, the last one %.1f s after the first can leave; %u left silently\n", course->byes,
            since_leave(course, course->last_bye), course->silent);
    fprintf(stderr, "    those who stay know how many they are: %s\n", known);
}

/* The same crowd with and without reconsideration. Gives whether the laws held. */
static bool run_pair(const struct plan *plan, struct course course[2])
{
    const struct findings findings = run_library(plan, &course[0]);
    run_plainly(plan, &course[1]);
    print_figures(&course[0], "with reconsideration");
    print_findings(stderr, &findings);
    print_figures(&course[1], "without");
    return findings.broken == 0;
}

static bool draw_crowds(uint32_t participants, uint64_t seed)
{
    struct course groups[2], single[2];
    const uint32_t count = (participants + ROOM) / (ROOM + 1);
    const struct plan in_groups = {.participants = participants, .groups = count, .turn = RTP_TURN, .seed = seed,
                                   .leave = 400, .end = 700};
    const struct plan in_one = {.participants = participants, .groups = 1, .turn = RTP_TURN, .seed = seed,
                                .leave = 300, .end = 340};
    fprintf(stderr, "%u participants in groups: %u\n", participants, count);
    bool is_kept = run_pair(&in_groups, groups);
    fprintf(stderr, "%u participants in one group\n", participants);
    is_kept = run_pair(&in_one, single) && is_kept;
    draw(stdout, groups, single, REPORT);
    free(groups[0].seconds), free(groups[1].seconds), free(single[0].seconds), free(single[1].seconds);
    return is_kept;
}

/* A session of one group, and what it is called. Gives whether the laws held. */
static bool test_group(struct plan plan, const char *name)
{
    struct course course;
    printf("%u participants, of whom %s; a datagram comes after %u ms\n", plan.participants, name,
           plan.delay / MILLISECOND);
    fflush(stdout);
    const struct findings findings = run_library(&plan, &course);
    free(course.seconds);
    print_findings(stdout, &findings);
    return findings.broken == 0;
}

/* The plan of a crowd none of whom sends RTP, and whose datagrams come at once. */
static struct plan plan_of(uint32_t participants, uint64_t seed)
{
    return (struct plan){.participants = participants, .groups = 1, .turn = RTP_TURN, .leave = TEST_LEAVE,
                         .end = TEST_END, .seed = seed};
}

/* A few at a time take short turns to send RTP. */
static struct plan with_turns(struct plan plan)
{
    plan.sender_step = 1;
    plan.turns = plan.participants / FEW > 1 ? plan.participants / FEW : 2;
    plan.turn = SHORT_TURN;
    return plan;
}

static struct plan with_turnover(struct plan plan)
{
    plan.batch = plan.participants < 2 * BATCH ? plan.participants / 2 : BATCH;
    plan.every = EVERY;
    return plan;
}

static struct plan with_delay(struct plan plan, uint32_t milliseconds)
{
    plan.delay = milliseconds * MILLISECOND;
    return plan;
}

/* Those who send RTP are an odd step apart, so that some of them stay and some leave, as they do in turn. */
static bool test_crowd(uint32_t participants, uint64_t seed)
{
    const struct plan silent = plan_of(participants, seed);
    const uint32_t few = participants / FEW | 1;
    struct plan some = silent, many = silent;
    some.sender_step = few > MANY ? few : MANY;
    many.sender_step = MANY;
    return test_group(silent, "none sends RTP")
        && test_group(some, "some send RTP")
        && (participants > ROOM + 1 || few <= MANY || test_group(many, "every third sends RTP"))
        && test_group(with_delay(silent, 500), "none sends RTP")
        && test_group(with_delay(with_turns(silent), 100), "a few at a time send RTP")
        && test_group(with_delay(with_turnover(silent), 100), "some leave as others join")
        && test_group(with_delay(with_turns(with_turnover(silent)), 500),
                      "some leave as others join, and a few at a time send RTP");
}

static bool print_record(const struct plan *plan)
{
    struct findings findings = {.broken = 0};
    const struct record record = run_record(plan);
    test_windows(&findings, &TERMS, &record);
    print_session(stdout, &TERMS, &record, &findings);
    forget(&record);
    return findings.broken == 0;
}

/* Two short sessions, and what their windows came to, for compare/crowds/crowd-windows to compute again. The delay of
 * the first is nearly as long as the shortest wait, so that often fewer have waited for longer than it than wait. */
static bool print_records(void)
{
    struct plan few = with_delay(with_turns(with_turnover(plan_of(10, SEED))), 1800);
    struct plan more = with_delay(plan_of(60, SEED), 500);
    few.every = 10, few.leave = 35, few.end = 50;
    more.sender_step = 60 / FEW | 1, more.leave = 30, more.end = 42;
    return print_record(&few) && print_record(&more);
}

/* Plants faults into three sessions. Gives whether all were found. */
static bool test_faults(void)
{
    struct plan plan = plan_of(FAULTY, SEED);
    plan.leave = FAULTY_LEAVE, plan.end = FAULTY_END;
    struct plan many = plan;
    many.sender_step = MANY;
    const struct plan delayed = with_delay(plan, 500);
    const struct record records[PLANTED] = {run_record(&plan), run_record(&many), run_record(&delayed)};
    printf("faults that are planted into sessions of %u participants\n", FAULTY);
    const bool is_found = find_faults(stdout, &TERMS, records);
    for (enum planted at = SILENT; at < PLANTED; at++)
        forget(&records[at]);
    return is_found;
}

int main(int count, char **words)
{
    const char *mode = count > 1 ? words[1] : "";
    const bool is_test = strcmp(mode, "windows") == 0;
    const int numbers = 1 + is_test;
    const uint32_t participants = count > numbers ? (uint32_t)strtoul(words[numbers], NULL, 10) : MOST;
    const uint64_t seed = count > numbers + 1 ? strtoull(words[numbers + 1], NULL, 10) : SEED;
    bool is_kept;
    if (count == 2 && strcmp(mode, "faults") == 0) {
        is_kept = test_faults();
    } else if (count == 2 && strcmp(mode, "record") == 0) {
        is_kept = print_records();
    } else if (count > numbers + 2 || participants < 2 || participants > MOST) {
        fprintf(stderr, "usage: crowd [PARTICIPANTS [SEED]] > FILE.svg      2 to %u participants\n"
                        "       crowd windows [PARTICIPANTS [SEED]]\n"
                        "       crowd faults\n"
                        "       crowd record\n", MOST);
        return 2;
    } else {
        is_kept = is_test ? test_crowd(participants, seed) : draw_crowds(participants, seed);
    }
    return !is_kept || ferror(stdout) != 0 || fflush(stdout) != 0;
}
