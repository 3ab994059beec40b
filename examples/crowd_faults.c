/* Faults that are planted, one at a time, into what was written down of a session, to see which laws find them: a law
 * that no session breaks may be tested wrongly. What no law can find is no fault here: where reports count fewer
 * members, for one, a larger percent is allowed.
 *
 * What the clauses of one law say of reports and of octets follows from what it says of averages, and what it says of
 * all who join from what it says of their roles: a fault that breaks the former breaks the latter. */
#include "crowd_faults.h"

#include <stdlib.h>
#include <string.h>

enum {
    ROOM = 32,                  /* for so many times as many compounds */
    ONE = 6,                    /* the number of the participant that is alone at fault */
    OFTEN = 30,
    THIRDS = 3
};

/* Laws by their bits. */
enum {
    OF_ONE = 1 << INTERVALS | 1 << SHARE,
    OWN = OF_ONE | 1 << SHARES,
    CROWD = 1 << LATER | 1 << OTHERS | 1 << REPORTS | 1 << OCTETS | 1 << COMPOUNDS,
    OF_REPORTS = 1 << KEPT_AVERAGES | 1 << KEPT_OCTETS | 1 << KEPT_REPORTS,
    OF_OTHERS = 1 << KEPT_OTHERS,
    WITH_BYES = 1 << KEPT_COMPOUNDS,
    OF_JOINS = 1 << JOINED_OTHERS | 1 << JOINED_REPORTS,
    OF_SENDERS = 1 << JOINED_SENDERS,
    ALL_JOINS = 1 << JOINED_REPORTS,
    BYES = 1 << LEFT_BYES,
    AFTER_WAITS = 1 << AFTER_AVERAGES | 1 << AFTER_OTHERS | 1 << AFTER_OCTETS | 1 << AFTER_REPORTS,
    AFTER_BYES = 1 << AFTER_COMPOUNDS
};

struct fault {
    const char *name;
    void (*plant)(struct record *record);
    enum planted into;
    uint32_t finds, may;        /* bits of the laws that have to find it, and of those that may, by the draws */
};

typedef bool chosen(const struct sent *sent);

static bool is_report(const struct sent *sent)
{
    return !sent->is_bye;
}

static bool is_bye(const struct sent *sent)
{
    return sent->is_bye;
}

static bool is_of_one(const struct sent *sent)
{
    return !sent->is_bye && sent->from == ONE;
}

static bool is_of_sender(const struct sent *sent)
{
    return !sent->is_bye && sent->sends_rtp;
}

/* ---- What is altered: the moments of the chosen compounds, how many there are, and what they are decided by */

/* Between a report and the chosen one that follows it come others of its kind, at equal distances. */
static void report_often(struct record *record, uint32_t times, chosen *is_chosen)
{
    uint64_t *latest = zeros(record->participants, sizeof *latest);
    const uint32_t count = record->count;
    for (uint32_t place = 0; place < count; place++) {
        struct sent sent = record->sent[place];
        const uint64_t before = latest[sent.from], step = (sent.moment - before) / times;
        latest[sent.from] = sent.moment;
        for (uint32_t more = 1; before != 0 && is_chosen(&sent) && more < times; more++) {
            sent.moment = before + more * step;
            record->sent[record->count++] = sent;
        }
    }
    free(latest);
}

/* Of each compound whether it is its participant's first. */
static bool *find_firsts(const struct record *record)
{
    bool *firsts = zeros(record->count, sizeof *firsts), *is_known = zeros(record->participants, sizeof *is_known);
    for (uint32_t place = 0; place < record->count; place++) {
        const uint32_t from = record->sent[place].from;
        firsts[place] = !is_known[from];
        is_known[from] = true;
    }
    free(is_known);
    return firsts;
}

/* First reports come so many times as soon after the start, and BYEs after the leave. */
static void end_sooner(struct record *record, uint32_t times, chosen *is_chosen)
{
    bool *firsts = find_firsts(record);
    for (uint32_t place = 0; place < record->count; place++) {
        struct sent *sent = &record->sent[place];
        const uint64_t since = sent->is_bye ? sent->since : record->starts[sent->from];
        if (is_chosen(sent) && since < sent->moment && (sent->is_bye || firsts[place]))
            sent->moment = since + (sent->moment - since) / times;
    }
    free(firsts);
}

/* Those who report for the first time count so many. */
static void count_all(struct record *record, uint32_t members, uint32_t senders)
{
    bool *firsts = find_firsts(record);
    for (uint32_t place = 0; place < record->count; place++) {
        struct sent *sent = &record->sent[place];
        if (!firsts[place] || sent->is_bye)
            continue;
        sent->members = members;
        sent->senders = senders;
    }
    free(firsts);
}

/* The averages of later reports are so many thirds of what they are. */
static void average_more(struct record *record, uint32_t thirds)
{
    bool *firsts = find_firsts(record);
    for (uint32_t place = 0; place < record->count; place++)
        if (!firsts[place])
            record->sent[place].average = record->sent[place].average * thirds / THIRDS;
    free(firsts);
}

static void count_more(struct record *record, uint32_t times, chosen *is_chosen)
{
    for (uint32_t place = 0; place < record->count; place++) {
        struct sent *sent = &record->sent[place];
        if (!is_chosen(sent))
            continue;
        sent->members *= times;
        sent->senders *= times;
    }
}

static void repeat(struct record *record, uint32_t times, chosen *is_chosen)
{
    const uint32_t count = record->count;
    for (uint32_t place = 0; place < count; place++) {
        struct sent sent = record->sent[place];
        sent.since = UINT64_MAX;        /* only the first ends a leave */
        for (uint32_t more = 1; is_chosen(&sent) && more < times; more++)
            record->sent[record->count++] = sent;
    }
}

/* After each of the chosen reports come more of its participant, by which it counts only itself: so many with it, all
 * within the delay. */
static void report_again(struct record *record, uint32_t times, chosen *is_chosen)
{
    const uint32_t count = record->count;
    for (uint32_t place = 0; place < count; place++) {
        struct sent sent = record->sent[place];
        const uint64_t step = record->delay / times;
        const bool is_again = is_chosen(&sent);
        sent.members = 1;
        sent.senders = sent.sends_rtp;
        for (uint32_t more = 1; is_again && more < times; more++) {
            sent.moment += step;
            record->sent[record->count++] = sent;
        }
    }
}

/* ---- The faults */

static void one_often(struct record *record)
{
    report_often(record, 5, is_of_one);
}

static void all_often(struct record *record)
{
    report_often(record, 3, is_report);
}

static void senders_often(struct record *record)
{
    report_often(record, 4, is_of_sender);
}

static void larger_averages(struct record *record)
{
    average_more(record, 3 * THIRDS);
}

static void averages_of_all_bandwidth(struct record *record)
{
    average_more(record, THIRDS + 1);
}

static void one_larger_count(struct record *record)
{
    count_more(record, 4, is_of_one);
}

static void larger_counts(struct record *record)
{
    count_more(record, 4, is_report);
}

static void joins_bunched(struct record *record)
{
    end_sooner(record, 10, is_report);
}

static void senders_bunched(struct record *record)
{
    end_sooner(record, 10, is_of_sender);
    count_all(record, record->participants, (record->participants + 2) / 3);
}

static void byes_bunched(struct record *record)
{
    end_sooner(record, 10, is_bye);
}

static void larger_leaves(struct record *record)
{
    count_more(record, 4, is_bye);
}

static void byes_repeated(struct record *record)
{
    repeat(record, OFTEN, is_bye);
}

static void one_again(struct record *record)
{
    report_again(record, 3, is_of_one);
}

static const struct fault FAULTS[] = {
    {"one reports five times as often", one_often, SILENT, OF_ONE | OF_OTHERS, OWN | OF_REPORTS | ALL_JOINS},
    {"all report three times as often", all_often, SILENT, OWN | OF_OTHERS | OF_REPORTS, CROWD | ALL_JOINS},
    {"those who send RTP report four times as often", senders_often, IN_MANY, 1 << INTERVALS | OF_REPORTS, ALL_JOINS},
    {"all averages are three times as large", larger_averages, SILENT, OWN | OF_OTHERS | OF_REPORTS, ALL_JOINS},
    {"all averages are a third larger", averages_of_all_bandwidth, SILENT, OF_ONE | OF_OTHERS, OWN},
    {"one counts four times as many members", one_larger_count, SILENT, OF_ONE,
     OWN | OF_OTHERS | OF_REPORTS | OF_JOINS},
    {"all count four times as many members", larger_counts, SILENT, OWN | OF_OTHERS | OF_REPORTS | OF_JOINS, CROWD},
    {"first reports come ten times as soon", joins_bunched, SILENT, OF_JOINS, 0},
    {"those of participants who send RTP do, and all count all", senders_bunched, IN_MANY, OF_SENDERS, OF_JOINS},
    {"BYEs come ten times as soon after the leave", byes_bunched, SILENT, BYES, 0},
    {"those who leave count four times as many BYEs", larger_leaves, SILENT, BYES, 0},
    {"each BYE goes out thirty times", byes_repeated, SILENT, WITH_BYES, CROWD},
    {"all report three times as often, and are heard late", all_often, DELAYED,
     OWN | OF_OTHERS | OF_REPORTS | AFTER_WAITS, CROWD | ALL_JOINS},
    {"each BYE goes out thirty times, and is heard late", byes_repeated, DELAYED, WITH_BYES | AFTER_BYES, CROWD},
    {"one reports again before it can be heard, and counts only itself", one_again, DELAYED,
     1 << INTERVALS | AFTER_WAITS, 1 << SHARE}};

/* ---- Whether they are found */

static int compare_sent(const void *one, const void *other)
{
    const struct sent *first = one, *second = other;
    return (first->moment > second->moment) - (first->moment < second->moment);
}

/* The laws that are broken once a fault is planted: a bit for each. */
static uint32_t found(const struct fault *fault, const struct terms *terms, const struct record *record)
{
    struct record altered = *record;
    struct findings findings = {.goes_on = true};
    altered.sent = zeros((size_t)ROOM * record->count, sizeof *altered.sent);
    memcpy(altered.sent, record->sent, record->count * sizeof *altered.sent);
    fault->plant(&altered);
    qsort(altered.sent, altered.count, sizeof *altered.sent, compare_sent);
    test_windows(&findings, terms, &altered);
    free(altered.sent);
    return findings.broken;
}

static void print_laws(FILE *to, uint32_t laws)
{
    for (uint32_t law = 0; law < LAWS; law++)
        if ((laws >> law & 1) != 0)
            fprintf(to, "      %s\n", name_of(law));
}

bool find_faults(FILE *to, const struct terms *terms, const struct record records[PLANTED])
{
    bool is_right = true;
    for (uint32_t at = 0; at < sizeof FAULTS / sizeof *FAULTS; at++) {
        const struct fault *fault = &FAULTS[at];
        const uint32_t laws = found(fault, terms, &records[fault->into]);
        const bool is_found = (fault->finds & ~laws) == 0 && (laws & ~(fault->finds | fault->may)) == 0;
        fprintf(to, "    %s: %s\n", fault->name, is_found ? "found by" : "not found as it has to be, but by");
        print_laws(to, laws);
        is_right = is_right && is_found;
    }
    return is_right;
}
