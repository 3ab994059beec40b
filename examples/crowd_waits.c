/* The laws of those who wait for their next report, who join and who leave, in every window of each width. What they
 * allow depends on a percent, which is found for each window by the laws' own definitions: nothing is estimated.
 *
 * What a window holds changes when a compound comes into it, and when something that it can begin at drops out: a
 * compound, a start or a leave. All that lies between two such changes is one window here, so none is left out.
 *
 * To find the percent takes as long as there are reports in the window, and there are twice as many windows as
 * compounds. But of windows that follow each other, each lies in the one that covers them all, and holds what is common
 * to all. So it uses at most what the former does, and is allowed at least what the latter is, since all of these grow
 * with what a window holds, but for the least average, which falls. If none of them can then use a greater part of what
 * is allowed than one did before, none is looked at; otherwise they are halved. */
#include "crowd_windows.h"

#include <stdlib.h>

static const uint64_t SECOND = 1000000;

/* Successive reports of a participant lie at least so many microseconds apart: half of five seconds, over 1.21828. */
static const uint32_t LEAST_WAIT = 2052074;

/* No product passes 128 bits where a session has at most so many participants, and so many octets a second. The
 * greatest is that of delays_stretch_the_window.octets. Of its factors LEAST_WAIT is below 2^21, PACE below 2^18, a
 * width below 2^29 microseconds, and the bandwidth at most 2^14. Each participant waits once at a time, and counts
 * itself: so the percent of those who wait is at most 100 times the participants, below 2^23. A compound has at most
 * 65,535 octets, and an average at least one: so that percent is below 2^23 too. Together they are below 2^128. What is
 * used is less: LEAST_WAIT by 10^13, below 2^44, by the averages of fewer than 2^32 reports, each below 2^24. */
enum { MOST_PARTICIPANTS = 1 << 16, MOST_BANDWIDTH = 1 << 14 };

/* What a compound ends. The first three are those whom a law looks at. */
enum kind { WAIT = WAITING, JOIN = JOINING, LEAVE = LEAVING_TOGETHER, NOTHING };

/* From when on a wait is open: as it begins, and the session's delay later. */
enum opening { AT_ONCE, AFTER_DELAY, OPENINGS };

/* What a compound ends: its participant's wait since its report before, its join since its start, or its leave; or
 * nothing, if it is a BYE that went out at once. */
struct span {
    uint64_t since;
    enum kind kind;
    uint32_t before;            /* one more than the place of its participant's compound before, or 0 */
    uint32_t next;              /* the place of its participant's next report, or the count of all */
    uint32_t after[OPENINGS];   /* the place of the first compound after `since`, and after the delay from then on */
    uint32_t later;             /* the place of the first compound after this one's moment */
    uint32_t members, alike;    /* how many its participant counts at its end: of a leave both are the BYEs */
};

/* How many of the joins in a window, [0] of such as do not send and [1] of the others, and [2] of its leaves end before
 * a place. */
enum { LEAVES = 2, ENDS };
struct ends {
    uint32_t of[ENDS];
};

/* The greatest of some numbers since any place: of the numbers so far, those that no later one reaches. */
struct peaks {
    uint32_t count;
    uint32_t *places, *numbers;
};

enum { OF_ALL = 2, PEAKS };     /* of those who do not send, of those who do, and of both */

/* The waits of a window, by when they are open, as it is gone through. */
struct waits {
    enum those those;
    uint32_t delay;             /* each is opened so many microseconds after it began */
    uint32_t unopened;          /* the place of the first compound since which no more than that went by */
    uint32_t open[PEAKS];       /* how many are open */
    struct peaks peaks[PEAKS];  /* of how many are whenever a wait ends */
};

/* A window begins after the window before, and at `from` or sooner. */
struct window {
    uint64_t from;
    uint32_t begin, end;        /* the places of its first compound, and after its last one */
};

struct scan {
    struct findings *findings;
    const struct terms *terms;
    const struct record *record;
    struct span *spans;
    struct ends *ends;
    struct waits waits[OPENINGS];
    uint32_t openings;          /* the first only, where there is no delay: then both are the same */
    uint64_t *edges;            /* all that a window can begin at, by rising moments */
    struct window *windows;     /* of one width */
    uint32_t edge_count, window_count, width;
    uint32_t bye_size;          /* no compound with a BYE has fewer octets */
};

/* The greatest quotient of some: how many there are, of how many counted. */
struct quotient {
    uint64_t there, counted;
};

/* What a window holds. */
struct held {
    struct quotient of[THOSE], surplus;     /* the surplus: of a later report's octets, of its average */
    uint64_t averages[2], octets;
    uint32_t waits, ended[ENDS];
    uint32_t compounds, reports, participants;      /* those who sent any of the compounds */
    uint32_t greatest;                      /* the octets of the greatest report */
    uint32_t least[2];                      /* the least average of waits and of joins */
};

/* What is used of what a law allows, and that. */
struct part {
    wide used, allowed;
};

/* ---- What is counted */

static void add_peak(struct peaks *peaks, uint32_t place, uint32_t number)
{
    while (peaks->count > 0 && peaks->numbers[peaks->count - 1] <= number)
        peaks->count--;
    peaks->places[peaks->count] = place;
    peaks->numbers[peaks->count++] = number;
}

/* The greatest number at `from` or a later place: there is one. */
static uint32_t peak_since(const struct peaks *peaks, uint32_t from)
{
    uint32_t low = 0, high = peaks->count - 1;
    while (low < high) {
        const uint32_t middle = (low + high) / 2;
        if (peaks->places[middle] >= from)
            high = middle;
        else
            low = middle + 1;
    }
    return peaks->numbers[low];
}

static void take_greater(struct quotient *most, uint64_t there, uint64_t counted)
{
    if (most->counted == 0 || there * most->counted > most->there * counted)
        *most = (struct quotient){.there = there, .counted = counted};
}

/* The least percent of what is counted that is as much. */
static uint64_t percent_of(struct quotient most)
{
    return most.counted == 0 ? 0 : (100 * most.there + most.counted - 1) / most.counted;
}

/* Whether the wait that ends at this place lies in a window. */
static bool is_wait_in(const struct window *window, const struct span *span)
{
    return span->kind == WAIT && span->before > window->begin;
}

/* Whether the join or leave that ends at this place does. */
static bool is_end_in(const struct window *window, const struct span *span)
{
    return (span->kind == JOIN || span->kind == LEAVE) && span->since >= window->from;
}

static void add_compound(struct held *held, const struct window *window, const struct sent *sent,
                         const struct span *span)
{
    const bool is_wait = is_wait_in(window, span);
    uint32_t *least = &held->least[!is_wait];
    held->compounds++;
    held->participants += span->before <= window->begin;
    if (sent->is_bye)
        return;
    held->reports++;
    held->octets += sent->octets;
    held->greatest = sent->octets > held->greatest ? sent->octets : held->greatest;
    if ((is_wait || is_end_in(window, span)) && sent->average < *least)
        *least = sent->average;
    if (!is_wait)
        return;
    held->waits++;
    held->averages[sent->sends_rtp] += sent->average;
    take_greater(&held->surplus, 256 * (uint64_t)sent->octets, sent->average);
}

/* Adds all that went out at one moment: the places from `place` on and before `later`. Gives whether a wait ends. */
static bool add_compounds(const struct scan *scan, const struct window *window, uint32_t place, uint32_t later,
                          struct held *held)
{
    bool is_wait = false;
    for (uint32_t at = place; at < later; at++) {
        add_compound(held, window, &scan->record->sent[at], &scan->spans[at]);
        is_wait = is_wait || is_wait_in(window, &scan->spans[at]);
    }
    return is_wait;
}

/* Whether the wait that ends at a place is open then. No wait of the library is as short as the delay, but those of
 * planted faults may be: by the law's definition such a wait is never open. */
static bool is_open_at_end(const struct scan *scan, enum opening opening, uint32_t place)
{
    return scan->spans[place].after[opening] <= place;
}

/* Opens the waits that are open at the moment of a place, and were not when one ended before. */
static void open_waits(struct scan *scan, enum opening opening, const struct window *window, uint32_t place)
{
    const struct sent *sent = scan->record->sent;
    struct waits *waits = &scan->waits[opening];
    for (; sent[waits->unopened].moment + waits->delay < sent[place].moment; waits->unopened++) {
        const uint32_t next = scan->spans[waits->unopened].next;
        if (next >= window->end || !is_open_at_end(scan, opening, next))
            continue;
        waits->open[sent[next].sends_rtp]++;
        waits->open[OF_ALL]++;
    }
}

static void add_peaks(struct waits *waits, uint32_t place)
{
    for (uint32_t role = 0; role < PEAKS; role++)
        add_peak(&waits->peaks[role], place, waits->open[role]);
}

/* The waits that end at one moment: each is held against the most that were open at once while it was. */
static void end_waits(struct scan *scan, enum opening opening, const struct window *window, uint32_t place,
                      struct held *held)
{
    struct waits *waits = &scan->waits[opening];
    for (uint32_t at = place; at < scan->spans[place].later; at++) {
        const struct span *span = &scan->spans[at];
        const bool sends_rtp = scan->record->sent[at].sends_rtp;
        if (!is_wait_in(window, span) || !is_open_at_end(scan, opening, at))
            continue;
        const uint32_t after = span->after[opening];
        take_greater(&held->of[waits->those], peak_since(&waits->peaks[OF_ALL], after), span->members);
        take_greater(&held->of[waits->those], peak_since(&waits->peaks[sends_rtp], after), span->alike);
        waits->open[sends_rtp]--;
        waits->open[OF_ALL]--;
    }
}

/* Whenever a wait ends, those that are open are counted, and those that end are closed. */
static void count_waits(struct scan *scan, const struct window *window, uint32_t place, struct held *held)
{
    for (enum opening opening = AT_ONCE; opening < scan->openings; opening++) {
        open_waits(scan, opening, window, place);
        add_peaks(&scan->waits[opening], place);
        end_waits(scan, opening, window, place, held);
    }
}

static void close_waits(struct scan *scan, const struct window *window)
{
    for (enum opening opening = AT_ONCE; opening < scan->openings; opening++) {
        struct waits *waits = &scan->waits[opening];
        waits->unopened = window->begin;
        waits->open[0] = waits->open[1] = waits->open[OF_ALL] = 0;
        waits->peaks[0].count = waits->peaks[1].count = waits->peaks[OF_ALL].count = 0;
    }
}

/* Which of the joins and leaves it is that a compound ends. */
static uint32_t end_of(const struct sent *sent)
{
    return sent->is_bye ? LEAVES : sent->sends_rtp;
}

/* Takes down how many ended before a moment, and counts those that end then. */
static void count_ends(struct scan *scan, const struct window *window, uint32_t place, uint32_t later,
                       struct held *held)
{
    for (uint32_t at = place; at < later; at++) {
        scan->ends[at] = (struct ends){{held->ended[0], held->ended[1], held->ended[LEAVES]}};
        held->ended[end_of(&scan->record->sent[at])] += is_end_in(window, &scan->spans[at]);
    }
}

/* The joins and leaves that end at one moment: each is held against those that ended since it began, and itself. */
static void end_joins(const struct scan *scan, const struct window *window, uint32_t place, uint32_t later,
                      struct held *held)
{
    for (uint32_t at = place; at < later; at++) {
        const struct span *span = &scan->spans[at];
        const struct ends *before = &scan->ends[span->after[AT_ONCE]];
        const uint32_t end = end_of(&scan->record->sent[at]);
        if (is_end_in(window, span))
            take_greater(&held->of[span->kind], held->ended[end] - before->of[end], span->alike);
    }
}

static struct held held_in(struct scan *scan, const struct window *window)
{
    struct held held = {.least = {UINT32_MAX, UINT32_MAX}};
    close_waits(scan, window);
    for (uint32_t place = window->begin, later; place < window->end; place = later) {
        later = scan->spans[place].later;
        if (add_compounds(scan, window, place, later, &held))
            count_waits(scan, window, place, &held);
        count_ends(scan, window, place, later, &held);
        end_joins(scan, window, place, later, &held);
    }
    return held;
}

/* ---- The laws */

/* How many compounds of a size are allowed, at so many percent of a bandwidth. */
static wide carried(const struct scan *scan, uint64_t percent, uint32_t bandwidth, uint32_t size)
{
    return (wide)percent * PACE * SECONDS[scan->width] * bandwidth / (100ull * WHOLE * size);
}

/* The parts of delays_stretch_the_window, as in `fill_parts`. Without a delay it says the same as
 * sessions_keep_to_their_bandwidth, and is not tested: nothing is used. */
static void fill_stretched(const struct scan *scan, const struct held *least, const struct held *most,
                           struct part parts[LAWS])
{
    if (scan->openings == 1) {
        for (uint32_t law = AFTER_AVERAGES; law <= AFTER_COMPOUNDS; law++)
            parts[law] = (struct part){0, 0};
        return;
    }
    const uint32_t others = scan->terms->receiver_bw, both = scan->terms->sender_bw + others;
    const uint64_t oldest = (uint64_t)least->greatest * (least->reports - least->waits);
    const wide pace = (wide)LEAST_WAIT * percent_of(least->of[WAITING_AFTER]) * PACE * SECONDS[scan->width] * SECOND;
    const wide whole = (wide)(LEAST_WAIT - scan->record->delay) * 100 * WHOLE * SECOND;
    const wide in_compounds = pace * both / (whole * (least->least[0] / 256));
    parts[AFTER_AVERAGES] = (struct part){whole * (most->averages[0] + most->averages[1]), pace * 256 * both};
    parts[AFTER_OTHERS] = (struct part){whole * most->averages[0], pace * 256 * others};
    parts[AFTER_OCTETS] = (struct part){most->octets > oldest ? most->octets - oldest : 0,
                                        pace * percent_of(least->surplus) * both / (100 * whole)};
    parts[AFTER_REPORTS] = (struct part){most->waits, in_compounds};
    parts[AFTER_COMPOUNDS] = (struct part){most->compounds, 10 * least->participants + in_compounds};
}

/* Of a window whose use `most` has at most, and which allows what `least` has at least. */
static void fill_parts(const struct scan *scan, const struct held *least, const struct held *most,
                       struct part parts[LAWS])
{
    const uint32_t others = scan->terms->receiver_bw, both = scan->terms->sender_bw + others;
    const uint64_t waiting = percent_of(least->of[WAITING]), joining = percent_of(least->of[JOINING]);
    const uint64_t percent = waiting > joining ? waiting : joining;
    const uint32_t of_waits = least->least[0] / 256, of_joins = least->least[1] / 256;
    const uint32_t size = of_waits < of_joins ? of_waits : of_joins;
    const uint64_t oldest = (uint64_t)least->greatest * (least->reports - least->waits);
    const wide pace = (wide)PACE * SECONDS[scan->width] * SECOND, whole = (wide)100 * WHOLE * SECOND;
    const wide in_compounds = carried(scan, waiting, both, of_waits);
    const wide once = carried(scan, percent, both, size), once_of_others = carried(scan, percent, others, size);
    const wide in_byes = carried(scan, percent_of(least->of[LEAVE]), others, scan->bye_size);
    parts[KEPT_AVERAGES] = (struct part){whole * (most->averages[0] + most->averages[1]),
                                         waiting * pace * 256 * both};
    parts[KEPT_OTHERS] = (struct part){whole * most->averages[0], waiting * pace * 256 * others};
    parts[KEPT_OCTETS] = (struct part){most->octets > oldest ? most->octets - oldest : 0,
                                       waiting * percent_of(least->surplus) * pace * both / (100 * whole)};
    parts[KEPT_REPORTS] = (struct part){most->waits, in_compounds};
    parts[KEPT_COMPOUNDS] = (struct part){most->compounds, 10 * least->participants + in_compounds};
    parts[JOINED_OTHERS] = (struct part){most->ended[0], carried(scan, joining, others, of_joins)};
    parts[JOINED_SENDERS] = (struct part){most->ended[1], carried(scan, joining, both, of_joins)};
    parts[JOINED_REPORTS] = (struct part){most->waits + most->ended[0] + most->ended[1], 2 * once + once_of_others};
    parts[LEFT_BYES] = (struct part){most->ended[LEAVES], in_byes};
    fill_stretched(scan, least, most, parts);
}

/* Whether a window whose use `most` has at most, and which allows what `least` has at least, shows nothing that none
 * did before. */
static bool shows_nothing(const struct scan *scan, const struct held *least, const struct held *most)
{
    const struct fullest *fullest = &scan->findings->of[scan->width];
    struct part parts[LAWS];
    fill_parts(scan, least, most, parts);
    bool is_more = most->reports > fullest->kept_reports;
    for (uint32_t those = 0; those < THOSE; those++)
        is_more = is_more || percent_of(most->of[those]) > fullest->percents[those];
    for (uint32_t law = KEPT_AVERAGES; law < LAWS && !is_more; law++) {
        const wide used = parts[law].used, allowed = parts[law].allowed;
        is_more = used > allowed || (used > 0 && 100 * (double)used / (double)allowed > fullest->used[law]);
    }
    return !is_more;
}

static void note_percents(const struct held *held, struct fullest *fullest)
{
    for (uint32_t those = 0; those < THOSE; those++) {
        const uint64_t percent = percent_of(held->of[those]);
        fullest->percents[those] = percent > fullest->percents[those] ? percent : fullest->percents[those];
    }
}

static void test_window(struct scan *scan, const struct window *window)
{
    const struct held held = held_in(scan, window);
    const struct sent *sent = scan->record->sent;
    const struct spot spot = {.width = scan->width, .first = &sent[window->begin], .last = &sent[window->end - 1]};
    struct fullest *fullest = &scan->findings->of[scan->width];
    struct part parts[LAWS];
    fill_parts(scan, &held, &held, parts);
    for (uint32_t law = KEPT_AVERAGES; law < LAWS; law++)
        hold(scan->findings, &spot, law, parts[law].used, parts[law].allowed);
    note_percents(&held, fullest);
    if (percent_of(held.of[WAITING_AFTER]) > percent_of(held.of[WAITING]))
        stop("more wait after the delay than at once", window->begin);
    if (held.reports <= fullest->kept_reports)
        return;
    fullest->kept_reports = held.reports;
    fullest->kept_percent = percent_of(held.of[WAITING]);
    fullest->kept = held.reports - held.waits + (uint64_t)parts[KEPT_REPORTS].allowed;
    fullest->stretched_percent = percent_of(held.of[WAITING_AFTER]);
    fullest->stretched = held.reports - held.waits + (uint64_t)parts[AFTER_REPORTS].allowed;
}

static void test_run(struct scan *scan, uint32_t first, uint32_t count)
{
    const struct window *oldest = &scan->windows[first], *newest = &scan->windows[first + count - 1];
    if (is_over(scan->findings))
        return;
    if (count == 1) {
        test_window(scan, oldest);
        return;
    }
    const struct window common = {.from = newest->from, .begin = newest->begin, .end = oldest->end};
    const struct window cover = {.from = oldest->from, .begin = oldest->begin, .end = newest->end};
    const struct held least = held_in(scan, &common), most = held_in(scan, &cover);
    if (shows_nothing(scan, &least, &most))
        return;
    test_run(scan, first, count / 2);
    test_run(scan, first + count / 2, count - count / 2);
}

/* ---- The windows */

/* Takes down the windows of a width, but for those without a compound. */
static void find_windows(struct scan *scan)
{
    const struct sent *sent = scan->record->sent;
    const uint32_t count = scan->record->count;
    struct window window = {.from = 0};
    scan->window_count = 0;
    for (uint32_t edge = 0; edge < scan->edge_count; edge++) {
        window.from = scan->edges[edge];
        while (window.begin < count && sent[window.begin].moment < window.from)
            window.begin++;
        if (window.begin < window.end)
            scan->windows[scan->window_count++] = window;
        while (window.end < count && sent[window.end].moment <= window.from + SECONDS[scan->width] * SECOND) {
            window.end = scan->spans[window.end].later;
            scan->windows[scan->window_count++] = window;
        }
    }
}

static int compare_moments(const void *one, const void *other)
{
    const uint64_t first = *(const uint64_t *)one, second = *(const uint64_t *)other;
    return (first > second) - (first < second);
}

/* Keeps each of the edges once. */
static void keep_each_once(struct scan *scan, uint32_t found)
{
    scan->edge_count = 0;
    for (uint32_t edge = 0; edge < found; edge++)
        if (scan->edge_count == 0 || scan->edges[scan->edge_count - 1] != scan->edges[edge])
            scan->edges[scan->edge_count++] = scan->edges[edge];
}

static void find_edges(struct scan *scan)
{
    const struct record *record = scan->record;
    uint32_t found = 0;
    for (uint32_t place = 0; place < record->count; place++) {
        scan->edges[found++] = record->sent[place].moment;
        if (scan->spans[place].kind == JOIN || scan->spans[place].kind == LEAVE)
            scan->edges[found++] = scan->spans[place].since;
    }
    qsort(scan->edges, found, sizeof *scan->edges, compare_moments);
    keep_each_once(scan, found);
}

/* The place of the first compound after a moment. */
static uint32_t place_after(const struct record *record, uint64_t moment)
{
    uint32_t low = 0, high = record->count;
    while (low < high) {
        const uint32_t middle = (low + high) / 2;
        if (record->sent[middle].moment > moment)
            high = middle;
        else
            low = middle + 1;
    }
    return low;
}

/* What the compound at a place ends; `before` is one more than the place of its participant's one before, or 0. */
static struct span span_of(const struct record *record, uint32_t place, uint32_t before)
{
    const struct sent *sent = &record->sent[place];
    struct span span = {.before = before, .next = record->count, .later = place_after(record, sent->moment)};
    if (sent->is_bye) {
        span.kind = sent->since == UINT64_MAX ? NOTHING : LEAVE;
        span.since = sent->since == UINT64_MAX ? sent->moment : sent->since;
        span.members = span.alike = sent->members;
    } else {
        span.kind = before == 0 ? JOIN : WAIT;
        span.since = before == 0 ? record->starts[sent->from] : record->sent[before - 1].moment;
        span.members = sent->members;
        span.alike = alike(sent);
    }
    span.after[AT_ONCE] = place_after(record, span.since);
    span.after[AFTER_DELAY] = place_after(record, span.since + record->delay);
    return span;
}

static void find_spans(struct scan *scan)
{
    const struct record *record = scan->record;
    uint32_t *newest = zeros(record->participants, sizeof *newest);     /* one more than the place, or 0 */
    scan->bye_size = UINT32_MAX;
    for (uint32_t place = 0; place < record->count; place++) {
        const struct sent *sent = &record->sent[place];
        const uint32_t before = newest[sent->from];
        newest[sent->from] = place + 1;
        scan->spans[place] = span_of(record, place, before);
        if (sent->is_bye && sent->octets < scan->bye_size)
            scan->bye_size = sent->octets;
        if (before != 0 && !sent->is_bye)
            scan->spans[before - 1].next = place;
    }
    free(newest);
}

/* Waits that are open from a delay on, with room for so many peaks in each role. */
static struct waits waits_after(uint32_t delay, enum those those, size_t count)
{
    struct waits waits = {.those = those, .delay = delay};
    uint32_t *room = zeros(2 * PEAKS * count, sizeof *room);
    for (uint32_t role = 0; role < PEAKS; role++)
        waits.peaks[role] = (struct peaks){.places = room + 2 * role * count, .numbers = room + (2 * role + 1) * count};
    return waits;
}

void test_waits(struct findings *findings, const struct terms *terms, const struct record *record)
{
    const size_t count = (size_t)record->count + 1;
    struct scan scan = {.findings = findings, .terms = terms, .record = record, .openings = OPENINGS};
    if (record->participants > MOST_PARTICIPANTS || (uint64_t)terms->sender_bw + terms->receiver_bw > MOST_BANDWIDTH)
        stop("products may pass 128 bits: too large a bandwidth, or too many participants", record->participants);
    if (record->delay >= LEAST_WAIT)
        stop("the laws say nothing of so long a delay", record->delay);
    if (record->delay == 0)
        scan.openings = 1;
    scan.waits[AT_ONCE] = waits_after(0, WAITING, count);
    scan.waits[AFTER_DELAY] = waits_after(record->delay, WAITING_AFTER, count);
    scan.spans = zeros(count, sizeof *scan.spans);
    scan.ends = zeros(count, sizeof *scan.ends);
    scan.edges = zeros(2 * count, sizeof *scan.edges);
    scan.windows = zeros(3 * count, sizeof *scan.windows);
    find_spans(&scan);
    find_edges(&scan);
    for (scan.width = 0; scan.width < WIDTHS && !is_over(findings); scan.width++) {
        find_windows(&scan);
        if (scan.window_count > 0)
            test_run(&scan, 0, scan.window_count);
    }
    free(scan.waits[AT_ONCE].peaks[0].places);          /* the room of all its peaks */
    free(scan.waits[AFTER_DELAY].peaks[0].places);
    free(scan.windows);
    free(scan.edges);
    free(scan.ends);
    free(scan.spans);
}
