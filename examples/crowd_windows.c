/* The laws about a session's windows, tested by one sweep for each width: the window moves over all that was sent, and
 * is tested after each compound that enters or leaves it. So everything that a window of this width can hold is tested,
 * wherever it begins. For counts alone, windows that begin at a report would suffice, since no other holds more; but
 * one more report in a window may also be one that counted fewer members, and then more is allowed. */
#include "crowd_windows.h"

#include <stdlib.h>

enum {
    SECOND = 1000000,
    MINIMUM = 5 * SECOND,       /* the least interval of a later report: it is never a participant's first of all */
    MOST_BYES = 9               /* of a participant: of eight SSRCs that it gave up, and of leaving */
};

const uint32_t SECONDS[WIDTHS] = {1, 2, 5, 10, 20, 30, 60, 120, 200, 300};

static const char *const NAMES[LAWS] = {
    "windows_hold_their_intervals", "windows_keep_to_the_share.one", "windows_keep_to_the_share.all",
    "crowds_do_not_flood.reports", "crowds_do_not_flood.others", "crowds_do_not_flood.reports",
    "crowds_do_not_flood.octets", "crowds_do_not_flood.compounds", "sessions_keep_to_their_bandwidth.averages",
    "sessions_keep_to_their_bandwidth.others", "sessions_keep_to_their_bandwidth.octets",
    "sessions_keep_to_their_bandwidth.reports", "sessions_keep_to_their_bandwidth.compounds",
    "joining_together_does_not_flood.others", "joining_together_does_not_flood.senders",
    "joining_together_does_not_flood.reports", "leaving_together_does_not_flood.byes",
    "delays_stretch_the_window.averages", "delays_stretch_the_window.others", "delays_stretch_the_window.octets",
    "delays_stretch_the_window.reports", "delays_stretch_the_window.compounds"};

/* Numbers that come and go, and the least of those that are there, or COUNTED + 1 where none is. */
struct tally {
    uint32_t times[COUNTED + 2], least;
};

/* What a participant has in the window. Its later reports are [0] those while it sent no RTP, and [1] the others. */
struct own {
    uint32_t reports, later[2];
    uint64_t intervals, shares;     /* the shares in 1/256 octet */
};

struct session {
    const struct terms *terms;
    const struct sent *sent;
    uint32_t count, participants;
    uint32_t *next;             /* for each report the place of its participant's next one, or the count */
    uint32_t reporters;         /* how many participants ever report */
    uint32_t greatest;          /* the octets of the greatest report */
};

struct window {
    const struct session *session;
    struct findings *findings;
    uint32_t width;             /* its place among the widths */
    uint32_t begin, end;        /* the places of its first compound, and after its last one */
    uint32_t reports, byes, reporters;
    uint32_t later[2], those[2];    /* the later reports, as in `own`, and how many participants send such */
    uint64_t octets, shares;
    struct tally members, alike[2];
    struct own *own;
};

_Noreturn void stop(const char *why, uint32_t number)
{
    fprintf(stderr, "crowd: %s (%u)\n", why, number);
    exit(1);
}

void *zeros(size_t count, size_t size)
{
    void *at = calloc(count, size);
    if (at == NULL)
        stop("no memory", 0);
    return at;
}

static void put(struct tally *tally, uint32_t number)
{
    tally->times[number]++;
    if (number < tally->least)
        tally->least = number;
}

static void take(struct tally *tally, uint32_t number)
{
    tally->times[number]--;
    while (tally->least <= COUNTED && tally->times[tally->least] == 0)
        tally->least++;
}

/* ---- What a report goes by (RFC 3550, 6.3.1) */

uint32_t alike(const struct sent *report)
{
    return report->sends_rtp ? report->senders : report->members - report->senders;
}

/* Rounded up, as the library's is. */
uint64_t interval_by(const struct terms *terms, const struct sent *report, uint32_t average)
{
    const uint64_t both = (uint64_t)terms->sender_bw + terms->receiver_bw;
    uint64_t sharers = report->members, bandwidth = both;
    if (report->senders * both <= (uint64_t)report->members * terms->sender_bw) {
        sharers = alike(report);
        bandwidth = report->sends_rtp ? terms->sender_bw : terms->receiver_bw;
    }
    const uint64_t shared = (SECOND * sharers * average + 256 * bandwidth - 1) / (256 * bandwidth);
    return shared > MINIMUM ? shared : MINIMUM;
}

static uint64_t interval_of(const struct terms *terms, const struct sent *report)
{
    return interval_by(terms, report, report->average);
}

/* What the others that it counts as such as do not send would have used, had each sent a compound of average size. */
static uint64_t share_of(const struct sent *report)
{
    return report->sends_rtp ? 0 : (uint64_t)report->average * alike(report);
}

/* ---- The laws of a window */

const char *name_of(enum law law)
{
    return NAMES[law];
}

bool is_over(const struct findings *findings)
{
    return findings->broken != 0 && !findings->goes_on;
}

void hold(struct findings *findings, const struct spot *spot, enum law law, wide used, wide allowed)
{
    double *most = &findings->of[spot->width].used[law];
    const double part = used == 0 ? 0 : 100 * (double)used / (double)allowed;
    if (part > *most)
        *most = part;
    if (used <= allowed || is_over(findings))
        return;
    findings->broken |= 1u << law;
    if (!findings->goes_on)
        fprintf(stderr, "crowd: %s is broken: %.4f per cent is used of what it allows in a window of %u s, from %.6f s "
                "to %.6f s, when participant %u sent\n", NAMES[law], part, SECONDS[spot->width],
                (double)spot->first->moment / SECOND, (double)spot->last->moment / SECOND, spot->last->from);
}

static void hold_here(struct window *window, enum law law, wide used, wide allowed)
{
    const struct sent *sent = window->session->sent;
    const struct spot spot = {.width = window->width, .first = &sent[window->begin], .last = &sent[window->end - 1]};
    hold(window->findings, &spot, law, used, allowed);
}

/* The least percent such that a crowd is at most so many percent of those whom each later report counts, and so are
 * those who send later reports in its participant's role. */
static uint64_t percent_of(const struct window *window, uint32_t crowd)
{
    const uint32_t of[3] = {crowd, window->those[0], window->those[1]};
    const uint32_t counted[3] = {window->members.least, window->alike[0].least, window->alike[1].least};
    uint64_t most = 0;
    for (uint32_t at = 0; at < 3 && window->members.least <= COUNTED; at++) {
        const uint64_t percent = (100 * (uint64_t)of[at] + counted[at] - 1) / counted[at];
        most = percent > most ? percent : most;
    }
    return most;
}

/* How many compounds are allowed for a bandwidth. */
static uint64_t carried(const struct window *window, uint64_t percent, uint32_t bandwidth)
{
    return percent * PACE * SECONDS[window->width] * bandwidth / (100ull * WHOLE * window->session->terms->size);
}

/* What holds of each participant. Only a report that comes into the window brings it closer. */
static void test_own(struct window *window, const struct own *own)
{
    const struct terms *terms = window->session->terms;
    const wide allowed = (wide)PACE * SECONDS[window->width];
    hold_here(window, INTERVALS, (wide)WHOLE * own->intervals, allowed * SECOND);
    hold_here(window, SHARE, (wide)WHOLE * own->shares, allowed * 256 * terms->receiver_bw);
}

/* What holds of all together. The laws are those of any participants of a session: they are tested of those who report
 * in the window, so that their later reports stand alone against what is carried, and of all that ever report. */
static void test_all(struct window *window)
{
    const struct session *session = window->session;
    const uint32_t receiver_bw = session->terms->receiver_bw, both = session->terms->sender_bw + receiver_bw;
    const uint64_t percent = percent_of(window, window->reporters);
    const uint64_t all_percent = percent_of(window, session->reporters);
    const uint64_t allowed = session->reporters + carried(window, all_percent, both);
    struct fullest *fullest = &window->findings->of[window->width];
    hold_here(window, SHARES, (wide)WHOLE * window->shares,
              (wide)PACE * SECONDS[window->width] * 256 * receiver_bw * window->those[0]);
    hold_here(window, LATER, window->later[0] + window->later[1], carried(window, percent, both));
    hold_here(window, OTHERS, window->later[0], carried(window, percent, receiver_bw));
    hold_here(window, REPORTS, window->reports, allowed);
    hold_here(window, OCTETS, window->octets, session->greatest * allowed);
    hold_here(window, COMPOUNDS, window->reports + window->byes, (uint64_t)MOST_BYES * session->reporters + allowed);
    if (window->reports <= fullest->reports)
        return;
    fullest->reports = window->reports;
    fullest->from = session->sent[window->begin].moment;
    fullest->allowed = allowed;
    fullest->percent = all_percent;
}

/* ---- The sweep */

static void add_later(struct window *window, const struct sent *report)
{
    struct own *own = &window->own[report->from];
    const uint64_t share = share_of(report);
    window->later[report->sends_rtp]++;
    window->those[report->sends_rtp] += own->later[report->sends_rtp]++ == 0;
    own->intervals += interval_of(window->session->terms, report);
    own->shares += share;
    window->shares += share;
    put(&window->members, report->members);
    put(&window->alike[report->sends_rtp], alike(report));
    test_own(window, own);
}

static void drop_later(struct window *window, const struct sent *report)
{
    struct own *own = &window->own[report->from];
    const uint64_t share = share_of(report);
    window->later[report->sends_rtp]--;
    window->those[report->sends_rtp] -= --own->later[report->sends_rtp] == 0;
    own->intervals -= interval_of(window->session->terms, report);
    own->shares -= share;
    window->shares -= share;
    take(&window->members, report->members);
    take(&window->alike[report->sends_rtp], alike(report));
}

/* Takes the next compound into the window. */
static void enter(struct window *window)
{
    const struct sent *next = &window->session->sent[window->end++];
    struct own *own = &window->own[next->from];
    window->byes += next->is_bye;
    if (next->is_bye)
        return;
    window->reports++;
    window->octets += next->octets;
    if (own->reports++ == 0)
        window->reporters++;
    else
        add_later(window, next);
}

/* Leaves the first compound behind. If its participant has others in the window, the oldest of these is no later report
 * any more. */
static void leave(struct window *window)
{
    const uint32_t place = window->begin++;
    const struct sent *first = &window->session->sent[place];
    struct own *own = &window->own[first->from];
    window->byes -= first->is_bye;
    if (first->is_bye)
        return;
    window->reports--;
    window->octets -= first->octets;
    if (--own->reports == 0)
        window->reporters--;
    else
        drop_later(window, &window->session->sent[window->session->next[place]]);
}

static void sweep(struct window *window)
{
    const struct session *session = window->session;
    const uint64_t width = (uint64_t)SECONDS[window->width] * SECOND;
    while (window->begin < session->count && !is_over(window->findings)) {
        const uint64_t last = session->sent[window->begin].moment + width;
        if (window->end < session->count && session->sent[window->end].moment <= last)
            enter(window);
        else
            leave(window);
        if (window->begin < window->end)
            test_all(window);
    }
}

static void sweep_all(const struct session *session, struct findings *findings)
{
    struct own *own = zeros(session->participants, sizeof *own);    /* at its end a sweep leaves them so */
    struct window *window = zeros(1, sizeof *window);
    for (uint32_t width = 0; width < WIDTHS && !is_over(findings); width++) {
        *window = (struct window){.session = session, .findings = findings, .width = width, .own = own,
                                  .members.least = COUNTED + 1, .alike[0].least = COUNTED + 1,
                                  .alike[1].least = COUNTED + 1};
        sweep(window);
    }
    free(window);
    free(own);
}

/* ---- A session */

/* From a report to its participant's next one: the narrowest windows that have a later report. Where these hold their
 * intervals, those of every other width do too, as intervals and widths add up. */
static void test_spacing(const struct session *session, struct findings *findings)
{
    for (uint32_t place = 0; place < session->count && !is_over(findings); place++) {
        const struct sent *report = &session->sent[place], *next = &session->sent[session->next[place]];
        if (report->is_bye || session->next[place] == session->count)
            continue;
        const uint64_t interval = interval_of(session->terms, next);
        const wide used = (wide)WHOLE * interval, allowed = (wide)PACE * (next->moment - report->moment);
        const double part = 100 * (double)used / (double)allowed;
        findings->spaced = part > findings->spaced ? part : findings->spaced;
        if (used <= allowed)
            continue;
        findings->broken |= 1u << INTERVALS;
        if (!findings->goes_on)
            fprintf(stderr, "crowd: %s is broken: participant %u reports at %.6f s and again at %.6f s, sooner than "
                    "its interval over 2.43656: that is %.6f s\n", NAMES[INTERVALS], report->from,
                    (double)report->moment / SECOND, (double)next->moment / SECOND, (double)interval / SECOND);
    }
}

/* Whether it can come from one who goes by the terms. */
static bool is_sound(const struct terms *terms, const struct sent *sent)
{
    if (sent->octets < terms->size || sent->octets > UINT16_MAX || sent->average > 256 * UINT16_MAX)
        return false;
    if (sent->is_bye)
        return sent->since == UINT64_MAX || (sent->since < sent->moment && sent->members > 0);
    return sent->members <= COUNTED && sent->senders <= sent->members && alike(sent) > 0 && sent->average >= 256;
}

/* Finds what a sweep has to know beforehand, from the last compound on. */
static void read_session(struct session *session, struct findings *findings)
{
    uint32_t *newest = zeros(session->participants, sizeof *newest);    /* one more than the place, or 0 */
    for (uint32_t place = session->count; place-- > 0;) {
        const struct sent *here = &session->sent[place];
        if (here->from >= session->participants || !is_sound(session->terms, here))
            stop("a compound has too few or too many octets, or its participant counts what it cannot", place);
        findings->byes += here->is_bye;
        if (here->is_bye)
            continue;
        findings->reports++;
        session->next[place] = newest[here->from] == 0 ? session->count : newest[here->from] - 1;
        session->reporters += newest[here->from] == 0;
        session->greatest = here->octets > session->greatest ? here->octets : session->greatest;
        newest[here->from] = place + 1;
    }
    free(newest);
}

void test_windows(struct findings *findings, const struct terms *terms, const struct record *record)
{
    struct session session = {.terms = terms, .sent = record->sent, .count = record->count,
                              .participants = record->participants};
    session.next = zeros((size_t)record->count + 1, sizeof *session.next);
    read_session(&session, findings);
    findings->reporters += session.reporters;
    findings->delay = record->delay;
    findings->greatest = session.greatest > findings->greatest ? session.greatest : findings->greatest;
    test_spacing(&session, findings);
    sweep_all(&session, findings);
    test_waits(findings, terms, record);
    free(session.next);
}

static void print_width(FILE *to, uint32_t seconds, const struct fullest *fullest)
{
    const double *used = fullest->used;
    fprintf(to, "    %5u %8llu %8llu %7llu %9.2f", seconds, (unsigned long long)fullest->reports,
            (unsigned long long)fullest->allowed, (unsigned long long)fullest->percent, (double)fullest->from / SECOND);
    fprintf(to, "  %8.1f %6.1f %7.1f %6.1f %6.1f %8.1f %7.1f %8.1f\n", used[INTERVALS], used[SHARE], used[SHARES],
            used[LATER], used[OTHERS], used[REPORTS], used[OCTETS], used[COMPOUNDS]);
}

/* By the laws of those who wait, join and leave. */
static void print_waits(FILE *to, uint32_t seconds, const struct fullest *fullest)
{
    const double *used = fullest->used;
    const uint64_t *percents = fullest->percents;
    fprintf(to, "    %5u %8llu %7llu %8llu %7llu %7llu", seconds, (unsigned long long)fullest->kept,
            (unsigned long long)fullest->kept_percent, (unsigned long long)percents[WAITING],
            (unsigned long long)percents[JOINING], (unsigned long long)percents[LEAVING_TOGETHER]);
    fprintf(to, "  %8.1f %6.1f %6.1f %7.1f %8.1f %7.1f %7.1f %7.1f %6.1f\n", used[KEPT_AVERAGES], used[KEPT_OTHERS],
            used[KEPT_OCTETS], used[KEPT_REPORTS], used[KEPT_COMPOUNDS], used[JOINED_OTHERS], used[JOINED_SENDERS],
            used[JOINED_REPORTS], used[LEFT_BYES]);
}

static void print_stretched(FILE *to, uint32_t seconds, const struct fullest *fullest)
{
    const double *used = fullest->used;
    fprintf(to, "    %5u %8llu %7llu %8llu %8llu", seconds, (unsigned long long)fullest->stretched,
            (unsigned long long)fullest->stretched_percent, (unsigned long long)fullest->percents[WAITING_AFTER],
            (unsigned long long)fullest->percents[WAITING]);
    fprintf(to, "  %8.1f %6.1f %6.1f %7.1f %8.1f\n", used[AFTER_AVERAGES], used[AFTER_OTHERS], used[AFTER_OCTETS],
            used[AFTER_REPORTS], used[AFTER_COMPOUNDS]);
}

/* By delays_stretch_the_window, of a session with a delay. */
static void print_all_stretched(FILE *to, const struct findings *findings)
{
    fprintf(to, "          in it are        percent at most            delays_stretch_the_window\n"
            "    width  allowed percent    after  at once  averages others octets reports with BYE\n");
    for (uint32_t width = 0; width < WIDTHS; width++)
        print_stretched(to, SECONDS[width], &findings->of[width]);
}

void print_findings(FILE *to, const struct findings *findings)
{
    if (is_over(findings)) {
        fprintf(to, "    a law is broken, and the rest is not tested\n");
        return;
    }
    fprintf(to, "    %llu reports of %u participants, of at most %u octets, and %llu BYEs\n",
            (unsigned long long)findings->reports, findings->reporters, findings->greatest,
            (unsigned long long)findings->byes);
    fprintf(to, "    from one report to the next: at most %.1f per cent of the longest interval that is allowed\n",
            findings->spaced);
    fprintf(to, "    the fullest window of each width              used of what each law allows, at most, per cent\n");
    fprintf(to, "    width  reports  allowed percent    from s  interval  share  shares  later others  reports  octets "
            "with BYE\n");
    for (uint32_t width = 0; width < WIDTHS; width++)
        print_width(to, SECONDS[width], &findings->of[width]);
    fprintf(to, "          in it are        percent at most of            sessions_keep_to_their_bandwidth     "
            "joining_together       leaving\n");
    fprintf(to, "    width  allowed percent  waiting joining leaving  averages others octets reports with BYE  others "
            "senders reports   BYEs\n");
    for (uint32_t width = 0; width < WIDTHS; width++)
        print_waits(to, SECONDS[width], &findings->of[width]);
    if (findings->delay > 0)
        print_all_stretched(to, findings);
    fprintf(to, "    no window breaks a law\n");
}

static void print_sent(FILE *to, const struct sent *sent)
{
    fprintf(to, "sent %llu %u %u %u %u %u %d %d ", (unsigned long long)sent->moment, sent->from, sent->octets,
            sent->members, sent->senders, sent->average, sent->sends_rtp, sent->is_bye);
    fprintf(to, "%lld\n", sent->since == UINT64_MAX ? -1ll : (long long)sent->since);
}

static void print_figures(FILE *to, uint32_t seconds, const struct fullest *fullest)
{
    fprintf(to, "width %u %llu %llu %llu", seconds, (unsigned long long)fullest->kept_reports,
            (unsigned long long)fullest->kept, (unsigned long long)fullest->kept_percent);
    for (uint32_t those = 0; those < THOSE; those++)
        fprintf(to, " %llu", (unsigned long long)fullest->percents[those]);
    for (uint32_t law = KEPT_AVERAGES; law < LAWS; law++)
        fprintf(to, " %.17g", fullest->used[law]);
    fprintf(to, "\n");
}

void print_session(FILE *to, const struct terms *terms, const struct record *record, const struct findings *findings)
{
    fprintf(to, "session %u %u %u\n", terms->sender_bw, terms->receiver_bw, record->delay);
    for (uint32_t who = 0; who < record->participants; who++)
        fprintf(to, "start %u %llu\n", who, (unsigned long long)record->starts[who]);
    for (uint32_t place = 0; place < record->count; place++)
        print_sent(to, &record->sent[place]);
    for (uint32_t width = 0; width < WIDTHS; width++)
        print_figures(to, SECONDS[width], &findings->of[width]);
}
