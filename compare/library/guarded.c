/* What a host with a guard before its participant (config.guard) faces from those who can send datagrams to it, beside
 * the same without one: each attack of docs/EMBEDDING.md, "Facing an open network", by one address or several, and what
 * honest sessions pay. It prints each figure and its bound; beyond one the program ends with status 1.
 * (compare/library/attack) */
#include "attack_host.h"

enum { OWN = 1, VICTIM = 0x1000, NEWCOMER = 0x2000, MTU = 1472, HOUR = 3600, PACKETS = 50 };

/* Addresses: of the victim, of the newcomer, and from 100 on of the attacker. */
enum { AT_HOME = 1, NEW_HOME = 2, HOSTILE = 100 };

static const jalwedd_guard NO_GUARD = {0}, USUAL = {.names = 8, .trusted_names = 256, .hold = 60ull * SECOND};

static bool is_beyond;

static const char *with(jalwedd_guard guard)
{
    return guard.names != 0 ? "guard   " : "no guard";
}

/* A figure that is to lie within bounds. */
static void told(const char *what, jalwedd_guard guard, double is, const char *unit, double least, double most)
{
    const bool beyond = is < least || is > most;
    printf("    %-58s %s %8.1f %s%s\n", what, with(guard), is, unit, beyond ? ": OUT OF BOUNDS" : "");
    is_beyond |= beyond;
}

/* ---- Datagrams from an address */

static uint64_t peer_of(uint32_t address)
{
    return (uint64_t)address << 16 | 5005;
}

static uint32_t rtp_from(struct host *host, uint32_t address, uint32_t ssrc, uint16_t sequence, uint32_t timestamp)
{
    static uint8_t octets[JALWEDD_OCTETS];
    uint8_t datagram[32] = {0x80, 0, (uint8_t)(sequence >> 8), (uint8_t)sequence};
    put_word(datagram + 4, timestamp);
    put_word(datagram + 8, ssrc);
    const uint32_t status = jalwedd_arrive_rtp(&host->session, host->now, peer_of(address), random_word(host), datagram,
                                               sizeof datagram, &host->step, octets);
    count_out(host);
    return status;
}

static uint32_t rtcp_from(struct host *host, uint32_t address, const uint8_t *datagram, size_t size)
{
    static uint8_t octets[JALWEDD_OCTETS];
    const uint32_t status = jalwedd_arrive_rtcp(&host->session, host->now, peer_of(address), random_word(host),
                                                datagram, size, &host->step, octets);
    count_out(host);
    return status;
}

/* A report of a source with the CNAME `a`. */
static uint32_t name_from(struct host *host, uint32_t address, uint32_t ssrc)
{
    uint8_t datagram[20] = {0};
    memcpy(put_packet(put_report(datagram, ssrc), 1, 202, 2, ssrc) - 4, "\1\1a", 4);
    return rtcp_from(host, address, datagram, sizeof datagram);
}

static uint32_t goodbye_from(struct host *host, uint32_t address, uint32_t ssrc)
{
    uint8_t datagram[16] = {0};
    put_packet(put_report(datagram, ssrc), 1, 203, 1, ssrc);
    return rtcp_from(host, address, datagram, sizeof datagram);
}

/* Names of so many sources in one datagram. */
static void invent(struct host *host, uint32_t address, uint32_t first, uint32_t count)
{
    static uint8_t datagram[FULL];
    rtcp_from(host, address, datagram, put_names(datagram, first, 1, count));
}

/* One BYE for at most 31 of them. */
static void part(struct host *host, uint32_t address, uint32_t first, uint32_t count)
{
    uint8_t datagram[MTU];
    uint8_t *at = put_packet(put_report(datagram, first), count, 203, count, first);
    for (uint32_t other = 0; other < count; other++)
        put_word(at - 4 * (count - other), first + other);
    rtcp_from(host, address, datagram, (size_t)(at - datagram));
}

/* ---- A: departures, by which others' reports are put off (6.3.4) */

/* The reports in the hour after the first minute of a host with one other, where each 6 seconds so many names come from
 * so many addresses, and 4.8 seconds later their BYEs. */
static uint32_t reports_among_departures(jalwedd_guard guard, uint32_t names, uint32_t addresses)
{
    struct host host = begun_with(guard, 0, 1024, true, 4242);
    const uint32_t each = (names + addresses - 1) / addresses;
    uint32_t first = INVENTED, before = 0;
    for (uint32_t second = 0; second < HOUR + 60; second += 6, first += names) {
        pass(&host, (uint64_t)second * SECOND);
        name_from(&host, AT_HOME, VICTIM);
        before = second == 60 ? host.reports : before;
        for (uint32_t from = 0; second >= 60 && from < addresses; from++)
            invent(&host, HOSTILE + from, first + from * each, each);
        pass(&host, (uint64_t)second * SECOND + 4800000);
        for (uint32_t from = 0; second >= 60 && from < addresses; from++)
            part(&host, HOSTILE + from, first + from * each, each);
    }
    jalwedd_free(&host.session);
    return host.reports - before;
}

/* The same where one address has eight names alone, in four groups, which come back each 8 seconds: each is there for
 * 1.9 seconds, and the groups leave in turn. */
static uint32_t reports_among_returns(jalwedd_guard guard)
{
    enum { NAMES = 8, GROUPS = 4, BEAT = 50000, PERIOD = 160, STAY = 38 }; /* the last two in beats */
    struct host host = begun_with(guard, 0, 1024, true, 4242);
    uint32_t before = 0;
    for (uint32_t beat = 0; beat < (HOUR + 60) * (SECOND / BEAT); beat++) {
        pass(&host, (uint64_t)beat * BEAT);
        if (beat % 100 == 0)
            name_from(&host, AT_HOME, VICTIM);
        before = beat == 60 * (SECOND / BEAT) ? host.reports : before;
        for (uint32_t name = 0; beat >= 60 * (SECOND / BEAT) && name < NAMES; name++) {
            const uint32_t since = (beat + PERIOD - name % GROUPS * (PERIOD / GROUPS)) % PERIOD;
            if (since == 0)
                name_from(&host, HOSTILE, INVENTED + name);
            else if (since == STAY)
                goodbye_from(&host, HOSTILE, INVENTED + name);
        }
    }
    jalwedd_free(&host.session);
    return host.reports - before;
}

/* A host whose random words an attacker chooses, and what he has to know of its schedule. */
struct foreseen {
    struct host host;
    double last;                        /* tp, in microseconds */
    uint32_t known, reports;            /* pmembers; reports so far */
};

/* The word by which an interval of 5 seconds is drawn as so many microseconds, as nearly as a word can (6.3.1). */
static uint32_t word_for(double drawn)
{
    const double word = (drawn * 1.21828 / 5e6 - 0.5) * 4294967296.0;
    return word < 0 ? 0 : word > UINT32_MAX ? UINT32_MAX : (uint32_t)word;
}

/* Where there are fewer members than at the newest draw, tp moves (6.3.4). */
static void count_fall(struct foreseen *seen)
{
    const double now = (double)seen->host.now, members = seen->host.step.members;
    if (members < seen->known) {
        seen->last = now - (now - seen->last) * members / seen->known;
        seen->known = seen->host.step.members;
    }
}

/* A tick whose draw is 20 ms too long, if a draw can be so long. Whether an interval was drawn. */
static bool tick_foreseen(struct foreseen *seen)
{
    static uint8_t octets[JALWEDD_OCTETS];
    struct host *host = &seen->host;
    const bool draws = host->now >= host->step.next;
    jalwedd_tick(&host->session, host->now, word_for((double)host->now - seen->last + 20000), 0, &host->step, octets);
    host->ticked = host->now;
    count_fall(seen);
    if (draws)
        seen->known = host->step.members;
    if (host->step.kind == JALWEDD_REPORT) {
        seen->reports++;
        seen->last = (double)host->now;
    }
    return draws;
}

/* The reports in an hour where so many names of one address are there one after the other: each comes, waits until an
 * interval is drawn, and leaves, and comes again once its BYE is forgotten. */
static uint32_t reports_by_known_words(uint32_t names)
{
    enum { BEAT = 5000, FORGOTTEN = 5110000, SOONEST = 900000 };
    struct foreseen seen = {.host = begun_with(USUAL, 0, 1024, true, 4242), .known = 1};
    struct host *host = &seen.host;
    uint64_t back[8] = {0};
    uint32_t there = names, before = 0;
    for (host->now = 0; host->now < (uint64_t)(HOUR + 60) * SECOND; host->now += BEAT) {
        const bool begun_to = host->now >= 60ull * SECOND;
        if (host->now % (5 * SECOND) == 0)
            name_from(host, AT_HOME, VICTIM);
        before = begun_to ? before : seen.reports;
        for (uint32_t name = 0; begun_to && there == names && name < names; name++)
            if (host->now >= back[name] && (double)host->now - seen.last > SOONEST) {
                name_from(host, HOSTILE, INVENTED + name);
                there = name;
            }
        const bool ticks = host->now >= host->step.next || host->now >= host->ticked + SECOND / 10;
        if (ticks && tick_foreseen(&seen) && there != names) {
            goodbye_from(host, HOSTILE, INVENTED + there);
            count_fall(&seen);
            back[there] = host->now + FORGOTTEN;
            there = names;
        }
    }
    jalwedd_free(&host->session);
    return seen.reports - before;
}

static void departures(void)
{
    puts("A: invented names and their BYEs each 6 s, from one address: reports an hour");
    told("30 names", NO_GUARD, reports_among_departures(NO_GUARD, 30, 1), "", 0, 5);
    told("30 names", USUAL, reports_among_departures(USUAL, 30, 1), "", 600, 800);
    told("8 names", USUAL, reports_among_departures(USUAL, 8, 1), "", 600, 800);
    told("2 names", USUAL, reports_among_departures(USUAL, 2, 1), "", 600, 800);
    told("1 name", USUAL, reports_among_departures(USUAL, 1, 1), "", 600, 800);
    told("8 names that come back each 8 s, by twos", USUAL, reports_among_returns(USUAL), "", 600, 800);
    told("4 names, where the attacker chooses the host's words", USUAL, reports_by_known_words(4), "", 500, 600);
    puts("The same from several addresses, with as many names as their limits allow");
    told("8 addresses", USUAL, reports_among_departures(USUAL, 8, 8), "", 600, 800);
    told("16 addresses", USUAL, reports_among_departures(USUAL, 16, 16), "", 500, 800);
    told("32 addresses, 32 names", USUAL, reports_among_departures(USUAL, 32, 32), "", 400, 800);
    told("64 addresses, 64 names", USUAL, reports_among_departures(USUAL, 64, 64), "", 100, 400);
}

/* ---- B to E: a forged datagram about a source that sends a packet each 20 ms, for ten minutes after the first */

enum forgery { GOODBYE, TIMESTAMP, SENDER_REPORT, SEQUENCE };

struct effect {
    double away, jitter, lost;          /* per cent of the time, milliseconds at most, per cent of a block at most */
    uint32_t wrong;                     /* reports whose block has the time of a forged sender report */
};

static void forge(struct host *host, enum forgery kind, uint16_t sequence)
{
    uint8_t report[28] = {0};
    put_packet(report, 0, 200, 6, VICTIM);
    put_word(report + 8, 0xdeadbeef);
    switch (kind) {
    case GOODBYE:       goodbye_from(host, HOSTILE, VICTIM); break;
    case TIMESTAMP:     rtp_from(host, HOSTILE, VICTIM, sequence, random_word(host)); break;
    case SENDER_REPORT: rtcp_from(host, HOSTILE, report, sizeof report); break;
    case SEQUENCE:      rtp_from(host, HOSTILE, VICTIM, (uint16_t)(sequence + 2998), sequence * 160u); break;
    }
}

static void note(struct host *host, struct effect *effect, uint32_t *looks)
{
    const jalwedd_source_state source = state_of(host, VICTIM);
    const double jitter = source.jitter / 8.0, lost = source.fraction / 2.56;
    *looks += 1;
    effect->away += source.member != 1;
    effect->jitter = jitter > effect->jitter ? jitter : effect->jitter;
    effect->lost = lost > effect->lost ? lost : effect->lost;
    effect->wrong += source.ntp >> 32 == 0xdeadbeef;
}

static struct effect forged(jalwedd_guard guard, enum forgery kind, uint32_t every)
{
    struct host host = begun_with(guard, 0, 20, true, 77);
    struct effect effect = {0};
    uint32_t looks = 0;
    for (uint32_t packet = 0; packet < 660 * PACKETS; packet++) {
        pass(&host, (uint64_t)packet * SECOND / PACKETS);
        rtp_from(&host, AT_HOME, VICTIM, (uint16_t)packet, packet * 160);
        if (packet % (5 * PACKETS) == 0)
            name_from(&host, AT_HOME, VICTIM);
        if (packet < 60 * PACKETS)
            continue;
        if (packet % (every * PACKETS) == 7)
            forge(&host, kind, (uint16_t)packet);
        if (packet % 5 == 0)
            note(&host, &effect, &looks);
    }
    jalwedd_free(&host.session);
    effect.away *= 100.0 / looks;
    return effect;
}

static void forgeries(void)
{
    puts("B to E: datagrams forged about a sender, from another address");
    told("B, a BYE each 6 s: away", NO_GUARD, forged(NO_GUARD, GOODBYE, 6).away, "%", 50, 100);
    told("B, a BYE each 6 s: away", USUAL, forged(USUAL, GOODBYE, 6).away, "%", 0, 0);
    told("C, a timestamp each 4 s: jitter at most", NO_GUARD, forged(NO_GUARD, TIMESTAMP, 4).jitter, "ms", 1000, 1e9);
    told("C, a timestamp each 4 s: jitter at most", USUAL, forged(USUAL, TIMESTAMP, 4).jitter, "ms", 0, 0);
    told("D, an SR each 5 s: looks with its time", NO_GUARD, forged(NO_GUARD, SENDER_REPORT, 5).wrong, "", 1, 1e9);
    told("D, an SR each 5 s: looks with its time", USUAL, forged(USUAL, SENDER_REPORT, 5).wrong, "", 0, 0);
    told("E, a number 2,998 ahead each 5 s: loss at most", NO_GUARD, forged(NO_GUARD, SEQUENCE, 5).lost, "%", 50, 100);
    told("E, a number 2,998 ahead each 5 s: loss at most", USUAL, forged(USUAL, SEQUENCE, 5).lost, "%", 0, 0);
}

/* ---- F and I: a full table, in which a newcomer finds no room */

/* After how many seconds a source is a member that reports each 5 seconds from the 70th on: 7,130 if it never is in two
 * hours. So many names come once, or each so many seconds, and go at once if `goes` says so. */
static double let_in(jalwedd_guard guard, uint32_t capacity, uint32_t names, double every, bool goes)
{
    struct host host = begun_with(guard, 0, capacity, true, 99);
    uint32_t first = INVENTED;
    double next = 60, in = 7130;
    for (uint32_t quarter = 0; quarter < 4 * 7200 && in == 7130; quarter++) {
        pass(&host, (uint64_t)quarter * SECOND / 4);
        if (quarter / 4.0 >= next) {
            invent(&host, HOSTILE, first, names);
            if (goes)
                part(&host, HOSTILE, first, names);
            first += names;
            next = every > 0 ? next + every : 1e9;
        }
        if (quarter % 20 == 0)
            name_from(&host, AT_HOME, VICTIM);
        if (quarter >= 280 && quarter % 20 == 0)
            name_from(&host, NEW_HOME, NEWCOMER);
        if (quarter >= 280 && state_of(&host, NEWCOMER).member == 1)
            in = quarter / 4.0 - 70;
    }
    jalwedd_free(&host.session);
    return in;
}

static void full_tables(void)
{
    puts("F, I: names that fill the table, from one address: a newcomer is a member after");
    told("F, 1,024 names once", NO_GUARD, let_in(NO_GUARD, 1024, 1024, 0, false), "s", 600, 7130);
    told("F, 1,024 names once", USUAL, let_in(USUAL, 1024, 1024, 0, false), "s", 0, 0);
    told("F, 1,024 names each 20 s", NO_GUARD, let_in(NO_GUARD, 1024, 1024, 20, false), "s", 7130, 7130);
    told("F, 1,024 names each 20 s", USUAL, let_in(USUAL, 1024, 1024, 20, false), "s", 0, 0);
    told("I, 20 names with BYE each 0.25 s, a table of 20", NO_GUARD, let_in(NO_GUARD, 20, 20, 0.25, true), "s", 7130,
         7130);
    told("I, 20 names with BYE each 0.25 s, a table of 20", USUAL, let_in(USUAL, 20, 20, 0.25, true), "s", 0, 5);
    told("I, 1 name with BYE each 0.25 s, a table of 20", USUAL, let_in(USUAL, 20, 1, 0.25, true), "s", 0, 5);
}

/* ---- G: invented senders, who take the blocks of reports and make these rare */

static uint32_t reports_among_senders(jalwedd_guard guard, uint32_t senders)
{
    struct host host = begun_with(guard, 0, 1024, true, 5);
    uint32_t before = 0;
    for (uint32_t second = 0; second < HOUR + 60; second++) {
        pass(&host, (uint64_t)second * SECOND);
        before = second == 60 ? host.reports : before;
        name_from(&host, AT_HOME, VICTIM);
        for (uint32_t sender = 0; second >= 60 && second % 2 == 0 && sender < senders; sender++)
            for (uint16_t packet = 0; packet < 2; packet++)
                rtp_from(&host, HOSTILE, INVENTED + sender, (uint16_t)(second + packet), second * 8000);
    }
    jalwedd_free(&host.session);
    return host.reports - before;
}

static void senders(void)
{
    puts("G: invented senders, from one address: reports an hour");
    told("100 senders", NO_GUARD, reports_among_senders(NO_GUARD, 100), "", 0, 200);
    told("100 senders", USUAL, reports_among_senders(USUAL, 100), "", 600, 800);
}

/* ---- Honest sessions */

/* Of the reports of so many sources behind so many addresses, each 5 seconds for ten minutes, how many are held back. */
static uint32_t held_of(uint32_t sources, uint32_t at_each, bool trusted)
{
    struct host host = begun_with(USUAL, 0, 1024, true, 3);
    uint32_t held = 0;
    if (trusted)
        jalwedd_trust(&host.session, peer_of(HOSTILE));
    for (uint32_t second = 0; second < 600; second += 5) {
        pass(&host, (uint64_t)second * SECOND);
        for (uint32_t source = 0; source < sources; source++)
            held += name_from(&host, HOSTILE + source / at_each, INVENTED + source) != JALWEDD_TAKEN;
    }
    jalwedd_free(&host.session);
    return held;
}

/* A sender at one address starts anew each so many seconds for an hour, with a BYE. */
static uint32_t held_of_restarts(uint32_t every)
{
    struct host host = begun_with(USUAL, 0, 20, true, 3);
    uint32_t held = 0, ssrc = INVENTED;
    for (uint32_t packet = 0; packet < HOUR * PACKETS; packet++) {
        pass(&host, (uint64_t)packet * SECOND / PACKETS);
        if (packet % (every * PACKETS) == every * PACKETS - 1)
            held += goodbye_from(&host, AT_HOME, ssrc++) != JALWEDD_TAKEN;
        held += rtp_from(&host, AT_HOME, ssrc, (uint16_t)packet, packet * 160) != JALWEDD_TAKEN;
    }
    jalwedd_free(&host.session);
    return held;
}

/* After how many seconds a sender passes whose address changes, where the host is told of it, or is not. */
static double passes_again(bool expected)
{
    struct host host = begun_with(USUAL, 0, 20, true, 3);
    double again = 1e9;
    for (uint32_t packet = 0; packet < 300 * PACKETS; packet++) {
        const bool moved = packet >= 100 * PACKETS;
        pass(&host, (uint64_t)packet * SECOND / PACKETS);
        if (packet == 100 * PACKETS && expected)
            jalwedd_expect(&host.session, host.now, VICTIM, peer_of(NEW_HOME));
        const uint32_t status = rtp_from(&host, moved ? NEW_HOME : AT_HOME, VICTIM, (uint16_t)packet, packet * 160);
        if (moved && status == JALWEDD_TAKEN && again == 1e9)
            again = packet / (double)PACKETS - 100;
    }
    jalwedd_free(&host.session);
    return again;
}

static void honest(void)
{
    puts("Honest sessions: datagrams held back");
    told("1,000 join at once from 1,000 addresses", USUAL, held_of(1000, 1, false), "", 0, 0);
    told("8 behind one address (a NAT)", USUAL, held_of(8, 8, false), "", 0, 0);
    told("10 behind one address, of which 2 find no room", USUAL, held_of(10, 10, false), "", 200, 240);
    told("10 behind one address that is trusted", USUAL, held_of(10, 10, true), "", 0, 0);
    told("200 behind a relay that is trusted", USUAL, held_of(200, 200, true), "", 0, 0);
    told("a restart each 10 s, for an hour", USUAL, held_of_restarts(10), "", 0, 0);
    told("an address that changes: passes after", USUAL, passes_again(false), "s", 50, 62);
    told("an address that changes, as the host is told: after", USUAL, passes_again(true), "s", 0, 0);
}

/* Who names an SSRC first keeps its owner out, unless the host expected that. */
static void first_come(void)
{
    puts("First come: the attacker names an SSRC before its owner, and every 25 s again");
    for (int expects = 0; expects < 2; expects++) {
        struct host host = begun_with(USUAL, 0, 20, true, 3);
        uint32_t held = 0;
        if (expects)
            jalwedd_expect(&host.session, 0, VICTIM, peer_of(AT_HOME));
        for (uint32_t second = 0; second < 600; second += 5) {
            pass(&host, (uint64_t)second * SECOND);
            if (second % 25 == 0)
                name_from(&host, HOSTILE, VICTIM);
            held += name_from(&host, AT_HOME, VICTIM) != JALWEDD_TAKEN;
        }
        told(expects ? "held back of 120, expected" : "held back of 120", USUAL, held, "", expects ? 0 : 120,
             expects ? 0 : 120);
        jalwedd_free(&host.session);
    }
}

int main(void)
{
    departures();
    forgeries();
    full_tables();
    senders();
    honest();
    first_come();
    return is_beyond;
}
