/* A host in C that acts as `rtcp replay`: it takes the options, reads events, one per line, and writes the answers of
 * the library. It expects well-formed options and lines, and does not look for faults of text; if the configuration is
 * refused it writes the status.
 * With `sources` each answer, refused or not, also says whether others changed and how many entries there are, and is
 * followed by a line for each source that the library lists. With `record` it records its calls in the file CALLS, and
 * the command that plays them again in COMMAND.
 * With `--start MOMENT`, an option of its own, its clock counts from elsewhere: it adds the start to each moment that
 * it passes, and subtracts it from those that it is told. Then some lines have a call before the start beforehand,
 * which has to change nothing. Of each datagram it reads all parts with cursors, which has to give what the calls by
 * index do.
 * usage: host replay|sources OPTION.. < EVENTS                    (compare/library/embedding)
 *        host record CALLS COMMAND OPTION.. < EVENTS              (compare/program/record) */
#define JALWEDD_RECORD_STDIO
#include "jalwedd_record.h"
#include "host_options.h"
#include "walks.h"

#include <inttypes.h>
#include <stdio.h>

enum { MOST_SOURCES = 1025 };       /* one source more than there may be */

static int tells_sources;

/* The host's clock at the start of the session. */
static uint64_t start;

/* Nothing is recorded unless main says where to. */
static jalwedd_record calls, command;

static const char *const REFUSALS[] = {"", "Left", "Backwards", "TooFar", "TooMany", "Wire", "Rtp", "OwnSsrc"};

/* Why settings are refused, from JALWEDD_BANDWIDTH on. */
static const char *const SETTINGS[] = {"C4 Bandwidth", "C5 Rate", "C6 Item"};

/* A moment that is told, as one from the start on. */
static uint64_t since_start(uint64_t told)
{
    if (told != JALWEDD_NEVER && told < start)
        printf("the moment %" PRIu64 " lies before the start\n", told);
    return told == JALWEDD_NEVER ? told : told - start;
}

/* The moment of the host's clock that is so much later than the start, or the last one that there is. */
static uint64_t by_clock(uint64_t moment)
{
    return moment > UINT64_MAX - start ? UINT64_MAX : start + moment;
}

static void write_counts(const char *first, const jalwedd_step *step)
{
    printf("%s members=%" PRIu32 " senders=%" PRIu32 " next=", first, step->members, step->senders);
    if (step->next == JALWEDD_NEVER)
        printf("-");
    else
        printf("%" PRIu64, since_start(step->next));
}

static void write_moment(const char *name, uint64_t moment)
{
    if (moment == JALWEDD_NEVER)
        printf(" %s=-", name);
    else
        printf(" %s=%" PRIu64, name, since_start(moment));
}

static void write_source(const jalwedd_source_state *source)
{
    printf("  %08" PRIx32 " member=%" PRIu32 " sender=%" PRIu32, source->ssrc, source->member, source->sender);
    write_moment("heard", source->heard);
    write_moment("left", source->left);
    printf(" received=%" PRIu64 " lost=%" PRId32 " highest=%" PRIu32 " jitter=%" PRIu32 " rate=%" PRIu32,
           source->received, source->lost, source->highest, source->jitter, source->rate);
    write_moment("told", source->told);
    printf(" ntp=%016" PRIx64 " rtp=%08" PRIx32 " octets=%" PRIu64, source->ntp, source->rtp, source->octets);
    /* without a block both numbers have to be 0 */
    if (source->has_block == 0 && source->fraction == 0 && source->block_highest == 0)
        printf(" block=-\n");
    else
        printf(" block=%" PRIu32 "/%" PRIu32 "%s\n", source->fraction, source->block_highest,
               source->has_block == 1 ? "" : " (none)");
}

/* Reads the sources from an SSRC on, and returns how many there are. */
static size_t walk(jalwedd_handle *session, uint64_t from, jalwedd_source_state *sources)
{
    size_t count = 0;
    while (count < MOST_SOURCES && jalwedd_source(session, from, &sources[count]) == JALWEDD_TAKEN)
        from = (uint64_t)sources[count++].ssrc + 1;
    return count;
}

/* Writes all sources. Their SSRCs have to rise, and a walk from the one in the middle on has to give the rest. */
static void write_sources(jalwedd_handle *session)
{
    static jalwedd_source_state sources[MOST_SOURCES], rest[MOST_SOURCES];
    const size_t count = walk(session, 0, sources), middle = count / 2;
    for (size_t at = 0; at < count; at++) {
        write_source(&sources[at]);
        if (at > 0 && sources[at].ssrc <= sources[at - 1].ssrc)
            printf("the SSRCs do not rise\n");
    }
    const size_t left = walk(session, count > 0 ? sources[middle].ssrc : 0, rest);
    if (left != count - middle || memcmp(rest, sources + middle, left * sizeof *rest) != 0)
        printf("the walk from the middle does not give the rest\n");
}

static void end_answer(jalwedd_handle *session, const jalwedd_step *step)
{
    if (tells_sources)
        printf(" others=%" PRIu32 " entries=%" PRIu32, step->others_changed, step->entries);
    printf("\n");
    if (step->members != jalwedd_members(session) || step->senders != jalwedd_senders(session)
        || step->entries != jalwedd_entries(session) || step->next != jalwedd_next(session)
        || step->ssrc != jalwedd_ssrc(session))
        printf("the step does not say what the handle does\n");
    if (tells_sources)
        write_sources(session);
}

static void write_answer(uint32_t status, const jalwedd_step *step, const uint8_t *octets, const jalwedd_fault *fault)
{
    if (status == JALWEDD_TOO_LONG) {
        printf("refused TooLong");
        return;
    }
    if (status >= JALWEDD_BANDWIDTH && status <= JALWEDD_ITEM) {
        printf("refused E8 Settings: %s", SETTINGS[status - JALWEDD_BANDWIDTH]);
        return;
    }
    if (status != JALWEDD_TAKEN) {
        const char *const text = jalwedd_fault_text(fault->reason);
        printf("refused E%" PRIu32 " %s", status, REFUSALS[status]);
        if (status == JALWEDD_NO_COMPOUND || status == JALWEDD_NO_RTP)
            printf(": %.*s", (int)strcspn(text, ":"), text); /* the rule as it is named */
        if (status == JALWEDD_NO_COMPOUND)
            printf(" at %" PRIu64, fault->offset);
        return;
    }
    write_counts("ok", step);
    printf(" out=%s", step->kind == JALWEDD_NOTHING ? "-" : step->kind == JALWEDD_REPORT ? "report:" : "bye:");
    for (uint32_t at = 0; at < step->size; at++)
        printf("%02x", octets[at]);
    if (step->changed)
        printf(" ssrc=%08" PRIx32, step->ssrc);
}

/* ---- Calls before the start */

/* One of the seven calls, at this moment, which is recorded too. */
static uint32_t call_of(uint64_t kind, jalwedd_handle *session, uint64_t now, jalwedd_step *step, uint8_t *octets)
{
    static const uint8_t report[] = {0x80, 0xc9, 0, 1, 0, 0, 0, 7}, packet[12] = {0x80, 0, 0, 1};
    static const jalwedd_settings settings = {.sender_bw = 1 << 20, .receiver_bw = 16, .rate = 1, .ntp_base = 7};
    static const jalwedd_item no_item;
    switch (kind % 7) {
    case 0:
        jalwedd_record_arrive_rtcp(&calls, now, 7, 9, report, sizeof report);
        return jalwedd_arrive_rtcp(session, now, 7, 9, report, sizeof report, step, octets);
    case 1:
        jalwedd_record_arrive_rtp(&calls, now, 7, 9, packet, sizeof packet);
        return jalwedd_arrive_rtp(session, now, 7, 9, packet, sizeof packet, step, octets);
    case 2:
        jalwedd_record_sent_rtp(&calls, now, 7, 160);
        return jalwedd_sent_rtp(session, now, 7, 160, step, octets);
    case 3:
        jalwedd_record_tick(&calls, now, 7, 9);
        return jalwedd_tick(session, now, 7, 9, step, octets);
    case 4:
        jalwedd_record_configure(&calls, now, &settings, &no_item, 0);
        return jalwedd_configure(session, now, &settings, &no_item, 0, step, octets);
    case 5:
        jalwedd_record_forget(&calls, now, 7);
        return jalwedd_forget(session, now, 7, step, octets);
    default:
        jalwedd_record_leave(&calls, now, 9);
        return jalwedd_leave(session, now, 9, step, octets);
    }
}

/* Makes a call before the start, which is refused and changes nothing. */
static void come_early(jalwedd_handle *session, uint64_t random)
{
    static jalwedd_source_state before[MOST_SOURCES], after[MOST_SOURCES];
    static uint8_t octets[JALWEDD_OCTETS], untouched[JALWEDD_OCTETS];
    const jalwedd_step wanted = {.next = jalwedd_next(session), .members = jalwedd_members(session),
                                 .senders = jalwedd_senders(session), .ssrc = jalwedd_ssrc(session),
                                 .entries = jalwedd_entries(session)};
    const uint64_t now = random % 7 == 0 ? 0 : random % 7 == 1 ? start - 1 : random / 7 % start;
    const size_t count = walk(session, 0, before);
    jalwedd_step step;
    memset(octets, 0x5a, sizeof octets);
    memset(untouched, 0x5a, sizeof untouched);
    const uint32_t status = call_of(random >> 40, session, now, &step, octets);
    if (status != (wanted.next == JALWEDD_NEVER ? JALWEDD_LEFT : JALWEDD_BACKWARDS))
        printf("a call before the start has the status %" PRIu32 "\n", status);
    if (memcmp(&step, &wanted, sizeof step) != 0 || memcmp(octets, untouched, sizeof octets) != 0
        || walk(session, 0, after) != count || memcmp(before, after, count * sizeof *before) != 0)
        printf("a call before the start changes something\n");
}

/* The next word of splitmix64. */
static uint64_t random_word(void)
{
    static uint64_t state;
    uint64_t word = state += 0x9e3779b97f4a7c15u;
    word = (word ^ word >> 30) * 0xbf58476d1ce4e5b9u;
    word = (word ^ word >> 27) * 0x94d049bb133111ebu;
    return word ^ word >> 31;
}

/* ---- The events */

/* Tells the participant of other settings. */
static uint32_t configure(jalwedd_handle *session, uint64_t now, char **fields, jalwedd_step *step, uint8_t *octets)
{
    jalwedd_settings settings = {.sender_bw = (uint32_t)strtoul(fields[2], NULL, 10),
                                 .receiver_bw = (uint32_t)strtoul(fields[3], NULL, 10),
                                 .rate = (uint32_t)strtoul(fields[6], NULL, 10),
                                 .ntp_base = strtoull(fields[7], NULL, 16)};
    jalwedd_item items[MOST_ITEMS];
    settings.clock_count = read_clocks(fields[4], settings.clocks);
    const size_t item_count = read_items(fields[5], items);
    jalwedd_record_configure(&calls, now, &settings, items, item_count);
    return jalwedd_configure(session, now, &settings, items, item_count, step, octets);
}

/* Tells the participant the event of a line, of at most eight fields. */
static void tell(jalwedd_handle *session, char **fields)
{
    static uint8_t octets[JALWEDD_OCTETS];
    jalwedd_step step;
    jalwedd_fault fault = {0, 0};
    uint32_t status;
    const uint64_t now = by_clock(strtoull(fields[1], NULL, 10)), random = random_word();
    if (start != 0 && random % 4 == 0)
        come_early(session, random / 4);
    if (strcmp(fields[0], "rtcp") == 0 || strcmp(fields[0], "rtp") == 0) {
        /* a block of just its size, so that a sanitizer sees what is read past it */
        uint8_t *room = malloc(MOST_OCTETS);
        const size_t size = unhex(fields[4], room, MOST_OCTETS);
        uint8_t *datagram = malloc(size > 0 ? size : 1);
        memcpy(datagram, room, size);
        const uint64_t peer = strtoull(fields[2], NULL, 10);
        const uint32_t word = (uint32_t)strtoul(fields[3], NULL, 16);
        const char *how = walks_differ(datagram, size);
        if (how != NULL)
            printf("%s\n", how);
        if (fields[0][2] == 'c') {
            jalwedd_record_arrive_rtcp(&calls, now, peer, word, datagram, size);
            status = jalwedd_arrive_rtcp(session, now, peer, word, datagram, size, &step, octets);
            jalwedd_check(datagram, size, &fault);
        } else {
            jalwedd_record_arrive_rtp(&calls, now, peer, word, datagram, size);
            status = jalwedd_arrive_rtp(session, now, peer, word, datagram, size, &step, octets);
            if (status == JALWEDD_NO_RTP && (jalwedd_rtp_fault(datagram, size, &fault) != status || fault.offset != 0))
                printf("an RTP datagram has no fault\n");
        }
        free(datagram);
        free(room);
    } else if (strcmp(fields[0], "sent") == 0) {
        const uint32_t timestamp = (uint32_t)strtoul(fields[2], NULL, 10);
        const uint32_t payload = (uint32_t)strtoul(fields[3], NULL, 10);
        jalwedd_record_sent_rtp(&calls, now, timestamp, payload);
        status = jalwedd_sent_rtp(session, now, timestamp, payload, &step, octets);
    } else if (strcmp(fields[0], "tick") == 0) {
        const uint32_t first = (uint32_t)strtoul(fields[2], NULL, 16), second = (uint32_t)strtoul(fields[3], NULL, 16);
        jalwedd_record_tick(&calls, now, first, second);
        status = jalwedd_tick(session, now, first, second, &step, octets);
    } else if (strcmp(fields[0], "configure") == 0) {
        status = configure(session, now, fields, &step, octets);
    } else if (strcmp(fields[0], "forget") == 0) {
        const uint32_t ssrc = (uint32_t)strtoul(fields[2], NULL, 16);
        jalwedd_record_forget(&calls, now, ssrc);
        status = jalwedd_forget(session, now, ssrc, &step, octets);
    } else {
        const uint32_t word = (uint32_t)strtoul(fields[2], NULL, 16);
        jalwedd_record_leave(&calls, now, word);
        status = jalwedd_leave(session, now, word, &step, octets);
    }
    write_answer(status, &step, octets, &fault);
    end_answer(session, &step);
}

/* Has calls and command recorded in these files. */
static void record_in(const char *of_calls, const char *of_command)
{
    calls = (jalwedd_record){.write = jalwedd_record_to_file, .to = fopen(of_calls, "w"), .start = start};
    command = (jalwedd_record){.write = jalwedd_record_to_file, .to = fopen(of_command, "w"), .start = start};
    if (calls.to == NULL || command.to == NULL) {
        perror("host");
        exit(1);
    }
}

/* Ends the records, and tells whether all of both was written. */
static int recorded(void)
{
    int all = !calls.failed && !command.failed;
    if (calls.write != NULL) {
        all &= fclose(calls.to) == 0;
        all &= fclose(command.to) == 0;
    }
    return all;
}

int main(int count, char **words)
{
    static struct options options;
    static char line[2 * MOST_OCTETS + 200];
    jalwedd_handle session = JALWEDD_EMPTY;
    jalwedd_step step;
    int given = 2;
    tells_sources = count > 1 && strcmp(words[1], "sources") == 0;
    const int is_recorded = count > 3 && strcmp(words[1], "record") == 0;
    if (is_recorded)
        given = 4;
    read_options(&options, count - given, words + given);
    for (int at = given; at + 1 < count; at += 2)
        if (strcmp(words[at], "--start") == 0)
            start = strtoull(words[at + 1], NULL, 10);
    options.config.start = start;
    if (is_recorded)
        record_in(words[2], words[3]);
    const uint32_t status = jalwedd_new(&session, &options.config, (const uint8_t *)options.cname,
                                        strlen(options.cname), options.items, options.item_count, options.word, &step);
    if (status != JALWEDD_TAKEN) {
        fprintf(stderr, "config C%" PRIu32 "\n", status - 10);
        return 2;
    }
    if (jalwedd_record_command(&command, &options.config, (const uint8_t *)options.cname, strlen(options.cname),
                               options.items, options.item_count, options.word) != JALWEDD_TAKEN) {
        fprintf(stderr, "no command has this configuration\n");
        return 1;
    }
    write_counts("start", &step);
    end_answer(&session, &step);
    while (fgets(line, sizeof line, stdin) != NULL) {
        char *fields[8] = {"", "", "", "", "", "", "", ""};
        size_t field = 0;
        for (char *word = strtok(line, " \n"); word != NULL && field < 8; word = strtok(NULL, " \n"))
            fields[field++] = word;
        tell(&session, fields);
    }
    return jalwedd_free(&session) == JALWEDD_TAKEN && recorded() ? 0 : 1;
}
