/* A host in C that compiles with this package and with those of 0.3. It plays a session of `rtcp replay` from moment 0.
 * For each call it writes the status, all fields of the step, the octets that it handed out, and a digest of the
 * sources that are listed; for each datagram its fault, and a digest of its head and its parts, by their index.
 * usage: before OPTION.. < EVENTS        (compare/library/before) */
#include "host_options.h"

#include <inttypes.h>
#include <stdio.h>

enum { FIRST_PARTS = 40 };

static uint64_t digest;

static void mix(const void *what, size_t size)
{
    for (size_t at = 0; at < size; at++)
        digest = (digest ^ ((const uint8_t *)what)[at]) * 0x100000001b3u;
    digest ^= digest >> 29;
}

/* The sources that are listed, as far as a source of 0.3 goes, which has no padding. */
static void write_sources(jalwedd_handle *session)
{
    jalwedd_source_state source;
    uint32_t count = 0;
    digest = 1;
    for (uint64_t from = 0; jalwedd_source(session, from, &source) == JALWEDD_TAKEN; from = (uint64_t)source.ssrc + 1) {
        mix(&source, offsetof(jalwedd_source_state, sender) + sizeof source.sender);
        count++;
    }
    printf(" sources=%" PRIu32 ":%016" PRIx64, count, digest);
}

/* ---- Datagrams */

#define PARTS(kind, part, octets)                                                                                      \
    static void mix_##kind(const uint8_t *datagram, size_t size)                                                       \
    {                                                                                                                  \
        part given;                                                                                                    \
        uint32_t count = 0, status;                                                                                    \
        while (count < FIRST_PARTS && (status = jalwedd_##kind(datagram, size, count, &given)) == JALWEDD_TAKEN) {     \
            mix(&given, octets);                                                                                       \
            count++;                                                                                                   \
        }                                                                                                              \
        mix(&count, sizeof count);                                                                                     \
    }

PARTS(sender, jalwedd_sender_info, sizeof given)
PARTS(block, jalwedd_report, sizeof given)
PARTS(sdes_item, jalwedd_item_place, sizeof given)
PARTS(goodbye, jalwedd_goodbye_place, sizeof given)
PARTS(app, jalwedd_app_place, offsetof(jalwedd_app_place, name) + sizeof given.name)

static void write_datagram(const uint8_t *datagram, size_t size)
{
    jalwedd_fault fault = {0, 0};
    jalwedd_head_place head = {.ssrc = 0};
    const uint32_t check = jalwedd_check(datagram, size, &fault), read = jalwedd_rtp_head(datagram, size, &head);
    digest = 1;
    mix_sender(datagram, size);
    mix_block(datagram, size);
    mix_sdes_item(datagram, size);
    mix_goodbye(datagram, size);
    mix_app(datagram, size);
    mix(&head, sizeof head);
    printf(" check=%" PRIu32 ",%" PRIu32 "@%" PRIu64 " head=%" PRIu32 " parts=%016" PRIx64, check, fault.reason,
           fault.offset, read, digest);
}

/* ---- Calls */

static void write_step(const char *call, uint32_t status, const jalwedd_step *step, const uint8_t *octets)
{
    printf("%s %" PRIu32 " next=%" PRIu64 " members=%" PRIu32 " senders=%" PRIu32 " ssrc=%08" PRIx32 " changed=%" PRIu32
           " kind=%" PRIu32 " size=%" PRIu32 " entries=%" PRIu32 " others=%" PRIu32 " out=", call, status, step->next,
           step->members, step->senders, step->ssrc, step->changed, step->kind, step->size, step->entries,
           step->others_changed);
    for (uint32_t at = 0; at < step->size; at++)
        printf("%02x", octets[at]);
}

static uint32_t word_of(const char *text)
{
    return (uint32_t)strtoul(text, NULL, 16);
}

/* Tells the participant of a datagram. */
static void arrive(jalwedd_handle *session, uint64_t now, char **fields)
{
    static uint8_t octets[JALWEDD_OCTETS], datagram[MOST_OCTETS];
    const size_t size = unhex(fields[4], datagram, MOST_OCTETS);
    const uint64_t peer = strtoull(fields[2], NULL, 10);
    const uint32_t word = word_of(fields[3]);
    jalwedd_step step;
    const uint32_t status = (strcmp(fields[0], "rtcp") == 0 ? jalwedd_arrive_rtcp : jalwedd_arrive_rtp)(
        session, now, peer, word, datagram, size, &step, octets);
    write_step(fields[0], status, &step, octets);
    write_datagram(datagram, size);
}

/* Tells the participant the event of a line, of at most five fields. */
static void tell(jalwedd_handle *session, char **fields)
{
    static uint8_t octets[JALWEDD_OCTETS];
    const uint64_t now = strtoull(fields[1], NULL, 10);
    jalwedd_step step;
    uint32_t status;
    if (fields[0][0] == 'r') {
        arrive(session, now, fields);
        return;
    }
    if (strcmp(fields[0], "sent") == 0)
        status = jalwedd_sent_rtp(session, now, (uint32_t)strtoul(fields[2], NULL, 10),
                                  (uint32_t)strtoul(fields[3], NULL, 10), &step, octets);
    else if (strcmp(fields[0], "tick") == 0)
        status = jalwedd_tick(session, now, word_of(fields[2]), word_of(fields[3]), &step, octets);
    else
        status = jalwedd_leave(session, now, word_of(fields[2]), &step, octets);
    write_step(fields[0], status, &step, octets);
}

int main(int count, char **words)
{
    static struct options options;
    static char line[2 * MOST_OCTETS + 200];
    static const uint8_t nothing[1];
    jalwedd_handle session = JALWEDD_EMPTY;
    jalwedd_step step;
    read_options(&options, count - 1, words + 1);
    const uint32_t status = jalwedd_new(&session, &options.config, (const uint8_t *)options.cname,
                                        strlen(options.cname), options.items, options.item_count, options.word, &step);
    write_step("new", status, &step, nothing);
    while (fgets(line, sizeof line, stdin) != NULL) {
        char *fields[5] = {"", "", "", "", ""};
        size_t field = 0;
        write_sources(&session);
        printf("\n");
        for (char *word = strtok(line, " \n"); word != NULL && field < 5; word = strtok(NULL, " \n"))
            fields[field++] = word;
        tell(&session, fields);
    }
    write_sources(&session);
    printf("\nfree %" PRIu32 "\n", jalwedd_free(&session));
    return 0;
}
