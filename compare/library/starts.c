/* Tests config.start, the moment of jalwedd_new by the host's clock:
 * - by whichever clock a session starts, its first report is due as long after the start, its compounds are the same
 *   octet for octet, and what is told of sources is of that clock; the ntp_base of settings is still of the start;
 * - a start of 2^63 or later is refused, after all other faults;
 * - a call before the start is refused, and changes nothing.
 * Ends with 0, or prints the line of the test that fails. (compare/library/embedding) */
#include "jalwedd.h"

#include <stddef.h>
#include <stdio.h>
#include <string.h>

#define HOLDS(what)                                                                                                    \
    do {                                                                                                               \
        if (!(what)) {                                                                                                 \
            printf("line %d: %s\n", __LINE__, #what);                                                                  \
            return 1;                                                                                                  \
        }                                                                                                              \
    } while (0)

/* of a machine that has run for ten minutes, of the time of day, and the least and greatest starts */
static const uint64_t STARTS[] = {0, 1, 600000000, 1700000000000000, INT64_MAX - 1, INT64_MAX};

enum { SECOND = 1000000, FIRST = 1026037 }; /* the first tick of a draw by the word 0, as docs/PROTOCOL.md has it */

static const jalwedd_config CONFIG = {.ntp_base = 5ull << 32, .ssrc = 0xaa, .capacity = 20, .limit = 1472,
                                      .sender_bw = 100, .receiver_bw = 300, .rate = 8000};

static const uint64_t LAST = (uint64_t)1 << 50;

/* an RR of 7, and its SDES with the CNAME "a"; its SR; and its RR and BYE */
static const uint8_t NAMED[] = {0x80, 0xc9, 0, 1, 0, 0, 0, 7, 0x81, 0xca, 0, 2, 0, 0, 0, 7, 1, 1, 0x61, 0};
static const uint8_t SENT[28] = {0x80, 0xc8, 0, 6, 0, 0, 0, 7, 0, 0, 0, 1};
static const uint8_t GONE[] = {0x80, 0xc9, 0, 1, 0, 0, 0, 7, 0x81, 0xcb, 0, 1, 0, 0, 0, 7};

static const jalwedd_item NO_ITEM = {2, 0, ""};

/* Those of a clock that was set ahead by 7 seconds. */
static const jalwedd_settings SETTINGS = {.sender_bw = 100, .receiver_bw = 300, .rate = 8000, .ntp_base = 12ull << 32};

static uint32_t begin(jalwedd_handle *handle, uint64_t start, jalwedd_step *step)
{
    jalwedd_config config = CONFIG;
    config.start = start;
    return jalwedd_new(handle, &config, (const uint8_t *)"a", 1, &NO_ITEM, 0, 0, step);
}

/* ---- The same session, by any clock */

/* What a session handed out, one compound after the other. */
struct handed {
    uint8_t octets[8 * JALWEDD_OCTETS];
    size_t size;
};

static void keep(struct handed *handed, const jalwedd_step *step, const uint8_t *octets)
{
    memcpy(handed->octets + handed->size, octets, step->size);
    handed->size += step->size;
}

/* A session of half a minute that sends a packet, hears of 7, has its clock set, sends another packet and leaves. */
static int session_from(uint64_t start, struct handed *handed)
{
    jalwedd_handle handle = JALWEDD_EMPTY;
    jalwedd_step step;
    jalwedd_source_state source;
    jalwedd_sender_info sender;
    uint8_t octets[JALWEDD_OCTETS];
    HOLDS(begin(&handle, start, &step) == JALWEDD_TAKEN);
    HOLDS(step.next == start + FIRST && jalwedd_next(&handle) == step.next);
    HOLDS(jalwedd_sent_rtp(&handle, start, 1000, 160, &step, octets) == JALWEDD_TAKEN);
    HOLDS(jalwedd_arrive_rtcp(&handle, start + 5, 1, 0, NAMED, sizeof NAMED, &step, octets) == JALWEDD_TAKEN);
    HOLDS(jalwedd_source(&handle, 0, &source) == JALWEDD_TAKEN && source.heard == start + 5);
    HOLDS(source.left == JALWEDD_NEVER && source.told == JALWEDD_NEVER);
    HOLDS(jalwedd_arrive_rtcp(&handle, start + 6, 1, 0, SENT, sizeof SENT, &step, octets) == JALWEDD_TAKEN);
    HOLDS(jalwedd_source(&handle, 7, &source) == JALWEDD_TAKEN);
    HOLDS(source.heard == start + 6 && source.told == start + 6);
    HOLDS(jalwedd_tick(&handle, start + FIRST - 1, 0, 0, &step, octets) == JALWEDD_TAKEN && step.kind == 0);
    for (uint64_t reports = 0; reports < 6; reports++) {
        HOLDS(jalwedd_tick(&handle, step.next, 0, 0, &step, octets) == JALWEDD_TAKEN && step.kind == JALWEDD_REPORT);
        HOLDS(step.next > start && step.next < start + 30 * SECOND);
        keep(handed, &step, octets);
    }
    HOLDS(jalwedd_configure(&handle, step.next, &SETTINGS, &NO_ITEM, 1, &step, octets) == JALWEDD_TAKEN);
    HOLDS(jalwedd_forget(&handle, step.next, 8, &step, octets) == JALWEDD_TAKEN && step.entries == 1);
    const uint64_t now = step.next;
    HOLDS(jalwedd_sent_rtp(&handle, now, 1000, 160, &step, octets) == JALWEDD_TAKEN);
    HOLDS(jalwedd_tick(&handle, now, 0, 0, &step, octets) == JALWEDD_TAKEN && step.kind == JALWEDD_REPORT);
    HOLDS(jalwedd_sender(octets, step.size, 0, &sender) == JALWEDD_TAKEN && sender.rtp == 1000);
    HOLDS(sender.ntp == jalwedd_ntp_of(12ull << 32, now - start));
    keep(handed, &step, octets);
    HOLDS(jalwedd_arrive_rtcp(&handle, now, 1, 0, GONE, sizeof GONE, &step, octets) == JALWEDD_TAKEN);
    HOLDS(jalwedd_source(&handle, 0, &source) == JALWEDD_TAKEN && source.left == now && source.heard == now);
    HOLDS(jalwedd_leave(&handle, now, 0, &step, octets) == JALWEDD_TAKEN && step.kind == JALWEDD_BYE);
    keep(handed, &step, octets);
    HOLDS(step.next == JALWEDD_NEVER && jalwedd_next(&handle) == JALWEDD_NEVER);
    HOLDS(jalwedd_free(&handle) == JALWEDD_TAKEN);
    return 0;
}

static int any_clock(void)
{
    static struct handed first, other;
    if (session_from(0, &first))
        return 1;
    HOLDS(first.size > 6 * 20);
    for (size_t at = 0; at < sizeof STARTS / sizeof *STARTS; at++) {
        other.size = 0;
        if (session_from(STARTS[at], &other))
            return 1;
        HOLDS(other.size == first.size && memcmp(other.octets, first.octets, first.size) == 0);
    }
    return 0;
}

/* ---- Starts and moments that are refused */

static int refused_starts(void)
{
    static const uint64_t late[] = {(uint64_t)1 << 63, ((uint64_t)1 << 63) + 1, UINT64_MAX - 1, UINT64_MAX};
    jalwedd_handle handle = JALWEDD_EMPTY;
    jalwedd_step step;
    jalwedd_config config = CONFIG;
    const jalwedd_item wrong = {9, 0, ""};
    const uint8_t *cname = (const uint8_t *)"a";
    for (size_t at = 0; at < 4; at++) {
        HOLDS(begin(&handle, late[at], &step) == JALWEDD_START && handle.at == NULL);
        HOLDS(step.next == JALWEDD_NEVER && step.members == 0 && step.ssrc == 0 && step.kind == 0);
    }
    config.start = UINT64_MAX;
    HOLDS(jalwedd_new(&handle, &config, cname, 0, &wrong, 1, 0, &step) == JALWEDD_CNAME);
    HOLDS(jalwedd_new(&handle, &config, cname, 1, &wrong, 1, 0, &step) == JALWEDD_ITEM);
    HOLDS(jalwedd_new(&handle, &config, cname, 1, &wrong, 8, 0, &step) == JALWEDD_ITEM);
    config.rate = 0;
    HOLDS(jalwedd_new(&handle, &config, cname, 1, &wrong, 1, 0, &step) == JALWEDD_RATE);
    HOLDS(strcmp(jalwedd_text(JALWEDD_START), "the start is out of range") == 0);
    HOLDS(begin(&handle, 7, &step) == JALWEDD_TAKEN && begin(&handle, UINT64_MAX, &step) == JALWEDD_IS_LIVE);
    HOLDS(step.next == 7 + FIRST && jalwedd_free(&handle) == JALWEDD_TAKEN);
    return 0;
}

/* Each call at a moment before the start has this status, and changes nothing. */
static int early(jalwedd_handle *handle, uint64_t now, uint32_t status)
{
    static uint8_t long_datagram[65536];
    uint8_t octets[JALWEDD_OCTETS], untouched[JALWEDD_OCTETS];
    jalwedd_step step, wanted = {.next = jalwedd_next(handle), .members = jalwedd_members(handle),
                                 .senders = jalwedd_senders(handle), .ssrc = jalwedd_ssrc(handle),
                                 .entries = jalwedd_entries(handle)};
    memset(octets, 0x5a, sizeof octets);
    memset(untouched, 0x5a, sizeof untouched);
    HOLDS(jalwedd_arrive_rtcp(handle, now, 1, 9, NAMED, sizeof NAMED, &step, octets) == status);
    HOLDS(memcmp(&step, &wanted, sizeof step) == 0);
    HOLDS(jalwedd_arrive_rtcp(handle, now, 1, 9, NAMED, 0, &step, octets) == status);
    HOLDS(jalwedd_arrive_rtp(handle, now, 1, 9, NAMED, sizeof NAMED, &step, octets) == status);
    HOLDS(jalwedd_arrive_rtp(handle, now, 1, 9, long_datagram, 65536, &step, octets) == JALWEDD_TOO_LONG);
    HOLDS(jalwedd_sent_rtp(handle, now, 1, 160, &step, octets) == status);
    HOLDS(jalwedd_tick(handle, now, 0, 0, &step, octets) == status);
    HOLDS(memcmp(&step, &wanted, sizeof step) == 0);
    HOLDS(jalwedd_configure(handle, now, &SETTINGS, &NO_ITEM, 0, &step, octets) == status);
    HOLDS(jalwedd_configure(handle, now, &SETTINGS, &NO_ITEM, 8, &step, octets) == JALWEDD_ITEM);
    HOLDS(jalwedd_forget(handle, now, 7, &step, octets) == status && memcmp(&step, &wanted, sizeof step) == 0);
    HOLDS(jalwedd_leave(handle, now, 0, &step, octets) == status);
    HOLDS(memcmp(&step, &wanted, sizeof step) == 0 && memcmp(octets, untouched, sizeof octets) == 0);
    return 0;
}

static int moments(uint64_t start)
{
    jalwedd_handle handle = JALWEDD_EMPTY;
    jalwedd_step step;
    uint8_t octets[JALWEDD_OCTETS];
    HOLDS(begin(&handle, start, &step) == JALWEDD_TAKEN);
    if (start > 0 && (early(&handle, start - 1, JALWEDD_BACKWARDS) || early(&handle, 0, JALWEDD_BACKWARDS)))
        return 1;
    HOLDS(jalwedd_tick(&handle, start + LAST + 1, 0, 0, &step, octets) == JALWEDD_TOO_FAR);
    HOLDS(jalwedd_tick(&handle, UINT64_MAX, 0, 0, &step, octets) == JALWEDD_TOO_FAR && step.next == start + FIRST);
    HOLDS(jalwedd_tick(&handle, start, 0, 0, &step, octets) == JALWEDD_TAKEN && step.kind == JALWEDD_NOTHING);
    HOLDS(jalwedd_tick(&handle, start + LAST, 0, 0, &step, octets) == JALWEDD_TAKEN && step.kind == JALWEDD_REPORT);
    HOLDS(step.next > start + LAST && step.next < start + 2 * LAST);
    HOLDS(jalwedd_tick(&handle, start + LAST - 1, 0, 0, &step, octets) == JALWEDD_BACKWARDS);
    HOLDS(jalwedd_leave(&handle, start + LAST, 0, &step, octets) == JALWEDD_TAKEN && step.next == JALWEDD_NEVER);
    if (start > 0 && early(&handle, start - 1, JALWEDD_LEFT))
        return 1;
    HOLDS(jalwedd_free(&handle) == JALWEDD_TAKEN);
    return 0;
}

int main(void)
{
    for (size_t at = 0; at < sizeof STARTS / sizeof *STARTS; at++)
        if (moments(STARTS[at]))
            return 1;
    return any_clock() || refused_starts();
}
