/* What a participant's calls cost in a session with MEMBERS others: prints the nanoseconds per call, the octets of the
 * reports, the octets that the participant takes on the heap, and the peak resident memory. Each round is a new
 * session. Calls are timed in batches, over datagrams made beforehand: the result is the mean over the batches, each at
 * its least of all rounds.
 *
 *     session MEMBERS ROUNDS      (bench/session builds it with the library, and with GStreamer's rtpsession) */
#define _GNU_SOURCE
#include "participant.h"

#include <malloc.h>
#include <stdio.h>
#include <stdlib.h>
#include <string.h>
#include <time.h>

enum { MOST_MEMBERS = 1000, BATCHES = MOST_MEMBERS / BATCH, REPORTS = 4, MOST_BLOCKS = 31, PAYLOAD = 160 };

enum call { NEW, RR, SR, RTP, TICK, TICK_SEND, AWAKE, AWAKE_SEND, CALLS };

static const char *const NAMES[CALLS] = {"new", "rr", "sr", "rtp", "tick", "tick-send", "awake", "awake-send"};
static double least[CALLS][BATCHES]; /* 0 if nothing was measured */
static size_t report_octets[2];
static size_t heap;
static uint32_t members;
static uint32_t sequence;

void expect(int holds, const char *what)
{
    if (!holds) {
        fprintf(stderr, "not so: %s\n", what);
        exit(1);
    }
}

double nanoseconds(void)
{
    struct timespec time;
    clock_gettime(CLOCK_MONOTONIC, &time);
    return time.tv_sec * 1e9 + time.tv_nsec;
}

/* ---- Datagrams */

static void put(struct datagram *datagram, const uint32_t *words, size_t count)
{
    for (size_t at = 0; at < count; at++, datagram->size += 4)
        for (int octet = 0; octet < 4; octet++)
            datagram->octets[datagram->size + octet] = (uint8_t)(words[at] >> (24 - 8 * octet));
}

/* A block about a source that nobody knows, and a source description with a CNAME of 16 octets. */
static void put_block_and_name(struct datagram *datagram, uint32_t ssrc)
{
    const uint32_t block[6] = {0xffffffff, 0x01000002, 3, 4, 5, 6};
    const uint32_t name[2] = {0x81ca0006, ssrc};
    uint8_t *const item = datagram->octets + datagram->size + sizeof block + sizeof name;
    put(datagram, block, 6);
    put(datagram, name, 2);
    memset(item, 0, 20);
    snprintf((char *)item, 19, "%c%cmember-%08x.", 1, 16, ssrc);
    datagram->size += 20;
}

static void make(enum call call, uint32_t ssrc, uint32_t number, struct datagram *datagram)
{
    const uint32_t receiver[2] = {0x81c90007, ssrc};
    const uint32_t sender[7] = {0x81c8000c, ssrc, number, 0, PAYLOAD * number, number, PAYLOAD * number};
    const uint32_t media[3] = {0x80000000 | (number & 0xffff), PAYLOAD * number, ssrc};
    datagram->size = 0;
    if (call == RTP) {
        put(datagram, media, 3);
        datagram->size += PAYLOAD;
    } else {
        put(datagram, call == SR ? sender : receiver, call == SR ? 7 : 2);
        put_block_and_name(datagram, ssrc);
    }
}

/* ---- Calls */

static void keep(enum call call, size_t batch, double spent)
{
    if (least[call][batch] == 0 || spent < least[call][batch])
        least[call][batch] = spent;
}

static double mean(enum call call)
{
    double sum = 0;
    size_t batches = 0;
    for (; batches < BATCHES && least[call][batches] != 0; batches++)
        sum += least[call][batches];
    expect(batches != 0, "each call was measured");
    return sum / batches;
}

/* Datagrams of all members, one after the other, with SSRCs spread as if drawn at random. */
static void arrive(enum call call)
{
    static struct datagram datagrams[BATCH];
    const uint32_t count = call != NEW && members < BATCH ? BATCH : members;
    for (uint32_t first = 0; first < count; first += BATCH) {
        const uint32_t size = count - first < BATCH ? count - first : BATCH;
        for (uint32_t at = 0; at < size; at++)
            make(call, ((first + at) % members + 1) * 2654435761u, sequence + (first + at) / members, &datagrams[at]);
        keep(call, first / BATCH, participant_arrive(call == RTP ? RTP_PORT : RTCP_PORT, datagrams, size) / size);
    }
    sequence += (count + members - 1) / members;
    expect(participant_others() == members, "all members are known");
}

/* Counts only a full first packet: rtpsession ends each round over all senders with the few that are left. */
static void report(int is_sending)
{
    uint8_t octets[MOST_OCTETS];
    struct tick tick;
    const size_t size = participant_report(octets, &tick);
    const uint32_t blocks = !is_sending ? 0 : members < MOST_BLOCKS ? members : MOST_BLOCKS;
    if ((octets[0] & 31u) == blocks) {
        keep(is_sending ? TICK_SEND : TICK, 0, tick.spent);
        keep(is_sending ? AWAKE_SEND : AWAKE, 0, tick.awake);
    }
    report_octets[is_sending] = size > report_octets[is_sending] ? size : report_octets[is_sending];
}

static size_t heap_octets(void)
{
    const struct mallinfo2 now = mallinfo2();
    return now.uordblks + now.hblkhd;
}

/* A session: all others come, report a few times, and then also send. */
static void session(void)
{
    const size_t before = heap_octets();
    participant_begin();
    arrive(NEW);
    for (int turn = 0; turn < REPORTS; turn++) {
        arrive(RR);
        report(0);
    }
    for (int turn = 0; turn < REPORTS; turn++) {
        for (int packet = 0; packet < 3; packet++)
            arrive(RTP);
        arrive(RR);
        arrive(SR);
        report(1);
    }
    heap = heap_octets() - before;
    participant_end();
}

static long peak_kilobytes(void)
{
    char line[256];
    long peak = 0;
    FILE *const status = fopen("/proc/self/status", "r");
    while (status != NULL && peak == 0 && fgets(line, sizeof line, status) != NULL)
        sscanf(line, "VmHWM: %ld", &peak);
    if (status != NULL)
        fclose(status);
    return peak;
}

int main(int count, char **words)
{
    members = count == 3 ? (uint32_t)atoi(words[1]) : 0;
    if (members < 1 || members > MOST_MEMBERS) {
        fprintf(stderr, "usage: session MEMBERS ROUNDS, of 1 to %d members\n", MOST_MEMBERS);
        return 2;
    }
    for (int round = 0; round < atoi(words[2]); round++)
        session();
    printf("members=%u", members);
    for (int call = 0; call < CALLS; call++)
        printf(" %s=%.0f", NAMES[call], mean(call));
    printf(" report=%zu report-send=%zu memory=%zu peak_kb=%ld\n", report_octets[0], report_octets[1], heap,
           peak_kilobytes());
    return 0;
}
