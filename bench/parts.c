/* Reads all parts of one kind in a datagram that is full of them, with a cursor, or checks that datagram. It prints the
 * nanoseconds for the whole walk or for the check, the median of all batches, and a digest of what was given. With a
 * package that has no cursors a walk prints `- -`. (bench/calls)
 *
 *     parts walk|check KIND OCTETS [BATCHES]
 *
 * OCTETS is 1472 or 65504. After a report without blocks the datagram has, up to its end, what KIND says; what is left
 * over is one APP packet:
 *
 *     items        one chunk of SDES items without text
 *     goodbyes     BYE packets of 31 sources each
 *     apps         APP packets without data
 *     blocks       reports of 31 blocks each */
#define _POSIX_C_SOURCE 199309L
#include "jalwedd.h"

#include <stddef.h>
#include <stdio.h>
#include <stdlib.h>
#include <string.h>
#include <time.h>

enum { MOST = 65504, BATCH_OCTETS = 100 * 1472, WARM = 20, BATCHES = 301 };

static uint8_t datagram[MOST];
static size_t size;
static uint64_t digest = 1;

static void expect(int holds, const char *what)
{
    if (!holds) {
        fprintf(stderr, "not so: %s\n", what);
        exit(1);
    }
}

static double nanoseconds(void)
{
    struct timespec time;
    clock_gettime(CLOCK_MONOTONIC, &time);
    return time.tv_sec * 1e9 + time.tv_nsec;
}

static void mix(const void *what, size_t octets)
{
    for (size_t at = 0; at < octets; at++)
        digest = (digest ^ ((const uint8_t *)what)[at]) * 0x100000001b3u;
    digest ^= digest >> 29;
}

/* ---- Datagrams */

static void put(uint8_t *at, uint32_t word)
{
    for (int octet = 0; octet < 4; octet++)
        at[octet] = (uint8_t)(word >> (24 - 8 * octet));
}

/* Packets of this header, of so many words each, and one APP packet. */
static void fill(uint32_t header, size_t words)
{
    uint8_t *at = datagram + 8;
    for (; at + 4 * words + 12 <= datagram + size; at += 4 * words)
        put(at, header | (uint32_t)(words - 1));
    put(at, 0x80cc0000 | (uint32_t)((datagram + size - at) / 4 - 1));
}

static void fill_items(void)
{
    put(datagram + 8, 0x81ca0000 | (uint32_t)((size - 8) / 4 - 1));
    for (size_t at = 16; at + 2 <= size - 2; at += 2)
        datagram[at] = 7;
}

static void make(const char *kind, size_t octets)
{
    size = octets;
    put(datagram, 0x80c90001);
    if (strcmp(kind, "items") == 0)
        fill_items();
    else if (strcmp(kind, "goodbyes") == 0)
        fill(0x9fcb0000, 32);
    else if (strcmp(kind, "apps") == 0)
        fill(0x80cc0000, 3);
    else
        fill(0x9fc90000, 2 + 31 * 6);
}

/* ---- Walks: how many parts there are, which are mixed into the digest if `mixes` */

#ifdef JALWEDD_BEGIN
#define WALK(kind, part, octets)                                                                                       \
    static uint32_t walk_##kind(int mixes)                                                                             \
    {                                                                                                                  \
        jalwedd_cursor cursor = JALWEDD_BEGIN;                                                                         \
        part given;                                                                                                    \
        uint32_t count = 0;                                                                                            \
        while (jalwedd_next_##kind(datagram, size, &cursor, &given) == JALWEDD_TAKEN) {                                \
            count++;                                                                                                   \
            if (mixes)                                                                                                 \
                mix(&given, octets);                                                                                   \
        }                                                                                                              \
        return count;                                                                                                  \
    }
WALK(sdes_item, jalwedd_item_place, sizeof given)
WALK(goodbye, jalwedd_goodbye_place, sizeof given)
WALK(app, jalwedd_app_place, offsetof(jalwedd_app_place, name) + sizeof given.name)
WALK(block, jalwedd_report, sizeof given)
#else
#define walk_sdes_item NULL
#define walk_goodbye NULL
#define walk_app NULL
#define walk_block NULL
#endif

static uint32_t check(int mixes)
{
    jalwedd_fault fault;
    (void)mixes;
    return jalwedd_check(datagram, size, &fault) == JALWEDD_TAKEN;
}

static uint32_t (*work_of(const char *call, const char *kind))(int mixes)
{
    if (strcmp(call, "check") == 0)
        return check;
    if (strcmp(kind, "items") == 0)
        return walk_sdes_item;
    if (strcmp(kind, "goodbyes") == 0)
        return walk_goodbye;
    return strcmp(kind, "apps") == 0 ? walk_app : walk_block;
}

/* ---- A row */

/* The nanoseconds of one call: a batch has as many as make up 147,200 octets. */
static double batch(uint32_t (*work)(int mixes), uint32_t count)
{
    const size_t calls = BATCH_OCTETS / size;
    uint32_t all = 0;
    const double start = nanoseconds();
    for (size_t call = 0; call < calls; call++)
        all += work(0);
    const double spent = nanoseconds() - start;
    expect(all == count * calls, "each call gives as much");
    return spent / (double)calls;
}

static int by_time(const void *one, const void *other)
{
    const double a = *(const double *)one, b = *(const double *)other;
    return (a > b) - (a < b);
}

int main(int count, char **words)
{
    static double spent[BATCHES];
    expect(count == 4 || count == 5, "parts walk|check KIND OCTETS [BATCHES]");
    const int batches = count == 5 ? atoi(words[4]) : BATCHES;
    expect(batches >= 1 && batches <= BATCHES, "BATCHES is one of 1 to 301");
    expect(atoi(words[3]) == 1472 || atoi(words[3]) == MOST, "OCTETS is 1472 or 65504");
    make(words[2], (size_t)atoi(words[3]));
    uint32_t (*const work)(int) = work_of(words[1], words[2]);
    if (work == NULL) {
        printf("- -\n");
        return 0;
    }
    const uint32_t parts = work(1);
    expect(parts != 0, "there are parts, or it is a compound");
    for (int turn = 0; turn < WARM; turn++)
        batch(work, parts);
    for (int turn = 0; turn < batches; turn++)
        spent[turn] = batch(work, parts);
    qsort(spent, (size_t)batches, sizeof *spent, by_time);
    mix(&parts, sizeof parts);
    printf("%.2f %016llx\n", spent[batches / 2], (unsigned long long)digest);
    return 0;
}
