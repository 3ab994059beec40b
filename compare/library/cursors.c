/* Tests the walks with a cursor:
 * - over a datagram that is written out here, each gives these parts and no others, and jalwedd_next_reporter those who
 *   report;
 * - a datagram of 0 octets, of an impossible size or with a fault has no parts, and leaves cursor and output as they
 *   are;
 * - over each datagram of standard input, a line of hex each, a walk gives what the calls by index give;
 * - of any cursor, over any octets, a walk ends, and gives only what lies in the datagram. Each of these datagrams lies
 *   once directly before a page that cannot be read, and once directly after one.
 * Ends with 0, or prints what does not hold.
 * usage: cursors < DATAGRAMS        (compare/library/embedding) */
#define _GNU_SOURCE
#include "walks.h"

#include <inttypes.h>
#include <stdio.h>
#include <stdlib.h>
#include <sys/mman.h>

#define HOLDS(what)                                                                                                    \
    do {                                                                                                               \
        if (!(what)) {                                                                                                 \
            printf("line %d: %s\n", __LINE__, #what);                                                                  \
            return 1;                                                                                                  \
        }                                                                                                              \
    } while (0)

enum { PAGE = 4096, PAGES = 17, MOST = 65536, CURSORS = 40 };

static const jalwedd_cursor BEGIN = JALWEDD_BEGIN;

static uint8_t *pages;              /* PAGES of them, between two that cannot be read */

static uint8_t *guarded(void)
{
    uint8_t *all = mmap(NULL, (PAGES + 2) * PAGE, PROT_READ | PROT_WRITE, MAP_PRIVATE | MAP_ANONYMOUS, -1, 0);
    if (all == MAP_FAILED || mprotect(all, PAGE, PROT_NONE) != 0
        || mprotect(all + (PAGES + 1) * PAGE, PAGE, PROT_NONE) != 0)
        exit(1);
    return all + PAGE;
}

/* A datagram at the end of the pages, or at their begin. */
static const uint8_t *placed(const uint8_t *datagram, size_t size, int is_at_end)
{
    uint8_t *at = is_at_end ? pages + PAGES * PAGE - size : pages;
    memcpy(at, datagram, size);
    return at;
}

/* ---- A datagram that is written out */

/* An SR of 9 with a block about aa, an SDES of 5 without items and of 9 with the items "ab" and one of 0 octets, BYEs
 * of 9 and 7 with the reason "c", of nobody, of 5 with one of 0 octets, and of 4 with none, and an APP of 9, padded. */
static const uint8_t PARTS[] = {
    0x81, 0xc8, 0, 12, 0, 0, 0, 9, 0xb7, 0x10, 0x80, 0, 0, 0, 0, 5, 0, 0, 0x23, 0xf8, 0, 0, 0, 2, 0, 0, 1, 0x40,
    0, 0, 0, 0xaa, 25, 0, 0, 3, 0, 0, 0, 11, 0, 0, 0, 4, 0, 0, 0, 1, 0, 0, 0, 2,
    0x82, 0xca, 0, 5, 0, 0, 0, 5, 0, 0, 0, 0, 0, 0, 0, 9, 1, 2, 'a', 'b', 7, 0, 0, 0,
    0x82, 0xcb, 0, 3, 0, 0, 0, 9, 0, 0, 0, 7, 1, 'c', 0, 0,
    0x80, 0xcb, 0, 0,
    0x81, 0xcb, 0, 2, 0, 0, 0, 5, 0, 0, 0, 0,
    0x81, 0xcb, 0, 1, 0, 0, 0, 4,
    0xa5, 0xcc, 0, 4, 0, 0, 0, 9, 'q', 't', 's', 'i', 1, 2, 3, 4, 0, 0, 0, 4};

static int reports(void)
{
    jalwedd_cursor cursor = JALWEDD_BEGIN, of_blocks = JALWEDD_BEGIN;
    jalwedd_sender_info sender;
    jalwedd_report report;
    HOLDS(jalwedd_next_sender(PARTS, sizeof PARTS, &cursor, &sender) == JALWEDD_TAKEN && sender.ssrc == 9);
    HOLDS(sender.ntp == 0xb710800000000005 && sender.rtp == 9208 && sender.packets == 2 && sender.octets == 320);
    HOLDS(jalwedd_next_sender(PARTS, sizeof PARTS, &cursor, &sender) == JALWEDD_NO_PART && sender.ssrc == 9);
    HOLDS(jalwedd_next_block(PARTS, sizeof PARTS, &of_blocks, &report) == JALWEDD_TAKEN && report.reporter == 9);
    HOLDS(report.ssrc == 0xaa && report.fraction == 25 && report.lost == 3 && report.highest == 11);
    HOLDS(report.jitter == 4 && report.lsr == 1 && report.dlsr == 2);
    HOLDS(jalwedd_next_block(PARTS, sizeof PARTS, &of_blocks, &report) == JALWEDD_NO_PART && report.ssrc == 0xaa);
    return 0;
}

/* A report of 7 without a block, a BYE of nobody, a packet of another type, a report of 9 and one of 5 that end the
 * datagram: three who report. A datagram that is none, or a place after its last report, gives nobody. */
static int reporters(void)
{
    static const uint8_t datagram[] = {
        0x80, 0xc9, 0, 1, 0, 0, 0, 7, 0x80, 0xcb, 0, 0, 0x80, 0xcd, 0, 1, 0, 0, 0, 6,
        0x80, 0xc8, 0, 6, 0, 0, 0, 9, 0, 0, 0, 0, 0, 0, 0, 0, 0, 0, 0, 0, 0, 0, 0, 0, 0, 0, 0, 0,
        0x80, 0xc9, 0, 1, 0x80, 0, 0, 5};
    static const uint32_t who[] = {7, 9, 0x80000005};
    const uint8_t *const at_end = placed(datagram, sizeof datagram, 1);
    size_t place = 0;
    uint32_t ssrc = 99;
    HOLDS(jalwedd_next_reporter(at_end, 12, &place, &ssrc) == JALWEDD_TAKEN && ssrc == 7);
    HOLDS(jalwedd_next_reporter(at_end, 12, &place, &ssrc) == JALWEDD_NO_PART && ssrc == 7);
    place = 0;
    HOLDS(jalwedd_next_reporter(at_end + 8, sizeof datagram - 8, &place, &ssrc) == JALWEDD_NO_COMPOUND);
    HOLDS(place == 0 && ssrc == 7);
    for (size_t at = 0; at < 3; at++)
        HOLDS(jalwedd_next_reporter(at_end, sizeof datagram, &place, &ssrc) == JALWEDD_TAKEN && ssrc == who[at]);
    for (int turn = 0; turn < 2; turn++)
        HOLDS(jalwedd_next_reporter(at_end, sizeof datagram, &place, &ssrc) == JALWEDD_NO_PART && ssrc == who[2]);
    for (size_t any = 1; any < sizeof datagram + 8; any++)
        for (place = any; jalwedd_next_reporter(at_end, sizeof datagram, &place, &ssrc) == JALWEDD_TAKEN;)
            HOLDS(place > any);
    place = SIZE_MAX;
    HOLDS(jalwedd_next_reporter(at_end, sizeof datagram, &place, &ssrc) == JALWEDD_NO_PART);
    return 0;
}

static int texts(void)
{
    static const jalwedd_goodbye_place leaving[] = {{89, 1, 9, 1}, {89, 1, 7, 1}, {105, 0, 5, 1}, {0, 0, 4, 0}};
    jalwedd_cursor cursor = JALWEDD_BEGIN, of_goodbyes = JALWEDD_BEGIN, of_apps = JALWEDD_BEGIN;
    jalwedd_item_place item;
    jalwedd_goodbye_place goodbye;
    jalwedd_app_place app;
    HOLDS(jalwedd_next_sdes_item(PARTS, sizeof PARTS, &cursor, &item) == JALWEDD_TAKEN && item.ssrc == 9);
    HOLDS(item.kind == 1 && item.size == 2 && memcmp(PARTS + item.offset, "ab", 2) == 0);
    HOLDS(jalwedd_next_sdes_item(PARTS, sizeof PARTS, &cursor, &item) == JALWEDD_TAKEN && item.ssrc == 9);
    HOLDS(item.kind == 7 && item.size == 0 && item.offset == 74);
    HOLDS(jalwedd_next_sdes_item(PARTS, sizeof PARTS, &cursor, &item) == JALWEDD_NO_PART && item.kind == 7);
    for (size_t at = 0; at < 4; at++) {
        HOLDS(jalwedd_next_goodbye(PARTS, sizeof PARTS, &of_goodbyes, &goodbye) == JALWEDD_TAKEN);
        HOLDS(memcmp(&goodbye, &leaving[at], sizeof goodbye) == 0);
    }
    HOLDS(jalwedd_next_goodbye(PARTS, sizeof PARTS, &of_goodbyes, &goodbye) == JALWEDD_NO_PART && goodbye.ssrc == 4);
    HOLDS(jalwedd_next_app(PARTS, sizeof PARTS, &of_apps, &app) == JALWEDD_TAKEN && app.ssrc == 9 && app.subtype == 5);
    HOLDS(memcmp(app.name, "qtsi", 4) == 0 && app.size == 4 && app.offset == sizeof PARTS - 8);
    HOLDS(jalwedd_next_app(PARTS, sizeof PARTS, &of_apps, &app) == JALWEDD_NO_PART && app.ssrc == 9);
    return 0;
}

/* A copy of a cursor goes on from where it was made. */
static int copied(void)
{
    jalwedd_cursor cursor = JALWEDD_BEGIN;
    jalwedd_goodbye_place first, second;
    HOLDS(jalwedd_next_goodbye(PARTS, sizeof PARTS, &cursor, &first) == JALWEDD_TAKEN && first.ssrc == 9);
    jalwedd_cursor copy = cursor;
    for (int turn = 0; turn < 3; turn++) {
        HOLDS(jalwedd_next_goodbye(PARTS, sizeof PARTS, &cursor, &first) == JALWEDD_TAKEN);
        HOLDS(jalwedd_next_goodbye(PARTS, sizeof PARTS, &copy, &second) == JALWEDD_TAKEN);
        HOLDS(memcmp(&first, &second, sizeof first) == 0 && memcmp(&cursor, &copy, sizeof cursor) == 0);
    }
    return 0;
}

/* ---- Datagrams without parts, of which no octet is read where the size is impossible */

static int none(const uint8_t *datagram, size_t size)
{
    jalwedd_cursor cursor = JALWEDD_BEGIN;
    jalwedd_sender_info sender = {.ssrc = 99};
    jalwedd_report report = {.ssrc = 99};
    jalwedd_item_place item = {.ssrc = 99};
    jalwedd_goodbye_place goodbye = {.ssrc = 99};
    jalwedd_app_place app = {.ssrc = 99};
    HOLDS(jalwedd_next_sender(datagram, size, &cursor, &sender) == JALWEDD_NO_COMPOUND && sender.ssrc == 99);
    HOLDS(jalwedd_next_block(datagram, size, &cursor, &report) == JALWEDD_NO_COMPOUND && report.ssrc == 99);
    HOLDS(jalwedd_next_sdes_item(datagram, size, &cursor, &item) == JALWEDD_NO_COMPOUND && item.ssrc == 99);
    HOLDS(jalwedd_next_goodbye(datagram, size, &cursor, &goodbye) == JALWEDD_NO_COMPOUND && goodbye.ssrc == 99);
    HOLDS(jalwedd_next_app(datagram, size, &cursor, &app) == JALWEDD_NO_COMPOUND && app.ssrc == 99);
    HOLDS(memcmp(&cursor, &BEGIN, sizeof cursor) == 0);
    return 0;
}

static int without_parts(void)
{
    static const size_t impossible[] = {65536, (size_t)1 << 31, (size_t)1 << 63, SIZE_MAX};
    const uint8_t *end = placed(PARTS, sizeof PARTS, 1) + sizeof PARTS;
    for (size_t at = 0; at < 4; at++)
        if (none(end - 4, impossible[at]))
            return 1;
    for (size_t size = 0; size < sizeof PARTS; size++) {
        jalwedd_fault fault;
        const uint8_t *cut = placed(PARTS, size, 1);
        if (jalwedd_check(cut, size, &fault) != JALWEDD_TAKEN && none(cut, size))
            return 1;
    }
    return none(end, 0);
}

/* ---- Any cursor over any octets */

/* A number below `end`, by xorshift64. */
static uint64_t random_below(uint64_t end)
{
    static uint64_t state = 3550;
    state ^= state << 13;
    state ^= state >> 7;
    state ^= state << 17;
    return end == 0 ? state : (state >> 11) % end;
}

/* Cursors that walks have had: over this datagram and over earlier ones. */
static jalwedd_cursor seen[64];
static size_t seen_count;

static void note(const jalwedd_cursor *cursor)
{
    seen[seen_count < 64 ? seen_count : random_below(64)] = *cursor;
    seen_count += seen_count < 64;
}

static uint64_t any_number(size_t size)
{
    static const uint64_t edges[] = {0, 1, 4, 8, 12, UINT32_MAX, (uint64_t)1 << 32, (uint64_t)1 << 63, UINT64_MAX - 3,
                                     UINT64_MAX};
    switch (random_below(4)) {
    case 0:
        return edges[random_below(sizeof edges / sizeof *edges)];
    case 1:
        return random_below(0);
    default:
        return random_below(size + 9);
    }
}

/* One whose fields are any numbers, or one that a walk had, often with one field changed. */
static jalwedd_cursor any_cursor(size_t size)
{
    const jalwedd_cursor any = {any_number(size), any_number(size), any_number(size), (uint32_t)any_number(size),
                                (uint32_t)any_number(size)};
    if (seen_count == 0 || random_below(3) == 0)
        return any;
    jalwedd_cursor cursor = seen[random_below(seen_count)];
    switch (random_below(6)) {
    case 0: cursor.next = any.next; break;
    case 1: cursor.place = any.place; break;
    case 2: cursor.end = any.end; break;
    case 3: cursor.left = any.left; break;
    case 4: cursor.ssrc = any.ssrc; break;
    }
    return cursor;
}

static uint64_t parts_given;

/* Walks on from a cursor to the end. Each part lies in the datagram if `lies_in`, and takes the cursor on. */
#define WALK_ON(kind, part, lies_in)                                                                                   \
    static int walk_on_##kind(const uint8_t *datagram, size_t size, jalwedd_cursor cursor)                             \
    {                                                                                                                  \
        part given, last;                                                                                              \
        jalwedd_cursor before = cursor;                                                                                \
        uint32_t status;                                                                                               \
        memset(&given, 0x5a, sizeof given);                                                                            \
        last = given;                                                                                                  \
        for (size_t count = 0; (status = jalwedd_next_##kind(datagram, size, &cursor, &given)) == JALWEDD_TAKEN;) {    \
            HOLDS(lies_in);                                                                                            \
            HOLDS(++count <= size && memcmp(&cursor, &before, sizeof cursor) != 0);                                    \
            parts_given++;                                                                                             \
            note(&cursor);                                                                                             \
            before = cursor, last = given;                                                                             \
        }                                                                                                              \
        HOLDS(status == JALWEDD_NO_PART || status == JALWEDD_NO_COMPOUND);                                             \
        HOLDS(memcmp(&given, &last, offsetof(part, ssrc) + sizeof given.ssrc) == 0);                                   \
        HOLDS(status == JALWEDD_NO_PART || memcmp(&cursor, &before, sizeof cursor) == 0);                              \
        HOLDS(jalwedd_next_##kind(datagram, size, &cursor, &given) != JALWEDD_TAKEN);                                  \
        return 0;                                                                                                      \
    }

static int lies(uint64_t offset, uint64_t count, size_t size)
{
    return offset <= size && count <= size - offset;
}

WALK_ON(sender, jalwedd_sender_info, size >= 28)
WALK_ON(block, jalwedd_report, size >= 24)
WALK_ON(sdes_item, jalwedd_item_place, lies(given.offset, given.size, size) && given.size <= 255)
WALK_ON(goodbye, jalwedd_goodbye_place, lies(given.offset, given.size, size) && given.size <= 255)
WALK_ON(app, jalwedd_app_place, lies(given.offset, given.size, size))

static int walk_on(const uint8_t *datagram, size_t size, jalwedd_cursor cursor)
{
    return walk_on_sender(datagram, size, cursor) || walk_on_block(datagram, size, cursor)
           || walk_on_sdes_item(datagram, size, cursor) || walk_on_goodbye(datagram, size, cursor)
           || walk_on_app(datagram, size, cursor);
}

/* Damages it: octets are changed, as a host's may while it walks. */
static void damage(uint8_t *datagram, size_t size)
{
    for (uint64_t changes = random_below(8); size > 0 && changes > 0; changes--)
        datagram[random_below(size)] = (uint8_t)random_below(256);
}

static int any_walks(uint8_t *datagram, size_t size)
{
    if (walk_on(placed(datagram, size, 1), size, BEGIN))
        return 1;
    for (int turn = 0; turn < CURSORS; turn++) {
        if (turn % 4 == 3)
            damage(datagram, size);
        if (walk_on(placed(datagram, size, turn % 2), size, any_cursor(size)))
            return 1;
    }
    return 0;
}

/* ---- Standard input */

static size_t unhex(const char *text, uint8_t *octets)
{
    size_t size = 0;
    unsigned octet;
    while (size < MOST && sscanf(text + 2 * size, "%2x", &octet) == 1)
        octets[size++] = (uint8_t)octet;
    return size;
}

int main(void)
{
    static char line[2 * MOST + 16];
    static uint8_t octets[MOST];
    size_t datagrams = 0;
    pages = guarded();
    if (reports() || reporters() || texts() || copied() || without_parts())
        return 1;
    while (fgets(line, sizeof line, stdin) != NULL) {
        const size_t size = unhex(line, octets);
        const char *how = walks_differ(placed(octets, size, 1), size);
        if (how != NULL) {
            printf("%s, in %s", how, line);
            return 1;
        }
        if (any_walks(octets, size))
            return 1;
        datagrams++;
    }
    printf("cursors: %zu datagrams, the parts of each as by index; of any cursors over any octets %" PRIu64
           " parts, and each walk ends\n", datagrams, parts_given);
    return 0;
}
