/* Edge cases of the library's calls: empty and freed handles, lengths of 0 and of 65,535, impossible sizes, memory that
 * is refused, and the state after a refused call; other settings, what is told of the own stream, and the functions of
 * the header that are inline. Ends with 0, or prints the line of the test that fails. (compare/library/embedding) */
#define _GNU_SOURCE
#include "jalwedd.h"

#include <stddef.h>
#include <stdio.h>
#include <stdlib.h>
#include <string.h>
#include <sys/mman.h>

#define HOLDS(what)                                                                                                    \
    do {                                                                                                               \
        if (!(what)) {                                                                                                 \
            printf("line %d: %s\n", __LINE__, #what);                                                                  \
            return 1;                                                                                                  \
        }                                                                                                              \
    } while (0)

/* The library's memory, in place of package/memory.c: blocks are counted, and refused once none is left. */
static int blocks_left = 100, blocks_asked, blocks_held;

struct rattle_block {
    uint8_t ok;
    void *at;
};

struct rattle_block rattle_alloc(size_t size, size_t alignment)
{
    static max_align_t nothing;
    blocks_asked++;
    if (blocks_left == 0 || alignment > _Alignof(max_align_t))
        return (struct rattle_block){0, &nothing};
    blocks_left--;
    blocks_held++;
    return (struct rattle_block){1, malloc(size)};
}

struct rattle_block rattle_realloc(void *at, size_t old_size, size_t size, size_t alignment)
{
    (void)old_size, (void)size, (void)alignment;
    blocks_asked++;
    return (struct rattle_block){0, at};
}

void rattle_dealloc(void *at)
{
    blocks_held--;
    free(at);
}

static const jalwedd_config CONFIG = {.ssrc = 0xaa, .capacity = 1024, .limit = 1472, .sender_bw = 100,
                                      .receiver_bw = 300, .rate = 8000};

/* an RR of 7 without blocks, and its SDES with the CNAME "a" */
static const uint8_t OF_SEVEN[] = {0x80, 0xc9, 0, 1, 0, 0, 0, 7, 0x81, 0xca, 0, 2, 0, 0, 0, 7, 1, 1, 0x61, 0};

/* the settings of CONFIG */
static const jalwedd_settings SETTINGS = {.sender_bw = 100, .receiver_bw = 300, .rate = 8000};

static const jalwedd_item NAMES[8] = {{2, 1, "n"}, {2, 1, "n"}, {2, 1, "n"}, {2, 1, "n"},
                                      {2, 1, "n"}, {2, 1, "n"}, {2, 1, "n"}, {2, 1, "n"}};

static int is_blank(const jalwedd_step *step)
{
    const jalwedd_step blank = {.next = JALWEDD_NEVER};
    return memcmp(step, &blank, sizeof blank) == 0;
}

/* What jalwedd_own did not write. */
static const jalwedd_own_stream UNTOLD = {99, 99, 99};

static int is_own(const jalwedd_own_stream *own, uint32_t packets, uint32_t octets, uint32_t sends)
{
    return own->packets == packets && own->octets == octets && own->sends == sends;
}

static int empty(void)
{
    jalwedd_handle handle = JALWEDD_EMPTY;
    jalwedd_step step;
    jalwedd_source_state source = {.ssrc = 99};
    jalwedd_own_stream own = UNTOLD;
    uint8_t octets[JALWEDD_OCTETS] = {0};
    HOLDS(jalwedd_arrive_rtcp(&handle, 0, 1, 0, OF_SEVEN, sizeof OF_SEVEN, &step, octets) == JALWEDD_IS_EMPTY);
    HOLDS(is_blank(&step));
    HOLDS(jalwedd_arrive_rtp(&handle, 0, 1, 0, OF_SEVEN, sizeof OF_SEVEN, &step, octets) == JALWEDD_IS_EMPTY);
    HOLDS(jalwedd_sent_rtp(&handle, 0, 0, 0, &step, octets) == JALWEDD_IS_EMPTY);
    HOLDS(jalwedd_tick(&handle, 0, 0, 0, &step, octets) == JALWEDD_IS_EMPTY);
    HOLDS(jalwedd_configure(&handle, 0, &SETTINGS, NAMES, 8, &step, octets) == JALWEDD_IS_EMPTY);
    HOLDS(jalwedd_forget(&handle, 0, 7, &step, octets) == JALWEDD_IS_EMPTY && is_blank(&step));
    HOLDS(jalwedd_leave(&handle, 0, 0, &step, octets) == JALWEDD_IS_EMPTY);
    HOLDS(jalwedd_members(&handle) == 0 && jalwedd_senders(&handle) == 0 && jalwedd_ssrc(&handle) == 0);
    HOLDS(jalwedd_source(&handle, 0, &source) == JALWEDD_NO_SOURCE && source.ssrc == 99);
    HOLDS(jalwedd_own(&handle, &own) == JALWEDD_IS_EMPTY && is_own(&own, 99, 99, 99));
    HOLDS(jalwedd_entries(&handle) == 0);
    HOLDS(jalwedd_next(&handle) == JALWEDD_NEVER);
    HOLDS(jalwedd_free(&handle) == JALWEDD_IS_EMPTY && handle.at == NULL);
    HOLDS(jalwedd_free(NULL) == JALWEDD_IS_EMPTY);
    return 0;
}

static int begun(void)
{
    jalwedd_handle handle = JALWEDD_EMPTY;
    jalwedd_config config = CONFIG;
    jalwedd_step step;
    static const jalwedd_item items[8] = {{2, 1, "n"}, {3, 0, ""}, {9, 0, ""}};
    static const uint8_t cname[256] = {'a'};
    HOLDS(jalwedd_new(&handle, &config, cname, 0, items, 0, 0, &step) == JALWEDD_CNAME && is_blank(&step));
    HOLDS(jalwedd_new(&handle, &config, cname, 256, items, 8, 0, &step) == JALWEDD_CNAME);
    HOLDS(jalwedd_new(&handle, &config, cname, 255, items, 8, 0, &step) == JALWEDD_ITEM);
    HOLDS(jalwedd_new(&handle, &config, cname, 1, items, 3, 0, &step) == JALWEDD_ITEM);
    config.capacity = 1025;
    HOLDS(jalwedd_new(&handle, &config, cname, 1, items, 3, 0, &step) == JALWEDD_CAPACITY);
    config = CONFIG;
    config.limit = 574;
    HOLDS(jalwedd_new(&handle, &config, cname, 1, items, 2, 0, &step) == JALWEDD_LIMIT);
    config = CONFIG;
    config.receiver_bw = 15;
    HOLDS(jalwedd_new(&handle, &config, cname, 1, items, 2, 0, &step) == JALWEDD_BANDWIDTH);
    config = CONFIG;
    config.clock_count = 17;
    HOLDS(jalwedd_new(&handle, &config, cname, 0, items, 2, 0, &step) == JALWEDD_RATE);
    HOLDS(jalwedd_new(&handle, &config, cname, 0, items, 8, 0, &step) == JALWEDD_ITEM);
    config.clock_count = 1;
    config.clocks[0] = (jalwedd_clock){256, 1};
    HOLDS(jalwedd_new(&handle, &config, cname, 0, items, 2, 0, &step) == JALWEDD_RATE);
    config.clocks[0] = (jalwedd_clock){255, 0};
    HOLDS(jalwedd_new(&handle, &config, cname, 1, items, 2, 0, &step) == JALWEDD_RATE);
    config = CONFIG;
    config.rate = 0;
    HOLDS(jalwedd_new(&handle, &config, cname, 1, items, 2, 0, &step) == JALWEDD_RATE && handle.at == NULL);
    HOLDS(jalwedd_new(&handle, &CONFIG, cname, 255, items, 2, 0, &step) == JALWEDD_TAKEN);
    HOLDS(step.members == 1 && step.senders == 0 && step.next == 1026037 && step.ssrc == 0xaa && step.kind == 0);
    HOLDS(jalwedd_new(&handle, &CONFIG, cname, 1, items, 2, 7, &step) == JALWEDD_IS_LIVE && step.next == 1026037);
    HOLDS(jalwedd_free(&handle) == JALWEDD_TAKEN && jalwedd_free(&handle) == JALWEDD_IS_EMPTY);
    HOLDS(handle.at == NULL);
    return 0;
}

/* Settings that do not fit come before all else, and then those that a configuration may not have. */
static int settings(void)
{
    jalwedd_handle handle = JALWEDD_EMPTY;
    jalwedd_settings other = SETTINGS;
    jalwedd_step step;
    uint8_t octets[JALWEDD_OCTETS] = {0x5a};
    const uint64_t too_far = ((uint64_t)1 << 50) + 1;
    HOLDS(jalwedd_new(&handle, &CONFIG, OF_SEVEN + 18, 1, NAMES, 0, 0, &step) == JALWEDD_TAKEN);
    HOLDS(jalwedd_configure(&handle, 5, &SETTINGS, NAMES, 7, &step, octets) == JALWEDD_TAKEN);
    HOLDS(step.next == 1026037 && step.members == 1 && step.kind == 0 && step.others_changed == 0);
    HOLDS(jalwedd_configure(&handle, 4, &SETTINGS, NAMES, 0, &step, octets) == JALWEDD_BACKWARDS);
    HOLDS(jalwedd_configure(&handle, too_far, &SETTINGS, NAMES, 0, &step, octets) == JALWEDD_TOO_FAR);
    other.clock_count = 17;
    HOLDS(jalwedd_configure(&handle, too_far, &other, NAMES, 8, &step, octets) == JALWEDD_ITEM);
    HOLDS(jalwedd_configure(&handle, too_far, &other, NAMES, 7, &step, octets) == JALWEDD_RATE);
    other.clock_count = 1;
    other.clocks[0] = (jalwedd_clock){256, 1};
    HOLDS(jalwedd_configure(&handle, too_far, &other, NAMES, 0, &step, octets) == JALWEDD_RATE);
    other.clocks[0] = (jalwedd_clock){255, 1 << 20};
    HOLDS(jalwedd_configure(&handle, 5, &other, NAMES, 0, &step, octets) == JALWEDD_TAKEN);
    other.clocks[0].rate = (1 << 20) + 1;
    HOLDS(jalwedd_configure(&handle, 5, &other, NAMES, 0, &step, octets) == JALWEDD_RATE);
    other.sender_bw = 15;
    HOLDS(jalwedd_configure(&handle, 5, &other, NAMES, 0, &step, octets) == JALWEDD_BANDWIDTH);
    HOLDS(step.next == 1026037 && step.kind == 0 && octets[0] == 0x5a);
    HOLDS(jalwedd_free(&handle) == JALWEDD_TAKEN);
    return 0;
}

/* The rate of settings: 1 to 2^20. It comes after the bandwidths and before the items, as in a configuration. */
static int rates(void)
{
    static const jalwedd_item wrong = {9, 0, ""};
    static const uint32_t none[] = {0, (1 << 20) + 1, UINT32_MAX}, some[] = {1, 1 << 20};
    jalwedd_handle handle = JALWEDD_EMPTY;
    jalwedd_settings other = SETTINGS;
    jalwedd_step step;
    uint8_t octets[JALWEDD_OCTETS] = {0x5a};
    const uint64_t too_far = ((uint64_t)1 << 50) + 1;
    HOLDS(jalwedd_new(&handle, &CONFIG, OF_SEVEN + 18, 1, NAMES, 0, 0, &step) == JALWEDD_TAKEN);
    for (size_t at = 0; at < 3; at++) {
        other.rate = none[at];
        HOLDS(jalwedd_configure(&handle, 5, &other, &wrong, 1, &step, octets) == JALWEDD_RATE);
        HOLDS(strcmp(jalwedd_clocks_text(other.clock_count, other.clocks), "the rate is out of range 1 to 2^20") == 0);
        HOLDS(jalwedd_configure(&handle, too_far, &other, &wrong, 1, &step, octets) == JALWEDD_TOO_FAR);
        other.receiver_bw = 15;
        HOLDS(jalwedd_configure(&handle, 5, &other, &wrong, 1, &step, octets) == JALWEDD_BANDWIDTH);
        other.receiver_bw = 300;
    }
    for (size_t at = 0; at < 2; at++) {
        other.rate = some[at];
        HOLDS(jalwedd_configure(&handle, 5, &other, &wrong, 1, &step, octets) == JALWEDD_ITEM);
        /* at moment 0, as none of those before was taken */
        HOLDS(jalwedd_configure(&handle, 0, &other, NAMES, 0, &step, octets) == JALWEDD_TAKEN);
    }
    HOLDS(step.next == 1026037 && step.members == 1 && step.kind == 0 && octets[0] == 0x5a);
    HOLDS(jalwedd_free(&handle) == JALWEDD_TAKEN);
    return 0;
}

/* A sender report tells its moment by the latest settings. The packet with the timestamp 1000 was sent at moment 0, and
 * the reports come 1.026037 and 3.078111 seconds after that. By the configuration the start is 0 s of 1900, and to the
 * first report it is 8,208 units. By the settings that follow the start is 10 s of 1900, and to the second report it is
 * 147,749 units, of 48,000 a second. */
static int told_anew(void)
{
    jalwedd_handle handle = JALWEDD_EMPTY;
    jalwedd_settings other = jalwedd_settings_of(&CONFIG);
    jalwedd_step step;
    jalwedd_sender_info sender;
    uint8_t octets[JALWEDD_OCTETS] = {0};
    HOLDS(jalwedd_new(&handle, &CONFIG, OF_SEVEN + 18, 1, NAMES, 0, 0, &step) == JALWEDD_TAKEN);
    HOLDS(jalwedd_sent_rtp(&handle, 0, 1000, 160, &step, octets) == JALWEDD_TAKEN);
    HOLDS(jalwedd_tick(&handle, 1026037, 0, 0, &step, octets) == JALWEDD_TAKEN && step.kind == JALWEDD_REPORT);
    HOLDS(jalwedd_sender(octets, step.size, 0, &sender) == JALWEDD_TAKEN && sender.packets == 1);
    HOLDS(sender.ntp == 0x0000000106aa5c5f && sender.rtp == 9208);
    other.rate = 48000;
    other.ntp_base = 10ull << 32;
    HOLDS(jalwedd_configure(&handle, 1026037, &other, NAMES, 0, &step, octets) == JALWEDD_TAKEN);
    HOLDS(step.next == 3078111 && step.senders == 1);
    HOLDS(jalwedd_tick(&handle, 3078111, 0, 0, &step, octets) == JALWEDD_TAKEN && step.kind == JALWEDD_REPORT);
    HOLDS(jalwedd_sender(octets, step.size, 0, &sender) == JALWEDD_TAKEN && sender.octets == 160);
    HOLDS(sender.ntp == 0x0000000d13ff151e && sender.rtp == 148749);
    HOLDS(jalwedd_free(&handle) == JALWEDD_TAKEN);
    return 0;
}

/* What the participant has sent: octets are modulo 2^32, two intervals of 5 seconds after its latest packet it is no
 * sender, under another SSRC it counts anew, and from its leave on nothing is told. */
static int own_stream(void)
{
    static const uint8_t of_own[] = {0x80, 0xc9, 0, 1, 0, 0, 0, 0xaa};
    jalwedd_handle handle = JALWEDD_EMPTY;
    jalwedd_step step;
    jalwedd_own_stream own = UNTOLD;
    uint8_t octets[JALWEDD_OCTETS] = {0};
    HOLDS(jalwedd_new(&handle, &CONFIG, OF_SEVEN + 18, 1, NAMES, 0, 0, &step) == JALWEDD_TAKEN);
    HOLDS(jalwedd_own(&handle, &own) == JALWEDD_TAKEN && is_own(&own, 0, 0, 0));
    HOLDS(jalwedd_sent_rtp(&handle, 0, 1000, 160, &step, octets) == JALWEDD_TAKEN);
    HOLDS(jalwedd_own(&handle, &own) == JALWEDD_TAKEN && is_own(&own, 1, 160, 1));
    HOLDS(jalwedd_sent_rtp(&handle, 0, 1160, 40, &step, octets) == JALWEDD_TAKEN);
    HOLDS(jalwedd_own(&handle, &own) == JALWEDD_TAKEN && is_own(&own, 2, 200, 1));
    HOLDS(jalwedd_sent_rtp(&handle, 0, 1200, UINT32_MAX, &step, octets) == JALWEDD_TAKEN);
    HOLDS(jalwedd_tick(&handle, 1026037, 0, 0, &step, octets) == JALWEDD_TAKEN && step.kind == JALWEDD_REPORT);
    HOLDS(jalwedd_tick(&handle, 10000000, 0, 0, &step, octets) == JALWEDD_TAKEN);
    HOLDS(jalwedd_own(&handle, &own) == JALWEDD_TAKEN && is_own(&own, 3, 199, 1));
    HOLDS(jalwedd_tick(&handle, 10000001, 0, 0, &step, octets) == JALWEDD_TAKEN && step.senders == 0);
    HOLDS(jalwedd_own(&handle, &own) == JALWEDD_TAKEN && is_own(&own, 3, 199, 0));
    HOLDS(jalwedd_sent_rtp(&handle, 10000001, 81200, 0, &step, octets) == JALWEDD_TAKEN);
    HOLDS(jalwedd_own(&handle, &own) == JALWEDD_TAKEN && is_own(&own, 4, 199, 1));
    HOLDS(jalwedd_arrive_rtcp(&handle, 10000001, 1, 9, of_own, sizeof of_own, &step, octets) == JALWEDD_TAKEN);
    HOLDS(step.changed == 1 && jalwedd_own(&handle, &own) == JALWEDD_TAKEN && is_own(&own, 0, 0, 1));
    own = UNTOLD;
    HOLDS(jalwedd_leave(&handle, 10000001, 0, &step, octets) == JALWEDD_TAKEN);
    HOLDS(jalwedd_own(&handle, &own) == JALWEDD_LEFT && is_own(&own, 99, 99, 99));
    HOLDS(jalwedd_free(&handle) == JALWEDD_TAKEN);
    return 0;
}

/* A source that is forgotten has no entry, and comes as a new one. */
static int forgotten(void)
{
    jalwedd_handle handle = JALWEDD_EMPTY;
    jalwedd_source_state source;
    jalwedd_step step;
    uint8_t octets[JALWEDD_OCTETS] = {0x5a};
    HOLDS(jalwedd_new(&handle, &CONFIG, OF_SEVEN + 18, 1, NAMES, 0, 0, &step) == JALWEDD_TAKEN);
    HOLDS(jalwedd_arrive_rtcp(&handle, 5, 1, 0, OF_SEVEN, sizeof OF_SEVEN, &step, octets) == JALWEDD_TAKEN);
    HOLDS(jalwedd_forget(&handle, 4, 7, &step, octets) == JALWEDD_BACKWARDS && step.members == 2);
    HOLDS(jalwedd_forget(&handle, 5, 8, &step, octets) == JALWEDD_TAKEN && step.entries == 1);
    HOLDS(jalwedd_forget(&handle, 6, 7, &step, octets) == JALWEDD_TAKEN && step.entries == 0 && step.members == 1);
    HOLDS(step.others_changed == 1 && step.kind == 0 && step.next == 1026037 && octets[0] == 0x5a);
    HOLDS(jalwedd_source(&handle, 0, &source) == JALWEDD_NO_SOURCE);
    HOLDS(jalwedd_forget(&handle, 6, 7, &step, octets) == JALWEDD_TAKEN && step.others_changed == 0);
    HOLDS(jalwedd_arrive_rtcp(&handle, 7, 1, 0, OF_SEVEN, sizeof OF_SEVEN, &step, octets) == JALWEDD_TAKEN);
    HOLDS(step.members == 2 && jalwedd_source(&handle, 0, &source) == JALWEDD_TAKEN && source.heard == 7);
    HOLDS(jalwedd_free(&handle) == JALWEDD_TAKEN);
    return 0;
}

static int lengths(void)
{
    jalwedd_handle handle = JALWEDD_EMPTY;
    jalwedd_step step;
    jalwedd_fault fault = {99, 99};
    jalwedd_report report;
    uint8_t octets[JALWEDD_OCTETS] = {0};
    const jalwedd_item no_item = {0, 0, ""};
    uint8_t *longest = calloc(1, 65536), *none = calloc(1, 1);
    /* an RR and BYEs of nobody: 65,532 octets, so that 65,535 end within a header */
    memcpy(longest, OF_SEVEN, 8);
    for (size_t at = 8; at + 4 <= 65536; at += 4)
        memcpy(longest + at, "\x80\xcb\0\0", 4);
    HOLDS(jalwedd_new(&handle, &CONFIG, OF_SEVEN + 18, 1, &no_item, 0, 0, &step) == JALWEDD_TAKEN);
    HOLDS(jalwedd_arrive_rtcp(&handle, 0, 1, 0, none, 0, &step, octets) == JALWEDD_NO_COMPOUND && step.members == 1);
    HOLDS(jalwedd_arrive_rtp(&handle, 0, 1, 0, none, 0, &step, octets) == JALWEDD_NO_RTP && step.next == 1026037);
    HOLDS(jalwedd_arrive_rtcp(&handle, 0, 1, 0, longest, 65535, &step, octets) == JALWEDD_NO_COMPOUND);
    HOLDS(jalwedd_arrive_rtcp(&handle, 0, 1, 0, longest, 65532, &step, octets) == JALWEDD_TAKEN && step.kind == 0);
    HOLDS(jalwedd_arrive_rtp(&handle, 0, 1, 0, longest, 65535, &step, octets) == JALWEDD_NO_RTP);
    HOLDS(jalwedd_check(longest, 65532, &fault) == JALWEDD_TAKEN && fault.reason == 99 && fault.offset == 99);
    HOLDS(jalwedd_check(longest, 65535, &fault) == JALWEDD_NO_COMPOUND && fault.reason == 1 && fault.offset == 65532);
    HOLDS(jalwedd_check(longest, 65536, &fault) == JALWEDD_NO_COMPOUND && fault.reason == 10 && fault.offset == 0);
    HOLDS(jalwedd_check(none, 0, &fault) == JALWEDD_NO_COMPOUND && fault.reason == 1 && fault.offset == 0);
    HOLDS(jalwedd_about(none, 0, 7, 0, &report) == JALWEDD_NO_COMPOUND);
    HOLDS(jalwedd_about(longest, 65532, 7, 0, &report) == JALWEDD_NO_BLOCK);
    HOLDS(jalwedd_free(&handle) == JALWEDD_TAKEN);
    free(longest);
    free(none);
    return 0;
}

/* A packet of source 7 that says that it is padded: its last octet, how much. */
static const uint8_t PADDED[] = {0xa0, 0, 0, 1, 0, 0, 0, 0, 0, 0, 0, 7, 0, 0, 0, 4};

/* The octets before a page that cannot be read. */
static uint8_t *before_guard(void)
{
    enum { PAGE = 4096, MOST = 16 * PAGE };
    uint8_t *pages = mmap(NULL, MOST + PAGE, PROT_READ | PROT_WRITE, MAP_PRIVATE | MAP_ANONYMOUS, -1, 0);
    if (pages == MAP_FAILED || mprotect(pages + MOST, PAGE, PROT_NONE) != 0)
        exit(1);
    return pages + MOST;
}

/* Sizes that no datagram, CNAME or list of items has, as that of a datagram that was not received: nothing is read. */
static int sizes(void)
{
    static const size_t most[] = {65536, (size_t)1 << 31, (size_t)1 << 63, SIZE_MAX};
    jalwedd_handle handle = JALWEDD_EMPTY, none = JALWEDD_EMPTY;
    jalwedd_step step;
    jalwedd_fault fault;
    jalwedd_report report;
    jalwedd_sender_info sender;
    jalwedd_item_place item;
    jalwedd_goodbye_place goodbye;
    jalwedd_app_place app;
    jalwedd_head_place head;
    uint8_t octets[JALWEDD_OCTETS] = {0};
    uint8_t *end = before_guard(), *padded = end - sizeof PADDED;
    const jalwedd_item *items = (const jalwedd_item *)(end - sizeof(jalwedd_item));
    memcpy(padded, PADDED, sizeof PADDED);
    for (size_t at = 0; at < 4; at++) {
        HOLDS(jalwedd_new(&handle, &CONFIG, padded, most[at], items, 1, 0, &step) == JALWEDD_CNAME);
        HOLDS(jalwedd_new(&handle, &CONFIG, padded, 1, items, most[at], 0, &step) == JALWEDD_ITEM);
    }
    HOLDS(jalwedd_new(&handle, &CONFIG, padded, 1, items, 0, 0, &step) == JALWEDD_TAKEN);
    for (size_t at = 0; at < 4; at++)
        HOLDS(jalwedd_configure(&handle, 0, &SETTINGS, items, most[at], &step, octets) == JALWEDD_ITEM);
    HOLDS(jalwedd_arrive_rtp(&handle, 0, 1, 0, padded, sizeof PADDED, &step, octets) == JALWEDD_TAKEN);
    HOLDS(step.entries == 1 && step.members == 1);
    const uint64_t next = step.next;
    for (size_t at = 0; at < 4; at++) {
        HOLDS(jalwedd_arrive_rtp(&handle, 9, 1, 0, padded, most[at], &step, octets) == JALWEDD_TOO_LONG);
        HOLDS(step.kind == 0 && step.next == next && step.entries == 1 && step.members == 1 && step.ssrc == 0xaa);
        HOLDS(jalwedd_arrive_rtp(&none, 0, 1, 0, padded, most[at], &step, octets) == JALWEDD_IS_EMPTY);
        HOLDS(jalwedd_arrive_rtcp(&handle, 9, 1, 0, padded, most[at], &step, octets) == JALWEDD_NO_COMPOUND);
        HOLDS(jalwedd_check(padded, most[at], &fault) == JALWEDD_NO_COMPOUND && fault.reason == 10);
        HOLDS(jalwedd_about(padded, most[at], 7, 0, &report) == JALWEDD_NO_COMPOUND);
        HOLDS(jalwedd_sender(padded, most[at], 0, &sender) == JALWEDD_NO_COMPOUND);
        HOLDS(jalwedd_block(padded, most[at], 0, &report) == JALWEDD_NO_COMPOUND);
        HOLDS(jalwedd_sdes_item(padded, most[at], 0, &item) == JALWEDD_NO_COMPOUND);
        HOLDS(jalwedd_goodbye(padded, most[at], 0, &goodbye) == JALWEDD_NO_COMPOUND);
        HOLDS(jalwedd_app(padded, most[at], 0, &app) == JALWEDD_NO_COMPOUND);
        HOLDS(jalwedd_rtp_head(padded, most[at], &head) == JALWEDD_TOO_LONG);
    }
    HOLDS(jalwedd_rtp_head(padded, sizeof PADDED, &head) == JALWEDD_TAKEN);
    HOLDS(head.ssrc == 7 && head.payload_offset == 12 && head.payload_size == 0);
    /* moment 9 was that of no call that was taken; and 65,535 octets are still read, up to the last: with the first one
     * the packet is of version 2 and says that it is padded, and the last one says by 4 */
    end[-65535] = 0xa0;
    HOLDS(jalwedd_arrive_rtp(&handle, 0, 1, 0, end - 65535, 65535, &step, octets) == JALWEDD_TAKEN);
    HOLDS(step.entries == 2);
    HOLDS(jalwedd_rtp_head(end - 65535, 65535, &head) == JALWEDD_TAKEN && head.payload_size == 65519);
    HOLDS(jalwedd_arrive_rtcp(&handle, 0, 1, 0, end - 65535, 65535, &step, octets) == JALWEDD_NO_COMPOUND);
    HOLDS(jalwedd_free(&handle) == JALWEDD_TAKEN);
    return 0;
}

static int reports(void)
{
    /* an RR of 7 with two blocks that name a1 */
    static const uint8_t datagram[] = {
        0x82, 0xc9, 0, 13, 0, 0, 0, 7,
        0, 0, 0, 0xa1, 64, 0xff, 0xff, 0xfe, 0, 1, 0, 2, 0, 0, 0, 3, 0, 1, 0, 0, 0, 0, 0x80, 0,
        0, 0, 0, 0xa1, 0, 0, 0, 5, 0, 0, 0, 9, 0, 0, 0, 8, 0, 0, 0, 0, 0, 0, 0, 0};
    jalwedd_report report;
    HOLDS(jalwedd_about(datagram, sizeof datagram, 0xa1, 0, &report) == JALWEDD_TAKEN);
    HOLDS(report.reporter == 7 && report.ssrc == 0xa1 && report.fraction == 64 && report.lost == -2);
    HOLDS(report.highest == 65538 && report.jitter == 3 && report.lsr == 65536 && report.dlsr == 32768);
    HOLDS(jalwedd_about(datagram, sizeof datagram, 0xa1, 1, &report) == JALWEDD_TAKEN && report.lost == 5);
    HOLDS(jalwedd_about(datagram, sizeof datagram, 0xa1, 2, &report) == JALWEDD_NO_BLOCK && report.lost == 5);
    HOLDS(jalwedd_about(datagram, sizeof datagram, 0xa2, 0, &report) == JALWEDD_NO_BLOCK);
    HOLDS(jalwedd_round_trip(0x30000, 0x10000, 0x8000) == 0x18000);
    HOLDS(jalwedd_ntp_of(5ull << 32, 1500000) == (6ull << 32) + (1ull << 31));
    return 0;
}

/* The parts of a datagram: an SR of 9 with a block about aa, an SDES of 9 with the items "ab" and one of 0 octets, and
 * BYEs of 9 and 7 with the reason "c", of 5 with one of 0 octets, and of 4 with none. */
static int parts(void)
{
    static const uint8_t datagram[] = {
        0x81, 0xc8, 0, 12, 0, 0, 0, 9, 0xb7, 0x10, 0x80, 0, 0, 0, 0, 5, 0, 0, 0x23, 0xf8, 0, 0, 0, 2, 0, 0, 1, 0x40,
        0, 0, 0, 0xaa, 25, 0, 0, 3, 0, 0, 0, 11, 0, 0, 0, 4, 0, 0, 0, 1, 0, 0, 0, 2,
        0x81, 0xca, 0, 3, 0, 0, 0, 9, 1, 2, 'a', 'b', 7, 0, 0, 0,
        0x82, 0xcb, 0, 3, 0, 0, 0, 9, 0, 0, 0, 7, 1, 'c', 0, 0,
        0x81, 0xcb, 0, 2, 0, 0, 0, 5, 0, 0, 0, 0,
        0x81, 0xcb, 0, 1, 0, 0, 0, 4};
    static const jalwedd_goodbye_place leaving[] = {{81, 1, 9, 1}, {81, 1, 7, 1}, {93, 0, 5, 1}, {0, 0, 4, 0}};
    jalwedd_sender_info sender;
    jalwedd_report report;
    jalwedd_item_place item;
    jalwedd_goodbye_place goodbye;
    HOLDS(jalwedd_sender(datagram, sizeof datagram, 0, &sender) == JALWEDD_TAKEN && sender.ssrc == 9);
    HOLDS(sender.ntp == 0xb710800000000005 && sender.rtp == 9208 && sender.packets == 2 && sender.octets == 320);
    HOLDS(jalwedd_sender(datagram, sizeof datagram, 1, &sender) == JALWEDD_NO_PART && sender.ssrc == 9);
    HOLDS(jalwedd_block(datagram, sizeof datagram, 0, &report) == JALWEDD_TAKEN && report.reporter == 9);
    HOLDS(report.ssrc == 0xaa && report.lost == 3 && report.lsr == 1 && report.dlsr == 2);
    HOLDS(jalwedd_block(datagram, sizeof datagram, 1, &report) == JALWEDD_NO_PART && report.ssrc == 0xaa);
    HOLDS(jalwedd_sdes_item(datagram, sizeof datagram, 0, &item) == JALWEDD_TAKEN && item.ssrc == 9 && item.kind == 1);
    HOLDS(item.size == 2 && memcmp(datagram + item.offset, "ab", 2) == 0);
    HOLDS(jalwedd_sdes_item(datagram, sizeof datagram, 1, &item) == JALWEDD_TAKEN && item.ssrc == 9 && item.kind == 7);
    HOLDS(item.size == 0 && item.offset == 66);
    HOLDS(jalwedd_sdes_item(datagram, sizeof datagram, 2, &item) == JALWEDD_NO_PART && item.kind == 7);
    for (uint32_t index = 0; index < 4; index++) {
        HOLDS(jalwedd_goodbye(datagram, sizeof datagram, index, &goodbye) == JALWEDD_TAKEN);
        HOLDS(memcmp(&goodbye, &leaving[index], sizeof goodbye) == 0);
    }
    HOLDS(datagram[leaving[0].offset] == 'c');
    HOLDS(jalwedd_goodbye(datagram, sizeof datagram, 4, &goodbye) == JALWEDD_NO_PART && goodbye.ssrc == 4);
    HOLDS(jalwedd_goodbye(datagram, sizeof datagram, UINT32_MAX, &goodbye) == JALWEDD_NO_PART && goodbye.ssrc == 4);
    return 0;
}

/* The APP packets of a datagram: after an RR of 7, one of 7 with the name "qtsi", a word of data and a word of padding,
 * and, after an SDES, one of 9 with the name "none" and no data. */
static int apps(void)
{
    static const uint8_t datagram[] = {
        0x80, 0xc9, 0, 1, 0, 0, 0, 7,
        0xa5, 0xcc, 0, 4, 0, 0, 0, 7, 'q', 't', 's', 'i', 1, 2, 3, 4, 0, 0, 0, 4,
        0x81, 0xca, 0, 2, 0, 0, 0, 7, 1, 1, 'a', 0,
        0x80, 0xcc, 0, 2, 0, 0, 0, 9, 'n', 'o', 'n', 'e'};
    jalwedd_app_place app;
    HOLDS(jalwedd_app(datagram, sizeof datagram, 0, &app) == JALWEDD_TAKEN && app.ssrc == 7 && app.subtype == 5);
    HOLDS(memcmp(app.name, "qtsi", 4) == 0 && app.offset == 20 && app.size == 4 && datagram[app.offset] == 1);
    HOLDS(jalwedd_app(datagram, sizeof datagram, 1, &app) == JALWEDD_TAKEN && app.ssrc == 9 && app.subtype == 0);
    HOLDS(memcmp(app.name, "none", 4) == 0 && app.offset == sizeof datagram && app.size == 0);
    HOLDS(jalwedd_app(datagram, sizeof datagram, 2, &app) == JALWEDD_NO_PART && app.ssrc == 9);
    HOLDS(jalwedd_app(datagram, sizeof datagram, UINT32_MAX, &app) == JALWEDD_NO_PART && app.ssrc == 9);
    HOLDS(jalwedd_app(OF_SEVEN, sizeof OF_SEVEN, 0, &app) == JALWEDD_NO_PART && app.ssrc == 9);
    return 0;
}

/* The head of an RTP datagram of 9: with the marker, two CSRCs, an extension of one word, a payload of three octets,
 * and padding of two. */
static int heads(void)
{
    static const uint8_t datagram[] = {
        0xb2, 0xe0, 1, 2, 0, 0, 0x10, 0, 0, 0, 0, 9, 0, 0, 0, 5, 0xff, 0, 0, 6,
        0xbe, 0xde, 0, 1, 0x10, 0xaa, 0, 0, 0xa1, 0xa2, 0xa3, 0, 2};
    static const uint8_t version[12] = {0x40};
    jalwedd_head_place head;
    HOLDS(jalwedd_rtp_head(datagram, sizeof datagram, &head) == JALWEDD_TAKEN);
    HOLDS(head.payload_type == 96 && head.marker == 1 && head.sequence == 0x102 && head.timestamp == 0x1000);
    HOLDS(head.ssrc == 9 && head.csrcs == 2 && head.csrcs_offset == 12 && datagram[head.csrcs_offset + 4] == 0xff);
    HOLDS(head.payload_offset == 28 && head.payload_size == 3 && datagram[head.payload_offset] == 0xa1);
    head.ssrc = 99;
    HOLDS(jalwedd_rtp_head(datagram, 11, &head) == JALWEDD_NO_RTP && head.ssrc == 99);
    HOLDS(jalwedd_rtp_head(version, sizeof version, &head) == JALWEDD_NO_RTP && head.ssrc == 99);
    return 0;
}

/* Of a datagram that is refused, and of one of 0 octets, no part is told, and no head. */
static int no_parts(void)
{
    uint8_t *cut = malloc(18), *none = calloc(1, 1);
    jalwedd_sender_info sender = {.ssrc = 99};
    jalwedd_report report = {.ssrc = 99};
    jalwedd_item_place item = {.ssrc = 99};
    jalwedd_goodbye_place goodbye = {.ssrc = 99};
    jalwedd_app_place app = {.ssrc = 99};
    jalwedd_head_place head = {.ssrc = 99};
    memcpy(cut, OF_SEVEN, 18);
    for (size_t size = 0; size <= 18; size += 18) {
        const uint8_t *datagram = size == 0 ? none : cut;
        HOLDS(jalwedd_sender(datagram, size, 0, &sender) == JALWEDD_NO_COMPOUND && sender.ssrc == 99);
        HOLDS(jalwedd_block(datagram, size, 0, &report) == JALWEDD_NO_COMPOUND && report.ssrc == 99);
        HOLDS(jalwedd_sdes_item(datagram, size, 0, &item) == JALWEDD_NO_COMPOUND && item.ssrc == 99);
        HOLDS(jalwedd_goodbye(datagram, size, 0, &goodbye) == JALWEDD_NO_COMPOUND && goodbye.ssrc == 99);
        HOLDS(jalwedd_app(datagram, size, 0, &app) == JALWEDD_NO_COMPOUND && app.ssrc == 99);
        HOLDS(jalwedd_rtp_head(datagram, size, &head) == JALWEDD_NO_RTP && head.ssrc == 99);
    }
    free(cut);
    free(none);
    return 0;
}

/* Who is there: one source, from any number up to its own on, and nobody from the leave on. */
static int sources(void)
{
    jalwedd_handle handle = JALWEDD_EMPTY;
    jalwedd_step step;
    uint8_t octets[JALWEDD_OCTETS] = {0};
    const jalwedd_item no_item = {0, 0, ""};
    jalwedd_source_state source = {.ssrc = 99};
    HOLDS(jalwedd_new(&handle, &CONFIG, OF_SEVEN + 18, 1, &no_item, 0, 0, &step) == JALWEDD_TAKEN);
    HOLDS(jalwedd_source(&handle, 0, &source) == JALWEDD_NO_SOURCE && source.ssrc == 99);
    HOLDS(jalwedd_arrive_rtcp(&handle, 5, 1, 0, OF_SEVEN, sizeof OF_SEVEN, &step, octets) == JALWEDD_TAKEN);
    HOLDS(jalwedd_source(&handle, 0, &source) == JALWEDD_TAKEN && jalwedd_entries(&handle) == 1);
    HOLDS(source.ssrc == 7 && source.member == 1 && source.sender == 0 && source.heard == 5);
    HOLDS(source.left == JALWEDD_NEVER && source.told == JALWEDD_NEVER && source.received == 0 && source.ntp == 0);
    HOLDS(source.octets == 0 && source.rtp == 0 && source.has_block == 0);
    HOLDS(source.fraction == 0 && source.block_highest == 0);
    source.ssrc = 99;
    HOLDS(jalwedd_source(&handle, 7, &source) == JALWEDD_TAKEN && source.ssrc == 7);
    source.ssrc = 99;
    HOLDS(jalwedd_source(&handle, 8, &source) == JALWEDD_NO_SOURCE && source.ssrc == 99);
    HOLDS(jalwedd_source(&handle, UINT64_MAX, &source) == JALWEDD_NO_SOURCE && source.ssrc == 99);
    HOLDS(jalwedd_tick(&handle, 1026037, 0, 0, &step, octets) == JALWEDD_TAKEN && step.kind == JALWEDD_REPORT);
    HOLDS(jalwedd_leave(&handle, 1026037, 0, &step, octets) == JALWEDD_TAKEN && step.kind == JALWEDD_BYE);
    HOLDS(jalwedd_source(&handle, 0, &source) == JALWEDD_NO_SOURCE && jalwedd_entries(&handle) == 0);
    HOLDS(jalwedd_free(&handle) == JALWEDD_TAKEN);
    return 0;
}

/* An RTP packet of 9 with this sequence number, two octets of payload, and up to three octets of padding. Returns its
 * size. */
static size_t packet(uint8_t *datagram, uint8_t sequence, uint8_t padding)
{
    static const uint8_t head[] = {0x80, 0, 0, 0, 0, 0, 0, 0, 0, 0, 0, 9, 0xa1, 0xa2, 0, 0, 0};
    memcpy(datagram, head, sizeof head);
    datagram[3] = sequence;
    if (padding > 0) {
        datagram[0] = 0xa0;
        datagram[13 + padding] = padding;
    }
    return 14 + (size_t)padding;
}

/* What is known about a source after packets, after a sender report and after a report: of the packets 10 to 13 the
 * first is not counted and 12 is lost, so the block says that of 3 packets 1 was lost, 85/256. */
static int source_states(void)
{
    static const uint8_t report[28] = {0x80, 0xc8, 0, 6, 0, 0, 0, 9, 1, 2, 3, 4, 5, 6, 7, 8, 0x87, 0x65, 0x43, 0x21};
    static const uint8_t sequences[] = {10, 11, 13}, paddings[] = {0, 0, 3};
    jalwedd_handle handle = JALWEDD_EMPTY;
    jalwedd_step step;
    uint8_t octets[JALWEDD_OCTETS] = {0}, datagram[17];
    const jalwedd_item no_item = {0, 0, ""};
    jalwedd_source_state source;
    jalwedd_report block;
    HOLDS(jalwedd_new(&handle, &CONFIG, OF_SEVEN + 18, 1, &no_item, 0, 0, &step) == JALWEDD_TAKEN);
    for (size_t at = 0; at < 3; at++) {
        const size_t size = packet(datagram, sequences[at], paddings[at]);
        HOLDS(jalwedd_arrive_rtp(&handle, 0, 1, 0, datagram, size, &step, octets) == JALWEDD_TAKEN);
    }
    HOLDS(jalwedd_source(&handle, 9, &source) == JALWEDD_TAKEN && source.received == 2 && source.octets == 4);
    HOLDS(source.highest == 13 && source.rtp == 0 && source.has_block == 0 && source.block_highest == 0);
    HOLDS(jalwedd_arrive_rtcp(&handle, 1, 1, 0, report, sizeof report, &step, octets) == JALWEDD_TAKEN);
    HOLDS(jalwedd_source(&handle, 9, &source) == JALWEDD_TAKEN && source.told == 1);
    HOLDS(source.ntp == 0x0102030405060708 && source.rtp == 0x87654321 && source.has_block == 0);
    HOLDS(jalwedd_tick(&handle, 1026037, 0, 0, &step, octets) == JALWEDD_TAKEN && step.kind == JALWEDD_REPORT);
    HOLDS(jalwedd_block(octets, step.size, 0, &block) == JALWEDD_TAKEN && block.ssrc == 9 && block.fraction == 85);
    HOLDS(jalwedd_source(&handle, 9, &source) == JALWEDD_TAKEN && source.has_block == 1);
    HOLDS(source.fraction == 85 && source.block_highest == 13 && source.rtp == 0x87654321 && source.octets == 4);
    HOLDS(jalwedd_free(&handle) == JALWEDD_TAKEN);
    return 0;
}

/* Which packets of a source are counted: not the one of its probation, and not one that strays. The next one after that
 * begins anew, and then as many were counted as before. One that comes again is counted, and one that is late. */
static int counted(void)
{
    static const struct {
        uint16_t sequence, received;
        uint32_t is_counted;
    } packets[] = {{10, 0, 0}, {11, 1, 1}, {0x4000, 1, 0}, {0x4001, 1, 1}, {0x4001, 2, 1}, {0x4003, 3, 1},
                   {0x4002, 4, 1}, {0x8000, 4, 0}};
    jalwedd_handle handle = JALWEDD_EMPTY;
    jalwedd_source_state before = {0}, after;
    jalwedd_step step;
    uint8_t octets[JALWEDD_OCTETS] = {0}, datagram[17];
    HOLDS(jalwedd_new(&handle, &CONFIG, OF_SEVEN + 18, 1, NAMES, 0, 0, &step) == JALWEDD_TAKEN);
    for (size_t at = 0; at < sizeof packets / sizeof *packets; at++) {
        const size_t size = packet(datagram, packets[at].sequence & 255, 0);
        datagram[2] = packets[at].sequence >> 8;
        HOLDS(jalwedd_arrive_rtp(&handle, 0, 1, 0, datagram, size, &step, octets) == JALWEDD_TAKEN);
        HOLDS(jalwedd_source(&handle, 9, &after) == JALWEDD_TAKEN && after.ssrc == 9);
        HOLDS(after.received == packets[at].received);
        HOLDS(jalwedd_was_counted(&before, &after) == packets[at].is_counted);
        before = after;
    }
    HOLDS(jalwedd_free(&handle) == JALWEDD_TAKEN);
    return 0;
}

/* Settings and an own stream have no room between their fields. */
static int layouts(void)
{
    HOLDS(sizeof(jalwedd_settings) == 152 && offsetof(jalwedd_settings, clocks) == 12);
    HOLDS(offsetof(jalwedd_settings, rate) == 140 && offsetof(jalwedd_settings, ntp_base) == 144);
    HOLDS(sizeof(jalwedd_own_stream) == 12 && offsetof(jalwedd_own_stream, packets) == 0);
    HOLDS(offsetof(jalwedd_own_stream, octets) == 4 && offsetof(jalwedd_own_stream, sends) == 8);
    return 0;
}

/* All of a configuration that settings have, the clocks that do not count too. */
static int settings_of(void)
{
    jalwedd_config config = {.ntp_base = 0x0123456789abcdef, .start = 1, .ssrc = 2, .capacity = 3, .limit = 4,
                             .sender_bw = 5, .receiver_bw = 6, .rate = 7, .clock_count = 2, .reserved = 8};
    for (uint32_t at = 0; at < 16; at++)
        config.clocks[at] = (jalwedd_clock){100 + at, 1000 + at};
    const jalwedd_settings settings = jalwedd_settings_of(&config);
    HOLDS(settings.sender_bw == 5 && settings.receiver_bw == 6 && settings.rate == 7);
    HOLDS(settings.clock_count == 2 && memcmp(settings.clocks, config.clocks, sizeof config.clocks) == 0);
    HOLDS(settings.ntp_base == 0x0123456789abcdef);
    return 0;
}

/* The start, where a second and a half after it is 6.5 s of 1900, and where a second after it is 0 s: the last second
 * before these begin again. 15 microseconds are 64,424.5 units of 2^-32 s, of which an NTP timestamp has 64,424. */
static int ntp_bases(void)
{
    HOLDS(jalwedd_ntp_base((6ull << 32) + (1ull << 31), 1500000) == 5ull << 32);
    HOLDS(jalwedd_ntp_base(0, 1000000) == 0xffffffff00000000);
    HOLDS(jalwedd_ntp_base(0x0123456789abcdef, 0) == 0x0123456789abcdef);
    HOLDS(jalwedd_ntp_base(64425, 15) == 1 && jalwedd_ntp_of(1, 15) == 64425);
    HOLDS(jalwedd_ntp_of(jalwedd_ntp_base(7, UINT64_MAX), UINT64_MAX) == 7);
    return 0;
}

enum { BOTH = 7 };

static jalwedd_source_state listed(uint32_t ssrc, uint32_t member, uint32_t sender, uint64_t left)
{
    return (jalwedd_source_state){.ssrc = ssrc, .member = member, .sender = sender, .left = left};
}

static int is_told(const jalwedd_source_state *before, const jalwedd_source_state *after, uint64_t from,
                   jalwedd_role_change wanted)
{
    jalwedd_role_change change = {99, 99, 99, 99};
    return jalwedd_change(before, BOTH, after, BOTH, from, &change) == JALWEDD_TAKEN
           && memcmp(&change, &wanted, sizeof change) == 0;
}

/* What changed: 1 timed out, 2 left, 3 began to send, 4 stopped, 5 became valid, and the last joined; 6 stayed, 7 was
 * dropped on probation, and 8 came on probation. */
static int changes(void)
{
    const uint64_t stays = JALWEDD_NEVER;
    const jalwedd_source_state before[BOTH] = {listed(1, 1, 0, stays), listed(2, 1, 1, stays), listed(3, 1, 0, stays),
                                               listed(4, 1, 1, stays), listed(5, 0, 0, stays), listed(6, 1, 0, stays),
                                               listed(7, 0, 0, stays)};
    const jalwedd_source_state after[BOTH] = {listed(2, 0, 0, 5), listed(3, 1, 1, stays), listed(4, 1, 0, stays),
                                              listed(5, 1, 0, stays), listed(6, 1, 0, stays), listed(8, 0, 0, stays),
                                              listed(UINT32_MAX, 1, 0, stays)};
    jalwedd_role_change change = {99, 99, 99, 99};
    HOLDS(is_told(before, after, 0, (jalwedd_role_change){1, JALWEDD_MEMBER, JALWEDD_AWAY, 0}));
    HOLDS(is_told(before, after, 1, (jalwedd_role_change){1, JALWEDD_MEMBER, JALWEDD_AWAY, 0}));
    HOLDS(is_told(before, after, 2, (jalwedd_role_change){2, JALWEDD_SENDER, JALWEDD_AWAY, 1}));
    HOLDS(is_told(before, after, 3, (jalwedd_role_change){3, JALWEDD_MEMBER, JALWEDD_SENDER, 0}));
    HOLDS(is_told(before, after, 4, (jalwedd_role_change){4, JALWEDD_SENDER, JALWEDD_MEMBER, 0}));
    HOLDS(is_told(before, after, 5, (jalwedd_role_change){5, JALWEDD_AWAY, JALWEDD_MEMBER, 0}));
    HOLDS(is_told(before, after, 6, (jalwedd_role_change){UINT32_MAX, JALWEDD_AWAY, JALWEDD_MEMBER, 0}));
    HOLDS(is_told(before, after, UINT32_MAX, (jalwedd_role_change){UINT32_MAX, JALWEDD_AWAY, JALWEDD_MEMBER, 0}));
    HOLDS(jalwedd_change(before, BOTH, after, BOTH, (uint64_t)UINT32_MAX + 1, &change) == JALWEDD_NO_CHANGE);
    HOLDS(jalwedd_change(before, BOTH, after, BOTH, UINT64_MAX, &change) == JALWEDD_NO_CHANGE && change.ssrc == 99);
    HOLDS(jalwedd_change(before, BOTH, before, BOTH, 0, &change) == JALWEDD_NO_CHANGE && change.left == 99);
    return 0;
}

/* Listings of nobody, such as do not rise, and numbers that no call told. */
static int listings(void)
{
    const jalwedd_source_state one = listed(1, 1, 0, JALWEDD_NEVER), higher = listed(3, 1, 0, JALWEDD_NEVER);
    const jalwedd_source_state twice[2] = {one, one}, falling[2] = {higher, one}, strange = listed(1, 7, UINT32_MAX, 0);
    jalwedd_source_state *none = calloc(1, 1);
    jalwedd_role_change change = {99, 99, 99, 99};
    HOLDS(jalwedd_change(none, 0, none, 0, 0, &change) == JALWEDD_NO_CHANGE && change.ssrc == 99);
    HOLDS(jalwedd_change(twice, 2, &one, 1, 0, &change) == JALWEDD_NOT_RISING && change.ssrc == 99);
    HOLDS(jalwedd_change(&one, 1, twice, 2, 0, &change) == JALWEDD_NOT_RISING && change.is == 99);
    HOLDS(jalwedd_change(falling, 2, &one, 1, 0, &change) == JALWEDD_NOT_RISING && change.was == 99);
    HOLDS(jalwedd_change(&one, 1, falling, 2, UINT64_MAX, &change) == JALWEDD_NOT_RISING && change.left == 99);
    HOLDS(jalwedd_change(none, 0, &one, 1, 0, &change) == JALWEDD_TAKEN && change.ssrc == 1);
    HOLDS(change.was == JALWEDD_AWAY && change.is == JALWEDD_MEMBER && change.left == 0);
    HOLDS(jalwedd_change(&one, 1, none, 0, 0, &change) == JALWEDD_TAKEN && change.ssrc == 1);
    HOLDS(change.was == JALWEDD_MEMBER && change.is == JALWEDD_AWAY && change.left == 0);
    HOLDS(jalwedd_change(&one, 1, &strange, 1, 0, &change) == JALWEDD_TAKEN && change.is == JALWEDD_SENDER);
    HOLDS(change.left == 1);
    free(none);
    return 0;
}

/* Memory is refused as a participant begins, at each of its three blocks, which leaves nothing behind; and then there are
 * just these three, which its end gives back. */
static int memory(void)
{
    jalwedd_handle handle = JALWEDD_EMPTY;
    jalwedd_step step;
    uint8_t octets[JALWEDD_OCTETS] = {0};
    const jalwedd_item no_item = {0, 0, ""};
    HOLDS(blocks_held == 0);
    for (int given = 0; given < 3; given++) {
        blocks_left = given;
        blocks_asked = 0;
        HOLDS(jalwedd_new(&handle, &CONFIG, OF_SEVEN + 18, 1, &no_item, 0, 0, &step) == JALWEDD_NO_MEMORY);
        HOLDS(is_blank(&step) && handle.at == NULL && blocks_asked == given + 1 && blocks_held == 0);
        HOLDS(jalwedd_free(&handle) == JALWEDD_IS_EMPTY);
    }
    blocks_left = 3;
    blocks_asked = 0;
    HOLDS(jalwedd_new(&handle, &CONFIG, OF_SEVEN + 18, 1, &no_item, 0, 0, &step) == JALWEDD_TAKEN);
    HOLDS(jalwedd_arrive_rtcp(&handle, 0, 1, 0, OF_SEVEN, sizeof OF_SEVEN, &step, octets) == JALWEDD_TAKEN);
    HOLDS(step.members == 2);
    HOLDS(jalwedd_tick(&handle, 1026037, 0, 0, &step, octets) == JALWEDD_TAKEN && step.kind == JALWEDD_REPORT);
    HOLDS(jalwedd_leave(&handle, 1026037, 0, &step, octets) == JALWEDD_TAKEN && step.kind == JALWEDD_BYE);
    HOLDS(jalwedd_free(&handle) == JALWEDD_TAKEN && blocks_asked == 3 && blocks_held == 0);
    return 0;
}

int main(void)
{
    return empty() || begun() || settings() || rates() || told_anew() || own_stream() || forgotten() || lengths()
           || sizes() || reports() || parts() || apps() || heads() || no_parts() || sources() || source_states()
           || counted() || layouts() || settings_of() || ntp_bases() || changes() || listings() || memory();
}
