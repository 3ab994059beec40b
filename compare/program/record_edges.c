/* Tests the edge cases of jalwedd_record.h: the exact text of each call, also where the session does not start at 0;
 * the longest datagram, and longer ones; each write failing in turn; no write, and full files; the comment that has the
 * start; and which texts and items have no option. Ends with status 0 if all is as the header says. With `commands` it
 * reads configurations from compare/program/record, and writes the command of each to standard output and its status to
 * standard error.
 * usage: record_edges [commands < CONFIGURATIONS]        (compare/program/record) */
#define JALWEDD_RECORD_STDIO
#include "jalwedd_record.h"

#include <stdlib.h>
#include <string.h>

enum { ROOM = 140000, LONGEST = 65535 };

#define HOLDS(what) ((what) ? 0 : (fprintf(stderr, "record_edges.c:%d: not so: %s\n", __LINE__, #what), 1))

/* A text in memory, of which one write may fail, by its number from 0 on; those after it are taken again. */
struct memory {
    char text[ROOM];
    size_t size, longest, writes, failing;
};

static struct memory memory;

static int to_memory(void *to, const char *text, size_t size)
{
    struct memory *at = (struct memory *)to;
    if (at->writes++ == at->failing || size > ROOM - at->size)
        return -1;
    memcpy(at->text + at->size, text, size);
    at->size += size;
    at->longest = size > at->longest ? size : at->longest;
    return 0;
}

static jalwedd_record begun(size_t failing)
{
    const jalwedd_record record = {to_memory, &memory, 0, 0};
    memory.size = memory.longest = memory.writes = 0;
    memory.failing = failing;
    return record;
}

static int is_text(const char *text)
{
    return memory.size == strlen(text) && memcmp(memory.text, text, memory.size) == 0;
}

/* ---- Lines */

static void seven_calls(jalwedd_record *record)
{
    const uint8_t datagram[] = {0x80, 0xc9, 0x00, 0x01, 0xff, 0x0f};
    jalwedd_record_arrive_rtcp(record, 0, 0, 0, datagram, sizeof datagram);
    jalwedd_record_arrive_rtp(record, UINT64_MAX, UINT64_MAX, UINT32_MAX, datagram, 1);
    jalwedd_record_arrive_rtcp(record, 10, 139637976798093, 0x89abcdef, datagram, 0);
    jalwedd_record_sent_rtp(record, 1000000, UINT32_MAX, 0);
    jalwedd_record_sent_rtp(record, 9, 0, UINT32_MAX);
    jalwedd_record_tick(record, 1026037, 1, 0x80000000);
    jalwedd_record_leave(record, 4503599627370496, 0xabcdef);
}

/* Those before the start have no line, and those at it have the moment 0. */
static int later_lines(void)
{
    jalwedd_record record = begun(SIZE_MAX);
    int wrong = 0;
    record.start = 10;
    seven_calls(&record);
    wrong |= HOLDS(is_text("rtp 18446744073709551605 18446744073709551615 ffffffff 80\n"
                           "rtcp 0 139637976798093 89abcdef -\n"
                           "sent 999990 4294967295 0\n"
                           "tick 1026027 00000001 80000000\n"
                           "leave 4503599627370486 00abcdef\n"));
    record = begun(SIZE_MAX);
    record.start = UINT64_MAX;
    seven_calls(&record);
    wrong |= HOLDS(is_text("rtp 0 18446744073709551615 ffffffff 80\n")) | HOLDS(memory.writes == 1);
    return wrong | HOLDS(!record.failed);
}

static int lines(void)
{
    jalwedd_record record = begun(SIZE_MAX);
    int wrong = later_lines();
    record = begun(SIZE_MAX);
    seven_calls(&record);
    wrong |= HOLDS(is_text("rtcp 0 0 00000000 80c90001ff0f\n"
                           "rtp 18446744073709551615 18446744073709551615 ffffffff 80\n"
                           "rtcp 10 139637976798093 89abcdef -\n"
                           "sent 1000000 4294967295 0\n"
                           "sent 9 0 4294967295\n"
                           "tick 1026037 00000001 80000000\n"
                           "leave 4503599627370496 00abcdef\n"));
    return wrong | HOLDS(memory.writes == 7) | HOLDS(!record.failed);
}

/* ---- Settings, and sources that are forgotten */

static const jalwedd_clock CLOCKS[3] = {{96, 90000}, {0, 0}, {255, UINT32_MAX}};

static jalwedd_item item(uint8_t kind, const char *text, size_t size)
{
    jalwedd_item made;
    made.kind = kind;
    made.size = (uint8_t)size;
    memset(made.text, 0xff, sizeof made.text);
    memcpy(made.text, text, size);
    return made;
}

static int settings_lines(void)
{
    const jalwedd_item items[8] = {item(8, "\0'\xff", 3), item(2, "", 0), item(0, "a,", 2), item(255, ":", 1)};
    jalwedd_settings settings = {.sender_bw = UINT32_MAX, .receiver_bw = 0};
    jalwedd_record record = begun(SIZE_MAX);
    int wrong = 0;
    record.start = 5;
    jalwedd_record_configure(&record, 4, &settings, items, 0);
    jalwedd_record_configure(&record, 5, &settings, NULL, 0);
    memcpy(settings.clocks, CLOCKS, sizeof CLOCKS);
    settings.clock_count = 3;
    settings.rate = UINT32_MAX;
    settings.ntp_base = 0xfedcba9876543210;
    jalwedd_record_configure(&record, 6, &settings, items, 4);
    settings.clock_count = 1;
    settings.rate = 48000;
    settings.ntp_base = 10;
    jalwedd_record_configure(&record, 6, &settings, items, 1);
    jalwedd_record_forget(&record, 4, 7);
    jalwedd_record_forget(&record, 7, 0xabcdef);
    wrong |= HOLDS(is_text("configure 0 4294967295 0 - - 0 0000000000000000\n"
                           "configure 1 4294967295 0 96:90000,0:0,255:4294967295 8:0027ff,2:,0:612c,255:3a "
                           "4294967295 fedcba9876543210\n"
                           "configure 1 4294967295 0 96:90000 8:0027ff 48000 000000000000000a\n"
                           "forget 2 00abcdef\n"));
    /* what does not fit a line has none, and is not read */
    record = begun(SIZE_MAX);
    jalwedd_record_configure(&record, 6, &settings, items, 8);
    jalwedd_record_configure(&record, 6, &settings, items, SIZE_MAX);
    settings.clock_count = 17;
    jalwedd_record_configure(&record, 6, &settings, items, 1);
    settings.clock_count = UINT32_MAX;
    jalwedd_record_configure(&record, 6, &settings, items, 1);
    settings.clock_count = 2;
    settings.clocks[1].payload_type = 256;
    jalwedd_record_configure(&record, 6, &settings, items, 1);
    return wrong | HOLDS(memory.writes == 0) | HOLDS(!record.failed);
}

/* The longest line: 16 clocks and 7 items of 255 octets. */
static int longest_settings(void)
{
    static jalwedd_item items[7];
    static jalwedd_settings settings = {.clock_count = 16};
    jalwedd_record record = begun(SIZE_MAX);
    for (size_t at = 0; at < 7; at++)
        items[at].size = 255;
    jalwedd_record_configure(&record, 0, &settings, items, 7);
    /* "configure 0 0 0 ", 16 of "0:0", 7 of "0:" and 510 digits, the commas, what stands between, " 0 " with 16 digits,
     * and the line feed */
    return HOLDS(memory.size == 16 + 16 * 3 + 15 + 1 + 7 * 512 + 6 + 3 + 16 + 1) | HOLDS(memory.longest <= 256);
}

/* ---- Datagrams of each size up to 1,000 octets, of the most, and of more */

static void arrive(jalwedd_record *record, size_t size)
{
    /* a block of just its size, so that a sanitizer sees what is read past it */
    uint8_t *datagram = (uint8_t *)malloc(size > 0 ? size : 1);
    for (size_t at = 0; at < size; at++)
        datagram[at] = (uint8_t)(at * 31 % 256);
    jalwedd_record_arrive_rtp(record, 1, 2, 3, datagram, size);
    free(datagram);
}

static int is_arrival(size_t size)
{
    const char *const head = "rtp 1 2 00000003 ";
    const size_t before = strlen(head);
    int wrong = HOLDS(memory.size == before + 2 * size + 1) | HOLDS(memcmp(memory.text, head, before) == 0);
    for (size_t at = 0; !wrong && at < size; at++) {
        char pair[3];
        sprintf(pair, "%02x", (unsigned)(at * 31 % 256));
        wrong |= HOLDS(memcmp(memory.text + before + 2 * at, pair, 2) == 0);
    }
    return wrong | HOLDS(memory.text[memory.size - 1] == '\n') | HOLDS(memory.longest <= 256);
}

static int sizes(void)
{
    uint8_t *one = (uint8_t *)calloc(1, 1);
    jalwedd_record record;
    int wrong = 0;
    for (size_t size = 1; size <= 1000; size++) {
        record = begun(SIZE_MAX);
        arrive(&record, size);
        wrong |= is_arrival(size);
    }
    record = begun(SIZE_MAX);
    arrive(&record, LONGEST);
    wrong |= is_arrival(LONGEST);
    record = begun(SIZE_MAX);
    jalwedd_record_arrive_rtp(&record, 1, 2, 3, one, LONGEST + 1);
    jalwedd_record_arrive_rtcp(&record, 1, 2, 3, one, LONGEST + 1);
    jalwedd_record_arrive_rtp(&record, 1, 2, 3, one, SIZE_MAX);
    jalwedd_record_arrive_rtcp(&record, 1, 2, 3, one, (size_t)-1);
    free(one);
    return wrong | HOLDS(memory.writes == 0) | HOLDS(!record.failed);
}

/* ---- Writes that fail */

static void three_calls(jalwedd_record *record)
{
    jalwedd_record_tick(record, 7, 8, 9);
    arrive(record, 1000);
    jalwedd_record_leave(record, 10, 11);
}

static int failures(void)
{
    static char whole[ROOM];
    jalwedd_record record = begun(SIZE_MAX);
    int wrong = 0;
    three_calls(&record);
    const size_t size = memory.size, writes = memory.writes;
    memcpy(whole, memory.text, size);
    wrong |= HOLDS(writes == 10); /* 2,018 octets in eight pieces, and two lines of one */
    for (size_t failing = 0; failing < writes; failing++) {
        record = begun(failing);
        three_calls(&record);
        wrong |= HOLDS(record.failed == 1) | HOLDS(memory.writes == failing + 1) | HOLDS(memory.size < size) |
                 HOLDS(memcmp(memory.text, whole, memory.size) == 0);
    }
    return wrong;
}

static int none(void)
{
    const jalwedd_config config = {.start = 7, .ssrc = 1, .capacity = 2, .limit = 3, .sender_bw = 4, .receiver_bw = 5,
                                   .rate = 6};
    jalwedd_record record = {NULL, NULL, 0, 0};
    three_calls(&record);
    return HOLDS(!record.failed) |
           HOLDS(jalwedd_record_command(&record, &config, (const uint8_t *)"a", 1, NULL, 0, 0) == JALWEDD_TAKEN) |
           HOLDS(jalwedd_record_command(&record, &config, (const uint8_t *)"-a", 2, NULL, 0, 0) == JALWEDD_CNAME);
}

static int files(void)
{
    char line[40];
    FILE *file = tmpfile(), *full = fopen("/dev/full", "w");
    jalwedd_record record = {jalwedd_record_to_file, file, 0, 0}, to_full = {jalwedd_record_to_file, full, 0, 0};
    int wrong = HOLDS(file != NULL && full != NULL);
    if (wrong)
        return wrong;
    jalwedd_record_tick(&record, 7, 8, 9);
    rewind(file);
    wrong |= HOLDS(fgets(line, sizeof line, file) != NULL && strcmp(line, "tick 7 00000008 00000009\n") == 0);
    wrong |= HOLDS(fclose(file) == 0) | HOLDS(!record.failed);
    jalwedd_record_tick(&to_full, 7, 8, 9); /* stdio keeps it */
    wrong |= HOLDS(!to_full.failed) | HOLDS(fflush(full) != 0);
    setvbuf(full, NULL, _IONBF, 0);
    jalwedd_record_tick(&to_full, 7, 8, 9);
    fclose(full);
    return wrong | HOLDS(to_full.failed == 1);
}

/* ---- Commands */

static const jalwedd_config CONFIG = {.ntp_base = 0x0123456789abcdef, .ssrc = 0xaa, .capacity = 1024, .limit = 1472,
                                      .sender_bw = 100, .receiver_bw = 300, .rate = 8000};

static uint32_t commanded(const char *cname, size_t cname_size, const jalwedd_item *items, size_t item_count)
{
    jalwedd_record record = begun(SIZE_MAX);
    return jalwedd_record_command(&record, &CONFIG, (const uint8_t *)cname, cname_size, items, item_count, 0xfedcba98);
}

/* The start is no option, but a comment before the command. */
static int comments(void)
{
    static const char *const command = "rtcp replay --ssrc 000000aa --cname 'a' --capacity 1024 --limit 1472 "
                                       "--sender-bw 100 --receiver-bw 300 --rate 8000 --ntp 0123456789abcdef "
                                       "--word 00000007 --lines 4294967295\n";
    static const uint64_t starts[] = {1, 600000000, INT64_MAX, UINT64_MAX};
    char wanted[400];
    int wrong = 0;
    for (size_t at = 0; at < 4; at++) {
        jalwedd_record record = begun(SIZE_MAX);
        jalwedd_config config = CONFIG;
        config.start = starts[at];
        snprintf(wanted, sizeof wanted, "# start %llu\n%s", (unsigned long long)starts[at], command);
        wrong |= HOLDS(jalwedd_record_command(&record, &config, (const uint8_t *)"a", 1, NULL, 0, 7) == JALWEDD_TAKEN);
        wrong |= HOLDS(is_text(wanted)) | HOLDS(!record.failed);
    }
    return wrong;
}

/* Each clock is an option, in their order. */
static int clocks(void)
{
    const jalwedd_clock given[2] = {{96, 90000}, {127, UINT32_MAX}};
    jalwedd_config config = CONFIG;
    jalwedd_record record = begun(SIZE_MAX);
    int wrong = 0;
    memcpy(config.clocks, given, sizeof given);
    config.clock_count = 2;
    wrong |= HOLDS(jalwedd_record_command(&record, &config, (const uint8_t *)"a", 1, NULL, 0, 7) == JALWEDD_TAKEN);
    wrong |= HOLDS(is_text("rtcp replay --ssrc 000000aa --cname 'a' --capacity 1024 --limit 1472 --sender-bw 100 "
                           "--receiver-bw 300 --rate 8000 --clock 96:90000 --clock 127:4294967295 "
                           "--ntp 0123456789abcdef --word 00000007 --lines 4294967295\n"));
    record = begun(SIZE_MAX);
    config.clock_count = 17;
    wrong |= HOLDS(jalwedd_record_command(&record, &config, (const uint8_t *)"a", 1, NULL, 0, 7) == JALWEDD_RATE);
    config.clock_count = 1;
    config.clocks[0].payload_type = 128;
    wrong |= HOLDS(jalwedd_record_command(&record, &config, (const uint8_t *)"a", 1, NULL, 0, 7) == JALWEDD_RATE);
    wrong |= HOLDS(jalwedd_record_command(&record, &config, (const uint8_t *)"", 256, NULL, 0, 7) == JALWEDD_CNAME);
    return wrong | HOLDS(memory.writes == 0) | HOLDS(!record.failed);
}

static int commands(void)
{
    const jalwedd_item all[8] = {item(2, "it's", 4), item(3, "", 0), item(4, "-", 1), item(5, "$HOME `\\\n", 9),
                                 item(6, "\"*", 2), item(7, "\xc3\xa9", 2), item(8, "\0'\xff", 3), item(8, "", 0)};
    const jalwedd_item low = item(1, "a", 1), high = item(9, "a", 1), dash = item(2, "-a", 2), zero = item(7, "a\0", 2);
    const jalwedd_item falling[2] = {item(7, "a", 1), item(6, "a", 1)};
    static char longest[256];
    int wrong = 0;
    memset(longest, 'a', sizeof longest);
    wrong |= HOLDS(commanded("a", 1, NULL, 0) == JALWEDD_TAKEN);
    wrong |= HOLDS(is_text("rtcp replay --ssrc 000000aa --cname 'a' --capacity 1024 --limit 1472 --sender-bw 100 "
                           "--receiver-bw 300 --rate 8000 --ntp 0123456789abcdef --word fedcba98 "
                           "--lines 4294967295\n"));
    wrong |= HOLDS(commanded("-", 1, all, 7) == JALWEDD_TAKEN);
    wrong |= HOLDS(is_text("rtcp replay --ssrc 000000aa --cname '-' --capacity 1024 --limit 1472 --sender-bw 100 "
                           "--receiver-bw 300 --rate 8000 --ntp 0123456789abcdef --name 'it'\\''s' --email '' "
                           "--phone '-' --loc '$HOME `\\\n' --tool '\"*' --note '\xc3\xa9' --priv '0027ff' "
                           "--word fedcba98 --lines 4294967295\n"));
    wrong |= HOLDS(commanded(longest, 255, NULL, 0) == JALWEDD_TAKEN) | HOLDS(memory.longest <= 256);
    wrong |= HOLDS(commanded("", 0, NULL, 0) == JALWEDD_TAKEN); /* rtcp replay refuses it as C1 */
    wrong |= HOLDS(commanded(longest, 256, NULL, 0) == JALWEDD_CNAME);
    wrong |= HOLDS(commanded(longest, SIZE_MAX, NULL, 0) == JALWEDD_CNAME);
    wrong |= HOLDS(commanded("-a", 2, NULL, 0) == JALWEDD_CNAME) | HOLDS(commanded("a\0", 2, NULL, 0) == JALWEDD_CNAME);
    wrong |= HOLDS(commanded("a", 1, all, 8) == JALWEDD_ITEM) | HOLDS(commanded("a", 1, &all[6], 2) == JALWEDD_ITEM);
    wrong |= HOLDS(commanded("a", 1, &low, 1) == JALWEDD_ITEM) | HOLDS(commanded("a", 1, &high, 1) == JALWEDD_ITEM);
    wrong |= HOLDS(commanded("a", 1, falling, 2) == JALWEDD_ITEM);
    wrong |= HOLDS(commanded("a", 1, &dash, 1) == JALWEDD_ITEM) | HOLDS(commanded("a", 1, &zero, 1) == JALWEDD_ITEM);
    wrong |= HOLDS(memory.writes == 0);
    return wrong;
}

/* ---- Commands of given configurations */

static void read_whole(void *to, size_t size)
{
    if (fread(to, 1, size, stdin) != size) {
        fprintf(stderr, "record_edges: a configuration is cut short\n");
        exit(1);
    }
}

/* Reads one: the octets of the CNAME, of how many items and of how many clocks, each number as an octet, and each item
 * and each clock as it lies in C, of which there are 16 at most. */
static int command_given(jalwedd_record *record)
{
    jalwedd_config config = CONFIG;
    jalwedd_item items[7];
    uint8_t cname[255], item_count, clock_count;
    const int cname_size = getchar();
    if (cname_size == EOF)
        return 0;
    read_whole(cname, (size_t)cname_size);
    read_whole(&item_count, 1);
    read_whole(items, item_count * sizeof *items);
    read_whole(&clock_count, 1);
    read_whole(config.clocks, (clock_count < 16 ? clock_count : 16) * sizeof *config.clocks);
    config.clock_count = clock_count;
    fprintf(stderr, "%u\n", jalwedd_record_command(record, &config, cname, (size_t)cname_size, items, item_count, 7));
    return 1;
}

int main(int count, char **words)
{
    jalwedd_record record = {jalwedd_record_to_file, stdout, 0, 0};
    if (count == 2 && strcmp(words[1], "commands") == 0) {
        while (command_given(&record))
            continue;
        return record.failed;
    }
    return lines() | settings_lines() | longest_settings() | sizes() | failures() | none() | files() | comments() |
           clocks() | commands();
}
