/* Records a session so that the program `rtcp replay` can play it again: writes each call of the host as a line of
 * text. The program answers these lines with the same members, deadlines, compounds and refusals, octet for octet. So
 * what a session did can be examined later, and on another machine.
 *
 * A record consists of two texts: the calls, and the command that plays them again.
 *
 *     #define JALWEDD_RECORD_STDIO
 *     #include <jalwedd_record.h>
 *
 *     jalwedd_record calls = {jalwedd_record_to_file, fopen("session", "w"), 0, config.start};
 *     jalwedd_record command = {jalwedd_record_to_file, fopen("session.sh", "w"), 0, config.start};
 *
 *     jalwedd_record_command(&command, &config, cname, cname_size, items, item_count, word);  with those of jalwedd_new
 *
 *     jalwedd_record_tick(&calls, now, first_word, second_word);                  before each call, with its arguments
 *     jalwedd_tick(&session, now, first_word, second_word, &step, octets);
 *
 *     sh session.sh < session                                                     in a shell, with rtcp in PATH
 *
 * WHAT THE HOST MUST ENSURE, as nothing tests it:
 * - It records all calls of one participant in their order, from the jalwedd_new that is taken to jalwedd_free,
 *   whatever their status: a refused call changes nothing, and the program refuses it again.
 * - With a guard (config.guard) it records an arrival after the call, unless the status is JALWEDD_STRANGER or
 *   JALWEDD_CROWD: the command that is written has no guard, and the program would take what was held back.
 * - The record's start is config.start of that participant: the program counts moments from 0, so a line has the time
 *   from the start to the moment of its call. A call before the start changes nothing, and has no line.
 * - It draws each random word once, and passes it to both functions.
 * - Pointers and sizes are as jalwedd.h demands. One call at a time uses a record.
 *
 * A datagram of more than 65,535 octets, or with a size of -1, is neither read nor recorded: no line can hold it, and
 * the participant refuses it. All others are recorded whole, including the media: a line takes two bytes for each
 * octet, and at most 57 more. rtcp replay plays as many lines as --lines says, in the command that is written all.
 *
 * All functions are inline, for C99 and C++11 and later. They need no library and do not allocate: they write from a
 * buffer of 256 bytes on the stack.
 */
#ifndef JALWEDD_RECORD_H
#define JALWEDD_RECORD_H

#include "jalwedd.h"

#include <string.h>

#ifdef JALWEDD_RECORD_STDIO
#include <stdio.h>
#endif

#ifdef __cplusplus
extern "C" {
#endif

/* ---- Values */

/* Where to write a text. The host sets all four fields before the first call. */
typedef struct jalwedd_record {
    int (*write)(void *to, const char *text, size_t size); /* writes `size` bytes of text, which is not terminated, and
                               returns 0, or another number if it fails. A line may come in several pieces. If it is
                               NULL, nothing is recorded */
    void *to;               /* passed to `write`, for the host's use */
    int failed;             /* 0 at first, and 1 after a write that failed: then nothing more is written. If the text
                               does not end with a line feed, the last line is cut short: delete it before playing */
    uint64_t start;         /* config.start of the participant: 0 for one that starts at 0 */
} jalwedd_record;

/* ---- Calls */

/* Writes the line of the call of that name, for the same arguments (jalwedd.h). Call it before or after that call. Any
 * arguments have a line, even if the call refuses them, except a moment before the start, a datagram of more than
 * 65,535 octets, and settings with more than 7 items or 16 clocks, or with a payload type above 255. If a write fails,
 * record->failed is 1. */
static inline void jalwedd_record_arrive_rtcp(jalwedd_record *record, uint64_t now, uint64_t peer, uint32_t word,
                                              const uint8_t *datagram, size_t size);
static inline void jalwedd_record_arrive_rtp(jalwedd_record *record, uint64_t now, uint64_t peer, uint32_t word,
                                             const uint8_t *datagram, size_t size);
static inline void jalwedd_record_sent_rtp(jalwedd_record *record, uint64_t now, uint32_t timestamp, uint32_t payload);
static inline void jalwedd_record_tick(jalwedd_record *record, uint64_t now, uint32_t first_word,
                                       uint32_t second_word);
static inline void jalwedd_record_configure(jalwedd_record *record, uint64_t now, const jalwedd_settings *settings,
                                            const jalwedd_item *items, size_t item_count);
static inline void jalwedd_record_forget(jalwedd_record *record, uint64_t now, uint32_t ssrc);
static inline void jalwedd_record_leave(jalwedd_record *record, uint64_t now, uint32_t word);

/* Writes the command that plays the calls again, as one line for a POSIX shell: `rtcp replay` with an option for each
 * argument of jalwedd_new but the start. It reads the calls from standard input. If the start is not 0, a line before
 * it is a comment that has it, such as `# start 600000000`. Its sum with a moment of the record is a moment of the
 * host's clock. Numbers that jalwedd_new refuses are written all the same, and rtcp replay refuses them too, but
 * for a start. If a write fails, record->failed is 1.
 * Some texts and items that jalwedd_new takes have no option. Then the status names them, and nothing is written:
 * - CNAME: the CNAME has more than 255 octets, is not UTF-8, contains a zero octet, or has several octets of which the
 *   first is `-`.
 * - ITEM: the text of an item other than PRIV is such a text; or the kinds of the items do not rise from item to item,
 *   or are out of range 2 to 8; or there are more than 7 items.
 * - RATE: there are more than 16 clocks, or the payload type of one is above 127.
 *
 * Statuses: TAKEN; CNAME; ITEM; RATE. */
static inline uint32_t jalwedd_record_command(jalwedd_record *record, const jalwedd_config *config,
                                              const uint8_t *cname, size_t cname_size, const jalwedd_item *items,
                                              size_t item_count, uint32_t word);

#ifdef JALWEDD_RECORD_STDIO
/* The `write` for a record whose `to` is a FILE * open for writing. Define JALWEDD_RECORD_STDIO before including the
 * header. As stdio buffers, check fclose too: a write may fail there. */
static inline int jalwedd_record_to_file(void *to, const char *text, size_t size)
{
#ifdef __cplusplus
    FILE *file = static_cast<FILE *>(to);
#else
    FILE *file = to;
#endif
    return fwrite(text, 1, size, file) == size ? 0 : EOF;
}
#endif

/* ---- Inside: hosts do not use what follows */

/* A line that is being written, with what is not yet passed on. */
typedef struct jalwedd_record_line {
    jalwedd_record *record;
    size_t size;
    char text[256];
} jalwedd_record_line;

static inline void jalwedd_record_flush(jalwedd_record_line *line)
{
    jalwedd_record *record = line->record;
    if (!record->failed)
        record->failed = record->write(record->to, line->text, line->size) != 0;
    line->size = 0;
}

static inline void jalwedd_record_byte(jalwedd_record_line *line, char byte)
{
    if (line->size == sizeof line->text)
        jalwedd_record_flush(line);
    line->text[line->size++] = byte;
}

static inline void jalwedd_record_text(jalwedd_record_line *line, const char *text)
{
    while (*text != '\0')
        jalwedd_record_byte(line, *text++);
}

/* A number in decimal. */
static inline void jalwedd_record_number(jalwedd_record_line *line, uint64_t number)
{
    char digits[20];
    size_t count = 0;
    do {
        digits[count++] = "0123456789"[number % 10];
        number /= 10;
    } while (number != 0);
    while (count > 0)
        jalwedd_record_byte(line, digits[--count]);
}

/* A field: a space, and a number in decimal. */
static inline void jalwedd_record_decimal(jalwedd_record_line *line, uint64_t number)
{
    jalwedd_record_byte(line, ' ');
    jalwedd_record_number(line, number);
}

static inline void jalwedd_record_octet(jalwedd_record_line *line, uint8_t octet)
{
    jalwedd_record_byte(line, "0123456789abcdef"[octet >> 4]);
    jalwedd_record_byte(line, "0123456789abcdef"[octet & 15]);
}

/* A field: a space, and a number of 32 bits in eight hex digits. */
static inline void jalwedd_record_word(jalwedd_record_line *line, uint32_t word)
{
    int shift;
    jalwedd_record_byte(line, ' ');
    for (shift = 24; shift >= 0; shift -= 8)
        jalwedd_record_octet(line, word >> shift & 255);
}

/* A field: a space, and a number of 64 bits in sixteen hex digits. */
static inline void jalwedd_record_long(jalwedd_record_line *line, uint64_t number)
{
    int shift;
    jalwedd_record_byte(line, ' ');
    for (shift = 56; shift >= 0; shift -= 8)
        jalwedd_record_octet(line, number >> shift & 255);
}

static inline void jalwedd_record_octets(jalwedd_record_line *line, const uint8_t *octets, size_t size)
{
    size_t at;
    for (at = 0; at < size; at++)
        jalwedd_record_octet(line, octets[at]);
}

/* Begins a line, or returns 0 if nothing is recorded. */
static inline int jalwedd_record_begin(jalwedd_record_line *line, jalwedd_record *record, const char *first)
{
    line->record = record;
    line->size = 0;
    if (record->write == NULL || record->failed)
        return 0;
    jalwedd_record_text(line, first);
    return 1;
}

/* Begins the line of a call, with the moment as its first field, or returns 0 if it has none. */
static inline int jalwedd_record_begin_call(jalwedd_record_line *line, jalwedd_record *record, const char *call,
                                            uint64_t now)
{
    if (now < record->start || !jalwedd_record_begin(line, record, call))
        return 0;
    jalwedd_record_decimal(line, now - record->start);
    return 1;
}

static inline void jalwedd_record_end(jalwedd_record_line *line)
{
    jalwedd_record_byte(line, '\n');
    jalwedd_record_flush(line);
}

/* ---- The lines of the calls */

static inline void jalwedd_record_arrival(jalwedd_record *record, const char *call, uint64_t now, uint64_t peer,
                                          uint32_t word, const uint8_t *datagram, size_t size)
{
    jalwedd_record_line line;
    if (size > 65535 || !jalwedd_record_begin_call(&line, record, call, now))
        return;
    jalwedd_record_decimal(&line, peer);
    jalwedd_record_word(&line, word);
    jalwedd_record_text(&line, size == 0 ? " -" : " ");
    jalwedd_record_octets(&line, datagram, size);
    jalwedd_record_end(&line);
}

static inline void jalwedd_record_arrive_rtcp(jalwedd_record *record, uint64_t now, uint64_t peer, uint32_t word,
                                              const uint8_t *datagram, size_t size)
{
    jalwedd_record_arrival(record, "rtcp", now, peer, word, datagram, size);
}

static inline void jalwedd_record_arrive_rtp(jalwedd_record *record, uint64_t now, uint64_t peer, uint32_t word,
                                             const uint8_t *datagram, size_t size)
{
    jalwedd_record_arrival(record, "rtp", now, peer, word, datagram, size);
}

static inline void jalwedd_record_sent_rtp(jalwedd_record *record, uint64_t now, uint32_t timestamp, uint32_t payload)
{
    jalwedd_record_line line;
    if (!jalwedd_record_begin_call(&line, record, "sent", now))
        return;
    jalwedd_record_decimal(&line, timestamp);
    jalwedd_record_decimal(&line, payload);
    jalwedd_record_end(&line);
}

static inline void jalwedd_record_tick(jalwedd_record *record, uint64_t now, uint32_t first_word,
                                       uint32_t second_word)
{
    jalwedd_record_line line;
    if (!jalwedd_record_begin_call(&line, record, "tick", now))
        return;
    jalwedd_record_word(&line, first_word);
    jalwedd_record_word(&line, second_word);
    jalwedd_record_end(&line);
}

/* Whether these clocks can be written, of payload types up to this one. */
static inline int jalwedd_record_are_clocks(const jalwedd_clock *clocks, uint32_t count, uint32_t last_type)
{
    uint32_t at;
    if (count > 16)
        return 0;
    for (at = 0; at < count; at++)
        if (clocks[at].payload_type > last_type)
            return 0;
    return 1;
}

/* The payload type and the rate of a clock. */
static inline void jalwedd_record_clock(jalwedd_record_line *line, const jalwedd_clock *clock)
{
    jalwedd_record_number(line, clock->payload_type);
    jalwedd_record_byte(line, ':');
    jalwedd_record_number(line, clock->rate);
}

static inline void jalwedd_record_configure(jalwedd_record *record, uint64_t now, const jalwedd_settings *settings,
                                            const jalwedd_item *items, size_t item_count)
{
    jalwedd_record_line line;
    size_t at;
    if (item_count > 7 || !jalwedd_record_are_clocks(settings->clocks, settings->clock_count, 255)
        || !jalwedd_record_begin_call(&line, record, "configure", now))
        return;
    jalwedd_record_decimal(&line, settings->sender_bw);
    jalwedd_record_decimal(&line, settings->receiver_bw);
    jalwedd_record_text(&line, settings->clock_count == 0 ? " -" : " ");
    for (at = 0; at < settings->clock_count; at++) {
        jalwedd_record_text(&line, at == 0 ? "" : ",");
        jalwedd_record_clock(&line, &settings->clocks[at]);
    }
    jalwedd_record_text(&line, item_count == 0 ? " -" : " ");
    for (at = 0; at < item_count; at++) {
        jalwedd_record_text(&line, at == 0 ? "" : ",");
        jalwedd_record_number(&line, items[at].kind);
        jalwedd_record_byte(&line, ':');
        jalwedd_record_octets(&line, items[at].text, items[at].size);
    }
    jalwedd_record_decimal(&line, settings->rate);
    jalwedd_record_long(&line, settings->ntp_base);
    jalwedd_record_end(&line);
}

static inline void jalwedd_record_forget(jalwedd_record *record, uint64_t now, uint32_t ssrc)
{
    jalwedd_record_line line;
    if (!jalwedd_record_begin_call(&line, record, "forget", now))
        return;
    jalwedd_record_word(&line, ssrc);
    jalwedd_record_end(&line);
}

static inline void jalwedd_record_leave(jalwedd_record *record, uint64_t now, uint32_t word)
{
    jalwedd_record_line line;
    if (!jalwedd_record_begin_call(&line, record, "leave", now))
        return;
    jalwedd_record_word(&line, word);
    jalwedd_record_end(&line);
}

/* ---- The command */

/* The size of the UTF-8 character at the start of a non-empty text (RFC 3629), or 0 if there is none or if it is a zero
 * octet. */
static inline size_t jalwedd_record_character(const uint8_t *text, size_t size)
{
    const uint8_t first = text[0];
    const size_t length = first < 0x80 ? 1 : first < 0xe0 ? 2 : first < 0xf0 ? 3 : 4;
    /* the range of the second octet, which excludes overlong forms, surrogates and what lies above U+10FFFF */
    const uint8_t least = first == 0xe0 ? 0xa0 : first == 0xf0 ? 0x90 : 0x80;
    const uint8_t most = first == 0xed ? 0x9f : first == 0xf4 ? 0x8f : 0xbf;
    size_t at;
    if (first == 0 || (first >= 0x80 && first < 0xc2) || first > 0xf4 || length > size)
        return 0;
    if (length > 1 && (text[1] < least || text[1] > most))
        return 0;
    for (at = 2; at < length; at++)
        if (text[at] < 0x80 || text[at] > 0xbf)
            return 0;
    return length;
}

/* Whether a text can be the value of an option. */
static inline int jalwedd_record_is_value(const uint8_t *text, size_t size)
{
    size_t at, length;
    if (size > 255 || (size > 1 && text[0] == '-'))
        return 0;
    for (at = 0; at < size; at += length) {
        length = jalwedd_record_character(text + at, size - at);
        if (length == 0)
            return 0;
    }
    return 1;
}

/* Whether each item has an option of its own, and the items are in the order in which rtcp replay sends them. */
static inline int jalwedd_record_are_options(const jalwedd_item *items, size_t count)
{
    size_t at;
    if (count > 7)
        return 0;
    for (at = 0; at < count; at++) {
        if (items[at].kind < JALWEDD_SDES_NAME || items[at].kind > JALWEDD_SDES_PRIV)
            return 0;
        if (at > 0 && items[at].kind <= items[at - 1].kind)
            return 0;
        if (items[at].kind != JALWEDD_SDES_PRIV && !jalwedd_record_is_value(items[at].text, items[at].size))
            return 0;
    }
    return 1;
}

/* A field: a space, and a text in single quotes, between which a shell changes nothing. */
static inline void jalwedd_record_quoted(jalwedd_record_line *line, const uint8_t *text, size_t size)
{
    size_t at;
    char byte;
    jalwedd_record_text(line, " '");
    for (at = 0; at < size; at++) {
        memcpy(&byte, &text[at], 1);
        if (byte == '\'')
            jalwedd_record_text(line, "'\\''");
        else
            jalwedd_record_byte(line, byte);
    }
    jalwedd_record_byte(line, '\'');
}

static inline void jalwedd_record_item(jalwedd_record_line *line, const jalwedd_item *item)
{
    static const char *const options[] = {" --name", " --email", " --phone", " --loc", " --tool", " --note", " --priv"};
    jalwedd_record_text(line, options[item->kind - JALWEDD_SDES_NAME]);
    if (item->kind != JALWEDD_SDES_PRIV) {
        jalwedd_record_quoted(line, item->text, item->size);
        return;
    }
    jalwedd_record_text(line, " '");
    jalwedd_record_octets(line, item->text, item->size);
    jalwedd_record_byte(line, '\'');
}

/* The options of a configuration's numbers and clocks, but for the SSRC. */
static inline void jalwedd_record_config(jalwedd_record_line *line, const jalwedd_config *config)
{
    uint32_t at;
    jalwedd_record_text(line, " --capacity");
    jalwedd_record_decimal(line, config->capacity);
    jalwedd_record_text(line, " --limit");
    jalwedd_record_decimal(line, config->limit);
    jalwedd_record_text(line, " --sender-bw");
    jalwedd_record_decimal(line, config->sender_bw);
    jalwedd_record_text(line, " --receiver-bw");
    jalwedd_record_decimal(line, config->receiver_bw);
    jalwedd_record_text(line, " --rate");
    jalwedd_record_decimal(line, config->rate);
    for (at = 0; at < config->clock_count; at++) {
        jalwedd_record_text(line, " --clock ");
        jalwedd_record_clock(line, &config->clocks[at]);
    }
    jalwedd_record_text(line, " --ntp");
    jalwedd_record_long(line, config->ntp_base);
}

static inline uint32_t jalwedd_record_command(jalwedd_record *record, const jalwedd_config *config,
                                              const uint8_t *cname, size_t cname_size, const jalwedd_item *items,
                                              size_t item_count, uint32_t word)
{
    jalwedd_record_line line;
    size_t at;
    if (!jalwedd_record_is_value(cname, cname_size))
        return JALWEDD_CNAME;
    if (!jalwedd_record_are_options(items, item_count))
        return JALWEDD_ITEM;
    if (!jalwedd_record_are_clocks(config->clocks, config->clock_count, 127))
        return JALWEDD_RATE;
    if (!jalwedd_record_begin(&line, record, ""))
        return JALWEDD_TAKEN;
    if (config->start != 0) {
        jalwedd_record_text(&line, "# start");
        jalwedd_record_decimal(&line, config->start);
        jalwedd_record_byte(&line, '\n');
    }
    jalwedd_record_text(&line, "rtcp replay --ssrc");
    jalwedd_record_word(&line, config->ssrc);
    jalwedd_record_text(&line, " --cname");
    jalwedd_record_quoted(&line, cname, cname_size);
    jalwedd_record_config(&line, config);
    for (at = 0; at < item_count; at++)
        jalwedd_record_item(&line, &items[at]);
    jalwedd_record_text(&line, " --word");
    jalwedd_record_word(&line, word);
    jalwedd_record_text(&line, " --lines 4294967295");
    jalwedd_record_end(&line);
    return JALWEDD_TAKEN;
}

#ifdef __cplusplus
}
#endif

#endif
