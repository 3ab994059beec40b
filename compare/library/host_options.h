/* The options of `rtcp replay`, and the octets of its lines, as hosts in C take them. They have to be well-formed.
 * (compare/library/host.c, compare/library/before.c) */
#ifndef HOST_OPTIONS_H
#define HOST_OPTIONS_H

#include "jalwedd.h"

#include <stdint.h>
#include <stdlib.h>
#include <string.h>

enum { MOST_OCTETS = 65600, MOST_ITEMS = 7, MOST_CLOCKS = 16 };

struct options {
    jalwedd_config config;
    const char *cname;
    jalwedd_item items[MOST_ITEMS];
    size_t item_count;
    uint64_t session_bps;
    const char *sender_bw, *receiver_bw;
    uint32_t word;
};

static const char *const ITEMS[] = {"--name", "--email", "--phone", "--loc", "--tool", "--note"};

/* Reads hex, `-` as nothing, into `octets`, and returns how many there are. */
static size_t unhex(const char *text, uint8_t *octets, size_t room)
{
    size_t size = 0;
    if (strcmp(text, "-") == 0)
        return 0;
    for (; text[0] != '\0' && text[1] != '\0' && size < room; text += 2) {
        const char pair[3] = {text[0], text[1], '\0'};
        octets[size++] = (uint8_t)strtoul(pair, NULL, 16);
    }
    return size;
}

static void add_item(struct options *options, uint8_t kind, const char *text, int is_hex)
{
    jalwedd_item *item = &options->items[options->item_count++];
    item->kind = kind;
    if (is_hex) {
        item->size = (uint8_t)unhex(text, item->text, sizeof item->text);
        return;
    }
    item->size = (uint8_t)strlen(text);
    memcpy(item->text, text, item->size);
}

/* Before 0.5 there were no clocks. */
#if JALWEDD_VERSION_MAJOR > 0 || JALWEDD_VERSION_MINOR >= 5
static jalwedd_clock clock_of(const char *text)
{
    const char *rate = strchr(text, ':');
    return (jalwedd_clock){(uint32_t)strtoul(text, NULL, 10), rate == NULL ? 0 : (uint32_t)strtoul(rate + 1, NULL, 10)};
}

/* Reads clocks between commas, `-` as none, and returns how many there are. */
static inline uint32_t read_clocks(const char *text, jalwedd_clock *clocks)
{
    uint32_t count = 0;
    for (; text != NULL && strcmp(text, "-") != 0 && count < MOST_CLOCKS; text = strchr(text, ',')) {
        text += *text == ',';
        clocks[count++] = clock_of(text);
    }
    return count;
}

/* Reads items between commas, `-` as none, and returns how many there are. */
static inline size_t read_items(char *text, jalwedd_item *items)
{
    size_t count = 0;
    if (strcmp(text, "-") == 0)
        return 0;
    while (text != NULL && count < MOST_ITEMS) {
        jalwedd_item *item = &items[count++];
        char *end = strchr(text, ','), *octets = strchr(text, ':');
        if (end != NULL)
            *end++ = '\0';
        item->kind = (uint8_t)strtoul(text, NULL, 10);
        item->size = octets == NULL ? 0 : (uint8_t)unhex(octets + 1, item->text, sizeof item->text);
        text = end;
    }
    return count;
}

static void add_clock(struct options *options, const char *text)
{
    if (options->config.clock_count < MOST_CLOCKS)
        options->config.clocks[options->config.clock_count++] = clock_of(text);
}
#else
static void add_clock(struct options *options, const char *text)
{
    (void)options, (void)text;
}
#endif

static uint32_t at_most_32_bits(uint64_t number)
{
    return number > UINT32_MAX ? UINT32_MAX : (uint32_t)number;
}

static void read_number(struct options *options, const char *name, const char *value)
{
    const uint64_t decimal = strtoull(value, NULL, 10);
    if (strcmp(name, "--ssrc") == 0)
        options->config.ssrc = (uint32_t)strtoul(value, NULL, 16);
    else if (strcmp(name, "--ntp") == 0)
        options->config.ntp_base = strtoull(value, NULL, 16);
    else if (strcmp(name, "--word") == 0)
        options->word = (uint32_t)strtoul(value, NULL, 16);
    else if (strcmp(name, "--capacity") == 0)
        options->config.capacity = (uint32_t)decimal;
    else if (strcmp(name, "--limit") == 0)
        options->config.limit = (uint32_t)decimal;
    else if (strcmp(name, "--rate") == 0)
        options->config.rate = (uint32_t)decimal;
    else if (strcmp(name, "--session-bps") == 0)
        options->session_bps = decimal;
    else if (strcmp(name, "--sender-bw") == 0)
        options->sender_bw = value;
    else if (strcmp(name, "--receiver-bw") == 0)
        options->receiver_bw = value;
}

/* Reads the options. Items go out in the order of their types, whatever the order of the options is. */
static void read_options(struct options *options, int count, char **words)
{
    options->config = (jalwedd_config){.capacity = 1024, .limit = 1472, .rate = 8000};
    options->session_bps = 64000;
    options->cname = "";
    for (int at = 0; at + 1 < count; at += 2) {
        if (strcmp(words[at], "--cname") == 0)
            options->cname = words[at + 1];
        else if (strcmp(words[at], "--clock") == 0)
            add_clock(options, words[at + 1]);
        else
            read_number(options, words[at], words[at + 1]);
    }
    for (uint8_t item = 0; item < 6; item++)
        for (int at = 0; at + 1 < count; at += 2)
            if (strcmp(words[at], ITEMS[item]) == 0)
                add_item(options, item + 2, words[at + 1], 0);
    for (int at = 0; at + 1 < count; at += 2)
        if (strcmp(words[at], "--priv") == 0)
            add_item(options, 8, words[at + 1], 1);
    const uint64_t rtcp_bw = options->session_bps / 160;
    const uint64_t for_senders = options->sender_bw ? strtoull(options->sender_bw, NULL, 10) : rtcp_bw / 4;
    const uint64_t for_others = options->receiver_bw ? strtoull(options->receiver_bw, NULL, 10) : rtcp_bw - rtcp_bw / 4;
    options->config.sender_bw = at_most_32_bits(for_senders);
    options->config.receiver_bw = at_most_32_bits(for_others);
}

#endif
