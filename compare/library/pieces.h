/* What the tests of the host headers share. */
#ifndef PIECES_H
#define PIECES_H

#include <jalwedd_host.h>

#include <stdlib.h>

static int faults;
static uint8_t datagram[600];

#define IS(what, is, wanted) check(__LINE__, what, (long long)(is), (long long)(wanted))

static void check(int line, const char *what, long long is, long long wanted)
{
    if (is == wanted)
        return;
    printf("line %d: %s: %lld in place of %lld\n", line, what, is, wanted);
    faults++;
}

static inline void check_text(int line, const char *is, const char *wanted)
{
    if (strcmp(is, wanted) == 0)
        return;
    printf("line %d: %s in place of %s\n", line, is, wanted);
    faults++;
}

/* A receiver report of a source with an item of its description, and its size. */
static size_t report_of(uint8_t source, uint8_t kind, const char *text, uint8_t size)
{
    const uint8_t head[] = {0x80, 201, 0, 1, 0, 0, 0, source, 0x81, 202, 0, 0, 0, 0, 0, source, kind, size};
    size_t whole = (sizeof head + size) / 4 * 4 + 4;
    memset(datagram, 0, sizeof datagram);
    memcpy(datagram, head, sizeof head);
    memcpy(datagram + sizeof head, text, size);
    datagram[11] = (uint8_t)((whole - 8) / 4 - 1);
    return whole;
}

#endif
