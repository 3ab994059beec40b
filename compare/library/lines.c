/* Tests a datagram as a line of text:
 * - of datagrams that are written out here the lines are those that docs/FORMATS.md and docs/PROGRAM.md describe;
 * - of each datagram of standard input, a line of a rate and hex each, it prints the line by jalwedd_print, and then
 *   that by jalwedd_print_plain with the rate;
 * - in a room of each size the text is cut where the room ends, with a zero octet after it. All before the room and
 *   after the zero octet is as it was, and the size told is that of the whole text.
 * Ends with 0, or prints the line of the test that fails.
 * usage: lines < DATAGRAMS        (compare/library/embedding) */
#include "jalwedd.h"

#include <stdio.h>
#include <stdlib.h>
#include <string.h>

#define HOLDS(what)                                                                                                    \
    do {                                                                                                               \
        if (!(what)) {                                                                                                 \
            printf("line %d: %s\n", __LINE__, #what);                                                                  \
            return 1;                                                                                                  \
        }                                                                                                              \
    } while (0)

/* The octets around a room and in it before a call; the longest text that is taken, and the rooms of it that are tried
 * at its start and at its end. */
enum { UNTOUCHED = 0x7f, AROUND = 8, MOST = 1 << 20, ROOMS = 120 };

static char room[AROUND + MOST + AROUND];

static size_t printed(const uint8_t *datagram, size_t size, int is_plain, uint32_t rate, char *text, size_t octets)
{
    return is_plain ? jalwedd_print_plain(datagram, size, rate, text, octets)
                    : jalwedd_print(datagram, size, text, octets);
}

/* The text in a room of so many octets, where all of it is `whole`. */
static int is_cut(const uint8_t *datagram, size_t size, int is_plain, uint32_t rate, const char *whole, size_t octets)
{
    char *const text = room + AROUND;
    const size_t length = strlen(whole), shown = octets == 0 ? 0 : length < octets ? length : octets - 1;
    const size_t written = octets == 0 ? 0 : shown + 1;
    memset(room, UNTOUCHED, AROUND + octets + AROUND);
    HOLDS(printed(datagram, size, is_plain, rate, text, octets) == length);
    HOLDS(memcmp(text, whole, shown) == 0 && (octets == 0 || text[shown] == '\0'));
    for (size_t at = 0; at < AROUND; at++)
        HOLDS(room[at] == UNTOUCHED);
    for (size_t at = written; at < octets + AROUND; at++)
        HOLDS(text[at] == UNTOUCHED);
    return 0;
}

/* The whole text, which the caller frees. */
static char *whole_text(const uint8_t *datagram, size_t size, int is_plain, uint32_t rate)
{
    const size_t length = printed(datagram, size, is_plain, rate, room, 0);
    char *const whole = malloc(length + 1);
    if (whole == NULL || length >= MOST || printed(datagram, size, is_plain, rate, whole, length + 1) != length)
        exit(1);
    return whole;
}

static int is_line(const uint8_t *datagram, size_t size, int is_plain, uint32_t rate, const char *whole)
{
    const size_t length = strlen(whole);
    for (const char *octet = whole; *octet != '\0'; octet++)
        HOLDS(*octet >= ' ' && *octet <= '~');
    for (size_t octets = 0; octets <= length + 2; octets++)
        if ((octets < ROOMS || octets + ROOMS > length)
            && is_cut(datagram, size, is_plain, rate, whole, octets) != 0)
            return 1;
    return 0;
}

/* ---- Datagrams that are written out */

/* A receiver report of 7, with a block about bb by which 64 of 256 were lost, -1 in all; and its CNAME `a"`. */
static const uint8_t REPORT[] = {
    0x81, 0xc9, 0, 7, 0, 0, 0, 7, 0, 0, 0, 0xbb, 64, 0xff, 0xff, 0xff, 0, 0, 0, 12, 0, 0, 0, 40,
    0, 2, 0x80, 0, 0, 1, 0, 0, 0x81, 0xca, 0, 3, 0, 0, 0, 7, 1, 2, 'a', '"', 0, 0, 0, 0,
};

static int is_written_out(const uint8_t *datagram, size_t size, int is_plain, uint32_t rate, const char *line)
{
    char *const whole = whole_text(datagram, size, is_plain, rate);
    HOLDS(strcmp(whole, line) == 0);
    HOLDS(is_line(datagram, size, is_plain, rate, line) == 0);
    free(whole);
    return 0;
}

static int written_out(void)
{
    const char *const units = "ok RR ssrc=00000007 block about=000000bb loss=25.0% lost=-1 highest=12 jitter=40units "
                              "lsr=2.500000s dlsr=1.000000s SDES ssrc=00000007 cname=\"a\\\"\"";
    const char *const times = "ok RR ssrc=00000007 block about=000000bb loss=25.0% lost=-1 highest=12 jitter=5.000ms "
                              "lsr=2.500000s dlsr=1.000000s SDES ssrc=00000007 cname=\"a\\\"\"";
    return is_written_out(REPORT, sizeof REPORT, 0, 0,
                          "ok RR(00000007,[000000bb/64/-1/12/40/00028000/00010000],0) SDES([00000007{1=6122}])")
        || is_written_out(REPORT, sizeof REPORT, 1, 0, units)
        || is_written_out(REPORT, sizeof REPORT, 1, 8000, times)
        || is_written_out(REPORT, 0, 0, 0, "F1 Short at 0")
        || is_written_out(REPORT + 32, 16, 0, 0, "F3 FirstType at 0")
        || is_written_out(REPORT, 44, 1, 0, "F5 Length at 32");
}

/* ---- Those of the input */

/* The octets of a text of hex digits, which are as many as half of these. */
static size_t read_hex(const char *hex, uint8_t *octets)
{
    size_t size = 0;
    unsigned octet;
    for (; sscanf(hex + 2 * size, "%2x", &octet) == 1; size++)
        octets[size] = (uint8_t)octet;
    return size;
}

static int prints(const char *hex, uint32_t rate)
{
    uint8_t *const datagram = malloc(strlen(hex) / 2 + 1);
    if (datagram == NULL)
        exit(1);
    const size_t size = read_hex(hex, datagram);
    for (int is_plain = 0; is_plain <= 1; is_plain++) {
        char *const whole = whole_text(datagram, size, is_plain, rate);
        puts(whole);
        if (is_line(datagram, size, is_plain, rate, whole) != 0)
            return 1;
        free(whole);
    }
    free(datagram);
    return 0;
}

int main(void)
{
    static char line[32 + 2 * 70000];
    if (written_out() != 0)
        return 1;
    while (fgets(line, sizeof line, stdin) != NULL) {
        char *hex;
        const uint32_t rate = (uint32_t)strtoul(line, &hex, 10);
        if (prints(hex + 1, rate) != 0)
            return 1;
    }
    return 0;
}
