/* Calls of a participant with a guard or without: bench/guard counts their instructions. Each source has an address of
 * its own, and was named before. usage: guard KIND SOURCES CALLS GUARDED ROW, of numbers but KIND: rtp, rtcp or tick; with
 * GUARDED 1 there is a guard, and ROW calls one after the other are of one source. */
#include <jalwedd.h>
#include <stdio.h>
#include <stdlib.h>
#include <string.h>

enum { MOST = 1000, RTP = 172, RTCP = 24 };

static jalwedd_handle session = JALWEDD_EMPTY;
static jalwedd_step step;
static uint8_t octets[JALWEDD_OCTETS];
static uint64_t now = 1000; /* microseconds */
static uint32_t ssrcs[MOST], state = 12345;
static uint16_t numbers[MOST];
static uint8_t rtp[RTP] = {0x80};
static uint8_t rtcp[RTCP] = {0x80, 201, 0, 1, 0, 0, 0, 0, 0x81, 202, 0, 3, 0, 0, 0, 0, 1, 5, 'a', '@', 'b', '.', 'c'};

static uint32_t drawn(void)
{
    return state = state * 1664525 + 1013904223;
}

static void put(uint8_t *at, uint32_t number)
{
    for (int octet = 0; octet < 4; octet++)
        at[octet] = (uint8_t)(number >> (24 - 8 * octet));
}

static uint64_t peer_of(int source)
{
    return ((uint64_t)source + 1) << 16;
}

static uint32_t send_rtp(int source)
{
    rtp[2] = (uint8_t)(numbers[source] >> 8);
    rtp[3] = (uint8_t)numbers[source]++;
    put(rtp + 4, (uint32_t)(now / 125));
    put(rtp + 8, ssrcs[source]);
    return jalwedd_arrive_rtp(&session, now, peer_of(source), 1, rtp, RTP, &step, octets);
}

static uint32_t send_rtcp(int source)
{
    put(rtcp + 4, ssrcs[source]);
    put(rtcp + 12, ssrcs[source]);
    return jalwedd_arrive_rtcp(&session, now, peer_of(source), 1, rtcp, RTCP, &step, octets);
}

static uint32_t call(const char *kind, int source)
{
    now += 10;
    if (!strcmp(kind, "tick"))
        return jalwedd_tick(&session, now, 1, 2, &step, octets);
    return strcmp(kind, "rtp") ? send_rtcp(source) : send_rtp(source);
}

int main(int count, char **words)
{
    static jalwedd_item none;
    jalwedd_config config = {.ssrc = 7, .capacity = 1024, .limit = 1472, .sender_bw = 100, .receiver_bw = 300, .rate = 8000};
    int sources = count == 6 ? atoi(words[2]) : 0, calls = sources ? atoi(words[3]) : 0, source = 0;
    if (sources < 1 || sources > MOST)
        return 2;
    if (atoi(words[4]))
        config.guard = (jalwedd_guard){.names = 8, .hold = 60000000};
    if (jalwedd_new(&session, &config, (const uint8_t *)"a", 1, &none, 0, 5, &step) != JALWEDD_TAKEN)
        return 1;
    for (int each = 0; each < sources; each++)
        ssrcs[each] = drawn();
    for (int each = 0; each < 3 * sources; each++)
        if (call("rtcp", each % sources) != JALWEDD_TAKEN || call("rtp", each % sources) != JALWEDD_TAKEN)
            return 1;
    for (int each = 0; each < calls; each++) {
        if (each % atoi(words[5]) == 0)
            source = (int)((drawn() >> 8) % (uint32_t)sources);
        if (call(words[1], source) != JALWEDD_TAKEN)
            return 1;
    }
    return 0;
}
