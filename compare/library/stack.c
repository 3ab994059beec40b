/* Measures the stack that calls of the library take: each kind of call is made on its own stack, painted beforehand, in
 * a session of 1,000 others. Prints the octets for each, and ends with 0 if they are within the header's limit.
 * (compare/library/embedding) */
#define _XOPEN_SOURCE 700
#include "jalwedd.h"

#include <pthread.h>
#include <stdio.h>
#include <stdlib.h>
#include <string.h>

enum { STACK = 1 << 20, PAINT = 0xa5, OTHERS = 1000 };

static jalwedd_handle session = JALWEDD_EMPTY;
static jalwedd_step step;
static uint8_t octets[JALWEDD_OCTETS];
static const jalwedd_config CONFIG = {.ssrc = 0xaa, .capacity = 1024, .limit = 1472, .sender_bw = 100,
                                      .receiver_bw = 300, .rate = 8000};
static const jalwedd_item item = {2, 4, "name"};

static void nothing(void)
{
}

static void begin(void)
{
    if (jalwedd_new(&session, &CONFIG, (const uint8_t *)"a", 1, &item, 1, 1, &step) != JALWEDD_TAKEN)
        abort();
}

/* Each other sends two RTP packets, and an SR with its CNAME. */
static void arrive(void)
{
    for (uint32_t other = 1; other <= OTHERS; other++) {
        uint8_t rtp[12] = {0x80, 0, 0, 1, 0, 0, 0, 0, 0, 1, (uint8_t)(other >> 8), (uint8_t)other};
        uint8_t rtcp[40] = {0x80, 0xc8, 0, 6, 0, 1, (uint8_t)(other >> 8), (uint8_t)other, 1};
        const uint8_t name[12] = {0x81, 0xca, 0, 2, 0, 1, (uint8_t)(other >> 8), (uint8_t)other, 1, 1, 'a', 0};
        memcpy(rtcp + 28, name, sizeof name);
        jalwedd_arrive_rtp(&session, other, other, 1, rtp, sizeof rtp, &step, octets);
        rtp[3] = 2;
        jalwedd_arrive_rtp(&session, other, other, 1, rtp, sizeof rtp, &step, octets);
        jalwedd_arrive_rtcp(&session, other, other, 1, rtcp, sizeof rtcp, &step, octets);
    }
    if (step.members != OTHERS + 1 || step.senders != OTHERS)
        exit(1);
}

static void send_packet(void)
{
    jalwedd_sent_rtp(&session, 2000, 1, 160, &step, octets);
}

static void tick(void)
{
    for (int tries = 0; tries < 1000 && step.kind == JALWEDD_NOTHING; tries++)
        jalwedd_tick(&session, step.next, 0, 0, &step, octets);
    if (step.kind != JALWEDD_REPORT || step.size < 1400)
        exit(1);
}

static void print(void)
{
    static char text[8192];
    if (jalwedd_print(octets, step.size, text, sizeof text) < 1400
        || jalwedd_print_plain(octets, step.size, 8000, text, sizeof text) < 1400)
        exit(1);
}

static void configure(void)
{
    static const jalwedd_settings settings = {.sender_bw = 50, .receiver_bw = 150, .clock_count = 1,
                                              .clocks = {{96, 90000}}, .rate = 48000, .ntp_base = 1};
    if (jalwedd_configure(&session, step.next, &settings, &item, 1, &step, octets) != JALWEDD_TAKEN)
        exit(1);
}

static void forget(void)
{
    if (jalwedd_forget(&session, step.next, 1u << 16 | 1, &step, octets) != JALWEDD_TAKEN || step.members != OTHERS)
        exit(1);
}

static void collide(void)
{
    const uint8_t rtp[12] = {0x80, 0, 0, 1, 0, 0, 0, 0, 0, 0, 0, 0xaa};
    jalwedd_arrive_rtp(&session, step.next, 5000, 9, rtp, sizeof rtp, &step, octets);
}

static void leave(void)
{
    jalwedd_leave(&session, step.next, 1, &step, octets);
    while (step.next != JALWEDD_NEVER)
        jalwedd_tick(&session, step.next, 0, 0, &step, octets);
}

static void *run(void *call)
{
    (*(void (**)(void))call)();
    return NULL;
}

/* The octets of stack that a call writes. */
static size_t taken(void (*call)(void))
{
    static _Alignas(4096) uint8_t stack[STACK];
    pthread_attr_t how;
    pthread_t thread;
    size_t left = 0;
    memset(stack, PAINT, sizeof stack);
    pthread_attr_init(&how);
    pthread_attr_setstack(&how, stack, sizeof stack);
    if (pthread_create(&thread, &how, run, &call) != 0 || pthread_join(thread, NULL) != 0)
        exit(1);
    while (left < sizeof stack && stack[left] == PAINT)
        left++;
    return sizeof stack - left;
}

int main(void)
{
    static const struct {
        const char *name;
        void (*call)(void);
        size_t limit;
    } calls[] = {{"new", begin, 12288}, {"arrive", arrive, 1024}, {"sent_rtp", send_packet, 1024},
                 {"tick", tick, 1024}, {"print", print, 1024}, {"configure", configure, 8192}, {"forget", forget, 1024},
                 {"change", collide, 1024}, {"leave", leave, 1024}};
    const size_t none = taken(nothing);
    int is_more = 0;
    for (size_t at = 0; at < sizeof calls / sizeof *calls; at++) {
        const size_t octets_taken = taken(calls[at].call) - none;
        printf("stack of %s: %zu octets\n", calls[at].name, octets_taken);
        is_more |= octets_taken > calls[at].limit;
    }
    return is_more || jalwedd_free(&session) != JALWEDD_TAKEN;
}
