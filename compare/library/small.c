/* The heap and the stack of small hosts: how much jalwedd_new allocates at a capacity of 1, 20, 100 and 1,024, that no
 * other call allocates, that 5,000 sessions of 20 others exist side by side, and that a thread with a stack of 32 KB
 * begins a session, takes datagrams, reports and leaves. Ends with 0, or prints the line of the test that fails.
 * (compare/library/embedding) */
#include "jalwedd.h"

#include <pthread.h>
#include <stddef.h>
#include <stdio.h>
#include <stdlib.h>

#define HOLDS(what)                                                                                                    \
    do {                                                                                                               \
        if (!(what)) {                                                                                                 \
            printf("line %d: %s\n", __LINE__, #what);                                                                  \
            exit(1);                                                                                                   \
        }                                                                                                              \
    } while (0)

enum { SESSIONS = 5000, OTHERS = 20, SMALL_STACK = 32768 };

/* The library's memory, in place of package/memory.c: blocks and octets are counted. */
static size_t octets_asked, blocks_asked, blocks_held, asked[3];

struct rattle_block {
    uint8_t ok;
    void *at;
};

struct rattle_block rattle_alloc(size_t size, size_t alignment)
{
    void *at = malloc(size);
    HOLDS(at != NULL && alignment <= _Alignof(max_align_t));
    octets_asked += size;
    asked[blocks_asked++ % 3] = size;
    blocks_held++;
    return (struct rattle_block){1, at};
}

struct rattle_block rattle_realloc(void *at, size_t old_size, size_t size, size_t alignment)
{
    (void)old_size, (void)size, (void)alignment;
    HOLDS(!"no block grows");
    return (struct rattle_block){0, at};
}

void rattle_dealloc(void *at)
{
    blocks_held--;
    free(at);
}

static jalwedd_step step;
static uint8_t octets[JALWEDD_OCTETS];

static void begin(jalwedd_handle *session, uint32_t capacity)
{
    const jalwedd_config config = {.ssrc = 0xaa, .capacity = capacity, .limit = 1472, .sender_bw = 100,
                                   .receiver_bw = 300, .rate = 8000};
    const jalwedd_item item = {2, 4, "name"};
    HOLDS(jalwedd_new(session, &config, (const uint8_t *)"a", 1, &item, 1, 1, &step) == JALWEDD_TAKEN);
}

/* Each other sends two RTP packets, which makes it a sender where there is room, and the report goes out. */
static void take_part(jalwedd_handle *session, uint32_t others)
{
    for (uint32_t other = 1; other <= others; other++) {
        uint8_t rtp[12] = {0x80, 0, 0, 1, 0, 0, 0, 0, 0, 1, (uint8_t)(other >> 8), (uint8_t)other};
        HOLDS(jalwedd_arrive_rtp(session, other, other, 1, rtp, sizeof rtp, &step, octets) == JALWEDD_TAKEN);
        rtp[3] = 2;
        HOLDS(jalwedd_arrive_rtp(session, other, other, 1, rtp, sizeof rtp, &step, octets) == JALWEDD_TAKEN);
    }
    for (int tries = 0; tries < 1000 && step.kind == JALWEDD_NOTHING; tries++)
        HOLDS(jalwedd_tick(session, step.next, 0, 0, &step, octets) == JALWEDD_TAKEN);
    HOLDS(step.kind == JALWEDD_REPORT);
}

/* As the header says: 2,760 octets in one block, and 136 and 8 for each source of the capacity in two others, all of it
 * as the session begins, and within JALWEDD_MEMORY even if each block is rounded up. */
static void heap_by_capacity(void)
{
    static const uint32_t capacities[] = {1, 20, 100, 1024};
    for (size_t at = 0; at < sizeof capacities / sizeof *capacities; at++) {
        const uint32_t capacity = capacities[at];
        jalwedd_handle session = JALWEDD_EMPTY;
        octets_asked = blocks_asked = 0;
        begin(&session, capacity);
        printf("heap at capacity %u: %zu octets in %zu blocks\n", capacity, octets_asked, blocks_asked);
        HOLDS(octets_asked == 2760 + 144 * capacity && blocks_asked == 3);
        HOLDS(octets_asked + blocks_asked * 15 <= JALWEDD_MEMORY(capacity));
        HOLDS(asked[0] == 136 * capacity && asked[1] == 8 * capacity && asked[2] == 2760);
        take_part(&session, capacity + 5);
        HOLDS(step.members == capacity + 1 && step.senders == capacity);
        HOLDS(blocks_asked == 3);
        HOLDS(jalwedd_free(&session) == JALWEDD_TAKEN && blocks_held == 0);
    }
}

static void many_sessions(void)
{
    static jalwedd_handle sessions[SESSIONS];
    octets_asked = 0;
    for (size_t at = 0; at < SESSIONS; at++) {
        begin(&sessions[at], OTHERS);
        take_part(&sessions[at], OTHERS);
        HOLDS(step.members == OTHERS + 1 && step.senders == OTHERS);
    }
    printf("heap of %d sessions of %d others: %zu octets\n", SESSIONS, OTHERS, octets_asked);
    HOLDS(octets_asked <= (size_t)SESSIONS * 6000);
    for (size_t at = 0; at < SESSIONS; at++)
        HOLDS(jalwedd_free(&sessions[at]) == JALWEDD_TAKEN);
    HOLDS(blocks_held == 0);
}

static void *whole_session(void *nothing)
{
    jalwedd_handle session = JALWEDD_EMPTY;
    begin(&session, 1024);
    take_part(&session, 1000);
    HOLDS(jalwedd_leave(&session, step.next, 1, &step, octets) == JALWEDD_TAKEN);
    while (step.next != JALWEDD_NEVER)
        HOLDS(jalwedd_tick(&session, step.next, 0, 0, &step, octets) == JALWEDD_TAKEN);
    HOLDS(jalwedd_free(&session) == JALWEDD_TAKEN);
    return nothing;
}

static void small_stack(void)
{
    pthread_attr_t how;
    pthread_t thread;
    HOLDS(pthread_attr_init(&how) == 0 && pthread_attr_setstacksize(&how, SMALL_STACK) == 0);
    HOLDS(pthread_create(&thread, &how, whole_session, NULL) == 0 && pthread_join(thread, NULL) == 0);
    printf("a session of 1,000 others on a stack of %d octets\n", SMALL_STACK);
}

int main(void)
{
    heap_by_capacity();
    many_sessions();
    small_stack();
    return 0;
}
