/* A host without a heap, as docs/EMBEDDING.md has it: it gives a participant the room that JALWEDD_MEMORY said when the
 * host was compiled. For each of some capacities, odd ones too, a session begins there, takes datagrams and ends, each
 * block is aligned, and all of it is given back. It compiles with the header of any version from 0.5 on. Ends with 0,
 * or prints the line of the test that fails. (package/check) */
#include "jalwedd.h"

#include <stdio.h>

/* To what blocks are aligned: in hosts of 0.5.0 to what their sizes are, as that header leaves no room for more. */
#ifndef ALIGNMENT
#define ALIGNMENT 16
#endif

enum { MOST = 1024 };

#define HOLDS(what)                                                                                                    \
    do {                                                                                                               \
        if (!(what)) {                                                                                                 \
            printf("line %d: %s, at a capacity of %u\n", __LINE__, #what, (unsigned)capacity);                         \
            return 1;                                                                                                  \
        }                                                                                                              \
    } while (0)

static _Alignas(16) uint8_t room[JALWEDD_MEMORY(MOST)];
static size_t size_of_room, taken, blocks;

/* Blocks one after the other, each aligned. */
static void *take(size_t size)
{
    const size_t rounded = (size + ALIGNMENT - 1) / ALIGNMENT * ALIGNMENT;
    void *at = rounded <= size_of_room - taken ? room + taken : NULL;
    taken += at != NULL ? rounded : 0;
    blocks += at != NULL;
    return at;
}

/* All is free again once the last block is back. */
static void give_back(void *at)
{
    (void)at;
    blocks--;
    taken = blocks == 0 ? 0 : taken;
}

static int fits(uint32_t capacity)
{
    static uint8_t octets[JALWEDD_OCTETS];
    const jalwedd_config config = {.ssrc = 7, .capacity = capacity, .limit = 1472, .sender_bw = 100, .receiver_bw = 300,
                                   .rate = 8000};
    const jalwedd_item none = {.kind = 2};
    jalwedd_handle session = JALWEDD_EMPTY;
    jalwedd_step step;
    size_of_room = JALWEDD_MEMORY(capacity);
    HOLDS(jalwedd_new(&session, &config, (const uint8_t *)"a", 1, &none, 0, 0, &step) == JALWEDD_TAKEN);
    for (uint32_t other = 1; other <= capacity + 2; other++) {
        const uint8_t rtp[12] = {0x80, 0, 0, 1, 0, 0, 0, 0, 0, 1, (uint8_t)(other >> 8), (uint8_t)other};
        HOLDS(jalwedd_arrive_rtp(&session, 0, other, 1, rtp, sizeof rtp, &step, octets) == JALWEDD_TAKEN);
    }
    HOLDS(step.entries == capacity && taken > 0 && taken <= JALWEDD_MEMORY(capacity));
    HOLDS(jalwedd_free(&session) == JALWEDD_TAKEN && taken == 0);
    return 0;
}

int main(void)
{
    static const uint32_t capacities[] = {1, 3, 20, 21, 1023, MOST};
    jalwedd_memory(take, give_back);
    for (size_t at = 0; at < sizeof capacities / sizeof *capacities; at++)
        if (fits(capacities[at]))
            return 1;
    return 0;
}
