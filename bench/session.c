/* A participant of the library. (bench/session) */
#define _GNU_SOURCE
#include "jalwedd.h"
#include "participant.h"

#include <stdlib.h>

static jalwedd_handle session = JALWEDD_EMPTY;
static jalwedd_step step;
static uint64_t now;

static uint32_t random_word(void)
{
    return ((uint32_t)random() << 16) ^ (uint32_t)random();
}

/* In a session of 64,000 bits a second, the default of rtpsession, with reports of at most 31 blocks, like its own. */
void participant_begin(void)
{
    const jalwedd_config config = {.ssrc = random_word(), .capacity = 1024, .limit = 804, .sender_bw = 100,
                                   .receiver_bw = 300, .rate = 8000};
    const jalwedd_item none = {0};
    now = 0;
    expect(jalwedd_new(&session, &config, (const uint8_t *)"user@example.com", 16, &none, 0, random_word(), &step)
           == JALWEDD_TAKEN, "a participant begins");
}

void participant_end(void)
{
    expect(jalwedd_free(&session) == JALWEDD_TAKEN, "a participant ends");
}

double participant_arrive(enum port port, const struct datagram *datagrams, size_t count)
{
    static uint8_t octets[JALWEDD_OCTETS];
    uint32_t (*const call)(jalwedd_handle *, uint64_t, uint64_t, uint32_t, const uint8_t *, size_t, jalwedd_step *,
                           uint8_t *) = port == RTP_PORT ? jalwedd_arrive_rtp : jalwedd_arrive_rtcp;
    uint32_t refused = JALWEDD_TAKEN;
    const double start = nanoseconds();
    for (size_t at = 0; at < count; at++)
        refused |= call(&session, now, at, 0, datagrams[at].octets, datagrams[at].size, &step, octets);
    const double spent = nanoseconds() - start;
    expect(refused == JALWEDD_TAKEN && step.kind == JALWEDD_NOTHING && !step.changed, "each datagram is taken");
    return spent;
}

size_t participant_report(uint8_t octets[MOST_OCTETS], struct tick *tick)
{
    do {
        now = step.next > now ? step.next : now;
        const uint32_t words[2] = {random_word(), random_word()};
        const double start = nanoseconds();
        const uint32_t status = jalwedd_tick(&session, now, words[0], words[1], &step, octets);
        tick->spent = tick->awake = nanoseconds() - start;
        expect(status == JALWEDD_TAKEN, "a tick is taken");
    } while (step.kind == JALWEDD_NOTHING);
    expect(step.kind == JALWEDD_REPORT, "a tick hands out a report");
    return step.size;
}

uint32_t participant_others(void)
{
    return step.members - 1;
}
