/* A host linked with the package. It tests that the library has the header's version, that each status, each reason of
 * a fault and each cause of JALWEDD_RATE has a text of its own, and that the library takes its memory where
 * jalwedd_memory says, at most as much as the header says, and gives it back. Ends with status 0 if so. */
#include <jalwedd.h>
#include <stdio.h>
#include <string.h>

enum { SOURCES = 21 };

#define HOLDS(what) ((what) ? 0 : (fprintf(stderr, "linked.c: not so: %s\n", #what), 1))

static _Alignas(16) uint8_t room[JALWEDD_MEMORY(SOURCES)];
static size_t taken, blocks, strangers;

static void *take(size_t size)
{
    const size_t rounded = (size + 15) / 16 * 16;
    void *at = rounded <= sizeof room - taken ? room + taken : NULL;
    taken += at != NULL ? rounded : 0;
    blocks += at != NULL;
    return at;
}

/* The memory is free again once all blocks are back. */
static void give_back(void *at)
{
    strangers += (uint8_t *)at < room || (uint8_t *)at >= room + sizeof room;
    if (--blocks == 0)
        taken = 0;
}

static uint32_t begin(jalwedd_handle *session, uint32_t capacity)
{
    const jalwedd_config config = {.ssrc = 7, .capacity = capacity, .limit = 1472, .sender_bw = 100, .receiver_bw = 300,
                                   .rate = 8000};
    const jalwedd_item none = {.kind = 2};
    jalwedd_step step;
    return jalwedd_new(session, &config, (const uint8_t *)"a", 1, &none, 0, 0, &step);
}

static int memory(void)
{
    jalwedd_handle session = JALWEDD_EMPTY, other = JALWEDD_EMPTY;
    int wrong = 0;
    jalwedd_memory(take, give_back);
    wrong |= HOLDS(begin(&session, 2 * SOURCES) == JALWEDD_NO_MEMORY) | HOLDS(taken == 0);
    wrong |= HOLDS(begin(&session, SOURCES) == JALWEDD_TAKEN) | HOLDS(taken <= sizeof room) | HOLDS(blocks == 3);
    wrong |= HOLDS(begin(&other, SOURCES) == JALWEDD_NO_MEMORY);
    wrong |= HOLDS(jalwedd_free(&session) == JALWEDD_TAKEN) | HOLDS(blocks == 0) | HOLDS(strangers == 0);
    wrong |= HOLDS(begin(&session, SOURCES) == JALWEDD_TAKEN) | HOLDS(jalwedd_free(&session) == JALWEDD_TAKEN);
    return wrong;
}

/* Whether the texts of 1 to `last` differ from one another, and from that of no reason. */
static int differ(const char *(*text)(uint32_t), uint32_t last)
{
    int wrong = 0;
    for (uint32_t one = 1; one <= last; one++)
        for (uint32_t other = 0; other < one; other++)
            wrong |= HOLDS(strcmp(text(one), text(other)) != 0);
    return wrong | HOLDS(strcmp(text(last + 1), text(0)) == 0);
}

static int texts_of_clocks(void)
{
    jalwedd_clock clocks[2] = {{96, 90000}, {97, 1 << 20}};
    const char *const fine = jalwedd_clocks_text(2, clocks), *const many = jalwedd_clocks_text(17, clocks);
    clocks[1].rate++;
    const char *const fast = jalwedd_clocks_text(2, clocks);
    clocks[1].payload_type = 256;
    const char *const strange = jalwedd_clocks_text(2, clocks);
    return HOLDS(strcmp(fine, jalwedd_clocks_text(0, clocks)) == 0) | HOLDS(strcmp(fine, many) != 0) |
           HOLDS(strcmp(fast, fine) != 0 && strcmp(fast, many) != 0) |
           HOLDS(strcmp(fine, jalwedd_clocks_text(1, clocks)) == 0) |
           HOLDS(strcmp(strange, fine) != 0 && strcmp(strange, many) != 0 && strcmp(strange, fast) != 0);
}

static int texts(void)
{
    int wrong = differ(jalwedd_fault_text, 15) | texts_of_clocks();
    for (uint32_t one = 0; one < 24; one++)
        for (uint32_t other = 0; other < one; other++)
            wrong |= HOLDS(strcmp(jalwedd_text(one), jalwedd_text(other)) != 0 ||
                           strcmp(jalwedd_text(one), jalwedd_text(UINT32_MAX)) == 0);
    return wrong | HOLDS(strcmp(jalwedd_text(JALWEDD_TOO_LONG), jalwedd_text(UINT32_MAX)) != 0);
}

int main(void)
{
    const uint32_t version = JALWEDD_VERSION_MAJOR << 16 | JALWEDD_VERSION_MINOR << 8 | JALWEDD_VERSION_PATCH;
    return HOLDS(jalwedd_version() == version) | texts() | memory();
}
