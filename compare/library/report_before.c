/* jalwedd_report_before.h: BYE, APP and feedback packets that come with no report before them are taken with one, and
 * all other datagrams are left as they are. Ends with 0, or prints the line of the test that fails.
 * (compare/library/embedding) */
#include "jalwedd_report_before.h"

#include <stdio.h>

#define HOLDS(what)                                                                                                    \
    do {                                                                                                               \
        if (!(what)) {                                                                                                 \
            printf("line %d: %s\n", __LINE__, #what);                                                                  \
            return 1;                                                                                                  \
        }                                                                                                              \
    } while (0)

static const jalwedd_config CONFIG = {.ssrc = 0xaa, .capacity = 1024, .limit = 1472, .sender_bw = 100,
                                      .receiver_bw = 300, .rate = 8000};

/* packets of 7: an RR without blocks, its SDES with the CNAME "a", a BYE, an APP packet, and a PLI about 0xaa */
#define RR 0x80, 201, 0, 1, 0, 0, 0, 7
#define SDES 0x81, 202, 0, 2, 0, 0, 0, 7, 1, 1, 0x61, 0
#define BYE 0x81, 203, 0, 1, 0, 0, 0, 7
#define APP 0x81, 204, 0, 2, 0, 0, 0, 7, 0x61, 0x62, 0x63, 0x64
#define PLI 0x81, 206, 0, 2, 0, 0, 0, 7, 0, 0, 0, 0xaa

struct given {
    size_t size;
    uint8_t octets[40];
};

/* what libre and baresip send as they leave, or between two reports */
static const struct given ALONE[] = {
    {8, {BYE}}, {20, {BYE, SDES}}, {16, {BYE, RR}}, {20, {SDES, BYE}}, {12, {APP}}, {12, {PLI}}, {12, {SDES}}};

/* whole compounds, and faults of other kinds: cut short, no source, another version, padded, and a later packet too long */
static const struct given OTHERS[] = {
    {8, {RR}}, {20, {RR, SDES}}, {0, {0}}, {7, {BYE}}, {4, {0x80, 203, 0, 0}}, {8, {0x41, 203, 0, 1, 0, 0, 0, 7}},
    {8, {0xa0, 201, 0, 1, 0, 0, 0, 4}}, {20, {BYE, 0x81, 202, 0, 3, 0, 0, 0, 7, 1, 1, 0x61, 0}},
    {8, {0x81, 203, 0, 2, 0, 0, 0, 7}}};

static int alone(void)
{
    static const uint8_t report[] = {RR};
    for (size_t number = 0; number < sizeof ALONE / sizeof *ALONE; number++) {
        const struct given *given = &ALONE[number];
        uint8_t datagram[40 + JALWEDD_REPORT_BEFORE] = {0};
        memcpy(datagram, given->octets, given->size);
        HOLDS(jalwedd_put_report_before(datagram, given->size) == given->size + 8);
        HOLDS(memcmp(datagram, report, 8) == 0 && memcmp(datagram + 8, given->octets, given->size) == 0);
    }
    return 0;
}

static int others(void)
{
    for (size_t number = 0; number < sizeof OTHERS / sizeof *OTHERS; number++) {
        const struct given *given = &OTHERS[number];
        uint8_t datagram[40 + JALWEDD_REPORT_BEFORE] = {0};
        memcpy(datagram, given->octets, given->size);
        HOLDS(jalwedd_put_report_before(datagram, given->size) == given->size);
        HOLDS(memcmp(datagram, given->octets, given->size) == 0);
    }
    return 0;
}

/* A member that leaves so has left. */
static int left(void)
{
    static const uint8_t named[] = {RR, SDES}, cname[] = {0x61};
    static uint8_t octets[JALWEDD_OCTETS];
    uint8_t bye[20 + JALWEDD_REPORT_BEFORE] = {BYE, SDES};
    const jalwedd_item no_item = {0, 0, ""};
    jalwedd_handle handle = JALWEDD_EMPTY;
    jalwedd_source_state source;
    jalwedd_step step;
    HOLDS(jalwedd_new(&handle, &CONFIG, cname, 1, &no_item, 0, 0, &step) == JALWEDD_TAKEN);
    HOLDS(jalwedd_arrive_rtcp(&handle, 10, 1, 0, named, sizeof named, &step, octets) == JALWEDD_TAKEN);
    HOLDS(step.members == 2);
    HOLDS(jalwedd_arrive_rtcp(&handle, 20, 1, 0, bye, 20, &step, octets) == JALWEDD_NO_COMPOUND);
    const size_t size = jalwedd_put_report_before(bye, 20);
    HOLDS(jalwedd_arrive_rtcp(&handle, 30, 1, 0, bye, size, &step, octets) == JALWEDD_TAKEN);
    HOLDS(step.members == 1);
    HOLDS(jalwedd_source(&handle, 0, &source) == JALWEDD_TAKEN && source.ssrc == 7 && source.left == 30);
    HOLDS(jalwedd_free(&handle) == JALWEDD_TAKEN);
    return 0;
}

int main(void)
{
    return alone() || others() || left();
}
