/* For datagrams of hosts that break a rule of RFC 3550, 6.1, as libre and baresip do: a compound begins with a report,
 * and their BYE, APP and feedback packets come without one, so the library refuses them. Put a report before such a
 * datagram, and the library takes it: who says goodbye is then not listed for another 25 seconds.
 *
 *     size = jalwedd_put_report_before(datagram, size);
 *     jalwedd_arrive_rtcp(&session, now, peer, random_word(), datagram, size, &step, octets);
 *
 * This is a host's choice, and the library does not make it: a report first is also what tells RTCP from other octets
 * (A.2). The function is inline, for C99 and C++11 and later, and does not allocate. */
#ifndef JALWEDD_REPORT_BEFORE_H
#define JALWEDD_REPORT_BEFORE_H

#include "jalwedd.h"

#include <string.h>

#ifdef __cplusplus
extern "C" {
#endif

/* ---- Values */

/* The octets of such a report: a datagram has room for as many more. */
#define JALWEDD_REPORT_BEFORE 8

/* ---- Calls */

/* If nothing is wrong with a datagram but that no report comes first, puts an empty receiver report of the SSRC of its
 * first packet before it, and returns its new size. Otherwise leaves it as it is, and returns `size`. `datagram` has
 * room for JALWEDD_REPORT_BEFORE octets more. */
static inline size_t jalwedd_put_report_before(uint8_t *datagram, size_t size)
{
    static const uint8_t header[] = {0x80, 201, 0, 1};
    const uint32_t first_type = 3;      /* F3: the first packet is no report */
    jalwedd_fault fault;
    if (size < 8 || jalwedd_check(datagram, size, &fault) == JALWEDD_TAKEN || fault.reason != first_type)
        return size;
    memmove(datagram + JALWEDD_REPORT_BEFORE, datagram, size);
    memcpy(datagram, header, sizeof header);
    memcpy(datagram + 4, datagram + JALWEDD_REPORT_BEFORE + 4, 4);
    if (jalwedd_check(datagram, size + JALWEDD_REPORT_BEFORE, &fault) == JALWEDD_TAKEN)
        return size + JALWEDD_REPORT_BEFORE;
    memmove(datagram, datagram + JALWEDD_REPORT_BEFORE, size);
    return size;
}

#ifdef __cplusplus
}
#endif

#endif
