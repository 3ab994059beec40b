/* Compares each walk with a cursor over a datagram with the calls by index. (compare/library/host.c,
 * compare/library/cursors.c) */
#ifndef WALKS_H
#define WALKS_H

#include "jalwedd.h"

#include <stddef.h>
#include <stdint.h>
#include <string.h>

/* Of a datagram of more octets only the first parts and the last one are asked for by index, each of which takes a walk
 * of its own. */
enum { SMALL_DATAGRAM = 2048, FIRST_PARTS = 40 };

/* Whether a walk, and the same walk by index, differ over a datagram whose check gives `check`: NULL, or how. The parts
 * are compared in their first `octets` octets, without the padding after these. Each is filled with 0x5a before, so
 * that what a call leaves as it is can be seen. */
#define WALK(kind, part, octets)                                                                                       \
    static const char *differs_in_##kind(const uint8_t *datagram, size_t size, uint32_t check)                         \
    {                                                                                                                  \
        static const jalwedd_cursor begin = JALWEDD_BEGIN;                                                             \
        jalwedd_cursor cursor = begin, before = begin;                                                                 \
        part given, last, indexed;                                                                                     \
        uint32_t count = 0, status;                                                                                    \
        memset(&given, 0x5a, sizeof given);                                                                            \
        memset(&indexed, 0x5a, sizeof indexed);                                                                        \
        last = given;                                                                                                  \
        while ((status = jalwedd_next_##kind(datagram, size, &cursor, &given)) == JALWEDD_TAKEN) {                     \
            const int is_asked = size <= SMALL_DATAGRAM || count < FIRST_PARTS;                                        \
            if (is_asked && jalwedd_##kind(datagram, size, count, &indexed) != JALWEDD_TAKEN)                          \
                return #kind ": the walk gives a part more than there are";                                            \
            if (is_asked && memcmp(&given, &indexed, octets) != 0)                                                     \
                return #kind ": the walk gives another part";                                                          \
            if (memcmp(&cursor, &before, sizeof cursor) == 0 || count > size)                                          \
                return #kind ": a part does not take the cursor on";                                                   \
            count++;                                                                                                   \
            before = cursor;                                                                                           \
            last = given;                                                                                              \
        }                                                                                                              \
        if (memcmp(&given, &last, octets) != 0)                                                                        \
            return #kind ": the output is not left as it is";                                                          \
        if (count > 0 && (jalwedd_##kind(datagram, size, count - 1, &indexed) != JALWEDD_TAKEN                         \
                          || memcmp(&last, &indexed, octets) != 0))                                                    \
            return #kind ": the last part is another";                                                                 \
        if (jalwedd_##kind(datagram, size, count, &indexed) != status)                                                 \
            return #kind ": the walk ends with another status";                                                        \
        if (status != (check == JALWEDD_TAKEN ? JALWEDD_NO_PART : JALWEDD_NO_COMPOUND))                                \
            return #kind ": the status is not that of the check";                                                      \
        if (check != JALWEDD_TAKEN && memcmp(&cursor, &begin, sizeof cursor) != 0)                                     \
            return #kind ": the cursor is not left as it is";                                                          \
        if (jalwedd_next_##kind(datagram, size, &cursor, &given) != status || memcmp(&given, &last, octets) != 0)      \
            return #kind ": asked again, the walk goes on";                                                            \
        return NULL;                                                                                                   \
    }

WALK(sender, jalwedd_sender_info, sizeof given)
WALK(block, jalwedd_report, sizeof given)
WALK(sdes_item, jalwedd_item_place, sizeof given)
WALK(goodbye, jalwedd_goodbye_place, sizeof given)
WALK(app, jalwedd_app_place, offsetof(jalwedd_app_place, name) + sizeof given.name)

/* How one of the five walks differs, or NULL. */
static inline const char *walks_differ(const uint8_t *datagram, size_t size)
{
    jalwedd_fault fault;
    const uint32_t check = jalwedd_check(datagram, size, &fault);
    const char *how = differs_in_sender(datagram, size, check);
    how = how != NULL ? how : differs_in_block(datagram, size, check);
    how = how != NULL ? how : differs_in_sdes_item(datagram, size, check);
    how = how != NULL ? how : differs_in_goodbye(datagram, size, check);
    return how != NULL ? how : differs_in_app(datagram, size, check);
}

#endif
