/* What this profile does not do is refused by a warning on the bus, once for each thing, and never silently.
 * A warning that is found before the element has a bus waits until it is posted. Guarded by a lock of its
 * own. */
#ifndef JALWEDD_GSTREAMER_REFUSALS_H
#define JALWEDD_GSTREAMER_REFUSALS_H

#include <gst/gst.h>

GST_DEBUG_CATEGORY_EXTERN(jalwedd_debug);
#define GST_CAT_DEFAULT jalwedd_debug

typedef enum {
    REFUSED_PROFILE,
    REFUSED_FEEDBACK,
    REFUSED_KEY_UNIT,
    REFUSED_RETRANSMISSION,
    REFUSED_INTERVAL,
    REFUSED_DROPOUT,
    REFUSED_MISORDER,
    REFUSED_NTP64,
    REFUSED_TIMEOUT,
    REFUSED_REDUCED_SIZE,
    REFUSED_EARLY,
    REFUSED_CLOCK,
    REFUSED_AUXILIARY,
    REFUSED_FEC,
    REFUSED_STORAGE,
    REFUSED_RTP_INFO,
    REFUSED_BUFFER_MODE,
    REFUSED_SYNC_EVENT,
    REFUSALS,
    REFUSED_NOTHING = REFUSALS
} Refusal;

typedef struct {
    GMutex lock;
    gboolean told[REFUSALS];
    GPtrArray *waiting; /* texts that are not yet posted */
} Refusals;

void refusals_init(Refusals *refusals);
void refusals_clear(Refusals *refusals);
void refuse(gpointer element, Refusals *refusals, Refusal what);
void refusals_add(Refusals *refusals, gchar *text);       /* takes the text, and posts it later */
void refusals_post(gpointer element, Refusals *refusals); /* posts what waits, if there is a bus */

#endif
