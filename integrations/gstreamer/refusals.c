#include "refusals.h"

static const gchar *const texts[REFUSALS] = {
    [REFUSED_PROFILE] = "rtp-profile: feedback (RFC 4585) is refused, the profile is AVP or SAVP",
    [REFUSED_FEEDBACK] = "rtcp-fb of caps: feedback (RFC 4585) is refused",
    [REFUSED_KEY_UNIT] = "a request for a key unit is refused: AVP has no feedback (RFC 4585)",
    [REFUSED_RETRANSMISSION] = "retransmission is refused: AVP has no feedback (RFC 4585)",
    [REFUSED_INTERVAL] = "rtcp-min-interval has no effect: the minimum is 5 seconds (RFC 3550, 6.2)",
    [REFUSED_DROPOUT] = "max-dropout-time has no effect: a gap of 3000 packets is a jump (RFC 3550, A.1)",
    [REFUSED_MISORDER] = "max-misorder-time has no effect: 100 packets are the limit (RFC 3550, A.1)",
    [REFUSED_NTP64] = "update-ntp64-header-ext has no effect: RTP packets go on as they came",
    [REFUSED_TIMEOUT] = "timeout-inactive-sources has no effect: silent sources time out (RFC 3550, 6.3.5)",
    [REFUSED_REDUCED_SIZE] = "rtcp-reduced-size is refused: a compound begins with a report (RFC 3550, 6.1)",
    [REFUSED_EARLY] = "send-rtcp: no report goes out before it is due (RFC 3550, 6.3)",
    [REFUSED_CLOCK] = "an SSRC keeps the clock rate that it began with, which its sender reports count by",
    [REFUSED_AUXILIARY] = "auxiliary streams are refused: retransmission needs feedback (RFC 4585)",
    [REFUSED_FEC] = "forward error correction is refused: it is no part of AVP",
    [REFUSED_STORAGE] = "get-storage, new-storage: there is none, as forward error correction is refused",
    [REFUSED_RTP_INFO] = "rtcp-sync=rtp-info is refused: streams are synchronized by sender reports",
    [REFUSED_BUFFER_MODE] = "buffer-mode=buffer is refused: it would need messages of buffering",
    [REFUSED_SYNC_EVENT] = "do-sync-event has no effect"};

void refusals_init(Refusals *refusals)
{
    g_mutex_init(&refusals->lock);
    refusals->waiting = g_ptr_array_new_with_free_func(g_free);
}

void refusals_clear(Refusals *refusals)
{
    g_ptr_array_unref(refusals->waiting);
    g_mutex_clear(&refusals->lock);
}

void refusals_add(Refusals *refusals, gchar *text)
{
    g_mutex_lock(&refusals->lock);
    g_ptr_array_add(refusals->waiting, text);
    g_mutex_unlock(&refusals->lock);
}

void refuse(gpointer element, Refusals *refusals, Refusal what)
{
    gboolean told;
    g_mutex_lock(&refusals->lock);
    told = refusals->told[what];
    refusals->told[what] = TRUE;
    g_mutex_unlock(&refusals->lock);
    if (told)
        return;
    refusals_add(refusals, g_strdup(texts[what]));
    refusals_post(element, refusals);
}

static GPtrArray *take_waiting(Refusals *refusals)
{
    GPtrArray *waiting;
    g_mutex_lock(&refusals->lock);
    waiting = refusals->waiting;
    refusals->waiting = g_ptr_array_new_with_free_func(g_free);
    g_mutex_unlock(&refusals->lock);
    return waiting;
}

void refusals_post(gpointer element, Refusals *refusals)
{
    GstBus *bus = gst_element_get_bus(element);
    GPtrArray *waiting;
    if (bus == NULL)
        return;
    gst_object_unref(bus);
    waiting = take_waiting(refusals);
    for (guint at = 0; at < waiting->len; at++)
        GST_ELEMENT_WARNING(element, LIBRARY, SETTINGS, ("%s", (gchar *)g_ptr_array_index(waiting, at)),
                            (NULL));
    g_ptr_array_unref(waiting);
}
