/* Streams of one CNAME play in sync. A sender report gives a moment by two clocks: by NTP, which the streams
 * of a sender share, and by RTP timestamps, of which the jitter buffer knows the running time. The stream
 * whose running time is the latest for one NTP time keeps it, and the others are delayed to fit. */
#include "bin.h"
#include "session.h"

#define NTP_OF_1970 (G_GINT64_CONSTANT(2208988800) * GST_SECOND)

/* What a sync of the jitter buffer says. FALSE if it lacks something. */
static gboolean read_delta(const GstStructure *sync, gint64 *delta)
{
    guint64 base_rtp, base_time, rtp, ntp;
    guint rate;
    if (!gst_structure_get_uint64(sync, "base-rtptime", &base_rtp) ||
        !gst_structure_get_uint64(sync, "base-time", &base_time) ||
        !gst_structure_get_uint(sync, "clock-rate", &rate) ||
        !gst_structure_get_uint64(sync, "sr-ext-rtptime", &rtp) ||
        !gst_structure_get_uint64(sync, "sr-ntpnstime", &ntp))
        return FALSE;
    if (rate == 0 || rtp == G_MAXUINT64 || ntp == G_MAXUINT64 || rtp < base_rtp)
        return FALSE;
    *delta = (gint64)(base_time + gst_util_uint64_scale(rtp - base_rtp, GST_SECOND, rate)) - (gint64)ntp;
    return TRUE;
}

/* What ntp-time-source names, at a time of the pipeline's clock, in nanoseconds. */
static gint64 ntp_time(JalweddBin *bin, GstClockTime now, GstClockTime base)
{
    const gint64 of_day = g_get_real_time() * 1000;
    if (bin->pipeline_clock)
        return (gint64)(now - base) + NTP_OF_1970;
    switch (bin->time_source) {
    case TIME_UNIX: return of_day;
    case TIME_RUNNING: return (gint64)(now - base);
    case TIME_CLOCK: return (gint64)now;
    default: return of_day + NTP_OF_1970;
    }
}

/* The running time less the NTP time of this host now, for ntp-sync. */
static gint64 delta_of_now(JalweddBin *bin, gint64 otherwise)
{
    GstClock *clock = gst_element_get_clock(GST_ELEMENT(bin));
    const GstClockTime base = gst_element_get_base_time(GST_ELEMENT(bin));
    GstClockTime now;
    if (clock == NULL)
        return otherwise;
    now = gst_clock_get_time(clock);
    gst_object_unref(clock);
    return (gint64)(now - base) - ntp_time(bin, now, base);
}

/* Puts the streams of a session that have this CNAME, or all of them, before `found`. With the lock. */
static GList *add_streams(GList *found, const BinSession *session, const gchar *cname)
{
    for (GList *at = session->streams; at != NULL; at = at->next)
        if (cname == NULL || g_strcmp0(((BinStream *)at->data)->cname, cname) == 0)
            found = g_list_prepend(found, at->data);
    return found;
}

/* The streams of a CNAME in all sessions, or all streams. With the lock. */
static GList *streams_of(JalweddBin *bin, const gchar *cname)
{
    GList *found = NULL;
    for (GList *at = bin->sessions; at != NULL; at = at->next)
        found = add_streams(found, at->data, cname);
    return found;
}

static gint64 latest_delta(GList *streams)
{
    gint64 latest = G_MININT64;
    for (GList *at = streams; at != NULL; at = at->next)
        latest = MAX(latest, ((BinStream *)at->data)->delta);
    return latest;
}

/* Gives the buffer of a stream its offset, if it differs by enough, and is not beyond reason. */
static void set_offset(JalweddBin *bin, BinStream *stream, gint64 offset)
{
    const gint64 change = offset - stream->offset;
    if (bin->smoothing > 0)
        offset = stream->offset + change / bin->smoothing;
    if ((guint64)ABS(change) < bin->min_offset && !bin->ntp_sync)
        return;
    if (bin->max_offset > 0 && ABS(offset) > bin->max_offset && !bin->ntp_sync) {
        GST_WARNING_OBJECT(bin, "%08x: an offset of %" G_GINT64_FORMAT " ns is beyond max-ts-offset",
                           stream->ssrc, offset);
        return;
    }
    GST_DEBUG_OBJECT(bin, "%08x of %s: offset %" G_GINT64_FORMAT " ns", stream->ssrc, stream->cname, offset);
    stream->offset = offset;
    g_object_set(stream->buffer, "ts-offset", offset, NULL);
}

/* Whether a stream is to be synchronized now. With the lock. */
static gboolean is_due(JalweddBin *bin, const BinStream *stream, gint64 now)
{
    if (stream->synced == 0)
        return TRUE;
    return bin->rtcp_sync == SYNC_ALWAYS &&
           now >= stream->synced + bin->sync_interval * G_GINT64_CONSTANT(1000);
}

void bin_sync_stream(BinStream *stream, const GstStructure *sync)
{
    JalweddBin *bin = stream->session->bin;
    const gchar *cname = gst_structure_get_string(sync, "cname");
    const gint64 now = g_get_monotonic_time();
    GList *streams = NULL;
    gint64 delta, target;
    if (cname == NULL || !read_delta(sync, &delta))
        return;
    BIN_LOCK(bin);
    if (is_due(bin, stream, now)) {
        g_free(stream->cname);
        stream->cname = g_strdup(cname);
        stream->delta = delta;
        stream->synced = now;
        streams = streams_of(bin, cname);
    }
    target = bin->ntp_sync ? delta_of_now(bin, delta) : latest_delta(streams);
    for (GList *at = streams; at != NULL; at = at->next)
        set_offset(bin, at->data, target - ((BinStream *)at->data)->delta);
    BIN_UNLOCK(bin);
    g_list_free(streams);
}

void bin_sync_reset(JalweddBin *bin)
{
    GList *streams;
    BIN_LOCK(bin);
    streams = streams_of(bin, NULL);
    for (GList *at = streams; at != NULL; at = at->next)
        ((BinStream *)at->data)->synced = 0;
    BIN_UNLOCK(bin);
    g_list_free(streams);
}
