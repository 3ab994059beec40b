/* The streams of a session of jalweddbin: one for each source that sends, with a jitter buffer, and a pad of
 * the bin for each of its payload types. */
#include "bin.h"

static const gchar *const template = "recv_rtp_src_%u_%u_%u";
enum { ANY_TYPE = 255 }; /* in the name of a pad, with ignore-pt */

/* ---- What the elements of a stream tell */

static GstCaps *on_request_caps(GstElement *element, guint payload_type, BinStream *stream)
{
    return bin_ask_caps(stream->session, payload_type);
}

static GstPad *show(BinStream *stream, guint type, GstPad *target)
{
    gchar *name = g_strdup_printf(template, stream->session->id, stream->ssrc, type);
    GstPad *ghost = bin_pads_show(stream->session->bin, template, name, target);
    g_free(name);
    return ghost;
}

static gboolean is_stopping(JalweddBin *bin)
{
    gboolean stops;
    BIN_LOCK(bin);
    stops = bin->stops;
    BIN_UNLOCK(bin);
    return stops;
}

static void on_new_type(GstElement *demux, guint type, GstPad *pad, BinStream *stream)
{
    if (!is_stopping(stream->session->bin))
        g_object_set_data(G_OBJECT(pad), "jalwedd-ghost", show(stream, type, pad));
}

static void on_type_removed(GstElement *demux, GstPad *pad, BinStream *stream)
{
    GstPad *ghost = g_object_steal_data(G_OBJECT(pad), "jalwedd-ghost");
    if (ghost != NULL)
        bin_pads_hide(stream->session->bin, ghost);
}

static void on_type_change(GstElement *demux, guint type, BinStream *stream)
{
    bin_tell_type(stream, type);
}

static void on_sync(GstElement *buffer, GstStructure *sync, BinStream *stream)
{
    bin_sync_stream(stream, sync);
}

static void on_npt_stop(GstElement *buffer, BinStream *stream)
{
    bin_tell_end(stream);
}

/* ---- A stream */

static void connect_elements(BinStream *stream)
{
    g_signal_connect(stream->buffer, "request-pt-map", G_CALLBACK(on_request_caps), stream);
    g_signal_connect(stream->buffer, "handle-sync", G_CALLBACK(on_sync), stream);
    g_signal_connect(stream->buffer, "on-npt-stop", G_CALLBACK(on_npt_stop), stream);
    if (stream->type_demux == NULL)
        return;
    g_signal_connect(stream->type_demux, "request-pt-map", G_CALLBACK(on_request_caps), stream);
    g_signal_connect(stream->type_demux, "new-payload-type", G_CALLBACK(on_new_type), stream);
    g_signal_connect(stream->type_demux, "pad-removed", G_CALLBACK(on_type_removed), stream);
    g_signal_connect(stream->type_demux, "payload-type-change", G_CALLBACK(on_type_change), stream);
}

static GstElement *make_buffer(BinSession *session)
{
    GstElement *buffer = bin_ask_buffer(session);
    return buffer != NULL ? buffer : bin_add(session->bin, "rtpjitterbuffer");
}

static BinStream *stream_new(BinSession *session, guint32 ssrc)
{
    JalweddBin *bin = session->bin;
    GstElement *buffer = make_buffer(session);
    GstElement *demux = buffer != NULL && !bin->ignore_type ? bin_add(bin, "rtpptdemux") : NULL;
    BinStream *stream;
    if (buffer == NULL)
        return NULL;
    if (demux == NULL && !bin->ignore_type) {
        bin_drop(bin, buffer);
        return NULL;
    }
    stream = g_new0(BinStream, 1);
    stream->session = session;
    stream->ssrc = ssrc;
    stream->buffer = buffer;
    stream->type_demux = demux;
    bin_bind_buffer(bin, buffer);
    connect_elements(stream);
    return stream;
}

static void link_stream(BinStream *stream, GstPad *rtp)
{
    gchar *name = g_strdup_printf("rtcp_src_%u", stream->ssrc);
    GstPad *sink = gst_element_get_static_pad(stream->buffer, "sink");
    gst_element_link_pads_full(stream->session->ssrc_demux, name, stream->buffer, "sink_rtcp",
                               GST_PAD_LINK_CHECK_NOTHING);
    if (stream->type_demux != NULL) {
        gst_element_link_pads_full(stream->buffer, "src", stream->type_demux, "sink",
                                   GST_PAD_LINK_CHECK_NOTHING);
        gst_element_sync_state_with_parent(stream->type_demux);
    }
    gst_element_sync_state_with_parent(stream->buffer);
    gst_pad_link_full(rtp, sink, GST_PAD_LINK_CHECK_NOTHING);
    gst_object_unref(sink);
    g_free(name);
}

static void show_untyped(BinStream *stream)
{
    GstPad *src = gst_element_get_static_pad(stream->buffer, "src");
    stream->ghost = show(stream, ANY_TYPE, src);
    gst_object_unref(src);
}

static void stream_free(BinStream *stream)
{
    JalweddBin *bin = stream->session->bin;
    if (stream->ghost != NULL)
        bin_pads_hide(bin, stream->ghost);
    bin_drop(bin, stream->buffer);
    if (stream->type_demux != NULL)
        bin_drop(bin, stream->type_demux);
    g_free(stream->cname);
    g_free(stream);
}

/* ---- The streams of a session */

static BinStream *find(BinSession *session, guint32 ssrc)
{
    for (GList *at = session->streams; at != NULL; at = at->next)
        if (((BinStream *)at->data)->ssrc == ssrc)
            return at->data;
    return NULL;
}

/* The caps of a payload type that upstream tells need not be asked for. */
static void on_caps(GstPad *pad, GParamSpec *spec, BinSession *session)
{
    GstCaps *caps = gst_pad_get_current_caps(pad);
    gint type;
    if (caps == NULL)
        return;
    if (gst_structure_get_int(gst_caps_get_structure(caps, 0), "payload", &type)) {
        BIN_LOCK(session->bin);
        g_hash_table_replace(session->caps, GINT_TO_POINTER(type), gst_caps_ref(caps));
        BIN_UNLOCK(session->bin);
    }
    gst_caps_unref(caps);
}

static void on_new_ssrc(GstElement *demux, guint ssrc, GstPad *pad, BinSession *session)
{
    BinStream *stream = is_stopping(session->bin) ? NULL : stream_new(session, ssrc);
    if (stream == NULL)
        return;
    BIN_LOCK(session->bin);
    session->streams = g_list_prepend(session->streams, stream);
    BIN_UNLOCK(session->bin);
    g_signal_connect(pad, "notify::caps", G_CALLBACK(on_caps), session);
    on_caps(pad, NULL, session);
    bin_tell_buffer(stream);
    link_stream(stream, pad);
    if (stream->type_demux == NULL)
        show_untyped(stream);
}

static void on_ssrc_removed(GstElement *demux, guint ssrc, GstPad *pad, BinSession *session)
{
    BinStream *stream;
    BIN_LOCK(session->bin);
    stream = find(session, ssrc);
    session->streams = g_list_remove(session->streams, stream);
    BIN_UNLOCK(session->bin);
    if (stream != NULL)
        stream_free(stream);
}

void bin_streams_connect(BinSession *session)
{
    g_signal_connect(session->ssrc_demux, "new-ssrc-pad", G_CALLBACK(on_new_ssrc), session);
    g_signal_connect(session->ssrc_demux, "removed-ssrc-pad", G_CALLBACK(on_ssrc_removed), session);
}

void bin_streams_free(BinSession *session)
{
    GList *streams;
    BIN_LOCK(session->bin);
    streams = session->streams;
    session->streams = NULL;
    BIN_UNLOCK(session->bin);
    g_list_free_full(streams, (GDestroyNotify)stream_free);
}

/* Asks for the caps of payload types again. */
void bin_streams_clear_caps(BinSession *session)
{
    BIN_LOCK(session->bin);
    g_hash_table_remove_all(session->caps);
    for (GList *at = session->streams; at != NULL; at = at->next) {
        BinStream *stream = at->data;
        g_signal_emit_by_name(stream->buffer, "clear-pt-map");
        if (stream->type_demux != NULL)
            g_signal_emit_by_name(stream->type_demux, "clear-pt-map");
    }
    BIN_UNLOCK(session->bin);
    g_signal_emit_by_name(session->element, "clear-pt-map");
}
