/* The element jalweddbin, which stands where GStreamer's rtpbin stands (bin.h).
 *
 * Each session has the pads of its number: recv_rtp_sink_%u, recv_rtcp_sink_%u, send_rtp_sink_%u,
 * send_rtp_src_%u and send_rtcp_src_%u. A stream that comes has a pad recv_rtp_src_%u_%u_%u, of its session,
 * SSRC and payload type, after GStreamer's jitter buffer. The streams of one CNAME, in all sessions, play in
 * sync by their sender reports. */
#include "bin.h"

G_DEFINE_FINAL_TYPE(JalweddBin, jalwedd_bin, GST_TYPE_BIN)

static void set_stops(JalweddBin *bin, gboolean stops)
{
    BIN_LOCK(bin);
    bin->stops = stops;
    BIN_UNLOCK(bin);
}

static GstStateChangeReturn change_state(GstElement *element, GstStateChange change)
{
    JalweddBin *bin = JALWEDD_BIN(element);
    if (change == GST_STATE_CHANGE_READY_TO_PAUSED) {
        set_stops(bin, FALSE);
        refusals_post(bin, &bin->refusals);
    }
    if (change == GST_STATE_CHANGE_PAUSED_TO_READY)
        set_stops(bin, TRUE);
    return GST_ELEMENT_CLASS(jalwedd_bin_parent_class)->change_state(element, change);
}

/* The number of the session whose element sent a message, or -1. */
static gint session_of(JalweddBin *bin, GstObject *element)
{
    gint id = -1;
    BIN_LOCK(bin);
    for (GList *at = bin->sessions; at != NULL; at = at->next)
        if ((GstObject *)((BinSession *)at->data)->element == element)
            id = (gint)((BinSession *)at->data)->id;
    BIN_UNLOCK(bin);
    return id;
}

/* The items of a source get the number of its session. */
static void handle_message(GstBin *parent, GstMessage *message)
{
    const GstStructure *structure = gst_message_get_structure(message);
    if (GST_MESSAGE_TYPE(message) == GST_MESSAGE_ELEMENT && structure != NULL &&
        gst_structure_has_name(structure, "application/x-rtp-source-sdes")) {
        const gint id = session_of(JALWEDD_BIN(parent), GST_MESSAGE_SRC(message));
        message = gst_message_make_writable(message);
        if (id >= 0)
            gst_structure_set(gst_message_writable_structure(message), "session", G_TYPE_UINT, (guint)id,
                              NULL);
    }
    GST_BIN_CLASS(jalwedd_bin_parent_class)->handle_message(parent, message);
}

static void close_session(BinSession *session)
{
    for (guint kind = 0; kind < PAD_KINDS; kind++)
        bin_pads_remove(session, kind);
    bin_session_free(session);
}

static void dispose(GObject *object)
{
    JalweddBin *bin = JALWEDD_BIN(object);
    while (bin->sessions != NULL)
        close_session(bin->sessions->data);
    G_OBJECT_CLASS(jalwedd_bin_parent_class)->dispose(object);
}

static void finalize(GObject *object)
{
    JalweddBin *bin = JALWEDD_BIN(object);
    gst_clear_structure(&bin->sdes);
    refusals_clear(&bin->refusals);
    g_mutex_clear(&bin->lock);
    G_OBJECT_CLASS(jalwedd_bin_parent_class)->finalize(object);
}

static void jalwedd_bin_init(JalweddBin *bin)
{
    g_mutex_init(&bin->lock);
    refusals_init(&bin->refusals);
    bin_properties_init(bin);
    GST_OBJECT_FLAG_SET(bin, GST_BIN_FLAG_STREAMS_AWARE);
}

static void jalwedd_bin_class_init(JalweddBinClass *class)
{
    GstElementClass *element_class = GST_ELEMENT_CLASS(class);
    G_OBJECT_CLASS(class)->dispose = dispose;
    G_OBJECT_CLASS(class)->finalize = finalize;
    element_class->change_state = change_state;
    element_class->request_new_pad = bin_pads_request;
    element_class->release_pad = bin_pads_release;
    GST_BIN_CLASS(class)->handle_message = handle_message;
    bin_properties_install(G_OBJECT_CLASS(class));
    bin_signals_install(G_TYPE_FROM_CLASS(class));
    bin_pads_install(element_class);
    gst_element_class_set_static_metadata(
        element_class, "RTP bin with proved RTCP", "Filter/Network/RTP",
        "RTP sessions (AVP) with jitter buffers and synchronized streams, whose RTCP "
        "comes from a library proved to follow RFC 3550; stands where rtpbin stands",
        "Jalwedd maintainers <maintainers@jalwedd.invalid>");
}
