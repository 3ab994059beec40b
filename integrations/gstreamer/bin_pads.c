/* The pads of jalweddbin, by rtpbin's names. */
#include "bin.h"

#include <string.h>

#define RTP GST_STATIC_CAPS("application/x-rtp; application/x-srtp")
#define RTCP GST_STATIC_CAPS("application/x-rtcp; application/x-srtcp")

static GstStaticPadTemplate templates[] = {
    GST_STATIC_PAD_TEMPLATE("recv_rtp_sink_%u", GST_PAD_SINK, GST_PAD_REQUEST, RTP),
    GST_STATIC_PAD_TEMPLATE("recv_rtcp_sink_%u", GST_PAD_SINK, GST_PAD_REQUEST, RTCP),
    GST_STATIC_PAD_TEMPLATE("send_rtp_sink_%u", GST_PAD_SINK, GST_PAD_REQUEST,
                            GST_STATIC_CAPS("application/x-rtp")),
    GST_STATIC_PAD_TEMPLATE("send_rtcp_src_%u", GST_PAD_SRC, GST_PAD_REQUEST, RTCP),
    GST_STATIC_PAD_TEMPLATE("send_rtp_src_%u", GST_PAD_SRC, GST_PAD_SOMETIMES, RTP),
    GST_STATIC_PAD_TEMPLATE("recv_rtp_src_%u_%u_%u", GST_PAD_SRC, GST_PAD_SOMETIMES,
                            GST_STATIC_CAPS("application/x-rtp"))};

/* The pads of a session's element, and those of an application's coder: toward the bin's pad, and the
 * element. */
static const struct {
    const gchar *element, *coder_outside, *coder_inside;
} names[PAD_KINDS] = {[RECV_RTP] = {"recv_rtp_sink", "rtp_sink", "rtp_src"},
                      [RECV_RTCP] = {"recv_rtcp_sink", "rtcp_sink", "rtcp_src"},
                      [SEND_RTP] = {"send_rtp_sink", "rtp_src_%u", "rtp_sink_%u"},
                      [SEND_RTCP] = {"send_rtcp_src", "rtcp_src_%u", "rtcp_sink_%u"}};

void bin_pads_install(GstElementClass *class)
{
    for (guint at = 0; at < G_N_ELEMENTS(templates); at++)
        gst_element_class_add_static_pad_template(class, &templates[at]);
}

/* ---- Ghost pads */

static gboolean copy_event(GstPad *pad, GstEvent **event, gpointer ghost)
{
    gst_pad_store_sticky_event(ghost, *event);
    return TRUE;
}

GstPad *bin_pads_show(JalweddBin *bin, const gchar *template, const gchar *name, GstPad *target)
{
    GstPadTemplate *templ = gst_element_class_get_pad_template(GST_ELEMENT_GET_CLASS(bin), template);
    GstPad *ghost = gst_ghost_pad_new_from_template(name, target, templ);
    gst_pad_set_active(ghost, TRUE);
    if (GST_PAD_IS_SRC(ghost))
        gst_pad_sticky_events_foreach(target, copy_event, ghost);
    gst_element_add_pad(GST_ELEMENT(bin), ghost);
    return ghost;
}

void bin_pads_hide(JalweddBin *bin, GstPad *ghost)
{
    gst_pad_set_active(ghost, FALSE);
    gst_ghost_pad_set_target(GST_GHOST_PAD(ghost), NULL);
    gst_element_remove_pad(GST_ELEMENT(bin), ghost);
}

/* ---- Coders: an application's elements for SRTP */

static GstPad *coder_pad(BinSession *session, GstElement *coder, const gchar *format)
{
    gchar *name = g_strdup_printf(format, session->id);
    GstPad *pad = gst_element_get_static_pad(coder, name);
    if (pad == NULL)
        pad = gst_element_request_pad_simple(coder, name);
    g_free(name);
    return pad;
}

static gboolean link_pads(GstPad *one, GstPad *other)
{
    return GST_PAD_IS_SRC(one) ? GST_PAD_LINK_SUCCESSFUL(gst_pad_link(one, other))
                               : GST_PAD_LINK_SUCCESSFUL(gst_pad_link(other, one));
}

/* What a pad of the bin leads to: `inner`, or the coder that is put between. Takes and gives a reference. */
static GstPad *behind_coder(BinSession *session, PadKind kind, GstPad *inner)
{
    GstElement *coder = bin_ask_coder(session, kind);
    GstPad *inside, *outside;
    if (coder == NULL)
        return inner;
    session->coders[kind] = coder;
    inside = coder_pad(session, coder, names[kind].coder_inside);
    outside = coder_pad(session, coder, names[kind].coder_outside);
    if (inside == NULL || outside == NULL || !link_pads(inside, inner))
        GST_ELEMENT_ERROR(session->bin, CORE, PAD, ("no pad to link of %s", GST_OBJECT_NAME(coder)), (NULL));
    gst_clear_object(&inside);
    if (outside == NULL)
        return inner;
    gst_object_unref(inner);
    return outside;
}

static gboolean is_used(JalweddBin *bin, GstElement *coder)
{
    gboolean used = FALSE;
    BIN_LOCK(bin);
    for (GList *at = bin->sessions; at != NULL; at = at->next) {
        BinSession *session = at->data;
        used |= session->coders[RECV_RTP] == coder || session->coders[RECV_RTCP] == coder;
        used |= session->coders[SEND_RTP] == coder || session->coders[SEND_RTCP] == coder;
    }
    BIN_UNLOCK(bin);
    return used;
}

static void drop_coder(BinSession *session, PadKind kind)
{
    GstElement *coder = session->coders[kind];
    session->coders[kind] = NULL;
    if (coder != NULL && !is_used(session->bin, coder))
        bin_drop(session->bin, coder);
}

/* ---- Adding */

static void link_demux(BinSession *session, const gchar *src, const gchar *sink)
{
    gst_element_link_pads_full(session->element, src, session->ssrc_demux, sink, GST_PAD_LINK_CHECK_NOTHING);
}

/* The RTP that goes out: the coder is after the element, and the pad of the bin that leads there is another
 * one. */
static void show_send_rtp_src(BinSession *session)
{
    GstPad *target = gst_element_get_static_pad(session->element, "send_rtp_src");
    gchar *name = g_strdup_printf("send_rtp_src_%u", session->id);
    target = behind_coder(session, SEND_RTP, target);
    session->send_rtp_src = bin_pads_show(session->bin, "send_rtp_src_%u", name, target);
    gst_object_unref(target);
    g_free(name);
}

static GstPad *add(BinSession *session, PadKind kind, GstPadTemplate *templ)
{
    gchar *name = g_strdup_printf(GST_PAD_TEMPLATE_NAME_TEMPLATE(templ), session->id);
    GstPad *target;
    session->inner[kind] = gst_element_request_pad_simple(session->element, names[kind].element);
    target = gst_object_ref(session->inner[kind]);
    if (kind == RECV_RTP)
        link_demux(session, "recv_rtp_src", "sink");
    if (kind == RECV_RTCP)
        link_demux(session, "sync_src", "rtcp_sink");
    if (kind == SEND_RTP)
        show_send_rtp_src(session);
    else
        target = behind_coder(session, kind, target);
    session->ghosts[kind] = bin_pads_show(session->bin, GST_PAD_TEMPLATE_NAME_TEMPLATE(templ), name, target);
    gst_object_unref(target);
    g_free(name);
    return session->ghosts[kind];
}

static PadKind kind_of(GstPadTemplate *templ)
{
    guint at = 0;
    while (at < PAD_KINDS &&
           !g_str_equal(templates[at].name_template, GST_PAD_TEMPLATE_NAME_TEMPLATE(templ)))
        at++;
    return at;
}

/* The number that a pad's name ends in, or the first one that no pad of this kind has. */
static guint id_of(JalweddBin *bin, PadKind kind, const gchar *name)
{
    const gchar *number = name != NULL ? strrchr(name, '_') + 1 : "%u";
    guint id = 0;
    BinSession *session;
    if (g_ascii_isdigit(number[0]))
        return (guint)g_ascii_strtoull(number, NULL, 10);
    BIN_LOCK(bin);
    while ((session = bin_session_find(bin, id)) != NULL && session->ghosts[kind] != NULL)
        id++;
    BIN_UNLOCK(bin);
    return id;
}

GstPad *bin_pads_request(GstElement *element, GstPadTemplate *templ, const gchar *name, const GstCaps *caps)
{
    JalweddBin *bin = JALWEDD_BIN(element);
    const PadKind kind = kind_of(templ);
    BinSession *session;
    if (kind == PAD_KINDS)
        return NULL;
    session = bin_session_ensure(bin, id_of(bin, kind, name));
    if (session == NULL)
        return NULL;
    if (session->ghosts[kind] == NULL)
        return add(session, kind, templ);
    g_warning("jalweddbin: the pad %s was requested already", name);
    return NULL;
}

/* ---- Removing */

void bin_pads_remove(BinSession *session, PadKind kind)
{
    if (session->ghosts[kind] == NULL)
        return;
    bin_pads_hide(session->bin, session->ghosts[kind]);
    session->ghosts[kind] = NULL;
    if (kind == SEND_RTP) {
        bin_pads_hide(session->bin, session->send_rtp_src);
        session->send_rtp_src = NULL;
    }
    if (kind == RECV_RTP)
        bin_streams_free(session);
    gst_element_release_request_pad(session->element, session->inner[kind]);
    gst_clear_object(&session->inner[kind]);
    drop_coder(session, kind);
}

static gboolean has_pads(const BinSession *session)
{
    gboolean has = FALSE;
    for (guint kind = 0; kind < PAD_KINDS; kind++)
        has |= session->ghosts[kind] != NULL;
    return has;
}

/* What a pad of the bin is to a session, or PAD_KINDS. */
static PadKind kind_in(const BinSession *session, GstPad *pad)
{
    guint kind = 0;
    while (kind < PAD_KINDS && session->ghosts[kind] != pad)
        kind++;
    return kind;
}

/* The session that has this pad, or NULL. */
static BinSession *session_of(JalweddBin *bin, GstPad *pad)
{
    BinSession *found = NULL;
    BIN_LOCK(bin);
    for (GList *at = bin->sessions; at != NULL; at = at->next)
        if (kind_in(at->data, pad) != PAD_KINDS)
            found = at->data;
    BIN_UNLOCK(bin);
    return found;
}

void bin_pads_release(GstElement *element, GstPad *pad)
{
    JalweddBin *bin = JALWEDD_BIN(element);
    BinSession *session = session_of(bin, pad);
    if (session == NULL) {
        g_warning("jalweddbin: asked to release a pad of another element");
        return;
    }
    bin_pads_remove(session, kind_in(session, pad));
    if (!has_pads(session))
        bin_session_free(session);
}
