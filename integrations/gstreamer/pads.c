/* The pads of jalweddsession, which are those of rtpsession. */
#include "session.h"

static GstStaticPadTemplate templates[] = {
    GST_STATIC_PAD_TEMPLATE("recv_rtp_sink", GST_PAD_SINK, GST_PAD_REQUEST,
                            GST_STATIC_CAPS("application/x-rtp")),
    GST_STATIC_PAD_TEMPLATE("recv_rtcp_sink", GST_PAD_SINK, GST_PAD_REQUEST,
                            GST_STATIC_CAPS("application/x-rtcp")),
    GST_STATIC_PAD_TEMPLATE("send_rtp_sink", GST_PAD_SINK, GST_PAD_REQUEST,
                            GST_STATIC_CAPS("application/x-rtp")),
    GST_STATIC_PAD_TEMPLATE("recv_rtp_src", GST_PAD_SRC, GST_PAD_SOMETIMES,
                            GST_STATIC_CAPS("application/x-rtp")),
    GST_STATIC_PAD_TEMPLATE("sync_src", GST_PAD_SRC, GST_PAD_SOMETIMES,
                            GST_STATIC_CAPS("application/x-rtcp")),
    GST_STATIC_PAD_TEMPLATE("send_rtp_src", GST_PAD_SRC, GST_PAD_SOMETIMES,
                            GST_STATIC_CAPS("application/x-rtp")),
    GST_STATIC_PAD_TEMPLATE("send_rtcp_src", GST_PAD_SRC, GST_PAD_REQUEST,
                            GST_STATIC_CAPS("application/x-rtcp"))};
enum { RECV_RTP_SINK, RECV_RTCP_SINK, SEND_RTP_SINK, RECV_RTP_SRC, SYNC_SRC, SEND_RTP_SRC, SEND_RTCP_SRC };

void pads_install(GstElementClass *class)
{
    for (guint at = 0; at < G_N_ELEMENTS(templates); at++)
        gst_element_class_add_static_pad_template(class, &templates[at]);
}

GstPad *pads_ref(JalweddSession *self, GstPad **at)
{
    GstPad *pad;
    LOCK(self);
    pad = *at != NULL ? gst_object_ref(*at) : NULL;
    UNLOCK(self);
    return pad;
}

/* ---- Links within the element */

/* The pad that a pad passes on to, or that passes on to it. With the lock. */
static GstPad *other_side(JalweddSession *self, GstPad *pad)
{
    if (pad == self->recv_rtp_src)
        return self->recv_rtp_sink;
    if (pad == self->recv_rtp_sink)
        return self->recv_rtp_src;
    if (pad == self->send_rtp_src)
        return self->send_rtp_sink;
    return pad == self->send_rtp_sink ? self->send_rtp_src : NULL;
}

static GstIterator *internal_links(GstPad *pad, GstObject *parent)
{
    JalweddSession *self = JALWEDD_SESSION(parent);
    GValue value = G_VALUE_INIT;
    GstIterator *result;
    GstPad *other;
    LOCK(self);
    other = other_side(self, pad);
    if (other != NULL)
        gst_object_ref(other);
    UNLOCK(self);
    if (other == NULL)
        return gst_iterator_new_single(GST_TYPE_PAD, NULL);
    g_value_init(&value, GST_TYPE_PAD);
    g_value_take_object(&value, other);
    result = gst_iterator_new_single(GST_TYPE_PAD, &value);
    g_value_unset(&value);
    return result;
}

/* ---- Adding */

static GstPad *new_pad(guint template, GstPadEventFunction event)
{
    GstPad *pad = gst_pad_new_from_static_template(&templates[template], templates[template].name_template);
    gst_pad_set_iterate_internal_links_function(pad, internal_links);
    if (event != NULL)
        gst_pad_set_event_function(pad, event);
    return pad;
}

static GstPad *show(JalweddSession *self, GstPad **at, GstPad *pad)
{
    LOCK(self);
    *at = pad;
    UNLOCK(self);
    gst_pad_set_active(pad, TRUE);
    gst_element_add_pad(GST_ELEMENT(self), pad);
    return pad;
}

static GstPad *add_recv_rtp(JalweddSession *self)
{
    GstPad *sink = new_pad(RECV_RTP_SINK, event_recv_rtp_sink);
    GstPad *src = new_pad(RECV_RTP_SRC, event_recv_rtp_src);
    gst_pad_set_chain_function(sink, chain_recv_rtp);
    gst_pad_set_chain_list_function(sink, chain_recv_rtp_list);
    GST_PAD_SET_PROXY_ALLOCATION(sink);
    gst_pad_use_fixed_caps(src);
    show(self, &self->recv_rtp_sink, sink);
    show(self, &self->recv_rtp_src, src);
    return sink;
}

static GstPad *add_recv_rtcp(JalweddSession *self)
{
    GstPad *sink = new_pad(RECV_RTCP_SINK, event_recv_rtcp_sink);
    GstPad *src = new_pad(SYNC_SRC, NULL);
    gst_pad_set_chain_function(sink, chain_recv_rtcp);
    gst_pad_use_fixed_caps(src);
    show(self, &self->recv_rtcp_sink, sink);
    show(self, &self->sync_src, src);
    return sink;
}

static GstPad *add_send_rtp(JalweddSession *self)
{
    GstPad *sink = new_pad(SEND_RTP_SINK, event_send_rtp_sink);
    GstPad *src = new_pad(SEND_RTP_SRC, event_send_rtp_src);
    gst_pad_set_chain_function(sink, chain_send_rtp);
    gst_pad_set_chain_list_function(sink, chain_send_rtp_list);
    gst_pad_set_query_function(sink, query_send_rtp_sink);
    GST_PAD_SET_PROXY_CAPS(sink);
    GST_PAD_SET_PROXY_ALLOCATION(sink);
    GST_PAD_SET_PROXY_CAPS(src);
    show(self, &self->send_rtp_sink, sink);
    show(self, &self->send_rtp_src, src);
    return sink;
}

static GstPad *add_send_rtcp(JalweddSession *self)
{
    GstPad *src = new_pad(SEND_RTCP_SRC, event_send_rtcp_src);
    gst_pad_set_query_function(src, query_send_rtcp_src);
    gst_pad_use_fixed_caps(src);
    return show(self, &self->send_rtcp_src, src);
}

GstPad *pads_request(GstElement *element, GstPadTemplate *templ, const gchar *name, const GstCaps *caps)
{
    JalweddSession *self = JALWEDD_SESSION(element);
    const gchar *wanted = GST_PAD_TEMPLATE_NAME_TEMPLATE(templ);
    if (g_str_equal(wanted, "recv_rtp_sink") && self->recv_rtp_sink == NULL)
        return add_recv_rtp(self);
    if (g_str_equal(wanted, "recv_rtcp_sink") && self->recv_rtcp_sink == NULL)
        return add_recv_rtcp(self);
    if (g_str_equal(wanted, "send_rtp_sink") && self->send_rtp_sink == NULL)
        return add_send_rtp(self);
    if (g_str_equal(wanted, "send_rtcp_src") && self->send_rtcp_src == NULL)
        return add_send_rtcp(self);
    g_warning("jalweddsession: the pad %s was requested already", wanted);
    return NULL;
}

/* ---- Removing */

static void hide(JalweddSession *self, GstPad **at)
{
    GstPad *pad;
    LOCK(self);
    pad = *at;
    *at = NULL;
    UNLOCK(self);
    if (pad == NULL)
        return;
    gst_pad_set_active(pad, FALSE);
    gst_element_remove_pad(GST_ELEMENT(self), pad);
}

void pads_release(GstElement *element, GstPad *pad)
{
    JalweddSession *self = JALWEDD_SESSION(element);
    if (pad == self->recv_rtp_sink) {
        hide(self, &self->recv_rtp_src);
        hide(self, &self->recv_rtp_sink);
    } else if (pad == self->recv_rtcp_sink) {
        hide(self, &self->sync_src);
        hide(self, &self->recv_rtcp_sink);
    } else if (pad == self->send_rtp_sink) {
        hide(self, &self->send_rtp_src);
        hide(self, &self->send_rtp_sink);
    } else if (pad == self->send_rtcp_src)
        hide(self, &self->send_rtcp_src);
    else
        g_warning("jalweddsession: asked to release a pad of another element");
}
