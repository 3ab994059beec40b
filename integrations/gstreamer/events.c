/* The events and queries of the pads of jalweddsession. */
#include "session.h"

/* Pushes the event on to the pad, if that is there. Takes the event. */
static gboolean pass_on(JalweddSession *self, GstPad **at, GstEvent *event)
{
    GstPad *pad = pads_ref(self, at);
    gboolean result;
    if (pad == NULL) {
        gst_event_unref(event);
        return FALSE;
    }
    result = gst_pad_push_event(pad, event);
    gst_object_unref(pad);
    return result;
}

static void learn(JalweddSession *self, GstEvent *event, gboolean sends)
{
    GstCaps *caps;
    gst_event_parse_caps(event, &caps);
    clock_rates_learn(self, caps, sends);
}

/* ---- Receiving */

gboolean event_recv_rtp_sink(GstPad *pad, GstObject *parent, GstEvent *event)
{
    JalweddSession *self = JALWEDD_SESSION(parent);
    const gboolean ends = GST_EVENT_TYPE(event) == GST_EVENT_EOS;
    gboolean result, sends;
    if (GST_EVENT_TYPE(event) == GST_EVENT_CAPS)
        learn(self, event, FALSE);
    result = pass_on(self, &self->recv_rtp_src, event);
    if (!ends)
        return result;
    LOCK(self);
    sends = self->send_rtp_sink != NULL && !self->send_ended;
    UNLOCK(self);
    if (!sends) /* nothing comes any more, and nothing is sent */
        ticks_leave(self);
    return result;
}

/* Requests that only feedback could answer are refused, and go on to elements that may answer them
 * otherwise. */
gboolean event_recv_rtp_src(GstPad *pad, GstObject *parent, GstEvent *event)
{
    JalweddSession *self = JALWEDD_SESSION(parent);
    if (gst_event_has_name(event, "GstForceKeyUnit"))
        refuse(self, &self->refusals, REFUSED_KEY_UNIT);
    else if (gst_event_has_name(event, "GstRTPRetransmissionRequest"))
        refuse(self, &self->refusals, REFUSED_RETRANSMISSION);
    return pass_on(self, &self->recv_rtp_sink, event);
}

gboolean event_recv_rtcp_sink(GstPad *pad, GstObject *parent, GstEvent *event)
{
    JalweddSession *self = JALWEDD_SESSION(parent);
    GstPad *sync = pads_ref(self, &self->sync_src);
    if (sync != NULL && GST_EVENT_TYPE(event) == GST_EVENT_SEGMENT && !gst_pad_has_current_caps(sync)) {
        GstCaps *caps = gst_caps_new_empty_simple("application/x-rtcp");
        gst_pad_set_caps(sync, caps);
        gst_caps_unref(caps);
    }
    gst_clear_object(&sync);
    return pass_on(self, &self->sync_src, event);
}

/* ---- Sending */

/* After an end another stream may begin. */
static void begin_stream(JalweddSession *self)
{
    LOCK(self);
    if (self->finished)
        self->leaves = self->finished = FALSE;
    self->send_ended = FALSE;
    UNLOCK(self);
}

static gboolean end_stream(JalweddSession *self, GstEvent *event)
{
    const gboolean result = pass_on(self, &self->send_rtp_src, event);
    LOCK(self);
    self->send_ended = TRUE;
    UNLOCK(self);
    ticks_leave(self);
    return result;
}

gboolean event_send_rtp_sink(GstPad *pad, GstObject *parent, GstEvent *event)
{
    JalweddSession *self = JALWEDD_SESSION(parent);
    switch (GST_EVENT_TYPE(event)) {
    case GST_EVENT_EOS: return end_stream(self, event);
    case GST_EVENT_CAPS: learn(self, event, TRUE); break;
    case GST_EVENT_SEGMENT: gst_event_copy_segment(event, &self->send_segment); break;
    case GST_EVENT_FLUSH_STOP: gst_segment_init(&self->send_segment, GST_FORMAT_UNDEFINED); break;
    case GST_EVENT_STREAM_START: begin_stream(self); break;
    default: break;
    }
    return pass_on(self, &self->send_rtp_src, event);
}

gboolean event_send_rtp_src(GstPad *pad, GstObject *parent, GstEvent *event)
{
    if (GST_EVENT_TYPE(event) == GST_EVENT_LATENCY)
        gst_event_parse_latency(event, &JALWEDD_SESSION(parent)->latency);
    return gst_pad_event_default(pad, parent, event);
}

gboolean event_send_rtcp_src(GstPad *pad, GstObject *parent, GstEvent *event)
{
    const gboolean result =
        GST_EVENT_TYPE(event) == GST_EVENT_SEEK || GST_EVENT_TYPE(event) == GST_EVENT_LATENCY;
    gst_event_unref(event);
    return result;
}

/* RTCP goes out when it is due, and is not to be held back by a latency. */
gboolean query_send_rtcp_src(GstPad *pad, GstObject *parent, GstQuery *query)
{
    if (GST_QUERY_TYPE(query) != GST_QUERY_LATENCY)
        return FALSE;
    gst_query_set_latency(query, FALSE, 0, GST_CLOCK_TIME_NONE);
    return TRUE;
}

/* The caps with the SSRC that this session has, for an upstream that can choose, and then those with any. */
static GstCaps *caps_of_send_rtp(JalweddSession *self)
{
    GstCaps *caps = gst_caps_new_empty();
    Participant *one;
    LOCK(self);
    one = participant_first(self);
    if (one != NULL || self->has_ssrc)
        gst_caps_append_structure(caps,
                                  gst_structure_new("application/x-rtp", "ssrc", G_TYPE_UINT,
                                                    one != NULL ? one->step.ssrc : self->wanted_ssrc, NULL));
    UNLOCK(self);
    gst_caps_append_structure(caps, gst_structure_new_empty("application/x-rtp"));
    return caps;
}

gboolean query_send_rtp_sink(GstPad *pad, GstObject *parent, GstQuery *query)
{
    GstCaps *filter, *caps;
    if (GST_QUERY_TYPE(query) != GST_QUERY_CAPS)
        return gst_pad_query_default(pad, parent, query);
    caps = caps_of_send_rtp(JALWEDD_SESSION(parent));
    gst_query_parse_caps(query, &filter);
    if (filter != NULL) {
        GstCaps *all = caps;
        caps = gst_caps_intersect_full(filter, all, GST_CAPS_INTERSECT_FIRST);
        gst_caps_unref(all);
    }
    gst_query_set_caps_result(query, caps);
    gst_caps_unref(caps);
    return TRUE;
}
