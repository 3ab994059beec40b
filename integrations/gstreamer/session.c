/* The element jalweddsession, which stands where GStreamer's rtpsession stands (session.h).
 *
 * It takes RTP and RTCP from the network on recv_rtp_sink and recv_rtcp_sink, and RTP to be sent on
 * send_rtp_sink. It gives what counts of the former on recv_rtp_src, sender reports on sync_src, what is to
 * be sent on send_rtp_src, and its own RTCP on send_rtcp_src. So a receiver is
 *
 *     jalweddsession name=s udpsrc port=5004 caps=application/x-rtp,clock-rate=8000 ! s.recv_rtp_sink
 *     s.recv_rtp_src ! rtppcmudepay ! mulawdec ! autoaudiosink udpsrc port=5005 ! s.recv_rtcp_sink
 *     s.send_rtcp_src ! udpsink host=.. port=5005 sync=false async=false
 */
#include "session.h"

G_DEFINE_FINAL_TYPE(JalweddSession, jalwedd_session, GST_TYPE_ELEMENT)

/* ---- State */

static void participant_free(gpointer one)
{
    call_free(one);
    g_free(one);
}

/* The session begins anew. With the lock. */
static void reset(JalweddSession *self)
{
    g_ptr_array_set_size(self->participants, 0);
    sources_drop_all(self);
    self->entries = 0;
    self->leave_wanted = self->leaves = self->finished = self->send_ended = FALSE;
}

static GstStateChangeReturn change_state(GstElement *element, GstStateChange change)
{
    JalweddSession *self = JALWEDD_SESSION(element);
    GstStateChangeReturn result;
    if (change == GST_STATE_CHANGE_READY_TO_PAUSED) {
        self->latency = GST_CLOCK_TIME_NONE;
        refusals_post(self, &self->refusals);
    }
    if (change == GST_STATE_CHANGE_PLAYING_TO_PAUSED || change == GST_STATE_CHANGE_PAUSED_TO_READY)
        ticks_stop(self);
    result = GST_ELEMENT_CLASS(jalwedd_session_parent_class)->change_state(element, change);
    if (change == GST_STATE_CHANGE_PAUSED_TO_PLAYING)
        ticks_start(self);
    if (change == GST_STATE_CHANGE_PAUSED_TO_READY) {
        ticks_join(self);
        LOCK(self);
        reset(self);
        UNLOCK(self);
    }
    return result;
}

/* ---- The object */

static void finalize(GObject *object)
{
    JalweddSession *self = JALWEDD_SESSION(object);
    ticks_join(self);
    reset(self);
    g_object_unref(self->internal);
    g_ptr_array_unref(self->participants);
    refusals_clear(&self->refusals);
    g_hash_table_unref(self->sources);
    g_hash_table_unref(self->clock_rates);
    gst_structure_free(self->sdes);
    g_free(self->record_location);
    gst_object_unref(self->clock);
    g_mutex_clear(&self->lock);
    g_cond_clear(&self->begun);
    G_OBJECT_CLASS(jalwedd_session_parent_class)->finalize(object);
}

static void jalwedd_session_init(JalweddSession *self)
{
    g_mutex_init(&self->lock);
    g_cond_init(&self->begun);
    self->clock = gst_system_clock_obtain();
    self->participants = g_ptr_array_new_with_free_func(participant_free);
    refusals_init(&self->refusals);
    self->sources = g_hash_table_new(NULL, NULL);
    self->clock_rates = g_hash_table_new(NULL, NULL);
    self->stops = TRUE;
    self->latency = GST_CLOCK_TIME_NONE;
    gst_segment_init(&self->send_segment, GST_FORMAT_UNDEFINED);
    for (guint at = 0; at < G_N_ELEMENTS(self->key); at++)
        self->key[at] = (guint64)moment_word(self) << 32 | moment_word(self);
    self->internal = g_object_new(JALWEDD_TYPE_INTERNAL_SESSION, NULL);
    g_weak_ref_set(&self->internal->element, self);
    properties_init(self);
}

static void jalwedd_session_class_init(JalweddSessionClass *class)
{
    GObjectClass *object_class = G_OBJECT_CLASS(class);
    GstElementClass *element_class = GST_ELEMENT_CLASS(class);
    object_class->finalize = finalize;
    object_class->set_property = properties_set;
    object_class->get_property = properties_get;
    element_class->request_new_pad = pads_request;
    element_class->release_pad = pads_release;
    element_class->change_state = change_state;
    properties_install(object_class);
    signals_install_element(G_TYPE_FROM_CLASS(class));
    pads_install(element_class);
    gst_element_class_set_static_metadata(
        element_class, "RTP session with proved RTCP", "Filter/Network/RTP",
        "An RTP session (AVP) whose RTCP comes from a library proved to follow RFC "
        "3550; stands where rtpsession stands",
        "Jalwedd maintainers <maintainers@jalwedd.invalid>");
}
