/* RTP packets that go out: the participant of their SSRC is told, and the others of this host hear them. */
#include "session.h"

enum { MOST_LATE = 60 }; /* seconds: a buffer that is further from its moment has no moment to correct by */

/* By how much the moment of a buffer is past, in nanoseconds; negative if it is still to come. FALSE if
 * nothing tells. */
static gboolean lateness(JalweddSession *self, GstBuffer *buffer, gint64 *late)
{
    GstClock *clock;
    GstClockTime time = GST_CLOCK_TIME_NONE;
    if (GST_BUFFER_PTS_IS_VALID(buffer) && self->send_segment.format == GST_FORMAT_TIME)
        time = gst_segment_to_running_time(&self->send_segment, GST_FORMAT_TIME, GST_BUFFER_PTS(buffer));
    if (time == GST_CLOCK_TIME_NONE || (self->sync_send_time && self->latency == GST_CLOCK_TIME_NONE))
        return FALSE;
    clock = gst_element_get_clock(GST_ELEMENT(self));
    if (clock == NULL)
        return FALSE;
    if (self->sync_send_time)
        time += self->latency;
    *late = (gint64)(gst_clock_get_time(clock) - gst_element_get_base_time(GST_ELEMENT(self)) - time);
    gst_object_unref(clock);
    return ABS(*late) <= MOST_LATE * (gint64)GST_SECOND;
}

/* The RTP timestamp of now on a stream. The library takes the timestamp of a packet for that of the moment
 * of the call. But the moment of a buffer is its running time, and payloaders are ahead of that. */
static guint32 timestamp_of_now(JalweddSession *self, GstBuffer *buffer, guint32 timestamp, guint32 rate)
{
    gint64 late;
    guint32 units;
    if (!lateness(self, buffer, &late))
        return timestamp;
    units = (guint32)gst_util_uint64_scale((guint64)ABS(late), rate, GST_SECOND);
    return late < 0 ? timestamp - units : timestamp + units;
}

/* The participant of an SSRC that upstream begins to send, or NULL: then another source has it (8.2), and
 * upstream is asked for a new one, or there are too many. With the lock. */
static Participant *begin_sending(JalweddSession *self, const jalwedd_head_place *head, gboolean *collides,
                                  GQueue *actions)
{
    jalwedd_source_state state;
    gpointer known = g_hash_table_lookup(self->clock_rates, GUINT_TO_POINTER(head->payload_type));
    *collides = source_state(self, head->ssrc, &state);
    if (*collides) {
        collision_tell(self, head->ssrc, 0, actions);
        return NULL;
    }
    if (self->participants->len >= MOST_PARTICIPANTS)
        return NULL;
    return participant_add(self, TRUE, head->ssrc,
                           self->send_rate != 0 ? self->send_rate : GPOINTER_TO_UINT(known));
}

/* The participant `one` sent this packet. With the lock. */
static void tell_sent(JalweddSession *self, Participant *one, const Octets *octets,
                      const jalwedd_head_place *head, GQueue *actions)
{
    JalweddSource *own = source_find(self, one->ssrc);
    if (own != NULL && !one->sends)
        action_signal(actions, ON_NEW_SENDER_SSRC, own);
    if (own != NULL)
        own->rate_bytes += octets->size + HEADERS;
    one->sends = TRUE;
    one->packets++;
    one->sent_octets += head->payload_size;
    call_sent_rtp(self, one, timestamp_of_now(self, octets->buffer, head->timestamp, one->config.rate),
                  head->payload_size);
    participant_after_call(self, one, actions);
    if (self->participants->len > 1)
        participants_hear_rtp(self, one, one->peer, octets->data, octets->size, actions);
}

/* FALSE if another source has this SSRC. */
static gboolean send_mapped(JalweddSession *self, const Octets *octets, const jalwedd_head_place *head)
{
    GQueue actions = G_QUEUE_INIT;
    Participant *one;
    gboolean collides = FALSE, other_clock = FALSE;
    if (self->send_rate == 0)
        clock_rate_of(self, head->payload_type);
    LOCK(self);
    one = participant_find(self, head->ssrc);
    if (one == NULL && !self->leaves)
        one = begin_sending(self, head, &collides, &actions);
    if (one != NULL) {
        tell_sent(self, one, octets, head, &actions);
        other_clock = self->send_rate != 0 && self->send_rate != one->config.rate && !one->told_rate;
        one->told_rate |= other_clock;
    }
    ticks_wake(self);
    UNLOCK(self);
    actions_perform(self, &actions);
    if (other_clock)
        refuse(self, &self->refusals, REFUSED_CLOCK);
    return !collides;
}

/* Whether a buffer goes on: what is no RTP packet is not this element's to judge. */
static gboolean send_one(JalweddSession *self, GstBuffer *buffer)
{
    Octets octets;
    jalwedd_head_place head;
    gboolean goes_on = TRUE;
    if (!octets_map(&octets, buffer))
        return FALSE;
    if (jalwedd_rtp_head(octets.data, octets.size, &head) == JALWEDD_TAKEN)
        goes_on = send_mapped(self, &octets, &head);
    octets_unmap(&octets);
    return goes_on;
}

GstFlowReturn chain_send_rtp(GstPad *pad, GstObject *parent, GstBuffer *buffer)
{
    JalweddSession *self = JALWEDD_SESSION(parent);
    GstFlowReturn result = GST_FLOW_OK;
    GstPad *src = pads_ref(self, &self->send_rtp_src);
    if (src != NULL && send_one(self, buffer))
        result = gst_pad_push(src, buffer);
    else
        gst_buffer_unref(buffer);
    gst_clear_object(&src);
    return result;
}

GstFlowReturn chain_send_rtp_list(GstPad *pad, GstObject *parent, GstBufferList *list)
{
    JalweddSession *self = JALWEDD_SESSION(parent);
    GstFlowReturn result = GST_FLOW_OK;
    GstPad *src = pads_ref(self, &self->send_rtp_src);
    gboolean goes_on = src != NULL;
    for (guint at = 0; at < gst_buffer_list_length(list); at++)
        goes_on &= send_one(self, gst_buffer_list_get(list, at));
    if (goes_on)
        result = gst_pad_push_list(src, list);
    else
        gst_buffer_list_unref(list);
    gst_clear_object(&src);
    return result;
}
