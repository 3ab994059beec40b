/* RTP packets that come in: the participants hear them, and what is counted goes on. The packets of a source
 * that is not yet valid are held back until it is (A.1). */
#include "session.h"

/* A packet that came in, while it is taken. */
typedef struct {
    GstBuffer *buffer;
    Octets octets;
    jalwedd_head_place head;
    guint32 rate; /* units a second of its payload type, or 0 */
    guint64 peer;
    GSocketAddress *address; /* or NULL */
} Packet;

/* ---- Hearing. With the lock */

/* Keeps a packet whose sequence number is far off: it goes on if the next one follows it (A.1). */
static void keep_jump(JalweddSource *source, Packet *packet)
{
    if (source == NULL)
        return;
    gst_buffer_replace(&source->jump, packet->buffer);
    source->jump_sequence = (guint16)packet->head.sequence;
}

/* The packets a second of a source, by the steps of its RTP timestamps, smoothed by an eighth. */
static void measure_packets(JalweddSource *source, const Packet *packet)
{
    const gint32 units = (gint32)(packet->head.timestamp - source->rate_timestamp);
    const gint16 packets = (gint16)(packet->head.sequence - source->rate_sequence);
    if (source->has_rate_packet && units == 0)
        return;
    if (source->has_rate_packet && units > 0 && packets > 0 && packet->rate != 0) {
        const guint64 rate = MIN((guint64)packets * packet->rate / (guint32)units, G_MAXUINT32 / 8);
        source->packet_rate =
            source->packet_rate == 0 ? (guint32)rate : (source->packet_rate * 7 + (guint32)rate) / 8;
    }
    source->has_rate_packet = TRUE;
    source->rate_timestamp = packet->head.timestamp;
    source->rate_sequence = (guint16)packet->head.sequence;
}

static void account(JalweddSource *source, const Packet *packet)
{
    if (source == NULL || source->internal)
        return;
    collision_keep_address(source, packet->peer, packet->address);
    if (source->first_sequence < 0)
        source->first_sequence = (gint)packet->head.sequence;
    source->payload_type = packet->head.payload_type;
    measure_packets(source, packet);
    source->bytes += packet->octets.size + HEADERS;
    source->rate_bytes += packet->octets.size + HEADERS;
}

/* The participants hear the packet. Whether it goes on: not if it is another source's, or is not counted. */
static gboolean hear(JalweddSession *self, Packet *packet, GQueue *actions)
{
    const guint32 ssrc = packet->head.ssrc;
    jalwedd_source_state before, after;
    gboolean was_counted;
    guint32 status;
    participants_ensure(self);
    packet->peer = peer_of(self, packet->buffer, &packet->address);
    if (!collision_allows(self, source_find(self, ssrc), packet->peer, packet->address))
        return FALSE;
    if (self->leaves)
        return TRUE;
    was_counted = source_state(self, ssrc, &before) && before.member && before.received > 0;
    status =
        participants_hear_rtp(self, NULL, packet->peer, packet->octets.data, packet->octets.size, actions);
    if (status != JALWEDD_TAKEN) {
        self->refused_rtp++;
        GST_DEBUG_OBJECT(self, "RTP refused: %s", jalwedd_text(status));
    }
    if (status == JALWEDD_OWN_SSRC || call_is_held_back(status))
        return FALSE;
    if (was_counted && source_state(self, ssrc, &after) && after.received == before.received) {
        keep_jump(source_find(self, ssrc), packet);
        return FALSE;
    }
    account(source_find(self, ssrc), packet);
    return TRUE;
}

/* ---- Going on. With the lock */

static gboolean is_held_back(JalweddSession *self, JalweddSource *source)
{
    jalwedd_source_state state;
    if (source->internal || source->probation == 0 || source->role != JALWEDD_AWAY || self->leaves)
        return FALSE;
    return source_state(self, source->ssrc, &state) && !state.member && state.left == JALWEDD_NEVER;
}

static void hold_back(JalweddSource *source, GstBuffer *buffer)
{
    g_queue_push_tail(&source->held, buffer);
    if (g_queue_get_length(&source->held) > MOST_HELD)
        gst_buffer_unref(g_queue_pop_head(&source->held));
}

/* The packet, if it goes on now; those of its source that were held back are added to `before`. */
static GstBuffer *go_on(JalweddSession *self, Packet *packet, GQueue *before)
{
    JalweddSource *source = source_find(self, packet->head.ssrc);
    if (source == NULL)
        return packet->buffer;
    if (is_held_back(self, source)) {
        hold_back(source, packet->buffer);
        return NULL;
    }
    if (source->jump != NULL) {
        if ((guint16)(source->jump_sequence + 1) == packet->head.sequence)
            g_queue_push_tail(&source->held, gst_buffer_ref(source->jump));
        gst_clear_buffer(&source->jump);
    }
    while (!g_queue_is_empty(&source->held))
        g_queue_push_tail(before, g_queue_pop_head(&source->held));
    return packet->buffer;
}

/* ---- The pad */

/* Takes the buffer, and gives it back if it goes on now. Signals are emitted in between, as their handlers
 * may let the packets of a source go on at once. */
static GstBuffer *take_mapped(JalweddSession *self, Packet *packet, GQueue *before)
{
    GQueue actions = G_QUEUE_INIT;
    GstBuffer *result = NULL;
    gboolean counts;
    packet->rate = clock_rate_of(self, packet->head.payload_type);
    LOCK(self);
    counts = hear(self, packet, &actions);
    ticks_wake(self);
    if (!g_queue_is_empty(&actions)) {
        UNLOCK(self);
        actions_perform(self, &actions);
        LOCK(self);
    }
    octets_unmap(&packet->octets);
    if (counts)
        result = go_on(self, packet, before);
    UNLOCK(self);
    if (!counts)
        gst_buffer_unref(packet->buffer);
    return result;
}

/* RFC 5761, 4: RTCP that comes to the port of RTP. */
static gboolean is_rtcp(const Octets *octets)
{
    return octets->size >= 2 && octets->data[1] >= 192 && octets->data[1] <= 223;
}

static void count_refused(JalweddSession *self)
{
    LOCK(self);
    self->refused_rtp++;
    UNLOCK(self);
    GST_DEBUG_OBJECT(self, "no RTP packet");
}

/* Takes a buffer, and gives it back if it goes on now; those that go on before it are added to `before`. */
static GstBuffer *take(JalweddSession *self, GstBuffer *buffer, GQueue *before)
{
    Packet packet;
    packet.buffer = buffer;
    if (!octets_map(&packet.octets, buffer)) {
        gst_buffer_unref(buffer);
    } else if (is_rtcp(&packet.octets)) {
        octets_unmap(&packet.octets);
        received_rtcp(self, buffer);
    } else if (jalwedd_rtp_head(packet.octets.data, packet.octets.size, &packet.head) != JALWEDD_TAKEN) {
        octets_unmap(&packet.octets);
        gst_buffer_unref(buffer);
        count_refused(self);
    } else
        return take_mapped(self, &packet, before);
    return NULL;
}

GstFlowReturn chain_recv_rtp(GstPad *pad, GstObject *parent, GstBuffer *buffer)
{
    JalweddSession *self = JALWEDD_SESSION(parent);
    GQueue before = G_QUEUE_INIT;
    GstPad *src = pads_ref(self, &self->recv_rtp_src);
    GstFlowReturn result = GST_FLOW_OK;
    buffer = take(self, buffer, &before);
    while (src != NULL && result == GST_FLOW_OK && !g_queue_is_empty(&before))
        result = gst_pad_push(src, g_queue_pop_head(&before));
    if (src != NULL && result == GST_FLOW_OK && buffer != NULL)
        result = gst_pad_push(src, g_steal_pointer(&buffer));
    gst_clear_buffer(&buffer);
    g_queue_clear_full(&before, (GDestroyNotify)gst_buffer_unref);
    gst_clear_object(&src);
    return result;
}

/* Puts what goes on of a buffer into a list. */
static void add_to_list(JalweddSession *self, GstBuffer *buffer, GstBufferList *list)
{
    GQueue before = G_QUEUE_INIT;
    buffer = take(self, buffer, &before);
    while (!g_queue_is_empty(&before))
        gst_buffer_list_add(list, g_queue_pop_head(&before));
    if (buffer != NULL)
        gst_buffer_list_add(list, buffer);
}

GstFlowReturn chain_recv_rtp_list(GstPad *pad, GstObject *parent, GstBufferList *list)
{
    JalweddSession *self = JALWEDD_SESSION(parent);
    GstBufferList *out = gst_buffer_list_new_sized(gst_buffer_list_length(list));
    GstPad *src = pads_ref(self, &self->recv_rtp_src);
    GstFlowReturn result = GST_FLOW_OK;
    for (guint at = 0; at < gst_buffer_list_length(list); at++)
        add_to_list(self, gst_buffer_ref(gst_buffer_list_get(list, at)), out);
    gst_buffer_list_unref(list);
    if (src != NULL && gst_buffer_list_length(out) > 0)
        result = gst_pad_push_list(src, out);
    else
        gst_buffer_list_unref(out);
    gst_clear_object(&src);
    return result;
}
