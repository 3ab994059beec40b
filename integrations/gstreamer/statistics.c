/* The statistics of sources and of the session, in structures by rtpsession's names. */
#include "session.h"

/* ---- A source */

static void put_address(GstStructure *stats, const gchar *name, GSocketAddress *address)
{
    gchar *host, *text;
    if (address == NULL)
        return;
    host = g_inet_address_to_string(g_inet_socket_address_get_address(G_INET_SOCKET_ADDRESS(address)));
    text = g_strdup_printf("%s:%u", host, g_inet_socket_address_get_port(G_INET_SOCKET_ADDRESS(address)));
    gst_structure_set(stats, name, G_TYPE_STRING, text, NULL);
    g_free(text);
    g_free(host);
}

/* What only feedback counts. */
static void put_feedback(GstStructure *stats)
{
    gst_structure_set(stats, "sent-pli-count", G_TYPE_UINT, 0, "recv-pli-count", G_TYPE_UINT, 0,
                      "sent-fir-count", G_TYPE_UINT, 0, "recv-fir-count", G_TYPE_UINT, 0, "sent-nack-count",
                      G_TYPE_UINT, 0, "recv-nack-count", G_TYPE_UINT, 0, NULL);
}

/* An SSRC of this host: rtpsession tells what was sent as received, too. */
static void put_internal(GstStructure *stats, const Participant *own)
{
    const guint64 octets = own != NULL ? own->sent_octets : 0, packets = own != NULL ? own->packets : 0;
    gst_structure_set(stats, "validated", G_TYPE_BOOLEAN, TRUE, "is-sender", G_TYPE_BOOLEAN,
                      own != NULL && own->sends, "clock-rate", G_TYPE_INT,
                      own != NULL ? (gint)own->config.rate : -1, "octets-sent", G_TYPE_UINT64, octets,
                      "packets-sent", G_TYPE_UINT64, packets, "octets-received", G_TYPE_UINT64, octets,
                      "packets-received", G_TYPE_UINT64, packets, "packets-lost", G_TYPE_INT, 0, "jitter",
                      G_TYPE_UINT, 0, "have-sr", G_TYPE_BOOLEAN, FALSE, "sr-ntptime", G_TYPE_UINT64,
                      G_GUINT64_CONSTANT(0), "sr-rtptime", G_TYPE_UINT, 0, NULL);
}

static void put_received(GstStructure *stats, const jalwedd_source_state *state)
{
    gst_structure_set(
        stats, "validated", G_TYPE_BOOLEAN, state->member != 0, "is-sender", G_TYPE_BOOLEAN,
        state->sender != 0, "clock-rate", G_TYPE_INT, state->rate != 0 ? (gint)state->rate : -1,
        "octets-sent", G_TYPE_UINT64, G_GUINT64_CONSTANT(0), "packets-sent", G_TYPE_UINT64,
        G_GUINT64_CONSTANT(0), "octets-received", G_TYPE_UINT64, state->octets, "packets-received",
        G_TYPE_UINT64, state->received, "packets-lost", G_TYPE_INT, state->lost, "jitter", G_TYPE_UINT,
        state->jitter, "have-sr", G_TYPE_BOOLEAN, state->told != JALWEDD_NEVER && state->ntp != 0,
        "sr-ntptime", G_TYPE_UINT64, state->ntp, "sr-rtptime", G_TYPE_UINT, state->rtp, NULL);
}

/* The latest block that this host sent about a source, and the latest one that the source sent about this
 * host. */
static void put_blocks(GstStructure *stats, const JalweddSource *source)
{
    const jalwedd_report *sent = &source->sent, *block = &source->block;
    gst_structure_set(stats, "sent-rb", G_TYPE_BOOLEAN, source->has_sent, "sent-rb-fractionlost",
                      G_TYPE_UINT, sent->fraction, "sent-rb-packetslost", G_TYPE_INT, sent->lost,
                      "sent-rb-exthighestseq", G_TYPE_UINT, sent->highest, "sent-rb-jitter", G_TYPE_UINT,
                      sent->jitter, "sent-rb-lsr", G_TYPE_UINT, sent->lsr, "sent-rb-dlsr", G_TYPE_UINT,
                      sent->dlsr, NULL);
    gst_structure_set(stats, "have-rb", G_TYPE_BOOLEAN, source->has_block, "rb-ssrc", G_TYPE_UINT,
                      block->ssrc, "rb-fractionlost", G_TYPE_UINT, block->fraction, "rb-packetslost",
                      G_TYPE_INT, block->lost, "rb-exthighestseq", G_TYPE_UINT, block->highest, "rb-jitter",
                      G_TYPE_UINT, block->jitter, "rb-lsr", G_TYPE_UINT, block->lsr, "rb-dlsr", G_TYPE_UINT,
                      block->dlsr, "rb-round-trip", G_TYPE_UINT, source->round_trip, NULL);
}

GstStructure *statistics_of_source(JalweddSession *self, JalweddSource *source)
{
    GstStructure *stats = gst_structure_new(
        "application/x-rtp-source-stats", "ssrc", G_TYPE_UINT, source->ssrc, "internal", G_TYPE_BOOLEAN,
        source->internal, "received-bye", G_TYPE_BOOLEAN, source->left, "is-csrc", G_TYPE_BOOLEAN, FALSE,
        "seqnum-base", G_TYPE_INT, source->first_sequence, "bytes-received", G_TYPE_UINT64, source->bytes,
        "bitrate", G_TYPE_UINT64, source->bitrate, "recv-packet-rate", G_TYPE_UINT, source->packet_rate,
        "sr-octet-count", G_TYPE_UINT, source->sr_octets, "sr-packet-count", G_TYPE_UINT, source->sr_packets,
        NULL);
    put_address(stats, "rtp-from", source->rtp_from);
    put_address(stats, "rtcp-from", source->rtcp_from);
    put_feedback(stats);
    if (source->internal) {
        put_internal(stats, self != NULL && !source->dropped ? participant_find(self, source->ssrc) : NULL);
        return stats;
    }
    if (self != NULL && !source->dropped)
        source_state(self, source->ssrc, &source->state);
    put_received(stats, &source->state);
    put_blocks(stats, source);
    return stats;
}

/* ---- The session */

/* The statistics of all sources, in an array of a deprecated type, as applications expect. With the lock. */
G_GNUC_BEGIN_IGNORE_DEPRECATIONS
static void put_sources(JalweddSession *self, GstStructure *stats)
{
    GValueArray *array = g_value_array_new(g_hash_table_size(self->sources));
    GValue all = G_VALUE_INIT;
    GHashTableIter iter;
    gpointer source;
    g_hash_table_iter_init(&iter, self->sources);
    while (g_hash_table_iter_next(&iter, NULL, &source)) {
        GValue one = G_VALUE_INIT;
        g_value_init(&one, GST_TYPE_STRUCTURE);
        g_value_take_boxed(&one, statistics_of_source(self, source));
        g_value_array_append(array, &one);
        g_value_unset(&one);
    }
    g_value_init(&all, g_value_array_get_type());
    g_value_take_boxed(&all, array);
    gst_structure_take_value(stats, "source-stats", &all);
}
G_GNUC_END_IGNORE_DEPRECATIONS

/* How many datagrams the guard of the first participant held back. With the lock. */
static guint64 held_back(JalweddSession *self)
{
    Participant *one = participant_first(self);
    jalwedd_counts counts;
    if (one == NULL || jalwedd_held_back(&one->handle, &counts) != JALWEDD_TAKEN)
        return 0;
    return counts.strangers + counts.crowds;
}

GstStructure *statistics_of_session(JalweddSession *self)
{
    GstStructure *stats = gst_structure_new(
        "application/x-rtp-session-stats", "rtx-drop-count", G_TYPE_UINT, 0, "sent-nack-count", G_TYPE_UINT,
        0, "recv-nack-count", G_TYPE_UINT, 0, "rtx-count", G_TYPE_UINT, 0, "recv-rtx-req-count", G_TYPE_UINT,
        0, "sent-rtx-req-count", G_TYPE_UINT, 0, NULL);
    LOCK(self);
    put_sources(self, stats);
    gst_structure_set(stats, "jalwedd-refused-rtcp", G_TYPE_UINT64, self->refused_rtcp,
                      "jalwedd-refused-rtp", G_TYPE_UINT64, self->refused_rtp, "jalwedd-held-back",
                      G_TYPE_UINT64, held_back(self), NULL);
    UNLOCK(self);
    return stats;
}
