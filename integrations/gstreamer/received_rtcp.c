/* RTCP datagrams that come in: the participants hear them, and what they say of sources is kept for
 * applications. */
#include "session.h"

#include <jalwedd_report_before.h>
#include <string.h>

enum {
    MOST_PREFIXES = 256, /* of PRIV items, in a process: the name of a field is kept for good */
    MOST_FIELDS = 16     /* of the items of a source */
};
enum { BLOCK_OCTETS = 24, MOST_BLOCKS = LARGEST_RTCP / BLOCK_OCTETS };

/* An RTCP datagram, while it is taken. */
typedef struct {
    guint8 data[LARGEST_RTCP + JALWEDD_REPORT_BEFORE];
    gsize size;
    GSocketAddress *address;            /* or NULL */
    jalwedd_report blocks[MOST_BLOCKS]; /* those about SSRCs of this host */
    guint block_count;
} Datagram;

/* ---- What it says. With the lock */

/* Before the participants hear it, as it names the SSRCs that this host had when it was sent. */
static void read_blocks(JalweddSession *self, Datagram *datagram)
{
    jalwedd_cursor cursor = JALWEDD_BEGIN;
    jalwedd_report report;
    while (datagram->block_count < MOST_BLOCKS &&
           jalwedd_next_block(datagram->data, datagram->size, &cursor, &report) == JALWEDD_TAKEN) {
        JalweddSource *own = source_find(self, report.ssrc);
        if (own != NULL && own->internal)
            datagram->blocks[datagram->block_count++] = report;
    }
}

static void keep_blocks(JalweddSession *self, const Datagram *datagram, GQueue *actions)
{
    Participant *one = participant_first(self);
    guint64 ntp;
    if (one == NULL || datagram->block_count == 0)
        return;
    ntp = jalwedd_ntp_of(one->config.ntp_base, moment_now(self) - one->config.start);
    for (guint at = 0; at < datagram->block_count; at++) {
        const jalwedd_report *report = &datagram->blocks[at];
        JalweddSource *from = source_find(self, report->reporter), *own = source_find(self, report->ssrc);
        Participant *about = participant_find(self, report->ssrc);
        const guint64 came = ntp + (about != NULL ? about->ahead : 0);
        const gint32 trip = (gint32)jalwedd_round_trip((guint32)(came >> 16), report->lsr, report->dlsr);
        if (from == NULL || own == NULL)
            continue;
        action_signal(actions, ON_SENDER_SSRC_ACTIVE, own);
        from->block = *report;
        from->has_block = TRUE;
        from->round_trip = report->lsr != 0 && trip > 0 ? (guint32)trip : 0;
    }
}

/* Keeps an item whose text is UTF-8. Whether that is news. */
static gboolean keep_item(JalweddSource *source, const gchar *field, const gchar *text, gsize size)
{
    gchar *value = g_strndup(text, size);
    const gboolean is_news = g_utf8_validate(value, -1, NULL) &&
                             g_strcmp0(gst_structure_get_string(source->sdes, field), value) != 0;
    if (is_news)
        gst_structure_set(source->sdes, field, G_TYPE_STRING, value, "ssrc", G_TYPE_UINT, source->ssrc,
                          NULL);
    g_free(value);
    return is_news;
}

/* Whether the prefix of a PRIV item can be a field: not that of another item, nor one more than is kept. */
static gboolean is_prefix(JalweddSource *source, const gchar *name)
{
    static gint kept;
    const GQuark known = g_quark_try_string(name);
    if (name[0] == '\0' || !g_utf8_validate(name, -1, NULL) || sdes_has_kind(name) ||
        g_str_equal(name, "ssrc"))
        return FALSE;
    if (gst_structure_n_fields(source->sdes) >= MOST_FIELDS)
        return known != 0 && gst_structure_id_has_field(source->sdes, known);
    return known != 0 || g_atomic_int_add(&kept, 1) < MOST_PREFIXES;
}

/* A PRIV item (6.5.8): the length of its prefix, the prefix, which is the field, and the value. */
static gboolean keep_private(JalweddSource *source, const gchar *text, gsize size)
{
    const gsize prefix = size > 0 ? (guint8)text[0] : 0;
    gchar *name;
    gboolean is_news;
    if (prefix >= size)
        return FALSE;
    name = g_strndup(text + 1, prefix);
    is_news = is_prefix(source, name) && keep_item(source, name, text + 1 + prefix, size - 1 - prefix);
    g_free(name);
    return is_news;
}

static gboolean read_item(JalweddSource *source, const Datagram *datagram, const jalwedd_item_place *item)
{
    const gchar *text = (const gchar *)datagram->data + item->offset;
    const gchar *field = sdes_field(item->kind);
    if (field != NULL)
        return keep_item(source, field, text, item->size);
    return item->kind == JALWEDD_SDES_PRIV && keep_private(source, text, item->size);
}

static void read_items(JalweddSession *self, const Datagram *datagram, GQueue *actions)
{
    jalwedd_cursor cursor = JALWEDD_BEGIN;
    jalwedd_item_place item;
    JalweddSource *told = NULL;
    while (jalwedd_next_sdes_item(datagram->data, datagram->size, &cursor, &item) == JALWEDD_TAKEN) {
        JalweddSource *source = source_find(self, item.ssrc);
        if (source == NULL || source->internal || !read_item(source, datagram, &item))
            continue;
        if (told != source)
            action_signal(actions, ON_SSRC_SDES, source);
        told = source;
    }
}

static void read_apps(const Datagram *datagram, GQueue *actions)
{
    jalwedd_cursor cursor = JALWEDD_BEGIN;
    jalwedd_app_place app;
    while (jalwedd_next_app(datagram->data, datagram->size, &cursor, &app) == JALWEDD_TAKEN)
        action_app(actions, datagram->data, &app);
}

/* Whether it has a sender report of another source. */
static gboolean read_senders(JalweddSession *self, const Datagram *datagram)
{
    jalwedd_cursor cursor = JALWEDD_BEGIN;
    jalwedd_sender_info sender;
    gboolean found = FALSE;
    while (jalwedd_next_sender(datagram->data, datagram->size, &cursor, &sender) == JALWEDD_TAKEN) {
        JalweddSource *source = source_find(self, sender.ssrc);
        if (source == NULL || source->internal)
            continue;
        source->sr_packets = sender.packets;
        source->sr_octets = sender.octets;
        found = TRUE;
    }
    return found;
}

/* The source of the first packet is active: an empty report has no part that a cursor gives. */
static void tell_active(JalweddSession *self, const Datagram *datagram, GQueue *actions)
{
    jalwedd_fault fault;
    JalweddSource *source;
    if (datagram->size < 8 || jalwedd_check(datagram->data, datagram->size, &fault) != JALWEDD_TAKEN)
        return;
    source = source_find(self, GST_READ_UINT32_BE(datagram->data + 4));
    if (source == NULL || source->internal)
        return;
    if (datagram->address != NULL && datagram->address != source->rtcp_from)
        g_set_object(&source->rtcp_from, datagram->address);
    action_signal(actions, ON_SSRC_ACTIVE, source);
}

/* ---- Taking it */

/* The participants hear the datagram. Whether it is one that later elements sync by: a sender report that
 * was taken. */
static gboolean hear(JalweddSession *self, Datagram *datagram, guint64 peer, GQueue *actions)
{
    guint32 status;
    if (!self->leaves)
        read_blocks(self, datagram);
    status = participants_hear_rtcp(self, NULL, peer, datagram->data, datagram->size, actions);
    if (status != JALWEDD_TAKEN) {
        self->refused_rtcp++;
        GST_DEBUG_OBJECT(self, "RTCP refused: %s", jalwedd_text(status));
    }
    if (self->leaves || status != JALWEDD_TAKEN)
        return FALSE;
    keep_blocks(self, datagram, actions);
    read_items(self, datagram, actions);
    read_apps(datagram, actions);
    tell_active(self, datagram, actions);
    return read_senders(self, datagram);
}

/* Copies the octets of a buffer, if they are few enough. */
static gboolean read_datagram(Datagram *datagram, GstBuffer *buffer)
{
    datagram->block_count = 0;
    datagram->size = gst_buffer_get_size(buffer);
    if (datagram->size > LARGEST_RTCP)
        return FALSE;
    gst_buffer_extract(buffer, 0, datagram->data, datagram->size);
    return TRUE;
}

/* Takes the buffer. */
void received_rtcp(JalweddSession *self, GstBuffer *buffer)
{
    GQueue actions = G_QUEUE_INIT;
    Datagram datagram;
    gboolean syncs = FALSE;
    const gboolean fits = read_datagram(&datagram, buffer);
    signals_emit_receiving(self, buffer);
    LOCK(self);
    participants_ensure(self);
    if (fits) {
        const guint64 peer = peer_of(self, buffer, &datagram.address);
        if (self->reduced_size)
            datagram.size = jalwedd_put_report_before(datagram.data, datagram.size);
        syncs = hear(self, &datagram, peer, &actions);
    } else
        self->refused_rtcp++;
    ticks_end_leave(self, &actions);
    ticks_wake(self);
    UNLOCK(self);
    if (syncs)
        action_push_sync(&actions, buffer);
    else
        gst_buffer_unref(buffer);
    actions_perform(self, &actions);
}

GstFlowReturn chain_recv_rtcp(GstPad *pad, GstObject *parent, GstBuffer *buffer)
{
    received_rtcp(JALWEDD_SESSION(parent), buffer);
    return GST_FLOW_OK;
}
