/* The properties of a session, as the settings that the library takes. */
#include "session.h"

#include <string.h>

enum { BITS_WITHOUT_MEASURE = 64000 }; /* bits a second of a session of which nothing is known yet */

/* ---- Bandwidths */

static gdouble measured_bandwidth(JalweddSession *self)
{
    GHashTableIter iter;
    gpointer source;
    gdouble sum = 0;
    g_hash_table_iter_init(&iter, self->sources);
    while (g_hash_table_iter_next(&iter, NULL, &source))
        sum += (gdouble)((JalweddSource *)source)->bitrate;
    return MAX(sum, BITS_WITHOUT_MEASURE);
}

void settings_bandwidths(JalweddSession *self, guint32 *sender, guint32 *receiver)
{
    const gdouble session = self->bandwidth > 0 ? self->bandwidth : measured_bandwidth(self);
    gdouble senders = self->rs_bandwidth, receivers = self->rr_bandwidth, all = self->fraction;
    if (all > 0 && all < 1)
        all *= session;
    if (senders < 0 && receivers < 0) { /* a quarter is for senders (6.2) */
        senders = all * 0.25;
        receivers = all * 0.75;
    } else if (senders < 0)
        senders = MAX(all - receivers, 0);
    else if (receivers < 0)
        receivers = MAX(all - senders, 0);
    *sender = (guint32)CLAMP(senders / 8, 16, 1 << 30);
    *receiver = (guint32)CLAMP(receivers / 8, 16, 1 << 30);
}

/* ---- Clocks */

guint settings_clocks(JalweddSession *self, guint32 but, jalwedd_clock clocks[MOST_CLOCKS])
{
    GHashTableIter iter;
    gpointer type, rate;
    guint count = 0;
    g_hash_table_iter_init(&iter, self->clock_rates);
    while (count < MOST_CLOCKS && g_hash_table_iter_next(&iter, &type, &rate))
        if (GPOINTER_TO_UINT(rate) != 0 && GPOINTER_TO_UINT(rate) != but)
            clocks[count++] = (jalwedd_clock){GPOINTER_TO_UINT(type), GPOINTER_TO_UINT(rate)};
    return count;
}

/* ---- SDES items */

static const gchar *const fields[] = {NULL, "cname", "name", "email", "phone", "location", "tool", "note"};

const gchar *sdes_field(guint kind)
{
    return kind < G_N_ELEMENTS(fields) ? fields[kind] : NULL;
}

gboolean sdes_has_kind(const gchar *field)
{
    guint kind = JALWEDD_SDES_CNAME;
    while (kind < G_N_ELEMENTS(fields) && !g_str_equal(field, fields[kind]))
        kind++;
    return kind < G_N_ELEMENTS(fields);
}

static void put_item(jalwedd_item *item, guint kind, const gchar *text)
{
    item->kind = (guint8)kind;
    item->size = (guint8)MIN(strlen(text), 255);
    memcpy(item->text, text, item->size);
}

/* A PRIV item (6.5.8): the name of the field is its prefix. FALSE if it does not fit. */
static gboolean put_private(jalwedd_item *item, const gchar *field, const gchar *text)
{
    const gsize prefix = strlen(field), value = strlen(text);
    if (prefix + value > 254)
        return FALSE;
    item->kind = JALWEDD_SDES_PRIV;
    item->size = (guint8)(1 + prefix + value);
    item->text[0] = (guint8)prefix;
    memcpy(item->text + 1, field, prefix);
    memcpy(item->text + 1 + prefix, text, value);
    return TRUE;
}

static guint put_privates(GstStructure *sdes, jalwedd_item items[7], guint count)
{
    for (gint at = 0; at < gst_structure_n_fields(sdes) && count < 7; at++) {
        const gchar *field = gst_structure_nth_field_name(sdes, (guint)at);
        const gchar *text = gst_structure_get_string(sdes, field);
        if (text != NULL && !sdes_has_kind(field) && put_private(&items[count], field, text))
            count++;
    }
    return count;
}

guint settings_items(JalweddSession *self, jalwedd_item items[7])
{
    guint count = 0;
    for (guint kind = JALWEDD_SDES_NAME; kind <= JALWEDD_SDES_NOTE; kind++) {
        const gchar *text = gst_structure_get_string(self->sdes, fields[kind]);
        if (text != NULL)
            put_item(&items[count++], kind, text);
    }
    return put_privates(self->sdes, items, count);
}

const gchar *settings_cname(JalweddSession *self)
{
    const gchar *cname = gst_structure_get_string(self->sdes, "cname");
    return cname != NULL && cname[0] != '\0' ? cname : "anonymous";
}
