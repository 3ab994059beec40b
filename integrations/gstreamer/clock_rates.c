/* The clock rates of payload types, from caps, from the signal request-pt-map, and from RFC 3551. */
#include "session.h"

enum { MOST_RATE = 1 << 20, FIRST_DYNAMIC_TYPE = 96 };

/* Keeps the rate of a payload type. With the lock. */
static void put_rate(JalweddSession *self, guint type, guint32 rate)
{
    gpointer before;
    const gboolean known =
        g_hash_table_lookup_extended(self->clock_rates, GUINT_TO_POINTER(type), NULL, &before);
    if (known && GPOINTER_TO_UINT(before) == rate)
        return;
    g_hash_table_replace(self->clock_rates, GUINT_TO_POINTER(type), GUINT_TO_POINTER(rate));
    if (rate != 0)
        participants_configure(self);
}

static gboolean is_no_feedback(GQuark field, const GValue *value, gpointer data)
{
    return !g_str_has_prefix(g_quark_to_string(field), "rtcp-fb-");
}

void clock_rates_learn(JalweddSession *self, GstCaps *caps, gboolean sends)
{
    const GstStructure *structure = gst_caps_get_structure(caps, 0);
    gint type, rate;
    guint ssrc;
    LOCK(self);
    if (gst_structure_get_int(structure, "clock-rate", &rate) && rate > 0 && rate <= MOST_RATE) {
        if (gst_structure_get_int(structure, "payload", &type))
            put_rate(self, (guint)type, (guint32)rate);
        if (sends)
            self->send_rate = (guint32)rate;
    }
    if (sends && self->participants->len == 0 && gst_structure_get_uint(structure, "ssrc", &ssrc)) {
        self->wanted_ssrc = ssrc;
        self->has_ssrc = TRUE;
    }
    UNLOCK(self);
    if (!gst_structure_foreach(structure, is_no_feedback, NULL))
        refuse(self, &self->refusals, REFUSED_FEEDBACK);
}

static gboolean is_known(JalweddSession *self, guint type, guint32 *rate)
{
    gpointer found = NULL;
    gboolean known;
    LOCK(self);
    known = g_hash_table_lookup_extended(self->clock_rates, GUINT_TO_POINTER(type), NULL, &found);
    UNLOCK(self);
    *rate = GPOINTER_TO_UINT(found);
    return known;
}

static void ask(JalweddSession *self, guint type)
{
    GstCaps *caps = signals_ask_caps(self, type);
    if (caps == NULL)
        return;
    caps = gst_caps_make_writable(caps);
    gst_caps_set_simple(caps, "payload", G_TYPE_INT, (gint)type, NULL);
    clock_rates_learn(self, caps, FALSE);
    gst_caps_unref(caps);
}

guint32 clock_rate_of(JalweddSession *self, guint payload_type)
{
    const GstRTPPayloadInfo *info;
    guint32 rate;
    if (is_known(self, payload_type, &rate))
        return rate;
    ask(self, payload_type);
    if (is_known(self, payload_type, &rate))
        return rate;
    info = payload_type < FIRST_DYNAMIC_TYPE ? gst_rtp_payload_info_for_pt((guint8)payload_type) : NULL;
    rate = info != NULL ? info->clock_rate : 0;
    LOCK(self);
    put_rate(self, payload_type, rate);
    UNLOCK(self);
    return rate;
}

void clock_rates_clear(JalweddSession *self)
{
    LOCK(self);
    g_hash_table_remove_all(
        self->clock_rates); /* asked again; until then participants keep what they know */
    UNLOCK(self);
}
