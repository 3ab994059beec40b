/* The signals of the element and of its internal session, by rtpsession's names. */
#include "session.h"

const gchar *const signal_names[ON_SIGNALS] = {
    "on-new-ssrc",       "on-ssrc-collision",  "on-ssrc-validated",    "on-ssrc-active",
    "on-ssrc-sdes",      "on-bye-ssrc",        "on-bye-timeout",       "on-timeout",
    "on-sender-timeout", "on-new-sender-ssrc", "on-sender-ssrc-active"};
static guint element_signals[ON_SIGNALS], internal_signals[ON_SIGNALS];
static guint request_pt_map, on_app_rtcp, on_receiving_rtcp;

/* ---- Emitting */

/* The items of a source, as a message that applications read on the bus. */
static void post_sdes(JalweddSession *self, JalweddSource *source)
{
    GstStructure *sdes;
    LOCK(self);
    sdes = gst_structure_copy(source->sdes);
    UNLOCK(self);
    gst_element_post_message(GST_ELEMENT(self),
                             gst_message_new_custom(GST_MESSAGE_ELEMENT, GST_OBJECT(self), sdes));
}

void signals_emit(JalweddSession *self, guint signal, guint32 ssrc, JalweddSource *source)
{
    if (source != NULL)
        g_signal_emit(self->internal, internal_signals[signal], 0, source);
    if (signal == ON_SSRC_SDES && source != NULL)
        post_sdes(self, source);
    g_signal_emit(self, element_signals[signal], 0, ssrc);
}

void signals_emit_receiving(JalweddSession *self, GstBuffer *buffer)
{
    g_signal_emit(self->internal, on_receiving_rtcp, 0, buffer);
}

void signals_emit_app(JalweddSession *self, guint subtype, guint32 ssrc, const gchar *name, GstBuffer *data)
{
    g_signal_emit(self->internal, on_app_rtcp, 0, subtype, ssrc, name, data);
}

GstCaps *signals_ask_caps(JalweddSession *self, guint payload_type)
{
    GstCaps *caps = NULL;
    g_signal_emit(self, request_pt_map, 0, payload_type, &caps);
    return caps;
}

/* ---- Actions that applications call */

static void clear_pt_map(JalweddSession *self)
{
    clock_rates_clear(self);
}

/* A reference to the source, or NULL. */
static GObject *get_source_by_ssrc(JalweddInternalSession *internal, guint ssrc)
{
    JalweddSession *self = g_weak_ref_get(&internal->element);
    JalweddSource *source;
    if (self == NULL)
        return NULL;
    LOCK(self);
    source = source_find(self, ssrc);
    if (source != NULL)
        g_object_ref(source);
    UNLOCK(self);
    gst_object_unref(self);
    return (GObject *)source;
}

/* Begins to take part, if nothing did so yet. FALSE: no report comes earlier than it is due. */
static gboolean send_rtcp_full(JalweddInternalSession *internal, guint64 within)
{
    JalweddSession *self = g_weak_ref_get(&internal->element);
    if (self == NULL)
        return FALSE;
    LOCK(self);
    participants_ensure(self);
    UNLOCK(self);
    refuse(self, &self->refusals, REFUSED_EARLY);
    gst_object_unref(self);
    return FALSE;
}

static void send_rtcp(JalweddInternalSession *internal, guint64 within)
{
    send_rtcp_full(internal, within);
}

/* ---- Installing */

void signals_install_element(GType type)
{
    for (guint at = 0; at < ON_SIGNALS; at++)
        element_signals[at] = g_signal_new(signal_names[at], type, G_SIGNAL_RUN_LAST, 0, NULL, NULL, NULL,
                                           G_TYPE_NONE, 1, G_TYPE_UINT);
    request_pt_map = g_signal_new("request-pt-map", type, G_SIGNAL_RUN_LAST, 0, NULL, NULL, NULL,
                                  GST_TYPE_CAPS, 1, G_TYPE_UINT);
    g_signal_new_class_handler("clear-pt-map", type, G_SIGNAL_ACTION | G_SIGNAL_RUN_LAST,
                               G_CALLBACK(clear_pt_map), NULL, NULL, NULL, G_TYPE_NONE, 0);
}

void signals_install_internal(GType type)
{
    const GSignalFlags action = G_SIGNAL_RUN_LAST | G_SIGNAL_ACTION;
    for (guint at = 0; at < ON_SIGNALS; at++)
        internal_signals[at] = g_signal_new(signal_names[at], type, G_SIGNAL_RUN_LAST, 0, NULL, NULL, NULL,
                                            G_TYPE_NONE, 1, JALWEDD_TYPE_SOURCE);
    on_app_rtcp = g_signal_new("on-app-rtcp", type, G_SIGNAL_RUN_LAST, 0, NULL, NULL, NULL, G_TYPE_NONE, 4,
                               G_TYPE_UINT, G_TYPE_UINT, G_TYPE_STRING, GST_TYPE_BUFFER);
    on_receiving_rtcp = g_signal_new("on-receiving-rtcp", type, G_SIGNAL_RUN_LAST, 0, NULL, NULL, NULL,
                                     G_TYPE_NONE, 1, GST_TYPE_BUFFER);
    g_signal_new_class_handler("get-source-by-ssrc", type, action, G_CALLBACK(get_source_by_ssrc), NULL,
                               NULL, NULL, JALWEDD_TYPE_SOURCE, 1, G_TYPE_UINT);
    g_signal_new_class_handler("send-rtcp", type, action, G_CALLBACK(send_rtcp), NULL, NULL, NULL,
                               G_TYPE_NONE, 1, G_TYPE_UINT64);
    g_signal_new_class_handler("send-rtcp-full", type, action, G_CALLBACK(send_rtcp_full), NULL, NULL, NULL,
                               G_TYPE_BOOLEAN, 1, G_TYPE_UINT64);
}
