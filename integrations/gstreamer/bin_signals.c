/* The signals and actions of jalweddbin, by rtpbin's names. */
#include "bin.h"
#include "session.h"

enum {
    REQUEST_PT_MAP,
    PAYLOAD_TYPE_CHANGE,
    ON_NPT_STOP,
    REQUEST_JITTERBUFFER,
    NEW_JITTERBUFFER,
    NEW_STORAGE, /* never told */
    OTHERS
};

static guint on_signals[ON_SIGNALS], coder_signals[PAD_KINDS], other_signals[OTHERS];

static const gchar *const coder_names[PAD_KINDS] = {[RECV_RTP] = "request-rtp-decoder",
                                                    [RECV_RTCP] = "request-rtcp-decoder",
                                                    [SEND_RTP] = "request-rtp-encoder",
                                                    [SEND_RTCP] = "request-rtcp-encoder"};

/* Signals by which an application would offer what is refused. */
static const struct {
    const gchar *name;
    guint words; /* how many numbers it has */
    Refusal refusal;
} refused[] = {{"request-aux-sender", 1, REFUSED_AUXILIARY},
               {"request-aux-receiver", 1, REFUSED_AUXILIARY},
               {"request-fec-encoder", 1, REFUSED_FEC},
               {"request-fec-decoder", 1, REFUSED_FEC},
               {"request-fec-decoder-full", 3, REFUSED_FEC}};
static guint refused_signals[G_N_ELEMENTS(refused)];

/* ---- What the element of a session tells */

typedef struct {
    BinSession *session;
    guint signal; /* ON_NEW_SSRC and so on */
} Relay;

static void relay(GstElement *element, guint ssrc, Relay *relay)
{
    BinSession *session = relay->session;
    if (session->bin->autoremove && (relay->signal == ON_BYE_TIMEOUT || relay->signal == ON_TIMEOUT))
        g_signal_emit_by_name(session->ssrc_demux, "clear-ssrc", ssrc);
    g_signal_emit(session->bin, on_signals[relay->signal], 0, session->id, ssrc);
}

static GstCaps *on_request_caps(GstElement *element, guint payload_type, BinSession *session)
{
    return bin_ask_caps(session, payload_type);
}

static void relay_free(gpointer relay, GClosure *closure)
{
    g_free(relay);
}

void bin_signals_connect(BinSession *session)
{
    for (guint at = 0; at < ON_SIGNALS; at++) {
        Relay *one = g_new(Relay, 1);
        *one = (Relay){session, at};
        g_signal_connect_data(session->element, signal_names[at], G_CALLBACK(relay), one, relay_free, 0);
    }
    g_signal_connect(session->element, "request-pt-map", G_CALLBACK(on_request_caps), session);
}

/* ---- Asking the application */

GstCaps *bin_ask_caps(BinSession *session, guint payload_type)
{
    JalweddBin *bin = session->bin;
    GstCaps *caps;
    BIN_LOCK(bin);
    caps = g_hash_table_lookup(session->caps, GUINT_TO_POINTER(payload_type));
    if (caps != NULL)
        gst_caps_ref(caps);
    BIN_UNLOCK(bin);
    if (caps != NULL)
        return caps;
    g_signal_emit(bin, other_signals[REQUEST_PT_MAP], 0, session->id, payload_type, &caps);
    if (caps == NULL)
        return NULL;
    BIN_LOCK(bin);
    g_hash_table_replace(session->caps, GUINT_TO_POINTER(payload_type), gst_caps_ref(caps));
    BIN_UNLOCK(bin);
    return caps;
}

static void refuse_offers(JalweddBin *bin)
{
    for (guint at = 0; at < G_N_ELEMENTS(refused); at++)
        if (g_signal_has_handler_pending(bin, refused_signals[at], 0, FALSE))
            refuse(bin, &bin->refusals, refused[at].refusal);
    if (g_signal_has_handler_pending(bin, other_signals[NEW_STORAGE], 0, FALSE))
        refuse(bin, &bin->refusals, REFUSED_STORAGE);
}

GstElement *bin_ask_coder(BinSession *session, PadKind kind)
{
    GstElement *coder = NULL;
    refuse_offers(session->bin);
    g_signal_emit(session->bin, coder_signals[kind], 0, session->id, &coder);
    if (coder != NULL)
        bin_adopt(session->bin, coder);
    return coder;
}

GstElement *bin_ask_buffer(BinSession *session)
{
    GstElement *buffer = NULL;
    g_signal_emit(session->bin, other_signals[REQUEST_JITTERBUFFER], 0, session->id, &buffer);
    if (buffer != NULL)
        bin_adopt(session->bin, buffer);
    return buffer;
}

/* ---- Telling the application */

void bin_tell_buffer(BinStream *stream)
{
    g_signal_emit(stream->session->bin, other_signals[NEW_JITTERBUFFER], 0, stream->buffer,
                  stream->session->id, stream->ssrc);
}

void bin_tell_type(BinStream *stream, guint payload_type)
{
    g_signal_emit(stream->session->bin, other_signals[PAYLOAD_TYPE_CHANGE], 0, stream->session->id,
                  payload_type);
}

void bin_tell_end(BinStream *stream)
{
    g_signal_emit(stream->session->bin, other_signals[ON_NPT_STOP], 0, stream->session->id, stream->ssrc);
}

/* ---- Actions that applications call */

static BinSession *find(JalweddBin *bin, guint id)
{
    BinSession *session;
    BIN_LOCK(bin);
    session = bin_session_find(bin, id);
    BIN_UNLOCK(bin);
    return session;
}

static void clear_pt_map(JalweddBin *bin)
{
    GList *sessions;
    BIN_LOCK(bin);
    sessions = g_list_copy(bin->sessions);
    BIN_UNLOCK(bin);
    for (GList *at = sessions; at != NULL; at = at->next)
        bin_streams_clear_caps(at->data);
    g_list_free(sessions);
}

static GstElement *get_session(JalweddBin *bin, guint id)
{
    BinSession *session = find(bin, id);
    return session != NULL ? gst_object_ref(session->element) : NULL;
}

static GObject *get_internal_session(JalweddBin *bin, guint id)
{
    BinSession *session = find(bin, id);
    GObject *internal = NULL;
    if (session != NULL)
        g_object_get(session->element, "internal-session", &internal, NULL);
    return internal;
}

static void clear_ssrc(JalweddBin *bin, guint id, guint ssrc)
{
    BinSession *session = find(bin, id);
    if (session != NULL)
        g_signal_emit_by_name(session->ssrc_demux, "clear-ssrc", ssrc);
}

static gpointer get_storage(JalweddBin *bin, guint id)
{
    refuse(bin, &bin->refusals, REFUSED_STORAGE);
    return NULL;
}

/* ---- Installing */

static guint add_signal(GType type, const gchar *name, GType gives, guint words)
{
    return g_signal_new(name, type, G_SIGNAL_RUN_LAST, 0, NULL, NULL, NULL, gives, words, G_TYPE_UINT,
                        G_TYPE_UINT, G_TYPE_UINT);
}

static void add_action(GType type, const gchar *name, GCallback call, GType gives, guint words)
{
    g_signal_new_class_handler(name, type, G_SIGNAL_RUN_LAST | G_SIGNAL_ACTION, call, NULL, NULL, NULL,
                               gives, words, G_TYPE_UINT, G_TYPE_UINT);
}

static void install_actions(GType type)
{
    add_action(type, "clear-pt-map", G_CALLBACK(clear_pt_map), G_TYPE_NONE, 0);
    add_action(type, "reset-sync", G_CALLBACK(bin_sync_reset), G_TYPE_NONE, 0);
    add_action(type, "get-session", G_CALLBACK(get_session), GST_TYPE_ELEMENT, 1);
    add_action(type, "get-internal-session", G_CALLBACK(get_internal_session), JALWEDD_TYPE_INTERNAL_SESSION,
               1);
    add_action(type, "get-storage", G_CALLBACK(get_storage), GST_TYPE_ELEMENT, 1);
    add_action(type, "get-internal-storage", G_CALLBACK(get_storage), G_TYPE_OBJECT, 1);
    add_action(type, "clear-ssrc", G_CALLBACK(clear_ssrc), G_TYPE_NONE, 2);
}

static void install_told(GType type)
{
    for (guint at = 0; at < ON_SIGNALS; at++)
        on_signals[at] = add_signal(type, signal_names[at], G_TYPE_NONE, 2);
    other_signals[PAYLOAD_TYPE_CHANGE] = add_signal(type, "payload-type-change", G_TYPE_NONE, 2);
    other_signals[ON_NPT_STOP] = add_signal(type, "on-npt-stop", G_TYPE_NONE, 2);
    other_signals[NEW_JITTERBUFFER] =
        g_signal_new("new-jitterbuffer", type, G_SIGNAL_RUN_LAST, 0, NULL, NULL, NULL, G_TYPE_NONE, 3,
                     GST_TYPE_ELEMENT, G_TYPE_UINT, G_TYPE_UINT);
}

static void install_asked(GType type)
{
    for (guint kind = 0; kind < PAD_KINDS; kind++)
        coder_signals[kind] = add_signal(type, coder_names[kind], GST_TYPE_ELEMENT, 1);
    other_signals[REQUEST_PT_MAP] = add_signal(type, "request-pt-map", GST_TYPE_CAPS, 2);
    other_signals[REQUEST_JITTERBUFFER] = add_signal(type, "request-jitterbuffer", GST_TYPE_ELEMENT, 1);
}

static void install_refused(GType type)
{
    for (guint at = 0; at < G_N_ELEMENTS(refused); at++)
        refused_signals[at] = add_signal(type, refused[at].name, GST_TYPE_ELEMENT, refused[at].words);
    other_signals[NEW_STORAGE] = g_signal_new("new-storage", type, G_SIGNAL_RUN_LAST, 0, NULL, NULL, NULL,
                                              G_TYPE_NONE, 2, GST_TYPE_ELEMENT, G_TYPE_UINT);
}

void bin_signals_install(GType type)
{
    install_told(type);
    install_asked(type);
    install_refused(type);
    install_actions(type);
}
