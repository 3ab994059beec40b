/* The properties of jalweddbin, by rtpbin's names. Those of its elements are bound to them. */
#include "bin.h"
#include "session.h"

enum {
    PROP_LATENCY = 1,
    PROP_DROP_ON_LATENCY,
    PROP_DO_LOST,
    PROP_MAX_DROPOUT,
    PROP_MAX_MISORDER,
    PROP_TIME_DIFF,
    PROP_RFC7273,
    PROP_REFERENCE_META,
    PROP_MAX_ADJUSTMENT,
    PROP_BUFFER_MODE,
    PROP_SDES,
    PROP_TIME_SOURCE,
    PROP_SYNC_SEND_TIME,
    PROP_PIPELINE_CLOCK,
    PROP_MAX_STREAMS,
    PROP_AUTOREMOVE,
    PROP_NTP_SYNC,
    PROP_RTCP_SYNC,
    PROP_SYNC_INTERVAL,
    PROP_MAX_OFFSET,
    PROP_MIN_OFFSET,
    PROP_SMOOTHING,
    PROP_IGNORE_TYPE,
    PROP_PROFILE,
    PROP_RETRANSMISSION,
    PROP_SYNC_EVENT,
    PROP_NTP64,
    PROP_TIMEOUT,
    PROP_FEC_DECODERS,
    PROP_FEC_ENCODERS
};

enum { MODE_NONE, MODE_SLAVE, MODE_BUFFER, MODE_SYNCED = 4 };

static GType buffer_mode_type(void)
{
    static gsize type;
    static const GEnumValue values[] = {{MODE_NONE, "Only use RTP timestamps", "none"},
                                        {MODE_SLAVE, "Slave receiver to sender clock", "slave"},
                                        {MODE_BUFFER, "Refused by a warning", "buffer"},
                                        {MODE_SYNCED, "Synchronized sender and receiver clocks", "synced"},
                                        {0, NULL, NULL}};
    if (g_once_init_enter(&type))
        g_once_init_leave(&type, g_enum_register_static("JalweddBufferMode", values));
    return type;
}

static GType rtcp_sync_type(void)
{
    static gsize type;
    static const GEnumValue values[] = {{SYNC_ALWAYS, "By each sender report", "always"},
                                        {SYNC_INITIAL, "By the first sender report", "initial"},
                                        {SYNC_RTP_INFO, "Refused by a warning", "rtp-info"},
                                        {0, NULL, NULL}};
    if (g_once_init_enter(&type))
        g_once_init_leave(&type, g_enum_register_static("JalweddRtcpSync", values));
    return type;
}

/* ---- Binding */

/* Properties of which an element has what the bin has. */
static const gchar *const of_buffer[] = {"latency",
                                         "drop-on-latency",
                                         "do-lost",
                                         "max-dropout-time",
                                         "max-misorder-time",
                                         "max-rtcp-rtp-time-diff",
                                         "rfc7273-sync",
                                         "add-reference-timestamp-meta",
                                         "max-ts-offset-adjustment"};
static const gchar *const of_session[] = {"sdes", "ntp-time-source", "rtcp-sync-send-time", "rtp-profile"};

static void bind(JalweddBin *bin, GstElement *element, const gchar *name)
{
    if (g_object_class_find_property(G_OBJECT_GET_CLASS(element), name) != NULL)
        g_object_bind_property(bin, name, element, name, G_BINDING_SYNC_CREATE);
}

void bin_bind_session(JalweddBin *bin, BinSession *session)
{
    for (guint at = 0; at < G_N_ELEMENTS(of_session); at++)
        bind(bin, session->element, of_session[at]);
    if (bin->pipeline_clock)
        g_object_set(session->element, "use-pipeline-clock", TRUE, NULL);
    bind(bin, session->ssrc_demux, "max-streams");
}

void bin_bind_buffer(JalweddBin *bin, GstElement *buffer)
{
    for (guint at = 0; at < G_N_ELEMENTS(of_buffer); at++)
        bind(bin, buffer, of_buffer[at]);
    if (g_object_class_find_property(G_OBJECT_GET_CLASS(buffer), "mode") != NULL)
        g_object_set(buffer, "mode", bin->buffer_mode, NULL);
}

/* ---- Setting and getting */

/* Those of the jitter buffers. FALSE if the property is none of these. */
static gboolean set_of_buffer(JalweddBin *bin, guint id, const GValue *value)
{
    switch (id) {
    case PROP_LATENCY: bin->latency = g_value_get_uint(value); break;
    case PROP_DROP_ON_LATENCY: bin->drop_on_latency = g_value_get_boolean(value); break;
    case PROP_DO_LOST: bin->do_lost = g_value_get_boolean(value); break;
    case PROP_MAX_DROPOUT: bin->max_dropout_time = g_value_get_uint(value); break;
    case PROP_MAX_MISORDER: bin->max_misorder_time = g_value_get_uint(value); break;
    case PROP_TIME_DIFF: bin->max_time_diff = g_value_get_int(value); break;
    case PROP_RFC7273: bin->rfc7273_sync = g_value_get_boolean(value); break;
    case PROP_REFERENCE_META: bin->reference_meta = g_value_get_boolean(value); break;
    case PROP_MAX_ADJUSTMENT: bin->max_adjustment = g_value_get_uint64(value); break;
    default: return FALSE;
    }
    return TRUE;
}

static gboolean set_of_bin(JalweddBin *bin, guint id, const GValue *value)
{
    switch (id) {
    case PROP_TIME_SOURCE: bin->time_source = g_value_get_enum(value); break;
    case PROP_SYNC_SEND_TIME: bin->sync_send_time = g_value_get_boolean(value); break;
    case PROP_PIPELINE_CLOCK: bin->pipeline_clock = g_value_get_boolean(value); break;
    case PROP_MAX_STREAMS: bin->max_streams = g_value_get_uint(value); break;
    case PROP_AUTOREMOVE: bin->autoremove = g_value_get_boolean(value); break;
    case PROP_NTP_SYNC: bin->ntp_sync = g_value_get_boolean(value); break;
    case PROP_SYNC_INTERVAL: bin->sync_interval = g_value_get_uint(value); break;
    case PROP_MAX_OFFSET: bin->max_offset = g_value_get_int64(value); break;
    case PROP_MIN_OFFSET: bin->min_offset = g_value_get_uint64(value); break;
    case PROP_SMOOTHING: bin->smoothing = g_value_get_uint(value); break;
    case PROP_IGNORE_TYPE: bin->ignore_type = g_value_get_boolean(value); break;
    case PROP_SDES:
        gst_clear_structure(&bin->sdes);
        bin->sdes = g_value_dup_boxed(value);
        break;
    default: return FALSE;
    }
    return TRUE;
}

/* Takes the value of an enumeration, but for the one that is refused. */
static Refusal set_choice(gint *to, const GValue *value, gint no, Refusal refusal)
{
    if (g_value_get_enum(value) == no)
        return refusal;
    *to = g_value_get_enum(value);
    return REFUSED_NOTHING;
}

static Refusal set_refused(JalweddBin *bin, guint id, const GValue *value)
{
    switch (id) {
    case PROP_BUFFER_MODE: return set_choice(&bin->buffer_mode, value, MODE_BUFFER, REFUSED_BUFFER_MODE);
    case PROP_RTCP_SYNC: return set_choice(&bin->rtcp_sync, value, SYNC_RTP_INFO, REFUSED_RTP_INFO);
    case PROP_RETRANSMISSION: return g_value_get_boolean(value) ? REFUSED_RETRANSMISSION : REFUSED_NOTHING;
    case PROP_SYNC_EVENT: return g_value_get_boolean(value) ? REFUSED_SYNC_EVENT : REFUSED_NOTHING;
    case PROP_NTP64: return g_value_get_boolean(value) ? REFUSED_NTP64 : REFUSED_NOTHING;
    case PROP_TIMEOUT: return g_value_get_boolean(value) ? REFUSED_NOTHING : REFUSED_TIMEOUT;
    case PROP_FEC_DECODERS:
    case PROP_FEC_ENCODERS: return g_value_get_boxed(value) != NULL ? REFUSED_FEC : REFUSED_NOTHING;
    case PROP_PROFILE:
        if (g_value_get_enum(value) > GST_RTP_PROFILE_SAVP)
            return REFUSED_PROFILE;
        bin->profile = (guint)g_value_get_enum(value);
    }
    return REFUSED_NOTHING;
}

static void set_property(GObject *object, guint id, const GValue *value, GParamSpec *spec)
{
    JalweddBin *bin = JALWEDD_BIN(object);
    Refusal refused = REFUSED_NOTHING;
    BIN_LOCK(bin);
    if (!set_of_buffer(bin, id, value) && !set_of_bin(bin, id, value))
        refused = set_refused(bin, id, value);
    BIN_UNLOCK(bin);
    if (refused != REFUSED_NOTHING)
        refuse(bin, &bin->refusals, refused);
}

static gboolean get_of_buffer(JalweddBin *bin, guint id, GValue *value)
{
    switch (id) {
    case PROP_LATENCY: g_value_set_uint(value, bin->latency); break;
    case PROP_DROP_ON_LATENCY: g_value_set_boolean(value, bin->drop_on_latency); break;
    case PROP_DO_LOST: g_value_set_boolean(value, bin->do_lost); break;
    case PROP_MAX_DROPOUT: g_value_set_uint(value, bin->max_dropout_time); break;
    case PROP_MAX_MISORDER: g_value_set_uint(value, bin->max_misorder_time); break;
    case PROP_TIME_DIFF: g_value_set_int(value, bin->max_time_diff); break;
    case PROP_RFC7273: g_value_set_boolean(value, bin->rfc7273_sync); break;
    case PROP_REFERENCE_META: g_value_set_boolean(value, bin->reference_meta); break;
    case PROP_MAX_ADJUSTMENT: g_value_set_uint64(value, bin->max_adjustment); break;
    case PROP_BUFFER_MODE: g_value_set_enum(value, bin->buffer_mode); break;
    default: return FALSE;
    }
    return TRUE;
}

static void get_of_bin(JalweddBin *bin, guint id, GValue *value)
{
    switch (id) {
    case PROP_SDES: g_value_set_boxed(value, bin->sdes); break;
    case PROP_TIME_SOURCE: g_value_set_enum(value, bin->time_source); break;
    case PROP_SYNC_SEND_TIME: g_value_set_boolean(value, bin->sync_send_time); break;
    case PROP_PIPELINE_CLOCK: g_value_set_boolean(value, bin->pipeline_clock); break;
    case PROP_MAX_STREAMS: g_value_set_uint(value, bin->max_streams); break;
    case PROP_AUTOREMOVE: g_value_set_boolean(value, bin->autoremove); break;
    case PROP_NTP_SYNC: g_value_set_boolean(value, bin->ntp_sync); break;
    case PROP_RTCP_SYNC: g_value_set_enum(value, bin->rtcp_sync); break;
    case PROP_SYNC_INTERVAL: g_value_set_uint(value, bin->sync_interval); break;
    case PROP_MAX_OFFSET: g_value_set_int64(value, bin->max_offset); break;
    case PROP_MIN_OFFSET: g_value_set_uint64(value, bin->min_offset); break;
    case PROP_SMOOTHING: g_value_set_uint(value, bin->smoothing); break;
    case PROP_IGNORE_TYPE: g_value_set_boolean(value, bin->ignore_type); break;
    case PROP_PROFILE: g_value_set_enum(value, (gint)bin->profile); break;
    case PROP_TIMEOUT: g_value_set_boolean(value, TRUE); break;
    case PROP_RETRANSMISSION:
    case PROP_SYNC_EVENT:
    case PROP_NTP64: g_value_set_boolean(value, FALSE); break;
    case PROP_FEC_DECODERS:
    case PROP_FEC_ENCODERS: g_value_set_boxed(value, NULL); break;
    }
}

static void get_property(GObject *object, guint id, GValue *value, GParamSpec *spec)
{
    JalweddBin *bin = JALWEDD_BIN(object);
    BIN_LOCK(bin);
    if (!get_of_buffer(bin, id, value))
        get_of_bin(bin, id, value);
    BIN_UNLOCK(bin);
}

/* ---- Installing */

#define READ_WRITE (G_PARAM_READWRITE | G_PARAM_STATIC_STRINGS)

static void put_flag(GObjectClass *class, guint id, const gchar *name, const gchar *text, gboolean at_first)
{
    g_object_class_install_property(class, id, g_param_spec_boolean(name, name, text, at_first, READ_WRITE));
}

static void put_uint(GObjectClass *class, guint id, const gchar *name, const gchar *text, guint at_first)
{
    g_object_class_install_property(class, id,
                                    g_param_spec_uint(name, name, text, 0, G_MAXUINT, at_first, READ_WRITE));
}

static void put_enum(GObjectClass *class, guint id, const gchar *name, const gchar *text, GType type,
                     gint at_first)
{
    g_object_class_install_property(class, id,
                                    g_param_spec_enum(name, name, text, type, at_first, READ_WRITE));
}

static void put_structure(GObjectClass *class, guint id, const gchar *name, const gchar *text)
{
    g_object_class_install_property(class, id,
                                    g_param_spec_boxed(name, name, text, GST_TYPE_STRUCTURE, READ_WRITE));
}

static void install_of_buffer(GObjectClass *class)
{
    put_uint(class, PROP_LATENCY, "latency", "How long jitter buffers hold packets, in milliseconds", 200);
    put_flag(class, PROP_DROP_ON_LATENCY, "drop-on-latency", "Jitter buffers drop what exceeds the latency",
             FALSE);
    put_flag(class, PROP_DO_LOST, "do-lost", "Jitter buffers send an event for a lost packet", FALSE);
    put_uint(class, PROP_MAX_DROPOUT, "max-dropout-time",
             "The gap in milliseconds after which a jitter buffer begins anew", 60000);
    put_uint(class, PROP_MAX_MISORDER, "max-misorder-time",
             "By how many milliseconds a packet may be late in a jitter buffer", 2000);
    g_object_class_install_property(
        class, PROP_TIME_DIFF,
        g_param_spec_int("max-rtcp-rtp-time-diff", "max-rtcp-rtp-time-diff",
                         "By how many milliseconds a sender report may be ahead of RTP (-1 = any)", -1,
                         G_MAXINT, 1000, READ_WRITE));
    put_flag(class, PROP_RFC7273, "rfc7273-sync", "Jitter buffers synchronize to the clock of RFC 7273",
             FALSE);
    put_flag(class, PROP_REFERENCE_META, "add-reference-timestamp-meta",
             "Jitter buffers add the sender's timestamp to buffers", FALSE);
    g_object_class_install_property(
        class, PROP_MAX_ADJUSTMENT,
        g_param_spec_uint64(
            "max-ts-offset-adjustment", "max-ts-offset-adjustment",
            "By how many nanoseconds a frame the offset of a stream changes at most (0 = at once)", 0,
            G_MAXUINT64, 0, READ_WRITE));
    put_enum(class, PROP_BUFFER_MODE, "buffer-mode", "How jitter buffers reckon time", buffer_mode_type(),
             MODE_SLAVE);
}

static void install_of_session(GObjectClass *class)
{
    put_structure(class, PROP_SDES, "sdes", "The SDES items of this participant");
    put_enum(class, PROP_TIME_SOURCE, "ntp-time-source", "The clock of NTP timestamps in sender reports",
             time_source_type(), 0);
    put_flag(class, PROP_SYNC_SEND_TIME, "rtcp-sync-send-time",
             "Sender reports tell when media is sent; false: when it was captured", TRUE);
    g_object_class_install_property(
        class, PROP_PIPELINE_CLOCK,
        g_param_spec_boolean("use-pipeline-clock", "use-pipeline-clock",
                             "The running time is that of NTP timestamps (deprecated: use ntp-time-source)",
                             FALSE, READ_WRITE | G_PARAM_DEPRECATED));
    put_uint(class, PROP_MAX_STREAMS, "max-streams", "How many streams a session has at most", G_MAXUINT);
    put_flag(class, PROP_AUTOREMOVE, "autoremove", "Streams of sources that are gone are removed", FALSE);
    put_flag(class, PROP_IGNORE_TYPE, "ignore-pt",
             "A stream has one pad for all payload types, numbered 255", FALSE);
    put_enum(class, PROP_PROFILE, "rtp-profile", "AVP or SAVP: feedback is refused by a warning",
             GST_TYPE_RTP_PROFILE, GST_RTP_PROFILE_AVP);
}

static void install_of_sync(GObjectClass *class)
{
    put_flag(class, PROP_NTP_SYNC, "ntp-sync", "Streams play by the NTP time of this host", FALSE);
    put_enum(class, PROP_RTCP_SYNC, "rtcp-sync", "Which sender reports synchronize streams",
             rtcp_sync_type(), 0);
    put_uint(class, PROP_SYNC_INTERVAL, "rtcp-sync-interval",
             "How many milliseconds pass between two synchronizations of a stream at least", 0);
    g_object_class_install_property(
        class, PROP_MAX_OFFSET,
        g_param_spec_int64("max-ts-offset", "max-ts-offset",
                           "The largest offset of a stream in nanoseconds (0 = any, as with ntp-sync)", 0,
                           G_MAXINT64, 3 * GST_SECOND, READ_WRITE));
    g_object_class_install_property(
        class, PROP_MIN_OFFSET,
        g_param_spec_uint64("min-ts-offset", "min-ts-offset",
                            "The smallest change of an offset in nanoseconds (0 = any, as with ntp-sync)", 0,
                            G_MAXUINT64, 4 * GST_MSECOND, READ_WRITE));
    put_uint(class, PROP_SMOOTHING, "ts-offset-smoothing-factor",
             "The part of a change of offset that counts at once is one of so many (0 = all of it)", 0);
}

static void install_refused(GObjectClass *class)
{
    put_flag(class, PROP_RETRANSMISSION, "do-retransmission", "Refused by a warning", FALSE);
    put_flag(class, PROP_SYNC_EVENT, "do-sync-event", "Without effect", FALSE);
    put_flag(class, PROP_NTP64, "update-ntp64-header-ext", "Without effect", FALSE);
    put_flag(class, PROP_TIMEOUT, "timeout-inactive-sources", "Without effect: silent sources time out",
             TRUE);
    put_structure(class, PROP_FEC_DECODERS, "fec-decoders", "Refused by a warning");
    put_structure(class, PROP_FEC_ENCODERS, "fec-encoders", "Refused by a warning");
}

void bin_properties_install(GObjectClass *class)
{
    class->set_property = set_property;
    class->get_property = get_property;
    install_of_buffer(class);
    install_of_session(class);
    install_of_sync(class);
    install_refused(class);
}

void bin_properties_init(JalweddBin *bin)
{
    gchar *cname = g_strdup_printf("user%u@host-%x", g_random_int(), g_random_int());
    bin->sdes = gst_structure_new("application/x-rtp-source-sdes", "cname", G_TYPE_STRING, cname, "tool",
                                  G_TYPE_STRING, "GStreamer with Jalwedd", NULL);
    g_free(cname);
    bin->latency = 200;
    bin->max_dropout_time = 60000;
    bin->max_misorder_time = 2000;
    bin->max_time_diff = 1000;
    bin->buffer_mode = MODE_SLAVE;
    bin->sync_send_time = TRUE;
    bin->max_streams = G_MAXUINT;
    bin->max_offset = 3 * GST_SECOND;
    bin->min_offset = 4 * GST_MSECOND;
    bin->profile = GST_RTP_PROFILE_AVP;
}
