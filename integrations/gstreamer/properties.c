/* The properties of jalweddsession, most of them by rtpsession's names, and of its internal session. */
#include "session.h"

enum {
    PROP_BANDWIDTH = 1,
    PROP_FRACTION,
    PROP_RR_BANDWIDTH,
    PROP_RS_BANDWIDTH,
    PROP_SDES,
    PROP_SOURCES,
    PROP_MEMBERS,
    PROP_INTERNAL,
    PROP_MIN_INTERVAL,
    PROP_PROBATION,
    PROP_MAX_DROPOUT,
    PROP_MAX_MISORDER,
    PROP_STATS,
    PROP_TWCC_STATS,
    PROP_PROFILE,
    PROP_TIME_SOURCE,
    PROP_SYNC_SEND_TIME,
    PROP_NTP64,
    PROP_PIPELINE_CLOCK,
    PROP_SSRC,
    PROP_CAPACITY,
    PROP_LIMIT,
    PROP_TICK_INTERVAL,
    PROP_REDUCED_SIZE,
    PROP_FAVOR_NEW,
    PROP_RECORD,
    PROP_GUARD_NAMES,
    PROP_GUARD_HOLD,
    PROP_DISABLE_SR,
    PROP_TIMEOUT,
    PROP_INTERNAL_SOURCE,
    PROP_SOURCE_OBJECTS,
    PROP_REDUCED_SIZE_SENT
};

enum { MAX_DROPOUT_TIME = 60000, MAX_MISORDER_TIME = 2000 }; /* milliseconds: rtpsession's defaults */
#define MIN_INTERVAL (5 * GST_SECOND)

GType time_source_type(void)
{
    static gsize type;
    static const GEnumValue values[] = {{0, "NTP time based on realtime clock", "ntp"},
                                        {1, "UNIX time based on realtime clock", "unix"},
                                        {2, "Running time based on pipeline clock", "running-time"},
                                        {3, "Pipeline clock time", "clock-time"},
                                        {0, NULL, NULL}};
    if (g_once_init_enter(&type))
        g_once_init_leave(&type, g_enum_register_static("JalweddNtpTimeSource", values));
    return type;
}

/* ---- Setting */

/* The items that applications set keep the CNAME that was there, if they have none. */
static void set_sdes(JalweddSession *self, const GstStructure *sdes)
{
    GstStructure *before = self->sdes;
    if (sdes == NULL)
        return;
    self->sdes = gst_structure_copy(sdes);
    if (!gst_structure_has_field(sdes, "cname"))
        gst_structure_set_value(self->sdes, "cname", gst_structure_get_value(before, "cname"));
    gst_structure_free(before);
}

/* What participants have as settings. FALSE if the property is none of these. With the lock. */
static gboolean set_setting(JalweddSession *self, guint id, const GValue *value)
{
    switch (id) {
    case PROP_BANDWIDTH: self->bandwidth = g_value_get_double(value); break;
    case PROP_FRACTION: self->fraction = g_value_get_double(value); break;
    case PROP_RR_BANDWIDTH: self->rr_bandwidth = g_value_get_int(value); break;
    case PROP_RS_BANDWIDTH: self->rs_bandwidth = g_value_get_int(value); break;
    case PROP_SDES: set_sdes(self, g_value_get_boxed(value)); break;
    default: return FALSE;
    }
    participants_configure(self);
    return TRUE;
}

/* What counts from the next packet or participant on. FALSE if it is none of these. With the lock. */
static gboolean set_plain(JalweddSession *self, guint id, const GValue *value)
{
    switch (id) {
    case PROP_PROBATION: self->probation = g_value_get_uint(value); break;
    case PROP_TIME_SOURCE: self->time_source = (guint)g_value_get_enum(value); break;
    case PROP_SYNC_SEND_TIME: self->sync_send_time = g_value_get_boolean(value); break;
    case PROP_PIPELINE_CLOCK: self->pipeline_clock = g_value_get_boolean(value); break;
    case PROP_GUARD_NAMES: self->guard_names = g_value_get_uint(value); break;
    case PROP_GUARD_HOLD: self->guard_hold = g_value_get_uint64(value); break;
    case PROP_CAPACITY: self->capacity = g_value_get_uint(value); break;
    case PROP_LIMIT: self->limit = g_value_get_uint(value) & ~3u; break;
    case PROP_TICK_INTERVAL: self->tick_interval = g_value_get_uint64(value); break;
    case PROP_REDUCED_SIZE: self->reduced_size = g_value_get_boolean(value); break;
    case PROP_FAVOR_NEW: self->favor_new = g_value_get_boolean(value); break;
    case PROP_DISABLE_SR: self->disable_sr = g_value_get_boolean(value); break;
    case PROP_SSRC:
        self->wanted_ssrc = g_value_get_uint(value);
        self->has_ssrc = TRUE;
        break;
    case PROP_RECORD:
        g_free(self->record_location);
        self->record_location = g_value_dup_string(value);
        break;
    default: return FALSE;
    }
    return TRUE;
}

/* What has no effect, or is refused: kept, so that it reads as it was set. With the lock. */
static Refusal set_refused(JalweddSession *self, guint id, const GValue *value)
{
    switch (id) {
    case PROP_MIN_INTERVAL:
        self->min_interval = g_value_get_uint64(value);
        return self->min_interval != MIN_INTERVAL ? REFUSED_INTERVAL : REFUSED_NOTHING;
    case PROP_MAX_DROPOUT:
        self->max_dropout = g_value_get_uint(value);
        return self->max_dropout != MAX_DROPOUT_TIME ? REFUSED_DROPOUT : REFUSED_NOTHING;
    case PROP_MAX_MISORDER:
        self->max_misorder = g_value_get_uint(value);
        return self->max_misorder != MAX_MISORDER_TIME ? REFUSED_MISORDER : REFUSED_NOTHING;
    case PROP_NTP64:
        self->ntp64 = g_value_get_boolean(value);
        return self->ntp64 ? REFUSED_NTP64 : REFUSED_NOTHING;
    case PROP_TIMEOUT: return g_value_get_boolean(value) ? REFUSED_NOTHING : REFUSED_TIMEOUT;
    case PROP_REDUCED_SIZE_SENT: return g_value_get_boolean(value) ? REFUSED_REDUCED_SIZE : REFUSED_NOTHING;
    case PROP_PROFILE:
        if (g_value_get_enum(value) > GST_RTP_PROFILE_SAVP)
            return REFUSED_PROFILE;
        self->profile = (guint)g_value_get_enum(value);
        break;
    }
    return REFUSED_NOTHING;
}

void properties_set(GObject *object, guint id, const GValue *value, GParamSpec *spec)
{
    JalweddSession *self = JALWEDD_SESSION(object);
    Refusal refused = REFUSED_NOTHING;
    LOCK(self);
    if (!set_setting(self, id, value) && !set_plain(self, id, value))
        refused = set_refused(self, id, value);
    UNLOCK(self);
    if (refused != REFUSED_NOTHING)
        refuse(self, &self->refusals, refused);
}

/* ---- Getting */

static guint32 internal_ssrc(JalweddSession *self)
{
    Participant *shown = participant_shown(self);
    if (shown != NULL)
        return shown->step.ssrc;
    if (!self->has_ssrc) {
        self->wanted_ssrc = moment_word(self);
        self->has_ssrc = TRUE;
    }
    return self->wanted_ssrc;
}

/* The source objects, in an array of a deprecated type, which applications expect. */
G_GNUC_BEGIN_IGNORE_DEPRECATIONS
static GValueArray *source_objects(JalweddSession *self)
{
    GValueArray *array = g_value_array_new(g_hash_table_size(self->sources));
    GHashTableIter iter;
    gpointer source;
    g_hash_table_iter_init(&iter, self->sources);
    while (g_hash_table_iter_next(&iter, NULL, &source)) {
        GValue one = G_VALUE_INIT;
        g_value_init(&one, JALWEDD_TYPE_SOURCE);
        g_value_set_object(&one, source);
        g_value_array_append(array, &one);
        g_value_unset(&one);
    }
    return array;
}
G_GNUC_END_IGNORE_DEPRECATIONS

/* FALSE if the property is none of these. With the lock. */
static gboolean get_setting(JalweddSession *self, guint id, GValue *value)
{
    Participant *one = participant_first(self);
    switch (id) {
    case PROP_BANDWIDTH: g_value_set_double(value, self->bandwidth); break;
    case PROP_FRACTION: g_value_set_double(value, self->fraction); break;
    case PROP_RR_BANDWIDTH: g_value_set_int(value, self->rr_bandwidth); break;
    case PROP_RS_BANDWIDTH: g_value_set_int(value, self->rs_bandwidth); break;
    case PROP_SDES: g_value_set_boxed(value, self->sdes); break;
    case PROP_SOURCES: g_value_set_uint(value, g_hash_table_size(self->sources)); break;
    case PROP_MEMBERS: g_value_set_uint(value, one != NULL ? one->step.members : 0); break;
    case PROP_SSRC: g_value_set_uint(value, internal_ssrc(self)); break;
    case PROP_INTERNAL_SOURCE: g_value_set_object(value, source_find(self, internal_ssrc(self))); break;
    case PROP_SOURCE_OBJECTS: g_value_take_boxed(value, source_objects(self)); break;
    case PROP_INTERNAL: g_value_set_object(value, self->internal); break;
    case PROP_RECORD: g_value_set_string(value, self->record_location); break;
    default: return FALSE;
    }
    return TRUE;
}

/* All others. With the lock. */
static void get_plain(JalweddSession *self, guint id, GValue *value)
{
    switch (id) {
    case PROP_MIN_INTERVAL: g_value_set_uint64(value, self->min_interval); break;
    case PROP_PROBATION: g_value_set_uint(value, self->probation); break;
    case PROP_MAX_DROPOUT: g_value_set_uint(value, self->max_dropout); break;
    case PROP_MAX_MISORDER: g_value_set_uint(value, self->max_misorder); break;
    case PROP_TWCC_STATS: g_value_set_boxed(value, NULL); break;
    case PROP_PROFILE: g_value_set_enum(value, (gint)self->profile); break;
    case PROP_TIME_SOURCE: g_value_set_enum(value, (gint)self->time_source); break;
    case PROP_SYNC_SEND_TIME: g_value_set_boolean(value, self->sync_send_time); break;
    case PROP_NTP64: g_value_set_boolean(value, self->ntp64); break;
    case PROP_PIPELINE_CLOCK: g_value_set_boolean(value, self->pipeline_clock); break;
    case PROP_GUARD_NAMES: g_value_set_uint(value, self->guard_names); break;
    case PROP_GUARD_HOLD: g_value_set_uint64(value, self->guard_hold); break;
    case PROP_CAPACITY: g_value_set_uint(value, self->capacity); break;
    case PROP_LIMIT: g_value_set_uint(value, self->limit); break;
    case PROP_TICK_INTERVAL: g_value_set_uint64(value, self->tick_interval); break;
    case PROP_REDUCED_SIZE: g_value_set_boolean(value, self->reduced_size); break;
    case PROP_FAVOR_NEW: g_value_set_boolean(value, self->favor_new); break;
    case PROP_DISABLE_SR: g_value_set_boolean(value, self->disable_sr); break;
    case PROP_TIMEOUT: g_value_set_boolean(value, TRUE); break;
    case PROP_REDUCED_SIZE_SENT: g_value_set_boolean(value, FALSE); break;
    }
}

void properties_get(GObject *object, guint id, GValue *value, GParamSpec *spec)
{
    JalweddSession *self = JALWEDD_SESSION(object);
    if (id == PROP_STATS) {
        g_value_take_boxed(value, statistics_of_session(self));
        return;
    }
    LOCK(self);
    if (!get_setting(self, id, value))
        get_plain(self, id, value);
    UNLOCK(self);
}

/* ---- Installing */

#define READ (G_PARAM_READABLE | G_PARAM_STATIC_STRINGS)
#define READ_WRITE (READ | G_PARAM_WRITABLE)

static void install(GObjectClass *class, guint id, GParamSpec *spec)
{
    g_object_class_install_property(class, id, spec);
}

static void install_bandwidths(GObjectClass *class)
{
    install(class, PROP_BANDWIDTH,
            g_param_spec_double("bandwidth", "Bandwidth",
                                "The bandwidth of the session in bits a second (0 = as measured)", 0,
                                G_MAXDOUBLE, 0, READ_WRITE));
    install(class, PROP_FRACTION,
            g_param_spec_double(
                "rtcp-fraction", "RTCP fraction",
                "The bandwidth of RTCP in bits a second, or below 1 as a fraction of the bandwidth", 0,
                G_MAXDOUBLE, 0.05, READ_WRITE));
    install(class, PROP_RR_BANDWIDTH,
            g_param_spec_int(
                "rtcp-rr-bandwidth", "RTCP RR bandwidth",
                "The RTCP bandwidth for receivers in bits a second, at least 128 (-1 = three quarters)", -1,
                G_MAXINT, -1, READ_WRITE));
    install(
        class, PROP_RS_BANDWIDTH,
        g_param_spec_int("rtcp-rs-bandwidth", "RTCP RS bandwidth",
                         "The RTCP bandwidth for senders in bits a second, at least 128 (-1 = a quarter)",
                         -1, G_MAXINT, -1, READ_WRITE));
}

static void install_intervals(GObjectClass *class)
{
    install(class, PROP_MIN_INTERVAL,
            g_param_spec_uint64("rtcp-min-interval", "Minimum RTCP interval",
                                "Without effect: the minimum is 5 seconds (RFC 3550, 6.2)", 0, G_MAXUINT64,
                                MIN_INTERVAL, READ_WRITE));
    install(class, PROP_TIMEOUT,
            g_param_spec_boolean("timeout-inactive-sources", "Timeout inactive sources",
                                 "Without effect: silent sources time out (RFC 3550, 6.3.5)", TRUE,
                                 READ_WRITE));
}

/* What the element and its internal session both have. */
static void install_shared(GObjectClass *class)
{
    install_bandwidths(class);
    install_intervals(class);
    install(class, PROP_SDES,
            g_param_spec_boxed("sdes", "SDES",
                               "The SDES items of this participant: at most seven besides the CNAME",
                               GST_TYPE_STRUCTURE, READ_WRITE));
    install(class, PROP_SOURCES,
            g_param_spec_uint("num-sources", "Num Sources",
                              "How many sources there are, those of this host included", 0, G_MAXUINT, 0,
                              READ));
    install(class, PROP_MEMBERS,
            g_param_spec_uint("num-active-sources", "Num Active Sources",
                              "How many members the session has (RFC 3550, 6.2.1)", 0, G_MAXUINT, 0, READ));
    install(class, PROP_PROBATION,
            g_param_spec_uint("probation", "Probation",
                              "0: RTP packets go on before their source is valid; else after two in a row",
                              0, G_MAXUINT, 2, READ_WRITE));
    install(class, PROP_STATS,
            g_param_spec_boxed("stats", "Statistics", "The statistics of the session and of its sources",
                               GST_TYPE_STRUCTURE, READ));
    install(class, PROP_PROFILE,
            g_param_spec_enum("rtp-profile", "RTP Profile", "AVP or SAVP: feedback is refused by a warning",
                              GST_TYPE_RTP_PROFILE, GST_RTP_PROFILE_AVP, READ_WRITE));
    install(class, PROP_LIMIT,
            g_param_spec_uint("rtcp-mtu", "RTCP MTU",
                              "The maximum size of a compound in octets, a multiple of 4", 576, 1472, 1400,
                              READ_WRITE));
    install(class, PROP_SSRC,
            g_param_spec_uint("internal-ssrc", "Internal SSRC", "The SSRC of this participant", 0, G_MAXUINT,
                              0, READ_WRITE));
    install(class, PROP_FAVOR_NEW,
            g_param_spec_boolean("favor-new", "Favor new sources",
                                 "Of two other sources with one SSRC, the packets of the later one go on",
                                 FALSE, READ_WRITE));
}

static void install_times(GObjectClass *class)
{
    install(class, PROP_TIME_SOURCE,
            g_param_spec_enum("ntp-time-source", "NTP Time Source",
                              "The clock of NTP timestamps in sender reports", time_source_type(), 0,
                              READ_WRITE));
    install(class, PROP_SYNC_SEND_TIME,
            g_param_spec_boolean("rtcp-sync-send-time", "RTCP Sync Send Time",
                                 "Sender reports tell when media is sent; false: when it was captured", TRUE,
                                 READ_WRITE));
    install(
        class, PROP_PIPELINE_CLOCK,
        g_param_spec_boolean("use-pipeline-clock", "Use pipeline clock",
                             "The running time is that of NTP timestamps (deprecated: use ntp-time-source)",
                             FALSE, READ_WRITE | G_PARAM_DEPRECATED));
    install(class, PROP_NTP64,
            g_param_spec_boolean("update-ntp64-header-ext", "Update NTP-64 RTP Header Extension",
                                 "Without effect: RTP packets go on as they came", FALSE, READ_WRITE));
    install(class, PROP_MAX_DROPOUT,
            g_param_spec_uint("max-dropout-time", "Max dropout time",
                              "Without effect: a gap of 3000 packets is a jump (RFC 3550, A.1)", 0,
                              G_MAXUINT, MAX_DROPOUT_TIME, READ_WRITE));
    install(class, PROP_MAX_MISORDER,
            g_param_spec_uint("max-misorder-time", "Max misorder time",
                              "Without effect: a packet is late by at most 100 packets (RFC 3550, A.1)", 0,
                              G_MAXUINT, MAX_MISORDER_TIME, READ_WRITE));
}

static void install_guard(GObjectClass *class)
{
    install(
        class, PROP_GUARD_NAMES,
        g_param_spec_uint("guard-names", "Guard names",
                          "How many sources an address may have: datagrams with more, or with a source of "
                          "another address, are held back (0 = no guard; usually 8)",
                          0, 1024, 0, READ_WRITE));
    install(class, PROP_GUARD_HOLD,
            g_param_spec_uint64("guard-hold", "Guard hold",
                                "For how many nanoseconds a source that is not heard belongs to its address",
                                0, G_MAXUINT64, 60 * GST_SECOND, READ_WRITE));
}

void properties_install(GObjectClass *class)
{
    install_shared(class);
    install_times(class);
    install_guard(class);
    install(class, PROP_INTERNAL,
            g_param_spec_object("internal-session", "Internal Session",
                                "Has the signals of rtpsession's internal session, with source objects",
                                JALWEDD_TYPE_INTERNAL_SESSION, READ));
    install(class, PROP_TWCC_STATS,
            g_param_spec_boxed("twcc-stats", "TWCC Statistics", "Always NULL: TWCC is feedback",
                               GST_TYPE_STRUCTURE, READ));
    install(class, PROP_CAPACITY,
            g_param_spec_uint("capacity", "Capacity",
                              "How many other sources are kept track of", 1, 1024, 256,
                              READ_WRITE));
    install(class, PROP_TICK_INTERVAL,
            g_param_spec_uint64(
                "tick-interval", "Tick interval",
                "Nanoseconds after which silent sources are looked for even if no report is due; more "
                "than a second keeps them for long (0 = only when a report is due)",
                0, G_MAXUINT64, GST_SECOND, READ_WRITE));
    install(
        class, PROP_REDUCED_SIZE,
        g_param_spec_boolean("reduced-size", "Reduced size",
                             "RTCP that begins with no report is read as if one came first; none is sent so",
                             TRUE, READ_WRITE));
    install(class, PROP_RECORD,
            g_param_spec_string(
                "record-location", "Record location",
                "The file for all calls of the first participant, with the media, for rtcp replay; "
                "its command goes to FILE.sh, further participants to FILE-2 and so on",
                NULL, READ_WRITE));
}

G_GNUC_BEGIN_IGNORE_DEPRECATIONS
void properties_install_internal(GObjectClass *class)
{
    install_shared(class);
    install(class, PROP_INTERNAL_SOURCE,
            g_param_spec_object("internal-source", "Internal Source",
                                "The source object of the internal SSRC", JALWEDD_TYPE_SOURCE, READ));
    install(class, PROP_SOURCE_OBJECTS,
            g_param_spec_boxed("sources", "Sources", "The source objects, in a GValueArray",
                               g_value_array_get_type(), READ));
    install(class, PROP_REDUCED_SIZE_SENT,
            g_param_spec_boolean("rtcp-reduced-size", "RTCP Reduced Size",
                                 "Refused by a warning: each compound begins with a report", FALSE,
                                 READ_WRITE));
    install(class, PROP_DISABLE_SR,
            g_param_spec_boolean("disable-sr-timestamp", "Disable Sender Report Timestamp",
                                 "Both timestamps of sender reports are 0, as those of a sender without a "
                                 "clock may be (RFC 3550, 6.4.1)",
                                 FALSE, READ_WRITE));
}
G_GNUC_END_IGNORE_DEPRECATIONS

void properties_init(JalweddSession *self)
{
    gchar *cname;
    self->fraction = 0.05;
    self->rr_bandwidth = self->rs_bandwidth = -1;
    self->capacity = 256;
    self->guard_hold = 60 * GST_SECOND;
    self->limit = 1400;
    self->probation = 2;
    self->profile = GST_RTP_PROFILE_AVP;
    self->max_dropout = MAX_DROPOUT_TIME;
    self->max_misorder = MAX_MISORDER_TIME;
    self->min_interval = MIN_INTERVAL;
    self->tick_interval = GST_SECOND;
    self->reduced_size = self->sync_send_time = TRUE;
    cname = g_strdup_printf("user%u@host-%x", moment_word(self), moment_word(self));
    self->sdes = gst_structure_new("application/x-rtp-source-sdes", "cname", G_TYPE_STRING, cname, "tool",
                                   G_TYPE_STRING, "GStreamer with Jalwedd", NULL);
    g_free(cname);
}
