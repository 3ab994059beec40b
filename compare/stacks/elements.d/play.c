/* play STATS SECONDS PIPELINE [NAME..]: plays a pipeline in gst-launch's language for some seconds, then
 * sends EOS and waits for its end. Prints, a line each, the signals of the elements of these names, the
 * warnings and errors of the pipeline, after STATS seconds the statistics of each source, as `stats NAME
 * STRUCTURE`, and `ended after SECONDS`. Of a bin the statistics are those of its sessions 0 and 1, and
 * `offset NAME SESSION NANOSECONDS` tells by how much each stream is delayed to play in sync. A bin of the
 * profile SAVP gets coders for SRTP when it asks for them, all of one key, which srtpdec gets wherever it is.
 */
#include <gst/gst.h>
#include <gst/rtp/rtp.h>
#include <stdio.h>
#include <stdlib.h>

#define KEY "000102030405060708090a0b0c0d0e0f101112131415161718191a1b1c1d" /* pipelines.py has it too */
enum { LONGEST_END = 8 }; /* seconds */

static const gchar *const signals[] = {"on-new-ssrc",  "on-ssrc-collision", "on-ssrc-validated",
                                       "on-ssrc-sdes", "on-bye-ssrc",       "on-bye-timeout",
                                       "on-timeout",   "on-sender-timeout", "on-new-sender-ssrc"};
static gint64 began;
static GPtrArray *buffers; /* the jitter buffers of bins, in the order in which they came */

static gdouble seconds_since(gint64 moment)
{
    return (gdouble)(g_get_monotonic_time() - moment) / 1e6;
}

static void on_session(GstElement *element, guint ssrc, const gchar *name)
{
    printf("signal %s %s %08x at %.3f\n", GST_OBJECT_NAME(element), name, ssrc, seconds_since(began));
    fflush(stdout);
}

static void on_bin(GstElement *element, guint session, guint ssrc, const gchar *name)
{
    on_session(element, ssrc, name);
}

static void on_buffer(GstElement *bin, GstElement *buffer, guint session, guint ssrc, gpointer data)
{
    g_object_set_data(G_OBJECT(buffer), "session", GUINT_TO_POINTER(session));
    g_object_set_data_full(G_OBJECT(buffer), "bin", gst_object_get_name(GST_OBJECT(bin)), g_free);
    g_ptr_array_add(buffers, gst_object_ref(buffer));
}

static gboolean is_bin(GstElement *element)
{
    return g_signal_lookup("get-session", G_OBJECT_TYPE(element)) != 0;
}

static void watch(GstElement *element)
{
    const GCallback call = is_bin(element) ? G_CALLBACK(on_bin) : G_CALLBACK(on_session);
    for (guint at = 0; at < G_N_ELEMENTS(signals); at++)
        if (g_signal_lookup(signals[at], G_OBJECT_TYPE(element)) != 0)
            g_signal_connect(element, signals[at], call, (gpointer)signals[at]);
    if (is_bin(element))
        g_signal_connect(element, "new-jitterbuffer", G_CALLBACK(on_buffer), NULL);
}

/* ---- SRTP */

static GstCaps *on_request_key(GstElement *decoder, guint ssrc, gpointer data)
{
    return gst_caps_from_string("application/x-srtp, srtp-key=(buffer)" KEY
                                ", srtp-cipher=(string)aes-128-icm, srtp-auth=(string)hmac-sha1-80, "
                                "srtcp-cipher=(string)aes-128-icm, srtcp-auth=(string)hmac-sha1-80");
}

/* The bin's coder of this kind: one for the RTP and the RTCP of its session. */
static GstElement *coder_of(GstElement *bin, const gchar *kind)
{
    GstElement *coder = g_object_get_data(G_OBJECT(bin), kind);
    if (coder == NULL) {
        coder = gst_object_ref_sink(gst_element_factory_make(kind, NULL));
        g_object_set_data_full(G_OBJECT(bin), kind, coder, gst_object_unref);
    }
    return gst_object_ref(coder);
}

static GstElement *on_request_decoder(GstElement *bin, guint session, gpointer data)
{
    return coder_of(bin, "srtpdec");
}

/* rtpbin wants the pads of its encoder to be there. */
static GstElement *on_request_encoder(GstElement *bin, guint session, const gchar *pad)
{
    GstElement *encoder = coder_of(bin, "srtpenc");
    gst_util_set_object_arg(G_OBJECT(encoder), "key", KEY);
    gst_object_unref(gst_element_request_pad_simple(encoder, pad));
    return encoder;
}

static void give_coders(GstElement *bin)
{
    GstRTPProfile profile;
    g_object_get(bin, "rtp-profile", &profile, NULL);
    if (profile != GST_RTP_PROFILE_SAVP)
        return;
    g_signal_connect(bin, "request-rtp-encoder", G_CALLBACK(on_request_encoder), "rtp_sink_0");
    g_signal_connect(bin, "request-rtcp-encoder", G_CALLBACK(on_request_encoder), "rtcp_sink_0");
    g_signal_connect(bin, "request-rtp-decoder", G_CALLBACK(on_request_decoder), NULL);
    g_signal_connect(bin, "request-rtcp-decoder", G_CALLBACK(on_request_decoder), NULL);
}

/* An element was added to a bin: a parsed pipeline does so before it requests pads. */
static gboolean on_added(GSignalInvocationHint *hint, guint count, const GValue *values, gpointer data)
{
    GstElement *element = g_value_get_object(&values[1]);
    if (g_signal_lookup("request-key", G_OBJECT_TYPE(element)) != 0)
        g_signal_connect(element, "request-key", G_CALLBACK(on_request_key), NULL);
    if (is_bin(element))
        give_coders(element);
    return TRUE;
}

static void code_sessions(void)
{
    gpointer class = g_type_class_ref(GST_TYPE_BIN);
    g_signal_add_emission_hook(g_signal_lookup("element-added", GST_TYPE_BIN), 0, on_added, NULL, NULL);
    g_type_class_unref(class);
}

/* ---- Printing */

static void print_offset(gpointer buffer, gpointer data)
{
    gint64 offset;
    g_object_get(buffer, "ts-offset", &offset, NULL);
    printf("offset %s %u %" G_GINT64_FORMAT "\n", (gchar *)g_object_get_data(buffer, "bin"),
           GPOINTER_TO_UINT(g_object_get_data(buffer, "session")), offset);
}

G_GNUC_BEGIN_IGNORE_DEPRECATIONS
static void print_sources(const gchar *name, const GstStructure *stats)
{
    GValueArray *sources = g_value_get_boxed(gst_structure_get_value(stats, "source-stats"));
    for (guint at = 0; at < sources->n_values; at++) {
        gchar *text = gst_structure_to_string(g_value_get_boxed(&sources->values[at]));
        printf("stats %s %s\n", name, text);
        g_free(text);
    }
}
G_GNUC_END_IGNORE_DEPRECATIONS

static void print_session(const gchar *name, GstElement *session)
{
    GstStructure *stats;
    guint64 rtcp, rtp;
    g_object_get(session, "stats", &stats, NULL);
    print_sources(name, stats);
    if (gst_structure_get_uint64(stats, "jalwedd-refused-rtcp", &rtcp) &&
        gst_structure_get_uint64(stats, "jalwedd-refused-rtp", &rtp))
        printf("refused %s %" G_GUINT64_FORMAT " %" G_GUINT64_FORMAT "\n", name, rtcp, rtp);
    if (gst_structure_get_uint64(stats, "jalwedd-held-back", &rtp))
        printf("held %s %" G_GUINT64_FORMAT "\n", name, rtp);
    gst_structure_free(stats);
}

static void print_stats(GstElement *element)
{
    if (!is_bin(element)) {
        print_session(GST_OBJECT_NAME(element), element);
        return;
    }
    for (guint id = 0; id < 2; id++) {
        GstElement *session = NULL;
        g_signal_emit_by_name(element, "get-session", id, &session);
        if (session != NULL)
            print_session(GST_OBJECT_NAME(element), session);
        g_clear_object(&session);
    }
}

static void for_each(GstElement *pipeline, gchar **names, void (*call)(GstElement *element))
{
    for (; *names != NULL; names++) {
        GstElement *element = gst_bin_get_by_name(GST_BIN(pipeline), *names);
        if (element != NULL)
            call(element);
        g_clear_object(&element);
    }
}

static void print_message(GstMessage *message)
{
    const gboolean warns = GST_MESSAGE_TYPE(message) == GST_MESSAGE_WARNING;
    GError *error = NULL;
    if (warns)
        gst_message_parse_warning(message, &error, NULL);
    else
        gst_message_parse_error(message, &error, NULL);
    printf("%s %s: %s\n", warns ? "warning" : "error", GST_OBJECT_NAME(GST_MESSAGE_SRC(message)),
           error->message);
    fflush(stdout);
    g_error_free(error);
}

/* Prints the items of a source that a message tells. */
static void print_items(GstMessage *message)
{
    const GstStructure *structure = gst_message_get_structure(message);
    gchar *text;
    if (!gst_structure_has_name(structure, "application/x-rtp-source-sdes"))
        return;
    text = gst_structure_to_string(structure);
    printf("sdes %s %s\n", GST_OBJECT_NAME(GST_MESSAGE_SRC(message)), text);
    g_free(text);
}

/* Whether a message ends the wait: all are printed but EOS. */
static gboolean take_message(GstMessage *message)
{
    switch (GST_MESSAGE_TYPE(message)) {
    case GST_MESSAGE_ELEMENT: print_items(message); return FALSE;
    case GST_MESSAGE_WARNING: print_message(message); return FALSE;
    case GST_MESSAGE_ERROR: print_message(message); return TRUE;
    default: return TRUE;
    }
}

/* Prints messages until these seconds have passed, or the pipeline ends or fails: the last of these, or
 * NULL. */
static GstMessage *wait_for_end(GstBus *bus, gdouble seconds)
{
    const gint64 end = g_get_monotonic_time() + (gint64)(seconds * 1e6);
    const GstMessageType types =
        GST_MESSAGE_WARNING | GST_MESSAGE_ERROR | GST_MESSAGE_EOS | GST_MESSAGE_ELEMENT;
    GstMessage *message = NULL;
    for (gint64 left = end; message == NULL && left > 0; left = end - g_get_monotonic_time()) {
        const gint64 wait = MAX(end - g_get_monotonic_time(), 0);
        message = gst_bus_timed_pop_filtered(bus, (GstClockTime)wait * 1000, types);
        if (message != NULL && !take_message(message))
            gst_clear_message(&message);
    }
    return message;
}

static void play(GstElement *pipeline, gdouble stats, gdouble seconds, gchar **names)
{
    GstBus *bus = gst_element_get_bus(pipeline);
    GstMessage *message;
    gint64 asked;
    began = g_get_monotonic_time();
    gst_element_set_state(pipeline, GST_STATE_PLAYING);
    message = wait_for_end(bus, stats);
    for_each(pipeline, names, print_stats);
    g_ptr_array_foreach(buffers, print_offset, NULL);
    fflush(stdout);
    if (message == NULL)
        message = wait_for_end(bus, seconds - stats);
    asked = g_get_monotonic_time();
    if (message == NULL) {
        gst_element_send_event(pipeline, gst_event_new_eos());
        message = wait_for_end(bus, LONGEST_END);
    }
    if (message != NULL && GST_MESSAGE_TYPE(message) == GST_MESSAGE_EOS)
        printf("ended after %.3f\n", seconds_since(asked));
    gst_clear_message(&message);
    gst_element_set_state(pipeline, GST_STATE_NULL);
    gst_object_unref(bus);
}

int main(int count, char **words)
{
    GError *error = NULL;
    GstElement *pipeline;
    gst_init(&count, &words);
    buffers = g_ptr_array_new_with_free_func(gst_object_unref);
    code_sessions();
    if (count < 4)
        return 2;
    pipeline = gst_parse_launch(words[3], &error);
    if (error != NULL) {
        printf("error pipeline: %s\n", error->message);
        return 1;
    }
    for_each(pipeline, words + 4, watch);
    play(pipeline, atof(words[1]), atof(words[2]), words + 4);
    g_ptr_array_unref(buffers);
    gst_object_unref(pipeline);
    return 0;
}
