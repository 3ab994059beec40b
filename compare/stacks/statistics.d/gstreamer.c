/* Passes a stream of datagrams to GStreamer's rtpsession, for compare/stacks/statistics, membership and strangers. Its
 * clock is a GstTestClock, which stands at the moment of each line, or at the moment of rtpsession's own timer, rounded
 * up to a microsecond.
 *
 * Lines on standard input: "rtp MOMENT TIMES HEX", a datagram that comes so often; "rtcp MOMENT HEX"; "look MOMENT";
 * "end MOMENT". "from HOST PORT" gives the datagrams after it an address, RTCP with the port one above; those before
 * it have none. It prints "check MOMENT" when the timer expired, "report MOMENT HEX" for each compound, and for a look
 * "seen MOMENT SSRC:ROLE:RECEIVED:NTP ..": each source that is valid and said no goodbye, as member or sender, with its
 * packets, and the NTP timestamp of its latest sender report.
 *
 * usage: gstreamer SEED own|standard INTERVAL BANDWIDTH TYPE:RATE.. < LINES
 *        gstreamer                prints the version of the plugin that has rtpsession
 * `own` leaves rtpsession its limits on jumps, and `standard` sets those of RFC 3550, A.1. INTERVAL is the minimum
 * between reports, in milliseconds, and BANDWIDTH that of the session, in bits a second. */
#include "rtpsession.h"

#include <gst/check/gsttestclock.h>

#include <inttypes.h>
#include <stdio.h>
#include <stdlib.h>
#include <string.h>

enum { ROOM = 4096, TYPES = 128 };

static GstClock *the_clock;
static int rates[TYPES];
static GSocketAddress *rtp_from, *rtcp_from;

static GstFlowReturn on_report(GstPad *pad, GstObject *parent, GstBuffer *buffer)
{
    GstMapInfo map;
    (void)pad;
    (void)parent;
    gst_buffer_map(buffer, &map, GST_MAP_READ);
    printf("report %" PRIu64 " ", (uint64_t)(gst_clock_get_time(the_clock) / 1000));
    for (gsize at = 0; at < map.size; at++)
        printf("%02x", map.data[at]);
    printf("\n");
    gst_buffer_unmap(buffer, &map);
    gst_buffer_unref(buffer);
    return GST_FLOW_OK;
}

static GstFlowReturn on_media(GstPad *pad, GstObject *parent, GstBuffer *buffer)
{
    (void)pad;
    (void)parent;
    gst_buffer_unref(buffer);
    return GST_FLOW_OK;
}

static GstCaps *caps_of(GstElement *session, guint type, gpointer data)
{
    (void)session;
    (void)data;
    return gst_caps_new_simple("application/x-rtp", "payload", G_TYPE_INT, (int)type, "clock-rate", G_TYPE_INT,
                               rates[type % TYPES], NULL);
}

static GstElement *new_session(gboolean is_standard, guint64 interval, double bandwidth)
{
    GstElement *session = gst_element_factory_make("rtpsession", NULL);
    GObject *inner;
    g_assert(session);
    if (is_standard)
        g_object_set(session, "max-dropout-time", 0, "max-misorder-time", 0, NULL);
    g_object_set(session, "bandwidth", bandwidth, "rtcp-min-interval", interval * GST_MSECOND, NULL);
    g_object_get(session, "internal-session", &inner, NULL);
    g_object_set(inner, "internal-ssrc", 0xAA, NULL);
    g_object_unref(inner);
    g_signal_connect(session, "request-pt-map", G_CALLBACK(caps_of), NULL);
    gst_element_set_clock(session, the_clock);
    gst_element_set_base_time(session, 0);
    return session;
}

/* Lets the timer expire as often as it does up to a moment, and then stands there. */
static void go_to(GstClockTime moment, gboolean has_begun)
{
    GstTestClock *clock = GST_TEST_CLOCK(the_clock);
    while (has_begun) {
        GstClockID id;
        gst_test_clock_wait_for_next_pending_id(clock, &id);
        GstClockTime due = (gst_clock_id_get_time(id) + 999) / 1000 * 1000;
        gst_clock_id_unref(id);
        if (due > moment)
            break;
        gst_test_clock_set_time(clock, MAX(due, gst_clock_get_time(the_clock)));
        printf("check %" PRIu64 "\n", (uint64_t)(gst_clock_get_time(the_clock) / 1000));
        gst_clock_id_unref(gst_test_clock_process_next_clock_id(clock));
    }
    gst_test_clock_set_time(clock, moment);
}

static void come_from(const char *line)
{
    char host[16];
    unsigned port;
    g_assert(sscanf(line, "from %15s %u", host, &port) == 2);
    g_clear_object(&rtp_from);
    g_clear_object(&rtcp_from);
    rtp_from = g_inet_socket_address_new_from_string(host, port);
    rtcp_from = g_inet_socket_address_new_from_string(host, port + 1);
}

static void push(GstPad *pad, GSocketAddress *from, const char *hex, unsigned times)
{
    uint8_t octets[ROOM];
    size_t size = 0;
    unsigned octet;
    for (; sscanf(hex, "%2x", &octet) == 1; hex += 2)
        octets[size++] = (uint8_t)octet;
    while (times--)
        push_octets(pad, from, octets, size);
}

/* A source that is valid and said no goodbye counts among `num-active-sources`. */
static void print_source(const GstStructure *source)
{
    guint ssrc;
    guint64 received = 0, ntp = 0;
    gboolean is_internal, is_valid, has_left, is_sender;
    g_assert(gst_structure_get(source, "ssrc", G_TYPE_UINT, &ssrc, "internal", G_TYPE_BOOLEAN, &is_internal,
                               "validated", G_TYPE_BOOLEAN, &is_valid, "received-bye", G_TYPE_BOOLEAN, &has_left,
                               "is-sender", G_TYPE_BOOLEAN, &is_sender, NULL));
    gst_structure_get(source, "packets-received", G_TYPE_UINT64, &received, NULL);
    gst_structure_get(source, "sr-ntptime", G_TYPE_UINT64, &ntp, NULL);
    if (!is_internal && is_valid && !has_left)
        printf(" %08x:%s:%" PRIu64 ":%016" PRIx64, ssrc, is_sender ? "sender" : "member", received, ntp);
}

static void look(GstElement *session, uint64_t moment)
{
    GstStructure *stats;
    g_object_get(session, "stats", &stats, NULL);
    G_GNUC_BEGIN_IGNORE_DEPRECATIONS
    GValueArray *sources = g_value_get_boxed(gst_structure_get_value(stats, "source-stats"));
    printf("seen %" PRIu64, moment);
    for (guint at = 0; at < sources->n_values; at++)
        print_source(g_value_get_boxed(g_value_array_get_nth(sources, at)));
    G_GNUC_END_IGNORE_DEPRECATIONS
    printf("\n");
    gst_structure_free(stats);
}

static void take_lines(GstElement *session, GstPad *rtp, GstPad *rtcp)
{
    static char line[2 * ROOM];
    gboolean has_begun = FALSE;
    while (fgets(line, sizeof line, stdin)) {
        char kind[8];
        uint64_t moment;
        unsigned times = 1;
        int hex = 0;
        if (g_str_has_prefix(line, "from")) {
            come_from(line);
            continue;
        }
        g_assert(sscanf(line, "%7s %" SCNu64 " %n", kind, &moment, &hex) == 2);
        if (!strcmp(kind, "rtp"))
            sscanf(line, "rtp %*u %u %n", &times, &hex);
        go_to(moment * 1000, has_begun);
        if (!strcmp(kind, "end"))
            return;
        if (!strcmp(kind, "look")) {
            look(session, moment);
            continue;
        }
        gboolean is_rtp = !strcmp(kind, "rtp");
        push(is_rtp ? rtp : rtcp, is_rtp ? rtp_from : rtcp_from, line + hex, times);
        has_begun = TRUE;
    }
}

static int print_version(void)
{
    GstPlugin *plugin = gst_registry_find_plugin(gst_registry_get(), "rtpmanager");
    if (!plugin) {
        fprintf(stderr, "gstreamer: there is no rtpsession: install gstreamer1.0-plugins-good\n");
        return 2;
    }
    printf("%s\n", gst_plugin_get_version(plugin));
    return 0;
}

int main(int count, char **values)
{
    gst_init(NULL, NULL);
    if (count < 6)
        return print_version();
    for (int at = 5; at < count; at++) {
        int type, rate;
        g_assert(sscanf(values[at], "%d:%d", &type, &rate) == 2 && type >= 0 && type < TYPES);
        rates[type] = rate;
    }
    the_clock = gst_test_clock_new_with_start_time(0);
    gst_system_clock_set_default(the_clock);
    g_random_set_seed((guint32)atoi(values[1]));
    GstElement *session = new_session(!strcmp(values[2], "standard"), (guint64)atoi(values[3]), atof(values[4]));
    listen_at(gst_element_request_pad_simple(session, "send_rtcp_src"), on_report, NULL);
    gst_element_set_state(session, GST_STATE_PLAYING);
    GstPad *rtp = feed_of(session, "recv_rtp_sink", gst_caps_new_empty_simple("application/x-rtp"));
    GstPad *rtcp = feed_of(session, "recv_rtcp_sink", gst_caps_new_empty_simple("application/x-rtcp"));
    listen_at(gst_element_get_static_pad(session, "recv_rtp_src"), on_media, NULL);
    take_lines(session, rtp, rtcp);
    fflush(stdout);
    _Exit(0);
}
