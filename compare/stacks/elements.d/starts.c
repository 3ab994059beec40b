/* starts COUNT: starts, pauses and stops COUNT times a pipeline of two sessions that hear each other, by
 * turns of jalweddsession and of jalweddbin, while another thread reads and sets their properties. Prints
 * `started COUNT`. */
#include <gst/gst.h>
#include <stdio.h>
#include <stdlib.h>

enum { SHORTEST = 1000, LONGEST = 100000 }; /* microseconds for which a pipeline has a state */

static const gchar *const descriptions[] = {
    "jalweddsession name=s jalweddsession name=r audiotestsrc num-buffers=2000 ! audio/x-raw,rate=8000 ! "
    "alawenc ! rtppcmapay ! s.send_rtp_sink s.send_rtp_src ! r.recv_rtp_sink "
    "r.recv_rtp_src ! fakesink async=false s.send_rtcp_src ! queue ! r.recv_rtcp_sink "
    "r.send_rtcp_src ! udpsink host=127.0.0.1 port=45300 sync=false async=false "
    "udpsrc address=127.0.0.1 port=45300 caps=application/x-rtcp ! s.recv_rtcp_sink",
    "jalweddbin name=s jalweddbin name=r audiotestsrc is-live=true ! audio/x-raw,rate=8000 ! alawenc ! "
    "rtppcmapay ! s.send_rtp_sink_0 s.send_rtp_src_0 ! queue ! r.recv_rtp_sink_0 "
    "r. ! rtppcmadepay ! fakesink async=false s.send_rtcp_src_0 ! queue ! r.recv_rtcp_sink_0 "
    "r.send_rtcp_src_0 ! udpsink host=127.0.0.1 port=45300 sync=false async=false "
    "udpsrc address=127.0.0.1 port=45300 caps=application/x-rtcp ! s.recv_rtcp_sink_0"};
static gint is_over;

static void read_source(GObject *internal)
{
    GObject *source = NULL;
    GstStructure *stats;
    guint ssrc;
    g_object_get(internal, "internal-ssrc", &ssrc, NULL);
    g_signal_emit_by_name(internal, "get-source-by-ssrc", ssrc, &source);
    if (source == NULL)
        return;
    g_object_get(source, "stats", &stats, NULL);
    gst_structure_free(stats);
    g_object_unref(source);
}

static void read_session(GstElement *session)
{
    GstStructure *stats, *sdes;
    GObject *internal;
    guint sources;
    g_object_get(session, "stats", &stats, "sdes", &sdes, "num-sources", &sources, "internal-session",
                 &internal, NULL);
    read_source(internal);
    g_object_set(session, "sdes", sdes, "bandwidth", 64000.0 + sources, NULL);
    gst_structure_free(stats);
    gst_structure_free(sdes);
    g_object_unref(internal);
}

static void read_element(GstElement *element)
{
    GstElement *session = NULL;
    if (g_signal_lookup("get-session", G_OBJECT_TYPE(element)) == 0) {
        read_session(element);
        return;
    }
    g_signal_emit_by_name(element, "get-session", 0, &session);
    g_object_set(element, "latency", g_random_int_range(20, 200), NULL);
    read_session(session);
    gst_object_unref(session);
}

static gpointer read_all(gpointer pipeline)
{
    while (!g_atomic_int_get(&is_over)) {
        GstElement *element = gst_bin_get_by_name(pipeline, g_random_boolean() ? "s" : "r");
        read_element(element);
        gst_object_unref(element);
    }
    return NULL;
}

static void stay(GstElement *pipeline, GstState state)
{
    gst_element_set_state(pipeline, state);
    g_usleep((gulong)g_random_int_range(SHORTEST, LONGEST));
}

static void start_and_stop(const gchar *description)
{
    GstElement *pipeline = gst_parse_launch(description, NULL);
    GThread *reader;
    g_atomic_int_set(&is_over, 0);
    reader = g_thread_new(NULL, read_all, pipeline);
    stay(pipeline, GST_STATE_PLAYING);
    stay(pipeline, GST_STATE_PAUSED);
    stay(pipeline, GST_STATE_PLAYING);
    gst_element_set_state(pipeline, GST_STATE_NULL);
    g_atomic_int_set(&is_over, 1);
    g_thread_join(reader);
    gst_object_unref(pipeline);
}

int main(int count, char **words)
{
    gst_init(&count, &words);
    if (count != 2)
        return 2;
    for (int at = 0; at < atoi(words[1]); at++)
        start_and_stop(descriptions[at % 2]);
    printf("started %s\n", words[1]);
    gst_deinit();
    return 0;
}
