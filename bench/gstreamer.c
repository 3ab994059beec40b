/* GStreamer's rtpsession as a participant, in GStreamer's test harness and on its test clock. (bench/session) */
#include "participant.h"

#include <gst/check/gstharness.h>
#include <gst/check/gsttestclock.h>

static GstTestClock *test_clock;
static GstElement *session;
static GstHarness *media, *control;
static int has_reported;

/* The thread that makes the reports waits on the clock: a tick is what it does between two waits. */
static GstClockReturn (*wait_of_clock)(GstClock *, GstClockEntry *, GstClockTimeDiff *);
static double woken, asleep;

static GstClockReturn timed_wait(GstClock *clock, GstClockEntry *entry, GstClockTimeDiff *jitter)
{
    asleep = nanoseconds();
    const GstClockReturn result = wait_of_clock(clock, entry, jitter);
    woken = nanoseconds();
    return result;
}

/* Once for all participants: makes the clock, and loads the plugin. */
static void prepare(void)
{
    gst_init(NULL, NULL);
    test_clock = GST_TEST_CLOCK(gst_test_clock_new());
    wait_of_clock = GST_CLOCK_GET_CLASS(test_clock)->wait;
    GST_CLOCK_GET_CLASS(test_clock)->wait = timed_wait;
    gst_system_clock_set_default(GST_CLOCK(test_clock));
    expect(gst_plugin_load_by_name("rtpmanager") != NULL, "GStreamer has rtpsession");
}

static GstHarness *harness(const char *into, const char *out_of, const char *caps)
{
    GstHarness *const made = gst_harness_new_with_element(session, into, out_of);
    gst_harness_set_src_caps_str(made, caps);
    return made;
}

void participant_begin(void)
{
    if (test_clock == NULL)
        prepare();
    has_reported = 0;
    session = gst_element_factory_make("rtpsession", NULL);
    gst_element_set_clock(session, GST_CLOCK(test_clock));
    media = harness("recv_rtp_sink", "recv_rtp_src",
                    "application/x-rtp, media=audio, payload=0, clock-rate=8000, encoding-name=PCMU");
    control = harness("recv_rtcp_sink", "send_rtcp_src", "application/x-rtcp");
    gst_harness_set_drop_buffers(media, TRUE);
}

void participant_end(void)
{
    gst_harness_teardown(media);
    gst_harness_teardown(control);
    gst_object_unref(session);
}

double participant_arrive(enum port port, const struct datagram *datagrams, size_t count)
{
    static GstBuffer *buffers[BATCH];
    GstHarness *const at = port == RTP_PORT ? media : control;
    guint refused = 0;
    for (size_t index = 0; index < count; index++)
        buffers[index] = gst_buffer_new_memdup(datagrams[index].octets, datagrams[index].size);
    const double start = nanoseconds();
    for (size_t index = 0; index < count; index++)
        refused += gst_harness_push(at, buffers[index]) != GST_FLOW_OK;
    const double spent = nanoseconds() - start;
    expect(refused == 0, "each datagram is taken");
    return spent;
}

size_t participant_report(uint8_t octets[MOST_OCTETS], struct tick *tick)
{
    GstBuffer *report;
    do {
        const double start = nanoseconds();
        gst_test_clock_crank(test_clock);
        gst_test_clock_wait_for_next_pending_id(test_clock, NULL);
        *tick = (struct tick){asleep - start, asleep - woken};
    } while ((report = gst_harness_try_pull(control)) == NULL);
    const size_t size = gst_buffer_extract(report, 0, octets, MOST_OCTETS);
    gst_buffer_unref(report);
    has_reported = 1;
    expect(gst_harness_buffers_in_queue(control) == 0, "a tick hands out one report");
    return size;
}

/* Its own source is one of them from its first report on. */
uint32_t participant_others(void)
{
    GObject *inner;
    guint sources;
    g_object_get(session, "internal-session", &inner, NULL);
    g_object_get(inner, "num-sources", &sources, NULL);
    g_object_unref(inner);
    return sources - (has_reported ? 1 : 0);
}
