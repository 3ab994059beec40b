/* turns: what happens to a session on the way, by a clock that stands still unless it is told to go on. Each
 * line that it prints is a turn that did not go as it should; the last line is `turned`.
 *
 *     flush       of what is sent: the SSRC stays, and all is counted
 *     pause       no RTCP goes out, nobody leaves, and reports go on after it
 *     payload     of what is sent: another payload type with the same clock changes nothing, and is no news
 *     rate        of what comes: another payload type with another clock adds no jitter
 *     drift       of the clock that ntp-time-source names: sender reports tell its time
 *     end         a BYE at once, and then EOS */
#include <gst/check/gstharness.h>
#include <gst/check/gsttestclock.h>
#include <gst/rtp/rtp.h>
#include <stdio.h>

enum { SSRC = 99, OTHER = 7, PACKETS = 50, RATE = 8000, OTHER_RATE = 48000, MOST_JITTER = 2 };
enum { SENDER_REPORT = 200, BYE = 203, CLOCK_TIME = 3 /* of ntp-time-source */ };
enum { MOST_WAIT = 30 /* seconds */ };
#define STEP (20 * GST_MSECOND)
#define MOST_APART ((GstClockTimeDiff)GST_MSECOND)
#define CAPS "application/x-rtp,media=audio,clock-rate=%d,encoding-name=X,payload=%d"

typedef struct {
    GstTestClock *clock;
    GstTestClock *fast; /* the pipeline's, if it is another one: faster by a tenth */
    GstElement *session;
    GstHarness *sends, *hears, *rtcp;
    guint sent, heard; /* packets */
} Session;

static const gchar *turn;

static void expect(gboolean holds, const gchar *what)
{
    if (!holds)
        printf("%s: not so: %s\n", turn, what);
}

static void set_caps(GstHarness *harness, gint rate, gint type)
{
    gchar *caps = g_strdup_printf(CAPS, rate, type);
    gst_harness_set_src_caps_str(harness, caps);
    g_free(caps);
}

static Session begin(const gchar *name)
{
    Session session = {.clock = GST_TEST_CLOCK(gst_test_clock_new())};
    turn = name;
    gst_system_clock_set_default(GST_CLOCK(session.clock));
    session.session = gst_element_factory_make("jalweddsession", NULL);
    gst_element_set_clock(session.session, GST_CLOCK(session.clock));
    session.sends = gst_harness_new_with_element(session.session, "send_rtp_sink", "send_rtp_src");
    session.hears = gst_harness_new_with_element(session.session, "recv_rtp_sink", "recv_rtp_src");
    session.rtcp = gst_harness_new_with_element(session.session, "recv_rtcp_sink", "send_rtcp_src");
    set_caps(session.sends, RATE, 8);
    set_caps(session.hears, RATE, 8);
    gst_harness_set_src_caps_str(session.rtcp, "application/x-rtcp");
    return session;
}

static void end(Session *session)
{
    gst_harness_teardown(session->rtcp);
    gst_harness_teardown(session->hears);
    gst_harness_teardown(session->sends);
    gst_object_unref(session->session);
    gst_system_clock_set_default(NULL);
    gst_object_unref(session->clock);
    gst_clear_object(&session->fast);
}

/* ---- Packets */

static GstBuffer *packet(guint32 ssrc, guint at, guint type, guint rate)
{
    GstRTPBuffer rtp = GST_RTP_BUFFER_INIT;
    GstBuffer *buffer = gst_rtp_buffer_new_allocate(160, 0, 0);
    gst_rtp_buffer_map(buffer, GST_MAP_WRITE, &rtp);
    gst_rtp_buffer_set_ssrc(&rtp, ssrc);
    gst_rtp_buffer_set_seq(&rtp, (guint16)at);
    gst_rtp_buffer_set_payload_type(&rtp, (guint8)type);
    gst_rtp_buffer_set_timestamp(&rtp, (guint32)(at * STEP * rate / GST_SECOND));
    gst_rtp_buffer_unmap(&rtp);
    GST_BUFFER_PTS(buffer) = at * STEP;
    return buffer;
}

/* Time goes on, and the session's thread, which waits for the clock, gets what it waits for. */
static void pass(Session *session, GstClockTime time)
{
    const GstClockTime until = gst_clock_get_time(GST_CLOCK(session->clock)) + time;
    gst_test_clock_wait_for_next_pending_id(session->clock, NULL);
    while (gst_test_clock_get_next_entry_time(session->clock) <= until) {
        gst_test_clock_crank(session->clock);
        gst_test_clock_wait_for_next_pending_id(session->clock, NULL);
    }
    gst_test_clock_set_time(session->clock, until);
    if (session->fast != NULL)
        gst_test_clock_set_time(session->fast, until + until / 10);
}

static void send(Session *session, guint type)
{
    for (guint at = 0; at < PACKETS; at++) {
        gst_harness_push(session->sends, packet(SSRC, session->sent++, type, RATE));
        pass(session, STEP);
    }
}

static void hear(Session *session, guint type, guint rate)
{
    for (guint at = 0; at < PACKETS; at++) {
        gst_harness_push(session->hears, packet(OTHER, session->heard++, type, rate));
        pass(session, STEP);
    }
}

/* ---- What is told */

typedef struct {
    gint kind; /* of its first packet */
    guint64 ntp;
    guint32 packets;    /* that its sender report says were sent */
    gboolean leaves;    /* it has a BYE */
    GstClockTime named; /* by the pipeline's clock, when it came */
} Report;

static GstBuffer *wait_for_rtcp(Session *session, Report *report)
{
    GstBuffer *buffer = gst_harness_try_pull(session->rtcp);
    for (guint at = 0; at < MOST_WAIT && buffer == NULL; at++) {
        report->named = session->fast != NULL ? gst_clock_get_time(GST_CLOCK(session->fast)) : 0;
        pass(session, GST_SECOND);
        buffer = gst_harness_try_pull(session->rtcp);
    }
    return buffer;
}

/* Takes the buffer. */
static void read_report(GstBuffer *buffer, Report *report)
{
    guint8 octets[1500] = {0};
    gsize size;
    if (buffer == NULL)
        return;
    size = gst_buffer_extract(buffer, 0, octets, sizeof octets);
    gst_buffer_unref(buffer);
    report->kind = octets[1];
    report->ntp = GST_READ_UINT64_BE(octets + 8);
    report->packets = GST_READ_UINT32_BE(octets + 20);
    for (gsize at = 0; at < size; at += 4 * (GST_READ_UINT16_BE(octets + at + 2) + 1))
        report->leaves |= octets[at + 1] == BYE;
}

/* The next report, which has to be a sender's of so many packets. */
static Report expect_report(Session *session, guint32 packets)
{
    Report report = {0};
    while (gst_harness_buffers_in_queue(session->rtcp) > 0)
        gst_buffer_unref(gst_harness_pull(session->rtcp));
    read_report(wait_for_rtcp(session, &report), &report);
    expect(report.kind == SENDER_REPORT, "a sender report comes");
    expect(report.packets == packets, "it tells of all packets");
    expect(!report.leaves, "nobody leaves");
    return report;
}

G_GNUC_BEGIN_IGNORE_DEPRECATIONS
static guint jitter(Session *session)
{
    guint jitter = G_MAXUINT, ssrc;
    GstStructure *stats;
    GValueArray *sources;
    g_object_get(session->session, "stats", &stats, NULL);
    sources = g_value_get_boxed(gst_structure_get_value(stats, "source-stats"));
    for (guint at = 0; at < sources->n_values; at++) {
        const GstStructure *source = g_value_get_boxed(&sources->values[at]);
        if (gst_structure_get_uint(source, "ssrc", &ssrc) && ssrc == OTHER)
            gst_structure_get_uint(source, "jitter", &jitter);
    }
    gst_structure_free(stats);
    return jitter;
}
G_GNUC_END_IGNORE_DEPRECATIONS

/* ---- Turns */

static void flush(void)
{
    Session session = begin("flush");
    GstSegment segment;
    send(&session, 8);
    gst_harness_push_event(session.sends, gst_event_new_flush_start());
    gst_harness_push_event(session.sends, gst_event_new_flush_stop(FALSE));
    gst_segment_init(&segment, GST_FORMAT_TIME);
    gst_harness_push_event(session.sends, gst_event_new_segment(&segment));
    send(&session, 8);
    expect_report(&session, 2 * PACKETS);
    expect(gst_harness_buffers_received(session.sends) == 2 * PACKETS, "all packets go on");
    end(&session);
}

static void pause(void)
{
    Session session = begin("pause");
    guint reports;
    send(&session, 8);
    gst_element_set_state(session.session, GST_STATE_PAUSED);
    reports = gst_harness_buffers_received(session.rtcp);
    gst_test_clock_set_time(session.clock, gst_clock_get_time(GST_CLOCK(session.clock)) + 8 * GST_SECOND);
    expect(gst_harness_buffers_received(session.rtcp) == reports, "no RTCP goes out");
    gst_element_set_state(session.session, GST_STATE_PLAYING);
    gst_test_clock_wait_for_next_pending_id(session.clock, NULL);
    send(&session, 8);
    expect_report(&session, 2 * PACKETS);
    end(&session);
}

static void payload(void)
{
    Session session = begin("payload");
    GstBus *bus = gst_bus_new();
    GstMessage *warning;
    gst_element_set_bus(session.session, bus);
    send(&session, 8);
    set_caps(session.sends, RATE, 0);
    send(&session, 0);
    expect_report(&session, 2 * PACKETS);
    warning = gst_bus_pop_filtered(bus, GST_MESSAGE_WARNING);
    expect(warning == NULL, "nothing warns");
    gst_clear_message(&warning);
    gst_element_set_bus(session.session, NULL);
    gst_object_unref(bus);
    end(&session);
}

static void rate(void)
{
    Session session = begin("rate");
    hear(&session, 8, RATE);
    expect(jitter(&session) <= MOST_JITTER, "packets in time have no jitter");
    set_caps(session.hears, OTHER_RATE, 96);
    hear(&session, 96, OTHER_RATE);
    expect(jitter(&session) <= MOST_JITTER, "nor have those of another clock");
    end(&session);
}

static void drift(void)
{
    Session session = begin("drift");
    GstClockTime told;
    Report report;
    session.fast = GST_TEST_CLOCK(gst_test_clock_new());
    gst_element_set_clock(session.session, GST_CLOCK(session.fast));
    g_object_set(session.session, "ntp-time-source", CLOCK_TIME, NULL);
    for (guint at = 1; at <= 3; at++) {
        send(&session, 8);
        report = expect_report(&session, at * PACKETS);
        told = gst_util_uint64_scale(report.ntp, GST_SECOND, G_GUINT64_CONSTANT(1) << 32);
        expect(GST_CLOCK_DIFF(told, report.named) <= MOST_APART, "it is not behind the clock");
        expect(GST_CLOCK_DIFF(report.named, told) <= MOST_APART, "it is not ahead of the clock");
    }
    end(&session);
}

static void leave(void)
{
    Session session = begin("end");
    Report report = {0};
    GstEvent *event;
    send(&session, 8);
    expect_report(&session, PACKETS);
    gst_harness_push_event(session.sends, gst_event_new_eos());
    gst_test_clock_crank(session.clock); /* the thread waits for what is due already, too */
    read_report(gst_harness_pull(session.rtcp), &report);
    expect(report.leaves, "a BYE goes out");
    event = gst_harness_pull_event(session.rtcp);
    while (event != NULL && GST_EVENT_TYPE(event) != GST_EVENT_EOS) {
        gst_event_unref(event);
        event = gst_harness_pull_event(session.rtcp);
    }
    expect(event != NULL, "EOS follows");
    gst_clear_event(&event);
    end(&session);
}

int main(int count, char **words)
{
    gst_init(&count, &words);
    flush();
    pause();
    payload();
    rate();
    drift();
    leave();
    printf("turned\n");
    return 0;
}
