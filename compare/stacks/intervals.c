/* A session of participants of the library and of GStreamer's rtpsession on one virtual clock, for
 * compare/stacks/intervals. Every datagram comes to all others at the moment at which it is sent.
 *
 * All join within the first second, and hear then of an announcer, who sends one empty report and is silent after it:
 * rtpsession's timer begins with the first datagram. At a moment half of them leave.
 *
 * It prints "report MOMENT WHO OCTETS", "bye MOMENT WHO OCTETS", in microseconds and octets without UDP and IP headers,
 * and each 10 seconds "counted MOMENT WHO MEMBERS" for each that is in: members by its own count, itself included.
 *
 * usage: intervals OURS|THEIRS|HALF PARTICIPANTS SEED LEAVE END     (LEAVE and END in seconds) */
#include "rtpsession.h"

#include <gst/check/gsttestclock.h>
#include <jalwedd.h>

#include <inttypes.h>
#include <stdbool.h>
#include <stdio.h>
#include <stdlib.h>
#include <string.h>

enum { MOST = 1000, ROOM = 1500, SECOND = 1000000, FIRST_SSRC = 0x1000, SENDER_BW = 100, RECEIVER_BW = 300 };

/* A participant: of the library if it has no `session`. */
typedef struct {
    jalwedd_handle handle;
    uint64_t next;
    GstElement *session;
    GObject *inner;
    GstPad *rtcp, *media;
    uint64_t joins, leaves;
    bool is_in, is_asked, is_gone;
} participant;

/* A compound that an rtpsession sent, until it is given to the others. */
typedef struct {
    size_t from, size;
    uint8_t octets[ROOM];
} compound;

static participant all[MOST];
static size_t count;
static GstClock *the_clock;
static uint64_t now, chance;
static GMutex lock;
static GQueue sent = G_QUEUE_INIT;

static void stop(const char *what, uint32_t status)
{
    fprintf(stderr, "intervals: %s: %s\n", what, jalwedd_text(status));
    exit(2);
}

/* The next of a row of random words (SplitMix64). */
static uint64_t draw(void)
{
    uint64_t word = chance += 0x9E3779B97F4A7C15;
    word = (word ^ word >> 30) * 0xBF58476D1CE4E5B9;
    word = (word ^ word >> 27) * 0x94D049BB133111EB;
    return word ^ word >> 31;
}

static uint32_t draw_word(void)
{
    return (uint32_t)(draw() >> 32);
}

/* ---- Sessions of GStreamer */

static GstFlowReturn on_report(GstPad *pad, GstObject *parent, GstBuffer *buffer)
{
    compound *one = g_new(compound, 1);
    (void)parent;
    one->from = (size_t)gst_pad_get_element_private(pad);
    one->size = gst_buffer_extract(buffer, 0, one->octets, ROOM);
    g_mutex_lock(&lock);
    g_queue_push_tail(&sent, one);
    g_mutex_unlock(&lock);
    gst_buffer_unref(buffer);
    return GST_FLOW_OK;
}

static void begin_theirs(size_t who)
{
    participant *it = &all[who];
    guint ssrc = FIRST_SSRC + (guint)who;
    char *cname = g_strdup_printf("p%04zu@example.org", who);
    it->session = gst_element_factory_make("rtpsession", NULL);
    g_assert(it->session);
    GstStructure *sdes = gst_structure_new("application/x-rtp-source-sdes", "cname", G_TYPE_STRING, cname, NULL);
    g_object_set(it->session, "bandwidth", 64000.0, "sdes", sdes, NULL);
    g_object_get(it->session, "internal-session", &it->inner, NULL);
    g_object_set(it->inner, "internal-ssrc", ssrc, NULL);
    gst_element_set_clock(it->session, the_clock);
    gst_element_set_base_time(it->session, 0);
    listen_at(gst_element_request_pad_simple(it->session, "send_rtcp_src"), on_report, (gpointer)who);
    gst_element_set_state(it->session, GST_STATE_PLAYING);
    it->rtcp = feed_of(it->session, "recv_rtcp_sink", gst_caps_new_empty_simple("application/x-rtcp"));
    GstCaps *media = gst_caps_new_simple("application/x-rtp", "ssrc", G_TYPE_UINT, ssrc, "payload", G_TYPE_INT, 0,
                                         "clock-rate", G_TYPE_INT, 8000, NULL);
    it->media = feed_of(it->session, "send_rtp_sink", media);
    gst_structure_free(sdes);
    g_free(cname);
}

/* Waits until the timer of each rtpsession that is in the session is set. */
static void settle(void)
{
    guint timers = 0;
    for (size_t who = 0; who < count; who++)
        timers += all[who].session && all[who].is_in && !all[who].is_gone;
    while (gst_test_clock_peek_id_count(GST_TEST_CLOCK(the_clock)) != timers)
        g_usleep(5);
}

static uint64_t their_next(void)
{
    GstClockID id;
    uint64_t next = UINT64_MAX;
    if (gst_test_clock_peek_next_pending_id(GST_TEST_CLOCK(the_clock), &id)) {
        next = MAX((gst_clock_id_get_time(id) + 999) / 1000, now);
        gst_clock_id_unref(id);
    }
    return next;
}

/* ---- What comes to all */

static void keep_step(participant *it, const jalwedd_step *step)
{
    it->next = step->next;
    it->is_gone = step->next == JALWEDD_NEVER;
}

static void give(const uint8_t *octets, size_t size, size_t from, size_t to)
{
    participant *it = &all[to];
    if (it->session) {
        push_octets(it->rtcp, NULL, octets, size);
        return;
    }
    static uint8_t out[JALWEDD_OCTETS];
    jalwedd_step step;
    uint32_t status = jalwedd_arrive_rtcp(&it->handle, now, from, draw_word(), octets, size, &step, out);
    if (status != JALWEDD_TAKEN)
        stop("a datagram", status);
    keep_step(it, &step);
}

static bool has_goodbye(const uint8_t *octets, size_t size)
{
    jalwedd_goodbye_place place;
    return jalwedd_goodbye(octets, size, 0, &place) == JALWEDD_TAKEN;
}

/* A host ends its rtpsession once the BYE is out. */
static void end(size_t who)
{
    all[who].is_gone = true;
    if (all[who].session)
        gst_element_set_state(all[who].session, GST_STATE_NULL);
}

static void give_all(const uint8_t *octets, size_t size, size_t from)
{
    bool is_bye = has_goodbye(octets, size);
    printf("%s %" PRIu64 " %zu %zu\n", is_bye ? "bye" : "report", now, from, size);
    if (is_bye)
        end(from);
    for (size_t who = 0; who < count; who++)
        if (who != from && all[who].is_in && !all[who].is_gone)
            give(octets, size, from, who);
}

static void give_sent(void)
{
    for (;;) {
        g_mutex_lock(&lock);
        compound *one = g_queue_pop_head(&sent);
        g_mutex_unlock(&lock);
        if (!one)
            return;
        give_all(one->octets, one->size, one->from);
        g_free(one);
    }
}

/* ---- What a participant does */

static void begin_ours(size_t who)
{
    participant *it = &all[who];
    char cname[32];
    int size = snprintf(cname, sizeof cname, "p%04zu@example.org", who);
    const jalwedd_item no_item = {0};
    jalwedd_config config = {.ssrc = FIRST_SSRC + (uint32_t)who, .capacity = 1024, .limit = 1472,
                             .sender_bw = SENDER_BW, .receiver_bw = RECEIVER_BW, .rate = 8000};
    jalwedd_step step;
    uint32_t status = jalwedd_new(&it->handle, &config, (uint8_t *)cname, (size_t)size, &no_item, 0, draw_word(),
                                  &step);
    if (status != JALWEDD_TAKEN)
        stop("new", status);
    it->next = step.next;
}

static void join(size_t who)
{
    static const uint8_t announcer[] = {0x80, 201, 0, 1, 0, 0, 0, 1, 0x81, 202, 0, 2, 0, 0, 0, 1, 1, 1, 'a', 0};
    participant *it = &all[who];
    it->is_in = true;
    give(announcer, sizeof announcer, MOST, who);
}

static void tick(size_t who)
{
    static uint8_t octets[JALWEDD_OCTETS];
    participant *it = &all[who];
    jalwedd_step step;
    uint32_t status = jalwedd_tick(&it->handle, now, draw_word(), draw_word(), &step, octets);
    if (status != JALWEDD_TAKEN)
        stop("a tick", status);
    keep_step(it, &step);
    if (step.kind != JALWEDD_NOTHING)
        give_all(octets, step.size, who);
}

static void leave(size_t who)
{
    static uint8_t octets[JALWEDD_OCTETS];
    participant *it = &all[who];
    it->is_asked = true;
    if (it->session) {
        gst_pad_push_event(it->media, gst_event_new_eos());
        return;
    }
    jalwedd_step step;
    uint32_t status = jalwedd_leave(&it->handle, now, draw_word(), &step, octets);
    if (status != JALWEDD_TAKEN)
        stop("a leave", status);
    keep_step(it, &step);
    if (step.kind != JALWEDD_NOTHING)
        give_all(octets, step.size, who);
}

static void print_counts(void)
{
    for (size_t who = 0; who < count; who++) {
        guint members = 0;
        if (!all[who].is_in || all[who].is_gone || all[who].is_asked)
            continue;
        if (all[who].session)
            g_object_get(all[who].inner, "num-active-sources", &members, NULL);
        else
            members = jalwedd_members(&all[who].handle);
        printf("counted %" PRIu64 " %zu %u\n", now, who, members);
    }
}

/* ---- The clock */

/* What comes next: when, and whose it is (`count`: an rtpsession's timer). */
static uint64_t earliest(size_t *whose)
{
    uint64_t first = their_next();
    *whose = count;
    for (size_t who = 0; who < count; who++) {
        const participant *it = &all[who];
        uint64_t moment = it->is_gone ? UINT64_MAX : !it->is_in ? it->joins : it->session ? UINT64_MAX : it->next;
        if (!it->is_gone && it->is_in && !it->is_asked)
            moment = MIN(moment, it->leaves);
        if (moment < first) {
            first = moment;
            *whose = who;
        }
    }
    return MAX(first, now);
}

static void act(size_t who)
{
    participant *it = &all[who];
    if (who == count)
        gst_clock_id_unref(gst_test_clock_process_next_clock_id(GST_TEST_CLOCK(the_clock)));
    else if (!it->is_in)
        join(who);
    else if (!it->is_asked && it->leaves <= now)
        leave(who);
    else
        tick(who);
}

static void run_until(uint64_t end)
{
    uint64_t look = 10 * SECOND;
    for (;;) {
        size_t who;
        settle();
        give_sent();
        settle();
        uint64_t moment = earliest(&who);
        for (; look <= MIN(moment, end); look += 10 * SECOND) {
            now = look;
            print_counts();
        }
        if (moment > end)
            return;
        now = moment;
        gst_test_clock_set_time(GST_TEST_CLOCK(the_clock), now * 1000);
        act(who);
    }
}

int main(int words, char **values)
{
    gst_init(NULL, NULL);
    if (words != 6 || strtoul(values[2], NULL, 10) > MOST) {
        fprintf(stderr, "usage: intervals ours|theirs|half PARTICIPANTS SEED LEAVE END\n");
        return 2;
    }
    count = strtoul(values[2], NULL, 10);
    chance = strtoul(values[3], NULL, 10);
    the_clock = gst_test_clock_new_with_start_time(0);
    gst_system_clock_set_default(the_clock);
    g_random_set_seed((guint32)chance);
    for (size_t who = 0; who < count; who++) {
        bool is_theirs = !strcmp(values[1], "theirs") || (!strcmp(values[1], "half") && who % 2);
        all[who].joins = draw() % SECOND;
        all[who].leaves = who % 4 == 0 || who % 4 == 3 ? strtoul(values[4], NULL, 10) * SECOND : UINT64_MAX;
        if (is_theirs)
            begin_theirs(who);
        else
            begin_ours(who);
    }
    run_until(strtoul(values[5], NULL, 10) * SECOND);
    fflush(stdout);
    _Exit(0);
}
