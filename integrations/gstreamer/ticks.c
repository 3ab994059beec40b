/* The thread that ticks the participants of a session, and how the session ends. It runs while the element
 * plays. */
#include "session.h"

#define LATEST (G_MAXINT64 / 1000) /* microseconds: in nanoseconds still a moment of the clock */

/* ---- Leaving */

void ticks_end_leave(JalweddSession *self, GQueue *actions)
{
    gboolean over = TRUE;
    for (guint at = 0; at < self->participants->len; at++)
        over &= participant_at(self, at)->step.next == JALWEDD_NEVER;
    if (!self->leaves || self->finished || (!over && moment_now(self) < self->leave_end))
        return;
    self->finished = TRUE;
    g_ptr_array_set_size(self->participants, 0);
    action_end(actions);
}

static void leave_all(JalweddSession *self, GQueue *actions)
{
    self->leave_wanted = FALSE;
    self->leaves = TRUE;
    self->finished = FALSE;
    self->leave_end = moment_now(self) + LEAVE_TIME;
    for (guint at = 0; at < self->participants->len; at++) {
        Participant *one = participant_at(self, at);
        call_leave(self, one);
        participant_after_call(self, one, actions);
    }
    ticks_end_leave(self, actions);
    ticks_wake(self);
}

void ticks_leave(JalweddSession *self)
{
    GQueue actions = G_QUEUE_INIT;
    LOCK(self);
    self->leave_wanted = !self->leaves;
    if (self->leave_wanted && (self->stops || self->participants->len == 0))
        leave_all(self, &actions);
    ticks_wake(self);
    UNLOCK(self);
    actions_perform(self, &actions);
}

/* When the participants that send began to, or never. */
static guint64 senders_began(JalweddSession *self)
{
    guint64 began = JALWEDD_NEVER;
    for (guint at = 0; at < self->participants->len; at++)
        if (participant_at(self, at)->sends)
            began = MIN(began, participant_at(self, at)->config.start);
    return began;
}

/* An SSRC that only received gives way to those that send. */
static void retire(JalweddSession *self, Participant *one, guint64 now, GQueue *actions)
{
    if (one->retires && one->step.next == JALWEDD_NEVER) {
        source_drop(self, one->ssrc);
        g_ptr_array_remove(self->participants, one);
        listing_read(self, actions);
    } else if (!one->retires && !one->sends && now > senders_began(self) + RETIRE_TIME) {
        one->retires = TRUE;
        call_leave(self, one);
        participant_after_call(self, one, actions);
    }
}

static void retire_silent(JalweddSession *self, guint64 now, GQueue *actions)
{
    if (self->leaves || senders_began(self) == JALWEDD_NEVER)
        return;
    for (guint at = self->participants->len; at > 0; at--)
        retire(self, participant_at(self, at - 1), now, actions);
}

/* ---- Waiting */

static guint64 next_tick(JalweddSession *self)
{
    return self->tick_interval != 0 ? self->ticked + self->tick_interval / 1000 : JALWEDD_NEVER;
}

static guint64 next_due(JalweddSession *self)
{
    guint64 next = self->leave_wanted ? self->now : self->leaves ? self->leave_end : JALWEDD_NEVER;
    for (guint at = 0; at < self->participants->len; at++)
        next = MIN(next, participant_at(self, at)->step.next);
    return next;
}

void ticks_wake(JalweddSession *self)
{
    if (self->wait != NULL && next_due(self) < self->wait_until)
        gst_clock_id_unschedule(self->wait);
}

/* Waits with the lock given up. Whether something is due: not if ticks_wake finds that it is due sooner. */
static gboolean wait_until_due(JalweddSession *self)
{
    GstClockReturn result;
    GstClockID id;
    self->wait_until = MIN(MIN(next_due(self), next_tick(self)), LATEST);
    id = gst_clock_new_single_shot_id(self->clock, self->wait_until * 1000);
    self->wait = id;
    UNLOCK(self);
    result = gst_clock_id_wait(id, NULL);
    LOCK(self);
    self->wait = NULL;
    gst_clock_id_unref(id);
    return result != GST_CLOCK_UNSCHEDULED;
}

/* ---- Ticking */

/* Without the property bandwidth that of the session is measured. Others compute their intervals from what
 * they know, so that only a change by a quarter counts. */
static void configure_if_measured(JalweddSession *self)
{
    const guint32 before = self->receiver_bandwidth;
    guint32 sender, receiver;
    if (self->bandwidth > 0)
        return;
    settings_bandwidths(self, &sender, &receiver);
    if (receiver > before + before / 4 || receiver < before - before / 4)
        participants_configure(self);
}

static void tick_all(JalweddSession *self, GQueue *actions)
{
    const guint64 now = moment_now(self);
    const gboolean all = now >= next_tick(self);
    gboolean reported = FALSE;
    if (all)
        self->ticked = now;
    if (self->leave_wanted)
        leave_all(self, actions);
    sources_measure(self, now);
    for (guint at = 0; at < self->participants->len; at++) {
        Participant *one = participant_at(self, at);
        if (!all && one->step.next > now)
            continue;
        call_tick(self, one);
        reported |= one->step.kind == JALWEDD_REPORT;
        participant_after_call(self, one, actions);
    }
    if (reported)
        configure_if_measured(self);
    listing_make_room(self, now, actions);
    retire_silent(self, now, actions);
    ticks_end_leave(self, actions);
}

static gpointer run(gpointer data)
{
    JalweddSession *self = data;
    GQueue actions = G_QUEUE_INIT;
    LOCK(self);
    while (!self->stops) {
        if (self->participants->len == 0) {
            g_cond_wait(&self->begun, &self->lock);
            self->ticked = moment_now(self);
            continue;
        }
        if (!wait_until_due(self) || self->stops)
            continue;
        tick_all(self, &actions);
        UNLOCK(self);
        actions_perform(self, &actions);
        refusals_post(self, &self->refusals);
        LOCK(self);
    }
    UNLOCK(self);
    return NULL;
}

void ticks_start(JalweddSession *self)
{
    ticks_join(self);
    self->stops = FALSE;
    self->thread = g_thread_new("jalwedd-rtcp", run, self);
}

void ticks_stop(JalweddSession *self)
{
    LOCK(self);
    self->stops = TRUE;
    g_cond_signal(&self->begun);
    if (self->wait != NULL)
        gst_clock_id_unschedule(self->wait);
    UNLOCK(self);
}

void ticks_join(JalweddSession *self)
{
    if (self->thread != NULL)
        g_thread_join(self->thread);
    self->thread = NULL;
}
