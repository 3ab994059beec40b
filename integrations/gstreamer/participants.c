/* The participants of a session: one for each SSRC that this host sends. */
#include "session.h"

#include <string.h>

enum { RATE_IF_UNKNOWN = 90000 }; /* units a second */
enum { SENDER_REPORT = 200, MOMENT_PLACE = 8, MOMENT_OCTETS = 12 }; /* its NTP and RTP timestamps */
#define MOST_APART ((G_GUINT64_CONSTANT(1) << 32) / 2000)           /* half a millisecond of NTP time */

Participant *participant_at(JalweddSession *self, guint at)
{
    return g_ptr_array_index(self->participants, at);
}

Participant *participant_first(JalweddSession *self)
{
    return self->participants->len > 0 ? participant_at(self, 0) : NULL;
}

Participant *participant_find(JalweddSession *self, guint32 ssrc)
{
    for (guint at = 0; at < self->participants->len; at++)
        if (participant_at(self, at)->step.ssrc == ssrc)
            return participant_at(self, at);
    return NULL;
}

Participant *participant_shown(JalweddSession *self)
{
    for (guint at = 0; at < self->participants->len; at++)
        if (participant_at(self, at)->sends)
            return participant_at(self, at);
    return participant_first(self);
}

/* ---- After a call */

/* Keeps what a report of this host says of each source. */
static void keep_blocks(JalweddSession *self, const guint8 *data, gsize size)
{
    jalwedd_cursor cursor = JALWEDD_BEGIN;
    jalwedd_report report;
    while (jalwedd_next_block(data, size, &cursor, &report) == JALWEDD_TAKEN) {
        JalweddSource *about = source_find(self, report.ssrc);
        if (about == NULL)
            continue;
        about->sent = report;
        about->has_sent = TRUE;
    }
}

/* The library counts NTP time on from the start. If the clock that ntp-time-source names went another way, as
 * an audio device does, the pipeline after a pause, or a time of day that was set, a sender report tells its
 * time. A sender without a clock may send 0 for the moment of its report (6.4.1). */
static void put_moment(JalweddSession *self, Participant *one, guint8 *data, gsize size)
{
    guint64 moment, named, apart;
    if (size < MOMENT_PLACE + MOMENT_OCTETS || data[1] != SENDER_REPORT)
        return;
    if (self->disable_sr) {
        memset(data + MOMENT_PLACE, 0, MOMENT_OCTETS);
        return;
    }
    moment_by_both(self, &moment, &named);
    apart = named - jalwedd_ntp_of(one->config.ntp_base, moment - one->config.start);
    one->ahead = apart + MOST_APART > 2 * MOST_APART ? apart : 0;
    if (one->ahead != 0)
        GST_WRITE_UINT64_BE(data + MOMENT_PLACE, GST_READ_UINT64_BE(data + MOMENT_PLACE) + one->ahead);
}

static void hand_out(JalweddSession *self, Participant *one, GQueue *actions)
{
    guint8 copy[JALWEDD_OCTETS]; /* as the others may hand out a BYE, which this one hears */
    const gsize size = one->step.size;
    memcpy(copy, one->octets, size);
    put_moment(self, one, copy, size);
    action_push_rtcp(actions, copy, size);
    keep_blocks(self, copy, size);
    participants_hear_rtcp(self, one, one->peer, copy, size, actions);
}

static void change_ssrc(JalweddSession *self, Participant *one, GQueue *actions)
{
    collision_tell(self, one->ssrc, one->step.ssrc, actions);
    source_drop(self, one->ssrc);
    source_add(self, one->step.ssrc, TRUE);
    one->ssrc = one->step.ssrc;
    one->packets = one->sent_octets = 0;
    one->sends = FALSE;
}

void participant_after_call(JalweddSession *self, Participant *one, GQueue *actions)
{
    const gboolean hands_out = one->step.kind != JALWEDD_NOTHING;
    if (one->step.changed)
        change_ssrc(self, one, actions);
    if (one == participant_first(self) && (one->step.others_changed || one->step.entries != self->entries))
        listing_read(self, actions);
    if (hands_out)
        hand_out(self, one, actions);
}

/* ---- What comes, and what the others of this host send */

static gboolean has_left(const Participant *one)
{
    return one->step.next == JALWEDD_NEVER;
}

guint32 participants_hear_rtp(JalweddSession *self, Participant *except, guint64 peer, const guint8 *data,
                              gsize size, GQueue *actions)
{
    guint32 result = JALWEDD_TAKEN;
    for (guint at = 0; at < self->participants->len; at++) {
        Participant *one = participant_at(self, at);
        guint32 status;
        if (one == except || has_left(one))
            continue;
        status = call_arrive_rtp(self, one, peer, data, size);
        if (status != JALWEDD_TAKEN)
            result = status;
        participant_after_call(self, one, actions);
    }
    return result;
}

guint32 participants_hear_rtcp(JalweddSession *self, Participant *except, guint64 peer, const guint8 *data,
                               gsize size, GQueue *actions)
{
    guint32 result = JALWEDD_TAKEN;
    for (guint at = 0; at < self->participants->len; at++) {
        Participant *one = participant_at(self, at);
        guint32 status;
        if (one == except || has_left(one))
            continue;
        status = call_arrive_rtcp(self, one, peer, data, size);
        if (status != JALWEDD_TAKEN)
            result = status;
        participant_after_call(self, one, actions);
    }
    return result;
}

/* ---- Begin and change */

static void put_config(JalweddSession *self, jalwedd_config *config, gboolean has_ssrc, guint32 ssrc,
                       guint32 rate)
{
    Participant *before = participant_first(self);
    moment_by_both(self, &config->start, &config->ntp_base);
    if (before != NULL)
        config->ntp_base = jalwedd_ntp_of(before->config.ntp_base, config->start - before->config.start);
    config->ssrc = has_ssrc ? ssrc : moment_word(self);
    config->capacity = self->capacity;
    config->limit = self->limit;
    config->rate = rate != 0 ? rate : RATE_IF_UNKNOWN;
    config->clock_count = settings_clocks(self, config->rate, config->clocks);
    config->guard.names = self->guard_names;
    config->guard.trusted_names = MOST_PARTICIPANTS;
    config->guard.hold = self->guard_hold / 1000;
    settings_bandwidths(self, &self->sender_bandwidth, &self->receiver_bandwidth);
    config->sender_bw = self->sender_bandwidth;
    config->receiver_bw = self->receiver_bandwidth;
}

Participant *participant_add(JalweddSession *self, gboolean has_ssrc, guint32 ssrc, guint32 rate)
{
    Participant *one = g_new0(Participant, 1);
    guint32 status;
    put_config(self, &one->config, has_ssrc, ssrc, rate);
    status = call_new(self, one);
    if (status != JALWEDD_TAKEN) {
        GST_ERROR_OBJECT(self, "no participant: %s", jalwedd_text(status));
        g_free(one);
        return NULL;
    }
    one->ssrc = one->step.ssrc;
    one->peer = OWN_PEER + self->peers++;
    g_ptr_array_add(self->participants, one);
    source_add(self, one->ssrc, TRUE);
    g_cond_signal(&self->begun);
    ticks_wake(self);
    GST_DEBUG_OBJECT(self, "participant %08x of rate %u", one->ssrc, one->config.rate);
    return one;
}

void participants_ensure(JalweddSession *self)
{
    guint32 rate = self->send_rate;
    GHashTableIter iter;
    gpointer known;
    if (self->participants->len > 0 || self->leaves)
        return;
    g_hash_table_iter_init(&iter, self->clock_rates);
    while (rate == 0 && g_hash_table_iter_next(&iter, NULL, &known))
        rate = GPOINTER_TO_UINT(known);
    participant_add(self, self->has_ssrc, self->wanted_ssrc, rate);
}

void participants_configure(JalweddSession *self)
{
    settings_bandwidths(self, &self->sender_bandwidth, &self->receiver_bandwidth);
    for (guint at = 0; at < self->participants->len; at++) {
        const guint32 status = call_configure(self, participant_at(self, at));
        if (status != JALWEDD_TAKEN)
            GST_WARNING_OBJECT(self, "settings refused: %s", jalwedd_text(status));
    }
}
