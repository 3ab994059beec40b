/* What changed in the listing of the first participant becomes signals, as rtpsession tells them. */
#include "session.h"

static guint role_of(const jalwedd_source_state *state)
{
    if (!state->member)
        return JALWEDD_AWAY;
    return state->sender ? JALWEDD_SENDER : JALWEDD_MEMBER;
}

/* Takes in what a listing says of one source, and tells what is new. */
static void take(JalweddSession *self, const jalwedd_source_state *state, GQueue *actions)
{
    JalweddSource *source = source_find(self, state->ssrc);
    const guint role = role_of(state);
    const gboolean left = state->left != JALWEDD_NEVER;
    if (source == NULL || source->internal) {
        source = source_add(self, state->ssrc, FALSE);
        action_signal(actions, ON_NEW_SSRC, source);
    }
    if (role != JALWEDD_AWAY && source->role == JALWEDD_AWAY)
        action_signal(actions, ON_SSRC_VALIDATED, source);
    if (role != JALWEDD_SENDER && source->role == JALWEDD_SENDER && !left)
        action_signal(actions, ON_SENDER_TIMEOUT, source);
    if (left && !source->left)
        action_signal(actions, ON_BYE_SSRC, source);
    source->listing = self->listing;
    source->role = role;
    source->left = left;
    source->state = *state;
}

/* Drops the sources that the latest listing has no longer. */
static void drop_gone(JalweddSession *self, GQueue *actions)
{
    GHashTableIter iter;
    gpointer value;
    g_hash_table_iter_init(&iter, self->sources);
    while (g_hash_table_iter_next(&iter, NULL, &value)) {
        JalweddSource *source = value;
        if (source->internal || source->listing == self->listing)
            continue;
        action_signal(actions, source->left ? ON_BYE_TIMEOUT : ON_TIMEOUT, source);
        source->dropped = TRUE;
        g_hash_table_iter_remove(&iter);
        g_object_unref(source);
    }
}

void listing_read(JalweddSession *self, GQueue *actions)
{
    Participant *one = participant_first(self);
    jalwedd_source_state state;
    if (one == NULL || self->leaves || one->step.next == JALWEDD_NEVER || one->retires)
        return; /* one that leaves lists nobody, though nobody fell silent */
    self->listing++;
    for (guint64 from = 0; jalwedd_source(&one->handle, from, &state) == JALWEDD_TAKEN;
         from = state.ssrc + 1ull)
        if (participant_find(self, state.ssrc) == NULL)
            take(self, &state, actions);
    drop_gone(self, actions);
    self->entries = one->step.entries;
}

/* The source that never was valid and was listed for the longest time, or NULL. */
static JalweddSource *oldest_never_valid(JalweddSession *self)
{
    JalweddSource *oldest = NULL;
    GHashTableIter iter;
    gpointer value;
    g_hash_table_iter_init(&iter, self->sources);
    while (g_hash_table_iter_next(&iter, NULL, &value)) {
        JalweddSource *source = value;
        if (!source->internal && source->role == JALWEDD_AWAY && !source->left &&
            (oldest == NULL || source->since < oldest->since))
            oldest = source;
    }
    return oldest;
}

void listing_make_room(JalweddSession *self, guint64 now, GQueue *actions)
{
    Participant *one = participant_first(self);
    JalweddSource *oldest;
    if (one == NULL || self->leaves || one->step.entries < one->config.capacity ||
        now < self->made_room + SECOND)
        return;
    oldest = oldest_never_valid(self);
    if (oldest == NULL)
        return;
    self->made_room = now;
    for (guint at = 0; at < self->participants->len; at++)
        call_forget(self, participant_at(self, at), oldest->ssrc);
    listing_read(self, actions);
}
