/* What a session does to the world outside it: buffers, signals and events, in the order in which they were
 * found. They are listed with the session's lock held, and performed without it, as their receivers may call
 * the element. */
#include "session.h"

#include <string.h>

typedef struct {
    enum { PUSH_RTCP, PUSH_SYNC, SIGNAL, COLLISION, APP, END } kind;
    GstBuffer *buffer;
    JalweddSource *source;
    guint signal, subtype;
    guint32 ssrc, other;
    gchar name[5];
} Action;

/* ---- Listing */

static Action *add(GQueue *actions, gint kind)
{
    Action *action = g_new0(Action, 1);
    action->kind = kind;
    g_queue_push_tail(actions, action);
    return action;
}

void action_push_rtcp(GQueue *actions, const guint8 *data, gsize size)
{
    add(actions, PUSH_RTCP)->buffer = gst_buffer_new_memdup(data, size);
}

void action_push_sync(GQueue *actions, GstBuffer *buffer)
{
    add(actions, PUSH_SYNC)->buffer = buffer;
}

void action_signal(GQueue *actions, guint signal, JalweddSource *source)
{
    Action *action = add(actions, SIGNAL);
    action->signal = signal;
    action->ssrc = source->ssrc;
    action->source = g_object_ref(source);
}

void action_collision(GQueue *actions, JalweddSource *source, guint32 ssrc, guint32 other)
{
    Action *action = add(actions, COLLISION);
    action->ssrc = ssrc;
    action->other = other;
    action->source = source != NULL ? g_object_ref(source) : NULL;
}

void action_app(GQueue *actions, const guint8 *data, const jalwedd_app_place *app)
{
    Action *action = add(actions, APP);
    action->ssrc = app->ssrc;
    action->subtype = app->subtype;
    memcpy(action->name, app->name, sizeof app->name);
    if (app->size > 0)
        action->buffer = gst_buffer_new_memdup(data + app->offset, app->size);
}

void action_end(GQueue *actions)
{
    add(actions, END);
}

/* ---- Performing */

/* What every stream begins with. */
static void begin_stream(JalweddSession *self, GstPad *pad)
{
    gchar *id;
    GstEvent *event;
    GstCaps *caps;
    GstSegment segment;
    if (gst_pad_has_current_caps(pad))
        return;
    id = g_strdup_printf("%08x%08x", g_random_int(), g_random_int());
    event = gst_event_new_stream_start(id);
    g_free(id);
    gst_event_set_group_id(event, gst_util_group_id_next());
    gst_pad_push_event(pad, event);
    caps = gst_caps_new_empty_simple("application/x-rtcp");
    gst_pad_set_caps(pad, caps);
    gst_caps_unref(caps);
    gst_segment_init(&segment, GST_FORMAT_TIME);
    gst_pad_push_event(pad, gst_event_new_segment(&segment));
}

static void push(JalweddSession *self, GstPad **at, GstBuffer *buffer)
{
    GstPad *pad = pads_ref(self, at);
    if (pad == NULL) {
        gst_buffer_unref(buffer);
        return;
    }
    begin_stream(self, pad);
    gst_pad_push(pad, buffer);
    gst_object_unref(pad);
}

static void end_rtcp(JalweddSession *self)
{
    GstPad *pad = pads_ref(self, &self->send_rtcp_src);
    if (pad == NULL)
        return;
    begin_stream(self, pad);
    gst_pad_push_event(pad, gst_event_new_eos());
    gst_object_unref(pad);
}

/* Asks upstream to go on under another SSRC, by the event that payloaders know. */
static void tell_collision(JalweddSession *self, const Action *action)
{
    GstPad *pad = pads_ref(self, &self->send_rtp_sink);
    GstStructure *structure;
    signals_emit(self, ON_SSRC_COLLISION, action->ssrc, action->source);
    if (pad == NULL)
        return;
    structure = gst_structure_new("GstRTPCollision", "ssrc", G_TYPE_UINT, action->ssrc, NULL);
    if (action->other != 0)
        gst_structure_set(structure, "suggested-ssrc", G_TYPE_UINT, action->other, NULL);
    gst_pad_push_event(pad, gst_event_new_custom(GST_EVENT_CUSTOM_UPSTREAM, structure));
    gst_pad_push_event(pad, gst_event_new_reconfigure());
    gst_object_unref(pad);
}

static void perform(JalweddSession *self, Action *action)
{
    switch (action->kind) {
    case PUSH_RTCP: push(self, &self->send_rtcp_src, action->buffer); break;
    case PUSH_SYNC: push(self, &self->sync_src, action->buffer); break;
    case SIGNAL: signals_emit(self, action->signal, action->ssrc, action->source); break;
    case COLLISION: tell_collision(self, action); break;
    case APP:
        signals_emit_app(self, action->subtype, action->ssrc, action->name, action->buffer);
        gst_clear_buffer(&action->buffer);
        break;
    case END: end_rtcp(self); break;
    }
}

void actions_perform(JalweddSession *self, GQueue *actions)
{
    gboolean reports = FALSE;
    Action *action;
    while ((action = g_queue_pop_head(actions)) != NULL) {
        reports |= action->kind == PUSH_RTCP;
        perform(self, action);
        g_clear_object(&action->source);
        g_free(action);
    }
    if (reports)
        g_object_notify(G_OBJECT(self), "stats");
}
