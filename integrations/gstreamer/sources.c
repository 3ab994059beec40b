/* The source objects of a session, which applications read as those of rtpsession. */
#include "session.h"

enum {
    PROP_SSRC = 1,
    PROP_IS_CSRC,
    PROP_IS_VALIDATED,
    PROP_IS_SENDER,
    PROP_SDES,
    PROP_STATS,
    PROP_PROBATION
};

enum { MEASURED_TIME = 2 * SECOND };

G_DEFINE_FINAL_TYPE(JalweddSource, jalwedd_source, G_TYPE_OBJECT)

/* ---- In a session */

JalweddSource *source_find(JalweddSession *self, guint32 ssrc)
{
    return g_hash_table_lookup(self->sources, GUINT_TO_POINTER(ssrc));
}

static void let_go(JalweddSource *source)
{
    source->dropped = TRUE;
    g_object_unref(source);
}

JalweddSource *source_add(JalweddSession *self, guint32 ssrc, gboolean internal)
{
    JalweddSource *source = g_object_new(JALWEDD_TYPE_SOURCE, NULL);
    g_weak_ref_set(&source->element, self);
    source->ssrc = ssrc;
    source->internal = internal;
    source->since = self->now;
    source->probation = self->probation;
    source_drop(self, ssrc);
    g_hash_table_insert(self->sources, GUINT_TO_POINTER(ssrc), source);
    return source;
}

void source_drop(JalweddSession *self, guint32 ssrc)
{
    JalweddSource *source = source_find(self, ssrc);
    if (source == NULL)
        return;
    g_hash_table_remove(self->sources, GUINT_TO_POINTER(ssrc));
    let_go(source);
}

void sources_drop_all(JalweddSession *self)
{
    GHashTableIter iter;
    gpointer source;
    g_hash_table_iter_init(&iter, self->sources);
    while (g_hash_table_iter_next(&iter, NULL, &source)) {
        g_hash_table_iter_remove(&iter);
        let_go(source);
    }
}

gboolean source_state(JalweddSession *self, guint32 ssrc, jalwedd_source_state *state)
{
    Participant *one = participant_first(self);
    return one != NULL && jalwedd_source(&one->handle, ssrc, state) == JALWEDD_TAKEN && state->ssrc == ssrc;
}

static void measure(JalweddSource *source, guint64 now)
{
    const guint64 time = now - source->rate_since;
    if (source->rate_since != 0 && time <= MEASURED_TIME)
        return;
    if (source->rate_since != 0) {
        const guint64 rate = source->rate_bytes * 8 * SECOND / time;
        source->bitrate = source->bitrate == 0 ? rate : (source->bitrate * 7 + rate) / 8;
    }
    source->rate_since = now;
    source->rate_bytes = 0;
}

void sources_measure(JalweddSession *self, guint64 now)
{
    GHashTableIter iter;
    gpointer source;
    g_hash_table_iter_init(&iter, self->sources);
    while (g_hash_table_iter_next(&iter, NULL, &source))
        measure(source, now);
}

/* ---- The object */

static void get_locked(JalweddSession *self, JalweddSource *source, guint id, GValue *value)
{
    switch (id) {
    case PROP_SSRC: g_value_set_uint(value, source->ssrc); break;
    case PROP_IS_CSRC: g_value_set_boolean(value, FALSE); break;
    case PROP_IS_VALIDATED:
        g_value_set_boolean(value, source->internal || source->role != JALWEDD_AWAY);
        break;
    case PROP_IS_SENDER: g_value_set_boolean(value, source->role == JALWEDD_SENDER); break;
    case PROP_SDES: g_value_set_boxed(value, source->sdes); break;
    case PROP_STATS: g_value_take_boxed(value, statistics_of_source(self, source)); break;
    case PROP_PROBATION: g_value_set_uint(value, source->probation); break;
    }
}

static void get_property(GObject *object, guint id, GValue *value, GParamSpec *spec)
{
    JalweddSource *source = JALWEDD_SOURCE(object);
    JalweddSession *self = g_weak_ref_get(&source->element);
    if (self == NULL) {
        get_locked(NULL, source, id, value);
        return;
    }
    LOCK(self);
    get_locked(self, source, id, value);
    UNLOCK(self);
    gst_object_unref(self);
}

static void set_property(GObject *object, guint id, const GValue *value, GParamSpec *spec)
{
    JalweddSource *source = JALWEDD_SOURCE(object);
    JalweddSession *self = g_weak_ref_get(&source->element);
    if (self == NULL)
        return;
    LOCK(self);
    source->probation = g_value_get_uint(value);
    UNLOCK(self);
    gst_object_unref(self);
}

static void finalize(GObject *object)
{
    JalweddSource *source = JALWEDD_SOURCE(object);
    g_queue_clear_full(&source->held, (GDestroyNotify)gst_buffer_unref);
    gst_clear_buffer(&source->jump);
    g_clear_object(&source->rtp_from);
    g_clear_object(&source->rtcp_from);
    gst_structure_free(source->sdes);
    g_weak_ref_clear(&source->element);
    G_OBJECT_CLASS(jalwedd_source_parent_class)->finalize(object);
}

static void jalwedd_source_init(JalweddSource *source)
{
    g_weak_ref_init(&source->element, NULL);
    g_queue_init(&source->held);
    source->first_sequence = -1;
    source->state.left = source->state.told = JALWEDD_NEVER;
    source->sdes = gst_structure_new_empty("application/x-rtp-source-sdes");
}

static void jalwedd_source_class_init(JalweddSourceClass *class)
{
    GObjectClass *object_class = G_OBJECT_CLASS(class);
    const GParamFlags reads = G_PARAM_READABLE | G_PARAM_STATIC_STRINGS;
    object_class->get_property = get_property;
    object_class->set_property = set_property;
    object_class->finalize = finalize;
    g_object_class_install_property(
        object_class, PROP_SSRC,
        g_param_spec_uint("ssrc", "SSRC", "The SSRC of the source", 0, G_MAXUINT, 0, reads));
    g_object_class_install_property(
        object_class, PROP_IS_CSRC,
        g_param_spec_boolean("is-csrc", "Is CSRC",
                             "Always false: contributing sources are members like others", FALSE, reads));
    g_object_class_install_property(object_class, PROP_IS_VALIDATED,
                                    g_param_spec_boolean("is-validated", "Is Validated",
                                                         "The source is a member of the session", FALSE,
                                                         reads));
    g_object_class_install_property(
        object_class, PROP_IS_SENDER,
        g_param_spec_boolean("is-sender", "Is Sender", "The source sends RTP packets", FALSE, reads));
    g_object_class_install_property(object_class, PROP_SDES,
                                    g_param_spec_boxed("sdes", "SDES", "The SDES items that the source sent",
                                                       GST_TYPE_STRUCTURE, reads));
    g_object_class_install_property(
        object_class, PROP_STATS,
        g_param_spec_boxed("stats", "Stats", "The statistics of the source", GST_TYPE_STRUCTURE, reads));
    g_object_class_install_property(
        object_class, PROP_PROBATION,
        g_param_spec_uint("probation", "Probation", "0: RTP packets of the source go on before it is valid",
                          0, G_MAXUINT, 2, reads | G_PARAM_WRITABLE));
}
