/* What applications take as rtpsession's internal session: properties and signals of the session, with
 * source objects in place of SSRCs. */
#include "session.h"

G_DEFINE_FINAL_TYPE(JalweddInternalSession, jalwedd_internal_session, G_TYPE_OBJECT)

static void set_property(GObject *object, guint id, const GValue *value, GParamSpec *spec)
{
    JalweddSession *self = g_weak_ref_get(&JALWEDD_INTERNAL_SESSION(object)->element);
    if (self == NULL)
        return;
    properties_set(G_OBJECT(self), id, value, spec);
    gst_object_unref(self);
}

static void get_property(GObject *object, guint id, GValue *value, GParamSpec *spec)
{
    JalweddSession *self = g_weak_ref_get(&JALWEDD_INTERNAL_SESSION(object)->element);
    if (self == NULL)
        return;
    properties_get(G_OBJECT(self), id, value, spec);
    gst_object_unref(self);
}

static void finalize(GObject *object)
{
    g_weak_ref_clear(&JALWEDD_INTERNAL_SESSION(object)->element);
    G_OBJECT_CLASS(jalwedd_internal_session_parent_class)->finalize(object);
}

static void jalwedd_internal_session_init(JalweddInternalSession *internal)
{
    g_weak_ref_init(&internal->element, NULL);
}

static void jalwedd_internal_session_class_init(JalweddInternalSessionClass *class)
{
    GObjectClass *object_class = G_OBJECT_CLASS(class);
    object_class->set_property = set_property;
    object_class->get_property = get_property;
    object_class->finalize = finalize;
    properties_install_internal(object_class);
    signals_install_internal(G_TYPE_FROM_CLASS(class));
}
