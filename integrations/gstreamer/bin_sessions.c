/* The sessions of a bin: an element for RTCP, and one that parts the sources. */
#include "bin.h"

GstElement *bin_add(JalweddBin *bin, const gchar *factory)
{
    GstElement *element = gst_element_factory_make(factory, NULL);
    if (element == NULL) {
        GST_ELEMENT_ERROR(bin, CORE, MISSING_PLUGIN, ("the element %s is missing", factory), (NULL));
        return NULL;
    }
    gst_bin_add(GST_BIN(bin), element);
    return element;
}

void bin_adopt(JalweddBin *bin, GstElement *element)
{
    const gboolean floats = g_object_is_floating(element);
    if (GST_OBJECT_PARENT(element) == NULL)
        gst_bin_add(GST_BIN(bin), element);
    if (!floats)
        gst_object_unref(element); /* the bin has a reference of its own */
    gst_element_sync_state_with_parent(element);
}

void bin_drop(JalweddBin *bin, GstElement *element)
{
    gst_element_set_locked_state(element, TRUE);
    gst_element_set_state(element, GST_STATE_NULL);
    gst_bin_remove(GST_BIN(bin), element);
}

BinSession *bin_session_find(JalweddBin *bin, guint id)
{
    for (GList *at = bin->sessions; at != NULL; at = at->next)
        if (((BinSession *)at->data)->id == id)
            return at->data;
    return NULL;
}

static BinSession *session_new(JalweddBin *bin, guint id)
{
    GstElement *element = bin_add(bin, "jalweddsession");
    GstElement *demux = element != NULL ? bin_add(bin, "rtpssrcdemux") : NULL;
    BinSession *session;
    if (demux == NULL) {
        if (element != NULL)
            bin_drop(bin, element);
        return NULL;
    }
    session = g_new0(BinSession, 1);
    session->bin = bin;
    session->id = id;
    session->element = element;
    session->ssrc_demux = demux;
    session->caps = g_hash_table_new_full(NULL, NULL, NULL, (GDestroyNotify)gst_caps_unref);
    bin_bind_session(bin, session);
    bin_signals_connect(session);
    bin_streams_connect(session);
    gst_element_sync_state_with_parent(demux);
    gst_element_sync_state_with_parent(element);
    return session;
}

BinSession *bin_session_ensure(JalweddBin *bin, guint id)
{
    BinSession *session;
    BIN_LOCK(bin);
    session = bin_session_find(bin, id);
    BIN_UNLOCK(bin);
    if (session != NULL)
        return session;
    session = session_new(bin, id);
    if (session == NULL)
        return NULL;
    BIN_LOCK(bin);
    bin->sessions = g_list_append(bin->sessions, session);
    BIN_UNLOCK(bin);
    return session;
}

void bin_session_free(BinSession *session)
{
    JalweddBin *bin = session->bin;
    BIN_LOCK(bin);
    bin->sessions = g_list_remove(bin->sessions, session);
    BIN_UNLOCK(bin);
    g_signal_handlers_disconnect_by_data(session->ssrc_demux, session);
    bin_streams_free(session);
    bin_drop(bin, session->element);
    bin_drop(bin, session->ssrc_demux);
    g_hash_table_unref(session->caps);
    g_free(session);
}
