/* The pads of one of GStreamer's rtpsessions, for compare/stacks/intervals.c and
 * compare/stacks/statistics.d/gstreamer.c. */
#ifndef RTPSESSION_H
#define RTPSESSION_H

#include <gst/gst.h>
#include <gst/net/gstnet.h>

/* Links one of its sources to a pad that passes what comes to a function, with a value of the pad's own. */
static inline void listen_at(GstPad *source, GstPadChainFunction function, gpointer value)
{
    GstPad *sink = gst_pad_new(NULL, GST_PAD_SINK);
    gst_pad_set_chain_function(sink, function);
    gst_pad_set_element_private(sink, value);
    gst_pad_set_active(sink, TRUE);
    g_assert(gst_pad_link(source, sink) == GST_PAD_LINK_OK);
}

/* One of its sinks, by a pad that pushes to it. It takes the caps. */
static inline GstPad *feed_of(GstElement *session, const char *name, GstCaps *caps)
{
    GstPad *source = gst_pad_new(NULL, GST_PAD_SRC), *sink = gst_element_request_pad_simple(session, name);
    GstSegment segment;
    g_assert(gst_pad_link(source, sink) == GST_PAD_LINK_OK);
    gst_pad_set_active(source, TRUE);
    gst_pad_push_event(source, gst_event_new_stream_start(name));
    gst_pad_push_event(source, gst_event_new_caps(caps));
    gst_segment_init(&segment, GST_FORMAT_TIME);
    gst_pad_push_event(source, gst_event_new_segment(&segment));
    gst_caps_unref(caps);
    return source;
}

/* Pushes so many octets to one of its sinks, as what came from an address, if one is given. */
static inline void push_octets(GstPad *feed, GSocketAddress *from, const guint8 *octets, gsize size)
{
    GstBuffer *buffer = gst_buffer_new_allocate(NULL, size, NULL);
    gst_buffer_fill(buffer, 0, octets, size);
    if (from)
        gst_buffer_add_net_address_meta(buffer, from);
    gst_pad_push(feed, buffer);
}

#endif
