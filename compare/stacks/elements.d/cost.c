/* cost ELEMENT COUNT: prints the nanoseconds of processor time that a packet takes which an element
 * receives, and one that it sends: `ELEMENT RECEIVING SENDING`, each of COUNT packets of 160 octets of
 * payload. */
#include <gst/check/gstharness.h>
#include <gst/rtp/rtp.h>
#include <stdio.h>
#include <stdlib.h>
#include <time.h>

enum { PAYLOAD = 160, TYPE = 8, SSRC = 7, APART = 20 }; /* octets; PCMA; any; milliseconds */

static double processor_time(void)
{
    struct timespec time;
    clock_gettime(CLOCK_THREAD_CPUTIME_ID, &time);
    return (double)time.tv_sec * 1e9 + (double)time.tv_nsec;
}

static GstFlowReturn drop(GstPad *pad, GstObject *parent, GstBuffer *buffer)
{
    gst_buffer_unref(buffer);
    return GST_FLOW_OK;
}

static GstBuffer *packet(guint number)
{
    GstBuffer *buffer = gst_rtp_buffer_new_allocate(PAYLOAD, 0, 0);
    GstRTPBuffer rtp = GST_RTP_BUFFER_INIT;
    gst_rtp_buffer_map(buffer, GST_MAP_WRITE, &rtp);
    gst_rtp_buffer_set_seq(&rtp, (guint16)number);
    gst_rtp_buffer_set_timestamp(&rtp, number * PAYLOAD);
    gst_rtp_buffer_set_ssrc(&rtp, SSRC);
    gst_rtp_buffer_set_payload_type(&rtp, TYPE);
    gst_rtp_buffer_unmap(&rtp);
    GST_BUFFER_PTS(buffer) = number * APART * GST_MSECOND;
    return buffer;
}

static double cost(const char *name, const char *sink, const char *src, guint count)
{
    GstHarness *harness = gst_harness_new_with_element(gst_element_factory_make(name, NULL), sink, src);
    GPtrArray *packets = g_ptr_array_new();
    double began;
    gst_harness_set_src_caps_str(harness, "application/x-rtp,clock-rate=8000,payload=8");
    gst_pad_set_chain_function(harness->sinkpad, drop);
    while (packets->len < count)
        g_ptr_array_add(packets, packet(packets->len));
    began = processor_time();
    for (guint at = 0; at < count; at++)
        gst_pad_push(harness->srcpad, g_ptr_array_index(packets, at));
    began = (processor_time() - began) / count;
    g_ptr_array_unref(packets);
    return began;
}

int main(int count, char **words)
{
    gst_init(&count, &words);
    if (count != 3)
        return 2;
    printf("%s %.0f %.0f\n", words[1],
           cost(words[1], "recv_rtp_sink", "recv_rtp_src", (guint)atoi(words[2])),
           cost(words[1], "send_rtp_sink", "send_rtp_src", (guint)atoi(words[2])));
    return 0;
}
