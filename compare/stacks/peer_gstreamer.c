/* A player over GStreamer's rtpbin: sends and receives mu-law audio, 20 milliseconds a packet, until it is interrupted;
 * then it says goodbye. Prints who comes and goes.
 *
 *     peer_gstreamer RTP-PORT PEER-RTP-PORT [ADDRESS]      on 127.0.0.1 or ::1, with RTCP at the ports one above */
#include <gst/gst.h>

#include <signal.h>
#include <stdio.h>
#include <stdlib.h>

#define PIPELINE \
    "rtpbin name=bin audiotestsrc is-live=true samplesperbuffer=160 ! audio/x-raw,rate=8000,channels=1 ! mulawenc" \
    " ! rtppcmupay ! bin.send_rtp_sink_0 bin.send_rtp_src_0 ! udpsink host=%1$s port=%2$d sync=false" \
    " bin.send_rtcp_src_0 ! udpsink host=%1$s port=%3$d sync=false async=false" \
    " udpsrc address=%1$s port=%4$d caps=application/x-rtp,media=audio,clock-rate=8000,encoding-name=PCMU" \
    " ! bin.recv_rtp_sink_0 udpsrc address=%1$s port=%5$d ! bin.recv_rtcp_sink_0" \
    " bin. ! rtppcmudepay ! fakesink async=false"

static volatile sig_atomic_t is_over;

static void stop(int signal)
{
    (void)signal;
    is_over = 1;
}

static void print(GstElement *bin, guint session, guint ssrc, gpointer what)
{
    (void)bin;
    (void)session;
    printf("%08x %s\n", ssrc, (const char *)what);
    fflush(stdout);
}

int main(int count, char **words)
{
    char text[2000];
    if (count != 3 && count != 4) {
        fprintf(stderr, "usage: peer_gstreamer RTP-PORT PEER-RTP-PORT [ADDRESS]\n");
        return 2;
    }
    const int port = atoi(words[1]), peer = atoi(words[2]);
    gst_init(NULL, NULL);
    snprintf(text, sizeof text, PIPELINE, count > 3 ? words[3] : "127.0.0.1", peer, peer + 1, port, port + 1);
    GstElement *pipeline = gst_parse_launch(text, NULL), *bin = gst_bin_get_by_name(GST_BIN(pipeline), "bin");
    g_signal_connect(bin, "on-ssrc-validated", G_CALLBACK(print), "joined");
    g_signal_connect(bin, "on-bye-ssrc", G_CALLBACK(print), "left");
    g_signal_connect(bin, "on-timeout", G_CALLBACK(print), "timed out");
    signal(SIGINT, stop);
    gst_element_set_state(pipeline, GST_STATE_PLAYING);
    while (!is_over)
        g_usleep(20000);
    gst_element_send_event(pipeline, gst_event_new_eos());
    gst_bus_timed_pop_filtered(GST_ELEMENT_BUS(pipeline), GST_SECOND, GST_MESSAGE_EOS | GST_MESSAGE_ERROR);
    gst_element_set_state(pipeline, GST_STATE_NULL);
    gst_object_unref(bin);
    gst_object_unref(pipeline);
    return 0;
}
