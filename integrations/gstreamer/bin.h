/* What the files of the element jalweddbin share. The element stands where GStreamer's rtpbin stands, for
 * the profiles AVP and SAVP. For each session it has a jalweddsession and GStreamer's rtpssrcdemux, and for
 * each source that sends a stream: GStreamer's rtpjitterbuffer and rtpptdemux. */
#ifndef JALWEDD_GSTREAMER_BIN_H
#define JALWEDD_GSTREAMER_BIN_H

#include "refusals.h"

#define JALWEDD_TYPE_BIN jalwedd_bin_get_type()
G_DECLARE_FINAL_TYPE(JalweddBin, jalwedd_bin, JALWEDD, BIN, GstBin)

/* The request pads of a session. */
typedef enum { RECV_RTP, RECV_RTCP, SEND_RTP, SEND_RTCP, PAD_KINDS } PadKind;

typedef struct {
    JalweddBin *bin;
    guint id;
    GstElement *element; /* jalweddsession */
    GstElement *ssrc_demux;
    GList *streams;                /* BinStream, guarded by the bin's lock */
    GHashTable *caps;              /* payload type to GstCaps, guarded by the bin's lock */
    GstPad *ghosts[PAD_KINDS];     /* of the bin, or NULL */
    GstPad *inner[PAD_KINDS];      /* of the element */
    GstPad *send_rtp_src;          /* of the bin, or NULL */
    GstElement *coders[PAD_KINDS]; /* the application's decoders and encoders (SRTP), or NULL */
} BinSession;

typedef struct {
    BinSession *session;
    guint32 ssrc;
    GstElement *buffer;     /* rtpjitterbuffer, or what request-jitterbuffer gave */
    GstElement *type_demux; /* rtpptdemux, or NULL with ignore-pt */
    GstPad *ghost;          /* with ignore-pt */
    gchar *cname;           /* or NULL: no sender report of it came */
    gint64 delta;           /* its running time less its NTP time, in nanoseconds, if it has a CNAME */
    gint64 offset;          /* the ts-offset of its buffer, in nanoseconds */
    gint64 synced;          /* when it was synchronized last, by the monotonic clock in microseconds, or 0 */
} BinStream;

struct _JalweddBin {
    GstBin parent;
    GMutex lock;     /* of the lists of sessions and streams; not held while elements are called */
    GList *sessions; /* BinSession */
    gboolean stops;  /* no stream begins any more */
    Refusals refusals;
    /* properties */
    guint latency, max_dropout_time, max_misorder_time, max_streams, sync_interval, smoothing, profile;
    gint max_time_diff, buffer_mode, rtcp_sync, time_source;
    gint64 max_offset;
    guint64 min_offset, max_adjustment;
    gboolean drop_on_latency, do_lost, autoremove, ntp_sync, pipeline_clock, sync_send_time, rfc7273_sync,
        ignore_type;
    gboolean reference_meta;
    GstStructure *sdes;
};

#define BIN_LOCK(bin) g_mutex_lock(&(bin)->lock)
#define BIN_UNLOCK(bin) g_mutex_unlock(&(bin)->lock)

enum { SYNC_ALWAYS, SYNC_INITIAL, SYNC_RTP_INFO };

/* ---- bin_properties.c */

void bin_properties_install(GObjectClass *class);
void bin_properties_init(JalweddBin *bin);
void bin_bind_session(JalweddBin *bin, BinSession *session); /* the elements have the bin's properties */
void bin_bind_buffer(JalweddBin *bin, GstElement *buffer);

/* ---- bin_signals.c */

void bin_signals_install(GType type);
void bin_signals_connect(BinSession *session);                  /* what the element tells, the bin tells */
GstCaps *bin_ask_caps(BinSession *session, guint payload_type); /* a reference, or NULL */
GstElement *bin_ask_coder(BinSession *session, PadKind kind);   /* what the application has, or NULL */
GstElement *bin_ask_buffer(BinSession *session);
void bin_tell_buffer(BinStream *stream);
void bin_tell_type(BinStream *stream, guint payload_type);
void bin_tell_end(BinStream *stream);

/* ---- bin_sessions.c */

BinSession *bin_session_find(JalweddBin *bin, guint id);   /* with the lock */
BinSession *bin_session_ensure(JalweddBin *bin, guint id); /* or NULL, if an element is missing */
void bin_session_free(BinSession *session);
GstElement *bin_add(JalweddBin *bin, const gchar *factory); /* or NULL, with an error message */
void bin_adopt(JalweddBin *bin, GstElement *element);       /* takes what a handler of a signal gave */
void bin_drop(JalweddBin *bin, GstElement *element);

/* ---- bin_pads.c */

void bin_pads_install(GstElementClass *class);
GstPad *bin_pads_request(GstElement *element, GstPadTemplate *templ, const gchar *name, const GstCaps *caps);
void bin_pads_release(GstElement *element, GstPad *pad);
void bin_pads_remove(BinSession *session, PadKind kind);
GstPad *bin_pads_show(JalweddBin *bin, const gchar *template, const gchar *name, GstPad *target);
void bin_pads_hide(JalweddBin *bin, GstPad *ghost);

/* ---- bin_streams.c */

void bin_streams_connect(BinSession *session);
void bin_streams_free(BinSession *session);
void bin_streams_clear_caps(BinSession *session);

/* ---- bin_sync.c: streams of one CNAME play in sync (RFC 3550, 6.4.1) */

void bin_sync_stream(BinStream *stream, const GstStructure *sync);
void bin_sync_reset(JalweddBin *bin);

#endif
