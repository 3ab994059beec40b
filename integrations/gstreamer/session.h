/* What the files of the element jalweddsession share. The element stands where GStreamer's rtpsession
 * stands: what RTCP says, when it goes out, who is a member and what is counted comes from the proved
 * library (jalwedd.h). The files here pass buffers, the time and random words in, and pads, signals,
 * properties and statistics out. They are trusted, not proved.
 *
 * There is one participant for each SSRC that upstream sends, and one that only receives until then. Each of
 * them is told what came, and what the others of this session send, as jalwedd.h demands.
 *
 * One lock guards all of a session: its participants, its sources, its settings. What leaves the element,
 * such as buffers and signals, is put into a list of actions with the lock held, and performed without it.
 */
#ifndef JALWEDD_GSTREAMER_SESSION_H
#define JALWEDD_GSTREAMER_SESSION_H

#include <gio/gio.h>
#include <gst/gst.h>
#include <gst/rtp/rtp.h>
#include <jalwedd.h>
#define JALWEDD_RECORD_STDIO
#include <jalwedd_record.h>

#include "refusals.h"

enum {
    MOST_PARTICIPANTS = 16,     /* SSRCs of this host in one session */
    MOST_CLOCKS = 16,           /* payload types whose clock the library is told */
    LARGEST_RTCP = 1500,        /* octets: a larger datagram could name thousands of sources */
    MOST_HELD = 16,             /* RTP packets that are held back of a source that is not yet valid */
    HEADERS = 28,               /* octets of UDP and IPv4, which rtpsession's figures in bytes include */
    RETIRE_TIME = 60 * 1000000, /* microseconds: then an SSRC that never sent leaves, if another one sends */
    LEAVE_TIME = 5 * 1000000,   /* microseconds: others can delay a BYE for longer */
    SECOND = 1000000            /* microseconds */
};

/* The numbers of this host's participants as peers begin here: no address has such a number. */
#define OWN_PEER (G_GUINT64_CONSTANT(1) << 63)

/* The values of ntp-time-source, which are those of rtpsession. */
enum { TIME_NTP, TIME_UNIX, TIME_RUNNING, TIME_CLOCK };

/* ---- Types */

#define JALWEDD_TYPE_SESSION jalwedd_session_get_type()
G_DECLARE_FINAL_TYPE(JalweddSession, jalwedd_session, JALWEDD, SESSION, GstElement)

#define JALWEDD_TYPE_SOURCE jalwedd_source_get_type()
G_DECLARE_FINAL_TYPE(JalweddSource, jalwedd_source, JALWEDD, SOURCE, GObject)

#define JALWEDD_TYPE_INTERNAL_SESSION jalwedd_internal_session_get_type()
G_DECLARE_FINAL_TYPE(JalweddInternalSession, jalwedd_internal_session, JALWEDD, INTERNAL_SESSION, GObject)

/* A source, as RTPSource of rtpsession: another one of the session, or an SSRC of this host (internal). */
struct _JalweddSource {
    GObject parent;
    GWeakRef element; /* the session, or nothing once that is gone */
    guint32 ssrc;
    gboolean internal;
    gboolean dropped;           /* the session has it no longer: `state` is the last that it was */
    guint role;                 /* JALWEDD_AWAY, _MEMBER or _SENDER, by the latest listing */
    gboolean left;              /* it said goodbye, by the latest listing */
    guint listing;              /* the number of the latest listing that had it */
    guint64 since;              /* the moment at which it was first listed */
    jalwedd_source_state state; /* by the latest listing */
    guint probation;            /* 0: its packets go on before it is valid */
    guint payload_type;
    gint first_sequence; /* of its first packet, or -1 */
    GSocketAddress *rtp_from, *rtcp_from;
    guint64 rtp_peer; /* the number of rtp_from */
    GQueue held;      /* GstBuffer: packets that came before it was valid */
    GstBuffer *jump;  /* a packet whose sequence number was far off, or NULL (A.1) */
    guint16 jump_sequence;
    GstStructure *sdes;
    guint64 bytes;       /* of its RTP packets, with headers */
    guint64 rate_bytes;  /* of these, those since rate_since */
    guint64 rate_since;  /* microseconds */
    guint64 bitrate;     /* bits a second */
    guint32 packet_rate; /* packets a second, by their RTP timestamps */
    guint32 rate_timestamp;
    guint16 rate_sequence;
    gboolean has_rate_packet;
    guint32 sr_packets, sr_octets; /* by its latest sender report */
    gboolean has_block;            /* it reported about an SSRC of this host */
    jalwedd_report block;          /* the latest such block */
    guint32 round_trip;            /* by that block, in 1/65,536 of a second */
    gboolean has_sent;             /* a participant of this host reported about it */
    jalwedd_report sent;           /* the latest such block */
};

/* What applications take as rtpsession's internal session. */
struct _JalweddInternalSession {
    GObject parent;
    GWeakRef element;
};

/* One SSRC of this host. */
typedef struct {
    jalwedd_handle handle;
    jalwedd_config config;
    jalwedd_step step;
    guint8 octets[JALWEDD_OCTETS]; /* what the latest call hands out */
    jalwedd_record record;
    guint32 ssrc;                 /* step.ssrc before the latest call */
    guint64 peer;                 /* the number by which the other participants of this host know it */
    guint64 packets, sent_octets; /* RTP packets under this SSRC, and the octets of their payload */
    guint64 ahead; /* of the library's NTP time, that of the latest sender report, modulo 2^64 */
    gboolean sends;
    gboolean retires;   /* it leaves, while others of this host stay */
    gboolean told_rate; /* it was told that the clock of its media cannot change */
} Participant;

/* The octets of a buffer in one piece. If the buffer has several memories they are copied, as a map would
 * merge them for good: into `room`, if they fit. */
typedef struct {
    GstBuffer *buffer;
    GstMapInfo map;
    guint8 *copy; /* or NULL, if the buffer is mapped */
    const guint8 *data;
    gsize size;
    guint8 room[2048];
} Octets;

struct _JalweddSession {
    GstElement parent;
    GstPad *recv_rtp_sink, *recv_rtp_src, *recv_rtcp_sink, *sync_src;
    GstPad *send_rtp_sink, *send_rtp_src, *send_rtcp_src;
    GMutex lock;
    GCond begun;     /* a participant was added, or the thread is to stop */
    GstClock *clock; /* the system's, by which the library's moments count */
    GThread *thread;
    GstClockID wait;    /* what the thread waits for, or NULL */
    guint64 wait_until; /* microseconds, as the next four */
    guint64 ticked;     /* when all participants were ticked last */
    guint64 now;        /* of the latest call */
    guint64 leave_end;
    guint64 made_room;
    gboolean stops;            /* the thread is to stop */
    gboolean leave_wanted;     /* the thread is to make all participants leave */
    gboolean leaves, finished; /* all participants leave; and they have left */
    gboolean send_ended;       /* send_rtp_sink had EOS */
    GPtrArray *participants;   /* Participant: by the listing of the first one signals are told */
    GHashTable *sources;       /* SSRC to JalweddSource */
    GHashTable *clock_rates;   /* payload type to rate, of caps; 0 if it was asked for in vain */
    guint listing, entries, peers;
    guint32 sender_bandwidth, receiver_bandwidth; /* as the participants have them, in octets a second */
    gboolean has_ssrc; /* internal-ssrc was set, or the caps of send_rtp_sink have one */
    guint32 wanted_ssrc;
    guint32 send_rate; /* of the caps of send_rtp_sink, or 0 */
    GstSegment send_segment;
    GstClockTime latency; /* of the pipeline that sends, or GST_CLOCK_TIME_NONE */
    guint64 key[2];       /* of the hash of IPv6 addresses */
    guint32 words[64];    /* random words that are not yet used */
    guint words_left;
    JalweddInternalSession *internal;
    guint64 refused_rtcp, refused_rtp; /* datagrams */
    guint records;                     /* participants that were recorded */
    Refusals refusals;
    /* properties */
    gdouble bandwidth, fraction;
    gint rr_bandwidth, rs_bandwidth;
    guint guard_names;
    guint64 guard_hold;
    guint capacity, probation, limit, profile, time_source, max_dropout, max_misorder;
    guint64 min_interval, tick_interval;
    gboolean reduced_size, sync_send_time, favor_new, pipeline_clock, ntp64, disable_sr;
    GstStructure *sdes;
    gchar *record_location;
};

#define LOCK(self) g_mutex_lock(&(self)->lock)
#define UNLOCK(self) g_mutex_unlock(&(self)->lock)

/* ---- moments.c: the time, and random words. With the lock */

guint64 moment_now(JalweddSession *self);  /* microseconds by the system's clock; never goes back */
guint32 moment_word(JalweddSession *self); /* a random word, used once */

/* The moment, and what ntp-time-source names then, as an NTP timestamp. */
void moment_by_both(JalweddSession *self, guint64 *moment, guint64 *ntp);

/* ---- octets.c: the octets of a buffer, and where it came from */

gboolean octets_map(Octets *octets, GstBuffer *buffer);
void octets_unmap(Octets *octets);

/* The number of the address that a buffer came from, below OWN_PEER, or 0; `address` belongs to the buffer,
 * or is NULL. */
guint64 peer_of(JalweddSession *self, GstBuffer *buffer, GSocketAddress **address);

/* ---- sources.c: the source objects. With the lock */

JalweddSource *source_find(JalweddSession *self, guint32 ssrc);
JalweddSource *source_add(JalweddSession *self, guint32 ssrc, gboolean internal);
void source_drop(JalweddSession *self, guint32 ssrc);
void sources_drop_all(JalweddSession *self);

/* What the first participant knows about another source now. */
gboolean source_state(JalweddSession *self, guint32 ssrc, jalwedd_source_state *state);

/* Measures what each source sends, in bits a second. */
void sources_measure(JalweddSession *self, guint64 now);

/* ---- listing.c: what changed in the listing of the first participant becomes signals. With the lock */

void listing_read(JalweddSession *self, GQueue *actions);

/* If the first participant's table is full, makes room for one that is heard. */
void listing_make_room(JalweddSession *self, guint64 now, GQueue *actions);

/* ---- settings.c: the properties, as the library's settings. With the lock */

void settings_bandwidths(JalweddSession *self, guint32 *sender, guint32 *receiver); /* octets a second */

/* The clocks of the payload types whose rate is known and another than this one. */
guint settings_clocks(JalweddSession *self, guint32 but, jalwedd_clock clocks[MOST_CLOCKS]);
guint settings_items(JalweddSession *self, jalwedd_item items[7]);
const gchar *settings_cname(JalweddSession *self);
const gchar *sdes_field(guint kind);        /* the field of an item of this kind, or NULL */
gboolean sdes_has_kind(const gchar *field); /* whether a field is that of a kind other than PRIV */

/* ---- calls.c: the calls of the library, with moments, random words and the record. With the lock */

guint32 call_new(JalweddSession *self, Participant *one);
guint32 call_arrive_rtp(JalweddSession *self, Participant *one, guint64 peer, const guint8 *data,
                        gsize size);
guint32 call_arrive_rtcp(JalweddSession *self, Participant *one, guint64 peer, const guint8 *data,
                         gsize size);
guint32 call_sent_rtp(JalweddSession *self, Participant *one, guint32 timestamp, gsize payload);
guint32 call_tick(JalweddSession *self, Participant *one);
guint32 call_configure(JalweddSession *self, Participant *one);
gboolean call_is_held_back(guint32 status); /* the guard keeps such a datagram from the participant */
guint32 call_forget(JalweddSession *self, Participant *one, guint32 ssrc);
guint32 call_leave(JalweddSession *self, Participant *one);
void call_free(Participant *one);

/* ---- participants.c: the SSRCs of this host. With the lock */

Participant *participant_at(JalweddSession *self, guint at);
Participant *participant_first(JalweddSession *self); /* or NULL */
Participant *participant_find(JalweddSession *self, guint32 ssrc);
Participant *participant_add(JalweddSession *self, gboolean has_ssrc, guint32 ssrc, guint32 rate);
Participant *participant_shown(JalweddSession *self); /* the first that sends, or the first, or NULL */
void participants_ensure(JalweddSession *self);       /* there is one, unless the session leaves */
void participants_configure(JalweddSession *self);

/* After each call for `one`: what it hands out goes out, and a new SSRC and new sources are told. */
void participant_after_call(JalweddSession *self, Participant *one, GQueue *actions);

/* Tells all participants but `except`, or all, of a datagram; the status of the last one that refuses it, or
 * TAKEN. */
guint32 participants_hear_rtp(JalweddSession *self, Participant *except, guint64 peer, const guint8 *data,
                              gsize size, GQueue *actions);
guint32 participants_hear_rtcp(JalweddSession *self, Participant *except, guint64 peer, const guint8 *data,
                               gsize size, GQueue *actions);

/* ---- ticks.c: the thread that ticks, and how a session ends */

void ticks_start(JalweddSession *self);
void ticks_stop(JalweddSession *self);
void ticks_join(JalweddSession *self);
void ticks_wake(JalweddSession *self);  /* with the lock: if something is due sooner */
void ticks_leave(JalweddSession *self); /* without the lock: all participants leave */
void ticks_end_leave(JalweddSession *self,
                     GQueue *actions); /* with the lock: once all have left, EOS goes on */

/* ---- clock_rates.c: the rates of payload types. Without the lock */

void clock_rates_learn(JalweddSession *self, GstCaps *caps, gboolean sends);
guint32 clock_rate_of(JalweddSession *self,
                      guint payload_type); /* asks request-pt-map once; 0 if nobody knows */
void clock_rates_clear(JalweddSession *self);

/* ---- received_rtp.c, received_rtcp.c, sent_rtp.c: the chain functions of the sink pads */

void received_rtcp(JalweddSession *self, GstBuffer *buffer);
GstFlowReturn chain_recv_rtp(GstPad *pad, GstObject *parent, GstBuffer *buffer);
GstFlowReturn chain_recv_rtp_list(GstPad *pad, GstObject *parent, GstBufferList *list);
GstFlowReturn chain_recv_rtcp(GstPad *pad, GstObject *parent, GstBuffer *buffer);
GstFlowReturn chain_send_rtp(GstPad *pad, GstObject *parent, GstBuffer *buffer);
GstFlowReturn chain_send_rtp_list(GstPad *pad, GstObject *parent, GstBufferList *list);

/* ---- collisions.c: two sources with one SSRC (8.2). With the lock */

/* Whether a packet goes on, by the address that it came from: of two sources with one SSRC only one is
 * heard. */
gboolean collision_allows(JalweddSession *self, JalweddSource *source, guint64 peer,
                          GSocketAddress *address);

/* Keeps the address of the first packet of a source. */
void collision_keep_address(JalweddSource *source, guint64 peer, GSocketAddress *address);

/* Tells that an SSRC of this host is another's: `other` is the new one, or 0 if upstream has to choose. */
void collision_tell(JalweddSession *self, guint32 ssrc, guint32 other, GQueue *actions);

/* ---- actions.c: what is done without the lock */

void action_push_rtcp(GQueue *actions, const guint8 *data, gsize size);
void action_push_sync(GQueue *actions, GstBuffer *buffer); /* takes the buffer */
void action_signal(GQueue *actions, guint signal, JalweddSource *source);
void action_collision(GQueue *actions, JalweddSource *source, guint32 ssrc, guint32 other);
void action_app(GQueue *actions, const guint8 *data, const jalwedd_app_place *app);
void action_end(GQueue *actions); /* EOS on send_rtcp_src */
void actions_perform(JalweddSession *self, GQueue *actions);

/* ---- events.c: the event and query functions of the pads */

gboolean event_recv_rtp_sink(GstPad *pad, GstObject *parent, GstEvent *event);
gboolean event_recv_rtp_src(GstPad *pad, GstObject *parent, GstEvent *event);
gboolean event_recv_rtcp_sink(GstPad *pad, GstObject *parent, GstEvent *event);
gboolean event_send_rtp_sink(GstPad *pad, GstObject *parent, GstEvent *event);
gboolean event_send_rtp_src(GstPad *pad, GstObject *parent, GstEvent *event);
gboolean event_send_rtcp_src(GstPad *pad, GstObject *parent, GstEvent *event);
gboolean query_send_rtcp_src(GstPad *pad, GstObject *parent, GstQuery *query);
gboolean query_send_rtp_sink(GstPad *pad, GstObject *parent, GstQuery *query);

/* ---- pads.c */

void pads_install(GstElementClass *class);
GstPad *pads_request(GstElement *element, GstPadTemplate *templ, const gchar *name, const GstCaps *caps);
void pads_release(GstElement *element, GstPad *pad);
GstPad *pads_ref(JalweddSession *self, GstPad **at); /* a reference to that pad, or NULL. Without the lock */

/* ---- signals.c */

enum {
    ON_NEW_SSRC,
    ON_SSRC_COLLISION,
    ON_SSRC_VALIDATED,
    ON_SSRC_ACTIVE,
    ON_SSRC_SDES,
    ON_BYE_SSRC,
    ON_BYE_TIMEOUT,
    ON_TIMEOUT,
    ON_SENDER_TIMEOUT,
    ON_NEW_SENDER_SSRC,
    ON_SENDER_SSRC_ACTIVE,
    ON_SIGNALS
};
extern const gchar *const signal_names[ON_SIGNALS];

void signals_install_element(GType type);
void signals_install_internal(GType type);
void signals_emit(JalweddSession *self, guint signal, guint32 ssrc, JalweddSource *source);
void signals_emit_receiving(JalweddSession *self, GstBuffer *buffer);
void signals_emit_app(JalweddSession *self, guint subtype, guint32 ssrc, const gchar *name, GstBuffer *data);
GstCaps *signals_ask_caps(JalweddSession *self, guint payload_type); /* request-pt-map: caps, or NULL */

/* ---- statistics.c */

GstStructure *statistics_of_source(JalweddSession *self,
                                   JalweddSource *source); /* with the lock; self may be NULL */
GstStructure *statistics_of_session(JalweddSession *self); /* without it */

/* ---- properties.c */

void properties_install(GObjectClass *class);          /* of the element */
void properties_install_internal(GObjectClass *class); /* of its internal session */
void properties_init(JalweddSession *self);
void properties_set(GObject *object, guint id, const GValue *value, GParamSpec *spec);
void properties_get(GObject *object, guint id, GValue *value, GParamSpec *spec);
GType time_source_type(void); /* of ntp-time-source */

#endif
