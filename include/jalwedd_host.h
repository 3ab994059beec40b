/* A whole host: sockets, clock, random words and the loop around a participant, with a table of who is there. It calls
 * back for whatever happens. A host that only listens:
 *
 *     static jalwedd_row rows[1024];
 *     jalwedd_host host;
 *     jalwedd_host_init(&host, "player@example.com", 64000, 8000, rows, 1024);
 *     host.joined = joined;                               void joined(jalwedd_host *host, const jalwedd_row *row)
 *     if (jalwedd_host_open(&host, "::", 5004, "2001:db8::1", 5004) != 0 || jalwedd_stop_at(SIGINT) != 0)
 *         return failed();
 *     return jalwedd_serve(&host) == JALWEDD_TAKEN ? 0 : 1;
 *
 * jalwedd_serve begins, waits, takes what comes, ticks at step.next and at least once a second, sends the reports, and
 * once the flag of jalwedd_stop_at is set leaves with a BYE, or without one if that is not due in time (6.3.7).
 * jalwedd_serve_all does so for many sessions. A host with a loop of its own makes the same of the pieces:
 *
 *     jalwedd_host_begin(&host);
 *     while (jalwedd_host_next(&host) != JALWEDD_NEVER) {
 *         wait until jalwedd_host_next(&host), or until host.rtp or host.rtcp can be read
 *         jalwedd_host_turn(&host);
 *     }
 *     jalwedd_host_end(&host);
 *
 * Whatever is called back may call jalwedd_host_send, jalwedd_host_configure, jalwedd_host_dismiss, jalwedd_host_leave,
 * and all that reads. A row that it is given lasts until it returns. One thread at a time uses a host, and its address
 * stays the same from jalwedd_host_begin on. jalwedd_system.h and jalwedd_table.h have the pieces for other hosts.
 *
 * On an open network it drops RTCP datagrams of more than 1,500 octets, and limits the time of a leave. It does not
 * authenticate anybody, limit a peer's datagrams or make room in a full table: docs/EMBEDDING.md says why a host does.
 *
 * All functions are inline, for C99 and C++11 and later, on POSIX. But for what jalwedd_new allocates and getaddrinfo
 * does, they do not allocate. It is tested; only the library is proved. */
#ifndef JALWEDD_HOST_H
#define JALWEDD_HOST_H

#include "jalwedd_system.h"

#include "jalwedd_record.h"
#include "jalwedd_report_before.h"
#include "jalwedd_table.h"

#ifdef __cplusplus
extern "C" {
#endif

/* ---- Values */

/* How many datagrams of a socket a turn takes at most: then it looks at the clock again. */
#define JALWEDD_HOST_DATAGRAMS 64

/* A host. jalwedd_host_init sets all fields; the host may change those down to `data` before jalwedd_host_begin, the
 * items before jalwedd_host_configure too, and reads the others. */
typedef struct jalwedd_host {
    jalwedd_config config;  /* jalwedd_host_begin sets start and ntp_base, and jalwedd_host_configure the settings */
    const char *cname;
    const jalwedd_item *items; /* to be sent besides the CNAME: NULL if there are none, as at first */
    size_t item_count;
    int rtp;                /* UDP sockets that are bound, or -1 for none: by jalwedd_host_open, or the host's own */
    int rtcp;
    jalwedd_address to_rtp; /* where packets and reports go: nowhere if the size is 0 */
    jalwedd_address to_rtcp;
    uint64_t leave_time;    /* how long a leave waits for its BYE, in microseconds: 5 seconds at first */
    size_t largest_rtcp;    /* a larger datagram is dropped: 1,500 octets at first */
    uint32_t puts_report_before; /* 1 to take RTCP without a report before it, of libre for example: 0 at first */
    const volatile sig_atomic_t *stop; /* leave once this is not 0: at first the flag of jalwedd_stop_at */
    jalwedd_record calls;   /* where calls are recorded, and the command that plays them again (jalwedd_record.h): */
    jalwedd_record command; /* nowhere at first, until the host sets their `write` and `to` */

    /* Called back, each unless it is NULL, as all are at first. A source joined as a member, or as a sender at once
     * (row->role). It said goodbye, was silent for too long, or was dismissed: row->role is JALWEDD_AWAY. It began to
     * send, or stopped. */
    void (*joined)(struct jalwedd_host *host, const jalwedd_row *row);
    void (*left)(struct jalwedd_host *host, const jalwedd_row *row);
    void (*timed_out)(struct jalwedd_host *host, const jalwedd_row *row);
    void (*dismissed)(struct jalwedd_host *host, const jalwedd_row *row);
    void (*role_changed)(struct jalwedd_host *host, const jalwedd_row *row);
    /* A source reported about the own stream: row->report and what is made of it. */
    void (*reported)(struct jalwedd_host *host, const jalwedd_row *row);
    /* The own SSRC changed (8.2): it was `before`, and is host->step.ssrc. */
    void (*ssrc_changed)(struct jalwedd_host *host, uint32_t before);
    /* A datagram was refused with this status: jalwedd_text, jalwedd_check and jalwedd_rtp_fault say why. */
    void (*refused)(struct jalwedd_host *host, uint32_t status, const uint8_t *datagram, size_t size);
    /* An RTP packet was taken: `head` says where its payload is in the datagram. */
    void (*packet)(struct jalwedd_host *host, const jalwedd_head_place *head, const uint8_t *datagram, size_t size);
    /* An RTCP datagram was taken: for its sender reports and APP packets, or to pass it on. */
    void (*compound)(struct jalwedd_host *host, const uint8_t *datagram, size_t size);
    /* It is time for media: returns when to be called next, or JALWEDD_NEVER. First at the start, until it leaves. */
    uint64_t (*media)(struct jalwedd_host *host, uint64_t now);
    /* A second has passed, and the table is up to date. */
    void (*second)(struct jalwedd_host *host, uint64_t now);
    /* Sends a report or BYE, in place of a sendto to to_rtcp: for those who send to several. */
    void (*send)(struct jalwedd_host *host, const uint8_t *octets, size_t size);
    void *data;             /* for the host's use */

    jalwedd_handle session;
    jalwedd_step step;      /* of the latest call */
    jalwedd_table table;
    jalwedd_key key;        /* of the numbers of peers: drawn by jalwedd_host_init */
    uint64_t dropped;       /* how many RTCP datagrams were too large */
    uint64_t tick_due;      /* a second after the latest tick */
    uint64_t media_due;
    uint64_t end;           /* when it stops to wait for its BYE, or JALWEDD_NEVER before it leaves */
    uint64_t latest;        /* when jalwedd_host_send or jalwedd_host_configure last made its call: those that follow
                               are not made at an earlier moment, whenever the clock was read for them */
    uint64_t former_until;  /* until when a block may be about a sender report from before a change of config.ntp_base:
                               ten minutes from that on, or 0 */
    uint32_t former_lsr;    /* the lsr of such a block is no later than this one, as the middle 32 bits of an NTP
                               timestamp */
    uint32_t is_to_leave;   /* 1 once jalwedd_host_leave was called */
    uint32_t dismissals;    /* 1 if a row is to be dismissed */
    uint16_t sequence;      /* of the next RTP packet: random at first */
    uint8_t octets[JALWEDD_OCTETS];
    uint8_t datagram[JALWEDD_DATAGRAM + JALWEDD_REPORT_BEFORE];
} jalwedd_host;

/* ---- Calls */

/* Sets all of a host: the session's bandwidth in bits a second, of which 5 per cent are for RTCP, the units a second of
 * the own RTP timestamps, and the rows of the table, 1 to 1,024, as many as sources are kept track of. The SSRC is
 * random. Whatever jalwedd.h refuses jalwedd_host_begin refuses. */
static inline void jalwedd_host_init(jalwedd_host *host, const char *cname, uint32_t session_bps, uint32_t rate,
                                     jalwedd_row *rows, uint32_t row_count);

/* Opens both sockets, at this port of an own address and the one above, and finds where to send to: `peer` at
 * `peer_port` and the one above, or nowhere if it is NULL. Addresses are names or digits, of IPv4 or IPv6; a socket of
 * "::" sends to either. Returns 0, or -1, and then no socket is open. */
static inline int jalwedd_host_open(jalwedd_host *host, const char *own, uint16_t port, const char *peer,
                                    uint16_t peer_port);

/* Begins the session now. Statuses: those of jalwedd_new. */
static inline uint32_t jalwedd_host_begin(jalwedd_host *host) JALWEDD_TO_BE_USED;

/* When the next turn is due, even if nothing comes: 0 for at once, and JALWEDD_NEVER once the session is over. */
static inline uint64_t jalwedd_host_next(const jalwedd_host *host);

/* Does what is due, without waiting: takes what came, leaves if it is to, sends media and ticks. */
static inline void jalwedd_host_turn(jalwedd_host *host);

/* Frees the participant, and closes the sockets. It sends nothing. */
static inline void jalwedd_host_end(jalwedd_host *host);

/* The whole session: begins, waits and turns until it is over, and ends. Returns what jalwedd_host_begin does: TAKEN
 * also where the leave took too long for a BYE. */
static inline uint32_t jalwedd_serve(jalwedd_host *host);

/* The same of several hosts that have begun, each in its session, until all are over. `sockets` has room for two of
 * each host. It does not end them. */
static inline void jalwedd_serve_all(jalwedd_host *const *hosts, size_t count, struct pollfd *sockets);

/* Sends an RTP packet with this payload of at most 1,460 octets under the own SSRC, at the moment `now`. Its timestamp
 * is that of the moment `sampled`. `payload_type` is 0 to 127, and 128 more with the marker bit. Returns 0, or -1 if it
 * was not sent: then it does not count, and the others miss its sequence number. */
static inline int jalwedd_host_send(jalwedd_host *host, uint64_t now, uint64_t sampled, uint32_t payload_type,
                                    uint32_t timestamp, const void *payload, size_t size);

/* Gives the session these settings now, and the items that the host has now: all of them (jalwedd_configure). If they
 * are taken, config has them from then on, and what is sent, jitter and round trips go by them. After the clock of the
 * day was set, for example:
 *
 *     jalwedd_settings settings = jalwedd_settings_of(&host->config);
 *     settings.ntp_base = jalwedd_ntp_base(jalwedd_ntp_now(), jalwedd_now() - host->config.start);
 *     status = jalwedd_host_configure(host, &settings);
 *
 * By another ntp_base, a block about a sender report from before would tell a round trip that is wrong by as much. So
 * for ten minutes the lsr of a block is taken as 0, which tells none, unless it lies between the change and the arrival
 * of the block. If the clock was set back, by less than twenty minutes, none is told until it has come to where it was.
 * A call of jalwedd_host_send after this one may pass a `now` from before it, such as that of `media`: its packet
 * counts as sent at the moment of this call.
 * Statuses: those of jalwedd_configure; LEFT also while it waits for its BYE. */
static inline uint32_t jalwedd_host_configure(jalwedd_host *host, const jalwedd_settings *settings);

/* Dismisses a source, at the end of this turn or the next one (jalwedd_forget). Returns 0, or -1 if there is no row. */
static inline int jalwedd_host_dismiss(jalwedd_host *host, uint32_t ssrc);

/* Leaves at the end of this turn or in the next one, as if the flag were set. */
static inline void jalwedd_host_leave(jalwedd_host *host)
{
    host->is_to_leave = 1;
}

/* ---- Inside: hosts do not use what follows */

static inline void jalwedd_host_init(jalwedd_host *host, const char *cname, uint32_t session_bps, uint32_t rate,
                                     jalwedd_row *rows, uint32_t row_count)
{
    memset(host, 0, offsetof(jalwedd_host, octets)); /* those of datagrams stay untouched memory until one comes */
    host->config.ssrc = jalwedd_word();
    host->config.limit = JALWEDD_OCTETS;
    host->config.sender_bw = session_bps / 160 / 4;
    host->config.receiver_bw = session_bps / 160 - host->config.sender_bw;
    host->config.rate = rate;
    host->cname = cname;
    host->rtp = host->rtcp = -1;
    host->leave_time = 5 * JALWEDD_SECOND;
    host->largest_rtcp = 1500;
    host->stop = &jalwedd_stopped;
    host->table.rows = rows;
    host->table.room = host->config.capacity = row_count;
    host->step.next = host->end = JALWEDD_NEVER;
    host->sequence = jalwedd_word() & 0xffff;
    jalwedd_key_draw(&host->key);
}

static inline int jalwedd_host_open(jalwedd_host *host, const char *own, uint16_t port, const char *peer,
                                    uint16_t peer_port)
{
    const uint16_t above = (port + 1u) & 0xffff, peer_above = (peer_port + 1u) & 0xffff;
    jalwedd_address at;
    const int found = jalwedd_resolve(own, port, AF_UNSPEC, &at);
    const int family = found == 0 ? at.as.any.sa_family : AF_UNSPEC;
    const int is_known = peer == NULL || (jalwedd_resolve(peer, peer_port, family, &host->to_rtp) == 0 &&
                                          jalwedd_resolve(peer, peer_above, family, &host->to_rtcp) == 0);
    host->rtp = found == 0 && is_known ? jalwedd_bound(&at) : -1;
    host->rtcp = host->rtp >= 0 && jalwedd_resolve(own, above, family, &at) == 0 ? jalwedd_bound(&at) : -1;
    if (host->rtcp >= 0)
        return 0;
    if (host->rtp >= 0)
        close(host->rtp);
    host->rtp = -1;
    return -1;
}

static inline uint32_t jalwedd_host_begin(jalwedd_host *host)
{
    static const jalwedd_item none = {0, 0, {0}};
    const size_t size = strlen(host->cname), item_count = host->items ? host->item_count : 0;
    const jalwedd_item *items = host->items ? host->items : &none;
    const uint32_t word = jalwedd_word();
    uint8_t cname[255];
    uint32_t status;
    memcpy(cname, host->cname, size < sizeof cname ? size : sizeof cname);
    jalwedd_start_now(&host->config);
    status = jalwedd_new(&host->session, &host->config, cname, size, items, item_count, word, &host->step);
    host->calls.start = host->command.start = host->config.start;
    if (status == JALWEDD_TAKEN)
        jalwedd_record_command(&host->command, &host->config, cname, size, items, item_count, word);
    host->tick_due = host->config.start + JALWEDD_SECOND;
    host->media_due = host->media ? host->config.start : JALWEDD_NEVER;
    return status;
}

static inline void jalwedd_host_tell(jalwedd_host *host, const jalwedd_row *row, uint32_t was)
{
    void (*told)(jalwedd_host *, const jalwedd_row *) = host->role_changed;
    if (was == JALWEDD_AWAY)
        told = host->joined;
    else if (row->role == JALWEDD_AWAY)
        told = row->has_left ? host->left : row->is_dismissed ? host->dismissed : host->timed_out;
    if (told)
        told(host, row);
}

static inline void jalwedd_host_tell_changes(jalwedd_host *host)
{
    const jalwedd_row *row;
    uint32_t was = 0;
    while ((row = jalwedd_table_change(&host->table, &was)) != NULL)
        jalwedd_host_tell(host, row, was);
}

/* What a call handed out goes out, and the table is updated. From a leave on nobody is listed. */
static inline void jalwedd_host_settle(jalwedd_host *host, uint32_t before)
{
    const jalwedd_step step = host->step;   /* what is called back may make another call */
    if (step.kind != JALWEDD_NOTHING && host->send)
        host->send(host, host->octets, step.size);
    else if (step.kind != JALWEDD_NOTHING && host->to_rtcp.size > 0)
        sendto(host->rtcp, host->octets, step.size, 0, &host->to_rtcp.as.any, host->to_rtcp.size);
    if (step.changed && host->ssrc_changed)
        host->ssrc_changed(host, before);
    if (step.others_changed && host->end == JALWEDD_NEVER)
        jalwedd_table_update(&host->table, &host->session);
}

/* The moment of a call for which the clock was read at `now`: what was called back since then may have made another. */
static inline uint64_t jalwedd_host_at(const jalwedd_host *host, uint64_t now)
{
    return now > host->latest ? now : host->latest;
}

/* ---- Settings */

/* The middle 32 bits of the NTP timestamp of a moment. */
static inline uint32_t jalwedd_host_middle(const jalwedd_host *host, uint64_t ntp_base, uint64_t now)
{
    return jalwedd_ntp_of(ntp_base, now - host->config.start) >> 16 & UINT32_MAX;
}

/* The first of two such moments, modulo 2^32, if it lies after the second by less than twenty minutes, otherwise the
 * second. So nothing that lies up to ten minutes before the first lies within ten minutes after the result. */
static inline uint32_t jalwedd_host_later(uint32_t one, uint32_t other)
{
    return one - other < 1200u * 65536u ? one : other;
}

/* Notes that sender reports go by another ntp_base from `now` on. The lsr of one from before is no later than `now` by
 * the former base, and that of a later one no earlier than `now` by the new base. */
static inline void jalwedd_host_set_clock(jalwedd_host *host, uint64_t now, uint64_t ntp_base)
{
    const uint32_t before = jalwedd_host_middle(host, host->config.ntp_base, now);
    const uint32_t last = jalwedd_host_later(before, jalwedd_host_middle(host, ntp_base, now) - 1u);
    if (ntp_base == host->config.ntp_base)
        return;
    host->former_lsr = now < host->former_until ? jalwedd_host_later(host->former_lsr, last) : last;
    host->former_until = now + 600 * JALWEDD_SECOND;
    host->config.ntp_base = ntp_base;
}

/* Whether a block with this lsr may be about a sender report from before another ntp_base. */
static inline int jalwedd_host_is_former(const jalwedd_host *host, uint64_t now, uint32_t arrival, uint32_t lsr)
{
    const uint32_t since = arrival - host->former_lsr;  /* 2^31 or more if that lies before it */
    return now < host->former_until && (since >> 31 != 0 || arrival - lsr >= since);
}

/* The configuration has these settings from `now` on. */
static inline void jalwedd_host_keep(jalwedd_host *host, uint64_t now, const jalwedd_settings *settings)
{
    jalwedd_host_set_clock(host, now, settings->ntp_base);
    host->config.sender_bw = settings->sender_bw;
    host->config.receiver_bw = settings->receiver_bw;
    host->config.rate = settings->rate;
    host->config.clock_count = settings->clock_count;
    memcpy(host->config.clocks, settings->clocks, sizeof settings->clocks);
    host->latest = now;
}

static inline uint32_t jalwedd_host_configure(jalwedd_host *host, const jalwedd_settings *settings)
{
    static const jalwedd_item none = {0, 0, {0}};
    const jalwedd_item *items = host->items ? host->items : &none;
    const size_t item_count = host->items ? host->item_count : 0;
    const uint64_t now = jalwedd_host_at(host, jalwedd_now());
    uint32_t status;
    if (host->end != JALWEDD_NEVER)
        return JALWEDD_LEFT;
    status = jalwedd_configure(&host->session, now, settings, items, item_count, &host->step, host->octets);
    if (status == JALWEDD_IS_EMPTY)     /* a call that no record has: there is no session yet, or no more */
        return status;
    jalwedd_record_configure(&host->calls, now, settings, items, item_count);
    if (status == JALWEDD_TAKEN)
        jalwedd_host_keep(host, now, settings);
    jalwedd_host_settle(host, host->step.ssrc);
    return status;
}

/* ---- What comes */

static inline void jalwedd_host_take_reports(jalwedd_host *host, uint64_t now, uint32_t own, const uint8_t *datagram,
                                             size_t size)
{
    const uint32_t arrival = jalwedd_host_middle(host, host->config.ntp_base, now);
    jalwedd_cursor cursor = JALWEDD_BEGIN;
    jalwedd_report report;
    while (jalwedd_next_block(datagram, size, &cursor, &report) == JALWEDD_TAKEN) {
        const jalwedd_row *row;
        if (report.ssrc != own)
            continue;
        if (jalwedd_host_is_former(host, now, arrival, report.lsr))
            report.lsr = 0;
        row = jalwedd_table_report(&host->table, &report, arrival, host->config.rate);
        if (row != NULL && host->reported)
            host->reported(host, row);
    }
}

/* Whether the guard held a datagram back. A record has none of these: the command that plays it again has no guard. */
static inline int jalwedd_host_holds_back(uint32_t status)
{
    return status == JALWEDD_STRANGER || status == JALWEDD_CROWD;
}

static inline void jalwedd_host_take_rtcp(jalwedd_host *host, const jalwedd_address *from, size_t came)
{
    const size_t size = host->puts_report_before ? jalwedd_put_report_before(host->datagram, came) : came;
    const uint64_t now = jalwedd_now(), peer = jalwedd_peer(&host->key, from);
    const uint32_t own = host->step.ssrc, word = jalwedd_word(); /* blocks about it name the one before the call */
    const uint32_t status = jalwedd_arrive_rtcp(&host->session, now, peer, word, host->datagram, size, &host->step,
                                                host->octets);
    if (!jalwedd_host_holds_back(status))
        jalwedd_record_arrive_rtcp(&host->calls, now, peer, word, host->datagram, size);
    jalwedd_host_settle(host, own);
    if (status != JALWEDD_TAKEN) {
        if (host->refused)
            host->refused(host, status, host->datagram, size);
        return;
    }
    jalwedd_table_items(&host->table, from, host->datagram, size);
    jalwedd_host_tell_changes(host);
    jalwedd_host_take_reports(host, now, own, host->datagram, size);
    if (host->compound)
        host->compound(host, host->datagram, size);
}

static inline void jalwedd_host_take_rtp(jalwedd_host *host, const jalwedd_address *from, size_t size)
{
    const uint64_t now = jalwedd_now(), peer = jalwedd_peer(&host->key, from);
    const uint32_t own = host->step.ssrc, word = jalwedd_word();
    const uint32_t status = jalwedd_arrive_rtp(&host->session, now, peer, word, host->datagram, size, &host->step,
                                               host->octets);
    jalwedd_head_place head;
    if (!jalwedd_host_holds_back(status))
        jalwedd_record_arrive_rtp(&host->calls, now, peer, word, host->datagram, size);
    jalwedd_host_settle(host, own);
    if (status != JALWEDD_TAKEN) {
        if (host->refused)
            host->refused(host, status, host->datagram, size);
        return;
    }
    if (jalwedd_rtp_head(host->datagram, size, &head) == JALWEDD_TAKEN)
        jalwedd_table_packet(&host->table, from, head.ssrc);
    jalwedd_host_tell_changes(host);
    if (host->packet)
        host->packet(host, &head, host->datagram, size);
}

/* Takes a datagram, if one came. Returns whether one did. */
static inline int jalwedd_host_take(jalwedd_host *host, int is_rtcp)
{
    jalwedd_address from;
    const ssize_t came = jalwedd_receive(is_rtcp ? host->rtcp : host->rtp, host->datagram, JALWEDD_DATAGRAM, &from);
    const size_t size = came < 0 ? 0 : JALWEDD_CAST(size_t, came);
    if (came < 0)
        return 0;
    if (!is_rtcp)
        jalwedd_host_take_rtp(host, &from, size);
    else if (size <= host->largest_rtcp)
        jalwedd_host_take_rtcp(host, &from, size);
    else
        host->dropped++;
    return 1;
}

/* Takes what came at one of the sockets, so many datagrams at most. */
static inline void jalwedd_host_take_all(jalwedd_host *host, int is_rtcp)
{
    for (int left = JALWEDD_HOST_DATAGRAMS; left > 0 && jalwedd_host_take(host, is_rtcp);)
        left--;
}

/* ---- What is due */

static inline int jalwedd_host_send(jalwedd_host *host, uint64_t now, uint64_t sampled, uint32_t payload_type,
                                    uint32_t timestamp, const void *payload, size_t size)
{
    const uint32_t own = host->step.ssrc, words[2] = {htonl(timestamp), htonl(own)};
    const uint16_t sequence = htons(host->sequence);
    uint8_t packet[12 + 1460];
    if (size > sizeof packet - 12 || host->end != JALWEDD_NEVER || host->to_rtp.size == 0)
        return -1;
    packet[0] = 0x80;
    packet[1] = payload_type & 0xff;
    memcpy(packet + 2, &sequence, sizeof sequence);
    memcpy(packet + 4, words, sizeof words);
    memcpy(packet + 12, payload, size);
    host->sequence++;
    if (sendto(host->rtp, packet, 12 + size, 0, &host->to_rtp.as.any, host->to_rtp.size) < 0)
        return -1;
    now = jalwedd_host_at(host, now);
    timestamp = jalwedd_rtp_at(timestamp, sampled, now, host->config.rate);
    jalwedd_record_sent_rtp(&host->calls, now, timestamp, size & UINT32_MAX);
    if (jalwedd_sent_rtp(&host->session, now, timestamp, size & UINT32_MAX, &host->step, host->octets) == JALWEDD_TAKEN)
        host->latest = now;
    jalwedd_host_settle(host, own);
    return 0;
}

static inline int jalwedd_host_dismiss(jalwedd_host *host, uint32_t ssrc)
{
    jalwedd_row *row = jalwedd_table_row(&host->table, ssrc);
    if (row == NULL)
        return -1;
    row->is_dismissed = host->dismissals = 1;
    return 0;
}

/* Dismisses those whose rows say so: what is told of it may dismiss others, in the next turn. */
static inline void jalwedd_host_dismiss_all(jalwedd_host *host, uint64_t now)
{
    host->dismissals = 0;
    for (uint32_t at = 0; at < host->table.count; at++) {
        if (!host->table.rows[at].is_dismissed)
            continue;
        jalwedd_record_forget(&host->calls, now, host->table.rows[at].ssrc);
        jalwedd_forget(&host->session, now, host->table.rows[at].ssrc, &host->step, host->octets);
    }
    jalwedd_table_update(&host->table, &host->session);
    jalwedd_host_tell_changes(host);
}

static inline void jalwedd_host_go(jalwedd_host *host, uint64_t now)
{
    const uint32_t word = jalwedd_word();
    host->end = now + host->leave_time;
    host->media_due = JALWEDD_NEVER;
    jalwedd_record_leave(&host->calls, now, word);
    jalwedd_leave(&host->session, now, word, &host->step, host->octets);
    jalwedd_host_settle(host, host->step.ssrc);
}

static inline void jalwedd_host_tick(jalwedd_host *host, uint64_t now)
{
    const int is_second = host->tick_due <= now;    /* or at step.next, within the second */
    const uint32_t word = jalwedd_word(), another = jalwedd_word();
    jalwedd_record_tick(&host->calls, now, word, another);
    jalwedd_tick(&host->session, now, word, another, &host->step, host->octets);
    jalwedd_host_settle(host, host->step.ssrc);
    if (is_second)
        host->tick_due = now + JALWEDD_SECOND;
    if (host->end != JALWEDD_NEVER)
        return;
    if (is_second) {
        jalwedd_table_update(&host->table, &host->session);
        jalwedd_table_second(&host->table);
    }
    jalwedd_host_tell_changes(host);
    if (is_second && host->second)
        host->second(host, now);
}

static inline int jalwedd_host_is_to_go(const jalwedd_host *host)
{
    return (host->is_to_leave || *host->stop) && host->end == JALWEDD_NEVER;
}

static inline uint64_t jalwedd_host_next(const jalwedd_host *host)
{
    if (host->step.next == JALWEDD_NEVER)
        return JALWEDD_NEVER;
    if (jalwedd_host_is_to_go(host) || (host->dismissals && host->end == JALWEDD_NEVER))
        return 0;
    return jalwedd_sooner(jalwedd_sooner(host->step.next, host->tick_due),
                          jalwedd_sooner(host->media_due, host->end));
}

static inline void jalwedd_host_turn(jalwedd_host *host)
{
    uint64_t now;
    if (jalwedd_host_next(host) == JALWEDD_NEVER)
        return;
    jalwedd_host_take_all(host, 1);
    jalwedd_host_take_all(host, 0);
    now = jalwedd_now();
    if (host->media_due <= now)
        host->media_due = host->media(host, now);
    if (host->dismissals && host->end == JALWEDD_NEVER)
        jalwedd_host_dismiss_all(host, jalwedd_host_at(host, now));
    if (jalwedd_host_is_to_go(host))
        jalwedd_host_go(host, jalwedd_host_at(host, now));
    if (jalwedd_sooner(host->step.next, host->tick_due) <= now)
        jalwedd_host_tick(host, jalwedd_host_at(host, now));
    if (host->end <= now)                   /* without a BYE, which others can delay for days */
        host->step.next = JALWEDD_NEVER;
}

/* When the first of several hosts is due, and in `sockets` what to wait for: nothing of those that are over. */
static inline uint64_t jalwedd_host_first(jalwedd_host *const *hosts, size_t count, struct pollfd *sockets)
{
    uint64_t first = JALWEDD_NEVER;
    for (size_t at = 0; at < count; at++) {
        const uint64_t next = jalwedd_host_next(hosts[at]);
        first = jalwedd_sooner(first, next);
        sockets[2 * at].fd = next == JALWEDD_NEVER ? -1 : hosts[at]->rtp;
        sockets[2 * at + 1].fd = next == JALWEDD_NEVER ? -1 : hosts[at]->rtcp;
        sockets[2 * at].events = sockets[2 * at + 1].events = POLLIN;
        sockets[2 * at].revents = sockets[2 * at + 1].revents = 0;
    }
    return first;
}

static inline void jalwedd_serve_all(jalwedd_host *const *hosts, size_t count, struct pollfd *sockets)
{
    uint64_t first, now;
    while ((first = jalwedd_host_first(hosts, count, sockets)) != JALWEDD_NEVER) {
        jalwedd_wait(sockets, 2 * count, first);
        now = jalwedd_now();
        for (size_t at = 0; at < count; at++)
            if (sockets[2 * at].revents || sockets[2 * at + 1].revents || jalwedd_host_next(hosts[at]) <= now)
                jalwedd_host_turn(hosts[at]);
    }
}

static inline void jalwedd_host_end(jalwedd_host *host)
{
    jalwedd_free(&host->session);
    if (host->rtp >= 0)
        close(host->rtp);
    if (host->rtcp >= 0)
        close(host->rtcp);
    host->rtp = host->rtcp = -1;
    host->step.next = JALWEDD_NEVER;
}

static inline uint32_t jalwedd_serve(jalwedd_host *host)
{
    struct pollfd sockets[2];
    const uint32_t status = jalwedd_host_begin(host);
    if (status == JALWEDD_TAKEN)
        jalwedd_serve_all(&host, 1, sockets);
    jalwedd_host_end(host);
    return status;
}

#ifdef __cplusplus
}
#endif

#endif
