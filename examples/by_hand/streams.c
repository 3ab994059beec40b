/* A host that sends two streams into one session, such as those of two microphones: one participant each, over the same
 * two UDP sockets, with one CNAME, one clock and one time of day. Each participant is passed what comes, and what the
 * other stream sends, as if it had come; so both count the same members. Each second it prints who is there by each. At
 * ctrl-C both leave with a BYE, or without one if that is not due within 5 seconds (RFC 3550, 6.3.7).
 *
 *     streams SEED RTP-PORT PEER-RTP-PORT      on 127.0.0.1, with RTCP at the ports one above
 */
#include "jalwedd.h"
#include "jalwedd_report_before.h"

#include <arpa/inet.h>
#include <netinet/in.h>
#include <poll.h>
#include <signal.h>
#include <stdbool.h>
#include <stdio.h>
#include <stdlib.h>
#include <string.h>
#include <sys/socket.h>
#include <time.h>

enum {
    STREAMS = 2,
    PACKET = 160,
    PACKET_TIME = 20000,
    SECOND = 1000000,
    LEAVE_TIME = 5 * SECOND,
    MOST_OCTETS = 65535,
    LARGEST_RTCP = 1500
};

struct stream {
    jalwedd_handle session;
    jalwedd_step step;
    uint64_t ticked;                    /* the moment of the latest tick */
    uint16_t sequence;
    uint32_t timestamp;
};

struct host {
    struct stream streams[STREAMS];
    int rtp, rtcp;
    struct sockaddr_in to_rtp, to_rtcp;
    uint64_t start, now;                /* by the clock of the host, which is that of both participants */
};

/* A datagram that came, or that a stream of this host sent. */
struct arrival {
    const uint8_t *octets;
    size_t size;
    uint64_t peer;                      /* for a stream its number, which no address with a port has */
    int from;                           /* the stream that sent it, or STREAMS */
    bool is_rtp;
};

static volatile sig_atomic_t is_over;

static void stop(int signal)
{
    (void)signal;
    is_over = 1;
}

/* A word for a draw; a real player takes it from the system (getrandom). */
static uint32_t random_word(void)
{
    return ((uint32_t)random() << 16) ^ (uint32_t)random();
}

/* The moment of now, by a clock that never goes back: the library takes it as it is. */
static uint64_t microseconds(void)
{
    struct timespec now;
    clock_gettime(CLOCK_MONOTONIC, &now);
    return (uint64_t)now.tv_sec * SECOND + (uint64_t)now.tv_nsec / 1000;
}

/* The time of day as an NTP timestamp: seconds since 1900, and their fraction (RFC 3550, section 4). */
static uint64_t ntp_now(void)
{
    struct timespec now;
    clock_gettime(CLOCK_REALTIME, &now);
    return ((uint64_t)now.tv_sec + 2208988800u) << 32 | ((uint64_t)now.tv_nsec << 32) / 1000000000u;
}

/* ---- Calls of one stream, and what the others hear of them */

static void pass_on(struct host *host, const struct arrival *arrival);

/* Sends what the latest call of a stream handed out, and passes it to the others. */
static void send_out(struct host *host, int own, const uint8_t *octets)
{
    const jalwedd_step *step = &host->streams[own].step;
    if (step->kind == JALWEDD_NOTHING)
        return;
    sendto(host->rtcp, octets, step->size, 0, (const struct sockaddr *)&host->to_rtcp, sizeof host->to_rtcp);
    pass_on(host, &(struct arrival){.octets = octets, .size = step->size, .peer = (uint64_t)own, .from = own});
}

/* Passes a datagram to each stream but the one that sent it. */
static void pass_on(struct host *host, const struct arrival *arrival)
{
    for (int at = 0; at < STREAMS; at++) {
        uint8_t octets[JALWEDD_OCTETS];
        struct stream *stream = &host->streams[at];
        if (at == arrival->from)
            continue;
        (arrival->is_rtp ? jalwedd_arrive_rtp : jalwedd_arrive_rtcp)(
            &stream->session, host->now, arrival->peer, random_word(), arrival->octets, arrival->size, &stream->step,
            octets);
        send_out(host, at, octets);
    }
}

static void send_packet(struct host *host, int own)
{
    uint8_t packet[12 + PACKET] = {0x80, 0}, octets[JALWEDD_OCTETS];
    struct stream *stream = &host->streams[own];
    const uint32_t words[2] = {htonl(stream->timestamp), htonl(stream->step.ssrc)};
    packet[2] = (uint8_t)(stream->sequence >> 8);
    packet[3] = (uint8_t)stream->sequence;
    memcpy(packet + 4, words, sizeof words);
    memset(packet + 12, 0xff, PACKET);
    sendto(host->rtp, packet, sizeof packet, 0, (const struct sockaddr *)&host->to_rtp, sizeof host->to_rtp);
    jalwedd_sent_rtp(&stream->session, host->now, stream->timestamp, PACKET, &stream->step, octets);
    pass_on(host, &(struct arrival){packet, sizeof packet, (uint64_t)own, own, true});
    stream->sequence++;
    stream->timestamp += PACKET;
}

static uint64_t sooner(uint64_t one, uint64_t other)
{
    return one < other ? one : other;
}

/* When to tick: at `next`, and at least once a second; never once the participant has left. */
static uint64_t next_tick(const struct stream *stream)
{
    return stream->step.next == JALWEDD_NEVER ? JALWEDD_NEVER : sooner(stream->step.next, stream->ticked + SECOND);
}

static void tick(struct host *host, int own)
{
    uint8_t octets[JALWEDD_OCTETS];
    struct stream *stream = &host->streams[own];
    stream->ticked = host->now;
    jalwedd_tick(&stream->session, host->now, random_word(), random_word(), &stream->step, octets);
    send_out(host, own, octets);
}

static void leave(struct host *host, int own)
{
    uint8_t octets[JALWEDD_OCTETS];
    struct stream *stream = &host->streams[own];
    jalwedd_leave(&stream->session, host->now, random_word(), &stream->step, octets);
    send_out(host, own, octets);
}

/* ---- Turns */

static void receive(struct host *host, int from)
{
    static uint8_t datagram[MOST_OCTETS + JALWEDD_REPORT_BEFORE];
    struct sockaddr_in peer;
    socklen_t length = sizeof peer;
    const ssize_t came = recvfrom(from, datagram, MOST_OCTETS, 0, (struct sockaddr *)&peer, &length);
    const bool is_rtp = from == host->rtp;
    if (came < 0 || (!is_rtp && came > LARGEST_RTCP))
        return;
    const size_t size = is_rtp ? (size_t)came : jalwedd_put_report_before(datagram, (size_t)came);
    const uint64_t number = (uint64_t)ntohl(peer.sin_addr.s_addr) << 16 | ntohs(peer.sin_port);
    pass_on(host, &(struct arrival){datagram, size, number, STREAMS, is_rtp});
}

/* Waits for a datagram until a tick is due or until the given moment, and ticks. */
static void turn(struct host *host, uint64_t until)
{
    struct pollfd sockets[2] = {{host->rtcp, POLLIN, 0}, {host->rtp, POLLIN, 0}};
    for (int at = 0; at < STREAMS; at++)
        until = sooner(until, next_tick(&host->streams[at]));
    host->now = microseconds();
    const int came = poll(sockets, 2, until <= host->now ? 0 : (int)((until - host->now + 999) / 1000));
    host->now = microseconds();
    for (int at = 0; came > 0 && at < 2; at++)
        if (sockets[at].revents & POLLIN)
            receive(host, sockets[at].fd);
    for (int at = 0; at < STREAMS; at++)
        if (next_tick(&host->streams[at]) <= host->now)
            tick(host, at);
}

static void print_members(const struct host *host)
{
    for (int at = 0; at < STREAMS; at++) {
        const jalwedd_step *step = &host->streams[at].step;
        printf("%.1f s: by %08x %u members, of whom %u send\n", (host->now - host->start) / 1e6, step->ssrc,
               step->members, step->senders);
    }
    fflush(stdout);
}

static void play(struct host *host)
{
    for (uint64_t next_packet = host->start; !is_over;) {
        turn(host, next_packet);
        if (next_packet > host->now)
            continue;
        for (int at = 0; at < STREAMS; at++)
            send_packet(host, at);
        next_packet += PACKET_TIME;
        if ((next_packet - host->start) % SECOND == 0)
            print_members(host);
    }
    for (int at = 0; at < STREAMS; at++)
        leave(host, at);
    const uint64_t end = host->now + LEAVE_TIME;
    while (host->now < end && sooner(next_tick(&host->streams[0]), next_tick(&host->streams[1])) != JALWEDD_NEVER)
        turn(host, end);
}

/* ---- Begin and end */

static struct sockaddr_in local(int port)
{
    return (struct sockaddr_in){.sin_family = AF_INET, .sin_port = htons((uint16_t)port),
                                .sin_addr.s_addr = htonl(INADDR_LOOPBACK)};
}

static int bound(int port)
{
    const struct sockaddr_in at = local(port);
    const int socket_of = socket(AF_INET, SOCK_DGRAM, 0);
    if (socket_of < 0 || bind(socket_of, (const struct sockaddr *)&at, sizeof at) != 0) {
        perror("bind");
        exit(1);
    }
    return socket_of;
}

static bool begin(struct host *host)
{
    const jalwedd_item tool = {.kind = JALWEDD_SDES_TOOL, .size = 7, .text = "jalwedd"};
    const uint8_t cname[] = "streams@example.com";
    const uint64_t start = microseconds(), ntp_base = ntp_now(); /* read together */
    bool is_begun = true;
    host->start = start;
    for (int at = 0; at < STREAMS; at++) {
        const uint64_t now = microseconds();
        /* of a session of 64,000 bits a second 5 per cent are for RTCP, and a quarter of that for senders. Each stream
         * has a start of its own, and NTP timestamps of one time of day */
        const jalwedd_config config = {.ntp_base = jalwedd_ntp_of(ntp_base, now - start), .start = now,
                                       .ssrc = random_word(), .capacity = 1024, .limit = 1472, .sender_bw = 100,
                                       .receiver_bw = 300, .rate = 8000};
        host->now = host->streams[at].ticked = now;
        is_begun &= jalwedd_new(&host->streams[at].session, &config, cname, sizeof cname - 1, &tool, 1, random_word(),
                                &host->streams[at].step) == JALWEDD_TAKEN;
    }
    return is_begun;
}

int main(int count, char **words)
{
    static struct host host;
    if (count != 4) {
        fprintf(stderr, "usage: streams SEED RTP-PORT PEER-RTP-PORT\n");
        return 2;
    }
    srandom((unsigned)atoi(words[1]));
    host.rtp = bound(atoi(words[2]));
    host.rtcp = bound(atoi(words[2]) + 1);
    host.to_rtp = local(atoi(words[3]));
    host.to_rtcp = local(atoi(words[3]) + 1);
    if (!begin(&host))
        return 1;
    signal(SIGINT, stop);
    play(&host);
    for (int at = 0; at < STREAMS; at++)
        jalwedd_free(&host.streams[at].session);
    return 0;
}
