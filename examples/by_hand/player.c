/* A player that sends a stream of silence and takes part in its RTP session: two UDP sockets, `poll`, and the library.
 * Each second it prints the sources, how their packets are received, and what they report about its own. At ctrl-C it
 * leaves with a BYE, or without one if that is not due within 5 seconds (RFC 3550, 6.3.7).
 *
 *     player SEED RTP-PORT PEER-RTP-PORT [RECORD]      on 127.0.0.1, with RTCP at the ports one above
 *
 * With RECORD it records its calls in the file of that name, and in RECORD.sh the command that plays them again:
 *
 *     sh RECORD.sh < RECORD                            with rtcp in PATH
 */
#define JALWEDD_RECORD_STDIO
#include "jalwedd_record.h"
#include "jalwedd_report_before.h"

#include <arpa/inet.h>
#include <ctype.h>
#include <netinet/in.h>
#include <poll.h>
#include <signal.h>
#include <stdbool.h>
#include <stdio.h>
#include <stdlib.h>
#include <string.h>
#include <sys/socket.h>
#include <time.h>
#include <unistd.h>

enum {
    PACKET = 160,
    PACKET_TIME = 20000,
    SECOND = 1000000,
    LEAVE_TIME = 5 * SECOND,            /* others can delay the BYE for longer than a player is willing to wait */
    MOST_OCTETS = 65535,
    LARGEST_RTCP = 1500,                /* a larger datagram is dropped: one could name 8,057 sources */
    NOTES = 32
};

/* What a source says and the library does not keep. */
struct note {
    uint32_t ssrc;
    char cname[256];
    bool has_report;
    jalwedd_report report;              /* its newest one about the player's stream */
    uint32_t arrival;                   /* when that came: the middle 32 bits of the NTP timestamp */
};

struct player {
    jalwedd_handle session;
    jalwedd_config config;
    jalwedd_step step;
    int rtp, rtcp;
    struct sockaddr_in to_rtp, to_rtcp;
    uint64_t ticked;                    /* the moment of the latest tick */
    uint16_t sequence;
    uint32_t timestamp;
    struct note notes[NOTES];
    uint32_t noted;                     /* how many were begun */
    jalwedd_record calls;               /* records nothing where none is asked for */
};

static volatile sig_atomic_t is_over;

static void stop(int signal)
{
    (void)signal;
    is_over = 1;
}

/* A word for a draw; a real player takes it from the system (getrandom). */
static uint32_t random_word(void)
{
    return ((uint32_t)random() << 16) ^ (uint32_t)random();
}

/* The moment of now, by a clock that never goes back: the library takes it as it is. */
static uint64_t microseconds(void)
{
    struct timespec now;
    clock_gettime(CLOCK_MONOTONIC, &now);
    return (uint64_t)now.tv_sec * SECOND + (uint64_t)now.tv_nsec / 1000;
}

/* The time of day as an NTP timestamp: seconds since 1900, and their fraction (RFC 3550, section 4). */
static uint64_t ntp_now(void)
{
    struct timespec now;
    clock_gettime(CLOCK_REALTIME, &now);
    return ((uint64_t)now.tv_sec + 2208988800u) << 32 | ((uint64_t)now.tv_nsec << 32) / 1000000000u;
}

static struct sockaddr_in local(int port)
{
    return (struct sockaddr_in){.sin_family = AF_INET, .sin_port = htons((uint16_t)port),
                                .sin_addr.s_addr = htonl(INADDR_LOOPBACK)};
}

static int bound(int port)
{
    const struct sockaddr_in at = local(port);
    const int socket_of = socket(AF_INET, SOCK_DGRAM, 0);
    if (socket_of < 0 || bind(socket_of, (const struct sockaddr *)&at, sizeof at) != 0) {
        perror("bind");
        exit(1);
    }
    return socket_of;
}

static void send_out(const struct player *player, const uint8_t *octets)
{
    if (player->step.kind != JALWEDD_NOTHING)
        sendto(player->rtcp, octets, player->step.size, 0, (const struct sockaddr *)&player->to_rtcp,
               sizeof player->to_rtcp);
}

static void send_packet(struct player *player, uint64_t now, uint8_t *octets)
{
    uint8_t packet[12 + PACKET] = {0x80, 0};
    const uint32_t words[2] = {htonl(player->timestamp), htonl(player->step.ssrc)};
    packet[2] = (uint8_t)(player->sequence >> 8);
    packet[3] = (uint8_t)player->sequence;
    memcpy(packet + 4, words, sizeof words);
    memset(packet + 12, 0xff, PACKET);
    sendto(player->rtp, packet, sizeof packet, 0, (const struct sockaddr *)&player->to_rtp, sizeof player->to_rtp);
    jalwedd_record_sent_rtp(&player->calls, now, player->timestamp, PACKET);
    jalwedd_sent_rtp(&player->session, now, player->timestamp, PACKET, &player->step, octets);
    player->sequence++;
    player->timestamp += PACKET;
}

/* ---- Who is there */

static struct note *found_note(struct player *player, uint32_t ssrc)
{
    for (uint32_t at = 0; at < NOTES && at < player->noted; at++)
        if (player->notes[at].ssrc == ssrc)
            return &player->notes[at];
    return NULL;
}

/* The note of a source; if there is none yet and no room, the oldest note is given up. */
static struct note *note_of(struct player *player, uint32_t ssrc)
{
    struct note *note = found_note(player, ssrc);
    if (note != NULL)
        return note;
    note = &player->notes[player->noted++ % NOTES];
    *note = (struct note){.ssrc = ssrc, .cname = "?"};
    return note;
}

/* A CNAME may hold any octets. */
static void note_cname(struct note *note, const uint8_t *text, size_t size)
{
    for (size_t at = 0; at < size; at++)
        note->cname[at] = isprint(text[at]) ? (char)text[at] : '?';
    note->cname[size] = '\0';
}

static void take_cnames(struct player *player, const uint8_t *datagram, size_t size)
{
    jalwedd_cursor cursor = JALWEDD_BEGIN;
    jalwedd_item_place item;
    while (jalwedd_next_sdes_item(datagram, size, &cursor, &item) == JALWEDD_TAKEN)
        if (item.kind == JALWEDD_SDES_CNAME)
            note_cname(note_of(player, item.ssrc), datagram + item.offset, item.size);
}

/* How the stream is received by others. */
static void take_reports(struct player *player, uint64_t now, const uint8_t *datagram, size_t size)
{
    const uint64_t arrival = jalwedd_ntp_of(player->config.ntp_base, now - player->config.start);
    jalwedd_cursor cursor = JALWEDD_BEGIN;
    jalwedd_report report;
    while (jalwedd_next_block(datagram, size, &cursor, &report) == JALWEDD_TAKEN) {
        if (report.ssrc != player->step.ssrc)
            continue;
        struct note *note = note_of(player, report.reporter);
        note->has_report = true;
        note->report = report;
        note->arrival = (uint32_t)(arrival >> 16);
    }
}

static void print_report(const struct note *note)
{
    const jalwedd_report *report = &note->report;
    printf("; reports loss %.1f %%", report->fraction / 2.56);
    if (report->lsr == 0)
        return;
    /* may be negative if the other's clock is coarser than the round trip */
    const int32_t trip = (int32_t)jalwedd_round_trip(note->arrival, report->lsr, report->dlsr);
    printf(", round trip %.2f ms", trip > 0 ? trip / 65.536 : 0.0);
}

static const char *doing(const jalwedd_source_state *source)
{
    if (source->member)
        return source->sender ? "sends" : "listens";
    return source->left == JALWEDD_NEVER ? "is not yet valid" : "left";
}

static void print_source(struct player *player, const jalwedd_source_state *source)
{
    const struct note *note = found_note(player, source->ssrc);
    printf("  %08x %s %s: %llu packets with %llu octets received, %d lost, jitter %.1f ms", source->ssrc,
           note ? note->cname : "?", doing(source), (unsigned long long)source->received,
           (unsigned long long)source->octets, source->lost,
           source->rate != 0 ? source->jitter * 1e3 / source->rate : 0.0);
    if (source->has_block)
        printf("; we report loss %.1f %%", source->fraction / 2.56);
    if (note != NULL && note->has_report)
        print_report(note);
    printf("\n");
}

static void print_sources(struct player *player, uint64_t now)
{
    jalwedd_source_state source;
    printf("%.1f s: %u members, of whom %u send\n", (now - player->config.start) / 1e6, player->step.members,
           player->step.senders);
    for (uint64_t from = 0; jalwedd_source(&player->session, from, &source) == JALWEDD_TAKEN;
         from = (uint64_t)source.ssrc + 1)
        print_source(player, &source);
}

/* ---- Turns */

static void receive(struct player *player, int from, uint64_t now, uint8_t *octets)
{
    static uint8_t datagram[MOST_OCTETS + JALWEDD_REPORT_BEFORE];
    struct sockaddr_in peer;
    socklen_t length = sizeof peer;
    const ssize_t came = recvfrom(from, datagram, MOST_OCTETS, 0, (struct sockaddr *)&peer, &length);
    if (came < 0 || (from == player->rtcp && came > LARGEST_RTCP))
        return;
    const size_t size = from == player->rtp ? (size_t)came : jalwedd_put_report_before(datagram, (size_t)came);
    const uint64_t number = (uint64_t)ntohl(peer.sin_addr.s_addr) << 16 | ntohs(peer.sin_port);
    const uint32_t word = random_word();
    if (from == player->rtp) {
        jalwedd_record_arrive_rtp(&player->calls, now, number, word, datagram, size);
        jalwedd_arrive_rtp(&player->session, now, number, word, datagram, size, &player->step, octets);
    } else {
        /* first: the reports name the present SSRC, which the call may change */
        take_reports(player, now, datagram, size);
        take_cnames(player, datagram, size);
        jalwedd_record_arrive_rtcp(&player->calls, now, number, word, datagram, size);
        jalwedd_arrive_rtcp(&player->session, now, number, word, datagram, size, &player->step, octets);
    }
    send_out(player, octets);
}

static void tick(struct player *player, uint64_t now, uint8_t *octets)
{
    const uint32_t first_word = random_word(), second_word = random_word();
    jalwedd_record_tick(&player->calls, now, first_word, second_word);
    jalwedd_tick(&player->session, now, first_word, second_word, &player->step, octets);
    player->ticked = now;
    send_out(player, octets);
}

static void leave(struct player *player, uint64_t now, uint8_t *octets)
{
    const uint32_t word = random_word();
    jalwedd_record_leave(&player->calls, now, word);
    jalwedd_leave(&player->session, now, word, &player->step, octets);
    send_out(player, octets);
}

static uint64_t sooner(uint64_t one, uint64_t other)
{
    return one < other ? one : other;
}

/* When to tick: at `next`, and at least once a second, as only a tick drops those who left or fell silent. */
static uint64_t next_tick(const struct player *player)
{
    return sooner(player->step.next, player->ticked + SECOND);
}

/* One turn: waits for a datagram until the next tick, until the next packet is to go out, or until the end. */
static void turn(struct player *player, uint64_t next_packet, uint64_t end)
{
    static uint8_t octets[JALWEDD_OCTETS];
    struct pollfd sockets[2] = {{player->rtcp, POLLIN, 0}, {player->rtp, POLLIN, 0}};
    const uint64_t until = sooner(next_tick(player), sooner(next_packet, end));
    uint64_t now = microseconds();
    const int came = poll(sockets, 2, until <= now ? 0 : (int)((until - now + 999) / 1000));
    now = microseconds();
    for (int at = 0; came > 0 && at < 2; at++)
        if (sockets[at].revents & POLLIN)
            receive(player, sockets[at].fd, now, octets);
    if (next_tick(player) <= now)
        tick(player, now, octets);
    if (next_packet > now)
        return;
    send_packet(player, now, octets);
    if (player->sequence % (SECOND / PACKET_TIME) == 0)
        print_sources(player, now);
}

static void play(struct player *player)
{
    uint8_t octets[JALWEDD_OCTETS];
    uint64_t next_packet = player->config.start;
    for (; !is_over && player->step.next != JALWEDD_NEVER; fflush(stdout)) {
        const uint16_t sent = player->sequence;
        turn(player, next_packet, UINT64_MAX);
        if (player->sequence != sent)
            next_packet += PACKET_TIME;
    }
    const uint64_t left = microseconds();
    leave(player, left, octets);
    while (player->step.next != JALWEDD_NEVER && microseconds() < left + LEAVE_TIME)
        turn(player, UINT64_MAX, left + LEAVE_TIME);
}

/* ---- Begin and end */

static jalwedd_record record_in(const char *name, uint64_t start)
{
    const jalwedd_record record = {.write = jalwedd_record_to_file, .to = fopen(name, "w"), .start = start};
    if (record.to == NULL) {
        perror(name);
        exit(1);
    }
    return record;
}

/* Closes the file of a record, and returns whether all was written. */
static bool end_record(jalwedd_record *record)
{
    return fclose(record->to) == 0 && !record->failed;
}

/* Begins the session. With a name of a record, that is begun too, and its command is written. */
static bool begin(struct player *player, const char *record)
{
    const jalwedd_item tool = {.kind = JALWEDD_SDES_TOOL, .size = 7, .text = "jalwedd"};
    const uint8_t cname[] = "player@example.com";
    const uint32_t word = random_word();
    if (jalwedd_new(&player->session, &player->config, cname, sizeof cname - 1, &tool, 1, word, &player->step)
        != JALWEDD_TAKEN)
        return false;
    if (record == NULL)
        return true;
    char name[4096];
    snprintf(name, sizeof name, "%s.sh", record);
    jalwedd_record command = record_in(name, player->config.start);
    player->calls = record_in(record, player->config.start);
    jalwedd_record_command(&command, &player->config, cname, sizeof cname - 1, &tool, 1, word);
    return end_record(&command);
}

int main(int count, char **words)
{
    static struct player player;
    if (count != 4 && count != 5) {
        fprintf(stderr, "usage: player SEED RTP-PORT PEER-RTP-PORT [RECORD]\n");
        return 2;
    }
    srandom((unsigned)atoi(words[1]));
    player.rtp = bound(atoi(words[2]));
    player.rtcp = bound(atoi(words[2]) + 1);
    player.to_rtp = local(atoi(words[3]));
    player.to_rtcp = local(atoi(words[3]) + 1);
    /* of a session of 64,000 bits a second 5 per cent are for RTCP, and a quarter of that for senders; both clocks are
     * read together, at the start */
    player.config = (jalwedd_config){.ntp_base = ntp_now(), .start = microseconds(), .ssrc = random_word(),
                                     .capacity = 1024, .limit = 1472, .sender_bw = 100, .receiver_bw = 300,
                                     .rate = 8000};
    player.ticked = player.config.start;
    if (!begin(&player, count == 5 ? words[4] : NULL))
        return 1;
    signal(SIGINT, stop);
    play(&player);
    jalwedd_free(&player.session);      /* sends nothing, so a BYE that is not yet due is never sent */
    if (count == 5 && !end_record(&player.calls)) {
        fprintf(stderr, "the record is not whole\n");
        return 1;
    }
    return 0;
}
