/* Passes a stream of datagrams to a participant of the library, for compare/stacks/statistics, membership, receivers
 * and strangers. All its random words are 0, and its bandwidth is large, so each interval is the shortest one. With a
 * seed it is in a session of 64,000 bits a second, its words are drawn, and it ticks as a host does: when something may
 * be due, and a second after the latest tick.
 *
 * Lines on standard input: "rtp MOMENT TIMES HEX", a datagram that comes so often; "rtcp MOMENT HEX"; "tick MOMENT";
 * "look MOMENT"; "forget MOMENT SSRC"; "end MOMENT". "from HOST PORT" says where the datagrams after it come from, RTCP
 * from the port one above. For each tick it prints "report MOMENT HEX", or "nothing MOMENT" if none is due; for a
 * datagram that the guard holds back "held MOMENT"; and for a look "seen MOMENT SSRC:ROLE:RECEIVED:NTP ..": each other
 * source that is a member, as member or sender, with its packets, and the NTP timestamp of its latest sender report.
 *
 * usage: library RATE [SEED NAMES] < LINES
 *        library                 prints the library's version
 * A guard lets each address have so many NAMES, and holds them for a minute; 0 is for no guard. */
#include <jalwedd.h>

#include <arpa/inet.h>
#include <inttypes.h>
#include <stdbool.h>
#include <stdio.h>
#include <stdlib.h>
#include <string.h>

enum { ROOM = 4096, SECOND = 1000000 };

static struct {
    uint64_t peer;                      /* of RTP: that of RTCP is one more */
    uint64_t ticked, moment;            /* the latest tick, and the latest line or tick */
    bool is_host;                       /* it draws its words, and ticks by itself */
} host = {.peer = 1};

static void stop(const char *what, uint32_t status)
{
    fprintf(stderr, "library: %s: %s\n", what, jalwedd_text(status));
    exit(2);
}

static size_t octets_of(const char *hex, uint8_t *octets)
{
    size_t size = 0;
    unsigned octet;
    for (; sscanf(hex, "%2x", &octet) == 1; hex += 2)
        octets[size++] = (uint8_t)octet;
    return size;
}

static void print_step(uint64_t now, const jalwedd_step *step, const uint8_t *octets)
{
    if (step->kind != JALWEDD_REPORT) {
        printf("nothing %" PRIu64 "\n", now);
        return;
    }
    printf("report %" PRIu64 " ", now);
    for (uint32_t at = 0; at < step->size; at++)
        printf("%02x", octets[at]);
    printf("\n");
}

static uint32_t word(void)
{
    return host.is_host ? (uint32_t)mrand48() : 0;
}

static void tick(jalwedd_handle *session, uint64_t now)
{
    static uint8_t octets[JALWEDD_OCTETS];
    const uint32_t first = word(), second = word();
    jalwedd_step step;
    uint32_t status = jalwedd_tick(session, now, first, second, &step, octets);
    if (status != JALWEDD_TAKEN)
        stop("tick", status);
    print_step(now, &step, octets);
    host.ticked = now;
}

/* Makes a host's ticks up to a moment, and then stands there. */
static void go_to(jalwedd_handle *session, uint64_t moment)
{
    while (host.is_host) {
        uint64_t next = jalwedd_next(session), due = next < host.ticked + SECOND ? next : host.ticked + SECOND;
        due = due < host.moment ? host.moment : due;
        if (due > moment)
            break;
        tick(session, host.moment = due);
    }
    host.moment = moment;
}

static void come_from(const char *line)
{
    char address[16];
    struct in_addr at;
    unsigned port;
    if (sscanf(line, "from %15s %u", address, &port) != 2 || !inet_aton(address, &at))
        stop(line, JALWEDD_NO_PART);
    host.peer = (uint64_t)ntohl(at.s_addr) << 16 | port;
}

static void look(jalwedd_handle *session, uint64_t moment)
{
    jalwedd_source_state source;
    printf("seen %" PRIu64, moment);
    for (uint64_t from = 0; jalwedd_source(session, from, &source) == JALWEDD_TAKEN; from = (uint64_t)source.ssrc + 1)
        if (source.member)
            printf(" %08x:%s:%" PRIu64 ":%016" PRIx64, source.ssrc, source.sender ? "sender" : "member",
                   source.received, source.ntp);
    printf("\n");
}

static void take(jalwedd_handle *session, const char *line)
{
    static uint8_t datagram[ROOM], octets[JALWEDD_OCTETS];
    uint64_t now;
    uint32_t times, ssrc, status = JALWEDD_TAKEN;
    int hex = 0;
    jalwedd_step step;
    if (!strncmp(line, "from", 4)) {
        come_from(line);
        return;
    }
    if (sscanf(line, "%*s %" SCNu64, &now) == 1)
        go_to(session, now);
    if (sscanf(line, "rtp %" SCNu64 " %" SCNu32 " %n", &now, &times, &hex) == 2 && hex) {
        size_t size = octets_of(line + hex, datagram);
        while (times-- && status == JALWEDD_TAKEN)
            status = jalwedd_arrive_rtp(session, now, host.peer, 0, datagram, size, &step, octets);
    } else if (sscanf(line, "rtcp %" SCNu64 " %n", &now, &hex) == 1 && hex) {
        size_t size = octets_of(line + hex, datagram);
        status = jalwedd_arrive_rtcp(session, now, host.peer + 1, 0, datagram, size, &step, octets);
    } else if (sscanf(line, "tick %" SCNu64, &now) == 1) {
        tick(session, now);
    } else if (sscanf(line, "forget %" SCNu64 " %" SCNx32, &now, &ssrc) == 2) {
        status = jalwedd_forget(session, now, ssrc, &step, octets);
    } else if (sscanf(line, "look %" SCNu64, &now) == 1) {
        look(session, now);
    } else if (strncmp(line, "end", 3)) {
        status = JALWEDD_NO_PART;
    }
    if (status == JALWEDD_STRANGER || status == JALWEDD_CROWD)
        printf("held %" PRIu64 "\n", now);
    else if (status != JALWEDD_TAKEN)
        stop(line, status);
}

int main(int count, char **values)
{
    static char line[2 * ROOM];
    static const uint8_t cname[] = "receiver@example.org";
    const jalwedd_item no_item = {0};
    jalwedd_handle session = JALWEDD_EMPTY;
    jalwedd_config config = {.ssrc = 0xAA, .capacity = 64, .limit = 1472, .sender_bw = 1 << 20,
                             .receiver_bw = 1 << 20};
    jalwedd_step step;
    if (count != 2 && count != 4) {
        uint32_t version = jalwedd_version();
        printf("%u.%u.%u\n", version >> 16, version >> 8 & 0xFF, version & 0xFF);
        return 0;
    }
    config.rate = (uint32_t)atoi(values[1]);
    if (count == 4) {
        host.is_host = true;
        srand48(atol(values[2]));
        config.capacity = 1024;
        config.sender_bw = 100;
        config.receiver_bw = 300;
        config.guard = (jalwedd_guard){.names = (uint32_t)atoi(values[3]), .hold = 60ull * SECOND};
    }
    uint32_t status = jalwedd_new(&session, &config, cname, sizeof cname - 1, &no_item, 0, word(), &step);
    if (status != JALWEDD_TAKEN)
        stop("new", status);
    while (fgets(line, sizeof line, stdin))
        take(&session, line);
    jalwedd_free(&session);
    return 0;
}
