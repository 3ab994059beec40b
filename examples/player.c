/* A player in C: sends a stream of silence and takes part in its RTP session. It prints who comes and goes, and each
 * second how packets are received at both ends. At ctrl-C it leaves with a BYE, or after 5 seconds without one.
 *
 *     player OWN-ADDRESS PORT PEER-ADDRESS PEER-PORT      by IPv4 or IPv6, with RTCP at the ports one above
 */
#include <jalwedd_host.h>
#include <stdlib.h>

enum { PACKET = 160, PACKET_TIME = 20000 };   /* of PCMU: its octets, and its time in microseconds */

static void print(const jalwedd_row *row, const char *what)
{
    char cname[256];
    printf("%08x %s %s\n", row->ssrc, jalwedd_row_text(row, JALWEDD_SDES_CNAME, cname), what);
}

static void joined(jalwedd_host *host, const jalwedd_row *row)
{
    (void)host;
    print(row, "joined");
}

static void left(jalwedd_host *host, const jalwedd_row *row)
{
    (void)host;
    print(row, row->has_left ? "left" : "timed out");
}

static void second(jalwedd_host *host, uint64_t now)
{
    printf("%.0f s: %u members\n", (double)(now - host->config.start) / 1e6, host->step.members);
    for (uint32_t at = 0; at < host->table.count; at++) {
        const jalwedd_row *row = &host->table.rows[at];
        printf("  %08x %llu received, %lld lost, %.1f %% in this second, jitter %.1f ms", row->ssrc,
               (unsigned long long)row->received, (long long)row->lost, row->loss_second, row->jitter_ms);
        if (row->has_report)
            printf("; reports %d lost, %.1f %%, jitter %.1f ms, round trip %.1f ms", row->report.lost,
                   row->report_loss, row->report_jitter_ms, row->round_trip_ms);
        printf("\n");
    }
    fflush(stdout);
}

static uint64_t media(jalwedd_host *host, uint64_t now)
{
    static uint8_t silence[PACKET];
    static uint32_t timestamp;
    memset(silence, 0xff, sizeof silence);
    jalwedd_host_send(host, now, host->media_due, 0, timestamp, silence, PACKET);
    timestamp += PACKET;
    return host->media_due + PACKET_TIME;
}

int main(int count, char **words)
{
    static jalwedd_row rows[1024];
    static jalwedd_host host;
    jalwedd_host_init(&host, "player@example.com", 64000, 8000, rows, 1024);
    host.joined = joined;
    host.left = host.timed_out = left;
    host.second = second;
    host.media = media;
    if (count != 5 || jalwedd_stop_at(SIGINT) != 0 ||
        jalwedd_host_open(&host, words[1], (uint16_t)atoi(words[2]), words[3], (uint16_t)atoi(words[4])) != 0) {
        fprintf(stderr, "usage: player OWN-ADDRESS PORT PEER-ADDRESS PEER-PORT\n");
        return 2;
    }
    return jalwedd_serve(&host) == JALWEDD_TAKEN ? 0 : 1;
}
