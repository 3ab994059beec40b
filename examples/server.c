/* A conference server in C: it has sessions at the pairs of ports from PORT on, and passes on to each member of a
 * session what the others send, as a multicast group would. It takes part in each session, reports to all, and prints
 * who joins and how their packets come, who leaves and who falls silent. At ctrl-C it leaves all of them with a BYE.
 *
 *     server OWN-ADDRESS PORT [SESSIONS]      with RTCP at the ports one above
 *
 * On an open network a server lets in only what SRTP authenticated: whoever forges an address here has the others'
 * packets sent there.
 */
#include <jalwedd_host.h>
#include <stdlib.h>

enum { MOST_SESSIONS = 200, MOST_MEMBERS = 20 };

static jalwedd_host hosts[MOST_SESSIONS], *sessions[MOST_SESSIONS];
static jalwedd_row rows[MOST_SESSIONS][MOST_MEMBERS];

/* Where a member receives RTP: where it sends from, or, if it sent none, the port below that of its RTCP. */
static jalwedd_address rtp_of(const jalwedd_row *row)
{
    jalwedd_address address = row->rtp.size > 0 ? row->rtp : row->rtcp;
    if (row->rtp.size > 0)
        return address;
    if (address.as.any.sa_family == AF_INET)
        address.as.ip4.sin_port = htons((uint16_t)(ntohs(address.as.ip4.sin_port) - 1));
    else
        address.as.ip6.sin6_port = htons((uint16_t)(ntohs(address.as.ip6.sin6_port) - 1));
    return address;
}

/* To all members but the one that it came from. */
static void pass_on(jalwedd_host *host, int is_rtcp, uint32_t from, const uint8_t *datagram, size_t size)
{
    for (uint32_t at = 0; at < host->table.count; at++) {
        const jalwedd_row *row = &host->table.rows[at];
        const jalwedd_address to = is_rtcp ? row->rtcp : rtp_of(row);
        if (row->role != JALWEDD_AWAY && row->ssrc != from && to.size > 0)
            sendto(is_rtcp ? host->rtcp : host->rtp, datagram, size, 0, &to.as.any, to.size);
    }
}

static void packet(jalwedd_host *host, const jalwedd_head_place *head, const uint8_t *datagram, size_t size)
{
    pass_on(host, 0, head->ssrc, datagram, size);
}

static void compound(jalwedd_host *host, const uint8_t *datagram, size_t size)
{
    uint32_t reporter;
    memcpy(&reporter, datagram + 4, sizeof reporter);
    pass_on(host, 1, ntohl(reporter), datagram, size);
}

static void report(jalwedd_host *host, const uint8_t *octets, size_t size)
{
    pass_on(host, 1, host->step.ssrc, octets, size);
}

static void print(jalwedd_host *host, const jalwedd_row *row, const char *what)
{
    const jalwedd_address at = rtp_of(row);
    char cname[256], address[JALWEDD_ADDRESS_TEXT];
    printf("session %d: %08x %s at %s %s: %llu received, %lld lost, jitter %.1f ms\n", (int)(host - hosts), row->ssrc,
           jalwedd_row_text(row, JALWEDD_SDES_CNAME, cname), jalwedd_address_text(&at, address), what,
           (unsigned long long)row->received, (long long)row->lost, row->jitter_ms);
    fflush(stdout);
}

static void joined(jalwedd_host *host, const jalwedd_row *row)
{
    print(host, row, "joined");
}

static void left(jalwedd_host *host, const jalwedd_row *row)
{
    print(host, row, row->has_left ? "left" : "timed out");
}

static int begin(jalwedd_host *host, jalwedd_row *its_rows, const char *address, int port)
{
    jalwedd_host_init(host, "server@example.com", 64000, 8000, its_rows, MOST_MEMBERS);
    host->joined = joined;
    host->left = host->timed_out = left;
    host->packet = packet;
    host->compound = compound;
    host->send = report;
    return jalwedd_host_open(host, address, (uint16_t)port, NULL, 0) == 0 && jalwedd_host_begin(host) == JALWEDD_TAKEN;
}

int main(int count, char **words)
{
    static struct pollfd sockets[2 * MOST_SESSIONS];
    const int port = count > 2 ? atoi(words[2]) : 0, asked = count > 3 ? atoi(words[3]) : 1;
    int begun = 0;
    while (port > 0 && begun < asked && begun < MOST_SESSIONS &&
           begin(sessions[begun] = &hosts[begun], rows[begun], words[1], port + 2 * begun))
        begun++;
    if (begun == 0 || begun < asked || jalwedd_stop_at(SIGINT) != 0) {
        fprintf(stderr, "usage: server OWN-ADDRESS PORT [SESSIONS]\n");
        return 2;
    }
    jalwedd_serve_all(sessions, (size_t)begun, sockets);
    for (int at = 0; at < begun; at++)
        jalwedd_host_end(sessions[at]);
    return 0;
}
