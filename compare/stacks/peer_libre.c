/* A peer of compare/stacks/peers over libre: sends and receives mu-law audio, 20 milliseconds a packet, until it is
 * interrupted; then it is freed, which says goodbye. Prints each CNAME that a source description names.
 *
 *     peer_libre RTP-PORT PEER-RTP-PORT [ADDRESS]      on 127.0.0.1 or ::1, with RTCP at the ports one above */
#define HAVE_INTTYPES_H
#define HAVE_STDBOOL_H
#include <re.h>

#include <stdio.h>
#include <stdlib.h>

enum { PACKET = 160, PACKET_TIME = 20 };

struct peer {
    struct rtp_sock *session;
    struct sa to;
    struct mbuf *packet;
    struct tmr timer;
    uint64_t begin;
    uint32_t sent;
};

static void stop(int signal)
{
    (void)signal;
    re_cancel();
}

static void take_packet(const struct sa *from, const struct rtp_header *head, struct mbuf *payload, void *to)
{
    (void)from;
    (void)head;
    (void)payload;
    (void)to;
}

static void print_names(const struct sa *from, struct rtcp_msg *packet, void *to)
{
    (void)from;
    (void)to;
    if (packet->hdr.pt != RTCP_SDES)
        return;
    for (unsigned chunk = 0; chunk < packet->hdr.count; chunk++)
        for (uint32_t at = 0; at < packet->r.sdesv[chunk].n; at++) {
            const struct rtcp_sdes_item *item = &packet->r.sdesv[chunk].itemv[at];
            if (item->type == RTCP_SDES_CNAME)
                printf("%08x is %.*s\n", packet->r.sdesv[chunk].src, item->length, item->data);
        }
    fflush(stdout);
}

/* Sends all packets that are due by now. */
static void send_packets(void *to)
{
    struct peer *peer = to;
    while ((uint64_t)peer->sent * PACKET_TIME <= tmr_jiffies() - peer->begin) {
        mbuf_reset(peer->packet);
        mbuf_fill(peer->packet, 0, RTP_HEADER_SIZE);
        mbuf_fill(peer->packet, 0xff, PACKET);
        mbuf_set_pos(peer->packet, RTP_HEADER_SIZE);
        rtp_send(peer->session, &peer->to, false, false, 0, peer->sent * PACKET, peer->packet);
        peer->sent++;
    }
    tmr_start(&peer->timer, peer->begin + (uint64_t)peer->sent * PACKET_TIME - tmr_jiffies(), send_packets, peer);
}

int main(int count, char **words)
{
    struct peer peer = {.sent = 0};
    struct sa own, to_rtcp;
    if (count != 3 && count != 4) {
        fprintf(stderr, "usage: peer_libre RTP-PORT PEER-RTP-PORT [ADDRESS]\n");
        return 2;
    }
    const char *address = count > 3 ? words[3] : "127.0.0.1";
    const uint16_t port = (uint16_t)atoi(words[1]), other = (uint16_t)atoi(words[2]);
    libre_init();
    sa_set_str(&own, address, 0);
    sa_set_str(&peer.to, address, other);
    sa_set_str(&to_rtcp, address, other + 1);
    if (rtp_listen(&peer.session, IPPROTO_UDP, &own, port, port + 1, true, take_packet, print_names, &peer) != 0)
        return 1;
    rtcp_set_srate(peer.session, 8000, 8000);
    rtcp_start(peer.session, "libre@example.com", &to_rtcp);
    peer.packet = mbuf_alloc(RTP_HEADER_SIZE + PACKET);
    peer.begin = tmr_jiffies();
    tmr_init(&peer.timer);
    send_packets(&peer);
    re_main(stop);
    tmr_cancel(&peer.timer);
    mem_deref(peer.session);
    mem_deref(peer.packet);
    libre_close();
    return 0;
}
