/* A peer of compare/stacks/peers over oRTP: sends and receives mu-law audio, 20 milliseconds a packet, until it is
 * interrupted; then says goodbye. Prints each CNAME that a source description names.
 *
 *     peer_ortp RTP-PORT PEER-RTP-PORT [ADDRESS]      on 127.0.0.1 or ::1, with RTCP at the ports one above */
#include <ortp/ortp.h>

#include <signal.h>
#include <stdio.h>
#include <stdlib.h>
#include <string.h>
#include <time.h>

enum { PACKET = 160, PACKET_TIME = 20000000, SECOND = 1000000000 };

static volatile sig_atomic_t is_over;

static void stop(int signal)
{
    (void)signal;
    is_over = 1;
}

static void print_item(void *to, uint32_t source, rtcp_sdes_type_t kind, const char *text, uint8_t size)
{
    (void)to;
    if (kind == RTCP_SDES_CNAME)
        printf("%08x is %.*s\n", source, size, text);
}

static void print_names(OrtpEvQueue *events)
{
    OrtpEvent *event;
    while ((event = ortp_ev_queue_get(events)) != NULL) {
        mblk_t *packet = ortp_event_get_data(event)->packet;
        if (ortp_event_get_type(event) == ORTP_EVENT_RTCP_PACKET_RECEIVED)
            do
                if (rtcp_is_SDES(packet))
                    rtcp_sdes_parse(packet, print_item, NULL);
            while (rtcp_next_packet(packet));
        ortp_event_destroy(event);
    }
}

static void play(RtpSession *session, OrtpEvQueue *events)
{
    uint8_t silence[PACKET];
    struct timespec next;
    memset(silence, 0xff, sizeof silence);
    clock_gettime(CLOCK_MONOTONIC, &next);
    for (uint32_t at = 0; !is_over; at += PACKET) {
        mblk_t *came;
        rtp_session_send_with_ts(session, silence, PACKET, at);
        while ((came = rtp_session_recvm_with_ts(session, at)) != NULL)
            freemsg(came);
        print_names(events);
        fflush(stdout);
        next.tv_nsec += PACKET_TIME;
        next.tv_sec += next.tv_nsec / SECOND;
        next.tv_nsec %= SECOND;
        clock_nanosleep(CLOCK_MONOTONIC, TIMER_ABSTIME, &next, NULL);
    }
}

int main(int count, char **words)
{
    if (count != 3 && count != 4) {
        fprintf(stderr, "usage: peer_ortp RTP-PORT PEER-RTP-PORT [ADDRESS]\n");
        return 2;
    }
    const char *address = count > 3 ? words[3] : "127.0.0.1";
    const int port = atoi(words[1]), peer = atoi(words[2]);
    ortp_init();
    RtpSession *session = rtp_session_new(RTP_SESSION_SENDRECV);
    OrtpEvQueue *events = ortp_ev_queue_new();
    rtp_session_set_local_addr(session, address, port, port + 1);
    rtp_session_set_remote_addr_and_port(session, address, peer, peer + 1);
    rtp_session_set_profile(session, &av_profile);
    rtp_session_set_payload_type(session, 0);
    rtp_session_set_source_description(session, "ortp@example.com", NULL, NULL, NULL, NULL, "oRTP", NULL);
    rtp_session_register_event_queue(session, events);
    signal(SIGINT, stop);
    play(session, events);
    rtp_session_bye(session, "over");
    rtp_session_destroy(session);
    ortp_exit();
    return 0;
}
