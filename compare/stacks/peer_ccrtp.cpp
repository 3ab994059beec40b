/* A peer of compare/stacks/peers over ccRTP: sends and receives mu-law audio, 20 milliseconds a packet, until it is
 * interrupted; then it is destroyed, which says goodbye. Prints each second the CNAME of each source.
 *
 *     peer_ccrtp RTP-PORT PEER-RTP-PORT [ADDRESS]      on 127.0.0.1, with RTCP at the ports one above */
#include <ccrtp/rtp.h>

#include <chrono>
#include <csignal>
#include <cstdio>
#include <cstdlib>
#include <thread>
#include <vector>

namespace {

constexpr unsigned packet = 160, packets_a_second = 50;
volatile std::sig_atomic_t is_over;

void stop(int)
{
    is_over = 1;
}

void print_names(ost::RTPSession &session)
{
    for (auto at = session.begin(); at != session.end(); ++at) {
        const ost::Participant *participant = at->getParticipant();
        if (participant != nullptr)
            std::printf("%08x is %s\n", static_cast<unsigned>(at->getID()),
                        participant->getSDESItem(ost::SDESItemTypeCNAME).c_str());
    }
    std::fflush(stdout);
}

void take_packets(ost::RTPSession &session)
{
    while (const ost::AppDataUnit *unit = session.getData(session.getFirstTimestamp()))
        delete unit;
}

void play(ost::RTPSession &session)
{
    const std::vector<unsigned char> silence(packet, 0xff);
    auto next = std::chrono::steady_clock::now();
    for (unsigned sent = 0; !is_over; sent++) {
        session.putData(sent * packet, silence.data(), silence.size());
        take_packets(session);
        if (sent % packets_a_second == 0)
            print_names(session);
        next += std::chrono::milliseconds(20);
        std::this_thread::sleep_until(next);
    }
}

}

int main(int count, char **words)
{
    if (count != 3 && count != 4) {
        std::fprintf(stderr, "usage: peer_ccrtp RTP-PORT PEER-RTP-PORT [ADDRESS]\n");
        return 2;
    }
    const ost::InetHostAddress here(count > 3 ? words[3] : "127.0.0.1");
    ost::RTPSession session(here, static_cast<ost::tpport_t>(std::atoi(words[1])));
    if (!session.addDestination(here, static_cast<ost::tpport_t>(std::atoi(words[2]))))
        return 1;
    session.setPayloadFormat(ost::StaticPayloadFormat(ost::sptPCMU));
    session.setSchedulingTimeout(10000);
    session.setExpireTimeout(1000000);  /* microseconds; by default it drops what it could not send within 40 ms */
    session.startRunning();
    std::signal(SIGINT, stop);
    play(session);
    return 0;
}
