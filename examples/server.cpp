/* A server in C++17 that listens to several sessions, at the pairs of ports from PORT on: it reports to all members of
 * each, and prints who joins, leaves or falls silent. At ctrl-C it leaves all sessions with a BYE. On an open network a
 * server sends only to addresses that SRTP authenticated.
 *
 *     server OWN-ADDRESS PORT [SESSIONS]      with RTCP at the ports one above
 */
#include <jalwedd_host.hpp>

#include <cstdio>
#include <cstdlib>
#include <deque>
#include <vector>

struct room {
    std::array<jalwedd_row, 20> rows{};
};

class session : room, public jalwedd::host {
public:
    session() : host("server@example.com", 64'000, 8'000, rows) {}

private:
    void joined(const jalwedd_row& row) override { print(row, "joined"); }
    void left(const jalwedd_row& row) override { print(row, "left"); }
    void timed_out(const jalwedd_row& row) override { print(row, "timed out"); }

    void send_out(const std::uint8_t* octets, std::size_t size) override
    {
        for (const jalwedd_row& row : rows_in_use())
            sendto(state().rtcp, octets, size, 0, &row.rtcp.as.any, row.rtcp.size);
    }

    static void print(const jalwedd_row& row, const char* what)
    {
        const jalwedd_address* const at = row.rtp.size > 0 ? &row.rtp : &row.rtcp;
        char cname[256], address[JALWEDD_ADDRESS_TEXT];
        std::printf("%08x %s at %s %s: %lld received, %lld lost\n", row.ssrc,
                    jalwedd_row_text(&row, JALWEDD_SDES_CNAME, cname), jalwedd_address_text(at, address), what,
                    static_cast<long long>(row.received), static_cast<long long>(row.lost));
    }
};

int main(int count, char** words)
{
    const int port = count > 2 ? std::atoi(words[2]) : 0, asked = count > 3 ? std::atoi(words[3]) : 1;
    std::deque<session> sessions; // in which each keeps its address
    std::vector<jalwedd_host*> hosts;
    for (int at = 0; at < asked; at++) {
        if (!sessions.emplace_back().open(count > 2 ? words[1] : "-", static_cast<std::uint16_t>(port + 2 * at)) ||
            sessions.back().join() != JALWEDD_TAKEN)
            return 2;
        hosts.push_back(&sessions.back().state());
    }
    std::vector<pollfd> sockets(2 * hosts.size());
    jalwedd_stop_at(SIGINT);
    jalwedd_serve_all(hosts.data(), hosts.size(), sockets.data());
}
