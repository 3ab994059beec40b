/* examples/player.c in C++17: sends a stream of silence, and prints who is there. At ctrl-C it leaves with a BYE.
 *
 *     player OWN-ADDRESS PORT PEER-ADDRESS PEER-PORT      by IPv4 or IPv6, with RTCP at the ports one above
 */
#include <jalwedd_host.hpp>

#include <cstdio>
#include <cstdlib>

struct player : jalwedd::host {
    using host::host;

private:
    static constexpr std::uint32_t packet = 160;          // of PCMU: its octets and units
    static constexpr std::uint64_t packet_time = 20'000;  // microseconds

    void joined(const jalwedd_row& row) override { print(row, "joined"); }
    void left(const jalwedd_row& row) override { print(row, "left"); }
    void timed_out(const jalwedd_row& row) override { print(row, "timed out"); }

    void second(std::uint64_t) override
    {
        for (const jalwedd_row& row : rows_in_use()) {
            std::printf("  %08x %lld received, %lld lost, %.1f %% in this second, jitter %.1f ms", row.ssrc,
                        static_cast<long long>(row.received), static_cast<long long>(row.lost), row.loss_second,
                        row.jitter_ms);
            if (row.has_report != 0)
                std::printf("; reports %d lost, round trip %.1f ms", row.report.lost, row.round_trip_ms);
            std::printf("\n");
        }
        std::fflush(stdout);
    }

    std::uint64_t media(std::uint64_t now) override
    {
        std::array<std::uint8_t, packet> silence;
        silence.fill(0xff);
        send(now, state().media_due, 0, timestamp_, silence.data(), silence.size());
        timestamp_ += packet;
        return state().media_due + packet_time;
    }

    static void print(const jalwedd_row& row, const char* what)
    {
        char cname[256];
        std::printf("%08x %s %s\n", row.ssrc, jalwedd_row_text(&row, JALWEDD_SDES_CNAME, cname), what);
    }
    std::uint32_t timestamp_ = jalwedd_word();
};

int main(int count, char** words)
{
    static std::array<jalwedd_row, 1024> rows;
    static player host("player@example.com", 64'000, 8'000, rows);
    const auto port = [](const char* digits) { return static_cast<std::uint16_t>(std::atoi(digits)); };
    if (count == 5 && host.open(words[1], port(words[2]), words[3], port(words[4])) && jalwedd_stop_at(SIGINT) == 0)
        return host.serve() == JALWEDD_TAKEN ? 0 : 1;
    std::fprintf(stderr, "usage: player OWN-ADDRESS PORT PEER-ADDRESS PEER-PORT\n");
    return 2;
}
