/* Tests the classes of jalwedd_host.hpp: sockets that are moved, the numbers of peers, a table that is fed by hand, and
 * two hosts that talk on loopback: what they are called for, what they refuse, other settings, and, with exceptions,
 * that one passes through the loop. Ends with 0, or prints the line of the test that fails. (package/compile)
 * usage: hpp_hosts SAMPLES        which are not read; ports 6870 to 6875 of 127.0.0.1 */
#include <jalwedd_host.hpp>

#include "hpp_tests.hpp"

#include <utility>

using jalwedd::udp_socket;

constexpr std::uint16_t PORT = 6870;

static_assert(!std::is_copy_constructible_v<udp_socket> && std::is_nothrow_move_constructible_v<udp_socket>);
static_assert(!std::is_copy_constructible_v<jalwedd::host> && !std::is_move_constructible_v<jalwedd::host>);

static int sockets()
{
    jalwedd_address own{}, from{};
    std::uint8_t came[4] = {};
    HOLDS(udp_socket{}.number() == -1 && udp_socket{}.receive(came, sizeof came, from) == -1);
    HOLDS(jalwedd_resolve("127.0.0.1", PORT, AF_INET, &own) == 0);
    udp_socket one(own);
    const int number = one.number();
    HOLDS(number >= 0 && udp_socket(own).number() == -1); /* the port is in use */
    udp_socket two(std::move(one));
    HOLDS(two.number() == number);
    HOLDS(sendto(two.number(), "four", 4, 0, &own.as.any, own.size) == 4);
    HOLDS(two.receive(came, sizeof came, from) == 4 && came[3] == 'r');
    const jalwedd::peers all, others;
    HOLDS(all.number(from) == 0x7f000001'0000 + PORT && all.number(from) == others.number(from));
    two = udp_socket{};
    HOLDS(udp_socket(own).number() >= 0); /* it was closed */
    return 0;
}

static int table_by_hand()
{
    const std::uint8_t datagram[] = {0x80, 0xc9, 0, 1, 0, 0, 0, 7, 0x81, 0xca, 0, 2, 0, 0, 0, 7, 1, 1, 'a', 0};
    std::array<jalwedd_row, 2> rows;
    jalwedd::participant session;
    jalwedd::table table(rows.data(), 2);
    jalwedd_step step;
    std::uint8_t out[JALWEDD_OCTETS];
    std::uint32_t was = 0;
    jalwedd_config config{};
    config.ssrc = 0xaa, config.capacity = 2, config.limit = 1472, config.rate = 8000;
    config.sender_bw = 100, config.receiver_bw = 300;
    HOLDS(session.join(config, "a", 1, step) == JALWEDD_TAKEN);
    HOLDS(session.arrive_rtcp(0, 1, 2, datagram, step, out) == JALWEDD_TAKEN && step.others_changed == 1);
    table.update(session);
    table.items({}, datagram, sizeof datagram);
    const jalwedd_row* const row = table.change(was);
    HOLDS(row != nullptr && row->ssrc == 7 && was == JALWEDD_AWAY && row->role == JALWEDD_MEMBER);
    HOLDS(table.change(was) == nullptr && table.row(7) == row && table.row(8) == nullptr);
    HOLDS(jalwedd::text(*row, JALWEDD_SDES_CNAME) == "a" && jalwedd::text(*row, JALWEDD_SDES_TOOL).empty());
    HOLDS(table.rows_in_use().size() == 1 && table.rows_in_use().begin() == row);
    const jalwedd_report block{7, 0xaa, 128, 3, 9, 80, 0x10000, 0x8000};
    HOLDS(table.report(block, 0x20000, 8000) == row && row->round_trip_ms == 500 && row->report_loss == 50);
    return 0;
}

/* It sends a packet each 20 milliseconds, and counts what it is called for. */
class counting : public jalwedd::host {
public:
    using host::host;

    int joins = 0, goodbyes = 0, packets = 0, reports = 0, refusals = 0, seconds = 0, compounds = 0;
    bool throws = false;

private:
    void joined(const jalwedd_row&) override { joins++; }
    void left(const jalwedd_row&) override { goodbyes++; }
    void packet(const jalwedd_head_place&, const std::uint8_t*, std::size_t) override { packets++; }
    void reported(const jalwedd_row&) override { reports++; }
    void refused(std::uint32_t, const std::uint8_t*, std::size_t) override { refusals++; }
    void compound(const std::uint8_t*, std::size_t) override { compounds++; }

    std::uint64_t media(std::uint64_t now) override
    {
        if (!send(now, now, 0, static_cast<std::uint32_t>(now / 125), "four", 4))
            refusals++;
        return now + 20'000;
    }

    void second(std::uint64_t) override
    {
#ifdef __cpp_exceptions
        if (throws)
            throw seconds;
#endif
        seconds++;
    }
};

static int refused()
{
    std::array<jalwedd_row, 1> rows;
    counting one("a", 64'000, 8'000, rows), two("a", 64'000, 8'000, rows);
    counting none("a", 64'000, 8'000, rows.data(), 0);
    HOLDS(one.open("127.0.0.1", PORT) && !two.open("127.0.0.1", PORT));
    HOLDS(two.state().rtp == -1 && two.state().rtcp == -1);
    HOLDS(none.join() == JALWEDD_CAPACITY && none.next() == JALWEDD_NEVER);
    HOLDS(none.configure(jalwedd_settings_of(&none.state().config)) == JALWEDD_IS_EMPTY);
    counting unnamed("", 64'000, 8'000, rows);
    HOLDS(unnamed.serve() == JALWEDD_CNAME);
    return 0;
}

/* By ticks of the host's clock: until both saw so many seconds, or one of them is over. */
static void serve(counting& one, counting& two, int seconds)
{
    while (one.next() != JALWEDD_NEVER && two.next() != JALWEDD_NEVER &&
           (one.seconds < seconds || two.seconds < seconds)) {
        usleep(1'000);
        one.turn();
        two.turn();
    }
}

/* Settings that are taken are in its configuration, and those that are refused are not. */
static int configured(counting& host)
{
    jalwedd_settings settings = jalwedd_settings_of(&host.state().config);
    settings.rate = 48'000;
    settings.ntp_base++;
    HOLDS(host.configure(settings) == JALWEDD_TAKEN && host.state().config.rate == 48'000);
    HOLDS(host.state().config.ntp_base == settings.ntp_base && host.state().config.sender_bw == 100);
    settings.rate = 0;
    HOLDS(host.configure(settings) == JALWEDD_RATE && host.state().config.rate == 48'000);
    return 0;
}

static int talking()
{
    std::array<jalwedd_row, 4> of_one, of_two;
    counting one("one", 64'000, 8'000, of_one), two("two", 64'000, 8'000, of_two);
    HOLDS(one.open("127.0.0.1", PORT, "127.0.0.1", PORT + 4) && two.open("127.0.0.1", PORT + 4, "127.0.0.1", PORT));
    HOLDS(one.join() == JALWEDD_TAKEN && two.join() == JALWEDD_TAKEN);
    serve(one, two, 1);
    HOLDS(one.joins == 1 && two.joins == 1 && one.packets >= 40 && two.packets >= 40);
    HOLDS(one.rows_in_use().size() == 1 && one.rows_in_use().begin()->ssrc == two.state().step.ssrc);
    PASSES(configured(one));
    two.leave();
    HOLDS(two.next() == 0);
    two.turn();
    HOLDS(two.next() == JALWEDD_NEVER);
    HOLDS(two.configure(jalwedd_settings_of(&two.state().config)) == JALWEDD_LEFT);
    one.turn();
    HOLDS(one.goodbyes == 1 && one.compounds >= 1 && one.refusals == 0 && two.refusals == 0);
    HOLDS(!two.send(jalwedd_now(), 0, 0, 0, "four", 4));
#ifdef __cpp_exceptions
    int thrown = -1;
    one.throws = true;
    try {
        serve(one, one, 5);
    } catch (int seconds) {
        thrown = seconds;
    }
    HOLDS(thrown == 1);
#endif
    return 0;
}

int main()
{
    PASSES(sockets() || table_by_hand() || refused() || talking());
    return 0;
}
