/* jalwedd_host.h for hosts in C++17 and later: a class whose virtual functions are called for whatever happens.
 *
 *     class listener : public jalwedd::host {
 *     public:
 *         using host::host;
 *     private:
 *         void joined(const jalwedd_row& row) override { show(row.ssrc, jalwedd::text(row, JALWEDD_SDES_CNAME)); }
 *     };
 *
 *     std::array<jalwedd_row, 1024> rows;
 *     listener host("player@example.com", 64'000, 8'000, rows);
 *     if (!host.open("::", 5004, "2001:db8::1", 5004) || jalwedd_stop_at(SIGINT) != 0)
 *         return failed();
 *     return host.serve() == JALWEDD_TAKEN ? 0 : 1;
 *
 * A member function makes the call of its name in jalwedd_host.h, which says more about it, and what it calls back is a
 * virtual function; only jalwedd_host_begin is `join` here, and the callback `send` is send_out. The clock, random
 * words, addresses and the flag of a signal are those of jalwedd_system.h: jalwedd_now, jalwedd_word, jalwedd_stop_at.
 * Whoever has a loop of its own takes udp_socket, peers and table, and jalwedd::participant of jalwedd.hpp.
 *
 * Nothing here allocates, throws, or needs exceptions or type information; what a virtual function throws passes
 * through. It is tested; only the library is proved. */
#ifndef JALWEDD_HOST_HPP
#define JALWEDD_HOST_HPP

/* first, as it asks for POSIX where the compiler is strict */
#include "jalwedd_host.h"

#include "jalwedd.hpp"

namespace jalwedd {

/* ---- Pieces */

/// The octets of an SDES item of a source, of a kind from JALWEDD_SDES_CNAME on: any octets, or none. They are of the
/// row, and last as long.
[[nodiscard]] inline std::string_view text(const jalwedd_row& row, std::uint32_t kind) noexcept
{
    std::size_t size = 0;
    const std::uint8_t* const octets = jalwedd_row_item(&row, kind, &size);
    return octets == nullptr ? std::string_view{} : inside::text_at(octets, 0, size);
}

/// The numbers of peers (jalwedd_peer), by a random key: one for all participants of a process.
class peers {
public:
    /// Draws the key.
    peers() noexcept { jalwedd_key_draw(&key_); }

    /// The number of an address.
    [[nodiscard]] std::uint64_t number(const jalwedd_address& from) const noexcept
    {
        return jalwedd_peer(&key_, &from);
    }

private:
    jalwedd_key key_{};
};

/// A UDP socket, closed when it goes out of scope. It may be moved, but not copied.
class udp_socket {
public:
    /// None.
    udp_socket() noexcept = default;

    /// One that is bound to an own address, or none: then errno says why.
    explicit udp_socket(const jalwedd_address& own) noexcept : number_(jalwedd_bound(&own)) {}

    /// Takes the socket of `other`, and leaves that without one.
    udp_socket(udp_socket&& other) noexcept : number_(std::exchange(other.number_, -1)) {}

    /// The same, and closes its own.
    udp_socket& operator=(udp_socket&& other) noexcept
    {
        if (this != &other) {
            shut();
            number_ = std::exchange(other.number_, -1);
        }
        return *this;
    }

    udp_socket(const udp_socket&) = delete;
    udp_socket& operator=(const udp_socket&) = delete;

    ~udp_socket() { shut(); }

    /// Its number for poll and sendto, or -1 if this is none.
    [[nodiscard]] int number() const noexcept { return number_; }

    /// Takes a datagram without waiting (jalwedd_receive).
    [[nodiscard]] ssize_t receive(std::uint8_t* datagram, std::size_t room, jalwedd_address& from) const noexcept
    {
        return jalwedd_receive(number_, datagram, room, &from);
    }

private:
    void shut() noexcept
    {
        if (number_ >= 0)
            close(number_);
    }

    int number_ = -1;
};

/// Rows by rising SSRC, for `for (const jalwedd_row& row : rows)`. It borrows them.
class rows {
public:
    /// So many from the first one on.
    rows(const jalwedd_row* first, std::size_t count) noexcept : first_(first), count_(count) {}

    /// The first row, and the end.
    [[nodiscard]] const jalwedd_row* begin() const noexcept { return first_; }
    [[nodiscard]] const jalwedd_row* end() const noexcept { return first_ + count_; }

    /// How many there are.
    [[nodiscard]] std::size_t size() const noexcept { return count_; }

private:
    const jalwedd_row* first_;
    std::size_t count_;
};

/// A table of who is there (jalwedd_table.h), in rows that the host gives. It borrows these.
class table {
public:
    /// A table in these rows.
    table(jalwedd_row* rows, std::uint32_t count) noexcept : table_{rows, count, 0, 0} {}

    /// Lists the participant's sources into the table: after each call whose step.others_changed is 1, and each second.
    /// Not once the participant leaves.
    void update(participant& session) noexcept { jalwedd_table_update(&table_, session.handle()); }

    /// A source whose role changed, and its role before, or null: go on until it is null.
    [[nodiscard]] const jalwedd_row* change(std::uint32_t& was) noexcept { return jalwedd_table_change(&table_, &was); }

    /// Takes the losses of the second that ends now.
    void second() noexcept { jalwedd_table_second(&table_); }

    /// Takes the SDES items of an RTCP datagram that was taken.
    void items(const jalwedd_address& from, const std::uint8_t* datagram, std::size_t size) noexcept
    {
        jalwedd_table_items(&table_, &from, inside::address(datagram, size), size);
    }

    /// Takes a block about the own stream, and returns the row of its reporter, or null.
    const jalwedd_row* report(const jalwedd_report& block, std::uint32_t arrival, std::uint32_t rate) noexcept
    {
        return jalwedd_table_report(&table_, &block, arrival, rate);
    }

    /// Notes where an RTP packet of a source came from.
    void packet(const jalwedd_address& from, std::uint32_t ssrc) noexcept
    {
        jalwedd_table_packet(&table_, &from, ssrc);
    }

    /// The row of a source, or null.
    [[nodiscard]] const jalwedd_row* row(std::uint32_t ssrc) const noexcept { return jalwedd_table_row(&table_, ssrc); }

    /// The rows in use: until the next update.
    [[nodiscard]] rows rows_in_use() const noexcept { return {table_.rows, table_.count}; }

private:
    jalwedd_table table_;
};

/* ---- A host */

/// A whole host: sockets, clock, random words, the loop and the table. Hosts derive from it. It is neither copied nor
/// moved; its destructor frees the participant and closes the sockets, and sends nothing.
class host {
public:
    /// With the session's bandwidth in bits a second, the units a second of the own RTP timestamps, and the rows of the
    /// table, 1 to 1,024. `cname` has to last as long as the host.
    host(const char* cname, std::uint32_t session_bps, std::uint32_t rate, jalwedd_row* first,
         std::uint32_t count) noexcept
    {
        jalwedd_host_init(&host_, cname, session_bps, rate, first, count);
        call_back();
    }

    /// The same with all rows of an array.
    template <std::size_t count>
    host(const char* cname, std::uint32_t session_bps, std::uint32_t rate,
         std::array<jalwedd_row, count>& all) noexcept
        : host(cname, session_bps, rate, all.data(), static_cast<std::uint32_t>(count))
    {
    }

    host(const host&) = delete;
    host& operator=(const host&) = delete;

    virtual ~host() { jalwedd_host_end(&host_); }

    /// Opens both sockets, and finds where to send to: nowhere if `peer` is null. Whether all of this is there.
    [[nodiscard]] bool open(const char* own, std::uint16_t port, const char* peer = nullptr,
                            std::uint16_t peer_port = 0) noexcept
    {
        return jalwedd_host_open(&host_, own, port, peer, peer_port) == 0;
    }

    /// The whole session, until it is over. Returns what join does.
    std::uint32_t serve() { return jalwedd_serve(&host_); }

    /// Begins the session now (jalwedd_host_begin). Statuses: those of jalwedd_new.
    [[nodiscard]] std::uint32_t join() noexcept { return jalwedd_host_begin(&host_); }

    /// When the next turn is due: JALWEDD_NEVER once the session is over.
    [[nodiscard]] std::uint64_t next() const noexcept { return jalwedd_host_next(&host_); }

    /// Does what is due, without waiting.
    void turn() { jalwedd_host_turn(&host_); }

    /// Sends an RTP packet with this payload, whose timestamp is that of the moment `sampled`. Whether it was sent.
    bool send(std::uint64_t now, std::uint64_t sampled, std::uint32_t payload_type, std::uint32_t timestamp,
              const void* payload, std::size_t size)
    {
        return jalwedd_host_send(&host_, now, sampled, payload_type, timestamp, payload, size) == 0;
    }

    /// Gives the session these settings now, and the items of state(). After another ntp_base some reports tell no
    /// round trip for a while (jalwedd_host_configure).
    /// Statuses: those of jalwedd_configure; LEFT also while it waits for its BYE.
    std::uint32_t configure(const jalwedd_settings& settings) { return jalwedd_host_configure(&host_, &settings); }

    /// Dismisses a source at the end of a turn. Whether there is a row for it.
    bool dismiss(std::uint32_t ssrc) noexcept { return jalwedd_host_dismiss(&host_, ssrc) == 0; }

    /// Leaves, at the end of a turn.
    void leave() noexcept { jalwedd_host_leave(&host_); }

    /// What jalwedd_host.h says of a host: what it begins with until it joins, its configuration, step and table.
    [[nodiscard]] jalwedd_host& state() noexcept { return host_; }
    [[nodiscard]] const jalwedd_host& state() const noexcept { return host_; }

    /// Who is there, by rising SSRC: until the next turn.
    [[nodiscard]] rows rows_in_use() const noexcept { return {host_.table.rows, host_.table.count}; }

protected:
    /// Called back as jalwedd_host.h says; each does nothing, but for send_out, which sends to the peer of `open`.
    virtual void joined(const jalwedd_row&) {}
    virtual void left(const jalwedd_row&) {}
    virtual void timed_out(const jalwedd_row&) {}
    virtual void dismissed(const jalwedd_row&) {}
    virtual void role_changed(const jalwedd_row&) {}
    virtual void reported(const jalwedd_row&) {}
    virtual void ssrc_changed(std::uint32_t) {}
    virtual void refused(std::uint32_t, const std::uint8_t*, std::size_t) {}
    virtual void packet(const jalwedd_head_place&, const std::uint8_t*, std::size_t) {}
    virtual void compound(const std::uint8_t*, std::size_t) {}
    virtual std::uint64_t media(std::uint64_t) { return JALWEDD_NEVER; }
    virtual void second(std::uint64_t) {}
    virtual void send_out(const std::uint8_t* octets, std::size_t size)
    {
        if (host_.to_rtcp.size > 0)
            sendto(host_.rtcp, octets, size, 0, &host_.to_rtcp.as.any, host_.to_rtcp.size);
    }

private:
    static host& of(jalwedd_host* state) noexcept { return *static_cast<host*>(state->data); }

    void call_back() noexcept
    {
        host_.data = this;
        host_.joined = [](jalwedd_host* at, const jalwedd_row* row) { of(at).joined(*row); };
        host_.left = [](jalwedd_host* at, const jalwedd_row* row) { of(at).left(*row); };
        host_.timed_out = [](jalwedd_host* at, const jalwedd_row* row) { of(at).timed_out(*row); };
        host_.dismissed = [](jalwedd_host* at, const jalwedd_row* row) { of(at).dismissed(*row); };
        host_.role_changed = [](jalwedd_host* at, const jalwedd_row* row) { of(at).role_changed(*row); };
        host_.reported = [](jalwedd_host* at, const jalwedd_row* row) { of(at).reported(*row); };
        host_.ssrc_changed = [](jalwedd_host* at, std::uint32_t before) { of(at).ssrc_changed(before); };
        host_.refused = [](jalwedd_host* at, std::uint32_t status, const std::uint8_t* datagram, std::size_t size) {
            of(at).refused(status, datagram, size);
        };
        host_.packet = [](jalwedd_host* at, const jalwedd_head_place* head, const std::uint8_t* datagram,
                          std::size_t size) { of(at).packet(*head, datagram, size); };
        host_.compound = [](jalwedd_host* at, const std::uint8_t* datagram, std::size_t size) {
            of(at).compound(datagram, size);
        };
        host_.media = [](jalwedd_host* at, std::uint64_t now) { return of(at).media(now); };
        host_.second = [](jalwedd_host* at, std::uint64_t now) { of(at).second(now); };
        host_.send = [](jalwedd_host* at, const std::uint8_t* octets, std::size_t size) {
            of(at).send_out(octets, size);
        };
    }

    jalwedd_host host_; /* of which jalwedd_host_init sets all fields but the room for datagrams */
};

} // namespace jalwedd

#endif
