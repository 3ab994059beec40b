/* jalwedd.h for hosts in C++17 and later: a participant that is freed when it goes out of scope, and ranges that give
 * the sources of a session, what changed between two listings, and the parts of a datagram.
 *
 *     jalwedd::participant session;
 *     config.start = now, config.ntp_base = the time of day;                    of one moment, as in jalwedd.h
 *     if (session.join(config, "player@example.com", random_word(), step) != JALWEDD_TAKEN)
 *         return refused();
 *     session.arrive_rtcp(now, peer, random_word(), datagram, step, octets);    as the calls of jalwedd.h
 *     session.tick(now, random_word(), random_word(), step, octets);    at step.next, and at least once a second
 *     for (const jalwedd_source_state& source : session.sources())
 *         show(source.ssrc, source.received, source.lost);
 *     for (const jalwedd::sdes_item& item : jalwedd::sdes_items(datagram))
 *         if (item.kind == JALWEDD_SDES_CNAME)
 *             name(item.ssrc, item.text);
 *
 * A member function of a participant makes the call of its name in jalwedd.h, which says more about it, such as what
 * each word is for; only jalwedd_new is `join` here. A range has the plural of its call's name, except for `about`.
 * Structures, constants and statuses are those of jalwedd.h, and so are the calls that are not here: jalwedd_text and
 * the other texts, jalwedd_version, jalwedd_memory, jalwedd_settings_of, jalwedd_was_counted, jalwedd_round_trip,
 * jalwedd_ntp_of, jalwedd_ntp_base, jalwedd_rtp_at and jalwedd_rtp_head.
 *
 * A datagram is a pointer and a size, or an array, std::array, std::vector or std::span of octets (std::uint8_t). What
 * a call hands out goes into an array, a std::array or, in C++20, a std::span of JALWEDD_OCTETS octets.
 *
 * WHAT THE HOST MUST ENSURE, as nothing tests it, is what jalwedd.h says, except for this:
 * - A pointer may be null if its size or count is 0, such as that of an empty std::vector.
 * - A participant is freed by its destructor, and moving it leaves the old one empty. Two threads that call one at the
 *   same time may lose it: they hold a lock around reading the clock *and* the call.
 * - A range borrows what it was made from: a participant, listings or a datagram. The range, its iterators and the
 *   texts that they gave are not used once that has changed, was moved or is gone.
 *
 * No function that makes a call on a participant is const, as also those that only read write to the handle for a
 * while. Nothing here allocates, throws, or needs exceptions or type information. This header is tested; only the
 * library is proved.
 */
#ifndef JALWEDD_HPP
#define JALWEDD_HPP

#if __cplusplus < 201703L
#error "jalwedd.hpp needs C++17 or later"
#endif

#include "jalwedd.h"

#include <array>
#include <cstddef>
#include <cstdint>
#include <iterator>
#include <optional>
#include <string_view>
#include <type_traits>
#include <utility>
#if __cplusplus >= 202002L && __has_include(<span>)
#include <span>
#endif

namespace jalwedd {

/* ---- Inside: hosts do not use this namespace */

namespace inside {

/* An address for the library, which takes no null pointer, not even of nothing. */
template <typename Element>
const Element* address(const Element* at, std::size_t count) noexcept
{
    static constexpr Element nothing{};
    return count == 0 ? &nothing : at;
}

/* Whether a type has elements of this kind one after the other. */
template <typename Element, typename Array>
using if_has =
    std::enable_if_t<std::is_convertible_v<decltype(std::data(std::declval<const Array&>())), const Element*>>;

} // namespace inside

/* ---- Octets */

/// Room for a compound that a call hands out. Hosts do not name it: they pass an array, a std::array or, in C++20, a
/// std::span of JALWEDD_OCTETS octets. It borrows these.
class compound_room {
public:
    /// The octets of an array.
    compound_room(std::uint8_t (&octets)[JALWEDD_OCTETS]) noexcept : at_(octets) {}

    /// The octets of a std::array.
    compound_room(std::array<std::uint8_t, JALWEDD_OCTETS>& octets) noexcept : at_(octets.data()) {}

#ifdef __cpp_lib_span
    /// The octets of a std::span.
    compound_room(std::span<std::uint8_t, JALWEDD_OCTETS> octets) noexcept : at_(octets.data()) {}
#endif

    /// The first of the octets.
    [[nodiscard]] std::uint8_t* data() const noexcept { return at_; }

private:
    std::uint8_t* at_;
};

/* ---- Ranges */

/// What a call gives one after the other, for `for (const auto& element : range)`.
///
/// Each iterator has a copy of its element. Those over the parts of a datagram may be copied, and each copy goes on
/// from there: in C++20 they are forward iterators, which give elements by value. Those over sources and changes are
/// input iterators. `Call` is a type that hosts do not name.
template <typename Call>
class range {
public:
    /// The type of an element.
    using value_type = typename Call::value_type;

    /// An iterator over the elements.
    class iterator {
    public:
        /// What the standard library asks of an iterator.
        using iterator_concept = typename Call::iterator_concept;
        using iterator_category = std::input_iterator_tag;
        using value_type = typename Call::value_type;
        using difference_type = std::ptrdiff_t;
        using pointer = const value_type*;
        using reference = std::conditional_t<std::is_same_v<iterator_concept, std::input_iterator_tag>,
                                             const value_type&, value_type>;

        /// An iterator at the end.
        iterator() noexcept = default;

        /// The element, or a copy of it over the parts of a datagram. Not at the end.
        reference operator*() const noexcept { return element_; }

        /// A pointer to the element, which lasts until the iterator goes on. Not at the end.
        pointer operator->() const noexcept { return &element_; }

        /// Goes on to the next element, or to the end. Not at the end.
        iterator& operator++() noexcept
        {
            given_ = call_.give(position_, element_) == JALWEDD_TAKEN ? given_ + 1 : 0;
            return *this;
        }

        /// Goes on, and returns the iterator as it was.
        iterator operator++(int) noexcept
        {
            iterator before = *this;
            ++*this;
            return before;
        }

        /// Whether both are at the same element of a range, or at the end.
        friend bool operator==(const iterator& one, const iterator& other) noexcept
        {
            return one.given_ == other.given_;
        }

        /// Whether they are not.
        friend bool operator!=(const iterator& one, const iterator& other) noexcept { return !(one == other); }

    private:
        friend class range;
        explicit iterator(const Call& call) noexcept : call_(call) { ++*this; }

        Call call_{};
        typename Call::position position_{}; /* where the next call goes on */
        value_type element_{};
        std::size_t given_ = 0; /* how many elements there were with this one: 0 at the end */
    };

    /// Made by participant::sources and by the functions below.
    explicit range(const Call& call) noexcept : call_(call) {}

    /// At the first element, or at the end if there is none.
    [[nodiscard]] iterator begin() const noexcept { return iterator(call_); }

    /// After the last element.
    [[nodiscard]] iterator end() const noexcept { return iterator(); }

    /// The status of the call for the first element: JALWEDD_TAKEN, or why there is none.
    [[nodiscard]] std::uint32_t status() const noexcept
    {
        typename Call::position position{};
        value_type element{};
        return call_.give(position, element);
    }

private:
    Call call_;
};

/* ---- A participant */

namespace inside {

/* By rising SSRC. */
struct sources {
    using iterator_concept = std::input_iterator_tag;
    using value_type = jalwedd_source_state;
    using position = std::uint64_t;
    jalwedd_handle* handle = nullptr;

    std::uint32_t give(position& from, value_type& source) const noexcept
    {
        const std::uint32_t status = jalwedd_source(handle, from, &source);
        from = status == JALWEDD_TAKEN ? std::uint64_t{source.ssrc} + 1 : from;
        return status;
    }
};

} // namespace inside

/// A participant of a session (RFC 3550), or none: it is empty at first, once it is freed, and once it is moved.
///
/// It may be moved, into a container or to another thread too, but not copied. Its size is that of a pointer. A call
/// writes `step` whatever its status is, and into `octets` the compound that it hands out: step.kind says what that is,
/// and step.size how many octets it has.
class participant {
public:
    /// An empty one: each call but join returns JALWEDD_IS_EMPTY, or gives nothing.
    participant() noexcept = default;

    /// Takes the participant of `other`, and leaves that empty.
    participant(participant&& other) noexcept : handle_(std::exchange(other.handle_, jalwedd_handle JALWEDD_EMPTY)) {}

    /// Frees its own participant, takes that of `other`, and leaves that empty. To itself, it does nothing.
    participant& operator=(participant&& other) noexcept
    {
        if (this != &other) {
            jalwedd_free(&handle_);
            handle_ = std::exchange(other.handle_, jalwedd_handle JALWEDD_EMPTY);
        }
        return *this;
    }

    /// Not copied: two would speak as one.
    participant(const participant&) = delete;
    participant& operator=(const participant&) = delete;

    /// Frees the participant. It sends nothing: for a BYE call leave before it.
    ~participant() { jalwedd_free(&handle_); }

    /// Begins to take part in a session, at the moment config.start of the host's clock, which is now. `cname` has 1 to
    /// 255 octets, and there are at most 7 items. Allocates at most JALWEDD_MEMORY(config.capacity) octets, and no
    /// other call allocates. If step.next is not later than `now`, the start was not now: reports tell a time of day
    /// that is ahead (jalwedd_new).
    /// Statuses: TAKEN; IS_LIVE, and the participant that is there goes on; CNAME to START; NO_MEMORY.
    [[nodiscard]] std::uint32_t join(const jalwedd_config& config, std::string_view cname, const jalwedd_item* items,
                                     std::size_t item_count, std::uint32_t word, jalwedd_step& step) noexcept
    {
        const auto* const text = reinterpret_cast<const std::uint8_t*>(cname.data());
        return jalwedd_new(&handle_, &config, inside::address(text, cname.size()), cname.size(),
                           inside::address(items, item_count), item_count, word, &step);
    }

    /// The same without items.
    [[nodiscard]] std::uint32_t join(const jalwedd_config& config, std::string_view cname, std::uint32_t word,
                                     jalwedd_step& step) noexcept
    {
        return join(config, cname, nullptr, 0, word, step);
    }

    /// Frees the participant, and leaves this empty. It sends nothing: for a BYE call leave before it. It may also end
    /// a leave whose BYE is not yet due.
    /// Statuses: TAKEN; IS_EMPTY.
    std::uint32_t free() noexcept { return jalwedd_free(&handle_); }

    /// An RTCP datagram came from `peer` at the moment `now` of the host's clock, in microseconds. Hands out nothing,
    /// or, if it changes the SSRC, the BYE of the old one. Read its reports about the host's own stream before (about).
    /// On an open network, pass on no datagram of more than 1,500 octets.
    /// Statuses: TAKEN; LEFT to NO_COMPOUND; OWN_SSRC; IS_EMPTY.
    std::uint32_t arrive_rtcp(std::uint64_t now, std::uint64_t peer, std::uint32_t word, const std::uint8_t* datagram,
                              std::size_t size, jalwedd_step& step, compound_room octets) noexcept
    {
        return jalwedd_arrive_rtcp(&handle_, now, peer, word, inside::address(datagram, size), size, &step,
                                   octets.data());
    }

    /// The same of an array, std::array, std::vector or std::span of octets.
    template <typename Datagram, typename = inside::if_has<std::uint8_t, Datagram>>
    std::uint32_t arrive_rtcp(std::uint64_t now, std::uint64_t peer, std::uint32_t word, const Datagram& datagram,
                              jalwedd_step& step, compound_room octets) noexcept
    {
        return arrive_rtcp(now, peer, word, std::data(datagram), std::size(datagram), step, octets);
    }

    /// An RTP datagram came: as arrive_rtcp.
    /// Statuses: TAKEN; IS_EMPTY; TOO_LONG; LEFT to TOO_MANY; NO_RTP; OWN_SSRC.
    std::uint32_t arrive_rtp(std::uint64_t now, std::uint64_t peer, std::uint32_t word, const std::uint8_t* datagram,
                             std::size_t size, jalwedd_step& step, compound_room octets) noexcept
    {
        return jalwedd_arrive_rtp(&handle_, now, peer, word, inside::address(datagram, size), size, &step,
                                  octets.data());
    }

    /// The same of an array, std::array, std::vector or std::span of octets.
    template <typename Datagram, typename = inside::if_has<std::uint8_t, Datagram>>
    std::uint32_t arrive_rtp(std::uint64_t now, std::uint64_t peer, std::uint32_t word, const Datagram& datagram,
                             jalwedd_step& step, compound_room octets) noexcept
    {
        return arrive_rtp(now, peer, word, std::data(datagram), std::size(datagram), step, octets);
    }

    /// The host sent an RTP packet at the moment `now`, with this RTP timestamp and `payload` octets of payload. Hands
    /// out nothing, and leaves `octets` as they are.
    /// Statuses: TAKEN; LEFT to TOO_MANY; IS_EMPTY.
    std::uint32_t sent_rtp(std::uint64_t now, std::uint32_t timestamp, std::uint32_t payload, jalwedd_step& step,
                           compound_room octets) noexcept
    {
        return jalwedd_sent_rtp(&handle_, now, timestamp, payload, &step, octets.data());
    }

    /// Hands out what is due at the moment `now`: nothing, a report, or, after a leave, the BYE; and drops sources that
    /// were silent for too long or left. Call it at step.next, and at least once a second: but for forget no other call
    /// drops anyone, and step.next may be minutes away.
    /// Statuses: TAKEN; LEFT to TOO_MANY; IS_EMPTY.
    std::uint32_t tick(std::uint64_t now, std::uint32_t first_word, std::uint32_t second_word, jalwedd_step& step,
                       compound_room octets) noexcept
    {
        return jalwedd_tick(&handle_, now, first_word, second_word, &step, octets.data());
    }

    /// Changes the settings of the session at the moment `now`, to these and at most 7 items: the bandwidths, the
    /// clocks of payload types and of its own media, the time of day, and what the participant says of itself besides
    /// its CNAME. They hold from then on, and none of the former: jalwedd_settings_of gives those of a configuration,
    /// to change some. Hands out nothing, and leaves `octets` as they are.
    /// Statuses: TAKEN; IS_EMPTY; ITEM and RATE for what does not fit; LEFT to TOO_MANY; BANDWIDTH to ITEM.
    std::uint32_t configure(std::uint64_t now, const jalwedd_settings& settings, const jalwedd_item* items,
                            std::size_t item_count, jalwedd_step& step, compound_room octets) noexcept
    {
        return jalwedd_configure(&handle_, now, &settings, inside::address(items, item_count), item_count, &step,
                                 octets.data());
    }

    /// The same without items.
    std::uint32_t configure(std::uint64_t now, const jalwedd_settings& settings, jalwedd_step& step,
                            compound_room octets) noexcept
    {
        return configure(now, settings, nullptr, 0, step, octets);
    }

    /// Another source is gone at the moment `now`, as the host knows by other means, or so decides: its entry goes as
    /// if it had been silent for too long, and `changes` gives it as such a one: a host knows whom it dismissed.
    /// Nothing changes if it has no entry, or said goodbye. Hands out nothing, and leaves `octets` as they are.
    /// Statuses: TAKEN; LEFT to TOO_MANY; IS_EMPTY.
    std::uint32_t forget(std::uint64_t now, std::uint32_t ssrc, jalwedd_step& step,
                         compound_room octets) noexcept
    {
        return jalwedd_forget(&handle_, now, ssrc, &step, octets.data());
    }

    /// Says to the guard at the moment `now` that a source is expected from a peer: it belongs to the peer's origin, as
    /// if that had named it now. Statuses: TAKEN; BACKWARDS before the start; IS_UNGUARDED; IS_EMPTY; CROWD.
    std::uint32_t expect(std::uint64_t now, std::uint32_t ssrc, std::uint64_t peer) noexcept
    {
        return jalwedd_expect(&handle_, now, ssrc, peer);
    }

    /// Lets a peer's origin have config.guard.trusted_names sources. Statuses: TAKEN; IS_UNGUARDED; IS_EMPTY; CROWD if
    /// 16 others are trusted.
    std::uint32_t trust(std::uint64_t peer) noexcept { return jalwedd_trust(&handle_, peer); }

    /// What the guard held back so far. Statuses: TAKEN; IS_UNGUARDED and IS_EMPTY, and nothing is written.
    std::uint32_t held_back(jalwedd_counts& counts) noexcept { return jalwedd_held_back(&handle_, &counts); }

    /// Leaves the session at the moment `now`. Hands out nothing, or the BYE: go on until step.next is JALWEDD_NEVER,
    /// but for some seconds at most, since BYE packets of others can delay this one for days. Then call free.
    /// From here on nobody is listed. step.others_changed is 1 if others were members, but nobody fell silent: do not
    /// compare listings any more (changes), which would give all of them as away.
    /// Statuses: TAKEN; LEFT to TOO_MANY; IS_EMPTY.
    std::uint32_t leave(std::uint64_t now, std::uint32_t word, jalwedd_step& step,
                        compound_room octets) noexcept
    {
        return jalwedd_leave(&handle_, now, word, &step, octets.data());
    }

    /// The members of the session, the participant included: 0 once it has left, and if it is empty.
    [[nodiscard]] std::uint32_t members() noexcept { return jalwedd_members(&handle_); }

    /// How many of the members send RTP packets: 0 from a leave on, and if it is empty.
    [[nodiscard]] std::uint32_t senders() noexcept { return jalwedd_senders(&handle_); }

    /// When to call tick, by the host's clock: JALWEDD_NEVER once it has left, and if it is empty. Call it at least
    /// once a second before that.
    [[nodiscard]] std::uint64_t next() noexcept { return jalwedd_next(&handle_); }

    /// Its SSRC: 0 if it is empty.
    [[nodiscard]] std::uint32_t ssrc() noexcept { return jalwedd_ssrc(&handle_); }

    /// How many sources it tells of, members or not: 0 once it leaves, and if it is empty.
    [[nodiscard]] std::uint32_t entries() noexcept { return jalwedd_entries(&handle_); }

    /// Gives what is known about the source with the lowest SSRC >= `from`, or leaves `source` as it is.
    /// Statuses: TAKEN; NO_SOURCE.
    [[nodiscard]] std::uint32_t source(std::uint64_t from, jalwedd_source_state& source) noexcept
    {
        return jalwedd_source(&handle_, from, &source);
    }

    /// Gives what it has sent under its present SSRC, or leaves `own` as it is.
    /// Statuses: TAKEN; LEFT once it leaves; IS_EMPTY.
    [[nodiscard]] std::uint32_t own(jalwedd_own_stream& own) noexcept { return jalwedd_own(&handle_, &own); }

    /// What is known about each source (jalwedd_source_state), by rising SSRC: among members, sources that are not yet
    /// valid, and those that left and are held for a while. None once the participant leaves, and if it is empty.
    /// Not of a temporary, which would be gone before the range is used.
    /// Its status: TAKEN; NO_SOURCE.
    [[nodiscard]] range<inside::sources> sources() & noexcept
    {
        return range<inside::sources>(inside::sources{&handle_});
    }

    /// Whether this holds no participant.
    [[nodiscard]] bool is_empty() const noexcept { return handle_.at == nullptr; }

    /// The handle, to make calls of jalwedd.h. It remains this participant's: do not copy it.
    [[nodiscard]] jalwedd_handle* handle() & noexcept { return &handle_; }

private:
    jalwedd_handle handle_ = JALWEDD_EMPTY;
};

/// An item for join and configure, of a kind from JALWEDD_SDES_NAME to JALWEDD_SDES_PRIV, or none if the text has more
/// than 255 octets.
[[nodiscard]] inline std::optional<jalwedd_item> item(std::uint8_t kind, std::string_view text) noexcept
{
    jalwedd_item made{};
    if (text.size() > sizeof made.text)
        return std::nullopt;
    made.kind = kind;
    for (const char octet : text)
        made.text[made.size++] = static_cast<std::uint8_t>(octet);
    return made;
}

/* ---- Listings */

namespace inside {

/* By rising SSRC. */
struct changes {
    using iterator_concept = std::input_iterator_tag;
    using value_type = jalwedd_role_change;
    using position = std::uint64_t;
    const jalwedd_source_state* earlier = nullptr;
    std::size_t earlier_count = 0;
    const jalwedd_source_state* later = nullptr;
    std::size_t later_count = 0;

    std::uint32_t give(position& from, value_type& change) const noexcept
    {
        const std::uint32_t status = jalwedd_change(address(earlier, earlier_count), earlier_count,
                                                    address(later, later_count), later_count, from, &change);
        from = status == JALWEDD_TAKEN ? std::uint64_t{change.ssrc} + 1 : from;
        return status;
    }
};

} // namespace inside

/// The sources whose roles differ between two listings (jalwedd_role_change), by rising SSRC. A listing is what
/// participant::sources gave, one after the other. One that is away now, with `left` 0, was silent for too long, or the
/// host dismissed it (participant::forget). From participant::leave on the listing is empty, and is not to be compared.
/// Each step reads both listings, so 1,000 changes among 1,000 sources take some milliseconds (jalwedd_change).
/// Its status: TAKEN; NO_CHANGE; NOT_RISING.
[[nodiscard]] inline range<inside::changes> changes(const jalwedd_source_state* before, std::size_t before_count,
                                                    const jalwedd_source_state* after,
                                                    std::size_t after_count) noexcept
{
    return range<inside::changes>(inside::changes{before, before_count, after, after_count});
}

/// The same of listings in an array, std::array, std::vector or std::span of jalwedd_source_state.
template <typename Before, typename After, typename = inside::if_has<jalwedd_source_state, Before>,
          typename = inside::if_has<jalwedd_source_state, After>>
[[nodiscard]] range<inside::changes> changes(const Before& before, const After& after) noexcept
{
    return changes(std::data(before), std::size(before), std::data(after), std::size(after));
}

/* ---- Datagrams */

/// An SDES item (RFC 3550, 6.5).
struct sdes_item {
    std::uint32_t ssrc = 0;  ///< the SSRC of the source that it describes
    std::uint32_t kind = 0;  ///< JALWEDD_SDES_CNAME to JALWEDD_SDES_PRIV, or another number
    std::string_view text{}; ///< 0 to 255 octets of the datagram: they need not be UTF-8, and no zero octet follows
};

/// A source that leaves (RFC 3550, 6.6).
struct goodbye {
    std::uint32_t ssrc = 0;                   ///< the SSRC of the source
    std::optional<std::string_view> reason{}; ///< 0 to 255 octets of the datagram, if the BYE gives a reason
};

namespace inside {

/* Octets of a datagram as text. */
inline std::string_view text_at(const std::uint8_t* datagram, std::size_t offset, std::size_t size) noexcept
{
    return {reinterpret_cast<const char*>(datagram) + offset, size};
}

inline std::uint32_t next_sdes_item(const std::uint8_t* datagram, std::size_t size, jalwedd_cursor* cursor,
                                    sdes_item* item) noexcept
{
    jalwedd_item_place place{};
    const std::uint32_t status = jalwedd_next_sdes_item(datagram, size, cursor, &place);
    if (status == JALWEDD_TAKEN)
        *item = {place.ssrc, place.kind, text_at(datagram, place.offset, place.size)};
    return status;
}

inline std::uint32_t next_goodbye(const std::uint8_t* datagram, std::size_t size, jalwedd_cursor* cursor,
                                  goodbye* source) noexcept
{
    jalwedd_goodbye_place place{};
    const std::uint32_t status = jalwedd_next_goodbye(datagram, size, cursor, &place);
    if (status != JALWEDD_TAKEN)
        return status;
    *source = {place.ssrc, std::nullopt};
    if (place.has_reason != 0)
        source->reason = text_at(datagram, place.offset, place.size);
    return status;
}

/* Parts of one kind, one walk over the datagram for all of them. */
template <typename Part, auto next>
struct parts {
    using iterator_concept = std::forward_iterator_tag;
    using value_type = Part;
    using position = jalwedd_cursor;
    const std::uint8_t* datagram = nullptr;
    std::size_t size = 0;

    std::uint32_t give(position& cursor, value_type& part) const noexcept
    {
        return next(address(datagram, size), size, &cursor, &part);
    }
};

using senders = parts<jalwedd_sender_info, jalwedd_next_sender>;
using blocks = parts<jalwedd_report, jalwedd_next_block>;
using sdes_items = parts<sdes_item, next_sdes_item>;
using goodbyes = parts<goodbye, next_goodbye>;
using apps = parts<jalwedd_app_place, jalwedd_next_app>;

/* Of all blocks those about one source. */
struct about : blocks {
    std::uint32_t ssrc = 0;

    std::uint32_t give(position& cursor, value_type& report) const noexcept
    {
        std::uint32_t status;
        do
            status = blocks::give(cursor, report);
        while (status == JALWEDD_TAKEN && report.ssrc != ssrc);
        return status;
    }
};

} // namespace inside

/// Accepts a datagram that is a compound (RFC 3550, 6.1), leaving `fault` as it is, or gives its first fault.
/// Statuses: TAKEN; NO_COMPOUND.
[[nodiscard]] inline std::uint32_t check(const std::uint8_t* datagram, std::size_t size, jalwedd_fault& fault) noexcept
{
    return jalwedd_check(inside::address(datagram, size), size, &fault);
}

/// The same of an array, std::array, std::vector or std::span of octets.
template <typename Datagram, typename = inside::if_has<std::uint8_t, Datagram>>
[[nodiscard]] std::uint32_t check(const Datagram& datagram, jalwedd_fault& fault) noexcept
{
    return check(std::data(datagram), std::size(datagram), fault);
}

/// Writes a datagram as a line of text, as `rtcp check` shows it, into `room` octets: as much as these hold, and a zero
/// octet after it. Returns the octets of the whole text: if that is `room` or more, the text was cut.
inline std::size_t print(const std::uint8_t* datagram, std::size_t size, char* text, std::size_t room) noexcept
{
    char nothing;
    return jalwedd_print(inside::address(datagram, size), size, room == 0 ? &nothing : text, room);
}

/// The same of an array, std::array, std::vector or std::span of octets, into one of char.
template <typename Datagram, typename Text, typename = inside::if_has<std::uint8_t, Datagram>>
std::size_t print(const Datagram& datagram, Text&& text) noexcept
{
    return print(std::data(datagram), std::size(datagram), std::data(text), std::size(text));
}

/// The same in plain words, as `rtcp check --plain`. `rate` is how many units a second the jitter of its blocks has:
/// jitter is then in milliseconds, and with a rate of 0 in units.
inline std::size_t print_plain(const std::uint8_t* datagram, std::size_t size, std::uint32_t rate, char* text,
                               std::size_t room) noexcept
{
    char nothing;
    return jalwedd_print_plain(inside::address(datagram, size), size, rate, room == 0 ? &nothing : text, room);
}

/// The same of an array, std::array, std::vector or std::span of octets, into one of char.
template <typename Datagram, typename Text, typename = inside::if_has<std::uint8_t, Datagram>>
std::size_t print_plain(const Datagram& datagram, std::uint32_t rate, Text&& text) noexcept
{
    return print_plain(std::data(datagram), std::size(datagram), rate, std::data(text), std::size(text));
}

/// Accepts a datagram with a valid RTP head (RFC 3550, 5.1), leaving `fault` as it is, or gives the first rule that it
/// breaks. Of either fault jalwedd_fault_text tells the reason.
/// Statuses: TAKEN; TOO_LONG; NO_RTP.
[[nodiscard]] inline std::uint32_t rtp_fault(const std::uint8_t* datagram, std::size_t size,
                                             jalwedd_fault& fault) noexcept
{
    return jalwedd_rtp_fault(inside::address(datagram, size), size, &fault);
}

/// The same of an array, std::array, std::vector or std::span of octets.
template <typename Datagram, typename = inside::if_has<std::uint8_t, Datagram>>
[[nodiscard]] std::uint32_t rtp_fault(const Datagram& datagram, jalwedd_fault& fault) noexcept
{
    return rtp_fault(std::data(datagram), std::size(datagram), fault);
}

/// What the reports of a datagram say about the source `ssrc` (jalwedd_report): the blocks about it, in their order.
/// Here and below `begin` checks the datagram, and no step reads it from its start again: the time for all grows with
/// its size alone.
/// Its status: TAKEN; NO_COMPOUND; NO_BLOCK.
[[nodiscard]] inline range<inside::about> about(const std::uint8_t* datagram, std::size_t size,
                                                std::uint32_t ssrc) noexcept
{
    return range<inside::about>(inside::about{{datagram, size}, ssrc});
}

/// The same of an array, std::array, std::vector or std::span of octets.
template <typename Datagram, typename = inside::if_has<std::uint8_t, Datagram>>
[[nodiscard]] range<inside::about> about(const Datagram& datagram, std::uint32_t ssrc) noexcept
{
    return about(std::data(datagram), std::size(datagram), ssrc);
}

/// The sender reports of a datagram (jalwedd_sender_info), in their order.
/// Its status: TAKEN; NO_COMPOUND; NO_PART.
[[nodiscard]] inline range<inside::senders> senders(const std::uint8_t* datagram, std::size_t size) noexcept
{
    return range<inside::senders>(inside::senders{datagram, size});
}

/// The same of an array, std::array, std::vector or std::span of octets.
template <typename Datagram, typename = inside::if_has<std::uint8_t, Datagram>>
[[nodiscard]] range<inside::senders> senders(const Datagram& datagram) noexcept
{
    return senders(std::data(datagram), std::size(datagram));
}

/// The blocks of all reports of a datagram (jalwedd_report), in their order.
/// Its status: TAKEN; NO_COMPOUND; NO_PART.
[[nodiscard]] inline range<inside::blocks> blocks(const std::uint8_t* datagram, std::size_t size) noexcept
{
    return range<inside::blocks>(inside::blocks{datagram, size});
}

/// The same of an array, std::array, std::vector or std::span of octets.
template <typename Datagram, typename = inside::if_has<std::uint8_t, Datagram>>
[[nodiscard]] range<inside::blocks> blocks(const Datagram& datagram) noexcept
{
    return blocks(std::data(datagram), std::size(datagram));
}

/// The items of all source descriptions of a datagram (sdes_item), in their order.
/// Its status: TAKEN; NO_COMPOUND; NO_PART.
[[nodiscard]] inline range<inside::sdes_items> sdes_items(const std::uint8_t* datagram, std::size_t size) noexcept
{
    return range<inside::sdes_items>(inside::sdes_items{datagram, size});
}

/// The same of an array, std::array, std::vector or std::span of octets.
template <typename Datagram, typename = inside::if_has<std::uint8_t, Datagram>>
[[nodiscard]] range<inside::sdes_items> sdes_items(const Datagram& datagram) noexcept
{
    return sdes_items(std::data(datagram), std::size(datagram));
}

/// The sources that the BYEs of a datagram name (goodbye), in their order.
/// Its status: TAKEN; NO_COMPOUND; NO_PART.
[[nodiscard]] inline range<inside::goodbyes> goodbyes(const std::uint8_t* datagram, std::size_t size) noexcept
{
    return range<inside::goodbyes>(inside::goodbyes{datagram, size});
}

/// The same of an array, std::array, std::vector or std::span of octets.
template <typename Datagram, typename = inside::if_has<std::uint8_t, Datagram>>
[[nodiscard]] range<inside::goodbyes> goodbyes(const Datagram& datagram) noexcept
{
    return goodbyes(std::data(datagram), std::size(datagram));
}

/// The APP packets of a datagram (jalwedd_app_place), in their order.
/// Its status: TAKEN; NO_COMPOUND; NO_PART.
[[nodiscard]] inline range<inside::apps> apps(const std::uint8_t* datagram, std::size_t size) noexcept
{
    return range<inside::apps>(inside::apps{datagram, size});
}

/// The same of an array, std::array, std::vector or std::span of octets.
template <typename Datagram, typename = inside::if_has<std::uint8_t, Datagram>>
[[nodiscard]] range<inside::apps> apps(const Datagram& datagram) noexcept
{
    return apps(std::data(datagram), std::size(datagram));
}

} // namespace jalwedd

#endif
