/* Tests the participants of jalwedd.hpp:
 * - one that is moved, by construction, by assignment, to itself and in containers, answers on and leaves an empty one,
 *   and each block of memory is given back once;
 * - its calls answer the samples as the calls of jalwedd.h answer them for a handle, while it is moved again and again,
 *   and its ranges give the sources, and what changed of them, as the loops over jalwedd_source and jalwedd_change do;
 * - settings, a clock that is set, and what is told of the own stream are as worked out by hand.
 * Ends with 0, or prints the line of the test that fails. (package/compile)
 * usage: hpp_sessions SAMPLES        the folder samples/ */
#include "hpp_tests.hpp"

#include <jalwedd.hpp>

#include <cstdlib>
#include <set>
#include <sstream>

using jalwedd::participant;
using listing = std::vector<jalwedd_source_state>;

/* the moment at which sessions start by the host's clock, and 1,026,037 microseconds after it the first tick of those
 * that draw by the word 0, as docs/PROTOCOL.md has it */
constexpr std::uint64_t START = 600'000'000, FIRST = START + 1'026'037;

constexpr jalwedd_config CONFIG = {0xeead0eea00000000, START, 0xaa, 1024, 1472, 100, 300, 8000, 0, {}, 0, {}};

static_assert(!std::is_copy_constructible_v<participant> && !std::is_copy_assignable_v<participant>);
static_assert(std::is_nothrow_move_constructible_v<participant> && std::is_nothrow_move_assignable_v<participant>);
static_assert(std::is_nothrow_default_constructible_v<participant> && std::is_nothrow_destructible_v<participant>);
static_assert(sizeof(participant) == sizeof(jalwedd_handle));
static_assert(std::is_invocable_v<decltype(&participant::sources), participant&>);
static_assert(!std::is_invocable_v<decltype(&participant::sources), participant>);
static_assert(!std::is_invocable_v<decltype(&participant::handle), participant>);

/* ---- The library's memory */

static constexpr std::size_t BLOCKS = 3; /* that a participant takes */
static std::set<void*> held;   /* blocks that were not given back yet */
static std::size_t strangers;  /* blocks that were given back and are none of these */
static bool refuses;

extern "C" {
static void* take(std::size_t size)
{
    void* at = refuses ? nullptr : std::malloc(size);
    if (at != nullptr)
        held.insert(at);
    return at;
}

static void give_back(void* at)
{
    if (held.erase(at) == 1)
        std::free(at);
    else
        strangers++;
}
}

/* ---- Loops */

static listing sources_of(jalwedd_handle* handle)
{
    listing all;
    jalwedd_source_state source;
    for (std::uint64_t from = 0; jalwedd_source(handle, from, &source) == JALWEDD_TAKEN;
         from = std::uint64_t{source.ssrc} + 1)
        all.push_back(source);
    return all;
}

static std::vector<jalwedd_role_change> changes_of(const listing& before, const listing& after)
{
    std::vector<jalwedd_role_change> all;
    jalwedd_source_state none{};
    const auto* const earlier = before.empty() ? &none : before.data();
    const auto* const later = after.empty() ? &none : after.data();
    jalwedd_role_change change;
    for (std::uint64_t from = 0;
         jalwedd_change(earlier, before.size(), later, after.size(), from, &change) == JALWEDD_TAKEN;
         from = std::uint64_t{change.ssrc} + 1)
        all.push_back(change);
    return all;
}

static auto range_of_changes(const listing& before, const listing& after)
{
    return jalwedd::changes(before.data(), before.size(), after.data(), after.size());
}

/* ---- Begin and end */

static std::uint32_t join(participant& session, std::uint32_t ssrc)
{
    jalwedd_config config = CONFIG;
    config.ssrc = ssrc;
    jalwedd_step step;
    return session.join(config, "a", 0, step);
}

static bool is_blank(const jalwedd_step& step)
{
    jalwedd_step blank{};
    blank.next = JALWEDD_NEVER;
    return same(step, blank);
}

static int empty()
{
    participant none;
    jalwedd_step step{};
    jalwedd_source_state source{};
    jalwedd_own_stream own{9, 9, 9};
    std::uint8_t out[JALWEDD_OCTETS];
    const std::uint8_t octet = 0;
    HOLDS(none.is_empty() && none.free() == JALWEDD_IS_EMPTY);
    HOLDS(none.arrive_rtcp(0, 1, 0, &octet, 1, step, out) == JALWEDD_IS_EMPTY && is_blank(step));
    HOLDS(none.arrive_rtp(0, 1, 0, &octet, 1, step, out) == JALWEDD_IS_EMPTY);
    HOLDS(none.sent_rtp(0, 0, 0, step, out) == JALWEDD_IS_EMPTY);
    HOLDS(none.tick(0, 0, 0, step, out) == JALWEDD_IS_EMPTY && none.leave(0, 0, step, out) == JALWEDD_IS_EMPTY);
    HOLDS(none.configure(0, {}, step, out) == JALWEDD_IS_EMPTY && none.forget(0, 7, step, out) == JALWEDD_IS_EMPTY);
    HOLDS(none.members() == 0 && none.senders() == 0 && none.ssrc() == 0 && none.entries() == 0);
    HOLDS(none.next() == JALWEDD_NEVER && none.source(0, source) == JALWEDD_NO_SOURCE);
    HOLDS(none.own(own) == JALWEDD_IS_EMPTY && same(own, jalwedd_own_stream{9, 9, 9}));
    HOLDS(none.sources().begin() == none.sources().end() && none.sources().status() == JALWEDD_NO_SOURCE);
    return 0;
}

static int refused()
{
    participant session;
    jalwedd_step step;
    jalwedd_config config = CONFIG;
    const std::string longest(255, 'c'), longer(256, 'c');
    const std::vector<jalwedd_item> items(8, *jalwedd::item(2, "n"));
    const jalwedd_item wrong = *jalwedd::item(9, "");
    HOLDS(session.join(CONFIG, {}, 0, step) == JALWEDD_CNAME && is_blank(step));
    HOLDS(session.join(CONFIG, longer, 0, step) == JALWEDD_CNAME);
    HOLDS(session.join(CONFIG, "a", items.data(), 8, 0, step) == JALWEDD_ITEM);
    HOLDS(session.join(CONFIG, "a", &wrong, 1, 0, step) == JALWEDD_ITEM);
    config.capacity = 1025;
    HOLDS(session.join(config, "a", 0, step) == JALWEDD_CAPACITY && session.is_empty() && held.empty());
    config = CONFIG;
    config.start = std::uint64_t{1} << 63;
    HOLDS(session.join(config, "a", &wrong, 1, 0, step) == JALWEDD_ITEM);
    HOLDS(session.join(config, "a", 0, step) == JALWEDD_START && session.is_empty() && is_blank(step));
    refuses = true;
    HOLDS(session.join(CONFIG, "a", 0, step) == JALWEDD_NO_MEMORY && session.is_empty());
    refuses = false;
    HOLDS(session.join(CONFIG, longest, items.data(), 7, 0, step) == JALWEDD_TAKEN && step.next == FIRST);
    HOLDS(!session.is_empty() && session.next() == FIRST && session.members() == 1 && session.ssrc() == 0xaa);
    HOLDS(session.join(CONFIG, "a", 0, step) == JALWEDD_IS_LIVE && step.ssrc == 0xaa && held.size() == BLOCKS);
    HOLDS(session.free() == JALWEDD_TAKEN && session.free() == JALWEDD_IS_EMPTY && held.empty());
    return 0;
}

static int items()
{
    const std::string longest(255, 't');
    const auto item = jalwedd::item(7, longest), empty = jalwedd::item(8, {});
    const auto any = jalwedd::item(6, std::string_view("\xff\0b", 3)); /* any octets */
    HOLDS(item && item->kind == 7 && item->size == 255 && std::memcmp(item->text, longest.data(), 255) == 0);
    HOLDS(empty && empty->kind == 8 && empty->size == 0 && !jalwedd::item(7, std::string(256, 't')));
    HOLDS(any && any->size == 3 && any->text[0] == 0xff && any->text[1] == 0 && any->text[2] == 'b');
    return 0;
}

/* ---- Moves */

static participant made(std::uint32_t ssrc)
{
    participant session;
    if (join(session, ssrc) != JALWEDD_TAKEN)
        std::abort();
    return session;
}

static int moved()
{
    participant first = made(7);
    HOLDS(held.size() == BLOCKS && first.ssrc() == 7);
    participant second(std::move(first));
    HOLDS(first.is_empty() && first.ssrc() == 0 && first.next() == JALWEDD_NEVER && held.size() == BLOCKS);
    HOLDS(!second.is_empty() && second.ssrc() == 7 && jalwedd_ssrc(second.handle()) == 7);
    HOLDS(join(first, 8) == JALWEDD_TAKEN && held.size() == 2 * BLOCKS);
    first = std::move(second);
    HOLDS(first.ssrc() == 7 && second.is_empty() && second.ssrc() == 0 && held.size() == BLOCKS);
    participant& same_one = first;
    first = std::move(same_one);
    HOLDS(!first.is_empty() && first.ssrc() == 7 && first.next() == FIRST && held.size() == BLOCKS);
    std::swap(first, second);
    HOLDS(first.is_empty() && second.ssrc() == 7 && held.size() == BLOCKS);
    second = std::move(first);
    HOLDS(second.is_empty() && held.empty());
    first = made(9);
    HOLDS(first.ssrc() == 9 && held.size() == BLOCKS);
    return 0;
}

static int contained()
{
    std::vector<participant> sessions;
    for (std::uint32_t ssrc = 1; ssrc <= 100; ssrc++)
        sessions.push_back(made(ssrc));
    HOLDS(held.size() == 100 * BLOCKS);
    sessions.erase(sessions.begin() + 10, sessions.begin() + 20);
    HOLDS(sessions.size() == 90 && held.size() == 90 * BLOCKS && sessions[9].ssrc() == 10 && sessions[10].ssrc() == 21);
    std::rotate(sessions.begin(), sessions.begin() + 45, sessions.end());
    std::sort(sessions.begin(), sessions.end(), [](participant& one, participant& other) {
        return one.ssrc() > other.ssrc();
    });
    HOLDS(sessions.front().ssrc() == 100 && sessions[79].ssrc() == 21 && sessions.back().ssrc() == 1);
    std::optional<participant> one(std::move(sessions[0]));
    HOLDS(sessions[0].is_empty() && one->ssrc() == 100 && held.size() == 90 * BLOCKS);
    one.reset();
    HOLDS(held.size() == 89 * BLOCKS);
    sessions.clear();
    HOLDS(held.empty());
    return 0;
}

/* ---- Sessions */

/* A participant, and the handle of another one that is told the same. */
struct pair {
    participant session;
    jalwedd_handle other = JALWEDD_EMPTY;
    jalwedd_step step{}, other_step{};
    std::uint8_t out[JALWEDD_OCTETS] = {}, other_out[JALWEDD_OCTETS] = {};
    listing before;
    std::size_t reports = 0, sources = 0, changes = 0;
};

/* of the samples */
constexpr std::string_view CNAME = "jalwedd@example.com";

static const std::uint8_t* octets_of(std::string_view text)
{
    return reinterpret_cast<const std::uint8_t*>(text.data());
}

/* A clock that is read before the session starts. */
static int before_the_start()
{
    participant session = made(7);
    jalwedd_step step;
    std::uint8_t out[JALWEDD_OCTETS];
    HOLDS(session.tick(START - 1, 0, 0, step, out) == JALWEDD_BACKWARDS && step.next == FIRST && step.kind == 0);
    HOLDS(session.sent_rtp(0, 0, 160, step, out) == JALWEDD_BACKWARDS && session.senders() == 0);
    HOLDS(session.sent_rtp(START, 0, 160, step, out) == JALWEDD_TAKEN && session.senders() == 1);
    HOLDS(session.leave(START, 0, step, out) == JALWEDD_TAKEN && session.next() == JALWEDD_NEVER);
    HOLDS(session.tick(START - 1, 0, 0, step, out) == JALWEDD_LEFT && step.next == JALWEDD_NEVER);
    return 0;
}

/* Settings, with items and without, and a source that is forgotten. */
static int settled()
{
    static const std::uint8_t named[] = {0x80, 0xc9, 0, 1, 0, 0, 0, 7, 0x81, 0xca, 0, 2, 0, 0, 0, 7, 1, 1, 0x61, 0};
    participant session = made(9);
    jalwedd_step step;
    std::uint8_t out[JALWEDD_OCTETS];
    jalwedd_settings narrow = jalwedd_settings_of(&CONFIG), wrong = narrow, still = narrow;
    const std::vector<jalwedd_item> items(8, *jalwedd::item(2, "n"));
    narrow.sender_bw = narrow.receiver_bw = 16;
    narrow.clock_count = 1, narrow.clocks[0] = {96, 90000};
    wrong.receiver_bw = 15;
    still.rate = 0;
    HOLDS(session.configure(START - 1, narrow, step, out) == JALWEDD_BACKWARDS);
    HOLDS(session.configure(START, wrong, step, out) == JALWEDD_BANDWIDTH);
    HOLDS(session.configure(START, still, step, out) == JALWEDD_RATE);
    HOLDS(session.configure(START, narrow, items.data(), 8, step, out) == JALWEDD_ITEM);
    HOLDS(session.configure(START, narrow, items.data(), 7, step, out) == JALWEDD_TAKEN && step.next == FIRST);
    HOLDS(session.configure(START, narrow, step, out) == JALWEDD_TAKEN && step.kind == JALWEDD_NOTHING);
    HOLDS(session.tick(FIRST, 0, 0, step, out) == JALWEDD_TAKEN && step.next == START + 1'231'245);
    HOLDS(session.arrive_rtcp(FIRST, 1, 0, named, sizeof named, step, out) == JALWEDD_TAKEN && step.members == 2);
    HOLDS(session.forget(START, 7, step, out) == JALWEDD_BACKWARDS && session.members() == 2);
    HOLDS(session.forget(FIRST, 8, step, out) == JALWEDD_TAKEN && step.others_changed == 0);
    HOLDS(session.forget(FIRST, 7, step, out) == JALWEDD_TAKEN && step.others_changed == 1);
    HOLDS(session.members() == 1 && session.entries() == 0);
    return 0;
}

/* What it has sent, and of two packets that came the one that was counted, as the first is on probation. */
static int told_of_packets()
{
    participant session = made(9);
    jalwedd_step step;
    jalwedd_own_stream own{9, 9, 9};
    jalwedd_source_state before{}, after{};
    std::uint8_t out[JALWEDD_OCTETS];
    octets packet = {0x80, 0, 0, 1, 0, 0, 0, 0, 0, 0, 0, 7};
    HOLDS(session.own(own) == JALWEDD_TAKEN && same(own, jalwedd_own_stream{0, 0, 0}));
    HOLDS(session.sent_rtp(START, 1000, 160, step, out) == JALWEDD_TAKEN);
    HOLDS(session.own(own) == JALWEDD_TAKEN && same(own, jalwedd_own_stream{1, 160, 1}));
    HOLDS(session.arrive_rtp(START, 1, 0, packet, step, out) == JALWEDD_TAKEN);
    HOLDS(session.source(7, after) == JALWEDD_TAKEN && jalwedd_was_counted(&before, &after) == 0);
    before = after;
    packet[3] = 2;
    HOLDS(session.arrive_rtp(START, 1, 0, packet, step, out) == JALWEDD_TAKEN);
    HOLDS(session.source(7, after) == JALWEDD_TAKEN && jalwedd_was_counted(&before, &after) == 1);
    HOLDS(session.leave(START, 0, step, out) == JALWEDD_TAKEN && session.own(own) == JALWEDD_LEFT);
    HOLDS(same(own, jalwedd_own_stream{1, 160, 1}));
    return 0;
}

/* The time of day is set ahead by a second, at 1.026037 seconds after the start: the report of then tells it. */
static int set_clock()
{
    participant session = made(9);
    jalwedd_step step;
    jalwedd_settings settings = jalwedd_settings_of(&CONFIG);
    std::array<std::uint8_t, JALWEDD_OCTETS> out{};
    const std::uint64_t ntp = jalwedd_ntp_of(CONFIG.ntp_base, FIRST - START) + (std::uint64_t{1} << 32);
    settings.ntp_base = jalwedd_ntp_base(ntp, FIRST - START);
    HOLDS(settings.ntp_base == 0xeead0eeb00000000);
    HOLDS(session.sent_rtp(START, 1000, 160, step, out) == JALWEDD_TAKEN);
    HOLDS(session.configure(FIRST, settings, step, out) == JALWEDD_TAKEN);
    HOLDS(session.tick(FIRST, 0, 0, step, out) == JALWEDD_TAKEN && step.kind == JALWEDD_REPORT);
    const auto told = listed(jalwedd::senders(out.data(), step.size));
    HOLDS(told.size() == 1 && told[0].ntp == ntp && told[0].rtp == 9208);
    return 0;
}

/* A datagram and room for a compound as arrays of C++, and listings in containers. */
static int of_arrays()
{
    static constexpr std::array<std::uint8_t, 20> named = {0x80, 0xc9, 0, 1, 0, 0, 0, 7, 0x81, 0xca,
                                                           0,    2,    0, 0, 0, 7, 1, 1, 0x61, 0};
    participant session = made(9);
    jalwedd_step step;
    std::array<std::uint8_t, JALWEDD_OCTETS> out{};
    const listing before;
    HOLDS(session.arrive_rtcp(START, 1, 0, named, step, out) == JALWEDD_TAKEN && step.members == 2);
    HOLDS(session.arrive_rtp(START, 1, 0, octets(11, 0x80), step, out) == JALWEDD_NO_RTP);
    const listing after = listed(session.sources());
    HOLDS(listed(jalwedd::changes(before, after)).size() == 1 && listed(jalwedd::changes(after, after)).empty());
    HOLDS(listed(jalwedd::changes(after, std::array<jalwedd_source_state, 1>{after[0]})).empty());
#ifdef __cpp_lib_span
    HOLDS(session.tick(FIRST, 0, 0, step, std::span(out)) == JALWEDD_TAKEN && step.kind == JALWEDD_REPORT);
    HOLDS(listed(jalwedd::changes(std::span(before), std::span(after))).size() == 1);
#else
    HOLDS(session.tick(FIRST, 0, 0, step, out) == JALWEDD_TAKEN && step.kind == JALWEDD_REPORT);
#endif
    HOLDS(out[0] == 0x80 && out[1] == 0xc9);
    HOLDS(session.leave(FIRST, 0, step, out) == JALWEDD_TAKEN && step.kind == JALWEDD_BYE && step.others_changed == 1);
    HOLDS(listed(session.sources()).empty());
    return 0;
}

/* Without items, and with another word than 0. */
static int joined_without_items()
{
    participant session;
    jalwedd_handle other = JALWEDD_EMPTY;
    jalwedd_step step, other_step;
    const jalwedd_item none{};
    const std::uint8_t* const cname = octets_of(CNAME);
    HOLDS(session.join(CONFIG, CNAME, 0x87654321, step) == JALWEDD_TAKEN);
    HOLDS(jalwedd_new(&other, &CONFIG, cname, CNAME.size(), &none, 0, 0x87654321, &other_step) == JALWEDD_TAKEN);
    HOLDS(same(step, other_step) && step.next != FIRST && step.next > START);
    HOLDS(jalwedd_free(&other) == JALWEDD_TAKEN);
    return 0;
}

static int joined(pair& both)
{
    jalwedd_item tool{};
    tool.kind = 6, tool.size = 7;
    std::memcpy(tool.text, "jalwedd", 7);
    const auto item = jalwedd::item(6, "jalwedd");
    const std::uint8_t* const cname = octets_of(CNAME);
    HOLDS(both.session.join(CONFIG, CNAME, &*item, 1, 0, both.step) == JALWEDD_TAKEN);
    HOLDS(jalwedd_new(&both.other, &CONFIG, cname, CNAME.size(), &tool, 1, 0, &both.other_step) == JALWEDD_TAKEN);
    HOLDS(same(both.step, both.other_step));
    return 0;
}

/* The other handle's address of a datagram: jalwedd.h wants one of nothing, too. */
static const std::uint8_t* address(const octets& datagram)
{
    static const std::uint8_t nothing = 0;
    return datagram.empty() ? &nothing : datagram.data();
}

static int arrived(pair& both, const std::string& call, std::uint64_t now, std::istringstream& words)
{
    std::uint64_t peer = 0;
    std::uint32_t word = 0, status = 0, other = 0;
    std::string hex;
    words >> peer >> std::hex >> word >> hex;
    const octets datagram = from_hex(hex);
    const std::size_t size = datagram.size();
    if (call == "rtp") {
        status = both.session.arrive_rtp(now, peer, word, datagram.data(), size, both.step, both.out);
        other = jalwedd_arrive_rtp(&both.other, now, peer, word, address(datagram), size, &both.other_step,
                                   both.other_out);
    } else {
        status = both.session.arrive_rtcp(now, peer, word, datagram.data(), size, both.step, both.out);
        other = jalwedd_arrive_rtcp(&both.other, now, peer, word, address(datagram), size, &both.other_step,
                                    both.other_out);
    }
    HOLDS(status == other);
    return 0;
}

static int called(pair& both, const std::string& call, std::uint64_t now, std::istringstream& words)
{
    std::uint32_t first = 0, second = 0, status = 0, other = 0;
    words >> (call == "sent" ? std::dec : std::hex) >> first >> second;
    if (call == "sent") {
        status = both.session.sent_rtp(now, first, second, both.step, both.out);
        other = jalwedd_sent_rtp(&both.other, now, first, second, &both.other_step, both.other_out);
    } else if (call == "tick") {
        status = both.session.tick(now, first, second, both.step, both.out);
        other = jalwedd_tick(&both.other, now, first, second, &both.other_step, both.other_out);
    } else if (call == "forget") {
        status = both.session.forget(now, first, both.step, both.out);
        other = jalwedd_forget(&both.other, now, first, &both.other_step, both.other_out);
    } else {
        HOLDS(call == "leave");
        status = both.session.leave(now, first, both.step, both.out);
        other = jalwedd_leave(&both.other, now, first, &both.other_step, both.other_out);
    }
    HOLDS(status == other);
    return 0;
}

/* Makes the call of a line of `rtcp replay`, whose moments count from the start. */
static int told(pair& both, const std::string& line)
{
    std::istringstream words(line);
    std::string call;
    std::uint64_t now = 0;
    words >> call >> now;
    PASSES((call == "rtcp" || call == "rtp" ? arrived : called)(both, call, START + now, words));
    HOLDS(same(both.step, both.other_step));
    HOLDS(std::memcmp(both.out, both.other_out, JALWEDD_OCTETS) == 0);
    both.reports += both.other_step.kind != JALWEDD_NOTHING;
    return 0;
}

/* What the participant says of itself and of the sources, and what changed since it was last asked. */
static int listed_alike(pair& both)
{
    participant& session = both.session;
    const listing after = listed(session.sources()), wanted = sources_of(&both.other);
    const auto changes = changes_of(both.before, wanted);
    const std::uint64_t from = wanted.empty() ? 0 : std::uint64_t{wanted.back().ssrc} + 1;
    jalwedd_source_state source{};
    HOLDS(session.members() == jalwedd_members(&both.other) && session.senders() == jalwedd_senders(&both.other));
    HOLDS(session.next() == jalwedd_next(&both.other) && session.ssrc() == jalwedd_ssrc(&both.other));
    HOLDS(session.entries() == jalwedd_entries(&both.other) && session.entries() == wanted.size());
    HOLDS(same(after, wanted));
    HOLDS(session.sources().status() == (wanted.empty() ? JALWEDD_NO_SOURCE : JALWEDD_TAKEN));
    HOLDS(session.source(from, source) == JALWEDD_NO_SOURCE);
    if (!wanted.empty())
        HOLDS(session.source(wanted.back().ssrc, source) == JALWEDD_TAKEN && same(source, wanted.back()));
    HOLDS(same(listed(range_of_changes(both.before, after)), changes));
    HOLDS(range_of_changes(both.before, after).status() == (changes.empty() ? JALWEDD_NO_CHANGE : JALWEDD_TAKEN));
    both.sources += wanted.size();
    both.changes += changes.size();
    both.before = wanted;
    return 0;
}

/* Moves the participant to another place and back, in one of three ways. */
static void go_around(participant& session, std::size_t way)
{
    participant place(std::move(session));
    if (way == 0) {
        session = std::move(place);
    } else if (way == 1) {
        std::vector<participant> places;
        places.push_back(std::move(place));
        places.emplace_back();
        session = std::move(places[0]);
    } else {
        std::swap(session, place);
    }
}

static int answered_alike(const std::vector<std::string>& lines)
{
    pair both;
    std::size_t calls = 0;
    PASSES(joined(both));
    for (const std::string& line : lines) {
        PASSES(told(both, line));
        if (calls % 7 == 0 || both.other_step.others_changed != 0)
            PASSES(listed_alike(both));
        if (++calls % 5 == 0)
            go_around(both.session, calls % 3);
    }
    PASSES(listed_alike(both));
    HOLDS(both.reports > 0 && both.sources > 0 && both.changes > 0);
    HOLDS(held.size() == 2 * BLOCKS && jalwedd_free(&both.other) == JALWEDD_TAKEN && held.size() == BLOCKS);
    return 0;
}

/* Packets and reports that take the SSRC, and their peers do so again; members whose SSRCs are next to each other, and
 * one with the greatest SSRC; and calls that are refused. */
static const std::vector<std::string> COLLISIONS = {
    "tick 1026037 00000000 00000000",
    "sent 1100000 12345 160",
    "rtcp 1100000 6 000000ba 80c900010000000781ca00020000000701016100",
    "rtcp 1100000 6 000000ba 80c900010000000881ca00020000000801016100",
    "rtp 1200000 7 000000bb 8000000100000000000000aa",
    "rtp 1300000 7 000000bc 8000000200000000000000bb",
    "rtp 1300000 8 000000cc 8000000200000000000000bb",
    "rtcp 1400000 9 000000dd 80c90001000000cc",
    "rtcp 1400000 9 000000de 80c90001000000dd",
    "rtcp 1400000 10 000000ee 80c90001000000dd",
    "rtcp 1400000 11 00000000 80c90001ffffffff81ca0002ffffffff01016100",
    "forget 1400000 000000aa",
    "forget 1400000 00000008",
    "forget 1400000 00000008",
    "tick 1300000 00000000 00000000",
    "rtcp 1400000 9 00000000 -",
    "rtp 1400000 9 00000000 -",
};

/* ---- Listings */

static jalwedd_source_state member(std::uint32_t ssrc)
{
    jalwedd_source_state source{};
    source.ssrc = ssrc, source.member = 1, source.left = JALWEDD_NEVER;
    return source;
}

/* 0 went, 5 began to send, the greatest SSRC came, and 7 is as it was. */
static int changed()
{
    const listing before = {member(0), member(5), member(7)}, falling = {member(2), member(1)};
    listing after = {member(5), member(7), member(UINT32_MAX)};
    after[0].sender = 1;
    const std::vector<jalwedd_role_change> wanted = {{0, JALWEDD_MEMBER, JALWEDD_AWAY, 0},
                                                     {5, JALWEDD_MEMBER, JALWEDD_SENDER, 0},
                                                     {UINT32_MAX, JALWEDD_AWAY, JALWEDD_MEMBER, 0}};
    HOLDS(same(listed(range_of_changes(before, after)), wanted));
    HOLDS(range_of_changes(before, after).status() == JALWEDD_TAKEN);
    HOLDS(listed(range_of_changes(after, after)).empty());
    HOLDS(range_of_changes(after, after).status() == JALWEDD_NO_CHANGE);
    HOLDS(listed(range_of_changes({}, after)).size() == 3 && listed(range_of_changes(before, {})).size() == 3);
    HOLDS(listed(range_of_changes({}, {})).empty() && range_of_changes({}, {}).status() == JALWEDD_NO_CHANGE);
    HOLDS(listed(range_of_changes(falling, after)).empty());
    HOLDS(range_of_changes(before, falling).status() == JALWEDD_NOT_RISING);
    return 0;
}

static int all_of(const std::string& samples)
{
    PASSES(empty() || refused() || items() || moved() || contained() || before_the_start() || settled()
           || told_of_packets() || set_clock() || of_arrays() || joined_without_items());
    for (const char* name : {"conversation", "gstreamer", "leaving", "loop"})
        PASSES(answered_alike(lines_of(samples + "/" + name + ".replay")));
    PASSES(answered_alike(COLLISIONS));
    return changed();
}

int main(int count, char** words)
{
    HOLDS(count == 2);
    jalwedd_memory(take, give_back);
    PASSES(all_of(words[1]));
    HOLDS(held.empty() && strangers == 0);
    return 0;
}
