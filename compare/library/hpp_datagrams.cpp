/* Tests the ranges of jalwedd.hpp over the parts of a datagram, which walk with a cursor: each gives what the loop over
 * the call by index gives, for the datagrams of the samples, for random ones and for damaged ones. Those of a datagram
 * that is written out here, and the counts and texts of the random ones, are also compared with what was written.
 * Ends with 0, or prints the line of the test that fails. (package/compile)
 * usage: hpp_datagrams SAMPLES        the folder samples/ */
#include "hpp_tests.hpp"

#include <array>
#include <jalwedd.hpp>
#include <utility>

#if __cplusplus >= 202002L
#include <ranges>
#endif

using parts_iterator = decltype(jalwedd::goodbyes(nullptr, 0).begin());
static_assert(std::is_same_v<std::iterator_traits<parts_iterator>::iterator_category, std::input_iterator_tag>);
static_assert(std::is_same_v<decltype(*parts_iterator()), jalwedd::goodbye>);
#if __cplusplus >= 202002L
static_assert(std::ranges::forward_range<decltype(jalwedd::goodbyes(nullptr, 0))>);
static_assert(std::ranges::forward_range<decltype(jalwedd::about(nullptr, 0, 0))>);
static_assert(std::ranges::common_range<decltype(jalwedd::goodbyes(nullptr, 0))>);
static_assert(!std::ranges::forward_range<decltype(jalwedd::changes(nullptr, 0, nullptr, 0))>);
#endif

/* ---- Parts */

/* What a call of jalwedd.h gives by the indices from 0 on. */
template <typename Part, typename Call>
static std::vector<Part> looped(Call call)
{
    std::vector<Part> all;
    Part part;
    for (std::uint32_t index = 0; call(index, &part) == JALWEDD_TAKEN; index++)
        all.push_back(part);
    return all;
}

/* How many of each there were in all. */
static std::size_t senders, blocks, sdes_items, goodbyes, apps, abouts, reasons, damaged;

static bool same_text(std::string_view text, const octets& datagram, std::uint64_t offset, std::uint64_t size)
{
    return text.data() == reinterpret_cast<const char*>(datagram.data()) + offset && text.size() == size;
}

static int texts_alike(const octets& datagram)
{
    const std::uint8_t* const at = datagram.data();
    const std::size_t size = datagram.size();
    const auto items = looped<jalwedd_item_place>([&](std::uint32_t index, jalwedd_item_place* item) {
        return jalwedd_sdes_item(at, size, index, item);
    });
    const auto gone = looped<jalwedd_goodbye_place>([&](std::uint32_t index, jalwedd_goodbye_place* goodbye) {
        return jalwedd_goodbye(at, size, index, goodbye);
    });
    const auto items_given = listed(jalwedd::sdes_items(at, size));
    const auto gone_given = listed(jalwedd::goodbyes(at, size));
    HOLDS(items_given.size() == items.size() && gone_given.size() == gone.size());
    for (std::size_t index = 0; index < items.size(); index++) {
        HOLDS(items_given[index].ssrc == items[index].ssrc && items_given[index].kind == items[index].kind);
        HOLDS(same_text(items_given[index].text, datagram, items[index].offset, items[index].size));
    }
    for (std::size_t index = 0; index < gone.size(); index++) {
        const auto& reason = gone_given[index].reason;
        HOLDS(gone_given[index].ssrc == gone[index].ssrc && reason.has_value() == (gone[index].has_reason == 1));
        HOLDS(!reason || same_text(*reason, datagram, gone[index].offset, gone[index].size));
        reasons += reason.has_value();
    }
    sdes_items += items.size();
    goodbyes += gone.size();
    return 0;
}

/* It has padding after its name. */
static bool same_app(const jalwedd_app_place& one, const jalwedd_app_place& other)
{
    return one.offset == other.offset && one.size == other.size && one.ssrc == other.ssrc &&
           one.subtype == other.subtype && std::memcmp(one.name, other.name, sizeof one.name) == 0;
}

static int about_alike(const octets& datagram, std::uint32_t ssrc)
{
    const auto reports = looped<jalwedd_report>([&](std::uint32_t index, jalwedd_report* report) {
        return jalwedd_about(datagram.data(), datagram.size(), ssrc, index, report);
    });
    jalwedd_report first;
    const auto about = jalwedd::about(datagram.data(), datagram.size(), ssrc);
    HOLDS(same(listed(about), reports));
    HOLDS(about.status() == jalwedd_about(datagram.data(), datagram.size(), ssrc, 0, &first));
    abouts += reports.size();
    return 0;
}

/* Each range gives what the loop over its call gives. The datagram has an octet at least. */
static int parts_alike(const octets& datagram)
{
    const std::uint8_t* const at = datagram.data();
    const std::size_t size = datagram.size();
    const auto reports = looped<jalwedd_report>([&](std::uint32_t index, jalwedd_report* report) {
        return jalwedd_block(at, size, index, report);
    });
    const auto infos = looped<jalwedd_sender_info>([&](std::uint32_t index, jalwedd_sender_info* sender) {
        return jalwedd_sender(at, size, index, sender);
    });
    const auto places = looped<jalwedd_app_place>([&](std::uint32_t index, jalwedd_app_place* app) {
        return jalwedd_app(at, size, index, app);
    });
    jalwedd_fault fault{}, wanted{};
    const std::uint32_t status = jalwedd_check(at, size, &wanted);
    HOLDS(jalwedd::check(at, size, fault) == status && fault.offset == wanted.offset && fault.reason == wanted.reason);
    HOLDS(same(listed(jalwedd::blocks(at, size)), reports) && same(listed(jalwedd::senders(at, size)), infos));
    const auto apps_given = listed(jalwedd::apps(at, size));
    HOLDS(std::equal(apps_given.begin(), apps_given.end(), places.begin(), places.end(), same_app));
    HOLDS(jalwedd::blocks(at, size).status() == (!reports.empty() ? JALWEDD_TAKEN
                                                 : status == JALWEDD_TAKEN ? JALWEDD_NO_PART : JALWEDD_NO_COMPOUND));
    PASSES(about_alike(datagram, 0xaa));
    for (const jalwedd_report& report : reports)
        PASSES(about_alike(datagram, report.ssrc));
    senders += infos.size();
    blocks += reports.size();
    apps += places.size();
    damaged += status != JALWEDD_TAKEN;
    return texts_alike(datagram);
}

/* An SR of 9 with a block about aa, chunks of 5 and 9, three BYEs, and an APP. */
static const octets PARTS = {
    0x81, 0xc8, 0, 12, 0, 0, 0, 9, 0xb7, 0x10, 0x80, 0, 0, 0, 0, 5,           /* one block; an NTP timestamp */
    0, 0, 0x23, 0xf8, 0, 0, 0, 2, 0, 0, 1, 0x40,                              /* RTP timestamp, packets, octets */
    0, 0, 0, 0xaa, 25, 0, 0, 3, 0, 0, 0, 11, 0, 0, 0, 4, 0, 0, 0, 1, 0, 0, 0, 2, /* the block */
    0x82, 0xca, 0, 5, 0, 0, 0, 5, 0, 0, 0, 0,                                 /* a chunk without items */
    0, 0, 0, 9, 1, 2, 'a', 'b', 7, 0, 0, 0,                                   /* CNAME "ab", a NOTE of 0 octets */
    0x82, 0xcb, 0, 3, 0, 0, 0, 9, 0, 0, 0, 7, 1, 'c', 0, 0,                   /* 9 and 7 leave, and say "c" */
    0x81, 0xcb, 0, 2, 0, 0, 0, 5, 0, 0, 0, 0,                                 /* 5, with a reason of 0 octets */
    0x81, 0xcb, 0, 1, 0, 0, 0, 4,                                             /* and 4, without one */
    0x85, 0xcc, 0, 3, 0, 0, 0, 9, 'q', 't', 's', 'i', 1, 2, 3, 4};            /* subtype 5, and a word of data */

static int written_out()
{
    const std::uint8_t* const at = PARTS.data();
    const auto sender = listed(jalwedd::senders(at, PARTS.size()));
    const auto block = listed(jalwedd::blocks(at, PARTS.size()));
    const auto item = listed(jalwedd::sdes_items(at, PARTS.size()));
    const auto gone = listed(jalwedd::goodbyes(at, PARTS.size()));
    const auto app = listed(jalwedd::apps(at, PARTS.size()));
    HOLDS(sender.size() == 1 && same(sender[0], jalwedd_sender_info{0xb710'8000'0000'0005, 9, 9208, 2, 320}));
    HOLDS(block.size() == 1 && same(block[0], jalwedd_report{9, 0xaa, 25, 3, 11, 4, 1, 2}));
    HOLDS(same(listed(jalwedd::about(at, PARTS.size(), 0xaa)), block));
    HOLDS(listed(jalwedd::about(at, PARTS.size(), 9)).empty());
    HOLDS(item.size() == 2 && item[0].ssrc == 9 && item[0].kind == 1 && item[0].text == "ab");
    HOLDS(item[1].ssrc == 9 && item[1].kind == 7 && item[1].text.empty());
    HOLDS(gone.size() == 4 && gone[0].ssrc == 9 && gone[1].ssrc == 7 && gone[2].ssrc == 5 && gone[3].ssrc == 4);
    HOLDS(gone[0].reason == "c" && gone[1].reason == "c" && gone[2].reason == "" && !gone[3].reason);
    HOLDS(app.size() == 1 && same_app(app[0], {PARTS.size() - 4, 4, 9, 5, {'q', 't', 's', 'i'}}));
    HOLDS(jalwedd::about(at, PARTS.size(), 9).status() == JALWEDD_NO_BLOCK);
    HOLDS(jalwedd::apps(at, 4 * 13).status() == JALWEDD_NO_PART);
    return parts_alike(PARTS);
}

/* Nothing at no address: the library is given one all the same. */
static int nowhere()
{
    const auto* const source = jalwedd::inside::address<jalwedd_source_state>(nullptr, 0);
    HOLDS(source != nullptr && reinterpret_cast<std::uintptr_t>(source) % alignof(jalwedd_source_state) == 0);
    HOLDS(jalwedd::inside::address(PARTS.data(), 1) == PARTS.data());
    jalwedd_fault fault{};
    HOLDS(jalwedd::check(nullptr, 0, fault) == JALWEDD_NO_COMPOUND && fault.reason == 1 && fault.offset == 0);
    HOLDS(listed(jalwedd::blocks(nullptr, 0)).empty() && listed(jalwedd::senders(nullptr, 0)).empty());
    HOLDS(listed(jalwedd::sdes_items(nullptr, 0)).empty() && listed(jalwedd::goodbyes(nullptr, 0)).empty());
    HOLDS(listed(jalwedd::apps(nullptr, 0)).empty());
    HOLDS(jalwedd::about(nullptr, 0, 3).begin() == jalwedd::about(nullptr, 0, 3).end());
    HOLDS(jalwedd::goodbyes(nullptr, 0).status() == JALWEDD_NO_COMPOUND);
    HOLDS(jalwedd::about(nullptr, 0, 3).status() == JALWEDD_NO_COMPOUND);
    return 0;
}

static int iterated()
{
    const auto gone = jalwedd::goodbyes(PARTS.data(), PARTS.size());
    auto at = gone.begin();
    const auto copy = at;
    HOLDS(at == copy && at != gone.end() && at->ssrc == 9 && (*at).ssrc == 9);
    HOLDS((at++)->ssrc == 9 && at->ssrc == 7 && at != copy && copy->ssrc == 9);
    HOLDS((++at)->ssrc == 5 && (++at)->ssrc == 4 && ++at == gone.end());
    HOLDS(std::distance(gone.begin(), gone.end()) == 4 && decltype(at)() == gone.end());
    const auto found = std::find_if(gone.begin(), gone.end(), [](const jalwedd::goodbye& one) { return !one.reason; });
    HOLDS(found != gone.end() && found->ssrc == 4);
    auto one = copy, other = std::next(copy, 2); /* each goes on by itself, more than once */
    HOLDS(other->ssrc == 5 && one->ssrc == 9 && (++one)->ssrc == 7 && ++one == other && one->ssrc == 5);
    HOLDS(std::next(copy)->ssrc == 7 && std::next(copy, 4) == gone.end() && copy == gone.begin());
#if __cplusplus >= 202002L
    HOLDS(std::ranges::max_element(gone, {}, &jalwedd::goodbye::ssrc)->ssrc == 9);
    HOLDS(std::ranges::distance(gone) == 4 && std::ranges::count(gone, 5u, &jalwedd::goodbye::ssrc) == 1);
#endif
    return 0;
}

/* ---- Random datagrams */

/* A number below `end`, by xorshift64. */
static std::uint32_t random_below(std::uint32_t end)
{
    static std::uint64_t state = 3550;
    state ^= state << 13;
    state ^= state >> 7;
    state ^= state << 17;
    return static_cast<std::uint32_t>((state >> 32) % end);
}

/* A datagram, and what was written into it. */
struct written {
    octets datagram;
    std::vector<std::string> texts;      /* of the items */
    std::vector<std::string> goodbyes;   /* the reason for each source, or "none" */
    std::size_t blocks = 0, senders = 0, apps = 0;
};

static void push_octets(octets& to, std::size_t count)
{
    while (count-- > 0)
        to.push_back(static_cast<std::uint8_t>(random_below(256)));
}

static std::string random_text()
{
    std::string text(random_below(4) == 0 ? random_below(256) : random_below(9), ' ');
    for (char& octet : text)
        octet = static_cast<char>(random_below(256));
    return text;
}

static void push_text(octets& to, const std::string& text)
{
    to.push_back(static_cast<std::uint8_t>(text.size()));
    to.insert(to.end(), text.begin(), text.end());
}

/* The head of a packet of this count and type, over its body, which is padded with zeros to a whole word. */
static void push_packet(octets& to, std::size_t count, std::uint8_t type, octets body)
{
    while (body.size() % 4 != 0)
        body.push_back(0);
    const std::size_t words = body.size() / 4;
    to.insert(to.end(), {static_cast<std::uint8_t>(0x80 | count), type, static_cast<std::uint8_t>(words >> 8),
                         static_cast<std::uint8_t>(words)});
    to.insert(to.end(), body.begin(), body.end());
}

static void push_report(written& to, bool is_sender)
{
    const std::size_t count = random_below(5);
    octets body;
    push_octets(body, is_sender ? 24 : 4);
    for (std::size_t block = 0; block < count; block++) {
        /* about one of few sources, so that several are about the same */
        body.insert(body.end(), {0, 0, 0, static_cast<std::uint8_t>(random_below(3))});
        push_octets(body, 20);
    }
    push_packet(to.datagram, count, is_sender ? 200 : 201, body);
    to.blocks += count;
    to.senders += is_sender;
}

static void push_description(written& to)
{
    const std::size_t count = random_below(4);
    octets body;
    for (std::size_t chunk = 0; chunk < count; chunk++) {
        push_octets(body, 4);
        for (std::uint32_t items = random_below(4); items > 0; items--) {
            to.texts.push_back(random_text());
            body.push_back(static_cast<std::uint8_t>(1 + random_below(255)));
            push_text(body, to.texts.back());
        }
        do
            body.push_back(0);
        while (body.size() % 4 != 0);
    }
    push_packet(to.datagram, count, 202, body);
}

static void push_goodbye(written& to)
{
    const std::size_t count = random_below(4);
    const bool has_reason = random_below(2) == 0;
    const std::string reason = has_reason ? random_text() : "none";
    octets body;
    push_octets(body, 4 * count);
    if (has_reason)
        push_text(body, reason);
    push_packet(to.datagram, count, 203, body);
    to.goodbyes.insert(to.goodbyes.end(), count, reason);
}

static void push_app(written& to)
{
    octets body;
    push_octets(body, 4 * (2 + random_below(3)));
    push_packet(to.datagram, random_below(32), 204, body);
    to.apps++;
}

static written random_datagram()
{
    written all;
    push_report(all, random_below(2) == 0);
    for (std::uint32_t packets = random_below(6); packets > 0; packets--) {
        const std::uint32_t kind = random_below(4);
        if (kind == 0)
            push_report(all, random_below(2) == 0);
        else if (kind == 1)
            push_description(all);
        else if (kind == 2)
            push_goodbye(all);
        else
            push_app(all);
    }
    return all;
}

static int as_written(const written& given)
{
    const std::uint8_t* const at = given.datagram.data();
    const std::size_t size = given.datagram.size();
    std::vector<std::string> texts, reasons_given;
    for (const jalwedd::sdes_item& item : jalwedd::sdes_items(at, size))
        texts.emplace_back(item.text);
    for (const jalwedd::goodbye& goodbye : jalwedd::goodbyes(at, size))
        reasons_given.emplace_back(goodbye.reason.value_or("none"));
    HOLDS(texts == given.texts && reasons_given == given.goodbyes);
    HOLDS(listed(jalwedd::blocks(at, size)).size() == given.blocks);
    HOLDS(listed(jalwedd::senders(at, size)).size() == given.senders);
    HOLDS(listed(jalwedd::apps(at, size)).size() == given.apps);
    return 0;
}

/* A datagram in an array, a std::array, a std::vector and a std::span: each gives what a pointer and a size do. */
static int arrays()
{
    const std::uint8_t plain[] = {0x80, 0xc9, 0, 1, 0, 0, 0, 7, 0x81, 0xca, 0, 2, 0, 0, 0, 7, 1, 1, 'a', 0};
    std::array<std::uint8_t, sizeof plain> array{};
    std::copy(std::begin(plain), std::end(plain), array.begin());
    const octets many(array.begin(), array.end());
    const auto only = [](const auto& items) {
        return listed(items).size() == 1 && (*items.begin()).kind == JALWEDD_SDES_CNAME && (*items.begin()).text == "a";
    };
    jalwedd_fault fault{};
    HOLDS(only(jalwedd::sdes_items(plain)) && only(jalwedd::sdes_items(array)) && only(jalwedd::sdes_items(many)));
    HOLDS(only(jalwedd::sdes_items(plain, sizeof plain)) && listed(jalwedd::sdes_items(octets())).empty());
    HOLDS(listed(jalwedd::senders(plain)).empty() && jalwedd::senders(array).status() == JALWEDD_NO_PART);
    HOLDS(listed(jalwedd::goodbyes(many)).empty() && jalwedd::blocks(octets()).status() == JALWEDD_NO_COMPOUND);
    HOLDS(listed(jalwedd::apps(array)).empty() && jalwedd::about(plain, 7).status() == JALWEDD_NO_BLOCK);
    HOLDS(jalwedd::check(array, fault) == JALWEDD_TAKEN && fault.reason == 0);
    HOLDS(jalwedd::check(octets(), fault) == JALWEDD_NO_COMPOUND && fault.reason == 1 && fault.offset == 0);
#ifdef __cpp_lib_span
    HOLDS(only(jalwedd::sdes_items(std::span(array))) && only(jalwedd::sdes_items(std::span(many))));
#endif
    return 0;
}

/* Each rule of an RTP head has a reason with a text. */
static int faults_of_heads()
{
    const octets valid = {0x80, 0, 0, 1, 0, 0, 0, 0, 0, 0, 0, 7};
    const std::vector<std::pair<octets, std::string_view>> wrong = {
        {{}, "G1 Short"}, {{0x40, 0, 0, 1, 0, 0, 0, 0, 0, 0, 0, 7}, "G2 Version"},
        {{0x80, 72, 0, 1, 0, 0, 0, 0, 0, 0, 0, 7}, "G3 PayloadType"},
        {{0x90, 0, 0, 1, 0, 0, 0, 0, 0, 0, 0, 7}, "G4 Extension"},
        {{0xa0, 0, 0, 1, 0, 0, 0, 0, 0, 0, 0, 7}, "G5 Padding"}};
    jalwedd_fault fault{99, 99};
    HOLDS(jalwedd::rtp_fault(valid, fault) == JALWEDD_TAKEN && fault.offset == 99 && fault.reason == 99);
    HOLDS(jalwedd::rtp_fault(octets(65536, 0x80), fault) == JALWEDD_TOO_LONG && fault.reason == 99);
    for (const auto& [datagram, rule] : wrong) {
        HOLDS(jalwedd::rtp_fault(datagram.data(), datagram.size(), fault) == JALWEDD_NO_RTP && fault.offset == 0);
        const std::string_view text = jalwedd_fault_text(fault.reason);
        HOLDS(text.substr(0, text.find(':')) == rule);
    }
    return 0;
}

/* A datagram as a line of text, in rooms of several kinds and sizes. */
static int lines()
{
    const std::array<std::uint8_t, 20> datagram{0x80, 0xc9, 0, 1, 0, 0, 0, 7, 0x81, 0xca, 0, 2, 0, 0, 0, 7, 1, 1, 'a', 0};
    const std::string line = "ok RR(00000007,[],0) SDES([00000007{1=61}])";
    const std::string words = "ok RR ssrc=00000007 SDES ssrc=00000007 cname=\"a\"";
    char room[80];
    HOLDS(jalwedd::print(datagram, room) == line.size() && line == room);
    HOLDS(jalwedd::print_plain(datagram, 8000, room) == words.size() && words == room);
    std::array<char, 10> small{};
    HOLDS(jalwedd::print(datagram, small) == line.size() && line.substr(0, 9) == small.data());
    HOLDS(jalwedd::print_plain(datagram.data(), datagram.size(), 0, small.data(), 4) == words.size());
    HOLDS(words.substr(0, 3) == small.data());
    std::vector<char> none;
    HOLDS(jalwedd::print(octets(), none) == 13 && jalwedd::print_plain(octets(), 0, none) == 13);
#ifdef __cpp_lib_span
    HOLDS(jalwedd::print(datagram, std::span<char>(room)) == line.size() && line == room);
#endif
    return 0;
}

/* One to three octets are changed, or the end is missing, or both. */
static octets damage(octets datagram)
{
    for (std::uint32_t changes = random_below(4); changes > 0; changes--)
        datagram[random_below(static_cast<std::uint32_t>(datagram.size()))] ^= static_cast<std::uint8_t>(
            1 + random_below(255));
    if (random_below(2) == 0)
        datagram.resize(1 + random_below(static_cast<std::uint32_t>(datagram.size())));
    return datagram;
}

static int random_ones(std::size_t count)
{
    while (count-- > 0) {
        const written given = random_datagram();
        PASSES(as_written(given));
        PASSES(parts_alike(given.datagram));
        PASSES(parts_alike(damage(given.datagram)));
    }
    return 0;
}

static int of_lines(const std::vector<std::string>& lines)
{
    HOLDS(!lines.empty());
    for (const std::string& line : lines) {
        const octets datagram = from_hex(line);
        jalwedd_fault fault;
        HOLDS(!datagram.empty() && jalwedd_check(datagram.data(), datagram.size(), &fault) == JALWEDD_TAKEN);
        PASSES(parts_alike(datagram));
        PASSES(parts_alike(damage(datagram)));
    }
    return 0;
}

int main(int count, char** words)
{
    HOLDS(count == 2);
    const std::string samples = words[1];
    PASSES(written_out() || nowhere() || iterated() || arrays() || faults_of_heads() || lines() || random_ones(2000));
    PASSES(of_lines(lines_of(samples + "/conference.hex")) || of_lines(lines_of(samples + "/departures.hex")));
    HOLDS(senders > 1000 && blocks > 1000 && sdes_items > 1000 && goodbyes > 1000 && apps > 1000);
    HOLDS(abouts > 1000 && reasons > 1000 && damaged > 1000);
    return 0;
}
