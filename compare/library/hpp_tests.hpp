/* What the tests of jalwedd.hpp share. */
#ifndef HPP_TESTS_HPP
#define HPP_TESTS_HPP

#include <algorithm>
#include <cstdint>
#include <cstdio>
#include <cstring>
#include <fstream>
#include <string>
#include <type_traits>
#include <vector>

#define HOLDS(what)                                                                                                    \
    do {                                                                                                               \
        if (!(what)) {                                                                                                 \
            std::printf("%s: line %d: %s\n", __FILE__, __LINE__, #what);                                               \
            return 1;                                                                                                  \
        }                                                                                                              \
    } while (0)

#define PASSES(test)                                                                                                   \
    do {                                                                                                               \
        if (test)                                                                                                      \
            return 1;                                                                                                  \
    } while (0)

using octets = std::vector<std::uint8_t>;

/* more than a datagram has parts, or a session sources: where a range that goes on for ever is cut off */
constexpr std::size_t MOST = 70'000;

template <typename Value>
bool same(const Value& one, const Value& other)
{
    static_assert(std::has_unique_object_representations_v<Value>);
    return std::memcmp(&one, &other, sizeof one) == 0;
}

template <typename Value>
bool same(const std::vector<Value>& one, const std::vector<Value>& other)
{
    return std::equal(one.begin(), one.end(), other.begin(), other.end(),
                      [](const Value& left, const Value& right) { return same(left, right); });
}

/* What a range gives, up to MOST elements. */
template <typename Range>
auto listed(const Range& range)
{
    std::vector<typename Range::value_type> all;
    for (const auto& element : range) {
        if (all.size() == MOST)
            break;
        all.push_back(element);
    }
    return all;
}

inline octets from_hex(const std::string& line)
{
    octets all;
    for (std::size_t at = 0; at + 1 < line.size(); at += 2)
        all.push_back(static_cast<std::uint8_t>(std::stoul(line.substr(at, 2), nullptr, 16)));
    return all;
}

inline std::vector<std::string> lines_of(const std::string& path)
{
    std::vector<std::string> lines;
    std::ifstream file(path);
    for (std::string line; std::getline(file, line);)
        lines.push_back(line);
    return lines;
}

#endif
