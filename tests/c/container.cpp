// The class of cedar.hpp as a container: values of each type of integers, finding and bounds, and which of many pairs is refused.
#include "cedar.hpp"
#include "check.h"
#include <cstdint>
#include <functional>
#include <limits>
#include <map>
#include <tuple>

namespace {

using roskvidh::dictionary;
using roskvidh::layout;
using Plain = std::map<std::string, std::int32_t>;
using Pairs = std::vector<std::pair<std::string, std::int32_t>>;

// What an error says: its status, its position, and its index.
using Told = std::tuple<std::uint32_t, std::optional<std::size_t>, std::optional<std::size_t>>;

Told told_by(const std::function<void()> &call) {
    try {
        call();
    } catch (const roskvidh::error &e) {
        return {e.status(), e.position(), e.index()};
    }
    CHECK(!"an error was thrown");
    return {};
}

// Whether a call throws the error that is named for a value.
bool is_out_of_range(const std::function<void()> &call) {
    try {
        call();
    } catch (const roskvidh::value_out_of_range &e) {
        CHECK(e.status() == CEDAR_INVALID_VALUE);
        return true;
    }
    return false;
}

using roskvidh::any_integer;
enum Unscoped { seven = 7 };
enum Narrow : unsigned char { most_narrow = 255 };
enum Wide : std::uint64_t { too_wide = (std::uint64_t{1} << 32) + 1 };
enum Signed { below_zero = -1 };
enum class Scoped { seven = 7 };
static_assert(std::is_convertible_v<Unscoped, any_integer> && !std::is_convertible_v<Scoped, any_integer>);
static_assert(!std::is_convertible_v<double, any_integer> && !std::is_convertible_v<float, any_integer>);
static_assert(!std::is_convertible_v<const char *, any_integer> && !std::is_convertible_v<std::nullptr_t, any_integer>);
static_assert(any_integer(7u).get() == 7 && any_integer(std::uint64_t{1} << 32).get() < 0 && any_integer(true).get() == 1);
static_assert(any_integer(most_narrow).get() == 255 && any_integer(too_wide).get() < 0 && any_integer(below_zero).get() < 0);
static_assert(any_integer(CEDAR_MAX_VALUE + 1u).get() < 0 && any_integer(-1LL).get() < 0 && any_integer(~std::uint64_t{0}).get() < 0);

// A type of integers: its largest and smallest number, and those beside the ends of the range that it has.
template <class Integer>
void integers() {
    dictionary d;
    std::vector<Integer> values = {Integer{0}, Integer{1}, std::numeric_limits<Integer>::max(), std::numeric_limits<Integer>::min()};
    if constexpr (std::numeric_limits<Integer>::digits >= 31) {
        values.push_back(Integer{CEDAR_MAX_VALUE});
        values.push_back(Integer{CEDAR_MAX_VALUE} + 1);
    }
    if constexpr (std::numeric_limits<Integer>::digits > 32) values.push_back((Integer{1} << 32) + 1);
    for (const Integer value : values) {
        const bool is_held = !(value < Integer{0}) && static_cast<unsigned long long>(value) <= CEDAR_MAX_VALUE;
        const std::vector<std::pair<std::string, Integer>> pairs = {{"b", value}};
        const std::function<void()> stores[] = {
            [&] { d.update("b", value); },
            [&] { (void)d.insert("b", value); },
            [&] { d.update_all(pairs); },
            [&] { d.update_all({{"b", value}}); },
            [&] { d = dictionary::from_sorted(pairs); },
            [&] { d = dictionary::from_pairs({{"b", value}}); },
        };
        for (const auto &store : stores) {
            d.clear();
            CHECK(is_out_of_range(store) != is_held && d.size() == (is_held ? 1 : 0));
            if (is_held) CHECK(static_cast<Integer>(*d.get("b")) == value);
        }
    }
}

void each_integer() {
    integers<signed char>();
    integers<unsigned char>();
    integers<char>();
    integers<short>();
    integers<unsigned short>();
    integers<int>();
    integers<unsigned>();
    integers<long>();
    integers<unsigned long>();
    integers<long long>();
    integers<unsigned long long>();
    integers<std::size_t>();
    integers<bool>();
    integers<wchar_t>();
    integers<char16_t>();
    integers<char32_t>();
#if defined(__SIZEOF_INT128__) && !defined(__STRICT_ANSI__) // in strict C++ they are no integers, and aren't compiled
    __extension__ using Widest = __int128;
    __extension__ using WidestUnsigned = unsigned __int128;
    integers<Widest>();
    integers<WidestUnsigned>();
#endif
    struct Bits {
        unsigned narrow : 3;
        long long wide : 40;
    };
    const Bits bits = {5, 4294967297};
    dictionary d;
    d.update("bits", bits.narrow);
    CHECK(d.get("bits") == 5 && is_out_of_range([&] { d.update("bits", bits.wide); }));
    d.update("seven", seven);
    CHECK(d.get("seven") == 7 && is_out_of_range([&] { d.update("cut", 4294967297LL); }) && !d.contains("cut"));
}

Pairs from(const dictionary &d, dictionary::const_iterator at) {
    Pairs pairs;
    for (; at != d.end(); ++at) pairs.emplace_back(at->key, at->value);
    return pairs;
}

Pairs listed(const roskvidh::entries &range) {
    Pairs pairs;
    for (const auto &[key, value] : range) pairs.emplace_back(key, value);
    return pairs;
}

std::string short_key() {
    std::string key(next_random() % 4, 'a');
    for (char &letter : key) letter = "ab\x7f\xff"[next_random() % 4];
    return key;
}

// Finding, bounds and ranges beside a map, whose keys may be held or not.
void bounds(layout kind) {
    dictionary d(kind);
    Plain plain;
    for (int i = 0; i < 60; ++i) {
        const std::string key = short_key();
        if (key.empty()) continue;
        d.update(key, i);
        plain[key] = i;
    }
    CHECK(from(d, d.begin()) == Pairs(plain.begin(), plain.end()) && from(d, d.cbegin()) == Pairs(plain.begin(), plain.end()));
    CHECK(d.cend() == d.end() && (d.cbegin() == d.cend()) == plain.empty());
    for (int i = 0; i < 1000; ++i) {
        const std::string key = short_key(), to = short_key();
        const auto at = plain.lower_bound(key), found = plain.find(key);
        CHECK(from(d, d.lower_bound(key)) == Pairs(at, plain.end()) && listed(d.entries_from(key)) == Pairs(at, plain.end()));
        CHECK(from(d, d.upper_bound(key)) == Pairs(plain.upper_bound(key), plain.end()));
        CHECK(from(d, d.find(key)) == Pairs(found, plain.end()) && d.contains(key) == (d.find(key) != d.end()));
        CHECK(listed(d.range(key, to)) == (key < to ? Pairs(at, plain.lower_bound(to)) : Pairs()));
        CHECK(d.contains(key) == (d.lower_bound(key) != d.upper_bound(key)));
    }
    using namespace std::literals;
    CHECK(d.find("a\0"sv) == d.end() && from(d, d.lower_bound("a\0"sv)) == Pairs(plain.upper_bound("a"), plain.end()));
    // An iterator of the dictionary leaves its pages behind, and what it stands at stays.
    auto at = d.begin();
    const auto first = at++;
    d.clear();
    CHECK(first->key == plain.begin()->first && d.begin() == d.end() && d.find("a") == d.end() && d.lower_bound("") == d.end());
    const dictionary moved = std::move(d);
    CHECK(d.begin() == d.end() && d.lower_bound("a") == d.end() && d.range("a", "b").empty() && d.find("a") == d.end());
}

// Where labels don't ascend, no key is the next one.
void unordered(layout kind) {
    dictionary d(kind, false);
    d.update_all({{"a", 1}, {"c", 3}, {"b", 2}});
    CHECK(from(d, d.begin()) == Pairs({{"b", 2}, {"c", 3}, {"a", 1}}) && d.find("c")->value == 3 && d.find("d") == d.end());
    auto at = d.find("c");
    const std::function<void()> calls[] = {
        [&] { ++at; },
        [&] { (void)d.lower_bound("a"); },
        [&] { (void)d.lower_bound(""); },
        [&] { (void)d.upper_bound("b"); },
        [&] { (void)d.entries_from("a"); },
        [&] { (void)d.range("a", "c"); },
    };
    for (const auto &call : calls) CHECK(told_by(call) == Told(CEDAR_NOT_ASCENDING, {}, {}));
    CHECK(at->key == "c");
}

// A long dictionary, gone through from the middle: steps are those of its order.
void long_ways() {
    dictionary d;
    Plain plain;
    for (int i = 0; i < 20000; ++i) plain[std::to_string(i)] = i;
    d.update_all(plain);
    CHECK(from(d, d.find("5000")) == Pairs(plain.find("5000"), plain.end()) && from(d, d.begin()).size() == plain.size());
    CHECK(listed(d.range("3", "42")) == Pairs(plain.lower_bound("3"), plain.lower_bound("42")));
    dictionary other;
    other.update_all(d.range("3", "42"));
    CHECK(listed(other.entries()) == listed(d.range("3", "42")) && dictionary::from_sorted(d.entries()).size() == d.size());
    const std::vector<roskvidh::owned_entry> all(d.begin(), d.end());
    CHECK(all.size() == plain.size() && all.back().key == plain.rbegin()->first);
}

// Which of many pairs has the fault.
void refused_pairs(layout kind) {
    using namespace std::literals;
    dictionary d(kind);
    const auto refused = [&](std::string_view key, long value, std::uint32_t status, std::optional<std::size_t> position) {
        const std::vector<std::pair<std::string_view, long>> pairs = {{"a", 1}, {"b", 2}, {key, value}, {"", -1}};
        CHECK(told_by([&] { d.update_all(pairs); }) == Told(status, position, 2));
        CHECK(told_by([&] { (void)dictionary::from_sorted(pairs, kind); }) == Told(status, position, 2));
        CHECK(told_by([&] { (void)dictionary::from_pairs(pairs, kind); }) == Told(status, position, 2));
        CHECK(d.empty());
    };
    refused("", 1, CEDAR_EMPTY_KEY, {});
    refused("c\0"sv, 1, CEDAR_NUL_BYTE, 1);
    refused("c", 5000000000, CEDAR_INVALID_VALUE, {});
    CHECK(told_by([&] { (void)dictionary::from_sorted({{"b", 1}, {"a", 2}, {"", 3}}, kind); }) == Told(CEDAR_KEYS_NOT_SORTED, 1, 1));
    CHECK(told_by([&] { (void)dictionary::from_sorted({{"b", 1}, {"b", 2}}, kind); }) == Told(CEDAR_DUPLICATE_KEY, 1, 1));
    CHECK(told_by([&] { d.update("", 1); }) == Told(CEDAR_EMPTY_KEY, {}, {}) && is_out_of_range([&] { d.update_all({{"a", -1}}); }));
}

} // namespace

int main() {
    each_integer();
    for (const layout kind : {layout::standard, layout::reduced}) {
        bounds(kind);
        unordered(kind);
        refused_pairs(kind);
    }
    long_ways();
    std::puts("ok");
}
