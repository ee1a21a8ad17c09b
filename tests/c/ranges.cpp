// The ranges and iterators of cedar.hpp: what they show, how long it stays, and how little a page asks for. Linked with
// -Wl,--wrap=cedar_entries_below,--wrap=cedar_predictions,--wrap=cedar_count_prefix.
#include "cedar.hpp"
#include "check.h"
#include <cstdlib>
#include <functional>
#include <map>
#include <new>
#include <set>
#include <type_traits>
#if __cplusplus >= 202002L
#include <ranges>
#endif

// How many allocations of C++ are still met; below 0 all are.
static long left = -1;

[[gnu::noinline]] void *operator new(std::size_t size) {
    if (left == 0) throw std::bad_alloc();
    if (left > 0) left--;
    if (void *block = std::malloc(size ? size : 1)) return block;
    throw std::bad_alloc();
}
void *operator new[](std::size_t size) { return operator new(size); }
[[gnu::noinline]] void operator delete(void *block) noexcept { std::free(block); }
[[gnu::noinline]] void operator delete(void *block, std::size_t) noexcept { std::free(block); }
void operator delete[](void *block) noexcept { operator delete(block); }
void operator delete[](void *block, std::size_t) noexcept { operator delete(block); }

// What was asked of the library: how many pages, with how many places in all, and how many walks over all keys of a prefix.
static std::size_t pages, places_asked, walks;

extern "C" {
std::uint32_t __real_cedar_entries_below(const cedar_dictionary *, const std::uint8_t *, std::size_t, const std::uint8_t *, std::size_t,
                                         cedar_found *, std::size_t, std::uint8_t *, std::size_t, std::size_t *, std::size_t *);
std::uint32_t __wrap_cedar_entries_below(const cedar_dictionary *d, const std::uint8_t *prefix, std::size_t prefix_length,
                                         const std::uint8_t *behind, std::size_t behind_length, cedar_found *found, std::size_t places,
                                         std::uint8_t *bytes, std::size_t room, std::size_t *count, std::size_t *needed) {
    pages++;
    places_asked += places;
    return __real_cedar_entries_below(d, prefix, prefix_length, behind, behind_length, found, places, bytes, room, count, needed);
}
std::size_t __real_cedar_predictions(const cedar_dictionary *, const std::uint8_t *, std::size_t, cedar_match *, std::size_t);
std::size_t __wrap_cedar_predictions(const cedar_dictionary *d, const std::uint8_t *text, std::size_t length, cedar_match *matches,
                                     std::size_t room) {
    walks++;
    return __real_cedar_predictions(d, text, length, matches, room);
}
std::size_t __real_cedar_count_prefix(const cedar_dictionary *, const std::uint8_t *, std::size_t);
std::size_t __wrap_cedar_count_prefix(const cedar_dictionary *d, const std::uint8_t *prefix, std::size_t length) {
    walks++;
    return __real_cedar_count_prefix(d, prefix, length);
}
}

namespace {

using roskvidh::dictionary;
using roskvidh::entry;
using roskvidh::layout;
using Plain = std::map<std::string, std::int32_t>;
using Pairs = std::vector<std::pair<std::string, std::int32_t>>;
using Iterator = roskvidh::entry_iterator;

static_assert(std::is_nothrow_move_constructible_v<roskvidh::entries> && std::is_copy_constructible_v<roskvidh::entries>);
static_assert(std::is_nothrow_move_constructible_v<Iterator> && std::is_nothrow_copy_constructible_v<Iterator>);
static_assert(std::is_convertible_v<entry, std::pair<std::string, long>> && !std::is_convertible_v<entry, std::pair<std::string, short>>);
// A range of a temporary dictionary would read it once it is gone: it isn't compiled.
template <class Dictionary, class = void>
constexpr bool has_entries = false;
template <class Dictionary>
constexpr bool has_entries<Dictionary, std::void_t<decltype(std::declval<Dictionary>().entries())>> = true;
static_assert(has_entries<dictionary &> && has_entries<const dictionary &> && !has_entries<dictionary> && !has_entries<const dictionary>);
#if __cplusplus >= 202002L && defined(__cpp_lib_ranges)
static_assert(std::forward_iterator<Iterator> && std::ranges::forward_range<roskvidh::entries>);
static_assert(std::input_iterator<roskvidh::reversed_iterator> && std::ranges::input_range<roskvidh::reversed_entries>);
#endif

// Checks that a call is refused with this status.
void refused(std::uint32_t status, const std::function<void()> &call) {
    try {
        call();
    } catch (const roskvidh::error &e) {
        CHECK(e.status() == status);
        return;
    }
    CHECK(!"an error was thrown");
}

template <class Range>
Pairs listed(const Range &range) {
    Pairs pairs;
    for (const auto &[key, value] : range) pairs.emplace_back(key, value);
    return pairs;
}

// Keys of four digits or more, of which each tenth is long.
Plain numbered(int count) {
    Plain plain;
    for (int i = 0; i < count; ++i) plain[std::to_string(1000 + i) + (i % 10 ? "" : std::string(60, '~'))] = i;
    return plain;
}

Pairs below(const Plain &plain, const std::string &prefix) {
    Pairs some;
    for (auto at = plain.lower_bound(prefix); at != plain.end() && at->first.compare(0, prefix.size(), prefix) == 0; ++at) {
        some.push_back(*at);
    }
    return some;
}

// The entries of each prefix beside those of a map, in any order of labels.
void same_entries(layout kind, bool ordered) {
    const Plain plain = numbered(30000);
    dictionary d(kind, ordered);
    d.update_all(plain);
    for (const std::string prefix : {"", "1", "10", "100", "1000", "10001", "1010~~", "9", "30999", "x"}) {
        const roskvidh::entries range = d.entries_with_prefix(prefix);
        Pairs all = listed(range);
        CHECK(listed(range) == all && range.empty() == all.empty() && d.count_prefix(prefix) == all.size());
        if (!ordered) std::sort(all.begin(), all.end());
        CHECK(all == below(plain, prefix));
    }
    const dictionary none(kind, ordered);
    CHECK(listed(d.entries()).size() == plain.size() && none.entries().empty() && none.count_prefix("") == 0);
}

// The first entries ask for as much in a dictionary of any size, and none of the others is gone over.
void first_few(layout kind) {
    const Plain plain = numbered(100000);
    dictionary d(kind);
    d.update_all(plain);
    pages = places_asked = walks = 0;
    int shown = 0;
    for (const auto &[key, value] : d.entries_with_prefix("1")) {
        CHECK(plain.at(std::string(key)) == value);
        if (++shown == 10) break;
    }
    CHECK(shown == 10 && pages <= 3 && places_asked <= 32 && walks == 0);
    CHECK(d.predictions("1", 100).size() == 100 && d.predictions("1", 0).empty() && walks == 0);
    CHECK(d.predictions("1").size() == d.count_prefix("1") && d.predictions("1", 100).back().length == d.predictions("1")[99].length);
    pages = places_asked = walks = 0;
    CHECK(listed(d.entries()).size() == plain.size() && pages < plain.size() / 100 && walks == 0);
}

// What is changed behind the page that is shown counts; what was shown stays as it was.
void changes_meanwhile(layout kind) {
    dictionary d(kind);
    d.update_all(numbered(1000));
    const roskvidh::entries range = d.entries();
    auto at = range.begin();
    const std::string_view first = (*at).key;
    CHECK(d.erase_prefix("1") == 1000);
    d.update("2", 2);
    Pairs shown;
    for (; at != range.end(); ++at) shown.emplace_back((*at).key, (*at).value);
    CHECK(shown.size() > 1 && shown.back() == Pairs::value_type("2", 2) && shown.size() < 1000 && first == shown.front().first);
    CHECK(listed(range) == shown && listed(d.entries()) == Pairs({{"2", 2}}));
    // A loop that erases what it is shown erases all.
    d.update_all(numbered(1000));
    for (const auto &one : d.entries_with_prefix("1")) CHECK(d.erase(one.key));
    CHECK(d.size() == 1);
}

std::string short_key() {
    std::string key(1 + next_random() % 3, 'a');
    for (char &letter : key) letter = "abc\x01\x7f\x80\xff"[next_random() % 7];
    return key + std::string(next_random() % 40 == 0 ? 300 : 0, '~');
}

// Changes at random between two steps: the keys that are shown ascend, each had its value, and one that stays all the while is shown.
void changes_at_random(layout kind) {
    for (int round = 0; round < 60; ++round) {
        dictionary d(kind);
        Plain plain;
        std::map<std::string, std::set<std::int32_t>> values;
        std::set<std::string> stays;
        const auto change = [&](std::int32_t value) {
            const std::string key = short_key();
            if (next_random() % 3 == 0) {
                CHECK(d.erase(key) == (plain.erase(key) == 1));
                stays.erase(key);
            } else {
                d.update(key, value);
                plain[key] = value;
                values[key].insert(value);
            }
        };
        for (int i = 0; i < 300; ++i) change(i);
        const std::string from = round % 3 == 0 ? "" : short_key(), to = round % 3 == 2 ? short_key() : "\xff\xff\xff\xff";
        for (auto at = plain.lower_bound(from); at != plain.end() && at->first < to; ++at) stays.insert(at->first);
        const roskvidh::entries range = d.range(from, to);
        Pairs shown;
        for (const auto &[key, value] : range) {
            CHECK(from <= key && key < to && (shown.empty() || shown.back().first < key));
            CHECK(values.at(std::string(key)).count(value) == 1);
            stays.erase(std::string(key));
            shown.emplace_back(key, value);
            for (int i = static_cast<int>(next_random() % 4); i > 0; --i) change(1000 + i);
        }
        CHECK(stays.empty() && listed(range) == shown && listed(d.entries()) == Pairs(plain.begin(), plain.end()));
    }
}

// Ranges backwards beside a map: all, those between two keys, and those of a prefix, also if what is shown is erased meanwhile.
void backwards(layout kind) {
    for (int round = 0; round < 60; ++round) {
        dictionary d(kind);
        Plain plain;
        for (int i = 0; i < 300; ++i) plain[short_key()] = i;
        d.update_all(plain);
        CHECK(listed(d.reversed()) == Pairs(plain.rbegin(), plain.rend()) && std::distance(d.rbegin(), d.rend()) == static_cast<std::ptrdiff_t>(d.size()));
        const std::string from = short_key(), to = short_key(), prefix = from.substr(0, 1);
        Pairs some = listed(d.range(from, to)), with_prefix = below(plain, prefix);
        std::reverse(some.begin(), some.end());
        std::reverse(with_prefix.begin(), with_prefix.end());
        CHECK(listed(d.reversed_range(from, to)) == some && d.reversed_range(from, to).empty() == some.empty());
        CHECK(listed(d.reversed_with_prefix(prefix)) == with_prefix);
        const roskvidh::reversed_entries range = d.reversed();
        auto at = range.begin(), copy = at;
        Pairs shown;
        for (; at != range.end(); ++at) {
            shown.emplace_back(at->key, at->value);
            CHECK(d.erase((*at).key) && (shown.size() == 1 || shown.back() < shown[shown.size() - 2]));
        }
        CHECK(shown == Pairs(plain.rbegin(), plain.rend()) && d.empty() && copy->key == shown[0].first && ++copy == range.end() && d.reversed().empty());
    }
    dictionary d(kind);
    d.update("\xff\xff", 1);
    d.update("\xff", 2);
    d.update("a", 3);
    CHECK(listed(d.reversed_with_prefix("\xff")) == Pairs({{"\xff\xff", 1}, {"\xff", 2}}) && d.reversed_with_prefix("b").empty());
    dictionary unordered(kind, false);
    unordered.update("a", 1);
    refused(CEDAR_NOT_ASCENDING, [&] { (void)unordered.reversed(); });
    dictionary moved = std::move(d);
    CHECK(d.reversed().empty() && listed(moved.reversed()).size() == 3);
}

// A dictionary that is assigned to or swapped: what was shown stays, and the next page is of what it holds then.
void another_content(layout kind) {
    const auto filled = [kind](bool ordered) {
        dictionary d(kind, ordered);
        d.update_all(numbered(1000));
        return d;
    };
    dictionary d = filled(true), other(kind);
    const roskvidh::entries range = d.entries();
    auto at = range.begin();
    other.update_all({{"1", 1}, {"9", 9}});
    swap(d, other);
    std::size_t of_the_first = 0;
    for (; at->key != "9"; ++at) of_the_first++;
    CHECK(of_the_first > 1 && of_the_first < 1000 && at->value == 9 && ++at == range.end() && listed(range).size() == of_the_first + 1);
    d = filled(true);
    auto last = d.begin();
    d = filled(false);
    refused(CEDAR_NOT_ASCENDING, [&] { for (;;) ++last; });
    CHECK(last->key >= "1000");
}

// Copies of an iterator go on by themselves, and a range stays what it was when it is copied or moved.
void copies() {
    dictionary d;
    d.update_all(numbered(500));
    roskvidh::entries range = d.entries();
    const Pairs all = listed(range);
    Iterator one = range.begin(), other = one;
    for (int i = 0; i < 100; ++i) CHECK((*one++).key == all[static_cast<std::size_t>(i)].first);
    CHECK((*other).key == all[0].first && one != other && other == range.begin());
    std::advance(other, 100);
    CHECK(one == other && one->key == all[100].first && one->value == all[100].second && one != range.end());
    const roskvidh::entries copy = range, moved = std::move(range);
    CHECK(listed(copy) == all && listed(moved) == all && range.empty() && range.begin() == range.end());
    CHECK(Iterator() == Iterator() && Iterator() == moved.end() && std::distance(moved.begin(), moved.end()) == 500);
    // Different ranges meet at equal keys.
    const roskvidh::entries some = d.entries_with_prefix(all[7].first);
    CHECK(some.begin() == std::next(moved.begin(), 7) && some.begin() != moved.begin());
}

// How long the bytes of keys stay: as long as the range, or as an iterator stands at them.
void lifetimes() {
    dictionary d;
    d.update_all(numbered(5000));
    const roskvidh::entries range = d.entries();
    std::vector<entry> kept;
    for (const entry one : range) kept.push_back(one);
    d.clear();
    CHECK(kept.size() == 5000);
    for (const entry &one : kept) CHECK(one.key.substr(0, 4) >= "1000");
    const std::vector<roskvidh::owned_entry> owned(range.begin(), range.end());
    const std::vector<std::pair<std::string, std::int32_t>> pairs(range.begin(), range.end());
    CHECK(owned.size() == 5000 && pairs == listed(range));
    CHECK(entry(owned[3]).key == pairs[3].first && owned[3].value == pairs[3].second);
    CHECK((std::map<std::string, long>(range.begin(), range.end()).size() == 5000));
    std::set<std::string> keys;
    for (const auto &[key, value] : range) keys.emplace(key);
    CHECK(keys.size() == 5000);
}

// What C++20 has for ranges takes these, and pages are taken as far as it goes. Before its version 16 clang refuses the views of g++.
void views() {
#if __cplusplus >= 202002L && defined(__cpp_lib_ranges) && (!defined(__clang__) || __clang_major__ >= 16)
    const Plain plain = numbered(100000);
    const Pairs some = below(plain, "10");
    dictionary d;
    d.update_all(plain);
    pages = walks = 0;
    int sum = 0;
    for (const auto &[key, value] : d.entries_with_prefix("10") | std::views::drop(2) | std::views::take(3)) sum += value;
    CHECK(sum == some[2].second + some[3].second + some[4].second && pages <= 3 && walks == 0);
    const auto odd = [](const auto &one) { return one.value % 2 == 1; };
    for (const auto &one : d | std::views::filter(odd) | std::views::take(2)) CHECK(one.key.substr(0, 2) == "10");
    const roskvidh::entries all = d.entries();
    CHECK(std::ranges::count_if(all, odd) == 50000 && std::ranges::find_if(all, odd)->value % 2 == 1);
    const auto value_of = [](const auto &one) { return one.value; };
    CHECK(std::ranges::max_element(all, {}, value_of)->value == 99999 && std::ranges::distance(d) == 100000);
#endif
}

// Many pages at once: no calls within calls.
void many_pages() {
    dictionary d;
    for (int i = 0; i < 300; ++i) d.update(std::string(5000, 'a') + std::to_string(i), i);
    for (int i = 0; i < 200000; ++i) d.update("b" + std::to_string(i), i);
    CHECK(listed(d.entries()).size() == 200300);
    // Keys of any length.
    const std::string long_key(70000, 'z');
    d.update(long_key, 1);
    d.update(long_key + "z", 2);
    CHECK(d.count_prefix("z") == 2 && listed(d.entries_with_prefix("z")) == Pairs({{long_key, 1}, {long_key + "z", 2}}));
}

// How many allocations of C++ a call needs: with fewer it throws, and leaves nothing behind.
long needed(const std::function<void()> &call) {
    for (long most = 0;; ++most) {
        CHECK(most < 20);
        left = most;
        try {
            call();
            left = -1;
            return most;
        } catch (const std::bad_alloc &) {
            left = -1;
        }
    }
}

// A page that can't be taken: the iterator stays where it was.
void refusals() {
    dictionary d;
    d.update_all(numbered(1000));
    const roskvidh::entries range = d.entries();
    Iterator at = range.begin();
    Pairs shown;
    while (shown.size() < 1000) {
        const Iterator before = at;
        const std::string key(at->key);
        left = 0;
        try {
            ++at;
        } catch (const std::bad_alloc &) {
            CHECK(at == before && at->key == key);
            left = -1;
            ++at;
        }
        left = -1;
        shown.emplace_back(key, 0);
    }
    CHECK(at == range.end());
    dictionary unordered(layout::standard, false);
    unordered.update_all(numbered(100));
    const std::string long_key(40, '1');
    const std::function<void()> calls[] = {
        [&] { (void)d.begin(); },
        [&] { (void)d.entries_with_prefix(long_key); },
        [&] { (void)d.entries_from("1010"); },
        [&] { (void)d.range("1010", long_key); },
        [&] { (void)d.find("1001"); },
        [&] { (void)d.lower_bound(long_key); },
        [&] { (void)d.upper_bound("1010"); },
        [&] { CHECK(!unordered.entries().empty()); },
    };
    for (const auto &call : calls) CHECK(needed(call) > 0);
    // A dictionary that was moved away has no further page.
    const roskvidh::entries begun = d.entries();
    Iterator last = begun.begin();
    const dictionary moved = std::move(d);
    refused(CEDAR_IS_CLOSED, [&] { for (;;) ++last; });
    CHECK(last != begun.end() && d.entries().empty() && d.count_prefix("") == 0);
}

} // namespace

int main() {
    for (const layout kind : {layout::standard, layout::reduced}) {
        same_entries(kind, true);
        same_entries(kind, false);
        first_few(kind);
        changes_meanwhile(kind);
        changes_at_random(kind);
        another_content(kind);
        backwards(kind);
    }
    copies();
    lifetimes();
    views();
    many_pages();
    refusals();
    std::puts("ok");
}
