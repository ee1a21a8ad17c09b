// What somebody writes who knows std::map: members of its names, which do what they do there, and keys that are kept. Run with the address
// sanitizer. What would look at a key that is gone isn't compiled, as far as C++ can tell.
#include "cedar.hpp"
#include "check.h"
#include <algorithm>
#include <functional>
#include <map>
#include <numeric>
#include <sstream>
#include <tuple>
#include <type_traits>

namespace {

using roskvidh::any_integer;
using roskvidh::dictionary;
using roskvidh::entry;
using roskvidh::layout;
using roskvidh::owned_entry;
using Plain = std::map<std::string, std::int32_t>;
using Pairs = std::vector<std::pair<std::string, std::int32_t>>;
using Iterator = dictionary::const_iterator;

// ---- an iterator that isn't in a variable

// Whether a key is shown by an arrow.
template <class At, class = void>
constexpr bool has_key = false;
template <class At>
constexpr bool has_key<At, std::void_t<decltype(std::declval<At>()->key)>> = true;

template <class At>
constexpr bool passes_safely() {
    using Shown = decltype(*std::declval<At>());
    using Key = decltype((std::declval<Shown>().key));
    static_assert(!std::is_convertible_v<Key, std::string_view> && !std::is_constructible_v<std::string_view, Key>);
    static_assert(!std::is_assignable_v<std::string_view &, Key> && std::is_convertible_v<Key, std::string>);
    static_assert(!std::is_convertible_v<Shown, entry> && !std::is_constructible_v<entry, Shown>);
    static_assert(!std::is_convertible_v<Shown, std::pair<std::string_view, int>> && std::is_convertible_v<Shown, owned_entry>);
    static_assert(std::is_convertible_v<Shown, std::pair<std::string, int>> && !std::is_convertible_v<Shown, std::pair<std::string, short>>);
    // In a variable it has its key as long as it stands there.
    static_assert(has_key<At &> && has_key<const At &> && !has_key<At> && !has_key<const At>);
    return std::is_same_v<decltype(*std::declval<At &>()), entry> && std::is_same_v<decltype(*std::declval<const At &>()), entry>;
}
static_assert(passes_safely<Iterator>() && passes_safely<roskvidh::reversed_iterator>());
static_assert(!std::is_convertible_v<owned_entry, entry> && std::is_convertible_v<owned_entry &, entry>);

dictionary numbered(int count, layout kind) {
    dictionary d(kind);
    for (int i = 0; i < count; ++i) d.update("a key that is too long for a short string " + std::to_string(i), i);
    return d;
}

// What is shown stays: the statement's end is behind the iterator's.
void passing(layout kind) {
    dictionary d = numbered(300, kind);
    const std::string first = "a key that is too long for a short string 0";
    const auto &value = d.find(first)->value;
    const auto &key = (*d.find(first)).key;
    const auto copied = (*d.find(first)).key;
    const std::string kept = (*d.find(first)).key;
    const auto &[bound_key, bound_value] = *d.find(first);
    const owned_entry owned = *d.begin();
    const std::pair<std::string, long> pair = *d.begin();
    const auto at_last = d.rbegin();
    std::string_view shown = at_last->key, same = (*at_last).key;
    std::ostringstream out;
    d.clear();
    d.shrink_to_fit();
    out << key << ' ' << value;
    CHECK(value == 0 && key == first && copied == key && kept == first && bound_key == first && bound_value == 0 && out.str() == first + " 0");
    CHECK(owned.key == first && owned.value == 0 && pair.first == first && pair.second == 0 && shown == same && shown.size() == first.size() + 1);
    CHECK(first == key && key != "another" && "another" != key && !(key != copied));
}

// ---- what a loop shows

void loops(layout kind) {
    const dictionary d = numbered(3000, kind);
    // The bytes stay as long as the range: without one they are gone after the next step.
    std::vector<std::string_view> shown;
    const auto all = d.entries();
    for (const auto &[key, value] : all) shown.push_back(key);
    for (const auto key : shown) CHECK(d.contains(key));
    std::vector<std::string> kept;
    for (const auto &[key, value] : d) kept.emplace_back(key);
    CHECK(kept.size() == d.size() && std::all_of(kept.begin(), kept.end(), [&](const auto &key) { return d.count(key) == 1; }));
    CHECK(std::equal(kept.begin(), kept.end(), shown.begin(), shown.end()));
    const std::vector<owned_entry> entries(d.begin(), d.end());
    CHECK(entries.size() == kept.size() && entries.back().key == kept.back());
    int steps = 0;
    for (auto at = d.begin(); at != d.end();) {
        const auto left = *at++;
        CHECK(left.key == kept[static_cast<std::size_t>(steps++)] && d.at(std::string(left.key)) == left.value);
    }
    CHECK(std::accumulate(d.begin(), d.end(), 0L, [](long sum, const auto &one) { return sum + one.value; }) == 3000L * 2999 / 2);
}

// ---- members of the names of std::map

std::uint32_t status_of(const std::function<void()> &call) {
    try {
        call();
    } catch (const roskvidh::error &e) {
        return e.status();
    }
    return CEDAR_OK;
}

Pairs listed(const dictionary &d) {
    const auto all = d.entries();
    return {all.begin(), all.end()};
}

void inserts(layout kind) {
    dictionary d(kind);
    const auto [at, is_stored] = d.insert("net", 7);
    CHECK(is_stored && at->key == "net" && at->value == 7);
    const auto [held, again] = d.insert("net", 99);
    CHECK(!again && held->value == 7 && d.at("net") == 7);
    CHECK(d.insert({"ten", 9}).second && !d.insert({"ten", 10}).second && !d.emplace("ten", 11).second && d.emplace("a", 1u).second);
    CHECK(d.try_emplace("b", 2LL).second && !d.try_emplace("b", 3).second && d.insert(std::make_pair(std::string("c"), 3)).second);
    const Plain plain = {{"d", 4}, {"net", 5}};
    for (const auto &one : plain) CHECK(d.insert(one).second == (one.first == "d"));
    const owned_entry owned("e", 5);
    CHECK(d.insert(owned).second && !d.insert(owned).second);
    dictionary copied(kind);
    for (const auto &one : d) CHECK(copied.insert(one).second);
    CHECK(copied == d && listed(d) == Pairs({{"a", 1}, {"b", 2}, {"c", 3}, {"d", 4}, {"e", 5}, {"net", 7}, {"ten", 9}}));
    const auto [changed, is_new] = d.insert_or_assign("net", 8);
    CHECK(!is_new && changed->value == 8 && d.at("net") == 8 && d.insert_or_assign("f", 6).second && copied != d);
    CHECK(d.exchange("net", 9) == 8 && !d.exchange("g", 7) && d.at("net") == 9 && d.size() == 9);
    auto next = d.insert("neta", 1).first;
    CHECK(++next != d.end() && next->key == "ten");
}

void refuses(layout kind) {
    using namespace std::literals;
    dictionary d(kind);
    d.update("net", 7);
    const std::pair<std::string_view, long> faults[] = {{"", 1}, {"a\0"sv, 1}, {"a", -1}, {"net", -1}, {"net", 1L << 32}};
    const std::uint32_t statuses[] = {CEDAR_EMPTY_KEY, CEDAR_NUL_BYTE, CEDAR_INVALID_VALUE, CEDAR_INVALID_VALUE, CEDAR_INVALID_VALUE};
    for (std::size_t i = 0; i < std::size(faults); ++i) {
        const auto [key, value] = std::pair(faults[i].first, faults[i].second);
        const std::string_view k = key;
        const long v = value;
        const std::function<void()> calls[] = {
            [&] { d.insert(k, v); }, [&] { d.insert({k, v}); }, [&] { d.insert(faults[i]); }, [&] { d.emplace(k, v); },
            [&] { d.try_emplace(k, v); }, [&] { d.insert_or_assign(k, v); }, [&] { (void)d.exchange(k, v); },
            [&] { (void)dictionary({{"b", 1}, {k, v}, {"", 1}}, kind); }, [&] { (void)dictionary(std::begin(faults) + i, std::end(faults), kind); },
        };
        for (const auto &call : calls) CHECK(status_of(call) == statuses[i] && d.size() == 1 && d.at("net") == 7);
    }
    bool is_thrown = false;
    try {
        (void)d.at("ten");
    } catch (const std::out_of_range &) {
        is_thrown = true;
    }
    CHECK(is_thrown && d.count("net") == 1 && d.count("ten") == 0);
    const dictionary moved = std::move(d);
    CHECK(status_of([&] { d.insert("a", 1); }) == CEDAR_IS_CLOSED && status_of([&] { d.insert_or_assign("a", 1); }) == CEDAR_IS_CLOSED);
    CHECK(d == dictionary() && d != moved && d.count("net") == 0);
}

void constructs(layout kind) {
    const dictionary braced({{"b", 1}, {"a", 2}, {"b", 3}}, kind), short_form{{"b", 1}, {"a", 2}};
    const Plain plain{{"b", 1}, {"a", 2}, {"b", 3}};
    CHECK(braced == short_form && braced.kind() == kind && listed(braced) == Pairs(plain.begin(), plain.end()));
    const dictionary of_map(plain.begin(), plain.end(), kind), of_itself(braced.begin(), braced.end()), of_none(plain.end(), plain.end());
    CHECK(of_map == braced && of_itself == braced && of_none.empty() && of_none == dictionary(kind));
    const std::vector<std::pair<std::string, std::size_t>> twice = {{"k", 1}, {"k", 2}, {"j", 5}, {"k", 3}};
    const dictionary first(twice.begin(), twice.end()), last = dictionary::from_pairs(twice);
    CHECK(first.at("k") == 1 && last.at("k") == 3 && first != last && first.size() == 2);
    dictionary one{{"net", 7}};
    one = {{"ten", 9}, {"nets", 8}};
    CHECK(one.size() == 2 && one.at("nets") == 8);
    std::istringstream words("one two three two");
    const std::vector<std::string> read{std::istream_iterator<std::string>(words), {}};
    std::vector<owned_entry> entries;
    for (const auto &word : read) entries.emplace_back(word, static_cast<std::int32_t>(entries.size()));
    CHECK(dictionary(entries.begin(), entries.end()) == dictionary({{"one", 0}, {"two", 1}, {"three", 2}}));
    dictionary reversed_labels(kind, false);
    for (const auto &[key, value] : braced) reversed_labels.update(key, value);
    CHECK(reversed_labels == braced);
    reversed_labels.update("a", 3);
    CHECK(reversed_labels != braced && dictionary({{"c", 1}, {"a", 2}}) != braced);
}

void erases(layout kind) {
    dictionary d = numbered(1000, kind);
    Plain plain;
    for (const auto &[key, value] : d) plain.emplace(key, value);
    auto in_plain = plain.begin();
    for (auto at = d.begin(); at != d.end();) {
        CHECK(at->key == in_plain->first);
        if (at->value % 3 == 0) {
            at = d.erase(at);
            in_plain = plain.erase(in_plain);
        } else {
            ++at;
            ++in_plain;
        }
    }
    CHECK(listed(d) == Pairs(plain.begin(), plain.end()) && d == dictionary(plain.begin(), plain.end()));
    const std::string last = plain.rbegin()->first;
    CHECK(d.erase(d.find(last)) == d.end() && !d.contains(last) && d.size() == plain.size() - 1);
}

// Random calls beside a map.
void beside_a_map(layout kind) {
    dictionary d(kind);
    Plain plain;
    for (int i = 0; i < 20000; ++i) {
        std::string key(1 + next_random() % 3, 'a');
        for (char &letter : key) letter = "abc\xff"[next_random() % 4];
        const auto value = static_cast<std::int32_t>(next_random() % 1000);
        const auto agree = [&](const auto &ours, const auto &theirs) {
            CHECK(ours.second == theirs.second && ours.first->key == theirs.first->first && ours.first->value == theirs.first->second);
        };
        switch (next_random() % 6) {
        case 0: agree(d.insert({key, value}), plain.insert({key, value})); break;
        case 1: agree(d.insert_or_assign(key, value), plain.insert_or_assign(key, value)); break;
        case 2: agree(d.try_emplace(key, value), plain.try_emplace(key, value)); break;
        case 3: agree(d.emplace(key, value), plain.emplace(key, value)); break;
        case 4:
            if (const auto at = d.find(key); at != d.end()) {
                const auto ours = d.erase(at);
                const auto theirs = plain.erase(plain.find(key));
                CHECK((ours == d.end()) == (theirs == plain.end()) && (ours == d.end() || ours->key == theirs->first));
            }
            break;
        default: CHECK(d.count(key) == plain.count(key) && (d.count(key) == 0 || d.at(key) == plain.at(key)));
        }
    }
    CHECK(listed(d) == Pairs(plain.begin(), plain.end()) && d == dictionary(plain.begin(), plain.end()));
}

} // namespace

int main() {
    for (const layout kind : {layout::standard, layout::reduced}) {
        passing(kind);
        loops(kind);
        inserts(kind);
        refuses(kind);
        constructs(kind);
        erases(kind);
        beside_a_map(kind);
    }
    std::puts("ok");
}
