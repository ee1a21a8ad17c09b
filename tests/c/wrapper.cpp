// The class of cedar.hpp: each member and each error, and random calls of each layout beside a std::map; so many as the argument says.
// Linked with -Wl,--wrap=malloc,--wrap=realloc,--wrap=fsync,--wrap=renameat.
#include "cedar.hpp"
#include "check.h"
#include <cerrno>
#include <fstream>
#include <functional>
#include <map>
#include <sys/stat.h>
#include <thread>
#include <tuple>
#include <unistd.h>

// How many requests for memory of the library are still met; below 0 all are. Those of C++ don't come through here.
static long left = -1;

static bool is_met() {
    if (left == 0) return false;
    if (left > 0) left--;
    return true;
}

// The calls of this thread's saves by which a file comes to the disk: `s` syncs a file and `S` a folder, and `r` gives a new file its name.
// The one that `failing` names fails.
static thread_local std::string disk_calls;
static thread_local char failing = 0;

static bool is_made(char call) {
    disk_calls += call;
    return call != failing || (errno = EIO, false);
}

extern "C" {
int __real_fsync(int file);
int __real_renameat(int from_folder, const char *from, int to_folder, const char *to);
int __wrap_fsync(int file) {
    struct stat found;
    CHECK(fstat(file, &found) == 0);
    return is_made(S_ISDIR(found.st_mode) ? 'S' : 's') ? __real_fsync(file) : -1;
}
int __wrap_renameat(int from_folder, const char *from, int to_folder, const char *to) {
    return is_made('r') ? __real_renameat(from_folder, from, to_folder, to) : -1;
}
void *__real_malloc(std::size_t size);
void *__real_realloc(void *block, std::size_t size);
void *__wrap_malloc(std::size_t size) { return is_met() ? __real_malloc(size) : nullptr; }
void *__wrap_realloc(void *block, std::size_t size) { return is_met() ? __real_realloc(block, size) : nullptr; }
}

namespace {

using roskvidh::dictionary;
using roskvidh::layout;
using Plain = std::map<std::string, std::int32_t>;
using Pairs = std::vector<std::pair<std::string, std::int32_t>>;
using Ends = std::vector<std::pair<std::int32_t, std::size_t>>;
using Tokens = std::vector<std::tuple<std::size_t, std::size_t, std::optional<std::int32_t>>>;

static_assert(!std::is_copy_constructible_v<dictionary> && !std::is_copy_assignable_v<dictionary>);
static_assert(std::is_nothrow_move_constructible_v<dictionary> && std::is_nothrow_move_assignable_v<dictionary>);

// Checks that a call is refused with this status, position and text.
void refused(std::uint32_t status, std::optional<std::size_t> position, std::string_view text, const std::function<void()> &call) {
    try {
        call();
    } catch (const roskvidh::error &e) {
        if (e.status() != status || e.position() != position || e.what() != text) std::fprintf(stderr, "%u: %s\n", e.status(), e.what());
        CHECK(e.status() == status && e.position() == position && e.what() == text);
        return;
    }
    CHECK(!"an error was thrown");
}

void lacks_memory(const std::function<void()> &call) {
    left = 0;
    try {
        call();
    } catch (const std::bad_alloc &) {
        left = -1;
        return;
    }
    CHECK(!"std::bad_alloc was thrown");
}

// What a range shows: the same each time.
template <class Range>
Pairs listed(const Range &range) {
    Pairs pairs;
    for (const auto &[key, value] : range) pairs.emplace_back(key, value);
    CHECK(std::equal(range.begin(), range.end(), pairs.begin(), pairs.end(),
                     [](const roskvidh::entry &one, const auto &pair) { return one.key == pair.first && one.value == pair.second; }));
    CHECK(range.empty() == pairs.empty());
    return pairs;
}

Pairs listed(const dictionary &d) { return listed(d.entries()); }

Ends ends(const std::vector<roskvidh::match> &found) {
    Ends pairs;
    for (const roskvidh::match &one : found) pairs.emplace_back(one.value, one.length);
    return pairs;
}

Tokens scanned(const dictionary &d, std::string_view text) {
    Tokens found;
    d.scan(text, [&](const roskvidh::occurrence &one) { found.emplace_back(one.place, one.length, one.value); });
    return found;
}

Tokens segmented(const dictionary &d, std::string_view text) {
    Tokens found;
    d.segment(text, [&](const roskvidh::token &one) { found.emplace_back(one.place, one.length, one.value); });
    return found;
}

Tokens keywords_in(const dictionary &d, std::string_view text) {
    Tokens found;
    d.keywords(text, [&](const roskvidh::occurrence &one) { found.emplace_back(one.place, one.length, one.value); });
    return found;
}

Tokens cut_cheapest(const dictionary &d, std::string_view text, std::uint32_t unknown, bool by_characters = false) {
    Tokens found;
    for (const roskvidh::token &one : d.cheapest(text, unknown, by_characters)) found.emplace_back(one.place, one.length, one.value);
    return found;
}

Tokens cut_by(const dictionary &d, std::string_view text, const roskvidh::cut_costs &costs) {
    Tokens found;
    for (const roskvidh::token &one : d.cheapest_by(text, costs)) found.emplace_back(one.place, one.length, one.value);
    return found;
}

Tokens found_by(const roskvidh::scanner &scanner, std::string_view text) {
    Tokens found;
    scanner.find(text, [&](const roskvidh::occurrence &one) { found.emplace_back(one.place, one.length, one.value); });
    return found;
}

void scanners(layout kind) {
    using roskvidh::scanner;
    using roskvidh::search;
    dictionary d(kind);
    d.update_all({{"he", 2}, {"she", 3}, {"hers", 1}, {"e", 2}});
    scanner all(d, search::overlapping);
    const scanner first_end(d, search::earliest), longest(d, search::leftmost_longest), first(d, search::leftmost_first);
    // What becomes of the dictionary doesn't matter.
    d.clear();
    CHECK(found_by(all, "ushers") == Tokens({{1, 3, 3}, {2, 2, 2}, {3, 1, 2}, {2, 4, 1}}) && all.longest() == 4);
    CHECK(found_by(first_end, "ushers") == Tokens({{1, 3, 3}}) && found_by(first_end, "hers") == Tokens({{0, 2, 2}}));
    CHECK(found_by(longest, "hers ushers") == Tokens({{0, 4, 1}, {6, 3, 3}}));
    CHECK(found_by(first, "her hers") == Tokens({{0, 2, 2}, {4, 4, 1}}) && found_by(first, "").empty());
    scanner moved(std::move(all));
    CHECK(found_by(all, "ushers").empty() && all.longest() == 0 && found_by(moved, "he") == Tokens({{0, 2, 2}, {1, 1, 2}}));
    all = std::move(moved);
    CHECK(all.longest() == 4 && moved.longest() == 0);
    CHECK(found_by(scanner(d, search::earliest), "hers").empty());
    int calls = 0;
    all.find("hehehe", [&](const roskvidh::occurrence &) { return ++calls < 3; });
    CHECK(calls == 3);
    dictionary gone = std::move(d);
    refused(CEDAR_IS_CLOSED, {}, "the dictionary is closed", [&] { scanner of_none(d, search::overlapping); });
    lacks_memory([&] { scanner of_one(gone, search::leftmost_longest); });
}

void each_member(layout kind) {
    dictionary d(kind);
    CHECK(d.kind() == kind && d.is_open() && d.empty() && d.size() == 0 && listed(d.entries()).empty());
    d.update("net", 7);
    CHECK(d.exchange("network", 8) == std::nullopt && d.exchange("network", 9) == 8 && d.exchange("no", CEDAR_MAX_VALUE) == std::nullopt);
    d.update_all({{"new", 1}, {"network", 8}, {"new", 2}});
    d.update_all(Plain{{"a", 5}});
    CHECK(d.size() == 5 && !d.empty() && d.get("net") == 7 && d.get("new") == 2 && d.get("ne") == std::nullopt);
    CHECK(d.contains("a") && !d.contains("") && !d.contains({}) && !d.contains("netw") && d.get("no") == CEDAR_MAX_VALUE);
    CHECK(d.erase("a") && !d.erase("a") && d.size() == 4);
    d.update_all({{"b", 1}, {"c", 2}});
    CHECK(d.erase_all({"b", "none", "c", "b"}) == 2 && d.erase_all(std::vector<std::string>()) == 0 && d.erase_all({""}) == 0 && d.size() == 4);
    const Pairs all = {{"net", 7}, {"network", 8}, {"new", 2}, {"no", CEDAR_MAX_VALUE}};
    CHECK(listed(d.entries()) == all && listed(d.entries_with_prefix("ne")) == Pairs(all.begin(), all.begin() + 3));
    CHECK(listed(d.entries_with_prefix("new")) == Pairs({{"new", 2}}) && listed(d.entries_with_prefix("nx")).empty());
    CHECK(ends(d.prefixes("networks")) == Ends({{7, 3}, {8, 7}}) && d.prefixes("").empty());
    CHECK(ends(d.predictions("ne")) == Ends({{7, 3}, {8, 7}, {2, 3}}) && d.predictions("").size() == 4);
    CHECK(ends(d.predictions("ne", 2)) == Ends({{7, 3}, {8, 7}}) && d.predictions("ne", 0).empty());
    const auto keys_of = [](const std::vector<roskvidh::owned_entry> &some) {
        Pairs pairs;
        for (const auto &one : some) pairs.emplace_back(one.key, one.value);
        return pairs;
    };
    CHECK(keys_of(d.best("ne", 2)) == Pairs({{"network", 8}, {"net", 7}}) && d.best("ne", 0).empty() && d.best("x", 5).empty());
    CHECK(keys_of(d.best("ne", 9, roskvidh::by_value::lowest_first)) == Pairs({{"new", 2}, {"net", 7}, {"network", 8}}));
    const auto is = [](const std::optional<roskvidh::owned_entry> &one, const char *key) { return one && one->key == key; };
    CHECK(is(d.floor("netz"), "network") && is(d.floor("net"), "net") && is(d.before("network"), "net") && !d.before("net"));
    CHECK(!d.floor("a") && !d.floor("") && is(d.ceiling("netz"), "new") && is(d.ceiling(""), "net") && !d.ceiling("z") && is(d.last(), "no"));
    using roskvidh::edits;
    CHECK(keys_of(d.within("nat", edits::one)) == Pairs({{"net", 7}}) && d.within("", edits::one).empty());
    CHECK(keys_of(d.within("nat", edits::two)) == Pairs({{"net", 7}, {"new", 2}, {"no", CEDAR_MAX_VALUE}}));
    CHECK(keys_of(d.completions_within("nat", edits::one)) == Pairs({{"net", 7}, {"network", 8}}) && d.completions_within("nat", edits::one, 1).size() == 1);
    CHECK(keys_of(d.matching("n*")) == all && keys_of(d.matching("?e?")) == Pairs({{"net", 7}, {"new", 2}}) && d.matching("n*", 2).size() == 2);
    CHECK(keys_of(d.within_text("n\xc3\xa4t", edits::one)) == Pairs({{"net", 7}}) && d.within("n\xc3\xa4t", edits::one).empty());
    CHECK(keys_of(d.completions_within_text("n\xc3\xa4t", edits::one)) == Pairs({{"net", 7}, {"network", 8}}));
    refused(CEDAR_QUERY_NOT_UTF8, {}, "the query is not UTF-8", [&] { (void)d.within_text("n\xc3", edits::one); });
    CHECK(listed(d.reversed()) == Pairs(all.rbegin(), all.rend()) && (*d.rbegin()).key == "no" && std::next(d.rbegin(), 4) == d.rend());
    CHECK(listed(d.reversed_range("net", "new")) == Pairs({{"network", 8}, {"net", 7}}) && d.reversed_range("a", "b").empty());
    CHECK(listed(d.reversed_with_prefix("ne")) == Pairs({{"new", 2}, {"network", 8}, {"net", 7}}) && d.reversed_range("a", "").empty());
    const auto longest = d.longest_match("networks");
    CHECK(longest && longest->value == 8 && longest->length == 7 && !d.longest_match("ten"));
    CHECK(scanned(d, "no network") == Tokens({{0, 2, CEDAR_MAX_VALUE}, {3, 3, 7}, {3, 7, 8}}) && scanned(d, "").empty());
    CHECK(segmented(d, "network!") == Tokens({{0, 7, 8}, {7, 1, std::nullopt}}));
    CHECK(keywords_in(d, "a network, new") == Tokens({{2, 7, 8}, {11, 3, 2}}) && keywords_in(d, "").empty());
    CHECK(cut_cheapest(d, "network!", 3) == Tokens({{0, 7, 8}, {7, 1, std::nullopt}}) && cut_cheapest(d, "", 3).empty());
    CHECK(cut_cheapest(d, "net", 2) == Tokens({{0, 1, {}}, {1, 1, {}}, {2, 1, {}}}));
    CHECK(cut_cheapest(d, "\xE7\xBD\x91", 2, true) == cut_cheapest(d, "\xE7\xBD\x91", 2));
    roskvidh::cut_costs costs;
    CHECK(cut_by(d, "", costs).empty() && cut_by(d, "ab", costs) == Tokens({{0, 1, {}}, {1, 1, {}}}));
    costs.keys = {0, 0, 0, 0, 0, 0, 0, 5, 1};
    costs.kinds = {{'a', 'z', 0}};
    costs.unknown = 3;
    CHECK(cut_by(d, "netnetwork!!", costs) == Tokens({{0, 10, {}}, {10, 1, {}}, {11, 1, {}}}));
    costs.beside_keys = false;
    CHECK(cut_by(d, "netnetwork!!", costs) == Tokens({{0, 3, 7}, {3, 7, 8}, {10, 1, {}}, {11, 1, {}}}));
    const roskvidh::statistics figures = d.statistics();
    CHECK(figures.keys == 4 && figures.used_slots == (kind == layout::standard ? 1 + 9 + 4 : 1 + 9 + 1));
    CHECK(figures.capacity == 512 && figures.spare_blocks == 0);
    d.reserve(3);
    CHECK(d.statistics().capacity == 2048 && d.statistics().spare_blocks >= 3 && d.size() == 4);
    const dictionary copy = d.clone();
    d.update("later", 1);
    CHECK(copy.kind() == kind && listed(copy.entries()) == all && d.size() == 5);
    CHECK(d.erase_prefix("ne") == 3 && d.erase_prefix("ne") == 0 && listed(d.entries()) == Pairs({{"later", 1}, {"no", CEDAR_MAX_VALUE}}));
    CHECK(d.search_limit() == SIZE_MAX);
    d.set_search_limit(64);
    d.shrink_to_fit();
    CHECK(d.kind() == kind && d.size() == 2 && d.get("later") == 1 && d.statistics().capacity == 512);
    CHECK(d.search_limit() == 64 && d.clone().search_limit() == 64 && copy.search_limit() == SIZE_MAX);
    d.clear();
    CHECK(d.empty() && d.is_open() && d.kind() == kind && d.statistics().used_slots == 1);
}

// Callables that end a walk or throw.
void callables() {
    dictionary d;
    CHECK(segmented(dictionary::from_sorted({{"a", 0}}), "ab") == Tokens({{0, 1, 0}, {1, 1, std::nullopt}}));
    d.update_all({{"a", 1}, {"aa", 2}});
    int calls = 0;
    d.scan("aaaa", [&](const roskvidh::occurrence &) { return ++calls < 3; });
    CHECK(calls == 3);
    d.segment("aaaa", [&](const roskvidh::token &) { return --calls > 2; });
    CHECK(calls == 2);
    d.keywords("aaaa", [&](const roskvidh::occurrence &) { return --calls > 1; });
    CHECK(calls == 1);
    try {
        d.scan("aaaa", [](const roskvidh::occurrence &one) { throw one.length; });
        CHECK(false);
    } catch (std::size_t length) {
        CHECK(length == 1);
    }
}

// More answers than any buffer has room for.
void many_answers() {
    dictionary d;
    const std::string text(600, 'a');
    Tokens all;
    for (std::size_t length = 1; length <= text.size(); length++) d.update(text.substr(0, length), static_cast<std::int32_t>(length));
    for (std::size_t place = 0; place < text.size(); place++) {
        for (std::size_t length = 1; length <= text.size() - place; length++) all.emplace_back(place, length, length);
    }
    CHECK(scanned(d, text) == all && segmented(d, text + "b") == Tokens({{0, 600, 600}, {600, 1, std::nullopt}}));
    CHECK(d.prefixes(text).size() == 600 && d.prefixes(text).back().length == 600 && d.longest_match(text)->length == 600);
    CHECK(d.predictions("a").size() == 600 && d.predictions("a", 100).size() == 100 && d.predictions("a", 100).back().value == 100);
    CHECK(d.predictions("a", 1000).back().length == 600);
    const roskvidh::scanner overlapping(d, roskvidh::search::overlapping);
    CHECK(found_by(overlapping, text).size() == all.size() && found_by(overlapping, text).back() == Tokens::value_type(599, 1, 1));
    const roskvidh::scanner keywords(dictionary::from_sorted({{"a", 1}}), roskvidh::search::leftmost_longest);
    CHECK(found_by(keywords, text).size() == 600);
}

void settings_and_sorted_pairs(layout kind) {
    dictionary unordered(kind, false, 3);
    unordered.update_all({{"a", 1}, {"c", 3}, {"b", 2}});
    CHECK(listed(unordered.entries()) == Pairs({{"b", 2}, {"c", 3}, {"a", 1}}) && listed(unordered.clone()) == listed(unordered));
    CHECK(listed(unordered.entries_with_prefix("c")) == Pairs({{"c", 3}}));

    const Plain plain = {{"a", 1}, {"a\xff", 2}, {"b", 3}};
    const dictionary sorted = dictionary::from_sorted(plain, kind);
    CHECK(listed(sorted.entries()) == Pairs(plain.begin(), plain.end()) && sorted.kind() == kind);
    CHECK(dictionary::from_sorted(Pairs(), kind).empty() && dictionary::from_sorted({}, kind, false, 2).is_open());
    const dictionary unsorted = dictionary::from_pairs({{"b", 9}, {"a\xff", 2}, {"a", 1}, {"b", 3}}, kind);
    CHECK(listed(unsorted.entries()) == Pairs(plain.begin(), plain.end()) && unsorted.kind() == kind && unsorted.save() == sorted.save());
    CHECK(dictionary::from_pairs(Pairs(), kind).empty() && dictionary::from_pairs(plain, kind, false, 2).size() == 3);
    refused(CEDAR_INVALID_MAX_TRIAL, {}, "max_trial must be greater than zero", [&] { dictionary::from_pairs(plain, kind, true, 0); });
    refused(CEDAR_INVALID_MAX_TRIAL, {}, "max_trial must be greater than zero", [&] { dictionary(kind, true, 0); });
    refused(CEDAR_INVALID_MAX_TRIAL, {}, "max_trial must be greater than zero", [&] { dictionary::from_sorted(plain, kind, true, -1); });
    refused(CEDAR_DUPLICATE_KEY, 1, "duplicate key in sorted input (at pair 1)", [&] { dictionary::from_sorted({{"a", 1}, {"a", 2}}, kind); });
    refused(CEDAR_KEYS_NOT_SORTED, 2, "key in sorted input is smaller than its predecessor (at pair 2)",
            [&] { dictionary::from_sorted({{"a", 1}, {"b", 2}, {"a", 3}}, kind); });
}

void refusals(layout kind) {
    using namespace std::literals;
    dictionary d(kind);
    d.update("held", 1);
    const char *const value_text = "cedar value is outside the supported range 0..=2147483645";
    // Each with where the pair stands among the many that it is given.
    const std::pair<std::function<void(std::string_view, std::int32_t)>, std::string> stores[] = {
        {[&](auto key, auto value) { d.update(key, value); }, ""},
        {[&](auto key, auto value) { d.exchange(key, value); }, ""},
        {[&](auto key, auto value) { d.update_all({{"a", 1}, {key, value}}); }, "pair 1"},
        {[&](auto key, auto value) { dictionary::from_sorted({{key, value}}, kind); }, "pair 0"},
        {[&](auto key, auto value) { dictionary::from_pairs({{"b", 2}, {"a", 1}, {key, value}, {"", 1}}, kind); }, "pair 2"},
    };
    for (const auto &[call, pair] : stores) {
        const std::string at = pair.empty() ? "" : " (at " + pair + ")", of = pair.empty() ? "" : " of " + pair;
        const auto &store = call;
        refused(CEDAR_EMPTY_KEY, {}, "cedar keys must not be empty" + at, [&] { store({}, -1); });
        const std::string nul_text = "cedar keys must not contain the terminal byte 0x00 (at byte 2" + of + ")";
        refused(CEDAR_NUL_BYTE, 2, nul_text, [&] { store("ab\0"sv, -1); });
        refused(CEDAR_INVALID_VALUE, {}, value_text + at, [&] { store("ab", -1); });
        refused(CEDAR_INVALID_VALUE, {}, value_text + at, [&] { store("ab", CEDAR_MAX_VALUE + 1); });
        CHECK(d.size() == 1);
    }
    refused(CEDAR_SLOT_LIMIT, {}, "cedar trie has no slot left", [&] { d.reserve(std::size_t{1} << 22); });
    lacks_memory([&] { dictionary another(kind); });
    lacks_memory([&] { d.reserve(100); });
    lacks_memory([&] { (void)d.clone(); });
    lacks_memory([&] { d.shrink_to_fit(); });
    lacks_memory([&] { (void)d.cheapest("held", 1); });
    lacks_memory([&] { (void)d.cheapest_by("held", {}); });
    left = 0; // a range takes no memory of the library's, nor does a save
    CHECK(listed(d.entries()) == Pairs({{"held", 1}}));
    const auto file = d.save();
    left = -1;
    CHECK(dictionary::load(file).get("held") == 1);
    lacks_memory([&] { dictionary::from_sorted({{"a", 1}}, kind); });
    lacks_memory([&] { dictionary::from_pairs({{"a", 1}}, kind); });
    lacks_memory([&] { d.update_all({{"a", 1}}); });
    left = 0; // an erasure takes no memory of the library's
    CHECK(d.erase_all({"none", "another"}) == 0);
    left = -1;
    lacks_memory([&] {
        for (int i = 1; i < 10000; i++) d.update(std::string(1, static_cast<char>(1 + i % 255)) + std::to_string(i), i);
    });
    CHECK(d.get("held") == 1);
}

void moves(layout kind) {
    dictionary first(kind);
    first.update("a", 1);
    dictionary second = std::move(first);
    CHECK(second.get("a") == 1 && !first.is_open() && first.empty() && first.get("a") == std::nullopt && !first.erase("a"));
    CHECK(first.entries().empty() && first.prefixes("a").empty() && first.predictions("").empty() && !first.longest_match("a"));
    CHECK(scanned(first, "a").empty() && segmented(first, "a").empty() && first.statistics().capacity == 0);
    CHECK(keywords_in(first, "a").empty());
    const char *const text = "the dictionary is closed";
    refused(CEDAR_IS_CLOSED, {}, text, [&] { first.update("a", 1); });
    refused(CEDAR_IS_CLOSED, {}, text, [&] { first.exchange("a", 1); });
    refused(CEDAR_IS_CLOSED, {}, text, [&] { first.update_all({{"a", 1}}); });
    refused(CEDAR_IS_CLOSED, {}, text, [&] { first.reserve(1); });
    refused(CEDAR_IS_CLOSED, {}, text, [&] { (void)first.save(); });
    refused(CEDAR_IS_CLOSED, {}, text, [&] { (void)first.clone(); });
    refused(CEDAR_IS_CLOSED, {}, text, [&] { first.shrink_to_fit(); });
    first.clear();
    CHECK(first.erase_prefix("") == 0 && first.erase_all({"a"}) == 0 && !first.is_open());
    first.set_search_limit(3);
    CHECK(first.search_limit() == 0 && !first.is_open());
    first = dictionary(kind);
    first.update("b", 2);
    swap(first, second);
    CHECK(first.get("a") == 1 && second.get("b") == 2 && second.size() == 1);
    dictionary &same = first;
    first = std::move(same);
    CHECK(first.get("a") == 1);
    first = std::move(second);
    CHECK(first.get("b") == 2 && first.size() == 1 && !second.is_open());
}

// Const members in eight threads at the same time.
void readers(layout kind) {
    dictionary filled(kind);
    for (int i = 1; i < 2000; i++) filled.update(std::to_string(i), i);
    const dictionary &d = filled;
    const Pairs all = listed(d.entries());
    const auto read = [&] {
        CHECK(d.size() == 1999 && d.kind() == kind && d.is_open() && listed(d.entries()) == all && d.save() == d.clone().save());
        for (int i = 1; i < 2000; i++) {
            const std::string key = std::to_string(i);
            CHECK(d.get(key) == i && d.prefixes(key + "x").size() == key.size() && d.longest_match(key)->value == i);
            CHECK(segmented(d, key) == Tokens({{0, key.size(), i}}) && d.predictions(key, 1).front().value == i);
            CHECK(d.find(key)->value == i && d.lower_bound(key) == d.find(key) && d.upper_bound(key) != d.lower_bound(key));
        }
    };
    std::vector<std::thread> threads;
    for (int i = 0; i < 8; i++) threads.emplace_back(read);
    for (std::thread &one : threads) one.join();
}

const char *const limit_text = "serialized trie requires more bytes while loading than the limit";

// The entries of a prefix are those of the dictionary that begin with it, however they are found.
void entries_below(layout kind) {
    for (const bool ordered : {true, false}) {
        dictionary d(kind, ordered);
        for (int i = 1; i < 20000; i++) d.update(std::to_string(i * 7919 % 20011) + (i % 3 ? "" : "\xff\x01"), i);
        d.update(std::string(1000, 'z'), 1); // which costs less to copy
        const Pairs all = listed(d.entries());
        for (const std::string prefix : {"", "1", "12", "123", "1234", "12345", "19999", "9\xff", "z", "zz", "a"}) {
            Pairs some;
            for (const auto &one : all) {
                if (one.first.compare(0, prefix.size(), prefix) == 0) some.push_back(one);
            }
            CHECK(listed(d.entries_with_prefix(prefix)) == some && d.count_prefix(prefix) == some.size());
            dictionary moved = std::move(d);
            CHECK(listed(moved.entries_with_prefix(prefix)) == some);
            d = std::move(moved);
        }
    }
}

// Each refusal of a file, by one change to its bytes.
void refused_files(layout kind) {
    const dictionary d = dictionary::from_sorted({{"net", 7}, {"network", 8}}, kind);
    const std::vector<std::uint8_t> file = d.save();
    const auto with = [&](std::size_t place, std::uint8_t byte) {
        std::vector<std::uint8_t> changed = file;
        changed[place] = byte;
        return changed;
    };
    std::vector<std::uint8_t> longer = file;
    longer.push_back(0);
    const std::tuple<std::uint32_t, const char *, std::vector<std::uint8_t>> rows[] = {
        {CEDAR_FILE_TRUNCATED, "serialized cedar trie is truncated", {}},
        {CEDAR_FILE_TRUNCATED, "serialized cedar trie is truncated", {file.begin(), file.end() - 1}},
        {CEDAR_FILE_MAGIC, "input is not a cedarwood serialized trie", with(0, 'D')},
        {CEDAR_FILE_VERSION, "unsupported cedarwood format version", with(8, 2)},
        {CEDAR_FILE_BYTE_ORDER, "unsupported cedarwood byte-order marker", with(12, 2)},
        {CEDAR_FILE_LAYOUT, "serialized trie layout does not match", with(13, 2)},
        {CEDAR_FILE_HEADER, "invalid serialized header field", with(14, 2)},
        {CEDAR_FILE_CORRUPT, "corrupt serialized trie", with(88, 77)},
        {CEDAR_FILE_TRAILING, "serialized trie has trailing data", longer},
    };
    for (const auto &[status, text, bytes] : rows) refused(status, {}, text, [&, &bytes = bytes] { dictionary::load(bytes); });
    refused(CEDAR_FILE_MEMORY_LIMIT, {}, limit_text, [&] { dictionary::load(file, 100); });
    refused(CEDAR_FILE_TRUNCATED, {}, "serialized cedar trie is truncated", [&] { dictionary::load(nullptr, 0); });
    lacks_memory([&] { dictionary::load(file); });
    CHECK(listed(dictionary::load(file.data(), file.size(), CEDAR_LOAD_LIMIT)) == listed(d));
    const std::vector<std::uint8_t> full = d.save(roskvidh::file_format::v1_0);
    CHECK(file[10] == 1 && full[10] == 0 && dictionary::load(full).save() == file && dictionary::load(file).kind() == kind);
}

std::string bytes_at(const std::string &path) {
    std::ifstream file(path, std::ios::binary);
    return std::string(std::istreambuf_iterator<char>(file), {});
}

// Checks that a call throws what the system said of a path, by this number or by any.
void no_file(const std::string &path, const std::function<void()> &call, int number = 0) {
    try {
        call();
    } catch (const std::system_error &e) {
        CHECK(e.code().value() != 0 && std::string(e.what()).find(path) != std::string::npos);
        CHECK(number == 0 || e.code() == std::error_code(number, std::generic_category()));
        return;
    }
    CHECK(!"std::system_error was thrown");
}

struct stat look(const std::string &path) {
    struct stat found;
    CHECK(lstat(path.c_str(), &found) == 0);
    return found;
}

// What stands beside a file that is saved stays, and the file keeps its mode; a link at the path doesn't stay.
void places(const dictionary &d, const std::string &path) {
    const std::string beside = path + ".new", link = path + ".link";
    CHECK(chmod(path.c_str(), 0604) == 0 && mkdir(beside.c_str(), 0700) == 0);
    d.save_to_path(path);
    CHECK(look(path).st_mode == (S_IFREG | 0604) && rmdir(beside.c_str()) == 0 && symlink(path.c_str(), beside.c_str()) == 0);
    d.save_to_path(path);
    CHECK(S_ISREG(look(path).st_mode) && S_ISLNK(look(beside).st_mode) && std::remove(beside.c_str()) == 0);
    std::ofstream(beside) << "of somebody else";
    CHECK(chmod(beside.c_str(), 0) == 0); // nobody but the superuser may open it
    d.save_to_path(path);
    CHECK(look(beside).st_mode == S_IFREG && look(beside).st_size == 16 && std::remove(beside.c_str()) == 0);
    CHECK(symlink(path.c_str(), link.c_str()) == 0);
    dictionary(d.kind()).save_to_path(link);
    CHECK(S_ISREG(look(link).st_mode) && dictionary::load_from_path(path).size() == d.size() && std::remove(link.c_str()) == 0);
    d.save_to_path("/dev/null");
    no_file("/dev/full", [&] { d.save_to_path("/dev/full"); }, ENOSPC);
    // A pipe takes the file's bytes, and stays.
    const std::string pipe = path + ".pipe";
    CHECK(mkfifo(pipe.c_str(), 0600) == 0);
    std::string taken;
    std::thread reader([&] { taken = bytes_at(pipe); });
    d.save_to_path(pipe);
    reader.join();
    CHECK(taken == bytes_at(path) && S_ISFIFO(look(pipe).st_mode) && std::remove(pipe.c_str()) == 0);
}

// A new file is on the disk before it takes the name, and the folder after that. If one of these calls fails, it is told, and only after
// the last one the new file is there.
void calls_of_saves(const dictionary &d, const std::string &path) {
    dictionary few(d.kind());
    few.update("few", 1);
    disk_calls.clear();
    d.save_to_path(path);
    CHECK(disk_calls == "srS");
    for (const char call : {'s', 'r', 'S'}) {
        failing = call;
        no_file(path, [&] { few.save_to_path(path); }, EIO);
        failing = 0;
        CHECK(dictionary::load_from_path(path).size() == (call == 'S' ? few.size() : d.size()));
        CHECK(access((path + ".new").c_str(), F_OK) != 0 && errno == ENOENT);
    }
}

// Two threads that save to one path: each file that is loaded is one of theirs.
void two_savers(const dictionary &d, const std::string &path) {
    dictionary few(d.kind());
    few.update("few", 1);
    const auto save_again = [&path, &d](const dictionary &mine) {
        for (int i = 0; i < 50; ++i) {
            mine.save_to_path(path);
            const std::size_t keys = dictionary::load_from_path(path).size();
            CHECK(keys == 1 || keys == d.size());
        }
    };
    std::thread other(save_again, std::cref(few));
    save_again(d);
    other.join();
}

void paths(layout kind, const std::string &folder) {
    const std::string path = folder + "/saved.cedar", beside = path + ".new", blocked = folder + "/blocked";
    dictionary d(kind);
    for (int i = 1; i < 20000; i++) d.update(std::to_string(i), i);
    d.save_to_path(path);
    const std::vector<std::uint8_t> file = d.save();
    CHECK(bytes_at(path) == std::string(file.begin(), file.end()) && dictionary::load_from_path(path).get("777") == 777);
    no_file(beside, [&] { dictionary::load_from_path(beside); });
    refused(CEDAR_FILE_MEMORY_LIMIT, {}, path + ": " + limit_text, [&] { dictionary::load_from_path(path, 100); });
    // A file that doesn't end is read as far as the limit says.
    const std::string foreign = "/dev/zero: input is not a cedarwood serialized trie";
    refused(CEDAR_FILE_MAGIC, {}, foreign, [&] { dictionary::load_from_path("/dev/zero", 1000); });
    lacks_memory([&] { dictionary::load_from_path(path); });
    d.save_to_path(path, roskvidh::file_format::v1_0);
    CHECK(bytes_at(path)[10] == 0 && dictionary::load_from_path(path).size() == 19999);
    places(d, path);
    calls_of_saves(d, path);
    two_savers(d, path);
    no_file(path + "/none", [&] { d.save_to_path(path + "/none"); }, ENOTDIR);
    // A path isn't cut at a byte 0.
    const std::string cut = path + std::string("\0.none", 6);
    no_file(path, [&] { d.save_to_path(cut); }, EINVAL);
    no_file(path, [&] { dictionary::load_from_path(cut); }, EINVAL);
    no_file(path, [&] { roskvidh::store(cut, kind); }, EINVAL);
    const dictionary moved(std::move(d));
    refused(CEDAR_IS_CLOSED, {}, "the dictionary is closed", [&] { d.save_to_path(path); });
    CHECK(mkdir(blocked.c_str(), 0700) == 0); // a folder isn't replaced
    no_file(blocked, [&] { moved.save_to_path(blocked); }, EISDIR);
    no_file(blocked + ".new", [&] { dictionary::load_from_path(blocked + ".new"); }, ENOENT);
    no_file(folder, [&] { dictionary::load_from_path(folder); }, EISDIR);
    CHECK(rmdir(blocked.c_str()) == 0 && std::remove(path.c_str()) == 0);
}

std::string random_key() {
    std::string key(1 + next_random() % 6, ' ');
    for (char &byte : key) byte = static_cast<char>(1 + next_random() % 255 % (next_random() % 2 ? 3 : 255));
    return key;
}

// The walks of a text as the map's keys say.
// A call is refused with a status.
void has_status(std::uint32_t status, const std::function<void()> &call) {
    try {
        call();
    } catch (const roskvidh::error &error) {
        CHECK(error.status() == status);
        return;
    }
    CHECK(false);
}

// A store, opened again and again, that is moved and fails.
void stores(layout kind, const std::string &folder) {
    const std::string path = folder + "/words.store";
    std::remove(path.c_str());
    {
        roskvidh::store s(path, kind);
        CHECK(s.words().empty() && s.words().kind() == kind && !s.failed());
        s.update("net", 7);
        CHECK(s.exchange("net", 8) == 7 && !s.exchange("network", 9) && s.erase("net") && !s.erase("net"));
        refused(CEDAR_NUL_BYTE, 2, "cedar keys must not contain the terminal byte 0x00 (at byte 2)", [&] { s.update(std::string_view("ne\0t", 4), 1); });
        refused(CEDAR_INVALID_VALUE, std::nullopt, "cedar value is outside the supported range 0..=2147483645", [&] { s.update("net", -1); });
        roskvidh::store moved(std::move(s));
        CHECK(s.words().empty() && !s.words().is_open() && moved.words().get("network") == 9);
        refused(CEDAR_IS_CLOSED, std::nullopt, "the dictionary is closed", [&] { s.update("net", 1); });
        for (int i = 0; i < 1000; ++i) moved.update("k" + std::to_string(i), i); // the table grows
        CHECK(moved.words().size() == 1001 && moved.words().longest_match("k12x")->length == 3);
        lacks_memory([&] { moved.erase("k1"); });
        s = std::move(moved);
        CHECK(s.words().get("k1") == 1 && s.erase("k1"));
    }
    {
        roskvidh::store s(path, kind);
        s.sync_every(3);
        s.update("x", 1);
        CHECK(s.waiting() == 1 && s.erase("x") && s.waiting() == 2);
        roskvidh::store looks(path, kind, roskvidh::opening::to_read);
        CHECK(looks.words().size() == 1000 && looks.words().kind() == kind);
        has_status(CEDAR_STORE_READ_ONLY, [&] { looks.update("x", 1); });
        has_status(CEDAR_STORE_LOCKED, [&] { roskvidh::store(path, kind); });
        s.sync();
        CHECK(s.waiting() == 0);
        s.apply({{"x", 1}, {"nets", 5}, {"network", std::nullopt}, {"x", std::nullopt}, {"none", std::nullopt}});
        CHECK(!s.words().get("x") && !s.words().get("network") && s.words().get("nets") == 5 && s.words().size() == 1000);
        s.apply({});
        try {
            s.apply({{"a", 1}, {"nets", std::nullopt}, {std::string_view("ne\0t", 4), 2}});
            CHECK(!"a fault was refused");
        } catch (const roskvidh::error &e) {
            CHECK(e.status() == CEDAR_NUL_BYTE && e.position() == 2u && e.index() == 2u);
        }
        try {
            s.apply({{"a", 1}, {"b", 4294967297LL}});
            CHECK(!"a value was refused");
        } catch (const roskvidh::value_out_of_range &e) {
            CHECK(e.index() == 1u && !s.words().contains("a"));
        }
        lacks_memory([&] { s.apply({{"net", 1}, {"k2", std::nullopt}, {"nets", 2}}); });
        CHECK(!s.words().get("net") && s.words().get("k2") == 2 && s.words().get("nets") == 5 && s.words().size() == 1000);
        const std::size_t before = s.file_size(), shorter = s.compacted_size();
        const std::size_t records = s.records();
        CHECK(shorter < before && s.last_compaction() == CEDAR_OK && records > 2);
        lacks_memory([&] { s.compact(); });
        CHECK(s.last_compaction() == CEDAR_MEMORY && s.file_size() == before && s.records() == records && !s.failed());
        s.compact();
        CHECK(s.last_compaction() == CEDAR_OK && s.file_size() == shorter && s.records() == 1 && s.words().size() == 1000);
        s.compact_beyond(0, 0);
        s.sync_every(0);
        s.update("y", 1);
        CHECK(s.erase("y") && s.waiting() == 2 && s.records() == 1);
    }
    CHECK(roskvidh::store(path, kind, roskvidh::opening::to_read).records() == 2);
    CHECK(roskvidh::store(path, kind, roskvidh::opening::existing).words().size() == 1000);
    lacks_memory([&] { roskvidh::store(path, kind); });
    no_file(path + "/none", [&] { roskvidh::store(path + "/none", kind); });
    no_file(path, [&] { roskvidh::store(path, kind, roskvidh::opening::fresh); });
    no_file(path + ".none", [&] { roskvidh::store(path + ".none", kind, roskvidh::opening::existing); });
    no_file(path + ".none", [&] { roskvidh::store(path + ".none", kind, roskvidh::opening::to_read); });
    CHECK(std::remove((path + ".none").c_str()) != 0);
    std::FILE *file = std::fopen(path.c_str(), "wb");
    CHECK(file != nullptr && std::fputs("no store at all", file) >= 0 && std::fclose(file) == 0);
    refused(CEDAR_STORE_FOREIGN, std::nullopt, path + ": the file is not of a store", [&] { roskvidh::store(path, kind); });
    const std::string damaged("\1\x08\0\0\0CEDARJ\2\xfd\xff\x47\x9c\x42\x09\4\0\0\0\0nit", 26);
    file = std::fopen(path.c_str(), "wb");
    CHECK(file != nullptr && std::fwrite(damaged.data(), 1, damaged.size(), file) == damaged.size() && std::fclose(file) == 0);
    const std::string damaged_at = path + ": a record of the store's file is damaged (at byte 13)";
    refused(CEDAR_STORE_DAMAGED, 13, damaged_at, [&] { roskvidh::store(path, kind); });
    std::remove(path.c_str());
}

// Somebody else closes the gate of a record: what the opening cuts off is kept beside the file.
void kept_stores(layout kind, const std::string &folder) {
    const std::string path = folder + "/kept.store", records("\1\x08\0\0\0CEDARJ\0\0\0\4\0\0\0\0ten\1\4\0\0\0\0net\0", 32);
    std::ofstream(path, std::ios::binary) << records;
    CHECK(!roskvidh::store(path, kind, roskvidh::opening::to_read).kept());
    const std::optional<std::string> kept = roskvidh::store(path, kind).kept();
    CHECK(kept && kept->size() >= 15 && kept->substr(kept->size() - 15) == "/kept.store.cut");
    std::ifstream file(*kept, std::ios::binary);
    CHECK(std::string(std::istreambuf_iterator<char>(file), {}) == records);
    CHECK(!roskvidh::store(path, kind).kept() && std::remove(kept->c_str()) == 0);
    std::remove(path.c_str());
}

void same_walks(const dictionary &d, const Plain &plain, const std::string &text) {
    Ends fronts, behind;
    Pairs under;
    for (std::size_t length = 1; length <= text.size(); length++) {
        const auto held = plain.find(text.substr(0, length));
        if (held != plain.end()) fronts.emplace_back(held->second, length);
    }
    for (auto held = plain.lower_bound(text); held != plain.end() && held->first.compare(0, text.size(), text) == 0; ++held) {
        behind.emplace_back(held->second, held->first.size());
        under.push_back(*held);
    }
    CHECK(ends(d.prefixes(text)) == fronts && ends(d.predictions(text)) == behind && listed(d.entries_with_prefix(text)) == under);
    const auto longest = d.longest_match(text);
    CHECK(longest ? ends({*longest}) == Ends({fronts.back()}) : fronts.empty());
}

// The cut of least cost by a table of what the bytes from each place on cost.
Tokens plain_cheapest(const Plain &plain, const std::string &text, std::uint32_t unknown) {
    std::vector<std::uint64_t> costs(text.size() + 1);
    Tokens first(text.size()), cut;
    for (std::size_t place = text.size(); place-- > 0;) {
        costs[place] = costs[place + 1] + unknown;
        first[place] = {place, 1, std::nullopt};
        for (std::size_t length = 1; length <= std::min<std::size_t>(6, text.size() - place); length++) {
            const auto held = plain.find(text.substr(place, length));
            if (held == plain.end() || static_cast<std::uint64_t>(held->second) + costs[place + length] > costs[place]) continue;
            costs[place] = static_cast<std::uint64_t>(held->second) + costs[place + length];
            first[place] = {place, length, held->second};
        }
    }
    for (std::size_t place = 0; place < text.size(); place += std::get<1>(first[place])) cut.push_back(first[place]);
    return cut;
}

void same_texts(const dictionary &d, const Plain &plain, const std::string &text) {
    Tokens all, cut, keywords;
    for (std::size_t place = 0, next = 0; place < text.size(); place++) {
        std::tuple<std::size_t, std::size_t, std::optional<std::int32_t>> longest = {place, 1, std::nullopt};
        for (std::size_t length = 1; length <= std::min<std::size_t>(6, text.size() - place); length++) {
            const auto held = plain.find(text.substr(place, length));
            if (held == plain.end()) continue;
            longest = {place, length, held->second};
            all.push_back(longest);
        }
        if (place < next) continue;
        cut.push_back(longest);
        if (std::get<2>(longest)) keywords.push_back(longest);
        next = place + std::get<1>(longest);
    }
    CHECK(scanned(d, text) == all && segmented(d, text) == cut && keywords_in(d, text) == keywords);
    const std::uint32_t unknown = static_cast<std::uint32_t>(next_random() % 2000);
    CHECK(cut_cheapest(d, text, unknown) == plain_cheapest(plain, text, unknown));
}

void same(const dictionary &d, const Plain &plain) {
    CHECK(d.size() == plain.size() && listed(d.entries()) == Pairs(plain.begin(), plain.end()));
    same_walks(d, plain, random_key().substr(0, next_random() % 3));
    same_walks(d, plain, random_key());
    std::string text;
    for (int i = 0; i < 30; i++) text += random_key();
    same_texts(d, plain, text);
}

void random_calls(layout kind, long count) {
    dictionary d(kind);
    Plain plain;
    for (long i = 0; i < count; i++) {
        const std::string key = random_key();
        const auto held = plain.find(key);
        const std::optional<std::int32_t> before = held == plain.end() ? std::nullopt : std::optional(held->second);
        const auto value = static_cast<std::int32_t>(next_random() % (std::uint64_t{CEDAR_MAX_VALUE} + 1));
        switch (next_random() % 4) {
        case 0:
            d.update(key, value);
            plain[key] = value;
            break;
        case 1:
            CHECK(d.exchange(key, value) == before);
            plain[key] = value;
            break;
        case 2:
            CHECK(d.erase(key) == (plain.erase(key) == 1));
            break;
        default:
            CHECK(d.get(key) == before && d.contains(key) == before.has_value());
        }
        if (i % 1000 == 999 && key.size() > 1) {
            const std::string prefix = key.substr(0, 2);
            const auto from = plain.lower_bound(prefix);
            auto to = from;
            std::size_t erased = 0;
            for (; to != plain.end() && to->first.compare(0, 2, prefix) == 0; ++to) ++erased;
            plain.erase(from, to);
            CHECK(d.erase_prefix(prefix) == erased);
        }
        if (i % (count / 20 + 1) == 0) same(d, plain);
        if (i % (count / 7 + 1) == 0) d.shrink_to_fit();
        if (i % (count / 3 + 1) == 0) d = i % 2 ? d.clone() : dictionary::from_sorted(plain, kind);
    }
    same(d, plain);
}

} // namespace

int main(int count, char **arguments) {
    const std::string folder = count > 2 ? arguments[2] : ".";
    callables();
    many_answers();
    for (const layout kind : {layout::standard, layout::reduced}) {
        each_member(kind);
        scanners(kind);
        settings_and_sorted_pairs(kind);
        refusals(kind);
        moves(kind);
        readers(kind);
        refused_files(kind);
        entries_below(kind);
        paths(kind, folder);
        stores(kind, folder);
        kept_stores(kind, folder);
        random_calls(kind, count > 1 ? std::atol(arguments[1]) : 200000);
    }
    std::puts("ok");
}
