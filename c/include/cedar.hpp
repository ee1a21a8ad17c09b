// The dictionary of cedar.h as a C++17 class.
//
//     roskvidh::dictionary d;
//     d.update("net", 7);                                       // replaces what is held, as insert_or_assign does
//     d.insert({"network", 8});                                 // keeps what is held, as in a std::map
//     d.get("net");                                             // 7, a std::optional; at("net") throws where nothing is held
//     for (const auto &[key, value] : d.entries_with_prefix("net")) std::cout << key << ' ' << value << '\n';
//     d.save_to_path("words.cedar");
//
// A key that a loop or an iterator shows is a std::string_view whose bytes are gone after the next step, and not an element that stays, as
// in a std::map. To keep keys, put them into std::strings (or roskvidh::owned_entry), or hold the range that shows them as long:
//
//     const auto all = d.entries();                             // the keys' bytes stay as long as `all`
//
// A key is a nonempty byte string without byte 0, a value a whole number from 0 to 2147483645: it may be handed over in any type of
// integers, and one that is out of this range is refused and not cut. All lengths and positions are bytes, counted from 0. Keys,
// texts and files are read during the call only, unless a member's comment says otherwise.
//
// Errors. A call that is refused throws roskvidh::error, which has a status of cedar.h; std::bad_alloc ("memory" below) if memory runs out;
// std::system_error ("system") if a call on a file fails, with EINVAL if a path has a byte 0. After each of them the dictionary holds what
// it held before the call. Only update_all may have stored the first of its pairs. "Fault" is the first fault of a pair: CEDAR_EMPTY_KEY,
// CEDAR_NUL_BYTE, or value_out_of_range, whose status is CEDAR_INVALID_VALUE. "Closed" is CEDAR_IS_CLOSED: the dictionary was moved from.
// Members that aren't listed throw nothing.
//
//     member of a dictionary                        throws
//     dictionary                                    CEDAR_INVALID_MAX_TRIAL, memory; of pairs also what from_pairs throws
//     from_pairs                                    fault, CEDAR_INVALID_MAX_TRIAL, CEDAR_SLOT_LIMIT, memory
//     from_sorted                                   the same, CEDAR_DUPLICATE_KEY, CEDAR_KEYS_NOT_SORTED
//     update, exchange                              fault, closed; for a key that isn't held CEDAR_SLOT_LIMIT, memory
//     insert, emplace, try_emplace,                 fault, closed, CEDAR_SLOT_LIMIT, memory
//       insert_or_assign, update_all
//     at                                            std::out_of_range if the key isn't held
//     erase                                         of an iterator what a step of it throws; of a key nothing
//     reserve, shrink_to_fit                        closed, CEDAR_SLOT_LIMIT, memory
//     clone, save, cheapest, cheapest_by            closed, memory
//     erase_all, prefixes, predictions, entries,    memory
//       entries_with_prefix, begin, cbegin, find,
//       best, ==
//     entries_from, range, lower_bound,             CEDAR_NOT_ASCENDING if the dictionary isn't ordered; memory
//       upper_bound, floor, ceiling, before, last,
//       within, completions_within, reversed,
//       reversed_range, reversed_with_prefix,
//       rbegin
//     within_text, completions_within_text          the same; CEDAR_QUERY_NOT_UTF8
//     matching                                      the same as within; CEDAR_PATTERN_TOO_LONG
//     a step (++) of an iterator                    closed, memory; CEDAR_NOT_ASCENDING if the dictionary isn't ordered, after find or
//                                                   after an assignment or a swap
//     scan, segment, keywords                       what the callable throws; scan also memory
//     load                                          CEDAR_FILE_TRUNCATED to CEDAR_FILE_TRAILING, memory
//     load_from_path                                the same, system
//     save_to_path                                  closed, memory, system
//
//     member of a scanner                           throws
//     scanner                                       closed, memory
//     find                                          what the callable throws; memory
//
//     member of a store                             throws
//     store                                         CEDAR_STORE_LOCKED, CEDAR_STORE_FOREIGN, CEDAR_STORE_CORRUPT, CEDAR_STORE_DAMAGED,
//                                                   CEDAR_SLOT_LIMIT, memory, system
//     update, exchange, apply                       fault, CEDAR_SLOT_LIMIT, and what erase throws
//     erase                                         closed, CEDAR_STORE_READ_ONLY, CEDAR_STORE_LOCKED in a forked child,
//                                                   CEDAR_STORE_FAILED, CEDAR_STORE_TOO_LONG, CEDAR_STORE_FULL, memory, system
//     sync, sync_every                              closed, CEDAR_STORE_LOCKED, CEDAR_STORE_FAILED, system
//     compact                                       closed, CEDAR_STORE_READ_ONLY, CEDAR_STORE_LOCKED, CEDAR_STORE_FAILED, memory,
//                                                   system
//     compact_beyond                                closed
//     compacted_size                                closed, memory
//     kept                                          memory
//
// Threads. Any number of threads may call const members of one dictionary at the same time, as long as none calls another member of it:
// cedar.h says how to order those. Different dictionaries share nothing.
#ifndef ROSKVIDH_CEDAR_HPP
#define ROSKVIDH_CEDAR_HPP

#if __cplusplus < 201703L
#error "cedar.hpp is for C++17 or later: compile with -std=c++17"
#else

#include "cedar_basics.hpp"
#include "cedar_completions.hpp"
#include "cedar_entries.hpp"
#include "cedar_lists.hpp"

#include <algorithm>
#include <cerrno>
#include <cstddef>
#include <cstdint>
#include <initializer_list>
#include <iterator>
#include <limits>
#include <memory>
#include <optional>
#include <stdexcept>
#include <string>
#include <string_view>
#include <system_error>
#include <type_traits>
#include <utility>
#include <vector>

namespace roskvidh {

/// A mutable dictionary from byte strings to whole numbers. A key that a loop over it shows is gone after the next step: the head of this
/// file says how to keep it. It is moved and not copied; clone() makes a copy. A dictionary that was moved from is closed: it holds nothing
/// and may be assigned to; calls that store or save throw the error CEDAR_IS_CLOSED.
class dictionary {
public:
    using key_type = std::string;
    using mapped_type = std::int32_t;
    using value_type = owned_entry;
    using reference = entry;
    using const_reference = entry;
    using size_type = std::size_t;
    using difference_type = std::ptrdiff_t;
    using const_iterator = entry_iterator;
    using iterator = const_iterator;

    /// No limit on how many results a call returns.
    static constexpr std::size_t unlimited = std::numeric_limits<std::size_t>::max();

    /// Makes an empty dictionary. If `ordered`, iterations go in the order of bytes; otherwise a new branch goes before its siblings, which
    /// makes storing faster. `max_trial`, 1 or more: after so many failed searches for a place a block of slots is closed. More make the
    /// table denser and storing slower.
    explicit dictionary(layout kind = layout::standard, bool ordered = true, std::int32_t max_trial = 1) {
        detail::check((kind == layout::reduced ? cedar_new_reduced : cedar_new_with)(&inside_, ordered, max_trial));
    }

    /// Makes a dictionary of pairs in any order, those of a braced list or those between two iterators, as a std::map does: the first value
    /// of a key counts. Otherwise as from_pairs, of which the last one counts.
    dictionary(std::initializer_list<std::pair<std::string_view, any_integer>> pairs, layout kind = layout::standard, bool ordered = true,
               std::int32_t max_trial = 1)
        : dictionary(built_of_first(detail::pairs_of(pairs), kind, ordered, max_trial)) {}
    template <class Iterator, std::enable_if_t<detail::shows_pairs<Iterator>, int> = 0>
    dictionary(Iterator first, Iterator last, layout kind = layout::standard, bool ordered = true, std::int32_t max_trial = 1)
        : dictionary(detail::with_pairs_between(
              first, last, [&](auto pairs) { return built_of_first(std::move(pairs), kind, ordered, max_trial); })) {}
    dictionary(const dictionary &) = delete;
    dictionary &operator=(const dictionary &) = delete;

    /// Takes the content of the other one and leaves it closed. It allocates nothing; no key is touched.
    dictionary(dictionary &&other) noexcept { swap(other); }
    dictionary &operator=(dictionary &&other) noexcept {
        dictionary moved(std::move(other));
        swap(moved);
        return *this;
    }

    /// Frees the memory.
    ~dictionary() { cedar_free(&inside_); }

    /// Exchanges the contents. It allocates nothing; no key is touched.
    void swap(dictionary &other) noexcept {
        std::swap(inside_, other.inside_);
    }
    friend void swap(dictionary &one, dictionary &other) noexcept { one.swap(other); }

    /// Returns the dictionary of pairs whose keys ascend by bytes, as those of a std::map do. It is built in one pass. `pairs` is any range
    /// of pairs of what converts to a std::string_view and an integer of any type. All pairs are tested first; index() of
    /// the error is that of the first one that has a fault.
    template <class Pairs = std::initializer_list<std::pair<std::string_view, any_integer>>>
    static dictionary from_sorted(const Pairs &pairs, layout kind = layout::standard, bool ordered = true, std::int32_t max_trial = 1) {
        return built(kind == layout::reduced ? cedar_build_reduced : cedar_build, detail::pairs_of(pairs), ordered, max_trial);
    }

    /// The dictionary of pairs in any order: the last value of a key counts. The pairs are sorted, and it is built at once, faster than by
    /// update_all; keys go in the order of bytes at first, whatever `ordered` says. `pairs` is a range as of from_sorted. All pairs are
    /// tested first; index() of the error is that of the first one that has a fault.
    template <class Pairs = std::initializer_list<std::pair<std::string_view, any_integer>>>
    static dictionary from_pairs(const Pairs &pairs, layout kind = layout::standard, bool ordered = true, std::int32_t max_trial = 1) {
        return built_of_last(detail::pairs_of(pairs), kind, ordered, max_trial);
    }

    /// Returns an equal dictionary, with the same order, settings and layout.
    dictionary clone() const {
        const cedar_dictionary mine = inside_;
        dictionary copy{closed()};
        detail::check(cedar_clone(&mine, &copy.inside_));
        return copy;
    }

    /// Stores a value at a key, and replaces the value that the key holds, if any.
    void update(std::string_view key, any_integer value) {
        std::size_t position = 0;
        const std::uint32_t status = cedar_update(&inside_, detail::bytes(key), key.size(), value.get(), &position);
        detail::check(status, position);
    }

    /// Stores a value at a key that holds none; what is held stays, as in a std::map. Returns an iterator at the key, and whether the value
    /// was stored. A fault of the pair is thrown in any case. insert_or_assign replaces what is held; update does so and makes no iterator.
    std::pair<const_iterator, bool> insert(std::string_view key, any_integer value) { return put(key, value, false); }
    std::pair<const_iterator, bool> insert(const std::pair<std::string_view, any_integer> &one) { return put(one.first, one.second, false); }
    template <class Pair, std::enable_if_t<detail::is_pair<Pair>, int> = 0>
    std::pair<const_iterator, bool> insert(const Pair &one) {
        const auto &[key, value] = one;
        return put(std::string_view(key), any_integer(value), false);
    }
    std::pair<const_iterator, bool> emplace(std::string_view key, any_integer value) { return put(key, value, false); }
    std::pair<const_iterator, bool> try_emplace(std::string_view key, any_integer value) { return put(key, value, false); }
    std::pair<const_iterator, bool> insert_or_assign(std::string_view key, any_integer value) { return put(key, value, true); }

    /// As update, and returns the value that the key held before, if it held one.
    std::optional<std::int32_t> exchange(std::string_view key, any_integer value) {
        std::size_t position = 0;
        std::int32_t before = 0;
        bool held = false;
        const std::uint32_t status = cedar_insert(&inside_, detail::bytes(key), key.size(), value.get(), &held, &before, &position);
        detail::check(status, position);
        return held ? std::optional(before) : std::nullopt;
    }

    /// Stores the pairs of a range, which may be what from_sorted takes, in any order: the last value of a key counts. All are tested
    /// first. If a pair has a fault, it throws as update does, index() is that of the pair, and nothing is stored. After CEDAR_SLOT_LIMIT
    /// or std::bad_alloc the first of the pairs, as many as there was room for, are stored.
    template <class Pairs = std::initializer_list<std::pair<std::string_view, any_integer>>>
    void update_all(const Pairs &pairs) {
        const std::vector<cedar_pair> listed = detail::pairs_of(pairs);
        std::size_t position = 0;
        const std::uint32_t status = cedar_update_all(&inside_, listed.data(), listed.size(), &position);
        detail::check_pairs(status, position, listed);
    }

    /// Removes a key, and returns whether it was held. Its slots become free. It allocates nothing.
    bool erase(std::string_view key) noexcept { return cedar_erase(&inside_, detail::bytes(key), key.size()); }

    /// Removes the key that an iterator is at, and returns an iterator at the next one. What else is at the key goes on from there.
    const_iterator erase(const_iterator at) {
        const_iterator next = at;
        ++next;
        erase(at->key);
        return next;
    }

    /// Removes the keys of a range, as of std::string_view, one after another, and returns how many of them were held. It is faster than as
    /// many calls of erase if the dictionary is large and the keys come in no order. It allocates a list of the keys.
    template <class Keys = std::initializer_list<std::string_view>>
    std::size_t erase_all(const Keys &keys) {
        const std::vector<cedar_key> listed = detail::keys_of(keys);
        bool unwanted = false;
        return cedar_erase_all(&inside_, listed.data(), listed.size(), &unwanted, 0);
    }

    /// Removes each key that begins with a prefix, and returns how many these were; the empty prefix removes all. It neither allocates nor
    /// frees memory.
    std::size_t erase_prefix(std::string_view prefix) noexcept {
        std::size_t erased = 0;
        cedar_erase_prefix(&inside_, detail::bytes(prefix), prefix.size(), &erased);
        return erased;
    }

    /// Removes all keys. It neither allocates nor frees memory.
    void clear() noexcept { cedar_clear(&inside_); }

    /// Frees memory that growth and erasures have left unused: the keys are put into a new table, which replaces the present one unless it
    /// has more slots.
    void shrink_to_fit() { detail::check(cedar_shrink(&inside_)); }

    /// Returns the value at a key, if it is held. It reads at most one slot for each byte of the key and one for the value, and allocates
    /// nothing.
    std::optional<std::int32_t> get(std::string_view key) const noexcept {
        const cedar_dictionary mine = inside_;
        std::int32_t value = 0;
        if (!cedar_get(&mine, detail::bytes(key), key.size(), &value)) return std::nullopt;
        return value;
    }

    /// Returns the value at a key, and throws std::out_of_range if it isn't held. It costs what get does.
    std::int32_t at(std::string_view key) const {
        const std::optional<std::int32_t> held = get(key);
        if (!held) throw std::out_of_range("the dictionary doesn't hold the key");
        return *held;
    }

    /// Returns 1 if a key is held, and 0 otherwise. It costs what get does.
    std::size_t count(std::string_view key) const noexcept { return contains(key) ? 1 : 0; }

    /// Returns whether a key is held. It costs what get does.
    bool contains(std::string_view key) const noexcept {
        const cedar_dictionary mine = inside_;
        return cedar_contains(&mine, detail::bytes(key), key.size());
    }

    /// Whether two dictionaries hold the same keys with the same values, in whatever order, layout and settings: one is gone through, and
    /// its keys are looked up in the other. Throws std::bad_alloc.
    friend bool operator==(const dictionary &one, const dictionary &other) {
        if (one.size() != other.size()) return false;
        return std::all_of(one.begin(), one.end(), [&](const entry &each) { return other.get(each.key) == each.value; });
    }
    friend bool operator!=(const dictionary &one, const dictionary &other) { return !(one == other); }

    /// Returns how many keys are held. The number is kept, so this costs the same for all dictionaries.
    std::size_t size() const noexcept {
        const cedar_dictionary mine = inside_;
        return cedar_len(&mine);
    }

    /// Returns whether no key is held.
    bool empty() const noexcept { return size() == 0; }

    /// Returns whether the dictionary is open. One that was moved from isn't.
    bool is_open() const noexcept {
        const cedar_dictionary mine = inside_;
        return cedar_capacity(&mine) != 0;
    }

    /// Returns the layout, which is chosen when the dictionary is made. That of a closed one is standard.
    layout kind() const noexcept {
        const cedar_dictionary mine = inside_;
        return cedar_is_reduced(&mine) ? layout::reduced : layout::standard;
    }

    /// Returns the figures, which are 0 for a closed dictionary.
    roskvidh::statistics statistics() const noexcept {
        const cedar_dictionary mine = inside_;
        return {cedar_len(&mine), cedar_used_slots(&mine), cedar_capacity(&mine), cedar_spare_blocks(&mine)};
    }

    /// Allocates ahead for so many blocks of 256 slots more than are in use. Updates that take no more of them allocate nothing: an update
    /// takes at most one for each byte of its key.
    void reserve(std::size_t blocks) { detail::check(cedar_reserve(&inside_, blocks)); }

    /// Lets one search for places try so many blocks of slots at most. At first nothing bounds it, and an update after many erasures may
    /// take milliseconds; with a bound it doesn't, and may take some more slots. No result depends on it unless memory or slots run out. A
    /// clone has the same bound, and shrink_to_fit keeps it; no file has it.
    void set_search_limit(std::size_t blocks) noexcept { cedar_set_search_limit(&inside_, blocks); }

    /// Returns how many blocks of slots one search for places tries at most: SIZE_MAX if nothing bounds it, and 0 if closed.
    std::size_t search_limit() const noexcept {
        const cedar_dictionary mine = inside_;
        return cedar_search_limit(&mine);
    }

    /// Returns the keys that are prefixes of a text, shortest first: for each its value, and its length in bytes. It goes along the text
    /// once, or if there are 64 or more about twice.
    std::vector<match> prefixes(std::string_view text) const {
        return detail::walked(inside_, cedar_prefixes_from, text, unlimited);
    }

    /// Returns the longest key that is a prefix of a text: its value, and its length in bytes. It allocates nothing.
    std::optional<match> longest_match(std::string_view text) const noexcept {
        const cedar_dictionary mine = inside_;
        match found{};
        if (!cedar_longest_prefix(&mine, detail::bytes(text), text.size(), &found)) return std::nullopt;
        return found;
    }

    /// Returns the keys that begin with a text, in iteration order, at most `most` of them: for each its value, and how many bytes the
    /// whole key has. It goes over these once, or if they are 64 or more about twice, and over no others.
    std::vector<match> predictions(std::string_view text, std::size_t most = unlimited) const {
        return detail::walked(inside_, cedar_predictions_from, text, most);
    }

    /// Returns how many keys begin with a text. It visits each node below the text's, and allocates nothing.
    std::size_t count_prefix(std::string_view prefix) const noexcept {
        const cedar_dictionary mine = inside_;
        return cedar_count_prefix(&mine, detail::bytes(prefix), prefix.size());
    }

    /// Returns the best of the entries whose keys begin with a text, at most `most` of them: by value, the highest first or the lowest, and
    /// those with the same value by the bytes of their keys. It goes over all entries with the text, or twice if what it returns has more
    /// than 16 bytes of keys for each of `most`, or of all entries if these are fewer. It keeps no more than `most` of them, and one more
    /// while that takes another's place.
    std::vector<owned_entry> best(std::string_view prefix, std::size_t most, by_value order = by_value::highest_first) const {
        std::vector<owned_entry> kept;
        if (!is_open()) return kept;
        const cedar_dictionary mine = inside_;
        const std::size_t places = std::min(most, size());
        std::vector<cedar_found> found(places + 1); // so that data() isn't null
        std::vector<char> keys;
        std::size_t count = 0, needed = 16 * places;
        std::uint32_t status = CEDAR_NO_ROOM;
        while (status == CEDAR_NO_ROOM) {
            keys.resize(needed + 1);
            status = cedar_best(&mine, detail::bytes(prefix), prefix.size(), order == by_value::lowest_first, found.data(), places,
                                reinterpret_cast<std::uint8_t *>(keys.data()), keys.size(), &count, &needed);
        }
        detail::check(status);
        kept.reserve(count);
        for (std::size_t i = 0; i < count; ++i) kept.emplace_back(std::string(keys.data() + found[i].place, found[i].length), found[i].value);
        return kept;
    }

    /// Returns the last entry up to a key: at it, or else before it. before() leaves the key itself out, and last() is the last entry of
    /// all. Each makes about as many look-ups as the found key has bytes.
    std::optional<owned_entry> floor(std::string_view key) const { return key.empty() ? std::nullopt : neighbour(cedar_floor, key, true); }
    std::optional<owned_entry> before(std::string_view key) const { return key.empty() ? std::nullopt : neighbour(cedar_floor, key, false); }
    std::optional<owned_entry> last() const { return neighbour(cedar_floor, {}, true); }

    /// Returns the first entry from a key on: at it, or else behind it. upper_bound leaves the key itself out.
    std::optional<owned_entry> ceiling(std::string_view key) const { return neighbour(cedar_ceiling, key, true); }

    /// Returns the entries whose keys are near a text, ascending, the first `most` of them: one edit of bytes away at most, or two. The
    /// same of the keys that begin with what is near a text, so of the completions of one that was typed with an error. Keys below a place
    /// where none can be near any more aren't gone over.
    std::vector<owned_entry> within(std::string_view text, edits most_edits, std::size_t most = SIZE_MAX) const {
        return near(cedar_next_near, text, most_edits, false, most);
    }
    std::vector<owned_entry> completions_within(std::string_view prefix, edits most_edits, std::size_t most = SIZE_MAX) const {
        return near(cedar_next_near, prefix, most_edits, true, most);
    }

    /// The same by edits of characters, of a text in UTF-8: a key, or what it begins with, is near only if it is UTF-8.
    std::vector<owned_entry> within_text(std::string_view text, edits most_edits, std::size_t most = SIZE_MAX) const {
        return near(cedar_next_near_text, text, most_edits, false, most);
    }
    std::vector<owned_entry> completions_within_text(std::string_view prefix, edits most_edits, std::size_t most = SIZE_MAX) const {
        return near(cedar_next_near_text, prefix, most_edits, true, most);
    }

    /// Returns the entries whose keys fit a pattern, ascending, the first `most` of them: ? stands for any byte, and * for any bytes.
    std::vector<owned_entry> matching(std::string_view pattern, std::size_t most = SIZE_MAX) const {
        const cedar_dictionary mine = inside_;
        return is_open() ? detail::fitting(mine, pattern, most) : std::vector<owned_entry>();
    }

    /// Returns a range over all keys with their values. It takes them in pages while it is gone through: so the first few cost the same in
    /// a dictionary of any size. cedar_entries.hpp says how long its keys stay, and what it shows if the dictionary changes meanwhile.
    roskvidh::entries entries() const & { return entries_with_prefix({}); }
    roskvidh::entries entries() const && = delete; // the range takes its pages from this very variable

    /// The same of the keys that begin with a text: for completions.
    roskvidh::entries entries_with_prefix(std::string_view prefix) const & {
        return roskvidh::entries(detail::page::first({&inside_, std::string(prefix), std::nullopt}));
    }
    roskvidh::entries entries_with_prefix(std::string_view prefix) const && = delete;

    /// The same of a key, whether it is held or not, and of the keys after it.
    roskvidh::entries entries_from(std::string_view key) const & { return roskvidh::entries(first_behind(key, std::nullopt, true)); }
    roskvidh::entries entries_from(std::string_view key) const && = delete;

    /// The same of the keys from `from` on and before `to`.
    roskvidh::entries range(std::string_view from, std::string_view to) const & {
        return roskvidh::entries(first_behind(from, std::string(to), true));
    }
    roskvidh::entries range(std::string_view from, std::string_view to) const && = delete;

    /// The same backwards, the last key first: over all keys, over those from `from` on and before `to`, and over those that begin with a
    /// text. cedar_completions.hpp says what a step costs, and what is shown if the dictionary changes meanwhile.
    reversed_entries reversed() const & { return {&inside_, {}, std::nullopt}; }
    reversed_entries reversed() const && = delete;
    reversed_entries reversed_range(std::string_view from, std::string_view to) const & {
        return {&inside_, std::string(from), std::string(to)};
    }
    reversed_entries reversed_range(std::string_view from, std::string_view to) const && = delete;
    reversed_entries reversed_with_prefix(std::string_view prefix) const & {
        return {&inside_, std::string(prefix), detail::behind_prefix(prefix)};
    }
    reversed_entries reversed_with_prefix(std::string_view prefix) const && = delete;

    /// Goes through all entries: `for (const auto &[key, value] : d)`. Unlike a range, these iterators keep no page that they have left: a
    /// key's bytes stay until the next step.
    const_iterator begin() const { return const_iterator(detail::page::first({&inside_, {}, std::nullopt})); }
    const_iterator end() const noexcept { return {}; }
    const_iterator cbegin() const { return begin(); }
    const_iterator cend() const noexcept { return {}; }

    /// Goes through them backwards.
    reversed_iterator rbegin() const { return reversed().begin(); }
    reversed_iterator rend() const noexcept { return {}; }

    /// Returns an iterator at a key, or end() if the key isn't held. get is cheaper where only the value is wanted.
    const_iterator find(std::string_view key) const {
        return const_iterator(detail::page::only({&inside_, {}, std::nullopt}, key));
    }

    /// Returns an iterator at the first key that isn't below this one, or end().
    const_iterator lower_bound(std::string_view key) const { return const_iterator(first_behind(key, std::nullopt, true)); }

    /// Returns an iterator at the first key above this one, or end(): the next key.
    const_iterator upper_bound(std::string_view key) const { return const_iterator(first_behind(key, std::nullopt, false)); }

    /// Calls `callable(occurrence)` for each key in a text: position after position, and at each the shortest first. If `callable` returns
    /// a bool, false ends the scan. Up to 256 keys are found ahead, so what `callable` stores or erases shows later or never. It allocates
    /// only if more than 256 keys begin at one position.
    template <class Callable>
    void scan(std::string_view text, Callable &&callable) const {
        detail::told(inside_, cedar_scan, text, [&callable](const cedar_found &one) { return detail::tell(callable, one); });
    }

    /// Calls `callable(token)` for the tokens that a text is cut into: at each position the longest key that begins there, or otherwise one
    /// byte, which has no value. If `callable` returns a bool, false ends it. Otherwise as scan, except that it allocates nothing.
    template <class Callable>
    void segment(std::string_view text, Callable &&callable) const {
        detail::told(inside_, cedar_segment, text, [&callable](const cedar_found &one) { return detail::tell(callable, detail::token_of(one)); });
    }

    /// Calls `callable(occurrence)` for the keywords of a text, leftmost longest: of the keys that begin first the longest, then the same
    /// from its end on, so that none overlap. If `callable` returns a bool, false ends it. Otherwise as scan, except that it allocates
    /// nothing.
    template <class Callable>
    void keywords(std::string_view text, Callable &&callable) const {
        detail::told(inside_, cedar_keywords, text, [&callable](const cedar_found &one) { return detail::tell(callable, one); });
    }

    /// Cuts a text into the tokens whose costs have the least sum: a key costs its value, and a byte without a key `unknown`. If
    /// `by_characters`, a byte that continues a character of UTF-8 costs nothing, so that an unknown character costs once; its bytes are
    /// still tokens of their own. Of cuts that cost the same it picks the one with the longer token where they first differ, and with a
    /// key rather than a byte. While it runs, it allocates 33 bytes for each byte of the text, and lists of the tokens.
    std::vector<token> cheapest(std::string_view text, std::uint32_t unknown, bool by_characters = false) const {
        const cedar_dictionary mine = inside_;
        std::vector<cedar_found> found(text.size() + 1); // so that data() isn't null
        std::size_t count = 0;
        const std::uint32_t status =
            cedar_cheapest(&mine, detail::bytes(text), text.size(), unknown, by_characters, found.data(), text.size(), &count);
        detail::check(status);
        return detail::tokens_of(found, count);
    }

    /// Cuts a text into the tokens whose costs have the least sum, by costs beside the values: what a key costs stands in a table at its
    /// value. The other tokens are runs of characters of one kind, which have no value. Of cuts that cost the same it picks the one with
    /// the longer token where they first differ, and with a key rather than a run. While it runs, it allocates 40 bytes for each byte of
    /// the text, and lists of the tokens.
    std::vector<token> cheapest_by(std::string_view text, const cut_costs &model) const {
        const cedar_dictionary mine = inside_;
        std::vector<cedar_found> found(text.size() + 1); // so that data() isn't null
        std::size_t count = 0;
        const std::uint32_t status =
            cedar_cheapest_by(&mine, detail::bytes(text), text.size(), detail::array(model.keys), model.keys.size(), model.beyond,
                              detail::array(model.kinds), model.kinds.size(), model.unknown, model.most, model.beside_keys, found.data(),
                              text.size(), &count);
        detail::check(status);
        return detail::tokens_of(found, count);
    }

    /// Returns the bytes of the dictionary's file.
    std::vector<std::uint8_t> save(file_format version = file_format::v1_1) const {
        const cedar_dictionary mine = inside_;
        const bool is_full = version == file_format::v1_0;
        std::vector<std::uint8_t> file(1);
        std::size_t needed = 0;
        const std::uint32_t status = cedar_save(&mine, is_full, file.data(), 0, &needed);
        if (status != CEDAR_NO_ROOM) detail::check(status);
        file.resize(needed);
        detail::check(cedar_save(&mine, is_full, file.data(), file.size(), &needed));
        return file;
    }

    /// Returns the dictionary of a file's bytes, in the layout of the file. It allocates at most `memory_limit` bytes for its tables. The
    /// bytes may be anything: if they aren't a well-formed table, it throws the first fault.
    static dictionary load(const std::uint8_t *bytes, std::size_t length, std::size_t memory_limit = CEDAR_LOAD_LIMIT) {
        dictionary loaded{closed()};
        const std::uint8_t none = 0;
        if (length == 0) bytes = &none;
        detail::check(cedar_load_any(&loaded.inside_, bytes, length, memory_limit));
        return loaded;
    }

    /// The same for a vector of bytes.
    static dictionary load(const std::vector<std::uint8_t> &bytes, std::size_t memory_limit = CEDAR_LOAD_LIMIT) {
        return load(bytes.data(), bytes.size(), memory_limit);
    }

    /// Replaces the file at a path with that of the dictionary, as cedar_replace_file of cedar.h says: a new file is written beside the old
    /// one, and takes its place once it is whole and on the disk. cedar.h also says which mode and owner it has. A symbolic link at the
    /// path is replaced by the file; a pipe or a device is written to directly. After an error the old file is as it was, unless only the
    /// last step failed, to put the folder on the disk.
    void save_to_path(const std::string &path, file_format version = file_format::v1_1) const {
        const cedar_dictionary mine = inside_;
        detail::check_saved(cedar_save_file(&mine, version == file_format::v1_0, detail::path_of(path)), path);
    }

    /// As load, for the file at a path, of which at most 89 bytes more than `memory_limit` are read into memory. The error names the path.
    static dictionary load_from_path(const std::string &path, std::size_t memory_limit = CEDAR_LOAD_LIMIT) {
        dictionary loaded{closed()};
        detail::check_opened(cedar_load_file(&loaded.inside_, detail::path_of(path), memory_limit), path);
        return loaded;
    }

private:
    using build = std::uint32_t (*)(cedar_dictionary *, bool, std::int32_t, const cedar_pair *, std::size_t, std::size_t *);

    struct closed {};
    explicit dictionary(closed) noexcept {}

    // The entry next to a key; none in a closed dictionary.
    std::optional<owned_entry> neighbour(detail::beside_call call, std::string_view key, bool included) const {
        const cedar_dictionary mine = inside_;
        return is_open() ? detail::neighbour(mine, call, key, included) : std::nullopt;
    }

    // The entries that are near a text; none in a closed dictionary.
    std::vector<owned_entry> near(detail::near_call call, std::string_view text, edits most_edits, bool is_beginning,
                                  std::size_t most) const {
        const cedar_dictionary mine = inside_;
        return is_open() ? detail::near(mine, call, text, most_edits, is_beginning, most) : std::vector<owned_entry>();
    }

    std::shared_ptr<detail::page> first_behind(std::string_view key, std::optional<std::string> end, bool is_within) const {
        return detail::page::since({&inside_, {}, std::move(end)}, key, is_within);
    }

    // Stores a value at a key that holds none, or at any. The iterator is made first: without memory for it nothing is stored.
    std::pair<const_iterator, bool> put(std::string_view key, any_integer value, bool replaces) {
        const std::optional<std::int32_t> held = get(key);
        const bool is_stored = !held || replaces;
        if (!is_stored && value.get() < 0) detail::check(CEDAR_INVALID_VALUE);
        const_iterator at(detail::page::one({&inside_, {}, std::nullopt}, key, is_stored ? value.get() : *held));
        if (is_stored) update(key, value);
        return {std::move(at), !held};
    }

    // What a build makes of pairs.
    static dictionary built(build call, const std::vector<cedar_pair> &listed, bool ordered, std::int32_t max_trial) {
        dictionary made{closed()};
        std::size_t position = 0;
        const std::uint32_t status = call(&made.inside_, ordered, max_trial, listed.data(), listed.size(), &position);
        detail::check_pairs(status, position, listed);
        return made;
    }

    // The dictionary of pairs in any order, of which the last one of a key counts, or the first one: then they are turned round, unless one
    // has a fault, which is that of the first that has one.
    static dictionary built_of_last(const std::vector<cedar_pair> &listed, layout kind, bool ordered, std::int32_t max_trial) {
        return built(kind == layout::reduced ? cedar_build_unsorted_reduced : cedar_build_unsorted, listed, ordered, max_trial);
    }
    static dictionary built_of_first(std::vector<cedar_pair> listed, layout kind, bool ordered, std::int32_t max_trial) {
        if (cedar_faulty_pair(listed.data(), listed.size()) == listed.size()) std::reverse(listed.begin(), listed.end());
        return built_of_last(listed, kind, ordered, max_trial);
    }

    // A const member reads by a copy of its own, since C gives the variable to one call at a time.
    cedar_dictionary inside_ = CEDAR_CLOSED;

    friend class store;
    friend class scanner;
};

/// A change of a batch: a value is put at a key, or without a value the key is removed.
struct change {
    std::string_view key;
    std::optional<any_integer> value;
};

/// How a store is opened: a missing file is created; it has to be there; it has to be missing; or only to look at the store, beside
/// whoever changes it, without a lock, and without a write.
enum class opening { created, existing, fresh, to_read };

/// A dictionary whose changes are in the file at a path before they are acknowledged. Once a change returns, it is on the disk, and no
/// crash of the process or the machine takes it away. A change that a crash interrupts is there as a whole or not at all. It is locked as
/// long as it is open, unless it was opened to read: cedar.h says against whom, and what a forked child may do. A store is moved and not
/// copied. One that was moved from is closed: changes throw the error CEDAR_IS_CLOSED.
class store {
public:
    /// Opens the file, and makes its changes again. CEDAR_STORE_LOCKED says that the store is open already, in another program or in this
    /// one. A file that has to be there and isn't throws ENOENT, and one that has to be missing EEXIST. What is thrown names the path.
    explicit store(const std::string &path, layout kind = layout::standard, opening how = opening::created) {
        const std::uint32_t status = cedar_store_open_with(&inside_, detail::path_of(path), bits_of(kind, how));
        detail::check_opened(status, path, cedar_store_damaged_at(&inside_));
        words_.inside_ = inside_.dictionary;
    }
    store(const store &) = delete;
    store &operator=(const store &) = delete;
    store(store &&other) noexcept { swap(other); }
    /// Takes the other store over. The one that was here is closed as by the destructor, which reports no error: call sync() before it.
    store &operator=(store &&other) noexcept {
        store moved(std::move(other));
        swap(moved);
        return *this;
    }

    /// Closes the file, and frees the memory.
    ~store() {
        words_.inside_ = cedar_closed();
        cedar_store_close(&inside_);
    }

    /// Exchanges the contents. It allocates nothing; no key is touched.
    void swap(store &other) noexcept {
        std::swap(inside_, other.inside_);
        words_.swap(other.words_);
    }
    friend void swap(store &one, store &other) noexcept { one.swap(other); }

    /// Returns the path of the file that keeps what the opening cut off, if whole records may be in that: cedar_store_kept in cedar.h says
    /// when and how.
    std::optional<std::string> kept() const {
        const char *path = cedar_store_kept(&inside_);
        return path == nullptr ? std::nullopt : std::optional<std::string>(path);
    }

    /// Returns the dictionary, for all const members. It is valid as long as the store.
    const dictionary &words() const noexcept { return words_; }

    /// Stores a value at a key, and replaces the value that the key holds, if any. After a std::system_error, if failed() is true then, the
    /// dictionary has the change, and the file has it or not: from then on changes throw CEDAR_STORE_FAILED, until compact() has written
    /// all to a new file. If it isn't, there was no room, and nothing has changed (cedar.h). Nor has it after any other error.
    void update(std::string_view key, any_integer value) { exchange(key, value); }

    /// As update, and returns the value that the key held before, if it held one.
    std::optional<std::int32_t> exchange(std::string_view key, any_integer value) {
        std::size_t position = 0;
        std::int32_t before = 0;
        bool held = false;
        const std::uint32_t status = cedar_store_insert(&inside_, detail::bytes(key), key.size(), value.get(), &held, &before, &position);
        check(status, position);
        return held ? std::optional(before) : std::nullopt;
    }

    /// Removes a key, and returns whether it was held.
    bool erase(std::string_view key) {
        bool held = false;
        check(cedar_store_erase(&inside_, detail::bytes(key), key.size(), &held), 0);
        return held;
    }

    /// Makes changes as one: all of them, or none. To drop them, don't make this call. Of each key the last change counts. They are on the
    /// disk when it returns, whatever sync_every says, and a crash at any moment leaves all of them or none. After a
    /// fault index() of the error is that of the change.
    void apply(const std::vector<change> &changes) {
        std::vector<cedar_change> listed;
        listed.reserve(changes.size() + 1); // so that data() isn't null
        for (const change &one : changes) {
            listed.push_back({detail::bytes(one.key), one.key.size(), one.value ? one.value->get() : 0, !one.value});
        }
        std::size_t refused = 0, position = 0;
        const std::uint32_t status = cedar_store_apply(&inside_, listed.data(), listed.size(), &refused, &position);
        if (detail::is_fault(status)) detail::check(status, position, refused);
        check(status, 0);
    }

    /// Sets how many changes go to the disk together from now on. With 1, the setting at first, each is there before it returns. With more,
    /// a change that has returned waits until as many do, and with 0 until sync(). A crash takes away those that wait, all of them or none,
    /// and no others. It puts those that wait now on the disk.
    void sync_every(std::size_t changes) { check(cedar_store_sync_every(&inside_, changes), 0); }

    /// Puts the changes that wait on the disk as one, and compacts the file then if that is due. If none waits it does nothing. The
    /// destructor puts them on the disk too, and reports no error.
    void sync() { check(cedar_store_sync(&inside_), 0); }

    /// Returns how many changes wait.
    std::size_t waiting() const noexcept { return cedar_store_waiting(&inside_); }

    /// Replaces the file by one that has the entries alone. A store that has failed in a change goes on then, with all that the dictionary
    /// has. cedar.h says how it is done. After a std::system_error the old file is there and the store is as it was, unless the new file
    /// couldn't be given the name or its folder couldn't be put on the disk. Then the store has failed for good, and compact() throws
    /// CEDAR_STORE_FAILED from then on: open it again, and compact it before anything else.
    void compact() { check(cedar_store_compact(&inside_), 0); }

    /// Sets when changes compact the file by themselves, last: if it has more than factor times the bytes that it would have behind a
    /// compaction, and `spare` bytes more. At first these are 2 and 65536; with a factor of 0 no change does it.
    void compact_beyond(std::size_t factor, std::size_t spare) { check(cedar_store_compact_beyond(&inside_, factor, spare), 0); }

    /// Returns the status of the last compaction since the store was opened, called or by itself. CEDAR_OK if there was none.
    std::uint32_t last_compaction() const noexcept { return cedar_store_last_compaction(&inside_); }

    /// Returns how many bytes the file has, without changes that wait.
    std::size_t file_size() const noexcept { return cedar_store_file_len(&inside_); }

    /// Returns how many records the file has, without changes that wait. Changes that went to the disk together are one, and a compaction
    /// leaves few: cedar.h says which.
    std::size_t records() const noexcept { return cedar_store_records(&inside_); }

    /// Returns how many bytes the file would have behind a compaction. It takes the time of all entries.
    std::size_t compacted_size() const {
        std::size_t length = 0;
        detail::check(cedar_store_compacted_len(&inside_, &length));
        return length;
    }

    /// Returns whether a change has failed on the disk.
    bool failed() const noexcept { return cedar_store_failed(&inside_); }

private:
    static std::uint32_t bits_of(layout kind, opening how) noexcept {
        const std::uint32_t reduced = kind == layout::reduced ? CEDAR_OPEN_REDUCED : 0;
        switch (how) {
        case opening::existing: return reduced | CEDAR_OPEN_EXISTING;
        case opening::fresh: return reduced | CEDAR_OPEN_NEW;
        case opening::to_read: return reduced | CEDAR_OPEN_TO_READ;
        default: return reduced;
        }
    }

    // Takes the variable over after each change, and throws what a status says.
    void check(std::uint32_t status, std::size_t position) {
        const int number = errno;
        words_.inside_ = inside_.dictionary;
        if (detail::is_of_device(status)) throw std::system_error(number, std::generic_category(), "the file of a store");
        detail::check(status, position);
    }

    cedar_store inside_ = CEDAR_STORE_CLOSED;
    dictionary words_{dictionary::closed()};
};

} // namespace roskvidh

#include "cedar_scanner.hpp"

#endif // C++17

#endif
