// Ranges over the entries of a dictionary, which are taken in pages as they are gone through. Include cedar.hpp.
#ifndef ROSKVIDH_CEDAR_ENTRIES_HPP
#define ROSKVIDH_CEDAR_ENTRIES_HPP

#include "cedar_basics.hpp"

#include <algorithm>
#include <cstddef>
#include <cstdint>
#include <iterator>
#include <limits>
#include <memory>
#include <optional>
#include <string>
#include <string_view>
#include <type_traits>
#include <utility>
#include <vector>

namespace roskvidh {

namespace detail {

// Whether each value of a dictionary is one of a type, and none is cut.
template <class Value>
inline constexpr bool holds_value =
    std::is_convertible_v<std::int32_t, Value> && (!std::is_arithmetic_v<Value> || std::numeric_limits<Value>::digits >= 31);

} // namespace detail

/// A key and its value, as a range shows them: structured bindings give both. The key's bytes are those of the range: entry_iterator says
/// how long they stay, and an owned_entry keeps its own. It converts to a std::pair whose first part can be made of a std::string_view, as
/// that of a std::map<std::string, int> can.
struct entry {
    std::string_view key;
    std::int32_t value;

    template <class First, class Second,
              std::enable_if_t<std::is_constructible_v<First, std::string_view> && detail::holds_value<Second>, int> = 0>
    operator std::pair<First, Second>() const {
        return {First(key), static_cast<Second>(value)};
    }
};

/// A key and its value that are kept: what a container of entries has, as std::vector<roskvidh::owned_entry>(d.begin(), d.end()).
struct owned_entry {
    std::string key;
    std::int32_t value = 0;

    owned_entry() = default;
    owned_entry(std::string kept_key, std::int32_t kept_value) : key(std::move(kept_key)), value(kept_value) {}
    explicit owned_entry(const entry &shown) : key(shown.key), value(shown.value) {}
    operator entry() const & noexcept { return {key, value}; }
    operator entry() const && = delete; // the entry would show a key that is gone
};

/// A key that keeps its bytes, of an iterator that ends where it is looked at. It is compared and printed as they are, and converts to a
/// std::string. It converts to no std::string_view, which might be looked at once the key is gone.
class passing_key {
public:
    explicit passing_key(std::string_view shown) : kept_(shown) {}
    operator std::string() const { return kept_; }
    operator std::string_view() const = delete; // keep the key in a std::string, or the iterator in a variable

    friend bool operator==(const passing_key &one, std::string_view other) noexcept { return one.kept_ == other; }
    friend bool operator==(std::string_view one, const passing_key &other) noexcept { return other == one; }
    friend bool operator==(const passing_key &one, const passing_key &other) noexcept { return one.kept_ == other.kept_; }
    friend bool operator!=(const passing_key &one, std::string_view other) noexcept { return !(one == other); }
    friend bool operator!=(std::string_view one, const passing_key &other) noexcept { return !(other == one); }
    friend bool operator!=(const passing_key &one, const passing_key &other) noexcept { return !(one == other); }

    template <class Stream, class = decltype(std::declval<Stream &>() << std::declval<const std::string &>())>
    friend Stream &operator<<(Stream &to, const passing_key &key) {
        to << key.kept_;
        return to;
    }

private:
    std::string kept_;
};

/// What the arrow of an iterator leads to that isn't in a variable, as `d.find("net")->value`: it has no key, which would be gone behind
/// the statement. Put the iterator into a variable to look at its key, or take (*at).key, which keeps its bytes.
class passing_value {
public:
    explicit passing_value(std::int32_t shown) noexcept : value(shown) {}
    const passing_value *operator->() const noexcept { return this; }

    std::int32_t value : 32; ///< a field of bits, so that a reference to it has a copy
};

/// What a star shows of an iterator that isn't in a variable, as `*d.find("net")` or `*at++`.
struct passing_entry {
    passing_key key;
    std::int32_t value;

    operator owned_entry() const { return {key, value}; }
    template <class First, class Second,
              std::enable_if_t<std::is_constructible_v<First, std::string> && !std::is_same_v<First, std::string_view> &&
                                   detail::holds_value<Second>, int> = 0>
    operator std::pair<First, Second>() const {
        return {First(std::string(key)), static_cast<Second>(value)};
    }
};

namespace detail {

// What a range goes over: the keys of a dictionary that begin with a prefix and, if there is an end, come before it.
struct bounds {
    const cedar_dictionary *dictionary;
    std::string prefix;
    std::optional<std::string> end;
};

// How much a page has room for. A first one is small, so that a few entries cost little, and each further one is larger.
struct page_room {
    std::size_t places;
    std::size_t bytes;
};
inline constexpr page_room bound_room{4, 128};
inline constexpr page_room first_room{16, 512};
inline constexpr page_room most_room{256, 65536};

// Some entries of a range, one after another, that don't change any more. It leads to the next page, which is taken when it is asked for.
class page {
public:
    page(bounds of, page_room room)
        : of_(std::move(of)), room_(room), found_(new cedar_found[room.places + room.bytes / sizeof(cedar_found) + 1]) {}
    page(const page &) = delete;
    page &operator=(const page &) = delete;

    // Pages that nothing else leads to go one after another: calls within calls might be too many.
    ~page() {
        std::shared_ptr<page> left = std::move(next_);
        while (left && left.use_count() == 1) {
            std::shared_ptr<page> behind = std::move(left->next_);
            left = std::move(behind);
        }
    }

    std::size_t count() const noexcept { return count_; }
    entry at(std::size_t index) const noexcept { return {key_of(found_[index]), found_[index].value}; }

    // The first page of a range; none if the range is empty.
    static std::shared_ptr<page> first(bounds of) {
        const cedar_dictionary mine = *of.dictionary;
        if (cedar_capacity(&mine) == 0) return nullptr;
        std::shared_ptr<page> taken = take(of, {}, first_room);
        return !taken || ascends(mine) ? taken : all(std::move(of));
    }

    // The entry of a key alone, as a page; none if it isn't held.
    static std::shared_ptr<page> only(bounds of, std::string_view key) {
        const cedar_dictionary mine = *of.dictionary;
        std::int32_t value = 0;
        return cedar_get(&mine, bytes(key), key.size(), &value) ? one(std::move(of), key, value) : nullptr;
    }

    // A page of this entry alone.
    static std::shared_ptr<page> one(bounds of, std::string_view key, std::int32_t value) {
        std::shared_ptr<page> taken = std::make_shared<page>(std::move(of), page_room{1, key.size()});
        taken->found_[0] = {0, key.size(), value};
        taken->count_ = 1;
        std::copy(key.begin(), key.end(), taken->text());
        return taken;
    }

    // The first page of the entries behind a key, and at it if `is_within`. Throws CEDAR_NOT_ASCENDING if labels don't ascend.
    static std::shared_ptr<page> since(bounds of, std::string_view key, bool is_within) {
        const cedar_dictionary mine = *of.dictionary;
        if (cedar_capacity(&mine) == 0) return nullptr;
        if (key.empty() && !ascends(mine)) check(CEDAR_NOT_ASCENDING);
        std::shared_ptr<page> behind = take(of, key, bound_room);
        const bool is_asked = is_within && (!of.end || key < *of.end); // the empty key is never held
        std::shared_ptr<page> at = is_asked ? only(std::move(of), key) : nullptr;
        if (!at) return behind;
        at->is_last_ = !behind;
        at->next_ = std::move(behind);
        return at;
    }

    // The page behind a key, of the keys that come after it. Throws CEDAR_NOT_ASCENDING if there is a key and labels don't ascend.
    static std::shared_ptr<page> take(bounds of, std::string_view behind, page_room room) {
        for (;;) {
            std::shared_ptr<page> taken = std::make_shared<page>(of, room);
            const std::optional<std::size_t> needed = taken->fill(behind);
            if (!needed) return taken->count_ > 0 ? taken : nullptr;
            room.bytes = *needed;
        }
    }

    // The page behind this one; none if this is the last.
    const std::shared_ptr<page> &following() {
        if (!next_ && !is_last_) {
            next_ = take(of_, at(count_ - 1).key, larger());
            is_last_ = !next_;
        }
        return next_;
    }

private:
    // A page of all entries: where labels don't ascend, no page begins behind a key.
    static std::shared_ptr<page> all(bounds of) {
        const cedar_dictionary mine = *of.dictionary;
        const std::uint8_t *prefix = bytes(of.prefix);
        cedar_match none{};
        std::vector<cedar_match> keys(cedar_predictions(&mine, prefix, of.prefix.size(), &none, 0) + 1); // so that data() isn't null
        const std::size_t count = cedar_predictions(&mine, prefix, of.prefix.size(), keys.data(), keys.size());
        std::size_t size = 0;
        for (std::size_t i = 0; i < count; ++i) size += keys[i].length;
        std::shared_ptr<page> taken = take(std::move(of), {}, {count, size});
        if (taken) taken->is_last_ = true;
        return taken;
    }

    static bool ascends(const cedar_dictionary &mine) noexcept {
        cedar_found none{};
        std::uint8_t no_byte = 0;
        std::size_t count = 0;
        return cedar_entries_from(&mine, bytes({}), 0, bytes("\1"), 1, &none, 0, &no_byte, 0, &count, nullptr) != CEDAR_NOT_ASCENDING;
    }

    // Takes the entries behind a key; if the next one has no room, it returns how many bytes that needs.
    std::optional<std::size_t> fill(std::string_view behind) {
        const cedar_dictionary mine = *of_.dictionary;
        std::size_t needed = 0;
        const std::uint32_t status =
            cedar_entries_below(&mine, bytes(of_.prefix), of_.prefix.size(), bytes(behind), behind.size(), found_.get(), room_.places,
                                reinterpret_cast<std::uint8_t *>(text()), room_.bytes, &count_, &needed);
        if (status == CEDAR_NO_ROOM) return needed;
        check(status);
        is_last_ = needed == 0;
        if (of_.end) cut_at(*of_.end);
        return std::nullopt;
    }

    // Drops the entries from the range's end on.
    void cut_at(std::string_view end) {
        const cedar_found *begun = found_.get(), *ended = begun + count_;
        const cedar_found *kept = std::partition_point(begun, ended, [&](const cedar_found &one) { return key_of(one) < end; });
        is_last_ = is_last_ || kept != ended;
        count_ = static_cast<std::size_t>(kept - begun);
    }

    // Room for the page behind this one, by the length of the keys here.
    page_room larger() const noexcept {
        const std::size_t places = std::min(4 * room_.places, most_room.places);
        const cedar_found &last = found_[count_ - 1];
        const std::size_t twice_a_key = 2 * (last.place + last.length) / count_;
        return {places, std::min(places * std::max<std::size_t>(twice_a_key, 16), most_room.bytes)};
    }

    // The bytes of the keys, one after another, are behind the elements.
    char *text() const noexcept { return reinterpret_cast<char *>(found_.get() + room_.places); }

    std::string_view key_of(const cedar_found &one) const noexcept { return {text() + one.place, one.length}; }

    bounds of_;
    page_room room_;
    std::unique_ptr<cedar_found[]> found_;
    std::size_t count_ = 0;
    bool is_last_ = false;
    std::shared_ptr<page> next_;
};

} // namespace detail

/// Goes through the entries of a dictionary. It has a page of them, and takes the next page when it comes to its end: so it costs what it
/// goes through. Copies go on independently, and show the same entries.
///
/// The dictionary may be changed meanwhile. An entry that is there all the while is shown once; one that is stored, erased or given another
/// value is shown as it was when its page was taken, or not at all. The dictionary must not be destroyed before the last step. If it is
/// moved away, the next page throws CEDAR_IS_CLOSED; if it is assigned to or swapped, the next page has what it holds then.
///
/// A key's bytes stay as long as an iterator is at the key or before it on its way, or as the range that the iterator comes from
/// (`entries`) lives. So an iterator that isn't in a variable, as what find returns, shows its entry by a passing_entry, which keeps the
/// key, and its arrow leads to the value alone. Two iterators are equal if both are at the end, or if they are at equal keys. An iterator,
/// its copies and its range are used by one thread at a time.
class entry_iterator {
public:
    using iterator_concept = std::forward_iterator_tag;
    using iterator_category = std::input_iterator_tag; // what it shows is made anew, so C++17 has no higher name for it
    using value_type = owned_entry;
    using difference_type = std::ptrdiff_t;
    using reference = entry;

    /// What an iterator's arrow gives: `it->key`, `it->value`.
    class pointer {
    public:
        explicit pointer(entry shown) noexcept : shown_(shown) {}
        const entry *operator->() const noexcept { return &shown_; }

    private:
        entry shown_;
    };

    /// The end of every range.
    entry_iterator() = default;

    entry operator*() const & noexcept { return page_->at(index_); }
    passing_entry operator*() const && {
        const entry shown = page_->at(index_);
        return {passing_key(shown.key), shown.value};
    }
    pointer operator->() const & noexcept { return pointer(**this); }
    passing_value operator->() const && noexcept { return passing_value(page_->at(index_).value); }

    /// Goes on to the next entry. Throws std::bad_alloc; CEDAR_IS_CLOSED; and CEDAR_NOT_ASCENDING if labels don't ascend and it comes from
    /// find, or the dictionary was assigned to or swapped meanwhile. Then it stays where it was.
    entry_iterator &operator++() {
        if (index_ + 1 < page_->count()) {
            ++index_;
            return *this;
        }
        page_ = std::shared_ptr<detail::page>(page_->following());
        index_ = 0;
        return *this;
    }
    entry_iterator operator++(int) {
        entry_iterator before = *this;
        ++*this;
        return before;
    }

    friend bool operator==(const entry_iterator &one, const entry_iterator &other) noexcept {
        if (!one.page_ || !other.page_) return one.page_ == other.page_;
        return (one.page_ == other.page_ && one.index_ == other.index_) || one->key == other->key;
    }
    friend bool operator!=(const entry_iterator &one, const entry_iterator &other) noexcept { return !(one == other); }

private:
    friend class entries;
    friend class dictionary;
    explicit entry_iterator(std::shared_ptr<detail::page> first) noexcept : page_(std::move(first)) {}

    std::shared_ptr<detail::page> page_; // none at the end
    std::size_t index_ = 0;
};

/// Entries in iteration order: that of bytes if the dictionary is ordered. The first few are taken when the range is made, and the others
/// as an iterator comes to them: entry_iterator says what holds if the dictionary changes meanwhile. The range keeps what it has shown. So
/// it shows the same again, and the bytes of its keys stay as long as the range, or what it is moved to. If labels don't ascend, all are
/// taken when it is made.
class entries {
public:
    using iterator = entry_iterator;
    using const_iterator = entry_iterator;
    using value_type = owned_entry;
    using reference = entry;
    using const_reference = entry;
    using difference_type = std::ptrdiff_t;

    iterator begin() const noexcept { return iterator(first_); }
    iterator end() const noexcept { return {}; }

    /// Whether there is none.
    bool empty() const noexcept { return !first_; }

private:
    friend class dictionary;
    explicit entries(std::shared_ptr<detail::page> first) noexcept : first_(std::move(first)) {}

    std::shared_ptr<detail::page> first_;
};

} // namespace roskvidh

#endif
