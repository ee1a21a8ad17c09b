// Entries that are found one by one: next to a key, near a text, of a pattern, and in ranges that go backwards. Include cedar.hpp.
#ifndef ROSKVIDH_CEDAR_COMPLETIONS_HPP
#define ROSKVIDH_CEDAR_COMPLETIONS_HPP

#include "cedar_basics.hpp"
#include "cedar_entries.hpp"

#include <cstddef>
#include <cstdint>
#include <iterator>
#include <optional>
#include <string>
#include <string_view>
#include <utility>
#include <vector>

namespace roskvidh {

namespace detail {

using beside_call = std::uint32_t (*)(const cedar_dictionary *, const std::uint8_t *, std::size_t, bool, std::uint8_t *, std::size_t,
                                      std::int32_t *, std::size_t *);
using near_call = std::uint32_t (*)(const cedar_dictionary *, const std::uint8_t *, std::size_t, bool, bool, const std::uint8_t *,
                                    std::size_t, std::uint8_t *, std::size_t, std::int32_t *, std::size_t *);

// Makes a call that writes one entry, until there is room for its key. Nothing if there is no entry.
template <class Call>
std::optional<owned_entry> found_by(const Call &call) {
    std::string key(64, '\0');
    std::int32_t value = 0;
    std::size_t needed = 0;
    std::uint32_t status = CEDAR_NO_ROOM;
    while ((status = call(reinterpret_cast<std::uint8_t *>(key.data()), key.size(), &value, &needed)) == CEDAR_NO_ROOM) key.resize(needed);
    check(status);
    if (needed == 0) return std::nullopt;
    key.resize(needed);
    return owned_entry(std::move(key), value);
}

// The entry next to a key.
inline std::optional<owned_entry> neighbour(const cedar_dictionary &mine, beside_call call, std::string_view key, bool included) {
    return found_by([&](std::uint8_t *buffer, std::size_t room, std::int32_t *value, std::size_t *needed) {
        return call(&mine, bytes(key), key.size(), included, buffer, room, value, needed);
    });
}

// The first entries, at most `most`, each of which `next` finds behind the key of the one before it.
template <class Next>
std::vector<owned_entry> found_behind(const Next &next, std::size_t most) {
    std::vector<owned_entry> kept;
    std::string behind;
    while (kept.size() < most) {
        std::optional<owned_entry> one = found_by([&](std::uint8_t *buffer, std::size_t room, std::int32_t *value, std::size_t *needed) {
            return next(behind, buffer, room, value, needed);
        });
        if (!one) break;
        behind = one->key;
        kept.push_back(std::move(*one));
    }
    return kept;
}

// The first entries whose keys are near a text, or begin with what is.
inline std::vector<owned_entry> near(const cedar_dictionary &mine, near_call call, std::string_view text, edits most_edits,
                                     bool is_beginning, std::size_t most) {
    const auto next = [&](std::string_view behind, std::uint8_t *buffer, std::size_t room, std::int32_t *value, std::size_t *needed) {
        return call(&mine, bytes(text), text.size(), most_edits == edits::two, is_beginning, bytes(behind), behind.size(), buffer, room,
                    value, needed);
    };
    return found_behind(next, most);
}

// The first entries whose keys fit a pattern.
inline std::vector<owned_entry> fitting(const cedar_dictionary &mine, std::string_view pattern, std::size_t most) {
    const auto next = [&](std::string_view behind, std::uint8_t *buffer, std::size_t room, std::int32_t *value, std::size_t *needed) {
        return cedar_next_fitting(&mine, bytes(pattern), pattern.size(), bytes(behind), behind.size(), buffer, room, value, needed);
    };
    return found_behind(next, most);
}

// The first byte string behind all that begin with a prefix; nothing if there is none.
inline std::optional<std::string> behind_prefix(std::string_view prefix) {
    std::string end(prefix);
    while (!end.empty() && end.back() == '\xff') end.pop_back();
    if (end.empty()) return std::nullopt;
    end.back() = static_cast<char>(static_cast<unsigned char>(end.back()) + 1);
    return end;
}

} // namespace detail

/// Goes through the entries of a dictionary backwards. It has one entry, and finds the one before it when it steps on: by about as many
/// look-ups as the found key has bytes, so that it costs more than the way forwards. Copies go on independently.
///
/// The dictionary may be changed meanwhile: a step goes to the last key before the one that is shown, whether that is still held or not.
/// The dictionary must not be destroyed before the last step. A key's bytes stay until the iterator's next step or its end. Two iterators
/// are equal if both are at the end, or if they are at equal keys.
class reversed_iterator {
public:
    using iterator_concept = std::input_iterator_tag;
    using iterator_category = std::input_iterator_tag;
    using value_type = owned_entry;
    using difference_type = std::ptrdiff_t;
    using reference = entry;
    using pointer = entry_iterator::pointer;

    /// The end of every range.
    reversed_iterator() = default;

    entry operator*() const & noexcept { return *shown_; }
    passing_entry operator*() const && { return {passing_key(shown_->key), shown_->value}; }
    pointer operator->() const & noexcept { return pointer(**this); }
    passing_value operator->() const && noexcept { return passing_value(shown_->value); }

    /// Goes on to the entry before this one. Throws std::bad_alloc; CEDAR_IS_CLOSED; and CEDAR_NOT_ASCENDING if the dictionary was assigned
    /// to or swapped meanwhile, and its labels don't ascend. Then it stays where it was.
    reversed_iterator &operator++() {
        go_to(shown_->key, false);
        return *this;
    }
    reversed_iterator operator++(int) {
        reversed_iterator before = *this;
        ++*this;
        return before;
    }

    friend bool operator==(const reversed_iterator &one, const reversed_iterator &other) noexcept {
        if (!one.shown_ || !other.shown_) return one.shown_.has_value() == other.shown_.has_value();
        return one.shown_->key == other.shown_->key;
    }
    friend bool operator!=(const reversed_iterator &one, const reversed_iterator &other) noexcept { return !(one == other); }

private:
    friend class reversed_entries;
    reversed_iterator(const cedar_dictionary *dictionary, std::string from) : dictionary_(dictionary), from_(std::move(from)) {}

    // Shows the last entry up to a key, if it isn't below the range's start.
    void go_to(std::string_view key, bool included) {
        const cedar_dictionary mine = *dictionary_;
        std::optional<owned_entry> found = detail::neighbour(mine, cedar_floor, key, included);
        if (found && found->key < from_) found.reset();
        shown_ = std::move(found);
    }

    const cedar_dictionary *dictionary_ = nullptr;
    std::string from_;
    std::optional<owned_entry> shown_; // none at the end
};

/// Entries of a dictionary whose labels ascend, the last one first. The first of them is found when the range is made, and each further one
/// as an iterator comes to it: reversed_iterator says what holds if the dictionary changes meanwhile.
class reversed_entries {
public:
    using iterator = reversed_iterator;
    using const_iterator = reversed_iterator;
    using value_type = owned_entry;
    using reference = entry;
    using const_reference = entry;
    using difference_type = std::ptrdiff_t;

    iterator begin() const { return first_; }
    iterator end() const { return {}; }

    /// Whether there is none.
    bool empty() const noexcept { return !first_.shown_; }

private:
    friend class dictionary;

    // Those from `from` on and before `to`, if there is such an end.
    reversed_entries(const cedar_dictionary *dictionary, std::string from, const std::optional<std::string> &to)
        : first_(dictionary, std::move(from)) {
        const cedar_dictionary mine = *dictionary;
        if (cedar_capacity(&mine) == 0 || (to && to->empty())) return;
        first_.go_to(to ? std::string_view(*to) : std::string_view(), !to);
    }

    reversed_iterator first_;
};

} // namespace roskvidh

#endif
