// The scanner of cedar.h as a C++17 class. Include cedar.hpp.
#ifndef ROSKVIDH_CEDAR_SCANNER_HPP
#define ROSKVIDH_CEDAR_SCANNER_HPP

#include "cedar.hpp"

#include <array>
#include <cstddef>
#include <cstdint>
#include <string_view>
#include <utility>
#include <vector>

namespace roskvidh {

/// What a scanner finds in a text.
enum class search : std::uint32_t {
    overlapping = CEDAR_OVERLAPPING,           ///< all keys, by their ends: at each end the longest first
    earliest = CEDAR_EARLIEST,                 ///< keys that don't overlap: of those that end first the longest
    leftmost_longest = CEDAR_LEFTMOST_LONGEST, ///< keys that don't overlap: of those that begin first the longest
    leftmost_first = CEDAR_LEFTMOST_FIRST      ///< the same: of those that begin first the one with the least value
};

/// An automaton of a dictionary, which finds its keys in a text in linear time, whatever keys and text are. It has a copy of the
/// dictionary, which may be changed later. A scanner is moved and not copied; one that was moved from finds nothing. Any number of threads
/// may call its const members at the same time.
class scanner {
public:
    /// Makes the scanner of a dictionary for a search. cedar.h says what memory it takes. It throws the error CEDAR_IS_CLOSED if the
    /// dictionary was moved from, and std::bad_alloc.
    scanner(const dictionary &words, search what) {
        const cedar_dictionary mine = words.inside_;
        detail::check(cedar_scanner_new(&mine, static_cast<std::uint32_t>(what), &inside_));
    }

    scanner(const scanner &) = delete;
    scanner &operator=(const scanner &) = delete;

    /// Takes the other one's automaton and leaves it closed. It allocates nothing.
    scanner(scanner &&other) noexcept { swap(other); }
    scanner &operator=(scanner &&other) noexcept {
        scanner moved(std::move(other));
        swap(moved);
        return *this;
    }

    /// Frees the memory.
    ~scanner() { cedar_scanner_free(&inside_); }

    void swap(scanner &other) noexcept { std::swap(inside_, other.inside_); }

    /// Calls `callable(occurrence)` for each key that the scanner finds in a text, in the order of its search. If `callable` returns a
    /// bool, false ends it. It allocates only if more than 256 keys are found: then it finds them in pieces that double.
    template <class Callable>
    void find(std::string_view text, Callable &&callable) const {
        std::array<cedar_found, 256> first{};
        std::vector<cedar_found> more;
        cedar_found *found = first.data();
        std::size_t room = first.size();
        for (std::size_t next = 0; next < text.size();) {
            const cedar_scanner mine = inside_;
            const std::size_t count = cedar_scanner_find(&mine, detail::bytes(text), text.size(), &next, found, room);
            for (std::size_t i = 0; i < count; ++i) {
                if (!detail::tell(callable, found[i])) return;
            }
            // Each call may read bytes that another one reads too, as many as the longest key has: so there are few calls.
            if (next < text.size() && (count == 0 || room < most_room)) {
                room *= 2;
                more.resize(room);
                found = more.data();
            }
        }
    }

    /// Returns how many bytes the longest key has.
    std::size_t longest() const noexcept {
        const cedar_scanner mine = inside_;
        return cedar_scanner_longest(&mine);
    }

private:
    static constexpr std::size_t most_room = std::size_t(1) << 16;

    // A const member reads by a copy of its own, since C gives the variable to one call at a time.
    cedar_scanner inside_ = CEDAR_SCANNER_CLOSED;
};

} // namespace roskvidh

#endif
