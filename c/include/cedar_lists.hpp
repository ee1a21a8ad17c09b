// Lists of pairs that a dictionary is made of, and walks that tell their results in pieces. Include cedar.hpp.
#ifndef ROSKVIDH_CEDAR_LISTS_HPP
#define ROSKVIDH_CEDAR_LISTS_HPP

#include "cedar_basics.hpp"
#include "cedar_entries.hpp"

#include <algorithm>
#include <array>
#include <cstddef>
#include <cstdint>
#include <iterator>
#include <string>
#include <string_view>
#include <type_traits>
#include <utility>
#include <vector>

namespace roskvidh {

namespace detail {

// Whether a type is one of pairs of a key and an integer, as a std::pair and an entry are.
template <class Pair>
auto test_pair(int) -> decltype(std::string_view(std::declval<const Pair &>().first), any_integer(std::declval<const Pair &>().second),
                                std::true_type());
template <class Pair>
auto test_pair(long) -> decltype(std::string_view(std::declval<const Pair &>().key), any_integer(std::declval<const Pair &>().value),
                                 std::true_type());
template <class Pair>
std::false_type test_pair(...);
template <class Pair>
inline constexpr bool is_pair = decltype(test_pair<Pair>(0))::value;

// Whether what iterators show are such pairs, and whether these stay when the iterators go on.
template <class Iterator, class Shown = decltype(*std::declval<Iterator &>())>
inline constexpr bool shows_pairs = is_pair<std::decay_t<Shown>>;
template <class Iterator>
inline constexpr bool shows_what_stays =
    std::is_lvalue_reference_v<decltype(*std::declval<Iterator &>())> &&
    std::is_base_of_v<std::forward_iterator_tag, typename std::iterator_traits<Iterator>::iterator_category>;

// The pairs between two places of a range as C takes them: they name the bytes of its keys.
template <class Iterator, class End>
std::vector<cedar_pair> pairs_between(Iterator at, const End &end) {
    std::vector<cedar_pair> listed;
    listed.reserve(1); // so that data() isn't null
    for (; at != end; ++at) {
        const auto &[key, value] = *at;
        static_assert(std::is_constructible_v<any_integer, decltype(value)>, "a value is an integer");
        const std::string_view view(key);
        listed.push_back({bytes(view), view.size(), any_integer(value).get()});
    }
    return listed;
}

// Those of a whole range.
template <class Pairs>
std::vector<cedar_pair> pairs_of(const Pairs &pairs) {
    static_assert(std::is_lvalue_reference_v<decltype(*std::begin(pairs))> || std::is_same_v<Pairs, roskvidh::entries>,
                  "the pairs stand in the range, which lends them");
    return pairs_between(std::begin(pairs), std::end(pairs));
}

// Makes a call with the pairs between two iterators. Where these don't stay when the iterators go on, their keys are kept meanwhile.
template <class Iterator, class Call>
auto with_pairs_between(Iterator first, Iterator last, const Call &call) {
    if constexpr (shows_what_stays<Iterator>) {
        return call(pairs_between(first, last));
    } else {
        std::vector<std::pair<std::string, any_integer>> kept;
        for (; first != last; ++first) {
            const auto &[key, value] = *first;
            kept.emplace_back(std::string_view(key), value);
        }
        return call(pairs_of(kept));
    }
}

template <class Found>
using walk = std::size_t (*)(const cedar_dictionary *, const std::uint8_t *, std::size_t, std::size_t *, Found *, std::size_t);

// The first results of a walk, as far as they are wanted, in pieces that double: each goes past those before it again.
inline std::vector<match> walked(const cedar_dictionary &inside, walk<match> call, std::string_view text, std::size_t most) {
    const cedar_dictionary mine = inside;
    std::vector<match> found;
    std::size_t next = 0;
    for (std::size_t room = std::min<std::size_t>(most, 64);; room = std::min(most, 2 * room)) {
        found.resize(room + 1); // so that data() isn't null
        call(&mine, bytes(text), text.size(), &next, found.data() + next, room - next);
        if (next < room || room == most) break;
    }
    found.resize(next);
    return found;
}

// Tells a text in pieces. Where none fits, one position has more keys than there is room.
template <class Tell>
void told(const cedar_dictionary &inside, walk<occurrence> call, std::string_view text, Tell tell) {
    std::array<cedar_found, 256> first{};
    std::vector<cedar_found> more;
    cedar_found *found = first.data();
    std::size_t room = first.size();
    for (std::size_t next = 0; next < text.size();) {
        const cedar_dictionary mine = inside; // `tell` may have changed it
        const std::size_t count = call(&mine, bytes(text), text.size(), &next, found, room);
        for (std::size_t i = 0; i < count; ++i) {
            if (!tell(found[i])) return;
        }
        if (count == 0 && next < text.size()) {
            room *= 2;
            more.resize(room);
            found = more.data();
        }
    }
}

} // namespace detail

} // namespace roskvidh

#endif
