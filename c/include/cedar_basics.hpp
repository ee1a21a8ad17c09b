// What the classes of cedar.hpp share: errors and small types. Include cedar.hpp.
#ifndef ROSKVIDH_CEDAR_BASICS_HPP
#define ROSKVIDH_CEDAR_BASICS_HPP

#include "cedar.h"

#include <cerrno>
#include <cstddef>
#include <cstdint>
#include <iterator>
#include <limits>
#include <new>
#include <optional>
#include <stdexcept>
#include <string>
#include <string_view>
#include <system_error>
#include <type_traits>
#include <vector>

namespace roskvidh {

/// How the slots of a dictionary represent its keys. All results are the same in both; the reduced layout takes fewer slots.
enum class layout { standard, reduced };

/// Which values come first among the best.
enum class by_value { highest_first, lowest_first };

/// How many edits a key may be away from what was asked for: each puts in, takes out or changes a byte.
enum class edits { one, two };

/// The version of a file's format: 1.1 lists the slots in use, 1.0 all slots.
enum class file_format { v1_1, v1_0 };

/// A call that was refused. what() is the library's text, behind the path if a file was refused, followed by the position if there is one.
class error : public std::runtime_error {
public:
    error(std::uint32_t status, std::optional<std::size_t> position, std::optional<std::size_t> index = std::nullopt,
          const std::string &path = std::string())
        : std::runtime_error((path.empty() ? path : path + ": ") + text_of(status, position, index)),
          status_(status), position_(position), index_(index) {}

    /// The status of cedar.h, such as CEDAR_NUL_BYTE.
    std::uint32_t status() const noexcept { return status_; }

    /// For CEDAR_NUL_BYTE, the position of the first byte 0 in the key. For CEDAR_DUPLICATE_KEY and CEDAR_KEYS_NOT_SORTED, the index of the
    /// pair. For CEDAR_STORE_DAMAGED, the byte of the file at which the damaged record begins. Otherwise nothing.
    std::optional<std::size_t> position() const noexcept { return position_; }

    /// Which of many pairs or changes has the fault: its index in what the call was given. Otherwise nothing.
    std::optional<std::size_t> index() const noexcept { return index_; }

private:
    static std::string text_of(std::uint32_t status, std::optional<std::size_t> position, std::optional<std::size_t> index) {
        std::uint8_t none = 0;
        std::string text(cedar_status_text(status, &none, 0), ' ');
        if (!text.empty()) cedar_status_text(status, reinterpret_cast<std::uint8_t *>(text.data()), text.size());
        const bool is_byte = status == CEDAR_NUL_BYTE || status == CEDAR_STORE_DAMAGED;
        std::string place;
        if (position && is_byte) place = "at byte " + std::to_string(*position);
        if (index) place += (place.empty() ? "at pair " : " of pair ") + std::to_string(*index);
        return place.empty() ? text : text + " (" + place + ")";
    }

    std::uint32_t status_;
    std::optional<std::size_t> position_;
    std::optional<std::size_t> index_;
};

/// A value that isn't from 0 to 2147483645. Its status() is CEDAR_INVALID_VALUE.
class value_out_of_range : public error {
public:
    using error::error;
};

namespace detail {

// What every dictionary refuses: it takes the part of each value that is out of range.
inline constexpr std::int32_t refused_value = -1;

// Integers, and those enumerations that C++ takes for integers.
template <class Number>
inline constexpr bool is_whole = std::is_integral_v<Number> || (std::is_enum_v<Number> && std::is_convertible_v<Number, std::intmax_t>);

template <class Number>
constexpr bool is_in_range(Number value) noexcept {
    if constexpr (std::is_signed_v<Number>) {
        if (value < 0) return false;
    }
    // A narrower type has no larger number.
    if constexpr (std::numeric_limits<Number>::digits >= 31) return value <= static_cast<Number>(CEDAR_MAX_VALUE);
    return true;
}

template <class Number>
constexpr std::int32_t value_of(Number value) noexcept {
    if constexpr (std::is_enum_v<Number>) return value_of(static_cast<std::underlying_type_t<Number>>(value));
    else return is_in_range(value) ? static_cast<std::int32_t>(value) : refused_value;
}

} // namespace detail

/// A value that is handed to a call, of any type of integers, or of an enumeration that isn't scoped. One that isn't from 0 to 2147483645
/// is refused by the call (value_out_of_range), and none is cut. A floating-point number, a scoped enumeration or an object that converts
/// to an integer isn't compiled: cast it.
class any_integer {
public:
    template <class Number, std::enable_if_t<detail::is_whole<Number>, int> = 0>
    constexpr any_integer(Number value) noexcept : value_(detail::value_of(value)) {}

    /// The value as cedar.h takes it: a negative one if it is out of range.
    constexpr std::int32_t get() const noexcept { return value_; }

private:
    std::int32_t value_;
};

/// A key that was found: its value, and how many bytes the key has.
using match = cedar_match;

/// A key in a text: where it begins, how many bytes it has, and its value.
using occurrence = cedar_found;

/// A token of a text: where it begins, how many bytes it has, and its value if it is a key.
struct token {
    std::size_t place;
    std::size_t length;
    std::optional<std::int32_t> value;
};

/// Characters of one kind: those with the numbers from first to last in Unicode.
using character_range = cedar_range;

/// What the tokens of a text cost.
struct cut_costs {
    std::vector<std::uint32_t> keys;                                   ///< what a key costs, at its value
    std::uint32_t beyond = std::numeric_limits<std::uint32_t>::max();  ///< what one costs whose value isn't below their number
    std::vector<character_range> kinds;                                ///< the kind of a character is that of the first that has it
    std::uint32_t unknown = std::numeric_limits<std::uint32_t>::max(); ///< what a run of characters of one kind costs
    std::size_t most = 24;                                             ///< how many characters a run has at most
    bool beside_keys = true;                                           ///< whether a run may begin where a key begins too
};

/// Figures of a dictionary.
struct statistics {
    std::size_t keys;         ///< how many keys are held
    std::size_t used_slots;   ///< how many slots represent the root, bytes of keys, and values
    std::size_t capacity;     ///< how many slots there are
    std::size_t spare_blocks; ///< how many blocks of 256 slots can come into use before memory is allocated
};

namespace detail {

// What is proved of C is of pointers that aren't null, as that of an empty view may be.
inline const std::uint8_t *bytes(std::string_view text) noexcept {
    return reinterpret_cast<const std::uint8_t *>(text.empty() ? "" : text.data());
}

// Nor is the pointer to the items of a list that has none.
template <class Item>
const Item *array(const std::vector<Item> &items) noexcept {
    static const Item none{};
    return items.empty() ? &none : items.data();
}

// Throws what a status says. `position` is what C has written, `index` that of the pair which the status speaks of, if there are many, and
// `path` that of the file, if it is one that was refused.
inline void check(std::uint32_t status, std::size_t position = 0, std::optional<std::size_t> index = std::nullopt,
                  const std::string &path = std::string()) {
    switch (status) {
    case CEDAR_OK: return;
    case CEDAR_MEMORY: throw std::bad_alloc();
    case CEDAR_INVALID_VALUE: throw value_out_of_range(status, std::nullopt, index);
    case CEDAR_DUPLICATE_KEY:
    case CEDAR_KEYS_NOT_SORTED: throw error(status, position, position);
    case CEDAR_NUL_BYTE:
    case CEDAR_STORE_DAMAGED: throw error(status, position, index, path);
    default: throw error(status, std::nullopt, index, path);
    }
}

// Whether a status speaks of a key or a value that a call was given.
inline bool is_fault(std::uint32_t status) noexcept {
    return status == CEDAR_EMPTY_KEY || status == CEDAR_NUL_BYTE || status == CEDAR_INVALID_VALUE;
}

// As check, for a call of many pairs: the error says which one has the fault.
inline void check_pairs(std::uint32_t status, std::size_t position, const std::vector<cedar_pair> &pairs) {
    if (is_fault(status)) check(status, position, cedar_faulty_pair(pairs.data(), pairs.size()));
    check(status, position);
}

// The keys of a range as C takes them: they name its bytes.
template <class Keys>
std::vector<cedar_key> keys_of(const Keys &keys) {
    static_assert(std::is_lvalue_reference_v<decltype(*std::begin(keys))>, "the keys stand in the range, which lends them");
    std::vector<cedar_key> listed;
    listed.reserve(1); // so that data() isn't null
    for (const auto &key : keys) {
        const std::string_view view(key);
        listed.push_back({bytes(view), view.size()});
    }
    return listed;
}

// Calls what a scan is told to, and returns whether it goes on: what returns a bool ends it by false.
template <class Callable, class Item>
bool tell(Callable &callable, const Item &item) {
    if constexpr (std::is_same_v<std::invoke_result_t<Callable &, const Item &>, bool>) {
        return callable(item);
    } else {
        callable(item);
        return true;
    }
}

inline token token_of(const cedar_found &one) noexcept {
    return {one.place, one.length, one.value < 0 ? std::nullopt : std::optional(one.value)};
}

inline std::vector<token> tokens_of(const std::vector<cedar_found> &found, std::size_t count) {
    std::vector<token> tokens;
    tokens.reserve(count);
    for (std::size_t i = 0; i < count; ++i) tokens.push_back(token_of(found[i]));
    return tokens;
}

[[noreturn]] inline void throw_file_error(int number, const std::string &path) {
    throw std::system_error(number, std::generic_category(), path);
}

// A path as C takes it, which ends at a byte 0: what has one before its end is no path.
inline const char *path_of(const std::string &path) {
    if (path.find('\0') != std::string::npos) throw_file_error(EINVAL, path);
    return path.c_str();
}

// Whether a call on a store's file failed or found no room.
inline bool is_of_device(std::uint32_t status) noexcept {
    return status == CEDAR_STORE_DEVICE || status == CEDAR_STORE_KEPT || status == CEDAR_STORE_NO_ROOM;
}

// As check, for a save to a path. What errno has is read before anything else may change it.
inline void check_saved(std::uint32_t status, const std::string &path) {
    const int number = errno;
    if (status == CEDAR_FILE_UNREAD) throw_file_error(number, path);
    check(status);
}

// As check, for the file at a path that a call opened: the error names it. `position` is where in the file it is damaged.
inline void check_opened(std::uint32_t status, const std::string &path, std::size_t position = 0) {
    const int number = errno;
    if (status == CEDAR_FILE_UNREAD || is_of_device(status)) throw_file_error(number, path);
    check(status, position, std::nullopt, path);
}

} // namespace detail

} // namespace roskvidh

#endif
