// The dictionary as a C++ class, and 100,000 random calls beside a std::map.
#include "cedar.h"
#include "check.h"
#include <map>
#include <new>
#include <optional>
#include <stdexcept>
#include <string>
#include <string_view>
#include <utility>

namespace {

class Cedar {
public:
    enum class Layout { standard, reduced };

    explicit Cedar(Layout layout = Layout::standard) {
        if ((layout == Layout::reduced ? cedar_new_reduced(&inside, true, 1) : cedar_new(&inside)) != CEDAR_OK) throw std::bad_alloc();
    }
    ~Cedar() { cedar_free(&inside); }
    Cedar(const Cedar &) = delete;
    Cedar &operator=(const Cedar &) = delete;
    Cedar(Cedar &&other) noexcept : inside(std::exchange(other.inside, cedar_dictionary CEDAR_CLOSED)) {}
    Cedar &operator=(Cedar &&other) noexcept {
        std::swap(inside, other.inside);
        return *this;
    }

    void update(std::string_view key, std::int32_t value) {
        std::size_t position = 0;
        switch (cedar_update(&inside, bytes(key), key.size(), value, &position)) {
        case CEDAR_OK: return;
        case CEDAR_MEMORY: throw std::bad_alloc();
        case CEDAR_SLOT_LIMIT: throw std::length_error("no slot left");
        case CEDAR_NUL_BYTE: throw std::invalid_argument("byte 0 at " + std::to_string(position));
        default: throw std::invalid_argument("an empty key, or a value out of range");
        }
    }
    bool erase(std::string_view key) { return cedar_erase(&inside, bytes(key), key.size()); }
    std::optional<std::int32_t> find(std::string_view key) {
        std::int32_t value = 0;
        if (!cedar_get(&inside, bytes(key), key.size(), &value)) return std::nullopt;
        return value;
    }
    std::size_t size() { return cedar_len(&inside); }
    bool is_reduced() { return cedar_is_reduced(&inside); }

private:
    // A string_view's pointer may be null where it is empty.
    static const std::uint8_t *bytes(std::string_view key) {
        return reinterpret_cast<const std::uint8_t *>(key.empty() ? "" : key.data());
    }
    cedar_dictionary inside = CEDAR_CLOSED;
};

std::string random_key() {
    std::string key(1 + next_random() % 6, ' ');
    for (char &byte : key) byte = static_cast<char>(1 + next_random() % 255 % (next_random() % 2 ? 3 : 255));
    return key;
}

void random_calls(Cedar::Layout layout) {
    Cedar first(layout);
    CHECK(first.is_reduced() == (layout == Cedar::Layout::reduced));
    std::map<std::string, std::int32_t> plain;
    for (int i = 0; i < 100000; i++) {
        std::string key = random_key();
        auto held = plain.find(key);
        switch (next_random() % 3) {
        case 0:
            first.update(key, i);
            plain[key] = i;
            break;
        case 1:
            CHECK(first.erase(key) == (plain.erase(key) == 1));
            break;
        default:
            CHECK(first.find(key) == (held == plain.end() ? std::nullopt : std::optional(held->second)));
        }
        CHECK(first.size() == plain.size());
    }
    Cedar second = std::move(first);
    CHECK(first.size() == 0 && second.size() == plain.size());
    try {
        second.update(std::string_view("a\0b", 3), 1);
        CHECK(false);
    } catch (const std::invalid_argument &e) {
        CHECK(std::string(e.what()) == "byte 0 at 1");
    }
}

} // namespace

int main() {
    random_calls(Cedar::Layout::standard);
    random_calls(Cedar::Layout::reduced);
    std::puts("ok");
}
