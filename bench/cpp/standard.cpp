// The subjects `unordered_map` and, compiled with -DORDERED, `map`: those of the C++ standard library, of std::string to int32_t. A look-up
// goes by a std::string_view and makes no string.
#include "measures.hpp"
#include <map>
#include <string_view>
#include <unordered_map>

struct Hash : std::hash<std::string_view> {
    using is_transparent = void;
};
#ifdef ORDERED
using Table = std::map<std::string, int32_t, std::less<>>;
#else
using Table = std::unordered_map<std::string, int32_t, Hash, std::equal_to<>>;
#endif

struct Standard {
    Table table;

    Standard() = default;
    Standard(const Standard &) = delete;

    static std::string_view view(Key key) { return {key.bytes, key.length}; }

    bool update(Key key, int32_t value) {
        table.insert_or_assign(std::string(view(key)), value);
        return true;
    }
    bool get(Key key, int32_t &value) const {
        auto found = table.find(view(key));
        if (found == table.end()) return false;
        value = found->second;
        return true;
    }
    bool erase(Key key) {
        auto found = table.find(view(key));
        if (found == table.end()) return false;
        table.erase(found);
        return true;
    }
    void build(const std::vector<Pair> &sorted) {
#ifndef ORDERED
        table.reserve(sorted.size());
#endif
        for (const Pair &pair : sorted) table.emplace_hint(table.end(), view(pair.key), pair.value);
    }
#ifdef ORDERED
    template <class Visit> void predictions(Key prefix, Visit &&visit) const {
        for (auto at = table.lower_bound(view(prefix)); at != table.end() && at->first.starts_with(view(prefix)); ++at)
            visit(at->second, at->first.size());
    }
#endif
    template <class Visit> void entries(Visit &&visit) const {
        for (const auto &[key, value] : table) visit(key.data(), key.size(), value);
    }
};

int main(int argc, char **argv) { return run_measures<Standard>(argc, argv); }
