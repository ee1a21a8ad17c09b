// The subject `here_c`: this repository's library, by the calls of c/include/cedar.h.
#include "measures.hpp"
#include "cedar.h"

inline const uint8_t *bytes_of(const char *text) { return reinterpret_cast<const uint8_t *>(text); }

struct Cedar {
    cedar_dictionary d = CEDAR_CLOSED;

    Cedar() { if (cedar_new(&d) != CEDAR_OK) stop("no memory"); }
    ~Cedar() { cedar_free(&d); }
    Cedar(const Cedar &) = delete;

    bool update(Key key, int32_t value) { return cedar_update(&d, bytes_of(key.bytes), key.length, value, nullptr) == CEDAR_OK; }
    bool get(Key key, int32_t &value) const { return cedar_get(&d, bytes_of(key.bytes), key.length, &value); }
    bool erase(Key key) { return cedar_erase(&d, bytes_of(key.bytes), key.length); }

    static std::vector<cedar_pair> listed(const std::vector<Pair> &pairs) {
        std::vector<cedar_pair> list;
        list.reserve(pairs.size());
        for (const Pair &pair : pairs) list.push_back({bytes_of(pair.key.bytes), pair.key.length, pair.value});
        return list;
    }
    void build(const std::vector<Pair> &sorted) {
        auto pairs = listed(sorted);
        if (cedar_build(&d, true, 1, pairs.data(), pairs.size(), nullptr) != CEDAR_OK) stop("a build was refused");
    }
    void update_all(const std::vector<Pair> &shuffled) {
        auto pairs = listed(shuffled);
        if (cedar_update_all(&d, pairs.data(), pairs.size(), nullptr) != CEDAR_OK) stop("updates were refused");
    }
    void build_unsorted(const std::vector<Pair> &shuffled) {
        auto pairs = listed(shuffled);
        if (cedar_build_unsorted(&d, true, 1, pairs.data(), pairs.size(), nullptr) != CEDAR_OK) stop("a build was refused");
    }
    size_t erase_all(const std::vector<Key> &keys) {
        std::vector<cedar_key> list;
        list.reserve(keys.size());
        for (const Key &key : keys) list.push_back({bytes_of(key.bytes), key.length});
        return cedar_erase_all(&d, list.data(), list.size(), nullptr, 0);
    }

    template <class Visit> void prefixes(const char *text, size_t length, Visit &&visit) const {
        cedar_match matches[256];
        size_t count = cedar_prefixes(&d, bytes_of(text), length, matches, 256);
        for (size_t i = 0; i < count; i++) visit(matches[i].value, matches[i].length);
    }

    // In one call if there is room, else in pieces with as much room as the first call asked for.
    template <class Visit> void predictions(Key prefix, Visit &&visit) const {
        static std::vector<cedar_match> matches(4096);
        size_t count = cedar_predictions(&d, bytes_of(prefix.bytes), prefix.length, matches.data(), matches.size());
        if (count > matches.size()) {
            matches.resize(count);
            count = cedar_predictions(&d, bytes_of(prefix.bytes), prefix.length, matches.data(), matches.size());
        }
        for (size_t i = 0; i < count; i++) visit(matches[i].value, matches[i].length);
    }

    // Page after page, each behind the last key of the one before it.
    template <class Visit> void entries(Visit &&visit) const {
        static cedar_found found[1024];
        static uint8_t bytes[1 << 18];
        std::string last;
        for (size_t count = 1; count > 0;) {
            size_t needed = 0;
            if (cedar_entries_from(&d, nullptr, 0, bytes_of(last.data()), last.size(), found, 1024, bytes, sizeof bytes, &count, &needed) != CEDAR_OK)
                stop("a page of entries was refused");
            for (size_t i = 0; i < count; i++)
                visit(reinterpret_cast<const char *>(bytes) + found[i].place, found[i].length, found[i].value);
            if (count > 0) last.assign(reinterpret_cast<const char *>(bytes) + found[count - 1].place, found[count - 1].length);
        }
    }

    // A whole text in pieces, with one buffer that is used again.
    template <class Visit> void scan(const std::string &text, Visit &&visit) const { in_pieces(cedar_scan, text, visit); }
    template <class Visit> void segment(const std::string &text, Visit &&visit) const { in_pieces(cedar_segment, text, visit); }

    template <class Call, class Visit> void in_pieces(Call call, const std::string &text, Visit &&visit) const {
        static cedar_found found[16384];
        for (size_t next = 0; next < text.size();) {
            size_t count = call(&d, bytes_of(text.data()), text.size(), &next, found, 16384);
            for (size_t i = 0; i < count; i++) visit(found[i].place, found[i].length, found[i].value);
        }
    }

    size_t file_bytes() const {
        size_t needed = 0;
        cedar_save(&d, false, nullptr, 0, &needed);
        return needed;
    }
    void save(std::string &file) const {
        size_t needed = 0;
        if (cedar_save(&d, false, reinterpret_cast<uint8_t *>(file.data()), file.size(), &needed) != CEDAR_OK) stop("a save was refused");
    }
    bool load(const std::string &file) { return cedar_load(&d, bytes_of(file.data()), file.size(), CEDAR_LOAD_LIMIT) == CEDAR_OK; }
};

int main(int argc, char **argv) { return run_measures<Cedar>(argc, argv); }
