// The keys and queries of a workload, read from the files that bench/workloads.py writes. A file of keys is records: four bytes of length,
// the lowest first, and the key. A byte 0 is put behind each key in memory, for subjects that take C's strings.
#pragma once
#include <cstdint>
#include <cstdio>
#include <cstdlib>
#include <fstream>
#include <iterator>
#include <string>
#include <vector>

struct Key {
    const char *bytes;
    uint32_t length;
};

struct Pair {
    Key key;
    int32_t value;
};

[[noreturn]] inline void stop(const std::string &message) {
    std::fprintf(stderr, "measure: %s\n", message.c_str());
    std::exit(1);
}

inline std::string read_file(const std::string &path) {
    std::ifstream file(path, std::ios::binary);
    if (!file) stop("there is no file " + path);
    return {std::istreambuf_iterator<char>(file), {}};
}

// A list of keys that lie one behind the other in memory, in the order in which they are used.
class Keys {
public:
    explicit Keys(const std::string &path) : bytes(read_file(path)) {
        for (size_t place = 0; place + 4 <= bytes.size();) {
            uint32_t length = 0;
            for (int i = 3; i >= 0; i--) length = length << 8 | static_cast<unsigned char>(bytes[place + i]);
            lengths.push_back(length);
            place += 4 + length;
        }
        std::string text;
        text.reserve(bytes.size());
        size_t place = 0;
        for (uint32_t length : lengths) {
            text.append(bytes, place + 4, length).push_back('\0');
            place += 4 + length;
        }
        bytes.swap(text);
        place = 0;
        for (uint32_t length : lengths) {
            all.push_back({bytes.data() + place, length});
            place += length + 1;
        }
    }
    Keys(const Keys &) = delete;
    const std::vector<Key> &list() const { return all; }

private:
    std::string bytes;
    std::vector<uint32_t> lengths;
    std::vector<Key> all;
};

// A key's value is its place in sorted order, from 0. `order` is a file of such places, four bytes each.
inline std::vector<Pair> pairs_of(const Keys &keys, const std::string &order) {
    std::string places = order.empty() ? std::string() : read_file(order);
    std::vector<Pair> pairs;
    for (size_t i = 0; i < keys.list().size(); i++) {
        uint32_t value = static_cast<uint32_t>(i);
        if (!order.empty()) {
            value = 0;
            for (int b = 3; b >= 0; b--) value = value << 8 | static_cast<unsigned char>(places.at(4 * i + b));
        }
        pairs.push_back({keys.list()[i], static_cast<int32_t>(value)});
    }
    return pairs;
}

struct Workload {
    explicit Workload(const std::string &folder)
        : sorted_keys(folder + "/sorted"), shuffled_keys(folder + "/shuffled"), hits(folder + "/hits"), misses(folder + "/misses"),
          erasures(folder + "/erasures"), prefixes(folder + "/prefixes"), text(read_file(folder + "/text")),
          sorted(pairs_of(sorted_keys, "")), shuffled(pairs_of(shuffled_keys, folder + "/shuffled.values")) {}

    Keys sorted_keys, shuffled_keys, hits, misses, erasures, prefixes;
    std::string text;
    std::vector<Pair> sorted, shuffled;
};
