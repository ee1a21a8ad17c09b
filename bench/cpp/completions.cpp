// Completions from C, measured as crates/trial_run measures them from Rattle. `completions FOLDER PASSES` reads the files that
// bench/completions has written, and prints for each pass of each measure a line `measure TAB nanoseconds TAB operations TAB sum`.
#include "cedar.h"
#include <cstdio>
#include <cstdlib>
#include <ctime>
#include <fstream>
#include <iterator>
#include <string>
#include <vector>

namespace {

constexpr std::size_t SHOWN = 10, PAGES = 10000, KEY_ROOM = 4096;
const std::string PREFIX = "p";

[[noreturn]] void stop(const char *why) {
    std::fprintf(stderr, "completions: %s\n", why);
    std::exit(1);
}

void need(std::uint32_t status) {
    if (status != CEDAR_OK) stop("a call was refused");
}

const std::uint8_t *bytes_of(const std::string &text) { return reinterpret_cast<const std::uint8_t *>(text.data()); }

// The keys of a file of records: four bytes of length, the lowest first, and the key.
std::vector<std::string> keys_of(const std::string &path) {
    std::ifstream file(path, std::ios::binary);
    const std::string all{std::istreambuf_iterator<char>(file), {}};
    std::vector<std::string> keys;
    for (std::size_t place = 0; place + 4 <= all.size();) {
        std::size_t length = 0;
        for (std::size_t i = 0; i < 4; ++i) length |= static_cast<std::size_t>(static_cast<unsigned char>(all[place + i])) << (8 * i);
        if (all.size() - place - 4 < length) stop("a key is cut off");
        keys.push_back(all.substr(place + 4, length));
        place += 4 + length;
    }
    if (keys.empty()) stop("a file has no keys");
    return keys;
}

cedar_dictionary filled(const std::vector<std::string> &keys) {
    cedar_dictionary d = CEDAR_CLOSED;
    need(cedar_new(&d));
    for (std::size_t place = 0; place < keys.size(); ++place) {
        const std::int32_t value = static_cast<std::int32_t>(place * 2654435761U % 2147483629U);
        need(cedar_update(&d, bytes_of(keys[place]), keys[place].size(), value, nullptr));
    }
    return d;
}

std::uint64_t of_entry(std::size_t length, std::int32_t value) { return (static_cast<std::uint64_t>(value) + 1) * length; }

double nanoseconds() {
    timespec now{};
    clock_gettime(CLOCK_THREAD_CPUTIME_ID, &now);
    return 1e9 * static_cast<double>(now.tv_sec) + static_cast<double>(now.tv_nsec);
}

template <class Call>
void timed(const char *measure, std::size_t operations, Call call) {
    const double begun = nanoseconds();
    const std::uint64_t sum = call();
    const double spent = nanoseconds() - begun;
    std::printf("%s\t%.0f\t%zu\t%llu\n", measure, spent, operations, static_cast<unsigned long long>(sum));
}

// The sum over a page of ten that come behind a key.
std::uint64_t page(const cedar_dictionary &d, const std::string &behind) {
    cedar_found found[SHOWN];
    std::uint8_t keys[KEY_ROOM];
    std::size_t count = 0, needed = 0;
    need(cedar_entries_below(&d, bytes_of(PREFIX), PREFIX.size(), bytes_of(behind), behind.size(), found, SHOWN, keys, sizeof keys, &count,
                             &needed));
    std::uint64_t sum = 0;
    for (std::size_t i = 0; i < count; ++i) sum += of_entry(found[i].length, found[i].value);
    return sum;
}

// How many completions there are, by a walk over their pages.
std::uint64_t counted(const cedar_dictionary &d) {
    std::vector<cedar_found> found(256);
    std::vector<std::uint8_t> keys(1 << 16);
    std::uint64_t all = 0;
    std::string behind;
    for (std::size_t needed = 1; needed > 0;) {
        std::size_t count = 0;
        need(cedar_entries_below(&d, bytes_of(PREFIX), PREFIX.size(), bytes_of(behind), behind.size(), found.data(), found.size(),
                                 keys.data(), keys.size(), &count, &needed));
        if (count > 0) behind.assign(reinterpret_cast<char *>(keys.data()) + found[count - 1].place, found[count - 1].length);
        all += count;
    }
    return all;
}

void completed(const cedar_dictionary &d, const std::vector<std::string> &keys) {
    cedar_match none{};
    const std::size_t all = cedar_predictions(&d, bytes_of(PREFIX), PREFIX.size(), &none, 0);
    timed("counted", all, [&] { return counted(d); });
    timed("predicted", all, [&] { return cedar_predictions(&d, bytes_of(PREFIX), PREFIX.size(), &none, 0); });
    timed("best", 1, [&] {
        cedar_found found[SHOWN];
        std::uint8_t bytes[KEY_ROOM];
        std::size_t count = 0, needed = 0;
        need(cedar_best(&d, bytes_of(PREFIX), PREFIX.size(), false, found, SHOWN, bytes, sizeof bytes, &count, &needed));
        std::uint64_t sum = 0;
        for (std::size_t i = 0; i < count; ++i) sum += of_entry(found[i].length, found[i].value);
        return sum;
    });
    // The keys ascend, and those with the prefix come first.
    const std::string middle = keys[all / 2 - 1];
    const auto pages = [&d](const std::string &behind) {
        std::uint64_t sum = 0;
        for (std::size_t i = 0; i < PAGES; ++i) sum += page(d, behind);
        return sum;
    };
    timed("page_first", PAGES, [&] { return pages({}); });
    timed("page_middle", PAGES, [&] { return pages(middle); });
}

// Each word that is an edit away from each query, or two.
std::uint64_t near(const cedar_dictionary &d, const std::vector<std::string> &queries, bool two_edits) {
    std::uint64_t sum = 0;
    std::uint8_t found[KEY_ROOM];
    for (const std::string &query : queries) {
        std::string behind;
        for (;;) {
            std::int32_t value = 0;
            std::size_t length = 0;
            need(cedar_next_near(&d, bytes_of(query), query.size(), two_edits, false, bytes_of(behind), behind.size(), found, sizeof found,
                                 &value, &length));
            if (length == 0) break;
            behind.assign(reinterpret_cast<char *>(found), length);
            sum += of_entry(length, value);
        }
    }
    return sum;
}

} // namespace

int main(int count, char **arguments) {
    if (count != 3) stop("usage: completions FOLDER PASSES");
    const std::string folder = arguments[1];
    const std::vector<std::string> keys = keys_of(folder + "/completed"), queries = keys_of(folder + "/queries");
    cedar_dictionary all = filled(keys), words = filled(keys_of(folder + "/words"));
    for (int pass = 0; pass < std::atoi(arguments[2]); ++pass) {
        completed(all, keys);
        timed("near_looked_up", queries.size(), [&] { return near(words, queries, false); });
        timed("near_two", queries.size(), [&] { return near(words, queries, true); });
    }
    cedar_free(&all);
    cedar_free(&words);
}
