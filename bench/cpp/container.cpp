// What a program that knows std::map asks of a dictionary, from C and from C++: a line for each, `what TAB of whom TAB figure`.
// bench/containers compiles and runs it. The answers of all have to be the same.
#include "cedar.hpp"
#include <algorithm>
#include <cstdio>
#include <cstdlib>
#include <ctime>
#include <map>
#include <random>
#include <string>
#include <sys/resource.h>
#include <sys/stat.h>
#include <unistd.h>
#include <vector>

namespace {

using roskvidh::dictionary;
using Plain = std::map<std::string, std::int32_t>;

constexpr int COMPLETIONS = 100000, OTHERS = 25000, ROUNDS = 11;

[[noreturn]] void stop(const char *why) {
    std::fprintf(stderr, "container: %s\n", why);
    std::exit(1);
}

double seconds() {
    timespec now{};
    clock_gettime(CLOCK_THREAD_CPUTIME_ID, &now);
    return static_cast<double>(now.tv_sec) + 1e-9 * static_cast<double>(now.tv_nsec);
}

// Prints the median of the microseconds that a call takes, and returns its answer.
template <class Call>
std::uint64_t timed(const char *what, const char *whom, int calls, Call call) {
    std::vector<double> rounds;
    std::uint64_t answer = 0;
    for (int round = 0; round < ROUNDS; ++round) {
        const double begun = seconds();
        for (int i = 0; i < calls; ++i) answer = call();
        rounds.push_back((seconds() - begun) / calls * 1e6);
    }
    std::sort(rounds.begin(), rounds.end());
    std::printf("%s\t%s\t%.2f microseconds\n", what, whom, rounds[ROUNDS / 2]);
    return answer;
}

void same(std::uint64_t one, std::uint64_t other) {
    if (one != other) stop("the answers differ");
}

Plain make_keys() {
    std::mt19937 random(1);
    Plain plain;
    for (int i = 0; i < COMPLETIONS + OTHERS; ++i) {
        char key[32];
        std::snprintf(key, sizeof key, "%x.%x", static_cast<unsigned>(random() >> 4), static_cast<unsigned>(i));
        plain[(i < COMPLETIONS ? "p" : "q") + std::string(key)] = i;
    }
    return plain;
}

const std::uint8_t *bytes_of(const std::string &text) { return reinterpret_cast<const std::uint8_t *>(text.data()); }

void first_ten(const cedar_dictionary &c, const dictionary &d, const Plain &plain) {
    const char *const what = "first ten of 100,000 completions";
    const std::string prefix = "p";
    const std::uint64_t wanted = timed(what, "std::map", 10000, [&] {
        std::uint64_t sum = 0;
        auto at = plain.lower_bound(prefix);
        for (int i = 0; i < 10; ++i, ++at) sum += static_cast<std::uint64_t>(at->second);
        return sum;
    });
    cedar_found found[10];
    std::uint8_t keys[1024];
    same(wanted, timed(what, "C, cedar_entries_from", 10000, [&] {
        std::size_t count = 0;
        std::uint64_t sum = 0;
        cedar_entries_from(&c, bytes_of(prefix), 1, nullptr, 0, found, 10, keys, sizeof keys, &count, nullptr);
        for (std::size_t i = 0; i < count; ++i) sum += static_cast<std::uint64_t>(found[i].value);
        return sum;
    }));
    const auto page_behind = [&](const std::string &key) {
        std::size_t count = 0, needed = 0;
        std::uint64_t sum = 0;
        cedar_entries_below(&c, bytes_of(prefix), 1, bytes_of(key), key.size(), found, 10, keys, sizeof keys, &count, &needed);
        for (std::size_t i = 0; i < count; ++i) sum += static_cast<std::uint64_t>(found[i].value);
        return sum;
    };
    same(wanted, timed(what, "C, cedar_entries_below", 10000, [&] { return page_behind({}); }));
    const auto middle = std::next(plain.begin(), COMPLETIONS / 2);
    std::uint64_t behind = 0;
    for (int i = 1; i <= 10; ++i) behind += static_cast<std::uint64_t>(std::next(middle, i)->second);
    same(behind, timed("ten in the middle of them", "C, cedar_entries_below", 10000, [&] { return page_behind(middle->first); }));
    cedar_match matches[10];
    const auto sum_of = [&] {
        std::uint64_t sum = 0;
        for (const cedar_match &one : matches) sum += static_cast<std::uint64_t>(one.value);
        return sum;
    };
    same(wanted, timed(what, "C, cedar_predictions_from", 10000, [&] {
        std::size_t next = 0;
        cedar_predictions_from(&c, bytes_of(prefix), 1, &next, matches, 10);
        return sum_of();
    }));
    same(wanted, timed(what, "C, cedar_first_predictions", 10000, [&] {
        cedar_first_predictions(&c, bytes_of(prefix), 1, matches, 10);
        return sum_of();
    }));
    same(wanted, timed(what, "C, cedar_predictions, which counts them all", 3, [&] {
        cedar_predictions(&c, bytes_of(prefix), 1, matches, 10);
        return sum_of();
    }));
    same(wanted, timed(what, "C++, entries_with_prefix", 10000, [&] {
        std::uint64_t sum = 0;
        int left = 10;
        for (const auto &[key, value] : d.entries_with_prefix(prefix)) {
            sum += static_cast<std::uint64_t>(value);
            if (--left == 0) break;
        }
        return sum;
    }));
}

void next_key(const dictionary &d, const Plain &plain) {
    const std::string key = std::next(plain.begin(), 60000)->first;
    const auto next = [&key](const auto &all) { return all.upper_bound(key); };
    const std::uint64_t wanted = timed("next key", "std::map", 10000, [&] { return static_cast<std::uint64_t>(next(plain)->second); });
    same(wanted, timed("next key", "C++, upper_bound", 10000, [&] { return static_cast<std::uint64_t>(next(d)->value); }));
}

template <class Entries>
std::uint64_t sum_of_all(const Entries &all) {
    std::uint64_t sum = 0;
    for (const auto &[key, value] : all) sum += key.size() * static_cast<std::uint64_t>(value);
    return sum;
}

void all_entries(const dictionary &d, const Plain &plain) {
    const char *const what = "all 125,000 entries";
    const std::uint64_t wanted = timed(what, "std::map", 3, [&] { return sum_of_all(plain); });
    same(wanted, timed(what, "C++, entries()", 3, [&] { return sum_of_all(d.entries()); }));
    same(wanted, timed(what, "C++, the dictionary itself", 3, [&] { return sum_of_all(d); }));
}

void values() {
    dictionary d;
    const char *told = "is cut";
    try {
        d.update("key", 4294967297LL);
    } catch (const roskvidh::value_out_of_range &) {
        told = d.empty() ? "is refused" : "is refused, and something was stored";
    }
    std::printf("a long long of 4294967297\tC++, update\t%s\n", told);
}

long most_memory() {
    rusage used{};
    getrusage(RUSAGE_SELF, &used);
    return used.ru_maxrss;
}

void files(const std::string &folder) {
    const std::string path = folder + "/words.cedar", link = folder + "/link";
    const long before = most_memory();
    const double begun = seconds();
    try {
        (void)dictionary::load_from_path("/dev/zero", 1000);
        stop("/dev/zero was loaded");
    } catch (const roskvidh::error &) {
        std::printf("a load of /dev/zero with a limit of 1,000\tC++, load_from_path\t%.3f ms, %ld KiB more\n", (seconds() - begun) * 1e3,
                    most_memory() - before);
    }
    const dictionary d;
    d.save_to_path(path);
    if (chmod(path.c_str(), 0640) != 0 || symlink(path.c_str(), link.c_str()) != 0) stop("no files of its own");
    d.save_to_path(path);
    struct stat now {};
    const bool keeps = stat(path.c_str(), &now) == 0 && (now.st_mode & 07777) == 0640;
    d.save_to_path(link);
    const bool replaces = lstat(link.c_str(), &now) == 0 && S_ISREG(now.st_mode);
    std::printf("a save over a file of mode 640\tC++, save_to_path\t%s\n", keeps ? "keeps the mode" : "loses the mode");
    std::printf("a save at a link\tC++, save_to_path\t%s\n", replaces ? "replaces the link" : "follows the link");
    unlink(path.c_str());
    unlink(link.c_str());
}

} // namespace

int main(int count, char **arguments) {
    const Plain plain = make_keys();
    const dictionary d = dictionary::from_sorted(plain);
    cedar_dictionary c = CEDAR_CLOSED;
    if (cedar_new(&c) != CEDAR_OK) stop("no memory");
    for (const auto &[key, value] : plain) {
        if (cedar_update(&c, bytes_of(key), key.size(), value, nullptr) != CEDAR_OK) stop("an update was refused");
    }
    values();
    files(count > 1 ? arguments[1] : ".");
    first_ten(c, d, plain);
    next_key(d, plain);
    all_entries(d, plain);
    cedar_free(&c);
}
