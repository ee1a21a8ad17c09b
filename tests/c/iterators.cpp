// Eight threads that go through the ranges of one dictionary at the same time without a lock: iterators [ROUNDS]. Each checks that it is
// shown what one thread was shown before. A tool that looks for races has to find none.
#include "cedar.hpp"
#include "check.h"
#include <thread>

namespace {

constexpr int THREADS = 8, KEYS = 3000;

// What a thread is shown: the sum of all entries, of those with a prefix, of those from a key on, and of those found one by one.
std::uint64_t shown(const roskvidh::dictionary &d) {
    std::uint64_t sum = 0;
    const auto add = [&sum](const roskvidh::entry &one) { sum = 31 * sum + one.key.size() * static_cast<std::uint64_t>(one.value); };
    for (const auto &one : d) add(one);
    for (const auto &one : d.entries_with_prefix("1")) add(one);
    for (const auto &one : d.range("2", "77")) add(one);
    for (int i = 0; i < KEYS; i += 100) {
        const auto at = d.find(std::to_string(i));
        add(*at);
    }
    return sum;
}

void read_together(roskvidh::layout kind, int rounds) {
    roskvidh::dictionary filled(kind);
    for (int i = 0; i < KEYS; ++i) filled.update(std::to_string(i), i);
    const roskvidh::dictionary &d = filled;
    const std::uint64_t expected = shown(d);
    std::vector<std::thread> threads;
    for (int i = 0; i < THREADS; ++i) {
        threads.emplace_back([&] {
            for (int round = 0; round < rounds; ++round) CHECK(shown(d) == expected);
        });
    }
    for (std::thread &one : threads) one.join();
    filled.update("another", 1);
    CHECK(shown(filled) != expected);
}

} // namespace

int main(int count, char **arguments) {
    const int rounds = count > 1 ? std::atoi(arguments[1]) : 5;
    read_together(roskvidh::layout::standard, rounds);
    read_together(roskvidh::layout::reduced, rounds);
    std::puts("ok");
}
