// Every measure, for any subject: PROGRAM FOLDER PASSES MEASURE.. makes the measures that the subject has a call for, and prints a line for
// each pass, `measure TAB nanoseconds TAB operations TAB sum`. The sum is of what was answered, so that all subjects can be compared.
//
// A subject is a struct with some of these members; what it lacks isn't measured:
//
//     bool update(Key, int32_t), bool get(Key, int32_t &), bool erase(Key), void build(const std::vector<Pair> &),
//     void update_all(const std::vector<Pair> &), size_t erase_all(const std::vector<Key> &), void build_unsorted(const std::vector<Pair> &),
//     void prefixes(text, length, visit(int32_t, size_t)), void predictions(Key, visit(int32_t, size_t)),
//     void entries(visit(const char *, size_t, int32_t)), void scan(text, visit(size_t, size_t, int32_t)),
//     void segment(text, visit(size_t, size_t, int32_t)),
//     size_t file_bytes(), void save(std::string &), bool load(const std::string &)
//
// Times are those of the processor that this thread has used. What is timed stands in a call of `measured`, and nothing else does: callgrind
// counts these calls alone.
#pragma once
#include "workload.hpp"
#include <algorithm>
#include <ctime>
#include <malloc.h>
#include <memory>
#include <set>
#include <unistd.h>

inline uint64_t clock_of(clockid_t id) {
    timespec now{};
    clock_gettime(id, &now);
    return static_cast<uint64_t>(now.tv_sec) * 1000000000u + static_cast<uint64_t>(now.tv_nsec);
}

template <class Body> [[gnu::noinline]] uint64_t measured(Body &&body) { return body(); }

// Where callgrind writes what it has counted since the last call.
extern "C" [[gnu::noinline]] inline void measure_ends() { asm volatile(""); }

inline void print(const char *measure, uint64_t amount, uint64_t operations, uint64_t sum) {
    std::printf("%s\t%llu\t%llu\t%llu\n", measure, (unsigned long long)amount, (unsigned long long)operations, (unsigned long long)sum);
}

// The memory of this process that is in use, in bytes.
inline uint64_t resident() {
    std::ifstream file("/proc/self/statm");
    uint64_t all = 0, used = 0;
    file >> all >> used;
    return used * static_cast<uint64_t>(sysconf(_SC_PAGESIZE));
}

// A place where a text's character begins: UTF-8's other bytes are 128 to 191.
inline bool begins_character(char byte) { return (static_cast<unsigned char>(byte) & 0xC0) != 0x80; }

template <class Subject> class Measures {
public:
    Measures(const std::string &folder, int passes, std::set<std::string> wanted)
        : work(folder), passes(passes), wanted(std::move(wanted)) {}

    void run() {
        memory();
        look_ups();
        walks();
        texts();
        updates();
        builds_and_files();
        latency();
    }

private:
    using Visit = void (*)(int32_t, size_t);
    using VisitEntry = void (*)(const char *, size_t, int32_t);

    bool wants(const char *measure) const { return wanted.count(measure) != 0; }

    // Runs and prints a measure. `operations` is a number, or a call that tells it afterwards.
    template <class Body, class Count> void measure(const char *name, Body &&body, Count &&operations) {
        uint64_t begun = clock_of(CLOCK_THREAD_CPUTIME_ID);
        uint64_t sum = measured(body);
        uint64_t spent = clock_of(CLOCK_THREAD_CPUTIME_ID) - begun;
        measure_ends();
        print(name, spent, operations(), sum);
    }

    // The subject with all keys, put in one by one or, where it has no such call, at once.
    std::unique_ptr<Subject> filled(const std::vector<Pair> &pairs) const {
        auto subject = std::make_unique<Subject>();
        if constexpr (requires(Subject &s, Key key) { s.update(key, 0); }) {
            for (const Pair &pair : pairs)
                if (!subject->update(pair.key, pair.value)) stop("an update was refused");
        } else {
            subject->build(work.sorted);
        }
        return subject;
    }

    // How much the process grows that puts the keys in, in sorted order. What was freed before is given back first.
    void memory() {
        if (!wants("resident")) return;
        malloc_trim(0);
        uint64_t before = resident();
        auto subject = filled(work.sorted);
        print("resident", resident() - before, work.sorted.size(), 0);
    }

    void look_up(const char *name, const Subject &subject, const std::vector<Key> &keys) {
        if (!wants(name)) return;
        auto all = [&] {
            uint64_t sum = 0, line = 0;
            for (const Key &key : keys) {
                int32_t value = 0;
                line++;
                if (subject.get(key, value)) sum += line * (static_cast<uint64_t>(value) + 1);
            }
            return sum;
        };
        all();
        for (int pass = 0; pass < passes; pass++) measure(name, all, [&] { return keys.size(); });
    }

    void look_ups() {
        auto subject = filled(work.sorted);
        look_up("hit", *subject, work.hits.list());
        look_up("hit_sorted", *subject, work.sorted_keys.list());
        look_up("miss", *subject, work.misses.list());
    }

    void walks() {
        auto subject = filled(work.sorted);
        for (int pass = 0; pass < passes; pass++) {
            uint64_t count = 0;
            auto told = [&] { return count; };
            if constexpr (requires(Visit visit) { subject->prefixes("", size_t{}, visit); }) {
                if (wants("prefix_walk")) measure("prefix_walk", [&] { return walk_text(*subject, count); }, told);
            }
            if constexpr (requires(Visit visit) { subject->predictions(Key{}, visit); }) {
                if (wants("prediction")) measure("prediction", [&] { return predict(*subject, count); }, told);
            }
            if constexpr (requires(VisitEntry visit) { subject->entries(visit); }) {
                if (wants("entries")) measure("entries", [&] { return list_all(*subject, count); }, told);
            }
        }
    }

    // All keys in a text, and the tokens of one: the operations are its bytes.
    void texts() {
        auto subject = filled(work.sorted);
        auto bytes = [&] { return work.text.size(); };
        uint64_t sum = 0;
        auto add = [&](size_t place, size_t length, int32_t value) { sum += static_cast<uint64_t>(value + 1) * length + place; };
        for (int pass = 0; pass < passes; pass++) {
            if constexpr (requires { subject->scan(work.text, add); }) {
                sum = 0;
                if (wants("scan")) measure("scan", [&] { subject->scan(work.text, add); return sum; }, bytes);
            }
            if constexpr (requires { subject->segment(work.text, add); }) {
                sum = 0;
                if (wants("segment")) measure("segment", [&] { subject->segment(work.text, add); return sum; }, bytes);
            }
        }
    }

    // From each character of the text on, all keys that begin there.
    uint64_t walk_text(const Subject &subject, uint64_t &count) {
        uint64_t sum = 0;
        const std::string &text = work.text;
        count = 0;
        for (size_t place = 0; place < text.size(); place++) {
            if (!begins_character(text[place])) continue;
            count++;
            subject.prefixes(text.data() + place, text.size() - place,
                             [&](int32_t value, size_t length) { sum += (static_cast<uint64_t>(value) + 1) * length + place; });
        }
        return sum;
    }

    uint64_t predict(const Subject &subject, uint64_t &count) {
        uint64_t sum = 0, line = 0;
        count = 0;
        for (const Key &prefix : work.prefixes.list()) {
            line++;
            subject.predictions(prefix, [&](int32_t value, size_t length) {
                count++;
                sum += (static_cast<uint64_t>(value) + 1) * length + line;
            });
        }
        return sum;
    }

    // Each key is had as bytes; its last one goes into the sum.
    uint64_t list_all(const Subject &subject, uint64_t &count) {
        uint64_t sum = 0;
        count = 0;
        subject.entries([&](const char *bytes, size_t length, int32_t value) {
            count++;
            sum += (static_cast<uint64_t>(value) + 1) * length + static_cast<unsigned char>(bytes[length - 1]);
        });
        return sum;
    }

    void updates() {
        if constexpr (requires(Subject &s, Key key) { s.update(key, 0); }) {
            for (int pass = 0; pass < passes; pass++) {
                if (wants("update_sorted")) put("update_sorted", work.sorted);
                if (wants("update_shuffled")) put("update_shuffled", work.shuffled);
                if (wants("erase")) erase();
                if (wants("update_all")) put_all();
                if (wants("erase_all")) erase_all();
            }
        }
    }

    void put_all() {
        if constexpr (requires(Subject &s) { s.update_all(work.shuffled); }) {
            Subject subject;
            auto all = [&] {
                subject.update_all(work.shuffled);
                return work.shuffled.size();
            };
            measure("update_all", all, all_keys());
        }
    }

    void erase_all() {
        if constexpr (requires(Subject &s) { s.erase_all(work.erasures.list()); }) {
            auto subject = filled(work.shuffled);
            measure("erase_all", [&] { return uint64_t{subject->erase_all(work.erasures.list())}; }, all_keys());
        }
    }

    auto all_keys() const {
        return [this] { return work.sorted.size(); };
    }

    void put(const char *name, const std::vector<Pair> &pairs) {
        Subject subject;
        auto all = [&] {
            uint64_t stored = 0;
            for (const Pair &pair : pairs) stored += subject.update(pair.key, pair.value);
            return stored;
        };
        measure(name, all, [&] { return pairs.size(); });
    }

    void erase() {
        if constexpr (requires(Subject &s, Key key) { s.erase(key); }) {
            auto subject = filled(work.shuffled);
            auto all = [&] {
                uint64_t erased = 0;
                for (const Key &key : work.erasures.list()) erased += subject->erase(key);
                return erased;
            };
            measure("erase", all, [&] { return work.erasures.list().size(); });
        }
    }

    void builds_and_files() {
        if constexpr (requires(Subject &s) { s.build(work.sorted); }) {
            for (int pass = 0; wants("sorted_build") && pass < passes; pass++) {
                Subject subject;
                measure("sorted_build", [&] { subject.build(work.sorted); return work.sorted.size(); }, all_keys());
            }
        }
        if constexpr (requires(Subject &s) { s.build_unsorted(work.shuffled); }) {
            for (int pass = 0; wants("unsorted_build") && pass < passes; pass++) {
                Subject subject;
                measure("unsorted_build", [&] { subject.build_unsorted(work.shuffled); return work.shuffled.size(); }, all_keys());
            }
        }
        if constexpr (requires(Subject &s, std::string file) { s.save(file); }) {
            auto subject = filled(work.sorted);
            std::string file(subject->file_bytes(), '\0');
            if (wants("file")) print("file", file.size(), work.sorted.size(), 0);
            for (int pass = 0; wants("save") && pass < passes; pass++)
                measure("save", [&] { subject->save(file); return uint64_t{0}; }, [&] { return work.sorted.size(); });
            subject->save(file);
            for (int pass = 0; wants("load") && pass < passes; pass++) {
                Subject loaded;
                measure("load", [&] { return uint64_t{loaded.load(file)}; }, [&] { return work.sorted.size(); });
            }
        }
    }

    // The time of each update by itself: the least of what the clock and the processor's clock say, so that one that was interrupted doesn't
    // count as slow. Reading the clocks costs some 30 ns of each time.
    void latency() {
        if constexpr (requires(Subject &s, Key key) { s.update(key, 0); }) {
            if (!wants("latency")) return;
            Subject subject;
            std::vector<uint64_t> times;
            times.reserve(work.shuffled.size());
            for (const Pair &pair : work.shuffled) {
                uint64_t used = clock_of(CLOCK_THREAD_CPUTIME_ID);
                uint64_t begun = clock_of(CLOCK_MONOTONIC);
                subject.update(pair.key, pair.value);
                uint64_t spent = clock_of(CLOCK_MONOTONIC) - begun;
                used = clock_of(CLOCK_THREAD_CPUTIME_ID) - used;
                times.push_back(std::min(spent, used));
            }
            std::sort(times.begin(), times.end());
            // Of a million, as many as this are slower. A level that less than one update lies above isn't printed.
            const std::pair<const char *, size_t> levels[] = {{"latency_50", 500000}, {"latency_90", 100000}, {"latency_99", 10000},
                                                              {"latency_99.9", 1000}, {"latency_99.99", 100}, {"latency_most", 0}};
            for (auto [name, slower] : levels) {
                size_t above = times.size() * slower / 1000000;
                if (above > 0 || slower == 0) print(name, times[times.size() - 1 - above], 1, 0);
            }
        }
    }

    Workload work;
    int passes;
    std::set<std::string> wanted;
};

template <class Subject> int run_measures(int argc, char **argv) {
    if (argc < 4) stop("usage: PROGRAM FOLDER PASSES MEASURE..");
    Measures<Subject>(argv[1], std::atoi(argv[2]), std::set<std::string>(argv + 3, argv + argc)).run();
    return 0;
}
