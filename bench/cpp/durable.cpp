// Changes of a dictionary on a disk, by the store of c/include/cedar.h, or with LMDB or LEVELDB defined by that one: durable WORK PATH FIRST
// COUNT SIZE [THREADS]. The change of a number stores it at a key of its own.
//   change  makes COUNT changes, numbered from FIRST on, SIZE in each commit, and each commit is on the disk before the next change: prints
//           the seconds
//   open    opens the file: prints the seconds, and the value of the key of FIRST
//   read    as change, while THREADS other threads look keys up: prints the seconds, and the look-ups
#include <atomic>
#include <chrono>
#include <cstdint>
#include <cstdio>
#include <cstdlib>
#include <mutex>
#include <shared_mutex>
#include <string>
#include <thread>
#include <vector>

[[noreturn]] static void stop(const std::string &message) {
    std::fprintf(stderr, "durable: %s\n", message.c_str());
    std::exit(1);
}

static void expect(bool holds, const char *what) {
    if (!holds) stop(what);
}

#if defined(LMDB)
#include <lmdb.h>

// A commit is a transaction; who reads has one of its own, and waits for nobody.
class Store {
public:
    Store(const std::string &path, size_t) {
        expect(mdb_env_create(&env) == 0 && mdb_env_set_mapsize(env, size_t{1} << 30) == 0, "no LMDB");
        expect(mdb_env_open(env, path.c_str(), MDB_NOSUBDIR, 0644) == 0, "LMDB doesn't open the file");
        MDB_txn *begun = begin(0);
        expect(mdb_dbi_open(begun, nullptr, 0, &base) == 0 && mdb_txn_commit(begun) == 0, "LMDB has no table");
    }
    ~Store() { mdb_env_close(env); }
    Store(const Store &) = delete;

    void put(const std::string &key, int32_t value) {
        if (writing == nullptr) writing = begin(0);
        MDB_val name{key.size(), const_cast<char *>(key.data())}, data{sizeof value, &value};
        expect(mdb_put(writing, base, &name, &data, 0) == 0, "LMDB refuses a change");
    }
    void commit() {
        expect(mdb_txn_commit(writing) == 0, "LMDB doesn't commit");
        writing = nullptr;
    }
    bool get(const std::string &key, int32_t &value) {
        MDB_txn *reading = begin(MDB_RDONLY);
        MDB_val name{key.size(), const_cast<char *>(key.data())}, data{};
        bool held = mdb_get(reading, base, &name, &data) == 0;
        if (held) value = *static_cast<int32_t *>(data.mv_data);
        mdb_txn_abort(reading);
        return held;
    }

private:
    MDB_env *env = nullptr;
    MDB_dbi base = 0;
    MDB_txn *writing = nullptr;

    MDB_txn *begin(unsigned flags) {
        MDB_txn *begun = nullptr;
        expect(mdb_txn_begin(env, nullptr, flags, &begun) == 0, "LMDB begins no transaction");
        return begun;
    }
};
#elif defined(LEVELDB)
#include <leveldb/c.h>

// A commit is a batch that is written with a sync.
class Store {
public:
    Store(const std::string &path, size_t) {
        char *error = nullptr;
        leveldb_options_set_create_if_missing(options, 1);
        leveldb_writeoptions_set_sync(durable, 1);
        base = leveldb_open(options, path.c_str(), &error);
        expect(error == nullptr, "LevelDB doesn't open the folder");
    }
    ~Store() { leveldb_close(base); }
    Store(const Store &) = delete;

    void put(const std::string &key, int32_t value) {
        leveldb_writebatch_put(batch, key.data(), key.size(), reinterpret_cast<char *>(&value), sizeof value);
    }
    void commit() {
        char *error = nullptr;
        leveldb_write(base, durable, batch, &error);
        expect(error == nullptr, "LevelDB refuses a batch");
        leveldb_writebatch_clear(batch);
    }
    bool get(const std::string &key, int32_t &value) {
        char *error = nullptr;
        size_t length = 0;
        char *found = leveldb_get(base, reading, key.data(), key.size(), &length, &error);
        if (found != nullptr) value = *reinterpret_cast<int32_t *>(found);
        leveldb_free(found);
        return found != nullptr;
    }

private:
    leveldb_options_t *options = leveldb_options_create();
    leveldb_writeoptions_t *durable = leveldb_writeoptions_create();
    leveldb_readoptions_t *reading = leveldb_readoptions_create();
    leveldb_writebatch_t *batch = leveldb_writebatch_create();
    leveldb_t *base = nullptr;
};
#else
#include <cedar.h>
#include <pthread.h>

// A lock that who changes gets before those who come to read later. By std::shared_mutex of glibc these would go first, for ever.
class Lock {
public:
    Lock() {
        pthread_rwlockattr_t kind;
        expect(pthread_rwlockattr_init(&kind) == 0, "no lock");
        expect(pthread_rwlockattr_setkind_np(&kind, PTHREAD_RWLOCK_PREFER_WRITER_NONRECURSIVE_NP) == 0, "no such lock");
        expect(pthread_rwlock_init(&inside, &kind) == 0, "no lock");
        pthread_rwlockattr_destroy(&kind);
    }
    ~Lock() { pthread_rwlock_destroy(&inside); }
    Lock(const Lock &) = delete;
    void lock() { expect(pthread_rwlock_wrlock(&inside) == 0, "the lock isn't given"); }
    void unlock() { pthread_rwlock_unlock(&inside); }
    void lock_shared() { expect(pthread_rwlock_rdlock(&inside) == 0, "the lock isn't given"); }
    void unlock_shared() { pthread_rwlock_unlock(&inside); }

private:
    pthread_rwlock_t inside;
};

// A commit puts the changes that wait on the disk. Who reads waits for a change or a commit that is under way.
class Store {
public:
    Store(const std::string &path, size_t size) : each(size == 1) {
        expect(cedar_store_open(&store, path.c_str()) == CEDAR_OK, "the store isn't opened");
        expect(cedar_store_sync_every(&store, each ? 1 : 0) == CEDAR_OK, "the store doesn't wait");
    }
    ~Store() { cedar_store_close(&store); }
    Store(const Store &) = delete;

    void put(const std::string &key, int32_t value) {
        std::unique_lock held(lock);
        expect(cedar_store_update(&store, bytes_of(key), key.size(), value, nullptr) == CEDAR_OK, "the store refuses a change");
    }
    void commit() {
        std::unique_lock held(lock);
        expect(each || cedar_store_sync(&store) == CEDAR_OK, "the store doesn't commit");
    }
    bool get(const std::string &key, int32_t &value) {
        std::shared_lock held(lock);
        cedar_dictionary mine = *cedar_store_dictionary(&store);
        return cedar_get(&mine, bytes_of(key), key.size(), &value);
    }

private:
    cedar_store store = CEDAR_STORE_CLOSED;
    bool each;
    Lock lock;

    static const uint8_t *bytes_of(const std::string &key) { return reinterpret_cast<const uint8_t *>(key.data()); }
};
#endif

// The key of a number below 10,000,019, a prime: another one for each.
static std::string key_of(uint64_t number) { return std::to_string(number * 7368787 % 10000019); }

static double since(std::chrono::steady_clock::time_point began) {
    return std::chrono::duration<double>(std::chrono::steady_clock::now() - began).count();
}

static void change(Store &store, uint64_t first, uint64_t count, uint64_t size) {
    for (uint64_t number = first; number < first + count; number++) {
        store.put(key_of(number), static_cast<int32_t>(number));
        if ((number - first + 1) % size == 0 || number + 1 == first + count) store.commit();
    }
}

// Looks up keys of numbers below `first`, which are held, in no order, until it is told to end.
static void look_up(Store &store, uint64_t first, uint64_t turn, const std::atomic<bool> &ends, std::atomic<uint64_t> &all) {
    uint64_t looked = 0;
    for (; !ends; looked++) {
        uint64_t number = (turn += 7368787) % first;
        int32_t value = -1;
        expect(store.get(key_of(number), value) && value == static_cast<int32_t>(number), "a key that is held isn't found");
    }
    all += looked;
}

int main(int argc, char **argv) {
    if (argc < 6) stop("durable WORK PATH FIRST COUNT SIZE [THREADS]");
    std::string work = argv[1];
    uint64_t first = std::stoull(argv[3]), count = std::stoull(argv[4]), size = std::stoull(argv[5]);
    auto began = std::chrono::steady_clock::now();
    Store store(argv[2], size);
    if (work == "open") {
        int32_t value = -1;
        expect(store.get(key_of(first), value), "a key that is held isn't found");
        std::printf("%f %d\n", since(began), value);
        return 0;
    }
    std::atomic<bool> ends = false;
    std::atomic<uint64_t> looked = 0;
    std::vector<std::thread> readers;
    for (int turn = 0; work == "read" && argc > 6 && turn < std::atoi(argv[6]); turn++)
        readers.emplace_back([&, turn] { look_up(store, first, turn * 1000003, ends, looked); });
    began = std::chrono::steady_clock::now();
    change(store, first, count, size);
    double seconds = since(began);
    ends = true;
    for (std::thread &reader : readers) reader.join();
    std::printf("%f %llu\n", seconds, static_cast<unsigned long long>(looked));
}
