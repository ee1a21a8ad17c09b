// The subject `judy`: JudySL of libjudy-dev, a radix tree of C's strings in order.
#include "measures.hpp"
#include <Judy.h>
#include <cstring>

inline const uint8_t *bytes_of(const char *text) { return reinterpret_cast<const uint8_t *>(text); }

struct Judy {
    Pvoid_t tree = nullptr;

    Judy() = default;
    ~Judy() { JudySLFreeArray(&tree, PJE0); }
    Judy(const Judy &) = delete;

    // A place's word is the value and one, so that it isn't 0.
    bool update(Key key, int32_t value) {
        PPvoid_t place = JudySLIns(&tree, bytes_of(key.bytes), PJE0);
        *reinterpret_cast<Word_t *>(place) = static_cast<Word_t>(value) + 1;
        return true;
    }
    bool get(Key key, int32_t &value) const {
        PPvoid_t place = JudySLGet(tree, bytes_of(key.bytes), PJE0);
        if (place == nullptr) return false;
        value = static_cast<int32_t>(*reinterpret_cast<Word_t *>(place) - 1);
        return true;
    }
    bool erase(Key key) { return JudySLDel(&tree, bytes_of(key.bytes), PJE0) == 1; }

    // From the prefix on, as long as keys begin with it.
    template <class Visit> void predictions(Key prefix, Visit &&visit) const {
        uint8_t key[1 << 12];
        std::memcpy(key, prefix.bytes, prefix.length + 1);
        for (PPvoid_t place = JudySLFirst(tree, key, PJE0); place != nullptr; place = JudySLNext(tree, key, PJE0)) {
            if (std::memcmp(key, prefix.bytes, prefix.length) != 0) return;
            visit(static_cast<int32_t>(*reinterpret_cast<Word_t *>(place) - 1), std::strlen(reinterpret_cast<char *>(key)));
        }
    }
    template <class Visit> void entries(Visit &&visit) const {
        uint8_t key[1 << 12] = "";
        for (PPvoid_t place = JudySLFirst(tree, key, PJE0); place != nullptr; place = JudySLNext(tree, key, PJE0)) {
            const char *bytes = reinterpret_cast<char *>(key);
            visit(bytes, std::strlen(bytes), static_cast<int32_t>(*reinterpret_cast<Word_t *>(place) - 1));
        }
    }
};

int main(int argc, char **argv) { return run_measures<Judy>(argc, argv); }
