// The subject `libdatrie`: a double array with tails, of libdatrie-dev. Its characters are numbers of 32 bits: widening a key is part of each
// call.
#include "measures.hpp"
#include <datrie/trie.h>

struct Datrie {
    Trie *trie;
    mutable AlphaChar wide[1 << 12];

    Datrie() {
        AlphaMap *map = alpha_map_new();
        alpha_map_add_range(map, 1, 255);
        trie = trie_new(map);
        alpha_map_free(map);
    }
    ~Datrie() { trie_free(trie); }
    Datrie(const Datrie &) = delete;

    const AlphaChar *widened(Key key) const {
        for (uint32_t i = 0; i < key.length; i++) wide[i] = static_cast<unsigned char>(key.bytes[i]);
        wide[key.length] = 0;
        return wide;
    }
    bool update(Key key, int32_t value) { return trie_store(trie, widened(key), value); }
    bool get(Key key, int32_t &value) const { return trie_retrieve(trie, widened(key), &value); }
    bool erase(Key key) { return trie_delete(trie, widened(key)); }

    template <class Visit> void prefixes(const char *text, size_t length, Visit &&visit) const {
        TrieState *state = trie_root(trie);
        for (size_t i = 0; i < length && trie_state_walk(state, static_cast<unsigned char>(text[i])); i++)
            if (trie_state_is_terminal(state)) {
                TrieState *end = trie_state_clone(state);
                trie_state_walk(end, 0);
                visit(trie_state_get_data(end), i + 1);
                trie_state_free(end);
            }
        trie_state_free(state);
    }

    template <class Visit> void predictions(Key prefix, Visit &&visit) const {
        TrieState *state = trie_root(trie);
        uint32_t gone = 0;
        while (gone < prefix.length && trie_state_walk(state, static_cast<unsigned char>(prefix.bytes[gone]))) gone++;
        if (gone == prefix.length) {
            TrieIterator *at = trie_iterator_new(state);
            while (trie_iterator_next(at)) {
                AlphaChar *key = trie_iterator_get_key(at);
                visit(trie_iterator_get_data(at), prefix.length + alpha_char_strlen(key));
                std::free(key);
            }
            trie_iterator_free(at);
        }
        trie_state_free(state);
    }

    template <class Visit> void entries(Visit &&visit) const {
        TrieState *root = trie_root(trie);
        TrieIterator *at = trie_iterator_new(root);
        std::string bytes;
        while (trie_iterator_next(at)) {
            AlphaChar *key = trie_iterator_get_key(at);
            bytes.assign(key, key + alpha_char_strlen(key));
            visit(bytes.data(), bytes.size(), trie_iterator_get_data(at));
            std::free(key);
        }
        trie_iterator_free(at);
        trie_state_free(root);
    }

    size_t file_bytes() const { return trie_get_serialized_size(trie); }
    void save(std::string &file) const { trie_serialize(trie, reinterpret_cast<uint8 *>(file.data())); }
    bool load(const std::string &file) {
        FILE *stream = fmemopen(const_cast<char *>(file.data()), file.size(), "rb");
        trie_free(trie);
        trie = trie_fread(stream);
        fclose(stream);
        return trie != nullptr;
    }
};

int main(int argc, char **argv) { return run_measures<Datrie>(argc, argv); }
