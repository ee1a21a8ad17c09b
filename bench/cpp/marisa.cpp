// The subject `marisa`: a trie that is built once, of libmarisa-dev. It numbers its keys; a table of values by these numbers stands beside it.
#include "measures.hpp"
#include <cstring>
#include <marisa.h>

struct Marisa {
    marisa::Trie trie;
    std::vector<int32_t> values;

    Marisa() = default;
    Marisa(const Marisa &) = delete;

    void build(const std::vector<Pair> &sorted) {
        marisa::Keyset keys;
        for (const Pair &pair : sorted) keys.push_back(pair.key.bytes, pair.key.length);
        trie.build(keys);
        values.resize(sorted.size());
        for (size_t i = 0; i < sorted.size(); i++) values[keys[i].id()] = sorted[i].value;
    }
    bool get(Key key, int32_t &value) const {
        static marisa::Agent agent;
        agent.set_query(key.bytes, key.length);
        if (!trie.lookup(agent)) return false;
        value = values[agent.key().id()];
        return true;
    }

    // It asks for the length of a text ahead, and goes only as far as keys do.
    template <class Visit> void prefixes(const char *text, size_t length, Visit &&visit) const {
        static marisa::Agent agent;
        agent.set_query(text, length);
        while (trie.common_prefix_search(agent)) visit(values[agent.key().id()], agent.key().length());
    }
    template <class Visit> void predictions(Key prefix, Visit &&visit) const {
        static marisa::Agent agent;
        agent.set_query(prefix.bytes, prefix.length);
        while (trie.predictive_search(agent)) visit(values[agent.key().id()], agent.key().length());
    }
    template <class Visit> void entries(Visit &&visit) const {
        marisa::Agent agent;
        agent.set_query("", 0);
        while (trie.predictive_search(agent)) visit(agent.key().ptr(), agent.key().length(), values[agent.key().id()]);
    }

    // The trie's file and then the values.
    size_t file_bytes() const { return trie.io_size() + values.size() * sizeof values[0]; }
    void save(std::string &file) const {
        FILE *stream = fmemopen(file.data(), file.size(), "wb");
        marisa::fwrite(stream, trie);
        std::fwrite(values.data(), sizeof values[0], values.size(), stream);
        fclose(stream);
    }
    bool load(const std::string &file) {
        FILE *stream = fmemopen(const_cast<char *>(file.data()), file.size(), "rb");
        marisa::fread(stream, &trie);
        values.resize(trie.num_keys());
        bool is_whole = std::fread(values.data(), sizeof values[0], values.size(), stream) == values.size();
        fclose(stream);
        return is_whole;
    }
};

int main(int argc, char **argv) { return run_measures<Marisa>(argc, argv); }
