// Completes the beginnings of words: complete WORDS BEGINNING.. prints the first ten words of a file that begin with each, with their
// numbers, and a line `..` if there are more. If none does, it prints those that begin with something one edit away, behind a `~`. Each
// line of the file is a word, a tab, and a number: if one isn't, it says which, and ends with status 1.
#include "word_list.hpp"
#include <exception>
#include <iostream>
#include <string>

// A range costs what is gone through, however many words there are.
static void complete(const roskvidh::dictionary &words, const std::string &beginning) {
    int left = 10;
    std::cout << beginning << ":\n";
    for (const auto &[word, number] : words.entries_with_prefix(beginning)) {
        if (left-- == 0) {
            std::cout << "  ..\n";
            break;
        }
        std::cout << "  " << word << ' ' << number << '\n';
    }
    // Of fewer bytes too many words are one edit away.
    if (left < 10 || beginning.size() < 3) return;
    for (const auto &near : words.completions_within(beginning, roskvidh::edits::one, 10)) {
        std::cout << "  ~" << near.key << ' ' << near.value << '\n';
    }
}

int main(int count, char **arguments) try {
    if (count < 2) {
        std::cerr << "usage: complete WORDS BEGINNING..\n";
        return 2;
    }
    const roskvidh::dictionary words = words_of(arguments[1]);
    for (int i = 2; i < count; ++i) complete(words, arguments[i]);
} catch (const std::exception &e) {
    std::cerr << "complete: " << e.what() << '\n';
    return 1;
}
