// Marks the words of a file in a text: highlight WORDS < TEXT prints the text with brackets around each, the longest at its place.
// Each line of the file is a word, a tab, and a number: if one isn't, it says which, and ends with status 1.
#include "word_list.hpp"
#include <exception>
#include <iostream>
#include <string>
#include <string_view>

static void highlight(const roskvidh::dictionary &words, std::string_view line) {
    words.segment(line, [line](const roskvidh::token &token) {
        const std::string_view text = line.substr(token.place, token.length);
        if (token.value) std::cout << '[' << text << ']';
        else std::cout << text;
    });
    std::cout << '\n';
}

int main(int count, char **arguments) try {
    if (count != 2) {
        std::cerr << "usage: highlight WORDS < TEXT\n";
        return 2;
    }
    const roskvidh::dictionary words = words_of(arguments[1]);
    for (std::string line; std::getline(std::cin, line);) highlight(words, line);
} catch (const std::exception &e) {
    std::cerr << "highlight: " << e.what() << '\n';
    return 1;
}
