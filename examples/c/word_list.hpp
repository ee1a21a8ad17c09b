// Reads a list of words, one in each line: a word, a tab, and a number. Empty lines are passed over.
#ifndef WORD_LIST_HPP
#define WORD_LIST_HPP

#include "cedar.hpp"
#include <cerrno>
#include <charconv>
#include <fstream>
#include <stdexcept>
#include <string>
#include <system_error>

// The number behind the tab of a line.
inline long long number_of(const std::string &line, std::size_t tab) {
    const std::size_t from = line.find_first_not_of(' ', tab + 1), last = line.find_last_not_of(" \r");
    long long number = 0;
    if (from == std::string::npos || last < from) throw std::runtime_error("no number is behind the tab");
    const char *end = line.data() + last + 1;
    const auto read = std::from_chars(line.data() + from, end, number);
    if (read.ec == std::errc::invalid_argument || read.ptr != end) throw std::runtime_error("no number is behind the tab");
    return read.ec == std::errc() ? number : -1; // it has too many digits: the dictionary refuses it by name
}

// Throws what says why a list isn't read, and where.
inline roskvidh::dictionary words_of(const std::string &path) {
    roskvidh::dictionary words;
    errno = 0;
    std::ifstream lines(path);
    if (!lines) throw std::system_error(errno, std::generic_category(), path);
    long at = 0;
    for (std::string line; std::getline(lines, line);) {
        ++at;
        if (line.find_first_not_of('\r') == std::string::npos) continue;
        try {
            const std::size_t tab = line.find('\t');
            if (tab == std::string::npos) throw std::runtime_error("not a word, a tab and a number");
            words.update(line.substr(0, tab), number_of(line, tab));
        } catch (const std::runtime_error &e) {
            throw std::runtime_error(path + ": line " + std::to_string(at) + ": " + e.what());
        }
    }
    if (lines.bad()) throw std::system_error(errno, std::generic_category(), path);
    return words;
}

#endif
