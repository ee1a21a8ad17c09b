#!/usr/bin/env python3
"""Completes words as somebody types: examples/complete.py LIST TEXT.. prints, for each beginning of each text, the words that are offered.

LIST has a line for each word: the word, how often it occurs, and anything, with blanks between them. Debian's package python3-jieba has such
a list of 349,045 Chinese words, /usr/lib/python3/dist-packages/jieba/dict.txt. The package roskvidh has to be installed.
"""

import sys

from roskvidh import Cedar

OFFERED = 5
# One edit away from one or two characters is too much.
LEAST_FORGIVEN = 3
MOST_VALUE = 2147483645


def words_of(path):
    """A dictionary of the words with their frequencies."""
    with open(path, encoding="utf-8") as lines:
        rows = (line.split() for line in lines)
        return Cedar(((word, min(int(count), MOST_VALUE)) for word, count, *_ in rows), text=True)


def offer(words, typed):
    """The most frequent words that begin with what was typed; if none does, those that begin with what is a character away from it."""
    found = words.best(typed, OFFERED)
    if found or len(typed) < LEAST_FORGIVEN:
        return found
    near = words.within(typed, 1, beginning=True)
    return sorted(near, key=lambda entry: (-entry[1], entry[0]))[:OFFERED]


def main():
    if len(sys.argv) < 3:
        sys.exit("usage: examples/complete.py LIST TEXT..")
    words = words_of(sys.argv[1])
    for text in sys.argv[2:]:
        for end in range(1, len(text) + 1):
            typed = text[:end]
            print(f"{typed}:", ", ".join(f"{word} {count}" for word, count in offer(words, typed)) or "-")


if __name__ == "__main__":
    main()
