#!/usr/bin/env python3
"""Makes tests/leftmost_texts.txt: texts and dictionaries drawn at random, each with what its searches find by a judge that knows nothing of
the library. The judge looks at each position for all keys that begin there, or end there, and takes one by the rule of aho-corasick's
MatchKind, or all. Run it as python3 tests/leftmost_texts.py > tests/leftmost_texts.txt."""

import random
import textwrap

CASES = 50
LETTERS = [b"a", b"ab", b"abc", b"ab\xe7\xbd\x91", b"a\x00b"]


def leftmost(keys, text, choose):
    """From left to right, of the keys that begin at a position the one that is chosen, and on from its end."""
    found = []
    place = 0
    while place < len(text):
        here = [(key, value) for key, value in keys.items() if text.startswith(key, place)]
        if here:
            key, value = choose(here)
            found.append((place, len(key), value))
            place += len(key)
        else:
            place += 1
    return found


def longest(here):
    return max(here, key=lambda item: len(item[0]))


def first(here):
    """The least value, and of several keys with it the shortest."""
    return min(here, key=lambda item: (item[1], len(item[0])))


def overlapping(keys, text):
    """All keys by their ends, and at one end the longest first."""
    found = [(place, len(key), value) for key, value in keys.items() for place in range(len(text)) if text.startswith(key, place)]
    return sorted(found, key=lambda item: (item[0] + item[1], -item[1]))


def standard(keys, text):
    """Of the keys that end first behind the one before, the longest."""
    found = []
    place = 0
    for start, length, value in overlapping(keys, text):
        if start >= place:
            found.append((start, length, value))
            place = start + length
    return found


def drawn(rng):
    letters = rng.choice(LETTERS)
    word = lambda least, most: bytes(rng.choice(letters) for _ in range(rng.randint(least, most)))
    text = word(0, 16)
    names = {word(1, 6).replace(b"\x00", b"a") for _ in range(rng.randint(0, 6))}
    for _ in range(rng.randint(0, 4)):
        start = rng.randrange(len(text) + 1)
        names.add(text[start:start + rng.randint(1, 7)].replace(b"\x00", b"b"))
    high = rng.choice([1, 3, 9, 2147483645])
    return {name: rng.randint(0, high) for name in sorted(names) if name}, text


def literal(text):
    return 'b"' + "".join(chr(b) if 32 < b < 127 and chr(b) not in '"\\' else f"\\x{b:02x}" for b in text) + '"'


def rows(name, items):
    return textwrap.wrap(f"{name}: &[{', '.join(items)}],", 130, initial_indent=" " * 8, subsequent_indent=" " * 12,
                         break_on_hyphens=False)


def made(keys, text):
    lines = ["    Searched {", f"        text: {literal(text)},"]
    lines += rows("keys", [f"({literal(key)}, {value})" for key, value in keys.items()])
    for name, found in [("longest", leftmost(keys, text, longest)), ("first", leftmost(keys, text, first)),
                        ("earliest", standard(keys, text)), ("overlapping", overlapping(keys, text))]:
        lines += rows(name, [str(match) for match in found])
    return lines + ["    },"]


def main():
    rng = random.Random(74)
    print("//! Texts drawn at random, each with what its searches find: made by tests/leftmost_texts.py, whose judge looks at each position.")
    print()
    print("use crate::leftmost::Searched;")
    print()
    print("/// The cases.")
    print(f"pub const CASES: [Searched; {CASES}] = [")
    for _ in range(CASES):
        print("\n".join(made(*drawn(rng))))
    print("];")


main()
