#!/usr/bin/env python3
"""Writes folders for crates/trial_run: python3 bench/scans.py FOLDER makes FOLDER/log, with 100,000 keywords and the lines of a log in which
one comes now and then, FOLDER/hostile, with one key a..ab in a text of a alone, and FOLDER/hostile_keywords, with the key a too. Each has
the files `sorted.tsv` (a key, a tab and the key's place in sorted order) and `text.txt`. It prints how to time them; bench/searches times
all."""

import math
import random
import sys
from pathlib import Path

KEYWORDS = 100_000
TEXT_BYTES = 12_000_000
HOSTILE_BYTES = 80_000
ONSETS = ["b", "c", "d", "f", "g", "h", "l", "m", "n", "p", "r", "s", "t", "v", "w", "st", "tr", "pr", "ch", "sh", "th", "", "", ""]
VOWELS = ["a", "e", "e", "i", "i", "o", "u", "ea", "io", "ou"]
CODAS = ["", "", "", "n", "r", "s", "t", "l", "nd", "ng", "ck", "m"]


def word(chance, least, most):
    return "".join(chance.choice(ONSETS) + chance.choice(VOWELS) + chance.choice(CODAS) for _ in range(chance.randint(least, most)))


def cost_of(count, total):
    """What a word costs that comes so often among so many."""
    return round(1000 * math.log(total / count))


def keyword(chance):
    """Two to four syllables, or two such words with a space."""
    return word(chance, 2, 4) + (" " + word(chance, 2, 3) if chance.random() < 0.3 else "")


def log(chance, keywords, text_bytes):
    """Lines of a time, an address, and a message of names in which a keyword comes once in ten words."""
    names = [word(chance, 1, 5) for _ in range(20_000)]
    size = 0
    while size < text_bytes:
        message = [chance.choice(keywords if chance.random() < 0.1 else names) for _ in range(chance.randint(6, 30))]
        line = f"2026-11-26T{chance.randrange(10**6):06} INFO 10.{chance.randrange(100):02}.0.7 {' '.join(message)}\n"
        size += len(line)
        yield line


def write(folder, keys, text):
    folder.mkdir(parents=True, exist_ok=True)
    (folder / "sorted.tsv").write_text("".join(f"{key}\t{place}\n" for place, key in enumerate(sorted(set(keys)))))
    (folder / "text.txt").write_text(text)
    print(f"crates/trial_run/out/trial_run scan {folder} 7", file=sys.stderr)


def write_all(folder, is_small=False):
    """All folders; small ones have a twentieth of the text and of the keywords."""
    count, text_bytes = (KEYWORDS // 20, TEXT_BYTES // 20) if is_small else (KEYWORDS, TEXT_BYTES)
    chance = random.Random(74)
    keywords = {keyword(chance) for _ in range(count * 5 // 4)}
    keywords = sorted(keywords)[:count] if len(keywords) < count else chance.sample(sorted(keywords), count)
    write(folder / "log", keywords, "".join(log(chance, keywords, text_bytes)))
    hostile = "a" * HOSTILE_BYTES
    write(folder / "hostile", [hostile + "b"], hostile)
    write(folder / "hostile_keywords", ["a", hostile + "b"], hostile)


if __name__ == "__main__":
    write_all(Path(sys.argv[1]))
