#!/usr/bin/env python3
"""Makes tests/model_cuts.txt: texts, dictionaries and models drawn at random, each with its best cuts by a judge that knows nothing of the
library. The judge lists every cut of a text and takes the least, by their costs and then by their tokens: the longer one first, and a key
before an unknown run. Run it as python3 tests/model_cuts.py > tests/model_cuts.txt."""

import heapq
import random
import textwrap

CASES = 90
BEST = 4
CLASSES = {"a": "letter", "b": "letter", "é": "letter", "1": "digit", "2": "digit", "网": "han", "球": "han", "ひ": "hiragana",
           "カ": "katakana", "한": "hangul"}


def is_tail(byte):
    return 128 <= byte < 192


def characters(text, place, most):
    """How many bytes so many characters have from a position on."""
    if is_tail(text[place]):
        return 1
    end = place
    for _ in range(most):
        if end == len(text):
            break
        end += 1
        while end < len(text) and is_tail(text[end]):
            end += 1
    return end - place


def class_run(text, place, most):
    if is_tail(text[place]):
        return 1
    words = text[place:].decode("utf-8")
    count = 1
    while count < min(most, len(words)) and words[0] in CLASSES and CLASSES[words[0]] == CLASSES.get(words[count]):
        count += 1
    return len(words[:count].encode("utf-8"))


def run_len(rule, text, place):
    if rule[0] == "OneByte":
        return 1
    if rule[0] == "OneCharacter":
        return characters(text, place, 1)
    return class_run(text, place, rule[2])


def pieces(keys, costs, beyond, rule, text, place):
    """The tokens that may begin at a position: how long, whether unknown, the value, and the cost."""
    found = []
    for key, value in keys:
        if text.startswith(key, place):
            found.append((len(key), 0, value, costs[value] if value < len(costs) else beyond))
    if rule[3] or not found:
        found.append((run_len(rule, text, place), 1, None, rule[1]))
    return found


def cuts(keys, costs, beyond, rule, text, place=0):
    """Every cut from a position on: its cost, by what it comes before others that cost as little, and its tokens."""
    if place == len(text):
        yield 0, [], []
        return
    for length, unknown, value, cost in pieces(keys, costs, beyond, rule, text, place):
        for more, order, tokens in cuts(keys, costs, beyond, rule, text, place + length):
            yield cost + more, [(-length, unknown)] + order, [(place, length, value)] + tokens


def drawn(rng):
    letters = rng.choice([["a", "b"], ["a", "b", "1", "网"], ["网", "球", "ひ", "カ"], ["a", "é", "한", ".", "2"]])
    word = lambda most: "".join(rng.choice(letters) for _ in range(rng.randint(1, most)))
    text = word(9).encode("utf-8")
    parts = [text[start:start + rng.randint(1, 6)] for start in (rng.randrange(len(text)) for _ in range(4))]
    names = sorted({word(3).encode("utf-8") for _ in range(rng.randint(0, 4))} | set(parts[:rng.randint(0, 4)]))
    top = rng.choice([3, 12, 4294967295])
    costs = [rng.randint(0, top) for _ in range(rng.randint(0, 7))]
    keys = [(name, rng.randint(0, 7)) for name in names]
    rule = (rng.choice(["OneByte", "OneCharacter", "OneClass"]), rng.randint(0, top), rng.randint(1, 4), rng.random() < 0.6)
    return keys, costs, rng.randint(0, top), rule, text


def literal(text):
    return 'b"' + "".join(chr(b) if 32 < b < 127 and chr(b) not in '"\\' else f"\\x{b:02x}" for b in text) + '"'


def rows(name, items):
    return textwrap.wrap(f"{name}: &[{', '.join(items)}],", 130, initial_indent=" " * 8, subsequent_indent=" " * 12,
                         break_on_hyphens=False)


def token(start, length, value):
    return f"({start}, {length}, {'None' if value is None else f'Some({value})'})"


def made(case):
    keys, costs, beyond, rule, text = case
    best = heapq.nsmallest(BEST, cuts(keys, costs, beyond, rule, text), key=lambda cut: (cut[0], cut[1]))
    lines = ["    Made {", f"        text: {literal(text)},"]
    lines += rows("keys", [f"({literal(key)}, {value})" for key, value in keys])
    lines += [f"        costs: &[{', '.join(map(str, costs))}],", f"        beyond: {beyond},"]
    lines += [f"        rule: Rule::{rule[0]}, cost: {rule[1]}, most: {rule[2]}, beside_keys: {str(rule[3]).lower()},"]
    lines += rows("wanted", [f"&[{', '.join(token(*part) for part in tokens)}]" for _, _, tokens in best])
    return lines + ["    },"]


def main():
    rng = random.Random(74)
    print("//! Texts drawn at random, each with its best cuts by a model: made by tests/model_cuts.py, whose judge lists all cuts.")
    print()
    print("use crate::models::{Made, Rule};")
    print()
    # Two lists, since a constant has some ten thousand expressions at the most.
    for name, comment in ("CASES", "The first half of the cases."), ("OTHER_CASES", "The other half."):
        print(f"/// {comment}")
        print(f"pub const {name}: [Made; {CASES // 2}] = [")
        for _ in range(CASES // 2):
            print("\n".join(made(drawn(rng))))
        print("];")
        if name == "CASES":
            print()


main()
