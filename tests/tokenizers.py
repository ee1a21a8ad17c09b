#!/usr/bin/env python3
"""Prints what tests/tokenizers.txt wants, by programs that know nothing of the library: costs of made counts, and the cheapest of all cuts,
which are listed one by one. Run it as python3 tests/tokenizers.py, and compare."""

import math


def cuts(text, words, unknown, beside):
    """All cuts of a text: lists of a part and its word, or None; `beside` says whether a character may stand where words begin."""
    if not text:
        yield []
        return
    begins = [word for word in words if text.startswith(word)]
    tokens = [(word, word) for word in begins]
    if unknown and (beside or not begins):
        tokens.append((text[0], None))
    for part, word in tokens:
        for rest in cuts(text[len(part):], words, unknown, beside):
            yield [(part, word), *rest]


def in_bytes(cut, ids):
    start, told = 0, []
    for part, word in cut:
        size = len(part.encode())
        told.append((start, size, None if word is None else ids[word]))
        start += size
    return told


def ordered(all_cuts, price):
    """By cost; of those that cost the same first the one with the longer token where they first differ, and a word rather than none."""

    def order(cut):
        return sum(map(price, cut)), [(-len(part.encode()), word is None) for part, word in cut]

    return sorted(all_cuts, key=order)


def jieba():
    counts = {"我": 50_000, "来": 20_000, "到": 30_000, "来到": 8_000, "北京": 3_000, "清华": 200, "清华大学": 150, "华大": 10}
    counts["大学"] = 2_000
    total = sum(counts.values())
    costs = {word: round(1000 * math.log(total / count)) for word, count in counts.items()}
    ids = {word: place for place, word in enumerate(counts)}
    text = "我来到北京清华大学读书"
    price = lambda token: 16_000 if token[1] is None else costs[token[1]]
    print("jieba", list(costs.values()), in_bytes(ordered(cuts(text, counts, True, False), price)[0], ids))


def mecab():
    words = {"東京": (3_000, 1), "京都": (2_500, 1), "東": (1_500, 1), "都": (2_000, 2), "に": (100, 3)}
    joins = [[9_000, 100, 900, 900], [900, 3_000, 200, 100], [900, 900, 900, 100], [100, 100, 900, 900]]
    ids = {word: place for place, word in enumerate(words)}
    text = "東京都に"

    def cost(cut):
        before, sum_so_far = 0, 0
        for _, word in cut:
            own, kind = (20_000, 0) if word is None else words[word]
            sum_so_far += own + joins[before][kind]
            before = kind
        return sum_so_far

    best = min(cuts(text, words, True, True), key=cost)
    print("mecab", in_bytes(best, ids), cost(best))


def sentencepiece():
    scores = {"▁": -3.5, "▁the": -2.0, "▁th": -6.0, "e": -4.0, "re": -5.0, "▁there": -7.5, "t": -4.5, "h": -5.5, "r": -5.0}
    costs = {piece: round(-1000 * score) for piece, score in scores.items()}
    ids = {piece: place for place, piece in enumerate(scores)}
    worst = max(costs.values())
    price = lambda token: worst + 10_000 if token[1] is None else costs[token[1]]
    best = ordered(cuts("▁there▁x", scores, True, True), price)
    print("sentencepiece", list(costs.values()), [in_bytes(cut, ids) for cut in best[:3]])


jieba()
mecab()
sentencepiece()
