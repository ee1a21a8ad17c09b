#!/usr/bin/env python3
"""Compares what the program beside it writes with a plain dynamic programme over whole cuts, and with a plain search that looks for each
key at each position. It prints how many cases and answers were compared."""

import sys
from collections import Counter


class Case:
    """The keys of a dictionary, a text, and a model of costs: what keys cost by their values, and the run at each position."""

    def __init__(self, words):
        self.keys = {bytes.fromhex(words[i][1:]): int(words[i + 1]) for i in range(0, len(words), 2)}

    def read_text(self, words):
        self.text = bytes.fromhex(words[0][1:])
        count = len(words) - 1 - len(self.text)
        self.costs = [int(word) for word in words[1 : 1 + count]]
        self.runs = [tuple(map(int, word.split(":"))) for word in words[1 + count :]]
        self.at = [self.keys_at(place) for place in range(len(self.text))]

    def keys_at(self, place):
        """The keys at a position, the shortest first."""
        return sorted((len(key), value) for key, value in self.keys.items() if self.text.startswith(key, place))

    def edges(self, place):
        """All tokens that a cut by the model may have at a position: the keys, the shortest first, and then the run."""
        found = [(place, size, value, self.costs[value]) for size, value in self.at[place]]
        size, cost, beside = self.runs[place]
        if beside or not found:
            found.append((place, max(1, min(size, len(self.text) - place)), -1, cost))
        return found

    def bytes_and_keys(self, unknown, by_characters):
        """The same where keys cost their values, and single bytes stand beside them."""
        def edges(place):
            found = [(place, size, value, value) for size, value in self.at[place]]
            free = by_characters and 128 <= self.text[place] < 192
            return [*found, (place, 1, -1, 0 if free else unknown)]
        return edges

    def best(self, edges, most):
        """The best cuts of the text, in their order: each is its cost, the order of its tokens, and the tokens."""
        ways = [[] for _ in self.text] + [[(0, (), ())]]
        for place in reversed(range(len(self.text))):
            found = []
            for start, size, value, cost in edges(place):
                for behind in ways[place + size]:
                    order = (-size, value < 0), *behind[1]
                    found.append((cost + behind[0], order, ((start, size, value), *behind[2])))
            ways[place] = sorted(found)[:most]
        return [list(way[2]) for way in ways[0][:most]]

    def overlapping(self, behind=0):
        found = [(place, size, value) for place in range(len(self.text)) for size, value in self.at[place]]
        return sorted((spot for spot in found if spot[0] + spot[1] > behind), key=lambda spot: (spot[0] + spot[1], -spot[1]))

    def apart(self, place, order):
        """Keys that don't overlap, from a position on, in an order of all keys."""
        found = []
        for start, size, value in sorted(self.overlapping(), key=order):
            if start >= place:
                found.append((start, size, value))
                place = start + size
        return found

    def segments(self):
        found, place = [], 0
        while place < len(self.text):
            size, value = self.at[place][-1] if self.at[place] else (1, -1)
            found.append((place, size, value))
            place += size
        return found


ORDERS = {
    "E": lambda spot: (spot[0] + spot[1], -spot[1]),
    "X": lambda spot: (spot[0], -spot[1]),
    "F": lambda spot: (spot[0], spot[2], spot[1]),
}


def spots(words):
    return [tuple(map(int, word.split(":"))) for word in words]


def cuts(words):
    found = []
    for word in words:
        if word == "cut":
            found.append([])
        else:
            found[-1].append(tuple(map(int, word.split(":"))))
    return found


def wanted(case, what, numbers):
    if what == "B":
        return case.best(case.edges, 1)[0]
    if what == "L":
        return [edge for place in range(len(case.text)) for edge in case.edges(place)]
    if what in "PC":
        return case.best(case.bytes_and_keys(numbers[0], what == "C"), 1)[0]
    if what == "G":
        return case.segments()
    if what == "M":
        return [(place, size, value) for place in range(len(case.text)) for size, value in case.at[place]]
    if what == "W":
        return [token for token in case.segments() if token[2] >= 0]
    if what in "OQ":
        return case.overlapping(*numbers)
    return case.apart(numbers[0] if numbers else 0, ORDERS[what])


def main():
    cases, compared, some = 0, Counter(), Counter()
    case = None
    for number, line in enumerate(sys.stdin, 1):
        asked, _, told = line.strip().partition(" :")
        what, *words = asked.split()
        if what == "K":
            case = Case(words)
            cases += 1
            continue
        if what == "T":
            case.read_text(words)
            continue
        numbers = list(map(int, words))
        if what == "N":
            right, answer = case.best(case.edges, numbers[0]), cuts(told.split())
        elif what == "H":
            right, answer = max(map(len, case.keys), default=0), int(told)
        else:
            right, answer = wanted(case, what, numbers), spots(told.split())
        if answer != right:
            shown = f"keys {case.keys}\ntext {case.text}\ncosts {case.costs}\nruns {case.runs}"
            sys.exit(f"line {number}: {line.strip()}\nwanted {right}\n{shown}")
        compared[what] += 1
        some[what] += bool(right)
    if set(some) != set("BCEFGHLMNOPQWX") or not all(some.values()):
        sys.exit(f"too little was asked: {dict(compared)}, of which with an answer {dict(some)}")
    print(f"{cases} cases, {sum(compared.values())} answers compared: {dict(sorted(compared.items()))}")


main()
