"""Times the package beside other tries for Python, those that are installed of datrie, ahocorasick, marisa and pygtrie, and beside a dict.

    python3 python/compare.py [--words FILE] [--text FILE] [--rounds N] [--rows FILE]

It prints a table in Markdown: what a step of each takes, by the median of all rounds, in which the contenders take turns; and how many
times as long as the package it takes. FILE gets a line for each figure: its measure, its unit, the contender, the median, the least and the
greatest of the rounds, with tabs between them. All answers are compared with those of the dict. On Debian the others are the packages
python3-datrie, python3-ahocorasick, python3-marisa and python3-pygtrie, the words are those of wamerican.
"""

import argparse
import gc
import importlib
import os
import random
import statistics
import subprocess
import sys
import time
from types import SimpleNamespace

# This folder has the package's sources without the compiled part: the package that is installed is meant.
sys.path[:] = [folder for folder in sys.path if os.path.realpath(folder or ".") != os.path.dirname(os.path.realpath(__file__))]

FEW, COMPLETED, TEXT_LENGTH = 5000, 1000, 200_000


MAKES = ("sorted_inserts", "build")  # the measures that make a dictionary


class Contender:
    """A dictionary of str, and how each measure is asked of it. A method that isn't there is a measure that it hasn't."""

    def sorted_inserts(self, pairs):
        made = self.empty()
        for key, value in pairs:
            self.insert(made, key, value)
        return made

    def look_ups(self, made, keys):
        return sum([made[key] for key in keys])

    def misses(self, made, keys):
        return sum([key in made for key in keys])

    def erasures(self, made, keys):
        for key in keys:
            del made[key]
        return made

    def insert(self, made, key, value):
        made[key] = value


class Roskvidh(Contender):
    name, module = "roskvidh", "roskvidh"

    def empty(self):
        return self.library.Cedar(text=True)

    def build(self, pairs):
        return self.library.Cedar.from_sorted(pairs, text=True)

    def prefixes(self, made, texts):
        return sum([value for text in texts for _, value in made.prefixes(text)])

    def longest(self, made, texts):
        return sum([len(made.longest_prefix(text)[0]) for text in texts])

    def completions(self, made, prefixes):
        return sum([value for prefix in prefixes for _, value in made.items(prefix)])

    def ranges(self, made, bounds):
        return sum([len(list(made.irange(low, high))) for low, high in bounds])

    def scan(self, made, text):
        return sum([match.value for match in made.scan(text)])

    def counted_scan(self, made, text):
        return len(made.scan(text))

    def tokens(self, made, text):
        return sum([match.length for match in made.segment(text) if match.value is not None])


class Dict(Contender):
    name, module = "dict", "builtins"

    def empty(self):
        return {}

    def build(self, pairs):
        return dict(pairs)


class Datrie(Contender):
    name, module = "datrie", "datrie"

    def empty(self):
        return self.library.BaseTrie(self.alphabet)

    def prefixes(self, made, texts):
        return sum([value for text in texts for _, value in made.prefix_items(text)])

    def longest(self, made, texts):
        return sum([len(made.longest_prefix(text)) for text in texts])

    def completions(self, made, prefixes):
        return sum([value for prefix in prefixes for _, value in made.items(prefix)])


class Ahocorasick(Contender):
    """Its longest_prefix is the longest one of any key, and not the longest key."""

    name, module = "ahocorasick", "ahocorasick"

    def empty(self):
        return self.library.Automaton(self.library.STORE_INTS)

    def insert(self, made, key, value):
        made.add_word(key, value)

    def build(self, pairs):
        made = self.sorted_inserts(pairs)
        made.make_automaton()
        return made

    def look_ups(self, made, keys):
        return sum([made.get(key) for key in keys])

    def erasures(self, made, keys):
        for key in keys:
            made.remove_word(key)
        return made

    def completions(self, made, prefixes):
        return sum([value for prefix in prefixes for _, value in made.items(prefix)])

    def scan(self, made, text):
        return sum([value for _, value in made.iter(text)])

    def counted_scan(self, made, text):
        return len(list(made.iter(text)))


class Marisa(Contender):
    """It has numbers of its own for keys, and a list beside it has their values. It isn't changed once it is made."""

    name, module = "marisa", "marisa"
    sorted_inserts = erasures = None

    def build(self, pairs):
        pairs, keys, trie = list(pairs), self.library.Keyset(), self.library.Trie()
        for key, _ in pairs:
            keys.push_back(key)
        trie.build(keys)
        made = SimpleNamespace(trie=trie, agent=self.library.Agent(), values=[0] * len(pairs))
        for key, value in pairs:
            made.values[trie.lookup(key)] = value
        return made

    def look_ups(self, made, keys):
        return sum([made.values[made.trie.lookup(key)] for key in keys])

    def misses(self, made, keys):
        return sum([made.trie.lookup(key) != self.library.INVALID_KEY_ID for key in keys])

    def walked(self, made, step, texts):
        agent, total = made.agent, 0
        for text in texts:
            agent.set_query(text)
            while step(agent):
                agent.key_str()
                total += made.values[agent.key_id()]
        return total

    def prefixes(self, made, texts):
        return self.walked(made, made.trie.common_prefix_search, texts)

    def completions(self, made, prefixes):
        return self.walked(made, made.trie.predictive_search, prefixes)


class Pygtrie(Contender):
    name, module = "pygtrie", "pygtrie"

    def empty(self):
        return self.library.CharTrie()

    def prefixes(self, made, texts):
        return sum([value for text in texts for _, value in made.prefixes(text)])

    def longest(self, made, texts):
        return sum([len(made.longest_prefix(text)[0]) for text in texts])

    def completions(self, made, prefixes):
        return sum([value for prefix in prefixes for value in made.itervalues(prefix)])


def contenders(alphabet):
    """Those whose module is there."""
    for kind in (Roskvidh, Datrie, Ahocorasick, Marisa, Pygtrie, Dict):
        one = kind()
        try:
            one.library = importlib.import_module(kind.module)
        except ImportError:
            print(f"compare.py: {kind.module} isn't installed", file=sys.stderr)
            continue
        one.alphabet = alphabet
        yield one


def fresh(pairs):
    """The same pairs with keys that nobody else keeps."""
    return ((key.encode().decode(), value) for key, value in pairs)


def occurrences(plain, text):
    """Of all keys in a text: the sum of their values, how many there are, and how long its tokens are that are keys."""
    longest, total, count, covered, end = max(map(len, plain)), 0, 0, 0, 0
    for place in range(len(text)):
        here = [key for key in (text[place : place + n] for n in range(1, min(longest, len(text) - place) + 1)) if key in plain]
        total += sum(plain[key] for key in here)
        count += len(here)
        if place == end:
            covered += len(here[-1]) if here else 0
            end += len(here[-1]) if here else 1
    return total, count, covered


def measures(words, text):
    """For each measure: its name, its method, what it is asked with, how many steps that is, and the right answer."""
    chance = random.Random(5)
    plain = {word: i for i, word in enumerate(words)}
    shuffled = chance.sample(words, len(words))
    missing = [word + "q" if i % 2 else "q" + word for i, word in enumerate(shuffled)]
    missing = [word for word in missing if word not in plain]
    texts = [one + other for one, other in zip(shuffled, reversed(shuffled))][:FEW]
    fronts = [[text[:n] for n in range(1, len(text) + 1) if text[:n] in plain] for text in texts]
    prefixes = chance.choices([word[:4] for word in shuffled if len(word) > 4], k=COMPLETED)
    below = {prefix: 0 for prefix in prefixes}
    for word, value in plain.items():
        if word[:4] in below:
            below[word[:4]] += value
    found = sum(word[:4] == prefix for prefix in set(prefixes) for word in words)
    starts = [chance.randrange(len(words) - 20) for _ in range(COMPLETED)]
    total, count, covered = occurrences(plain, text)
    pairs, few = list(plain.items()), [(word, plain[word]) for word in shuffled[:FEW]]
    return [
        ("look-up, in no order", "look_ups", shuffled, len(words), sum(plain.values())),
        ("miss", "misses", missing, len(missing), 0),
        ("insert, in order", "sorted_inserts", pairs, len(words), len(words)),
        (f"insert of {FEW:,}, in no order", "sorted_inserts", few, FEW, FEW),
        ("build of sorted pairs, a key", "build", pairs, len(words), len(words)),
        (f"erasure of {FEW:,}", "erasures", shuffled[:FEW], FEW, 0),
        ("keys that a text begins with, a text", "prefixes", texts, FEW, sum(plain[key] for keys in fronts for key in keys)),
        ("the longest of them, a text", "longest", texts, FEW, sum(len(keys[-1]) for keys in fronts)),
        (f"completions, {found / len(set(prefixes)):.0f} a prefix, each", "completions", prefixes, COMPLETED, sum(below[prefix] for prefix in prefixes)),
        ("20 keys between two keys", "ranges", [(words[at], words[at + 20]) for at in starts], COMPLETED, 20 * COMPLETED),
        ("all keys in a text, each taken up, a match", "scan", text, count, total),
        ("all keys in a text, counted, a match", "counted_scan", text, count, count),
        ("tokens of a text, a character", "tokens", text, len(text), covered),
    ]


def made_of(one, pairs):
    return (getattr(one, "build", None) or one.sorted_inserts)(pairs)


def timed(one, method, pairs, given):
    """The processor time of a measure, and its answer."""
    arguments = (list(fresh(given)),) if method in MAKES else (one.made, given)
    if method == "erasures":
        arguments = made_of(one, pairs), given
    gc.collect()
    gc.disable()
    start = time.process_time()
    answer = getattr(one, method)(*arguments)
    took = time.process_time() - start
    gc.enable()
    if method in MAKES:
        answer = len(answer.values if one.name == "marisa" else answer)
    elif method == "erasures":
        answer = one.misses(answer, given)  # how many are still held
    return took, answer


def resident():
    with open("/proc/self/statm") as file:
        return int(file.read().split()[1]) * os.sysconf("SC_PAGE_SIZE")


def tell_memory(one, words):
    """Prints by how many bytes this process grows that makes the dictionary, and returns it."""
    gc.collect()
    before = resident()
    made = made_of(one, fresh((word, i) for i, word in enumerate(words)))
    print(resident() - before)
    return made


def memory(one, given):
    """The same of a process of its own, since one that ran before has memory to use again."""
    command = [sys.executable, __file__, "--words", given.words, "--text", given.text, "--memory", one.name]
    return int(subprocess.check_output(command))


def compare(all_contenders, words, text, given):
    """The table's rows: for each measure its name, its unit, and the figures of the rounds for each contender that has it."""
    pairs = [(word, i) for i, word in enumerate(words)]
    for one in all_contenders:
        one.made = made_of(one, fresh(pairs))
    for name, method, asked, steps, wanted in measures(words, text):
        times = {one.name: [] for one in all_contenders if getattr(one, method, None)}
        for _ in range(given.rounds):
            for one in all_contenders:
                if one.name in times:
                    took, answer = timed(one, method, pairs, asked)
                    assert answer == wanted, (one.name, name, answer, wanted)
                    times[one.name].append(took / steps)
        yield name, "ns", {contender: [1e9 * took for took in each] for contender, each in times.items()}
    yield "memory, a key", "bytes", {one.name: [memory(one, given) / len(words)] for one in all_contenders}


def cell(figures, contender, unit):
    if contender not in figures:
        return "-"
    number, first = statistics.median(figures[contender]), statistics.median(figures["roskvidh"])
    text = f"{number:,.0f} {unit}" if number >= 10 else f"{number:.1f} {unit}"
    return text if contender == "roskvidh" else f"{text} ({number / first:.1f})"


def lines(name, unit, figures):
    for contender, each in figures.items():
        spread = (f"{figure(each):.1f}" for figure in (statistics.median, min, max))
        yield "\t".join((name, unit, contender, *spread)) + "\n"


def main():
    given = argparse.ArgumentParser(description=__doc__.splitlines()[0])
    given.add_argument("--words", default="/usr/share/dict/american-english")
    given.add_argument("--text", default="/usr/share/common-licenses/GPL-3")
    given.add_argument("--rounds", type=int, default=9)
    given.add_argument("--rows", default=os.devnull, metavar="FILE")
    given.add_argument("--memory", help=argparse.SUPPRESS)
    given = given.parse_args()
    with open(given.words, encoding="utf-8") as file:
        words = sorted({line.strip() for line in file} - {""})
    with open(given.text, encoding="utf-8") as file:
        text = file.read()
    text = (text * (1 + TEXT_LENGTH // len(text)))[:TEXT_LENGTH]
    all_contenders = list(contenders("".join(sorted(set(text).union(*words)))))
    if all_contenders[0].name != "roskvidh":
        raise SystemExit(2)
    if given.memory:
        tell_memory(next(one for one in all_contenders if one.name == given.memory), words)
        return
    print(f"{len(words):,} words, a text of {len(text):,} characters, Python {sys.version.split()[0]}, {given.rounds} rounds\n")
    print("| measure | " + " | ".join(one.name for one in all_contenders) + " |")
    print("|---" * (1 + len(all_contenders)) + "|")
    with open(given.rows, "w", encoding="utf-8") as rows:
        for name, unit, figures in compare(all_contenders, words, text, given):
            print(f"| {name} | " + " | ".join(cell(figures, one.name, unit) for one in all_contenders) + " |", flush=True)
            rows.writelines(lines(name, unit, figures))


if __name__ == "__main__":
    main()
