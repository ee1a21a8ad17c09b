#!/usr/bin/env python3
"""page.py [--check]: makes the tables of docs/MEASUREMENTS.md, between its two marker lines, those of README.md and docs/PERFORMANCE.md, and
the pictures in docs/pictures, of the rows in bench/results. With --check it writes nothing, and fails where they aren't what the rows
give, or where rows don't belong together."""

import re
import sys
from datetime import datetime
from pathlib import Path

import pictures
import rows
from measures import DICTIONARY, LATENCIES, MOST_IN_ROUNDS, SCRIPTS, SIZES, THREADS, WORKLOADS, sizes_of_growth
from tables import Table, number

TOP = Path(__file__).resolve().parent.parent
PAGE = TOP / "docs" / "MEASUREMENTS.md"
PICTURES = TOP / "docs" / "pictures"
BEGIN, END = "<!-- made by bench/page.py of bench/results: begin -->", "<!-- made by bench/page.py of bench/results: end -->"

PYTHON = """Nanoseconds of the processor a step, its loop in Python included, by the median of the rounds; behind it how many times as long as
`roskvidh`. Memory is by how much a process grows that makes the dictionary."""

# The workload that the tables of README.md and docs/PERFORMANCE.md are of.
COUNTED = "words_small"
# The table of README.md: its head, the measures of its rows, the subjects of its columns behind the first, and the sentence above it, which
# says how the first one is called.
README_HEAD = "| | here | cedarwood 0.6.1 | Judy | hash map |"
README_COLUMNS = ("cedarwood", "judy", "unordered_map")
README_CALLED = re.compile(r"Called from (Rattle|C), with")
# What the pages say of their rows: the commit, and the day.
OF_COMMIT = re.compile(r"(of commit )[0-9a-f]+\b", re.IGNORECASE)
OF_DAY = re.compile(r"(of commit [0-9a-f]+, of )\d+ \w+ \d+")
README_ROWS = {
    "look up a held key, in no order": "hit",
    "look up an absent key": "miss",
    "insert, sorted order": "update_sorted",
    "insert, in no order": "update_shuffled",
    "erase": "erase",
    "complete a prefix, a result": "prediction",
    "list all entries": "entries",
    "load a file": "load",
}
# The table of docs/PERFORMANCE.md, of which each row may name a measure.
COSTS_HEAD = "| call | from Rattle | misses | from C | misses | grows with |"
COSTS_ROWS = {
    "exact look-up of a held key, in no order": "hit",
    "exact look-up of an absent key": "miss",
    "`exact_match_search_batch`, each held key": "hit_batch",
    "`update` of a new key, sorted order": "update_sorted",
    "`update` of a new key, in no order": "update_shuffled",
    "`update_batch`, each key in no order": "update_all",
    "`erase`": "erase",
    "`erase_batch`, each key": "erase_all",
    "prefix walk, each start of a character in a text": "prefix_walk",
    "`segment`, each byte of the text": "segment",
    "prediction, each result": "prediction",
    "`entries`, each key; from C in pages": "entries",
    "all entries, each key lent by a cursor": "entries_lent",
    "`from_sorted_bytes`, each key": "sorted_build",
    "`from_pairs_bytes`, each key in no order": "unsorted_build",
    "save in 1.1, each key": "save",
    "load, each key": "load",
}


GROWN = (
    ("hit", "look-up, ns"),
    ("update_shuffled", "update, ns"),
    ("latency_most", "slowest update, ns"),
    ("resident", "memory a key, bytes"),
    ("file", "bytes of the file a key"),
)


def growth_lines(table, given):
    made = []
    for measure, what in GROWN:
        able = [name for name in table.subjects if any(table.time(measure, f"random_{size}", name) != "-" for size in sizes_of_growth(given))]
        for name in able:
            cells = [table.row(measure, f"random_{size}", name) for size in sizes_of_growth(given)]
            made.append(f"| {what} | {name} | {' | '.join(number(row.median) if row else '-' for row in cells)} |")
    if not made:
        return []
    sizes = sizes_of_growth(given)
    once = [f"More than {MOST_IN_ROUNDS:,} keys were measured in one round.", ""] if sizes[-1] > MOST_IN_ROUNDS else []
    return [*once, f"| figure | subject | {' | '.join(f'{size:,} keys' for size in sizes)} |", "|---" * (len(sizes) + 2) + "|", *made, ""]


def wrapped(text, width=140):
    """Prose in lines of at most so many columns."""
    lines, line = [], ""
    for word in text.split():
        if line and len(line) + 1 + len(word) > width:
            lines.append(line)
            line = word
        else:
            line = f"{line} {word}".strip()
    return [*lines, line]


def introduction(table, notes, given):
    subjects = "; ".join(f"`{name}`: {notes.get(name, '?')}" for name in table.subjects)
    told = f"Commit {given[0].commit}, {notes['date']}, {given[0].machine}. Subjects: {subjects}."
    if table.has_times:
        told += f" Times are of the processor, medians of {notes['rounds']} rounds in turn, with the least and the greatest behind them;"
        told += f" the load average was {notes['load']} at most."
    else:
        told += " It has no times: the machine had other work to do."
    if table.has_counts:
        told += " Counts are callgrind's, of the small workloads: instructions, and behind the stroke misses of a last cache of 1 MiB."
    told += " `-`: it has no such call, or wasn't asked."
    return wrapped(told)


def compared_on(table, notes):
    """On which words the subjects are compared: counts are of the small workload, times of the whole one where that was timed."""
    counted, timed = (notes.get(first, notes.get(other)) for first, other in (("words_small", "words"), ("words", "words_small")))
    told = [f"Instructions: {counted}."] if table.has_counts else []
    return wrapped(" ".join([*told, f"Times: {timed}."] if table.has_times else told))


def block():
    """What stands between the marker lines."""
    notes, given = rows.read_all()
    if not given:
        return ["", "Nothing has been stored yet: `./measure --store` stores what it measures.", ""]
    table = Table(given)
    made = ["", *introduction(table, notes, given), ""]
    compared = table.times_as_fast()
    if compared:
        made += ["### How many times as fast as the original crate, on the words and scripts", "", *compared_on(table, notes), "", *compared]
    for workload in WORKLOADS:
        counts = table.lines(workload, DICTIONARY, table.count)
        times = table.lines(workload, (*DICTIONARY, *SIZES, *THREADS, *LATENCIES), table.time)
        if counts or times:
            made += [f"### {notes.get(workload, workload)}", ""]
        made += ["Instructions / misses, an operation:", "", *counts] if counts else []
        made += ["Nanoseconds, of sizes bytes, an operation:", "", *times] if times else []
    for workload in ("scripts", "scripts_small"):
        counts, times = table.lines(workload, SCRIPTS, table.count), table.lines(workload, SCRIPTS, table.time)
        if counts or times:
            made += [f"### Scripts: {notes[workload]}", "", *counts, *times]
    growth = growth_lines(table, given)
    made += ["### Growth, by the number of random keys", "", *growth] if growth else []
    python = table.of_python()
    if python:
        made += [f"### From Python: {notes['python']}", "", *wrapped(PYTHON), "", *python]
    for name, title in pictures.names(given):
        made += [f"![{title}](pictures/{name})", ""]
    return made


def made_page(text, table):
    lines = text.splitlines()
    begin, end = lines.index(BEGIN), lines.index(END)
    return "\n".join([*lines[: begin + 1], *block(), *lines[end:]]) + "\n"


def refreshed(text, head, rows_of, cells_of):
    """A page whose table below a head line has new figures: `rows_of` tells the measure of a row by its first cell, and `cells_of` the
    cells behind that. A row that tells no such measure stays, and so do cells that there is no figure for."""
    lines, is_inside = text.splitlines(), False
    for place, line in enumerate(lines):
        if line == head:
            is_inside = True
        elif is_inside and not line.startswith("|"):
            break
        elif is_inside and (measure := rows_of.get(line.split("|")[1].strip())):
            cells = line.split("|")
            for column, cell in enumerate(cells_of(measure), 2):
                cells[column] = f" {cell} " if cell else cells[column]
            lines[place] = "|".join(cells)
    return "\n".join(lines) + "\n"


def of_rows(text):
    """A page whose sentences name the commit and the day of the rows."""
    notes, given = rows.read_all()
    if not given:
        return text
    day = datetime.strptime(notes["date"], "%Y-%m-%d %H:%M")
    text = OF_COMMIT.sub(rf"\g<1>{given[0].commit}", text)
    return OF_DAY.sub(rf"\g<1>{day.day} {day:%B %Y}", text)


def first_page(text, table):
    subject, called = table.called(COUNTED)
    columns = (subject, *README_COLUMNS)
    text = README_CALLED.sub(f"Called from {called}, with", of_rows(text))
    return refreshed(text, README_HEAD, README_ROWS, lambda measure: [table.instructions(measure, COUNTED, name) for name in columns])


def costs_page(text, table):
    def cells(measure):
        return [figure(measure, COUNTED, name) for name in ("here", "here_c") for figure in (table.instructions, table.misses)]

    return refreshed(of_rows(text), COSTS_HEAD, COSTS_ROWS, cells)


PAGES = {PAGE: made_page, TOP / "README.md": first_page, TOP / "docs" / "PERFORMANCE.md": costs_page}


def write():
    _, given = rows.read_all()
    for page, made in PAGES.items():
        page.write_text(made(page.read_text(), Table(given)))
    PICTURES.mkdir(exist_ok=True)
    for old in PICTURES.glob("bench_*.svg"):
        old.unlink()
    for name, text in pictures.drawn(given).items():
        (PICTURES / name).write_text(text)


def check():
    """What of the pages and the pictures isn't what the rows give."""
    _, given = rows.read_all()
    wrong = [str(page.relative_to(TOP)) for page, made in PAGES.items() if made(page.read_text(), Table(given)) != page.read_text()]
    wanted = pictures.drawn(given)
    found = {path.name: path.read_text() for path in PICTURES.glob("bench_*.svg")}
    return wrong + [f"docs/pictures/{name}" for name in sorted({*wanted, *found}) if wanted.get(name) != found.get(name)]


def show(given):
    """Prints what was found, workload by workload."""
    table = Table(given)
    for workload in (*WORKLOADS, "scripts", "scripts_small"):
        for row in given:
            if row.workload == workload and row.unit != "misses":
                told = (cell(row.measure, workload, row.subject) for cell in (table.time, table.count))
                print(workload, row.measure, row.subject, row.unit, *told, sep="\t")


if __name__ == "__main__":
    if sys.argv[1:] == ["--check"]:
        try:
            wrong = check()
        except rows.Mixed as error:
            sys.exit(f"bench/page.py: {error}")
        if wrong:
            sys.exit(f"bench/page.py: {', '.join(wrong)} isn't what bench/results gives; 'bench/page.py' mends it")
    else:
        write()
