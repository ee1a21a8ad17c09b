#!/usr/bin/env python3
"""bench/durable.py [--folder FOLDER] [--rounds N] [--changes N] [--offline]: changes a second of a dictionary on a disk, one by one and
in batches; how long a file of many keys takes to open, and how much memory; and look-ups of other threads while one changes. Beside it
SQLite, LMDB and LevelDB with the same promise: a change that was acknowledged is on the disk.

`here` is the program of crates/trial_run, which has to be built (./test builds it). `here_c` is the library for C, if ./build-c has built
it. SQLite is Python's own, with its journal as WAL and synchronous FULL. The others are those of Debian's liblmdb-dev and libleveldb-dev.
They are downloaded if they aren't installed, and left out if they can't be had. Each stores the same keys, another one for each change,
with a commit for each change or batch. They are measured in turn, and a line tells the median, the least and the greatest of the rounds.
Each file is made anew in FOLDER (by default bench/out, on the disk of this checkout), and removed.

Who looks up in `here_c` waits for the change or the commit that is under way, by a lock; those of LMDB and LevelDB wait for nobody."""

import argparse
import os
import shutil
import sqlite3
import statistics
import subprocess
import sys
import tempfile
import time
from pathlib import Path

from packages import Packages

TOP = Path(__file__).resolve().parent.parent
OUT = TOP / "bench" / "out"
PROGRAM = TOP / "crates" / "trial_run" / "out" / "trial_run"
LIBRARY = TOP / "crates" / "cedar_c" / "out" / "c" / "libroskvidh.a"
COMPILE = ["g++", "-std=c++20", "-O2", "-Wall", "-Wextra", "-Werror", "-pthread", str(TOP / "bench" / "cpp" / "durable.cpp")]
# How many changes are made by commits of a size.
SIZES = ((1, 500), (100, 20_000), (1000, 100_000))
THREADS = 2


def key_of(number):
    """The key that the change of a number is about, as in crates/trial_run and cpp/durable.cpp: another one for each below 10,000,019."""
    return str(number * 7368787 % 10000019)


def run(*words):
    """The seconds that a program takes, the words that it prints, and the most memory that it had, in bytes."""
    began = time.perf_counter()
    with subprocess.Popen([*map(str, words)], stdout=subprocess.PIPE, text=True) as child:
        printed = child.stdout.read().split()
        _, status, used = os.wait4(child.pid, 0)
        took = time.perf_counter() - began
        child.returncode = os.waitstatus_to_exitcode(status)
    if child.returncode != 0:
        sys.exit(f"durable: {words}: status {child.returncode}")
    return took, printed, 1024 * used.ru_maxrss


class Here:
    """This repository's store, called from Rattle. What the program takes to open an empty file is left out of the time of changes."""

    name = "here"

    def change(self, path, first, count, size):
        started = run(PROGRAM, "kill", "len", path)[0]
        return run(PROGRAM, "kill", "fill", path, first, count, size)[0] - started

    def open(self, path):
        return run(PROGRAM, "kill", "len", path)[0]

    def memory(self, path):
        """The most memory of a program that only opens the file."""
        return run(PROGRAM, "kill", "len", path)[2]


class Sqlite:
    """One table of keys and values."""

    name = f"SQLite {sqlite3.sqlite_version}"

    def connect(self, path):
        connection = sqlite3.connect(path, isolation_level=None)
        connection.execute("PRAGMA journal_mode=WAL")
        connection.execute("PRAGMA synchronous=FULL")
        connection.execute("CREATE TABLE IF NOT EXISTS entries (key TEXT PRIMARY KEY, value INTEGER) WITHOUT ROWID")
        return connection

    def change(self, path, first, count, size):
        connection = self.connect(path)
        began = time.perf_counter()
        for start in range(first, first + count, size):
            connection.execute("BEGIN")
            for number in range(start, min(start + size, first + count)):
                connection.execute("INSERT OR REPLACE INTO entries VALUES (?, ?)", (key_of(number), number))
            connection.execute("COMMIT")
        took = time.perf_counter() - began
        connection.close()
        return took

    def open(self, path):
        began = time.perf_counter()
        connection = self.connect(path)
        connection.execute("SELECT value FROM entries WHERE key = ?", (key_of(0),)).fetchone()
        took = time.perf_counter() - began
        connection.close()
        return took


class Built:
    """A store by a program of cpp/durable.cpp."""

    def __init__(self, name, words):
        self.name = name
        self.program = OUT / "bin" / f"durable_{name.split()[0]}"
        self.program.parent.mkdir(parents=True, exist_ok=True)
        subprocess.run([*COMPILE, "-o", str(self.program), *map(str, words)], check=True)

    def change(self, path, first, count, size):
        return float(run(self.program, "change", path, first, count, size)[1][0])

    def open(self, path):
        return float(run(self.program, "open", path, 0, 0, 0)[1][0])

    def memory(self, path):
        return run(self.program, "open", path, 0, 0, 0)[2]

    def read(self, path, first, count, size):
        """The seconds, and how many look-ups other threads made."""
        seconds, looked = run(self.program, "read", path, first, count, size, THREADS)[1]
        return float(seconds), int(looked)


def built(packages):
    """The stores that can be built here; what is missing is said."""
    if LIBRARY.exists():
        yield Built("here_c", ["-I", TOP / "c" / "include", LIBRARY])
    else:
        print("durable: here_c is left out: ./build-c builds the library for C")
    for name, define, package, header, libraries in (
        ("LMDB", "-DLMDB", "liblmdb-dev", "lmdb.h", {"liblmdb-dev": "liblmdb.a"}),
        ("LevelDB", "-DLEVELDB", "libleveldb-dev", "leveldb/c.h", {"libleveldb-dev": "libleveldb.a", "libsnappy-dev": "libsnappy.a"}),
    ):
        found = packages.get(package, header)
        archives = [packages.get(of, library) for of, library in libraries.items()]
        if not found or not all(archives):
            print(f"durable: {name} is left out: Debian's package {package} isn't there")
            continue
        include = found.parents[header.count("/")]
        yield Built(f"{name} {packages.version(package)}", [define, "-I", include, *archives])


def told(name, figures, unit):
    """A line of figures."""
    least, greatest = min(figures), max(figures)
    print(f"{name:44} {statistics.median(figures):14,.1f} {unit}  ({least:,.1f} to {greatest:,.1f})", flush=True)


def remove(path):
    """Removes a store, which may be several files or a folder."""
    for each in Path(path).parent.glob(f"{Path(path).name}*"):
        shutil.rmtree(each) if each.is_dir() else each.unlink()


def changes(stores, room, rounds):
    """Changes a second by commits of each size."""
    for size, count in SIZES:
        rates = {store.name: [] for store in stores}
        for turn in range(rounds):
            for store in stores[turn % len(stores) :] + stores[: turn % len(stores)]:
                path = os.path.join(room, "changed")
                rates[store.name].append(count / store.change(path, 0, count, size))
                remove(path)
        for name, figures in rates.items():
            told(f"{name}, {size} in a commit", figures, "changes/s")


def openings(stores, room, rounds, count):
    """Opening a file of many changes, each of another key."""
    for store in stores:
        path = os.path.join(room, "many")
        store.change(path, 0, count, 1000)
        size = sum(each.stat().st_size for each in Path(room).rglob("*") if each.is_file())
        told(f"{store.name}, opening {count:,} keys", [1000 * store.open(path) for _ in range(rounds)], "ms")
        print(f"{'':44} {size:14,} bytes")
        if hasattr(store, "memory"):
            memory(store, path, rounds)
        remove(path)


def memory(store, path, rounds):
    """The most memory of a program that only opens the file. A new process counts what Python had, so less than that isn't known."""
    least = run("true")[2]
    figures = [store.memory(path) for _ in range(rounds)]
    if min(figures) > least:
        told("", [figure / 1e6 for figure in figures], "MB of memory, with the program's own")
    else:
        print(f"{'':44} {'':8} at most {least / 1e6:,.1f} MB of memory")


def readers(stores, room, rounds):
    """Changes and look-ups a second, while one thread changes and others look up."""
    for size, count in SIZES[:2]:
        for store in stores:
            path = os.path.join(room, "read")
            store.change(path, 0, 100_000, 1000)
            runs = [store.read(path, 100_000 + turn * count, count, size) for turn in range(rounds)]
            told(f"{store.name}, {size} in a commit, beside {THREADS} threads", [count / seconds for seconds, _ in runs], "changes/s")
            told("", [looked / seconds for seconds, looked in runs], "look-ups/s")
            remove(path)


def main():
    parser = argparse.ArgumentParser(description=__doc__.split("\n\n")[0])
    parser.add_argument("--folder", default=OUT)
    parser.add_argument("--rounds", type=int, default=5)
    parser.add_argument("--changes", type=int, default=1_000_000)
    parser.add_argument("--offline", action="store_true", help="download no packages")
    given = parser.parse_args()
    if not os.access(PROGRAM, os.X_OK):
        sys.exit(f"durable: there is no program {PROGRAM}: ./test builds it")
    os.makedirs(given.folder, exist_ok=True)
    native = list(built(Packages(OUT / "packages", given.offline)))
    stores = [Here(), Sqlite(), *native]
    with tempfile.TemporaryDirectory(dir=given.folder) as room:
        changes(stores, room, given.rounds)
        openings(stores, room, given.rounds, given.changes)
        readers(native, room, given.rounds)


main()
