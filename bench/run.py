#!/usr/bin/env python3
"""Measures the dictionary beside its peers, and writes what it found as lines of TSV. bench/README.md says how to read them."""

import argparse
import os
import statistics
import subprocess
import sys
import time
from concurrent.futures import ThreadPoolExecutor, as_completed
from dataclasses import dataclass
from pathlib import Path

import counting
import page
import rows
import subjects
import timing
import workloads
from measures import DICTIONARY, GROWTH, LATENCIES, MOST_IN_ROUNDS, SCRIPTS, SIZES, unit_of
from packages import Packages

TOP = Path(__file__).resolve().parent.parent
OUT = TOP / "bench" / "out"
# The load average from which on times aren't stored: the measuring process itself is one of it.
QUIET = 3


@dataclass
class Amounts:
    """How much a set of workloads has: words of a list (all if there is no number) or made ones, other keys, bytes of text, script lines."""

    words: int | None
    made_words: int
    random: int
    long: int
    text: int
    lines: tuple


# By what stands behind the names of workloads.
AMOUNTS = {
    "": Amounts(None, 100_000, 200_000, 20_000, 1 << 20, (250_000, 25_000)),
    "_small": Amounts(20_000, 20_000, 20_000, 2_000, 1 << 17, (10_000, 1_000)),
}
KEYS = ("words", "random", "long")


class Plan:
    """What is measured, on which workloads, and in how many rounds. Counts are of the small workloads: callgrind takes more than a hundred
    times as long as what it runs."""

    def __init__(self, told):
        self.is_timed = not told.only_counts
        self.is_counted = told.counts or told.only_counts
        self.timed = "_small" if told.quick else ""
        self.counted = "_small"
        self.growth = () if not self.is_timed else (1_000, 10_000, 50_000) if told.quick else (10_000, 30_000, 100_000, 300_000, 1_000_000, 10_000_000)
        self.rounds = told.rounds or (3 if told.quick else 5)
        self.passes = 1

    def workloads(self):
        """What stands behind the names of the workloads that are needed."""
        return dict.fromkeys([*([self.timed] if self.is_timed else []), *([self.counted] if self.is_counted else [])])

    def rounds_of(self, keys):
        return 1 if keys > MOST_IN_ROUNDS else self.rounds


def arguments():
    parser = argparse.ArgumentParser(prog="measure", description="Measures the dictionary beside its peers.")
    parser.add_argument("--quick", action="store_true", help="a small workload, which takes some two minutes")
    parser.add_argument("--counts", action="store_true", help="count instructions and misses by callgrind too, on the small workloads")
    parser.add_argument("--only-counts", action="store_true", help="no times: for a machine that does other work")
    parser.add_argument("--original", metavar="PATH", help="measure the original crate too, whose sources are in PATH")
    parser.add_argument("--rounds", type=int, help="how often all subjects are measured in turn (5, quick 3)")
    parser.add_argument("--python", metavar="INTERPRETER", help="measure the package for Python too, by python/compare.py in this interpreter")
    parser.add_argument("--offline", action="store_true", help="download no packages")
    parser.add_argument("--words", type=Path, metavar="LIST", help="take the first word of each line of LIST as the real words")
    parser.add_argument("--as-built", action="store_true", help="build neither library nor program: after ./gate and ./build-c")
    parser.add_argument("--only", metavar="SUBJECTS", help="measure these subjects alone, as 'here,judy'")
    parser.add_argument("--store", action="store_true", help="put the results into bench/results, and make page and pictures anew")
    return parser.parse_args()


def make_workloads(plan, words, packages):
    """Writes the workloads, and tells what they have."""
    words = words or packages.get("python3-jieba", "jieba/dict.txt") or packages.get("wamerican", "words")
    list_of = f"/{words.relative_to(packages.folder)}" if words and packages.folder in words.parents else str(words or "made of syllables")
    notes = {}
    for small in plan.workloads():
        say(f"writing the workloads words{small}, random{small} and long{small}")
        notes |= make_set(small, AMOUNTS[small], words, list_of)
    for size in plan.growth:
        say(f"writing {size:,} random keys")
        workloads.write(OUT / "data" / f"random_{size}", workloads.random_keys(size), 2, 0)
    return notes


def make_set(small, amounts, words, list_of):
    """Writes the workloads of one size."""
    data = OUT / "data"
    keys = workloads.words_of(words, amounts.words) if words else workloads.made_words(amounts.made_words)
    count = workloads.write(data / f"words{small}", keys, 3, amounts.text)
    (data / f"words{small}" / "lines").write_bytes(b"".join(key + b"\n" for key in keys))
    workloads.write(data / f"random{small}", workloads.random_keys(amounts.random), 2, amounts.text)
    workloads.write(data / f"long{small}", workloads.long_keys(amounts.long), 100, amounts.text)
    workloads.scripts(data / f"scripts{small}", *amounts.lines)
    short, long = (2 * lines for lines in amounts.lines)
    return {
        f"words{small}": f"{count:,} words ({list_of})",
        f"random{small}": f"{amounts.random:,} keys of 8 random bytes",
        f"long{small}": f"{amounts.long:,} keys of 200 bytes, each one of {amounts.long // 4:,} stems of 100 bytes and 100 bytes more",
        f"scripts{small}": f"{short:,} short lines and {long:,} long ones, half of which store a key and half look one up",
    }


def commit_of():
    """The commit that is measured, with + behind it if what is built has been changed since."""
    git = ["git", "-C", str(TOP)]
    commit = subprocess.run([*git, "rev-parse", "--short=7", "HEAD"], capture_output=True, text=True, check=True).stdout.strip()
    changed = subprocess.run([*git, "status", "--porcelain", "--", "bench", "c", "crates"], capture_output=True, text=True, check=True).stdout
    changed = [line for line in changed.splitlines() if "bench/results" not in line]
    return commit + ("+" if changed else "")


def machine_of():
    for line in Path("/proc/cpuinfo").read_text().splitlines():
        if line.startswith("model name"):
            return f"{' '.join(line.partition(':')[2].split())}, {os.cpu_count()} processors"
    return f"{os.uname().machine}, {os.cpu_count()} processors"


class Results:
    """Figures of times and of counts, as they come, which become rows."""

    def __init__(self, commit, machine):
        self.commit, self.machine = commit, machine
        self.times, self.counts = {}, {}
        # Rows that come as such.
        self.others = []

    def add_times(self, workload, figures):
        for (measure, subject), values in figures.items():
            self.times[measure, workload, subject] = values

    def add_counts(self, workload, subject, counted):
        for measure, told in counted.items():
            self.counts[measure, workload, subject] = told

    def rows(self, has_times):
        """All as rows. Where `has_times` is false, of the times only sizes are told."""
        made = []
        for key in dict.fromkeys([*self.times, *self.counts]):
            measure, values = key[0], self.times.get(key)
            if not has_times and measure not in SIZES:
                values = None
            if values is None and key not in self.counts:
                continue
            spread = [f"{figure(values):.1f}" for figure in (statistics.median, min, max)] if values else ["-"] * 3
            count = f"{self.counts[key][0]:.1f}" if key in self.counts else "-"
            made.append(rows.Row(*key, unit_of(measure), *spread, count, self.commit, self.machine))
            if key in self.counts:
                misses = f"{self.counts[key][1]:.2f}"
                made.append(rows.Row(*key, "misses", misses, misses, misses, "-", self.commit, self.machine))
        return made + (self.others if has_times else [])


def take_times(plan, chosen, results):
    """Each workload with all subjects in turn, growth likewise, threads, and scripts by the programs that answer them."""
    data, small = OUT / "data", plan.timed

    def in_turn(workload, what, able, run, keys=0):
        rounds = plan.rounds_of(keys)
        results.add_times(workload, timing.in_turn(able, rounds, run, lambda told: say(f"times of {what}, {told}")))

    def take(workload, what, names, keys=0):
        able = [subject for subject in chosen if workload.partition("_")[0] in subject.workloads and keys <= subject.most_keys]
        def run(subject):
            return timing.measure(subject, data / workload, plan.passes, [name for name in names if name not in subject.without])
        in_turn(workload, what, able, run, keys)

    for name in KEYS:
        take(f"{name}{small}", f"{name}{small}", (*DICTIONARY, *SIZES, "latency"))
    for size in plan.growth:
        take(f"random_{size}", f"{size:,} random keys", GROWTH, size)
    words = f"words{small}"
    for subject in chosen:
        if subject.threads:
            in_turn(words, "look-ups by threads", [subject], lambda one: timing.look_up_in_threads(one, data / words / "lines"))
    able = [subject for subject in chosen if subject.script]
    for name in SCRIPTS if able else ():
        script = data / f"scripts{small}" / name
        in_turn(f"scripts{small}", name, able, lambda subject: [timing.answer_script(subject, script, OUT)])


def take_python(interpreter, rounds, results):
    """What the package for Python takes, as ./build-c laid it out, beside the tries that the interpreter has; and what they were told on."""
    say("calls from Python")
    file = OUT / "python.tsv"
    package = TOP / "crates" / "cedar_c" / "out" / "c" / "python" / "plain"
    command = [interpreter, str(TOP / "python" / "compare.py"), "--rounds", str(rounds), "--rows", str(file)]
    told = subprocess.run(command, env={**os.environ, "PYTHONPATH": str(package)}, capture_output=True, text=True, check=True).stdout
    for line in file.read_text().splitlines():
        measure, unit, subject, *spread = line.split("\t")
        results.others.append(rows.Row(measure, "python", subject, unit, *spread, "-", results.commit, results.machine))
    return told.splitlines()[0]


def take_counts(plan, chosen, results):
    """All subjects and workloads, as many at a time as there are processors: counts don't hang on what runs beside them."""
    data, small = OUT / "data", plan.counted
    answers = {name: {} for name in KEYS}

    def of_workload(subject, name):
        wanted = [measure for measure in DICTIONARY if measure not in subject.without]
        lines, counted = counting.count_measures(subject, data / f"{name}{small}", wanted, OUT)
        for line in lines:
            timing.compare(answers[name], line, subject.name)
        results.add_counts(f"{name}{small}", subject.name, counted)

    def of_script(subject, name):
        counted = counting.count_script(subject, data / f"scripts{small}" / name, OUT)
        results.add_counts(f"scripts{small}", subject.name, {name: counted})

    with ThreadPoolExecutor(os.cpu_count()) as pool:
        running = [pool.submit(of_workload, subject, name) for name in KEYS for subject in chosen if name in subject.workloads]
        running += [pool.submit(of_script, subject, name) for subject in chosen if subject.script for name in SCRIPTS]
        for done, one in enumerate(as_completed(running)):
            one.result()
            say(f"counts by callgrind, {done + 1} of {len(running)}")


BEGUN = time.monotonic()


def say(text):
    minutes, seconds = divmod(int(time.monotonic() - BEGUN), 60)
    print(f"measure {minutes:2}:{seconds:02} {text}", flush=True)


def main():
    told = arguments()
    plan = Plan(told)
    packages = Packages(OUT / "packages", told.offline)
    if plan.is_counted and not counting.is_there():
        sys.exit("measure: the command 'valgrind' is missing on this machine: it counts")
    def wants(name):
        return told.only is None or name in told.only.split(",")

    chosen = [subjects.here(told.as_built)] if wants("here") else []
    chosen += [subjects.here_c(OUT, told.as_built)] if wants("here_c") else []
    chosen += [subjects.original(OUT, told.original)] if told.original and wants("cedarwood") else []
    chosen += subjects.peers(OUT, packages, wants)
    if not chosen:
        sys.exit(f"measure: there is no subject {told.only}")
    begun = time.strftime("%Y-%m-%d %H:%M")
    notes = make_workloads(plan, told.words, packages)
    results = Results(commit_of(), machine_of())
    load = os.getloadavg()[0]
    if plan.is_timed:
        take_times(plan, chosen, results)
        if told.python:
            notes["python"] = take_python(told.python, plan.rounds, results)
        load = max(load, os.getloadavg()[0])
    if plan.is_counted:
        take_counts(plan, chosen, results)
    has_times = plan.is_timed and not (told.store and load >= QUIET)
    if plan.is_timed and not has_times:
        say(f"the load average was {load:.1f}: no times are stored")
    notes |= {subject.name: subject.version for subject in chosen}
    notes |= {"date": begun, "rounds": str(plan.rounds if has_times else 0), "load": f"{load:.1f}", "kind": "quick" if told.quick else "whole"}
    made = results.rows(has_times)
    target = (rows.RESULTS if told.store else OUT) / "bench.tsv"
    rows.write(target, made, notes)
    if told.store:
        page.write()
    page.show(made)
    say(f"{len(made)} rows in {target.relative_to(TOP)}; load average {load:.1f}")


try:
    main()
except (timing.Wrong, rows.Mixed, subjects.Missing, subprocess.CalledProcessError) as error:
    sys.exit(f"measure: {error}")
