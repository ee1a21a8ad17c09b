"""Times: all subjects in turn, round after round, and what each answered compared."""

import hashlib
import os
import re
import statistics
import subprocess
from dataclasses import dataclass
from pathlib import Path

from measures import AGAINST, LATENCIES


class Wrong(Exception):
    """A program failed, or answered otherwise than the others."""


@dataclass
class Line:
    """What a program printed of one pass: nanoseconds or bytes, of how many operations, and the sum of what was answered."""

    measure: str
    amount: int
    operations: int
    answered: str

    def each(self):
        return self.amount / self.operations


def measure(subject, folder, passes, names, before=()):
    """Runs a subject's program on a workload, perhaps under another command, and gives its lines in their order."""
    command = [*before, str(subject.program), str(folder), str(passes), *names]
    told = subprocess.run(command, capture_output=True, text=True, check=False)
    if told.returncode != 0:
        raise Wrong(f"{subject.name} failed on {folder.name}: {told.stderr.strip()[-300:]}")
    lines = [line.split("\t") for line in told.stdout.splitlines()]
    return [Line(name, int(amount), int(operations), answered) for name, amount, operations, answered in lines]


def answer_script(subject, script, out):
    """The time of the processor, in user mode, in which a program answers a script, and a checksum of its answers."""
    answers = out / "answers"
    with open(script, "rb") as source, open(answers, "wb") as target:
        process = subprocess.Popen(subject.script, stdin=source, stdout=target)
        _, status, used = os.wait4(process.pid, 0)
        process.returncode = status
    if status != 0:
        raise Wrong(f"{subject.name} failed on {script.name}")
    lines = script.read_bytes().count(b"\n")
    return Line(Path(script).name, int(used.ru_utime * 1e9), lines, hashlib.sha256(answers.read_bytes()).hexdigest())


def look_up_in_threads(subject, words):
    """How many look-ups a second one thread and eight threads make, by the clock."""
    told = subprocess.run([str(subject.threads), str(words)], capture_output=True, text=True, check=True).stdout
    rates = re.findall(r"^(\d+) threads: (\d+) look-ups a second", told, re.M)
    return [Line(f"threads_{threads}", int(rate), 1, "") for threads, rate in rates]


def in_turn(subjects, rounds, run, tell):
    """All rounds of `run`, which gives the lines of a subject: each round takes the subjects in turn, the next one first each time. For each
    measure and subject a list of one figure a round, the median of its passes. `tell` is told which round begins."""
    figures, answers = {}, {}
    for turn in range(rounds):
        tell(f"round {turn + 1} of {rounds}")
        start = turn % len(subjects)
        for subject in subjects[start:] + subjects[:start]:
            passes = {}
            for line in run(subject):
                passes.setdefault(line.measure, []).append(line.each())
                compare(answers, line, subject.name)
            for name, values in passes.items():
                figures.setdefault((name, subject.name), []).append(statistics.median(values))
    return figures


def compare(answers, line, name):
    """Whether a subject answers as the first one did, and as it does in the measure that this one is held against. Times and sizes of single
    updates have no answer."""
    if line.measure in LATENCIES:
        return
    first, expected = answers.setdefault(AGAINST.get(line.measure, line.measure), (name, line.answered))
    if line.answered != expected:
        raise Wrong(f"{name} answers {line.measure} otherwise than {first}: {line.answered}, {expected}")
