"""What the scripts beside this file share: the numbered changes that crates/trial_run makes in a dictionary, and runs of a program whose
system calls on the files of a folder are noted, or fail, by calls.c. That needs a C compiler, gcc or cc."""

import os
import shutil
import struct
import subprocess
import sys
from dataclasses import dataclass

HERE = os.path.dirname(os.path.abspath(__file__))
TOP = os.path.dirname(HERE)
PROGRAM = os.environ.get("STORE_PROGRAM") or os.path.join(TOP, "crates", "trial_run", "out", "trial_run")
# What stands before its verbs.
COMMAND = [PROGRAM] if os.environ.get("STORE_PROGRAM") else [PROGRAM, "kill"]
# struct note of calls.c.
HEAD = struct.Struct("=cqiqqI")


def changed(entries, first, count):
    """Makes so many changes in a plain table, numbered from a number on."""
    for number in range(first, first + count):
        of = number % 997 * 619 % 997
        key = f"{of}" + "k" * (of % 23)
        if number % 5 == 4:
            entries.pop(key, None)
        else:
            entries[key] = number % 2147483646


class Wanted:
    """The dictionaries after so many of the numbered changes, each as the lines that the program prints for it, in order."""

    def __init__(self):
        self.lines = [[]]
        self.entries = {}

    def after(self, count):
        while len(self.lines) <= count:
            changed(self.entries, len(self.lines) - 1, 1)
            self.lines.append(sorted(f"{key} {value}".encode() for key, value in self.entries.items()))
        return self.lines[count]


@dataclass
class Note:
    """A system call: its letter in calls.c, its number, the file it was made on, where or how long, what it answered, and its bytes."""

    kind: str
    number: int
    file: int
    at: int
    answer: int
    data: bytes


def notes_in(path):
    """The calls that calls.c has noted."""
    with open(path, "rb") as file:
        text = file.read()
    at = 0
    while at < len(text):
        kind, number, file, place, answer, length = HEAD.unpack_from(text, at)
        at += HEAD.size
        yield Note(kind.decode(), number, file, place, answer, text[at : at + length])
        at += length


@dataclass
class Run:
    """A run that has ended: its status, its lines, what it says of an error, and its calls."""

    status: int
    lines: list
    error: str
    notes: list

    def calls(self):
        """How many calls can be made to fail."""
        return 1 + max(note.number for note in self.notes)


def run_of(words, settings, **how):
    """Runs a program with further variables of the environment."""
    run = subprocess.run([str(word) for word in words], env=os.environ | settings, stdin=subprocess.DEVNULL, capture_output=True, **how)
    return Run(run.returncode, run.stdout.splitlines(), run.stderr.decode().strip(), [])


def told_by(*words, **how):
    """Runs a verb of the program of crates/trial_run."""
    return run_of([*COMMAND, *words], {}, **how)


class Watch:
    """Runs programs with calls.c between them and the system. It is built in a folder, where the notes go too."""

    def __init__(self, folder):
        self.library = os.path.join(folder, "calls.so")
        self.notes = os.path.join(folder, "notes")
        compiler = shutil.which("gcc") or shutil.which("cc")
        flags = ["-std=gnu11", "-O2", "-shared", "-fPIC", "-Wall", "-Wextra", "-Wpedantic", "-Werror"]
        if subprocess.run([compiler, *flags, "-o", self.library, os.path.join(HERE, "calls.c")]).returncode != 0:
            sys.exit("tests/calls.c isn't built")

    def run(self, words, folder, fail=None, command=COMMAND):
        """Runs a program, and notes its calls on a folder's files. `fail` is the number of the first call that fails, the error, and how
        many calls fail. No sync is asked of the system: it would take the time of the real disk, and change nothing here."""
        if os.path.exists(self.notes):
            os.remove(self.notes)
        settings = {"LD_PRELOAD": self.library, "CALLS_FOLDER": folder, "CALLS_NOTES": self.notes, "CALLS_SYNC": "0"}
        if fail is not None:
            settings["CALLS_FAIL"] = " ".join(map(str, fail))
        run = run_of([*command, *words], settings)
        run.notes = list(notes_in(self.notes)) if os.path.exists(self.notes) else []
        return run

    def reopen(self, paths):
        """Opens many files by one process, without syncs: for each what was told of the opening, and the lines of its entries, in order."""
        run = run_of([*COMMAND, "reopen", *paths], {"LD_PRELOAD": self.library, "CALLS_SYNC": "0"})
        if run.status != 0:
            sys.exit(f"reopen ended with {run.status}: {run.error}")
        found, lines = [], []
        for line in run.lines:
            if line.startswith(b"= "):
                found.append((line[2:].decode(), sorted(lines)))
                lines = []
            else:
                lines.append(line)
        return found


def has_compiler():
    """Whether calls.c can be built here."""
    return bool(shutil.which("gcc") or shutil.which("cc"))
