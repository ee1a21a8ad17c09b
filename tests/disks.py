"""A model of a disk that loses power, for the scripts beside this file: a folder and its files, by the system calls that calls.py has
noted, and what a cut of the power may leave of them. docs/STORE.md says what is supposed of a disk; this model is no kinder.

- Of each write since the file's last sync the disk has nothing, all, a front or an end, cut at a byte or at a sector, or other bytes in its
  place; of a cut of the file a part; and these in any order.
- What was written before a sync that failed, all of it or a part, may be missing for good, whatever a later sync says.
- Each name in the folder is what it was at one moment since the folder's last sync, whatever the others are."""

import os
import random
from dataclasses import dataclass, field

SECTOR = 512


def laid(base, data, at):
    """A file with these bytes at a place."""
    return base[:at].ljust(at, b"\0") + data + base[at + len(data) :] if data else base


@dataclass
class Step:
    """A write, or a cut if it has no bytes, since the content that is certain. It is on the disk if it is sure; if it is lost no later sync
    makes it sure."""

    at: int
    data: bytes | None
    is_sure: bool = False
    is_lost: bool = False

    def on(self, base):
        """What the whole step makes of a file."""
        return base[: self.at] if self.data is None else laid(base, self.data, self.at)

    def place(self):
        """Where a write is cut: near its ends, at a sector, or anywhere."""
        length = len(self.data)
        sectors = range(-self.at % SECTOR, length, SECTOR) or range(1)
        near = random.choice([random.randrange(8), length // 2, length - random.randrange(4), random.randrange(length)])
        return random.choice([min(max(near, 0), length), random.choice(sectors)])

    def mixed(self, noise):
        """The write's bytes in some sectors, and others in the rest."""
        ends = [0, *range(-self.at % SECTOR or SECTOR, len(self.data), SECTOR), len(self.data)]
        return b"".join(random.choice([self.data, noise])[begin:end] for begin, end in zip(ends, ends[1:]))

    def torn(self, base):
        """What a part of the step makes of a file."""
        if self.data is None:
            return base[: random.randint(min(self.at, len(base)), len(base))]
        data, length, place = self.data, len(self.data), self.place()
        old = base[self.at : self.at + length].ljust(length, b"\0")
        noise = old if self.is_lost else random.choice([old, b"\1" * length, b"\xff" * length, random.randbytes(length)])
        form = random.randrange(6)
        if form == 0:
            return laid(base, data[place:], self.at + place)
        whole = [data[:place], noise, data[:place] + noise[place:], noise[:place] + data[place:], self.mixed(noise)][form - 1]
        return laid(base, whole, self.at)


@dataclass
class File:
    """A file: what is certainly on the disk, what the system shows, and what was done since."""

    sure: bytes = b""
    now: bytes = b""
    steps: list = field(default_factory=list)

    def do(self, step):
        self.steps.append(step)
        self.now = step.on(self.now)

    def sync(self, succeeded):
        for step in self.steps:
            step.is_lost |= not succeeded and not step.is_sure
            step.is_sure |= not step.is_lost
        if not any(step.is_lost for step in self.steps):
            self.sure, self.steps = self.now, []

    def left(self):
        """A content that a cut of the power may leave."""
        steps = self.steps
        if random.random() < 0.25 and not any(step.is_lost for step in steps):
            steps = random.sample(steps, len(steps))
        content = self.sure
        for step in steps:
            chance = random.random()
            content = step.on(content) if step.is_sure or chance > 0.6 else step.torn(content) if chance > 0.2 else content
        return content


class Folder:
    """A folder of files. It begins with files whose bytes are on the disk."""

    def __init__(self, path, disk=()):
        self.path = path
        self.names = {name: File(data, data) for name, data in disk}
        self.past = {name: [file] for name, file in self.names.items()}
        self.opened = {}

    def put(self, name, file):
        self.past.setdefault(name, [None]).append(file)
        self.names[name] = file

    def play(self, note):
        """Does what a noted call did."""
        if note.kind == "s":
            self.sync(note)
        elif note.answer < 0:
            return
        elif note.kind == "f":
            self.opened[note.file] = None
        elif note.kind == "o":
            self.open(note)
        elif note.kind == "w" and note.data:
            self.opened[note.file].do(Step(note.at, note.data))
        elif note.kind == "c":
            self.opened[note.file].do(Step(note.at, None))
        elif note.kind == "r":
            old, new = map(os.path.basename, note.data.decode().split("\n"))
            self.put(new, self.names[old])
            self.put(old, None)
        elif note.kind == "u":
            self.put(os.path.basename(note.data.decode()), None)

    def open(self, note):
        name = os.path.basename(note.data.decode())
        if self.names.get(name) is None:
            self.put(name, File())
        if note.at & os.O_TRUNC:
            self.names[name].do(Step(0, None))
        self.opened[note.file] = self.names[name]

    def sync(self, note):
        file = self.opened[note.file]
        if file is not None:
            file.sync(note.answer == 0)
        elif note.answer == 0:
            self.past = {name: [file] for name, file in self.names.items()}

    def is_what_is_there(self):
        """Whether the calls explain what the system shows of the folder."""
        there = {}
        for name in os.listdir(self.path):
            with open(os.path.join(self.path, name), "rb") as file:
                there[name] = file.read()
        return there == {name: file.now for name, file in self.names.items() if file is not None}

    def left(self):
        """Names and bytes that a cut of the power may leave."""
        disk = {name: random.choice(files) for name, files in self.past.items()}
        return tuple(sorted((name, file.left()) for name, file in disk.items() if file is not None))
