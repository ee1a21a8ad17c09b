"""Results as lines of TSV: what was measured, on what, of whom, and how much."""

from dataclasses import astuple, dataclass, fields
from pathlib import Path

RESULTS = Path(__file__).resolve().parent / "results"


@dataclass
class Row:
    """A result. Median, low and high are over the rounds, `-` where only instructions were counted; `count` is instructions an operation,
    `-` where none were counted. A row whose unit begins with `misses` has misses of the last cache, and no time."""

    measure: str
    workload: str
    subject: str
    unit: str
    median: str
    low: str
    high: str
    count: str
    commit: str
    machine: str


HEADER = "\t".join(field.name for field in fields(Row))


class Mixed(Exception):
    """Rows that don't belong together."""


def write(path, rows, notes):
    """Writes rows, with notes as lines `# name: text` before them."""
    lines = [f"# {name}: {text}" for name, text in notes.items()] + [HEADER]
    lines += ["\t".join(astuple(row)) for row in rows]
    path.parent.mkdir(parents=True, exist_ok=True)
    path.write_text("\n".join(lines) + "\n")


def read(path):
    notes, rows, header = {}, [], None
    for line in path.read_text().splitlines():
        if line.startswith("# "):
            name, _, text = line[2:].partition(": ")
            notes[name] = text
        elif header is None:
            header = line
            if header != HEADER:
                raise Mixed(f"{path} has other columns than {HEADER!r}")
        else:
            parts = line.split("\t")
            if len(parts) != len(fields(Row)):
                raise Mixed(f"{path} has a line of {len(parts)} columns: {line}")
            rows.append(Row(*parts))
    return notes, rows


def read_all(folder=RESULTS):
    """The notes and rows of all files in a folder. They have to be of one commit, without changes beside it, and of one machine, and no two
    of them may tell the same."""
    notes, rows = {}, []
    for path in sorted(folder.glob("*.tsv")):
        told, more = read(path)
        notes.update(told)
        rows += more
    for name in ("commit", "machine"):
        found = {getattr(row, name) for row in rows}
        if len(found) > 1:
            raise Mixed(f"rows of more than one {name}: {', '.join(sorted(found))}")
        if name == "commit" and any(commit.endswith("+") for commit in found):
            raise Mixed(f"rows of sources that are no commit: {found.pop()}")
    keys = [(row.measure, row.workload, row.subject, row.unit) for row in rows]
    for key in keys:
        if keys.count(key) > 1:
            raise Mixed(f"two rows for {' '.join(key)}")
    return notes, rows
