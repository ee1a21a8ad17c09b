"""Instructions and misses of the last cache, by callgrind: they don't hang on what else the machine does."""

import shutil
import subprocess
from pathlib import Path

from timing import Wrong, measure

# The caches that are simulated: 32 KiB each for instructions and data, and 1 MiB behind them.
CACHES = ["--cache-sim=yes", "--I1=32768,8,64", "--D1=32768,8,64", "--LL=1048576,16,64"]
MISSES = ("ILmr", "DLmr", "DLmw")


def is_there():
    return shutil.which("valgrind") is not None


def costs(path):
    """Instructions and misses of a profile of callgrind."""
    events, sums = [], []
    for line in path.read_text().splitlines():
        name, _, rest = line.partition(":")
        if name == "events":
            events = rest.split()
        elif name in ("totals", "summary"):
            sums = [int(word) for word in rest.split()]
    told = dict(zip(events, sums))
    return told.get("Ir", 0), sum(told.get(name, 0) for name in MISSES)


def count_measures(subject, folder, names, out):
    """The lines of a subject, and for each measure the instructions and misses of an operation. Only functions whose names have `measured` in
    them are counted, and a profile is written at each call of the one whose name ends in `measure_ends`, in the order of the lines."""
    profile = profile_of(out, subject, folder.name)
    calls = ["--toggle-collect=*measured*", "--dump-before=*measure_ends", f"--callgrind-out-file={profile}"]
    before = ["valgrind", "-q", "--tool=callgrind", *CACHES, "--dump-line=no", *calls]
    lines = [line for line in measure(subject, folder, 1, names, before) if line.measure not in ("file", "resident")]
    counted = {}
    for place, line in enumerate(lines, 1):
        instructions, misses = costs(Path(f"{profile}.{place}"))
        if instructions == 0:
            raise Wrong(f"callgrind counted nothing for {line.measure} of {subject.name}")
        counted[line.measure] = (instructions / line.operations, misses / line.operations)
    return lines, counted


def count_script(subject, script, out):
    """The instructions and misses of a line, start and end of the process among them."""
    profile = profile_of(out, subject, script.name)
    before = ["valgrind", "-q", "--tool=callgrind", *CACHES, f"--callgrind-out-file={profile}"]
    with open(script, "rb") as source:
        subprocess.run([*before, *subject.script], stdin=source, stdout=subprocess.DEVNULL, stderr=subprocess.DEVNULL, check=True)
    lines = script.read_bytes().count(b"\n")
    instructions, misses = costs(profile)
    return instructions / lines, misses / lines


def profile_of(out, subject, name):
    profiles = out / "profiles"
    profiles.mkdir(parents=True, exist_ok=True)
    profile = profiles / f"{subject.name}.{name}"
    for old in profiles.glob(f"{profile.name}*"):
        old.unlink()
    return profile
