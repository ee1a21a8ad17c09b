"""What is measured: the names that the programs print, and how pages and pictures call them."""

# Each measure: its title, what one operation is, and its unit. A time is in nanoseconds, a size in bytes.
TITLES = {
    "hit": ("look-up of a held key, in no order", "key", "ns"),
    "hit_sorted": ("the same, in sorted order", "key", "ns"),
    "miss": ("look-up of an absent key", "key", "ns"),
    "hit_batch": ("look-up of a held key, in no order, many keys a call", "key", "ns"),
    "miss_batch": ("look-up of an absent key, likewise", "key", "ns"),
    "update_sorted": ("update of a new key, sorted order", "key", "ns"),
    "update_shuffled": ("the same, in no order", "key", "ns"),
    "update_all": ("updates in no order, by one call of many pairs", "key", "ns"),
    "erase": ("erasure, in no order", "key", "ns"),
    "erase_all": ("the same, by one call of many keys", "key", "ns"),
    "prefix_walk": ("prefix walk, each start of a character in a text", "start", "ns"),
    "prediction": ("prediction, each key found", "result", "ns"),
    "entries": ("all entries with their keys", "key", "ns"),
    "entries_lent": ("the same, each key lent by a cursor", "key", "ns"),
    "scan": ("all keys in a text, one call for many matches", "byte", "ns"),
    "segment": ("the tokens of a text, likewise", "byte", "ns"),
    "sorted_build": ("build of sorted pairs", "key", "ns"),
    "unsorted_build": ("build of pairs in no order", "key", "ns"),
    "save": ("save into memory", "key", "ns"),
    "load": ("load from memory", "key", "ns"),
    "file": ("bytes of the file; here those of the slots in use", "key", "bytes"),
    "resident": ("resident memory after updates in sorted order", "key", "bytes"),
    "script_short": ("script line with a key of 5 bytes", "line", "ns"),
    "script_long": ("script line with a key of 200 bytes", "line", "ns"),
    "threads_1": ("look-ups a second, one thread", "second", "look-ups"),
    "threads_8": ("look-ups a second, eight threads", "second", "look-ups"),
    "latency_50": ("single update, half take longer", "update", "ns"),
    "latency_90": ("one in 10 takes longer", "update", "ns"),
    "latency_99": ("one in 100", "update", "ns"),
    "latency_99.9": ("one in 1,000", "update", "ns"),
    "latency_99.99": ("one in 10,000", "update", "ns"),
    "latency_most": ("the slowest", "update", "ns"),
}

LATENCIES = tuple(name for name in TITLES if name.startswith("latency_"))
THREADS = ("threads_1", "threads_8")
SCRIPTS = ("script_short", "script_long")
# What a program for a workload is asked for. `latency` prints all of LATENCIES.
DICTIONARY = (
    *("hit", "hit_sorted", "miss", "hit_batch", "miss_batch", "update_sorted", "update_shuffled", "update_all", "erase", "erase_all"),
    *("prefix_walk", "prediction", "entries", "entries_lent", "scan", "segment", "sorted_build", "unsorted_build", "save", "load"),
)
SIZES = ("file", "resident")
GROWTH = ("hit", "update_shuffled", "resident", "file", "latency")
# The workloads of keys: the whole ones, which times are taken on, and the small ones for counts and for --quick. Each stands beside its
# whole one on the pages.
WORKLOADS = tuple(f"{name}{small}" for name in ("words", "random", "long") for small in ("", "_small"))
# Growth on more keys than so many is measured in one round.
MOST_IN_ROUNDS = 1_000_000
# The measure that one is held against where the original crate has no such call: it answers the same.
AGAINST = {
    **{"hit_batch": "hit", "miss_batch": "miss", "entries_lent": "entries"},
    **{"update_all": "update_shuffled", "erase_all": "erase", "unsorted_build": "update_shuffled"},
}


def sizes_of_growth(given):
    """The numbers of random keys that rows of growth are of."""
    return sorted({int(size) for row in given for size in [row.workload.removeprefix("random_")] if size.isdigit()})


def unit_of(measure):
    _, operation, unit = TITLES[measure]
    return unit if measure in LATENCIES else f"{unit}/{operation}"
