"""What calls of Python's package cost where a program waits: first completions, next keys, long keys, threads, signals, copies.

    python3 bench/manners.py            # with the package roskvidh installed, or its folder on PYTHONPATH; about a minute

Each line has a row's name and its figure. Figures of threads are of a machine with four processors or more. A store is made in a folder for
the time being, and nothing else is stored.
"""

import itertools
import os
import random
import signal
import sys
import tempfile
import threading
import time

from roskvidh import Cedar, Store

KEYS = 100_000


def tell(row, figure):
    print(f"{row:72} {figure}", flush=True)


def seconds(call, calls=1, rounds=7):
    """The median of some rounds, in seconds of the processor a call."""
    times = []
    for _ in range(rounds):
        start = time.process_time()
        for _ in range(calls):
            call()
        times.append((time.process_time() - start) / calls)
    return sorted(times)[rounds // 2]


def words():
    chance = random.Random(1)
    return sorted(f"p{chance.getrandbits(28):x}{i:x}" for i in range(KEYS))


def pages(d, keys):
    middle = keys[60_000]
    for row, call, calls in [
        ("the first ten of 100,000 completions, microseconds", lambda: list(itertools.islice(d.items("p"), 10)), 2000),
        ("the next key (irange), microseconds", lambda: next(d.irange(middle)), 2000),
        ("the next key behind one (irange), microseconds", lambda: next(d.irange(middle + "\0")), 2000),
        ("all 100,000 completions (list of items), microseconds", lambda: list(d.items("p")), 1),
    ]:
        tell(row, f"{seconds(call, calls) * 1e6:.2f}")
    for length in (5_000, 20_000, 200_000):
        long = bytes((i * 7919) % 250 + 1 for i in range(length))
        for row, call in [
            ("popitem", lambda e: e.popitem()),
            ("irange of its first byte", lambda e: list(e.irange(long[:1], bytes([long[0] + 1])))),
        ]:
            made = [Cedar({long: 1, b"\xff1": 1, b"\xff2": 1, b"\xff3": 2}) for _ in range(5)]
            times = [seconds(lambda e=e: call(e), rounds=1) for e in made]
            tell(f"{row}, a key of {length:,} bytes, milliseconds", f"{sorted(times)[2] * 1e3:.3f}")


def rate(counts, span):
    before, start = sum(counts), time.monotonic()
    time.sleep(span)
    return (sum(counts) - before) / (time.monotonic() - start)


class Loops:
    """Threads that do a thing over and over until the block ends, and count it."""

    def __init__(self, *works):
        self.counts, self.done, self.errors = [0] * len(works), False, []
        self.threads = [threading.Thread(target=self.run, args=(at, work)) for at, work in enumerate(works)]

    def run(self, at, work):
        while not self.done:
            try:
                self.counts[at] += work()
            except RuntimeError as error:
                self.errors.append(error)

    def __enter__(self):
        for thread in self.threads:
            thread.start()
        return self

    def __exit__(self, *_):
        self.done = True
        for thread in self.threads:
            thread.join()


def look_ups(d, keys):
    def work():
        for key in keys:
            d.get(key)
        return len(keys)

    return work


def threads(d, keys):
    some, text = keys[:2000], " ".join(random.Random(1).choices(keys, k=40_000))
    for number in (4, 8):
        with Loops(*[look_ups(d, some)] * number) as loops:
            before = rate(loops.counts, 1)
            d.scan(text)
            d.update(dict.fromkeys(keys[:20_000], 7))
            after = [rate(loops.counts, 1) for _ in range(3)]
        told = ", ".join(f"{figure / 1e6:.2f}" for figure in after)
        tell(f"{number} threads of look-ups, millions a second: before long calls; behind them", f"{before / 1e6:.2f}; {told}")
    lists = beside_a_writer(d.copy(), keys)
    tell("list(items(prefix)) beside a writer: calls, and how many raise RuntimeError", f"{lists[0]}, {lists[1]}")
    pairs = [(key, 1) for key in keys[:256]]
    with Loops(look_ups(d, some)):
        times = []
        for _ in range(50):
            start = time.perf_counter()
            d.update(pairs)
            times.append(time.perf_counter() - start)
            time.sleep(0.001)
    figure = f"{sorted(times)[25] * 1e3:.2f}, {max(times) * 1e3:.2f}"
    tell("an update of 256 pairs beside a busy thread, milliseconds: median, most", figure)
    side_by_side(d, text * 10)


def beside_a_writer(d, keys):
    def write():
        key = random.choice(keys)
        d[key + "x"] = 1
        del d[key + "x"]
        return 1

    calls = raised = 0
    with Loops(write):
        end = time.monotonic() + 2
        while time.monotonic() < end:
            calls += 1
            try:
                list(d.items("p1"))
            except RuntimeError:
                raised += 1
    return calls, raised


def side_by_side(d, text):
    def took(number):
        start, each = time.perf_counter(), [threading.Thread(target=d.scan, args=(text,)) for _ in range(number)]
        for thread in each:
            thread.start()
        for thread in each:
            thread.join()
        return time.perf_counter() - start

    one, four = (min(took(number) for _ in range(3)) for number in (1, 4))
    tell("four threads that scan one dictionary: the time of one, and of four, milliseconds", f"{one * 1e3:.0f}, {four * 1e3:.0f}")
    worst, scan = 0.0, threading.Thread(target=d.scan, args=(text * 8,))
    scan.start()
    while scan.is_alive():
        start = time.perf_counter()
        d.get("p")
        worst = max(worst, time.perf_counter() - start)
        time.sleep(0.001)
    tell("a look-up while another thread scans the same dictionary, milliseconds: most", f"{worst * 1e3:.2f}")
    worst, ended, start = 0.0, [], time.perf_counter()
    watch = threading.Thread(target=lambda: ended.append(most_apart(start + 2)))
    watch.start()
    while not ended:
        d.scan(text[:200_000])
        d.update(dict.fromkeys(["p0", "p1"], 1))
        list(d.items("p1"))
    tell("another thread's pauses beside calls of a millisecond or more, milliseconds: most", f"{ended[0] * 1e3:.2f}")


def most_apart(end):
    """The longest pause between two steps of this thread until a time."""
    worst, last = 0.0, time.perf_counter()
    while last < end:
        now = time.perf_counter()
        worst, last = max(worst, now - last), now
    return worst


class Interrupted(Exception):
    """What the handler of the signal raises."""


def interrupt(*_):
    raise Interrupted


def signals(d, keys):
    """How long after a signal its handler's exception comes."""
    text = " ".join(random.Random(1).choices(keys, k=200_000)) * 40
    pairs = [(key, 1) for key in keys] * 20
    signal.signal(signal.SIGALRM, interrupt)
    blocking = Cedar({"ab": 1}, text=True)
    calls = {
        "scan of 88 million characters": lambda: d.scan(text),
        "keywords of 88 million characters": lambda: d.keywords(text),
        "update of 2 million pairs": lambda: d.update(pairs),
        "list(items())": lambda: [list(d.items()) for _ in range(50)],
        "a change that waits for another thread's scan": lambda: [blocking.__setitem__("b", 1) for _ in range(10**8)],
    }
    other = threading.Thread(target=lambda: blocking.scan("ab" * 30_000_000))
    for row, call in calls.items():
        if call is calls["a change that waits for another thread's scan"]:
            other.start()
            time.sleep(0.02)
        start = time.perf_counter()
        signal.setitimer(signal.ITIMER_REAL, 0.1)
        try:
            call()
            signal.setitimer(signal.ITIMER_REAL, 0)
            told = f"it ended before the signal, or let it wait: {time.perf_counter() - start:.3f} seconds in all"
        except Interrupted:
            told = f"{(time.perf_counter() - start - 0.1) * 1e3:.0f}"
        tell(f"from a signal to its exception in {row}, milliseconds", told)
    other.join()


def batches():
    with tempfile.TemporaryDirectory() as folder:
        path = os.path.join(folder, "words.store")
        with Store(path, text=True) as store, store.batch():
            store["mine"] = 1
            other = threading.Thread(target=store.__setitem__, args=("another's", 2))
            other.start()
            other.join()
            with Store(path, text=True, mode="r") as on_disk:
                tell("what is on the disk of a thread's batch, and of another's change beside it", sorted(on_disk))


def main():
    keys = words()
    d = Cedar(((key, i) for i, key in enumerate(keys)), text=True)
    pages(d, keys)
    tell("copy() of 100,000 keys, milliseconds", f"{seconds(d.copy) * 1e3:.2f}")
    tell("a file's bytes and their load, for comparison, milliseconds", f"{seconds(lambda: Cedar.load(d.to_bytes(), text=True)) * 1e3:.2f}")
    threads(d, keys)
    batches()
    signals(d, keys)
    return 0


if __name__ == "__main__":
    sys.exit(main())
