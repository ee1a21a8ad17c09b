"""Iterations by pages: what they give, what they cost, and what they do while other threads change the dictionary."""

import itertools
import random
import threading
import time
import unittest

from roskvidh import Cedar

# About where one page ends and the next one begins.
COUNTS = [0, 1, 2, 15, 16, 17, 79, 80, 81, 335, 336, 337, 1359, 1360, 1361, 4000]


def cost(call):
    """The least time of some calls, in seconds of the processor."""
    times = []
    for _ in range(5):
        start = time.process_time()
        call()
        times.append(time.process_time() - start)
    return min(times)


class Pages(unittest.TestCase):
    def test_all_counts(self):
        for count in COUNTS:
            for ordered in (True, False):
                pairs = [(b"p%05d" % i, i) for i in range(count)]
                d = Cedar([*pairs, (b"o", 1), (b"q", 2)], ordered=ordered)
                self.assertEqual((list(d.items(b"p")), list(d.values(b"p"))), (pairs, [value for _, value in pairs]))
                self.assertEqual(sorted(d), [b"o", *dict(pairs), b"q"])
                for low, high in [(b"p", b"q"), (b"o", b"p99999"), (b"o\0", b"q\0"), (b"p", None)]:
                    wanted = sorted(key for key in d if key >= low and (high is None or key < high))
                    self.assertEqual(list(d.irange(low, high)), wanted)

    def test_bounds_within_a_page(self):
        keys = [b"%04d" % i for i in range(0, 2000, 2)]
        d, chance = Cedar((key, 1) for key in keys), random.Random(2)
        for _ in range(500):
            low, high = sorted(b"%04d" % chance.randrange(2000) for _ in range(2))
            self.assertEqual(list(d.irange(low, high)), [key for key in keys if low <= key < high])
            self.assertEqual(next(d.irange(low), None), next((key for key in keys if key >= low), None))
            self.assertEqual(next(d.irange(low + b"\0"), None), next((key for key in keys if key > low), None))

    def test_long_keys(self):
        """Keys that don't fit into a page: it grows."""
        for ordered in (True, False):
            pairs = sorted((b"k" * length + b"%d" % i, i) for i, length in enumerate([1, 5, 300, 9000, 300_000, 7, 40_000]))
            d = Cedar(pairs, ordered=ordered)
            self.assertEqual((list(d.items(b"k")), list(d.irange(pairs[1][0]))), (pairs, [key for key, _ in pairs[1:]]))
            self.assertEqual(sorted(iter(lambda: d.popitem() if d else None, None)), pairs)

    def test_bounds_are_kept(self):
        """What a bound was taken from may go, or change."""
        d = Cedar((b"%05d" % i, i) for i in range(3000))
        low, high = bytearray(b"00100"), bytearray(b"02900")
        walk = d.irange(low, high)
        low[:], high[:] = b"xxxxx", b"00000"
        self.assertEqual(len(list(walk)), 2800)

    def test_values_are_seen_in_later_pages(self):
        d = Cedar((b"%05d" % i, i) for i in range(3000))
        walk = iter(d.items())
        self.assertEqual(next(walk), (b"00000", 0))
        for key in d:
            d[key] = 7
        self.assertEqual([value for _, value in walk], [7] * 2999)

    def test_an_ended_iteration_holds_nothing(self):
        d = Cedar((b"%05d" % i, i) for i in range(100))
        walk = iter(d)
        self.assertEqual((len(list(walk)), list(walk), walk.__length_hint__()), (100, [], 0))


class Costs(unittest.TestCase):
    """Of 100,000 keys: ratios that hold on a busy machine too."""

    @classmethod
    def setUpClass(cls):
        chance = random.Random(1)
        cls.keys = sorted({f"p{chance.getrandbits(28):x}{i:x}" for i in range(100_000)})
        cls.d = Cedar(((key, i) for i, key in enumerate(cls.keys)), text=True)
        cls.all = cost(lambda: list(cls.d.items("p")))

    def cheap(self, call):
        self.assertLess(cost(lambda: [call() for _ in range(20)]) / 20, self.all / 200)

    def test_the_first_ten(self):
        for view in (self.d.items, self.d.keys, self.d.values):
            self.assertEqual(list(itertools.islice(view("p"), 10)), list(view("p"))[:10])
            self.cheap(lambda view=view: list(itertools.islice(view("p"), 10)))
        self.cheap(lambda: next(iter(self.d)))

    def test_the_next_key(self):
        at = self.keys[60_000]
        self.assertEqual((next(self.d.irange(at)), next(self.d.irange(at + "\0"))), (at, self.keys[60_001]))
        self.cheap(lambda: next(self.d.irange(at)))
        self.cheap(lambda: next(self.d.irange(at + "\0")))
        self.cheap(lambda: list(self.d.irange(at, self.keys[60_005])))

    def test_popitem(self):
        d = self.d.copy()
        self.cheap(d.popitem)

    def test_long_keys(self):
        """Linear in the key: a hundred times the bytes cost some hundred times as much, and not ten thousand times."""
        for ordered in (True, False):
            long = bytes((i * 7919) % 250 + 1 for i in range(100_000))
            d = Cedar({long: 1, b"\xff1": 1, b"\xff2": 1}, ordered=ordered)
            start = time.process_time()
            self.assertEqual(list(d.irange(long[:1], long[:1] + b"\xff")), [long])
            self.assertEqual(list(d.irange(long[:-1], long + b"\x01")), [long])
            self.assertEqual(list(d.items(long[:5])), [(long, 1)])
            while d:
                d.popitem()
            self.assertLess(time.process_time() - start, 1)


class BesideOthers(unittest.TestCase):
    def within(self, change, work, seconds=0.5):
        """Works while another thread makes changes, over and over."""
        done, wrong = [], []

        def run():
            try:
                while not done:
                    change()
            except BaseException as error:
                wrong.append(error)

        other = threading.Thread(target=run)
        other.start()
        end = time.monotonic() + seconds
        while time.monotonic() < end:
            work()
        done.append(True)
        other.join()
        self.assertEqual(wrong, [])

    def test_lists_beside_a_writer(self):
        """Keys that stay are each told once, in order; those that come and go may be told or not."""
        for ordered in (True, False):
            stay = [b"k%05d" % i for i in range(0, 3000, 3)]
            d, chance = Cedar(((key, 5) for key in stay), ordered=ordered), random.Random(5)

            def change():
                for i in chance.sample(range(3000), 50):
                    if i % 3 > 0 and d.pop(b"k%05d" % i, None) is None:
                        d[b"k%05d" % i] = i
                d[b"k00003"] = 5

            def read():
                told = list(d.items(b"k"))
                self.assertEqual([key for key, _ in told if int(key[1:]) % 3 == 0], stay)
                self.assertTrue(all(value == (5 if int(key[1:]) % 3 == 0 else int(key[1:])) for key, value in told))
                keys = list(d.irange(b"k00100", b"k02900"))
                self.assertEqual(keys, sorted(set(keys)))
                self.assertTrue(sorted(d)[0] == b"k00000" and set(d.copy()) >= set(stay))

            self.within(change, read)

    def test_its_own_change_ends_an_iteration(self):
        d = Cedar((b"%d" % i, i) for i in range(3000))

        def change():
            d[b"x"] = 1
            del d[b"x"]

        def read():
            walk = iter(d)
            next(walk)
            with self.assertRaises(RuntimeError):
                for number, _ in enumerate(walk):
                    d[b"y%d" % number] = 1
            d.erase_prefix(b"y")

        self.within(change, read)


if __name__ == "__main__":
    unittest.main()
