"""Refused memory: each request of each call in turn. The call raises MemoryError, or does what it does without."""

import ctypes
import os
import unittest

from roskvidh import Cedar, Scanner

PLAIN = {b"%d" % i: i for i in range(400)}
TEXT = b"12 345 7" * 1000


def library():
    """The library of refuse.c, where it was loaded before all else."""
    if "refuse" not in os.environ.get("LD_PRELOAD", ""):
        return None
    return ctypes.PyDLL(None).refuse


@unittest.skipUnless(library(), "refuse.so isn't loaded")
class Refused(unittest.TestCase):
    def setUp(self):
        self.refuse = library()
        self.refuse.argtypes, self.refuse.restype = [ctypes.c_long], ctypes.c_long

    def each(self, make, call, held):
        """Refuses the first request, the second one, and so on, until a call makes fewer."""
        refused = 0
        for count in range(1, 2000):
            cedar, answer = make(), None
            self.refuse(count)
            try:
                answer = call(cedar)
            except MemoryError:
                refused += 1
            left = self.refuse(0)
            self.assertTrue(held(cedar), count)
            if left > 0:
                self.assertGreater(refused, 0)
                return answer
        self.fail("it asks for ever")

    def test_reads(self):
        for reduced in (False, True):
            cedar = Cedar(PLAIN, reduced=reduced)
            walks = [list, lambda d: list(d.items(b"1")), lambda d: list(d.keys(b"399")), lambda d: list(d.irange(b"30", b"31")), lambda d: list(d.irange(b"2"))]
            texts = [lambda d: d.scan(TEXT), lambda d: d.segment(TEXT), lambda d: d.keywords(TEXT), lambda d: d.cheapest(TEXT, unknown=9)]
            next_to = [lambda d: d.best(b"3", 20), lambda d: d.floor(b"3999"), lambda d: list(d.irange(b"30", b"31", reverse=True))]
            for call in (*walks, *texts, *next_to, Cedar.to_bytes, Cedar.copy):
                self.assertEqual(self.each(lambda: cedar, call, lambda d: d == PLAIN), call(cedar))

    def test_scanners(self):
        cedar = Cedar(PLAIN)
        for search in ("overlapping", "earliest", "leftmost-longest", "leftmost-first"):
            scanner = Scanner(cedar, search=search)
            found = list(scanner.find(TEXT))
            self.assertEqual(list(self.each(lambda: cedar, lambda d: Scanner(d, search=search), lambda d: d == PLAIN).find(TEXT)), found)
            self.assertEqual(self.each(lambda: cedar, lambda d: scanner.find(TEXT), lambda d: d == PLAIN), found)

    def test_changes(self):
        for reduced in (False, True):
            new = {b"new%d" % i: i for i in range(300)}
            part = lambda d: len(PLAIN) <= len(d) <= len(PLAIN) + 300 and all(d[key] == value for key, value in PLAIN.items())
            for call in (lambda d: d.update(new), lambda d: d.__setitem__(b"n" * 2000, 1), lambda d: d.reserve(300), Cedar.shrink):
                self.each(lambda: Cedar(PLAIN, reduced=reduced), call, part)
            for call in (Cedar.clear, lambda d: d.erase_prefix(b"")):
                cedar = Cedar(PLAIN, reduced=reduced)
                self.refuse(1)
                call(cedar)
                self.assertEqual((self.refuse(0), len(cedar)), (1, 0), "it asks for memory")
            self.each(lambda: Cedar(PLAIN, reduced=reduced), lambda d: d.erase_all(list(PLAIN)), lambda d: len(d) in (0, len(PLAIN)))
            self.each(lambda: Cedar(PLAIN, reduced=reduced), Cedar.popitem, lambda d: len(d) in (len(PLAIN), len(PLAIN) - 1))

    def test_makes(self):
        data = Cedar(PLAIN).to_bytes()
        for call in (lambda _: Cedar(PLAIN), lambda _: Cedar(PLAIN, ordered=False), lambda _: Cedar.from_sorted(sorted(PLAIN.items())), lambda _: Cedar.load(data), lambda _: Cedar.load(data, text=True)):
            self.assertEqual(len(self.each(lambda: None, call, lambda _: True)), len(PLAIN))


if __name__ == "__main__":
    unittest.main()
