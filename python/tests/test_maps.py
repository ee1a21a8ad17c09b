"""A CedarMap beside a dict: values of any type, look-ups beside changes, and numbers that run out."""

import copy
import pickle
import random
import sys
import threading
import unittest
from collections.abc import MutableMapping

from roskvidh import MAX_VALUE, Cedar, CedarError, CedarMap


class Named(CedarMap):
    """A subclass with a field."""


class Maps(unittest.TestCase):
    def test_beside_a_dict(self):
        for text, reduced in ((False, False), (True, False), (False, True), (True, True)):
            chance, plain = random.Random(3), {}
            d = CedarMap(text=text, reduced=reduced)
            for number in range(4000):
                letters = "".join(chance.choices("abß", k=chance.randint(1, 6)))
                key = letters if text else letters.encode()
                value = chance.choice([number, None, letters, [number], object()])
                turn = chance.randrange(6)
                if turn < 3:
                    d[key] = plain[key] = value
                elif turn == 3:
                    self.assertIs(d.pop(key, None), plain.pop(key, None))
                elif turn == 4:
                    self.assertIs(d.setdefault(key, value), plain.setdefault(key, value))
                elif key in plain:
                    del d[key], plain[key]
                self.assertIs(d.get(key, 7), plain.get(key, 7))
                self.assertEqual((len(d), key in d), (len(plain), key in plain))
            self.whole(d, plain)

    def whole(self, d, plain):
        pairs = sorted(plain.items(), key=lambda pair: pair[0])
        self.assertEqual((list(d), list(d.items()), list(d.values())), (sorted(plain), pairs, [value for _, value in pairs]))
        self.assertTrue(d == plain and plain == d and d == d.copy() and len(d.items()) == len(d.values()) == len(plain))
        prefix = pairs[0][0][:1]
        below = [pair for pair in pairs if pair[0].startswith(prefix)]
        self.assertEqual((list(d.items(prefix)), len(d.values(prefix))), (below, len(below)))
        self.assertEqual(list(d.keys(prefix)), [key for key, _ in below])
        self.assertEqual(list(d.irange(pairs[3][0], pairs[9][0])), [key for key, _ in pairs[3:9]])
        self.assertEqual((d.erase_prefix(prefix), len(d)), (len(below), len(pairs) - len(below)))
        self.assertEqual(len(d._held[1]), len(d))
        taken = dict(d.popitem() for _ in range(len(d)))
        self.assertEqual(taken, {key: value for key, value in pairs if not key.startswith(prefix)})
        with self.assertRaises(KeyError):
            d.popitem()

    def test_texts(self):
        a, b = object(), []
        d = CedarMap({"net": a, "nets": b, "no": None}, text=True)
        self.assertEqual((d.prefixes("netset"), d.longest_prefix("netset")), ([("net", a), ("nets", b)], ("nets", b)))
        self.assertEqual((d.prefixes("x"), d.longest_prefix("x")), ([], None))
        self.assertEqual([tuple(found) for found in d.scan("ä nets")], [(2, 3, True, a), (2, 4, True, b)])
        self.assertEqual([tuple(found) for found in d.segment("nonets!")], [(0, 2, True, None), (2, 4, True, b), (6, 1, False, None)])
        self.assertEqual([found.value for found in d.keywords("a netsno")], [b, None])

    def test_manners(self):
        d = CedarMap([(b"a", 1), (b"b", 2), (b"a", "last")])
        self.assertIsInstance(d, MutableMapping)
        self.assertEqual((repr(d), d[b"a"], len(d._held[1])), ("CedarMap({b'a': 'last', b'b': 2})", "last", 2))
        self.assertEqual(repr(CedarMap({str(i): i for i in range(30)}, text=True)), "<CedarMap of 30 keys>")
        self.assertEqual((d | {b"c": 3}, repr(d.items(b"a"))), ({b"a": "last", b"b": 2, b"c": 3}, "Items([(b'a', 'last')])"))
        self.assertTrue((b"a", "last") in d.items() and (b"a", 1) not in d.items() and (7, 1) not in d.items())
        self.assertTrue(2 in d.values() and 7 not in d and (b"b", 2) not in d.items(b"a"))
        with self.assertRaises(KeyError):
            d[b"x"]
        for key, error in [(b"", CedarError), ("a", TypeError), (b"a\0", CedarError)]:
            with self.assertRaises(error):
                d[key] = 1
        with self.assertRaises(TypeError):
            d | 5
        d.update({b"z": 26}, **{})
        self.assertEqual((len(d), len(d._held[1]), d.pop(b"z"), d.pop(b"z", "none")), (3, 3, 26, "none"))
        d.clear()
        self.assertTrue(not d and not d._held[1])

    def test_copies(self):
        d = Named({"a": [1]}, text=True, reduced=True)
        d.name = "mine"
        for other in (copy.copy(d), pickle.loads(pickle.dumps(d)), copy.deepcopy(d)):
            self.assertEqual((type(other), other.name, other, other.text, other.reduced), (Named, "mine", {"a": [1]}, True, True))
            other["b"] = 2
            self.assertEqual(len(d), 1)
        self.assertTrue(d.copy()["a"] is d["a"] and copy.deepcopy(d)["a"] is not d["a"])

    def test_itself_as_a_value(self):
        d = CedarMap({"a": 1}, text=True)
        d["me"] = d
        self.assertEqual(repr(d), "CedarMap({'a': 1, 'me': CedarMap(...)}, text=True)")
        for other in (copy.deepcopy(d), pickle.loads(pickle.dumps(d))):
            self.assertTrue(other is not d and other["me"] is other and other["a"] == 1 and len(other) == 2)

    def test_faults_of_many(self):
        """A call of many pairs says which one has the fault."""
        for given, error, text in [
            ([(b"a", 1), (b"", 2)], CedarError, "pair 1: cedar keys must not be empty"),
            ([(b"a", 1), ("b", 2)], TypeError, "pair 1: a dictionary without text=True takes bytes, and not str"),
            ([(b"a", 1), 5], TypeError, "pair 1 can't be converted to a sequence"),
            ([(b"a", 1), (b"b",)], ValueError, "pair 1 has length 1; 2 is required"),
        ]:
            d = CedarMap()
            for call in (CedarMap, d.update):
                with self.assertRaises(error) as refused:
                    call(given)
                self.assertEqual(str(refused.exception), text)
            self.assertEqual((dict(d), len(d._held[1])), ({b"a": 1}, 1))

    def test_with_other_mappings(self):
        d = CedarMap({"a": 1, "b": "two"}, text=True)
        self.assertEqual({"a": 5, "c": None} | d if sys.version_info >= (3, 9) else d.__ror__({"a": 5, "c": None}), {"a": 1, "b": "two", "c": None})
        self.assertEqual(Cedar({"a": 5}, text=True) | CedarMap({"c": 7}, text=True), {"a": 5, "c": 7})
        for plain in (Cedar({b"a": 1, b"b": 2}), {b"a": 1, b"b": "two"}):
            self.assertFalse(plain == d or d == plain)
        self.assertTrue(Cedar({"a": 1}, text=True) == CedarMap({"a": 1}, text=True) and Cedar() == CedarMap(text=True) == {})

    def test_keys_behind_new_numbers(self):
        """A view of the keys is one of the mapping, also where all keys have got other numbers meanwhile."""
        d = CedarMap({b"a": 1})
        keys, below = d.keys(), d.keys(b"b")
        d._next = MAX_VALUE + 1
        d[b"b"] = 2
        self.assertEqual((list(keys), list(below), len(keys), len(below)), ([b"a", b"b"], [b"b"], 2, 1))
        self.assertTrue(b"b" in keys and b"a" not in below and 7 not in keys and keys & {b"b"} == {b"b"})

    def test_numbers_run_out(self):
        """Then all keys get other numbers, and walks that have begun go on over what there was."""
        for first in (MAX_VALUE, MAX_VALUE + 1):
            d = CedarMap({b"%d" % i: i for i in range(100)})
            d._next = first
            walk = iter(d.items())
            next(walk)
            d[b"100"] = 100
            self.assertEqual(len(list(walk)) if first > MAX_VALUE else 99, 99)
            for i in range(101, 300):
                d[b"%d" % i] = i
            self.assertEqual(d, {b"%d" % i: i for i in range(300)})
            self.assertLess(d._next, 1000)

    def test_beside_changes(self):
        """A key's value is the key's, whatever comes and goes."""
        d, done, wrong = CedarMap({b"%d" % i: i for i in range(0, 1000, 2)}), [], []

        def change():
            chance = random.Random(1)
            while not done:
                i = chance.randrange(1000)
                if chance.random() < 0.5:
                    d[b"%d" % i] = i
                else:
                    d.pop(b"%d" % i, None)

        def read():
            chance = random.Random(2)
            while not done:
                i = chance.randrange(1000)
                if d.get(b"%d" % i, i) != i or any(int(key) != value for key, value in d.items(b"9")):
                    wrong.append(i)
                if any(int(key) != value for key, value in d.prefixes(b"999")):
                    wrong.append(i)
                if any(found.value not in (9, 99, 999) for found in d.scan(b"999")):
                    wrong.append(i)
                longest = d.longest_prefix(b"99")
                if longest is not None and int(longest[0]) != longest[1]:
                    wrong.append(i)

        def run(work):
            try:
                work()
            except BaseException as error:
                wrong.append(error)

        threads = [threading.Thread(target=run, args=(work,)) for work in (change, change, read, read)]
        for thread in threads:
            thread.start()
        threads[0].join(1)
        done.append(True)
        for thread in threads:
            thread.join()
        self.assertEqual((wrong, len(d._held[1])), ([], len(d)))
        self.assertIsInstance(d._held[0], Cedar)


if __name__ == "__main__":
    unittest.main()
