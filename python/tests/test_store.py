"""Stores: changes that are there when the file is opened again, beside a dict; refused files; a disk that fails; processes that are killed."""

import os
import pickle
import random
import signal
import subprocess
import sys
import tempfile
import threading
import time
import unittest
from pathlib import Path

from roskvidh import MAX_VALUE, Cedar, CedarError, Store

# Stores numbers from 0 on at their own names, and writes each once it is acknowledged.
WRITES = """
import sys
from roskvidh import Store
with Store(sys.argv[1], reduced=sys.argv[2] == "1") as s:
    for number in range(len(s), 10**9):
        s[str(number).encode()] = number
        print(number, flush=True)
"""

# Opens a store, and writes how many keys it has, or the status.
OPENS = """
import sys
from roskvidh import CedarError, Store
try:
    with Store(sys.argv[1]) as s:
        print(len(s))
except CedarError as refused:
    print(refused.status)
"""

# Opens a store for each of its changes, as often as it is locked.
TAKES_TURNS = """
import sys, time
from roskvidh import CedarError, Store
i = 0
while i < 20:
    try:
        with Store(sys.argv[1]) as s:
            s[b"%s.%d" % (sys.argv[2].encode(), i)] = i
        i += 1
    except CedarError as refused:
        assert refused.status == 47
        time.sleep(0.001)
"""

# Stores numbers until the file may not grow any more, and the last one once it may.
LACKS_ROOM = """
import errno, resource, signal, sys
from roskvidh import Store
signal.signal(signal.SIGXFSZ, signal.SIG_IGN)
soft, hard = resource.getrlimit(resource.RLIMIT_FSIZE)
resource.setrlimit(resource.RLIMIT_FSIZE, (200, hard))
s = Store(sys.argv[1])
try:
    for number in range(100):
        s[b"%d" % number] = number
except OSError as error:
    print(error.errno == errno.EFBIG, s.failed, b"%d" % number in s, len(s) == number, end=" ")
resource.setrlimit(resource.RLIMIT_FSIZE, (soft, hard))
s[b"%d" % number] = number
print(number)
"""


# Opens a store as process 1 of a namespace of process numbers, and changes it in a child that is process 1 of another. Without the right to
# make a namespace it does nothing.
ONE_NUMBER = """
import ctypes, os, sys
from roskvidh import CedarError, Store
NEW_USERS, NEW_NUMBERS = 0x10000000, 0x20000000
unshare = ctypes.CDLL(None).unshare

def ended(child):
    return os.WEXITSTATUS(os.waitpid(child, 0)[1])

if unshare(NEW_NUMBERS) != 0 and unshare(NEW_USERS | NEW_NUMBERS) != 0:
    sys.exit(99)
first = os.fork()
if first != 0:
    sys.exit(ended(first))
store = Store(sys.argv[1])
store[b"net"] = 7
if unshare(NEW_NUMBERS) != 0:
    os._exit(99)
child = os.fork()
if child == 0:
    try:
        store[b"child"] = 1
    except CedarError as refused:
        os._exit(refused.status + os.getpid() - 1)
    os._exit(0)
status = ended(child)
store[b"nets"] = 8
store.close()
os._exit(status)
"""

# Changes more in a block than the file may have.
BLOCK_LACKS_ROOM = """
import resource, signal, sys
from roskvidh import Store
signal.signal(signal.SIGXFSZ, signal.SIG_IGN)
s = Store(sys.argv[1])
s[b"net"] = 7
resource.setrlimit(resource.RLIMIT_FSIZE, (200, 200))
try:
    with s.batch():
        for number in range(100):
            s[b"%d" % number] = number
except OSError:
    print(s.failed, len(s))
s[b"x"] = 1
"""


# Lacks room for a change, and goes on with a shorter one, and once there is room.
GOES_ON = """
import resource, signal, sys
from roskvidh import Store
signal.signal(signal.SIGXFSZ, signal.SIG_IGN)
soft, hard = resource.getrlimit(resource.RLIMIT_FSIZE)
with Store(sys.argv[1]) as s:
    s[b"net"] = 7
    resource.setrlimit(resource.RLIMIT_FSIZE, (100, hard))
    try:
        s[b"x" * 300] = 8
    except OSError:
        s[b"a"] = 1
        print(s.failed, len(s), end=" ")
    resource.setrlimit(resource.RLIMIT_FSIZE, (soft, hard))
    s[b"x" * 300] = 8
    s.compact()
    print(s.failed)
    s[b"ten"] = 9
"""


class Stores(unittest.TestCase):
    def setUp(self):
        folder = tempfile.TemporaryDirectory()
        self.addCleanup(folder.cleanup)
        self.path = Path(folder.name) / "words.store"

    def test_opened_again(self):
        chance = random.Random(5)
        for text in (False, True):
            for reduced in (False, True):
                self.path.unlink(missing_ok=True)
                plain, s = {}, Store(self.path, text=text, reduced=reduced)
                for number in range(300):
                    letters = "".join(chance.choices("abß", k=chance.randint(1, 4)))
                    key = letters if text else letters.encode()
                    if chance.random() < 0.3:
                        self.assertEqual(s.pop(key, None), plain.pop(key, None))
                    elif chance.random() < 0.1:
                        self.assertEqual(s.setdefault(key, number), plain.setdefault(key, number))
                    else:
                        s[key] = plain[key] = number
                    if chance.random() < 0.02:
                        s.close()
                        s = Store(str(self.path), text=text, reduced=not s.reduced)
                self.assertEqual((s, len(s), list(s.items()), s.failed), (plain, len(plain), sorted(plain.items()), False))
                prefix = "a" if text else b"a"
                self.assertEqual(list(s.keys(prefix)), sorted(key for key in plain if key.startswith(prefix)))
                s.close()
                with Store(self.path, text=text, reduced=reduced) as again:
                    self.assertEqual((again, again.reduced, again.text), (plain, reduced, text))

    def test_many_keys(self):
        with Store(self.path) as s:
            s.update({b"net": 7, b"nets": 8})
            s.update([(b"ten", MAX_VALUE)])
            s.update({b"nor": 1, b"not": 2})
            self.assertEqual((s.erase_all([b"nor", b"none", b"not", b"nor"]), len(s)), (2, 3))
            self.assertEqual((s.erase_prefix(b"ne"), dict(s)), (2, {b"ten": MAX_VALUE}))
            with self.assertRaises(CedarError):
                s.update([(b"a", 1), (b"", 2), (b"b", 3)])
            self.assertEqual(dict(s), {b"ten": MAX_VALUE})
            s[b"a"] = 1
            self.assertEqual((type(s.copy()), s.copy() == s, s | {b"b": 2}), (Cedar, True, {b"a": 1, b"b": 2, b"ten": MAX_VALUE}))
            self.assertEqual(({b"b": 2} | s, repr(s)[:7]), ({b"a": 1, b"b": 2, b"ten": MAX_VALUE}, "Store('"))
            s.shrink()
            s.reserve(3)
            popped = dict([s.popitem()])
            s |= popped
            self.assertEqual(len(s), 2)
            s.clear()
            with self.assertRaises(KeyError):
                s.popitem()
        with Store(self.path, text=True) as s:
            s.update(net=7)
            self.assertEqual(dict(s), {"net": 7})

    def test_together(self):
        with Store(self.path, sync_every=3) as s:
            before = self.path.stat().st_size
            s[b"net"] = 7
            s[b"nets"] = 8
            self.assertEqual((s.sync_every, s.waiting, len(s), self.path.stat().st_size), (3, 2, 2, before))
            del s[b"net"]
            self.assertEqual(s.waiting, 0)
            self.assertGreater(self.path.stat().st_size, before)
            s[b"a"] = 1
            s.sync()
            self.assertEqual(s.waiting, 0)
            with s.batch():
                s[b"b"] = 2
                with s.batch():
                    s[b"c"] = 3
                s.update({b"d": 4})
                self.assertEqual((s.waiting, s.sync_every, len(s)), (3, 3, 5))
            self.assertEqual((s.waiting, s.sync_every, len(s)), (0, 3, 5))
            s.sync_every = 0
            s[b"w"] = 9
            with s.batch():
                s[b"e"] = 5
            with Store(self.path, mode="r") as reader:
                self.assertEqual((s.waiting, dict(reader)), (0, dict(s)))
            s[b"f"] = 6
            with self.assertRaises(OverflowError):
                s.sync_every = -1
            with self.assertRaises(TypeError):
                s.sync_every = None
            self.assertEqual((s.waiting, s.sync_every), (1, 0))
        with self.assertRaises(ValueError):
            s.sync()
        with self.assertRaises(ValueError):
            s.waiting
        s.close()
        with Store(self.path) as s:
            self.assertEqual(dict(s), {b"nets": 8, b"a": 1, b"b": 2, b"c": 3, b"d": 4, b"e": 5, b"f": 6, b"w": 9})

    def test_dropped(self):
        """A block that ends by an exception leaves nothing, in the mapping and in the file."""
        with Store(self.path) as s:
            s.update({b"net": 7, b"nets": 8})
            data = self.path.read_bytes()
            for error in (KeyError, ValueError, KeyboardInterrupt, GeneratorExit):
                with self.assertRaises(error):
                    with s.batch():
                        s[b"a"] = 1
                        s[b"net"] = 9
                        del s[b"nets"]
                        s.update({b"b": 2})
                        self.assertEqual((s[b"net"], b"nets" in s, b"a" in s, s.get(b"b"), s.waiting, len(s)), (9, False, True, 2, 4, 3))
                        raise error
                self.assertEqual((dict(s), s.waiting, self.path.read_bytes()), ({b"net": 7, b"nets": 8}, 0, data))
            for key, value, status in [(b"", 1, 4), (b"a\0", 1, 5), (b"a", -1, 6)]:
                with self.assertRaises(CedarError) as caught:
                    with s.batch():
                        s[b"x"] = 1
                        s[key] = value
                self.assertEqual((caught.exception.status, dict(s), self.path.read_bytes()), (status, {b"net": 7, b"nets": 8}, data))
            with self.assertRaises(ValueError):
                with s.batch():
                    s[b"a"] = 1
                    s.close()
        with Store(self.path) as s:
            self.assertEqual(dict(s), {b"net": 7, b"nets": 8})

    def test_blocks(self):
        """A block sees what it has changed by calls of one key, and a block in a block is dropped by itself."""
        for text in (False, True):
            self.path.unlink(missing_ok=True)
            net, nets, ten, a = ("net", "nets", "ten", "aß") if text else (b"net", b"nets", b"ten", b"a")
            with Store(self.path, text=text) as s:
                s.update({net: 7, ten: 9})
                with s.batch():
                    self.assertEqual((s.pop(net), s.pop(net, None), s.setdefault(net, 1), s.setdefault(net, 2), s[net]), (7, None, 1, 1, 1))
                    with self.assertRaises(KeyError):
                        del s[nets]
                    s[nets] = 2
                    with self.assertRaises(RuntimeError):
                        with s.batch():
                            s[a] = 5
                            del s[nets]
                            self.assertEqual((s[a], nets in s, s.get(nets, 3)), (5, False, 3))
                            raise RuntimeError
                    self.assertEqual((a in s, s[nets], dict(s.items())), (False, 2, {net: 1, nets: 2, ten: 9}))
                    with s.batch():
                        s[a] = 6
                    self.assertEqual((list(s), len(s), dict(s)), ([a, net, nets, ten], 4, {a: 6, net: 1, nets: 2, ten: 9}))
                    self.assertEqual((list(s.items(net)), list(s.values(a)), list(s.irange(net, nets))), ([(net, 1), (nets, 2)], [6], [net]))
                    self.assertEqual((len(s.keys(net)), len(s.keys(ten)), s.longest_prefix(nets)), (2, 1, (net, 7)))
                self.assertEqual(dict(s), {a: 6, net: 1, nets: 2, ten: 9})
                with s.batch():
                    s[net + net] = 3
                    self.assertEqual((s.erase_prefix(net), net in s, net + net in s, s.erase_all([ten, ten, net])), (3, False, False, 1))
                    self.assertEqual((s.popitem(), s.setdefault(ten, 4)), ((a, 6), 4))
                self.assertEqual(dict(s), {ten: 4})
                with s.batch():
                    s[a] = 1
                    s.clear()
                    s[net] = 2
                    self.assertEqual(s.popitem(), (net, 2))
                    with self.assertRaises(KeyError):
                        s.popitem()
                    self.assertEqual((len(s), list(s)), (0, []))
                self.assertEqual(dict(s), {})

    def test_blocks_beside_a_dict(self):
        chance = random.Random(7)
        with Store(self.path) as s:
            plain = {}
            for _ in range(60):
                before = dict(plain)
                try:
                    with s.batch():
                        for number in range(chance.randint(0, 12)):
                            key = bytes(chance.choices(b"abc", k=chance.randint(1, 3)))
                            if chance.random() < 0.4:
                                self.assertEqual(s.pop(key, None), plain.pop(key, None))
                            else:
                                s[key] = plain[key] = number
                            low, high = sorted(bytes(chance.choices(b"abc", k=2)) for _ in range(2))
                            self.assertEqual((list(s.items()), len(s)), (sorted(plain.items()), len(plain)))
                            self.assertEqual(list(s.irange(low, high)), [k for k in sorted(plain) if low <= k < high])
                            self.assertEqual(list(s.irange(low, reverse=True)), [k for k in sorted(plain, reverse=True) if low <= k])
                            self.assertEqual(s.floor(low), max(((k, v) for k, v in plain.items() if k <= low), default=None))
                            self.assertEqual(s.best(low, 2), sorted(sorted((k, v) for k, v in plain.items() if k.startswith(low)), key=lambda i: -i[1])[:2])
                            self.assertEqual(list(s.keys(low)), [k for k in sorted(plain) if k.startswith(low)])
                        if chance.random() < 0.3:
                            raise RuntimeError
                except RuntimeError:
                    plain = before
                self.assertEqual(dict(s), plain)
        with Store(self.path) as s:
            self.assertEqual(dict(s), plain)

    def test_blocks_of_threads(self):
        """What another thread changes isn't of the block: it is on the disk at once, and stays where the block is dropped."""
        with Store(self.path) as s:
            s[b"net"] = 7
            def change():
                s[b"net"] = 8
                s[b"ten"] = 9
                with s.batch():
                    s[b"nor"] = 1
                with Store(self.path, mode="r") as reader:
                    seen.append((s.waiting, s.get(b"a"), dict(reader)))
            for error in (None, RuntimeError):
                seen = []
                try:
                    with s.batch():
                        s[b"a"] = 1
                        thread = threading.Thread(target=change)
                        thread.start()
                        thread.join()
                        self.assertEqual(seen, [(0, None, {b"net": 8, b"nor": 1, b"ten": 9})])
                        self.assertEqual((s[b"a"], s[b"net"], s.waiting), (1, 8, 1))
                        if error is None:
                            del s[b"a"]
                        else:
                            raise error
                except RuntimeError:
                    pass
                self.assertEqual(dict(s), {b"net": 8, b"nor": 1, b"ten": 9})
            # A block that another thread ends.
            def block():
                with s.batch():
                    s[b"b"] = 2
                    yield
            begun = block()
            next(begun)
            thread = threading.Thread(target=begun.close)
            thread.start()
            thread.join()
            s[b"c"] = 3
            self.assertEqual((s.waiting, b"b" in s, s[b"c"]), (0, False, 3))

    def test_calls_of_one_moment(self):
        """Beside another thread's changes, setdefault has one winner, and pop and popitem never take what is there no more."""
        with Store(self.path) as s:
            done = []

            def change():
                while not done:
                    s[b"other"] = 1

            changes = [threading.Thread(target=change) for _ in range(2)]
            for thread in changes:
                thread.start()
            for _ in range(8):
                got = self.at_once([lambda n=n: s.setdefault(b"k", n) for n in range(5)])
                self.assertEqual((len(set(got)), s[b"k"]), (1, got[0]))
                puts = [lambda n=n: s.__setitem__(b"k", n) for n in range(5, 7)]
                taken = self.at_once([*puts, lambda: s.pop(b"k", None), lambda: s.popitem()[1]]) + [s.pop(b"k", None)]
                taken = [value for value in taken if value not in (None, 1)]
                self.assertEqual(len(taken), len(set(taken)))
                s.setdefault(b"k", 0), s.pop(b"k")
            done.append(True)
            for thread in changes:
                thread.join()

    def at_once(self, calls):
        """Makes each call in a thread of its own, and returns what they returned."""
        start, answers = threading.Barrier(len(calls)), []

        def run(call):
            start.wait()
            answers.append(call())

        threads = [threading.Thread(target=run, args=(call,)) for call in calls]
        for thread in threads:
            thread.start()
        for thread in threads:
            thread.join()
        return answers

    def test_iterations_beside_changes(self):
        """An iteration waits for some of another thread's changes, and not for one at each key; within a block it shows the block's own."""
        with Store(self.path, text=True) as s:
            s.update((f"k{i:04}", i) for i in range(1000))
            done, count = [], [0]

            def change():
                while not done:
                    count[0] += 1
                    s["k0500"] = count[0]

            other = threading.Thread(target=change)
            other.start()
            try:
                before = count[0]
                listed = dict(s.items())
                self.assertEqual((len(listed), listed["k0999"]), (1000, 999))
                self.assertGreaterEqual(listed["k0500"], before)
                self.assertLess(count[0] - before, 300)
                with s.batch():
                    s["k0700"] = 7
                    walk, before = iter(s.items()), count[0]
                    while count[0] < before + 3:
                        time.sleep(0.001)
                    self.assertEqual((dict(walk)["k0700"], dict(s.items())["k0700"], s["k0700"]), (7, 7, 7))
            finally:
                done.append(True)
                other.join()

    def test_faults_of_many(self):
        """A call of many pairs or keys says which one has the fault, and changes nothing."""
        with Store(self.path) as s:
            for call, given, error, text in [
                (s.update, [(b"a", 1), (b"", 2)], CedarError, "pair 1: cedar keys must not be empty"),
                (s.update, {b"a": 1, b"b": -1}, CedarError, "pair 1: cedar value is outside the supported range 0..=2147483645"),
                (s.update, [(b"a", 1), ("b", 2)], TypeError, "pair 1: a dictionary without text=True takes bytes, and not str"),
                (s.update, [(b"a", 1), 5], TypeError, "pair 1 can't be converted to a sequence"),
                (s.update, [(b"a", 1, 2)], ValueError, "pair 0 has length 3; 2 is required"),
                (s.erase_all, [b"x", 5], TypeError, "key 1: a dictionary takes bytes, and not int"),
            ]:
                s[b"x"] = 1
                with self.assertRaises(error) as refused:
                    call(given)
                self.assertEqual((str(refused.exception), dict(s)), (text, {b"x": 1}))

    def test_a_block_without_room(self):
        run = subprocess.run([sys.executable, "-c", BLOCK_LACKS_ROOM, str(self.path)], stdout=subprocess.PIPE, text=True, check=True)
        self.assertEqual(run.stdout, "False 1\n")
        with Store(self.path) as s:
            self.assertEqual(dict(s), {b"net": 7, b"x": 1})

    def test_compacted(self):
        with Store(self.path, sync_every=50) as s:
            self.assertEqual((s.compaction, s.last_compaction, s.file_size), ((2, 65536), 0, self.path.stat().st_size))
            self.assertEqual(s.records, 0)
            for number in range(8000):
                s[b"counter"] = number
                self.assertLess(s.file_size, 70000)
            self.assertEqual((dict(s), s.last_compaction), ({b"counter": 7999}, 0))
            self.assertLess(s.records, 8000 // 50)
            s[b"net"] = 7
            shorter = s.compacted_size()
            with Store(self.path, mode="r") as reader:
                s.compact()
                self.assertEqual((s.waiting, s.file_size, self.path.stat().st_size, s.records), (0, shorter, shorter, 1))
                self.assertEqual(len(reader), 1)
                self.assertGreater(reader.records, 1)
                self.refused(48, reader.compact)
            s.compaction = None
            for number in range(8000):
                s[b"counter"] = number
            self.assertGreater(self.path.stat().st_size, 8000 * 17)
            self.assertEqual(s.records, 1 + 8000 // 50)
            beside = self.path.with_name(self.path.name + ".cedar-compaction")
            beside.mkdir()
            with self.assertRaises(FileExistsError):
                s.compact()
            s.compaction = (2, 0)
            s.update({b"nets": 8})
            self.assertEqual((s.compaction, s.last_compaction, s.failed), ((2, 0), 49, False))
            self.assertGreater(self.path.stat().st_size, 8000 * 17)
            beside.rmdir()
            for wrong in ((-1, 0), (2, -1)):
                with self.assertRaises(ValueError):
                    s.compaction = wrong
        with Store(self.path) as s:
            self.assertEqual(s.records, 2 + 8000 // 50)
            s.compact()
            self.assertEqual((dict(s), s.records), ({b"counter": 7999, b"net": 7, b"nets": 8}, 1))
            s.update({b"a": 1, b"b": 2})
            self.assertEqual(s.records, 2)
        for call in (s.compact, s.compacted_size, lambda: s.file_size, lambda: s.records):
            with self.assertRaises(ValueError):
                call()

    def test_compacted_once_there_is_room(self):
        run = subprocess.run([sys.executable, "-c", GOES_ON, str(self.path)], stdout=subprocess.PIPE, text=True, check=True)
        with Store(self.path) as s:
            self.assertEqual(dict(s), {b"net": 7, b"a": 1, b"x" * 300: 8, b"ten": 9})
        self.assertEqual(run.stdout, "False 2 False\n")

    def test_errors(self):
        with Store(self.path) as s:
            s[b"net"] = 7
            for key, value, error in [(b"", 1, CedarError), (b"a\0", 1, CedarError), (b"a", -1, CedarError), ("a", 1, TypeError), (b"a", True, TypeError)]:
                with self.assertRaises(error):
                    s[key] = value
            with self.assertRaises(KeyError):
                del s[b"ten"]
            for call in (lambda: pickle.dumps(s), lambda: Cedar.update(s, {b"a": 1}), lambda: Cedar.clear(s), lambda: s.__init__(self.path)):
                with self.assertRaises((TypeError, ValueError)):
                    call()
            with self.assertRaises(RuntimeError):
                for key in s:
                    s[key + b"s"] = 8
        with self.assertRaises(ValueError):
            s[b"net"] = 8
        with self.assertRaises(ValueError):
            s.failed
        self.assertEqual((repr(s), s.closed), ("<Store, closed>", True))

    def test_refused_files(self):
        damaged = b"\1\x08\0\0\0CEDARJ\2\xfd\xff\x47\x9c\x42\x09\4\0\0\0\0nit"
        for data, status in [(b"no store at all", 40), (b"\1\x08\0\0\0CEDARJ\0\0\1\1\0\0\0\7", 41), (damaged, 46)]:
            self.path.write_bytes(data)
            with self.assertRaises(CedarError) as caught:
                Store(self.path)
            self.assertEqual((caught.exception.status, self.path.read_bytes()), (status, data))
            self.assertEqual("(at byte 13)" in str(caught.exception), status == 46)
            self.assertTrue(str(caught.exception).startswith(f"{self.path}: "))
        with self.assertRaises(IsADirectoryError) as folder:
            Store(self.path.parent)
        with self.assertRaises(FileNotFoundError) as missing:
            Store(self.path.parent / "none" / "x")
        names = (folder.exception.filename, missing.exception.filename)
        self.assertEqual(names, (str(self.path.parent), str(self.path.parent / "none" / "x")))
        self.path.unlink()
        with Store(self.path) as s:
            s[b"\xff"] = 1
        with self.assertRaises(ValueError):
            Store(self.path, text=True)

    def test_kept(self):
        """Somebody else closes the gate of a record: what the opening cuts off is kept beside the file."""
        with Store(self.path) as s:
            s[b"net"] = 7
            end = s.file_size - 1
            s[b"nets"] = 8
            s[b"ten"] = 9
            self.assertIsNone(s.kept)
        data = bytearray(self.path.read_bytes())
        data[end] = 0
        names = [f"{os.path.realpath(self.path)}{middle}.cut" for middle in ["", *(f".{number}" for number in range(1, 100))]]
        # The same bytes are kept once.
        for text in [False, True]:
            self.path.write_bytes(data)
            with Store(self.path, mode="r", text=text) as s:
                self.assertEqual((len(s), s.kept, os.path.exists(names[0])), (1, None, text))
            with Store(self.path, text=text) as s:
                self.assertEqual((len(s), s.kept, os.path.exists(names[1])), (1, names[0], False))
            self.assertEqual(Path(names[0]).read_bytes(), data[:13] + data[end:])
            with Store(self.path) as s:
                self.assertEqual((dict(s), s.kept), ({b"net": 7}, None))
        with self.assertRaises(ValueError):
            s.kept
        for name in names:
            Path(name).write_bytes(b"")
        self.path.write_bytes(data)
        with self.assertRaises(FileExistsError):
            Store(self.path)
        self.assertEqual(self.path.read_bytes(), data)

    def refused(self, status, call):
        with self.assertRaises(CedarError) as caught:
            call()
        self.assertEqual(caught.exception.status, status)

    def test_locked(self):
        with Store(self.path) as s:
            s[b"net"] = 7
            data = self.path.read_bytes()
            self.refused(47, lambda: Store(self.path))
            opens = [sys.executable, "-c", OPENS, str(self.path)]
            self.assertEqual(subprocess.run(opens, stdout=subprocess.PIPE, text=True, check=True).stdout, "47\n")
            self.assertEqual(self.path.read_bytes(), data)
            s[b"nets"] = 8
        self.assertEqual(subprocess.run(opens, stdout=subprocess.PIPE, text=True, check=True).stdout, "2\n")

    def test_many_processes(self):
        """Each opens the store for each of its changes, and all of these are there."""
        writers = [subprocess.Popen([sys.executable, "-c", TAKES_TURNS, str(self.path), str(number)]) for number in range(3)]
        for writer in writers:
            self.assertEqual(writer.wait(), 0)
        with Store(self.path) as s:
            self.assertEqual(dict(s), {b"%d.%d" % (number, i): i for number in range(3) for i in range(20)})

    def test_read(self):
        with self.assertRaises(FileNotFoundError):
            Store(self.path, mode="r")
        self.assertFalse(self.path.exists())
        with Store(self.path, mode="x", sync_every=0) as s:
            s[b"net"] = 7
            s.sync()
            s[b"nets"] = 8
            data = self.path.read_bytes()
            with Store(self.path, mode="r") as reader:
                self.assertEqual((dict(reader), reader.mode, s.mode, reader.failed), ({b"net": 7}, "r", "x", False))
                for change in (lambda: reader.update({b"a": 1}), lambda: reader.pop(b"net"), reader.clear, lambda: reader.setdefault(b"b", 2)):
                    self.refused(48, change)
                s.sync()
                self.assertEqual((len(reader), len(s)), (1, 2))
            self.assertNotEqual(self.path.read_bytes(), data)
        with self.assertRaises(FileExistsError):
            Store(self.path, mode="x")
        with self.assertRaises(FileNotFoundError):
            Store(self.path.parent / "none", mode="w")
        with self.assertRaises(ValueError):
            Store(self.path, mode="rb")
        with Store(self.path, mode="w", text=True) as s:
            self.assertEqual((dict(s), s.mode), ({"net": 7, "nets": 8}, "w"))

    def test_forked(self):
        with Store(self.path) as s:
            s[b"net"] = 7
            child = os.fork()
            if child == 0:
                try:
                    s[b"ten"] = 9
                except CedarError as refused:
                    s.close()
                    os._exit(refused.status)
                os._exit(0)
            self.assertEqual(os.WEXITSTATUS(os.waitpid(child, 0)[1]), 47)
            self.refused(47, lambda: Store(self.path))
            s[b"nets"] = 8
        with Store(self.path) as s:
            self.assertEqual(dict(s), {b"net": 7, b"nets": 8})

    def test_forked_with_the_same_number(self):
        """A child isn't taken for the process that opened the store, though it has that one's number."""
        status = subprocess.run([sys.executable, "-c", ONE_NUMBER, str(self.path)]).returncode
        if status == 99:
            self.skipTest("no namespace of process numbers is allowed here")
        self.assertEqual(status, 47)
        with Store(self.path) as s:
            self.assertEqual(dict(s), {b"net": 7, b"nets": 8})

    def test_forked_where_a_compaction_is_due(self):
        """Neither a child nor a reader makes the file short, whose next change by the parent does."""
        with Store(self.path, sync_every=0) as s:
            s.compaction = None
            for number in range(9000):
                s[b"counter"] = number
        inode = self.path.stat().st_ino
        with Store(self.path) as s:
            child = os.fork()
            if child == 0:
                try:
                    s.close()
                    os._exit(0)
                finally:
                    os._exit(1)
            self.assertEqual(os.waitpid(child, 0)[1], 0)
            with Store(self.path, mode="r") as reader:
                reader.sync()
                self.assertEqual(reader.last_compaction, 0)
            self.assertEqual(self.path.stat().st_ino, inode)
            s[b"net"] = 7
            self.assertEqual((s.last_compaction, s.file_size < 100), (0, True))
            self.assertNotEqual(self.path.stat().st_ino, inode)
        with Store(self.path) as s:
            self.assertEqual(dict(s), {b"counter": 8999, b"net": 7})

    def test_a_disk_without_room(self):
        """The file may not grow past a limit: a change isn't made, and the store goes on once it may."""
        run = subprocess.run([sys.executable, "-c", LACKS_ROOM, str(self.path)], stdout=subprocess.PIPE, text=True, check=True)
        *told, number = run.stdout.split()
        self.assertEqual(told, ["True", "False", "False", "True"])
        with Store(self.path) as s:
            self.assertEqual(dict(s), {b"%d" % i: i for i in range(int(number) + 1)})

    def test_killed(self):
        for turn in range(6):
            child = subprocess.Popen([sys.executable, "-c", WRITES, str(self.path), str(turn % 2)], stdout=subprocess.PIPE, text=True)
            told = [int(child.stdout.readline()) for _ in range(random.Random(turn).randint(1, 30))]
            child.send_signal(signal.SIGKILL)
            told += [int(line) for line in child.stdout.read().splitlines() if line.isdigit()]
            child.stdout.close()
            child.wait()
            with Store(self.path) as s:
                # The last line may be cut off.
                self.assertGreater(len(s), max(told[:-1], default=-1))
                self.assertEqual(dict(s), {str(number).encode(): number for number in range(len(s))})

    def test_threads(self):
        with Store(self.path) as s:
            def store(first):
                for number in range(first, first + 50):
                    s[b"%d" % number] = number
            threads = [threading.Thread(target=store, args=(first,)) for first in range(0, 200, 50)]
            for thread in threads:
                thread.start()
            for thread in threads:
                thread.join()
            self.assertEqual(len(s), 200)
        with Store(self.path) as s:
            self.assertEqual(dict(s), {b"%d" % number: number for number in range(200)})


if __name__ == "__main__":
    unittest.main()
