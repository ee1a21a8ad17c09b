"""Threads that share a dictionary, each of whose steps the interpreter may leave for another thread."""

import collections
import itertools
import os
import random
import signal
import sys
import threading
import time
import unittest
import warnings

from roskvidh import Cedar, Scanner

# A thread may have a lock of the address sanitizer when the process forks: then the child waits for it for good.
FORKS = hasattr(os, "fork") and "asan" not in os.environ.get("LD_PRELOAD", "")

SECONDS = float(os.environ.get("ROSKVIDH_SECONDS", "10"))


class Threads(unittest.TestCase):
    def setUp(self):
        self.addCleanup(sys.setswitchinterval, sys.getswitchinterval())
        sys.setswitchinterval(1e-6)
        self.wrong = []

    def run_all(self, seconds, *works):
        """Runs each work in a thread of its own, over and over, until the time is over or one is wrong."""
        end = time.monotonic() + seconds

        def run(work):
            chance = random.Random(works.index(work))
            try:
                while time.monotonic() < end and not self.wrong:
                    work(chance)
            except BaseException as error:
                self.wrong.append(error)

        threads = [threading.Thread(target=run, args=(work,)) for work in works]
        for thread in threads:
            thread.start()
        for thread in threads:
            thread.join(seconds + 30)
            self.assertFalse(thread.is_alive(), "a thread waits for ever")
        self.assertEqual(self.wrong, [])

    def test_completions_beside_each_other(self):
        plain = {b"%d" % i: i for i in range(3000)}
        expected = sorted(plain.items())

        def complete(chance):
            cedar = Cedar(plain)
            walks = [threading.Thread(target=lambda: results.append(list(cedar.items(b"")))) for _ in range(3)]
            results = []
            for walk in walks:
                walk.start()
            for walk in walks:
                walk.join()
            assert results == [expected] * 3

        self.run_all(SECONDS, complete)

    def test_completions_beside_changes(self):
        """Keys come and go that no call asks for: what completes, is near or lies in a range stays as one thread alone is told it."""
        for reduced in (False, True):
            cedar = Cedar({b"%d" % i: i for i in range(3000)}, reduced=reduced)

            def told(cedar=cedar):
                return (
                    cedar.best(b"1", 5),
                    list(cedar.within(b"1000", 1)),
                    list(cedar.within(b"29", 1, beginning=True)),
                    list(cedar.matching(b"1?0")),
                    list(cedar.irange(b"2", b"21", inclusive=(False, True), reverse=True)),
                    (cedar.floor(b"19a"), cedar.ceiling(b"19a")),
                )

            expected = told()
            self.assertEqual((expected[0][0], expected[5]), ((b"1999", 1999), ((b"1999", 1999), (b"2", 2))))

            def change(chance, cedar=cedar):
                key = b"yyyy%d" % chance.randrange(1000)
                cedar[key] = 2_000_000_000
                del cedar[key]

            def look(chance, told=told, expected=expected):
                assert told() == expected

            self.run_all(SECONDS / 8, change, look, lambda chance, look=look: look(chance))

    def test_look_ups_beside_each_other(self):
        cedar = Cedar({b"%d" % i: i for i in range(50)})

        def look_up(chance):
            for number in chance.choices(range(50), k=1000):
                assert cedar[b"%d" % number] == number

        self.run_all(SECONDS, *[lambda chance, n=n: look_up(chance) for n in range(4)])

    def test_long_calls_beside_changes(self):
        """A text is all `a`, and `a` and `aa` come and go: what a long call tells is of one state."""
        for reduced in (False, True):
            cedar = Cedar({b"%d" % i: i for i in range(2000)}, reduced=reduced)
            text, found = b"a" * 20_000, set()

            def change(chance):
                cedar[b"a"] = 1
                cedar.update((b"a" * n, n) for n in range(1, 300))
                assert cedar.erase_prefix(b"aa") == 298
                del cedar[b"a"]

            def read(chance):
                found.add(len(cedar.scan(text)))
                found.add(len(cedar.segment(text)))
                found.add(len(cedar.keywords(text)))
                found.add(len(cedar.cheapest(text, unknown=1000)))
                loaded = Cedar.load(cedar.to_bytes())
                assert len(loaded) in (2000, 2001, 2299) and loaded[b"7"] == cedar[b"7"]

            self.run_all(SECONDS / 8, change, read, lambda chance: read(chance), lambda chance: list(loaded_keys(cedar)))
            whole = sum(min(299, 20_000 - place) for place in range(20_000))
            self.assertLessEqual(found, {0, 20_000, whole, len(range(0, 20_000, 299))})

    def test_cuts_beside_each_other(self):
        """Four threads cut one text: each has what one thread alone has."""
        cedar = Cedar({b"ab": 3, b"a": 1, b"abc": 9, b"c": 2})
        text = bytes(random.Random(3).choices(b"abcd", k=20_000))
        keywords, tokens = list(cedar.keywords(text)), list(cedar.cheapest(text, unknown=4))

        def cut(chance):
            assert list(cedar.keywords(text)) == keywords
            assert list(cedar.cheapest(text, unknown=4)) == tokens

        self.run_all(SECONDS / 4, *[lambda chance, n=n: cut(chance) for n in range(4)])

    def test_scanners_beside_changes(self):
        """Four threads search by one scanner, while its dictionary is changed: each has what one thread alone has."""
        for search in ("overlapping", "earliest", "leftmost-longest", "leftmost-first"):
            cedar = Cedar({b"ab": 3, b"a": 1, b"abc": 9, b"c": 2})
            text = bytes(random.Random(5).choices(b"abcd", k=20_000))
            scanner = Scanner(cedar, search=search)
            found = list(scanner.find(text))

            def change(chance):
                cedar[b"b"] = 1
                assert len(Scanner(cedar, search=search).find(text)) > 0
                cedar.clear()
                cedar.update({b"ab": 3, b"c": 5})

            def look(chance):
                assert list(scanner.find(text)) == found

            self.run_all(SECONDS / 8, change, *[lambda chance, n=n: look(chance) for n in range(4)])

    def test_own_keys_of_each_thread(self):
        for reduced in (False, True):
            cedar = Cedar(reduced=reduced)
            works = [OwnKeys(cedar, number) for number in range(6)]
            self.run_all(SECONDS / 4, *works, lambda chance: [time.sleep(0.001), cedar.shrink()])
            self.assertEqual(dict(cedar), {key: value for work in works for key, value in work.own.items()})

    def test_one_iteration_of_many_threads(self):
        cedar, text = Cedar({b"%d" % i: i for i in range(3000)}), b"7" * 20_000

        def share(chance):
            walk, taken = iter(cedar.items()), []
            threads = [threading.Thread(target=lambda: taken.extend(walk)) for _ in range(3)]
            for thread in threads:
                thread.start()
            for thread in threads:
                thread.join()
            assert sorted(taken) == sorted(cedar.items())

        self.run_all(SECONDS / 8, share, lambda chance: cedar.scan(text))

    def test_closed_beside_reads(self):
        for _ in range(60):
            cedar = Cedar({b"a": 1})

            def read(chance):
                try:
                    assert len(cedar.scan(b"a" * 8000)) == 8000
                except ValueError as error:
                    assert str(error) == "the dictionary is closed"

            self.run_all(0.005, read, lambda chance: read(chance), lambda chance: cedar.close())

    def test_a_long_call_lets_others_run(self):
        cedar, text, steps = Cedar({b"ab": 1}), b"ab" * 4_000_000, [0]
        sys.setswitchinterval(10)

        def count():
            while not done:
                steps[0] += 1
                time.sleep(0)

        done = []
        counter = threading.Thread(target=count)
        counter.start()
        before = steps[0]
        cedar.scan(text)
        during = steps[0] - before
        done.append(True)
        counter.join()
        self.assertGreater(during, 100)

    def test_long_calls_keep_nobody_out(self):
        """One thread makes a long call after another; the calls of others come in between."""
        sys.setswitchinterval(0.005)
        cedar, text, done, scans = Cedar({b"ab": 1}), b"ab" * 100_000, [], [0]

        def scan():
            while not done:
                cedar.scan(text)
                scans[0] += 1

        scanner = threading.Thread(target=scan, daemon=True)
        scanner.start()
        while scans[0] == 0:
            time.sleep(0.001)
        start = time.monotonic()
        for number in range(200):
            cedar[b"ab"] = number
            self.assertEqual(cedar[b"ab"], number)
        took = time.monotonic() - start
        done.append(True)
        scanner.join()
        self.assertLess(took, 10)

    def test_a_short_call_beside_a_long_one_that_reads(self):
        """Look-ups, and scans of short texts and of long ones, end before a longer scan does; a change comes behind it."""
        text = b"ab" * 8_000_000
        for _ in range(10):  # on a busy machine the scan may begin too late
            cedar, done = Cedar({b"ab": 1}), []
            scan = threading.Thread(target=lambda cedar=cedar, done=done: done.append(len(cedar.scan(text))))
            scan.start()
            time.sleep(0.02)
            self.assertEqual((cedar[b"ab"], list(cedar.items(b"a"))), (1, [(b"ab", 1)]))
            self.assertEqual((len(cedar.scan(b"ab" * 10)), len(cedar.scan(b"ab" * 5000))), (10, 5000))
            before = list(done)
            cedar[b"b"] = 2
            scan.join()
            self.assertEqual(len(cedar), 2)
            if (before, done) == ([], [8_000_000]):
                return
        self.fail("no short call ended before the scan, or no change came behind it")

    def test_no_lock_step(self):
        """Threads of look-ups and of changes are as fast behind long calls as before them."""
        sys.setswitchinterval(0.005)
        words = {b"%d" % i: i for i in range(20_000)}
        cedar, counts, done = Cedar(words), [0] * 8, []

        def look_up(at):
            keys = random.Random(at).choices(list(words), k=1000)
            while not done:
                for key in keys:
                    cedar.get(key)
                if at < 2:
                    cedar[keys[0]] = 5
                counts[at] += 1000

        def rate():
            before, start = sum(counts), time.monotonic()
            time.sleep(0.4)
            return (sum(counts) - before) / (time.monotonic() - start)

        threads = [threading.Thread(target=look_up, args=(at,)) for at in range(8)]
        for thread in threads:
            thread.start()
        before = rate()
        for _ in range(3):
            cedar.scan(b"12 345 6" * 100_000)
            cedar.update(words)
            cedar.to_bytes()
        after = max(rate() for _ in range(4))
        done.append(True)
        for thread in threads:
            thread.join()
        self.assertGreater(after, 0.25 * before)  # a lock-step leaves some hundredths

    def test_a_call_of_some_keys_keeps_the_lock(self):
        """To give the interpreter's lock up costs its interval beside a thread that works: short work isn't worth it."""
        sys.setswitchinterval(0.1)
        cedar, done = Cedar({b"%d" % i: i for i in range(3000)}), []
        pairs, text = [(b"%d" % i, i) for i in range(1000)], b"12 345 6" * 2000

        def work():
            while not done:
                pass

        def took():
            start = time.monotonic()
            for _ in range(4):
                cedar.update(pairs)
                cedar.erase_all([key for key, _ in pairs])
                cedar.scan(text)
                cedar.segment(text)
                len(cedar.keys(b"1"))
                list(cedar.items(b"1"))
                cedar.copy()
            return time.monotonic() - start

        worker = threading.Thread(target=work)
        worker.start()
        least = min(took() for _ in range(5))  # a busy machine takes the processor away too
        done.append(True)
        worker.join()
        self.assertLess(least, 1)

    @unittest.skipUnless(FORKS, "no fork beside threads")
    def test_a_forked_child_waits_for_nobody(self):
        cedar = Cedar({b"ab": 1})
        scan = threading.Thread(target=cedar.scan, args=(b"ab" * 8_000_000,))
        scan.start()
        time.sleep(0.01)
        with warnings.catch_warnings():
            warnings.simplefilter("ignore")  # Python warns of forks beside threads
            child = os.fork()
        if child == 0:
            try:
                cedar.get(b"ab")
                os._exit(0)
            except RuntimeError as error:
                os._exit(0 if "forked" in str(error) else 1)
        self.assertEqual(os.waitpid(child, 0)[1], 0)
        scan.join()


class OwnKeys:
    """A thread's keys of a dictionary that others change too: what it sees of them is what it did to them."""

    def __init__(self, cedar, number):
        self.cedar, self.prefix, self.own = cedar, b"%d:" % number, {}

    def __call__(self, chance):
        key = self.prefix + bytes(chance.choices(b"abc", k=chance.randint(1, 4)))
        getattr(self, chance.choice(["change", "change", "change_many", "read", "find"]))(chance, key)
        assert self.cedar.get(key) == self.own.get(key)

    def change(self, chance, key):
        if chance.random() < 0.6:
            self.cedar[key] = self.own[key] = chance.randrange(99)
        else:
            assert self.cedar.pop(key, None) == self.own.pop(key, None)

    def change_many(self, chance, key):
        keys = {self.prefix + bytes(chance.choices(b"abcd", k=4)): chance.randrange(99) for _ in range(20)}
        if chance.random() < 0.5:
            self.cedar.update(keys)
            self.own.update(keys)
        elif chance.random() < 0.5:
            assert self.cedar.erase_all(keys) == sum(self.own.pop(key, None) is not None for key in keys)
        else:
            gone = [held for held in self.own if held.startswith(key[:-1])]
            assert self.cedar.erase_prefix(key[:-1]) == len(gone)
            for held in gone:
                del self.own[held]

    def read(self, chance, key):
        own = sorted(self.own.items())
        assert list(self.cedar.items(self.prefix)) == own and len(self.cedar.keys(self.prefix)) == len(own)
        assert list(self.cedar.irange(self.prefix, self.prefix + b"\xff")) == [held for held, _ in own]
        assert list(self.cedar.copy().items(self.prefix)) == own

    def find(self, chance, key):
        places = [found.value for found in self.cedar.scan(key) if found.place == 0]
        assert places == [self.own[key[:length]] for length in range(1, len(key) + 1) if key[:length] in self.own]
        self.cedar.segment(key * 2000)
        self.cedar.cheapest(key * 2000, unknown=3)


class Interrupted(Exception):
    """What the handler of a signal raises."""


@unittest.skipUnless(hasattr(signal, "setitimer"), "no timers")
class Signals(unittest.TestCase):
    """A signal's handler runs while a long call is under way, and ends it by raising."""

    def setUp(self):
        self.cedar = Cedar({b"ab": 1, b"b" * 50: 2})
        self.addCleanup(signal.signal, signal.SIGALRM, signal.getsignal(signal.SIGALRM))
        self.addCleanup(signal.setitimer, signal.ITIMER_REAL, 0)

    def interrupts(self, call, handler=None):
        """Makes a call that would take seconds, and returns how long it took until it was interrupted."""

        def handle(*_):
            if handler:
                handler()
            raise Interrupted

        signal.signal(signal.SIGALRM, handle)
        start = time.monotonic()
        signal.setitimer(signal.ITIMER_REAL, 0.1)
        with self.assertRaises(Interrupted):
            call()
        return time.monotonic() - start

    def test_texts(self):
        text = b"ab c" * 40_000_000
        for call in (self.cedar.scan, self.cedar.segment, self.cedar.keywords, lambda text: self.cedar.cheapest(text, unknown=1)):
            self.interrupts(lambda call=call: call(text))
        self.assertEqual((self.cedar[b"ab"], len(self.cedar.scan(b"abab"))), (1, 2))
        self.interrupts(lambda: Cedar.load(self.cedar.to_bytes()).scan(text))
        # Of a file that was loaded nobody knows at first how long a key is that all places of a text may begin.
        long = Cedar.load(Cedar({b"a" * 2000 + b"b": 1}).to_bytes())
        self.assertLess(self.interrupts(lambda: [long.scan(b"a" * 2_000_000) for _ in range(100)]), 5)

    def test_lists(self):
        pairs = [(b"%d" % (i % 1000), i) for i in range(1000)] * 10_000
        self.interrupts(lambda: self.cedar.update(pairs))
        self.interrupts(lambda: self.cedar.erase_all([key for key, _ in pairs]))
        self.cedar.update(pairs[:1000])
        self.assertEqual((len(self.cedar), self.cedar[b"999"]), (1002, 999))

    def test_at_any_moment(self):
        """An update that is interrupted has stored the first pairs, and a removal has taken the first keys out."""
        pairs = [(b"%d" % i, i) for i in range(200_000)]
        for delay in range(10, 250, 20):
            d = Cedar({b"x": 1})
            signal.signal(signal.SIGALRM, self.raise_it)
            signal.setitimer(signal.ITIMER_REAL, delay / 1000)
            try:
                d.update(pairs)
                d.erase_all([key for key, _ in pairs])
                signal.setitimer(signal.ITIMER_REAL, 0)
            except Interrupted:
                pass
            self.assertEqual(d.pop(b"x"), 1)
            held = sorted(d.values())
            first, last = list(range(len(held))), list(range(200_000 - len(held), 200_000))
            self.assertTrue(held == first or held == last)

    @staticmethod
    def raise_it(*_):
        raise Interrupted

    def test_iterations(self):
        d = Cedar(((b"%d" % i, i) for i in range(100_000)))
        self.interrupts(lambda: [list(d.items(b"1")) for _ in range(10_000)])
        walk, repeated = iter(d), itertools.chain.from_iterable(itertools.repeat(d))
        self.interrupts(lambda: collections.deque(repeated, maxlen=0))  # no code of Python's runs between two keys
        self.assertEqual((len(list(d)), len(list(walk))), (100_000, 100_000))

    def test_a_wait(self):
        """The main thread waits for another thread's scan, whose dictionary it wants to change."""
        other = threading.Thread(target=self.cedar.scan, args=(b"ab" * 60_000_000,))
        other.start()
        time.sleep(0.02)
        self.interrupts(lambda: [self.cedar.__setitem__(b"c", 1) for _ in range(10**8)])
        other.join()
        self.cedar[b"d"] = 1
        self.assertEqual(self.cedar[b"d"], 1)

    def test_a_handler_beside_a_wait(self):
        """Whatever it calls while its thread waits for another thread's scan, both end: the handler's call first."""
        many, text = [(b"%d" % i, i) for i in range(300)], b"ab" * 3_000_000
        calls = [
            lambda d: d.__setitem__(b"c", 1),
            lambda d: d.update(many),
            lambda d: d.scan(b"ab" * 5000),
            lambda d: d.get(b"ab"),
        ]
        for within in calls:
            for outer in calls[:2]:
                d, done = Cedar({b"ab": 1}), []
                signal.signal(signal.SIGALRM, lambda *_, d=d, done=done, within=within: done.append(within(d)))
                scan = threading.Thread(target=d.scan, args=(text,))
                scan.start()
                time.sleep(0.01)
                signal.setitimer(signal.ITIMER_REAL, 0.01)
                outer(d)
                scan.join()
                while not done:
                    time.sleep(0.01)
                self.assertEqual((len(done), d[b"ab"]), (1, 1))

    @unittest.skipUnless(FORKS, "no fork beside threads")
    def test_a_handler_that_forks_beside_a_wait(self):
        """The child has no other thread, and waits no more."""
        d, children, waits, is_right = Cedar({b"ab": 1}), [], [True], False
        with warnings.catch_warnings():
            warnings.simplefilter("ignore")  # Python warns of forks beside threads
            signal.signal(signal.SIGALRM, lambda *_: waits and children.append(os.fork()))
            scan = threading.Thread(target=d.scan, args=(b"ab" * 10_000_000,))
            scan.start()
            time.sleep(0.02)
            signal.setitimer(signal.ITIMER_REAL, 0.02)
            try:
                d[b"c"] = 1
                is_right = len(d) == 2
            finally:
                waits.clear()
                if children == [0]:
                    os._exit(0 if is_right else 1)
        scan.join()
        for child in children:  # there is none if the scan ended before the signal
            self.assertEqual(os.waitpid(child, 0)[1], 0)
        self.assertTrue(is_right)

    def test_a_handler_that_calls_the_dictionary(self):
        """It reads within its own thread's call that reads. What would wait for that call is refused."""
        answers = []

        def look(*calls):
            for call in calls:
                try:
                    answers.append(call())
                except RuntimeError as error:
                    answers.append(str(error))

        d, text = self.cedar, b"ab c" * 40_000_000
        refusal = "a signal handler or a finalizer has called a dictionary within a call of its own thread"
        self.interrupts(lambda: d.scan(text), lambda: look(lambda: d[b"ab"], lambda: len(d.scan(b"ab" * 5000)), lambda: d.pop(b"ab")))
        self.assertEqual(answers, [1, 5000, refusal])
        d[b"c"] = 5
        self.assertEqual(dict(d.items(b"c")), {b"c": 5})


def loaded_keys(cedar):
    """The keys of an iteration, which ends where another thread changes them."""
    try:
        yield from cedar
    except RuntimeError as error:
        assert str(error) == "dictionary changed size during iteration"


if __name__ == "__main__":
    unittest.main()
