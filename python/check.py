"""30,000 random calls of each layout beside a dict, and times if an argument says of how many keys."""

import pickle
import random
import sys
import threading
import time

from cedar import EARLIEST, LEFTMOST_FIRST, LEFTMOST_LONGEST, Cedar, CedarError, Scanner


def random_key():
    if random.random() < 0.5:
        return bytes(random.choices(b"abc", k=random.randint(1, 6)))
    return bytes(random.choices(range(1, 256), k=random.randint(1, 4)))


def refuses(error, call):
    try:
        call()
    except error as e:
        return str(e)
    raise AssertionError("it isn't refused")


def check(reduced):
    random.seed(7)
    cedar, plain = Cedar(reduced=reduced), {}
    assert cedar.is_reduced() == reduced
    for i in range(30_000):
        key = random_key()
        match random.randrange(3):
            case 0:
                cedar[key] = plain[key] = i
            case 1:
                assert (key in cedar) == (key in plain)
                if key in plain:
                    del cedar[key], plain[key]
                else:
                    refuses(KeyError, lambda: cedar.__delitem__(key))
            case _:
                assert cedar.get(key) == plain.get(key)
        assert len(cedar) == len(plain)
    assert all(cedar[key] == value for key, value in plain.items())
    prefixes = {key[:n] for key in plain for n in range(1, len(key) + 1)}
    assert cedar.used_slots() <= 1 + len(prefixes) + len(plain) if reduced else cedar.used_slots() == 1 + len(prefixes) + len(plain)
    for _ in range(300):
        text = random_key() + random_key()
        assert cedar.prefixes(text) == [(plain[text[:n]], n) for n in range(1, len(text) + 1) if text[:n] in plain]
    assert list(cedar.items()) == sorted(plain.items()) and list(cedar) == sorted(plain) and list(Cedar()) == []
    for text in [b"", b"a", b"ab", b"zz"]:
        assert cedar.predictions(text) == [(plain[key], len(key) - len(text)) for key in sorted(plain) if key.startswith(text)]
        assert cedar.count_prefix(text) == sum(key.startswith(text) for key in plain)
        assert cedar.first_predictions(text, 5) == cedar.predictions(text)[:5] and cedar.first_predictions(text, 0) == []
        pages(cedar, sorted(item for item in plain.items() if item[0].startswith(text)), text)
    pieces(cedar)
    refusals(cedar)
    room_ahead(reduced)
    bounded_searches(reduced)
    cedar["käse"] = 3
    assert cedar["käse".encode()] == 3
    loads(Cedar({b"net": 1, b"ten": 2, b"nets": 3}, reduced=reduced).save(), reduced)
    loads(Cedar({b"net": 1, b"ten": 2, b"nets": 3}, reduced=reduced).save(is_full=True), reduced)
    assert Cedar.loaded(cedar.save()).predictions(b"") == cedar.predictions(b"")
    many()
    from_sorted(plain, reduced)
    unsorted(plain, reduced)
    threads(reduced)
    refuses(TypeError, lambda: Cedar.loaded(5))
    whole_texts(cedar, {**plain, "käse".encode(): 3})
    cedar.close()
    assert len(cedar) == 0 and refuses(CedarError, lambda: cedar.__setitem__(b"a", 1)) == "the dictionary is closed"
    assert len(cedar.scan(b"abc")) == len(cedar.segment(b"abc")) == 0
    refuses(CedarError, cedar.save)
    cedar.close()


def many():
    """Many pairs in one call: a faulty one keeps all from being stored."""
    cedar = Cedar()
    cedar.update([("a", 1), ("b", 2), ("a", 3)])
    assert cedar.get("a") == 3 and len(cedar) == 2
    for faulty in [("", 1), ("c\0", 1), ("c", -1)]:
        refuses(CedarError, lambda: cedar.update([("d", 4), faulty]))
    assert len(cedar) == 2
    cedar.update({str(i): i for i in range(10_000)})
    assert len(cedar) == 10_002 and cedar["9999"] == 9999
    assert cedar.erase_all([]) == 0 and cedar.erase_all(["none", "a", b"b", "a", ""]) == 2 and cedar.erase_all(map(str, range(0, 20_000, 2))) == 5_000
    assert len(cedar) == 5_000 and dict(cedar.items()) == {str(i).encode(): i for i in range(1, 10_000, 2)}
    refuses(TypeError, lambda: cedar.erase_all(["1", 1]))
    assert cedar["1"] == 1


def refusals(cedar):
    """What is refused, and by which text."""
    assert refuses(CedarError, lambda: cedar.__setitem__(b"a\0b", 1)) == "cedar keys must not contain the terminal byte 0x00 (at byte 1)"
    assert refuses(CedarError, lambda: cedar.__setitem__(b"", 1)) == "cedar keys must not be empty"
    assert "outside the supported range" in refuses(CedarError, lambda: cedar.__setitem__(b"a", -1))
    refuses(CedarError, lambda: cedar.__setitem__(b"a", 2**40))
    assert refuses(CedarError, lambda: Cedar(max_trial=0)) == "max_trial must be greater than zero"
    refuses(TypeError, lambda: cedar.get(7))


def room_ahead(reduced):
    """Room for blocks more, within which the slots stay as many; too many blocks are refused, and nothing changes."""
    cedar = Cedar(reduced=reduced)
    cedar.reserve(3)
    assert cedar.capacity() == 1024
    cedar.update({b"net": 7, b"x": 1, b"yz": 2})
    assert cedar.capacity() == 1024 and len(cedar) == 3
    for blocks in [2**22, 2**63, 10**30]:
        assert refuses(MemoryError, lambda: cedar.reserve(blocks)) == "cedar trie has no slot left"
    refuses(ValueError, lambda: cedar.reserve(-1))
    assert cedar.capacity() == 1024 and dict(cedar.items()) == {b"net": 7, b"x": 1, b"yz": 2}
    cedar.close()
    assert refuses(CedarError, lambda: cedar.reserve(0)) == "the dictionary is closed"


def bounded_searches(reduced):
    """A bound on how many blocks a search tries: no result depends on it, and no file has it."""
    pairs = {b"%d" % i: i for i in range(3000)}
    cedar = Cedar(pairs, reduced=reduced)
    assert cedar.search_limit is None
    cedar.search_limit = 2
    for key in list(pairs)[::20]:
        del cedar[key]
    cedar.update(pairs)
    assert cedar.search_limit == 2 and dict(cedar.items()) == pairs
    assert Cedar.loaded(cedar.save()).search_limit is None
    refuses(ValueError, lambda: setattr(cedar, "search_limit", -1))
    cedar.search_limit = None
    assert cedar.search_limit is None
    cedar.close()
    assert cedar.search_limit == 0


def pages(cedar, entries, prefix):
    """The entries with a prefix, page by page, beside their list; and a page behind keys that aren't held."""
    shown, is_last, behind = [], False, b""
    while not is_last:
        page, is_last = cedar.page(prefix, behind, 7)
        assert len(page) == 7 or is_last
        shown += page
        behind = page[-1][0] if page else behind
    assert shown == entries
    for key in [b"\1", b"aba\1", b"zzz"]:
        wanted = [item for item in entries if item[0] > key]
        assert cedar.page(prefix, key, 3) == (wanted[:3], len(wanted) <= 3)


def pieces(cedar):
    """Some of what a walk gives."""
    for start, most in [(0, 0), (0, 3), (2, 2), (5, 10**4), (10**30, 1)]:
        assert cedar.predictions_from(b"a", start, most) == cedar.predictions(b"a")[start : start + most]
        assert cedar.prefixes_from(b"abcabc", start, most) == cedar.prefixes(b"abcabc")[start : start + most]
    refuses(ValueError, lambda: cedar.predictions_from(b"a", -1, 1))


def from_sorted(plain, reduced):
    """A dictionary of sorted pairs, made at once, beside one made by updates."""
    pairs = sorted(plain.items())
    cedar = Cedar.from_sorted(pairs, reduced=reduced)
    assert list(cedar.items()) == pairs and cedar.is_reduced() == reduced and cedar.used_slots() <= Cedar(pairs, reduced=reduced).used_slots()
    assert (cedar.used_slots() < Cedar.from_sorted(pairs).used_slots()) == reduced
    assert len(Cedar.from_sorted([])) == 0 and len(Cedar.from_sorted({"a": 1}, ordered=False, max_trial=3)) == 1
    assert refuses(CedarError, lambda: Cedar.from_sorted([("a", 1), ("b", 2), ("b", 3)])) == "duplicate key in sorted input (at pair 2)"
    assert refuses(CedarError, lambda: Cedar.from_sorted([("b", 1), ("a", 2)])) == "key in sorted input is smaller than its predecessor (at pair 1)"
    assert refuses(CedarError, lambda: Cedar.from_sorted([("a\0", 1)])) == "cedar keys must not contain the terminal byte 0x00 (at byte 1)"
    assert refuses(CedarError, lambda: Cedar.from_sorted([("a", 1)], max_trial=0)) == "max_trial must be greater than zero"
    cedar[b"new"] = 5
    assert cedar["new"] == 5


def unsorted(plain, reduced):
    """A dictionary of pairs in no order, made at once, beside one made by updates and one of the same pairs sorted."""
    pairs = [(key, 0) for key in plain] + list(plain.items())
    random.shuffle(pairs)
    pairs += plain.items()
    cedar, updated = Cedar(pairs, reduced=reduced), Cedar(reduced=reduced)
    updated.update(pairs)
    assert list(cedar.items()) == list(updated.items()) == sorted(plain.items())
    assert cedar.save() == Cedar.from_sorted(sorted(plain.items()), reduced=reduced).save()
    assert dict(Cedar(pairs, ordered=False, reduced=reduced).items()) == plain and dict(Cedar(plain, reduced=reduced).items()) == plain
    for faulty, text in [(("", 5), "cedar keys must not be empty"), (("c\0", 1), "cedar keys must not contain the terminal byte 0x00 (at byte 1)")]:
        assert refuses(CedarError, lambda: Cedar([("d", 4), ("b", 2), faulty, ("", 1)], reduced=reduced)) == text


def cheapest_in(plain, text, unknown):
    """The tokens of least cost, by what the text from each place on costs: of those that cost the same the longest first."""
    longest = max(map(len, plain))
    costs, first = [0] * (len(text) + 1), [None] * len(text)
    for place in reversed(range(len(text))):
        costs[place], first[place] = unknown + costs[place + 1], (place, 1, None)
        for n in range(1, min(longest, len(text) - place) + 1):
            value = plain.get(text[place : place + n])
            if value is not None and value + costs[place + n] <= costs[place]:
                costs[place], first[place] = value + costs[place + n], (place, n, value)
    tokens, place = [], 0
    while place < len(text):
        tokens.append(first[place])
        place += first[place][1]
    return tokens


def searched(cedar, plain):
    """What scanners find in a text, beside all keys that stand in it."""
    text = bytes(random.choices(b"abcd", k=300))
    keys = [(place, len(key), value) for key, value in plain.items() for place in range(len(text)) if text.startswith(key, place)]
    orders = {
        EARLIEST: lambda key: (key[0] + key[1], -key[1]),
        LEFTMOST_LONGEST: lambda key: (key[0], -key[1]),
        LEFTMOST_FIRST: lambda key: (key[0], key[2], key[1]),
    }
    assert list(Scanner(cedar).find(text)) == sorted(keys, key=orders[EARLIEST])
    for search, order in orders.items():
        found, end = [], 0
        for place, length, value in sorted(keys, key=order):
            if place >= end:
                found.append((place, length, value))
                end = place + length
        assert list(Scanner(cedar, search).find(text)) == found
    assert Scanner(cedar).longest() == max(map(len, plain)) and len(Scanner(Cedar()).find(text)) == 0
    refuses(CedarError, lambda: Scanner(cedar, 4))


def whole_texts(cedar, plain):
    """Scans and tokens of texts beside those found by tries, texts long enough for several calls to C among them."""
    longest = max(map(len, plain))
    # The values as costs beside ids.
    ids = {key: at for at, key in enumerate(plain)}
    by_id, costs = Cedar(ids), list(plain.values())
    for size in [0, 1, 50, 140_000]:
        text = bytes(random.choices(b"abcd", k=size))
        found, tokens, end = [], [], 0
        for place in range(size):
            fronts = [text[place : place + n] for n in range(1, min(longest, size - place) + 1)]
            here = [(place, len(key), plain[key]) for key in fronts if key in plain]
            found += here
            if place == end:
                tokens.append(here[-1] if here else (place, 1, None))
                end += tokens[-1][1]
        scanned, cut = cedar.scan(text), cedar.segment(text)
        assert list(scanned) == found and len(scanned) == len(found)
        assert list(cut) == tokens and sum(length for _, length, _ in cut) == size
        assert list(cedar.keywords(text)) == [token for token in tokens if token[2] is not None]
        for unknown in (0, 1 << 20):
            cheapest = cheapest_in(plain, text, unknown)
            assert list(cedar.cheapest(text, unknown)) == list(cedar.cheapest(text, unknown, True)) == cheapest
            wanted = [(place, n, None if value is None else ids[text[place : place + n]]) for place, n, value in cheapest]
            assert list(by_id.cheapest_by(text, costs, unknown)) == wanted
    assert scanned[0] == found[0] and scanned[-1] == found[-1] and scanned[2:4] == found[2:4]
    assert list(pickle.loads(pickle.dumps(scanned))) == found
    searched(cedar, plain)
    # More matches than bytes, so that a text takes many calls.
    nested, text = Cedar({b"a" * n: n for n in range(1, 200)}), b"a" * 300
    assert list(nested.scan(text)) == [(place, n, n) for place in range(300) for n in range(1, min(199, 300 - place) + 1)]
    nested.close()
    assert len(nested.scan(text)) == len(nested.segment(text)) == len(nested.keywords(text)) == len(nested.cheapest(text, 1)) == 0
    refuses(ValueError, lambda: cedar.cheapest(b"a", -1))
    refuses(ValueError, lambda: cedar.cheapest(b"a", 1 << 32))
    refuses(ValueError, lambda: cedar.cheapest_by(b"a", [1 << 32]))
    letters = by_id.cheapest_by("网12x", [], kinds=[(ord("0"), ord("9"), 1), (ord("e"), ord("z"), 2)])
    assert list(letters) == [(0, 3, None), (3, 2, None), (5, 1, None)]
    unknown = Cedar().cheapest("网a", 3, by_characters=True)
    assert list(unknown) == [(place, 1, None) for place in range(4)]


def loads(data, reduced):
    """Loads a file that has net, ten and nets with 1, 2 and 3."""
    cedar = Cedar({b"old": 5})
    for damaged, why in [
        (data[:-1], "serialized cedar trie is truncated"),
        (b"X" + data[1:], "input is not a cedarwood serialized trie"),
        (data + b"X", "serialized trie has trailing data"),
    ]:
        assert refuses(CedarError, lambda: cedar.load(damaged)) == why and cedar["old"] == 5
    cedar.load(data)
    assert cedar.predictions(b"") == [(1, 3), (3, 4), (2, 3)] and cedar.get("old") is None and cedar.is_reduced() == reduced


def threads(reduced):
    """Threads that read one dictionary, each of whose steps the interpreter may leave for another thread."""
    plain = {f"{i}".encode(): i for i in range(2000)}
    cedar, wrong, interval = Cedar(plain, reduced=reduced), [], sys.getswitchinterval()

    def read(seed):
        keys = random.Random(seed).choices(list(plain), k=3000)
        wrong.extend(key for key in keys if cedar[key] != plain[key])
        wrong.extend(key for key in keys[:30] if len(cedar.predictions(key[:1])) != sum(k[:1] == key[:1] for k in plain))
        wrong.extend(["all"] * (len(cedar.predictions(b"")) != len(plain)))

    readers = [threading.Thread(target=read, args=(seed,)) for seed in range(8)]
    sys.setswitchinterval(1e-6)
    for reader in readers:
        reader.start()
    for reader in readers:
        reader.join()
    sys.setswitchinterval(interval)
    assert not wrong, wrong[:3]


def times(count):
    cedar = Cedar()
    keys = [f"{i * 2654435761 % 2**32:08x}".encode() for i in range(count)]
    start = time.perf_counter()
    for i, key in enumerate(keys):
        cedar[key] = i
    updated = time.perf_counter()
    for key in keys:
        cedar[key]
    found = time.perf_counter()
    for key in keys:
        del cedar[key]
    erased = time.perf_counter()
    print(f"{count} keys: update {(updated - start) / count * 1e9:.0f} ns, get {(found - updated) / count * 1e9:.0f} ns, erase {(erased - found) / count * 1e9:.0f} ns a call")


def text_times(size):
    """MiB of text a second, for the lines that the C program prints of the same text."""
    cedar = Cedar()
    cedar.update({b"the": 1, b"there": 2, b"here": 3, b"net": 4, b"network": 5, b"work": 6})
    word = b"the network here is at work there; a net of nets works on. "
    text = word * (size // len(word))
    for name, call in [("scan", cedar.scan), ("segment", cedar.segment)]:
        best = min(timed(lambda: call(text)) for _ in range(5))
        print(f"{name}: {len(text) / best / 2**20:.1f} MiB of text a second in one call, {len(call(text))} found")


def timed(call):
    start = time.process_time()
    call()
    return time.process_time() - start


check(False)
check(True)
if len(sys.argv) > 1:
    times(int(sys.argv[1]))
    text_times(1 << 24)
print("ok")
