"""Forged files: each is loaded and judged by judge.py, and both have to say the same. What loads has the keys that the judge read, is saved
as the same bytes, takes calls beside a plain tree, and is saved and loads again."""

import random
import time
from itertools import chain

from cedar import Cedar, CedarError
from judge import HEADER, MEMORY_LIMIT, OK, TRAILING, TRUNCATED, Node, judged, need

LIMIT = 2**29
HEADER_SIZE = 88
CALLS = 50


class Plain:
    """The plain tree beside a dictionary, with the slots that its values have."""

    def __init__(self, root, is_ordered, is_reduced):
        self.root, self.is_ordered, self.is_reduced = root, is_ordered, is_reduced

    def nodes(self, key):
        """The nodes on the path of a key, the root among them, as far as they are there."""
        path = [self.root]
        for label in key:
            if label not in path[-1].children:
                break
            path.append(path[-1].children[label])
        return path

    def get(self, key):
        path = self.nodes(key)
        return path[-1].value if len(path) > len(key) else None

    def put(self, key, value):
        path = self.nodes(key)
        for label in key[len(path) - 1 :]:
            above, node = path[-1], Node()
            labels = chain([(label, node)], above.children.items())
            above.children = dict(sorted(labels, key=lambda child: child[0]) if self.is_ordered else labels)
            path.append(node)
        end = path[-1]
        if end.value is None:
            end.has_slot = not self.is_reduced or bool(end.children)
            for node in path[:-1]:
                node.has_slot = node.value is not None
        end.value = value

    def cut(self, key):
        """Takes a key away, and says whether it was held."""
        path = self.nodes(key)
        if self.get(key) is None:
            return False
        path[-1].value, path[-1].has_slot = None, False
        for above, node, label in zip(path[-2::-1], path[::-1], key[::-1]):
            if node.value is None and not node.children:
                del above.children[label]
        return True

    def walk(self):
        """All nodes with their paths, in the order of the walk."""
        left = [(b"", self.root)]
        while left:
            path, node = left.pop()
            yield path, node
            left += [(path + bytes([label]), below) for label, below in reversed(node.children.items())]

    def is_in(self, cedar):
        """Whether a dictionary holds the same, in as many slots."""
        nodes = list(self.walk())
        items = [(path, node.value) for path, node in nodes if node.value is not None]
        used = len(nodes) + sum(node.has_slot for _, node in nodes)
        return list(cedar.items()) == items and len(cedar) == len(items) and cedar.used_slots() == used


def random_key():
    return bytes(random.choices(b"^_`abc", k=random.randint(1, 3)))


def goes_on(cedar, data, header, root):
    """Tests a dictionary that was loaded of these bytes."""
    plain = Plain(root, header.flags == 1, header.layout == 1)
    assert cedar.is_reduced() == plain.is_reduced and cedar.capacity() == header.capacity
    assert cedar.save(is_full=header.minor == 0) == data and plain.is_in(cedar)
    for call in range(CALLS):
        key = random_key()
        if random.random() < 0.6:
            cedar[key] = call
            plain.put(key, call)
        elif plain.cut(key):
            del cedar[key]
        assert cedar.get(key) == plain.get(key)
    assert plain.is_in(cedar)
    saved = cedar.save()
    assert judged(saved, LIMIT)[0] == OK
    again = Cedar.loaded(saved)
    assert plain.is_in(again) and again.save() == saved


class Loads:
    """Loads beside the judge, and how many were made."""

    def __init__(self):
        self.made = self.gone_on = 0
        self.kept = Cedar({b"old": 5})

    def expect(self, data, limit=LIMIT, what=""):
        """A load has to say what the judge says, which is told."""
        wanted, header, root = judged(data, limit)
        self.made += 1
        try:
            self.kept.load(data, limit)
            status = OK
        except CedarError as error:
            status = error.status
        assert status == wanted, f"{what}: a load says {status}, the judge {wanted}"
        if status != OK:
            assert self.kept.get(b"old") == 5 and len(self.kept) == 1
            return wanted
        self.gone_on += 1
        goes_on(self.kept, data, header, root)
        self.kept.close()
        self.kept = Cedar({b"old": 5})
        return wanted


def changed(data, at, mask):
    return data[:at] + bytes([data[at] ^ mask]) + data[at + 1 :]


def each_byte(loads, data):
    """Changes the lowest bit of each byte, one at a time: the places at which that loads."""
    return [at for at in range(len(data)) if loads.expect(changed(data, at, 1), what=f"byte {at}") == OK]


def in_turn(loads, data, masks):
    """Changes each byte: of the header and of the blocks by each mask, and of the records of which there are many by one of them in turn,
    so that each byte of such a record is changed by each mask, in one record or another."""
    _, header, _ = judged(data, LIMIT)
    end = len(data) - 2 * header.reject_len
    for at in range(len(data)):
        is_of_few = at < HEADER_SIZE or end - 20 * header.blocks_len <= at < end
        for mask in masks if is_of_few else [masks[(at + 3 * (at // 8)) % len(masks)]]:
            loads.expect(changed(data, at, mask), what=f"byte {at} by {mask}")


def moved(loads, data, times):
    """Puts some of a file's bytes in the place of others, as fields of a record may be mistaken for one another."""
    for _ in range(times):
        size = random.choice([1, 2, 4, 8, 20])
        source = random.randrange(16, len(data) - size)
        target = random.randrange(16 + (source - 16) % size, len(data) - size, size)
        forged = bytearray(data)
        forged[target : target + size] = data[source : source + size]
        loads.expect(bytes(forged), what=f"{size} bytes from {source} to {target}")


def ends(loads, data):
    """A file that is cut at each byte, or goes on, and limits at and below what a load needs."""
    for size in range(len(data)):
        assert loads.expect(data[:size], what=f"the first {size}") in [TRUNCATED, HEADER]
    assert loads.expect(data + b"\0") == TRAILING
    _, header, _ = judged(data, LIMIT)
    assert loads.expect(data, need(header)) == OK
    assert loads.expect(data, need(header) - 1) == MEMORY_LIMIT


def full(reduced):
    """A dictionary with full blocks, and blocks that aren't in use."""
    keys = sorted(bytes([first, second]).rstrip(b"\0") for first in b"ab" for second in range(256))
    return Cedar.from_sorted([(key, 1) for key in keys], reduced=reduced)


def mixed(reduced, ordered):
    """A dictionary with blocks in all three lists."""
    cedar = Cedar(reduced=reduced, ordered=ordered, max_trial=2)
    for value in range(400):
        cedar[bytes(random.choices(range(80, 120), k=random.randint(1, 3)))] = value
    return cedar


def harmless():
    """Where the lowest bit of a new file may be another: the minor version, since all slots are in use, the order, the number of trials,
    what block 0 rejects, and each reject value that may be one less."""
    return [10, 14, 17, 18, 19, 2658, 2659] + [2668 + 4 * half for half in range(1, 129)] + [3181]


def check(reduced):
    random.seed(7)
    loads, new = Loads(), Cedar(reduced=reduced)
    bits = [1 << bit for bit in range(8)]
    for is_full in [True, False]:
        assert each_byte(loads, new.save(is_full)) == harmless()
    in_turn(loads, new.save(), bits[1:] + [255])
    ends(loads, new.save())
    one, three = Cedar({b"a": 7}, reduced=reduced), Cedar([("b", 1), ("a", 2), ("ab", 3)], ordered=False, reduced=reduced)
    for cedar, masks in [(one, [1, 128, 255]), (three, [1])]:
        in_turn(loads, cedar.save(), masks)
        moved(loads, cedar.save(), 1000)
    for cedar in [full(reduced), mixed(reduced, True), mixed(reduced, False)]:
        for is_full in [True, False]:
            data = cedar.save(is_full)
            assert loads.expect(data) == OK
            for at in random.sample(range(len(data)), 500):
                loads.expect(changed(data, at, random.choice(bits)), what=f"byte {at}")
            moved(loads, data, 500)
    return loads.made, loads.gone_on


for reduced in [False, True]:
    start = time.process_time()
    made, gone_on = check(reduced)
    layout = "reduced" if reduced else "default"
    print(f"forged files of the {layout} layout: {made} loads as the judge says, {gone_on} of which went on, {time.process_time() - start:.0f} s")
