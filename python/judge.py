"""What a load is to say of a file's bytes, and the tree that the dictionary then holds: written from docs/FORMAT.md and
docs/DEFINITIONS.md alone, and apart from the test that a load makes."""

import struct
from collections import namedtuple
from itertools import compress, count

# The statuses of cedar.h.
OK = 0
TRUNCATED, MAGIC, VERSION, BYTE_ORDER, LAYOUT, HEADER, MEMORY_LIMIT, CORRUPT, TRAILING = range(20, 29)

MAX_VALUE = 2147483645
MAX_SLOTS = 2**30
_HEADER_SIZE = 88
_BLOCK_SIZE = 256
_REJECTS = 257

Header = namedtuple(
    "Header",
    "magic major minor byte_order layout flags max_trial full_head closed_head open_head"
    " array_len n_infos_len blocks_len reject_len capacity size entries",
)
Block = namedtuple("Block", "prev next num reject trial e_head")
_HEADER = struct.Struct("<8sHHBBHiiii7Q")
_BLOCK = struct.Struct("<iihhii")
_BLANK = Block(0, 0, 256, 257, 0, 0)


class Node:
    """A node of the tree: its value, whether that has a slot of its own, and the nodes below it by their labels."""

    def __init__(self):
        self.value, self.has_slot, self.children = None, False, {}


class Corrupt(Exception):
    """The table isn't well-formed."""


def _require(holds):
    if not holds:
        raise Corrupt


def judged(data, limit):
    """The status of a load that may take `limit` bytes, and the header and the tree of what loads."""
    status = _front_status(data)
    if status != OK:
        return status, None, None
    header = Header._make(_HEADER.unpack_from(data))
    status = _size_status(header, limit) or _length_status(header, len(data))
    if status != OK:
        return status, None, None
    try:
        return OK, header, _Table(header, data).tree()
    except Corrupt:
        return CORRUPT, None, None


def _number(data):
    return int.from_bytes(data, "little")


def _front_status(data):
    """Steps 1 to 6: each reads up to a place, and the input may end before it."""
    for end, is_right, status in [
        (8, data[:8] == b"CEDARW\0\0", MAGIC),
        (12, _number(data[8:10]) == 1 and _number(data[10:12]) <= 1, VERSION),
        (13, data[12:13] == b"\1", BYTE_ORDER),
        (14, data[13:14] <= b"\1", LAYOUT),
        (16, _number(data[14:16]) <= 1, HEADER),
        (_HEADER_SIZE, True, OK),
    ]:
        if len(data) < end:
            return TRUNCATED
        if not is_right:
            return status
    return OK


def listed(header):
    """How many slots a file lists."""
    return header.capacity if header.minor == 0 else header.size


def need(header):
    """How many bytes a load may take of memory."""
    blocks = header.capacity // _BLOCK_SIZE
    return 2 * (10 * header.capacity + 20 * blocks + 2 * _REJECTS) + 18 * header.size + blocks


def _size_status(header, limit):
    """Steps 7 to 11."""
    slots = listed(header)
    if header.array_len != slots or header.n_infos_len != slots:
        return HEADER
    if header.capacity not in [2**power for power in range(8, 31)]:
        return HEADER
    if header.size % _BLOCK_SIZE != 0 or not _BLOCK_SIZE <= header.size <= header.capacity:
        return HEADER
    if header.blocks_len != slots // _BLOCK_SIZE or header.reject_len != _REJECTS or header.entries > header.size:
        return HEADER
    return MEMORY_LIMIT if need(header) > limit else OK


def _length_status(header, length):
    """Steps 13 to 15."""
    slots = listed(header)
    end = _HEADER_SIZE + 10 * slots + 20 * (slots // _BLOCK_SIZE) + 2 * _REJECTS
    if length != end:
        return TRUNCATED if length < end else TRAILING
    return OK if header.max_trial >= 1 else HEADER


def _follow(first, members, following, previous):
    """Requires that the members, and nothing else, stand in one ring, of which this is one."""
    met, member = set(), first
    while member not in met:
        _require(member in members)
        met.add(member)
        after = following(member)
        _require(after in members and previous(after) == member)
        member = after
    _require(met == members)


class _Table:
    """Step 16: what a file lists."""

    def __init__(self, header, data):
        self.header, slots = header, listed(header)
        labels, blocks = _HEADER_SIZE + 8 * slots, _HEADER_SIZE + 10 * slots
        rejects = len(data) - 2 * _REJECTS
        numbers = struct.unpack_from(f"<{2 * slots}i", data, _HEADER_SIZE)
        self.base, self.check = numbers[::2], numbers[1::2]
        self.sibling, self.child = data[labels:blocks:2], data[labels + 1 : blocks : 2]
        self.blocks = [Block._make(record) for record in _BLOCK.iter_unpack(data[blocks:rejects])]
        self.rejects = struct.unpack_from(f"<{_REJECTS}h", data, rejects)
        self.active = header.size // _BLOCK_SIZE

    def tree(self):
        """The tree that the slots stand for, in a well-formed table."""
        self._require_ranges()
        self._require_blank_rest()
        for number in range(self.active):
            self._require_free_ring(number)
        self._require_lists()
        return self._read_tree()

    def _require_ranges(self):
        for free, reject in enumerate(self.rejects):
            _require(1 <= reject <= free + 1)
        for number, block in enumerate(self.blocks[: self.active]):
            _require(1 <= block.reject <= 257)
            _require(0 <= block.trial <= (self.header.max_trial if number else 0))

    def _require_blank_rest(self):
        """What isn't in use is blank."""
        for fields in [self.base, self.check, self.sibling, self.child]:
            _require(not any(fields[self.header.size :]))
        _require(all(block == _BLANK for block in self.blocks[self.active :]))

    def _require_free_ring(self, number):
        """The free slots of a block are in one ring, with labels 0; its record counts them, and names one of them."""
        block, start = self.blocks[number], number * _BLOCK_SIZE
        slots = range(start, start + _BLOCK_SIZE)
        free = {slot for slot in slots if slot != 0 and self.check[slot] < 0}
        _require(block.num == len(free) + (1 if number == 0 else 0))
        _require(not any(self.sibling[slot] or self.child[slot] for slot in free))
        if free:
            _follow(block.e_head, free, lambda slot: -self.check[slot], lambda slot: -self.base[slot])

    def _require_lists(self):
        """Each block is in the list that its record names, and the full one has block 0 besides."""
        full, closed, opened = {0}, set(), set()
        for number, block in enumerate(self.blocks[1 : self.active], 1):
            if block.num == 0:
                full.add(number)
            elif block.num == 1 or block.trial == self.header.max_trial:
                closed.add(number)
            else:
                opened.add(number)
        self._require_list(0, full)
        _require(self.header.full_head == self.blocks[0].next)
        self._require_list(self.header.closed_head, closed)
        self._require_list(self.header.open_head, opened)

    def _require_list(self, head, members):
        if members:
            _follow(head, members, lambda number: self.blocks[number].next, lambda number: self.blocks[number].prev)
        else:
            _require(head == 0)

    def _read_tree(self):
        """Reads each node once, from the root on: with the free slots, what it meets is all slots in use."""
        self.met = {0}
        root, entries = Node(), 0
        left = [(0, root)]
        while left:
            slot, node = left.pop()
            base, label = self._read_node(slot, node) if slot else self._read_root()
            entries += node.value is not None
            last = 0
            while label != 0:
                _require(label > last or self.header.flags == 0)
                below, last = base ^ label, label
                self._meet(below, slot)
                node.children[label] = Node()
                left.append((below, node.children[label]))
                label = self.sibling[below]
        held = {0, *compress(count(), (check >= 0 for check in self.check[: self.header.size]))}
        _require(self.met == held and entries == self.header.entries)
        return root

    def _meet(self, slot, owner):
        _require(self.check[slot] == owner and slot not in self.met)
        self.met.add(slot)

    def _read_root(self):
        """The root's base, which is 0, and its first label."""
        _require(self.check[0] == -1 and self.child[0] == 0)
        _require(self.base[0] == (-1 if self.header.layout == 1 else 0))
        return 0, self.sibling[0]

    def _read_node(self, slot, node):
        """The base of a node below the root, and its first label. Sets its value, if it has one."""
        stored = self.base[slot]
        if self.header.layout == 1:
            if stored >= 0:
                _require(self.child[slot] == 0)
                node.value = self._value(stored)
                return 0, 0
            stored = -(stored + 1)
        _require(_BLOCK_SIZE <= stored < self.header.size)
        if self.check[stored] != slot:
            _require(self.child[slot] != 0)
            return stored, self.child[slot]
        self._meet(stored, slot)
        _require(self.child[slot] == 0 and self.child[stored] == 0)
        node.value, node.has_slot = self._value(self.base[stored]), True
        return stored, self.sibling[stored]

    def _value(self, number):
        _require(0 <= number <= MAX_VALUE)
        return number
