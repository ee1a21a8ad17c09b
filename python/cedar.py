"""The dictionary for Python: Cedar() is a mapping from bytes or str to whole numbers, over the shared library.

    d = Cedar()
    d[b"net"] = 7
    d["net"], "net" in d, len(d)
    del d["net"]
    d.update({"net": 7, "nets": 8})
    list(d.scan(b"a net, nets")) == [(2, 3, 7), (7, 3, 7), (7, 4, 8)]
    list(d.segment(b"nets!")) == [(0, 4, 8), (4, 1, None)]
    list(d.keywords(b"a net, nets")) == [(2, 3, 7), (7, 4, 8)]
    list(Scanner(d, search=EARLIEST).find(b"a net, nets")) == [(2, 3, 7), (7, 3, 7)]
    list(d.cheapest(b"nets!", unknown=0)) == [(0, 1, None), (1, 1, None), (2, 1, None), (3, 1, None), (4, 1, None)]
    Cedar.loaded(d.save())
    Cedar.from_sorted([(b"net", 7), (b"nets", 8)])
    Cedar({"net": 7}, reduced=True)
"""

import ctypes
import mmap
import os
import struct
from bisect import bisect_right
from collections.abc import Sequence
from contextlib import suppress
from ctypes import POINTER, byref, c_bool, c_char_p, c_int32, c_size_t, c_uint32, c_void_p
from itertools import accumulate, chain
from pathlib import Path


class _Handle(ctypes.Structure):  # of a dictionary, or of a scanner
    _fields_ = [("held", c_void_p), ("is_open", c_uint32)]


class _Match(ctypes.Structure):
    _fields_ = [("value", c_int32), ("length", c_size_t)]


class _Found(ctypes.Structure):
    _fields_ = [("place", c_size_t), ("length", c_size_t), ("value", c_int32)]


class _Range(ctypes.Structure):
    _fields_ = [("first", c_uint32), ("last", c_uint32), ("kind", c_uint32)]


class _Pair(ctypes.Structure):
    _fields_ = [("key", c_char_p), ("length", c_size_t), ("value", c_int32)]


class _Key(ctypes.Structure):
    _fields_ = [("key", c_char_p), ("length", c_size_t)]


def _library(path=os.environ.get("CEDAR_LIBRARY", Path(__file__).parent / "libroskvidh.so")):
    # PyDLL keeps the interpreter's lock during a call, so that one call at a time works on a dictionary, and none reads it while it changes.
    # Between calls other threads run: what C writes to is each call's own.
    library = ctypes.PyDLL(str(path))
    handle = POINTER(_Handle)
    for name, result, arguments in [
        ("cedar_new", c_uint32, [handle]),
        ("cedar_new_with", c_uint32, [handle, c_bool, c_int32]),
        ("cedar_new_reduced", c_uint32, [handle, c_bool, c_int32]),
        ("cedar_is_reduced", c_bool, [handle]),
        ("cedar_load_any", c_uint32, [handle, c_char_p, c_size_t, c_size_t]),
        ("cedar_save", c_uint32, [handle, c_bool, c_char_p, c_size_t, POINTER(c_size_t)]),
        ("cedar_status_text", c_size_t, [c_uint32, c_char_p, c_size_t]),
        ("cedar_free", None, [handle]),
        ("cedar_update", c_uint32, [handle, c_char_p, c_size_t, c_int32, POINTER(c_size_t)]),
        ("cedar_update_all", c_uint32, [handle, POINTER(_Pair), c_size_t, POINTER(c_size_t)]),
        ("cedar_build", c_uint32, [handle, c_bool, c_int32, POINTER(_Pair), c_size_t, POINTER(c_size_t)]),
        ("cedar_build_reduced", c_uint32, [handle, c_bool, c_int32, POINTER(_Pair), c_size_t, POINTER(c_size_t)]),
        ("cedar_build_unsorted", c_uint32, [handle, c_bool, c_int32, POINTER(_Pair), c_size_t, POINTER(c_size_t)]),
        ("cedar_build_unsorted_reduced", c_uint32, [handle, c_bool, c_int32, POINTER(_Pair), c_size_t, POINTER(c_size_t)]),
        ("cedar_erase", c_bool, [handle, c_char_p, c_size_t]),
        ("cedar_erase_all", c_size_t, [handle, POINTER(_Key), c_size_t, POINTER(c_bool), c_size_t]),
        ("cedar_get", c_bool, [handle, c_char_p, c_size_t, POINTER(c_int32)]),
        ("cedar_prefixes", c_size_t, [handle, c_char_p, c_size_t, POINTER(_Match), c_size_t]),
        ("cedar_predictions", c_size_t, [handle, c_char_p, c_size_t, POINTER(_Match), c_size_t]),
        ("cedar_prefixes_from", c_size_t, [handle, c_char_p, c_size_t, POINTER(c_size_t), POINTER(_Match), c_size_t]),
        ("cedar_predictions_from", c_size_t, [handle, c_char_p, c_size_t, POINTER(c_size_t), POINTER(_Match), c_size_t]),
        ("cedar_first_predictions", c_size_t, [handle, c_char_p, c_size_t, POINTER(_Match), c_size_t]),
        ("cedar_entries_below", c_uint32, [handle, c_char_p, c_size_t, c_char_p, c_size_t, POINTER(_Found), c_size_t, c_char_p, c_size_t,
                                           POINTER(c_size_t), POINTER(c_size_t)]),
        ("cedar_scan", c_size_t, [handle, c_char_p, c_size_t, POINTER(c_size_t), POINTER(_Found), c_size_t]),
        ("cedar_segment", c_size_t, [handle, c_char_p, c_size_t, POINTER(c_size_t), POINTER(_Found), c_size_t]),
        ("cedar_keywords", c_size_t, [handle, c_char_p, c_size_t, POINTER(c_size_t), POINTER(_Found), c_size_t]),
        ("cedar_cheapest", c_uint32, [handle, c_char_p, c_size_t, c_uint32, c_bool, POINTER(_Found), c_size_t, POINTER(c_size_t)]),
        ("cedar_cheapest_by", c_uint32, [handle, c_char_p, c_size_t, POINTER(c_uint32), c_size_t, c_uint32, POINTER(_Range), c_size_t,
                                         c_uint32, c_size_t, c_bool, POINTER(_Found), c_size_t, POINTER(c_size_t)]),
        ("cedar_keys", c_uint32, [handle, c_char_p, c_size_t, POINTER(c_size_t)]),
        ("cedar_len", c_size_t, [handle]),
        ("cedar_count_prefix", c_size_t, [handle, c_char_p, c_size_t]),
        ("cedar_used_slots", c_size_t, [handle]),
        ("cedar_capacity", c_size_t, [handle]),
        ("cedar_reserve", c_uint32, [handle, c_size_t]),
        ("cedar_set_search_limit", None, [handle, c_size_t]),
        ("cedar_search_limit", c_size_t, [handle]),
        ("cedar_scanner_new", c_uint32, [handle, c_uint32, handle]),
        ("cedar_scanner_find", c_size_t, [handle, c_char_p, c_size_t, POINTER(c_size_t), POINTER(_Found), c_size_t]),
        ("cedar_scanner_longest", c_size_t, [handle]),
        ("cedar_scanner_free", None, [handle]),
    ]:
        function = getattr(library, name)
        function.restype = result
        function.argtypes = arguments
    return library


_CEDAR = _library()


def _bytes(key):
    """A key as bytes: text is taken as UTF-8. Anything else would be a wild pointer to C."""
    if isinstance(key, str):
        return key.encode()
    if isinstance(key, (bytes, bytearray)):
        return bytes(key)
    raise TypeError(f"a key is bytes or str, and not {type(key).__name__}")


class CedarError(ValueError):
    """A call that failed: its status, a number of cedar.h, and the library's text for it."""

    def __init__(self, status, text):
        super().__init__(text)
        self.status = status


_NUL_BYTE = 5
_UNSORTED = (8, 9)
_NO_ROOM = 11
_NO_MEMORY = 2
_SHORTAGES = (_NO_MEMORY, 3)
_MAX_VALUE = 2147483645
_MAX_SIZE = 2**63 - 1
_NO_LIMIT = c_size_t(-1).value
_LONG = 1 << 17  # bytes
_MOST_AT_ONCE = 1 << 21  # places, of 24 bytes each


def _text_of(status):
    text = ctypes.create_string_buffer(128)
    length = _CEDAR.cedar_status_text(status, text, len(text))
    return text.raw[:length].decode()


def _check(status, position=None):
    """Raises the exception of a status: MemoryError if memory or slots ran out, and CedarError otherwise."""
    if status == 0:
        return
    text = _text_of(status)
    if status in _SHORTAGES:
        raise MemoryError(text)
    if status == _NUL_BYTE:
        text += f" (at byte {position.value})"
    elif status in _UNSORTED:
        text += f" (at pair {position.value})"
    raise CedarError(status, text)


def _trials(max_trial):
    """A setting as C takes it. One that C would cut off is refused as 0 is."""
    return max_trial if 0 < max_trial < 2**31 else 0


def _pairs(pairs):
    """The pairs of a mapping or of a sequence as C takes them."""
    pairs = [(_bytes(key), value) for key, value in (pairs.items() if hasattr(pairs, "items") else pairs)]
    return (_Pair * len(pairs))(*[(key, len(key), _value(value)) for key, value in pairs])


def _value(value):
    """A value as C takes it, which would cut off what is too long."""
    if not 0 <= value <= _MAX_VALUE:
        raise CedarError(6, _text_of(6))
    return value


def _fresh_memory(size):
    """Returns unused memory. A long piece takes only the pages that are written to. Pages have 2 MiB if the system has such: clearing
    and mapping pages of 4 KiB takes longer than the scan of a text that fills them."""
    if size < _LONG:
        return bytearray(size)
    try:
        memory = mmap.mmap(-1, size, flags=mmap.MAP_PRIVATE | mmap.MAP_ANONYMOUS)
    except OSError:
        raise MemoryError(_text_of(_NO_MEMORY)) from None
    with suppress(AttributeError, OSError):
        memory.madvise(mmap.MADV_HUGEPAGE)
    return memory


class Matches(Sequence):
    """The keys or tokens of a text, in their order: for each where it begins, how many bytes it has, and its value, which is
    None for a token that isn't a key. Items are read from C's numbers when they are asked for."""

    _ENTRY = struct.Struct("NNi0N")

    def __init__(self, parts):
        """Takes the numbers that each call wrote, as bytes or views of them."""
        self._parts = parts
        self._ends = list(accumulate(len(part) // self._ENTRY.size for part in parts))

    def __reduce__(self):
        return Matches, ([bytes(part) for part in self._parts],)

    def __len__(self):
        return self._ends[-1] if self._ends else 0

    def __getitem__(self, at):
        if isinstance(at, slice):
            return [self[i] for i in range(*at.indices(len(self)))]
        at = range(len(self))[at]
        part = bisect_right(self._ends, at)
        at -= self._ends[part - 1] if part else 0
        place, length, value = self._ENTRY.unpack_from(self._parts[part], at * self._ENTRY.size)
        return place, length, None if value < 0 else value

    def __iter__(self):
        for place, length, value in chain.from_iterable(map(self._ENTRY.iter_unpack, self._parts)):
            yield place, length, None if value < 0 else value


def _everything(call, handle, text):
    """All that a call finds in a text, which it goes along in pieces."""
    text, place, parts, least = _bytes(text), c_size_t(0), [], 64
    while place.value < len(text) and handle.is_open:
        room = max(least, min(len(text) - place.value, _MOST_AT_ONCE))
        memory = _fresh_memory(room * ctypes.sizeof(_Found))
        count = call(byref(handle), text, len(text), byref(place), _Found.from_buffer(memory), room)
        parts.append(memoryview(memory)[: count * ctypes.sizeof(_Found)])
        # One call returns all keys of a place: those of this one are more than `room`.
        if count == 0:
            least = 4 * room
    return Matches(parts)


class Cedar:
    """A mapping from nonempty byte strings without byte 0 to whole numbers from 0 to 2147483645. The reduced layout gives the same
    results and takes fewer slots."""

    def __init__(self, pairs=(), ordered=True, max_trial=1, reduced=False):
        self._handle = _Handle()
        self._this = byref(self._handle)
        if ordered:  # sorted and made at once
            self._build(_CEDAR.cedar_build_unsorted_reduced if reduced else _CEDAR.cedar_build_unsorted, pairs, ordered, max_trial)
            return
        new = _CEDAR.cedar_new_reduced if reduced else _CEDAR.cedar_new_with
        _check(new(self._this, ordered, _trials(max_trial)))
        self.update(pairs)

    def _build(self, build, pairs, ordered, max_trial):
        array, position = _pairs(pairs), c_size_t()
        _check(build(self._this, ordered, _trials(max_trial), array, len(array), byref(position)), position)

    def update(self, pairs):
        """Stores the pairs of a mapping or of a sequence in one call: the last value of a key counts. If a pair has a fault, nothing is
        stored. If memory runs out, the pairs before that are stored."""
        array, position = _pairs(pairs), c_size_t()
        _check(_CEDAR.cedar_update_all(self._this, array, len(array), byref(position)), position)

    @classmethod
    def from_sorted(cls, pairs, ordered=True, max_trial=1, reduced=False):
        """Returns the dictionary of the pairs of a mapping or of a sequence whose keys ascend by bytes, built in one pass. A key that
        isn't above the one before it raises an error with its index."""
        cedar = cls()
        cedar._build(_CEDAR.cedar_build_reduced if reduced else _CEDAR.cedar_build, pairs, ordered, max_trial)
        return cedar

    def reserve(self, blocks):
        """Allocates ahead for so many blocks of 256 slots more than are in use, so that updates that take no more of them need no memory:
        each takes at most one for each byte of its key. If it fails, nothing has changed."""
        if blocks < 0:
            raise ValueError("the blocks to reserve are 0 or more")
        _check(_CEDAR.cedar_reserve(self._this, min(blocks, _MAX_SIZE)))

    @property
    def search_limit(self):
        """How many blocks of slots one search for places tries at most, or None if nothing bounds it, as at first. No file has it."""
        blocks = _CEDAR.cedar_search_limit(self._this)
        return None if blocks == _NO_LIMIT else blocks

    @search_limit.setter
    def search_limit(self, blocks):
        if blocks is not None and blocks < 0:
            raise ValueError("a search limit is 0 or more")
        _CEDAR.cedar_set_search_limit(self._this, _NO_LIMIT if blocks is None else min(blocks, _NO_LIMIT))

    def save(self, is_full=False):
        """Returns the bytes of its file: format 1.1, or if is_full format 1.0, which lists all slots."""
        needed = c_size_t(1 << 16)
        while True:
            buffer = ctypes.create_string_buffer(needed.value)
            status = _CEDAR.cedar_save(self._this, is_full, buffer, len(buffer), byref(needed))
            if status != _NO_ROOM:
                _check(status)
                return ctypes.string_at(buffer, needed.value)

    def load(self, data, memory_limit=2**29):
        """Becomes the dictionary of a file's bytes, in the layout of the file. If it fails, it stays as it was."""
        data = bytes(memoryview(data))
        _check(_CEDAR.cedar_load_any(self._this, data, len(data), memory_limit))

    @classmethod
    def loaded(cls, data, memory_limit=2**29):
        """Returns the dictionary of a file's bytes."""
        cedar = cls()
        cedar.load(data, memory_limit)
        return cedar

    def close(self):
        _CEDAR.cedar_free(self._this)

    def __del__(self):
        if hasattr(self, "_this"):
            self.close()

    # A copy of the handle would be freed twice.
    def __copy__(self):
        raise TypeError("a Cedar isn't copied")

    __deepcopy__ = __reduce__ = lambda self, *_: self.__copy__()

    def __setitem__(self, key, value):
        key, position = _bytes(key), c_size_t()
        _check(_CEDAR.cedar_update(self._this, key, len(key), _value(value), byref(position)), position)

    def get(self, key, default=None):
        key, value = _bytes(key), c_int32()
        if _CEDAR.cedar_get(self._this, key, len(key), byref(value)):
            return value.value
        return default

    def __getitem__(self, key):
        value = self.get(key)
        if value is None:
            raise KeyError(key)
        return value

    def __contains__(self, key):
        return self.get(key) is not None

    def __delitem__(self, key):
        held = _bytes(key)
        if not _CEDAR.cedar_erase(self._this, held, len(held)):
            raise KeyError(key)

    def erase_all(self, keys):
        """Removes the keys of an iterable in one call, and tells how many of them were held."""
        keys = [_bytes(key) for key in keys]
        array = (_Key * len(keys))(*[(key, len(key)) for key in keys])
        return _CEDAR.cedar_erase_all(self._this, array, len(array), byref(c_bool()), 0)

    def __len__(self):
        return _CEDAR.cedar_len(self._this)

    def items(self):
        """Iterates over all keys with their values, in the order of bytes if the dictionary is ordered."""
        matches = self._walk(_CEDAR.cedar_predictions, b"")
        keys = ctypes.create_string_buffer(sum(length for _, length in matches) or 1)
        _check(_CEDAR.cedar_keys(self._this, keys, len(keys), byref(c_size_t())))
        place, keys = 0, keys.raw
        for value, length in matches:
            yield keys[place : place + length], value
            place += length

    def __iter__(self):
        return (key for key, _ in self.items())

    def _walk(self, walk, text):
        text, room = _bytes(text), 64
        while True:
            matches = (_Match * room)()
            count = walk(self._this, text, len(text), matches, room)
            if count <= room:
                return [(match.value, match.length) for match in matches[:count]]
            room = count

    def prefixes(self, text):
        """Returns the keys that are prefixes of a text, shortest first: for each its value, and how many bytes it has."""
        return self._walk(_CEDAR.cedar_prefixes, text)

    def predictions(self, text):
        """Returns the keys that begin with a text: for each its value, and how many bytes of it follow the text."""
        text = _bytes(text)
        return [(value, length - len(text)) for value, length in self._walk(_CEDAR.cedar_predictions, text)]

    def count_prefix(self, prefix):
        """Returns how many keys begin with a prefix."""
        prefix = _bytes(prefix)
        return _CEDAR.cedar_count_prefix(self._this, prefix, len(prefix))

    def _piece(self, walk, text, start, most):
        if start < 0:
            raise ValueError("the first ones to leave out are 0 or more")
        text, matches = _bytes(text), (_Match * most)()
        count = walk(self._this, text, len(text), byref(c_size_t(min(start, _MAX_SIZE))), matches, most)
        return [(match.value, match.length) for match in matches[:count]]

    def prefixes_from(self, text, start, most):
        """As `prefixes`, without the first `start` of them, and at most `most`."""
        return self._piece(_CEDAR.cedar_prefixes_from, text, start, most)

    def predictions_from(self, text, start, most):
        """As `predictions`, without the first `start` of them, and at most `most`."""
        text = _bytes(text)
        return [(value, length - len(text)) for value, length in self._piece(_CEDAR.cedar_predictions_from, text, start, most)]

    def first_predictions(self, text, most):
        """As `predictions`, at most `most` of them: it goes over no others."""
        text, matches = _bytes(text), (_Match * most)()
        count = _CEDAR.cedar_first_predictions(self._this, text, len(text), matches, most)
        return [(match.value, match.length - len(text)) for match in matches[:count]]

    def page(self, prefix=b"", behind=b"", most=64):
        """Returns a page of at most `most` keys that begin with a prefix and come after another key, with their values, and whether it is the
        last page. It costs what it has, however many keys come before it."""
        prefix, behind = _bytes(prefix), _bytes(behind)
        found, count, needed, room = (_Found * most)(), c_size_t(), c_size_t(), 64 * most
        while True:
            keys = ctypes.create_string_buffer(room)
            status = _CEDAR.cedar_entries_below(self._this, prefix, len(prefix), behind, len(behind), found, most, keys, room, byref(count),
                                                byref(needed))
            if status != _NO_ROOM:
                break
            room = needed.value
        _check(status)
        keys = keys.raw
        return [(keys[one.place : one.place + one.length], one.value) for one in found[: count.value]], needed.value == 0

    def scan(self, text):
        """Returns all keys in a text: position after position, and at each the shortest first."""
        return _everything(_CEDAR.cedar_scan, self._handle, text)

    def segment(self, text):
        """Returns the tokens of a text: at each position the longest key that begins there, or otherwise one byte without a value."""
        return _everything(_CEDAR.cedar_segment, self._handle, text)

    def keywords(self, text):
        """Returns the keywords of a text, which don't overlap: of the keys that begin first the longest, then the same from its end on."""
        return _everything(_CEDAR.cedar_keywords, self._handle, text)

    def cheapest(self, text, unknown, by_characters=False):
        """Returns the tokens of a text whose costs have the least sum: a key costs its value, and a byte without one `unknown`. If
        `by_characters`, a byte that continues a character of UTF-8 costs nothing."""
        if not 0 <= unknown < 2**32:
            raise ValueError("the cost of a byte is 0 to 4294967295")
        text, count = _bytes(text), c_size_t()
        if not text or not self._handle.is_open:
            return Matches([])
        memory = _fresh_memory(len(text) * ctypes.sizeof(_Found))
        found = _Found.from_buffer(memory)
        _check(_CEDAR.cedar_cheapest(self._this, text, len(text), unknown, by_characters, found, len(text), byref(count)))
        return Matches([memoryview(memory)[: count.value * ctypes.sizeof(_Found)]])

    def cheapest_by(self, text, costs, unknown=2**32 - 1, beyond=2**32 - 1, kinds=(), most=24, beside_keys=True):
        """Returns the tokens of a text whose costs have the least sum, by costs beside the values: a key costs `costs[value]`, and `beyond`
        if there is none. What no key covers is cut into runs of `most` characters of one kind at most, which cost `unknown` each and have
        the value None. `kinds` has (first, last, kind) for ranges of characters; one that none has is a run by itself. With `beside_keys`
        a run may begin where a key begins too."""
        if not all(0 <= cost < 2**32 for cost in (unknown, beyond, *costs)):
            raise ValueError("a cost is 0 to 4294967295")
        text, count = _bytes(text), c_size_t()
        if not text or not self._handle.is_open:
            return Matches([])
        table = (c_uint32 * len(costs))(*costs)
        ranges = (_Range * len(kinds))(*kinds)
        memory = _fresh_memory(len(text) * ctypes.sizeof(_Found))
        found = _Found.from_buffer(memory)
        _check(_CEDAR.cedar_cheapest_by(self._this, text, len(text), table, len(costs), beyond, ranges, len(kinds), unknown, most, beside_keys,
                                        found, len(text), byref(count)))
        return Matches([memoryview(memory)[: count.value * ctypes.sizeof(_Found)]])

    def is_reduced(self):
        return _CEDAR.cedar_is_reduced(self._this)

    def used_slots(self):
        return _CEDAR.cedar_used_slots(self._this)

    def capacity(self):
        return _CEDAR.cedar_capacity(self._this)


OVERLAPPING, EARLIEST, LEFTMOST_LONGEST, LEFTMOST_FIRST = range(4)


class Scanner:
    """An automaton of a dictionary, which finds its keys in a text in linear time. It has a copy of the dictionary. `search` says what it
    finds: all keys by their ends (OVERLAPPING), or keys that don't overlap: of those that end first the longest (EARLIEST), of those that
    begin first the longest (LEFTMOST_LONGEST), or the one with the least value (LEFTMOST_FIRST)."""

    def __init__(self, cedar, search=OVERLAPPING):
        self._handle = _Handle()
        _check(_CEDAR.cedar_scanner_new(cedar._this, search, byref(self._handle)))

    def find(self, text):
        """Returns what it finds in a text: for each key where it begins, how many bytes it has, and its value."""
        return _everything(_CEDAR.cedar_scanner_find, self._handle, text)

    def longest(self):
        """Returns how many bytes the longest key has."""
        return _CEDAR.cedar_scanner_longest(byref(self._handle))

    def __del__(self):
        if hasattr(self, "_handle"):
            _CEDAR.cedar_scanner_free(byref(self._handle))

    # A copy of the handle would be freed twice.
    def __copy__(self):
        raise TypeError("a Scanner isn't copied")

    __deepcopy__ = __reduce__ = lambda self, *_: self.__copy__()
