"""The class CedarMap: a mapping whose values are any objects, over a Cedar of their numbers."""

import threading
from collections.abc import Mapping as AnyMapping
from itertools import chain
from reprlib import recursive_repr
from typing import Any, Dict, Generic, ItemsView, Iterable, Iterator, KeysView, List, Literal, Mapping, MutableMapping, NamedTuple, Optional
from typing import Tuple, Type, TypeVar, Union, ValuesView, overload

from . import _core
from .cedar import Cedar, _each_pair, _pairs_of, _store_each

K = TypeVar("K", bytes, str)
V = TypeVar("V")
D = TypeVar("D")
Self = TypeVar("Self", bound="CedarMap[Any, Any]")
Given = Union[Mapping[K, V], Iterable[Tuple[K, V]]]

_SHOWN = 20  # keys
_ABSENT: Any = object()


class Found(NamedTuple):
    """What stands in a text: where it begins, how long it is, whether it is a key, and the key's value."""

    place: int
    length: int
    is_key: bool
    value: Any


class CedarMap(MutableMapping[K, V]):
    """A mapping from keys as Cedar takes them to any objects. It finds prefixes, completions, ranges and keys in texts as a Cedar does.

    A Cedar has a number for each key, and a dict the value of each number. A number isn't used again, so that a look-up beside another
    thread's changes never gives the value of another key. Changes take a lock; look-ups take none.

    >>> d = CedarMap({"net": ["a", "list"], "nets": None}, text=True)
    >>> d["ten"] = 1.5
    >>> d.longest_prefix("network")
    ('net', ['a', 'list'])
    >>> list(d.items("t"))
    [('ten', 1.5)]
    """

    __slots__ = ("__weakref__", "_held", "_lock", "_next")
    _held: Tuple[Cedar[K], Dict[int, V]]  # the numbers, and their values: replaced as one

    @overload
    def __init__(self: "CedarMap[bytes, V]", pairs: Given[bytes, V] = ..., *, text: Literal[False] = ..., reduced: bool = ...) -> None: ...

    @overload
    def __init__(self: "CedarMap[str, V]", pairs: Given[str, V] = ..., *, text: Literal[True], reduced: bool = ...) -> None: ...

    @overload
    def __init__(self: "CedarMap[Any, V]", pairs: Given[Any, V] = ..., *, text: bool, reduced: bool = ...) -> None: ...

    def __init__(self, pairs: Given[Any, Any] = (), *, text: bool = False, reduced: bool = False) -> None:
        self._lock = threading.RLock()
        keys: List[Any] = []
        values: List[Any] = []
        for _, key, value in _each_pair(pairs):
            keys.append(key)
            values.append(value)
        ids: Cedar[Any] = Cedar(zip(keys, range(len(keys))), text=text, reduced=reduced)
        self._held = ids, {number: values[number] for number in ids.values()}
        self._next = len(keys)

    @property
    def text(self) -> bool:
        """Whether keys are str."""
        return self._held[0].text

    @property
    def reduced(self) -> bool:
        """Whether the numbers' dictionary is of the reduced layout."""
        return self._held[0].reduced

    # ---- single keys

    def __getitem__(self, key: K) -> V:
        ids, values = self._held
        while True:  # once, unless another thread has removed the key between the two steps
            value = values.get(ids[key], _ABSENT)
            if value is not _ABSENT:
                return value

    @overload
    def get(self, key: K) -> Optional[V]: ...

    @overload
    def get(self, key: K, default: Union[V, D]) -> Union[V, D]: ...

    def get(self, key: K, default: Any = None) -> Any:
        """Returns the value of a key, or the default if the key isn't held.

        >>> CedarMap({b"net": "seven"}).get(b"ten", "none")
        'none'
        """
        ids, values = self._held
        number = ids.get(key)
        return default if number is None else values.get(number, default)

    def __contains__(self, key: object) -> bool:
        return key in self._held[0]

    def __len__(self) -> int:
        return len(self._held[0])

    def __setitem__(self, key: K, value: V) -> None:
        with self._lock:
            number = self._held[0].get(key)
            if number is not None:
                self._held[1][number] = value
                return
            number = self._new_number()
            ids, values = self._held
            values[number] = value
            try:
                ids[key] = number
            except BaseException:
                if ids.get(key) != number:  # a signal's handler may raise once it is stored
                    del values[number]
                raise

    def _new_number(self) -> int:
        """Returns a number that no key has had. If there is none any more, all keys get other numbers."""
        if self._next > _core.MAX_VALUE:
            ids, values = self._held
            pairs = [(key, values[number]) for key, number in ids.items()]
            self._held = (
                Cedar(zip((key for key, _ in pairs), range(len(pairs))), text=ids.text, reduced=ids.reduced),
                dict(enumerate(value for _, value in pairs)),
            )
            self._next = len(pairs)
        self._next += 1
        return self._next - 1

    def __delitem__(self, key: K) -> None:
        with self._lock:
            ids, values = self._held
            number = ids.pop(key)
            del values[number]

    @overload
    def pop(self, key: K) -> V: ...

    @overload
    def pop(self, key: K, default: Union[V, D]) -> Union[V, D]: ...

    def pop(self, key: K, default: Any = _ABSENT) -> Any:
        """Removes a key and returns its value. If it isn't held, returns the default, or raises KeyError without one.

        >>> CedarMap({b"net": "seven"}).pop(b"net")
        'seven'
        """
        with self._lock:
            ids, values = self._held
            number = ids.get(key)
            if number is not None:
                del ids[key]
                return values.pop(number)
        if default is _ABSENT:
            raise KeyError(key)
        return default

    def popitem(self) -> Tuple[K, V]:
        """Removes some key and returns it with its value. An empty mapping raises KeyError."""
        with self._lock:
            ids, values = self._held
            key, number = ids.popitem()
            return key, values.pop(number)

    @overload
    def setdefault(self: "CedarMap[K, Optional[V]]", key: K, default: None = None) -> Optional[V]: ...

    @overload
    def setdefault(self, key: K, default: V) -> V: ...

    def setdefault(self, key: K, default: Any = None) -> Any:
        """Returns the value of a key. If it isn't held, stores the default first."""
        with self._lock:
            if key not in self:
                self[key] = default
            return self[key]

    # ---- many keys

    @overload  # type: ignore[override]  # keys may be bytes beside keywords
    def update(self, pairs: Mapping[K, V], /, **keywords: V) -> None: ...

    @overload
    def update(self, pairs: Iterable[Tuple[K, V]] = ..., /, **keywords: V) -> None: ...

    def update(self, pairs: Any = (), /, **keywords: V) -> None:
        """Stores the pairs of a mapping or of an iterable, one after another: the last value of a key counts.

        If a pair has a fault, those before it are stored.
        """
        _store_each(self, chain(_pairs_of(pairs), keywords.items()))

    def clear(self) -> None:
        """Removes all keys."""
        with self._lock:
            ids, values = self._held
            ids.clear()
            values.clear()

    def erase_prefix(self, prefix: K, /) -> int:
        """Removes all keys that begin with a prefix, and returns how many there were.

        >>> CedarMap({b"net": "a", b"nets": "b", b"ten": "c"}).erase_prefix(b"ne")
        2
        """
        with self._lock:
            ids, values = self._held
            numbers = list(ids.values(prefix))
            ids.erase_prefix(prefix)
            for number in numbers:
                del values[number]
            return len(numbers)

    def copy(self: Self) -> Self:
        """Returns an equal mapping, of the same values. It is of one state, whatever other threads change meanwhile."""
        made = type(self).__new__(type(self))
        made._lock = threading.RLock()
        with self._lock:
            ids, values = self._held
            made._held, made._next = (ids.copy(), values.copy()), self._next
        return made

    # ---- walks

    def __iter__(self) -> Iterator[K]:
        return iter(self._held[0])

    def keys(self, prefix: Optional[K] = None) -> "Keys[K]":
        """Returns a view of the keys, or of those that begin with a prefix."""
        return Keys(self, prefix)

    def values(self, prefix: Optional[K] = None) -> "Values[K, V]":
        """Returns a view of the values, or of those of the keys that begin with a prefix."""
        return Values(self, prefix)

    def items(self, prefix: Optional[K] = None) -> "Items[K, V]":
        """Returns a view of the keys with their values, or of those that begin with a prefix."""
        return Items(self, prefix)

    def irange(
        self, low: Optional[K] = None, high: Optional[K] = None, *, inclusive: Tuple[bool, bool] = (True, False), reverse: bool = False
    ) -> Iterator[K]:
        """Returns an iterator over the keys from `low` on and before `high`, ascending by bytes, or with `reverse` descending. None means no
        bound. `inclusive` says of each bound whether it is one of the keys."""
        return self._held[0].irange(low, high, inclusive=inclusive, reverse=reverse)

    def _pairs(self, prefix: Optional[K]) -> Iterator[Tuple[K, V]]:
        ids, values = self._held
        for key, number in ids.items(prefix):
            value = values.get(number, _ABSENT)
            if value is not _ABSENT:  # another thread has removed it
                yield key, value

    # ---- texts

    def prefixes(self, text: K, /) -> List[Tuple[K, V]]:
        """Returns the keys that a text begins with and their values, shortest first."""
        ids, values = self._held
        found = [(key, values.get(number, _ABSENT)) for key, number in ids.prefixes(text)]
        return [pair for pair in found if pair[1] is not _ABSENT]

    def longest_prefix(self, text: K, /) -> Optional[Tuple[K, V]]:
        """Returns the longest key that a text begins with and its value, or None."""
        ids, values = self._held
        while True:  # once, as in a look-up
            found = ids.longest_prefix(text)
            if found is None:
                return None
            value = values.get(found[1], _ABSENT)
            if value is not _ABSENT:
                return found[0], value

    def scan(self, text: K, /) -> Iterator[Found]:
        """Gives all keys in a text: position after position, and at each the shortest first.

        >>> [tuple(f) for f in CedarMap({b"net": "a", b"nets": "b"}).scan(b"a nets")]
        [(2, 3, True, 'a'), (2, 4, True, 'b')]
        """
        ids, values = self._held
        return _found(ids.scan(text), values)

    def segment(self, text: K, /) -> Iterator[Found]:
        """Gives the tokens of a text: at each position the longest key, or otherwise one byte (with text=True one character).

        >>> [tuple(f) for f in CedarMap({b"net": "a", b"nets": "b"}).segment(b"nets!")]
        [(0, 4, True, 'b'), (4, 1, False, None)]
        """
        ids, values = self._held
        return _found(ids.segment(text), values)

    def keywords(self, text: K, /) -> Iterator[Found]:
        """Gives the keywords of a text, which don't overlap: of the keys that begin first the longest, then the same from its end on."""
        ids, values = self._held
        return _found(ids.keywords(text), values)

    # ---- the whole

    @recursive_repr("CedarMap(...)")
    def __repr__(self) -> str:
        if len(self) > _SHOWN:
            return f"<{type(self).__name__} of {len(self)} keys>"
        told = "".join(f", {name}=True" for name in ("text", "reduced") if getattr(self, name))
        return f"{type(self).__name__}({dict(self.items())}{told})"

    def __or__(self: Self, other: Mapping[Any, Any]) -> Self:
        if not isinstance(other, AnyMapping):
            return NotImplemented
        return self.copy().__ior__(other)

    def __ror__(self: Self, other: Mapping[Any, Any]) -> Self:
        if not isinstance(other, AnyMapping):
            return NotImplemented
        return _restore(type(self), self.text, self.reduced).__ior__(other).__ior__(self)

    def __ior__(self: Self, other: Given[Any, Any]) -> Self:
        self.update(other)
        return self

    def __reduce__(self) -> Tuple[Any, ...]:
        # The pairs come last, so that a mapping may have itself as a value.
        return _restore, (type(self), self.text, self.reduced), getattr(self, "__dict__", None) or None, None, iter(list(self.items()))

    def __copy__(self: Self) -> Self:
        made = self.copy()
        if hasattr(self, "__dict__"):
            made.__dict__.update(self.__dict__)
        return made


def _restore(cls: Type[Self], text: bool, reduced: bool) -> Self:
    """Returns an empty mapping; pickles call it by this name."""
    made = cls.__new__(cls)
    CedarMap.__init__(made, text=text, reduced=reduced)
    return made


def _found(matches: _core.Matches, values: Dict[int, Any]) -> Iterator[Found]:
    for place, length, number in matches:
        if number is None:
            yield Found(place, length, False, None)
            continue
        value = values.get(number, _ABSENT)
        if value is not _ABSENT:
            yield Found(place, length, True, value)


class _View(Generic[K, V]):
    """What the three have in common: a mapping and a prefix, or None."""

    __slots__ = ()
    _mapping: CedarMap[K, V]
    _prefix: Optional[K]

    def __init__(self, mapping: CedarMap[K, V], prefix: Optional[K]) -> None:
        self._mapping = mapping  # type: ignore[misc]  # the three have the slots
        self._prefix = prefix  # type: ignore[misc]

    def _ids(self) -> KeysView[K]:
        return self._mapping._held[0].keys(self._prefix)

    def __len__(self) -> int:
        return len(self._ids())

    def __repr__(self) -> str:
        shown: Iterable[Any] = self  # type: ignore[assignment]  # the three are iterables
        return f"{type(self).__name__}({list(shown)})"


class Keys(_View[K, Any], KeysView[K]):
    """The keys."""

    __slots__ = ("_prefix",)

    def __iter__(self) -> Iterator[K]:
        return iter(self._ids())

    def __contains__(self, key: object) -> bool:
        return key in self._ids()


class Values(_View[K, V], ValuesView[V]):
    """The values, in the order of the keys."""

    __slots__ = ("_prefix",)

    def __iter__(self) -> Iterator[V]:
        return (value for _, value in self._mapping._pairs(self._prefix))

    def __contains__(self, value: object) -> bool:
        return any(held is value or held == value for held in self)


class Items(_View[K, V], ItemsView[K, V]):
    """The keys with their values."""

    __slots__ = ("_prefix",)

    def __iter__(self) -> Iterator[Tuple[K, V]]:
        return self._mapping._pairs(self._prefix)

    def __contains__(self, item: object) -> bool:
        if not (isinstance(item, tuple) and len(item) == 2 and item[0] in self._ids()):
            return False
        held = self._mapping.get(item[0], _ABSENT)
        return bool(held is item[1] or held == item[1])
