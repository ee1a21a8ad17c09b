"""The class Cedar: what a mapping has, over the calls of the compiled part."""

import sys
from collections.abc import Mapping as AnyMapping
from itertools import chain
from typing import Any, Iterable, Iterator, Literal, Mapping, Tuple, Type, TypeVar, Union, overload

from . import _core
from .files import Source, read_all, refusals_of
from .words import Stats, Words

K = TypeVar("K", bytes, str)
Self = TypeVar("Self", bound="Cedar[Any]")
OfBytes = TypeVar("OfBytes", bound="Cedar[bytes]")
OfTexts = TypeVar("OfTexts", bound="Cedar[str]")
Pairs = Union[Mapping[K, int], Iterable[Tuple[K, int]]]

class Cedar(Words[K]):
    """A mapping from keys to whole numbers from 0 to 2147483645.

    A key is a nonempty `bytes` (a `bytearray` or `memoryview` is taken too), or with `text=True` a nonempty `str`; none has a byte 0.
    `pairs` is a mapping or an iterable of pairs; the last value of a key counts. Iteration gives the keys ascending by bytes, unless
    `ordered=False`. `reduced=True` takes fewer slots. After `max_trial` failed searches for a place a block of slots is closed.

    Threads may share it: calls that read go side by side, and one that changes it has it for itself. Calls that take longer than some
    milliseconds let other threads run.

    >>> d = Cedar({b"net": 7, b"nets": 8})
    >>> d[b"ten"] = 9
    >>> d
    Cedar({b'net': 7, b'nets': 8, b'ten': 9})
    """

    __slots__ = ("__weakref__",)

    @overload
    def __init__(
        self: "Cedar[bytes]",
        pairs: Pairs[bytes] = ...,
        *,
        text: Literal[False] = ...,
        ordered: bool = ...,
        reduced: bool = ...,
        max_trial: int = ...,
    ) -> None: ...

    @overload
    def __init__(
        self: "Cedar[str]",
        pairs: Pairs[str] = ...,
        *,
        text: Literal[True],
        ordered: bool = ...,
        reduced: bool = ...,
        max_trial: int = ...,
    ) -> None: ...

    @overload
    def __init__(
        self: "Cedar[Any]",
        pairs: Pairs[Any] = ...,
        *,
        text: bool,
        ordered: bool = ...,
        reduced: bool = ...,
        max_trial: int = ...,
    ) -> None: ...

    def __init__(
        self, pairs: Pairs[Any] = (), *, text: bool = False, ordered: bool = True, reduced: bool = False, max_trial: int = 1
    ) -> None:
        if ordered:  # sorted and made at once
            self._build_unsorted(text, ordered, reduced, max_trial, _pairs_of(pairs))
        else:  # a build would begin with keys that ascend
            self._open(text, ordered, reduced, max_trial)
            self._update(_pairs_of(pairs))

    # What is made is of the class that makes it: the first two say so of a class with keys of one type, the others of Cedar itself.
    @overload
    @classmethod
    def from_sorted(
        cls: Type[OfBytes],
        pairs: Pairs[bytes],
        *,
        text: Literal[False] = ...,
        ordered: bool = ...,
        reduced: bool = ...,
        max_trial: int = ...,
    ) -> OfBytes: ...

    @overload
    @classmethod
    def from_sorted(
        cls: Type[OfTexts], pairs: Pairs[str], *, text: Literal[True], ordered: bool = ..., reduced: bool = ..., max_trial: int = ...
    ) -> OfTexts: ...

    @overload
    @classmethod
    def from_sorted(
        cls, pairs: Pairs[bytes], *, text: Literal[False] = ..., ordered: bool = ..., reduced: bool = ..., max_trial: int = ...
    ) -> "Cedar[bytes]": ...

    @overload
    @classmethod
    def from_sorted(
        cls, pairs: Pairs[str], *, text: Literal[True], ordered: bool = ..., reduced: bool = ..., max_trial: int = ...
    ) -> "Cedar[str]": ...

    @overload
    @classmethod
    def from_sorted(
        cls, pairs: Pairs[Any], *, text: bool, ordered: bool = ..., reduced: bool = ..., max_trial: int = ...
    ) -> "Cedar[Any]": ...

    @classmethod
    def from_sorted(
        cls, pairs: Pairs[Any], *, text: bool = False, ordered: bool = True, reduced: bool = False, max_trial: int = 1
    ) -> "Cedar[Any]":
        """Returns the dictionary of pairs whose keys ascend by bytes. It is built in one pass, faster than key by key.

        >>> Cedar.from_sorted([(b"net", 7), (b"nets", 8)])[b"nets"]
        8
        """
        made = cls.__new__(cls)
        made._build(text, ordered, reduced, max_trial, _pairs_of(pairs))
        return made

    @overload
    @classmethod
    def load(cls: Type[OfBytes], source: Source, *, text: Literal[False] = ..., memory_limit: int = ...) -> OfBytes: ...

    @overload
    @classmethod
    def load(cls: Type[OfTexts], source: Source, *, text: Literal[True], memory_limit: int = ...) -> OfTexts: ...

    @overload
    @classmethod
    def load(cls, source: Source, *, text: Literal[False] = ..., memory_limit: int = ...) -> "Cedar[bytes]": ...

    @overload
    @classmethod
    def load(cls, source: Source, *, text: Literal[True], memory_limit: int = ...) -> "Cedar[str]": ...

    @overload
    @classmethod
    def load(cls, source: Source, *, text: bool, memory_limit: int = ...) -> "Cedar[Any]": ...

    @classmethod
    def load(cls, source: Source, *, text: bool = False, memory_limit: int = _core.LOAD_LIMIT) -> "Cedar[Any]":
        """Returns a dictionary that was saved, in either layout. `source` is a path, a file opened for bytes, or the bytes.

        A file that is damaged, or needs more memory than the limit, raises CedarError, whose text begins with the path, if that was given.
        With `text=True` its keys have to be UTF-8.

        >>> Cedar.load(Cedar({b"net": 7}).to_bytes())
        Cedar({b'net': 7})
        """
        data = read_all(source, memory_limit)
        with refusals_of(source):
            return _restore(cls, text, data, memory_limit)

    def update(self, pairs: Pairs[K] = (), /, **keywords: int) -> None:  # type: ignore[override]
        """Stores the pairs of a mapping or of an iterable: the last value of a key counts.

        If a pair has a fault, nothing is stored. If memory runs out, or a signal ends the call, the pairs before that are stored.

        >>> d = Cedar(text=True)
        >>> d.update({"net": 7}, ten=9)
        >>> d
        Cedar({'net': 7, 'ten': 9}, text=True)
        """
        self._update(chain(_pairs_of(pairs), keywords.items()) if keywords else _pairs_of(pairs))

    def copy(self: Self) -> Self:
        """Returns an equal dictionary, with the same settings. It is of one state, whatever other threads change meanwhile.

        >>> d = Cedar({b"net": 7})
        >>> d.copy() == d
        True
        """
        return _copied(type(self), self)

    def __repr__(self) -> str:
        return self._shown("", [("text", False), ("ordered", True), ("reduced", False), ("max_trial", 1)])

    def __or__(self: Self, other: Mapping[Any, int]) -> Self:
        if not isinstance(other, AnyMapping):
            return NotImplemented
        return self.copy().__ior__(other)

    def __ror__(self: Self, other: Mapping[Any, int]) -> Self:
        if not isinstance(other, AnyMapping):
            return NotImplemented
        made = type(self)(other, text=self.text, ordered=self.ordered, reduced=self.reduced, max_trial=self.max_trial)
        return made.__ior__(self)

    def __ior__(self: Self, other: Pairs[Any]) -> Self:
        self.update(other)
        return self

    def __copy__(self: Self) -> Self:
        made = self.copy()
        if hasattr(self, "__dict__"):
            made.__dict__.update(self.__dict__)
        return made

    def __reduce__(self) -> Tuple[Any, ...]:
        return _restore, (type(self), self.text, self.to_bytes()), getattr(self, "__dict__", None) or None


def _restore(cls: Type[Self], text: bool, data: bytes, memory_limit: int = sys.maxsize) -> Self:
    """Returns the dictionary of a file's bytes; pickles call it by this name."""
    made = cls.__new__(cls)
    made._load(text, data, memory_limit)
    return made


def _copied(cls: Type[Self], given: _core.Core[Any]) -> Self:
    """Returns a dictionary of a class that is equal to another one, or to what a store holds."""
    made = cls.__new__(cls)
    made._open_copy(given)
    return made


def _name_item(error: Exception, item: str) -> None:
    """Says in the text of an error which item of many has the fault, as the compiled part does."""
    if isinstance(error, UnicodeEncodeError):  # its text is made of its attributes
        error.reason = f"{item}: {error.reason}"
    else:
        error.args = (f"{item}: {error}",)


def _each_pair(pairs: Any) -> Iterator[Tuple[str, Any, Any]]:
    """Gives for each pair what it is called in an error, its key and its value. The errors of the compiled part are the same."""
    for number, given in enumerate(_pairs_of(pairs)):
        try:
            pair = tuple(given)
        except TypeError:
            raise TypeError(f"pair {number} can't be converted to a sequence") from None
        if len(pair) != 2:
            raise ValueError(f"pair {number} has length {len(pair)}; 2 is required")
        key, value = pair
        yield f"pair {number}", key, value


def _store_each(mapping: Any, pairs: Any) -> None:
    """Stores pairs one after another."""
    for item, key, value in _each_pair(pairs):
        try:
            mapping[key] = value
        except (TypeError, ValueError) as error:
            _name_item(error, item)
            raise


def _pairs_of(pairs: Any) -> Iterable[Tuple[Any, Any]]:
    if isinstance(pairs, AnyMapping):
        return pairs.items()
    if hasattr(pairs, "keys"):
        return _pairs_by_key(pairs)
    each: Iterable[Tuple[Any, Any]] = pairs
    return each


def _pairs_by_key(mapping: Any) -> Iterator[Tuple[Any, Any]]:
    for key in mapping.keys():
        yield key, mapping[key]
