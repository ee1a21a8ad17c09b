"""The class Store: a mapping whose changes are in a file before they are acknowledged."""

import os
from contextlib import contextmanager
from itertools import chain
from typing import Any, Iterable, Iterator, Literal, Optional, Tuple, TypeVar, Union, overload

from . import _core
from .cedar import Cedar, Pairs, _copied, _name_item, _pairs_of, _store_each
from .files import refusals_of
from .words import Words

K = TypeVar("K", bytes, str)
Self = TypeVar("Self", bound="Store[Any]")
Path = Union[str, "os.PathLike[str]"]
Mode = Literal["c", "w", "x", "r"]

_MODES = {"c": 0, "w": _core.OPEN_EXISTING, "x": _core.OPEN_NEW, "r": _core.OPEN_TO_READ}


class Store(Words[K]):
    """A mapping like Cedar, kept in the file at a path.

    Once a change returns, it is on the disk, and no crash of the process or the machine takes it away. A change that a crash interrupts is
    there as a whole or not at all. Each change waits for the disk, and the file grows by each, until a change compacts it (`compaction`).

    `mode` says how the file is opened: "c" creates a missing one, "w" wants one, "x" creates one and wants none, and "r" only reads.
    Otherwise a missing file raises FileNotFoundError, and one that is there FileExistsError.

    As long as it is open the store is locked. Whoever opens it meanwhile, also in this process, gets a CedarError with the status 47. With
    "r" there is no lock: the file isn't written, and may be changed by another program meanwhile. The mapping has what was on the disk when
    it was opened, and each change of it raises CedarError with the status 48. A forked child writes nothing: what would write raises a
    CedarError with the status 47, and a change that waits never comes to the disk.

    With sync_every=n a change waits until n of them go to the disk as one; with 0 it waits for sync(). A crash takes away those that wait,
    all of them or none, and no others. batch() makes the changes of a block as one, or none of them.

    A file with a record that somebody else has changed raises a CedarError with the status 46, whose text says where that record begins.
    The text of each CedarError by which an opening is refused begins with the path, and an OSError of an opening has it in `filename`. If
    whole records may be in what an opening cuts off, it keeps that in a file beside this one, whose path is in `kept`.

    A call on the file that fails raises OSError. From then on each change raises CedarError and changes nothing, and look-ups go on, until
    compact() has written all to a new file. If the disk only has no room for a change, the OSError says so, and `failed` stays false: the
    change isn't made, or goes on waiting with others, and the store goes on.

    >>> import os, tempfile
    >>> folder = tempfile.TemporaryDirectory()
    >>> path = os.path.join(folder.name, "words.store")
    >>> with Store(path) as s:
    ...     s[b"net"] = 7
    ...     s[b"nets"] = 8
    ...     del s[b"net"]
    >>> with Store(path) as s:
    ...     dict(s)
    {b'nets': 8}
    >>> folder.cleanup()
    """

    __slots__ = ("__weakref__", "_compaction_now", "_mode", "_sync_every_now", "path")
    path: str
    _mode: Mode

    @overload
    def __init__(
        self: "Store[bytes]", path: Path, *, text: Literal[False] = ..., reduced: bool = ..., sync_every: int = ..., mode: Mode = ...
    ) -> None: ...

    @overload
    def __init__(
        self: "Store[str]", path: Path, *, text: Literal[True], reduced: bool = ..., sync_every: int = ..., mode: Mode = ...
    ) -> None: ...

    @overload
    def __init__(self: "Store[Any]", path: Path, *, text: bool, reduced: bool = ..., sync_every: int = ..., mode: Mode = ...) -> None: ...

    def __init__(self, path: Path, *, text: bool = False, reduced: bool = False, sync_every: int = 1, mode: Mode = "c") -> None:
        if mode not in _MODES:
            raise ValueError(f"a mode is one of {', '.join(map(repr, _MODES))}, and not {mode!r}")
        self.path = os.fspath(path)
        with refusals_of(self.path):
            self._open_store(os.fsencode(self.path), text, reduced, _MODES[mode])
        self._mode = mode
        self.sync_every = sync_every
        self.compaction = (2, 65536)

    @property
    def kept(self) -> Optional[str]:
        """The path of the file that keeps what the opening cut off, if whole records may be in that: then somebody else has changed the
        file, and these changes aren't in the mapping. `./roskvidh recover` makes a store of them."""
        path = self._kept()
        return None if path is None else os.fsdecode(path)

    @property
    def mode(self) -> Mode:
        """How it was opened: "c", "w", "x" or "r"."""
        return self._mode

    @property
    def sync_every(self) -> int:
        """How many changes go to the disk together. With 0 they wait for sync(). Setting it puts those that wait on the disk."""
        return self._sync_every_now

    @sync_every.setter
    def sync_every(self, changes: int) -> None:
        self._sync_every(changes)
        self._sync_every_now = changes

    @property
    def waiting(self) -> int:
        """How many changes wait for the disk, or for the ends of this thread's blocks."""
        return self._waiting()

    def sync(self) -> None:
        """Puts the changes that wait on the disk as one: a crash leaves all of them or none. If none waits it does nothing."""
        self._sync()

    @contextmanager
    def batch(self) -> Iterator[None]:
        """Makes the changes of a block as one when it ends: they are on the disk then, whatever sync_every says, and a crash leaves all of
        them or none. If the block ends by an exception none of them is made.

        Within the block its thread sees its own changes, but for searches in texts (prefixes, longest_prefix, scan, segment, keywords,
        cheapest), copies and saves: these show the store as it was before the block, and so do all calls of other threads. What other
        threads change meanwhile isn't of the block. A block in a block is a part of it: what it changes is made with the outer block's
        changes, or dropped by itself. A block is one thread's: with asyncio don't await within it.

        >>> import os, tempfile
        >>> with tempfile.TemporaryDirectory() as folder, Store(os.path.join(folder, "words.store")) as s:
        ...     with s.batch():
        ...         s[b"net"] = 7
        ...         s[b"nets"] = 8
        ...         s.waiting, dict(s)
        ...     s.waiting, len(s)
        ...     try:
        ...         with s.batch():
        ...             del s[b"net"]
        ...             raise KeyError
        ...     except KeyError:
        ...         dict(s)
        (2, {b'net': 7, b'nets': 8})
        (0, 2)
        {b'net': 7, b'nets': 8}
        """
        block = self._begin_block()
        try:
            yield
        except BaseException:
            self._end_block(block, False)
            raise
        self._end_block(block, True)

    def compact(self) -> None:
        """Replaces the file by one that has the entries alone. A store that has failed in a change goes on then, with all that it holds.

        After an OSError the old file is there, and the store is as it was, unless the new file couldn't be given the name or its folder
        couldn't be put on the disk. Then the store has failed for good: open it again, and compact it before anything else.

        >>> import os, tempfile
        >>> with tempfile.TemporaryDirectory() as folder, Store(os.path.join(folder, "words.store")) as s:
        ...     s[b"net"] = 7
        ...     s[b"net"] = 8
        ...     before = s.file_size
        ...     s.compact()
        ...     s.file_size < before, dict(s)
        (True, {b'net': 8})
        """
        self._compact()

    @property
    def compaction(self) -> Optional[Tuple[int, int]]:
        """When a change compacts the file, last: if it has more than so many times the bytes that compact() would leave, and so many bytes
        more. None: never. A compaction that fails is no error of the change: last_compaction tells it."""
        return self._compaction_now

    @compaction.setter
    def compaction(self, beyond: Optional[Tuple[int, int]]) -> None:
        factor, spare = beyond or (0, 0)
        self._compact_beyond(factor, spare)
        self._compaction_now = (factor, spare) if factor else None

    @property
    def last_compaction(self) -> int:
        """The status of the last compaction since the store was opened, called or by itself: 0 if it was done, or if there was none."""
        return self._file_figures()[1]

    @property
    def file_size(self) -> int:
        """How many bytes the file has, without changes that wait."""
        return self._file_figures()[0]

    @property
    def records(self) -> int:
        """How many records the file has, without changes that wait. A change is one, and so are changes that went to the disk together, as
        those of a block. compact() leaves one for each 4 MiB of entries. A change that has failed on the disk isn't counted."""
        return self._file_figures()[2]

    def compacted_size(self) -> int:
        """Returns how many bytes the file would have behind a compaction. It takes the time of all entries."""
        return self._compacted_size()

    def close(self) -> None:
        """Puts the changes that wait on the disk, and closes the file. Does nothing if the store is closed."""
        try:
            if not self.closed and not self.failed:
                self.sync()
        finally:
            super().close()

    @property
    def failed(self) -> bool:
        """Whether a change has failed on the disk."""
        return self._has_failed()

    def update(self, pairs: Pairs[K] = (), /, **keywords: int) -> None:  # type: ignore[override]
        """Stores the pairs of a mapping or of an iterable as a batch: the last value of a key counts. If one is refused, none is stored."""
        with self.batch():
            _store_each(self, chain(_pairs_of(pairs), keywords.items()))

    def clear(self) -> None:
        """Removes all keys, as a batch."""
        with self.batch():
            for key in list(self):
                self.pop(key, None)

    def erase_prefix(self, prefix: K, /) -> int:
        """Removes each key that begins with a prefix, as a batch, and returns how many there were."""
        with self.batch():
            return sum(self.pop(key, None) is not None for key in self.keys(prefix))

    def popitem(self) -> Tuple[K, int]:
        """Removes some key and returns it with its value. An empty store raises KeyError."""
        if not self._is_in_block():
            pair: Tuple[Any, int] = super().popitem()
            return pair
        first: Any = next(iter(self), None)
        if first is None:
            raise KeyError("popitem(): dictionary is empty")
        return first, self.pop(first)

    def erase_all(self, keys: Iterable[K], /) -> int:
        """Removes the keys of an iterable, as a batch, and returns how many of them were held."""
        listed, erased = list(keys), 0
        with self.batch():
            for number, key in enumerate(listed):
                try:
                    erased += self.pop(key, None) is not None
                except (TypeError, ValueError) as error:
                    _name_item(error, f"key {number}")
                    raise
        return erased

    def copy(self) -> "Cedar[K]":
        """Returns an equal Cedar, without a file."""
        of_keys: Any = Cedar
        made: Cedar[K] = _copied(of_keys, self)
        return made

    def __repr__(self) -> str:
        return self._shown(repr(self.path), [("text", False), ("reduced", False)])

    def __or__(self, other: Any) -> "Cedar[K]":
        made: Cedar[K] = self.copy() | other
        return made

    def __ror__(self, other: Any) -> "Cedar[K]":
        return Cedar(other, text=self.text, reduced=self.reduced) | self

    def __ior__(self: Self, other: Pairs[Any]) -> Self:  # type: ignore[misc]  # the store itself, and no Cedar
        self.update(other)
        return self

    def __reduce__(self) -> Any:
        raise TypeError("a store isn't copied: copy() returns its keys and values")
