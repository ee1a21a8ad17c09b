"""What keys(), values() and items() return: views of a dictionary, or of its keys that begin with a prefix."""

from typing import TYPE_CHECKING, Any, Generic, ItemsView, Iterable, Iterator, KeysView, Optional, Tuple, TypeVar, ValuesView

if TYPE_CHECKING:
    from .words import Words

K = TypeVar("K", bytes, str)

KEYS, _VALUES, _ITEMS = range(3)


class _View(Generic[K]):
    """What the three have in common: a dictionary and a prefix, or None."""

    __slots__ = ()
    _mapping: "Words[K]"
    _prefix: Optional[K]

    def __init__(self, cedar: "Words[K]", prefix: Optional[K] = None) -> None:
        self._mapping = cedar  # type: ignore[misc]  # the three have both slots
        self._prefix = prefix  # type: ignore[misc]

    def __len__(self) -> int:
        return len(self._mapping) if self._prefix is None else self._mapping._count(self._prefix)

    def __repr__(self) -> str:
        shown: Iterable[Any] = self  # type: ignore[assignment]  # the three are iterables
        return f"{type(self).__name__}({list(shown)})"

    def _has_prefix(self, key: Any) -> bool:
        return self._prefix is None or key[: len(self._prefix)] == self._prefix


class Keys(_View[K], KeysView[K]):
    """The keys."""

    __slots__ = ("_prefix",)

    def __iter__(self) -> Iterator[K]:
        return self._mapping._walk(self._prefix, KEYS)

    def __contains__(self, key: object) -> bool:
        return key in self._mapping and self._has_prefix(key)


class Values(_View[K], ValuesView[int]):
    """The values, in the order of the keys."""

    __slots__ = ("_prefix",)

    def __iter__(self) -> Iterator[int]:
        return self._mapping._walk(self._prefix, _VALUES)

    def __contains__(self, value: object) -> bool:
        return any(held == value for held in self)


class Items(_View[K], ItemsView[K, int]):
    """The keys with their values."""

    __slots__ = ("_prefix",)

    def __iter__(self) -> Iterator[Tuple[K, int]]:
        return self._mapping._walk(self._prefix, _ITEMS)

    def __contains__(self, item: object) -> bool:
        if not (isinstance(item, tuple) and len(item) == 2):
            return False
        key, value = item  # type: Tuple[Any, Any]
        return key in self._mapping and self._mapping.get(key) == value and value is not None and self._has_prefix(key)
