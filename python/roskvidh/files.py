"""Files: reading one as a whole, and replacing one by another."""

import errno
import os
import stat
from contextlib import contextmanager
from typing import IO, Any, Iterator, List, Union

from . import _core

Source = Union[str, "os.PathLike[str]", IO[bytes], bytes, bytearray, memoryview]
Target = Union[str, "os.PathLike[str]", IO[bytes]]


# A load within its limit of memory takes fewer bytes than the limit and a header: so one byte more tells that a file isn't such.
_BEYOND = 89
_PIECE = 1 << 16


def read_all(source: Any, memory_limit: int) -> bytes:
    """Returns the bytes of a path, as far as a load with this limit needs them, of an open file, or of bytes."""
    if isinstance(source, (bytes, bytearray, memoryview)):
        return bytes(source)
    if hasattr(source, "read"):
        data = source.read()
        if not isinstance(data, bytes):
            raise TypeError("the file has to be open for bytes")
        return data
    with open(os.fspath(source), "rb") as file:
        return _read(file, memory_limit + _BEYOND)


@contextmanager
def refusals_of(source: Any) -> Iterator[None]:
    """Puts the path, if `source` is one, before the text of a ValueError, by which what is there is refused."""
    try:
        yield
    except ValueError as error:
        if isinstance(source, (str, os.PathLike)):
            error.args = (f"{os.fsdecode(source)}: {error}",)
        raise


def _read(file: IO[bytes], most: int) -> bytes:
    """Reads a file to its end, or until it has so many bytes."""
    parts: List[bytes] = []
    piece = max(_PIECE, os.fstat(file.fileno()).st_size + 1)
    while most > 0:
        part = file.read(min(piece, most))
        if not part:
            break
        parts.append(part)
        most -= len(part)
    return b"".join(parts)


def write_all(target: Any, data: bytes) -> None:
    """Writes bytes to an open file, or to a path, whose old file is replaced once the new one is whole and on the disk."""
    if hasattr(target, "write"):
        _write(target, data)
        return
    path = os.fspath(target)
    if _is_special(path):
        # Python's own calls, which a signal can end while they wait for a reader.
        with open(path, "wb", buffering=0, opener=_open_special) as file:
            _write(file, data)
    else:
        _replace(path, data)


def _is_special(path: str) -> bool:
    """Whether a pipe, a device or another thing that isn't a file is at a path."""
    return os.path.exists(path) and not os.path.isfile(path)


def _open_special(path: str, _flags: int) -> int:
    """Opens what isn't a file as it is. A file that has come to the path meanwhile isn't cut."""
    opened = os.open(path, os.O_WRONLY)
    if stat.S_ISREG(os.fstat(opened).st_mode):
        os.close(opened)
        raise OSError(errno.ENOTSUP, os.strerror(errno.ENOTSUP), path)
    return opened


def _write(file: Any, data: bytes) -> None:
    # A raw file may take a part; one that answers no number took all.
    rest = memoryview(data)
    while len(rest) > 0:
        written = file.write(rest)
        rest = rest[len(rest) if written is None else written :]


def _replace(path: str, data: bytes) -> None:
    """Replaces the file where links at a path lead to."""
    _core.replace_file(os.fsencode(os.path.realpath(path)), data)
