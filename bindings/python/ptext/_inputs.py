"""The kinds of inputs, in pieces of bytes."""
from __future__ import annotations

import codecs
import contextlib
import io
import os
from collections.abc import AsyncIterable, AsyncIterator, Iterable, Iterator, Mapping
from typing import TYPE_CHECKING, Any, Callable, Protocol, TypeVar, Union

if TYPE_CHECKING:
    # (Not every type checker knows `Buffer` of typing_extensions.)
    from _typeshed import ReadableBuffer as Buffer

Name = TypeVar("Name", bound=Union[str, "os.PathLike[str]"])
_Given = TypeVar("_Given")
PIECE = 1 << 18
TEXTS = (io.TextIOBase, codecs.StreamReader, codecs.StreamWriter, codecs.StreamReaderWriter)
TAKEN = "bytes or another buffer, a str, a pathlib.Path, a file open in binary mode, or an iterable of bytes"


class Readable(Protocol):
    """A file that is open in binary mode, or another object with `read`."""

    def read(self, size: int, /) -> bytes: ...


Input = Union["Buffer", str, "os.PathLike[str]", Readable, Iterable["Buffer"]]
"""Bytes or another buffer (`bytearray`, `memoryview`, `mmap`, an array), a text (as UTF-8), a path, which is opened, an
open file in binary mode, or an iterable of bytes in their order."""
AsyncInput = AsyncIterable["Buffer"]
"""What gives bytes when it is awaited: an async iterator, or a file whose `read` is a coroutine."""


def check_files(files: Mapping[Any, _Given] | None) -> Mapping[str, _Given]:
    """The inputs by their names, which may be paths."""
    if not isinstance(files, (Mapping, type(None))):
        raise TypeError(f"files is {type(files).__name__}, and not a mapping from names to inputs")
    if any(isinstance(name, os.PathLike) for name in files or ()):
        return {os.fspath(name): given for name, given in (files or {}).items()}
    return files or {}


def is_buffer(given: object) -> bool:
    try:
        memoryview(given)  # type: ignore[arg-type]
    except TypeError:
        return False
    return True


def is_read_once(given: Input | AsyncInput) -> bool:
    """Whether the bytes of an input can be had only once."""
    if isinstance(given, (str, os.PathLike)) or is_buffer(given):
        return False
    return hasattr(given, "read") or isinstance(given, (Iterator, AsyncIterator))


def refuse_text(what: str, given: object) -> None:
    if isinstance(given, TEXTS):
        raise TypeError(f"{what} is a file in text mode: open it in binary mode ('rb', 'wb')")


def open_path(given: Input, stack: contextlib.ExitStack) -> Input:
    """Opens a path, until the stack is closed."""
    if isinstance(given, os.PathLike):
        return stack.enter_context(open(given, "rb", buffering=0))
    return given


def _check_piece(what: str, piece: Any) -> Buffer:
    if not is_buffer(piece):
        raise TypeError(f"{what} gave {type(piece).__name__}, and not bytes")
    return piece  # type: ignore[no-any-return]


def _count_bytes(what: str, count: Any) -> int:
    if count is None:
        raise BlockingIOError(f"{what} has no bytes yet: it may not be in non-blocking mode")
    return int(count)


def _has_own(given: Input, base: type, *calls: str) -> bool:
    """Whether a file of a class of `io` has one of these calls. (In the class itself they only fail.)"""
    found = [(getattr(type(given), call, None), getattr(base, call, None)) for call in calls]
    return isinstance(given, base) and any(own is not none for own, none in found)


def find_read_into(given: Input) -> Callable[[memoryview], int | None] | None:
    """The call by which a file of `io` fills a buffer, if it has one."""
    if _has_own(given, io.RawIOBase, "readinto"):
        return given.readinto  # type: ignore[union-attr,no-any-return]
    if _has_own(given, io.BufferedIOBase, "readinto1", "read1"):
        return given.readinto1  # type: ignore[union-attr,no-any-return]
    return None


def fill(what: str, read_into: Callable[[memoryview], int | None], room: memoryview) -> int:
    """Has a file of `io` fill a buffer. Returns the number of bytes that it gave, which is 0 at its end."""
    count = _count_bytes(what, read_into(room))
    if not 0 <= count <= len(room):
        raise OSError(f"{what} gave {count} bytes, and there is room for {len(room)}")
    return count


def _fill_pieces(what: str, read_into: Callable[[memoryview], int | None]) -> Iterator[Buffer]:
    # (A piece is used until the next one is wanted, so all of them can lie in one buffer.)
    room = memoryview(bytearray(PIECE))
    while count := fill(what, read_into, room):
        yield room[:count]


def _read_pieces(what: str, file: Any) -> Iterator[Buffer]:
    # (Where there is `read1`, `read` waits for all that it was asked for. That of BufferedIOBase only fails.)
    read = file.read if isinstance(file, io.BufferedIOBase) else getattr(file, "read1", None) or file.read
    while True:
        piece = read(PIECE)
        if not _count_bytes(what, None if piece is None else len(_check_piece(what, piece))):  # type: ignore[arg-type]
            return
        yield piece


def list_pieces(what: str, given: Input) -> Iterator[Buffer]:
    """The pieces of an input that is no path. `what` is its name in messages."""
    if isinstance(given, str):
        return iter((given.encode(),))
    if is_buffer(given):
        return iter((given,))  # type: ignore[arg-type]
    refuse_text(what, given)
    if read_into := find_read_into(given):
        return _fill_pieces(what, read_into)
    if hasattr(given, "read"):
        return _read_pieces(what, given)
    if isinstance(given, Iterable):
        return (_check_piece(what, piece) for piece in given)
    raise TypeError(f"{what} is {type(given).__name__}, and not {TAKEN}")


def is_async(given: object) -> bool:
    return isinstance(given, AsyncIterable) and not isinstance(given, Iterable)


async def list_async_pieces(what: str, given: AsyncInput) -> AsyncIterator[Buffer]:
    """The pieces of an input that is awaited."""
    import inspect

    read = getattr(given, "read", None)
    if not inspect.iscoroutinefunction(read):
        async for piece in given:
            yield _check_piece(what, piece)
        return
    # (As an iterator, such a file gives lines.)
    while piece := _check_piece(what, await read(PIECE)):
        yield piece


def read_all(what: str, given: Input) -> bytes:
    """All bytes of an input."""
    if isinstance(given, bytes):
        return given
    with contextlib.ExitStack() as stack:
        pieces = list_pieces(what, open_path(given, stack))
        # (A buffer that is not contiguous cannot be joined.)
        return b"".join(piece if isinstance(piece, bytes) else memoryview(piece).tobytes() for piece in pieces)
