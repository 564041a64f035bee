"""Runs over streams, in constant memory: step by step, with neither threads nor calls from C into Python; and over the
descriptors of a process."""
from __future__ import annotations

import contextlib
import ctypes
import io
import sys
import threading
from collections.abc import AsyncIterator, Iterable, Iterator, Mapping
from typing import Any, Callable, Protocol, TypeVar, Union, overload

from ._inputs import (
    AsyncInput,
    Input,
    Name,
    check_files,
    find_read_into,
    is_async,
    is_read_once,
    list_async_pieces,
    list_pieces,
    open_path,
    refuse_text,
)
from ._library import LIBRARY, check_status, encode_words, find_unknown, list_words, names
from ._sources import Awaited, Filled, Pieces, Source

_Piece = TypeVar("_Piece")
READ, WRITE, ENDED = 1, 2, 3
INPUT, OUTPUT, FIRST_FILE = 0, 1, 3
# The most bytes of a piece of the output.
COLLECTED = 1 << 16


AnyInput = Union[Input, AsyncInput]


class Writable(Protocol):
    """A file that is open in binary mode, or another object with `write`."""

    def write(self, data: bytes, /) -> Any: ...


class _Step(ctypes.Structure):
    _fields_ = [
        ("wants", ctypes.c_int),
        ("stream", ctypes.c_uint32),
        ("bytes", ctypes.c_void_p),
        ("size", ctypes.c_size_t),
        ("status", ctypes.c_uint8),
    ]


class Options(ctypes.Structure):
    _fields_ = [
        ("size", ctypes.c_size_t),
        ("opened", ctypes.c_char_p),
        ("files", ctypes.c_size_t),
        ("memory", ctypes.c_size_t),
        ("flush", ctypes.c_void_p),
    ]

    def __init__(self, opened: bytes, memory: int = 0) -> None:
        super().__init__(ctypes.sizeof(self), opened, len(opened), memory, None)


_WORDS = [ctypes.c_char_p, ctypes.c_size_t]
_STREAM, _OPEN, _NEXT, _CLOSE = LIBRARY.ptext_stream, LIBRARY.ptext_open, LIBRARY.ptext_next, LIBRARY.ptext_close
_STREAM.restype = ctypes.c_uint8
_STREAM.argtypes = [*_WORDS, *[ctypes.c_void_p] * 3, ctypes.POINTER(Options)]
_OPEN.restype = ctypes.c_void_p
_OPEN.argtypes = [*_WORDS, ctypes.POINTER(Options)]
_NEXT.restype = ctypes.c_int
_NEXT.argtypes = [ctypes.c_void_p, ctypes.POINTER(_Step)]
_CLOSE.restype = None
_CLOSE.argtypes = [ctypes.c_void_p]
_VIEW = ctypes.pythonapi.PyMemoryView_FromMemory
_VIEW.restype = ctypes.py_object
_VIEW.argtypes = [ctypes.c_void_p, ctypes.c_ssize_t, ctypes.c_int]
_TO_READ = 0x100  # PyBUF_READ


class Stream(Iterator[bytes], AsyncIterator[bytes]):
    """The output of a command, piece by piece. `stream` makes it."""

    _run = None
    _is_dropped = False

    def __init__(
        self, words: Iterable[str], stdin: AnyInput, files: Mapping[Name, AnyInput] | None, memory: int | None
    ) -> None:
        if memory is not None and not isinstance(memory, int):
            raise TypeError(f"`memory` is {type(memory).__name__}, and not a number of bytes or None")
        if memory is not None and memory < 1:
            raise ValueError("`memory` is a number of bytes above 0, or None")
        words, named = list_words(words), check_files(files)
        encoded, read = encode_words(words), names(words)[0]
        self._unknown = find_unknown(read, named)
        self._step, self._lock, self._messages = _Step(), threading.Lock(), bytearray()
        self._stack = contextlib.ExitStack()
        try:
            self._sources = {INPUT: self._open("stdin", stdin)}
            taken = [stdin]
            for number, name in enumerate(read, FIRST_FILE):
                given = named.get(name)
                if given is None:
                    continue
                if is_read_once(given) and any(given is one for one in taken):
                    raise ValueError(f"what `files` has for {name} is an input twice, and can be read only once")
                taken.append(given)
                self._sources[number] = self._open(f"files[{name!r}]", given)
            self._is_awaited = any(isinstance(source, Awaited) for source in self._sources.values())
            opened = bytes(number in self._sources for number in range(FIRST_FILE, FIRST_FILE + len(read)))
            options = Options(opened, min(memory or 0, sys.maxsize))
            self._run = _OPEN(encoded, len(encoded), options)
            if not self._run:
                raise MemoryError("ptext: out of memory")
        except BaseException:
            self.close()
            raise

    def _open(self, what: str, given: Any) -> Source:
        if given._is_awaited if isinstance(given, Stream) else is_async(given):
            pieces: Pieces = Awaited(list_async_pieces(what, given))
        else:
            given = open_path(given, self._stack)
            if read_into := find_read_into(given):
                return Filled(what, read_into)
            pieces = Pieces(list_pieces(what, given))
        self._stack.callback(pieces.release)
        return pieces

    def __next__(self) -> bytes:
        piece = self._next(ctypes.string_at)
        if piece is None:
            raise StopIteration
        return piece

    def __aiter__(self) -> Stream:
        return self

    async def __anext__(self) -> bytes:
        import asyncio

        try:
            piece = self._go_on(ctypes.string_at, is_in_loop=True)
            while isinstance(piece, Source):
                if isinstance(piece, Awaited):
                    with self._use():
                        await piece.wait()
                    piece = self._go_on(ctypes.string_at, is_in_loop=True)
                else:
                    piece = await asyncio.to_thread(lambda: self._go_on(ctypes.string_at))
        except (asyncio.CancelledError, GeneratorExit):
            self._drop()
            raise
        if piece is None:
            raise StopAsyncIteration
        return piece

    def file(self) -> io.BufferedReader:
        """The output as a file in binary mode, as `csv` (by `io.TextIOWrapper`), `gzip` and pandas read one. To close
        it is to close the stream."""
        return io.BufferedReader(_Output(self), COLLECTED)

    @contextlib.contextmanager
    def _use(self) -> Iterator[None]:
        """Lets nobody else use the stream meanwhile. What is raised ends the command."""
        if not self._lock.acquire(blocking=False):
            raise ValueError("the stream is in use: by another thread, or by one of its own inputs")
        try:
            yield
        except BaseException:
            self._free()
            raise
        finally:
            self._lock.release()
            if self._is_dropped:
                self._drop()

    def _next(self, take: Callable[[int, int], _Piece]) -> _Piece | None:
        """The next piece of the output, as it is taken from its address and size, or None at the end."""
        piece = self._go_on(take)
        if isinstance(piece, Source):
            self.close()
            raise TypeError("an input is async: so is the stream (`async for`)")
        return piece

    def _go_on(self, take: Callable[[int, int], _Piece], is_in_loop: bool = False) -> _Piece | Source | None:
        """As `_next`, or an input that has to be awaited first, or whose bytes an event loop may not wait for."""
        if self._is_dropped:
            return None
        with self._use():
            while self._run and not self._is_dropped:
                if self._step.wants == READ:
                    source = self._sources[self._step.stream]
                    if source.lacks() if isinstance(source, Awaited) else is_in_loop:
                        return source
                    self._step.bytes, self._step.size = source.take()
                wants = _NEXT(self._run, self._step)
                if wants == ENDED:
                    self._free()
                    check_status(self._step.status, bytes(self._messages), b"", self._unknown)
                elif self._step.stream == OUTPUT and wants == WRITE:
                    return take(self._step.bytes, self._step.size)
                elif wants == WRITE:
                    self._messages += ctypes.string_at(self._step.bytes, self._step.size)
        return None

    def _write_to(self, out: Writable) -> None:
        """Writes all pieces to a file."""
        # (Files of `io` use what they are given only until `write` returns, so they need no copy.)
        take: Callable[[int, int], Any] = ctypes.string_at
        if isinstance(out, (io.RawIOBase, io.BufferedIOBase)):
            take = _view
        while (piece := self._next(take)) is not None:
            write_all(out, piece)

    def _free(self) -> None:
        run, self._run = self._run, None
        if run:
            _CLOSE(run)
        self._sources = {}
        self._stack.close()

    def close(self) -> None:
        """Ends the command, if it has not ended. Nothing more is read."""
        if not self._is_dropped:
            with self._use():
                self._free()

    def _drop(self) -> None:
        """Ends the command: at once, or when a thread that waits for an input goes on."""
        self._is_dropped = True
        if self._lock.acquire(blocking=False):
            try:
                self._free()
            finally:
                self._lock.release()

    async def aclose(self) -> None:
        """As `close`. A thread that waits for an input ends the command when it goes on."""
        self._drop()

    def __reduce__(self) -> Any:
        # (Two of them would close one run.)
        raise TypeError("a stream can be neither copied nor sent")

    def __enter__(self) -> Stream:
        return self

    def __exit__(self, *_: object) -> None:
        self.close()

    async def __aenter__(self) -> Stream:
        return self

    async def __aexit__(self, *_: object) -> None:
        self._drop()

    def __del__(self) -> None:
        # (After an error in the arguments, there may be nothing to free.)
        if hasattr(self, "_stack"):
            self._free()


class _Output(io.RawIOBase):
    """The output of a stream, as a file."""

    def __init__(self, stream: Stream) -> None:
        self._stream, self._rest = stream, memoryview(b"")

    def readable(self) -> bool:
        return True

    def readinto(self, room: Any) -> int:
        self._rest = self._rest or memoryview(next(self._stream, b""))
        count = min(len(room), len(self._rest))
        room[:count], self._rest = self._rest[:count], self._rest[count:]
        return count

    def readall(self) -> bytes:
        return b"".join((self._rest, *self._stream))

    def close(self) -> None:
        self._stream.close()
        super().close()


def _view(address: int, size: int) -> Any:
    return _VIEW(address, size, _TO_READ)


def write_all(out: Writable, text: Any) -> None:
    """Writes to a file, which may take a part of what it is given, and keeps no view of it."""
    while text:
        count = out.write(text)
        if count is None and isinstance(out, io.RawIOBase):
            raise BlockingIOError("`out` takes no bytes now: it may not be in non-blocking mode")
        if count is not None and not 0 < count <= len(text):
            raise OSError(f"`out` took {count} bytes of {len(text)}")
        given, text = text, text[len(text) if count is None else count :]
        if isinstance(given, memoryview):
            given.release()


@overload
def stream(
    words: Iterable[str],
    stdin: AnyInput = ...,
    files: Mapping[Name, AnyInput] | None = ...,
    *,
    memory: int | None = ...,
) -> Stream: ...
@overload
def stream(
    words: Iterable[str],
    stdin: Input = ...,
    files: Mapping[Name, Input] | None = ...,
    *,
    out: Writable,
    memory: int | None = ...,
) -> None: ...
@overload
def stream(
    words: Iterable[str],
    stdin: Input = ...,
    files: Mapping[Name, Input] | None = ...,
    *,
    out: Writable | None,
    memory: int | None = ...,
) -> Stream | None: ...
def stream(
    words: Iterable[str],
    stdin: AnyInput = b"",
    files: Mapping[Name, AnyInput] | None = None,
    *,
    out: Writable | None = None,
    memory: int | None = None,
) -> Stream | None:
    """Runs a command, the name of the tool first, over streams: yields its output in pieces, or writes it to `out`, a
    file in binary mode. Inputs are read as they are needed, and may be the output of another command. `async for`
    awaits the pieces, and lets the event loop go on; for it, inputs may be async, too.

    After the last piece it raises `Error` if the status is not 0, with the messages; and `MemoryError` if memory ran
    out, or more than `memory` bytes were needed at a time. What an input raises comes through. `close` ends the command."""
    if out is None:
        return Stream(words, stdin, files, memory)
    refuse_text("out", out)
    if not hasattr(out, "write"):
        raise TypeError(f"out is {type(out).__name__}, and not a file open in binary mode")
    with Stream(words, stdin, files, memory) as running:
        running._write_to(out)
    return None


def run_descriptors(words: Iterable[str], descriptors: list[int]) -> int:
    """Runs a command over descriptors: of standard input, the output and the messages, and those of the files that the
    words name, where -1 is one that cannot be opened. Returns its status."""
    encoded = encode_words(words)
    opened = bytes(descriptor >= 0 for descriptor in descriptors[FIRST_FILE:])
    functions = (LIBRARY.ptext_read_descriptor, LIBRARY.ptext_write_descriptor)
    of_c = [ctypes.cast(function, ctypes.c_void_p) for function in functions]
    numbers = (ctypes.c_int * len(descriptors))(*descriptors)
    return int(_STREAM(encoded, len(encoded), *of_c, numbers, Options(opened)))
