"""The inputs of a run over streams: each gives its next bytes when a step wants them."""
from __future__ import annotations

import ctypes
from abc import ABC, abstractmethod
from collections.abc import AsyncIterator, Iterator
from typing import TYPE_CHECKING, Callable

from ._inputs import PIECE, fill

if TYPE_CHECKING:
    from _typeshed import ReadableBuffer as Buffer

# The most bytes that a step is given: between two steps, Python sees to Ctrl-C.
MOST = 1 << 20


class _PyBuffer(ctypes.Structure):
    """A buffer as the interpreter describes it (`Py_buffer`)."""

    _fields_ = [
        ("buf", ctypes.c_void_p),
        ("obj", ctypes.c_void_p),
        ("len", ctypes.c_ssize_t),
        ("itemsize", ctypes.c_ssize_t),
        ("readonly", ctypes.c_int),
        ("ndim", ctypes.c_int),
        *[(name, ctypes.c_void_p) for name in ("format", "shape", "strides", "suboffsets", "internal")],
    ]


class Source(ABC):
    """An input, as its steps take it."""

    @abstractmethod
    def take(self) -> tuple[int | None, int]:
        """The address and the number of the next bytes, which stay there until the next call: 0 at the end."""


class Pieces(Source):
    """An input that comes in buffers, until `release`."""

    def __init__(self, pieces: Iterator[Buffer]) -> None:
        self._pieces, self._buffer, self._taken = pieces, _PyBuffer(), 0

    def take(self) -> tuple[int | None, int]:
        while self._taken == self._buffer.len:
            self.release()
            piece = next(self._pieces, None)
            if piece is None:
                return None, 0
            self._hold(piece)
        begin, count = self._taken, min(self._buffer.len - self._taken, MOST)
        self._taken += count
        return self._buffer.buf + begin, count

    def _hold(self, piece: Buffer) -> None:
        if not isinstance(piece, bytes) and not memoryview(piece).c_contiguous:
            piece = memoryview(piece).tobytes()
        ctypes.pythonapi.PyObject_GetBuffer(ctypes.py_object(piece), ctypes.byref(self._buffer), 0)

    def release(self) -> None:
        """Lets go of the buffer that is held, if there is one."""
        ctypes.pythonapi.PyBuffer_Release(ctypes.byref(self._buffer))
        self._buffer.len = self._taken = 0


class Filled(Source):
    """An input that is read into one buffer, which is there from the first read to the end."""

    _room: memoryview | None = None
    _first: ctypes.c_char | None = None

    def __init__(self, what: str, read_into: Callable[[memoryview], int | None]) -> None:
        self._what, self._read_into = what, read_into

    def take(self) -> tuple[int | None, int]:
        if self._room is None or self._first is None:
            buffer = bytearray(PIECE)
            self._room, self._first = memoryview(buffer), ctypes.c_char.from_buffer(buffer)
        count = fill(self._what, self._read_into, self._room)
        if not count:
            self._room = self._first = None
            return None, 0
        return ctypes.addressof(self._first), count


class Awaited(Pieces):
    """An input whose pieces are awaited: whenever it `lacks` one, `wait` comes before `take`."""

    def __init__(self, pieces: AsyncIterator[Buffer]) -> None:
        super().__init__(iter(()))
        self._more, self._has_ended = pieces, False

    def lacks(self) -> bool:
        return self._taken == self._buffer.len and not self._has_ended

    async def wait(self) -> None:
        if not self.lacks():
            return
        async for piece in self._more:
            self.release()
            self._hold(piece)
            return
        self._has_ended = True
