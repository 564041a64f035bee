"""The calls of the shared library, by ctypes."""
from __future__ import annotations

import ctypes
import os
from collections.abc import Iterable, Mapping

MEMORY = 4


class Error(Exception):
    """A command ended with a status that is not 0. `message` is what it says, and `out` is its output, which may be
    incomplete if it names a file that is not there, or if a line is out of order. `unknown` are the names that `files`
    lacks."""

    __module__ = "ptext"

    def __init__(self, status: int, message: str, out: bytes, unknown: tuple[str, ...] = ()) -> None:
        super().__init__(message)
        self.status, self.message, self.out, self.unknown = status, message, out, unknown

    def __reduce__(self) -> tuple[type[Error], tuple[int, str, bytes, tuple[str, ...]]]:
        # (A process of a pool sends what it raises by pickle.)
        return type(self), (self.status, self.message, self.out, self.unknown)

    def __str__(self) -> str:
        lacking = ", ".join(map(repr, self.unknown))
        return f"{self.message} (`files` has no {lacking}: no file is opened by its name)" if lacking else self.message


class _Part(ctypes.Structure):
    _fields_ = [("written", ctypes.c_size_t), ("lacking", ctypes.c_size_t)]


class Answer(ctypes.Structure):
    _fields_ = [("out", _Part), ("messages", _Part), ("status", ctypes.c_uint8)]


def _find_library() -> ctypes.CDLL:
    """The library: PTEXT_LIBRARY, that in this package, or that of the system."""
    here = os.path.dirname(os.path.abspath(__file__))
    for path in (os.environ.get("PTEXT_LIBRARY"), f"{here}/libptext.so"):
        if path and os.path.exists(path):
            return ctypes.CDLL(path)
    # (This takes longer than all else that is imported.)
    from ctypes.util import find_library

    name = find_library("ptext")
    if not name:
        raise ImportError("libptext.so is not installed: run make install-lib, or let PTEXT_LIBRARY name it")
    return ctypes.CDLL(name)


LIBRARY = _find_library()
BYTES, ROOM = [ctypes.c_char_p, ctypes.c_size_t], [ctypes.c_void_p, ctypes.c_size_t]
_NAMES = LIBRARY.ptext_names
_NAMES.restype = ctypes.c_uint8
_NAMES.argtypes = [*BYTES, *ROOM, *ROOM, ctypes.POINTER(Answer)]


def list_words(words: Iterable[str]) -> list[str]:
    if isinstance(words, (str, bytes)) or not isinstance(words, Iterable):
        raise TypeError("words are a list of texts, as ['cut', '-f', '1']")
    return list(words)


def encode_words(words: Iterable[str]) -> bytes:
    encoded = [os.fsencode(word) for word in words]
    if any(0 in word for word in encoded):
        raise ValueError("a word contains byte 0")
    return b"".join(word + b"\0" for word in encoded)


def _decode_names(buffer: ctypes.Array[ctypes.c_char], size: int) -> list[str]:
    return [os.fsdecode(name) for name in buffer.raw[:size].split(b"\0")[:-1]]


def names(words: Iterable[str]) -> tuple[list[str], str | None]:
    """The names of the files that a command reads, in their order, and that of its output file, if it names one. Words
    that are no command name no file."""
    given = encode_words(list_words(words))
    room = len(given)
    read, written, answer = ctypes.create_string_buffer(room + 1), ctypes.create_string_buffer(room + 1), Answer()
    status = _NAMES(given, len(given), read, room, written, room, answer)
    if status == MEMORY:
        raise MemoryError("ptext: out of memory")
    outputs = _decode_names(written, answer.messages.written)
    return _decode_names(read, answer.out.written), outputs[0] if outputs else None


def find_unknown(read: list[str], files: Mapping[str, object]) -> tuple[str, ...]:
    """The names of files that a command reads, and `files` lacks."""
    return tuple(name for name in dict.fromkeys(read) if files.get(name) is None)


def check_status(status: int, messages: bytes, out: bytes, unknown: tuple[str, ...]) -> None:
    """Raises what a status other than 0 means."""
    if status == MEMORY:
        error = MemoryError("ptext: out of memory")
        error.out = out  # type: ignore[attr-defined]
        raise error
    if status:
        raise Error(status, messages.decode(errors="replace").rstrip("\n"), out, unknown if status == 1 else ())
