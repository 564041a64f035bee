"""Runs over inputs that are read whole, to an output in memory."""
from __future__ import annotations

import ctypes
from collections.abc import Iterable, Mapping

from ._inputs import Input, Name, check_files, read_all
from ._library import BYTES, LIBRARY, MEMORY, ROOM, Answer, Error, check_status, encode_words, find_unknown, list_words
from ._library import names
from ._stream import Stream

LITTLE_ROOM, ARGUMENTS = 3, 5
NO_FILE = ctypes.c_size_t(-1).value
FIRST_ROOM = 4096
# A run over many more bytes is faster step by step, where no room for the whole output is cleared. (What is longer than
# its room is made twice.)
MOST = 1 << 19
_RUN = LIBRARY.ptext_run
_RUN.restype = ctypes.c_uint8
_RUN.argtypes = [*BYTES * 3, ctypes.POINTER(ctypes.c_size_t), ctypes.c_size_t, *ROOM * 2, ctypes.POINTER(Answer)]


def run(words: Iterable[str], stdin: Input = b"", files: Mapping[Name, Input] | None = None) -> bytes:
    """Runs a command, the name of the tool first, and returns its output. A file that `files` lacks cannot be opened.

    An open file or an iterator is read once, also if it is there by several names. Raises `Error` if the status is not
    0, with the status, the messages and the output; and `MemoryError`, of which `out` has a beginning of the output if
    the library raised it."""
    words = list_words(words)
    status, out, messages = run_all(words, stdin, files)
    if status:
        check_status(status, messages, out, find_unknown(names(words)[0], check_files(files)))
    return out


def run_all(
    words: Iterable[str], stdin: Input = b"", files: Mapping[Name, Input] | None = None
) -> tuple[int, bytes, bytes]:
    """The status of a command, its output and its messages. The status is MEMORY if the library ran out of memory."""
    words, named = list_words(words), check_files(files)
    encoded, read = encode_words(words), names(words)[0] if named else []
    text = read_all("stdin", stdin)
    given = {name: named.get(name) for name in read}
    # (What is there by several names is read once: an iterator has nothing more the second time.)
    contents: dict[int, bytes | None] = {id(stdin): text, id(None): None}
    for name, one in given.items():
        if one is not None and id(one) not in contents:
            contents[id(one)] = read_all(f"files[{name!r}]", one)
    inputs = {name: contents[id(one)] for name, one in given.items()}
    if sum(len(one) for one in contents.values() if one) > MOST:
        return _run_stepwise(words, text, inputs)
    return _run_at_once(encoded, text, [inputs[name] for name in read])


def _run_stepwise(words: list[str], text: bytes, inputs: Mapping[str, bytes | None]) -> tuple[int, bytes, bytes]:
    stream = Stream(words, text, {name: one for name, one in inputs.items() if one is not None}, None)
    pieces, status = [], 0
    try:
        for piece in stream:
            pieces.append(piece)
    except Error as why:
        status = why.status
    except MemoryError:
        status = MEMORY
    try:
        out = b"".join(pieces)
    except MemoryError:
        # (There is memory for a beginning, once that of the rest is given back.)
        del pieces[len(pieces) // 4 :]
        status, out = MEMORY, b"".join(pieces)
    return status, out, bytes(stream._messages)


def _run_at_once(encoded: bytes, text: bytes, parts: list[bytes | None]) -> tuple[int, bytes, bytes]:
    present = [part for part in parts if part is not None]
    joined = present[0] if len(present) == 1 else b"".join(present)
    ends, end = (ctypes.c_size_t * len(parts))(), 0
    for index, part in enumerate(parts):
        end += 0 if part is None else len(part)
        ends[index] = NO_FILE if part is None else end
    fixed = (encoded, len(encoded), text, len(text), joined, len(joined), ends, len(ends))
    room, messages_room, answer = len(text) + len(joined) + FIRST_ROOM, FIRST_ROOM, Answer()
    out, messages = ctypes.create_string_buffer(room), ctypes.create_string_buffer(messages_room)
    while (status := _RUN(*fixed, out, room, messages, messages_room, answer)) == LITTLE_ROOM:
        room = answer.out.written + answer.out.lacking + 1
        messages_room = answer.messages.written + answer.messages.lacking + 1
        # (If there is no memory for more, what is there is a beginning of the output.)
        try:
            more = ctypes.create_string_buffer(room), ctypes.create_string_buffer(messages_room)
        except MemoryError:
            status = MEMORY
            break
        out, messages = more
    if status == ARGUMENTS:
        raise ValueError(messages.raw[: answer.messages.written].decode())
    return status, ctypes.string_at(out, answer.out.written), ctypes.string_at(messages, answer.messages.written)
