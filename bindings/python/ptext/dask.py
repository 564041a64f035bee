"""The six tools over parts of files, by the workers of a Dask cluster that all can read them.

    >>> client = distributed.Client("tcp://scheduler:8786")
    >>> ptext.dask.run(client, ["join", "-t", ",", "left", "right"], "/shared/result", parts=20)
    >>> for chunk in ptext.dask.read(client, ["tr", "a-z", "A-Z"], stdin="log", parts=20):
    ...     file.write(chunk)

The client cuts the files by offsets, as ptext-parts(1) does, so nothing is copied. On a worker, a part is a stream of
the library, so that it need not fit into memory.
"""
from __future__ import annotations

import contextlib
import os
import tempfile
from collections.abc import Iterable, Iterator
from typing import IO, TYPE_CHECKING

from . import Error, parts as _parts, stream

if TYPE_CHECKING:
    from distributed import Client, Future

__all__ = ["PartsError", "read", "run"]
PartsError = _parts.PartsError
PIECE = 1 << 20
_Plan = _parts.Plan


def _read_range(path: str, begin: int, end: int) -> Iterator[bytes]:
    """The bytes of a range of a file, in pieces."""
    with open(path, "rb", buffering=0) as file:
        file.seek(begin)
        while begin < end:
            piece = file.read(min(end - begin, PIECE))
            if not piece:
                raise PartsError(f"{path}: it ended before its part did")
            begin += len(piece)
            yield piece


def _run_part(plan: _Plan, part: int, out: IO[bytes], place: str = "output") -> None:
    """On a worker: runs the tool over the ranges of a part. (Each has a name of its own, also if a file is named twice.)
    `place` names the output in messages."""
    _parts.check_unchanged(plan)
    command = _parts.read_words(plan.words)
    names = {at: "-" if name == "-" else f"/part/{at}" for at, name in command.inputs.items()}
    ranges = zip(plan.inputs, plan.parts[part - 1])
    given = {name: _read_range(file.path, *offsets) for name, (file, offsets) in zip(names.values(), ranges)}
    try:
        stream(command.name_inputs(names), stdin=given.pop("-", b""), files=given, out=out)
        out.flush()
    except Error as why:
        raise Error(why.status, _parts.describe_failure(plan, part, why.message, names), b"") from why
    except OSError as why:
        raise PartsError(f"{why.filename or place}: {why.strerror} ({_parts.describe_part(plan, part)})") from why
    _parts.check_unchanged(plan)


def _put(plan: _Plan, part: int, folder: str) -> int:
    """On a worker: puts a part into the folder."""
    _parts.put_part(plan, part, folder, _run_part)
    return part


def _read(plan: _Plan, part: int) -> bytes:
    """On a worker: the output of a part."""
    with tempfile.TemporaryFile() as file:
        _run_part(plan, part, file)
        file.seek(0)
        return file.read()


def _plan(words: Iterable[str], count: int, stdin: str | None) -> _Plan:
    """The plan of a command. Words that the program refuses raise what the library raises."""
    try:
        return _parts.make_plan(list(words), count, stdin)
    except PartsError as why:
        if why.status == 2:
            raise Error(2, why.message, b"") from why
        raise


def _wait(futures: list[Future]) -> None:
    """Waits for all of them, or for the first that fails, whose error is raised."""
    from distributed import as_completed

    for future in as_completed(futures):
        future.result()


def run(
    client: Client,
    words: Iterable[str],
    result: str,
    *,
    parts: int = 16,
    stdin: str | None = None,
    folder: str | None = None,
) -> None:
    """Runs a command in so many parts, and writes the whole output to the file `result`, once each part is there.

    `stdin` names the file that the command reads as standard input. The outputs of parts are in a folder beside the
    result, or in `folder`, which all workers can write. They stay there if a part fails, and a second call takes those
    that are complete. Raises `Error` if the tool refuses the words or a part, whose number is in the message, and
    `PartsError` if anything else fails, as when a file has changed, or no law lets the command be cut. Then the other
    parts are cancelled, and there is no result."""
    plan = _plan(words, parts, stdin)
    folder = os.path.abspath(folder or f"{result}.parts")
    os.makedirs(folder, exist_ok=True)
    futures = client.map(_put, [plan] * parts, range(1, parts + 1), [folder] * parts, pure=False)
    try:
        _wait(futures)
    finally:
        client.cancel(futures)
    _parts.put_together(plan, folder, result)
    for name in os.listdir(folder):
        if plan.mark in name:
            os.remove(f"{folder}/{name}")
    with contextlib.suppress(OSError):
        os.rmdir(folder)  # (It has other files.)


def read(client: Client, words: Iterable[str], *, parts: int = 16, stdin: str | None = None) -> Iterator[bytes]:
    """Runs a command in so many parts, and yields the output of each, in their order: none before all parts are done.
    Each output has to fit into the memory of a worker, and comes through the network. Raises what `run` raises."""
    plan = _plan(words, parts, stdin)
    futures = client.map(_read, [plan] * parts, range(1, parts + 1), pure=False)
    try:
        _wait(futures)
        for future in futures:
            yield future.result()
    finally:
        client.cancel(futures)
