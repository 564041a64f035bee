"""A program that uses the module as most do: test_ptext.py runs it, and mypy has nothing to say of it, but what
`make_mistakes` expects.

usage: python3 user.py FILE
"""
from __future__ import annotations

import array
import asyncio
import csv
import io
import mmap
import pathlib
import sys
from collections.abc import AsyncIterator, Iterator, Mapping

import ptext


def make_people() -> Iterator[bytes]:
    yield b"1,ann\n"
    yield b"2,bob\n"


def count_first_bytes(path: pathlib.Path) -> None:
    letters = ptext.stream(["cut", "-b", "1"], stdin=path)
    ptext.stream(["uniq", "-c"], stdin=letters, out=sys.stdout.buffer)


def join_tables() -> int:
    drinks: dict[str, bytes] = {"drinks": b"1,tea\n2,milk\n"}
    words = ["join", "-t", ",", "-", "drinks"]
    with ptext.stream(words, stdin=make_people(), files=drinks, memory=1 << 20) as joined:
        return sum(len(piece) for piece in joined)


def paste_all_kinds(path: pathlib.Path) -> bytes:
    with open(path, "rb") as file, mmap.mmap(file.fileno(), 0, access=mmap.ACCESS_READ) as mapped:
        kinds: Mapping[str, ptext.Input] = {
            "text": "a",
            "bytes": bytearray(b"b"),
            "view": memoryview(b"c"),
            "array": array.array("B", b"d"),
            "map": mapped,
            "path": path,
            "file": io.BytesIO(b"e"),
            "list": [b"f"],
        }
        return ptext.paste("-d", r"\0", "-", *kinds, stdin=file, files=kinds)


def find_disorder() -> str:
    try:
        return ptext.comm("-12", "-", "x", stdin="a\n", files={"x": "b\na\n"}).decode()
    except ptext.Error as why:
        return f"{why.status}: {why.message}"


def sum_prices() -> int:
    with ptext.stream(["cut", "-d", ",", "-f", "2"], stdin="tea,3\nmilk,4\n").file() as file:
        return sum(int(price) for (price,) in csv.reader(io.TextIOWrapper(file, "ascii")))


async def await_people() -> AsyncIterator[bytes]:
    for person in make_people():
        yield person


async def count_people() -> int:
    async with ptext.stream(["cut", "-b", "1"], stdin=await_people()) as digits:
        return len([piece async for piece in digits])


def cut_by_path(path: pathlib.Path) -> bytes:
    return ptext.cut("-b", "1", "g", files={path: path}) + ptext.cut("-b", "1", "g", files={"g": path})


def make_mistakes(path: pathlib.Path) -> None:
    """What mypy refuses. (It also refuses a remark that ignores nothing.)"""
    ptext.cut("-b", 1, stdin=b"a\n")  # type: ignore[arg-type]
    ptext.run(5)  # type: ignore[arg-type]
    ptext.cut("-b", "1", stdin=5)  # type: ignore[arg-type]
    ptext.cut("-b", "1", stdin=[1, 2])  # type: ignore[list-item]
    ptext.cut("-b", "1", stdin=io.StringIO("a"))  # type: ignore[arg-type]
    ptext.cut("-b", "1", stdin=await_people())  # type: ignore[arg-type]
    ptext.cut("-b", "1", "f", files=["f"])  # type: ignore[arg-type]
    ptext.cut("-b", "1", "5", files={5: b"a\n"})  # type: ignore[type-var]
    ptext.tr("a", "b", files={})  # type: ignore[call-arg]
    ptext.stream(["uniq"], path, memory="1 MB")  # type: ignore[call-overload]
    ptext.stream(["uniq"], path, out=io.StringIO())  # type: ignore[call-overload]
    text: str = ptext.cut("-b", "1", stdin="a\n")  # type: ignore[assignment]
    ptext.stream(["uniq"], path).write(text)  # type: ignore[attr-defined]


if __name__ == "__main__":
    count_first_bytes(pathlib.Path(sys.argv[1]))
    pasted = paste_all_kinds(pathlib.Path(sys.argv[1]))
    print(join_tables(), pasted, find_disorder(), ptext.names(["uniq", "in", "out"]))
    print(sum_prices(), asyncio.run(count_people()), cut_by_path(pathlib.Path(sys.argv[1])))
