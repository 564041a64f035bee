r"""cut, paste, join, comm, uniq and tr over bytes in memory and over streams, by the proved library ptext.

    >>> ptext.cut("-d", ":", "-f", "1", stdin="root:x:0\nbin:x:1\n")
    b'root\nbin\n'
    >>> ptext.join("-t", ",", "-", "b.csv", stdin=b"1,ann\n", files={"b.csv": b"1,tea\n"})
    b'1,ann,tea\n'
    >>> lines = ptext.stream(["cut", "-d", ":", "-f", "1"], stdin=pathlib.Path("/etc/passwd"))
    >>> ptext.stream(["uniq", "-c"], stdin=lines, out=sys.stdout.buffer)
    >>> rows = csv.reader(io.TextIOWrapper(ptext.stream(["cut", "-d", ",", "-f", "2-"], stdin=path).file()))

The functions of the tools take all inputs, and return all output, in memory; `stream` is for inputs of any length, for
output as it comes, and for what Ctrl-C shall end. Its inputs may come in pieces of any size. Pieces that are run one by
one have another output: `uniq -c` counts a run of equal lines twice.
"""
from collections.abc import Mapping

from ._inputs import AsyncInput, Input, Name, Readable
from ._library import Error, names
from ._memory import run
from ._stream import Stream, Writable, stream

__all__ = ["AsyncInput", "Error", "Input", "Readable", "Stream", "Writable"]
__all__ += ["comm", "cut", "join", "names", "paste", "run", "stream", "tr", "uniq"]
__version__ = "0.1.0"


def cut(*words: str, stdin: Input = b"", files: "Mapping[Name, Input] | None" = None) -> bytes:
    """Selects bytes or fields of each line: `cut("-f", "1", stdin=...)`."""
    return run(["cut", *words], stdin, files)


def paste(*words: str, stdin: Input = b"", files: "Mapping[Name, Input] | None" = None) -> bytes:
    """Puts lines side by side: `paste("-", "b", stdin=..., files={"b": ...})`."""
    return run(["paste", *words], stdin, files)


def join(*words: str, stdin: Input = b"", files: "Mapping[Name, Input] | None" = None) -> bytes:
    """Joins the lines of two sorted inputs that have a field in common."""
    return run(["join", *words], stdin, files)


def comm(*words: str, stdin: Input = b"", files: "Mapping[Name, Input] | None" = None) -> bytes:
    """Shows which lines two sorted inputs have in common."""
    return run(["comm", *words], stdin, files)


def uniq(*words: str, stdin: Input = b"", files: "Mapping[Name, Input] | None" = None) -> bytes:
    """Writes one line of each run of equal lines. Also the output of an output operand is returned."""
    return run(["uniq", *words], stdin, files)


def tr(*words: str, stdin: Input = b"") -> bytes:
    """Replaces, deletes and squeezes bytes: `tr("a-z", "A-Z", stdin=...)`."""
    return run(["tr", *words], stdin)
