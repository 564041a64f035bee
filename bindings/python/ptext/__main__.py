"""`python3 -m ptext cut -f 1 FILE` does what `ptext cut -f 1 FILE` does."""
from __future__ import annotations

import os
import signal
import sys

from ._library import MEMORY, names
from ._stream import run_descriptors

READ = os.O_RDONLY | os.O_CLOEXEC
WRITE = os.O_WRONLY | os.O_CREAT | os.O_TRUNC | os.O_CLOEXEC


def open_file(name: str, flags: int) -> int:
    """A file that is open, or -1 if it cannot be opened."""
    try:
        return os.open(name, flags, 0o666)
    except OSError:
        return -1


def say(messages: int, text: str) -> int:
    """Writes a message. Returns the status of a run that could not begin."""
    try:
        os.write(messages, os.fsencode(text))
    except OSError:
        pass  # (There is no place to say so.)
    return 1


def run(words: list[str]) -> int:
    """Runs a command, as the program does: an output file is made when all inputs are open, before they are read."""
    # (If a stream is closed, its number may be that of another file.)
    standard = [number if stream else -1 for number, stream in enumerate((sys.stdin, sys.stdout, sys.stderr))]
    inputs, output = names(words)
    files = [open_file(name, READ) for name in inputs]
    if output is not None and -1 not in files:
        standard[1] = open_file(output, WRITE)
        if standard[1] < 0:
            return say(standard[2], f"{words[0]}: {output}: cannot be opened\n")
    status = run_descriptors(words, [*standard, *files])
    return 1 if status == MEMORY else status


def main() -> int:
    # (While the library waits for a read, Python handles no signal.)
    signal.signal(signal.SIGINT, signal.SIG_DFL)
    words = sys.argv[1:]
    try:
        return run(words)
    except MemoryError:
        return say(2 if sys.stderr else -1, f"{words[0]}: out of memory\n")


if __name__ == "__main__":
    sys.exit(main())
