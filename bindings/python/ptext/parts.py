#!/usr/bin/env python3
"""Runs a command of ptext over parts of its files, which are given by offsets: nothing is copied to cut a file.

  ptext-parts [-j JOBS] [-i INPUT] TOOL [WORD ..]    runs the command, JOBS parts at a time, and writes its output

The same in steps, for several machines:

  ptext-parts plan PARTS [-i INPUT] TOOL [WORD ..]   prints a plan: the offsets of each part, in all files
  ptext-parts run PLAN PART [FOLDER]                 writes the output of a part, or puts it into the folder
  ptext-parts whole PLAN FOLDER RESULT               puts the outputs of all parts together

JOBS is the number of processors, unless it is given. INPUT is the file that the command reads as standard input. Parts
are counted from 1. Outputs wait for their turn in the folder TMPDIR, or /tmp. The program ptext is the one in PATH,
unless PTEXT_PROGRAM names another. The page ptext-parts(1) has the rest.
"""
from __future__ import annotations

import collections
import contextlib
import errno
import fcntl
import functools
import getopt
import hashlib
import json
import os
import re
import shlex
import signal
import stat
import subprocess
import sys
import tempfile
import threading
import time
from collections.abc import Callable, Iterator
from concurrent.futures import Future, ThreadPoolExecutor
from typing import IO, Any, BinaryIO, NamedTuple

# The options that have a value.
VALUED = {"cut": "bcdf", "paste": "d", "join": "aveot12", "comm": "", "uniq": "fs", "tr": ""}
SMALL, LARGE = 1 << 12, 1 << 20
MOST_PARTS, PART_SIZE = 10000, 1 << 25
SET_PIPE_SIZE = getattr(fcntl, "F_SETPIPE_SZ", 1031)  # (Python 3.9 lacks the name.)
Offsets = list[list[int]]
Range = tuple[int, int]


class PartsError(Exception):
    """A command that cannot be cut, or a part that cannot be used. `status` is that of the program."""

    def __init__(self, message: str, status: int = 1) -> None:
        super().__init__(message)
        self.message, self.status = message, status

    def __reduce__(self) -> tuple[type[PartsError], tuple[str, int]]:
        return type(self), (self.message, self.status)


class ToolError(PartsError):
    """The tool ended with a status that is not 0. `message` has the number of the part."""


# ---- the command


class Command(NamedTuple):
    """The words of a command, of which the first `front` are the tool and its options."""

    words: list[str]
    options: dict[str, str]
    front: int

    @property
    def tool(self) -> str:
        return self.words[0]

    @property
    def operands(self) -> list[str]:
        """The names of the inputs, in which standard input is `-`. (The words of tr are none, and a second one of uniq
        is its output.)"""
        named = [] if self.tool == "tr" else self.words[self.front :]
        return (named[:1] if self.tool == "uniq" else named) or ["-"]

    @property
    def inputs(self) -> dict[int, str]:
        """The operands that are read, by their index: a second `-` reads on where the first one does."""
        names = self.operands
        return {at: name for at, name in enumerate(names) if name != "-" or at == names.index("-")}

    @property
    def terminator(self) -> bytes:
        return b"\0" if "z" in self.options else b"\n"

    def name_inputs(self, names: dict[int, str]) -> list[str]:
        """The words, with these names for some operands."""
        if self.tool == "tr":
            return self.words
        return [*self.words[: self.front], *(names.get(at, name) for at, name in enumerate(self.operands))]


def read_words(words: list[str]) -> Command:
    """The options and operands of words that the program accepts."""
    if not words or words[0] not in VALUED:
        raise PartsError("first word: cut, paste, join, comm, uniq or tr", 2)
    options: dict[str, str] = {}
    at = 1
    while at < len(words) and words[at].startswith("-") and len(words[at]) > 1:
        word = words[at]
        at += 1
        if word == "--":
            break
        for index, letter in enumerate(word[1:], 2):
            options[letter] = ""
            if letter in VALUED[words[0]]:
                options[letter] = word[index:] or "".join(words[at : at + 1])
                at += not word[index:]
                break
    return Command(words, options, min(at, len(words)))


def find_program() -> str:
    return os.environ.get("PTEXT_PROGRAM") or "ptext"


def call_program(words: list[str], stdin: bytes) -> subprocess.CompletedProcess[bytes]:
    try:
        return subprocess.run([find_program(), *words], input=stdin, capture_output=True, check=False)
    except OSError as why:
        raise PartsError(f"{find_program()}: {why.strerror}") from why


def check_words(command: Command) -> None:
    """Has the program read the words, over empty files: it refuses wrong ones, with its message."""
    operands = command.words[command.front :]
    names = operands if command.tool == "tr" else ["-" if name == "-" else os.devnull for name in operands]
    answer = call_program([*command.words[: command.front], *names], b"")
    if answer.returncode:
        raise PartsError(answer.stderr.decode(errors="replace").rstrip("\n"), max(answer.returncode, 1))


# ---- the files


class File:
    """An open file, and its lines."""

    def __init__(self, path: str, terminator: bytes) -> None:
        self.path, self.terminator = path, terminator
        try:
            self.descriptor = os.open(path, os.O_RDONLY)
        except OSError as why:
            raise PartsError(f"{path}: {why.strerror}") from why
        found = os.fstat(self.descriptor)
        if not stat.S_ISREG(found.st_mode):
            os.close(self.descriptor)
            raise PartsError(f"{path}: not a regular file, so it cannot be cut")
        self.size, self.modified = found.st_size, found.st_mtime_ns
        if not self.size and self.read(0, 1):
            os.close(self.descriptor)
            raise PartsError(f"{path}: it has bytes, and no size, so it cannot be cut")

    def read(self, at: int, count: int) -> bytes:
        try:
            return os.pread(self.descriptor, count, at)
        except OSError as why:
            raise PartsError(f"{self.path}: {why.strerror}") from why

    def read_blocks(self, at: int) -> Iterator[bytes]:
        """The bytes from an offset on: first few, since most callers need only one line."""
        block = SMALL
        while text := self.read(at, block):
            yield text
            at += len(text)
            block = min(2 * block, LARGE)

    def find_line(self, at: int) -> int:
        """The offset of the first line that begins at an offset or after it."""
        if at == 0:
            return 0
        at -= 1
        for text in self.read_blocks(at):
            found = text.find(self.terminator)
            if found >= 0:
                return at + found + 1
            at += len(text)
        return self.size

    def read_lines(self, at: int) -> Iterator[tuple[bytes, int]]:
        """Each line from the one that begins at an offset on, and the offset where the next one begins."""
        rest = [b""]
        for text in self.read_blocks(at):
            *lines, last = text.split(self.terminator)
            for line in lines:
                line = b"".join([*rest, line])
                at += len(line) + 1
                yield line, at
                rest = []
            rest.append(last)
        if line := b"".join(rest):
            yield line, at + len(line)


# ---- where to cut


def share(size: int, parts: int) -> list[int]:
    return [size * part // parts for part in range(parts + 1)]


def cut_after_lines(files: list[File], parts: int) -> Offsets:
    """After any line of files that are read one after another."""
    found, before = [], 0
    for file in files:
        wanted = [min(max(at - before, 0), file.size) for at in share(sum(each.size for each in files), parts)]
        found.append([file.find_line(at) for at in wanted])
        before += file.size
    return found


def count_run(command: Command, file: File, at: int) -> int:
    """How many lines the run has that begins at an offset: the program counts them, and is ended once it has."""
    if at == file.size:
        return 0
    words = ["uniq", "-c", *[f"-{letter}{value}" for letter, value in command.options.items() if letter in "fsz"], "-"]
    work = Work()
    feed = Feed(file.path, (at, file.size), work)
    feed.start()
    try:
        process: Any = work.start(words, stdin=feed.reader, stdout=subprocess.PIPE)
    finally:
        os.close(feed.reader)
    text = b""
    while b" " not in text and (more := process.stdout.read1()):
        text += more
    process.terminate()
    said = work.wait(process)
    feed.join()
    if feed.why or b" " not in text:
        raise PartsError(f"{file.path}: {feed.why}" if feed.why else said or "uniq was ended")
    return int(text.partition(b" ")[0])


def skip_lines(file: File, at: int, count: int) -> int:
    """The offset after `count` lines, of which the first begins at an offset."""
    for text in file.read_blocks(at):
        found = text.count(file.terminator)
        if found >= count:
            break
        at, count = at + len(text), count - found
    else:
        return file.size
    end = 0
    for _ in range(count):
        end = text.index(file.terminator, end) + 1
    return at + end


def cut_between_runs(command: Command, file: File, parts: int) -> Offsets:
    """Between two lines whose keys differ: where the run ends of the first line after each wanted offset."""
    found = [0]
    for wanted in share(file.size, parts)[1:-1]:
        at = found[-1]
        if wanted > at:
            at = file.find_line(wanted)
            at = skip_lines(file, at, count_run(command, file, at))
        found.append(at)
    return [[*found, file.size]]


def make_join_key(separator: bytes, field: int) -> Callable[[bytes], bytes]:
    """The function that returns a field of a line. Without a separator, fields are between blanks."""

    def find_key(line: bytes) -> bytes:
        if separator:
            cells = line.split(separator, field)
        else:
            cells = [cell for cell in line.replace(b"\t", b" ").split(b" ") if cell]
        return cells[field - 1] if field <= len(cells) else b""

    return find_key


def find_first(file: File, low: int, is_before: Callable[[bytes], bool]) -> int:
    """The offset of the first line, from the one that begins at `low` on, that is not before a key: by bisection. The
    line that ends at the result is before the key and the one that begins there is not, also if the file is out of
    order. So parts in order make a whole in order."""
    high = file.size
    while low < high:
        middle = (low + high) // 2
        at = low if middle == low else file.find_line(middle)
        if at >= high:
            high = middle
            continue
        line, end = next(file.read_lines(at))
        if is_before(line):
            low = end
        else:
            high = at
    return low


def cut_at_keys(files: list[File], parts: int, keys: list[Callable[[bytes], bytes]], descending: bool) -> Offsets:
    """At the same keys in both files. They cut the larger file into equal parts."""
    largest = max(range(len(files)), key=lambda index: files[index].size)
    file, starts = files[largest], share(files[largest].size, parts)[1:-1]
    first_lines = (next(file.read_lines(file.find_line(at)), None) for at in starts)
    chosen = sorted({keys[largest](found[0]) for found in first_lines if found}, reverse=descending)
    offsets = []
    for file, find_key in zip(files, keys):
        found = [0]
        for key in chosen:

            def is_before(line: bytes, find_key: Callable[[bytes], bytes] = find_key, key: bytes = key) -> bool:
                return find_key(line) > key if descending else find_key(line) < key

            found.append(find_first(file, found[-1], is_before))
        offsets.append([*found, *[file.size] * (parts + 1 - len(found))])
    return offsets


def count_lines(file: File) -> list[Range]:
    """The offset of each block, and how many lines end before it; at last those of the whole file."""
    found, at, count, last = [], 0, 0, file.terminator
    while text := file.read(at, LARGE):
        found.append((at, count))
        at, count, last = at + len(text), count + text.count(file.terminator), text[-1:]
    return [*found, (at, count + (last != file.terminator))]


def find_row(file: File, counted: list[Range], lines: int) -> int:
    """The offset after `lines` lines, or the end if there are fewer."""
    at, before = next((at, count) for at, count in reversed(counted) if count <= lines)
    return skip_lines(file, at, lines - before)


def cut_after_rows(files: list[File], uses: list[int], parts: int) -> Offsets:
    """After the same row, which is one line of each file, or two of standard input that is named twice."""
    counted = [count_lines(file) for file in files]
    rows = share(max(-(-lines[-1][1] // used) for lines, used in zip(counted, uses)), parts)
    return [
        [find_row(file, lines, row * used) for row in rows[:-1]] + [file.size]
        for file, lines, used in zip(files, counted, uses)
    ]


def cut_of_tr(command: Command, file: File, parts: int) -> Offsets:
    """Anywhere, or after newlines if bytes are squeezed. What is done to newline the program itself tells."""
    if "s" not in command.options:
        return [share(file.size, parts)]
    if len(call_program(command.words, b"\n\n").stdout) != 2:
        strings = command.words[command.front :]
        remedy = f"leave out -s, and squeeze the whole: .. | ptext tr -s {shlex.quote(strings[-1])}"
        raise PartsError(
            "tr deletes or squeezes newline, so it can be cut after no line: "
            f"{remedy if len(strings) > 1 else 'run it over the whole'}"
        )
    return cut_after_lines([file], parts)


def cut_files(command: Command, files: list[File], parts: int) -> Offsets:
    """The offsets where the parts of each file begin, and the size of the file."""
    options = command.options
    if command.tool == "paste":
        if "s" in options:
            raise PartsError("paste -s: no law lets it be cut (parts_of_paste is about paste without -s)")
        uses = [command.operands.count(name) if name == "-" else 1 for name in command.inputs.values()]
        return cut_after_rows(files, uses, parts)
    if command.tool == "tr":
        return cut_of_tr(command, files[0], parts)
    if command.tool == "uniq":
        if command.words[command.front + 1 :] not in ([], ["-"]):
            raise PartsError("uniq: an output file cannot be that of each part: leave it out", 2)
        return cut_between_runs(command, files[0], parts)
    if command.tool == "cut":
        return cut_after_lines(files, parts)
    keys = [lambda line: line] * 2
    if command.tool == "join":
        separator = os.fsencode(options.get("t", ""))
        keys = [make_join_key(separator, min(int(options.get(which, 1)), sys.maxsize)) for which in "12"]
    return cut_at_keys(files, parts, keys, "r" in options)


# ---- the plan


class Input(NamedTuple):
    """A file, and how it was when it was cut."""

    path: str
    size: int
    modified: int


class Plan(NamedTuple):
    """A command, its inputs, and for each part the offsets in each of them."""

    words: list[str]
    inputs: list[Input]
    parts: list[list[Range]]

    def write(self) -> str:
        """The lines of a plan: the command and its files, then for each part its offsets in each file, and the end."""
        head = {"words": self.words, "files": [list(file) for file in self.inputs]}
        return "".join(json.dumps(line) + "\n" for line in [head, *self.parts, {"end": len(self.parts)}])

    @property
    def mark(self) -> str:
        """A text that differs for plans that differ."""
        return hashlib.sha256(self.write().encode()).hexdigest()[:16]

    def name_part(self, part: int) -> str:
        return f"{part:05}.{self.mark}"


def check_ranges(plan: Plan) -> None:
    """That the parts of each file begin at 0, join, and end at its size."""
    for at, file in enumerate(plan.inputs):
        last = 0
        for part, ranges in enumerate(plan.parts, 1):
            begin, end = ranges[at]
            if begin != last or end < begin:
                raise PartsError(f"part {part} has bytes {begin} to {end} of {file.path}, after byte {last}")
            last = end
        if last != file.size:
            raise PartsError(f"its parts end at byte {last} of {file.path}, which has {file.size}")


def read_plan(path: str) -> Plan:
    """The plan in a file, if all of it is there: less than all would make less than the result."""
    try:
        with open(path, encoding="utf-8") as file:
            head, *parts, end = map(json.loads, file)
        inputs = [Input(*each) for each in head["files"]]
        plan = Plan(head["words"], inputs, [[(begin, end) for begin, end in part] for part in parts])
        if end != {"end": len(parts)}:
            raise PartsError("its last line, which has the number of its parts, is missing")
        if not parts or any(len(each) != len(inputs) for each in [read_words(plan.words).inputs, *parts]):
            raise ValueError
        check_ranges(plan)
        return plan
    except OSError as why:
        raise PartsError(f"{path}: {why.strerror}") from why
    except PartsError as why:
        raise PartsError(f"{path}: not all of a plan, or not as it was printed: {why}") from why
    except (ValueError, TypeError, KeyError) as why:
        raise PartsError(f"{path}: not a plan of ptext-parts, or not all of it") from why


def make_plan(words: list[str], parts: int, stdin: str | None = None, part_size: int = 0) -> Plan:
    """Cuts the files of a command into parts: into more if each shall have about `part_size` bytes. `stdin` is the file
    that it reads as standard input."""
    command = read_words(words)
    check_words(command)
    names = [stdin if name == "-" else name for name in command.inputs.values()]
    if None in names:
        raise PartsError(f"{command.tool} reads standard input: the file for it has to be given (-i, or stdin)", 2)
    files = [File(os.path.abspath(name), command.terminator) for name in names if name is not None]
    if part_size:
        parts = max(parts, min(sum(file.size for file in files) // part_size, MOST_PARTS))
    try:
        offsets = cut_files(command, files, parts)
    finally:
        for file in files:
            os.close(file.descriptor)
    inputs = [Input(file.path, file.size, file.modified) for file in files]
    return Plan(words, inputs, [[(at[part], at[part + 1]) for at in offsets] for part in range(parts)])


# ---- one part


def check_unchanged(plan: Plan) -> None:
    for file in plan.inputs:
        try:
            found = os.stat(file.path)
        except OSError as why:
            raise PartsError(f"{file.path}: {why.strerror}") from why
        if (found.st_size, found.st_mtime_ns) != (file.size, file.modified):
            raise PartsError(f"{file.path}: it has changed since it was cut")


def copy_bytes(file: int, at: int, end: int, pipe: int) -> int:
    """Copies some bytes of a file to a pipe, in the kernel where that can be done."""
    splice = getattr(os, "splice", None)  # (Python 3.9 has none.)
    try:
        if splice:
            return int(splice(file, pipe, min(end - at, LARGE), offset_src=at))
    except OSError as why:
        if why.errno != errno.EINVAL:
            raise
    text = memoryview(os.pread(file, min(end - at, LARGE), at))
    done = 0
    while done < len(text):
        done += os.write(pipe, text[done:])
    return done


class Work:
    """The processes of the parts that run, and how many bytes all parts were given."""

    def __init__(self) -> None:
        self.lock = threading.Lock()
        self.running: set[subprocess.Popen[bytes]] = set()
        self.is_over = False
        self.given = 0

    def start(self, words: list[str], **how: Any) -> subprocess.Popen[bytes]:
        """Starts the program, unless all shall end."""
        with self.lock:
            if self.is_over:
                raise PartsError("stopped")
            try:
                process = subprocess.Popen([find_program(), *words], stderr=subprocess.PIPE, **how)
            except OSError as why:
                raise PartsError(f"{find_program()}: {why.strerror}") from why
            self.running.add(process)
            return process

    def wait(self, process: subprocess.Popen[bytes]) -> str:
        """Waits for a process, and returns its messages. If this is interrupted, the process is ended."""
        with process:
            try:
                return process.stderr.read().decode(errors="replace") if process.stderr else ""
            except BaseException:
                process.terminate()
                raise
            finally:
                with self.lock:
                    self.running.discard(process)

    def end(self) -> None:
        with self.lock:
            self.is_over = True
            for process in self.running:
                process.terminate()

    def add(self, count: int) -> None:
        with self.lock:
            self.given += count


class Feed(threading.Thread):
    """Copies a range of a file to a pipe, from which the tool reads it."""

    def __init__(self, path: str, offsets: Range, work: Work) -> None:
        super().__init__(daemon=True)
        self.path, (self.at, self.end), self.work = path, offsets, work
        self.why = ""
        self.file = os.open(path, os.O_RDONLY)
        self.reader, self.writer = os.pipe()
        with contextlib.suppress(OSError):  # (The bytes that a user has in pipes are limited.)
            fcntl.fcntl(self.writer, SET_PIPE_SIZE, LARGE)

    def run(self) -> None:
        try:
            while self.at < self.end and not self.why:
                done = copy_bytes(self.file, self.at, self.end, self.writer)
                self.at += done
                self.work.add(done)
                self.why = "" if done else "it ended before its part did"
        except BrokenPipeError:
            pass  # (The tool has ended, and its status says why.)
        except OSError as why:
            self.why = why.strerror or "read failed"
        finally:
            os.close(self.writer)
            os.close(self.file)


def describe_part(plan: Plan, part: int) -> str:
    return f"part {part} of {len(plan.parts)}"


def count_terminators(path: str, end: int, terminator: bytes) -> int:
    """How many lines end in the first bytes of a file."""
    count = 0
    with open(path, "rb") as file:
        while end > 0 and (text := file.read(min(end, LARGE))):
            count, end = count + text.count(terminator), end - len(text)
    return count


def describe_failure(plan: Plan, part: int, said: str, names: dict[int, str]) -> str:
    """The messages of a tool about a part, with the names of the files, and the numbers of lines in the whole files."""
    terminator = read_words(plan.words).terminator
    for name, file, (begin, _) in zip(names.values(), plan.inputs, plan.parts[part - 1]):
        shown = "standard input" if name == "-" else name
        if found := re.search(rf"{re.escape(shown)}: line ([0-9]+) ", said):
            number = int(found[1]) + count_terminators(file.path, begin, terminator)
            said = f"{said[:found.start(1)]}{number}{said[found.end(1):]}"
        said = said.replace(f"{shown}: ", f"{file.path}: ")
    return f"{said.rstrip()} ({describe_part(plan, part)})"


def run_part(plan: Plan, part: int, out: int | IO[bytes], place: str = "output", work: Work | None = None) -> None:
    """Runs the program over a part. It gets each range by a pipe, so that a part need not fit into memory. `place` names
    the output in messages."""
    if not 1 <= part <= len(plan.parts):
        raise PartsError(f"there is no part {part} of {len(plan.parts)}", 2)
    check_unchanged(plan)
    command, work = read_words(plan.words), work or Work()
    feeds = [Feed(file.path, offsets, work) for file, offsets in zip(plan.inputs, plan.parts[part - 1])]
    names, stdin = {}, subprocess.DEVNULL
    for (at, name), feed in zip(command.inputs.items(), feeds):
        names[at] = "-" if name == "-" else f"/dev/fd/{feed.reader}"
        stdin = feed.reader if name == "-" else stdin
        feed.start()
    readers = [feed.reader for feed in feeds]
    try:
        process = work.start(command.name_inputs(names), stdin=stdin, stdout=out, pass_fds=readers)
    finally:
        for reader in readers:
            os.close(reader)
    said = work.wait(process).replace(f"{command.tool}: output: ", f"{command.tool}: {place}: ")
    for feed in feeds:
        feed.join()
    broken = [f"{feed.path}: {feed.why}" for feed in feeds if feed.why]
    if broken:
        raise PartsError(f"{broken[0]} ({describe_part(plan, part)})")
    if process.returncode < 0:
        raise PartsError(f"{command.tool} was ended by signal {-process.returncode} ({describe_part(plan, part)})")
    if process.returncode:
        raise ToolError(describe_failure(plan, part, said, names), process.returncode)
    check_unchanged(plan)


def run_alone(run: Callable[[Work], None]) -> None:
    """Runs a part in a thread, which no signal interrupts: so each process is known by the time that it shall end."""
    work = Work()
    with ThreadPoolExecutor(1) as pool:
        try:
            pool.submit(run, work).result()
        except BaseException:
            work.end()
            raise


# ---- all parts on this machine


class Progress(threading.Thread):
    """Shows on a terminal how far all is, until the end of a `with`. Nothing is shown if there is no terminal, or if the
    output goes there."""

    def __init__(self, plan: Plan, work: Work, room: str) -> None:
        super().__init__(daemon=True)
        self.plan, self.work, self.room = plan, work, room
        self.size, self.done = sum(file.size for file in plan.inputs), 0
        self.is_over = threading.Event()
        self.is_shown = os.isatty(2) and not os.isatty(1)

    def __enter__(self) -> Progress:
        if self.is_shown:
            self.show(f"ptext-parts: {self.room}\n")
            self.start()
        return self

    def __exit__(self, *_: object) -> None:
        self.is_over.set()
        if self.is_shown:
            self.join()
            self.show("\r\x1b[K")

    def show(self, text: str) -> None:
        with contextlib.suppress(OSError):  # (The terminal may be gone by now.)
            os.write(2, text.encode())

    def run(self) -> None:
        began = time.monotonic()
        while not self.is_over.wait(0.2):
            left = (time.monotonic() - began) * (self.size / max(self.work.given, 1) - 1)
            parts = f"{self.done} of {len(self.plan.parts)} parts"
            self.show(f"\r\x1b[K{parts}, {self.work.given >> 20} of {self.size >> 20} MB, {left:.0f} s left")


def run_into_unnamed(plan: Plan, part: int, folder: str, work: Work) -> IO[bytes]:
    """The output of a part, in a file without a name."""
    try:
        file = tempfile.TemporaryFile(dir=folder)
    except OSError as why:
        raise PartsError(f"{folder}: {why.strerror}") from why
    run_part(plan, part, file, f"{folder} (TMPDIR names another folder)", work)
    return file


def name_output() -> str:
    """The file that standard output is, if it is one."""
    with contextlib.suppress(OSError):
        name = os.readlink("/proc/self/fd/1")
        return name if name.startswith("/") else "output"
    return "output"


def write_out(file: IO[bytes]) -> None:
    """Writes a file to standard output."""
    at, end = 0, os.fstat(file.fileno()).st_size
    try:
        while at < end:
            at += copy_bytes(file.fileno(), at, end, 1)
    except OSError as why:
        raise PartsError(f"{name_output()}: {why.strerror}") from why
    file.close()


def run_all(plan: Plan, jobs: int) -> None:
    """Runs all parts, `jobs` at a time, and writes their outputs in order to standard output. They wait for their turn
    in files without a name, so that nothing is left of them, however this ends."""
    work, folder = Work(), os.environ.get("TMPDIR") or "/tmp"
    ahead = min(2 * jobs, len(plan.parts))
    size = sum(file.size for file in plan.inputs) * ahead // len(plan.parts)
    room = f"{folder} needs room for the output of {ahead} of {len(plan.parts)} parts (of {size >> 20} MB of input)"
    waiting: collections.deque[Future[IO[bytes]]] = collections.deque()
    with Progress(plan, work, room) as progress, ThreadPoolExecutor(jobs) as pool:
        try:
            for part in range(1, len(plan.parts) + ahead):
                if part <= len(plan.parts):
                    waiting.append(pool.submit(run_into_unnamed, plan, part, folder, work))
                if part >= ahead:
                    write_out(waiting.popleft().result())
                    progress.done += 1
        except BaseException:
            work.end()
            for future in waiting:
                future.cancel()
            raise


# ---- the parts in a folder


def put_whole(path: str, write: Callable[[BinaryIO], None]) -> None:
    """Writes a file under another name, and renames it once it is on the disk. So it is there whole, or not at all."""
    folder, name = os.path.split(os.path.abspath(path))
    # (Another machine may write the file, too: one that was taken for dead.)
    new = f"{folder}/.{name}.{os.uname().nodename}.{os.getpid()}.{threading.get_ident()}"
    try:
        with open(new, "wb") as file:
            write(file)
            file.flush()
            os.fsync(file.fileno())
        os.rename(new, path)
    except BaseException as why:
        with contextlib.suppress(OSError):
            os.remove(new)
        if isinstance(why, OSError) and why.filename in (None, new):
            raise PartsError(f"{path}: {why.strerror}") from why
        raise


def put_part(plan: Plan, part: int, folder: str, run: Callable[[Plan, int, BinaryIO, str], None] = run_part) -> None:
    """Puts the output of a part into the folder, unless it is there already: then the files were the same."""
    path = f"{folder}/{plan.name_part(part)}"
    if os.path.exists(path):
        check_unchanged(plan)
    else:
        put_whole(path, lambda file: run(plan, part, file, folder))


def put_together(plan: Plan, folder: str, result: str) -> None:
    """Writes the outputs of all parts into one file, if each is there."""
    paths = [f"{folder}/{plan.name_part(part)}" for part in range(1, len(plan.parts) + 1)]
    lacking = [str(part) for part, path in enumerate(paths, 1) if not os.path.exists(path)]
    if lacking:
        raise PartsError(f"{folder}: there is no output of part {', '.join(lacking)}")

    def write(whole: BinaryIO) -> None:
        for path in paths:
            with open(path, "rb") as file:
                while text := file.read(LARGE):
                    whole.write(text)

    put_whole(result, write)


# ---- the program


ENDING = [signal.SIGHUP, signal.SIGINT, signal.SIGTERM]
USAGE = "[-j JOBS] [-i INPUT] TOOL [WORD ..], plan .., run .., or whole .. (--help says more)"


def read_number(text: str) -> int:
    if not text.isascii() or not text.isdigit() or not 1 <= int(text) <= MOST_PARTS:
        raise PartsError(f"not a number from 1 to {MOST_PARTS}: {text}", 2)
    return int(text)


def find_stdin() -> str:
    """Standard input, if that is a file at its beginning."""
    with contextlib.suppress(OSError):  # (A pipe, which no file can be made of.)
        if os.lseek(0, 0, os.SEEK_CUR):
            raise PartsError("standard input was read in part: its file has to be given (-i)", 2)
    return "/dev/stdin"


def call(words: list[str]) -> None:
    """Does what the words say."""
    does, given = words[0] if words else "", words[1:]
    if does == "plan" and given:
        options, command = getopt.getopt(given[1:], "i:")
        sys.stdout.write(make_plan(command, read_number(given[0]), dict(options).get("-i")).write())
        sys.stdout.flush()
    elif does == "run" and len(given) == 2:
        plan, part = read_plan(given[0]), read_number(given[1])
        run_alone(lambda work: run_part(plan, part, 1, name_output(), work))
    elif does == "run" and len(given) == 3:
        plan, part = read_plan(given[0]), read_number(given[1])
        run_alone(lambda work: put_part(plan, part, given[2], functools.partial(run_part, work=work)))
    elif does == "whole" and len(given) == 3:
        put_together(read_plan(given[0]), given[1], given[2])
    elif does in VALUED or does.startswith("-"):
        options, command = getopt.getopt(words, "j:i:", ["help"])
        chosen = dict(options)
        if "--help" in chosen:
            print(__doc__, end="")
            return
        jobs = read_number(chosen.get("-j", str(len(os.sched_getaffinity(0)))))
        stdin = chosen.get("-i") or (find_stdin() if "-" in read_words(command).operands else None)
        run_all(make_plan(command, jobs, stdin, PART_SIZE), jobs)
    else:
        raise PartsError(USAGE, 2)


def end_by_signal(number: int, _: object) -> None:
    """Ends all by an exception, so that what was written in part is removed. A second signal changes nothing."""
    for each in ENDING:
        signal.signal(each, signal.SIG_IGN)
    sys.exit(128 + number)


def main() -> int:
    for each in ENDING:
        if signal.getsignal(each) != signal.SIG_IGN:
            signal.signal(each, end_by_signal)
    try:
        call(sys.argv[1:])
    except PartsError as why:
        print(f"ptext-parts: {why.message}", file=sys.stderr)
        return why.status
    except getopt.GetoptError as why:
        print(f"ptext-parts: {why}: {USAGE}", file=sys.stderr)
        return 2
    except OSError as why:
        print(f"ptext-parts: {why.filename or 'output'}: {why.strerror}", file=sys.stderr)
        return 1
    return 0


if __name__ == "__main__":
    sys.exit(main())
