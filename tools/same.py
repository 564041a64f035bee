#!/usr/bin/env python3
"""Compares the library with the program: the same output, messages and status on random words and inputs.

  python3 tools/same.py PROGRAM [COUNT] [--by functions|steps|descriptors|python|node]

COUNT is 2,000. The library is build/libptext.so, through the Python module, over bytes in memory; with --by, over
streams, whose inputs come in random pieces: by functions that C calls, step by step, by the descriptors of files and
pipes, by `ptext.stream` from inputs of random kinds, or by the package of build/node (or of the folder PTEXT_NODE), in
turn over streams and in one thread.
"""
import argparse
import array
import asyncio
import base64
import contextlib
import ctypes
import io
import json
import os
import pathlib
import random
import signal
import subprocess
import sys
import tempfile
import threading

sys.dont_write_bytecode = True
TOP = os.path.dirname(os.path.dirname(os.path.realpath(__file__)))
sys.path[:0] = [f"{TOP}/tools/compare", f"{TOP}/tools", f"{TOP}/bindings/python"]
os.environ.setdefault("PTEXT_LIBRARY", f"{TOP}/build/libptext.so")

from generating import make_case
from reading import FLAGS


class Library:
    """Calls of the library, by the Python module."""

    def __init__(self):
        from ptext import _library, _memory

        self.names, self.run_all = _library.names, _memory.run_all

    def close(self):
        """There is nothing to end."""


def cut_randomly(text, chance):
    """Pieces of an input."""
    pieces, begin = [], 0
    while begin < len(text):
        size = chance.choice([1, 2, 7, 100, 8192, 100000])
        pieces.append(text[begin : begin + size])
        begin += size
    return pieces


async def give(pieces):
    """An input that is awaited."""
    for piece in pieces:
        yield piece


class Streams(Library):
    """Runs over streams, by `ptext.stream`: in turn piece by piece, as a file, and in an event loop."""

    count = 0

    def make_input(self, text, chance, is_read_again, stack):
        """An input of a random kind with these bytes. Some kinds can be read only once."""
        pieces = cut_randomly(text, chance)
        kinds = [text, bytearray(text), array.array("B", text), pieces, tuple(map(memoryview, pieces))]
        if not is_read_again:
            kinds += [iter(pieces), io.BytesIO(text), (piece for piece in pieces)]
            kinds += [give(pieces)] * 3 if self.count % 3 == 2 else []
        kind = chance.randrange(len(kinds) + 2)
        if kind < len(kinds):
            return kinds[kind]
        file = stack.enter_context(tempfile.NamedTemporaryFile())
        file.write(text)
        file.flush()
        file.seek(0)
        return pathlib.Path(file.name) if is_read_again or kind % 2 else file

    def read(self, stream, chance, out):
        """Reads a stream to its end."""

        async def wait():
            async for piece in stream:
                out.write(piece)

        if self.count % 3 == 0:
            out.writelines(stream)
        elif self.count % 3 == 1:
            file, size = stream.file(), chance.choice([1, 7, 8192, 100000])
            out.writelines(iter(lambda: file.read1(size), b""))
        else:
            asyncio.run(wait())

    def run_all(self, words, stdin, files):
        import ptext

        chance, out, read = random.Random(repr(words)), io.BytesIO(), self.names(words)[0]
        self.count += 1
        with contextlib.ExitStack() as stack:
            given = {name: self.make_input(text, chance, read.count(name) > 1, stack) for name, text in files.items()}
            stream = ptext.stream(words, self.make_input(stdin, chance, False, stack), given)
            try:
                self.read(stream, chance, out)
                status = 0
            except ptext.Error as why:
                status = why.status
            except MemoryError:
                status = 4
            return status, out.getvalue(), bytes(stream._messages)


def make_options(library, words, stdin, files):
    """The words of a command as C takes them, its options, and the bytes of its inputs, by their numbers."""
    from ptext import _library, _stream

    inputs = [stdin, None, None, *map(files.get, library.names(words)[0])]
    opened = bytes(text is not None for text in inputs[3:])
    return _library.encode_words(words), _stream.Options(opened), inputs


class Steps(Library):
    """Runs over streams, step by step."""

    def run_all(self, words, stdin, files):
        from ptext import _stream

        given, options, inputs = make_options(self, words, stdin, files)
        chance = random.Random(repr(words))
        pieces = [iter(cut_randomly(text or b"", chance)) for text in inputs]
        outputs, kept, step = {1: [], 2: []}, {}, _stream._Step()
        run = _stream._OPEN(given, len(given), options)
        while _stream._NEXT(run, step) != _stream.ENDED:
            if step.wants == _stream.READ:
                kept[step.stream] = piece = next(pieces[step.stream], b"")
                step.bytes, step.size = ctypes.cast(piece, ctypes.c_void_p), len(piece)
            else:
                outputs[step.stream].append(ctypes.string_at(step.bytes, step.size))
        _stream._CLOSE(run)
        return step.status, b"".join(outputs[1]), b"".join(outputs[2])


READ = ctypes.CFUNCTYPE(ctypes.c_ssize_t, ctypes.c_void_p, ctypes.c_uint32, ctypes.c_void_p, ctypes.c_size_t)


class Functions(Library):
    """Runs over streams, by functions that read and write a random number of bytes."""

    def run_all(self, words, stdin, files):
        from ptext import _library

        given, options, inputs = make_options(self, words, stdin, files)
        chance = random.Random(repr(words))
        outputs, begins = {1: [], 2: []}, [0] * len(inputs)

        def read(_, stream, into, room):
            begin = begins[stream]
            piece = inputs[stream][begin : begin + min(room, chance.choice([1, 2, 7, 100, room]))]
            ctypes.memmove(into, piece, len(piece))
            begins[stream] += len(piece)
            return len(piece)

        def write(_, stream, bytes_, size):
            size = min(size, chance.choice([1, 7, 100, size]))
            outputs[stream].append(ctypes.string_at(bytes_, size))
            return size

        functions = [READ(read), READ(write)]
        pointers = [ctypes.cast(function, ctypes.c_void_p) for function in functions]
        status = _library.LIBRARY.ptext_stream(given, len(given), *pointers, None, options)
        return status, b"".join(outputs[1]), b"".join(outputs[2])


class Descriptors(Library):
    """Runs over streams, by descriptors: standard input and the messages are pipes."""

    def run_all(self, words, stdin, files):
        from ptext import _stream

        def feed(end):
            with contextlib.suppress(BrokenPipeError), os.fdopen(end, "wb", buffering=0) as file:
                for piece in cut_randomly(stdin, random.Random(repr(words))):
                    file.write(piece)

        with contextlib.ExitStack() as stack:
            out, messages = (stack.enter_context(tempfile.TemporaryFile()) for _ in range(2))
            descriptors = [0, out.fileno(), messages.fileno()]
            for name in self.names(words)[0]:
                descriptors.append(-1)
                if name in files:
                    file = stack.enter_context(tempfile.TemporaryFile(buffering=0))
                    file.write(files[name])
                    file.seek(0)
                    descriptors[-1] = file.fileno()
            descriptors[0], end = os.pipe()
            thread = threading.Thread(target=feed, args=[end])
            thread.start()
            status = _stream.run_descriptors(words, descriptors)
            os.close(descriptors[0])
            thread.join()
            found = []
            for file in (out, messages):
                file.seek(0)
                found.append(file.read())
        return (status, *found)


def is_text(words):
    return not any("\udc80" <= character <= "\udcff" for word in words for character in word)


class Node:
    """Runs over streams, by the package for node: every other one in its own thread, and not beside it."""

    def __init__(self):
        package = os.environ.get("PTEXT_NODE", f"{TOP}/build/node")
        words = ["node", f"{TOP}/tools/same.mjs", f"{package}/ptext.mjs"]
        self.node, self.count = subprocess.Popen(words, stdin=subprocess.PIPE, stdout=subprocess.PIPE, text=True), 0

    def close(self):
        self.node.kill()
        self.node.wait()

    def ask(self, words, stdin=b"", files=None):
        """The answer to one call."""
        chance = random.Random(repr(words))

        def encode(text):
            return [base64.b64encode(piece).decode() for piece in cut_randomly(text, chance)]

        given = {name: encode(text) for name, text in (files or {}).items()}
        self.count += 1
        call = {"words": words, "stdin": encode(stdin), "files": given, "isSync": self.count % 4 < 2}
        self.node.stdin.write(json.dumps(call) + "\n")
        self.node.stdin.flush()
        return json.loads(self.node.stdout.readline())

    def names(self, words):
        if not is_text(words):
            # (No string of JavaScript is such a word.)
            return [""], ""
        answer = self.ask(words)
        return answer["read"], answer["output"]

    def run_all(self, words, stdin, files):
        answer = self.ask(words, stdin, files)
        return answer["status"], base64.b64decode(answer["out"]), answer["messages"].encode()


WAYS = {
    None: Library,
    "functions": Functions,
    "steps": Steps,
    "descriptors": Descriptors,
    "python": Streams,
    "node": Node,
}


def run_program(program, words, inputs, output, room):
    """The status, the output (also that to a file) and the messages of the program."""
    with tempfile.TemporaryDirectory(dir=room) as folder:
        for name, text in inputs.items():
            if name != "-" and "/" not in name and name:
                with open(f"{folder}/{name}", "wb") as file:
                    file.write(text)
        how = {"input": inputs.get("-", b""), "capture_output": True, "cwd": folder, "check": False}
        did = subprocess.run([program, *words], **how)
        out = did.stdout
        if output is not None and os.path.isfile(f"{folder}/{output}") and did.returncode != 2:
            with open(f"{folder}/{output}", "rb") as file:
                out = file.read()
        return did.returncode, out, did.stderr


def main():
    takes = argparse.ArgumentParser(description="Compares the library with the program.")
    takes.add_argument("program")
    takes.add_argument("count", nargs="?", type=int, default=2000)
    takes.add_argument("--by", choices=list(WAYS))
    given = takes.parse_args()
    program, other = os.path.realpath(given.program), WAYS[given.by]()
    tools, differences, left_out = list(FLAGS), 0, 0
    signal.signal(signal.SIGTERM, lambda *_: sys.exit(143))
    with contextlib.closing(other), tempfile.TemporaryDirectory() as room:
        for number in range(given.count):
            case = make_case(tools[number % len(tools)], random.Random(f"library {number}"))
            words, inputs = case.words, dict(case.inputs)
            read, output = other.names(words)
            if output is not None and output in read:
                left_out += 1
                continue
            wanted = run_program(program, words, inputs, output, room)
            found = other.run_all(words, inputs.get("-", b""), {name: inputs[name] for name in read if name in inputs})
            if wanted != found:
                differences += 1
                print(f"FAILED: {words}\nprogram: {wanted}\nlibrary: {found}\ninputs: {inputs}")
    more = f"; left out: {left_out}" if left_out else ""
    print(f"{given.count - left_out} commands: {differences} differences{more}")
    return 1 if differences else 0


if __name__ == "__main__":
    sys.exit(main())
