#!/usr/bin/env python3
"""Measures the Python module on a million bytes a call, beside the package for node, the program and plain Python.

  python3 bench/library.py PROGRAM       prints a table in MB/s of input, the best of several calls

The package is build/node. Without it or without node, its column is empty.
"""
import base64
import csv
import io
import itertools
import json
import os
import shutil
import subprocess
import sys
import tempfile
import time

sys.dont_write_bytecode = True
TOP = os.path.dirname(os.path.dirname(os.path.realpath(__file__)))
sys.path[:0] = [f"{TOP}/bindings/python", f"{TOP}/tools"]
os.environ.setdefault("PTEXT_LIBRARY", f"{TOP}/build/libptext.so")

import ptext
from project import Failed, run_script

PACKAGE = f"{TOP}/build/node/ptext.mjs"
SIZE, CALLS = 1_000_000, 15
# Runs a command in node. It writes the time of the fastest of several calls, in seconds, and the output.
SCRIPT = """import { readFileSync } from "node:fs";
const { package: entry, words, stdin, files, calls } = JSON.parse(readFileSync(0)), { run } = await import(entry);
const decoded = (it) => Buffer.from(it, "base64");
const given = Object.entries(files).map(([name, it]) => [name, decoded(it)]);
const options = { stdin: decoded(stdin), files: new Map(given) };
let best = Infinity;
for (let call = 0; call < calls; call++) {
    const began = performance.now();
    run(words, options);
    best = Math.min(best, performance.now() - began);
}
console.log(JSON.stringify([best / 1000, Buffer.from(run(words, options)).toString("base64")]));
"""


def make_lines(size, line):
    """Lines of about this many bytes in all."""
    found, length = [], 0
    while length < size:
        found.append(line(len(found)))
        length += len(found[-1])
    return b"".join(found)


ROWS = make_lines(SIZE, lambda i: b"%07d,some,words,%d\n" % (i, i * 7))
LEFT = make_lines(SIZE // 2, lambda i: b"%07d,some words\n" % i)
RIGHT = make_lines(SIZE // 2, lambda i: b"%07d,other words\n" % (2 * i))
REPEATED = make_lines(SIZE, lambda i: b"%07d some words\n" % (i // 3))


def cut_by_split():
    return b"".join(line.split(b",")[1] + b"\n" for line in ROWS.splitlines())


def cut_by_csv():
    out = io.StringIO()
    writer = csv.writer(out, lineterminator="\n")
    writer.writerows([row[1]] for row in csv.reader(io.StringIO(ROWS.decode())))
    return out.getvalue().encode()


def paste_by_zip():
    pairs = itertools.zip_longest(LEFT.splitlines(), RIGHT.splitlines(), fillvalue=b"")
    return b"".join(b"%b,%b\n" % pair for pair in pairs)


def join_by_dict():
    right = dict(line.split(b",", 1) for line in RIGHT.splitlines())
    pairs = (line.split(b",", 1) for line in LEFT.splitlines())
    return b"".join(b"%b,%b,%b\n" % (key, rest, right[key]) for key, rest in pairs if key in right)


def uniq_by_loop():
    found, last, count = [], None, 0
    for line in REPEATED.splitlines():
        if line == last:
            count += 1
            continue
        if last is not None:
            found.append(b"%d %b\n" % (count, last))
        last, count = line, 1
    return b"".join(found) + b"%d %b\n" % (count, last)


COMMANDS = [
    (["cut", "-d", ",", "-f", "2"], ROWS, {}, [("split", cut_by_split), ("csv", cut_by_csv)]),
    (["paste", "-d", ",", "-", "right"], LEFT, {"right": RIGHT}, [("zip", paste_by_zip)]),
    (["tr", "a-z", "A-Z"], ROWS, {}, [("bytes.upper", lambda: ROWS.upper())]),
    (["join", "-t", ",", "-", "right"], LEFT, {"right": RIGHT}, [("dict", join_by_dict)]),
    (["uniq", "-c"], REPEATED, {}, [("a loop", uniq_by_loop)]),
]


def measure_best(call, size):
    """MB/s of the fastest call."""
    times = []
    for _ in range(CALLS):
        began = time.perf_counter()
        call()
        times.append(time.perf_counter() - began)
    return size / min(times) / 1e6


def measure_node(words, stdin, files, wanted):
    """MB/s of the fastest call in node."""
    size = len(stdin) + sum(map(len, files.values()))
    encoded = {name: base64.b64encode(text).decode() for name, text in files.items()}
    call = {"package": PACKAGE, "words": words, "stdin": base64.b64encode(stdin).decode(), "files": encoded}
    how = {"input": json.dumps(call | {"calls": CALLS}), "capture_output": True, "text": True, "check": True}
    seconds, out = json.loads(subprocess.run(["node", "--input-type=module", "-e", SCRIPT], **how).stdout)
    if base64.b64decode(out) != wanted:
        raise Failed(f"{words}: the package for node has another output")
    return size / seconds / 1e6


def main():
    program = os.path.realpath(sys.argv[1])
    has_package = shutil.which("node") and os.path.exists(PACKAGE)
    print("| Command | Library | node | Program | Python |\n|---|---|---|---|---|")
    with tempfile.TemporaryDirectory() as room:
        for words, stdin, files, others in COMMANDS:
            for name, text in files.items():
                with open(f"{room}/{name}", "wb") as file:
                    file.write(text)
            size = len(stdin) + sum(map(len, files.values()))
            wanted = ptext.run(words, stdin, files)
            for name, other in others:
                if other() != wanted:
                    raise Failed(f"{words}: {name} has another output")
            by_node = f"{measure_node(words, stdin, files, wanted):,.0f}" if has_package else ""
            by_library = measure_best(lambda: ptext.run(words, stdin, files), size)
            how = {"input": stdin, "stdout": subprocess.PIPE, "cwd": room, "check": True}
            by_program = measure_best(lambda: subprocess.run([program, *words], **how), size)
            by_python = ", ".join(f"{name} {measure_best(other, size):,.0f}" for name, other in others)
            print(f"| `{' '.join(words)}` | {by_library:,.0f} | {by_node} | {by_program:,.0f} | {by_python} |")
    return 0


if __name__ == "__main__":
    run_script(main)
