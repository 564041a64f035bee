#!/usr/bin/env python3
"""Tests a file that is each tool by its own name: by any path or link, it answers as the program does with the
last part of that name before the words. A name that is no tool's is refused, and so is an empty one.

  python3 tests/by_name.py FILE PROGRAM
"""
import os
import subprocess
import sys
import tempfile

sys.dont_write_bytecode = True
HERE = os.path.dirname(os.path.realpath(__file__))
sys.path.insert(0, f"{os.path.dirname(HERE)}/tools")

from names import LISTED, NAMES
from project import Failed, run_script

GIVEN = b"b 1\na 2\na 2\nc\xff3\n"
NO_TOOL = ["", "/", "cat", "Cut", "cut.", "ptext", "./", "bin/cut/", "\udcff", "a b", "-c"]
# Words that some tool takes and others refuse: none, options, values with blanks, no UTF-8, and 512 operands.
WORDS = [[], ["-c"], ["-c", "1"], ["-d", " ", "-f", "2"], ["a-b", "x"], ["-", "-"], ["-s", "-"], ["-", "none"], ["-q"]]
WORDS += [[""], ["1 2", "\udcff"], ["--", "-", "f"], ["-c", "1", *["f"] * 511], ["f"] * 512]


def read_refused():
    """The words of tests/refused.txt that a tool refuses."""
    with open(f"{HERE}/refused.txt", encoding="utf-8") as file:
        rows = [line.rstrip("\n").split("|")[2:] for line in file if not line.startswith("#")]
    words = [[word.encode().decode("unicode_escape") for word in row[:-1]] for row in rows]
    return [row for row in words if row and row[0] in NAMES]


def run(words, path, room):
    """What a program writes and says, and how it ends. The first of the words is the name by which it is called."""
    did = subprocess.run(words, executable=path, cwd=room, input=GIVEN, capture_output=True, check=False)
    return did.stdout, did.stderr, did.returncode


def check(file, program, name, words, room):
    found = run([name, *words], file, room)
    wanted = run(["ptext", os.path.basename(name) if "/" in name else name, *words], program, room)
    if found != wanted:
        raise Failed(f"FAILED: called as {name!r} with {words[:9]}: {found}, wanted {wanted}")


def check_links(file, room):
    """Calls it through links, as a shell does it."""
    for path in ("bin", "bin/more"):
        os.mkdir(f"{room}/{path}")
    os.link(file, f"{room}/bin/whole")
    for link, to in [("bin/cut", "whole"), ("bin/more/cut", "../cut"), ("bin/none", "cut")]:
        os.symlink(to, f"{room}/{link}")
    refused = f"ptext: first word: {LISTED}\n"
    for command, wanted in [
        ("bin/cut -c 1", "a\n"),
        (f"{room}/bin/cut -c 1", "a\n"),
        ("bin/more/cut -c 1", "a\n"),
        ("PATH=bin && cut -c 1", "a\n"),
        ("bin/cut", "cut: one of -b, -c and -f is needed\n"),
        ("bin/none -c 1", refused),
        ("bin/whole cut -c 1", refused),
    ]:
        did = subprocess.run(["sh", "-c", command], cwd=room, input=b"ab\n", capture_output=True, check=False)
        said = (did.stdout + did.stderr).decode()
        if said != wanted or did.returncode != (0 if wanted == "a\n" else 2):
            raise Failed(f"FAILED: {command}: {said}, status {did.returncode}, wanted {wanted}")


def main():
    if len(sys.argv) != 3:
        return __doc__
    file, program = (os.path.realpath(path) for path in sys.argv[1:])
    cases = [(name, words) for tool in NAMES for name in (tool, f"/usr/bin/{tool}", f"./{tool}") for words in WORDS]
    cases += [(name, words) for name in NO_TOOL for words in WORDS[:4]]
    cases += [(row[0], row[1:]) for row in read_refused()]
    # (A hard link is on the same disk.)
    with tempfile.TemporaryDirectory(dir=os.path.dirname(file)) as room:
        with open(f"{room}/f", "wb") as named:
            named.write(GIVEN)
        for name, words in cases:
            check(file, program, name, words, room)
        check_links(file, room)
    print(f"{len(cases)} calls by a name as by the program, and through links")
    return 0


if __name__ == "__main__":
    run_script(main)
