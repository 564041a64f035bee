#!/usr/bin/env python3
"""Ratios of ptext to the system's tools, by user and system time, measured side by side in one run.

  bench/run.py PTEXT                       all of these; writes README.md's tables, means.tsv, speed.tsv and speed.svg,
                                           all beside this file; --quick over a tenth of the lines, or less, and once
                                           each, to see that it runs; --to FOLDER writes into another folder
  bench/run.py PTEXT tool                  the mean of each tool (means.py)
  bench/run.py PTEXT length                by the length of a line (lengths.py)
  bench/run.py PTEXT work                  by work (works.py)
  bench/run.py PTEXT start                 the time of a start, by each way to call it (starts.py)

Each case gives both the same input, in turn and five times, and the best of each counts. The outputs are compared
first. Where valgrind is there, the instructions of ptext in user space are counted, too: they are the same on every
run, which times are not. With --against OTHER the other side is another build of ptext.
"""

import argparse
import os
import sys
import tempfile

sys.dont_write_bytecode = True
HERE = os.path.dirname(os.path.realpath(__file__))
sys.path.insert(1, f"{os.path.dirname(HERE)}/tools")

import lengths
import means
import starts
import works
from project import run_script

PARTS = {"tool": means.run, "length": lengths.run, "work": works.run, "start": starts.run}


def keep_table(path, part, text):
    """Puts the table of this part between its two marks; a file without them gets them at its end."""
    begin, end = f"<!-- begin by {part}: written by bench/run.py -->\n", f"<!-- end by {part} -->\n"
    old = ""
    if os.path.exists(path):
        with open(path, encoding="utf-8") as file:
            old = file.read()
    front, _, rest = old.partition(begin)
    with open(path, "w", encoding="utf-8") as file:
        file.write(front + begin + text + end + rest.partition(end)[2])


def main():
    parser = argparse.ArgumentParser(description="Ratios of ptext to the system's tools.")
    parser.add_argument("--against", metavar="OTHER", help="another build of ptext, instead of the system's tools")
    parser.add_argument("--quick", action="store_true", help="few lines, each command once")
    parser.add_argument("--to", metavar="FOLDER", default=HERE, help="where tables, data and chart are written")
    parser.add_argument("ptext", help="the program")
    parser.add_argument("part", nargs="?", choices=PARTS, help="none: all")
    given = parser.parse_args()
    ptext = os.path.abspath(given.ptext)
    other = [os.path.abspath(given.against)] if given.against else []
    os.makedirs(given.to, exist_ok=True)
    for part in [given.part] if given.part else PARTS:
        with tempfile.TemporaryDirectory() as folder:
            text = PARTS[part](folder, ptext, other, given.quick, given.to)
        keep_table(os.path.join(given.to, "README.md"), part, text)


if __name__ == "__main__":
    run_script(main)
