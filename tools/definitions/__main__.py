#!/usr/bin/env python3
"""Evaluates the definitions that the program is proved against, by the prover itself, on random commands.

  python3 tools/definitions [COUNT] [--seed NUMBER] [--partial COUNT] [--program PATH] [--keep FOLDER]

The prover computes the results of the definitions for words and inputs: output, messages, status, and the bounds of the
store. They have to be those of the definitions in Python (tools/compare/model.py), and what the program and, where
POSIX decides, the system's tools write. There are COUNT random commands; a quarter as many with parts of their inputs,
for what is decided by them; the worked examples in examples.py; and those of the standard. Only definitions are
checked, in a crate of their own: none of the program is proved. The status is 1 if something differs."""
import argparse
import os
import shutil
import sys
import tempfile

sys.dont_write_bytecode = True
HERE = os.path.dirname(os.path.realpath(__file__))
TOP = os.path.dirname(os.path.dirname(HERE))
sys.path[1:1] = [f"{TOP}/tools/compare", f"{TOP}/tools"]

from crate import check, write_crate
from lemmas import Others, describe_failures, make_lemmas
from project import Failed, run_script
from specs import Specs, parse_root
from steps import STEP_ROOTS
from terms import ROOTS

MOST_SHOWN = 10


def report(lemmas, others, differences, proved, said):
    """Prints what differs, and returns the exit status."""
    wrong = [*describe_failures(lemmas, said)]
    shown = [*differences, *wrong][:MOST_SHOWN]
    print(*shown, sep="\n", end="\n" if shown else "")
    if not proved and not wrong:
        print(said[-3000:], "the definitions themselves are refused", sep="\n")
        return 1
    compared = "".join(f"; {count} compared with {name}" for name, count in others.counts.items())
    print(f"{len(lemmas.subjects) - len(wrong)} of {len(lemmas.subjects)} lemmas as the definitions compute them{compared}")
    return 1 if wrong or differences else 0


def evaluate(given, room):
    """Writes the crate and its lemmas into a folder, checks them, and returns the exit status."""
    crate = write_crate(Specs(), [parse_root(root) for root in ROOTS + STEP_ROOTS], room)
    others = Others(given.program and os.path.abspath(given.program), room)
    partial = given.count // 4 if given.partial is None else given.partial
    lemmas, differences = make_lemmas(given.seed, given.count, partial, others)
    lemmas.write(crate)
    return report(lemmas, others, differences, *check(crate))


def main():
    words = argparse.ArgumentParser(description=__doc__, formatter_class=argparse.RawDescriptionHelpFormatter)
    words.add_argument("count", nargs="?", type=int, default=500)
    words.add_argument("--seed", type=int, default=1)
    words.add_argument("--partial", type=int, metavar="COUNT", help="the commands with parts of their inputs")
    words.add_argument("--program", metavar="PATH", help="the built program")
    words.add_argument("--keep", metavar="FOLDER", help="where the crate with the lemmas is left")
    given = words.parse_args()
    if not shutil.which("rt"):
        raise Failed("there is no rt in PATH: it is part of the toolchain, which the README names")
    if given.keep:
        return evaluate(given, given.keep)
    with tempfile.TemporaryDirectory() as room:
        return evaluate(given, room)


if __name__ == "__main__":
    run_script(main)
