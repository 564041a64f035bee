#!/usr/bin/env python3
"""Compares the built program with the definitions and with other implementations, on random words and inputs, in the C
locale.

  python3 tools/compare PROGRAM [COUNT] [--against NAME] [--tool TOOL] [--without TOOL] [--seed NUMBER] [--only NUMBER]
  python3 tools/compare PROGRAM --corpus FOLDER

The output, the messages and the status of the program have to be those of the definitions, which model.py computes.
NAME is system, busybox, toybox, uutils, 9base, all, a folder with the tools, or a program that takes the name of a tool
as its first word. Each difference of an implementation from the definitions is of one of these kinds. For each rule
that it breaks, the smallest command that was found is shown.

  left open        POSIX says that the result is unspecified, or says nothing of it (points.py)
  extension        POSIX has no such option
  undefined input  an input for which POSIX gives no result, such as one that is no text file
  wrong by POSIX   a sentence of the standard decides the case (rules.py)
  unjudged         none of the above applies

An implementation does not run a command that the definitions refuse, or one with a tool or an option that it lacks.
All processors are used. Every ten seconds a line says how far it is. If it is stopped, what was counted until then is
shown. Cases that are unjudged are shown as they are found, and at the end.
The status is 1 if the program differs from the definitions, or if a difference of GNU's tools of the known version is
unjudged.
"""
import argparse
import os
import random
import re
import signal
import sys
import tempfile

sys.dont_write_bytecode = True
TOP = os.path.dirname(os.path.dirname(os.path.dirname(os.path.realpath(__file__))))
sys.path.insert(0, f"{TOP}/tools")

import corpus
from generating import make_case
from model import compute_answer
from points import POINTS
from project import Failed, run_script
from reading import FLAGS
from report import format_for_printf, format_head
from running import SIDES, Side, call_program, find_side, run
from tallying import Stopped, Work, shorten, stop

KNOWN_VERSION = "9.1"


def check_headings():
    """Raises Failed if docs/REPLACING.md lacks headings that points.py names."""
    with open(f"{TOP}/docs/REPLACING.md", encoding="utf-8") as file:
        known = re.findall(r"^#+ (.*)$", file.read(), re.M)
    lacking = [point.heading for point in POINTS if point.heading and point.heading not in known]
    if lacking:
        raise Failed(f"not in docs/REPLACING.md: {', '.join(lacking)}")


def describe_difference(program, case, room):
    """A report of how the program differs from the definitions, or None."""
    wanted, got = compute_answer(case), run([program, *case.words], case, room)
    if wanted == got:
        return None
    answers = {"wanted": wanted, "found": got}.items()
    rows = [f"{name}: {one.status} {shorten(one.out)} {one.messages!r}" for name, one in answers]
    inputs = {name: shorten(text) for name, text in case.inputs.items() if name in case.files}
    return f"FAILED: {case.words} in pieces of {case.piece}\n" + "\n".join(rows) + f"\ninputs: {inputs}\n"


def make_cases(given, share, shares):
    """The random cases of a share of the work, each with its number."""
    tools = [given.tool] if given.tool else list(FLAGS)
    for number in range(share, given.count, shares) if given.only is None else [given.only] * (not share):
        yield number, make_case(tools[number % len(tools)], random.Random(f"{given.seed} {number}"))


def check_corpus(program, folder, room):
    """Runs the corpus and returns the exit status."""
    cases, bad = corpus.read_cases(folder), 0
    for case, wanted, title in cases:
        found = describe_difference(program, case, room)
        if compute_answer(case).out != wanted:
            shown = f"{case.words} {format_for_printf(wanted)}"
            found = f"FAILED: the definitions do not give what the corpus has: {shown}\n"
        if found:
            bad += 1
            print(f"{title}: {found}")
    print(f"{len(cases) - bad} of {len(cases)} cases of the corpus as wanted")
    return 1 if bad or not cases else 0


def find_sides(given, program):
    """The program itself, and those of the requested implementations that are installed."""
    names = list(SIDES) if given.against == "all" else [given.against]
    sides = [find_side(name) for name in names]
    if given.without:
        sides = [side._replace(lacks={**side.lacks, given.without: None}) for side in sides]
    with open(f"{TOP}/VERSION", encoding="ascii") as file:
        version = file.read().strip()
    ours = Side("ptext", call_program(program), [], {})._replace(fixed_version=version)
    there = [side for side in sides if side.find_version() or side.name not in SIDES]
    for side in [side for side in sides if side not in there]:
        print(f"left out: {side.name} (the system does not have it)")
    return [ours, *there]


def compare(given, program, room):
    """Runs the random cases and returns the exit status."""
    print(f"seed {given.seed}", flush=True)
    all_work = Work(
        find_sides(given, program),
        lambda share, shares: make_cases(given, share, shares),
        lambda case, folder: describe_difference(program, case, folder),
        room,
    )
    is_stopped = all_work.run(given.count)
    tallies = all_work.tallies
    for tally in tallies if not given.brief else []:
        print(*tally.list_details(), sep="\n", flush=True)
    if not given.brief:
        print(format_head(), *(tally.format_row() for tally in tallies), sep="\n")
    bad, count = tallies[0].failed, tallies[0].tried
    print(f"{count - bad} of {count} cases as the definitions have them")
    if given.keep:
        corpus.add_cases(given.keep, [case for tally in tallies for case in tally.list_wrong_cases()])
    if is_stopped:
        print("stopped: of each implementation, the cases that were tried until then are counted")
        return 130
    known = [tally for tally in tallies if tally.side.name == "system" and tally.side.find_version() == KNOWN_VERSION]
    return 1 if bad or any(tally.unjudged for tally in known) else 0


def main():
    words = argparse.ArgumentParser(description=__doc__, formatter_class=argparse.RawDescriptionHelpFormatter)
    words.add_argument("program")
    words.add_argument("count", nargs="?", type=int, default=1000)
    words.add_argument("--against", default="system", metavar="NAME")
    words.add_argument("--tool", choices=list(FLAGS))
    words.add_argument("--without", choices=list(FLAGS), help="a tool that only PROGRAM runs")
    words.add_argument("--seed", type=int, default=random.randrange(1 << 30))
    words.add_argument("--only", type=int, metavar="NUMBER", help="one case of a seed")
    words.add_argument("--brief", action="store_true", help="prints failures and the last line only")
    words.add_argument("--corpus", metavar="FOLDER", help="runs the cases of a corpus")
    words.add_argument("--keep", metavar="FOLDER", help="adds the smallest wrong cases to a corpus")
    given = words.parse_args()
    check_headings()
    program = os.path.abspath(given.program)
    signal.signal(signal.SIGTERM, stop)
    with tempfile.TemporaryDirectory() as room:
        try:
            return check_corpus(program, given.corpus, room) if given.corpus else compare(given, program, room)
        except (KeyboardInterrupt, Stopped):
            return 130


if __name__ == "__main__":
    run_script(main)
