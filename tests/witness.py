#!/usr/bin/env python3
"""Compares two builds of the program: the same output, messages, status and output file on the corpus and on random
commands. Standard input is a file and a pipe in turn. All processors are used.

  python3 tests/witness.py PROGRAM OTHER [COUNT] [SEED]

COUNT is 2,000. OTHER may have words before the program, as `qemu-aarch64-static build/aarch64/ptext-static`.
"""
import os
import random
import shlex
import subprocess
import sys
import tempfile
from concurrent.futures import ProcessPoolExecutor

sys.dont_write_bytecode = True
TOP = os.path.dirname(os.path.dirname(os.path.realpath(__file__)))
sys.path[:0] = [f"{TOP}/tools/compare", f"{TOP}/tools"]

import corpus
from generating import make_case
from project import Failed, run_script
from reading import FLAGS

SECONDS = 120
GIVEN = ".given"
# Files are made and removed again and again.
MEMORY = "/dev/shm" if os.path.isdir("/dev/shm") else None


def find_answer(program, case, is_piped, folder):
    """What a program writes and says, how it ends, and the files that are there then. The folder is empty again."""
    for name in set(case.files) & set(case.inputs) - {"-"}:
        with open(f"{folder}/{name}", "wb") as file:
            file.write(case.inputs[name])
    with open(f"{folder}/{GIVEN}", "wb+") as given:
        given.write(case.inputs["-"])
        given.seek(0)
        stdin = {"input": case.inputs["-"]} if is_piped else {"stdin": given}
        words, env = [*program, *case.words], {**os.environ, "LC_ALL": "C"}
        did = subprocess.run(
            words, cwd=folder, env=env, capture_output=True, timeout=SECONDS, check=False, **stdin
        )
    left = {}
    for name in os.listdir(folder):
        with open(f"{folder}/{name}", "rb") as file:
            left[name] = file.read()
        os.remove(f"{folder}/{name}")
    return did.returncode, did.stderr, did.stdout, left


def make_cases(count, seed):
    """The cases of the corpus, and random ones."""
    for case, _, _ in corpus.read_cases(f"{TOP}/tests/corpus"):
        yield case
    tools = list(FLAGS)
    for number in range(count):
        yield make_case(tools[number % len(tools)], random.Random(f"{seed} {number}"))


def compare(programs, count, seed, share, shares):
    """The number of cases of a share of the work, those that end without a failure, and the first that differs."""
    tried, well = 0, 0
    with tempfile.TemporaryDirectory(dir=MEMORY) as folder:
        for number, case in enumerate(make_cases(count, seed)):
            if number % shares != share:
                continue
            one, other = (find_answer(program, case, number % 2, folder) for program in programs)
            tried, well = tried + 1, well + (one[0] == 0)
            if one != other:
                return tried, well, f"FAILED: {case.words}\n{str(one)[:800]}\n{str(other)[:800]}\ninputs: {case.inputs}"
    return tried, well, None


def main():
    if len(sys.argv) not in (3, 4, 5):
        return __doc__
    programs = [shlex.split(words) for words in sys.argv[1:3]]
    programs = [[*words[:-1], os.path.realpath(words[-1])] for words in programs]
    count, seed, shares = int((sys.argv[3:] + ["2000"])[0]), (sys.argv[4:] + ["1"])[0], len(os.sched_getaffinity(0))
    with ProcessPoolExecutor(shares) as pool:
        calls = [pool.submit(compare, programs, count, seed, share, shares) for share in range(shares)]
        found = [call.result() for call in calls]
    for _, _, difference in found:
        if difference:
            raise Failed(difference)
    tried, well = (sum(numbers) for numbers in zip(*(one[:2] for one in found)))
    if not 4 * well > tried > count:
        raise Failed(f"FAILED: {well} of {tried} commands end well")
    print(f"{tried:,} commands by {sys.argv[1]} and by {sys.argv[2]}: none differs; {well:,} end with status 0")
    return 0


if __name__ == "__main__":
    run_script(main)
