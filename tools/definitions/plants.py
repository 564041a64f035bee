#!/usr/bin/env python3
"""Plants wrong definitions, one after another, and says which lemmas refuse each: a test of the generator.

  python3 tools/definitions/plants.py [COUNT] [--seed NUMBER] [--only NUMBER]..

COUNT is that of the random commands (2000), of which a tenth is tried first. The definitions are changed in a copy. The
status is 1 if a wrong definition is found by none, or if an edit does not apply."""
import argparse
import os
import re
import shutil
import sys
import tempfile
import time

sys.dont_write_bytecode = True
HERE = os.path.dirname(os.path.realpath(__file__))
TOP = os.path.dirname(os.path.dirname(HERE))
sys.path[1:1] = [f"{TOP}/tools/compare", f"{TOP}/tools"]

from crate import check, write_crate
from lemmas import Others, find_failed_lemmas, make_lemmas
from specs import LIBRARIES, Specs, parse_root
from steps import STEP_ROOTS
from terms import ROOTS


def read_plants():
    """The wrong definitions in plants.txt: what is wrong, the file, and a text in it with the wrong one."""
    with open(f"{HERE}/plants.txt", encoding="utf-8") as file:
        text = file.read()
    return re.findall(r"^(\S.*)\n  file: (.*)\n  old: (.*)\n  new: (.*)$", text, re.M)


def copy_definitions(room):
    """A copy of the definitions and the code of the libraries."""
    for crate in LIBRARIES:
        for part in ("specs", "src"):
            shutil.copytree(f"{TOP}/crates/{crate}/{part}", f"{room}/crates/{crate}/{part}")
    return f"{room}/crates"


def replace_text(path, old, new):
    """Replaces a text that the file has once. Raises ValueError if it has not."""
    with open(path, encoding="utf-8") as file:
        text = file.read()
    if text.count(old) != 1:
        raise ValueError(f"{path} has {text.count(old)} times: {old}")
    with open(path, "w", encoding="utf-8") as file:
        file.write(text.replace(old, new))


def find_refusals(crates, lemmas, room):
    """The lemmas that do not hold over the definitions below `crates`, and whether all the rest is proved."""
    crate = write_crate(Specs(crates), [parse_root(root) for root in ROOTS + STEP_ROOTS], room)
    lemmas.write(crate)
    proved, said = check(crate)
    found = find_failed_lemmas(said)
    elsewhere = [line for line in said.split("\n") if ": error" in line and not re.search(r"`\w+_\d+`", line)]
    return found, elsewhere if not proved else []


def count_kinds(names):
    """How many lemmas of each kind, and the first of each, as text."""
    kinds = {}
    for name in names:
        kinds.setdefault(name.split("_")[0], []).append(name)
    return ", ".join(f"{len(found)} {kind} (first {found[0]})" for kind, found in kinds.items())


def try_plant(plant, crates, sets, room):
    """Plants one wrong definition, says which lemmas refuse it, and takes it back. Returns whether one does."""
    title, file, old, new = plant
    path = f"{crates}/{file}.antt"
    replace_text(path, old, new)
    began, found, elsewhere = time.time(), [], []
    for lemmas in sets:
        found, elsewhere = find_refusals(crates, lemmas, room)
        if found or elsewhere:
            break
    shutil.copy(f"{TOP}/crates/{file}.antt", path)
    result = count_kinds(found) or f"NOT FOUND {elsewhere[:1] or ''}"
    print(f"{title}: {result}, of {len(lemmas.texts)}, in {time.time() - began:.0f} s", flush=True)
    return bool(found)


def main():
    words = argparse.ArgumentParser(description=__doc__, formatter_class=argparse.RawDescriptionHelpFormatter)
    words.add_argument("count", nargs="?", type=int, default=2000)
    words.add_argument("--seed", type=int, default=1)
    words.add_argument("--only", type=int, nargs="+", metavar="NUMBER", default=range(len(read_plants())))
    given = words.parse_args()
    with tempfile.TemporaryDirectory() as room:
        counts = [given.count // 10, given.count]
        sets = [make_lemmas(given.seed, count, count // 4, Others(None, room))[0] for count in counts]
        crates = copy_definitions(f"{room}/changed")
        chosen = [read_plants()[number] for number in given.only]
        lost = [plant[0] for plant in chosen if not try_plant(plant, crates, sets, f"{room}/sliced")]
    print(f"{len(given.only) - len(lost)} of {len(given.only)} found; not found: {', '.join(lost) or 'none'}")
    return 1 if lost else 0


if __name__ == "__main__":
    sys.exit(main())
