#!/usr/bin/env python3
"""Checks what documents name: the definitions, tests and cases of docs/POSIX.md, modules, types and paths; and that the
README has the numbers of bench/README.md.

  python3 tests/references.py
"""
import glob
import math
import os
import re
import sys

sys.dont_write_bytecode = True
sys.path.insert(0, os.path.join(os.path.dirname(os.path.dirname(os.path.realpath(__file__))), "tools"))

from examples import FILES, TOP
from project import read_text

NAMING = [f"docs/{name}.md" for name in ("proofs", "PROVED", "DECISIONS")]


def compare_speed():
    """The numbers of the README that are not those of bench/README.md: rows of its table, and how much faster than
    GNU's tools the commands are, as a geometric mean and at least."""
    said, measured = (read_text(f"{TOP}/{file}") for file in ("README.md", "bench/README.md"))
    works = measured.partition("## By work")[2].partition("**geometric mean**")[0]
    gains = [1 / float(ratio) for ratio in re.findall(r"^\| `.*?\| (\d[\d.]*) \|", works, re.M)]
    mean, least = math.exp(sum(map(math.log, gains)) / len(gains)), min(gains)
    wanted = [f"{mean:.1f} times as fast", f"the geometric mean of {len(gains)} commands"]
    wanted += [f"the least is {least:.1f} times"]
    found = [f"README.md does not say: {words}\n" for words in wanted if words not in re.sub(r"\s+", " ", said)]
    rows = re.findall(r"^(\| `.* \| [\d,]+ \| [\d,]+ \|)$", said, re.M)
    return "".join(found + [f"not a row of bench/README.md: {row}\n" for row in rows if row not in measured])


def find_lacking_names():
    """Definitions, rows, tests and cases that docs/POSIX.md names and that are not there."""
    text = read_text(f"{TOP}/docs/POSIX.md")
    cases = read_text(f"{TOP}/tests/program.sh")

    def holds(pattern, words):
        paths = glob.glob(f"{TOP}/crates/{pattern}", recursive=True)
        return any(re.search(words, read_text(path), re.M) for path in paths)

    found = set(re.findall(r"`([A-Z]\w+)\.(\w+)`", text)) - {("File", "name")}
    begin = r"^(abbrev )?(pub )?(unfoldable )?(pub )?(record |data )?"
    # (What POSIX is compared with is part of the promise, or of a law.)
    files = ("*/specs/{}.antt", "*/specs/Laws/{}.antt")
    lacking = [f"{one}.{two}" for one, two in found
               if not any(holds(file.format(one), rf"{begin}{two}\b") for file in files)]
    rows = set(re.findall(r"`(\w+Examples)`", text)) - {"FileExamples"}
    lacking += [name for name in rows if not glob.glob(f"{TOP}/crates/pt*tests/proofs/**/{name}.antt", recursive=True)]
    tests = set(re.findall(r"`(pt\w+)::(\w+)::(\w+)`", text))
    lacking += ["::".join(test) for test in tests if not holds(f"{test[0]}/src/{test[1]}.rt", rf"^fn {test[2]}\b")]
    # The name of a case comes after the test that has it.
    for crate, module, case in re.findall(r'`(pt\w+)::(\w+)::\w+`, "([^"]*)"', text):
        lacking += [] if holds(f"{crate}/src/{module}.rt", f'"{re.escape(case)}"') else [f"{crate}::{module}: {case}"]
    # Titles come after program.sh, up to the end of a cell or a sentence.
    for titles in re.findall(r'program\.sh, ("[^|.;`]*")', text):
        lacking += [title for title in re.findall(r'"([^"]*)"', titles) if f'same "{title}"' not in cases]
    return "".join(f"docs/POSIX.md names what is not there: {name}\n" for name in sorted(lacking))


def find_lacking_paths():
    """Paths in crates/ that a text names, and modules, types and definitions that NAMING does, that are not there."""
    paths = glob.glob(f"{TOP}/crates/*/[ps]*/**/*.*t*", recursive=True)
    known = {os.path.basename(path).partition(".")[0] for path in paths}
    for path in [known_path for known_path in paths if "/proofs/" not in known_path]:
        known.update(re.findall(r"\b[A-Z]\w+", read_text(path)))
    found = []
    for file in [name for name in FILES if name.endswith(".md")]:
        text = read_text(f"{TOP}/{file}")
        for path in re.findall(r"\b(?:crates/|(?<=`)pt[a-z]+/)[\w/*.-]*[\w*]", text):
            ends = [f"{TOP}/crates/{path.removeprefix('crates/')}{end}" for end in ("", ".rt", ".antt")]
            # (The files that checks keep are there only after a check.)
            is_there = path.endswith("/out") or any(glob.glob(pattern) for pattern in ends)
            found += [] if is_there else [f"{file} names a path that is not there: {path}\n"]
        # Paths in any crate, except patterns such as `src/NAME.rt`.
        for path in re.findall(r"`((?:src|specs|proofs|must-fail(?:-release)?)/[\w/.-]+)`", text):
            ends = [f"{TOP}/crates/*/{path}{end}" for end in ("", ".rt", ".antt")]
            is_pattern = re.search(r"\b(NAME|PATH|A/B)\b", path)
            is_there = is_pattern or any(map(glob.glob, ends))
            found += [] if is_there else [f"{file} names a path that is not there: {path}\n"]
        spans = " ".join(re.findall(r"`[^`\n]+`", text)) if file in NAMING else ""
        words = set(re.findall(r"\b[A-Z][a-z]\w+", spans))
        found += [f"{file} names what is not there: {word}\n" for word in sorted(words - known)]
    return "".join(found)


def main():
    found = compare_speed() + find_lacking_names() + find_lacking_paths()
    print(found or "what documents name is there")
    return 1 if found else 0


if __name__ == "__main__":
    sys.exit(main())
