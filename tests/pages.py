#!/usr/bin/env python3
"""Lints the manual pages, and compares them, and the completion of bash, with the program: its options, its messages
and its version.

  python3 tests/pages.py PROGRAM

The lint is left out if there is no mandoc, and the completion if there is no bash, each with a message.
"""
import glob
import os
import re
import shutil
import string
import subprocess
import sys
import tempfile

sys.dont_write_bytecode = True
sys.path.insert(0, os.path.join(os.path.dirname(os.path.dirname(os.path.realpath(__file__))), "tools"))

import manual
from examples import FILES, TOP, is_page
from names import NAMES as TOOLS
from project import Failed, read_text, run_script

COMPLETED = [
    ("ptext ", TOOLS),
    ("ptext pa", ["paste"]),
    ("ptext cut -f ", []),
    ("ptext cut -sf ", []),
    ("ptext cut -f1 -", ["-b", "-c", "-d", "-f", "-n", "-s", "-z"]),
    ("ptext cut -f 1 man/ptext-c", ["man/ptext-comm.1", "man/ptext-cut.1"]),
    ("ptext tr -d ", []),
    ("ptext join -a ", ["1", "2"]),
    ("ptext join -rv ", ["1", "2"]),
    ("ptext comm f -", []),
    ("ptext uniq -- -", []),
]
# Findings of the lint that are intended: the pages name each other before they are installed, and their version in the
# footer.
MEANT = re.compile(
    r"STYLE: (referenced manual not found|operating system explicitly specified)|^mandoc: outdated mandoc.db"
)


def find_macros_in_headings():
    """The headings of pages with a word of plain text that mdoc takes for a macro, as `In`."""
    found = []
    for file in [name for name in FILES if is_page(name)]:
        lines = re.findall(r"^\.S[hs] [^\"\n]*\b[A-Z][a-z]\b.*$", read_text(f"{TOP}/{file}"), re.M)
        found += [f"{file}: quote this heading, since it contains the name of a macro: {line}\n" for line in lines]
    return "".join(found)


def lint_pages():
    """The findings of mandoc in the pages, or nothing if there is no mandoc."""
    if not shutil.which("mandoc"):
        print("left out: the lint of the pages (there is no mandoc)")
        return ""
    with tempfile.TemporaryDirectory() as room:
        with open(f"{room}/{manual.NAME}", "w", encoding="utf-8") as made:
            made.write(manual.make_page())
        words = ["mandoc", "-Tlint", "-Wstyle", *sorted(glob.glob(f"{TOP}/man/*.[13]")), made.name]
        # (In one stream a line of the one kind could begin within a line of the other.)
        did = subprocess.run(words, capture_output=True, text=True, check=False)
    return "".join(line for line in (did.stdout + did.stderr).splitlines(keepends=True) if not MEANT.search(line))


def find_other_versions():
    """The pages, the list of changes and the README that do not name the version of the file VERSION."""
    version = read_text(f"{TOP}/VERSION").strip()
    found = []
    named = [("CHANGELOG.md", f"## {version}\n")]
    named += [("README.md", name) for name in (f"ptext_{version}-1_amd64.deb", f"ptext-{version}-linux")]
    for file, wanted in [*((page, f".Os ptext {version}\n") for page in FILES if is_page(page)), *named]:
        found += [] if wanted in read_text(f"{TOP}/{file}") else [f"{file} does not name version {version}\n"]
    return "".join(found)


def find_letters_of_program(program, tool):
    """The letters that the program does not call unknown."""
    words = [[program, tool, f"-{letter}"] for letter in string.ascii_letters + string.digits]
    how = {"stdin": subprocess.DEVNULL, "capture_output": True, "text": True, "check": False}
    said = [subprocess.run(command, **how).stderr for command in words]
    return {command[2][1] for command, text in zip(words, said) if "unknown option" not in text}


def find_letters_of_page(tool):
    items = re.findall(r"^\.It Fl (.*)$", read_text(f"{TOP}/man/ptext-{tool}.1"), re.M)
    return {letter for item in items for letter in re.findall(r"\b\w\b", item.partition(" Ar ")[0])}


def complete(words):
    """The completions of bash after these words."""
    text = f'. "{TOP}/completion/ptext"; COMP_WORDS=("$@"); COMP_CWORD=$(($# - 1)); _ptext; echo "${{COMPREPLY[@]}}"'
    did = subprocess.run(["bash", "-c", text, "bash", *words], cwd=TOP, capture_output=True, text=True, check=False)
    return did.stdout.split()


def compare_options(program):
    """The differences of the pages and of the completion from the options of the program."""
    found = []
    if not shutil.which("bash"):
        print("left out: the completion (there is no bash)")
    for tool in TOOLS:
        taken = find_letters_of_program(program, tool)
        if find_letters_of_page(tool) != taken:
            found.append(f"the options of man/ptext-{tool}.1 are not those of the program, {sorted(taken)}\n")
        if shutil.which("bash") and set(complete(["ptext", tool, "-"])) != {f"-{letter}" for letter in taken}:
            found.append(f"the completion of {tool} has not the options of the program, {sorted(taken)}\n")
    for text, wanted in COMPLETED if shutil.which("bash") else []:
        if sorted(complete(text.split(" "))) != sorted(wanted):
            found.append(f"completion of `{text}`: {complete(text.split(' '))}, wanted {wanted}\n")
    return "".join(found)


def make_pattern(item):
    """A message of a page as a pattern, in which each placeholder matches any text."""
    text, space = "", ""
    words = iter(item.split())
    for word in words:
        if word in ("No", "Ns"):
            space = "" if word == "Ns" else space
            continue
        text += ("" if word in (":", ",") else space) + (".*" if word == "Ar" and next(words) else re.escape(word))
        space = " "
    return text


def find_lacking_messages():
    """Messages that a test wants and ptext.1 has not, and kinds of refused strings that ptext-tr.1 has not."""
    texts = {}
    for name in ["man/ptext.1", "man/ptext-tr.1", "tests/refused.txt", "tests/program.sh"]:
        texts[name] = read_text(f"{TOP}/{name}")
    forms = [make_pattern(item) for item in re.findall(r"^\.It (.*: .*)$", texts["man/ptext.1"], re.M)]
    rows = [line.partition("|")[0] for line in texts["tests/refused.txt"].splitlines() if not line.startswith("#")]
    cases = re.findall(r"^want '.*' '(.+)'$", texts["tests/program.sh"], re.M)
    wanted = [line for row in cases for line in row.split("\\n") if line]
    lacking = [line for line in rows + wanted if not any(re.fullmatch(form, line) for form in forms)]
    kinds = {line.rpartition(" ")[2] for line in rows if "wrong string" in line}
    lacking += [kind for kind in sorted(kinds) if f"\n.It {kind}\n" not in texts["man/ptext-tr.1"]]
    return "".join(f"not in the pages: {line}\n" for line in lacking)


def main():
    if len(sys.argv) != 2:
        return __doc__
    program = os.path.abspath(sys.argv[1])
    if not os.access(program, os.X_OK):
        raise Failed(f"there is no program {program}")
    found = lint_pages() + find_macros_in_headings() + find_other_versions()
    found += compare_options(program) + find_lacking_messages()
    print(found or "the pages are as the program is")
    return 1 if found else 0


if __name__ == "__main__":
    run_script(main)
