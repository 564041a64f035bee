#!/usr/bin/env python3
"""Tries the commands of docs/REPLACING.md: each of GNU's own commands is refused, and the one for it does the same. The
page that is made from it has each of them, and each of its examples.

  python3 tests/replacing.py PROGRAM
"""
import os
import re
import subprocess
import sys
import tempfile

sys.dont_write_bytecode = True
sys.path.insert(0, os.path.join(os.path.dirname(os.path.dirname(os.path.realpath(__file__))), "tools"))

import manual
from examples import TOP, can_run
from names import NAMES as TOOLS
from project import Failed, read_text, run_script

# The files f and g of the rows: sorted by lines, by both fields, and if case is ignored.
SAMPLES = {"f": "A:1 p\na:1 p\na:1 p\nb:2 q\nb:2 q\nd:4 s\n", "g": "a:1 p\nb:2 q\nc:3 r\nd:4 s\n"}


def read_rows():
    """The rows of docs/REPLACING.md for each tool: the command of GNU's tool, the one here (or ""), and the remark."""
    text = read_text(f"{TOP}/docs/REPLACING.md")
    rows = {}
    for tool in TOOLS:
        table = text.partition(f"\n### {tool}\n")[2].partition("\n#")[0]
        found = re.findall(r"^\| `(.*?)` \| (?:`(.*?)`)? ?(.*) \|$", table, re.M)
        rows[tool] = [(one.replace("\\|", "|"), two.replace("\\|", "|"), note) for one, two, note in found]
    return rows


def compare_rows(program, with_gnu):
    """The rows of docs/REPLACING.md whose first command is not refused with status 2, or whose second one does not the
    same as GNU's tools do by the first (but for blanks before a count, and case if the row says so). Also the long
    options of GNU's tools that have no row."""
    found = []
    with tempfile.TemporaryDirectory() as room:
        os.mkdir(f"{room}/bin")
        os.symlink(program, f"{room}/bin/ptext")
        surroundings = {**os.environ, "PATH": f"{room}/bin:{os.environ['PATH']}", "LC_ALL": "C"}

        def run(command, count=1):
            """The results of the command, which is run `count` times in one folder."""
            with tempfile.TemporaryDirectory(dir=room) as folder:
                for name, text in SAMPLES.items():
                    with open(f"{folder}/{name}", "w", encoding="ascii") as file:
                        file.write(text)
                how = {"cwd": folder, "env": surroundings, "stdin": subprocess.DEVNULL, "capture_output": True}
                return [subprocess.run(["sh", "-c", command], check=False, **how) for _ in range(count)]

        for tool, rows in read_rows().items():
            found += [] if len(rows) > 5 else [f"docs/REPLACING.md has no rows for {tool}\n"]
            if with_gnu:
                text = subprocess.run([tool, "--help"], capture_output=True, text=True, check=False).stdout
                options = set(re.findall(r"^ .*?(--[a-z0-9-]+)", text, re.M)) - {"--help", "--version"}
                lacks = [option for option in sorted(options) if not any(option in theirs for theirs, _, _ in rows)]
                found += [f"docs/REPLACING.md has no row for {tool} {option}\n" for option in lacks]
            for theirs, ours, note in rows:
                did = run(f"ptext {theirs}")[0]
                if did.returncode != 2 or not did.stderr or did.stdout:
                    found.append(f"docs/REPLACING.md: not refused: {theirs}\n")
                if ours:
                    # (Twice, since the first run leaves files.)
                    runs = run(ours, 2) + (run(theirs) if with_gnu else [])
                    outs = [re.sub(rb"^ +", b"", did.stdout, flags=re.M) for did in runs]
                    outs = [out.lower() for out in outs] if "lower case" in note else outs
                    if any(did.returncode or did.stderr for did in runs[:2]) or len(set(outs)) != 1:
                        found.append(f"docs/REPLACING.md: not the same as {theirs}: {ours}\n")
    return "".join(found)


def find_lost_commands():
    """The commands and the lines of code of docs/REPLACING.md that ptext-replacing(7) lacks."""
    signs = {escaped: sign for sign, escaped in manual.SIGNS.items()} | {r"\&": ""}
    page = re.sub(r"\\(?:\(..|.)", lambda found: signs.get(found[0], found[0]), manual.make_page())
    wanted = re.findall(r"^ {4}(.+)$", read_text(f"{TOP}/docs/REPLACING.md"), re.M)
    wanted += [command for rows in read_rows().values() for theirs, ours, _ in rows for command in (theirs, ours)]
    return "".join(f"ptext-replacing(7) lacks: {command}\n" for command in wanted if command not in page)


def main():
    if len(sys.argv) != 2:
        return __doc__
    program = os.path.abspath(sys.argv[1])
    if not os.access(program, os.X_OK):
        raise Failed(f"there is no program {program}")
    # (That GNU's tools are lacking is said by the examples.)
    found = compare_rows(program, can_run("gnu")) + find_lost_commands()
    print(found or "the commands of docs/REPLACING.md do what GNU's do")
    return 1 if found else 0


if __name__ == "__main__":
    run_script(main)
