#!/usr/bin/env python3
"""Runs the examples of the README, the pages and the docs.

  python3 tests/examples.py PROGRAM

An example is a line `$ COMMAND` in a block. The lines below it are its output and messages, as a terminal shows them.
The commands of one file run in their order and in one folder, in which `ptext` is PROGRAM, and so is `build/ptext`, and
`ptext-parts` is that of the source. A line `bash$ COMMAND` needs bash. A line `gnu$ COMMAND` is an example of GNU's
tools, and `busybox$ COMMAND` one of busybox's; `toybox$`, `uutils$` and `9base$` are of three others. If the system has
another version than the documents compare with, their examples are left out, with a message.
"""
import glob
import os
import re
import shutil
import subprocess
import sys
import tempfile

sys.dont_write_bytecode = True
sys.path.insert(0, os.path.join(os.path.dirname(os.path.dirname(os.path.realpath(__file__))), "tools"))

from project import TOP, Failed, read_text, run_script

DOCS = ["README.md", "CONTRIBUTING.md", "CHANGELOG.md", "bench/README.md"]
PAGES = [*glob.glob("man/*.[13]", root_dir=TOP), *glob.glob("docs/*.md", root_dir=TOP)]
FILES = [*[file for file in DOCS if os.path.exists(f"{TOP}/{file}")], *sorted(PAGES)]
VERSIONS = {
    "gnu": (["cut", "--version"], "(GNU coreutils) 9.1\n"),
    "busybox": (["busybox"], "BusyBox v1.35."),
    "toybox": (["toybox", "--version"], "toybox 0.8.9"),
    "uutils": (["/usr/lib/cargo/bin/coreutils/cut", "--version"], "0.0.17\n"),
    "9base": (["dpkg-query", "-W", "-f", "${Version}", "9base"], "1:6-13"),
}
PROMPT = re.compile(rf"({'|'.join(VERSIONS)}|bash|)\$ (.*)")
SIGNS = {r"\e": "\\", r"\(aq": "'", r"\(dq": '"', r"\(ga": "`", r"\(ha": "^", r"\(ti": "~", r"\-": "-", r"\&": ""}


def is_page(file):
    return file.endswith((".1", ".3"))


def split_page(text):
    for block in re.findall(r"^\.Bd -literal.*?\n(.*?)^\.Ed$", text, re.M | re.S):
        yield re.sub(r"\\(?:\(..|.)", lambda found: SIGNS[found[0]], block)


def split_text(text):
    for block in re.findall(r"(?:^(?: {4}.*)?\n)+", text, re.M):
        yield re.sub(r"^ {4}", "", block, flags=re.M).strip("\n") + "\n"


def find_examples(file):
    """The examples of a file: the prompt, the command, and its output and messages."""
    text = read_text(f"{TOP}/{file}")
    for block in (split_page if is_page(file) else split_text)(text):
        found = None
        for line in block.splitlines(keepends=True):
            prompt = PROMPT.match(line)
            if prompt and found:
                yield found
            if prompt:
                found = (prompt[1], prompt[2], "")
            elif found:
                found = (found[0], found[1], found[2] + line)
        if found:
            yield found


def can_run(side):
    """Whether the examples of this prompt can be run."""
    if side == "bash":
        return bool(shutil.which("bash"))
    words, version = VERSIONS[side]
    if not shutil.which(words[0]):
        return False
    return version in subprocess.run(words, capture_output=True, text=True, check=False).stdout


def run_examples(file, program, known):
    """The examples of a file: how many were as wanted, and how many were not."""
    good = bad = 0
    with tempfile.TemporaryDirectory() as room:
        os.mkdir(f"{room}/bin")
        os.makedirs(f"{room}/here/build")
        os.symlink(program, f"{room}/bin/ptext")
        os.symlink(f"{TOP}/bindings/python/ptext/parts.py", f"{room}/bin/ptext-parts")
        os.symlink(program, f"{room}/here/build/ptext")
        surroundings = {**os.environ, "PATH": f"{room}/bin:{os.environ['PATH']}", "LC_ALL": "C"}
        for side, command, wanted in find_examples(file):
            if side and not known[side]:
                continue
            pipes = {"stdin": subprocess.DEVNULL, "stdout": subprocess.PIPE, "stderr": subprocess.STDOUT}
            shell = "bash" if side == "bash" else "sh"
            did = subprocess.run([shell, "-c", command], cwd=f"{room}/here", env=surroundings, check=False, **pipes)
            said = did.stdout.decode(errors="replace")
            if said == wanted:
                good += 1
            else:
                bad += 1
                print(f"FAILED: {file}: {command}\nwanted:\n{wanted}found:\n{said}")
    return good, bad


def main():
    if len(sys.argv) != 2:
        return __doc__
    program = os.path.abspath(sys.argv[1])
    if not os.access(program, os.X_OK):
        raise Failed(f"there is no program {program}")
    known = {side: can_run(side) for side in [*VERSIONS, "bash"]}
    for side in [other for other in known if not known[other]]:
        print(f"left out: the examples of {side} (the system does not have it, or has another version)")
    counts = [run_examples(file, program, known) for file in FILES]
    good, bad = (sum(numbers) for numbers in zip(*counts))
    print(f"{good} of {good + bad} examples as wanted")
    return 1 if bad else 0


if __name__ == "__main__":
    run_script(main)
