"""The implementations, and how a case is run by one of them."""
import functools
import os
import re
import resource
import shutil
import subprocess
import tempfile
import threading
from typing import Callable, NamedTuple

from model import Answer

SECONDS = int(os.environ.get("PTEXT_SECONDS", 1))
UUTILS, NINE = "/usr/lib/cargo/bin/coreutils", "/usr/lib/plan9/bin"


@functools.cache
def is_there(program):
    return shutil.which(program) is not None


class Side(NamedTuple):
    """An implementation: its name, the words that run a tool, the words that print its version, the letters that each
    tool lacks (None if the tool is lacking), and the version, if it is known without a command."""

    name: str
    make_words: Callable
    version_words: list
    lacks: dict
    fixed_version: str = ""

    def find_version(self):
        """The version that it prints, or an empty text."""
        if self.fixed_version:
            return self.fixed_version
        if not self.version_words or not shutil.which(self.version_words[0]):
            return ""
        did = subprocess.run(self.version_words, capture_output=True, text=True, check=False)
        found = re.search(r"\d+[:.-]?[\d.]*\d(-\d+)?", (did.stdout + did.stderr).partition("\n")[0])
        return found[0] if found else ""

    def has(self, case):
        """Whether it has the tool and each option of the case."""
        lacking = self.lacks.get(case.tool, "")
        if lacking is None or not is_there(self.make_words(case.tool)[0]):
            return False
        if self.name == "9base" and needs_more_than_plan_9(case):
            return False
        return not any(letter in lacking for letter, _ in case.options)


def needs_more_than_plan_9(case):
    """Whether a case has a form of tr, or an output file of uniq, that the pages of Plan 9's tools do not have. There
    -s of tr needs two strings."""
    if case.tool == "tr" and case.has("s") and len(case.operands) == 1:
        return True
    if case.tool == "tr":
        return any(re.search(r"\[[^\]]*[:=*]|\\[abfnrtv]", operand) for operand in case.operands)
    return case.tool == "uniq" and len(case.operands) > 1


def call_program(name):
    return lambda tool: [name, tool]


def call_in_folder(folder):
    return lambda tool: [f"{folder}/{tool}"]


EXTENSION = "r"
SIDES = {
    "system": Side("system", lambda tool: [tool], ["cut", "--version"], dict.fromkeys(["comm", "join"], EXTENSION)),
    "busybox": Side(
        "busybox",
        call_program("busybox"),
        ["busybox"],
        {"cut": "z", "paste": "z", "uniq": "z", "tr": "C", "comm": None, "join": None},
    ),
    "toybox": Side(
        "toybox",
        call_program("toybox"),
        ["toybox", "--version"],
        {"cut": "z", "paste": "z", "comm": "rz", "join": None, "tr": None},
    ),
    "uutils": Side(
        "uutils", call_in_folder(UUTILS), [f"{UUTILS}/cut", "--version"], {"cut": "n", "comm": "r", "join": "r"}
    ),
    "9base": Side(
        "9base",
        call_in_folder(NINE),
        ["dpkg-query", "-W", "-f", "${Version}", "9base"],
        {"cut": None, "paste": None, "comm": None, "uniq": "fsz", "join": "rz", "tr": "C"},
    ),
}


def find_side(name):
    """The implementation of a name, or of a path: a folder with the tools, or a program that takes the tool first."""
    if name in SIDES:
        return SIDES[name]
    path = os.path.abspath(name)
    return Side(name, call_in_folder(path) if os.path.isdir(path) else call_program(path), [], {})


def write_pieces(piece, text, into):
    """Writes the text in pieces, each of which one read returns."""
    try:
        for at in range(0, len(text), piece):
            os.write(into, text[at : at + piece])
    except BrokenPipeError:
        pass
    os.close(into)


def limit_time(process):
    """Limits the processor time of a process, so that it ends."""
    try:
        resource.prlimit(process, resource.RLIMIT_CPU, (SECONDS, SECONDS))
    except ProcessLookupError:
        pass


def read_output_file(case, folder, inputs):
    """Returns the output file of uniq after a mark: the file that is not one of the inputs (its name may be that of an
    option, as in `uniq - -d`). An empty text if there is none."""
    created = sorted(set(os.listdir(folder)) - inputs)
    if not created:
        return b""
    with open(f"{folder}/{created[0]}", "rb") as file:
        return b"output file:" + case.end + file.read()


def run(words, case, room):
    """The answer of a program: standard output and then the output file, if there is one."""
    with tempfile.TemporaryDirectory(dir=room) as folder:
        inputs = set(case.files) & set(case.inputs) - {"-"}
        for name in inputs:
            with open(f"{folder}/{name}", "wb") as file:
                file.write(case.inputs[name])
        take, give = os.pipe2(os.O_DIRECT | os.O_CLOEXEC)
        feeder = threading.Thread(target=write_pieces, args=(case.piece, case.inputs["-"], give))
        pipes = {"stdin": take, "stdout": subprocess.PIPE, "stderr": subprocess.PIPE}
        with subprocess.Popen(words, cwd=folder, env={**os.environ, "LC_ALL": "C"}, **pipes) as child:
            os.close(take)
            feeder.start()
            limit_time(child.pid)
            out, messages = child.communicate()
            feeder.join()
        out += read_output_file(case, folder, inputs)
        return Answer(out, child.returncode, messages.decode(errors="replace"))


def run_side(side, case, room):
    """The answer of an implementation. Its standard input is a file."""
    tool, *rest = case.words
    for name in set(case.files) & set(case.inputs) | {"-"}:
        with open(f"{room}/{'standard' if name == '-' else name}", "wb") as file:
            file.write(case.inputs[name])
    with open(f"{room}/standard", "rb") as standard:
        pipes = {"stdin": standard, "stdout": subprocess.PIPE, "stderr": subprocess.PIPE}
        words, surroundings = side.make_words(tool) + rest, {**os.environ, "LC_ALL": "C"}
        with subprocess.Popen(words, cwd=room, env=surroundings, **pipes) as child:
            limit_time(child.pid)
            out, messages = child.communicate()
    out += read_output_file(case, room, set(case.inputs) | {"standard"})
    for name in os.listdir(room):
        os.remove(f"{room}/{name}")
    return Answer(out, child.returncode, messages.decode(errors="replace"))
