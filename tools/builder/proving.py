"""Proves crates: by the gate itself (`rt ci`), on a copy of these crates without their wrong bodies. The gate of some
kits keeps what it proved, beside the toolchain, under checksums of all that it read. Then nothing that was proved once
on this machine is proved again, whether by `make`, by `make test` or in another clone.

One run of the gate gives each crate one processor while other crates wait to be proved. If the gate keeps what it
proved, crates that do not depend on each other are therefore proved first, each in a run of its own, all at the same
time, and each run uses two processors. If there are too few for that, the largest crate has two, and each of the others
one. The last run proves the rest. If the gate keeps nothing, one run does all.

In `make test`, whose gate has just proved all crates, they are not proved again, whatever the kit keeps.
"""
import os
import re
import shutil
import subprocess
import time
from concurrent.futures import ThreadPoolExecutor, as_completed

from project import TOP, Failed, find_below, read_text, read_uses, say

# The message of the gate after a crate is proved. (None of these crates has tests.)
PROVED = re.compile(r"rt: (\w+) (proved|is kept)\b")
# Other messages that are shown at once: the gate waits, or nothing can be kept.
SHOWN = re.compile(r"rt: (note: .*(kept|disk)|.*waiting for)")


class Crates:
    """The libraries below a crate, lowest first, and those that each crate of the project uses."""

    def __init__(self, crate):
        self.crate, self.uses = crate, read_uses()
        below = find_below(crate, self.uses)
        self.names = [name for name in self.uses if name in below]

    def make_words(self, kit, room, top):
        """The words with which the compiler takes the crate, whose file is `top`, and the libraries below it."""
        folders = {name: f"{room}/crates/{name}/out/rlib" for name in self.names}
        words = ["--crate-name", self.crate, top]
        for name in ["std", *self.uses[self.crate]]:
            words += ["--extern", f"{name}={folders.get(name, f'{kit}/rlibs')}/{name}.rlib"]
        for folder in [*folders.values(), f"{kit}/rlibs"]:
            words += ["-L", f"dependency={folder}"]
        return [*words, "--antt-project", f"{kit}/rattle/logic/antt-project.json"]


def leave_out(folder, names):
    """The names in a crate's folder that are no part of the program."""
    is_crate = os.path.dirname(folder) == f"{TOP}/crates"
    return {name for name in names if is_crate and (name == "out" or name.startswith("must-fail"))}


def copy_crates(crates, room):
    """Makes a repository that has these crates only."""
    # (By this folder the gate finds the top of a repository.)
    os.makedirs(f"{room}/.git")
    for name in crates.names:
        shutil.copytree(f"{TOP}/crates/{name}", f"{room}/crates/{name}", symlinks=True, ignore=leave_out)
    with open(f"{room}/crates.txt", "w", encoding="ascii") as file:
        file.write("".join(f"{name}: {' '.join(crates.uses[name])}\n" for name in crates.names))
    shutil.copy2(f"{TOP}/HANDLES", room)


def find_kept():
    """The folder in which the gate keeps what it proves for its next run on this machine, and whether it can."""
    rt = os.path.realpath(shutil.which("rt"))
    # Only a gate that keeps what it proved has the option to prove it anew.
    if "--anew" not in read_text(rt):
        return "", False
    # (As in /opt/rattle-kept for /opt/rattle/bin/rt.)
    place = os.path.normpath(rt + "/../../../rattle-kept")
    if os.path.isdir(place):
        return place, os.stat(place).st_uid == os.geteuid()
    return place, os.access(os.path.dirname(place), os.W_OK)


def keeps():
    return find_kept()[1]


def is_in_gate(crates):
    """Whether `make test` has just proved these crates, in this folder. It builds all else from what it proved."""
    made = [f"{TOP}/crates/{name}/out/rlib/{name}.rlib" for name in crates.names]
    return "PTEXT_GATE" in os.environ and all(os.path.exists(rlib) for rlib in made)


def describe_kept(crates):
    """A part of a sentence: which crates are proved again."""
    if is_in_gate(crates):
        return "the gate has just done that"
    place, is_kept = find_kept()
    if is_kept:
        return "nothing that was proved on this machine is proved again"
    return f"you cannot write to {place}, so all is proved anew" if place else "all is proved anew"


def measure(folder):
    """The size of all files of a folder, in bytes."""
    return sum(os.path.getsize(f"{at}/{name}") for at, _, names in os.walk(folder) for name in names)


def group(crates, room):
    """The crates that are proved first, each in a run of its own: lists of crates that do not depend on each other,
    lowest first. Each list begins with its largest crate."""
    height = {}
    for name in crates.names:
        height[name] = 1 + max((height[other] for other in crates.uses[name] if other in height), default=0)
    by_size = sorted(crates.names, key=lambda name: -measure(f"{room}/crates/{name}"))
    found = [[name for name in by_size if height[name] == number] for number in sorted(set(height.values()))]
    return [names for names in found if len(names) > 1]


class Progress:
    """Reports the progress of the runs of the gate."""

    def __init__(self, count):
        self.began, self.count, self.proved = time.monotonic(), count, []

    def report(self, line):
        found = PROVED.match(line)
        if found and found[1] not in self.proved:
            self.proved.append(found[1])
            when = " before" if found[2] == "is kept" else ""
            say(f"{self.seconds():5.0f} s  {found[1]}: proved{when} ({len(self.proved)} of {self.count})")
        elif SHOWN.match(line):
            say(line.rstrip("\n"))

    def seconds(self):
        return time.monotonic() - self.began


def start(names, room, is_narrow):
    """Starts a run of the gate on these crates, or on all if none is named. A narrow run uses one processor."""
    # The temporary files of a run that is stopped are removed with the room. (If CI is set, the gate takes no names.)
    words = {name: os.environ[name] for name in os.environ if name != "CI"} | {"TMPDIR": os.path.dirname(room)}
    streams = {"stdin": subprocess.DEVNULL, "stdout": subprocess.PIPE, "stderr": subprocess.STDOUT}
    words |= {"RT_JOBS": "1"} if is_narrow else {}
    return subprocess.Popen(["rt", "ci", *names], cwd=room, env=words, text=True, errors="replace", **streams)


def follow(child, progress):
    """Follows a run to its end."""
    said = []
    for line in child.stdout:
        said.append(line)
        progress.report(line)
    if child.wait():
        told = "".join(line for line in said if not line.endswith(": proved\n"))
        raise Failed(told or f"rt ci ended with {child.returncode}")


def run_gates(runs, room, progress):
    """Runs the gate on each of these lists of crates, all at once. The first run that fails ends the others."""
    is_crowded = 2 * len(runs) > len(os.sched_getaffinity(0))
    children = [start(names, room, is_crowded and names is not runs[0]) for names in runs]
    with ThreadPoolExecutor(len(runs)) as pool:
        try:
            for end in as_completed([pool.submit(follow, child, progress) for child in children]):
                end.result()
        finally:
            # If one run failed or the build was stopped, the other runs end before the room is removed.
            for child in children:
                child.terminate()


def prove(crates, place):
    """Proves these crates in a room in this place. Returns the room, which is this folder if the gate has just proved
    them in it."""
    if is_in_gate(crates):
        return TOP
    room, progress = f"{place}/room", Progress(len(crates.names))
    copy_crates(crates, room)
    first = [[[name] for name in names] for names in group(crates, room)] if keeps() else []
    for runs in [*first, [[]]]:
        run_gates(runs, room, progress)
    return room
