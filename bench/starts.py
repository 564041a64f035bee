"""The time of a start: `cut` of one short line, by ptext as `ptext cut` and by its own name, as each is linked beside the
program that is measured, and by GNU's cut. All are called in turn, and the median of the user and system time counts."""

import os
import shutil
import statistics

from project import Failed

STARTS = 1000
# For each way to call it: the file beside build/ptext, and whether it takes the name of the tool from its own.
WAYS = {
    "`ptext cut`": ("ptext", False),
    "`ptext cut`, static": ("ptext-static", False),
    "`cut` by its own name": ("ptext-by-name", True),
    "`cut` by its own name, static": ("ptext-by-name-static", True),
}


def find_ways(folder, ptext):
    """The path and the words of each way for which there is a file, and of GNU's cut."""
    found = {}
    for name, (file, is_by_name) in WAYS.items():
        path = os.path.join(os.path.dirname(ptext), file) if file != "ptext" else ptext
        if is_by_name and os.path.exists(path):
            path = shutil.copy(path, os.path.join(folder, f"{file}.cut"))
        if os.path.exists(path):
            found[name] = (path, ["cut"] if is_by_name else ["ptext", "cut"])
    script = os.path.join(folder, "script")
    with open(script, "w", encoding="utf-8") as file:
        file.write(f'#!/bin/sh\nexec {ptext} cut "$@"\n')
    os.chmod(script, 0o755)
    return {**found, "`cut` as a script": (script, ["cut"]), "GNU's `cut`": (shutil.which("cut"), ["cut"])}


def start(path, words, streams):
    """The seconds of user and system time of one call."""
    child = os.posix_spawn(path, [*words, "-c", "1"], {"LC_ALL": "C", "PATH": os.defpath}, file_actions=streams)
    _, status, usage = os.wait4(child, 0)
    if status:
        raise Failed(f"{path} ended with {status}")
    return usage.ru_utime + usage.ru_stime


def run(folder, ptext, other, is_quick, _):
    """The table of starts."""
    line, load = os.path.join(folder, "line"), os.getloadavg()[0]
    with open(line, "w", encoding="ascii") as file:
        file.write("a short line\n")
    streams = [(os.POSIX_SPAWN_OPEN, 0, line, os.O_RDONLY, 0), (os.POSIX_SPAWN_OPEN, 1, os.devnull, os.O_WRONLY, 0)]
    ways = find_ways(folder, ptext)
    if other:
        ways["the other build"] = (other[0], ["ptext", "cut"])
    times = {name: [] for name in ways}
    for _ in range(STARTS // 10 if is_quick else STARTS):
        for name, (path, words) in ways.items():
            times[name].append(start(path, words, streams))
    medians = {name: statistics.median(found) for name, found in times.items()}
    theirs = medians["GNU's `cut`"]
    rows = [f"| {name} | {1000 * found:.2f} | {found / theirs:.2f} |" for name, found in medians.items()]
    count = len(times["GNU's `cut`"])
    about = f"The median of {count:,} starts of each, in turn; other work on the machine: {load:.1f} processors."
    return "\n".join([about, "", "| start | ms | of GNU's |", "|---|---|---|", *rows, ""])
