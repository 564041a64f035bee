#!/usr/bin/env python3
"""Wall time and processor time of each tool over its whole input in one process, over parts of it by `xargs` on all
processors, and by Dask; of cutting the files; and of `sort`.

  bench/parts.py PTEXT [MEGABYTES [PARTS]]

Each input has MEGABYTES, 512 by default. It was written just before, so that it is read from memory. There are four
PARTS for each processor, unless their number is given. The best of three runs counts, and the output is thrown away,
except that Dask writes it to a file (in memory, if TMPDIR is there). Wall time depends on other work on the machine, so
its load at the start is printed; processor time (in brackets: user and system, of all processes) hardly does. The
column of Dask is empty if it is not installed, or if the library is not built. (slurm.sh, in
bindings/python/tests, has the times of Slurm.)
"""

import importlib
import os
import resource
import shlex
import subprocess
import sys
import tempfile
import time

TOP = os.path.dirname(os.path.dirname(os.path.realpath(__file__)))
RUNS = 3
# For each tool its words, the file that it reads as standard input, and slower work on the output.
CASES = [
    ("cut -d ' ' -f 1,3 log", None, ""),
    ("tr a-z A-Z", "log", ""),
    ("uniq -c left", None, ""),
    ("paste left left", None, ""),
    ("comm left right", None, ""),
    ("join left right", None, ""),
    ("cut -d ' ' -f 1,3 log", None, "gzip -1"),
]


def write_lines(name, size, line):
    """Lines from the first on, of `size` bytes."""
    with open(name, "w", encoding="ascii") as file:
        number = 0
        while file.tell() < size:
            file.write("".join(line(at) for at in range(number, number + 10000)))
            number += 10000


def make_log_line(number):
    return f"2026-11-22T10:{number // 60 % 60:02}:{number % 60:02}Z host{number % 17} GET /items/{number % 9973} 200\n"


def read_processor_seconds():
    used = resource.getrusage(resource.RUSAGE_CHILDREN)
    return used.ru_utime + used.ru_stime


def measure(command):
    """Wall time and processor time of a command of the shell."""
    before = time.monotonic(), read_processor_seconds()
    subprocess.run(["sh", "-c", command], stdin=subprocess.DEVNULL, stdout=subprocess.DEVNULL, check=True)
    return time.monotonic() - before[0], read_processor_seconds() - before[1]


def measure_best(command):
    return min(measure(command) for _ in range(RUNS))


def format_times(times):
    return f"{times[0]:.2f} s ({times[1]:.2f} s)"


def start_dask(cores):
    """A client of a cluster of this machine, with a worker for each processor; or None."""
    sys.path.insert(0, f"{TOP}/bindings/python")
    os.environ.setdefault("PTEXT_LIBRARY", f"{TOP}/build/libptext.so")
    os.environ["PYTHONPATH"] = f"{TOP}/bindings/python"
    try:
        from distributed import Client, LocalCluster

        importlib.import_module("ptext.dask")
    except (ImportError, OSError):
        return None
    return Client(LocalCluster(n_workers=cores, threads_per_worker=1, dashboard_address=None))


def measure_dask(client, words, stdin, parts):
    """Wall time of a command on the workers."""
    from ptext import dask

    began = time.monotonic()
    dask.run(client, shlex.split(words), "result", parts=parts, stdin=stdin)
    os.remove("result")
    return time.monotonic() - began


def main():
    cores = len(os.sched_getaffinity(0))
    ptext, given = os.path.abspath(sys.argv[1]), [int(word) for word in sys.argv[2:]]
    size, parts = (given[0] if given else 512) << 20, given[1] if len(given) > 1 else 4 * cores
    with tempfile.TemporaryDirectory() as folder:
        os.chdir(folder)
        os.mkdir("bin")
        os.symlink(ptext, "bin/ptext")
        os.symlink(f"{TOP}/bindings/python/ptext/parts.py", "bin/ptext-parts")
        os.environ.update(LC_ALL="C", PATH=f"{folder}/bin:{os.environ['PATH']}")
        write_lines("log", size, make_log_line)
        write_lines("left", size, lambda number: f"{number * 2:010} first__________ second_________\n")
        write_lines("right", size, lambda number: f"{number * 3:010} first__________ second_________\n")
        print(f"load at the start: {os.getloadavg()[0]:.1f} of {cores} processors")
        print(f"`sort log`: {format_times(measure('sort -S 1G --parallel=4 -T . log'))}")
        print(f"| tool | one process | cutting | in {parts} parts, {cores} at once | by Dask |\n|---|---|---|---|---|")
        client = start_dask(cores)
        for words, stdin, after in CASES:
            text = f"-i {stdin} " if stdin else ""
            pipe = f" | {after}" if after else ""
            run = f"sh -c 'ptext-parts run plan @{pipe}'" if after else "ptext-parts run plan @"
            whole = measure_best(f"ptext {words} <{stdin or '/dev/null'}{pipe}")
            cutting = measure_best(f"ptext-parts plan {parts} {text}{words} >plan")
            in_parts = measure_best(f"seq {parts} | xargs -P {cores} -I @ {run}")
            by_dask = ""
            if client and not after:
                by_dask = f"{min(measure_dask(client, words, stdin, parts) for _ in range(RUNS)):.2f} s"
            times = " | ".join(map(format_times, (whole, cutting, in_parts)))
            name = f"`{words.split()[0]}`" + (f", then `{after}`" if after else "")
            print(f"| {name} | {times} | {by_dask} |", flush=True)


if __name__ == "__main__":
    main()
