"""How one command is measured: its time, beside that of another program, and its instructions."""

import os
import re
import resource
import subprocess

from project import Failed

RUNS = 5
# (Valgrind counts a `rep stosb`, by which the C library would overwrite a block, as an instruction for each byte.)
WITHOUT_REP_STOSB = {"GLIBC_TUNABLES": "glibc.cpu.x86_rep_stosb_threshold=1000000000"}
# Operands of a case: the input that is standard input, the other input, and all inputs.
FILE = "FILE"
OTHER = "OTHER"
FILES = "FILES"


def fill_in(words, paths):
    """The words, with the paths of the inputs for their names."""
    operands = {FILE: paths[:1], OTHER: paths[1:2], FILES: paths}
    return [operand for word in words for operand in operands.get(word, [word])]


def run_timed(command, path, output, limit=resource.RLIM_INFINITY, messages=None):
    """The exit status, and the seconds of user and system time. After `limit` of these the command is killed."""
    with open(path, "rb") as standard, open(output, "wb") as out:
        child = subprocess.Popen(
            command, stdin=standard, stdout=out, stderr=messages, env={**os.environ, "LC_ALL": "C"}
        )
        if limit != resource.RLIM_INFINITY:
            resource.prlimit(child.pid, resource.RLIMIT_CPU, (limit, limit))
        _, status, usage = os.wait4(child.pid, 0)
        child.returncode = os.waitstatus_to_exitcode(status)
    return child.returncode, usage.ru_utime + usage.ru_stime


def measure(command, path, output):
    """Seconds of user and system time of a command that succeeds."""
    status, seconds = run_timed(command, path, output)
    if status != 0:
        raise Failed(f"{command[:9]} ended with {status}")
    return seconds


def is_same(words, one, other):
    """Whether the outputs are the same. GNU puts blanks in front of a count; here there are none."""
    if words[0] == "uniq" and "-c" in words:
        command = f"sed 's/^ *//' {other} | cmp -s {one} -"
        return subprocess.run(["sh", "-c", command], check=False).returncode == 0
    return subprocess.run(["cmp", "-s", one, other], check=False).returncode == 0


def compare(folder, paths, ptext, other, words, runs=RUNS):
    """The best seconds of ptext and of the other side. The output of ptext stays in the file `ours`."""
    ours, theirs = [], []
    words = fill_in(words, paths)
    ours_out, theirs_out = os.path.join(folder, "ours"), os.path.join(folder, "theirs")
    measure([ptext, *words], paths[0], ours_out)
    measure([*other, *words], paths[0], theirs_out)
    if not is_same(words, ours_out, theirs_out):
        raise Failed(f"{words[:9]}: the outputs differ")
    for _ in range(runs):
        ours.append(measure([ptext, *words], paths[0], os.devnull))
        theirs.append(measure([*other, *words], paths[0], os.devnull))
    return min(ours), min(theirs)


def count_instructions(folder, paths, ptext, words):
    """How many instructions of ptext run in user space."""
    counting = ["valgrind", "--tool=callgrind", f"--callgrind-out-file={folder}/counts"]
    with open(paths[0], "rb") as standard:
        ended = subprocess.run(
            [*counting, ptext, *fill_in(words, paths)],
            stdin=standard,
            stdout=subprocess.DEVNULL,
            stderr=subprocess.PIPE,
            env={**os.environ, **WITHOUT_REP_STOSB},
            check=True,
        )
    return int(re.search(rb"Collected : ([0-9]+)", ended.stderr)[1])


def count_beyond_none(folder, paths, ptext, words):
    """Those that are not run if each input is empty."""
    empty = os.path.join(folder, "empty")
    open(empty, "wb").close()
    none = count_instructions(folder, [empty] * len(paths), ptext, words)
    return count_instructions(folder, paths, ptext, words) - none


def runs_within(command, path, size):
    """Whether the command runs in `size` KiB of address space."""

    def limit():
        resource.setrlimit(resource.RLIMIT_AS, (size << 10, size << 10))

    with open(path, "rb") as standard:
        ended = subprocess.run(
            command, stdin=standard, stdout=subprocess.DEVNULL, stderr=subprocess.DEVNULL, preexec_fn=limit, check=False
        )
    return ended.returncode == 0


def find_least_space(command, path):
    """The least address space in KiB, to 4 KiB."""
    low, high = 0, 1 << 20
    while high - low > 4:
        middle = (low + high) // 2
        low, high = (low, middle) if runs_within(command, path, middle) else (middle, high)
    return high
