#!/usr/bin/env python3
"""Tests `ptext-parts TOOL ..`, which cuts, runs and joins in one step: the six tools against one run; what a terminal
shows; and that nothing is left after success, Ctrl-C, SIGTERM, a part that fails, and a full disk.

  python3 bindings/python/tests/one_step.py PROGRAM
"""
import os
import pty
import re
import shlex
import signal
import subprocess
import sys
import tempfile
import time
from unittest import mock

sys.dont_write_bytecode = True
TOP = os.path.realpath(os.path.join(os.path.dirname(os.path.realpath(__file__)), "../../.."))
sys.path[:0] = [f"{TOP}/tools", f"{TOP}/bindings/python/ptext"]

import parts
from project import Failed, read_text, run_script

PARTS = [sys.executable, f"{TOP}/bindings/python/ptext/parts.py"]
COMMANDS = [
    "cut -d ' ' -f 1,3 left",
    "paste left right left",
    "paste - - - < left",
    "join -a 1 -a 2 left right",
    "comm left right",
    "uniq -c -f 1 left",
    "tr -s a-z A-Z < left",
    "tr -c 0-9 '\\n' < left",
]
# A program that is slow where it has a part, and leaves its number.
SLOW = """#!PYTHON
import os, sys, time
if "/dev/null" not in sys.argv:
    with open("ROOM/pids", "a") as file:
        print(os.getpid(), file=file)
    time.sleep(float(os.environ["SECONDS_OF_A_PART"]))
os.execv("PROGRAM", ["ptext", *sys.argv[1:]])
"""
# Runs a part, and gets SIGTERM as soon as it has started the program.
STOPPED = """
import os, signal, subprocess, sys
import parts
begin = subprocess.Popen
def start(*words, **how):
    process = begin(*words, **how)
    os.kill(os.getpid(), signal.SIGTERM)
    return process
subprocess.Popen = start
sys.exit(parts.main())
"""
WRONG = []


def check(name, is_good, found=""):
    if not is_good:
        WRONG.append(f"{name}: {str(found)[-400:]}")


def list_left(room):
    """The files and the processes that are left."""
    left = os.listdir(f"{room}/waiting") + os.listdir(f"{room}/folder")
    for pid in read_text(f"{room}/pids").split() if os.path.exists(f"{room}/pids") else []:
        try:
            os.kill(int(pid), 0)
            left.append(f"process {pid}")
        except ProcessLookupError:
            pass
    return left


def run_shell(command):
    answer = subprocess.run(["sh", "-c", command], capture_output=True, text=True, check=False)
    return answer.returncode, answer.stdout, answer.stderr.replace(os.getcwd() + "/", "")


def start_at_terminal(words, out, at_hangup=signal.SIG_DFL):
    """Starts ptext-parts at a terminal of its own, with its output in a file, or there if none is named. Returns its
    number and the terminal."""
    child, terminal = pty.fork()
    if not child:
        signal.signal(signal.SIGHUP, at_hangup)
        if out:
            os.dup2(os.open(out, os.O_WRONLY | os.O_CREAT | os.O_TRUNC, 0o666), 1)
        os.execvp(PARTS[0], [*PARTS, *words])
    return child, terminal


def read_terminal(terminal, until=None):
    """The text of a terminal until this comes, or until its end."""
    text = b""
    while not (until and until in text):
        try:
            text += os.read(terminal, 4096)
        except OSError:  # (All that had the terminal have ended.)
            break
    return text.decode()


def check_tools(room):
    for command in COMMANDS:
        for jobs in ("", "-j 1 ", "-j 7 "):
            found = run_shell(f"{shlex.join(PARTS)} {jobs}{command}")
            whole = run_shell(f"{os.environ['PTEXT_PROGRAM']} {command}")
            check(f"{jobs}{command}", found == whole, found[2])
    found = run_shell(f"{shlex.join(PARTS)} -i left -j 3 tr a-z A-Z")
    check("-i", found[1] == read_text("left").upper(), found)
    found = run_shell(f"echo first > more; {shlex.join(PARTS)} -j 3 cut -c 1- left >> more; cat more")
    check("a result that is appended", found == (0, "first\n" + read_text("left"), ""), found[2])
    check("files after success", not list_left(room), list_left(room))


def check_room():
    """While the first part is not done, no more of the others are begun than the room is said to be for."""
    begun, written, plan = [], [], parts.make_plan(["cut", "-c", "1", "left"], 9)

    def run(_, part, *__):
        begun.append(part)
        time.sleep(0.5 if part == 1 else 0)

    def write(_):
        written.append(len(begun))

    with mock.patch("parts.run_into_unnamed", run), mock.patch("parts.write_out", write):
        parts.run_all(plan, 2)
    check("parts that wait", written[0] == 4 and len(written) == 9, written)


def check_failures(room):
    """The messages name the line in the whole file, the folder and the result; what was written is a prefix."""
    parts = shlex.join(PARTS)
    for number, name in ((0, "disorder"), (1, "/dev/stdin")):
        found = run_shell(f"{parts} -j 5 comm {('left disorder', '- right < disorder')[number]}")
        check(f"the name of {name}", f"comm: {name}: line 3001 is out of order (part " in found[2], found[2])
    status, out, said = run_shell(f"{parts} -j 5 comm left disorder")
    whole = run_shell(f"{os.environ['PTEXT_PROGRAM']} comm left disorder")
    wanted = f"ptext-parts: {whole[2].rstrip()} (part 3 of 5)\n"
    check("a line out of order", (status, said) == (1, wanted) and whole[1].startswith(out), said)
    found = run_shell(f"{parts} cut -c 1- left > /dev/full")
    check("a full result", found == (1, "", "ptext-parts: /dev/full: No space left on device\n"), found)
    found = run_shell(f"TMPDIR={room}/none {parts} cut -c 1- left")
    check("no folder", found == (1, "", "ptext-parts: none: No such file or directory\n"), found)
    found = run_shell(f"seq 9 | {parts} cut -c 1")
    check("a pipe", found[2] == "ptext-parts: /dev/stdin: not a regular file, so it cannot be cut\n", found)
    found = run_shell(f"{{ head -n 1; {parts} cut -c 1; }} < left")
    check("what was read in part", found[0] == 2 and "its file has to be given" in found[2], found)
    found = run_shell(f"{{ head -n 1; {parts} cut -c 1-2 left; }} < left | sort -u | head -n 1")
    check("standard input that the command does not read", found[0] == 0 and found[1] and not found[2], found)
    found = run_shell(f"{parts} cut -c 1 /proc/self/status")
    check("a file without a size", found[0] == 1 and not found[1] and "no size" in found[2], found)
    for words in ("-j 0 cut -c 1 left", "-j", "-q cut -c 1 left", "sort left", "cut -q left", ""):
        found = run_shell(f"{parts} {words}")
        check(words, found[0] == 2 and not found[1] and found[2], found)
    check("--help", run_shell(f"{parts} --help")[:2][1].startswith("Runs a command of ptext over parts"))
    check("files after failures", not list_left(room), list_left(room))


def check_full_disk(room):
    """With a small file system in memory, which root can mount."""
    os.mkdir("small")
    if subprocess.run(["mount", "-t", "tmpfs", "-o", "size=32k", "none", "small"], check=False).returncode:
        print("left out: a full disk (no file system can be mounted)")
        check("a full disk", os.environ.get("PTEXT_GATE") != "all")
        return
    try:
        wanted = r"ptext-parts: cut: small \(TMPDIR names another folder\): write failed \(part [12] of 2\)\n"
        found = run_shell(f"TMPDIR={room}/small {shlex.join(PARTS)} -j 2 cut -c 1- left")
        check("a full disk", found[0] == 1 and re.fullmatch(wanted, found[2]), found)
        found = run_shell(f"{shlex.join(PARTS)} cut -c 1- left > small/result")
        check("a full result", found[2] == "ptext-parts: small/result: No space left on device\n", found)
        found = run_shell(f"{shlex.join(PARTS)} plan 1 cut -c 1- left > plan; {shlex.join(PARTS)} run plan 1 folder;"
                          f"{shlex.join(PARTS)} whole plan folder small/result2; {shlex.join(PARTS)} run plan 1 small")
        check("a full whole", found[2].startswith("ptext-parts: small/result2: No space left on device\n"), found)
        check("a full folder of parts", "ptext-parts: cut: small: write failed (part 1 of 1)\n" in found[2], found)
        check("files on a full disk", os.listdir("small") == ["result"], os.listdir("small"))
    finally:
        subprocess.run(["umount", "small"], check=True)
        subprocess.run("rm folder/*", shell=True, check=True)


def check_terminal(room):
    """What a terminal shows, and Ctrl-C there. (Where there is none, nothing was shown so far.)"""
    os.environ.update(PTEXT_PROGRAM=f"{room}/slow", SECONDS_OF_A_PART="0.5")
    child, terminal = start_at_terminal(["-j", "2", "cut", "-c", "1-3", "left"], "out")
    text = read_terminal(terminal)
    status = os.waitstatus_to_exitcode(os.waitpid(child, 0)[1])
    check("status at a terminal", status == 0, text)
    check("room", "ptext-parts: waiting needs room for the output of 2 of 2 parts (of" in text.replace(f"{room}/", ""), text)
    check("progress", re.search(r"\r\x1b\[K0 of 2 parts, [0-9]+ of [0-9]+ MB, [0-9]+ s left", text), text)
    check("the end of the progress", text.endswith("\r\x1b[K"), text)
    check("the result", read_text("out") == run_shell("cut -c 1-3 left")[1])
    child, terminal = start_at_terminal(["-j", "2", "cut", "-c", "1-3", "left"], "")
    text = read_terminal(terminal)
    os.waitpid(child, 0)
    check("a result that goes to the terminal", text.replace("\r\n", "\n") == read_text("out"), text)
    child, terminal = start_at_terminal(["-j", "2", "cut", "-c", "1-4", "left"], "out", signal.SIG_IGN)
    read_terminal(terminal, b"0 of 2 parts")
    os.close(terminal)
    found = os.waitstatus_to_exitcode(os.waitpid(child, 0)[1]), read_text("out")
    check("a terminal that is closed, as SIGHUP is ignored", found == run_shell("cut -c 1-4 left")[:2])
    os.environ["SECONDS_OF_A_PART"] = "60"
    child, terminal = start_at_terminal(["-j", "2", "cut", "-c", "1-3", "left"], "out")
    text = read_terminal(terminal, b"0 of 2 parts")
    os.write(terminal, b"\x03")
    text = read_terminal(terminal)
    check("Ctrl-C", os.waitstatus_to_exitcode(os.waitpid(child, 0)[1]) == 130 and "Error" not in text, text)
    check("what is left after Ctrl-C", not list_left(room), list_left(room))


def check_ends(room):
    """Each step ends by SIGTERM and SIGHUP, and leaves nothing."""
    run_shell(f"{shlex.join(PARTS)} plan 2 cut -c 1- left > plan")
    for number in (signal.SIGTERM, signal.SIGHUP, signal.SIGINT):
        for words in (["-j", "3", "cut", "-c", "1-3", "left"], ["run", "plan", "1"], ["run", "plan", "2", "folder"]):
            os.truncate("pids", 0)
            with open("out", "wb") as out, subprocess.Popen([*PARTS, *words], stdout=out) as process:
                while not os.path.getsize("pids") and process.poll() is None:
                    time.sleep(0.01)
                process.send_signal(number)
            check(f"{words}: status", process.returncode == 128 + number, process.returncode)
            check(f"{words}: {number}", not list_left(room), list_left(room))
    os.truncate("pids", 0)
    at_start = f"PYTHONPATH={os.path.dirname(PARTS[1])} {shlex.join([PARTS[0], '-c', STOPPED])}"
    status = run_shell(f"{at_start} run plan 1 > out 2>&1")[0]
    time.sleep(1)
    check("ended at its start", status == 143 and not list_left(room), [status, list_left(room)])


def main():
    if len(sys.argv) < 2:
        return __doc__
    program = os.path.abspath(sys.argv[1])
    # (Whoever started this may ignore them, as nohup and a shell's background do.)
    for number in (signal.SIGTERM, signal.SIGHUP, signal.SIGINT):
        signal.signal(number, signal.default_int_handler if number == signal.SIGINT else signal.SIG_DFL)
    with tempfile.TemporaryDirectory() as room:
        os.chdir(room)
        os.environ.update(PTEXT_PROGRAM=program, TMPDIR=f"{room}/waiting")
        os.mkdir("waiting")
        os.mkdir("folder")
        with open("slow", "w", encoding="utf-8") as file:
            file.write(SLOW.replace("PYTHON", sys.executable).replace("PROGRAM", program).replace("ROOM", room))
        os.chmod("slow", 0o755)
        numbers = {"left": range(0, 9999, 3), "right": range(0, 9999, 2), "disorder": [*range(3000), 0, *range(3000, 5999)]}
        for name, lines in numbers.items():
            with open(name, "w", encoding="ascii") as file:
                file.writelines(f"{line:05} {'x' * (line % 50)} {line // 100}\n" for line in lines)
        check_tools(room)
        check_room()
        check_failures(room)
        check_full_disk(room)
        check_terminal(room)
        check_ends(room)
        os.chdir(TOP)
    if WRONG:
        raise Failed("\n".join(WRONG))
    print(f"bindings/python/tests/one_step.py: {len(COMMANDS)} commands, failures, and what is left of them")
    return 0


if __name__ == "__main__":
    run_script(main)
