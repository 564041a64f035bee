#!/usr/bin/env python3
"""Cuts random small files by ptext-parts into 1 to 20 parts, and compares the outputs of these with that of the whole.

  python3 bindings/python/tests/offsets.py PROGRAM [COUNT [SEED]]

The commands are those of tools/compare: all options, files out of order, empty files, last lines without a terminator.
The program checks the words of each. The outputs are those of the model there, and of the program for one command in
ten. A part is refused if and only if the whole is. Then: strange files, files that have changed, parts that are
missing, and what no law lets be cut.
"""
import os
import random
import re
import subprocess
import sys
import tempfile
from collections import Counter

sys.dont_write_bytecode = True
TOP = os.path.realpath(os.path.join(os.path.dirname(os.path.realpath(__file__)), "../../.."))
sys.path[:0] = [f"{TOP}/tools/compare", f"{TOP}/tools", f"{TOP}/bindings/python/ptext"]

import parts
from cases import list_late_words
from generating import OPTIONS, make_case
from model import compute_answer
from project import Failed, run_script

COUNT, MOST_PARTS, STDIN = 2000, 20, "stdin"
STRANGE = [
    # All keys are equal, or many are.
    (["uniq", "-c"], [b"a\n" * 999]),
    (["uniq", "-c"], [b"b\n" * 700 + b"a\n" * 700 + b"a"]),
    (["uniq", "-f", "1"], [b"1 a\n1 a\n2 a\n2 a\n3 b\n3 a\n"]),
    (["comm", "f", "g"], [b"a\n" * 99, b"a\n" * 33]),
    (["join", "f", "g"], [b"a 1\n" * 9, b"a 2\n" * 9]),
    # There are more parts than lines.
    (["join", "f", "g"], [b"", b""]),
    (["paste", "f", "g"], [b"", b"a"]),
    (["paste", "-", "-", "-"], [b"1\n2\n3\n4\n5"]),
    (["cut", "-c", "1"], [b"ab"]),
    (["cut", "-c1", "f", "-", "f"], [b"ab", b"c"]),
    (["tr", "-s", "a"], [b"aa\n\naa\na"]),
    # Lines end with byte 0.
    (["uniq", "-z"], [b"a\0a\0\nb\0\0\0"]),
    (["comm", "-z", "f", "g"], [b"\0a\0a\nb", b"a"]),
]


def write_file(name, text):
    with open(name, "wb") as file:
        file.write(text)


def read_file(name):
    with open(name, "rb") as file:
        return file.read()


def cut_case(case, plan, part):
    """The case over one part, in which each input has a name of its own."""
    command = parts.read_words(plan.words)
    texts = {}
    names = list(case.files) if case.tool != "tr" else []
    for (at, name), (begin, end), file in zip(command.inputs.items(), plan.parts[part - 1], plan.inputs):
        unique = "-" if name == "-" else f"{name}{at}"
        texts[unique] = read_file(file.path)[begin:end]
        if names:
            names[at] = unique
    operands = case.operands if case.tool == "tr" or not case.operands else names
    return case._replace(operands=operands, late=[], inputs=texts)


def names_disorder(plan, said):
    """Whether a message names a line that is out of order in its whole file."""
    command = parts.read_words(plan.words)
    path, number = re.fullmatch(r"[a-z]+: (.*): line ([0-9]+) is out of order \(part .*\)", said, re.S).groups()
    for which, file in enumerate(plan.inputs, 1):
        field = int(command.options.get(str(which)) or 1)
        separator = command.options.get("t", "").encode()
        find_key = parts.make_join_key(separator, field) if command.tool == "join" else bytes
        lines = read_file(file.path).split(command.terminator)[int(number) - 2 : int(number)]
        before, now = (list(map(find_key, lines)) + [b"", b""])[:2]
        if file.path == path and (before < now if "r" in command.options else now < before):
            return True
    return False


def run_parts(plan, room):
    """The outputs of all parts by the program, or None if one fails because a line is out of order."""
    try:
        for part in range(1, len(plan.parts) + 1):
            parts.put_part(plan, part, f"{room}/parts")
        parts.put_together(plan, f"{room}/parts", f"{room}/result")
        return read_file(f"{room}/result")
    except parts.ToolError as why:
        return None if names_disorder(plan, why.message) else why.message


def run_whole(plan, program, stdin):
    with open(stdin, "rb") as file:
        answer = subprocess.run([program, *plan.words], stdin=file, capture_output=True, check=False)
    return None if answer.returncode else answer.stdout


def has_law(case):
    """Whether a law lets the command be cut, as docs/PARALLEL.md has it."""
    if case.tool == "tr" and case.has("s"):
        newlines = compute_answer(case._replace(inputs={"-": b"\n\n"}))
        return len(newlines.out) == 2
    has_output = case.tool == "uniq" and len(case.operands + list_late_words(case)) > 1
    return not (case.tool == "paste" and case.has("s")) and not has_output


def compare_case(case, count, is_run, program, room):
    """How the parts compare with the whole."""
    whole = compute_answer(case)
    missing = any(name not in case.inputs for name in case.files)
    try:
        plan = parts.make_plan(case.words, count, STDIN)
    except parts.PartsError as why:
        if whole.status == 2:
            return "refused by the program" if why.status == 2 else f"WRONG status {why.status}"
        return "refused" if missing or not has_law(case) else f"WRONGLY REFUSED: {why}"
    if whole.status == 2 or missing or not has_law(case):
        return "WRONG: it was cut"
    answers = [compute_answer(cut_case(case, plan, part)) for part in range(1, count + 1)]
    wanted = None if whole.status else whole.out
    found = None if any(answer.status for answer in answers) else b"".join(answer.out for answer in answers)
    if found != wanted:
        return "WRONG by the model"
    if is_run and run_parts(plan, room) != run_whole(plan, program, STDIN):
        return "WRONG by the program"
    how = "out of order, and refused" if wanted is None else "equal"
    return f"{how}, by the program too" if is_run else how


def compare_random(count, seed, program, room):
    """Compares random commands, and returns the words of the wrong ones."""
    rng, found, wrong = random.Random(seed), Counter(), []
    for turn in range(count):
        case = make_case(rng.choice(list(OPTIONS)), rng)
        for name, text in case.inputs.items():
            write_file(STDIN if name == "-" else name, text)
        pieces = rng.choice([1, 2, 3, 5, 7, MOST_PARTS])
        how = compare_case(case, pieces, turn % 10 == 0, program, room)
        found[how] += 1
        if "WRONG" in how:
            wrong.append(f"{how}: {case.words} in {pieces} parts of {case.inputs}")
    for how, many in sorted(found.items()):
        print(f"{many} {how}")
    return wrong


def compare_strange(program, room):
    """Compares strange files, and returns the words of the wrong ones."""
    wrong = []
    for words, texts in STRANGE:
        reads_stdin = words[0] == "tr" or "-" in words or not set(words) & {"f", "g"}
        for name, text in zip([STDIN, "f"] if reads_stdin else ["f", "g"], texts):
            write_file(name, text)
        for count in (1, 2, 5, MOST_PARTS):
            plan = parts.make_plan(words, count, STDIN)
            if run_parts(plan, room) != run_whole(plan, program, STDIN):
                wrong.append(f"differs: {words} in {count} parts of {texts}")
    return wrong


def compare_without_splice(program, room):
    """Compares strange files where the kernel copies nothing from files to pipes, as in Python 3.9."""
    splice = vars(os).pop("splice", None)
    wrong = compare_strange(program, room)
    if splice:
        os.splice = splice
    return wrong


def fails(wanted, *words):
    """What is wrong with a call of ptext-parts that has to fail with this message."""
    command = [sys.executable, f"{TOP}/bindings/python/ptext/parts.py", *words]
    answer = subprocess.run(command, capture_output=True, text=True, check=False)
    said = answer.stderr.replace(os.getcwd() + "/", "")
    return (
        [] if answer.returncode and wanted in said else [f"{words}: status {answer.returncode}, {said}, not {wanted}"]
    )


def check_changed_plans():
    """A plan that is cut off or changed is refused by the message that says how, though all its parts are there."""
    plan = parts.make_plan(["cut", "-c", "1", "sorted"], 5)
    os.mkdir("five")
    for part in range(1, 6):
        parts.put_part(plan, part, "five")
    head, first, second, *later = plan.write().splitlines(keepends=True)
    changes = {
        "its last line, which has the number of its parts, is missing": [head, first, second, later[0]],
        "the number of its parts, is missing": [head, first, *later],
        "part 2 has bytes 0 to 3600 of sorted, after byte 3600": [head, first, first, *later],
        "part 2 has bytes 7200 to 3600 of sorted": [head, first, "[[7200, 3600]]\n", *later],
        "its parts end at byte 18000 of sorted, which has 17999": [head.replace("18000", "17999"), first, second, *later],
        "its parts end at byte 0 of sorted": [head, *["[[0, 0]]\n"] * 5, later[-1]],
        "not a plan of ptext-parts, or not all of it": [head, first, second[:-3]],
        "changed.plan: not a plan of ptext-parts": [head, *["[]\n"] * 5, later[-1]],
    }
    wrong = []
    for wanted, lines in changes.items():
        write_file("changed.plan", "".join(lines).encode())
        wrong += fails(wanted, "run", "changed.plan", "1")
        wrong += fails(wanted, "run", "changed.plan", "1", "empty")
        wrong += fails(wanted, "whole", "changed.plan", "five", "result.bad")
    return wrong


def check_failures():
    """Each failure has a message and a status that is not 0, and leaves no result."""
    os.mkdir("empty")
    write_file("sorted", b"".join(b"%05d\n" % number for number in range(3000)))
    write_file("disorder", b"".join(b"%05d\n" % number for number in [*range(2000), 0, *range(2000, 3000)]))
    write_file("folder.plan", parts.make_plan(["comm", "sorted", "disorder"], 5).write().encode())
    wrong = fails(
        "comm: disorder: line 2001 is out of order (part 4 of 5)",
        "run",
        "folder.plan",
        "4",
        "empty",
    )
    wrong += fails("empty: there is no output of part 1, 2, 3, 4, 5", "whole", "folder.plan", "empty", "result.bad")
    wrong += fails("there is no part 6 of 5", "run", "folder.plan", "6")
    wrong += fails("comm: wrong number of operands", "plan", "5", "comm", "sorted")
    wrong += fails("parts_of_paste", "plan", "5", "paste", "-s", "sorted")
    wrong += fails("run it over the whole", "plan", "5", "-i", "sorted", "tr", "-s", "\\n")
    wrong += fails("leave out -s, and squeeze the whole: .. | ptext tr -s '\\n'", *"plan 5 -i sorted tr -cs a-z \\n".split())
    wrong += fails("the file for it has to be given", "plan", "5", "uniq")
    wrong += fails("not a number", "plan", "0", "cut", "-c", "1", "sorted")
    wrong += fails("none: No such file", "plan", "5", "cut", "-c", "1", "none")
    wrong += fails("empty: not a regular file", "plan", "5", "cut", "-c", "1", "empty")
    wrong += fails("not a plan of ptext-parts", "run", "sorted", "1")
    wrong += check_changed_plans()
    write_file("disorder", b"a\n")
    wrong += fails("disorder: it has changed since it was cut", "run", "folder.plan", "1", "empty")
    os.remove("disorder")
    wrong += fails("disorder: No such file", "run", "folder.plan", "1")
    left = os.listdir("empty") + [name for name in os.listdir(".") if "result.bad" in name]
    return wrong + [f"left behind: {name}" for name in left]


def main():
    if len(sys.argv) < 2:
        return __doc__
    program = os.path.abspath(sys.argv[1])
    os.environ["PTEXT_PROGRAM"] = program
    count, seed = (int(word) for word in (sys.argv[2:] + [COUNT, 1][len(sys.argv[2:]) :]))
    with tempfile.TemporaryDirectory() as room:
        os.chdir(room)
        os.mkdir("parts")
        wrong = compare_random(count, seed, program, room) + compare_strange(program, room)
        wrong += compare_without_splice(program, room) + check_failures()
        os.chdir(TOP)
    if wrong:
        raise Failed("\n".join(wrong[:9]) + f"\n{len(wrong)} are wrong")
    print(f"bindings/python/tests/offsets.py: {count} commands, none is wrong")
    return 0


if __name__ == "__main__":
    run_script(main)
