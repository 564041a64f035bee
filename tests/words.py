#!/usr/bin/env python3
"""Runs each tool with each number of operands from 0 to 513: it is neither denied memory nor refused, unless the tool
takes other numbers of them.

  python3 tests/words.py PROGRAM
"""
import os
import subprocess
import sys
import tempfile

sys.dont_write_bytecode = True
sys.path.insert(0, os.path.join(os.path.dirname(os.path.dirname(os.path.realpath(__file__))), "tools"))

from project import Failed

MOST = 512
REFUSED = "{}: wrong number of operands\n"
# For each command, the least and the greatest number of operands, and what it writes for `count` names of the file.
COMMANDS = {
    "cut -c 1": (0, MOST, lambda count: "a\n" * (count or 1)),
    "cut -f 1": (0, MOST, lambda count: "a\n" * (count or 1)),
    "paste": (1, MOST, lambda count: "\t".join("a" * count) + "\n"),
    "paste -s": (1, MOST, lambda count: "a\n" * count),
    "uniq": (0, 1, lambda count: "a\n"),
    "comm": (2, 2, lambda count: "\t\ta\n"),
    "join": (2, 2, lambda count: "a\n"),
    "tr": (2, 2, lambda count: "a\n"),
}


def run(program, words, folder):
    """The status, the output and the messages. Standard input is the file, too."""
    with open(f"{folder}/f", "rb") as given:
        did = subprocess.run([program, *words], cwd=folder, stdin=given, capture_output=True, text=True, check=False)
    return did.returncode, did.stdout, did.stderr


def check(program, command, count, folder):
    """Raises Failed if the command with `count` operands does not do what it should."""
    least, most, write = COMMANDS[command]
    tool = command.split()[0]
    wanted = (0, write(count), "") if least <= count <= most else (2, "", REFUSED.format(tool))
    # (The second operand of uniq is its output.)
    if command == "uniq" and count == 2:
        wanted = (0, "", "")
    found = run(program, [*command.split(), *["f"] * count], folder)
    if found != wanted:
        raise Failed(f"FAILED: {command}, {count} operands: {found}, wanted {wanted}")


def main():
    if len(sys.argv) != 2:
        return __doc__
    program, failed = os.path.realpath(sys.argv[1]), 0
    for command in COMMANDS:
        for count in range(MOST + 2):
            with tempfile.TemporaryDirectory() as folder:
                with open(f"{folder}/f", "w", encoding="ascii") as file:
                    file.write("a\n")
                try:
                    check(program, command, count, folder)
                except Failed as why:
                    failed += 1
                    print(str(why)[:500])
    print(f"{len(COMMANDS) * (MOST + 2)} runs with 0 to {MOST + 1} operands, {failed} failed")
    return 1 if failed else 0


if __name__ == "__main__":
    sys.exit(main())
