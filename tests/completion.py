#!/usr/bin/env python3
"""Types words and the tab key into bash, zsh and fish at a pseudo-terminal, and looks at what they complete.

  python3 tests/completion.py

A shell that is not installed is left out, with a line that says so.
"""
import contextlib
import multiprocessing
import os
import pty
import re
import select
import shutil
import signal
import subprocess
import sys
import tempfile
import time

TOP = os.path.dirname(os.path.dirname(os.path.realpath(__file__)))
sys.dont_write_bytecode = True
sys.path.insert(0, f"{TOP}/tools")

from names import NAMES, read_letters

FLAGS, VALUED = read_letters("flags"), read_letters("value_letters")
# How each shell is started, and what is typed first. (@ is the folder of the completions, % that of the test.)
SHELLS = {
    "bash": (
        ["bash", "--norc", "--noprofile", "-i"],
        "bind 'set bell-style none'; bind 'set enable-bracketed-paste off'; . @/ptext; . @/ptext-parts",
    ),
    "zsh": (["zsh", "-f", "-i"], "fpath=(@ $fpath); autoload -U compinit; compinit -u -D; unsetopt beep; LISTMAX=999"),
    "fish": (["fish", "--no-config", "-i"], "source @/ptext.fish; source @/ptext-parts.fish"),
}
# Typed besides, before the tools are completed by their own names.
SYSTEMS = "/usr/share/bash-completion/bash_completion"
BY_NAME = {"bash": f"; . {SYSTEMS}; . @/ptext-tools", "zsh": "", "fish": "; for it in %/*.fish; source $it; end"}
CLASSES = "alnum alpha blank cntrl digit graph lower print punct space upper xdigit".split()


class Row:
    """A text to type; and the line after one tab, or the words that two tabs offer, or do not."""

    def __init__(self, typed, wanted, is_offered=True):
        self.typed, self.wanted, self.is_offered = typed, wanted, is_offered


ROWS = [
    Row("ptext uni", "ptext uniq"),
    Row("ptext cut -f 1 lo", "ptext cut -f 1 lonely"),
    Row("ptext tr -d '[:dig", "ptext tr -d '[:digit:]"),
    Row("ptext tr -d 'a-f[:dig", "ptext tr -d 'a-f[:digit:]"),
    Row("ptext tr '[:lower:]' '[:up", "ptext tr '[:lower:]' '[:upper:]"),
    Row("ptext tr a b < lo", "ptext tr a b < lonely"),
    Row("ptext tr a b >lo", "ptext tr a b >lonely"),
    Row("ptext tr a b 2> lo", "ptext tr a b 2> lonely"),
    Row("ptext cut -f 1 $PTEXT_T", "ptext cut -f 1 $PTEXT_TESTED"),
    Row("ptext cut -f 1 $PTEXT_TESTED/lo", "lonely"),
    Row("ptext ", NAMES),
    *(Row(f"ptext {tool} -", [f"-{letter}" for letter in FLAGS[tool] + VALUED[tool]]) for tool in NAMES),
    Row("ptext cut -sf 1 -", ["-d", "-z"]),
    *(Row(f"ptext join -{letter} ", ["1", "2"]) for letter in "av"),
    Row("ptext tr -d '[:", CLASSES),
    Row("ptext-parts ", [*NAMES, "plan", "run", "whole"]),
    Row("ptext-parts -", ["-i", "-j", "--help"]),
    Row("ptext-parts -j 4 -i lo", "ptext-parts -j 4 -i lonely"),
    Row("ptext-parts -j4 -i lonely jo", "ptext-parts -j4 -i lonely join"),
    Row("ptext-parts -j 4 uniq -", ["-c", "-d", "-f", "-s", "-u", "-z"]),
    Row("ptext-parts cut -f 1 lo", "ptext-parts cut -f 1 lonely"),
    Row("ptext-parts -j 4 tr -d '[:dig", "ptext-parts -j 4 tr -d '[:digit:]"),
    Row("ptext-parts plan 12 ", NAMES),
    Row("ptext-parts plan 12 pas", "ptext-parts plan 12 paste"),
    Row("ptext-parts run lo", "ptext-parts run lonely"),
    Row("ptext-parts plan 12 ", ["whole"], False),
    # No option is offered after an operand.
    Row("ptext uniq lonely -", ["-c", "-d", "-f", "-s", "-u", "-z"], False),
    Row("ptext cut -f 1 lonely -", ["-b", "-c", "-d", "-n", "-s", "-z"], False),
    Row("ptext comm -- -", ["-1", "-2", "-3", "-r", "-z"], False),
]
# The tools by their own names, if the first in PATH is ptext's.
ROWS_BY_NAME = [
    *(Row(f"{tool} -", [f"-{letter}" for letter in FLAGS[tool] + VALUED[tool]]) for tool in NAMES),
    Row("cut --", ["--bytes", "--complement", "--help", "--version"], False),
    Row("uniq lo", "uniq lonely"),
    Row("tr -d '[:dig", "tr -d '[:digit:]"),
    Row("tr a b < lo", "tr a b < lonely"),
    Row("join -a ", ["1", "2"]),
]
# The tools by their own names, if the first in PATH is the system's.
ROWS_OF_THE_SYSTEM = [Row("cut --compl", "cut --complement"), Row("comm lo", "comm lonely")]
ESCAPES = re.compile(
    rb"\x1b\[[0-?]*[ -/]*[@-~]|\x1b\][^\x07\x1b]*(?:\x07|\x1b\\)|\x1b[()=>#][A-Z0-9]?|[\r\x07\x08\x0e\x0f]|\x1b."
)


class Terminal:
    """A shell at a terminal of its own."""

    def __init__(self, shell, room, first, path):
        self.child, self.end = pty.fork()
        words, line = SHELLS[shell]
        if not self.child:
            os.chdir(room)
            kept = {"PATH": f"{path}:{os.environ['PATH']}", "HOME": room, "LC_ALL": "C.UTF-8", "TERM": "xterm"}
            kept |= {"PS1": "% ", "COLUMNS": "200", "LINES": "60", "fish_greeting": "", "PTEXT_TESTED": room}
            os.execvpe(words[0], words, kept)
        self.type("\n", 0.5)
        self.type((line + first).replace("@", f"{TOP}/completion").replace("%", room) + "\n", 0.8)
        self.type("PS1='% '\n" if shell != "fish" else "\n", 0.3)

    def type(self, text, quiet=0.4, most=8.0):
        """Types this, and answers what comes until nothing has come for a while."""
        os.write(self.end, text.encode())
        came, until = b"", time.monotonic() + most
        while time.monotonic() < until:
            ready, _, _ = select.select([self.end], [], [], quiet if came else 2)
            if not ready:
                break
            try:
                piece = os.read(self.end, 65536)
            except OSError:
                break
            came += piece
            # fish asks the terminal what it is, and waits for the answer.
            if b"\x1b[c" in piece or b"\x1b[0c" in piece:
                os.write(self.end, b"\x1b[?62;c")
        return came

    def close(self):
        os.kill(self.child, signal.SIGKILL)
        os.waitpid(self.child, 0)
        os.close(self.end)


def strip_escapes(came, between=b""):
    """The text that a terminal would show, with `between` for what moves its cursor or colours."""
    return ESCAPES.sub(between, came).decode(errors="replace")


def find_offered(text, typed, words):
    """The words of these that a text contains by themselves."""
    rest = text.replace(typed, " ", 1)
    if typed.endswith(":"):
        return {word for word in words if re.search(rf"(?<![a-z]){word}(?![a-z])", rest)}
    return {word for word in words if re.search(rf"(?<![\w-]){re.escape(word)}(?![\w-])", rest)}


def type_row(at, row, quiet):
    """The text of a terminal after a row is typed, and whether that is as wanted."""
    if isinstance(row.wanted, str):
        said = strip_escapes(at.type(row.typed + "\t", quiet))
        if row.wanted not in said.replace("\n", ""):
            # The line is drawn anew, whole.
            said += strip_escapes(at.type("\x0c", 0.5))
        return said, row.wanted in said.replace("\n", "")
    came = b"".join(at.type(keys, quiet) for keys in (row.typed, "\t", "\t"))
    said = strip_escapes(came)
    found = (find_offered(said, row.typed, row.wanted), find_offered(strip_escapes(came, b" "), row.typed, row.wanted))
    # The typed text is on the terminal, so nothing is left out for lack of time.
    return said, set(row.wanted) in found if row.is_offered else row.typed in said and not any(found)


def find_wrong_rows(shell, room, rows, first="", path=""):
    """The rows that a shell does not complete as wanted. One shell has all rows. As terminals are slow at times, a row
    that goes wrong is tried again in a shell of its own."""
    found = []
    with contextlib.closing(Terminal(shell, room, first, path or f"{room}/bin")) as shared:
        for row in rows:
            said, is_good = type_row(shared, row, 0.3)
            shared.type("\x03", 0.2)
            for attempt in (1, 2, 4):
                if not is_good:
                    with contextlib.closing(Terminal(shell, room, first, path or f"{room}/bin")) as terminal:
                        terminal.type("\n", 0.5 * attempt)
                        said, is_good = type_row(terminal, row, 0.5 * attempt)
            if not is_good:
                wanted = row.wanted if row.is_offered else f"none of {row.wanted}"
                found.append(f"{shell}: `{row.typed}` and a tab: wanted {wanted}, the terminal has {said!r}\n")
    return found


def list_parts(shell, room):
    """What `find_wrong_rows` is called with for a shell: its rows in up to three surroundings."""
    parts = [(shell, room, ROWS)]
    if shell == "bash" and not os.path.exists(SYSTEMS):
        print("left out: the tools by their own names in bash (there is no bash-completion)")
        return parts
    parts.append((shell, room, ROWS_BY_NAME, BY_NAME[shell], f"{room}/ptext/bin"))
    said = subprocess.run(["cut", "--help"], check=False, capture_output=True, text=True).stdout
    if "--complement" in said:
        parts.append((shell, room, ROWS_OF_THE_SYSTEM, BY_NAME[shell]))
    return parts


def make_room(room):
    """Puts into a folder the files that the rows complete, and the tools by their own names."""
    for folder in ("bin", "ptext/bin"):
        os.makedirs(f"{room}/{folder}")
    with open(f"{room}/lonely", "w", encoding="ascii"):
        pass
    for name in NAMES:
        with open(f"{room}/ptext/bin/{name}", "w", encoding="ascii") as file:
            file.write("#!/bin/sh\n")
        os.chmod(f"{room}/ptext/bin/{name}", 0o755)
        shutil.copy(f"{TOP}/completion/ptext-tools.fish", f"{room}/{name}.fish")


def main():
    # (A test that is ended ends the shells that it runs.)
    signal.signal(signal.SIGTERM, lambda *_: sys.exit(143))
    wrong, count = 0, 0
    with tempfile.TemporaryDirectory(ignore_cleanup_errors=True) as room:
        make_room(room)
        for shell in [shell for shell in SHELLS if not shutil.which(shell)]:
            print(f"left out: completion in {shell} (there is no {shell})")
        parts = {shell: list_parts(shell, room) for shell in SHELLS if shutil.which(shell)}
        # A terminal is mostly waited for, so all are typed into at once. (A process of the pool that is ended just when
        # it begins to wait would not run the handler of the signal, and the pool would wait for it.)
        settings = {"initializer": signal.signal, "initargs": (signal.SIGTERM, signal.SIG_DFL)}
        with multiprocessing.get_context("fork").Pool(sum(map(len, parts.values())), **settings) as pool:
            results = {shell: pool.starmap_async(find_wrong_rows, parts[shell], 1) for shell in parts}
            for shell, result in results.items():
                try:
                    lacking = [row for rows in result.get() for row in rows]
                except OSError as why:
                    print(f"left out: completion in {shell} (no terminal: {why})")
                    continue
                total = sum(len(part[2]) for part in parts[shell])
                print("".join(lacking), end="")
                print(f"{shell}: {total - len(lacking)} of {total} words are completed as wanted", flush=True)
                wrong, count = wrong + len(lacking), count + total
    print(f"{count - wrong} of {count} words are completed as wanted")
    return 1 if wrong else 0


if __name__ == "__main__":
    sys.exit(main())
