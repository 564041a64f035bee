#!/usr/bin/env python3
"""Gives the built program its input line by line, and sees that what is decided comes out before more is given, and
that an operand that could not be opened is named before the next one is waited for.

  python3 tests/waiting.py PROGRAM

The input comes over a pipe, over a FIFO that is named as an operand, and from a pseudo-terminal. GNU's tools fail this
over pipes: they keep what they write until 4,096 bytes are together.
"""
import errno
import fcntl
import os
import pty
import select
import signal
import subprocess
import sys
import tempfile
import termios
import time
import tty

sys.dont_write_bytecode = True
sys.path.insert(0, os.path.join(os.path.dirname(os.path.dirname(os.path.realpath(__file__))), "tools"))

from project import Failed

# How long anything may take, in seconds; another program may use the processor meanwhile.
MOST = 20
FILE = "file"

# Lines of 8,191 bytes in all, which is one less than a block; the numbers are in order, and each is there once.
MANY = "ab\n" * 2730 + "\n"
NUMBERS = "".join(f"{n:05}\n" for n in range(1364)) + "013640\n"
# A block and a part of one.
MORE = "cd\n" * 5000


def expect(words, *steps, last=""):
    """A case: the words, and what is given, each with what has to come out before the next; and what comes at the end.
    (@ is the input, & another one; a step that gives to the other is (text, out, 1).)"""
    return words, [(*step, 0) if len(step) == 2 else step for step in steps], last


CASES = {
    "cut": [
        expect("cut -b 1 @", ("ab\n", "a\n"), ("cd\n", "c\n"), ("\n", "\n"), ("ef", ""), last="e\n"),
        expect("cut -c 2- @", ("abc\n", "bc\n"), ("de\nf\n", "e\n\n")),
        expect("cut -b 1 -z @", ("ab\0", "a\0"), ("c\nd\0", "c\0")),
        expect(
            "cut -f 2 @", ("a\tb\n", "b\n"), ("c\n", "c\n"), ("d\te\nf\tg\n", "e\ng\n"), ("h\t", ""), ("i\n", "i\n")
        ),
        expect("cut -d : -f 1 -s @", ("a:b\n", "a\n"), ("c\n", ""), ("d:\n", "d\n")),
        expect("cut -d : -f 1 -z @", ("a:b\0", "a\0"), ("c\0", "c\0")),
        # The output for a file comes out before the next input is waited for.
        expect("cut -c 1 file @", ("", "1\n2\n"), ("ab\n", "a\n")),
        expect("cut -d 2 -f 1 file @", ("", "1\n\n"), ("a2\n", "a\n")),
        expect("cut -c 1 @ file", ("ab\n", "a\n"), last="1\n2\n"),
    ],
    "tr": [
        expect("tr a-z A-Z", ("ab\n", "AB\n"), ("c", "C"), ("d\n", "D\n")),
        expect("tr -d a", ("abc\n", "bc\n"), ("aa\n", "\n"), ("d", "d")),
        expect("tr -s a", ("aab\n", "ab\n"), ("a", "a"), ("a\n", "\n")),
        expect("tr -ds a b", ("aab\n", "b\n"), ("abb\n", "b\n")),
    ],
    "uniq": [
        expect("uniq @", ("a\n", ""), ("a\n", ""), ("b\n", "a\n"), ("c\n", "b\n"), ("c\nd\ne\n", "c\nd\n"), last="e\n"),
        expect("uniq -c @", ("a\n", ""), ("a\n", ""), ("b\n", "2 a\n"), ("c\n", "1 b\n"), last="1 c\n"),
        expect("uniq -d @", ("a\n", ""), ("a\n", ""), ("b\n", "a\n"), ("b\nc\n", "b\n")),
        expect("uniq -u @", ("a\n", ""), ("b\n", "a\n"), ("b\n", ""), ("c\n", ""), ("d\n", "c\n"), last="d\n"),
        expect("uniq -z @", ("a\0", ""), ("b\0", "a\0"), ("c\0", "b\0"), last="c\0"),
    ],
    "paste in series": [
        expect("paste -s @", ("a\n", "a"), ("b\n", "\tb"), ("c\nd\n", "\tc\td"), last="\n"),
        expect("paste -s -z -d , @", ("a\0", "a"), ("b\0", ",b"), last="\0"),
        expect("paste -s file @", ("", "1\t23\n"), ("a\n", "a"), ("b\n", "\tb"), last="\n"),
    ],
    "paste in rows": [
        expect("paste @", ("a\n", "a\n"), ("b\nc\n", "b\nc\n")),
        expect("paste -d , @ @", ("a\n", ""), ("b\n", "a,b\n"), ("c\nd\n", "c,d\n"), ("e\n", ""), last="e,\n"),
        expect("paste -z -d , @ @", ("a\0", ""), ("b\0", "a,b\0")),
        expect("paste -d , file @", ("a\n", "1,a\n"), ("b\n", "23,b\n"), ("c\n", ",c\n")),
        expect("paste -d , @ &", ("a\n", ""), ("x\n", "a,x\n", 1), ("y\n", "", 1), ("b\n", "b,y\n")),
    ],
    # Decided are the entries whose key is below the last key of each input that may go on.
    "comm": [
        expect("comm @ file", ("0\n", ""), ("1\n", "0\n"), ("22\n", "\t\t1\n"), ("24\n", "22\n"), last="\t23\n24\n"),
        expect(
            "comm -3 @ &",
            ("a\n", ""),
            ("b\n", "", 1),
            ("b\n", "a\n"),
            ("c\n", ""),
            ("d\n", "", 1),
            ("e\n", "c\n"),
            last="\td\ne\n",
        ),
        expect("comm -z @ &", ("a\0", ""), ("b\0", "", 1), ("b\0", "a\0"), last="\t\tb\0"),
    ],
    "join": [
        expect("join @ file", ("0 x\n", ""), ("1 y\n", ""), ("2 z\n", "1 y\n"), ("23 u\n", ""), last="23 u\n"),
        expect(
            "join -a 1 @ &",
            ("a 1\n", ""),
            ("b 2\n", "", 1),
            ("b 3\n", "a 1\n"),
            ("c 4\n", ""),
            ("d 5\n", "b 3 2\n", 1),
            ("d 6\n", "c 4\n"),
            last="d 6 5\n",
        ),
        expect("join -z @ &", ("a\0", ""), ("a\0", "", 1), ("b\0", ""), ("b\0", "a\0", 1), last="b\0"),
        # Output before that of a pair comes out with it, before the line after the pair is waited for.
        expect("join -a 1 @ &", ("b 2\nc 1\n", "", 1), ("a 1\nb 3\n", "a 1\nb 3 2\n")),
    ],
    "much at once": [
        expect("cut -b 1-2 @", (MANY, MANY), (MORE, MORE), ("e\n", "e\n")),
        expect("cut -f 1 @", (MANY, MANY), (MORE, MORE), ("e\n", "e\n")),
        expect("tr a x", (MANY, MANY.replace("a", "x")), (MORE, MORE), ("e", "e")),
        expect("uniq @", (NUMBERS, NUMBERS[:-7]), (MORE, "013640\n"), ("e\n", "cd\n"), last="e\n"),
        expect(
            "paste -s @", (MANY, MANY[:-1].replace("\n", "\t")), (MORE, "\t" + MORE[:-1].replace("\n", "\t")), last="\n"
        ),
        expect("paste @", (MANY, MANY), (MORE, MORE), ("e\n", "e\n")),
        expect("comm @ file", (NUMBERS, NUMBERS), ("2\n", "\t1\n"), last="2\n\t23\n"),
        expect("join -a 1 @ file", (NUMBERS, NUMBERS), ("2\n", ""), last="2\n"),
    ],
}
WAYS = ["pipe", "FIFO", "terminal"]

# Messages before standard input is waited for.
SAID = {
    "cut -c 1 none -": "cut: none: cannot be opened\n",
    "cut -f 1 none -": "cut: none: cannot be opened\n",
    "paste -s none -": "paste: none: cannot be opened\n",
}


class Late(Exception):
    """Something did not come in time."""


def shorten(text):
    """A text for a message; of a long one the end, which is where texts differ here."""
    return repr(text) if len(text) <= 60 else f"{len(text)} that end with {text[-40:]!r}"


def open_fifo(path):
    """The end of a FIFO for who writes, once somebody reads it."""
    until = time.monotonic() + MOST
    while time.monotonic() < until:
        try:
            end = os.open(path, os.O_WRONLY | os.O_NONBLOCK)
            fcntl.fcntl(end, fcntl.F_SETFL, 0)
            return end
        except OSError as why:
            if why.errno != errno.ENXIO:
                raise
            time.sleep(0.002)
    raise Late(f"{os.path.basename(path)} was not opened")


def open_quiet_terminal():
    """A pseudo-terminal that takes lines and shows none."""
    near, far = pty.openpty()
    how = termios.tcgetattr(far)
    how[3] &= ~termios.ECHO
    termios.tcsetattr(far, termios.TCSANOW, how)
    return near, far


def open_bare_terminal():
    """A pseudo-terminal that changes nothing of what is written to it."""
    near, far = pty.openpty()
    tty.setraw(far)
    return near, far


class Run:
    """The program, with its input by one of the ways."""

    def __init__(self, program, words, way, room):
        self.way, self.room, self.came, self.ends = way, room, b"", {}
        names = {"@": "first" if way == "FIFO" else "-", "&": "second"}
        self.fifos = [index for index, mark in enumerate(("@", "&")) if mark in words and names[mark] != "-"]
        for index in self.fifos:
            os.mkfifo(f"{room}/{names['@&'[index]]}")
        given, into = open_quiet_terminal() if way == "terminal" else os.pipe()[::-1]
        self.out, out = open_bare_terminal() if way == "terminal" else os.pipe()
        if way == "FIFO":
            os.close(given)
        else:
            self.ends[0] = given
        words = [program, *(names.get(word, word) for word in words)]
        self.child = subprocess.Popen(words, stdin=into, stdout=out, cwd=room, close_fds=True, start_new_session=True)
        os.close(into)
        os.close(out)

    def open(self):
        # The program opens all operands before it reads.
        for index in self.fifos:
            self.open_end(index)

    def open_end(self, which):
        if which not in self.ends:
            self.ends[which] = open_fifo(f"{self.room}/{('first', 'second')[which]}")
        return self.ends[which]

    def give(self, which, text):
        # (A terminal hands over what is no whole line once control-D is typed.)
        pushed = "" if self.way != "terminal" or which or text.endswith("\n") else "\x04"
        os.write(self.open_end(which), (text + pushed).encode())

    def end(self):
        for which, end in self.ends.items():
            if self.way == "terminal" and which == 0:
                os.write(end, b"\x04")
            else:
                os.close(end)
                self.ends[which] = None

    def wait_for(self, count):
        """Reads until `count` bytes have come in all, or with None until the end."""
        until = time.monotonic() + MOST
        while count is None or len(self.came) < count:
            ready, _, _ = select.select([self.out], [], [], max(until - time.monotonic(), 0))
            if not ready:
                raise Late(f"only {shorten(self.came)} came")
            try:
                piece = os.read(self.out, 65536)
            except OSError:
                # That is how the end of a terminal is told.
                piece = b""
            if not piece:
                if count is None:
                    return
                raise Late(f"it ended with {shorten(self.came)}")
            self.came += piece

    def close(self):
        if self.child.poll() is None:
            self.child.send_signal(signal.SIGKILL)
        self.child.wait()
        for end in [self.out, *(other for other in self.ends.values() if other is not None)]:
            os.close(end)


def try_case(program, case, way):
    """Tries a case. Raises Failed if something else comes than is wanted."""
    words, steps, last = case
    with tempfile.TemporaryDirectory() as room:
        with open(f"{room}/{FILE}", "w", encoding="ascii") as file:
            file.write("1\n23\n")
        run = Run(program, words.split(), way, room)
        wanted, at = b"", "the start"
        try:
            run.open()
            for number, (text, out, which) in enumerate(steps):
                at = f"step {number + 1}, {shorten(text)}"
                if text:
                    run.give(which, text)
                wanted += out.encode()
                run.wait_for(len(wanted))
            at = "the end"
            wanted += last.encode()
            run.end()
            run.wait_for(None)
            if run.came != wanted:
                raise Failed(f"{shorten(run.came)} came, and not {shorten(wanted)}")
            if run.child.wait(MOST):
                raise Failed(f"the status is {run.child.returncode}")
        except (Late, BrokenPipeError) as why:
            raise Failed(f"at {at}: {why}, and {shorten(wanted)} was wanted") from why
        finally:
            run.close()


def read_messages(program, words):
    """The text that comes on standard error while standard input is open and nothing is given."""
    with tempfile.TemporaryDirectory() as room:
        streams = {"stdin": subprocess.PIPE, "stdout": subprocess.DEVNULL, "stderr": subprocess.PIPE}
        with subprocess.Popen([program, *words.split()], cwd=room, **streams) as child:
            ready, _, _ = select.select([child.stderr], [], [], MOST)
            said = os.read(child.stderr.fileno(), 65536).decode() if ready else ""
            child.stdin.close()
    return said


def main(program):
    # (A test that is ended ends the program that it runs.)
    signal.signal(signal.SIGTERM, lambda *_: sys.exit(143))
    program = os.path.realpath(program)
    tried = bad = 0
    for cases in CASES.values():
        for case in cases:
            for way in WAYS:
                # `tr` has no operands; and who opens a FIFO twice can't tell which of the two a line goes to.
                if way == "FIFO" and case[0].split().count("@") != 1:
                    continue
                # A terminal has no room for so much.
                if way == "terminal" and any(len(text) > 1000 for text, _, _ in case[1]):
                    continue
                tried += 1
                try:
                    try_case(program, case, way)
                except Failed as why:
                    bad += 1
                    print(f"FAILED: {case[0]}, by a {way}: {why}")
    for words, wanted in SAID.items():
        tried += 1
        said = read_messages(program, words)
        if said != wanted:
            bad += 1
            print(f"FAILED: {words}: {shorten(said)} was said, and not {shorten(wanted)}")
    print(f"waiting: {tried - bad} passed, {bad} failed")
    return 1 if bad else 0


if __name__ == "__main__":
    sys.exit(main(sys.argv[1]) if len(sys.argv) == 2 else __doc__)
