"""The corpus: cases that some implementation gets wrong, one file for each tool, one case in a line.

The columns of a line are: the words, the inputs as NAME=TEXT, the wanted output, and the title of the rule. A backslash
with three octal digits is a byte, `\\t` and `\\n` are a tab and a newline, and `""` is an empty word."""
import os
import re

from cases import Case
from model import compute_answer
from reading import FLAGS, read_words

HEAD = "# words\tinputs\twanted output\trule (tools/compare/rules.py)\n"
SHORT = {b"\t": "\\t", b"\n": "\\n", b"\\": "\\\\"}
LONG = {value[1]: name for name, value in SHORT.items()}


def escape(text, plain=rb"[!-~]"):
    """A text in printable characters without spaces."""
    return "".join(
        SHORT[byte] if byte in SHORT else byte.decode() if re.fullmatch(plain, byte) else f"\\{byte[0]:03o}"
        for byte in (text[at : at + 1] for at in range(len(text)))
    )


def unescape(text):
    """The bytes of an escaped text."""
    return re.sub(
        rb"\\([0-7]{3}|.)",
        lambda found: bytes([int(found[1], 8)]) if len(found[1]) == 3 else LONG[found[1].decode()],
        text.encode(),
    )


def format_case(case, title):
    """The line of a case in the corpus."""
    words = " ".join(escape(word.encode()) or '""' for word in case.words)
    inputs = " ".join(f"{name}={escape(case.inputs[name])}" for name in sorted(set(case.files) & set(case.inputs)))
    return f"{words}\t{inputs}\t{escape(compute_answer(case).out)}\t{title}\n"


def parse_case(line):
    """The case of a line, the wanted output, and the title of the rule."""
    words, inputs, wanted, title = line.rstrip("\n").split("\t")
    tool, *rest = ["" if word == '""' else unescape(word).decode() for word in words.split(" ")]
    options, operands = read_words(tool, rest)
    pairs = [item.partition("=") for item in inputs.split(" ") if item]
    texts = {"-": b"", **{name: unescape(text) for name, _, text in pairs}}
    return Case(tool, options, operands, [], texts, 0, 4096), unescape(wanted), title


def read_cases(folder):
    """All cases of the corpus."""
    found = []
    for tool in FLAGS:
        path = f"{folder}/{tool}.tsv"
        if os.path.exists(path):
            with open(path, encoding="ascii") as file:
                found += [parse_case(line) for line in file if not line.startswith("#")]
    return found


def add_cases(folder, cases):
    """Adds cases, given with the titles of their rules, to the corpus, in order and each of them once."""
    os.makedirs(folder, exist_ok=True)
    for tool in sorted({case.tool for case, _ in cases}):
        path, lines = f"{folder}/{tool}.tsv", set()
        if os.path.exists(path):
            with open(path, encoding="ascii") as file:
                lines = {line for line in file if not line.startswith("#")}
        lines |= {format_case(case, title) for case, title in cases if case.tool == tool}
        with open(path, "w", encoding="ascii") as file:
            file.write(HEAD + "".join(sorted(lines)))
