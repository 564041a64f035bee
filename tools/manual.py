#!/usr/bin/env python3
"""Makes the manual page ptext-replacing(7) from docs/REPLACING.md, so that its text is kept once.

  python3 tools/manual.py      prints the page

Headings become sections, a row of a table an entry of a list, and code is quoted.
"""
import os
import re
import sys
import textwrap

TOP = os.path.dirname(os.path.dirname(os.path.realpath(__file__)))
NAME = "ptext-replacing.7"
DOCUMENT = "docs/REPLACING.md"
SIGNS = {"\\": r"\e", "'": r"\(aq", '"': r"\(dq", "`": r"\(ga", "^": r"\(ha", "~": r"\(ti", "-": r"\-"}
HEAD = """.\\" Made from docs/REPLACING.md by tools/manual.py.
{date}
.Dt PTEXT-REPLACING 7
.Os ptext {version}
.Sh NAME
.Nm ptext-replacing
.Nd use ptext instead of GNU's cut, paste, join, comm, uniq and tr
.Sh DESCRIPTION
"""
FOOT = """.Sh SEE ALSO
.Xr ptext 1 ,
.Xr ptext-comm 1 ,
.Xr ptext-cut 1 ,
.Xr ptext-join 1 ,
.Xr ptext-paste 1 ,
.Xr ptext-tr 1 ,
.Xr ptext-uniq 1
"""


def read(path):
    with open(f"{TOP}/{path}", encoding="utf-8") as file:
        return file.read()


def escape(code):
    return "".join(SIGNS.get(sign, sign) for sign in code)


def format_text(text):
    """A text with its code in quotes, its emphasis as fonts, and its links as words."""
    text = re.sub(r"\[([^]]*)\]\([^)]*\)", r"\1", text)
    parts = re.split(r"`([^`]+)`", text)
    parts[1::2] = [rf"\(oq{escape(code)}\(cq" for code in parts[1::2]]
    parts[::2] = [part.replace("**", "\0").replace("*", "\1") for part in parts[::2]]
    text = re.sub("\0(.+?)\0", r"\\fB\1\\fR", "".join(parts))
    return re.sub("\1(.+?)\1", r"\\fI\1\\fR", text)


def format_sentences(text):
    """A text as lines of at most 79 signs, each sentence on lines of its own."""
    sentences = re.sub(r"(?<=[^.][.?!]) (?=[A-Z`(\\])", "\n", format_text(text)).split("\n")
    wrapped = [textwrap.wrap(text, 79, break_long_words=False, break_on_hyphens=False) for text in sentences]
    return "".join(f"{guard(line)}\n" for lines in wrapped for line in lines)


def guard(line):
    """The line, so that its first sign is not taken for the beginning of a request."""
    return rf"\&{line}" if line.startswith((".", "'")) else line


def quote(text):
    return '"' + text.replace('"', '""') + '"'


def format_heading(line):
    marks, _, text = line.partition(" ")
    plain = text.replace("`", "")
    return f".Sh {quote(plain.upper())}\n" if marks == "##" else f".Ss {quote(escape(plain))}\n"


def format_code(lines):
    body = "".join(f"{guard(escape(line))}\n" for line in lines)
    return f".Bd -literal -offset indent\n{body}.Ed\n"


def format_list(lines):
    entries = re.sub(r"\n  ", " ", "\n".join(lines)).split("\n")
    return ".Bl -bullet\n" + "".join(f".It\n{format_sentences(entry[2:])}" for entry in entries) + ".El\n"


def split_cells(line):
    return [cell.strip().replace("\\|", "|") for cell in re.split(r"(?<!\\)\|", line)[1:-1]]


def format_cell(head, cell):
    """A command as a literal line, with the remark that follows it, or else a sentence."""
    command = re.fullmatch(r"`([^`]+)`(.*)", cell)
    if command and head == "Here":
        remark = format_sentences(command[2].strip())
        return f".Bd -literal -compact\n{guard(escape(command[1]))}\n.Ed\n{remark}"
    return format_sentences(cell if head == "Here" else f"{head}: {cell}.")


def format_table(lines):
    heads = split_cells(lines[0])
    text = ".Bl -tag -width Ds\n"
    for line in lines[2:]:
        first, *others = split_cells(line)
        text += f".It {quote(format_text(first))}\n"
        text += "".join(format_cell(head, cell) for head, cell in zip(heads[1:], others))
    return text + ".El\n"


def split_blocks(text):
    """The blocks of the document: lists of lines. A block of code keeps its empty lines."""
    for block in re.findall(r"(?:^ {4}.*\n|^\n(?= {4}))+|(?:^(?! {4}).+\n)+", text, re.M):
        lines = block.strip("\n").split("\n")
        yield [line[4:] for line in lines] if lines[0].startswith("    ") else lines, lines[0].startswith("    ")


def make_page():
    date = re.match(r"\.Dd .*", read("man/ptext.1"))[0]
    page = HEAD.format(date=date, version=read("VERSION").strip())
    is_first = True
    for lines, is_code in split_blocks(read(DOCUMENT)):
        if lines[0].startswith("# ") or lines[0].startswith("- ["):
            continue
        if is_code:
            page += format_code(lines)
        elif lines[0].startswith("#"):
            page += format_heading(lines[0])
        elif lines[0].startswith("- "):
            page += format_list(lines)
        elif lines[0].startswith("|"):
            page += format_table(lines)
        else:
            page += ("" if is_first else ".Pp\n") + format_sentences(" ".join(lines))
        is_first = lines[0].startswith("#") and not is_code
    return page + FOOT


if __name__ == "__main__":
    sys.stdout.write(make_page())
