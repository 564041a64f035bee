"""The answer of the definitions: output, status and messages of a case, computed as simply as possible.

Functions that model the definitions and the terms of these are named after them, so their names are nouns. The names of
the others are verbs."""
import re
from collections import deque
from itertools import groupby
from typing import NamedTuple

from cases import split_lines
from reading import Refused, read_command
from sets import make_plan


class Answer(NamedTuple):
    """Standard output, followed by the output file if there is one; the status, and standard error."""

    out: bytes
    status: int
    messages: str


def name_operand(operand):
    return "standard input" if operand == "-" else operand


def read_once(case, operands):
    """Each operand with its text: standard input is empty the second time, and a missing file is None."""
    is_used = False
    for name in operands:
        text = case.inputs.get(name)
        if name == "-":
            text, is_used = (b"" if is_used else text), True
        yield name, text


# --- cut, paste and uniq


def is_selected(ranges, position):
    return any(first <= position <= last for first, last in ranges)


def cut_line(line, meant):
    """The selected part of a line, or None if -s leaves the line out."""
    if "f" not in meant:
        ranges = (meant.get("b") or meant.get("c"))[0]
        return bytes(byte for position, byte in enumerate(line, 1) if is_selected(ranges, position))
    delimiter = meant["d"][0] if "d" in meant else b"\t"
    fields = line.split(delimiter)
    if len(fields) == 1:
        return None if "s" in meant else line
    return delimiter.join(field for position, field in enumerate(fields, 1) if is_selected(meant["f"][0], position))


def cut(case, meant, operands):
    out, messages = [], ""
    for name, text in read_once(case, operands or ["-"]):
        if text is None:
            messages += f"cut: {name}: cannot be opened\n"
            continue
        done = [cut_line(line, meant) for line in split_lines(text, case.end)]
        out += [line + case.end for line in done if line is not None]
    return b"".join(out), messages


def joined_by_turns(cells, delimiters):
    """The cells, with the delimiters between them used circularly."""
    between = [delimiters[index % len(delimiters)] for index in range(len(cells) - 1)] + [b""]
    return b"".join(cell + delimiter for cell, delimiter in zip(cells, between))


def paste(case, meant, operands):
    delimiters, end = (meant["d"][0] if "d" in meant else [b"\t"]), case.end
    lacking = "".join(f"paste: {name}: cannot be opened\n" for name in operands if name not in case.inputs)
    if "s" in meant:
        texts = [text for _, text in read_once(case, operands) if text is not None]
        rows = [joined_by_turns(split_lines(text, end), delimiters) for text in texts]
        return b"".join(row + end for row in rows), lacking
    if lacking:
        return b"", lacking
    standard = deque(case.read_lines("-"))
    columns = [standard if name == "-" else deque(case.read_lines(name)) for name in operands]
    rows = []
    while any(columns):
        rows.append(joined_by_turns([column.popleft() if column else b"" for column in columns], delimiters))
    return b"".join(row + end for row in rows), ""


def uniq_key(line, meant):
    """The part of a line that is compared."""
    fields = re.findall(rb"[ \t]*[^ \t]+|[ \t]+", line)
    return b"".join(fields[meant.get("f", [0])[0] :])[meant.get("s", [0])[0] :]


def uniq(case, meant, operands):
    name = operands[0] if operands else "-"
    if name not in case.inputs:
        return b"", f"uniq: {name}: cannot be opened\n"
    runs = [list(run) for _, run in groupby(case.read_lines(name), lambda line: uniq_key(line, meant))]
    out = b""
    for line, count in [(run[0], len(run)) for run in runs]:
        if not ("d" in meant and count == 1 or "u" in meant and count > 1):
            out += (b"%d " % count if "c" in meant else b"") + line + case.end
    to_file = len(operands) == 2 and operands[1] != "-"
    return (b"output file:" + case.end if to_file else b"") + out, ""


# --- comm and join


def fields_of(case, line):
    """The fields of a line of join."""
    if case.list_values("t"):
        return line.split(case.list_values("t")[0].encode())
    return [field for field in re.split(rb"[ \t]+", line) if field]


def join_number(case, index):
    """The number of the join field of a file."""
    return int((case.list_values("12"[index]) or ["1"])[0])


def key_of(case, index, line):
    """The line of comm, or the join field: empty if the line has too few."""
    if case.tool == "comm":
        return line
    fields, number = fields_of(case, line), join_number(case, index)
    return fields[number - 1] if number <= len(fields) else b""


def ranks(case):
    """The rank of each key in ascending order, or in descending order with -r."""
    keys = {key_of(case, index, line) for index, name in enumerate(case.operands) for line in case.read_lines(name)}
    return {key: index for index, key in enumerate(sorted(keys, reverse=case.has("r")))}


def beginning(case, index, known):
    """The longest prefix of a file that is in order, and its last rank if a line out of order follows it."""
    lines = case.read_lines(case.operands[index])
    ranked = [known[key_of(case, index, line)] for line in lines]
    for at in range(1, len(lines)):
        if ranked[at] < ranked[at - 1]:
            return lines[:at], ranked[at - 1]
    return lines, None


def disorder(case):
    """The rank up to which keys are written, the file and the line that are out of order; None if there is none."""
    if case.tool not in ("comm", "join") or len(case.operands) != 2:
        return None
    known = ranks(case)
    found = [(beginning(case, index, known), index) for index in (0, 1)]
    found = sorted((last, index, len(lines) + 1) for (lines, last), index in found if last is not None)
    return found[0] if found else None


def groups_of(case):
    """For each key, in its order: the lines of the first file and those of the second."""
    known, found = ranks(case), disorder(case)
    groups = {key: ([], []) for key in known}
    for index in (0, 1):
        for line in beginning(case, index, known)[0]:
            groups[key_of(case, index, line)][index].append(line)
    return [(key, *groups[key]) for key, rank in known.items() if not found or rank <= found[0]]


def comm_entries(case, meant, groups):
    lead_two = b"" if "1" in meant else b"\t"
    lead_both = lead_two + (b"" if "2" in meant else b"\t")
    for key, first, second in groups:
        common = min(len(first), len(second))
        yield from [lead_both + key] * (0 if "3" in meant else common)
        yield from [key] * (0 if "1" in meant else len(first) - common)
        yield from [lead_two + key] * (0 if "2" in meant else len(second) - common)


def other_fields(case, index, line):
    """All fields of a line but its join field."""
    fields, number = fields_of(case, line), join_number(case, index)
    return fields[: number - 1] + fields[number:]


def join_line(case, meant, key, lines):
    """The output line of a pair, or of one line if the other is None."""
    if "o" not in meant:
        there = [(index, line) for index, line in enumerate(lines) if line is not None]
        fields = [key] + [field for index, line in there for field in other_fields(case, index, line)]
    else:
        has = [[] if line is None else fields_of(case, line) for line in lines]
        chosen = [(has[file - 1][number - 1 : number] or [b""])[0] if file else key for file, number in meant["o"][0]]
        fields = [field or meant.get("e", [b""])[0] for field in chosen]
    separator = meant["t"][0] if "t" in meant else b" "
    return separator.join(fields)


def join_entries(case, meant, groups):
    asked = set(meant.get("a", [])) | set(meant.get("v", []))
    for key, first, second in groups:
        if first and second and "v" not in meant:
            yield from (join_line(case, meant, key, (one, two)) for one in first for two in second)
        if 1 in asked and not second:
            yield from (join_line(case, meant, key, (line, None)) for line in first)
        if 2 in asked and not first:
            yield from (join_line(case, meant, key, (None, line)) for line in second)


def merged(case, meant, operands):
    """The output and messages of comm or join."""
    case = case._replace(operands=operands)
    lacking = "".join(f"{case.tool}: {name}: cannot be opened\n" for name in operands if name not in case.inputs)
    if lacking:
        return b"", lacking
    entries = comm_entries if case.tool == "comm" else join_entries
    out = b"".join(entry + case.end for entry in entries(case, meant, groups_of(case)))
    found = disorder(case)
    if not found:
        return out, ""
    return out, f"{case.tool}: {name_operand(operands[found[1]])}: line {found[2]} is out of order\n"


# --- tr


def tr(case, meant, operands):
    plan = make_plan(set(meant), operands)
    out = bytearray()
    for byte in case.inputs["-"]:
        if byte not in plan.deleted:
            image = plan.images.get(byte, byte)
            if not (out and out[-1] == image and image in plan.squeezed):
                out.append(image)
    return bytes(out), ""


TOOLS = {"cut": cut, "paste": paste, "uniq": uniq, "comm": merged, "join": merged, "tr": tr}


def compute_answer(case):
    """The answer of the definitions to a case."""
    try:
        tool, meant, operands = read_command(case.words)
        out, messages = TOOLS[tool](case, meant, operands)
    except Refused as why:
        return Answer(b"", 2, f"{why}\n")
    return Answer(out, 1 if messages else 0, messages)
