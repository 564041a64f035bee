"""Which output is decided by inputs that were read in part, by means of tools/compare/model.py. A part of an input is
the bytes that were received, and whether they are all."""
import random

import model
from cases import split_lines
from commands import TOOLS, make_groups, make_two_disorders
from generating import make_case
from reading import Refused, read_command

MOST_BYTES = 400


def read_known_lines(part, end):
    """All lines of a whole input, and the complete ones of any other."""
    data, eof = part
    return split_lines(data if eof else data[: data.rfind(end) + 1], end)


def decide_in_order(case, meant, names, parts):
    """The output of cut and paste -s: nothing is decided after an input that has not ended."""
    out, end = b"", case.end
    delimiters = meant["d"][0] if "d" in meant else [b"\t"]
    for at, name in enumerate(names):
        part = (b"", True) if name == "-" and name in names[:at] else parts.get(name)
        if part is None:
            continue
        lines = read_known_lines(part, end)
        if case.tool == "cut":
            cut_lines = [model.cut_line(line, meant) for line in lines]
            out += b"".join(line + end for line in cut_lines if line is not None)
        else:
            out += model.joined_by_turns(lines, delimiters) + end * part[1] if lines else end * part[1]
        if not part[1]:
            break
    return out


def decide_rows(case, meant, names, parts):
    """The rows of paste whose cells are all known, or known not to exist."""
    end, uses = case.end, names.count("-")
    lines = {name: read_known_lines(parts[name], end) for name in names}
    columns = [
        lines[name][names[:at].count("-") :: uses] if name == "-" else lines[name] for at, name in enumerate(names)
    ]
    delimiters = meant["d"][0] if "d" in meant else [b"\t"]
    out = b""
    for row in range(max(map(len, columns))):
        if all(row < len(column) or parts[name][1] for column, name in zip(columns, names)):
            cells = [column[row] if row < len(column) else b"" for column in columns]
            out += model.joined_by_turns(cells, delimiters) + end
    return out


def decide_runs(case, meant, name, parts):
    """The output of uniq for all runs but the last."""
    lines, end = read_known_lines(parts[name], case.end), case.end
    keys = [model.uniq_key(line, meant) for line in lines]
    after = len(keys)
    while after and keys[after - 1] == keys[-1]:
        after -= 1
    text = b"".join(line + end for line in lines[:after])
    return model.uniq(case._replace(inputs={name: text}, operands=[name]), meant, [name])[0]


def decide_entries(case, meant, names, parts):
    """The output of a merge for the keys of which neither input can have another line."""
    end = case.end
    texts = {name: b"".join(line + end for line in read_known_lines(parts[name], end)) for name in names}
    part = case._replace(inputs=texts, operands=names)
    known, found, limits = model.ranks(part), model.disorder(part), []
    lines = {key: ([], []) for key in known}
    for index in (0, 1):
        start, broken = model.beginning(part, index, known)
        for line in start:
            lines[model.key_of(part, index, line)][index].append(line)
        if broken is None and not parts[names[index]][1]:
            limits.append(known[model.key_of(part, index, start[-1])] if start else -1)
    kept = [
        (key, *lines[key])
        for key, rank in known.items()
        if (not found or rank <= found[0]) and all(rank < limit for limit in limits)
    ]
    entries = model.comm_entries if case.tool == "comm" else model.join_entries
    return b"".join(entry + end for entry in entries(part, meant, kept))


def decide(case, parts):
    """The output that parts of the inputs decide, by the names of these. A file that is not there has no part."""
    tool, meant, operands = read_command(case.words)
    if tool == "tr":
        return model.tr(case._replace(inputs={"-": parts["-"][0]}), meant, operands)[0]
    names = (operands[:1] if tool == "uniq" else operands) or ["-"]
    if tool == "cut" or tool == "paste" and "s" in meant:
        return decide_in_order(case, meant, names, parts)
    if any(name not in parts for name in names):
        return b""
    if tool == "paste":
        return decide_rows(case, meant, names, parts)
    return decide_runs(case, meant, names[0], parts) if tool == "uniq" else decide_entries(case, meant, names, parts)


def make_partly_read(seed, count):
    """Random commands with parts of their inputs, and the output that these decide."""
    found, number = [], 0
    while len(found) < count:
        rng = random.Random(f"decided {seed} {number}")
        shape = (None, None, make_groups, None, make_two_disorders)[number % 5]
        case = shape(rng, number // 5) if shape else make_case(TOOLS[number // 5 % len(TOOLS)], rng)
        number += 1
        used = sorted((set(case.files) | {"-"}) & set(case.inputs))
        if sum(len(case.inputs[name]) for name in used) > MOST_BYTES:
            continue
        parts = {}
        for name in used:
            data, eof = case.inputs[name], rng.random() < 0.4
            parts[name] = data if eof else data[: rng.randint(0, len(data))], eof
        try:
            found.append((case, parts, decide(case, parts)))
        except Refused:
            continue
    return found
