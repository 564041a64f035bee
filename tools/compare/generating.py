"""Random cases: mostly command lines that POSIX allows, and now and then a mistake or an extension."""

from cases import Case
from model import key_of, ranks
from reading import LARGEST, Refused, read_command

# A pair has the usual values and the rare ones.
NUMBER = ["1", "2", "3", "4"], ["0", "9", "007", str(LARGEST), str(LARGEST + 1)]
LISTS = ["", "0", "-", "3-1", "1,,2", ",1", "x", "1-2-3", "-0", "0-", " 1", "1 "]
LISTS += [str(LARGEST), f"{LARGEST}-", str(LARGEST + 1)]
CUT_DELIMITERS = [",", ":", " ", "a", "\t", "-"], ["", "\n", "ab", "é"]
PASTE_ELEMENTS = [",", ";", ":", "x", r"\n", r"\t", r"\\", r"\0", "é"]
PASTE_LISTS = ["", "\\", r"\q", "a\\"]
UNIQ_OPTIONS = [("c", None), ("d", None), ("i", None), ("f", "+1"), ("s", ""), ("D", None)]
JOIN_OPTIONS = [("a", "1"), ("v", "2"), ("i", None), ("a", "3"), ("v", "01")]
JOIN_FIELDS = ["0", "1.1", "1.2", "2.1", "2.2", "1.3", "2.3"]
JOIN_LISTS = ["", "1.0", "0,", "00", "3.1", "1", f"1.{LARGEST + 1}"]
JOIN_SEPARATORS = [",", ":", " ", "a"], ["", "\n", "ab", r"\0"]
JOIN_NUMBERS = ["1", "2", "2", "3"], ["0", "+1", str(LARGEST + 1)]
SET_UNITS = list("abzA-[]*:=., é") + [r"\n", r"\t", r"\\", r"\055", r"\0012", r"\377"]
SET_CLASSES = ["[:lower:]", "[:upper:]", "[:digit:]", "[:space:]", "[:alpha:]", "[:alnum:]", "[:print:]", "[:punct:]"]
SET_CLASSES += ["[:blank:]", "[:cntrl:]", "[:graph:]", "[:xdigit:]"]
SET_PARTS = [*SET_UNITS, *SET_CLASSES, "a-c", "x-z", "0-9", "A-Z", "[=a=]", "[x*]", "[y*2]", "[y*02]"]
SET_FORMS = ["[:foo:]", "[:alpha", "[::]", "[==]", "[a*x]", "[a*99999]", "[a*08]", "[x*][y*]", "[-a"]
ODD_SETS = ["", r"\400", "\\", "z-a", r"\q", r"\8", "a-", "--/", *SET_FORMS]


def choose(rng, from_these, odd, often=0.96):
    return rng.choice(from_these if rng.random() < often else odd)


def make_list(rng):
    if rng.random() < 0.05:
        return rng.choice(LISTS)
    text = ""
    for _ in range(rng.choice([1, 1, 2, 3])):
        low, more = rng.randint(1, 12), rng.randint(0, 5)
        text += rng.choice([",", ",", " ", "\t"]) if text else ""
        text += rng.choice([str(low), f"{low}-{low + more}", f"{low}-", f"-{low}"])
    return text


def make_set(rng):
    if rng.random() < 0.04:
        return rng.choice(["", rng.choice(SET_PARTS)]) + rng.choice(ODD_SETS)
    return "".join(rng.choice(SET_PARTS) for _ in range(rng.choice([1, 1, 2, 3])))


def choose_cut_options(rng):
    letter = rng.choice("bcfff")
    options = [(letter, make_list(rng))]
    if letter == "f" and rng.random() < 0.7:
        options.append(("d", choose(rng, *CUT_DELIMITERS)))
    if letter == "f" and rng.random() < 0.3 or rng.random() < 0.02:
        options.append(("s", None))
    if letter == "b" and rng.random() < 0.2 or rng.random() < 0.02:
        options.append(("n", None))
    return options


def choose_paste_options(rng):
    options = [("s", None)] if rng.random() < 0.4 else []
    if rng.random() < 0.7:
        text = "".join(rng.choice(PASTE_ELEMENTS) for _ in range(rng.randint(1, 4)))
        options.append(("d", choose(rng, [text], PASTE_LISTS)))
    return options


def choose_uniq_options(rng):
    options = [(rng.choice("cdu"), None)] if rng.random() < 0.6 else []
    options += [(letter, choose(rng, *NUMBER, 0.8)) for letter in "fs" if rng.random() < 0.4]
    return options + ([rng.choice(UNIQ_OPTIONS)] if rng.random() < 0.04 else [])


def choose_comm_options(rng):
    return [(letter, None) for letter in "123" if rng.random() < 0.3] + ([("r", None)] if rng.random() < 0.1 else [])


def choose_join_options(rng):
    letter = rng.choice("av")
    options = [(letter, number) for number in "12" if rng.random() < 0.35]
    options += [("r", None)] if rng.random() < 0.1 else []
    if rng.random() < 0.3:
        options.append(("e", rng.choice(["-", "EMPTY", "", "é"])))
    if rng.random() < 0.4:
        text = rng.choice(JOIN_FIELDS)
        for _ in range(rng.randint(0, 3)):
            text += rng.choice([",", " "]) + rng.choice(JOIN_FIELDS)
        options.append(("o", choose(rng, [text], JOIN_LISTS)))
    if rng.random() < 0.5:
        options.append(("t", choose(rng, *JOIN_SEPARATORS)))
    options += [(letter, choose(rng, *JOIN_NUMBERS)) for letter in "12" if rng.random() < 0.25]
    return options + ([rng.choice(JOIN_OPTIONS)] if rng.random() < 0.02 else [])


def choose_tr_options(rng):
    options = [(letter, None) for letter in rng.choice(["", "", "s", "s", "d", "ds"])]
    if rng.random() < 0.3:
        options.append((rng.choice("cC"), None))
    if rng.random() < 0.02:
        options.append(rng.choice([("c", None), ("C", None), ("t", None)]))
    return options


OPTIONS = {
    "cut": choose_cut_options,
    "paste": choose_paste_options,
    "uniq": choose_uniq_options,
    "comm": choose_comm_options,
    "join": choose_join_options,
    "tr": choose_tr_options,
}


def choose_operands(tool, options, rng):
    letters = [letter for letter, _ in options]
    if tool == "tr":
        count = 1 if "d" in letters and "s" not in letters or letters == ["s"] and rng.random() < 0.5 else 2
        return [make_set(rng) for _ in range(count if rng.random() < 0.98 else rng.randint(0, 3))]
    names = ["-", "f", "g", "h", "none" if rng.random() < 0.15 else "f"]
    if tool == "uniq":
        return ([rng.choice(names)] + ["out"] * (rng.random() < 0.2)) * (rng.random() < 0.7)
    if tool in ("comm", "join"):
        return rng.sample(sorted(set(names)), 2) if rng.random() < 0.98 else rng.choice([["f"], ["-", "-"]])
    return [
        rng.choice(names) for _ in range(rng.choice([0, 1, 1, 2, 3, 4]) or (tool == "paste" and rng.random() < 0.8))
    ]


def make_line(rng, end, kind):
    if rng.random() < 0.01:
        return bytes(rng.choice(kind) for _ in range(7)) * rng.choice([500, 1170, 1171, 2000])
    return bytes(rng.choice(kind) for _ in range(rng.choice([0, 1, 1, 2, 3, 5, 8, 13]))).replace(end, b"")


def make_text(rng, end, count):
    kind = rng.choice([b"ab", b"ab,: \t", b"aab, ", b"abcxyzABZ0189.,:-[]\\ \t\xc3\xa9\xff", b"a,\n\0 ", b"1 \t"])
    lines = [make_line(rng, end, kind) for _ in range(count)]
    if rng.random() < 0.5:
        lines = [copy for line in lines for copy in [line] * rng.choice([1, 1, 2, 3])]
    text = b"".join(line + end for line in lines)
    return text[: -len(end)] if rng.random() < 0.15 and text and lines[-1] else text


def sort_often(case, rng):
    """The case with its files in order, mostly. If the order descends, each line has a join field."""
    if case.tool not in ("comm", "join") or not has_keys(case):
        return case
    if case.tool == "join" and case.has("r"):
        case = case.change_lines(lambda index, lines: [line for line in lines if key_of(case, index, line)])
    return case if rng.random() < 0.15 else sort_files(case)


def has_keys(case):
    """Whether a command line of comm or join is taken, so that each line has a key."""
    try:
        read_command(case.words)
    except Refused:
        return False
    return all(name in case.inputs for name in case.operands)


def sort_files(case):
    """The case with its files in order."""
    known = ranks(case)
    return case.change_lines(lambda index, lines: sorted(lines, key=lambda line: known[key_of(case, index, line)]))


def make_case(tool, rng):
    """A random case of a tool."""
    options = OPTIONS[tool](rng)
    if tool != "tr" and rng.random() < 0.15:
        options.append(("z", None))
    if rng.random() < 0.02 and options:
        options.append(rng.choice(options))
    if rng.random() < 0.01:
        # (A letter that no tool has.)
        options.append(("q", None))
    rng.shuffle(options)
    late = [options.pop()] if tool != "tr" and options and rng.random() < 0.02 else []
    operands = choose_operands(tool, options, rng)
    end = b"\0" if ("z", None) in options else b"\n"
    most = 3 if rng.random() < 0.2 else 12 if rng.random() < 0.95 else 150 if tool == "join" else 2000
    inputs = {name: make_text(rng, end, rng.randint(0, most)) for name in "-fgh"}
    piece = rng.choice([1, 7, 4096, 4096] if len(inputs["-"]) < 3000 else [7, 4096])
    spelling = rng.randrange(1, 1 << 30)
    return sort_often(Case(tool, options, operands, late if operands else [], inputs, spelling, piece), rng)
