"""Command lines by the definitions: which words are refused and with which message, and the meaning of the others.

It was written from the definitions in words and the manual pages. It shares nothing with the source or the proofs but the
letters of the options."""
import re

from names import LISTED, read_letters

FLAGS, VALUED = read_letters("flags"), read_letters("value_letters")
LARGEST = 2**64 - 1
TOGETHER = {
    "cut": ["bc", "bf", "cf", "", "cn", "fn", "bd", "cd", "bs", "cs"],
    "paste": [],
    "uniq": ["cd", "cu", "du"],
    "comm": [],
    "join": ["av"],
    "tr": ["cC"],
}
VALUE_ORDER = {"cut": "bcfd", "paste": "d", "uniq": "fs", "comm": "", "join": "avot12", "tr": ""}
MOST_OPERANDS = 512


class Refused(Exception):
    """A refused command line. Its text is the message."""


def read_words(tool, words):
    """The options as pairs of letter and value, and the operands; raises Refused at the first fault of a word."""
    options, index = [], 0
    while index < len(words):
        word = words[index]
        index += 1
        if word == "--":
            break
        if not word.startswith("-") or len(word) < 2:
            index -= 1
            break
        for at, letter in enumerate(word[1:], 1):
            if letter in FLAGS[tool]:
                options.append((letter, None))
                continue
            if letter not in VALUED[tool]:
                raise Refused(f"{tool}: unknown option in {word}")
            if any(other == letter for other, _ in options) and not (tool == "join" and letter in "av"):
                raise Refused(f"{tool}: option -{letter} is given twice")
            value = word[at + 1 :]
            if not value and index == len(words):
                raise Refused(f"{tool}: option -{letter} needs a value")
            if not value:
                value = words[index]
                index += 1
            options.append((letter, value))
            break
    return options, words[index:]


def check_together(tool, letters):
    """Raises Refused if two options do not go together, or if cut has no list."""
    for pair in TOGETHER[tool]:
        if pair and set(pair) <= letters:
            raise Refused(f"{tool}: options -{pair[0]} and -{pair[1]} do not go together")
        if not pair and not letters & set("bcf"):
            raise Refused("cut: one of -b, -c and -f is needed")


def read_number(text, least):
    """The number that the text is, or None."""
    if not re.fullmatch("[0-9]+", text) or not least <= int(text) <= LARGEST:
        return None
    return int(text)


def read_cut_list(text):
    """The ranges of a list, as pairs of the first and the last position, or None."""
    ranges = []
    for item in re.split("[, \t]", text):
        found = re.fullmatch("([0-9]*)(-?)([0-9]*)", item)
        if not found or item in ("", "-"):
            return None
        first = read_number(found[1] or "1", 1)
        last = read_number(found[3] or (str(LARGEST) if found[2] else found[1]), 1)
        if first is None or last is None or last < first:
            return None
        ranges.append((first, last))
    return ranges


def read_byte(text, end):
    """The single byte of a delimiter, or None."""
    value = text.encode()
    return value if len(value) == 1 and value != end else None


def read_paste_list(text):
    """The delimiters of a list, or None."""
    known = {b"\\n": b"\n", b"\\t": b"\t", b"\\\\": b"\\", b"\\0": b""}
    items = re.findall(rb"\\.?|[^\\]", text.encode(), re.S)
    if not items or any(item.startswith(b"\\") and item not in known for item in items):
        return None
    return [known.get(item, item) for item in items]


def read_output_list(text):
    """The fields of `join -o`, as pairs of the file (0 for the join field) and the field, or None."""
    fields = []
    for item in re.split("[, \t]", text):
        found = re.fullmatch(r"([12])\.([0-9]+)", item)
        if item == "0":
            fields.append((0, 0))
        elif found and read_number(found[2], 1):
            fields.append((int(found[1]), int(found[2])))
        else:
            return None
    return fields


def read_value(tool, letter, value, end):
    """The meaning of an option's value, or None if it is refused."""
    if tool == "cut":
        return read_byte(value, end) if letter == "d" else read_cut_list(value)
    if tool == "paste":
        return read_paste_list(value)
    if tool == "uniq":
        return read_number(value, 0)
    if letter in "av":
        return int(value) if value in ("1", "2") else None
    if letter == "o":
        return read_output_list(value)
    return read_byte(value, end) if letter == "t" else read_number(value, 1)


def check_operands(tool, letters, operands):
    """Raises Refused for a wrong number of operands, or standard input named twice."""
    least, most = {"cut": (0, MOST_OPERANDS), "paste": (1, MOST_OPERANDS), "uniq": (0, 2)}.get(tool, (2, 2))
    if tool == "tr" and not {"d", "s"} <= letters and letters & {"d", "s"}:
        least, most = (1, 1) if "d" in letters else (1, 2)
    if not least <= len(operands) <= most:
        raise Refused(f"{tool}: wrong number of operands")
    if tool in ("comm", "join") and operands == ["-", "-"]:
        raise Refused(f"{tool}: standard input is named twice")


def read_command(words):
    """The tool, its options (a letter gives the list of the meanings of its values) and its operands."""
    if not words or words[0] not in FLAGS:
        raise Refused(f"ptext: first word: {LISTED}")
    tool = words[0]
    options, operands = read_words(tool, words[1:])
    letters = {letter for letter, _ in options}
    check_together(tool, letters)
    end = b"\0" if "z" in letters else b"\n"
    meant = {letter: [] for letter in letters}
    for wanted in VALUE_ORDER[tool]:
        for value in [value for letter, value in options if letter == wanted]:
            found = read_value(tool, wanted, value, end)
            if found is None:
                raise Refused(f"{tool}: wrong value for option -{wanted}: {value}")
            meant[wanted].append(found)
    if "e" in letters:
        meant["e"] = [value.encode() for letter, value in options if letter == "e"]
    check_operands(tool, letters, operands)
    return tool, meant, operands
