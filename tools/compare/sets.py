"""The strings of tr by the definitions: their parts, their arrays, and the plan that two of them make."""
import re
from typing import NamedTuple, Optional

from reading import Refused

ESCAPES = {b"\\": 92, b"a": 7, b"b": 8, b"f": 12, b"n": 10, b"r": 13, b"t": 9, b"v": 11}
ALL = range(256)
CLASSES = {
    "alnum": [byte for byte in ALL if chr(byte).isalnum() and byte < 128],
    "alpha": [byte for byte in ALL if chr(byte).isalpha() and byte < 128],
    "blank": [9, 32],
    "cntrl": [*range(32), 127],
    "digit": [*range(48, 58)],
    "graph": [*range(33, 127)],
    "lower": [*range(97, 123)],
    "print": [*range(32, 127)],
    "punct": [byte for byte in range(33, 127) if not chr(byte).isalnum()],
    "space": [*range(9, 14), 32],
    "upper": [*range(65, 91)],
    "xdigit": [*range(48, 58), *range(65, 71), *range(97, 103)],
}
MOST_REPEATED = 65535


class Part(NamedTuple):
    """A part of a string: its kind (`byte`, `range`, `class`, `equivalence`, `repeat` or `fill`), its members, and the
    name of a class."""

    kind: str
    members: list
    name: str = ""
    text: bytes = b""


class Wrong(Exception):
    """The kind of the fault of a string."""


class Unit(NamedTuple):
    value: int
    after: int
    plain: bool


def read_unit(text, at):
    """The character at an offset of a string, as itself or as an escape."""
    if text[at : at + 1] != b"\\":
        return Unit(text[at], at + 1, True)
    octal = re.compile(rb"[0-7]{1,3}").match(text, at + 1)
    if octal:
        if int(octal[0], 8) > 255:
            raise Wrong("octal")
        return Unit(int(octal[0], 8), octal.end(), False)
    following = text[at + 1 : at + 2]
    if not following:
        raise Wrong("escape")
    return Unit(ESCAPES.get(following, following[0]), at + 2, False)


def read_unit_or_none(text, at):
    """Like read_unit, but None if there is no character."""
    try:
        return read_unit(text, at) if at < len(text) else None
    except Wrong:
        return None


def read_repeat(text, at):
    """The repeat `[x*n]` at an offset and the offset after it, or None."""
    unit = read_unit_or_none(text, at + 1)
    found = unit and re.compile(rb"\*([0-9]*)\]").match(text, unit.after)
    if not found:
        return None
    return unit.value, found[1], found.end()


def make_repeat(value, digits, is_second):
    """The part of a repeat. Raises Wrong if the string or the count does not allow one."""
    if not is_second:
        raise Wrong("repeat")
    is_octal = digits.startswith(b"0")
    if is_octal and re.search(b"[89]", digits):
        raise Wrong("size")
    count = int(digits or b"0", 8 if is_octal else 10)
    if count > MOST_REPEATED:
        raise Wrong("size")
    return Part("repeat", [value] * count) if count else Part("fill", [value])


def read_form(text, at, is_second, squeezes_second):
    """The form in brackets at an offset, and the offset after it; None if there is no form."""
    repeat = read_repeat(text, at)
    if repeat:
        return make_repeat(repeat[0], repeat[1], is_second), repeat[2]
    found = re.compile(rb"\[:([a-z]+):\]").match(text, at)
    if found:
        name = found[1].decode()
        if name not in CLASSES:
            raise Wrong("class")
        return Part("class", CLASSES[name], name), found.end()
    unit = read_unit_or_none(text, at + 2) if text[at : at + 2] == b"[=" else None
    if unit and text[unit.after : unit.after + 2] == b"=]":
        if is_second and not squeezes_second:
            raise Wrong("equivalence")
        return Part("equivalence", [unit.value]), unit.after + 2
    return None


def read_part(text, at, is_second, squeezes_second):
    """The part of a string at an offset, and the offset after it."""
    form = read_form(text, at, is_second, squeezes_second) if text[at : at + 1] == b"[" else None
    if form:
        return form
    low = read_unit(text, at)
    if text[low.after : low.after + 1] == b"-" and low.after + 1 < len(text):
        high = read_unit(text, low.after + 1)
        if high.value < low.value:
            raise Wrong("descending")
        return Part("range", [*range(low.value, high.value + 1)]), high.after
    return Part("byte", [low.value]), low.after


def read_parts(text, is_second=False, squeezes_second=False):
    """The parts of a string; raises Wrong at its first fault."""
    if not text:
        raise Wrong("empty")
    parts, at, fills = [], 0, 0
    while at < len(text):
        part, after = read_part(text, at, is_second, squeezes_second)
        fills += part.kind == "fill"
        if fills > 1:
            raise Wrong("fill")
        parts.append(part._replace(text=text[at:after]))
        at = after
    return parts


def make_array(parts, length=0):
    """The members of all parts. A fill extends the array to `length`."""
    known = sum(len(part.members) for part in parts if part.kind != "fill")
    missing = max(0, length - known)
    return [byte for part in parts for byte in (part.members * missing if part.kind == "fill" else part.members)]


def check_classes(first, second, length, is_complement):
    """Raises Wrong for a class of a second string that is not paired with the other case."""
    starts = {}
    at = 0
    for part in first:
        starts.setdefault(at, []).append(part.name)
        at += len(part.members)
    known = sum(len(part.members) for part in second if part.kind != "fill")
    at = 0
    for part in second:
        other = {"lower": "upper", "upper": "lower"}.get(part.name)
        if part.kind == "class" and (is_complement or not other or other not in starts.get(at, [])):
            raise Wrong("pairing")
        at += max(0, length - known) if part.kind == "fill" else len(part.members)


class Plan(NamedTuple):
    """The deleted bytes, the image of each byte, and the squeezed bytes."""

    deleted: set
    images: dict
    squeezed: set
    first: list
    second: Optional[list]
    from_array: list
    to_array: list


def make_plan(letters, operands):
    """The plan of tr's strings; raises Refused with the message of a fault."""
    strings = [operand.encode() for operand in operands]
    deletes, is_complement = "d" in letters, bool(letters & {"c", "C"})
    try:
        first = read_parts(strings[0])
    except Wrong as why:
        raise Refused(f"tr: wrong string1: {why}") from None
    from_array = make_array(first)
    if is_complement:
        from_array = [byte for byte in ALL if byte not in from_array]
    second, to_array = None, []
    if len(strings) == 2:
        try:
            second = read_parts(strings[1], True, deletes)
            if not deletes:
                check_classes(first, second, len(from_array), is_complement)
        except Wrong as why:
            raise Refused(f"tr: wrong string2: {why}") from None
        to_array = make_array(second, len(from_array))
    images = {}
    if second is not None and not deletes and from_array:
        padded = to_array + to_array[-1:] * (len(from_array) - len(to_array))
        images = dict(zip(from_array, padded))
    last = from_array if second is None else to_array
    squeezed = set(last) if "s" in letters else set()
    return Plan(set(from_array) if deletes else set(), images, squeezed, first, second, from_array, to_array)
