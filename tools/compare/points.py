"""The points that POSIX leaves open, as conditions on a case. A case that meets none of them is decided.

Each point has a kind: `extension` (POSIX has no such option), `undefined` (an input for which POSIX gives no result) or
`choice` (POSIX says that the result is unspecified or undefined, or does not define it)."""
import re
from typing import Callable, NamedTuple, Optional

from cases import list_late_words
from generating import has_keys, sort_files
from model import disorder, fields_of, join_number
from reading import Refused, read_command
from sets import make_plan

LINE_MAX = 2048
SURE = 2**31 - 1


class Point(NamedTuple):
    """A point, by its kind, a title, the tools it is about, and a condition. `heading` is that of docs/REPLACING.md
    which has the difference to GNU's tools, if there is one. `close` returns a similar case without the point, if
    the point can be removed."""

    kind: str
    title: str
    tools: str
    when: Callable
    heading: str = ""
    close: Optional[Callable] = None


def list_texts(case):
    """The inputs that are read."""
    return [case.inputs[name] for name in case.files if name in case.inputs]


def lacks_file(case):
    return any(name not in case.inputs for name in case.files)


def lacks_end(case):
    return case.tool != "tr" and any(text and not text.endswith(case.end) for text in list_texts(case))


def has_byte_0(case):
    return case.tool != "tr" and not case.has("z") and any(b"\0" in text for text in list_texts(case))


def has_long_line(case):
    return any(len(line) >= LINE_MAX for name in case.files for line in case.read_lines(name))


def is_out_of_order(case):
    return all(name in case.inputs for name in case.files) and disorder(case) is not None


def has_option_twice(case):
    """An option that is repeated, which no synopsis allows, except for -a and -v of join with another value."""
    marks = [(letter, value if case.tool == "join" and letter in "av" else None) for letter, value in case.options]
    return len(set(marks)) < len(marks)


def has_large_number(case):
    return any(int(number) > SURE for _, value in case.options for number in re.findall("[0-9]+", value or ""))


def has_zero(case):
    return any(int(number) == 0 for number in case.list_values("f") + case.list_values("s") if number)


def has_mixed_list(case):
    """A list with separators of two kinds."""
    return any(re.search("[ \t]", value) and "," in value for letter in "bcfo" for value in case.list_values(letter))


def selects_nothing(case):
    """A line with a delimiter of which no field is selected."""
    delimiter = (case.list_values("d") or ["\t"])[0].encode()
    texts = [line for name in case.files for line in case.read_lines(name) if delimiter in line]
    numbers = [int(number) for number in re.findall("[0-9]+", (case.list_values("f") or ["1"])[0])]
    return case.has("f") and any(line.count(delimiter) + 1 < min(numbers) for line in texts)


def reads_standard_twice(case):
    is_serial = case.tool == "cut" or case.has("s")
    return is_serial and case.operands.count("-") > 1


def has_odd_empty_string(case):
    return any(re.search(r"\\0[0-9xX]", value) for value in case.list_values("d"))


def has_word_of_minus(case):
    """An output that is named by a dash."""
    return case.operands[1:] == ["-"]


def lacks_join_field(case):
    """A line without its join field."""
    lines = [(index, line) for index, name in enumerate(case.operands) for line in case.read_lines(name)]
    return any(len(fields_of(case, line)) < join_number(case, index) for index, line in lines)


def has_last_blanks(case):
    lines = [line for name in case.operands for line in case.read_lines(name)]
    return not case.has("t") and any(re.search(rb"[ \t]\Z", line) for line in lines)


def has_empty_line(case):
    return case.has("t") and any(not line for name in case.operands for line in case.read_lines(name))


def fills_without_list(case):
    return case.has("e") and not case.has("o")


# --- changes that remove a point


def remove_option(letter):
    """The change that leaves out an option."""
    return lambda case: case._replace(options=[option for option in case.options if option[0] != letter])


def change_texts(change):
    """The change of each input by a function of its text."""
    return lambda case: case._replace(inputs={name: change(text) for name, text in case.inputs.items()})


def change_values(change, letters=None):
    """The change of the values of options: of those with these letters, or of all."""

    def change_case(case):
        meant = {letter for letter, value in case.options if value is not None and (not letters or letter in letters)}
        options = [(letter, change(value) if letter in meant else value) for letter, value in case.options]
        return case._replace(options=options)

    return change_case


def keep_lines(keeps):
    """The change that keeps the lines for which keeps(case, index, line) is true."""
    return lambda case: case.change_lines(lambda index, lines: [line for line in lines if keeps(case, index, line)])


def remove_z(case):
    swapped = change_texts(lambda text: text.replace(b"\n", b"x").replace(b"\0", b"\n"))
    return swapped(remove_option("z")(case))


def sort_if_keyed(case):
    return sort_files(case) if has_keys(case) else case


def add_last_newline(case):
    end = case.end
    return change_texts(lambda text: text + end if text and not text.endswith(end) else text)(case)


def shorten_lines(case):
    return change_texts(lambda text: b"\n".join(line[:80] for line in text.split(b"\n")))(case)


def replace_lacking_files(case):
    outputs = 1 if case.tool == "uniq" else len(case.operands)
    names = [name if name in case.inputs else "h" for name in case.operands[:outputs]]
    return case._replace(operands=names + case.operands[outputs:])


def replace_second_standard(case):
    after = case.operands.index("-") + 1
    rest = ["g" if name == "-" else name for name in case.operands[after:]]
    return case._replace(operands=case.operands[:after] + rest)


def has_join_field(case, index, line):
    return len(fields_of(case, line)) >= join_number(case, index)


# --- tr


def plan_case(case):
    return make_plan({letter for letter, _ in case.options}, case.operands)


def translates(case):
    return len(case.operands) == 2 and not case.has("d")


def is_short(case):
    """A second string that is shorter than the first one."""
    return translates(case) and len(plan_case(case).to_array) < len(plan_case(case).from_array)


def is_long(case):
    return translates(case) and len(plan_case(case).to_array) > len(plan_case(case).from_array)


def has_twice(case):
    """A character that occurs twice in the first string."""
    array = plan_case(case).from_array
    return translates(case) and len(set(array)) < len(array)


def has_order_of_class(case):
    """A class whose members become different characters, other than by a change of case."""
    if not translates(case) or case.has("c") or case.has("C"):
        return False
    at, paired = 0, plan_case(case)
    for part in paired.first:
        images = paired.to_array[at : at + len(part.members)]
        if part.kind == "class" and part.name not in ("lower", "upper") and len(set(images)) > 1:
            return True
        if part.kind == "class" and len(set(images)) > 1 and not any(other.kind == "class" for other in paired.second):
            return True
        at += len(part.members)
    return False


def has_odd_escape(case):
    return any(re.search(r"(?<!\\)(\\\\)*\\([^0-7abfnrtv\\]|\Z)", operand, re.S) for operand in case.operands)


def has_wide_escape(case):
    """An octal escape of fewer than three digits before another digit, which POSIX calls ambiguous."""
    return any(re.search(r"\\[0-7]{1,2}[89]", operand) for operand in case.operands)


def list_parts(case):
    found = plan_case(case)
    return found.first + (found.second or [])


def has_chain(case):
    """A dash after a range, as in `a-c-e`, or one beside a form: whether it is a range."""
    before = None
    for part in list_parts(case):
        if part.text == b"-" and before is not None:
            return True
        before = part.text
    return False


def has_bracket(case):
    """A bracket that begins no form, but resembles one."""
    return any(part.kind in ("byte", "range") and part.text.startswith(b"[") for part in list_parts(case))


def has_close_bracket(case):
    """A form of a bracket itself, as `[]*2]` or `[=]=]`."""
    forms = [part for part in list_parts(case) if part.kind in ("equivalence", "repeat", "fill")]
    return any(form.members[:1] in ([91], [93]) for form in forms)


def has_fill_without_first(case):
    return case.has("d") and any(part.kind in ("fill", "repeat") for part in plan_case(case).second or [])


def has_class_of_complement(case):
    is_complement = translates(case) and (case.has("c") or case.has("C"))
    return is_complement and any(part.kind == "class" for part in plan_case(case).first)


def has_high_class_complement(case):
    """A class of which POSIX leaves open whether it has bytes above 127 (as punct or cntrl)."""
    open_classes = ("cntrl", "punct", "print", "graph")
    has_class = any(part.kind == "class" and part.name in open_classes for part in list_parts(case))
    return has_class and any(byte > 127 for byte in case.inputs["-"])


POINTS = [
    Point("extension", "`-z`", "cut paste uniq comm join", lambda case: case.has("z"), close=remove_z),
    Point(
        "extension", "`-r`", "comm join", lambda case: case.has("r"), "Descending order",
        close=lambda case: sort_if_keyed(remove_option("r")(case)),
    ),
    Point(
        "extension", "options after operands", "cut paste uniq comm join",
        lambda case: bool(list_late_words(case)),
        "Options come before operands",
        close=lambda case: case._replace(late=[]),
    ),
    Point(
        "undefined", "a last line without its newline", "cut paste uniq comm join", lacks_end,
        close=add_last_newline,
    ),
    Point(
        "undefined", "byte 0 in a text file", "cut paste uniq comm join", has_byte_0,
        close=change_texts(lambda text: text.replace(b"\0", b"x")),
    ),
    Point("undefined", "a line of more than LINE_MAX bytes", "uniq comm join", has_long_line, close=shorten_lines),
    Point(
        "undefined", "files out of order", "comm join", is_out_of_order, "A line out of order is a fault",
        close=sort_if_keyed,
    ),
    Point(
        "choice", "an option twice", "cut paste uniq comm join tr", has_option_twice, "Options that are refused",
        close=lambda case: case._replace(options=list(dict(case.options).items())),
    ),
    Point("choice", "a file that is not there", "uniq comm join", lacks_file, close=replace_lacking_files),
    Point(
        "choice", "a number above 2147483647", "cut uniq join", has_large_number,
        close=change_values(lambda value: re.sub("[0-9]{10,}", "9", value)),
    ),
    Point(
        "choice", "zero fields or characters", "uniq", has_zero,
        close=change_values(lambda value: "1" if not int(value or 1) else value),
    ),
    Point(
        "choice", "a list with commas and blanks", "cut join", has_mixed_list,
        close=change_values(lambda value: re.sub("[ \t]", ",", value), "bcfo"),
    ),
    Point(
        "choice", "a line of which no field is selected", "cut", selects_nothing,
        close=change_values(lambda value: "1," + value, "f"),
    ),
    Point("choice", "standard input twice", "cut paste", reads_standard_twice, close=replace_second_standard),
    Point(
        "choice", "`\\0` before a digit or x", "paste", has_odd_empty_string,
        close=change_values(lambda value: re.sub(r"\\0[0-9xX]", ",", value)),
    ),
    Point(
        "choice", "`-` as the output", "uniq", has_word_of_minus,
        close=lambda case: case._replace(operands=case.operands[:1]),
    ),
    Point("choice", "a line without its join field", "join", lacks_join_field, close=keep_lines(has_join_field)),
    Point(
        "choice", "blanks at the end of a line", "join", has_last_blanks, "Blanks at the end of a line make no field",
        close=lambda case: case.change_lines(lambda _, lines: [line.rstrip(b" \t") for line in lines]),
    ),
    Point(
        "choice", "an empty line", "join", has_empty_line, "An empty line has one empty field with `-t`",
        close=keep_lines(lambda case, index, line: line),
    ),
    Point(
        "choice", "`-e` without `-o`", "join", fills_without_list, "`-e` fills the fields of `-o`",
        close=remove_option("e"),
    ),
    Point("choice", "a second string that is shorter", "tr", is_short),
    Point("choice", "a second string that is longer", "tr", is_long),
    Point("choice", "a character twice in the first string", "tr", has_twice),
    Point("choice", "the order of a class", "tr", has_order_of_class),
    Point("choice", "another escape", "tr", has_odd_escape, "Empty strings, escapes and repeats"),
    Point("choice", "an octal escape before a digit", "tr", has_wide_escape),
    Point("choice", "a dash that may be a range", "tr", has_chain),
    Point("choice", "a bracket that begins no form", "tr", has_bracket, "Brackets in any other form"),
    Point("choice", "a bracket in a form", "tr", has_close_bracket),
    Point("choice", "a repeat that squeezes", "tr", has_fill_without_first, "Empty strings, escapes and repeats"),
    Point("choice", "a class in a complement", "tr", has_class_of_complement, "Classes"),
    Point("choice", "bytes above 127 in a class", "tr", has_high_class_complement),
]


def find_open_points(case):
    """The points of a case. A refused command line has none."""
    try:
        read_command(case.words)
        return [point for point in POINTS if case.tool in point.tools.split() and point.when(case)]
    except Refused:
        return []


def close_points(case):
    """A similar case that meets none of the points, or None if they cannot all be removed."""
    for _ in range(3):
        points = find_open_points(case)
        if not points:
            return case
        if not all(point.close for point in points):
            return None
        for point in points:
            case = point.close(case) if point.when(case) else case
        if case.tool in ("comm", "join"):
            case = sort_if_keyed(case)
    return None
