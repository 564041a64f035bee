"""Makes a case smaller while it still shows a difference."""
import re

from cases import split_lines

BUDGET = 250
PLAIN = b"\t\n" + bytes(range(32, 127))
PIECES = {
    "list": r"[^, \t]+",
    "delimiters": r"\\.|[^\\]",
    "set": r"\[:[a-z]+:\]|\[=.=\]|\[\\?.\*[0-9]*\]|\\[0-7]{1,3}|\\.|.",
}


def list_fewer(items):
    """The items without one half, and without each single one."""
    if len(items) > 3:
        half = len(items) // 2
        yield items[:half]
        yield items[half:]
    if len(items) < 40:
        for index in range(len(items)):
            yield items[:index] + items[index + 1 :]


def list_smaller_numbers(text):
    """The text with one of its numbers made smaller."""
    for found in re.finditer("[0-9]+", text):
        for number in {1, int(found[0]) // 2, int(found[0]) - 1}:
            if 0 < number < int(found[0]):
                yield text[: found.start()] + str(number) + text[found.end() :]


def list_smaller_values(tool, letter, value):
    """Smaller values of an option."""
    if tool == "cut" and letter in "bcf" or letter == "o":
        items = re.findall(PIECES["list"], value)
        yield ",".join(items)
        for fewer in list_fewer(items):
            if fewer:
                yield ",".join(fewer)
        yield from list_smaller_numbers(value)
    elif tool == "paste" and letter == "d":
        for fewer in list_fewer(re.findall(PIECES["delimiters"], value, re.S)):
            if fewer:
                yield "".join(fewer)
    elif tool == "uniq" or letter in "12":
        yield from list_smaller_numbers(value)
    elif letter == "e":
        yield "x"


def list_fewer_options(case):
    """The case with fewer or simpler options."""
    for index, (letter, value) in enumerate(case.options):
        before, after = case.options[:index], case.options[index + 1 :]
        if not (case.tool == "cut" and letter in "bcf"):
            yield case._replace(options=before + after)
        for smaller in list_smaller_values(case.tool, letter, value or ""):
            yield case._replace(options=before + [(letter, smaller)] + after)
    if case.late:
        yield case._replace(late=[])


def list_fewer_operands(case):
    """The case with fewer or simpler operands."""
    if case.tool == "tr":
        for index, text in enumerate(case.operands):
            for fewer in list_fewer(re.findall(PIECES["set"], text, re.S)):
                if fewer:
                    yield case._replace(operands=case.operands[:index] + ["".join(fewer)] + case.operands[index + 1 :])
    elif case.tool in ("cut", "paste", "uniq"):
        for fewer in list_fewer(case.operands):
            yield case._replace(operands=fewer)
    for index, name in enumerate(case.operands):
        if case.tool != "tr" and name not in ("f", "g", "-", "out"):
            for other in ("f", "g"):
                changed = [*case.operands]
                changed[index] = other
                yield case._replace(operands=changed)


def list_smaller_texts(text, end):
    """Smaller forms of an input: first with its last terminator, then with fewer lines, then with fewer bytes."""
    if text and not text.endswith(end):
        yield text + end
    lines = split_lines(text, end)
    for fewer in list_fewer(lines):
        yield b"".join(line + end for line in fewer)
    if len(lines) > 6:
        return
    for index, line in enumerate(lines):
        before, after = lines[:index], lines[index + 1 :]
        for fewer in list_fewer(line):
            yield b"".join(line + end for line in before + [fewer] + after)
        odd = re.search(rb"[^ -~\t]", line)
        if odd:
            yield b"".join(other + end for other in before + [line.replace(odd[0], b"x")] + after)


def list_smaller_inputs(case):
    """The case with one smaller input."""
    used = set(case.files)
    for name, text in case.inputs.items():
        if text and name not in used:
            yield case._replace(inputs={**case.inputs, name: b""})
    for name in sorted(used & set(case.inputs)):
        for smaller in list_smaller_texts(case.inputs[name], case.end):
            yield case._replace(inputs={**case.inputs, name: smaller})


def list_neighbours(case):
    """Simpler cases, the largest steps first."""
    yield case._replace(spelling=0)
    yield case._replace(piece=4096)
    yield from list_fewer_options(case)
    yield from list_fewer_operands(case)
    yield from list_smaller_inputs(case)


def measure(case):
    """The size of a case. Words count more than bytes, and unprintable bytes more than others."""
    words, texts = case.words, list(case.inputs.values())
    odd = sum(len(text.translate(None, PLAIN)) for text in texts)
    of_words = 4 * len(words) + sum(map(len, words)) + bool(case.spelling)
    return of_words + sum(map(len, texts)) + 2 * odd + (case.piece != 4096)


def shrink(case, differs, open_points, budget=BUDGET):
    """The smallest case without open points that was found to differ."""
    size, tried, seen = measure(case), 0, set()
    found = True
    while found:
        found = False
        for other in list_neighbours(case):
            mark = repr(other)
            if measure(other) >= size or mark in seen or open_points(other):
                continue
            seen.add(mark)
            tried += 1
            if differs(other):
                found, case, size = True, other, measure(other)
                break
            if tried >= budget:
                return case
    return case
