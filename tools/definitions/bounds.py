"""How many bytes of lines a command may keep in its store, and how many slots that may have, by the definitions."""
import collections

from model import key_of
from reading import Refused, read_command
from sets import make_plan


def measure_longest(case, name):
    return max((len(line) for line in case.read_lines(name)), default=0)


def count_serial_bytes(case, names):
    """Those of a tool that reads one operand after another. A second `-` is empty."""
    texts = [name for at, name in enumerate(names) if name != "-" or name not in names[:at]]
    return max((measure_longest(case, name) for name in texts), default=0)


def measure_group(case, names):
    """The greatest byte total of file2's lines of one key, and the greatest number of them."""
    named, groups = case._replace(operands=names), collections.defaultdict(list)
    for line in case.read_lines(names[1]):
        groups[key_of(named, 1, line)].append(len(line))
    return max(map(sum, groups.values()), default=0), max(map(len, groups.values()), default=0)


def find_bounds(case):
    """The bytes and the slots."""
    try:
        tool, meant, _ = read_command(case.words)
    except Refused:
        return 0, 0
    names = case.files
    if tool == "tr":
        return 0, 0
    if tool == "cut" or tool == "paste" and "s" in meant:
        keeps = tool == "cut" and "f" in meant and any(name in case.inputs for name in names)
        return count_serial_bytes(case, names), int(keeps)
    if any(name not in case.inputs for name in names):
        return 0, 0
    if tool == "paste":
        return sum(measure_longest(case, name) for name in names), len(names)
    if tool == "uniq":
        return 2 * measure_longest(case, names[0]), 2
    pairs = tool == "join" and "v" not in meant
    group, count = measure_group(case, names) if pairs else (0, 0)
    return 2 * measure_longest(case, names[0]) + 2 * measure_longest(case, names[1]) + group, 4 + count


def count_stretches(words):
    """The number of longest ranges of bytes to which tr adds one number, not 0; None for other commands."""
    try:
        tool, meant, operands = read_command(words)
        plan = make_plan(set(meant), operands) if tool == "tr" else None
    except Refused:
        return None
    if plan is None:
        return None
    shifts = [0] + [(plan.images.get(byte, byte) - byte) % 256 for byte in range(256)]
    return sum(shift not in (0, before) for before, shift in zip(shifts, shifts[1:]))
