"""Random commands that leave no kind of command out: each class and each escape of tr over all bytes, every byte in
every input, numbers at their limits, hundreds of operands, groups of lines of one key in both files, and two disorders
with one key."""
import random

from cases import Case
from generating import OPTIONS, make_case, sort_often
from sets import ALL, CLASSES, ESCAPES

EVERY_BYTE = bytes(ALL) + bytes(byte for value in range(128) for byte in (value, value))
TOOLS = ["cut", "paste", "uniq", "comm", "join", "tr"]
LIMITS = [2**64 - 1, 2**64, 2**63, 2**32, 2**64 - 2, 2**63 - 1, 2**32 - 1, 2**63 + 1, 2**32 + 1]
COUNTS = [512, 513, 511, 600]
REPEATS = [65535, 65536, 65534]
MOST_BYTES = 600


def make_plain_case(tool, options, operands, inputs):
    """A case whose options are words of their own."""
    return Case(tool, options, operands, [], {"-": b"", **inputs}, 0, 4096)


def make_usual(rng, turn):
    """A command as tools/compare makes it."""
    return make_case(TOOLS[turn % len(TOOLS)], rng)


def make_any_line(rng):
    return bytes(rng.randrange(256) for _ in range(rng.choice([0, 1, 2, 3, 5, 8])))


def make_with_any_bytes(rng, turn):
    """A command over inputs with all bytes, some lines of which are repeated."""
    case = make_case(TOOLS[turn % len(TOOLS)], rng)
    inputs = {name: make_any_text(rng, case.end) for name in case.inputs}
    return sort_often(case._replace(inputs=inputs), rng)


def make_any_text(rng, end):
    lines = [make_any_line(rng) for _ in range(rng.randint(0, 6))]
    lines = [line for line in lines for _ in range(rng.choice([1, 1, 2]))]
    text = end.join(lines) + end * (rng.random() < 0.8)
    return text if lines else b""


def make_unit(rng):
    """A byte of a string of tr, plain or escaped."""
    byte = rng.choice([rng.randrange(1, 128), rng.randrange(33, 127), 92])
    octal = f"\\{rng.randrange(256):03o}"
    return rng.choice([chr(byte), f"\\{chr(byte)}", octal, f"\\{rng.randrange(64):o}"])


def make_range(rng):
    low = rng.randrange(256)
    return f"\\{low:03o}-\\{rng.randrange(low, min(256, low + 40)):03o}"


def make_string(rng):
    return "".join(rng.choice([make_unit, make_range])(rng) for _ in range(rng.randint(1, 4)))


def make_translation(rng, turn):
    """A command of tr over all bytes, with strings of bytes, escapes and ranges, some of them twice."""
    options = [(letter, None) for letter in rng.choice(["", "", "s", "c", "cs", "d", "cd", "ds"])]
    first = make_string(rng)
    first += rng.choice(["", "", first])
    count = 1 if options[-1:] == [("d", None)] else 2
    return make_plain_case("tr", options, [first, make_string(rng)][:count], {"-": EVERY_BYTE})


def make_class_or_escapes(rng, turn):
    """A command of tr over all bytes, with each class and each escape in turn."""
    letters = [(letter, None) for letter in rng.choice(["d", "cd", "s", "cs"])]
    sets = [f"[:{name}:]" for name in CLASSES]
    sets += ["".join(f"\\{letter.decode()}" for letter in ESCAPES), r"\0\1\12\123\377"]
    sets += ["".join(f"\\{chr(byte)}" for byte in range(at, min(at + 16, 127))) for at in range(33, 127, 16)]
    sets += [f"[={chr(rng.randrange(33, 127))}=]", r"[=\n=]"]
    if turn % 5 == 0:
        cases = ["[:lower:]", "[:upper:]"]
        return make_plain_case("tr", [], rng.sample(cases, 2), {"-": EVERY_BYTE})
    if turn % 5 == 1:
        return make_repeat(rng, turn // 5)
    return make_plain_case("tr", letters, [sets[(turn - turn // 5 * 2) % len(sets)]], {"-": EVERY_BYTE})


def make_repeat(rng, turn):
    """A command of tr with a repeat at the limit of its number, decimal or octal."""
    count = REPEATS[turn % len(REPEATS)]
    form = rng.choice([f"[x*{count}]", f"[x*0{count:o}]y", f"a[\\n*0{rng.randrange(64):o}]y", "a[x*]yz"])
    return make_plain_case("tr", [("s", None)] * (rng.random() < 0.3), ["a-h", form], {"-": b"abcdefghi"})


def make_limit(rng, turn):
    """A command with a number at the limits of the machine's numbers."""
    number = LIMITS[turn // len(PLACES) % len(LIMITS)]
    return PLACES[turn % len(PLACES)](number)


def make_cut_at(letter, text):
    def make_case(number):
        options = [(letter, text.format(number))] + [("d", ",")] * (letter == "f")
        return make_plain_case("cut", options, [], {"-": b"a,b,c\nabc\n"})

    return make_case


def make_uniq_after(letter):
    return lambda number: make_plain_case("uniq", [(letter, str(number))], [], {"-": b"a b\nc d\ne\n"})


def make_join_on(*options):
    def make_case(number):
        named = [(letter, text.format(number)) for letter, text in options]
        return make_plain_case("join", named, ["f", "g"], {"f": b"a b\n", "g": b"a c\n"})

    return make_case


PLACES = [make_cut_at("b", "{}"), make_cut_at("b", "2-{}"), make_cut_at("c", "{}-")]
PLACES += [make_cut_at("f", "-{}"), make_cut_at("f", "2,{}-"), make_uniq_after("f"), make_uniq_after("s")]
PLACES += [make_join_on(("1", "{}"), ("a", "1")), make_join_on(("2", "{}"), ("v", "2"))]
PLACES += [make_join_on(("o", "1.1,2.{}"))]


def make_many_operands(rng, turn):
    """A command with hundreds of operands."""
    tool, options = rng.choice([("paste", [("s", None)]), ("paste", []), ("cut", [("c", "1")])])
    count = COUNTS[turn // 2 % len(COUNTS)] if turn % 2 else rng.randint(1, 600)
    names = [rng.choice(["-", "-", "f", "g"]) for _ in range(count)]
    lines = b"".join(b"%d\n" % number for number in range(rng.randint(0, 4)))
    return make_plain_case(tool, options, names, {"-": lines * 2, "f": lines, "g": b"a\n"})


def choose_merge_options(tool, rng):
    letters = "12az3" if tool == "comm" else "t12"
    return [option for option in OPTIONS[tool](rng) if option[0] not in letters or rng.random() < 0.3]


def make_groups(rng, turn):
    """A merge with several different lines of one key in both files."""
    tool = ("comm", "join", "join")[turn % 3]

    def make_lines():
        keys = sorted(rng.choice([b"a", b"ab", b"b", b"\xff"]) for _ in range(rng.randint(0, 6)))
        return [key + (b" %c" % rng.randrange(97, 103) if tool == "join" else b"") for key in keys]

    inputs = {name: b"".join(line + b"\n" for line in make_lines()) for name in ("f", "g")}
    return sort_often(make_plain_case(tool, choose_merge_options(tool, rng), ["f", "g"], inputs), rng)


def make_two_disorders(rng, turn):
    """A merge of files that are both out of order, mostly with the same last key in order."""
    tool = ("comm", "join")[turn % 2]
    options = [("r", None)] * (rng.random() < 0.3) + [("a", "1"), ("a", "2")] * (tool == "join")
    order = b"abcd" if not options or options[0][0] != "r" else b"dcba"
    last = rng.randint(1, 3)

    def make_text():
        before = sorted(rng.randrange(last) for _ in range(rng.randint(0, 3)))
        ranks = before + [last] * rng.randint(1, 2) + [rng.randrange(last)] + [rng.randrange(4) for _ in range(2)]
        return b"".join(b"%c\n" % order[rank] for rank in ranks)

    return make_plain_case(tool, options, ["f", "g"], {"f": make_text(), "g": make_text()})


MIXED = [make_usual, make_with_any_bytes, make_usual, make_groups, make_usual, make_translation, make_limit]
MIXED += [make_two_disorders, make_usual]
SHAPES = [*MIXED, make_class_or_escapes, *MIXED, make_many_operands]


def measure(case):
    """The bytes of the words and the inputs that a lemma has."""
    used = set(case.files) & set(case.inputs)
    return sum(len(case.inputs[name]) for name in used) + sum(len(word) for word in case.words)


def is_short(case, shape):
    most = MOST_BYTES if shape in (make_usual, make_with_any_bytes) else 4 * MOST_BYTES
    return measure(case) <= most and not any("\0" in word for word in case.words)


def make_commands(seed, count):
    """Random commands, by a seed."""
    found, number = [], 0
    while len(found) < count:
        # (Each shape counts its own turns.)
        shape = SHAPES[number % len(SHAPES)]
        turn = number // len(SHAPES) * SHAPES.count(shape) + SHAPES[: number % len(SHAPES)].count(shape)
        case = shape(random.Random(f"definitions {seed} {number}"), turn)
        if is_short(case, shape):
            found.append(case)
        number += 1
    return found
