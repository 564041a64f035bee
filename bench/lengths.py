"""The same commands over inputs whose lines are of one length, from 0 to 10,000 bytes. They are of equal size, but for
the shortest lines of two inputs."""

import functools
import itertools
import os
import shutil
import statistics

import chart
from measuring import FILE, OTHER, RUNS, compare, count_beyond_none

LENGTHS = [0, 1, 2, 4, 8, 16, 30, 100, 1000, 10000]
# The bytes of an input, and of the greater one of two.
SIZE = 32 << 20
# The most lines of an input of join or comm: GNU's tools take half a minute over 32 MB of empty ones.
LINES = 5000000
COUNTED_LINES = 30000
COUNTED_SIZE = 1 << 20
LETTERS = "abcdefghijklmnopqrstuvwxyz"
KEY = 8


@functools.cache
def list_words(length):
    """All words of `length` letters, in order."""
    return ["".join(letters) for letters in itertools.product(LETTERS, repeat=length)]


def make_word(number, length):
    """The number in letters, so that words of one length ascend as their numbers do."""
    if length <= KEY // 2:
        return list_words(length)[number]
    first, last = divmod(number, 26 ** (KEY // 2))
    return list_words(length - KEY // 2)[first] + list_words(KEY // 2)[last]


def count_kept(count, lacks):
    """How many of the first numbers are left if each third one is taken away, the first of these being `lacks`; all, if
    that is None."""
    return count if lacks is None else count - (count + 2 - lacks) // 3


def make_lines(length, count, lacks, among, separator):
    """Lines for the first numbers, without each third one from `lacks` on. They ascend. Each is a key of up to 8
    letters, and after it fields of 7 letters. There are `among` keys, or all words of these letters if they are
    fewer; then keys repeat."""
    key = min(length, KEY)
    rest = ((separator + "xyzxyzx") * (length // 8 + 1))[: length - key] + "\n"
    words = 26**key
    if words >= among:
        numbers = (number for number in range(count) if lacks is None or number % 3 != lacks)
        return "".join(make_word(number * words // among, key) + rest for number in numbers)
    # The numbers at which each word begins, and the one at which the last word ends.
    ends = [min(-(-index * among // words), count) for index in range(words + 1)]
    counts = [count_kept(end, lacks) for end in ends]
    return "".join((make_word(index, key) + rest) * (counts[index + 1] - counts[index]) for index in range(words))


@functools.cache
def make_thirds(kind):
    """The lines of two inputs of one length: of the numbers of both, the first lacks each third one, and the second
    another third; so half of each is common."""

    def make(length, count, separator):
        among = count * 3 // 2
        first = make_lines(length, among, 2, among, separator)
        if kind == "both":
            return first, make_lines(length, among, 0, among, separator)
        # Each key once: a key of the first that is there many times pairs with one line.
        keys = min(among, 26 ** min(length, KEY))
        return first, make_lines(length, keys, None if keys == 1 else 0, keys, separator)

    return make


def make_one(length, count, separator):
    """One input of such lines. The other one is empty."""
    return make_lines(length, count, None, count, separator), ""


def make_fields(length, count, separator):
    """Lines with a separator as the second byte, and then as each fourth."""
    line = ("a" + (separator + "bcd") * (length // 4 + 1))[:length] + "\n"
    return line * count, ""


# Of each tool its commands: what makes its inputs, and the byte between their fields.
CASES = {
    "cut": [(make_one, " ", ["cut", "-c", "2-4"]), (make_fields, ",", ["cut", "-d", ",", "-f", "2"])],
    "paste": [
        (make_one, " ", ["paste", "-", FILE]),
        (make_one, " ", ["paste", "-", "/dev/null"]),
        (make_one, " ", ["paste", "-", "-", "-"]),
        (make_one, " ", ["paste", "-s", "-"]),
    ],
    "join": [
        (make_thirds("once"), " ", ["join", "-", OTHER]),
        (make_thirds("once"), " ", ["join", "-a", "1", "-", OTHER]),
        (make_thirds("once"), ",", ["join", "-t", ",", "-", OTHER]),
    ],
    "comm": [(make_thirds("both"), " ", ["comm", "-", OTHER]), (make_thirds("both"), " ", ["comm", "-12", "-", OTHER])],
    "uniq": [(make_one, " ", ["uniq"]), (make_one, " ", ["uniq", "-c"]), (make_one, " ", ["uniq", "-f", "1"])],
    "tr": [
        (make_one, " ", ["tr", "a-z", "A-Z"]),
        (make_one, " ", ["tr", "-d", "aeiou"]),
        (make_one, " ", ["tr", "-cs", "[:alpha:]", "[\\n*]"]),
    ],
}


def write_input(folder, name, text):
    path = os.path.join(folder, name)
    with open(path, "w", encoding="ascii") as file:
        file.write(text)
    return path


def count_a_line(folder, ptext, make, separator, words, length):
    """Those of a short input, without those of an empty one, for each line of standard input."""
    count = min(COUNTED_LINES, COUNTED_SIZE // (length + 1))
    paths = [write_input(folder, f"few{at}", text) for at, text in enumerate(make(length, count, separator))]
    return count_beyond_none(folder, paths, ptext, words) / count


def measure_all(folder, ptext, other, quick):
    """A row for each command and length: tool, command, length, seconds of both, instructions of ptext a line."""
    counted = shutil.which("valgrind") is not None
    rows = []
    for length in LENGTHS:
        inputs = {}
        for tool, cases in CASES.items():
            whole = SIZE // (length + 1)
            count = (min(whole, LINES) if tool in ("join", "comm") else whole) // (10 if quick else 1)
            for make, separator, words in cases:
                if (make, separator) not in inputs:
                    number = len(inputs)
                    texts = enumerate(make(length, count, separator))
                    inputs[make, separator] = [write_input(folder, f"in{number}{at}", text) for at, text in texts]
                ours, theirs = compare(folder, inputs[make, separator], ptext, other, words, 1 if quick else RUNS)
                few = count_a_line(folder, ptext, make, separator, words, length) if counted else None
                rows.append((tool, " ".join(words), length, ours, theirs, few))
                said = "" if few is None else f"{few:10.0f} instructions a line"
                print(
                    f"{length:6} bytes  {rows[-1][1]:28} {ours:7.3f} s {theirs:7.3f} s {ours / theirs:6.2f}{said}",
                    flush=True,
                )
    return rows


def format_data(rows):
    head = "tool\tcommand\tbytes a line\tptext s\tother s\tratio\tinstructions a line\n"
    texts = []
    for tool, words, length, ours, theirs, few in rows:
        last = "" if few is None else f"{few:.1f}"
        texts.append(f"{tool}\t{words}\t{length}\t{ours:.4f}\t{theirs:.4f}\t{ours / theirs:.3f}\t{last}\n")
    return head + "".join(texts)


def format_table(rows):
    """The ratios of each command and length; then the means of the tools."""
    text = ["| command | " + " | ".join(f"{length:,}" for length in LENGTHS) + " |", "|---" * (len(LENGTHS) + 1) + "|"]
    for words in dict.fromkeys(row[1] for row in rows):
        cells = [f"{row[3] / row[4]:.2f}" for row in rows if row[1] == words]
        text.append(f"| `{words}` | " + " | ".join(cells) + " |")
    for tool, means in find_means(rows).items():
        cells = [f"**{means[length]:.2f}**" for length in LENGTHS]
        text.append(f"| **{tool}**, geometric mean | " + " | ".join(cells) + " |")
    return "\n".join(text) + "\n"


def find_means(rows):
    """The geometric mean of the ratios of each tool at each length."""
    return {
        tool: {
            length: statistics.geometric_mean(row[3] / row[4] for row in rows if row[0] == tool and row[2] == length)
            for length in LENGTHS
        }
        for tool in CASES
    }


def run(folder, ptext, other, quick, to):
    """The text and the table for the README; the data and the chart are written."""
    load = os.getloadavg()[0]
    rows = measure_all(folder, ptext, other, quick)
    part = 10 if quick else 1
    said = (
        "Ratios by the bytes of a line, without its newline; speed.tsv has the instructions of `ptext` a line, too.\n"
        f"{'Each command once' if quick else f'The best of {RUNS} runs'}, over {(SIZE >> 20) / part:g} MB (`join` "
        f"and `comm` over at most {LINES // part:,} lines), on {os.cpu_count()} processors; other work on the machine "
        f"at the start: {load:.1f} of them.\n"
        "`OTHER` is the second input, of lines as long; `FILE` is the first once more.\n\n"
    )
    write_input(to, "speed.tsv", format_data(rows))
    with open(os.path.join(to, "speed.svg"), "w", encoding="utf-8") as file:
        file.write(chart.draw(find_means(rows)))
    return said + format_table(rows)
