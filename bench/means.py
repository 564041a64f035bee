"""Some hundred works, and for each tool the geometric mean of its times beside those of GNU's tool."""

import os
import statistics

from inputs import (
    BYTES,
    DNA,
    make_dictionary_file,
    make_groups,
    make_halves,
    make_items,
    make_long_words,
    make_padded_line,
    make_password_line,
    make_quoted_line,
    make_runs,
    make_second_line,
    make_short_person_line,
    make_stamped_line,
    make_third_line,
    make_thirds,
    make_wide_line,
    make_words_of_a_text,
    repeat_lines,
    repeat_text,
)
from measuring import FILE, FILES, OTHER, RUNS, compare, count_beyond_none
from works import COUNTED, ODD, OUTER, PERMUTED, SCATTERED, Work, write_files

# The bytes of all files of a work, about.
SIZE = 8 << 20
# Above this ratio it is measured once more, and the best of all runs counts.
HIGH = 0.6


def list_fields(count, step):
    return ",".join(str(field) for field in range(1, count + 1, step))


def make_prose(size):
    """Lines of some 70 bytes."""
    words = make_words_of_a_text(size)[0].split("\n")[:-1]
    return ["".join(" ".join(words[at::-(-len(words) // 10)][:10]) + "\n" for at in range(-(-len(words) // 10)))]


def make_dictionaries(size):
    """Two files: half of the words of each are in the other."""
    words = make_long_words(size * 3 // 64)
    return [
        "".join(word for number, word in enumerate(words) if number % 3 != 2),
        "".join(word for number, word in enumerate(words) if number % 3 != 0),
    ]


def make_same_dictionaries(size):
    return make_dictionary_file(size // 2) * 2


def make_dictionary_and_empty(size):
    return [*make_dictionary_file(size), ""]


def make_two_sorted(size):
    """The same words, of which many come more than once, without each seventh line."""
    lines = make_words_of_a_text(size // 2)[0].splitlines(True)
    return [make_words_of_a_text(size // 2)[0], "".join(line for at, line in enumerate(lines) if at % 7)]


def make_ended(size):
    """One file, and nine that are empty."""
    return [*make_items(1)(size), *[""] * 9]


def repeat_fields(separator, count, lines):
    """These lines of `count` fields, again and again."""
    return repeat_text("".join(map(make_wide_line(separator, count), range(lines))))


def make_tabs_line(number):
    return make_short_person_line(number).replace(" ", "\t")


def make_returns_line(number):
    return make_quoted_line(number)[:-1] + "\r\n"


PASSWORDS, LOG, STAMPED = map(repeat_lines, (make_password_line, make_quoted_line, make_stamped_line))
RETURNS, PADDED, ZERO = map(repeat_lines, (make_returns_line, make_padded_line, "{:07}\0".format))
TEN, HUNDRED, THOUSAND = repeat_fields(",", 10, 20000), repeat_fields(",", 100, 2000), repeat_fields("\t", 1000, 200)
BLANKS = make_thirds(make_short_person_line, make_short_person_line)
TABS = make_thirds(make_tabs_line, make_tabs_line)
WIDE = make_thirds(make_wide_line(",", 15), make_wide_line(",", 15))
FAR = make_thirds(make_third_line, make_second_line)
WORDS, DICTIONARY, LETTERS, RANDOM = make_words_of_a_text, make_dictionary_file, repeat_text(DNA), repeat_text(BYTES)

# For each tool and what follows its words: works by the title of their files.
CUT = [
    *[("passwords", PASSWORDS, ["-d", ":", "-f", fields]) for fields in ("1", "1,7", "3-")],
    *[("log", LOG, words) for words in (["-d", " ", "-f", "1,4,7"], ["-d", '"', "-f", "2"])],
    *[("log", LOG, ["-c", columns]) for columns in ("1-15", "1-10,30-50")],
    *[("10 fields", TEN, ["-d", ",", "-f", fields]) for fields in ("3", "1,3,5,7,9", "2-9")],
    *[("100 fields", HUNDRED, ["-d", ",", "-f", it]) for it in ("50", list_fields(100, 10), list_fields(100, 2))],
    *[("1000 fields", THOUSAND, ["-f", fields]) for fields in ("500", "1-999")],
    *[("words", WORDS, words) for words in (["-f", "1", "-s"], ["-c", "1"], ["-c", "2-"])],
    ("DNA", LETTERS, ["-c", ODD]),
]
TR = [
    *[("prose", make_prose, words) for words in (["a-z", "A-Z"], ["[:upper:]", "[:lower:]"], [" ", "\\n"])],
    *[("prose", make_prose, words) for words in (["-d", "\\n"], ["-d", "aeiou"], ["-s", "a-z"], ["-c", "a-z\\n", "?"])],
    ("lines with returns", RETURNS, ["-d", "\\r"]),
    ("columns", PADDED, ["-s", " "]),
    *[("log", LOG, words) for words in (["-cs", "A-Za-z", "\\n"], ["-ds", "0-9", " "], ["-d", "0-9"])],
    *[("log", LOG, words) for words in (["A-Za-z", "N-ZA-Mn-za-m"], SCATTERED)],
    *[("all bytes", RANDOM, words) for words in (["-cd", "[:print:]"], ["-cd", "0-9"], PERMUTED)],
    *[("DNA", LETTERS, words) for words in (["ACGT", "TGCA"], ["-s", "ACGT"])],
    *[("byte 0", ZERO, words) for words in (["\\0", "\\n"], ["-d", "\\0"], ["-s", "\\0"])],
    ("10 fields", TEN, [",", "\\t"]),
]
PASTE = [
    *[(f"{count} files", make_items(count), []) for count in (2, 5, 10, 16, 17, 20, 50, 100, 500)],
    ("5 files", make_items(5), ["-d", ","]),
    ("8 files, each half as long as the one before", make_halves, []),
    ("1 file and 9 empty ones", make_ended, []),
    *[("words", WORDS, words) for words in (["-s"], ["-s", "-d", ","], ["-s", "-d", "\\t\\n"])],
    ("500 files", make_items(500), ["-s"]),
    ("2 logs", lambda size: LOG(size // 2) * 2, []),
]
PASTE_OF_ONE = [
    *[(f"`-` {count} times", WORDS, ["-"] * count) for count in (4, 20, 100)],
    ("log", LOG, ["-d", " \\n", "-", "-"]),
]
UNIQ = [
    *[("sorted words", WORDS, words) for words in ([], ["-c"], ["-d"], ["-u"])],
    *[("dictionary", DICTIONARY, words) for words in ([], ["-c"])],
    *[("runs", make_runs, words) for words in ([], ["-c"])],
    *[("log", LOG, words) for words in ([], ["-f", "4"], ["-f", "6", "-s", "4"])],
    *[("stamps", STAMPED, words) for words in (["-f", "1"], ["-s", "11", "-c"])],
    ("one line of byte 0", lambda size: ["\0" * size], []),
    ("1000 fields", THOUSAND, []),
    ("10 fields", TEN, ["-f", "1"]),
]
COMM = [
    *[("dictionaries", make_dictionaries, words) for words in ([], ["-12"], ["-23"], ["-3"])],
    ("the same dictionary", make_same_dictionaries, []),
    ("a dictionary and nothing", make_dictionary_and_empty, []),
    ("sorted words", make_two_sorted, []),
]
JOIN = [
    *[("blanks", BLANKS, words) for words in ([], ["-v", "2"], OUTER)],
    *[("tabs", TABS, ["-t", "\t", *words]) for words in ([], ["-a", "1"], ["-v", "1"])],
    *[("15 fields", WIDE, ["-t", ",", *words]) for words in ([], ["-o", "1.15,2.15"])],
    ("far keys", FAR, ["-1", "3", "-2", "2"]),
    ("one to ten", make_groups(1, 10), []),
    ("ten to one", make_groups(10, 1), []),
    ("dictionaries", make_dictionaries, []),
    ("20 to 20", lambda size: make_groups(20, 20)(size // 8), []),
]
WORKS = [
    Work(" ".join([title, *words]).replace("\t", "\\t"), make, [tool, *words, *operands])
    for tool, operands, works in [
        ("cut", [FILE], CUT),
        ("tr", [], TR),
        ("paste", [FILES], PASTE),
        ("paste", [], PASTE_OF_ONE),
        ("uniq", [FILE], UNIQ),
        ("comm", [FILE, OTHER], COMM),
        ("join", [FILE, OTHER], JOIN),
    ]
    for title, make, words in works
]


def measure_ratio(folder, ptext, other, work, quick):
    """The time of ptext, as a ratio to the other side's."""
    paths = write_files(folder, work.make(COUNTED if quick else SIZE))
    ours, theirs = compare(folder, paths, ptext, other, work.words, 1 if quick else RUNS)
    if ours > HIGH * theirs and not quick:
        again = compare(folder, paths, ptext, other, work.words)
        ours, theirs = min(ours, again[0]), min(theirs, again[1])
    return ours / theirs


def measure_means(folder, ptext, other, quick, to):
    """The ratios of each tool. A line of each work goes into the file means.tsv."""
    ratios = {}
    with open(os.path.join(to, "means.tsv"), "w", encoding="utf-8") as file:
        file.write("# tool\twork\tratio\tinstructions a byte (cut, tr) or a line\n")
        for work in WORKS:
            tool = work.words[0]
            ratio = measure_ratio(folder, ptext, other, work, quick)
            ratios.setdefault(tool, []).append(ratio)
            texts = work.make(COUNTED)
            count = 0 if quick else count_beyond_none(folder, write_files(folder, texts), ptext, work.words)
            file.write(f"{tool}\t{work.title}\t{ratio:.3f}\t{count / max(work.count_units(texts), 1):.1f}\n")
            print(f"{tool:6} {work.title[:60]:60} {ratio:6.3f}", flush=True)
    return ratios


def run(folder, ptext, other, quick, to):
    load = os.getloadavg()[0]
    ratios = measure_means(folder, ptext, other, quick, to)
    found = [
        f"{tool} {statistics.geometric_mean(all_of):.3f} ({min(all_of):.2f} to {max(all_of):.2f})"
        for tool, all_of in ratios.items()
    ]
    size = (COUNTED if quick else SIZE) >> 20
    return (
        f"Geometric means, with the least and the largest ratio: {', '.join(found)}. Over {size} MB, with other work "
        f"for {load:.1f} processors at the start. means.tsv has each work.\n"
    )
