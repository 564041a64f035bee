"""Works as people have them, over such lines as they occur: the time of each beside that of GNU's tool, and of
other programs where these are installed. One command for each tool over lines of a log, in MB/s, and the start-up time
come after them."""

import os
import random
import shutil
import signal
import statistics
import subprocess
from typing import Callable, NamedTuple

from inputs import (
    BYTES,
    DNA,
    make_comma_line,
    make_halves,
    make_item_line,
    make_items,
    make_log_line,
    make_one_to_many,
    make_padded_line,
    make_person_line,
    make_second_line,
    make_third_line,
    make_thirds,
    make_word_lists,
    make_words_of_a_text,
    repeat_lines,
    repeat_text,
)
from measuring import (
    FILE,
    FILES,
    OTHER,
    RUNS,
    compare,
    count_beyond_none,
    fill_in,
    find_least_space,
    is_same,
    run_timed,
)

# The bytes of all files of a work, about; and of those over which instructions are counted.
SIZE = 24 << 20
COUNTED = 1 << 20
# The runs of another program than GNU's, and the most seconds of one.
FEW_RUNS = 3
LIMIT = 3
STARTS = 50

OTHERS = {
    "busybox": lambda tool: ["busybox", tool],
    "toybox": lambda tool: ["toybox", tool],
    "uutils": lambda tool: [f"/usr/lib/cargo/bin/coreutils/{tool}"],
    "mawk": lambda tool: ["mawk"],
}

class Work(NamedTuple):
    """Its title, the texts of its files for a size in bytes, its words, and those of awk that do the same."""

    title: str
    make: Callable
    words: list
    awk: list | None = None

    @property
    def unit(self):
        return "byte" if self.words[0] in ("cut", "tr") else "line"

    def count_units(self, texts):
        return sum(len(text) if self.unit == "byte" else text.count("\n") for text in texts)

    def count_bytes(self, texts):
        """The bytes of the files that it reads."""
        return sum(map(len, texts if OTHER in self.words or FILES in self.words else texts[:1]))

    def find_words(self, program):
        """The words by which another program does it, if there are any."""
        if program == "mawk":
            return self.awk and ["mawk", *self.awk]
        return [*OTHERS[program](self.words[0]), *self.words[1:]]


# The words of awk for joins: of each line of one file the rest is kept by its key.
NEAR_IN_AWK = [
    "NR == FNR { rest[$1] = substr($0, length($1) + 1); next } $1 in rest { print $0 rest[$1] }",
    OTHER,
    FILE,
]
FAR_IN_AWK = [
    'NR == FNR { rest[$2] = $1 " " $3 " " $4; next } $3 in rest { print $3, $1, $2, $4, rest[$3] }',
    OTHER,
    FILE,
]
MANY_IN_AWK = ["NR == FNR { one[$1] = $0; next } $1 in one { print one[$1] substr($0, length($1) + 1) }", FILE, OTHER]
COMMON_IN_AWK = ["NR == FNR { seen[$0]; next } $0 in seen", OTHER, FILE]
COUNT_IN_AWK = [
    "$0 != last { if (NR > 1) print n, last; last = $0; n = 0 } { n++ } END { print n, last }",
    FILE,
]

ODD = ",".join(str(column) for column in range(1, 70, 2))
OUTER = ["-a", "1", "-a", "2", "-e", "-", "-o", "0,1.2,1.3,2.2,2.3"]
SCATTERED = ["aeiouyAEIOUY,.;:-", "4310vYqXQWZ&_|%+/"]
PERMUTED = ["\\000-\\377", "".join(f"\\{byte:03o}" for byte in random.Random(1).sample(range(256), 256))]

LOG, ITEMS, PADDED = repeat_lines(make_log_line), repeat_lines(make_item_line), repeat_lines(make_padded_line)
TENS, SEVENTIES = repeat_lines("{:010}\n".format), repeat_lines(f"{'{0:010}' * 7}\n".format)
BY_FIRST, BY_COMMAS, LOGS = (make_thirds(line, line) for line in (make_person_line, make_comma_line, make_log_line))
BY_FAR = make_thirds(make_third_line, make_second_line)

WORKS = [
    *[Work(f"`paste` of {count} files", make_items(count), ["paste", FILES]) for count in (2, 10, 50, 100, 500)],
    Work("`paste` of 8 files, each half as long as the one before", make_halves, ["paste", FILES]),
    Work("`paste - - - -`", ITEMS, ["paste", *"----"], ['{ ORS = NR % 4 ? "\t" : "\n"; print }', FILE]),
    Work("`paste` with `-` 20 times", ITEMS, ["paste", *"-" * 20]),
    Work("`paste` with `-` 100 times", ITEMS, ["paste", *"-" * 100]),
    Work("`join`", BY_FIRST, ["join", FILE, OTHER], NEAR_IN_AWK),
    Work("`join -1 3 -2 2`", BY_FAR, ["join", "-1", "3", "-2", "2", FILE, OTHER], FAR_IN_AWK),
    Work(f"`join {' '.join(OUTER)}`", BY_FIRST, ["join", *OUTER, FILE, OTHER]),
    Work("`join -t ,`", BY_COMMAS, ["join", "-t", ",", FILE, OTHER], ["-F", ",", *NEAR_IN_AWK]),
    Work("`join`, one line to 300,000", make_one_to_many, ["join", FILE, OTHER], MANY_IN_AWK),
    Work("`comm` of lists of words", make_word_lists, ["comm", FILE, OTHER]),
    Work("`comm -12` of lists of words", make_word_lists, ["comm", "-12", FILE, OTHER], COMMON_IN_AWK),
    Work("`uniq -c` of the sorted words of a text", make_words_of_a_text, ["uniq", "-c", FILE], COUNT_IN_AWK),
    Work("`uniq -f 3` of a log", LOG, ["uniq", "-f", "3", FILE]),
    Work("`cut -c 1,3,5,..,69`, lines of 70 bytes", SEVENTIES, ["cut", "-c", ODD, FILE]),
    Work("`cut -c 2-4`, lines of 10 bytes", TENS, ["cut", "-c", "2-4", FILE], ["{ print substr($0, 2, 3) }", FILE]),
    Work(
        "`cut -c 3-,1` of a log",
        LOG,
        ["cut", "-c", "3-,1", FILE],
        ["{ print substr($0, 1, 1) substr($0, 3) }", FILE],
    ),
    Work("`cut -d ' ' -f 2,5` of a log", LOG, ["cut", "-d", " ", "-f", "2,5", FILE], ["{ print $2, $5 }", FILE]),
    Work("`tr`, all 256 bytes permuted", repeat_text(BYTES), ["tr", *PERMUTED]),
    Work("`tr ACGT TGCA`", repeat_text(DNA), ["tr", "ACGT", "TGCA"]),
    Work("`tr` of 17 scattered bytes in a log", LOG, ["tr", *SCATTERED]),
    Work("`tr A-Za-z N-ZA-Mn-za-m` of a log", LOG, ["tr", "A-Za-z", "N-ZA-Mn-za-m"]),
    Work("`tr a-z A-Z` of a log", LOG, ["tr", "a-z", "A-Z"], ["{ print toupper($0) }"]),
    Work("`tr -d 0-9` of a log", LOG, ["tr", "-d", "0-9"], ['{ gsub(/[0-9]/, ""); print }']),
    Work("`tr -s ' '` of padded columns", PADDED, ["tr", "-s", " "], ['{ gsub(/  +/, " "); print }']),
]
# One command of each tool over logs.
OF_LOGS = [
    Work("`cut -d ' ' -f 2,5`", LOGS, ["cut", "-d", " ", "-f", "2,5", FILE], ["{ print $2, $5 }", FILE]),
    Work("`paste` of two logs", LOGS, ["paste", FILE, OTHER]),
    Work("`join` by the time", LOGS, ["join", FILE, OTHER], NEAR_IN_AWK),
    Work("`comm` of two logs", LOGS, ["comm", FILE, OTHER]),
    Work("`uniq`", LOGS, ["uniq", FILE], ["$0 != last { print; last = $0 }", FILE]),
    Work("`tr a-z A-Z`", LOGS, ["tr", "a-z", "A-Z"], ["{ print toupper($0) }"]),
]
STARTING = Work("start-up, in ms", lambda size: [""], ["cut", "-c", "1"], ["{ print substr($0, 1, 1) }"])


class Row(NamedTuple):
    """The MB that a work read, the seconds of ptext, of GNU's tool and of the others (or why there are none), and the
    instructions of ptext for each line or byte."""

    work: Work
    size: float
    ours: float
    theirs: float
    others: dict
    count: float | None


def write_files(folder, texts):
    """The paths of files of these texts."""
    paths = [os.path.join(folder, f"file{number}") for number in range(len(texts))]
    for path, text in zip(paths, texts):
        with open(path, "w", encoding="latin-1", newline="") as file:
            file.write(text)
    return paths


def measure_other(folder, paths, work, program, runs):
    """The best seconds of another program, or why there are none. The file `ours` has the output of ptext."""
    words = work.find_words(program)
    if not words or not shutil.which(words[0]):
        return ""
    words, output = fill_in(words, paths), os.path.join(folder, "theirs")
    status, _ = run_timed(words, paths[0], output, LIMIT, subprocess.DEVNULL)
    if status in (-signal.SIGXCPU, -signal.SIGKILL):
        return f"over {LIMIT} s"
    if status != 0:
        return ""
    if not is_same(work.words, os.path.join(folder, "ours"), output):
        return "differs"
    return min(run_timed(words, paths[0], os.devnull)[1] for _ in range(runs))


def count_a_unit(folder, ptext, work):
    """The instructions of ptext for each line or byte, if they can be counted."""
    if not shutil.which("valgrind"):
        return None
    texts = work.make(COUNTED)
    return count_beyond_none(folder, write_files(folder, texts), ptext, work.words) / work.count_units(texts)


def measure_works(folder, ptext, other, works, quick):
    """A row for each work."""
    rows = []
    for work in works:
        count = count_a_unit(folder, ptext, work) if works is WORKS else None
        texts = work.make(COUNTED if quick else SIZE)
        paths = write_files(folder, texts)
        ours, theirs = compare(folder, paths, ptext, other, work.words, 1 if quick else RUNS)
        others = {program: measure_other(folder, paths, work, program, 1 if quick else FEW_RUNS) for program in OTHERS}
        rows.append(Row(work, work.count_bytes(texts) / 1e6, ours, theirs, others, count))
        print(f"{work.title:60} {ours:7.3f} s {theirs:7.3f} s {ours / theirs:6.2f}", flush=True)
    return rows


def format_row(cells):
    return "| " + " | ".join(cells) + " |\n"


def format_ratio(ours, theirs):
    return theirs if isinstance(theirs, str) else f"{ours / theirs:.2f}"


def format_speed(size, seconds):
    return seconds if isinstance(seconds, str) else f"{size / seconds:,.0f}"


def list_ratios(rows):
    """For GNU's tools and for each other program, all ratios."""
    found = [[row.ours / row.theirs for row in rows]]
    for program in OTHERS:
        known = [row for row in rows if not isinstance(row.others[program], str)]
        found.append([row.ours / row.others[program] for row in known])
    return found


def format_table(rows, side):
    """The ratios of each work to GNU's and to other programs; then the geometric means and the largest ones."""
    text = format_row(["work", side, *OTHERS, "instructions"]) + "|---" * (len(OTHERS) + 3) + "|\n"
    for row in rows:
        count = "" if row.count is None else f"{row.count:,.1f} a {row.work.unit}"
        others = [format_ratio(row.ours, row.others[program]) for program in OTHERS]
        text += format_row([row.work.title, format_ratio(row.ours, row.theirs), *others, count])
    for title, value in [("geometric mean", statistics.geometric_mean), ("largest", max)]:
        cells = [f"**{value(ratios):.2f}**" if ratios else "" for ratios in list_ratios(rows)]
        text += format_row([f"**{title}**", *cells, ""])
    return text


def format_speeds(rows, side, starts):
    """The MB that each program reads in a second, and its start-up time."""
    text = format_row(["over logs", "ptext", side, *OTHERS]) + "|---" * (len(OTHERS) + 3) + "|\n"
    for row in rows:
        cells = [format_speed(row.size, seconds) for seconds in (row.ours, row.theirs, *row.others.values())]
        text += format_row([row.work.title, *cells])
    return text + format_row([STARTING.title, *starts])


def measure_starts(folder, ptext, other):
    """The milliseconds of each program over an empty file, in the median."""
    path = write_files(folder, STARTING.make(0))[0]
    commands = [[ptext, *STARTING.words], [*other, *STARTING.words]]
    commands += [STARTING.find_words(program) for program in OTHERS]
    cells = []
    for words in commands:
        times = [run_timed(words, path, os.devnull)[1] for _ in range(STARTS)] if shutil.which(words[0]) else []
        cells.append(f"{statistics.median(times) * 1000:.1f}" if times else "")
    return cells


def measure_spaces(folder, ptext):
    """The least address space in which `cut` runs, over an empty line and over a long one."""
    words = [ptext, "cut", "-c", "2"]
    return [find_least_space(words, write_files(folder, [text])[0]) for text in ("\n", "0123456789abcdef" * (4 << 20))]


def run(folder, ptext, other, quick, _):
    load = os.getloadavg()[0]
    rows = measure_works(folder, ptext, other, WORKS, quick)
    of_logs = measure_works(folder, ptext, other, OF_LOGS, quick)
    size = (COUNTED if quick else SIZE) >> 20
    runs = "Each command once" if quick else f"The best of {RUNS} runs (of {FEW_RUNS} of busybox and those after it)"
    side = "other" if other else "GNU"
    empty, long = measure_spaces(folder, ptext)
    return (
        "Ratios of the time of `ptext` to that of other programs, and the instructions of `ptext`.\n"
        f"{runs}, over {size // 2} to {size} MB in all files together, on {os.cpu_count()} processors; other work on "
        f"the machine at the start: {load:.1f} of them.\n"
        "No number: the program lacks the tool or an option, or no command of awk is tried; `differs`: its output is "
        "another one.\n\n"
        + format_table(rows, side)
        + "\nMB of input in a second of user and system time, and the start-up time (`cut -c 1` of an empty file).\n\n"
        + format_speeds(of_logs, side, measure_starts(folder, ptext, other))
        + f"\nThe least address space in which `cut -c 2` runs: {empty:,} KiB over an empty line, {long:,} KiB over "
        "a line of 64 MB.\n"
    )
