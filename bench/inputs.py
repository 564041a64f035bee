"""The inputs of works.py: lines as people have them, and files of such lines. A maker of files takes their size in
bytes, all together, and answers their texts."""

import functools
import random

# The lines that are repeated, where order does not matter. (4, 20 and 100 of them make whole rows.)
PIECE = 20000

GIVEN = random.Random(1)
PEOPLE = "ada bob carol eve frank heidi ivan mallory niaj olivia rupert sybil trent walter".split()
NAMES = GIVEN.choices(PEOPLE, k=PIECE)
SYLLABLES = [first + last for first in "bcdfghlmnprstv" for last in "aeiou"]
DNA = "".join("".join(GIVEN.choices("ACGT", k=60)) + "\n" for _ in range(PIECE))
BYTES = GIVEN.randbytes(1 << 20).decode("latin-1")


def choose_name(number):
    return NAMES[number % PIECE]


def make_item_line(number):
    return f"{number * 7919 % 1000003} {choose_name(number)}\n"


def make_log_line(number):
    """A line of a log, each a millisecond later."""
    time = f"{number // 3600000:02}:{number // 60000 % 60:02}:{number // 1000 % 60:02}.{number % 1000:03}"
    return (
        f"2026-11-22T{time}Z host{number % 17} web[{number % 9973}]: "
        f"GET /items/{number} {200 + number % 5} {number * 7919 % 65536}\n"
    )


def make_person_line(number):
    return f"{number:08} {choose_name(number)} {choose_name(number + 7)} {number * 7919 % 65536}\n"


def make_comma_line(number):
    return make_person_line(number).replace(" ", ",")


def make_third_line(number):
    return f"{choose_name(number)} {number * 7919 % 65536} {number:08} {choose_name(number + 7)}\n"


def make_second_line(number):
    return f"{choose_name(number + 3)} {number:08} {number * 7919 % 65536} {choose_name(number + 5)}\n"


def make_padded_line(number):
    return f"{choose_name(number):10}{number * 7919 % 65536:>8}  {choose_name(number + 7):10}{number % 1000:>6}\n"


def repeat_text(text):
    """One file: the text again and again, to the size or a little more."""
    return lambda size: [text * -(-size // len(text))]


def repeat_lines(line):
    return repeat_text("".join(line(number) for number in range(PIECE)))


def make_item_lines(size, first):
    """Lines of 13 bytes in the mean, from this number on."""
    return "".join(make_item_line(number) for number in range(first, first + size // 13))


def make_items(count):
    """`count` files of the same number of lines."""
    return lambda size: [make_item_lines(size // count, 1000 * number) for number in range(count)]


def make_halves(size):
    """8 files, of which each is half as long as the one before."""
    return [make_item_lines(size >> number, 1000 * number) for number in range(1, 9)]


def make_thirds(first, second):
    """Two files of ascending numbers. The first lacks each third number, and the second another third: half of the
    lines of each have a partner."""

    def make(size):
        count = size * 3 // 4 // len(first(123456))
        return [
            "".join(first(number) for number in range(count) if number % 3 != 2),
            "".join(second(number) for number in range(count) if number % 3 != 0),
        ]

    return make


def make_one_to_many(size):
    """Keys of one line in the first file and of 300,000 in the second."""
    group = 300000
    count = size // len(make_person_line(123456))
    keys = range(-(-count // group))
    many = "".join(f"{number // group:08} {choose_name(number)} {number * 7919 % 65536}\n" for number in range(count))
    return ["".join(make_person_line(number) for number in keys), many]


@functools.cache
def make_dictionary(count):
    """So many words less those that come twice, in order."""
    given = random.Random(1)
    return sorted({"".join(given.choices(SYLLABLES, k=given.randint(2, 5))) + "\n" for _ in range(count)})


def make_word_lists(size):
    """Two files of words, of half the size, as in `thirds`."""
    words = make_dictionary(size // 16)
    return [
        "".join(word for number, word in enumerate(words) if number % 3 != 2),
        "".join(word for number, word in enumerate(words) if number % 3 != 0),
    ]


def make_words_of_a_text(size):
    """All words of a text in order: half of the different ones are there once, and few a thousand times."""
    given = random.Random(1)
    return ["".join(word * min(int(1 / (1 - given.random())), 1000) for word in make_dictionary(size // 64))]


def make_wide_line(separator, count):
    """Makers of lines of `count` fields."""

    def make(number):
        fields = [str((number + index) * 7919 % 65536) for index in range(count - 1)]
        return separator.join([f"{number:08}", *fields]) + "\n"

    return make


def make_password_line(number):
    name = choose_name(number)
    return f"{name}{number}:x:{1000 + number % 60000}:100:{name.title()} {number % 97}:/home/{name}{number}:/bin/bash\n"


def make_quoted_line(number):
    """A line of the log of a server of pages."""
    time = f"{number // 3600 % 24:02}:{number // 60 % 60:02}:{number % 60:02}"
    return (
        f"10.{number % 251}.{number % 83}.{number % 17} - - [22/Nov/2026:{time} +0000] "
        f'"GET /items/{number} HTTP/1.1" {200 + number % 5} {number * 7919 % 65536}\n'
    )


def make_stamped_line(number):
    """Two lines each are the same but for the time before them."""
    return f"{1700000000 + number} {choose_name(number // 2)} {number // 2 % 100}\n"


def make_short_person_line(number):
    return f"{number:08} {choose_name(number)} {number * 7919 % 65536}\n"


@functools.cache
def make_long_words(count):
    """So many words of six to nine syllables, in order."""
    given = random.Random(3)
    return sorted({"".join(given.choices(SYLLABLES, k=given.randint(6, 9))) + "\n" for _ in range(count)})


def make_dictionary_file(size):
    return ["".join(make_long_words(size // 16))]


def make_runs(size):
    """Lines of eight bytes of which 1 to 12 each are the same."""
    given = random.Random(2)
    return ["".join(f"{number:07}\n" * given.randint(1, 12) for number in range(size // 52))]


def make_groups(first, second):
    """Makers of two files, with `first` and `second` lines of each key."""

    def make(size):
        keys = range(size // (15 * (first + second)))
        return [
            "".join(f"{key:07} {name}{line}\n" for key in keys for line in range(count))
            for name, count in (("left", first), ("right", second))
        ]

    return make
