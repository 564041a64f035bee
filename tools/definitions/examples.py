"""Worked examples by hand: words, inputs, and what has to be written. A file without inputs cannot be opened."""
import shlex
from typing import NamedTuple

LARGEST = 2**64 - 1


class Example(NamedTuple):
    """A command, its inputs by name (`-` is standard input), its output, its messages and its status."""

    words: list
    inputs: dict
    out: bytes
    messages: str
    status: int


def expect(words, inputs, out="", messages="", status=None):
    """An example. The status is 0 without a message, and 2 with one, where none is given."""
    words = shlex.split(words) if isinstance(words, str) else words
    texts = inputs if isinstance(inputs, dict) else {"-": inputs}
    texts = {name: text.encode("latin-1") for name, text in texts.items()}
    return Example(words, texts, out.encode("latin-1"), messages, (2 if messages else 0) if status is None else status)


REPEATED_F, REPEATED_G = "a\na\nb\n", "a\nc\n"
KEYS_F, KEYS_G = "a 1\na 2\nc 9\n", "a x\na y\nb z\n"
PAIRS = "a 1 x\na 1 y\na 2 x\na 2 y\n"

ROWS = [
    expect("cut -c 3-,1", "abcd\n", "acd\n"),
    expect("cut -d : -f 2,2,1", "a:b:c\nxyz\n", "a:b\nxyz\n"),
    expect("cut -s -d : -f 5", "a:b\nxyz\n", "\n"),
    expect("cut -b -2", "abc", "ab\n"),
    expect("cut -f 0", "", "", "cut: wrong value for option -f: 0\n"),
    expect(r"paste -d '\0,' - - -", "1\n2\n3\n4\n", "12,3\n4,\n"),
    expect("paste -s -d ',;' f g", {"f": "a\nb\nc\n", "g": ""}, "a,b;c\n\n"),
    expect("comm f g", {"f": REPEATED_F, "g": REPEATED_G}, "\t\ta\na\nb\n\tc\n"),
    expect("comm -12 f g", {"f": REPEATED_F, "g": REPEATED_G}, "a\n"),
    expect("comm f g", {"f": "b\na\nc\n", "g": "a\nb\nb\nd\n"}, "\ta\n\t\tb\n\tb\n",
        "comm: f: line 2 is out of order\n", 1),
    expect("uniq -c", "a\na\nb\na", "2 a\n1 b\n1 a\n"),
    expect("uniq -f 1 -s 1", " x 1a\ny 1a\n", " x 1a\n"),
    expect("join f g", {"f": KEYS_F, "g": KEYS_G}, PAIRS),
    expect("join -a 2 -e - -o 0,1.2,2.2 f g", {"f": KEYS_F, "g": KEYS_G}, PAIRS + "b - z\n"),
    expect("join -t , -v 1 f g", {"f": ",1\nk\n", "g": "k,2\n"}, ",1\n"),
    expect(r"tr -cs '[:alpha:]' '[\n*]'", "one, two.\n", "one\ntwo\n"),
    expect("tr a-c x-y", "abcd", "xyyd"),
    expect("tr -ds 0-9 ab", "a1ab2bb", "ab"),
    expect(r"tr -d '\400'", "", "", "tr: wrong string1: octal\n"),
    expect("paste f g", {"f": "a\n"}, "", "paste: g: cannot be opened\n", 1),
    expect("cut -c 1 f g h", {"f": "ab\n", "h": "cd\n"}, "a\nc\n", "cut: g: cannot be opened\n", 1),
    expect("join f g", {"f": "b 1\na 2\n", "g": "a x\nb y\n"}, "b 1 y\n", "join: f: line 2 is out of order\n", 1),
    expect("tr '[:lower:]' '[:upper:]'", "ab1z\n", "AB1Z\n"),
    expect("tr '[:lower:]' '[:lower:]'", "", "", "tr: wrong string2: pairing\n"),
    expect(r"tr '\055a-b' 'x[y*02]z'", "-ab", "xyy"),
    expect("tr -cd 0-9", "a1b2\n", "12"),
    expect(f"cut -b {LARGEST}-", "abc\n", "\n"),
    expect("cut -b 18446744073709551616", "", "", "cut: wrong value for option -b: 18446744073709551616\n"),
    expect("cut -c 1", "", ""),
    expect("uniq -c", "", ""),
    expect("paste -", "", ""),
    expect("tr a b", "", ""),
    expect("paste -s -", "", "\n"),
    expect([], "", "", "ptext: first word: cut, paste, join, comm, uniq or tr\n"),
    expect("cut", "", "", "cut: one of -b, -c and -f is needed\n"),
    expect("cut -xb", "", "", "cut: unknown option in -xb\n"),
    expect("uniq -f", "", "", "uniq: option -f needs a value\n"),
    expect("cut -b 1 -b 2", "", "", "cut: option -b is given twice\n"),
    expect("cut -b 1 -f 1", "", "", "cut: options -b and -f do not go together\n"),
    expect("comm - -", "", "", "comm: standard input is named twice\n"),
    expect("join f", "", "", "join: wrong number of operands\n"),
    expect(r"paste -d 'a\' f", "", "", "paste: wrong value for option -d: a\\\n"),
    expect(["paste"] + ["-"] * 513, "", "", "paste: wrong number of operands\n"),
    expect("cut -b '2 4,1'", "abcd\n", "abd\n"),
    expect("cut -b 2-", "a\nbcd", "\ncd\n"),
    expect("cut -b 1,3-2", "", "", "cut: wrong value for option -b: 1,3-2\n"),
    expect("cut -b 1,,2", "", "", "cut: wrong value for option -b: 1,,2\n"),
    expect("cut -nb 2-", "a\nbcd", "\ncd\n"),
    expect("cut -b1 -c2 -b3", "", "", "cut: option -b is given twice\n"),
    expect("cut -b 1 -b", "", "", "cut: option -b is given twice\n"),
    expect("cut -b 0 -c 1", "", "", "cut: options -b and -c do not go together\n"),
    expect("cut -d :: -s", "", "", "cut: one of -b, -c and -f is needed\n"),
    expect("join -a 3 -v 1 f g", "", "", "join: options -a and -v do not go together\n"),
    expect("join -o 1.0 -a 3 f", "", "", "join: wrong value for option -a: 3\n"),
    expect("uniq -f -1", "", "", "uniq: wrong value for option -f: -1\n"),
    expect("uniq -- -c a b", "", "", "uniq: wrong number of operands\n"),
    expect("comm -4 f g", "", "", "comm: unknown option in -4\n"),
    expect("tr -cC a b", "", "", "tr: options -c and -C do not go together\n"),
    expect("paste -d '' f", "", "", "paste: wrong value for option -d: \n"),
    expect("tr -d a-c", "abcabd\n", "d\n"),
    expect("tr a-c-e 1-5", "a-e", "145"),
    expect("tr aab xyz", "ab", "yz"),
    expect(r"tr '\0012' ab", "2", "b"),
    expect("tr -s ab x", "abba", "x"),
    expect("tr -cs a x", "abba\n", "axax"),
    expect("tr z-a b", "", "", "tr: wrong string1: descending\n"),
    expect(r"tr a 'b\'", "", "", "tr: wrong string2: escape\n"),
    expect("tr '' b", "", "", "tr: wrong string1: empty\n"),
    expect("tr -s a", "aabaa", "aba"),
    expect("cut -d , -f 2- f - g", {"f": "a,b,c\n", "-": "x\n", "g": ",\n"}, "b,c\nx\n\n"),
    expect("cut -f 1 - -", "a\tb", "a\n"),
    expect("paste f - g -", {"f": "a\n", "-": "1\n2\n3\n", "g": ""}, "a\t1\t\t2\n\t3\t\t\n"),
    expect(r"paste -s -d '\0\n' f", {"f": "a\nb\nc\nd\n"}, "ab\ncd\n"),
    expect("paste -s - f -", {"-": "1\n2\n", "f": "x\n"}, "1\t2\nx\n\n"),
    expect("uniq -c -f 1", "1 x\n2 x\n3 y", "2 1 x\n1 3 y\n"),
    expect("uniq -f 2", "a b\nc\n", "a b\n"),
    expect(f"uniq -s {LARGEST}", "a\nb\n", "a\n"),
    expect("uniq -d", "a\na\nb\n", "a\n"),
    expect("uniq -u", "a\na\nb\n", "b\n"),
    expect("uniq g out", {}, "", "uniq: g: cannot be opened\n", 1),
    expect("comm -1 f g", {"f": "a\nb\n", "g": "b\nc\n"}, "\tb\nc\n"),
    expect("comm f g", {"f": "b\na\n", "g": "c\nb\n"}, "b\n", "comm: f: line 2 is out of order\n", 1),
    expect("comm f g", {"f": "c\nb\n", "g": "b\na\n"}, "\tb\n", "comm: g: line 2 is out of order\n", 1),
    expect("comm f g", {"f": "b\na\n", "g": "b\nb\na\n"}, "\t\tb\n\tb\n", "comm: f: line 2 is out of order\n", 1),
    expect("comm f g", {"f": "b\nb\na\n", "g": "b\na\n"}, "\t\tb\nb\n", "comm: f: line 3 is out of order\n", 1),
    expect("comm f g", {"f": "a\nab\n", "g": "ab\na\n"}, "a\n\t\tab\n", "comm: g: line 2 is out of order\n", 1),
    expect("join -1 2 f g", {"f": "x a\ny b\n", "g": "a 1\nb 2\n"}, "a x 1\nb y 2\n"),
    expect("join -a 1 -a 2 f g", {"f": "a 1\nc 3\n", "g": "b 2\nc 4\n"}, "a 1\nb 2\nc 3 4\n"),
    expect("join -t : -o 1.2,0,2.3 -e X -a 1 f g", {"f": "a:\nb:q\n", "g": "b:r\n"}, "X:a:X\nq:b:X\n"),
    expect("join f g", {"f": "\na 1\n", "g": " \na 2\n"}, "\na 1 2\n"),
    expect("join -t , f g", {"f": "a,1\n", "g": "a,\n"}, "a,1,\n"),
    expect("join -1 5 -a 1 f g", {"f": "x y\n", "g": ""}, " x y\n"),
    expect("join f g", {"f": "a\n", "g": "b\na\n"}, "", "join: g: line 2 is out of order\n", 1),
    expect("tr '[a-c]' '<1-3>'", "[ab]", "<12>"),
    expect("tr 0-9 '[x*5]y'", "0459", "xxyy"),
    expect("tr '[:lower:]1' '[:upper:]'", "a1", "AZ"),
    expect("tr -ds '[:digit:]' '[:space:]'", "1  2\n\n", " \n"),
    expect("tr -d '[=a=]b'", "abc", "c"),
    expect(r"tr -c '\000-\377' '[x*]'", "ab", "ab"),
    expect("tr a-z '[:upper:]'", "", "", "tr: wrong string2: pairing\n"),
    expect("tr -c '[:alpha:]' '[:upper:]'", "", "", "tr: wrong string2: pairing\n"),
    expect("tr 0 '[=x=]'", "", "", "tr: wrong string2: equivalence\n"),
    expect("tr '[a*3]' b", "", "", "tr: wrong string1: repeat\n"),
    expect("tr abc '[x*08]'", "", "", "tr: wrong string2: size\n"),
    expect("tr a '[x*][y*]'", "", "", "tr: wrong string2: fill\n"),
    expect("tr '[:foo:]' a", "", "", "tr: wrong string1: class\n"),
    expect("tr a-zA-Z n-za-mN-ZA-M", "Hello", "Uryyb"),
    expect("cut -z -c 1", "ab\0\ncd", "a\0\n\0"),
    expect(["cut", "-d", "\n", "-f", "2", "-z"], "a\nb\0", "b\0"),
    expect(["cut", "-d", "\n", "-f", "2"], "", "", "cut: wrong value for option -d: \n\n"),
    expect("uniq -zc", "a\0a\0b", "2 a\x001 b\0"),
    expect("join -z f g", {"f": "a 1\nq\0", "g": "a x\0"}, "a 1\nq x\0"),
    expect("comm -z f g", {"f": "b\0a\0", "g": ""}, "b\0", "comm: f: line 2 is out of order\n", 1),
    expect("tr -z a b", "", "", "tr: unknown option in -z\n"),
    expect("comm -r f g", {"f": "b\na\na\n", "g": "c\na\n"}, "\tc\nb\n\t\ta\na\n"),
    expect("comm -r f g", {"f": "a\nab\n", "g": ""}, "a\n", "comm: f: line 2 is out of order\n", 1),
    expect("comm -r f g", {"f": "b\nc\n", "g": "a\nb\n"}, "b\n", "comm: f: line 2 is out of order\n", 1),
    expect("join -r f g", {"f": "b 1\na 2\n", "g": "b x\na y\n"}, "b 1 x\na 2 y\n"),
    expect("join -r -t , -a 1 f g", {"f": "k\n,1\n", "g": ""}, "k\n,1\n"),
    expect("cut -r -b 1", "", "", "cut: unknown option in -r\n"),
]

# The examples of the standard (POSIX.1-2017, XCU, the page of each utility), with small inputs where it gives none.
RUNS = ["#01 foo0 bar0 foo1 bar1", "#02 bar0 foo1 bar1 foo1", "#03 foo0 bar0 foo1 bar1", "#04"]
RUNS += ["#05 foo0 bar0 foo1 bar1", "#06 foo0 bar0 foo1 bar1", "#07 bar0 foo1 bar1 foo0"]
PHONES = "!Name\tPhone Number\nDon\t+1 123-456-7890\nHal\t+1 234-567-8901\nYasushi\t+2 345-678-9012\n"
FAXES = "!Name\tFax Number\nDon\t+1 123-456-7899\nKeith\t+1 456-789-0122\nYasushi\t+2 345-678-9011\n"
BOTH = "!Name\tPhone Number\tFax Number\nDon\t+1 123-456-7890\t+1 123-456-7899\n"
BOTH += "Hal\t+1 234-567-8901\t(unknown)\nKeith\t(unknown)\t+1 456-789-0122\n"
BOTH += "Yasushi\t+2 345-678-9012\t+2 345-678-9011\n"
TABLE = "a b c w x\na b c y z\na b c o p\na d e w x\na d e y z\na d e o p\n"


def repeat_runs(*numbers):
    return "".join(f"{RUNS[number - 1]}\n" for number in numbers)


UNIQ_FILE = {"f": repeat_runs(*range(1, 8))}
COUNTED = [(1, 1), (1, 2), (1, 3), (1, 4), (2, 5), (1, 7)]
STANDARD = [
    expect("uniq -c -f 1 f", UNIQ_FILE, "".join(f"{count} {RUNS[line - 1]}\n" for count, line in COUNTED)),
    expect("uniq -d -f 1 f", UNIQ_FILE, repeat_runs(5)),
    expect("uniq -u -f 1 f", UNIQ_FILE, repeat_runs(1, 2, 3, 4, 7)),
    expect("uniq -d -s 2 f", UNIQ_FILE),
    expect(["join", "-t", "\t", "-a", "1", "-a", "2", "-e", "(unknown)", "-o", "0,1.2,2.2", "f", "g"],
        {"f": PHONES, "g": FAXES}, BOTH),
    expect("join f g", {"f": "a x\na y\na z\n", "g": "a p\n"}, "a x p\na y p\na z p\n"),
    expect("join f g", {"f": "a b c\na d e\n", "g": "a w x\na y z\na o p\n"}, TABLE),
    expect(r"tr -cs '[:alpha:]' '[\n*]'", "Hello, world: 1 two\n", "Hello\nworld\ntwo\n"),
    expect("tr '[:lower:]' '[:upper:]'", "aZ b1\n", "AZ B1\n"),
    expect("tr '[=e=]' '[e*]'", "e f\n", "e f\n"),
    expect("paste - - - -", "1\n2\n3\n4\n5\n", "1\t2\t3\t4\n5\t\t\t\n"),
    expect(r"paste -s -d '\t\n' f", {"f": "a\nb\nc\nd\n"}, "a\tb\nc\td\n"),
    expect("comm -23 f g", {"f": "a\nb\n", "g": "b\nc\n"}, "a\n"),
]

# Inputs that were received in part, each with whether that is all, and the output that is decided.
PARTLY_READ = [
    ("uniq", {"-": (b"a\na\nb", False)}, b""),
    ("cut -c 1 g f h", {"f": (b"", False)}, b""),
    ("cut -c 1 g f h", {"f": (b"xy\n", True)}, b"x\n"),
    ("cut -c 1-3", {"-": (b"ab", False)}, b""),
    ("uniq -c", {"-": (b"a\nb\nc", False)}, b"1 a\n"),
    ("cut -d : -f 1", {"-": (b"a:b\nc:d", False)}, b"a\n"),
    ("paste f g", {"f": (b"1\n2\n3\n", True), "g": (b"x\ny", False)}, b"1\tx\n"),
    ("paste -s f", {"f": (b"1\n2\n", False)}, b"1\t2"),
    ("comm f g", {"f": (b"a\nc\n", True), "g": (b"b\n", False)}, b"a\n"),
    ("comm f g", {"f": (b"a\nb\na\n", True), "g": (b"a\nb\n", False)}, b"\t\ta\n"),
]

# The number of stretches of the images of tr. In the fourth and the fifth a stretch would reach over a gap.
STRETCHES = [("tr a-z A-Z", 1), ("tr a-zA-Z n-za-mN-ZA-M", 4), ("tr abc x", 3), ("tr ace bdf", 3)]
STRETCHES += [("tr acegi 12345", 5), ("tr ab ab", 0)]
