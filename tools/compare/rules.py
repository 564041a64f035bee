"""Sentences of POSIX.1-2017 that decide a case, each with a check that an answer breaks it.

They apply to a case that meets none of the points that POSIX leaves open. A difference is wrong only if it breaks one
of them. The sentences are those of the page of the tool in XCU, and `[..]` is left out of them."""
import re
from typing import Callable, NamedTuple

from cases import split_lines
from sets import make_plan


HIGH_BYTES = "bytes above 127"


class Rule(NamedTuple):
    """A rule: its title, its tools, the section and the sentence, and a check of (case, wanted, got)."""

    title: str
    tools: str
    section: str
    sentence: str
    is_broken: Callable


def refuses(case, wanted, got):
    """The words are refused: an error, and no output."""
    return wanted.status == 0 and got.status > 0 and not got.out


def hangs(case, wanted, got):
    """The tool did not end, or a signal ended it."""
    return got.status < 0


def is_refused_with(letters, pattern):
    """The check that words are refused, and that the value of one of the letters has the pattern."""
    return lambda case, wanted, got: refuses(case, wanted, got) and any(
        re.search(pattern, value or "") for letter in letters for value in case.list_values(letter)
    )


def has_high_byte(case, wanted, got):
    """Whether a word or an input has a byte above 127."""
    texts = ["".join(case.words).encode(), *(case.inputs.get(name, b"") for name in case.files)]
    return any(byte > 127 for text in texts for byte in text)


# --- cut


def pair_lines(case, wanted, got):
    """Each input line with the wanted line and the line that was written; empty if their numbers differ."""
    read = [line for name in case.files for line in case.read_lines(name)]
    lines = [split_lines(answer.out, case.end) for answer in (wanted, got)]
    return list(zip(read, *lines)) if len(read) == len(lines[0]) == len(lines[1]) else []


def find_delimiter(case):
    return (case.list_values("d") or ["\t"])[0].encode()


def changes_whole_line(case, wanted, got):
    found = pair_lines(case, wanted, got) if case.has("f") and not case.has("s") else []
    return any(find_delimiter(case) not in read and read != written for read, _, written in found)


def keeps_lines(case, wanted, got):
    if not (case.has("f") and case.has("s")) or got.status:
        return False
    return len(split_lines(got.out, case.end)) > len(split_lines(wanted.out, case.end))


def has_other_delimiters(case, wanted, got):
    if not case.has("f") or got.status:
        return False
    lines = [split_lines(answer.out, case.end) for answer in (wanted, got)]
    mark = find_delimiter(case)
    return len(lines[0]) == len(lines[1]) and any(one.count(mark) != two.count(mark) for one, two in zip(*lines))


def is_other_selection(letter):
    """The check that the case has the option, and that other output is written."""
    return lambda case, wanted, got: case.has(letter) and not got.status and got.out != wanted.out


# --- files


def is_lacking_file(case):
    return any(name not in case.inputs for name in case.files)


def stops_at_lacking_file(case, wanted, got):
    """Files after one that cannot be opened are left out."""
    return is_lacking_file(case) and wanted.out != b"" and len(got.out) < len(wanted.out)


def writes_without_file(case, wanted, got):
    return is_lacking_file(case) and not case.has("s") and got.out != b""


def has_status_0_without_file(case, wanted, got):
    return is_lacking_file(case) and got.status == 0


def ignores_dash(case, wanted, got):
    """The dash is refused, or (as in Plan 9's `uniq`) taken for something that cancels the options before it."""
    if "-" not in case.operands or wanted.status:
        return False
    return got.status > 0 or (case.operands[0] == "-" and any(map(case.has, "cdu")) and got.out != wanted.out)


# --- paste


def lacks_last_newline(case, wanted, got):
    return got.status == 0 and wanted.out.endswith(b"\n") and not got.out.endswith(b"\n")


def omits_empty_file(case, wanted, got):
    is_empty = any(not case.inputs.get(name, b"x") for name in case.files)
    return case.has("s") and is_empty and len(got.out) < len(wanted.out)


def ends_early(case, wanted, got):
    """An input has fewer lines than another one, and the row lacks its delimiter."""
    counts = {len(case.read_lines(name)) for name in case.operands}
    has_fewer = len(counts) > 1 or case.operands.count("-") > 1
    return not case.has("s") and has_fewer and got.status == 0 and len(got.out) < len(wanted.out)


def has_escape_as_element(case, wanted, got):
    return any("\\" in value for value in case.list_values("d"))


def has_other_element(case, wanted, got):
    return case.has("d") and not got.status and got.out != wanted.out


# --- uniq


def writes_to_other_output(case, wanted, got):
    """The output file is not written, or standard output is."""
    return len(case.operands) == 2 and got.out.partition(b"output file:")[2] != wanted.out.partition(b"output file:")[2]


def repeats_a_line(case, wanted, got):
    has_option = any(map(case.has, "cdufs"))
    return not has_option and got.status == 0 and len(got.out) > len(wanted.out)


# --- comm and join


def has_other_output(case, wanted, got):
    return got.status == 0 and got.out != wanted.out


def has_other_order(case, wanted, got):
    """The lines are the wanted ones in another order. The tabs of their columns do not count."""
    lines = [sorted(line.lstrip(b"\t") for line in split_lines(answer.out, b"\n")) for answer in (wanted, got)]
    return lines[0] == lines[1] and wanted.out != got.out


def is_other_join(*letters):
    """The check that the case has one of the options, and that other lines are written."""
    return lambda case, wanted, got: any(map(case.has, letters)) and has_other_output(case, wanted, got)


def is_refused(letter):
    """The check that a command line with the option is refused."""
    return lambda case, wanted, got: case.has(letter) and refuses(case, wanted, got)


# --- tr


def has_part(*kinds):
    """The check that a string has a part of one of the kinds."""

    def check(case, wanted, got):
        found = make_plan({letter for letter, _ in case.options}, case.operands)
        parts = found.first + (found.second or [])
        return any(part.kind in kinds for part in parts)

    return check


def squeezes_after_deleting(case, wanted, got):
    """With -d and -s, and without a class, which has a rule of its own."""
    return case.has("d") and case.has("s") and not has_part("class")(case, wanted, got)


def has_octal(case, wanted, got):
    return any(re.search(r"\\[0-7]", operand) for operand in case.operands)


def has_escape(case, wanted, got):
    return any(re.search(r"\\[abfnrtv\\]", operand) for operand in case.operands)


def is_case_conversion(case, wanted, got):
    text = "".join(case.operands)
    return not case.has("d") and "[:lower:]" in text and "[:upper:]" in text


def has_byte_0(case, wanted, got):
    return b"\0" in case.inputs["-"]


RULES = [
    Rule(
        "no end",
        "cut paste uniq comm join tr",
        "EXIT STATUS",
        "The following exit values shall be returned: 0 [..] >0 An error occurred.",
        hangs,
    ),
    Rule(
        "no output where a file cannot be opened",
        "paste",
        "CONSEQUENCES OF ERRORS",
        "If one or more input files cannot be opened when the -s option is not specified, a diagnostic "
        "message shall be written to standard error, but no output is written to standard output.",
        writes_without_file,
    ),
    Rule(
        "files after one that cannot be opened",
        "paste",
        "CONSEQUENCES OF ERRORS",
        "If the -s option is specified, the paste utility shall provide the default behavior described in "
        "Section 1.4, Utility Description Defaults.",
        stops_at_lacking_file,
    ),
    Rule(
        "a file that cannot be opened",
        "cut paste uniq comm join",
        "EXIT STATUS",
        "0: All input files were output successfully. >0: An error occurred.",
        has_status_0_without_file,
    ),
    Rule(
        "a list between blanks",
        "cut",
        "OPTIONS",
        "The application shall ensure that the option-argument list [..] is a <comma>-separated list or "
        "<blank>-separated list of positive numbers and ranges.",
        is_refused_with("bcf", "[ \t]"),
    ),
    Rule(
        "a line without a delimiter is changed",
        "cut",
        "OPTIONS, -f",
        "Lines with no field delimiters shall be passed through intact, unless -s is specified.",
        changes_whole_line,
    ),
    Rule(
        "a line without a delimiter is kept",
        "cut",
        "OPTIONS, -s",
        "Suppress lines with no delimiter characters, when used with the -f option.",
        keeps_lines,
    ),
    Rule(
        HIGH_BYTES,
        "cut paste uniq comm join tr",
        "XBD 6.2, here in the words of the page of uniq",
        "In the POSIX locale each byte is a valid single-byte character",
        has_high_byte,
    ),
    Rule(
        "another number of delimiters",
        "cut",
        "OPTIONS, -f",
        "Output fields shall be separated by a single occurrence of the field delimiter character.",
        has_other_delimiters,
    ),
    Rule(
        "other bytes",
        "cut",
        "OPTIONS, -b",
        "Each selected byte shall be output unless the -n option is also specified.",
        is_other_selection("b"),
    ),
    Rule(
        "other characters",
        "cut",
        "OPTIONS, -c",
        "Each selected character shall be output.",
        is_other_selection("c"),
    ),
    Rule(
        "other fields",
        "cut",
        "OPTIONS, -f",
        "Each selected field shall be output.",
        is_other_selection("f"),
    ),
    Rule(
        "an empty file in series",
        "paste",
        "OPTIONS, -s",
        "If an input file is empty, the output line corresponding to that file shall consist of only a "
        "<newline> character.",
        omits_empty_file,
    ),
    Rule(
        "a row without its newline",
        "paste",
        "STDOUT",
        "Concatenated lines of input files shall be separated by the <tab> (or other characters under the "
        "control of the -d option) and terminated by a <newline>.",
        lacks_last_newline,
    ),
    Rule(
        "an input that has ended",
        "paste",
        "DESCRIPTION",
        "If an end-of-file condition is detected on one or more input files, but not all input files, paste "
        "shall behave as though empty lines were read from the files on which end-of-file was detected, "
        "unless the -s option is specified.",
        ends_early,
    ),
    Rule(
        "an element of the list",
        "paste",
        "OPTIONS, -d",
        "If a <backslash> character appears in list, it and the character following it shall be used to "
        "represent the following delimiter characters: \\n <newline>. \\t <tab>. \\\\ <backslash> character. "
        "\\0 Empty string (not a null character).",
        has_escape_as_element,
    ),
    Rule(
        "other delimiters",
        "paste",
        "OPTIONS, -d",
        "The elements in list shall be used circularly [..]. When the -s option is specified: [..] The delimiter "
        "shall be reset to the first element of list after each file operand is processed.",
        has_other_element,
    ),
    Rule(
        "a dash as the input",
        "uniq",
        "OPERANDS",
        "If the input_file operand is not specified, or if the input_file is '-', the standard input shall be used.",
        ignores_dash,
    ),
    Rule(
        "fields that are ignored",
        "uniq",
        "OPTIONS, -f",
        "A field is the maximal string matched by the basic regular expression [[:blank:]]*[^[:blank:]]*. If "
        "the fields option-argument specifies more fields than appear on an input line, a null string shall "
        "be used for comparison.",
        is_other_selection("f"),
    ),
    Rule(
        "characters that are ignored",
        "uniq",
        "OPTIONS, -s",
        "If the chars option-argument specifies more characters than remain on an input line, a null string "
        "shall be used for comparison.",
        is_other_selection("s"),
    ),
    Rule(
        "the output file",
        "uniq",
        "OPERANDS",
        "output_file: A pathname of the output file.",
        writes_to_other_output,
    ),
    Rule(
        "a count before each line",
        "uniq",
        "OPTIONS, -c",
        "Precede each output line with a count of the number of times the line occurred in the input.",
        is_other_selection("c"),
    ),
    Rule(
        "lines that are not repeated",
        "uniq",
        "OPTIONS, -d",
        "Suppress the writing of lines that are not repeated in the input.",
        is_other_selection("d"),
    ),
    Rule(
        "lines that are repeated",
        "uniq",
        "OPTIONS, -u",
        "Suppress the writing of lines that are repeated in the input.",
        is_other_selection("u"),
    ),
    Rule(
        "a repeated line",
        "uniq",
        "DESCRIPTION",
        "The second and succeeding copies of repeated adjacent input lines shall not be written.",
        repeats_a_line,
    ),
    Rule(
        "another order of lines",
        "comm",
        "STDOUT",
        "If the input files were ordered according to the collating sequence of the current locale, the "
        "lines written shall be in the collating sequence of the current locale.",
        has_other_order,
    ),
    Rule(
        "other columns",
        "comm",
        "DESCRIPTION",
        "produce three text columns as output: lines only in file1, lines only in file2, and lines in both files",
        has_other_output,
    ),
    Rule(
        "a string in place of empty fields",
        "join",
        "OPTIONS, -e",
        "Replace empty output fields in the list selected by -o with the string string.",
        is_refused("e"),
    ),
    Rule(
        "a list of fields",
        "join",
        "OPTIONS, -o",
        "The elements of list shall be either <comma>-separated or <blank>-separated",
        is_refused("o"),
    ),
    Rule(
        "lines that pair with none",
        "join",
        "OPTIONS, -v",
        "Instead of the default output, produce a line only for each unpairable line in file_number, where "
        "file_number is 1 or 2.",
        is_refused("v"),
    ),
    Rule(
        "empty fields are not replaced",
        "join",
        "OPTIONS, -e",
        "Replace empty output fields in the list selected by -o with the string string.",
        is_other_join("e"),
    ),
    Rule(
        "fields of the list",
        "join",
        "OPTIONS, -o",
        "Fields selected by list that do not appear in the input shall be treated as empty output fields. "
        "[..] Only specifically requested fields shall be written.",
        is_other_join("o"),
    ),
    Rule(
        "lines that pair with none",
        "join",
        "OPTIONS, -a",
        "Produce a line for each unpairable line in file file_number, where file_number is 1 or 2, in "
        "addition to the default output.",
        is_other_join("a", "v"),
    ),
    Rule(
        "fields around the join field",
        "join",
        "STDOUT",
        "If the join field is not the first field in a file, the <other file fields> for that file shall be: "
        "<fields preceding join field>, <fields following join field>",
        is_other_join("1", "2"),
    ),
    Rule(
        "separators are significant",
        "join",
        "OPTIONS, -t",
        "Every appearance of char in a line shall be significant.",
        is_other_join("t"),
    ),
    Rule(
        "lines that pair",
        "join",
        "DESCRIPTION",
        "The join utility shall write one line in the output for each pair of lines in file1 and file2 that "
        "have join fields that collate equally.",
        has_other_output,
    ),
    Rule(
        "repeated characters",
        "tr",
        "EXTENDED DESCRIPTION",
        "When the -s option is specified, after any deletions or translations have taken place, repeated "
        "sequences of the same character shall be replaced by one occurrence of the same character, if the "
        "character is found in the array specified by the last operand.",
        squeezes_after_deleting,
    ),
    Rule(
        "a change of case",
        "tr",
        "EXTENDED DESCRIPTION",
        "When [:lower:] appears in string1 and [:upper:] appears in string2, the arrays shall contain the "
        "characters from the toupper mapping in the LC_CTYPE category of the current locale.",
        is_case_conversion,
    ),
    Rule(
        "a class of characters",
        "tr",
        "EXTENDED DESCRIPTION, [:class:]",
        "Represents all characters belonging to the defined character class, as defined by the current "
        "setting of the LC_CTYPE locale category.",
        has_part("class"),
    ),
    Rule(
        "an equivalence class",
        "tr",
        "EXTENDED DESCRIPTION, [=equiv=]",
        "Represents all characters or collating elements belonging to the same equivalence class as equiv",
        has_part("equivalence"),
    ),
    Rule(
        "a repeated character",
        "tr",
        "EXTENDED DESCRIPTION, [x*n]",
        "Represents n repeated occurrences of the character x. [..] If n is omitted or is zero, it shall be "
        "interpreted as large enough to extend the string2-based sequence to the length of the string1-based "
        "sequence.",
        has_part("repeat", "fill"),
    ),
    Rule(
        "an octal sequence",
        "tr",
        "EXTENDED DESCRIPTION, \\octal",
        "The sequence shall cause the value whose encoding is represented by the one, two, or three-digit "
        "octal integer to be placed into the array.",
        has_octal,
    ),
    Rule(
        "an escape sequence",
        "tr",
        "EXTENDED DESCRIPTION, \\character",
        "The <backslash>-escape sequences in [..] Table 5-1 [..] shall be supported.",
        has_escape,
    ),
    Rule(
        "a range",
        "tr",
        "EXTENDED DESCRIPTION, c-c",
        "this construct shall represent the range of collating elements between the range endpoints [..], inclusive",
        has_part("range"),
    ),
    Rule(
        "repeated characters",
        "tr",
        "EXTENDED DESCRIPTION",
        "When the -s option is specified, after any deletions or translations have taken place, repeated "
        "sequences of the same character shall be replaced by one occurrence of the same character, if the "
        "character is found in the array specified by the last operand.",
        lambda case, wanted, got: case.has("s"),
    ),
    Rule(
        "characters that are deleted",
        "tr",
        "EXTENDED DESCRIPTION",
        "Input characters found in the array specified by string1 shall be deleted.",
        lambda case, wanted, got: case.has("d"),
    ),
    Rule(
        "a complement",
        "tr",
        "EXTENDED DESCRIPTION",
        "If the -c option is specified, the complement of the values specified by string1 shall be placed in "
        "the array in ascending order by binary value.",
        lambda case, wanted, got: case.has("c") or case.has("C"),
    ),
    Rule(
        "byte 0",
        "tr",
        "STDIN",
        "The standard input can be any type of file.",
        has_byte_0,
    ),
    Rule(
        "characters that are replaced",
        "tr",
        "EXTENDED DESCRIPTION",
        "each input character found in the array specified by string1 shall be replaced by the character in "
        "the same relative position in the array specified by string2",
        has_other_output,
    ),
]
