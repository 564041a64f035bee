"""A case: the words of one command line and its inputs."""
import random
from typing import NamedTuple


class Case(NamedTuple):
    """Options as pairs of a letter and a value (or None), operands, options after the operands, and inputs by name (`-`
    is standard input). `spelling` decides how options are written as words: 0 gives each a word of its own, and any
    other number is the seed of a random choice. `piece` is the number of bytes of one read of standard input."""

    tool: str
    options: list
    operands: list
    late: list
    inputs: dict
    spelling: int
    piece: int

    def has(self, letter):
        """Whether the option is among those before the operands."""
        return any(other == letter for other, _ in self.options)

    def list_values(self, letter):
        """The values of an option, in their order."""
        return [value for other, value in self.options if other == letter]

    @property
    def end(self):
        """The line terminator."""
        return b"\0" if self.has("z") else b"\n"

    @property
    def files(self):
        """The operands that name inputs, and `-` if standard input is read without an operand."""
        if self.tool == "tr":
            return ["-"]
        named = self.operands + list_late_words(self)
        if self.tool == "uniq":
            named = named[:1]
        return named or ["-"]

    def read_lines(self, name):
        """The lines of an input, without their terminators."""
        return split_lines(self.inputs.get(name, b""), self.end)

    def change_lines(self, change):
        """The case with other lines: change(index, lines) returns those of the operand with that index."""
        inputs = dict(self.inputs)
        for index, name in enumerate(self.operands):
            if name in inputs:
                inputs[name] = b"".join(line + self.end for line in change(index, self.read_lines(name)))
        return self._replace(inputs=inputs)

    @property
    def words(self):
        """The tool and its words, as they are given to a program."""
        return spell_words(self)


def split_lines(text, end):
    """The lines of a text. The last line may lack its terminator."""
    parts = text.split(end)
    return parts[:-1] if not parts[-1] else parts


def list_late_words(case):
    """The words of the options after the operands. By POSIX they are operands."""
    return [word for letter, value in case.late for word in ["-" + letter] + ([] if value is None else [value])]


def spell_words(case):
    """The options and operands as words, in the spelling of the case."""
    rng = random.Random(case.spelling) if case.spelling else None

    def sometimes(share):
        return rng is not None and rng.random() < share

    words = [case.tool]
    open_group = False
    for letter, value in case.options:
        if open_group and sometimes(0.5):
            words[-1] += letter
        else:
            words.append("-" + letter)
        open_group = value is None
        if value and sometimes(0.5):
            words[-1] += value
        elif value is not None:
            words.append(value)
    first = case.operands[0] if case.operands else ""
    if case.operands and (first.startswith("-") and len(first) > 1 or sometimes(0.05)):
        words.append("--")
    return words + case.operands + list_late_words(case)
