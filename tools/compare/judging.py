"""Judges each difference of an implementation from the definitions."""
import re
from typing import NamedTuple

from model import compute_answer
from points import close_points, find_open_points
from rules import HIGH_BYTES, RULES
from running import run_side
from shrinking import BUDGET, measure, shrink

BUDGET_OF_HANGING, EXAMPLES = 8, 3


class Verdict(NamedTuple):
    """The kind (`equal`, `choice`, `extension`, `undefined`, `wrong` or `unjudged`), the title of the point or the
    rule, and the case that shows it."""

    kind: str
    title: str
    case: object = None


def strip_leading_blanks(case, out):
    """The output of uniq -c with one space after each count, and none before it."""
    if case.tool != "uniq" or not case.has("c"):
        return out
    lines = out.split(case.end)
    return case.end.join(re.sub(rb"\A[ \t]*(\d+)[ \t]", rb"\1 ", line) for line in lines)


def is_same(case, wanted, got):
    """Whether two answers are the same but for the messages, and the blanks around the counts of uniq."""
    outs = [strip_leading_blanks(case, answer.out) for answer in (wanted, got)]
    return outs[0] == outs[1] and (wanted.status == 0) == (got.status == 0)


def replace_high_bytes(case):
    """The case with an x for each character above 127, in its words and its inputs."""
    inputs = {name: re.sub(rb"[\x80-\xff]", b"x", text) for name, text in case.inputs.items()}
    options = [(letter, value and re.sub(r"[^\0-\x7f]", "x", value)) for letter, value in case.options]
    operands = [re.sub(r"[^\0-\x7f]", "x", operand) for operand in case.operands]
    return case._replace(options=options, operands=operands, inputs=inputs)


def find_broken_rule(case, wanted, got):
    """The rule of POSIX that an answer to a decided case breaks, or None.

    If a case depends on the spelling of its options, the result is None, since no rule is about spelling."""
    if case.spelling:
        return None
    return next((rule for rule in RULES if case.tool in rule.tools.split() and rule.is_broken(case, wanted, got)), None)


def keep_smaller(found, mark, count, case):
    """Adds to the count of this mark, and keeps the smaller example."""
    before, smallest = found.get(mark, (0, None))
    if smallest is None or measure(case) < measure(smallest):
        smallest = case
    found[mark] = (before + count, smallest)


class Judge:
    """Judges the answers of one implementation. It keeps the smallest example for each rule, and makes the cases of so
    many examples smaller."""

    def __init__(self, side, room, examples=EXAMPLES):
        self.side, self.room, self.examples = side, room, examples
        self.found = {}

    def find_answers(self, case):
        return compute_answer(case), run_side(self.side, case, self.room)

    def differs(self, case):
        """Whether the implementation differs on a case that the definitions accept."""
        if compute_answer(case).status == 2 or not self.side.has(case):
            return False
        wanted, got = self.find_answers(case)
        return not is_same(case, wanted, got)

    def keep(self, title, case):
        """Keeps an example of a wrong answer, if it is the smallest."""
        keep_smaller(self.found, (case.tool, title), 1, case)

    def wants_example(self, case, title):
        """Whether more cases of the rule are made smaller."""
        return self.found.get((case.tool, title), (0, None))[0] < self.examples

    def judge(self, case):
        """The verdict on one case, or None if the implementation does not run it."""
        if compute_answer(case).status == 2 or not self.side.has(case):
            return None
        wanted, got = self.find_answers(case)
        if is_same(case, wanted, got):
            return Verdict("equal", "") if wanted.out == got.out else Verdict("choice", "blanks before a count")
        points = find_open_points(case)
        if not points:
            return self.judge_decided(case, wanted, got)
        other = close_points(case)
        if other and self.differs(other):
            return self.judge_decided(other, *self.find_answers(other))
        return Verdict(points[0].kind, points[0].title, case)

    def judge_decided(self, case, wanted, got):
        """The verdict on a case that POSIX decides. The first cases of a rule are made smaller, for its example."""
        spelled_out = case._replace(spelling=0, piece=4096)
        if case != spelled_out and self.differs(spelled_out):
            return self.judge_decided(spelled_out, *self.find_answers(spelled_out))
        rule = find_broken_rule(case, wanted, got)
        if rule and rule.title == HIGH_BYTES:
            plain = replace_high_bytes(case)
            if not find_open_points(plain) and self.differs(plain):
                return self.judge_decided(plain, *self.find_answers(plain))
        if rule and not self.wants_example(case, rule.title):
            return Verdict("wrong", rule.title, case)
        case = shrink(case, self.differs, find_open_points, BUDGET_OF_HANGING if got.status < 0 else BUDGET)
        rule = find_broken_rule(case, *self.find_answers(case))
        if not rule:
            return Verdict("unjudged", "", case)
        self.keep(rule.title, case)
        return Verdict("wrong", rule.title, case)
