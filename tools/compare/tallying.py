"""Runs the cases in processes, some for each implementation, and counts the verdicts. It shows how far it is, and keeps
what it has counted if it is stopped."""
import collections
import math
import multiprocessing
import os
import signal
import tempfile
import time
from multiprocessing import connection

from judging import EXAMPLES, Judge, keep_smaller
from model import compute_answer
from report import KINDS, find_rule, format_command, format_example, format_row

SECONDS_BETWEEN_LINES = 10
MOST_SHOWN = 300
# (A process that is forked has the cases and the implementations, which are not sent to it.)
FORK = multiprocessing.get_context("fork")


class Stopped(BaseException):
    """The comparison is stopped."""


def stop(*_):
    """Stops this process, once."""
    signal.signal(signal.SIGTERM, signal.SIG_IGN)
    raise Stopped


def shorten(text):
    return repr(text) if len(text) <= MOST_SHOWN else f"{text[:MOST_SHOWN]!r}.. ({len(text)} bytes)"


class Tally:
    """The verdicts on one implementation, and the cases in which the program differs from the definitions."""

    def __init__(self, side, room, examples=EXAMPLES):
        self.judge, self.side = Judge(side, tempfile.mkdtemp(dir=room), examples), side
        self.counts, self.titles, self.unjudged = collections.Counter(), collections.Counter(), []
        self.failed = self.tried = 0

    def add(self, case):
        """Judges a case. Returns a report of one that nothing judges, or None."""
        verdict = self.judge.judge(case)
        if verdict:
            self.counts[verdict.kind] += 1
            self.titles[verdict.kind, case.tool, verdict.title] += verdict.kind != "equal"
            if verdict.kind == "unjudged":
                self.unjudged.append(verdict.case)
                return self.describe_unjudged(verdict.case)
        return None

    def describe_unjudged(self, case):
        wanted, got = self.judge.find_answers(case)
        return (
            f"unjudged: {self.side.name}: {format_command(case, [case.tool])}\n"
            f"wanted {wanted.status} {shorten(wanted.out)}, found {got.status} {shorten(got.out)} {got.messages!r}"
        )

    def collect_results(self):
        """The part of a tally that can be sent to another process."""
        return self.counts, self.titles, self.unjudged, self.judge.found, self.failed, self.tried

    def merge(self, counts, titles, unjudged, found, failed, tried):
        """Adds the results of another process."""
        self.counts.update(counts)
        self.titles.update(titles)
        self.unjudged += unjudged
        self.failed, self.tried = self.failed + failed, self.tried + tried
        for mark, (count, case) in found.items():
            keep_smaller(self.judge.found, mark, count, case)

    def format_row(self):
        return format_row(self.side.name, self.side.find_version(), self.counts)

    def list_details(self):
        """The count of each difference, and the example of each wrong one."""
        for mark in sorted(self.titles, key=lambda mark: (KINDS.index(mark[0]), mark)):
            if self.titles[mark]:
                yield f"{self.titles[mark]:6} {': '.join(mark)}"
        for (tool, title), (_, case) in sorted(self.judge.found.items()):
            rule = find_rule(title, tool)
            yield f"\n{self.side.name}: {tool}: {title} ({rule.section}: \"{rule.sentence}\")"
            yield format_example(case, self.side, *self.judge.find_answers(case))
        for case in self.unjudged:
            yield self.describe_unjudged(case)

    def list_wrong_cases(self):
        """The wrong cases, with the titles of their rules."""
        return [(case, title) for (_, title), (_, case) in self.judge.found.items()]


def tally_program(tally, number, case, differs):
    """Compares the program itself with the definitions. Returns a report, or None."""
    found = differs(case, tally.judge.room)
    if found:
        tally.failed += 1
        tally.add(case)
        return f"case {number}: {found}"
    if compute_answer(case).status != 2:
        tally.counts["equal"] += 1
    return None


def run_share(tally, cases, differs, to):
    """The work of one process: all its cases. It sends each report, and at the end its results."""
    # (By Ctrl-C at a terminal, each process is told; the first one then ends the others.)
    signal.signal(signal.SIGINT, signal.SIG_IGN)
    signal.signal(signal.SIGTERM, stop)
    try:
        for number, case in cases:
            report = tally_program(tally, number, case, differs) if differs else tally.add(case)
            tally.tried += 1
            to.send((report, tally.tried))
    except Stopped:
        pass
    to.send(tally.collect_results())
    to.close()


class Work:
    """All processes. Each side has as many as there are processors, since one may take far longer than another. Each
    process has a share of the cases, and of the examples that are made smaller."""

    def __init__(self, sides, make_cases, differs, room):
        self.tallies = [Tally(side, room) for side in sides]
        shares = len(os.sched_getaffinity(0))
        self.ends, self.began, self.shown = {}, time.monotonic(), time.monotonic()
        for index, side in enumerate(sides):
            for share in range(shares):
                here, there = FORK.Pipe(False)
                tally = Tally(side, room, math.ceil(EXAMPLES / shares))
                given = (tally, make_cases(share, shares), None if index else differs, there)
                child = FORK.Process(target=run_share, args=given)
                child.start()
                there.close()
                self.ends[here] = [index, child, 0]

    def run(self, total):
        """Follows the processes to their end. Returns whether they were stopped before."""
        is_stopped = False
        left = set(self.ends)
        while left:
            try:
                for end in connection.wait(left, SECONDS_BETWEEN_LINES):
                    if not self.take(end):
                        left.remove(end)
                if time.monotonic() - self.shown >= SECONDS_BETWEEN_LINES and not is_stopped:
                    self.show(total)
            except (KeyboardInterrupt, Stopped):
                is_stopped = True
                for _, child, _ in self.ends.values():
                    child.terminate()
        return is_stopped

    def take(self, end):
        """Takes what a process sent. Returns whether more will come."""
        index, child, _ = self.ends[end]
        try:
            said = end.recv()
        except EOFError:
            child.join()
            if child.exitcode:
                raise RuntimeError(f"the comparison with {self.tallies[index].side.name} failed") from None
            return False
        if len(said) == 2:
            report, self.ends[end][2] = said
            if report:
                print(report, flush=True)
        else:
            self.tallies[index].merge(*said)
        return True

    def show(self, total):
        """Shows how many cases each side has tried."""
        self.shown = time.monotonic()
        tried = collections.Counter()
        for index, _, count in self.ends.values():
            tried[self.tallies[index].side.name] += count
        parts = ", ".join(f"{name} {count}" for name, count in tried.items())
        print(f"{self.shown - self.began:5.0f} s  cases of {total}: {parts}", flush=True)
