"""The lemmas that evaluate the definitions, and how the built program and the system's tools differ from the model."""
import collections
import re
import shlex
import shutil
import tempfile

from bounds import count_stretches, find_bounds
from cases import Case
from commands import make_commands
from crate import write_file
from examples import PARTLY_READ, ROWS, STANDARD, STRETCHES
from judging import is_same
from model import compute_answer
from partial import make_partly_read
from points import find_open_points
from reading import Refused, read_command, read_words
from promise_texts import LIBRARY
from running import SIDES, run, run_side
from steps import add_steps, find_library, make_head, make_jobs
from terms import HARNESS, HEAD, format_decided_lemma, format_outcome_lemma, format_stretches_lemma

LEMMAS_PER_FILE = 100


class Lemmas:
    """Lemmas by their names, each with what it is about."""

    def __init__(self):
        self.texts, self.subjects, self.steps = [], {}, []

    def add(self, kind, subject, write_lemma, *given):
        name = f"{kind}_{len(self.texts)}"
        self.texts.append(write_lemma(name, *given))
        self.subjects[name] = subject

    def add_step(self, subject, write_lemma, *given):
        name = f"step_{len(self.steps)}"
        self.steps.append(write_lemma(name, *given))
        self.subjects[name] = subject

    def write(self, crate):
        """Writes the files of the lemmas into the crate, in place of those that are there."""
        shutil.rmtree(f"{crate}/proofs", ignore_errors=True)
        starts = range(0, len(self.texts), LEMMAS_PER_FILE)
        for start in starts:
            texts = self.texts[start : start + LEMMAS_PER_FILE]
            write_file(f"{crate}/proofs/Lemmas{start // LEMMAS_PER_FILE}.antt", HEAD + "".join(texts))
        write_file(f"{crate}/proofs/Harness.antt", HARNESS)
        write_file(f"{crate}/proofs/Steps.antt", make_head(find_library()) + make_jobs() + "".join(self.steps))
        files = "".join(f"pub mod Lemmas{start // LEMMAS_PER_FILE}\n" for start in starts)
        write_file(f"{crate}/proofs/Lib.antt", "pub mod Harness\npub mod Steps\n" + files)


def remove_mark(case, out):
    """The output without the mark of an output file of uniq."""
    return out.removeprefix(b"output file:" + case.end) if case.tool == "uniq" else out


def format_command(words, inputs):
    return f"{shlex.join(words)}   {inputs}"


def find_used_inputs(case):
    return {name: case.inputs[name] for name in sorted(set(case.files) & set(case.inputs))}


class Others:
    """The program, if it was given, and the system's tools: how their answers to a case differ from the model's."""

    def __init__(self, program, room):
        self.program, self.room, self.counts = program, room, collections.Counter()

    def find_differences(self, case):
        wanted, subject = compute_answer(case), format_command(case.words, find_used_inputs(case))
        if self.program:
            self.counts["the program"] += 1
            got = run([self.program, *case.words], case, self.room)
            if got != wanted:
                yield f"the program differs from the model: {subject}: {got}, {wanted}"
        system = SIDES["system"]
        if wanted.status != 2 and system.has(case) and not find_open_points(case):
            self.counts["the system's tools"] += 1
            with tempfile.TemporaryDirectory(dir=self.room) as folder:
                got = run_side(system, case, folder)
            if not is_same(case, wanted, got):
                yield f"the system's tool differs from the model: {subject}: {got}, {wanted}"


def add_commands(lemmas, cases, others):
    """Adds the lemmas of random commands, and returns how the other programs differ on them."""
    found = []
    for case in cases:
        answer, used = compute_answer(case), find_used_inputs(case)
        subject = format_command(case.words, used)
        outcome = (remove_mark(case, answer.out), answer.messages, answer.status, *find_bounds(case))
        lemmas.add("command", subject, format_outcome_lemma, case.words, used, outcome)
        count = count_stretches(case.words)
        if count is not None:
            lemmas.add("stretches", subject, format_stretches_lemma, case.words, count)
        found += others.find_differences(case)
    return found


def make_case_of(example):
    """An example as a case of tools/compare, or None if its words are refused."""
    try:
        read_command(example.words)
    except Refused:
        return None
    options, operands = read_words(example.words[0], example.words[1:])
    return Case(example.words[0], options, operands, [], {"-": b"", **example.inputs}, 0, 4096)


def differs_from_model(example, case):
    """Whether an example is not what the definitions in Python give."""
    if case is None:
        try:
            read_command(example.words)
        except Refused as fault:
            return example[2:] != (b"", f"{fault}\n", 2)
    answer = compute_answer(case)
    return example[2:] != (remove_mark(case, answer.out), answer.messages, answer.status)


def add_examples(lemmas, others):
    """Adds the lemmas of the worked examples, and returns how the other programs differ on them."""
    found = []
    for example in ROWS + STANDARD:
        case = make_case_of(example)
        bounds = find_bounds(case) if case else (0, 0)
        outcome = (example.out, example.messages, example.status, *bounds)
        subject = format_command(example.words, example.inputs)
        lemmas.add("example", subject, format_outcome_lemma, example.words, example.inputs, outcome)
        if differs_from_model(example, case):
            found.append(f"the model gives something else: {subject}")
        found += others.find_differences(case) if case else []
    for text, parts, out in PARTLY_READ:
        words = shlex.split(text)
        lemmas.add("decided", format_command(words, parts), format_decided_lemma, words, parts.items(), out)
    for words, count in STRETCHES:
        lemmas.add("stretches", words, format_stretches_lemma, shlex.split(words), count)
    return found


def add_partly_read(lemmas, cases):
    for case, parts, out in cases:
        lemmas.add("decided", format_command(case.words, parts), format_decided_lemma, case.words, parts.items(), out)


def find_failed_lemmas(said):
    """The names of the lemmas that do not hold, in their order, by what the checker said."""
    return sorted(set(re.findall(r"error: `(\w+_\d+)`", said)), key=lambda name: int(name.split("_")[1]))


def describe_failures(lemmas, said):
    """The lemmas that do not hold, each with what was computed."""
    for name in find_failed_lemmas(said):
        found = re.search(rf"`{name}`.*?computed as far as they go, (.*?)\n  expected type", said, re.S)
        yield f"the definitions give something else: {lemmas.subjects[name]}\n    {found[1] if found else ''}"


def make_lemmas(seed, count, partial, others):
    """The lemmas of all examples and of random commands, and how the other programs differ on these."""
    lemmas = Lemmas()
    add_steps(lemmas, [example for _, _, example in LIBRARY if isinstance(example, tuple)])
    differences = add_examples(lemmas, others)
    differences += add_commands(lemmas, make_commands(seed, count), others)
    add_partly_read(lemmas, make_partly_read(seed, partial))
    return lemmas, differences
