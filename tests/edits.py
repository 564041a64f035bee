#!/usr/bin/env python3
"""Checks the wrong bodies in crates/*/must-fail and crates/*/must-fail-release before they are tried: each applies, and
changes code, never a definition, a proof, an attribute, or a clause of a contract. One that changes a clause shows
nothing if it is refused. None is lacking: COUNTS has their numbers.

  python3 tests/edits.py               says which do not, and which public functions of the libraries have none
  python3 tests/edits.py --list        prints each public function and the wrong bodies that belong to it, in brackets
                                       those of must-fail-release, and where one is missing

A wrong body belongs to the function that its first `old:` text is in, or to those that for.md beside it names for it.
"""
import collections
import glob
import os
import re
import sys

sys.dont_write_bytecode = True
sys.path.insert(0, os.path.join(os.path.dirname(os.path.dirname(os.path.realpath(__file__))), "tools"))

from project import TOP, Failed, find_below, read_text, read_uses, run_script

# The public functions to which no wrong body belongs, each with the reason.
WITHOUT_EDIT = {
    "ptfiles::Calls::new": "only contracts read the record that it returns",
    "ptfiles::Calls::with": "only contracts read the record that it returns",
    "ptfiles::GhostBytes::new": "only contracts read the bytes that it returns",
    "ptfiles::GhostBytes::with": "only contracts read the bytes that it returns",
}

# How many wrong bodies there are in must-fail, which the gate tries, and in must-fail-release.
COUNTS = (150, 99)

# Where a clause or another ghost item begins.
GHOST = re.compile(r"\b(?:(requires|ensures)\b[^{;]*|ghost\b[^{;]*)([{;])")
# Comments, and the literals in which `//`, a brace or a quote is no such thing.
NO_CODE = re.compile(r"//[^\n]*|\"(?:\\.|[^\"\\])*\"|b?'(?:\\.[^']*|[^'\\])'", re.S)
IMPL = re.compile(r"(?:unsafe )?impl(?:<.*?>)? (?:(?P<of>[\w:]+(?:<.*?>)?) for )?(?P<type>\w+)")
FUNCTION = re.compile(r"(?P<indent> {4})?(?P<pub>pub )?(?:pub\(\w+\) )?(?:unsafe )?fn (?P<name>\w+)")


class Edit:
    """A wrong body: the file that it changes, and the texts that it replaces."""

    def __init__(self, path):
        said = read_text(path)
        self.path, self.label = path, os.path.basename(path).removesuffix(".edit")
        self.crate = os.path.dirname(os.path.dirname(path))
        self.is_of_release = os.path.basename(os.path.dirname(path)) == "must-fail-release"
        self.file = (re.findall(r"^file: (.*)$", said, re.M) or [""])[0].strip()
        self.changes = list(zip(*(re.findall(rf"^{key}: (.*)$", said, re.M) for key in ("old", "new"))))

    def apply(self, text):
        for old, new in self.changes:
            text = text.replace(old, new)
        return text


def find_edits():
    edits = [Edit(path) for path in glob.glob(f"{TOP}/crates/*/must-fail*/*.edit")]
    return sorted(edits, key=lambda edit: (edit.crate, edit.is_of_release, edit.path))


def find_code(text):
    """The text of a file without comments, attributes and blanks."""
    return "".join(re.sub(r"//[^\n]*|#!?\[[^\n]*\]", "", text).split())


def find_end(text, begin):
    """The index after the brace that closes the one at `begin`."""
    depth = 0
    for index in range(begin, len(text)):
        depth += {"{": 1, "}": -1}.get(text[index], 0)
        if not depth:
            return index + 1
    return len(text)


def find_ghosts(text):
    """The ghost text of a file: the clauses of each function, and each other ghost item. Blanks do not count."""
    text = NO_CODE.sub("''", text)
    groups, end = [], -1
    found = GHOST.search(text)
    while found:
        after = find_end(text, found.start(2)) if found[2] == "{" else found.end()
        part = " ".join(text[found.start() : after].split())
        # (The clauses of one function have nothing between them.)
        if found[1] and groups and not text[end : found.start()].strip() and groups[-1][0].startswith(("req", "ens")):
            groups[-1] += (part,)
        else:
            groups.append((part,))
        end = after
        found = GHOST.search(text, after)
    return collections.Counter(groups)


def check_edit(edit):
    """Raises Failed if a wrong body shows nothing."""
    path = f"{edit.crate}/{edit.file}"
    if not re.fullmatch(r"src/[\w/]+\.rt", edit.file) or not os.path.isfile(path):
        raise Failed(f"it changes no file of src/: {edit.file}")
    if not edit.changes:
        raise Failed("it has no text `old:`, or none `new:`")
    text = read_text(path)
    if any(text.count(old) != 1 for old, _ in edit.changes):
        raise Failed(f"its text is not once in {edit.file}")
    if find_code(text) == find_code(edit.apply(text)):
        raise Failed(f"it changes nothing in {edit.file}")
    before, after = find_ghosts(text), find_ghosts(edit.apply(text))
    # (A body beside the right one, which then is that of a function `other`, has a copy of all its clauses.)
    if before - after or (after - before).keys() - before.keys():
        raise Failed(f"it changes a clause or other ghost text of {edit.file}")


# ---- which wrong body belongs to which function


def find_functions(crate):
    """The functions of a crate: file, offset, name, whether it is public, whether it has a body."""
    name_of_crate, lib = os.path.basename(crate), read_text(f"{crate}/src/lib.rt")
    given = set(re.findall(r"\w+", " ".join(re.findall(r"^pub use (.*?);", lib, re.M | re.S))))
    for path in sorted(glob.glob(f"{crate}/src/**/*.rt", recursive=True)):
        text, inside = read_text(path), os.path.relpath(path, crate)
        module = inside[len("src/") : -len(".rt")].replace("/", "::")
        is_open = module == "lib" or f"pub mod {module};" in lib
        shown = set(re.findall(r"^pub (?:struct|enum|union) (\w+)", text, re.M))
        owner, offset, inner = None, 0, ""
        for line in text.split("\n"):
            head, function = IMPL.match(line), FUNCTION.match(line)
            if head and not line.startswith(" "):
                owner, inner = head["type"], head["of"] or ""
            elif line.startswith(("}", "pub trait", "pub(crate) trait", "trait")):
                owner, inner = ("(trait)" if "trait" in line else None), ""
            if function and bool(function["indent"]) == bool(owner):
                is_given = is_open or (owner or function["name"]) in given
                is_public = is_given and bool(function["pub"] or inner) and (not owner or owner in shown)
                of = [name_of_crate, *([module] if is_open and module != "lib" else []), *([owner] if owner else [])]
                name = "::".join(of) + (f": {inner}::{function['name']}" if inner else f"::{function['name']}")
                body = re.compile(r"^( {4})?\{\}$|\{\}$|^( {4})?\{$|\{$", re.M).search(text, offset)
                yield inside, offset, name, is_public, not (body and body[0].endswith("{}"))
            offset += len(line) + 1


def find_owners(edit, functions, named):
    """The functions to which a wrong body belongs."""
    if edit.label in named:
        return named[edit.label]
    old = edit.changes[0][0]
    index = read_text(f"{edit.crate}/{edit.file}").find(old) + len(old)
    return [name for file, offset, name, _, _ in functions if file == edit.file and offset <= index][-1:]


def find_bodies(crate, edits):
    """The public functions of a crate, each with the wrong bodies that belong to it; those that have no body; and the
    wrong bodies that belong to no public function."""
    functions = list(find_functions(crate))
    rows = [re.findall(r"^- (\w+): (.*)$", read_text(path), re.M) for path in glob.glob(f"{crate}/must-fail*/for.md")]
    named = {label: names.split(", ") for label, names in sum(rows, [])}
    bodies = {name: [] for _, _, name, is_public, _ in functions if is_public}
    stray = []
    for edit in edits:
        for name in find_owners(edit, functions, named):
            shown = f"[{edit.label}]" if edit.is_of_release else edit.label
            bodies.get(name, stray).append(shown if name in bodies else f"{edit.label} (in {name})")
    return bodies, {name for _, _, name, _, has_body in functions if not has_body}, stray


def list_crate(crate, edits):
    bodies, laws, stray = find_bodies(crate, edits)
    of_release = sum(edit.is_of_release for edit in edits)
    counts = f"{len(edits) - of_release} wrong bodies, {of_release} more for a release"
    print(f"== {os.path.basename(crate)}: {len(bodies)} public functions, {counts}")
    for name, labels in bodies.items():
        none = "a law, without a body" if name in laws else WITHOUT_EDIT.get(name, "MISSING")
        print(f"{name:55} {', '.join(labels) or none}")
    for name in stray:
        print(f"of no public function: {name}")


def find_missing(by_crate):
    """The public functions that have no wrong body and no reason, and the reasons that are of no such function."""
    found, reasons = [], dict(WITHOUT_EDIT)
    for crate, edits in by_crate.items():
        bodies, laws, _ = find_bodies(crate, edits)
        for name in [name for name in bodies if not bodies[name] and name not in laws]:
            if not reasons.pop(name, None):
                found.append(f"{name}: no wrong body belongs to it, and WITHOUT_EDIT has no reason")
    return found + [f"{name}: WITHOUT_EDIT has a reason, but it has a wrong body, or is not there" for name in reasons]


def main():
    edits = find_edits()
    libraries = sorted(f"{TOP}/crates/{crate}" for crate in find_below("ptext", read_uses()))
    by_crate = {crate: [edit for edit in edits if edit.crate == crate] for crate in libraries}
    if sys.argv[1:] == ["--list"]:
        for crate in libraries:
            list_crate(crate, by_crate[crate])
        return 0
    if sys.argv[1:]:
        return __doc__
    lost = []
    for edit in edits:
        try:
            check_edit(edit)
        except Failed as why:
            lost.append(f"{os.path.relpath(edit.path, TOP)}: {why}")
    lost += find_missing(by_crate)
    of_release = sum(edit.is_of_release for edit in edits)
    if COUNTS != (len(edits) - of_release, of_release):
        lost.append(f"there are {len(edits) - of_release} and {of_release}, and COUNTS in tests/edits.py has {COUNTS}")
    if lost:
        raise Failed("\n".join(lost))
    print(f"{len(edits)} wrong bodies: each applies, and changes code alone; each public function has one")
    return 0


if __name__ == "__main__":
    run_script(main)
