#!/usr/bin/env python3
"""Proves what changed since a commit: the crates whose text is another and those that use them, their tests, and the
wrong bodies of the changed ones. Uncommitted changes count. It works over what earlier checks kept.

  python3 tools/check.py [COMMIT]      COMMIT is origin/main where that is known, else HEAD~1
"""
import contextlib
import os
import re
import resource
import shutil
import signal
import subprocess
import sys

sys.dont_write_bytecode = True

from project import NO_RT, TOP, Failed, read_text, read_uses, run_script


def call_git(*words):
    """The output of git over this folder, or None if it fails."""
    # (Root may check a clone of somebody else.)
    did = subprocess.run(["git", "-c", f"safe.directory={TOP}", *words], cwd=TOP, capture_output=True, text=True)
    return None if did.returncode else did.stdout


def choose_commit(words):
    if words:
        return words[0]
    return "HEAD~1" if call_git("rev-parse", "-q", "--verify", "origin/main") is None else "origin/main"


def find_changed(since, uses):
    """The crates whose code, definitions or proofs changed, and those whose wrong bodies did."""
    files = call_git("diff", "--name-only", since).split("\n")
    files += call_git("ls-files", "-o", "--exclude-standard").split("\n")
    parts = [file.split("/") for file in files if file.startswith("crates/")]
    text = {part[1] for part in parts if part[2] in ("src", "specs", "proofs")}
    edits = {part[1] for part in parts if part[2] == "must-fail" and os.path.isfile(f"{TOP}/{'/'.join(part)}")}
    before = read_uses(call_git("show", f"{since}:crates.txt") or "")
    return text | {name for name in uses if uses[name] != before.get(name)}, edits


def has_tests(crate):
    for folder, _, files in os.walk(f"{TOP}/crates/{crate}/src"):
        if any(re.search(r"^\s*#\[test\]", read_text(f"{folder}/{file}"), re.M) for file in files):
            return True
    return False


def end_group(child):
    """Ends a command and all that it started."""
    with contextlib.suppress(ProcessLookupError):
        os.killpg(child.pid, signal.SIGTERM)
    try:
        child.wait(10)
    except subprocess.TimeoutExpired:
        os.killpg(child.pid, signal.SIGKILL)
        child.wait()


def run_part(name, words, folder):
    """Runs a command, shows its output where it fails, and says what it took of the processor. Returns whether all went
    well."""
    before = resource.getrusage(resource.RUSAGE_CHILDREN)
    streams = {"stdin": subprocess.DEVNULL, "stdout": subprocess.PIPE, "stderr": subprocess.STDOUT}
    child = subprocess.Popen(words, cwd=folder, text=True, errors="replace", start_new_session=True, **streams)
    try:
        said, _ = child.communicate()
    except BaseException:
        end_group(child)
        raise
    after = resource.getrusage(resource.RUSAGE_CHILDREN)
    took = after.ru_utime + after.ru_stime - before.ru_utime - before.ru_stime
    status = child.returncode
    if status:
        print(said, end="")
    # (A command that is killed says nothing itself. rt then ends with 256 less the signal.)
    number = -status if status < 0 else 256 - status if status > 192 else 0
    end = f"FAILED, ended by signal {number}" if number else "FAILED" if status else "ok"
    print(f"{took:8.1f} s  {name}: {end}", flush=True)
    return not status


def list_parts(uses, text, edits):
    """The parts of a check: a name, a command and its folder for each."""
    above, parts = set(), []
    for crate in uses:
        if crate in text or any(name in above for name in uses[crate]):
            above.add(crate)
    for crate in [name for name in uses if name in above]:
        folder = f"{TOP}/crates/{crate}"
        parts.append((f"{crate}, the proof", ["rt", "check"], folder))
        if has_tests(crate):
            parts.append((f"{crate}, the tests", ["rt", "test"], folder))
    for crate in [name for name in uses if name in text | edits and os.path.isdir(f"{TOP}/crates/{name}/must-fail")]:
        parts.append((f"{crate}, the wrong bodies", ["rt", "must-fail", crate], TOP))
    return parts


def main():
    if not shutil.which("rt"):
        raise Failed(NO_RT)
    if not shutil.which("git"):
        raise Failed("there is no git in PATH, which knows what changed: run make test, which proves all")
    # (Without a .git, git would look at a repository around this folder.)
    if not os.path.exists(f"{TOP}/.git"):
        raise Failed("this folder is no clone, so git does not know what changed: run make test, which proves all")
    since = choose_commit(sys.argv[1:])
    if call_git("rev-parse", "-q", "--verify", f"{since}^{{commit}}") is None:
        raise Failed(f"git knows no commit {since} here: name one that it knows, make check SINCE=COMMIT")
    uses = read_uses()
    text, edits = find_changed(since, uses)
    parts = list_parts(uses, text, edits)
    print(f"since {since}: changed {' '.join(name for name in uses if name in text) or 'nothing'}")
    if parts:
        names = "; ".join(name for name, _, _ in parts)
        print(f"{len(parts)} parts, each of which may take minutes: {names}", flush=True)
    return 0 if all(run_part(*part) for part in parts) else 1


run_script(main)
