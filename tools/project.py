"""The part that scripts share: the folder of the project, its crates and its version, how to run a command and fail."""
import os
import shutil
import signal
import subprocess
import sys

TOP = os.path.dirname(os.path.dirname(os.path.realpath(__file__)))
NO_RT = (
    "there is no rt in PATH: it is part of the toolchain, of which the README says what can be had without it "
    "(if it is unpacked: export PATH=/opt/rattle/bin:$PATH)"
)
# The archives that the toolchain links into a program beside its object file.
ARCHIVES = ["c/libos_c.a", "c/liblibc_c.a"]


class Failed(Exception):
    """A script cannot do its work. The user sees the message and nothing else."""


def say(text):
    print(text, flush=True)


def read_text(path):
    with open(path, encoding="utf-8") as file:
        return file.read()


def write_text(path, text):
    """Writes a file, and makes its folder if there is none."""
    os.makedirs(os.path.dirname(path), exist_ok=True)
    with open(path, "w", encoding="utf-8") as file:
        file.write(text)


def write_bytes(path, data):
    with open(path, "wb") as file:
        file.write(data)


def read_version():
    return read_text(f"{TOP}/VERSION").strip()


def read_uses(text=None):
    """The libraries that each crate uses, lowest first, by the lines of a crates.txt (that of the project)."""
    text = read_text(f"{TOP}/crates.txt") if text is None else text
    rows = [line.partition("#")[0].partition(":") for line in text.split("\n")]
    # (A static library has `staticlib` after its name.)
    left = {name.split()[0]: uses.split() for name, _, uses in rows if name.strip()}
    uses = {}
    while left:
        ready = next(name for name in left if not any(other in left for other in left[name]))
        uses[ready] = left.pop(ready)
    return uses


def find_below(crate, uses):
    """All crates of the project that a crate uses, directly or not."""
    found = {other for other in uses[crate] if other in uses}
    return found.union(*(find_below(other, uses) for other in found)) if found else found


def find_kit():
    """The folder of the toolchain."""
    rt = shutil.which("rt")
    if not rt:
        raise Failed(NO_RT)
    return os.path.dirname(os.path.dirname(os.path.realpath(rt)))


def run(words, folder):
    """Runs a command. If it fails, its output is the message."""
    streams = {"stdin": subprocess.DEVNULL, "stdout": subprocess.PIPE, "stderr": subprocess.STDOUT}
    did = subprocess.run(words, cwd=folder, text=True, errors="replace", check=False, **streams)
    if did.returncode:
        raise Failed(did.stdout or f"{words[0]} ended with {did.returncode}")


def put(source, path):
    """Copies a file to a path. It appears there whole, since an earlier one may be in use."""
    os.makedirs(os.path.dirname(path), exist_ok=True)
    new = f"{path}.{os.getpid()}"
    shutil.copy(source, new)
    os.replace(new, path)


def run_script(main):
    """Runs the function of a script, and ends with its status, or with the message of what it could not do. By SIGTERM
    it ends as by Ctrl-C, so that what it started ends, and its temporary files go."""
    signal.signal(signal.SIGTERM, signal.default_int_handler)
    try:
        sys.exit(main())
    except Failed as why:
        sys.exit(str(why))
    except KeyboardInterrupt:
        sys.exit(130)
