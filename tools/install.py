#!/usr/bin/env python3
"""Installs the built program, ptext-parts, their pages and completion, or the library for C, and removes exactly what
was installed.

  python3 tools/install.py install PREFIX [DESTDIR] [NAME=VALUE..]     the programs, their pages and completion
  python3 tools/install.py tools PREFIX [DESTDIR] [NAME=VALUE..]       each tool by its own name, page and completion
  python3 tools/install.py library PREFIX [DESTDIR] [NAME=VALUE..]     the library for C, its header, page and licenses
  python3 tools/install.py uninstall PREFIX [DESTDIR] [NAME=VALUE..]   all of it, and the folders that were made for it

The names are those of other projects: bindir (PREFIX/bin), libexecdir (PREFIX/libexec), datadir (PREFIX/share), mandir
(datadir/man), libdir (PREFIX/lib), includedir (PREFIX/include) and INSTALL_PROGRAM, the command that puts the program
there (without one, it is stripped).

The program is build/ptext-static, which starts faster, if it was linked of build/ptext as it is, and otherwise
build/ptext. With STATIC=no it is build/ptext in any case. The tools by their own names are one file, linked of the same
object file in the same way, with six names; where no C compiler linked it, each is a script that starts the program.

Each file and each folder that was made is noted in datadir/ptext/installed. Every path that is written to begins with
DESTDIR, but no file contains it. If something cannot be written, the earlier state is restored.
"""
import contextlib
import functools
import hashlib
import os
import re
import shlex
import shutil
import subprocess
import sys
import tempfile

sys.dont_write_bytecode = True

import manual
from names import NAMES
from project import TOP, Failed, read_version, run_script

# The program that runs parts, which needs Python, and is the module of the library too.
PARTS = "bindings/python/ptext/parts.py"
# Each file below datadir, its mode, and its source.
OTHERS = [
    ("ptext/ptext-slurm.sh", 0o755, "tools/ptext-slurm.sh"),
    ("bash-completion/completions/ptext", 0o644, "completion/ptext"),
    ("bash-completion/completions/ptext-parts", 0o644, "completion/ptext-parts"),
    ("zsh/site-functions/_ptext", 0o644, "completion/_ptext"),
    ("fish/vendor_completions.d/ptext.fish", 0o644, "completion/ptext.fish"),
    ("fish/vendor_completions.d/ptext-parts.fish", 0o644, "completion/ptext-parts.fish"),
]
# Those of the tools by their own names. (fish looks for the completion of a command in a file of its name.)
OTHERS_OF_TOOLS = [
    ("bash-completion/completions/ptext-tools", 0o644, "completion/ptext-tools"),
    ("zsh/site-functions/_ptext_tools", 0o644, "completion/_ptext_tools"),
    *((f"fish/vendor_completions.d/{name}.fish", 0o644, "completion/ptext-tools.fish") for name in NAMES),
]
VARIABLES = ("bindir", "libexecdir", "datadir", "mandir", "libdir", "includedir", "INSTALL_PROGRAM", "STATIC")
BUILD = f"{TOP}/build"
# The licenses of this source and of the code that is linked with it, as archives have them too.
LICENSES = [("LICENSE-MIT",) * 2, ("LICENSE-APACHE",) * 2, ("NOTICES", "debian/copyright")]
# The license of the C library, where Debian keeps it.
LGPL = "/usr/share/common-licenses/LGPL-2.1"
NOTICE_OF_GLIBC = b"""
Files: bin/ptext
 libexec/ptext/tool
Copyright: the contributors of the GNU C Library
License: LGPL-2.1+
Comment: The program is linked with the static C library of Debian (libc6-dev).
 The source of ptext links it with another, by `make static`. The license
 follows.

"""


def read_bytes(file):
    with open(file, "rb") as opened:
        return opened.read()


def read_lines(file):
    return read_bytes(file).decode().splitlines() if os.path.exists(file) else []


def strip_program(program):
    """The program without its symbols, or as it is if there is no strip, or if it is for another processor."""
    if not shutil.which("strip"):
        return read_bytes(program)
    with tempfile.TemporaryDirectory() as room:
        words = ["strip", "-o", f"{room}/program", program]
        did = subprocess.run(words, check=False, stderr=subprocess.DEVNULL)
        return read_bytes(program if did.returncode else f"{room}/program")


def find_current(path):
    """A file that was linked of the program beside it, if it is there and no older."""
    program = f"{os.path.dirname(path)}/ptext"
    is_there = os.path.isfile(path) and os.path.isfile(program)
    return path if is_there and os.path.getmtime(path) >= os.path.getmtime(program) else None


class Program:
    """The program of a folder, build/ or one below it, as it is handed on: the static one, or that with the shared C
    library."""

    def __init__(self, folder, is_static):
        kind = "-static" if is_static else ""
        self.is_static, self.path = is_static, find_current(f"{folder}/ptext{kind}")
        # the tools by their own names as one file, if a C compiler linked it
        self.by_name = find_current(f"{folder}/ptext-by-name{kind}")
        self.libc = "".join(read_lines(f"{folder}/ptext-static.libc")) if is_static else ""

    def make_notices(self):
        """The licenses of what a static program contains."""
        notices = read_bytes(f"{TOP}/debian/copyright")
        return notices if self.libc == "musl" else notices + NOTICE_OF_GLIBC + read_bytes(LGPL)


def find_program(given):
    """The program to install: the static one if there is one of build/ptext as it is, and the license of the C library
    that it contains is there too."""
    static = Program(BUILD, True)
    is_licensed = static.libc == "musl" or os.path.isfile(LGPL)
    return static if given != "no" and static.path and is_licensed else Program(BUILD, False)


def call_git(*words):
    """The output of git over this folder, or None if there is no git, or if this is no checkout."""
    if not os.path.exists(f"{TOP}/.git") or not shutil.which("git"):
        return None
    # (Root may read a checkout of somebody else, and leaves its index alone.)
    words = ["git", "--no-optional-locks", "-c", f"safe.directory={TOP}", *words]
    said = subprocess.run(words, cwd=TOP, check=False, capture_output=True, text=True)
    return None if said.returncode else said.stdout


def has_other_sums():
    """Whether a file of an unpacked archive is not as SHA256SUMS has it. (Packages are made without SHA256SUMS.)"""
    sums = dict(reversed(line.split("  ", 1)) for line in read_lines(f"{TOP}/SHA256SUMS"))
    return any(
        not os.path.isfile(f"{TOP}/{name}") or hashlib.sha256(read_bytes(f"{TOP}/{name}")).hexdigest() != wanted
        for name, wanted in sums.items()
    )


@functools.cache
def find_source_id():
    """The commit of the source: that of the checkout, or, in an archive of the source, that in its file COMMIT.
    "changed" follows if the source has changed since. Empty if the commit is not known."""
    head = call_git("rev-parse", "HEAD")
    if head is not None:
        return head.strip() + (" changed" if call_git("status", "--porcelain") else "")
    commit = "".join(read_lines(f"{TOP}/COMMIT"))
    return commit + (" changed" if commit and not commit.endswith(" changed") and has_other_sums() else "")


def make_page(name, commit=None):
    """A manual page, whose last line has the commit (that of the source, or this one), if it is known, after the
    version: as 0.1.0+d24ebc21, or 0.1.0+d24ebc21.changed."""
    commit, _, is_changed = (find_source_id() if commit is None else commit).partition(" ")
    commit = "" if commit == "unknown" else commit
    # (One word and no longer: groff leaves out the words after a version, and has the date between two of these.)
    made = f"+{commit[:8]}{'.changed' if is_changed else ''}" if commit else ""
    text = manual.make_page() if name == manual.NAME else read_bytes(f"{TOP}/man/{name}").decode()
    lines = text.splitlines(keepends=True)
    return "".join(f"{line.rstrip()}{made}\n" if line.startswith(".Os ") else line for line in lines).encode()


def make_script(bindir, name):
    """Runs a tool by its own name."""
    return f'#!/bin/sh\nexec {shlex.quote(f"{bindir}/ptext")} {name} "$@"\n'.encode()


def choose_folders(prefix, given):
    """The folders of an installation: those that are given, and the usual ones below the prefix."""
    usual = {"bindir": "bin", "libexecdir": "libexec", "datadir": "share", "libdir": "lib", "includedir": "include"}
    found = {**{name: f"{prefix}/{below}" for name, below in usual.items()}, **given}
    return {"mandir": f"{found['datadir']}/man", **found}


class Place:
    """A prefix below DESTDIR, its folders, and the notes of an earlier installation: each path below the prefix, or
    above it as ../"""

    def __init__(self, prefix, destdir, given):
        self.destdir = os.path.abspath(destdir) if destdir else ""
        self.prefix = os.path.abspath(prefix)
        self.root = self.destdir + self.prefix
        self.install_program = given.get("INSTALL_PROGRAM", "")
        self.program = find_program(given.get("STATIC"))
        given = {name: value for name, value in given.items() if name not in ("INSTALL_PROGRAM", "STATIC")}
        self.folders = {name: os.path.abspath(value) for name, value in choose_folders(prefix, given).items()}
        self.notes = f"{self.destdir}{self.folders['datadir']}/ptext/installed"
        self.noted = read_lines(self.notes)
        # the steps that restore the earlier state, the last one first
        self.undoing = []
        # the earlier files, under their temporary names
        self.kept = []

    def note(self, path):
        name = os.path.relpath(path, self.root)
        if name not in self.noted:
            self.noted.append(name)

    def make_folder(self, folder):
        """Makes a folder that all may enter, with any umask."""
        if not os.path.isdir(folder):
            self.make_folder(os.path.dirname(folder))
            os.mkdir(folder)
            self.undoing.append(lambda: os.rmdir(folder))
            os.chmod(folder, 0o755)
            self.note(folder)

    def find_unused_beside(self, path):
        """A new empty file in the folder of the path. It is removed if the installation fails."""
        try:
            descriptor, name = tempfile.mkstemp(prefix=".ptext-", dir=os.path.dirname(path))
        except OSError as why:
            raise OSError(why.errno, why.strerror, path) from why
        os.close(descriptor)
        self.undoing.append(lambda: os.path.lexists(name) and os.remove(name))
        return name

    def put(self, path, mode, text):
        """Writes a file under a temporary name, then renames it. The earlier file is kept until all went well. If there
        is no mode, it is a link, and the text is the name to which it leads."""
        path = self.destdir + path
        self.make_folder(os.path.dirname(path))
        if os.path.isdir(path) and not os.path.islink(path):
            raise IsADirectoryError(0, "there is a folder of that name", path)
        new = self.find_unused_beside(path)
        try:
            if mode is None:
                os.remove(new)
                os.symlink(text, new)
            else:
                with open(new, "wb") as file:
                    file.write(text)
                os.chmod(new, mode)
        except OSError as why:
            # (A write that fails, as on a full disk, does not name the file itself.)
            raise OSError(why.errno, why.strerror, path if why.filename is None else why.filename) from why
        if self.install_program and path == f"{self.destdir}{self.folders['bindir']}/ptext":
            did = subprocess.run([*shlex.split(self.install_program), self.program.path, new], check=False)
            if did.returncode:
                raise OSError(0, f"{self.install_program} failed", path)
        if os.path.lexists(path):
            old = self.find_unused_beside(path)
            os.replace(path, old)
            self.undoing.append(lambda: os.replace(old, path))
            self.kept.append(old)
        os.replace(new, path)
        self.undoing.append(lambda: os.remove(path))
        self.note(path)

    def keep_notes(self):
        self.make_folder(os.path.dirname(self.notes))
        self.note(self.notes)
        self.put(self.notes[len(self.destdir) :], 0o644, "".join(f"{path}\n" for path in self.noted).encode())

    def undo(self):
        for step in reversed(self.undoing):
            with contextlib.suppress(OSError):
                step()

    def settle(self):
        """Removes the earlier files, after all went well."""
        for old in self.kept:
            os.remove(old)


def list_pages():
    """The manual pages, without that of the library, which `make install-lib` installs."""
    return sorted([manual.NAME, *(name for name in os.listdir(f"{TOP}/man") if not name.endswith(".3"))])


def list_files(where, program, commit=None):
    """The files to install into these folders: the path, the mode, and the bytes; a link has no mode, and the name to
    which it leads."""
    pages = list_pages()
    return [
        (f"{where['bindir']}/ptext", 0o755, strip_program(program.path)),
        (f"{where['bindir']}/ptext-parts", 0o755, read_bytes(f"{TOP}/{PARTS}")),
        *((f"{where['mandir']}/man{name[-1]}/{name}", 0o644, make_page(name, commit)) for name in pages),
        *((f"{where['datadir']}/{name}", mode, read_bytes(f"{TOP}/{source}")) for name, mode, source in OTHERS),
    ]


def list_files_of_program(where, program):
    """The files of `make install`, with the license of the C library if the program contains it."""
    notices = [(f"{where['datadir']}/ptext/NOTICES", 0o644, program.make_notices())] if program.is_static else []
    return [*list_files(where, program), *notices]


def list_tools(where, program, make_tool):
    """Each tool by its own name: a link to one file, or a script where there is none."""
    beside = f"{where['libexecdir']}/ptext"
    if not program.by_name:
        return [(f"{beside}/bin/{name}", 0o755, make_tool(where["bindir"], name)) for name in NAMES]
    links = [(f"{beside}/bin/{name}", None, "../tool") for name in NAMES]
    return [(f"{beside}/tool", 0o755, read_bytes(program.by_name)), *links]


def list_files_of_tools(where, program, make_tool=make_script, commit=None):
    """The files with which each tool has its own name: a folder for PATH, and beside it one in which `man` then finds
    the pages first."""
    beside = f"{where['libexecdir']}/ptext"
    return [
        *list_tools(where, program, make_tool),
        *((f"{beside}/man/man1/{name}.1", 0o644, make_page(f"ptext-{name}.1", commit)) for name in NAMES),
        *((f"{where['datadir']}/{name}", mode, read_bytes(f"{TOP}/{path}")) for name, mode, path in OTHERS_OF_TOOLS),
    ]


def make_settings(where, prefix):
    """The file that pkg-config reads."""
    text = read_bytes(f"{TOP}/build/ptext.pc").decode()
    for name, value in [("prefix", prefix), *((folder, where[folder]) for folder in ("libdir", "includedir"))]:
        value = value.replace(f"{prefix}/", "${prefix}/", 1) if name != "prefix" else value
        line = f"{name}={value}".replace(" ", "\\ ")
        text = re.sub(f"^{name}=.*", lambda _, new=line: new, text, flags=re.M)
    return text.encode()


def list_files_of_library(where, prefix):
    """The library for C. Programs that are linked with it look for it under a name with the first number of the version
    only."""
    whole, lib = f"libptext.so.{read_version()}", where["libdir"]
    doc = f"{where['datadir']}/doc/libptext"
    return [
        (f"{lib}/libptext.a", 0o644, read_bytes(f"{TOP}/build/libptext.a")),
        (f"{lib}/{whole}", 0o755, read_bytes(f"{TOP}/build/{whole}")),
        (f"{lib}/libptext.so.{read_version().partition('.')[0]}", None, whole),
        (f"{lib}/libptext.so", None, whole),
        (f"{lib}/pkgconfig/ptext.pc", 0o644, make_settings(where, prefix)),
        (f"{where['includedir']}/ptext.h", 0o644, read_bytes(f"{TOP}/bindings/c/ptext.h")),
        (f"{where['mandir']}/man3/ptext.3", 0o644, make_page("ptext.3")),
        *((f"{doc}/{name}", 0o644, read_bytes(f"{TOP}/{source}")) for name, source in LICENSES),
    ]


def put_all(place, files_in):
    """Puts all files, or none."""
    try:
        for name, mode, text in files_in(place.folders):
            place.put(name, mode, text)
        place.keep_notes()
    except OSError as why:
        place.undo()
        raise Failed(f"cannot install: {why.filename}: {why.strerror}. Nothing was installed.") from why
    except KeyboardInterrupt as why:
        place.undo()
        raise Failed("stopped: nothing was installed.") from why
    place.settle()


def describe_folder(place, name):
    """One of the folders as a message has it: below the root, without the root."""
    path = place.destdir + place.folders[name]
    return os.path.relpath(path, place.root) if path.startswith(f"{place.root}/") else path


def install(place):
    put_all(place, lambda where: list_files_of_program(where, place.program))
    datadir = describe_folder(place, "datadir")
    license_at = f", with the license of its C library in {datadir}/ptext/NOTICES" if place.program.is_static else ""
    print(
        f"installed in {place.root}: {describe_folder(place, 'bindir')}/ptext "
        f"(of {os.path.relpath(place.program.path, TOP)}{license_at}) and ptext-parts, {len(list_pages())} pages in "
        f"{describe_folder(place, 'mandir')}, completion for bash, zsh and fish, {datadir}/ptext/ptext-slurm.sh"
    )


def install_tools(place):
    put_all(place, lambda where: list_files_of_tools(where, place.program))
    file = shlex.quote(f"{place.folders['datadir']}/{OTHERS_OF_TOOLS[0][0]}")
    print(f"to complete them in bash, ~/.bash_completion needs: . {file}")
    print(f"installed in {place.destdir}{place.folders['libexecdir']}/ptext/bin: {', '.join(NAMES)}")


def install_library(place):
    put_all(place, lambda where: list_files_of_library(where, place.prefix))
    lib = describe_folder(place, "libdir")
    print(
        f"installed in {place.root}: {lib}/libptext.a, {lib}/libptext.so.{read_version()}, {lib}/pkgconfig/ptext.pc, "
        f"{describe_folder(place, 'includedir')}/ptext.h, the page ptext(3), and the licenses in "
        f"{describe_folder(place, 'datadir')}/doc/libptext"
    )


def uninstall(place):
    """Files first, then the folders that were made, the innermost first, where nothing else has come into them."""
    paths = [os.path.normpath(f"{place.root}/{path}") for path in place.noted]
    if not paths:
        print(f"nothing is noted as installed in {place.root}")
        return
    # The notes go last, so that what is left is known.
    try:
        for path in sorted(paths, key=lambda path: path == place.notes):
            if os.path.isfile(path) or os.path.islink(path):
                os.remove(path)
        for path in sorted(paths, key=len, reverse=True):
            if os.path.isdir(path) and not os.listdir(path):
                os.rmdir(path)
    except OSError as why:
        noted = f"What is left is noted in {place.notes}."
        raise Failed(f"cannot uninstall: {why.filename}: {why.strerror}. {noted}") from why
    print(f"what was installed in {place.root} is removed")


def main():
    does = {"install": install, "tools": install_tools, "library": install_library, "uninstall": uninstall}
    words = [word for word in sys.argv[1:] if word.partition("=")[0] not in VARIABLES or "=" not in word]
    given = dict(word.split("=", 1) for word in sys.argv[1:] if word not in words)
    if len(words) not in (2, 3) or words[0] not in does:
        return __doc__
    for name, value in [("PREFIX", words[1]), *given.items()]:
        if not value and name not in ("INSTALL_PROGRAM", "STATIC"):
            return f"{name} is empty. Nothing was done."
        if value.startswith("~"):
            return f"{name} begins with ~, which the shell did not expand: write $HOME. Nothing was done."
    if words[0] == "install" and not os.path.isfile(f"{BUILD}/ptext"):
        return "there is no build/ptext: run make first. Nothing was installed."
    does[words[0]](Place(words[1], (words[2:] or [""])[0], given))
    return 0


if __name__ == "__main__":
    run_script(main)
