#!/usr/bin/env python3
"""Makes what is handed on: archives and Debian packages. Made twice of the same files, they have the same bytes. (The
list of the packages has not: it names the time and the environment.)

  python3 tools/dist.py archives FOLDER [TARGET] [--changed]
                                                      ptext-VERSION.tar.gz, the source;
                                                      ptext-VERSION-linux-x86_64.tar.gz, the program with its pages, docs
                                                      and completion, and the tools by their own names: the static one,
                                                      if it was linked with musl, and else the one that needs the shared
                                                      C library; and the same for each other processor for which
                                                      `make TARGET=..` built it
  python3 tools/dist.py node FOLDER                   ptext-VERSION.tgz, the package for node (make page), as npm packs
                                                      it
  python3 tools/dist.py onefile FOLDER                ptext-VERSION-onefile.tar.xz: the program as one file in C, with
                                                      its pages and licenses (make onefile)
  python3 tools/dist.py deb FOLDER [TARGET]           two packages by dpkg-buildpackage, and its list of them, which has
                                                      their checksums

  python3 tools/dist.py sums FOLDER                   SHA256SUMS of all that is there, as the others write it

TARGET is x86_64 (without it) or aarch64, and has to be built.

An archive contains COMMIT, which names the commit that the source is of, and SHA256SUMS of its files. If the source has
changed since that commit, no archive is made; with --changed they are made, and COMMIT and the pages say that it has.
Packages are made in both cases, and their pages say it.
"""
import gzip
import hashlib
import io
import lzma
import os
import re
import shutil
import subprocess
import sys
import tarfile
import tempfile

sys.dont_write_bytecode = True

from install import BUILD, Program, call_git, find_source_id, list_files, list_files_of_tools, read_bytes, read_lines
from names import NAMES
from project import TOP, Failed, read_version, run_script

VERSION = read_version()
# The time that every file bears, in seconds: that of this version, if SOURCE_DATE_EPOCH names no other.
SECONDS = os.environ.get("SOURCE_DATE_EPOCH") or "1795348800"
TIME = int(SECONDS) if SECONDS.isdecimal() else 0
# The folder of what is built for a processor.
FOLDERS = {"x86_64": BUILD, "aarch64": f"{BUILD}/aarch64"}
# The files that an archive has besides those that were given to it.
ADDED = ("COMMIT", "SHA256SUMS")
# The files that dpkg-buildpackage makes in the folder debian, if it is called in this one.
OF_BUILD = re.compile(r"\.debhelper|debhelper-build-stamp|files|tmp|ptext|ptext-tools|.*\.(substvars|debhelper\.log)")
# The folders of an installation, below that into which the archive of the program is unpacked.
BELOW = {"bindir": "bin", "libexecdir": "libexec", "datadir": "share", "mandir": "share/man"}
# How the archive of the program is installed, used and removed. (tests/packages.sh runs these commands.)
INSTALL = """# ptext, the archive of the program

For one user, in the folder with this file:

    mkdir -p ~/.local
    cp -r bin libexec share ~/.local

`~/.local/bin` has to be in `PATH`. For all users, write `/usr/local` instead of `~/.local`, as root.

fish then completes its words, bash does with the package `bash-completion`, and zsh with this line before `compinit` in
`~/.zshrc`:

    fpath=(~/.local/share/zsh/site-functions $fpath)

To use the tools by their own names (`cut` instead of `ptext cut`), read `man ptext-replacing`, and put
`~/.local/libexec/ptext/bin` first in `PATH`. Then `man cut` shows the page of this `cut`, and zsh and fish complete its
options. bash does so with this line in `~/.bash_completion`:

    . ~/.local/share/bash-completion/completions/ptext-tools

To remove it all:

    cd ~/.local && xargs rm < share/ptext/files && rmdir {folders}

The program contains code of others: NOTICES has the licenses. SHA256SUMS has the checksums of all these files
(`sha256sum -c SHA256SUMS`), and COMMIT names the commit of the source.
"""


ONE_FILE = """# ptext as one file

cut, paste, join, comm, uniq and tr, for any machine with POSIX and a compiler of C11 (gcc, clang, tcc):

    cc -O2 -w -o ptext ptext.c

It takes two minutes, or without -O2 half a minute. man/ has its pages (man ./man/ptext.1).
"""


def make_script(_, name):
    """Runs a tool by its own name, from wherever the archive was unpacked, and through a link too."""
    return (
        '#!/bin/sh\nat=$0\n[ -L "$at" ] && at=$(readlink -f "$at")\n'
        f'exec "${{at%/*}}/../../../bin/ptext" {name} "$@"\n'
    ).encode()


def find_source_files():
    """The files of the source: those that git knows, or, outside a checkout, all but what was built."""
    known = call_git("ls-files", "-z")
    if known is not None:
        return sorted(path for path in known.split("\0") if os.path.isfile(f"{TOP}/{path}") and path not in ADDED)
    found = []
    for at, folders, names in os.walk(TOP):
        inside = os.path.relpath(at, TOP)
        is_crate = os.path.dirname(inside) == "crates"
        if inside == "debian":
            folders[:], names = ([name for name in some if not OF_BUILD.fullmatch(name)] for some in (folders, names))
        folders[:] = [
            name
            for name in folders
            if not (name == "out" and is_crate or name in ("build", ".git") and inside == "." or name == "__pycache__")
        ]
        # (In a second worktree .git is a file.)
        found += [os.path.normpath(f"{inside}/{name}") for name in names if name != ".git"]
    return sorted(path for path in found if path not in ADDED)


def make_sums(members):
    return "".join(f"{hashlib.sha256(text).hexdigest()}  {name}\n" for name, _, text in sorted(members))


def find_changes(members):
    """The files that are not those of the commit. None if that cannot be known."""
    said = call_git("status", "--porcelain", "-z", "--no-renames", "--untracked-files=all")
    if said is not None:
        return [row[3:] for row in said.split("\0") if row]
    if os.path.exists(f"{TOP}/.git") or not os.path.exists(f"{TOP}/SHA256SUMS"):
        return None
    wanted, found = set(read_lines(f"{TOP}/SHA256SUMS")), set(make_sums(members).splitlines())
    return sorted({line.partition("  ")[2] for line in wanted ^ found} - set(ADDED))


def write_archive(path, front, members, commit):
    """An archive of members, each a name, a mode and bytes, below the folder `front`. (A link has no mode, and the name
    to which it leads.)"""
    members = [*members, ("COMMIT", 0o644, f"{commit}\n".encode())]
    members.append(("SHA256SUMS", 0o644, make_sums(member for member in members if member[1] is not None).encode()))
    is_xz = path.endswith(".xz")
    with open(path, "wb") as raw, lzma.open(raw, "wb") if is_xz else gzip.GzipFile("", "wb", 9, raw, mtime=0) as packed:
        with tarfile.open(mode="w", fileobj=packed, format=tarfile.USTAR_FORMAT) as packing:
            for name, mode, text in sorted(members):
                about = tarfile.TarInfo(f"{front}/{name}")
                about.mtime, about.uname, about.gname = TIME, "root", "root"
                if mode is None:
                    about.type, about.linkname, about.mode = tarfile.SYMTYPE, text, 0o777
                    packing.addfile(about)
                else:
                    about.size, about.mode = len(text), mode
                    packing.addfile(about, io.BytesIO(text))


def make_source_members():
    def find_mode(path):
        return 0o755 if os.access(path, os.X_OK) else 0o644

    return [(path, find_mode(f"{TOP}/{path}"), read_bytes(f"{TOP}/{path}")) for path in find_source_files()]


def find_program(folder):
    """The program that an archive has. (One with the GNU C library in it would need parts to link it anew.)"""
    static = Program(folder, True)
    return static if static.path and static.libc == "musl" else Program(folder, False)


def make_program_members(commit, program):
    """The program as `make install install-tools` installs it, the docs that its README names, and how to remove it."""
    installed = [*list_files(BELOW, program, commit), *list_files_of_tools(BELOW, program, make_script, commit)]
    names = "".join(f"{name}\n" for name in sorted([*(name for name, _, _ in installed), "share/ptext/files"]))
    docs = [f"docs/{name}" for name in os.listdir(f"{TOP}/docs") if name.endswith((".md", ".svg"))]
    read = ["README.md", "CHANGELOG.md", "CONTRIBUTING.md", "LICENSE-MIT", "LICENSE-APACHE", *docs]
    read += ["bench/README.md", "bench/speed.svg"]
    own = ["libexec/ptext/bin", "libexec/ptext/man/man1", "libexec/ptext/man", "libexec/ptext", "share/ptext"]
    return [
        *installed,
        ("share/ptext/files", 0o644, names.encode()),
        ("INSTALL.md", 0o644, INSTALL.replace("{folders}", " ".join(own)).encode()),
        ("NOTICES", 0o644, read_bytes(f"{TOP}/debian/copyright")),
        *((name, 0o644, read_bytes(f"{TOP}/{name}")) for name in read),
    ]


def put_all(room, folder):
    """Moves all files of a room to a folder, made if it is not there."""
    is_new = not os.path.isdir(folder)
    os.makedirs(folder, exist_ok=True)
    try:
        # On the same disk first, so that a full disk leaves nothing.
        with tempfile.TemporaryDirectory(prefix=".ptext-", dir=folder) as beside:
            for name in os.listdir(room):
                shutil.copy(f"{room}/{name}", f"{beside}/{name}")
                os.chmod(f"{beside}/{name}", 0o644)
            for name in sorted(os.listdir(beside)):
                os.replace(f"{beside}/{name}", f"{folder}/{name}")
    except (OSError, KeyboardInterrupt):
        if is_new:
            shutil.rmtree(folder, ignore_errors=True)
        raise


def write_sums(folder):
    """Writes SHA256SUMS of all files of a folder. They may be of several runs."""
    names = sorted(name for name in os.listdir(folder) if name != "SHA256SUMS" and os.path.isfile(f"{folder}/{name}"))
    sums = make_sums([(name, 0, read_bytes(f"{folder}/{name}")) for name in names if not name.startswith(".")])
    with tempfile.TemporaryDirectory() as room:
        with open(f"{room}/SHA256SUMS", "w", encoding="utf-8") as file:
            file.write(sums)
        put_all(room, folder)


def shorten(names):
    return ", ".join(names[:3]) + (f" and {len(names) - 3} more" if len(names) > 3 else "")


def find_commit(changed):
    """The commit of the source, as COMMIT has it, given what has changed."""
    commit = find_source_id() or "unknown"
    return commit + (" changed" if changed and not commit.endswith(" changed") else "")


def refuse_changes(changed):
    """Fails if the source is not that of a commit, or if that cannot be known."""
    if changed is None:
        raise Failed(
            "cannot tell which commit this is: it is no checkout with git, and no unpacked archive of the source. "
            "(`make dist CHANGED=yes` makes the archives all the same.) No archive was made."
        )
    is_checkout = os.path.exists(f"{TOP}/.git")
    if changed:
        raise Failed(
            f"not {'committed' if is_checkout else 'as in the archive of the source'}: {shorten(changed)}. "
            f"{'Commit first. ' if is_checkout else ''}(`make dist CHANGED=yes` makes the archives all the same, and "
            "they say so.) No archive was made."
        )


def make_archives(folder, is_changed):
    source = make_source_members()
    changed = find_changes(source)
    if not is_changed:
        refuse_changes(changed)
    commit = find_commit(changed)
    named = f"ptext-{VERSION}"
    built = {f"{named}-linux-{name}": at for name, at in FOLDERS.items() if os.path.isfile(f"{at}/ptext")}
    with tempfile.TemporaryDirectory() as room:
        write_archive(f"{room}/{named}.tar.gz", named, source, commit)
        for name, at in built.items():
            write_archive(f"{room}/{name}.tar.gz", name, make_program_members(commit, find_program(at)), commit)
        put_all(room, folder)
    write_sums(folder)
    made = "".join(f", {name}.tar.gz" for name in built)
    print(f"made {folder}/{named}.tar.gz{made} and SHA256SUMS, of commit {commit}")


def make_node(folder):
    """The package for node. (npm wants all files of a package below the folder `package`.)"""
    built, commit = f"{TOP}/build/node", find_commit(find_changes(make_source_members()))
    members = [(name, 0o644, read_bytes(f"{built}/{name}")) for name in sorted(os.listdir(built))]
    with tempfile.TemporaryDirectory() as room:
        write_archive(f"{room}/ptext-{VERSION}.tgz", "package", members, commit)
        put_all(room, folder)
    write_sums(folder)
    print(f"made {folder}/ptext-{VERSION}.tgz, which npm install takes, of commit {commit}")


def make_onefile(folder):
    """The archive of the program in C. (It contains what the package for node does, and so has its licenses.)"""
    built, commit = f"{TOP}/build", find_commit(find_changes(make_source_members()))
    named = f"ptext-{VERSION}-onefile"
    pages = ["ptext.1", *(f"ptext-{name}.1" for name in NAMES)]
    members = [
        ("ptext.c", 0o644, read_bytes(f"{built}/onefile/ptext.c")),
        ("LICENSES", 0o644, read_bytes(f"{built}/node/LICENSES")),
        ("README", 0o644, ONE_FILE.encode()),
        *((f"man/{name}", 0o644, read_bytes(f"{TOP}/man/{name}")) for name in pages),
    ]
    with tempfile.TemporaryDirectory() as room:
        write_archive(f"{room}/{named}.tar.xz", named, members, commit)
        put_all(room, folder)
    write_sums(folder)
    print(f"made {folder}/{named}.tar.xz and SHA256SUMS, of commit {commit}")


def check_programs():
    """Fails if a program that makes packages is lacking."""
    for program, package in (("dpkg-buildpackage", "dpkg-dev"), ("dh", "debhelper")):
        if not shutil.which(program):
            raise Failed(f"there is no {program}, which the Debian package {package} has. No package was made.")


def copy_source(top, built):
    """Makes a copy of the source with the program that is built in a folder. It is newer, so that nothing is proved
    again."""
    members = make_source_members()
    members.append(("COMMIT", 0o644, f"{find_commit(find_changes(members))}\n".encode()))
    os.umask(0o022)
    for name, mode, text in members:
        os.makedirs(os.path.dirname(f"{top}/{name}"), exist_ok=True)
        with open(f"{top}/{name}", "wb") as file:
            file.write(text)
        os.chmod(f"{top}/{name}", mode)
        os.utime(f"{top}/{name}", (TIME, TIME))
    os.mkdir(f"{top}/build")
    program = Program(built, False)
    for path in (program.path, program.by_name):
        if path:
            shutil.copyfile(path, f"{top}/build/{os.path.basename(path)}")
            os.chmod(f"{top}/build/{os.path.basename(path)}", 0o755)


def make_packages(folder, target):
    check_programs()
    words, kept = ["dpkg-buildpackage", "-us", "-uc", "-b"], dict(os.environ)
    if target != "x86_64":
        # (A program for another processor is tested by tests/emulated.sh. -d: no package of this processor is needed.)
        words += ["-d", "-aarm64"]
        kept["DEB_BUILD_OPTIONS"] = f"{kept.get('DEB_BUILD_OPTIONS', '')} nocheck"
    if "nocheck" not in kept.get("DEB_BUILD_OPTIONS", ""):
        print("the program is tested too, which takes minutes; DEB_BUILD_OPTIONS=nocheck tests nothing", flush=True)
    with tempfile.TemporaryDirectory() as room:
        top = f"{room}/ptext-{VERSION}"
        copy_source(top, FOLDERS[target])
        # (These would be handed to the make of the package.)
        kept = {name: value for name, value in kept.items() if name not in ("MAKEFLAGS", "MFLAGS", "MAKELEVEL")}
        did = subprocess.run(words, cwd=top, env=kept, check=False, stdout=subprocess.PIPE, stderr=subprocess.STDOUT)
        if did.returncode:
            sys.stderr.buffer.write(did.stdout)
            raise Failed("dpkg-buildpackage failed. No package was made.")
        shutil.rmtree(top)
        made = sorted(os.listdir(room))
        put_all(room, folder)
    write_sums(folder)
    print(f"made in {folder}: {', '.join(made)}")


def main():
    words = [word for word in sys.argv[1:] if word != "--changed"]
    target = words.pop() if len(words) == 3 else "x86_64"
    does = {
        "archives": lambda folder: make_archives(folder, "--changed" in sys.argv),
        "node": make_node,
        "onefile": make_onefile,
        "deb": lambda folder: make_packages(folder, target),
        "sums": write_sums,
    }
    if len(words) != 2 or words[0] not in does or target not in FOLDERS:
        return __doc__
    if not SECONDS.isdecimal():
        return f"SOURCE_DATE_EPOCH is no number of seconds: {SECONDS}. Nothing was made."
    program = f"{FOLDERS[target]}/ptext"
    if not os.path.isfile(program) and words[0] != "sums":
        return f"there is no {os.path.relpath(program, TOP)}: run make first. Nothing was made."
    try:
        does[words[0]](words[1])
    except OSError as why:
        return f"cannot write {why.filename or words[1]}: {why.strerror}. Nothing was made."
    except KeyboardInterrupt:
        return "stopped: nothing was made."
    return 0


if __name__ == "__main__":
    run_script(main)
