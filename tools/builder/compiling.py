"""Compiles the crate of the program, over the libraries that are proved, to an object file.

Intel's processors from Skylake to Cascade Lake decode code anew each time it is run, if a jump in it crosses a multiple
of 32 bytes or ends there. So the time of a loop depended on how many bytes the code before it has. With an option clang
moves such jumps. Rattle's compiler hands no options on, so it calls a script, which calls clang with that option.
"""
import os
import shlex

from linking import PROGRAM
from project import ARCHIVES, TOP, run, say, write_text

FOR_JUMPS = "-mbranches-within-32B-boundaries"


def make_toolchain(kit, place, options):
    """Makes a toolchain whose clang takes these options too, once in a folder."""
    made, of_kit = f"{place}/toolchain", f"{kit}/toolchain"
    for folder in ("bin", "lib"):
        os.makedirs(f"{made}/{folder}")
        for name in os.listdir(f"{of_kit}/{folder}"):
            os.symlink(f"{of_kit}/{folder}/{name}", f"{made}/{folder}/{name}")
    os.remove(f"{made}/bin/clang")
    write_text(f"{made}/bin/clang", f'#!/bin/sh\nexec {shlex.quote(of_kit)}/bin/clang "$@" {options}\n')
    os.chmod(f"{made}/bin/clang", 0o755)
    return made


def find_toolchain(kit, place, processor):
    """The toolchain that compiles for a processor."""
    return make_toolchain(kit, place, FOR_JUMPS) if processor.name == "x86_64" else f"{kit}/toolchain"


def compile_object(kit, place, room, crates, processor, into, backend="llvm"):
    """Proves the crate of the program for a processor, over the libraries in the room, and compiles it to an object
    file."""
    words = [*crates.make_words(kit, room, "src/main.rt"), "--target", processor.triple]
    say(f"proving the crate of the program for {processor.name}, and compiling it: a minute or two")
    words += ["--logic-built", f"{kit}/logic_built", "--jobs", "2", "--backend", backend, "-o", into]
    words += ["--toolchain", find_toolchain(kit, place, processor)]
    run([f"{kit}/bin/rattle", "build", *words], f"{TOP}/crates/{PROGRAM}")


def link_by_toolchain(kit, place, made, into):
    """Links the object file of the program for x86-64 as the toolchain does."""
    words = ["--target", "x86_64-unknown-linux-gnu", "--toolchain", f"{kit}/toolchain", "-o", into, made]
    run([f"{kit}/bin/rattle-link", *words, *(f"{kit}/{name}" for name in ARCHIVES)], place)
