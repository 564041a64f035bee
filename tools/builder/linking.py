"""Links the object file of the program by a C compiler, with the C of native/ in place of the toolchain's two archives,
which are for x86-64 and the GNU C library only: as the program itself, or as a tool by its own name; for each processor
of PROCESSORS; with the shared GNU C library, or with a static one.

A static program starts fastest with musl, whose two copies of bytes for x86-64 are slow: native/copying.c takes their
place.
"""
import os
import platform
import shutil
import subprocess

from project import TOP, Failed, run

PROGRAM = "ptext"
SHARED, MUSL, GLIBC = "shared", "musl", "glibc"
# Each processor, and Debian's packages for it: a C compiler, and the two C libraries.
PROCESSORS = {
    "x86_64": "gcc libc6-dev musl-tools",
    "aarch64": "gcc-aarch64-linux-gnu libc6-dev-arm64-cross musl-dev:arm64",
}
# (With code and constants in one segment, a start has four page faults less, of 33.)
STATIC = ["-static", "-Wl,-z,noseparate-code"]
FLAGS = ["-std=c11", "-O2", "-Wall", "-Wextra", "-Werror"]
# (The compiler must not make calls of memcpy of the copies of which memcpy consists.)
OF_COPYING = ["-O3", "-fno-builtin", "-fno-tree-loop-distribute-patterns"]


class Processor:
    """A processor for which the program is built."""

    def __init__(self, name):
        self.name, self.triple, self.packages = name, f"{name}-unknown-linux-gnu", PROCESSORS[name]
        self.is_own = name == platform.machine()
        # the beginning of the names of its compiler and binutils
        self.prefix = "" if self.is_own else f"{name}-linux-gnu-"
        self.compiler = shutil.which(f"{self.prefix}gcc")
        # where what is built for it is put
        self.folder = "build" if name == "x86_64" else f"build/{name}"
        self.musl = f"/usr/lib/{name}-linux-musl"

    def check_compiler(self, target):
        if not self.compiler:
            raise Failed(f"{target} needs a C compiler for {self.name} (on Debian: apt install {self.packages})")

    def find_static_library(self, wanted):
        """The static C library that is there: musl, or else that of GNU; or the one that is wanted. None if none is."""
        # (gcc prints the name as it was given if it does not find the file.)
        words = [self.compiler, "-print-file-name=libc.a"]
        of_gnu = subprocess.run(words, capture_output=True, text=True, check=False).stdout.strip()
        places = {MUSL: f"{self.musl}/libc.a", GLIBC: of_gnu if os.path.isabs(of_gnu) else ""}
        return next((name for name in places if wanted in (name, "") and os.path.exists(places[name])), None)

    def take(self, library):
        """What tells the compiler to take this C library, to compile and to link."""
        return ["-specs", f"{self.musl}/musl-gcc.specs"] if library == MUSL else []

    def link(self, library, linked, into, place, by_name=False):
        """Links an object file of the program, `linked`, into a program that takes its words as they are, or that is a
        tool by its own name."""
        parts = {"heap": [], "support": ["-DBY_NAME"] if by_name else []}
        if library == MUSL and self.name == "x86_64":
            parts["copying"] = OF_COPYING
        compiling = [self.compiler, *self.take(library), *FLAGS, "-c"]
        for name, words in parts.items():
            run([*compiling, *words, "-o", f"{name}.o", f"{TOP}/native/{name}.c"], place)
        words = ["-Wl,-z,relro,-z,now"] if library == SHARED else [*STATIC, *self.take(library)]
        words += ["-s", "-Wl,--wrap=main", "-Wl,--gc-sections", "-o", into, *(f"{name}.o" for name in parts)]
        run([self.compiler, *words, linked], place)
