#!/usr/bin/env python3
"""Proves what is built, and builds it into build/.

  python3 tools/builder program                    the program, ptext
  python3 tools/builder static [TARGET [LIBC]]     the program as one file that needs no shared libraries, ptext-static,
                                                   and the tools by their own names, ptext-by-name
  python3 tools/builder library [TARGET]           the library for C, libptext.a and libptext.so
  python3 tools/builder second                     the program by the toolchain's second compiler, ptext-second
  python3 tools/builder page                       the tools in a browser, page/ptext.html, and modules for node and
                                                   for the next
  python3 tools/builder onefile                    the program in C, onefile/ptext.c (after page)

TARGET is a processor, x86_64 or aarch64; LIBC is musl or glibc (without it musl, where it is there).
"""
import importlib
import os
import sys
import tempfile
import time

sys.dont_write_bytecode = True
sys.path.insert(0, os.path.dirname(os.path.dirname(os.path.realpath(__file__))))

from linking import GLIBC, MUSL, PROCESSORS, Processor
from project import TOP, Failed, find_kit, run_script, say

# What is built, and whether it is built for a processor and with a C library.
BUILT = {"program": True, "static": True, "library": True, "second": True, "page": False, "onefile": False}


def main():
    what, target, libc = (sys.argv[1:] + ["", "", ""])[:3]
    if what not in BUILT or target not in ("", *PROCESSORS) or libc not in ("", MUSL, GLIBC) or len(sys.argv) > 4:
        return __doc__
    kit, began = find_kit(), time.monotonic()
    given = [Processor(target or "x86_64"), libc] if BUILT[what] else []
    if not os.access(f"{TOP}/build" if os.path.isdir(f"{TOP}/build") else TOP, os.W_OK):
        raise Failed(f"cannot write to {TOP}/build, where all that is built is put: copy the source to another folder")
    with tempfile.TemporaryDirectory(prefix="ptext-") as place:
        try:
            made = importlib.import_module(what).build(kit, place, *given)
        except Failed as why:
            # (The crates were proved in a copy.)
            raise Failed(str(why).replace(f"{place}/room", TOP).replace(place, TOP)) from why
    say(f"built {made}, {os.path.getsize(f'{TOP}/{made}'):,} bytes, {time.monotonic() - began:.0f} s in all")
    return 0


run_script(main)
