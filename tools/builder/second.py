"""The program by the toolchain's second compiler, build/ptext-second: Rattle's own, in place of LLVM.

It takes what the gate proved, checks the crate of the program once more, and compiles it; gcc links the object file
with the C of native/. Nobody is given this program, which is slower: tests/witness.py compares it with build/ptext, so
that a fault of one compiler alone would be seen.
"""
from compiling import compile_object
from linking import PROGRAM, SHARED
from project import TOP, put, say
from proving import Crates, prove


def build(kit, place, processor, _):
    processor.check_compiler("make second")
    say("making the program by Rattle's own compiler: some two minutes, once the libraries are proved")
    crates = Crates(PROGRAM)
    made, linked = f"{place}/{PROGRAM}.o", f"{place}/{PROGRAM}-second"
    compile_object(kit, place, prove(crates, place), crates, processor, made, "rattle")
    processor.link(SHARED, made, linked, place)
    put(linked, f"{TOP}/build/{PROGRAM}-second")
    return f"build/{PROGRAM}-second"
