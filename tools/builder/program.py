"""The program and the libraries that it uses are proved; the program is compiled (compiling.py), linked, and put into
build/ as ptext, and its object file as ptext.o, which static.py links.
"""
from compiling import compile_object, link_by_toolchain
from linking import PROGRAM
from project import TOP, put, say
from proving import Crates, describe_kept, prove
from static import link_all


def link_beside(place, processor):
    """Links the object file in other ways too, where a C compiler can. Says what came of it."""
    if not processor.compiler:
        say("there is no gcc: the tools by their own names will be scripts, and the program needs the shared C library")
        return
    library = link_all(place, processor)
    of = f"linked with {library} too" if library else "with no static C library here (on Debian: musl-tools)"
    say(f"build/{PROGRAM}-by-name is built, the tools by their own names; the program is {of}")


def build(kit, place, processor, _):
    crates, made = Crates(PROGRAM), f"{place}/{PROGRAM}"
    say(
        f"proving {len(crates.names)} libraries and the program, and building it. From nothing this takes 10 to 20 "
        f"minutes on four processors, the first crate alone 1 to 4; {describe_kept(crates)}."
    )
    compile_object(kit, place, prove(crates, place), crates, processor, f"{made}.o")
    link_by_toolchain(kit, place, f"{made}.o", made)
    put(f"{made}.o", f"{TOP}/build/{PROGRAM}.o")
    put(made, f"{TOP}/build/{PROGRAM}")
    link_beside(place, processor)
    return f"build/{PROGRAM}"
