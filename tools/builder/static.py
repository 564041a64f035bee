"""What a C compiler links of the object file of the program (linking.py), in build/, or in build/aarch64:

  ptext-static             the program as one file that needs no shared libraries, which starts fastest
  ptext-by-name-static     the same as a tool by its own name: called as `cut`, it is `ptext cut`
  ptext-by-name            that with the shared C library
  ptext-static.libc        the name of the C library that the static ones contain
  ptext                    the program with the shared C library, where the toolchain links none

`make` and `make test` leave the object file as build/ptext.o. It is taken if the toolchain links it to the very bytes
of build/ptext. Otherwise, and for another processor, it is made here.
"""
import filecmp
import os

from compiling import compile_object, link_by_toolchain
from linking import GLIBC, PROGRAM, SHARED
from project import ARCHIVES, TOP, Failed, put, say, write_text
from proving import Crates, prove


def is_of_program(kit, place):
    """Whether build/ptext.o is the object file of build/ptext: linked as the toolchain does, it is that program."""
    made, linked = f"{TOP}/build/{PROGRAM}.o", f"{place}/linked"
    if not os.path.exists(made):
        return False
    try:
        link_by_toolchain(kit, place, made, linked)
    except Failed:
        return False
    return filecmp.cmp(linked, f"{TOP}/build/{PROGRAM}", shallow=False)


def make_object(kit, place, processor):
    """Makes the object file for a processor."""
    crates, made = Crates(PROGRAM), f"{place}/{PROGRAM}.o"
    compile_object(kit, place, prove(crates, place), crates, processor, made)
    put(made, f"{TOP}/{processor.folder}/{PROGRAM}.o")


def link_all(place, processor, wanted=""):
    """Links the object file with the shared C library, and with the static one that is wanted or there. Returns
    the name of the latter."""
    folder, linked = processor.folder, f"{TOP}/{processor.folder}/{PROGRAM}.o"
    library = processor.find_static_library(wanted)
    # (What is linked of the program is no older.)
    named = [] if processor.is_own else [(PROGRAM, SHARED, False)]
    named.append((f"{PROGRAM}-by-name", SHARED, True))
    if library:
        named += [(f"{PROGRAM}-by-name-static", library, True), (f"{PROGRAM}-static", library, False)]
        write_text(f"{TOP}/{folder}/{PROGRAM}-static.libc", f"{library}\n")
    for name, of, by_name in named:
        processor.link(of, linked, f"{place}/{name}", place, by_name)
        put(f"{place}/{name}", f"{TOP}/{folder}/{name}")
    return library


def build(kit, place, processor, wanted):
    processor.check_compiler("make static")
    if not processor.find_static_library(wanted):
        which = f", {wanted}" if wanted else ""
        raise Failed(f"make static needs a static C library{which} (on Debian: apt install {processor.packages})")
    lacking = [name for name in ARCHIVES if not os.path.exists(f"{kit}/{name}")]
    if lacking:
        raise Failed(f"the toolchain in {kit} has no {lacking[0]}: it is another kit than the README names")
    if not processor.is_own or not is_of_program(kit, place):
        say(f"making the object file for {processor.name}: some two minutes, once the libraries are proved")
        make_object(kit, place, processor)
    library = link_all(place, processor, wanted)
    slower = " (with musl it starts faster: musl-tools)" if library == GLIBC else ""
    say(f"linked with {library}{slower}")
    return f"{processor.folder}/{PROGRAM}-static"
