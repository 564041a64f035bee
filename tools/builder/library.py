"""The library for C in build/ or build/aarch64, and with musl, where that is, in the folder musl there: libptext.a,
libptext.so.VERSION and its links, ptext.h and ptext.pc.

The gate proves the crates below `ptrunc`, or takes what it proved on this machine. Then `ptrunc` is proved for that
processor and compiled to an archive. bindings/c/ptext.c and stream.c, which check what the caller gives, and heap.c
and stack.c of native/ are added to it, and gcc links the shared library from that. Both libraries export nothing but
the calls of ptext.h.
"""
import glob
import os
import shutil
import subprocess

from compiling import find_toolchain
from linking import FLAGS, GLIBC, MUSL
from project import TOP, Failed, put, read_version, run, say, write_text
from proving import Crates, describe_kept, prove

CRATE = "ptrunc"
# The proof of the crate as it is kept for the next run. (The gate proves it from nothing.)
KEPT = f"{CRATE}-kept"
# The first number of the version is that of the interface: programs link with libptext.so.0.
EXPORTED = ["ptext_run", "ptext_names", "ptext_words", "ptext_version", "ptext_stream", "ptext_open", "ptext_next"]
EXPORTED += ["ptext_close", "ptext_read_descriptor", "ptext_write_descriptor"]
# The calls that the crate makes: of the C library, and of the toolchain for memory. Those that are named twice are
# bound to functions of bindings/c/stream.c.
BOUND = {
    "read": "ptext_host_read",
    "write": "ptext_host_write",
    "rattle_alloc": "ptext_host_alloc",
    "rattle_realloc": "ptext_host_realloc",
    "rattle_dealloc": "ptext_host_dealloc",
}
CALLED = {"memcpy", "memmove", "memset", *BOUND}
SETTINGS = """prefix=/usr/local
libdir=${{prefix}}/lib
includedir=${{prefix}}/include

Name: ptext
Description: cut, paste, join, comm, uniq and tr over bytes in memory and streams, proved
Version: {version}
Libs: -L${{libdir}} -lptext
Cflags: -I${{includedir}}
"""


def make_words(kit, room, crates, kept, target):
    """The words with which the compiler proves the crate for a target and compiles it to an archive."""
    words = [*crates.make_words(kit, room, "src/lib.rt"), "--crate-type", "staticlib", "--target", target]
    words += ["--logic-built", f"{kit}/logic_built", "--jobs", "2", "--incremental", kept]
    return [f"{kit}/bin/rattle", "build", *words]


def find_called(archive, processor):
    """The names that an archive leaves to others."""
    how = {"capture_output": True, "text": True, "check": True}
    listed = subprocess.run([f"{processor.prefix}nm", "-u", "--format=posix", archive], **how).stdout
    return {line.split()[0] for line in listed.splitlines() if line.split()[1:2] == ["U"]}


def bind(archive, processor, place):
    """Binds the calls of the crate to stream.c, if they are those that it knows. (Linked without it, the crate would
    read and write descriptors.)"""
    called = find_called(archive, processor)
    if called != CALLED:
        raise Failed(f"the archive of {CRATE} calls {sorted(called)}, and not {sorted(CALLED)}: stream.c has no others")
    to_others = [f"--redefine-sym={name}={to}" for name, to in BOUND.items()]
    run([f"{processor.prefix}objcopy", *to_others, archive], place)


def link(processor, libc, archive, place):
    """Makes both libraries in the place, of the archive of the crate."""
    objects, parts, prefix = f"{place}/objects", f"{place}/parts", processor.prefix
    compiling = [processor.compiler, *FLAGS, "-fPIC", *processor.take(libc), "-c", "-o"]
    os.makedirs(objects)
    os.mkdir(parts)
    for name in ("ptext", "stream"):
        run([*compiling, f"{objects}/{name}.o", f"{TOP}/bindings/c/{name}.c"], place)
    for name in ("heap", "stack"):
        run([*compiling, f"{parts}/{name}.o", f"{TOP}/native/{name}.c"], place)
    run([f"{prefix}ar", "x", archive], parts)
    # (Tests compile bindings/c once more, with sanitizers, and link it with these.)
    run([f"{prefix}ar", "rcsD", f"{place}/parts.a", *sorted(glob.glob(f"{parts}/*.o"))], place)
    # One object, of which only the calls of ptext.h can be seen: other libraries of the toolchain have its names, too.
    one = f"{place}/libptext.o"
    run([f"{prefix}ld", "-r", "-o", one, *sorted(glob.glob(f"{objects}/*.o") + glob.glob(f"{parts}/*.o"))], place)
    run([f"{prefix}objcopy", *(f"--keep-global-symbol={name}" for name in EXPORTED), one], place)
    run([f"{prefix}ar", "rcsD", f"{place}/libptext.a", one], place)
    version = read_version()
    named = f"PTEXT_{version.rpartition('.')[0]}"
    write_text(f"{place}/exports", f"{named} {{ global: {' '.join(f'{name};' for name in EXPORTED)} local: *; }};\n")
    words = ["-shared", "-s", f"-Wl,-soname,libptext.so.{version.partition('.')[0]}", "-Wl,-z,defs"]
    words += [f"-Wl,--version-script={place}/exports", "-o", f"{place}/libptext.so", one]
    run([processor.compiler, *processor.take(libc), *words], place)


def put_library(place, folder):
    """Puts both libraries into a folder, with links to the shared one, and what their users need."""
    version = read_version()
    put(f"{place}/libptext.so", f"{folder}/libptext.so.{version}")
    for name in (f"libptext.so.{version.partition('.')[0]}", "libptext.so"):
        if os.path.lexists(f"{folder}/{name}"):
            os.remove(f"{folder}/{name}")
        os.symlink(f"libptext.so.{version}", f"{folder}/{name}")
    put(f"{TOP}/bindings/c/ptext.h", f"{folder}/ptext.h")
    write_text(f"{folder}/ptext.pc", SETTINGS.format(version=version))
    put(f"{place}/parts.a", f"{folder}/{CRATE}.a")
    put(f"{place}/libptext.a", f"{folder}/libptext.a")


def build(kit, place, processor, _):
    processor.check_compiler("make lib")
    if not shutil.which(f"{processor.prefix}objcopy"):
        raise Failed("make lib needs ar, ld and objcopy (on Debian: apt install binutils)")
    crates, folder, archive = Crates(CRATE), f"{TOP}/{processor.folder}", f"{place}/{CRATE}.a"
    say(f"proving the {len(crates.names)} crates below {CRATE}, which takes minutes; {describe_kept(crates)}")
    room = prove(crates, place)
    say(f"proving {CRATE} and compiling it: a minute or two, or half a minute where an earlier run kept its proof")
    kept, other = f"{folder}/{KEPT}", f"{TOP}/build/{KEPT}"
    # (Most of the proof is the same for each processor.)
    if os.path.isdir(other) and not os.path.isdir(kept):
        shutil.copytree(other, kept)
    os.makedirs(folder, exist_ok=True)
    words = make_words(kit, room, crates, kept, processor.triple)
    words += ["--toolchain", find_toolchain(kit, place, processor)]
    run([*words, "-o", archive], f"{TOP}/crates/{CRATE}")
    bind(archive, processor, place)
    for libc, to in ((MUSL, f"{folder}/musl"), (GLIBC, folder)):
        if libc == GLIBC or processor.find_static_library(libc):
            link(processor, libc, archive, f"{place}/{libc}")
            put_library(f"{place}/{libc}", to)
    return f"{processor.folder}/libptext.so.{read_version()}"
