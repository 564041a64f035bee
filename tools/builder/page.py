"""The tools over streams as WebAssembly: in one page without other files, build/page/ptext.html, as a package for node,
build/node; and for the program in C, which onefile.py makes, build/onefile/ptext.wasm.

The gate proves the crates below `ptrunc`, or takes what it proved on this machine, as for the library for C. It has no
place for crates of WebAssembly. So the module is made here from copies: `ptrunc` as it is, except for its heap and its
reads and writes; and these two, which are the toolchain's with their calls of C taken from the host. All copies are
checked as any crate, over what an earlier run kept, before they are compiled. docs/LIBRARY.md says what that shows.

The compiler makes modules with 64-bit addresses only, and without vectors. wasm-opt (Debian's binaryen) gives the
module 32-bit addresses, which every browser knows; without wasm-opt it stays as it is. With Debian's wabt, too, the
module of the page and of node has vectors. (wasm2c knows none: that of the program in C has not.)
"""
import base64
import html
import json
import os
import re
import shlex
import shutil
import subprocess
import sys
import tempfile

sys.path.append(os.path.join(os.path.dirname(os.path.dirname(os.path.dirname(os.path.realpath(__file__)))), "tests"))

from compiling import make_toolchain
from examples import find_examples
from library import CRATE, KEPT, make_words
from names import NAMES
from onefile import MODULE
from project import TOP, Failed, put, read_text, read_version, run, say, write_bytes, write_text
from proving import Crates, describe_kept, leave_out, prove

WASM = "wasm64-unknown-unknown"
# The stack of the module, in bytes. (The calls of the program take a few tens of thousands.)
STACK = 4 * 2**20
# The sections of a module with its table of functions, with its exports, and with what is in the table.
TABLE, EXPORTS, ELEMENTS = 4, 7, 9
# The parts of WebAssembly that the compiler uses (its processor `lime1`). All browsers have those but memory64.
FEATURES = ["bulk-memory", "multivalue", "mutable-globals", "nontrapping-float-to-int", "sign-ext", "simd"]
# The programs that make a module with vectors.
NEEDED = ["wasm-opt", "wasm2wat", "wat2wasm"]
# Options of clang for it. (The compiler hands none on.) It inlines a function into its only caller even if both are
# large, and V8 needs memory by the largest function. All costs and limits are four times the usual ones, except the
# bonus for an only caller.
FOR_V8 = "-msimd128 -mllvm -inline-instr-cost=20 -mllvm -inline-threshold=1000 -mllvm -inlinehint-threshold=1300"
# The loads and stores of vectors whose addresses wasm-opt 108 leaves at 64 bits, in the text of a module. The address
# is the last operand; in those of one lane, the one before the vector.
OF_VECTOR = re.compile(r"\s*v128\.load(\d+_splat|\d+_zero|8x8_[su]|16x4_[su]|32x2_[su])\b")
OF_LANE = re.compile(r"\s*v128\.(load|store)\d+_lane\b")
# How many files the page has room for.
FILES = 2
HEAP = "hostheap"
HEAP_KEPT = f"{TOP}/build/{HEAP}-kept"
MODULE_KEPT = f"{TOP}/build/module-kept"
# The changes in the copy of the toolchain's heap: in its code, in the declarations of its calls, and in its proofs.
IN_CODE = [
    ("libc::heap::", "crate::heap::"),
    ("mod cmp;\npub mod impls;\n", "mod heap;\n"),
]
IN_CALLS = [
    ('\nunsafe extern "C" {', '\n#[link(wasm_import_module = "host")]\nunsafe extern "C" {'),
    ("crate::types::Tried", "libc::types::Tried"),
]
IN_PROOFS = [
    ("Rattle.std_heap.", f"Rattle.{HEAP}."),
    ("Rattle.libc.specs.contracts.heap.", f"Rattle.{HEAP}.specs.contracts.heap."),
    ("Rattle.libc.proofs.heap.", f"Rattle.{HEAP}.proofs.heap."),
    ("code.calls-libc::heap::", f"code.calls-{HEAP}::heap::"),
]
# The copy of the toolchain's crate `io`, of which only the functions that read and write are taken.
IO = "hostio"
IO_KEPT = f"{TOP}/build/{IO}-kept"
IN_IO = [
    ("mod number;\n", "mod calls;\n"),
    ("pub use number::{decimal, hex, print_decimal, print_hex};\n", ""),
    ("libc::read(", "crate::calls::read("),
    ("libc::write(", "crate::calls::write("),
    ("Rattle.io.", f"Rattle.{IO}."),
]
IO_CALLS = """ghost use Rattle.core.specs.Prelude.{length};
ghost use Rattle.libc.specs.Io.{Moved};

#[link(wasm_import_module = "host")]
unsafe extern "C" {
CALLS}
"""
# The changes in the copy of `ptrunc`, by file.
IN_CRATE = {
    "src/lib.rt": [("use std::alloc::Global;", f"use {HEAP}::Global;")],
    "src/host.rt": [("use io::", f"use {IO}::")],
}


def copy_changed(source, to, pairs):
    """Copies a file and puts the second text of each pair in the place of the first."""
    text = read_text(source)
    for old, new in pairs:
        if old not in text:
            raise Failed(f"{source} is another one than this script knows: it lacks {old!r}")
        text = text.replace(old, new)
    write_text(to, text)


def change_proof(text):
    for old, new in IN_PROOFS:
        text = text.replace(old, new)
    return text


def make_heap(kit, place):
    """Makes the heap of the module in the place, and proves it."""
    made, of_kit = f"{place}/{HEAP}", f"{kit}/rattle/std_heap"
    copy_changed(f"{of_kit}/src/lib.rt", f"{made}/src/lib.rt", IN_CODE)
    copy_changed(f"{kit}/rattle/libc/src/heap.rt", f"{made}/src/heap.rt", IN_CALLS)
    for folder, _, names in os.walk(f"{of_kit}/proofs"):
        for name in names:
            inside = os.path.relpath(f"{folder}/{name}", of_kit)
            write_text(f"{made}/{inside}", change_proof(read_text(f"{folder}/{name}")))
    prove_copy(kit, place, HEAP, HEAP_KEPT)


def make_io(kit, place):
    """Makes the reads and writes of the module in the place, and proves them."""
    made, of_kit = f"{place}/{IO}", f"{kit}/rattle/io"
    declared = read_text(f"{kit}/rattle/libc/src/lib.rt")
    calls = [re.search(rf"    pub safe fn {name}\(.*?;\n", declared, re.S) for name in ("read", "write")]
    if None in calls:
        raise Failed(f"{kit}/rattle/libc is another one than this script knows")
    copy_changed(f"{of_kit}/src/lib.rt", f"{made}/src/lib.rt", IN_IO)
    write_text(f"{made}/src/calls.rt", IO_CALLS.replace("CALLS", "\n".join(call[0] for call in calls)))
    for name in ("specs/Counts", "proofs/write_all/Invariants", "proofs/read_full/Invariants", "proofs/Counting"):
        text = read_text(f"{of_kit}/{name}.antt")
        write_text(f"{made}/{name}.antt", text.replace("Rattle.io.", f"Rattle.{IO}."))
    write_text(f"{made}/specs/Lib.antt", "pub mod Counts\n")
    write_text(f"{made}/proofs/Lib.antt", "pub mod Counting\n")
    prove_copy(kit, place, IO, IO_KEPT)


def prove_copy(kit, place, crate, kept):
    """Proves a copy of a crate of the toolchain."""
    words = ["--crate-name", crate, "src/lib.rt"]
    for name in ("core", "libc"):
        words += ["--extern", f"{name}={kit}/rlibs/{name}.rlib"]
    words += ["-L", f"dependency={kit}/rlibs", "--antt-project", f"{kit}/rattle/logic/antt-project.json"]
    words += ["--logic-built", f"{kit}/logic_built", "--jobs", "2", "--incremental", kept]
    run([f"{kit}/bin/rattle", "build", *words, "-o", f"{place}/rlib/{crate}.rlib"], f"{place}/{crate}")


def copy_crate(kit, place, room, crates):
    """Makes the copy of `ptrunc` in the place. Returns the words that prove it and compile it."""
    made = f"{place}/{CRATE}"
    shutil.copytree(f"{TOP}/crates/{CRATE}", made, ignore=leave_out)
    for name, pairs in IN_CRATE.items():
        copy_changed(f"{TOP}/crates/{CRATE}/{name}", f"{made}/{name}", pairs)
    # (Most of the proof is that for the library. Each of the two keeps its own.)
    if os.path.isdir(f"{TOP}/build/{KEPT}") and not os.path.isdir(MODULE_KEPT):
        shutil.copytree(f"{TOP}/build/{KEPT}", MODULE_KEPT)
    words = make_words(kit, room, crates, MODULE_KEPT, WASM)
    for name in (HEAP, IO):
        words += ["--extern", f"{name}={place}/rlib/{name}.rlib"]
    return [*words, "-L", f"dependency={place}/rlib"]


def compile_crate(kit, place, words, toolchain):
    """The bytes of a module with 64-bit addresses. (The second time its proof is kept.)"""
    run([*words, "--toolchain", toolchain, "-o", f"{place}/ptext.a"], f"{place}/{CRATE}")
    link = ["--target", WASM, "--toolchain", toolchain, "--stack", str(STACK)]
    run([f"{kit}/bin/rattle-link", *link, "-o", f"{place}/ptext64.wasm", f"{place}/ptext.a"], place)
    with open(f"{place}/ptext64.wasm", "rb") as file:
        return file.read()


def make_modules(kit, place, words):
    """Makes ptext.wasm in the place, and plain.wasm, which has no vectors."""
    plain, to = compile_crate(kit, place, words, f"{kit}/toolchain"), f"{place}/plain.wasm"
    if not shutil.which("wasm-opt"):
        say("there is no wasm-opt (on Debian: apt install binaryen wabt): the module needs 64-bit memories")
        write_bytes(to, plain)
    else:
        write_bytes(to, reduce(plain))
        lower(to)
    if not all(map(shutil.which, NEEDED)):
        say("there is no wabt (on Debian: apt install binaryen wabt): the module has no vectors, and is slower")
        shutil.copy(to, f"{place}/ptext.wasm")
        return
    vectors, to = compile_crate(kit, place, words, make_toolchain(kit, place, FOR_V8)), f"{place}/ptext.wasm"
    write_bytes(to, reduce(vectors))
    wide = ["--enable-memory64", "--no-check"]
    run(["wasm2wat", *wide, to, "-o", f"{to}.wat"], place)
    write_text(f"{to}.wat", narrow_vectors(read_text(f"{to}.wat")))
    run(["wat2wasm", *wide, f"{to}.wat", "-o", to], place)
    lower(to)


def narrow_vectors(text):
    """The text of a module in which the loads and stores of vectors that wasm-opt leaves have 32-bit addresses."""
    made, head = [], None
    for line in text.splitlines(True):
        # (A function declares a variable for a vector once, after its own variables.)
        if line.startswith(("  (func ", "    (local ")):
            head = len(made) + 1
        if OF_VECTOR.match(line):
            made.append("i32.wrap_i64\n")
        elif OF_LANE.match(line):
            if head is not None:
                made.insert(head, "    (local $lane v128)\n")
                head = None
            made.append("local.set $lane\ni32.wrap_i64\nlocal.get $lane\n")
        made.append(line)
    return "".join(made)


def read_number(data, at):
    """A number of a module (LEB128), and where it ends."""
    value = shift = 0
    while True:
        value |= (data[at] & 127) << shift
        at, shift = at + 1, shift + 7
        if data[at - 1] < 128:
            return value, at


def make_number(value):
    return bytes([value & 127 | 128]) + make_number(value >> 7) if value > 127 else bytes([value])


def leave_export_out(body, name):
    """The body of a section of exports without this one. (Each has a name, a byte for its kind, and a number.)"""
    count, at = read_number(body, 0)
    made = b""
    for _ in range(count):
        size, begin = read_number(body, at)
        end = read_number(body, begin + size + 1)[1]
        made += b"" if body[begin : begin + size] == name else body[at:end]
        at = end
    return make_number(count - 1) + made


def reduce(data):
    """A module without its table of functions, which has 64-bit indices and which nothing uses, and without the export
    of runs over bytes in memory, which are runs over streams here."""
    made, at = data[:8], 8
    while at < len(data):
        kind, (size, begin) = data[at], read_number(data, at + 1)
        body, at = data[begin : begin + size], begin + size
        if kind == ELEMENTS:
            raise Failed("the module calls functions by a table, whose indices have 64 bits")
        if kind == EXPORTS:
            body = leave_export_out(body, b"ptext_run_in_memory")
        made += b"" if kind == TABLE else bytes([kind]) + make_number(len(body)) + body
    return made


def lower(path):
    """Gives a module 32-bit addresses, and checks it."""
    known = [f"--enable-{name}" for name in FEATURES]
    stripped = [f"--strip-{name}" for name in ("debug", "producers", "target-features")]
    does = ["--memory64-lowering", "--remove-unused-module-elements", *stripped]
    # (Before, some addresses may be lowered: so it is checked afterwards only.)
    run(["wasm-opt", "--no-validation", "--enable-memory64", *known, *does, path, "-o", path], os.path.dirname(path))
    run(["wasm-opt", *known, path, "-o", os.devnull], os.path.dirname(path))


# ---- the page


def run_shell(command, folder):
    """The output of a command that makes an input."""
    return subprocess.run(["sh", "-c", command], cwd=folder, capture_output=True, text=True, check=True).stdout


def fill_fields(command, folder):
    """The fields of the page for an example: the commands of ptext, and the inputs that others make."""
    makes, ptext, rest = command.partition("ptext ")
    text = (ptext + rest).removesuffix("; echo $?").replace("| ptext ", "| ").removeprefix("ptext ")
    found = {"command": text, "stdin": run_shell(makes.strip().removesuffix("|"), folder) if makes else ""}
    names = dict.fromkeys(word for word in shlex.split(text) if os.path.isfile(f"{folder}/{word}"))
    if len(names) > FILES:
        raise Failed(f"page.html has no room for more than {FILES} files, which an example in man/ has: {command}")
    for number, name in enumerate(names, 1):
        found |= {f"name{number}": name, f"file{number}": read_text(f"{folder}/{name}")}
    return found


def find_examples_of_tools():
    """The examples of the pages of the tools, with the name of the tool. Of those with the same command, only the first
    is taken: nobody could tell two buttons with the same text apart."""
    for tool in NAMES:
        known = []
        with tempfile.TemporaryDirectory() as folder:
            for _, command, _ in find_examples(f"man/ptext-{tool}.1"):
                if "ptext " in command:
                    example = fill_fields(command, folder)
                    if example["command"] not in known:
                        yield tool, example
                    known.append(example["command"])
                elif " > " in command:
                    run_shell(command, folder)


def make_buttons(all_examples):
    """The buttons of each tool, of which all but the first are hidden. On a phone that has the tool's name only."""
    text = ""
    for tool in NAMES:
        text += f'<div role="group" aria-label="{tool}">\n'
        more = ""
        for number, (of, example) in enumerate(all_examples):
            if of == tool:
                name, blank, words = html.escape(example["command"]).partition(" ")
                code = f'<code>{name}<span class="words">{blank}{words}</span></code>'
                stop = -1 if number else 0
                text += f'<button type="button" data-example="{number}" tabindex="{stop}"{more}>{code}</button>\n'
                more = ' class="rest" hidden'
        text += "</div>\n"
    return text


def read_script(name):
    """A module of bindings/page as a plain script."""
    text = re.sub(r"^import .*\n", "", read_text(f"{TOP}/bindings/page/{name}"), flags=re.M)
    return re.sub(r"^export ", "", text, flags=re.M)


def make_licenses():
    """The licenses of what the module contains. (The parts of the C library and of gcc are in the program only.)"""
    parts = read_text(f"{TOP}/debian/copyright").split("\n\n")
    of_module = [part for part in parts if not re.search(r"^(Files: toolchain/|License: L?GPL)", part, re.M)]
    texts = [read_text(f"{TOP}/LICENSE-{name}") for name in ("MIT", "APACHE")]
    return "\n\n".join([*texts, *of_module])


def make_page(wasm):
    """The text of the page."""
    all_examples = list(find_examples_of_tools())
    with open(wasm, "rb") as file:
        encoded = base64.b64encode(file.read()).decode()
    parts = {
        "page.css": read_text(f"{TOP}/bindings/page/page.css"),
        "buttons": make_buttons(all_examples),
        "version": read_version(),
        "licenses": html.escape(make_licenses()),
        "module": encoded,
        # (Within a script, `</` could end it.)
        "examples": json.dumps([example for _, example in all_examples]).replace("</", "<\\/"),
        "library": "".join(read_script(name) for name in ("ptext.mjs", "command.mjs", "shown.mjs")),
        "worker.mjs": read_script("worker.mjs"),
        "page.mjs": read_script("page.mjs"),
    }
    return re.sub(r"\{\{([\w.]+)\}\}", lambda found: parts[found[1]], read_text(f"{TOP}/bindings/page/page.html"))


def make_package(wasm):
    """The package for node, in build/node."""
    made = f"{TOP}/build/node"
    for name in os.listdir(f"{TOP}/bindings/node"):
        if name.endswith((".mjs", ".ts")):
            put(f"{TOP}/bindings/node/{name}", f"{made}/{name}")
    put(f"{TOP}/bindings/page/ptext.mjs", f"{made}/module.mjs")
    put(wasm, f"{made}/ptext.wasm")
    section = re.search(r"^## JavaScript\n(.*?)^## ", read_text(f"{TOP}/docs/LIBRARY.md"), re.M | re.S)
    write_text(f"{made}/README.md", f"# ptext {read_version()}\n{section[1]}")
    write_text(f"{made}/LICENSES", make_licenses())
    text = read_text(f"{TOP}/bindings/node/package.json")
    write_text(f"{made}/package.json", text.replace("VERSION", read_version()))


def build(kit, place):
    crates = Crates(CRATE)
    say(f"proving the {len(crates.names)} crates below {CRATE}, which takes minutes; {describe_kept(crates)}")
    room = prove(crates, place)
    say(f"proving {CRATE} over the heap of a page, and compiling it: a minute or two")
    os.makedirs(f"{TOP}/build/page", exist_ok=True)
    os.mkdir(f"{place}/rlib")
    make_heap(kit, place)
    make_io(kit, place)
    make_modules(kit, place, copy_crate(kit, place, room, crates))
    make_package(f"{place}/ptext.wasm")
    put(f"{place}/plain.wasm", MODULE)
    write_text(f"{place}/ptext.html", make_page(f"{place}/ptext.wasm"))
    put(f"{place}/ptext.html", f"{TOP}/build/page/ptext.html")
    return "build/page/ptext.html"
