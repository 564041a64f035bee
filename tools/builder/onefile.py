"""The tools as one program in C, build/onefile/ptext.c: the module of `make page` without vectors, as wasm2c (Debian's
wabt) writes it in C, between the two files of bindings/onefile. It needs a compiler of C11 and POSIX, and no toolchain.

Of the text of wasm2c the functions are taken. Its memory, its globals and its calls of the host become plain static
ones, for which runtime.h and host.c have what they use.
"""
import os
import re
import shutil

from project import TOP, Failed, read_text, read_version, run, say, write_text

# The module without vectors, which page.py puts here if it can make one.
MODULE = f"{TOP}/build/onefile/ptext.wasm"
HEAD = """/* ptext {version}: cut, paste, join, comm, uniq and tr. Their functions were proved before a compiler and
 * wasm2c made this text of them. To compile it:   cc -O2 -w -o ptext ptext.c
 * LICENSES has the licenses of what it contains. */
"""
# The calls of the host, as runtime.h has their numbers.
HOST = """static u64 host_read(u32, u64, u64);
static u64 host_write(u32, u64, u64);
static void host_rattle_alloc(u64, u64, u64);
static void host_rattle_realloc(u64, u64, u64, u64, u64);
static void host_rattle_dealloc(u64);
"""


def find(pattern, text):
    """What the group of a pattern matches in the text of wasm2c."""
    found = re.search(pattern, text, re.S | re.M)
    if not found:
        raise Failed(f"wasm2c is another one than this script knows (1.0.32): its text lacks {pattern}")
    return found[1]


def make_plain(text):
    """Functions of wasm2c without the instance of the module, of which there is only one."""
    for pattern, to in [
        (r"&instance->w2c_memory, ", ""),
        (r"instance->w2c_", "w2c_"),
        (r"\(\*Z_hostZ_(\w+)\)\(instance->Z_host_instance, ", r"host_\1("),
        (r"\bZ_ptext_instance_t\*(?: instance)?(?:, )?", ""),
        (r"\(instance(?:, )?", "("),
        (r"(?m)^  FUNC_(?:PROLOGUE|EPILOGUE);\n", ""),
        (r"\(\) \{", "(void) {"),
    ]:
        text = re.sub(pattern, to, text)
    return text


def make_source(text, header):
    """The program, from the two files of wasm2c."""
    segments = re.findall(r"^static const u8 data_segment_\w+\[\] = \{.*?\};", text, re.S | re.M)
    memory = find(r"^static void init_memories\((.*?)^\}", text)
    lays = re.findall(r"LOAD_DATA\(instance->w2c_memory, (\w+), (\w+), (\d+)\);", memory)
    kinds = {name: kind for kind, name in re.findall(r"^\s*(\w+) (w2c_\w+);", header, re.M)}
    values = re.findall(r"instance->(w2c_\w+) = (\w+);", find(r"^static void init_globals\((.*?)^\}", text))
    declared = re.findall(r"^static \w+ w2c_\w+\(Z_ptext_instance_t\*.*?\);", text, re.M)
    functions = find(r"^(static \w+ w2c_\w+\(Z_ptext_instance_t\* instance.*?)^/\* export: ", text)
    exported = {
        "HEAP_BASE": find(r"Z_ptextZ___heap_base\(\w+\* \w+\) \{\s*return &instance->(\w+);", text),
        "name_files": find(r"Z_ptextZ_ptext_names_in_memory\([^)]*\) \{\s*(?:return )?(\w+)\(", text),
        "run_streams": find(r"Z_ptextZ_ptext_run_streams\([^)]*\) \{\s*(?:return )?(\w+)\(", text),
    }
    parts = [
        HEAD.format(version=read_version()),
        read_text(f"{TOP}/bindings/onefile/runtime.h"),
        "/* ---- the module */",
        HOST,
        *(f"static {kinds[name]} {name} = {value};" for name, value in values),
        *segments,
        *(make_plain(it).replace("();", "(void);") for it in declared),
        make_plain(functions),
        f"#define PAGES {find(r'wasm_rt_allocate_memory[(]&instance->w2c_memory, ([0-9]+),', memory)}u",
        *(f"#define {name} {of}" for name, of in exported.items()),
        "static void lay_data(void) {",
        *(f"    memcpy(memory + {at}, {name}, {size});" for at, name, size in lays),
        "}\n",
        read_text(f"{TOP}/bindings/onefile/host.c"),
    ]
    return "\n".join(parts)


def build(_, place):
    if not os.path.exists(MODULE) or not shutil.which("wasm2c"):
        raise Failed("make onefile needs wasm2c and wasm-opt (on Debian: apt install wabt binaryen), then make page")
    run(["wasm2c", "-n", "ptext", MODULE, "-o", f"{place}/ptext.c"], place)
    made = f"{TOP}/build/onefile/ptext.c"
    write_text(made, make_source(read_text(f"{place}/ptext.c"), read_text(f"{place}/ptext.h")))
    return os.path.relpath(made, TOP)
