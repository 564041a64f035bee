"""A crate that has only the definitions that some others rest on: no function has to be proved, so a check from nothing
takes some seconds. Its lemmas evaluate the definitions."""
import os
import re
import subprocess

from specs import is_of_code

CRATE = "ptdefs"
CODE_HEAD = """//! The definitions that the program is proved against, and nothing else.
#![tactic(auto)]

pub mod types;
"""


def name_module(path):
    """The name of a module in the new crate: the crate and the names of the module in one word."""
    _, crate, _, *names = path.split(".")
    return crate.capitalize() + "".join(names)


def find_type(path):
    """The type of the code that a module is about."""
    return [name for name in path.split(".") if name[0].isupper() and name not in ("Rattle", "TheVariants")][-1]


def make_path(path):
    """The path of a module in the new crate."""
    if not is_of_code(path):
        return f"Rattle.{CRATE}.specs.{name_module(path)}"
    variants = ".TheVariants" if path.endswith(".TheVariants") else ""
    return f"Rattle.{CRATE}.specs.declared.types.{find_type(path)}{variants}"


def read_types(folder):
    """The types that the code of a crate declares, by name, without comments and attributes."""
    found = {}
    for at, _, files in os.walk(folder):
        for name in files:
            with open(f"{at}/{name}", encoding="utf-8") as file:
                text = file.read()
            for kind, declared in re.findall(r"^pub(?:\(crate\))? (enum|struct) (\w+)\b", text, re.M):
                whole = re.search(rf"^pub(?:\(crate\))? {kind} {declared}\b[^{{;]*\{{.*?^\}}", text, re.M | re.S)
                if whole:
                    lines = [line for line in whole[0].split("\n") if not re.match(r"\s*(//|#\[)", line)]
                    found[declared] = re.sub(r"pub\(crate\)", "pub", "\n".join(lines))
    return found


def find_declared_types(specs, types):
    """The declarations of these types of the code, and of the types that they mention, by name."""
    left, found, known = sorted(types), {}, {}
    while left:
        path = left.pop(0)
        crate, name = path.split(".")[1], find_type(path)
        if name in found:
            continue
        if crate not in known:
            known[crate] = read_types(f"{specs.crates}/{crate}/src")
        found[name] = known[crate][name]
        mentioned = re.sub(r"^ {4}\w+(?=[,({ ])", "", found[name].partition("{")[2], flags=re.M)
        left += [f"Rattle.{crate}.specs.declared.{word}" for word in re.findall(r"\b[A-Z]\w+", mentioned)
                 if word in known[crate]]
    return found


def format_module(specs, path, definitions):
    """The file of a module in the new crate: what it imports, and its definitions."""
    module, imported, aliases = specs.read_module(path), {}, {}
    for definition in definitions:
        for name, (target, original) in specs.find_uses(path, definition):
            local = name.split(".")[0]
            if local in module.aliases:
                aliases[local] = module.aliases[local]
            elif target != path:
                imported[name] = specs.find_origin(target, original) if not is_of_code(target) else (target, original)
    by_module = {}
    for local, (target, original) in sorted(imported.items()):
        word = original if original == local else f"{original} as {local}"
        by_module.setdefault(make_path(target), []).append(word)
    lines = module.libraries + [f"use {target}.{{{', '.join(words)}}}" for target, words in sorted(by_module.items())]
    lines += [f"use {make_path(target)} as {local}" for local, target in sorted(aliases.items())]
    for definition in definitions:
        lines += ["", *definition.comment, *definition.blocks]
    return "\n".join(lines) + "\n"


def write_file(path, text):
    os.makedirs(os.path.dirname(path), exist_ok=True)
    with open(path, "w", encoding="utf-8") as file:
        file.write(text)


def write_crate(specs, roots, room):
    """Writes what the roots rest on as a crate below the folder `room`, and returns the folder of the crate."""
    needed, types = specs.find_needed(roots)
    crate = f"{room}/crates/{CRATE}"
    write_file(f"{room}/crates.txt", f"{CRATE}:\n")
    write_file(f"{room}/HANDLES", "Handles allowed: none.\n")
    declared = find_declared_types(specs, types)
    texts = [f"\n/// `{name}`.\n#[derive(Clone, Copy)]\n{declared[name]}\n" for name in sorted(declared)]
    write_file(f"{crate}/src/types.rt", "//! The types of the code that the definitions name.\n" + "".join(texts))
    write_file(f"{crate}/src/lib.rt", CODE_HEAD)
    for path, definitions in needed.items():
        write_file(f"{crate}/specs/{name_module(path)}.antt", format_module(specs, path, definitions))
    write_file(f"{crate}/specs/Lib.antt", "".join(f"pub mod {name}\n" for name in sorted(map(name_module, needed))))
    return crate


def check(crate):
    """Checks the crate: whether all is proved, and all that the checker says."""
    done = subprocess.run(["rt", "check", "--jobs", "1"], cwd=crate, capture_output=True, text=True, check=False)
    said = done.stdout + done.stderr
    return "logic=proved" in said, said
