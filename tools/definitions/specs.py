"""The definitions in crates/*/specs: their text, their comments, and which other definitions they name."""
import os
import re
from typing import NamedTuple

TOP = os.path.dirname(os.path.dirname(os.path.dirname(os.path.realpath(__file__))))
LIBRARIES = ["ptlines", "ptlangs", "ptopts", "ptflow", "ptmerge", "ptrun", "ptfiles", "ptext"]
HEADING = "-- ---- "
NAME = r"[^\s(){}\[\],;]+"


class Definition(NamedTuple):
    """A definition: its names (a `data` has those of its constructors too), its kind, its comment, the heading above
    it, and its blocks, which are the declaration and the clauses. Definitions with common parameters are one."""

    names: list
    kind: str
    comment: list
    heading: str
    blocks: list

    def list_lines(self):
        """Its lines, without comments."""
        return [line for block in self.blocks for line in block.split("\n") if not line.strip().startswith("--")]


def split_blocks(text):
    """The items of a file, each with the comment above it and the heading before that. An item begins at the margin."""
    blocks, comment, heading = [], [], ""
    for line in text.split("\n"):
        if line.startswith(HEADING):
            heading, comment = line[len(HEADING) :], []
        elif line.startswith("--"):
            comment.append(line)
        elif not line.strip():
            comment = comment if blocks else []
        elif line[0] in " )]}" and blocks:
            blocks[-1][2] += "\n" + line
        else:
            blocks.append([comment, heading, line])
            comment = []
    return blocks


def remove_comments(text):
    """A text of definitions without its comments and its strings."""
    lines = [line.split(" -- ")[0] for line in text.split("\n") if not line.strip().startswith("--")]
    return re.sub(r'"(\\.|[^"\\])*"', " ", "\n".join(lines))


def find_bound_names(block):
    """The names that a clause binds itself: its parameters, and those of `λ` and `let`."""
    head, equals, _ = block.partition(" =")
    is_clause = equals and " : " not in head.partition("(")[0] and not block.startswith(("module ", "pub module "))
    bound = set(re.findall(NAME, head)[1:]) if is_clause else set()
    bound |= set(re.findall(rf"λ \(?({NAME}?)(?: :|\.)", block)) | set(re.findall(rf"\blet ({NAME})", block))
    return {name for name in bound if name[0].islower()}


def find_names(block):
    """The names that a block may mean: words, and words of a module with a dot between. Fields of records are none."""
    text = re.sub(rf"(?:(?<=[{{;])|\bpub|^)(\s+){NAME} (?==|:)", r"\1", remove_comments(block), flags=re.M)
    words = set(re.findall(NAME, text))
    found = words | {word.split(".")[0] for word in words} | {re.sub(r"\.$", "", word) for word in words}
    return found - find_bound_names(block)


class Module:
    """A file of specs, by its crate and its name: its definitions in order, and what it imports."""

    def __init__(self, crate, name, path):
        self.crate, self.name, self.path = crate, name, path
        self.imports, self.aliases, self.libraries = {}, {}, []
        self.definitions, self.named = [], {}
        with open(path, encoding="utf-8") as file:
            text = file.read()
        self.introduction = re.match(r"(?:--.*\n)*", text)[0].splitlines()
        last = None
        for comment, heading, block in split_blocks(text):
            last = self.take(comment, heading, block, last)

    def take(self, comment, heading, block, last):
        """Takes an item of the file. Returns the definition to which the clauses after it belong."""
        flat = " ".join(block.split())
        if flat.startswith(("use ", "pub use ")):
            self.take_import(block, flat)
            return None
        if flat.startswith(("pub mod ", "mod ")):
            return None
        if flat.startswith("module "):
            begin = r"(?:abbrev|unfoldable) (?:pub )?|(?:pub )?(?:record|data) "
            names = re.findall(rf"^ +(?:{begin})({NAME})", block, re.M)
            self.define(names, "module", comment, heading, block)
            return None
        found = re.match(rf"(?:pub )?(data|record) (?:pub )?({NAME})", flat)
        if found:
            names = [found[2]] + (re.findall(rf"^  ({NAME}) :", block, re.M) if found[1] == "data" else [])
            self.define(names, found[1], comment, heading, block)
            return None
        found = re.match(rf"(?:(?:abbrev|unfoldable|opaque|pub) )*({NAME}) :", flat)
        if found:
            return self.define([found[1]], "function", comment, heading, block)
        if last is not None:
            last.blocks.append(block)
        return last

    def define(self, names, kind, comment, heading, block):
        definition = Definition(names, kind, comment, heading, [block])
        self.definitions.append(definition)
        self.named.update(dict.fromkeys(names, definition))
        return definition

    def take_import(self, block, flat):
        """Keeps an import of a definition of this repository, by its local name, and any other as it is."""
        found = re.match(r"(?:pub )?use (\S+?)(?:\.\{(.*)\})?(?: as (\S+))?$", flat)
        module, names, alias = found.groups()
        if module.split(".")[1] not in LIBRARIES:
            self.libraries.append(block)
        elif names is None:
            self.aliases[alias or module.split(".")[-1]] = module
        else:
            for name in names.split(","):
                original, _, local = name.strip().partition(" as ")
                self.imports[local or original] = (module, original)


def is_of_code(module):
    """Whether a module is that of a type of the code, or of the contracts of one."""
    return ".declared." in module or ".contracts." in module


class Specs:
    """All modules below a folder with crates."""

    def __init__(self, crates=f"{TOP}/crates"):
        self.crates, self.known = crates, {}

    def read_module(self, path):
        """The module of a path such as Rattle.ptflow.specs.Cuts."""
        if path not in self.known:
            _, crate, _, *names = path.split(".")
            name = ".".join(names)
            self.known[path] = Module(crate, name, f"{self.crates}/{crate}/specs/{'/'.join(names)}.antt")
        return self.known[path]

    def list_modules(self):
        """The paths of all modules of the libraries and the program, in order."""
        for crate in LIBRARIES:
            folder = f"{self.crates}/{crate}/specs"
            for at, _, files in sorted(os.walk(folder)):
                for file in sorted(files):
                    name = os.path.relpath(f"{at}/{file}", folder).removesuffix(".antt").replace("/", ".")
                    yield f"Rattle.{crate}.specs.{name}"

    def find_origin(self, path, name):
        """Where a name comes from: the module that defines it, and its name there."""
        module = self.read_module(path)
        while name not in module.named:
            path, name = module.imports[name]
            if is_of_code(path):
                break
            module = self.read_module(path)
        return path, name

    def find_uses(self, path, definition):
        """The names in a definition: (module, name), with the local name; those of the code too."""
        module = self.read_module(path)
        for name in set().union(*(find_names(block) for block in definition.blocks)):
            if name in module.named and module.named[name] is not definition:
                yield name, (path, name)
            elif name in module.imports and name not in definition.names:
                yield name, module.imports[name]
            elif name in module.aliases and is_of_code(module.aliases[name]):
                yield name, (module.aliases[name], None)
            elif "." in name and name.split(".")[0] in module.aliases:
                alias, _, member = name.partition(".")
                if not is_of_code(module.aliases[alias]):
                    yield name, (module.aliases[alias], member.split(".")[0])

    def find_needed(self, roots):
        """The definitions that some rest on, themselves included: for each module those that are needed, and the types
        of the code. A root is a pair of a module and a name."""
        needed, types, left = {}, set(), list(roots)
        while left:
            path, name = left.pop()
            if not is_of_code(path):
                path, name = self.find_origin(path, name)
            if is_of_code(path):
                types.add(path)
                continue
            definition = self.read_module(path).named[name]
            chosen = needed.setdefault(path, [])
            if not any(definition is other for other in chosen):
                chosen.append(definition)
                left += [target for _, target in self.find_uses(path, definition)]
        return {path: self.sort(path, chosen) for path, chosen in needed.items()}, types

    def sort(self, path, chosen):
        """Definitions of a module in the order of its file."""
        return [known for known in self.read_module(path).definitions if any(known is other for other in chosen)]


def parse_root(text):
    """The root that a text such as ptrun.SpecOfArgs.spec_of_args names."""
    crate, _, rest = text.partition(".")
    module, _, name = rest.rpartition(".")
    return f"Rattle.{crate}.specs.{module}", name


def count_lines(definitions):
    """The number of lines of definitions, without comments."""
    return sum(len(definition.list_lines()) for definition in definitions)
