"""Evaluations step by step, which docs/PROMISE.md shows and the prover computes. Each step has a term and its value. In
terms `[1, 2]` stands for `(1 ∷ 2 ∷ [])`, and a text in quotes for its bytes."""
import re

from specs import Specs
from terms import CRATE, format_lemma, make_path

# The definitions that the terms name.
NAMES = {
    "ptlines.Text": "lines",
    "ptlines.ByteOrder": "byte_cmp",
    "ptlangs.Jobs": "Comm Cut Join Paste Uniq",
    "ptlangs.TrPlan": "ByteMap",
    "ptflow.Uniqs": "key output_of runs",
    "ptflow.Cuts": "select_from",
    "ptflow.PasteText": "join_with_cycle",
    "ptmerge.MergeSpec": "distinct_keys",
    "ptopts.Args": "ParsedOption tool_of_name with_value",
    "ptopts.Commands": "RunUniq command_of_args file_names input_operands order_from read_words",
    "ptopts.Faults": "Fault NeedsValue Together Unknown Value faults",
    "ptrun.Comm": "comm comm_entries",
    "ptrun.Cut": "cut_decided cut_line",
    "ptrun.Decided": "all_received at_end input_of output whole",
    "ptrun.Join": "join join_entries join_fields join_key",
    "ptrun.Lines": "known_lines",
    "ptrun.Merges": "disorder_of merged",
    "ptrun.Messages": "disorder_message fault_message unopened_message usage_text",
    "ptrun.Paste": "columns paste_decided",
    "ptrun.Tr": "squeeze tr",
    "ptrun.Uniq": "uniq_decided",
}
VARIANTS = {"ptlangs.declared.jobs.Show": "Counts", "ptmerge.declared.key_order.Side": "First",
            "ptflow.declared.faults.FlowFault": "Read", "ptopts.declared.inputs.Input": "File, Standard",
            "ptopts.declared.tool.Tool": "Cut as CutTool"}
STEP_ROOTS = [f"{module}.{name}" for module, names in NAMES.items() for name in names.split()]

# What was received of two inputs, by the first and the second operand.
BOTH = 'input_of [Some (whole "a\\na\\nb\\n"), Some (whole "a\\nc\\n")] [0, 1]'
UNENDED = 'input_of [Some (record { bytes = "a\\na\\nb\\n"; eof = false }), Some (whole "a\\nc\\n")] [0, 1]'
DISORDERED = 'input_of [Some (whole "b\\na\\n"), Some (whole "c\\n")] [0, 1]'
PAIRED = 'input_of [Some (whole "a 1\\na 2\\nc 9\\n"), Some (whole "a x\\nb z\\n")] [0, 1]'
COMM = "record { hide1 = false; hide2 = false; hide3 = false; terminator = 10; descending = false }"
JOIN = (
    "record { pairs = true; unpaired1 = false; unpaired2 = false; empty = []; list = None; separator = None; "
    "field1 = 1; field2 = 1; terminator = 10; descending = false }"
)
# For each section of the page: what is evaluated, the job as a name, its type and its value, and the steps.
STEPS = {
    "uniq": ("`uniq -c -f 1` over the lines `1 x`, `2 x`, `3 y`", "counts", "Uniq",
        "record { show = Counts; fields = 1; chars = 0; terminator = 10 }", [
        ('lines 10 "1 x\\n2 x\\n3 y\\n"', '["1 x", "2 x", "3 y"]'),
        ('map (key counts) ["1 x", "2 x", "3 y"]', '[" x", " x", " y"]'),
        ('runs counts ["1 x", "2 x", "3 y"]',
            '[record { line = "1 x"; count = 2 }, record { line = "3 y"; count = 1 }]'),
        ('output_of counts (runs counts ["1 x", "2 x", "3 y"])', '"2 1 x\\n1 3 y\\n"'),
        ('uniq_decided counts (record { bytes = "1 x\\n2 x\\n"; eof = false })', "[]"),
        ('uniq_decided counts (record { bytes = "1 x\\n2 x\\n3 y\\n"; eof = false })', '"2 1 x\\n"'),
        ('at_end (RunUniq counts) [0] (all_received [Some "1 x\\n2 x\\n3 y\\n"])', '"1 3 y\\n"'),
        ('output (RunUniq counts) [0] (all_received [Some "1 x\\n2 x\\n3 y\\n"])', '"2 1 x\\n1 3 y\\n"'),
    ]),
    "cut": ("`cut -d , -f 1,3` over `a,b,c`, `x` and an unfinished `y,`", "fields", "Cut",
        "record { fields = true; selected = λ n. n == 1 || n == 3; delimiter = 44; only = false; terminator = 10 }", [
        ('known_lines 10 (record { bytes = "a,b,c\\nx\\ny,"; eof = false })', '["a,b,c", "x"]'),
        ('slice_split (λ b. b == 44) "a,b,c"', '["a", "b", "c"]'),
        ('select_from fields.selected 1 ["a", "b", "c"]', '["a", "c"]'),
        ('cut_line fields "a,b,c"', '["a,c"]'),
        ('cut_line fields "x"', '["x"]'),
        ('cut_decided fields (record { bytes = "a,b,c\\nx\\ny,"; eof = false })', '"a,c\\nx\\n"'),
        ('cut_decided fields (record { bytes = "a,b,c\\nx\\ny,"; eof = true })', '"a,c\\nx\\ny\\n"'),
    ]),
    "paste": ("`paste -d , - -` over the lines `1`, `2`, `3`", "two", "Paste",
        "record { serial = false; delimiters = [Some 44]; terminator = 10 }", [
        ('columns [0, 0] (λ input. ["1", "2", "3"])', '[["1", "3"], ["2"]]'),
        ('join_with_cycle [Some 44] 0 ["3", []]', '"3,"'),
        ('paste_decided two [0, 0] (λ input. record { bytes = "1\\n2\\n3\\n"; eof = false })', '"1,2\\n"'),
        ('paste_decided two [0, 0] (λ input. whole "1\\n2\\n3\\n")', '"1,2\\n3,\\n"'),
    ]),
    "comm": ("`comm f g` over `a`, `a`, `b` and `a`, `c`", "all", "Comm", COMM, [
        ('distinct_keys byte_cmp ["a", "a", "b", "a", "c"]', '["a", "b", "c"]'),
        ('comm_entries all "a" ["a", "a"] ["a"]', '["\\t\\ta", "a"]'),
        (f"merged (comm all) ({BOTH})", '"\\t\\ta\\na\\nb\\n\\tc\\n"'),
        (f"merged (comm all) ({UNENDED})", '"\\t\\ta\\na\\n"'),
        (f"disorder_of (comm all) ({DISORDERED})",
            'Some (record { file = First; last_key = "b"; line = 2 })'),
        (f"merged (comm all) ({DISORDERED})", '"b\\n"'),
    ]),
    "join": ("`join f g` over `a 1`, `a 2`, `c 9` and `a x`, `b z`", "pairs", "Join", JOIN, [
        ('join_fields None "a  1"', '["a", "1"]'),
        ('map (join_key pairs First) ["a 1", "a 2", "c 9"]', '["a", "a", "c"]'),
        ('join_entries pairs "a" ["a 1", "a 2"] ["a x"]', '["a 1 x", "a 2 x"]'),
        ('join_entries pairs "c" ["c 9"] []', "[]"),
        (f"merged (join pairs) ({PAIRED})", '"a 1 x\\na 2 x\\n"'),
    ]),
    "tr": ("what `tr -s a x` does to bytes", "plan", "ByteMap",
        "record { deletes = λ b. false; image = λ b. if b == 97 then 120 else b; squeezes = λ b. b == 120 }", [
        ('map plan.image "aab"', '"xxb"'),
        ('squeeze plan.squeezes "xxb"', '"xb"'),
        ('tr plan "aab"', '"xb"'),
        ('tr plan "bb"', '"bb"'),
    ]),
    "Words": ("`cut -d : -f 2,1 -- FILE`, and words with faults", "given", "List ParsedOption",
        '[with_value 100 ":", with_value 102 "2,1"]', [
        ('tool_of_name "cut"', "Some Cut"),
        ('read_words Cut [] None ["-d", ":", "-f", "2,1", "--", "FILE"]', 'Ok (given, ["FILE"])'),
        ('read_words Cut [] None ["-f2,1", "-d"]', "Err (NeedsValue 100)"),
        ('read_words Cut [] None ["-sx", "-f"]', 'Err (Unknown "-sx")'),
        ('faults Cut given ["FILE"]', "[]"),
        ('faults Cut [with_value 98 "1", with_value 102 "0"] []', '[Together 98 102, Value 102 "0"]'),
        ('command_of_args ["cut", "-b1", "-f", "0"]', "Err (Together 98 102)"),
        ('order_from 0 (input_operands Cut ["FILE", "-"])', "[File 0, Standard]"),
        ('file_names ["FILE", "-"]', '["FILE"]'),
    ]),
    "Messages": (None, None, None, None, [
        ('usage_text "cut" (Unknown "-x")', '"cut: unknown option in -x\\n"'),
        ('unopened_message "cut" "f"', '"cut: f: cannot be opened\\n"'),
        ('disorder_message "comm" ["f", "g"] 2 7', '"comm: g: line 7 is out of order\\n"'),
        ('fault_message "uniq" [] (Read 0)', '"uniq: standard input: read failed\\n"'),
    ]),
}


def make_term(text):
    """The term that a text stands for."""
    text = re.sub(r"\((\w+), (\w+)\)", r"(\1,\2)", text).replace("[]", "NIL")
    text = re.sub(r"\bCut\b", "CutTool", text)  # the tool; `Cut` is the type of its job there
    while re.search(r"\[[^\[\]]+\]", text):
        text = re.sub(r"\[([^\[\]]+)\]", lambda found: "(" + found[1].replace(", ", " ∷ ") + " ∷ NIL)", text)
    return re.sub(r'("(?:\\.|[^"\\])*")', r"(codes \1)", text.replace("NIL", "[]"))


def find_library():
    """The names of the toolchain's library that the terms may need, by their modules."""
    specs, found = Specs(), {}
    for path in specs.list_modules():
        for line in specs.read_module(path).libraries:
            module, names = re.match(r"(?:pub )?use (\S+)\.\{(.*)\}", " ".join(line.split())).groups()
            for name in names.split(","):
                if " as " not in name and module.startswith("Rattle.std."):
                    found.setdefault(name.strip(), module)
    by_module = {"Rattle.std.specs.Fmt": ["digits"]}
    for name, module in found.items():
        if name not in ("lines", "key", "digits"):
            by_module.setdefault(module, []).append(name)
    by_module.setdefault("Rattle.std.specs.Prelude", []).extend({"refl", "◌≡◌"} - set(found))
    return by_module


def make_head(library):
    """The imports of the lemmas: of the definitions, and of names of the library, by their modules."""
    lines = ["-- The steps that docs/PROMISE.md shows, and its examples of the library."]
    lines += [f"use {module}.{{{', '.join(sorted(names))}}}" for module, names in sorted(library.items())]
    lines.append(f"use {make_path('Rattle.ptlangs.specs.TrClasses')}.{{all_bytes}}")
    lines += [f"use Rattle.{CRATE}.specs.{crate.capitalize()}{module}.{{{', '.join(names.split())}}}"
              for crate, module, names in ((*key.split("."), names) for key, names in NAMES.items())]
    for module, names in VARIANTS.items():
        crate, _, path = module.partition(".")
        lines.append(f"use {make_path(f'Rattle.{crate}.specs.{path}.TheVariants')}.{{{names}}}")
    return "\n".join(lines) + "\n"


def make_jobs():
    """The jobs of the steps, as definitions."""
    number = "\nabbrev number : ℕ → ℕ\nnumber n = n\n"
    return number + "".join(f"\nabbrev {name} : {kind}\n{name} = {make_term(value)}\n"
                   for _, name, kind, value, _ in STEPS.values() if name)


def add_steps(lemmas, examples):
    """Adds a lemma for each step, and for each example of the library: pairs of terms that are equal."""
    for *_, steps in STEPS.values():
        for left, right in steps:
            lemmas.add_step(f"{left} = {right}", format_lemma, make_term(left), make_term(right))
    for left, right in examples:
        terms = [re.sub(r'(?<!")\b(\d+)\b(?!")', r"(number \1)", make_term(term)) for term in (left, right)]
        lemmas.add_step(f"{left} = {right}", format_lemma, *terms)
