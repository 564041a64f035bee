"""Lemmas as text: terms for bytes, words and files, and the definitions that the lemmas are about."""
from crate import CRATE, make_path

SHORT = {10: "\\n", 9: "\\t", 13: "\\r", 92: "\\\\", 34: '\\"'}
EVALUATES = "unfolding lib.Utf8.encode digits all_bytes\n"
# The roots: what the harness below names.
ROOTS = ["ptrun.SpecOfArgs.spec_of_args", "ptrun.CommandSpec.messages", "ptrun.Files.InputBytes"]
ROOTS += ["ptrun.Files.ReceivedInputs", "ptlangs.Calls.TrShifts.stretches_from", "ptopts.Commands.command_of_args"]


def make_specs_path(crate, module):
    return make_path(f"Rattle.{crate}.specs.{module}")


HARNESS = f"""-- Results of the definitions for words, standard input and files.
use Rattle.std.proofs.Common.{{ℕ, List, [], ◌∷◌, map, Some, None, codes}}
use Rattle.std.specs.Prelude.{{Option, Result, Ok, Err, length, bytes_eq, find, option_map}}
use {make_specs_path("ptrun", "SpecOfArgs")}.{{spec_of_args}}
use {make_specs_path("ptrun", "CommandSpec")}.{{CommandSpec, messages}}
use {make_specs_path("ptopts", "Commands")}.{{Command, Job, RunTr, command_of_args}}
use {make_specs_path("ptopts", "Faults")}.{{Fault}}
use {make_specs_path("ptlangs", "Calls.TrShifts")}.{{stretches_from}}
use {make_specs_path("ptlangs", "TrClasses")}.{{all_bytes}}
use {make_specs_path("ptrun", "Files")}.{{InputBytes, ReceivedInputs}}
use {make_specs_path("ptlines", "Received")}.{{Received}}

-- the output, the messages and the status of a command, and the bounds of the bytes and of the slots of its store
pub record Outcome : Type 0 where
  pub out : List ℕ
  pub messages : List ℕ
  pub status : ℕ
  pub bytes : ℕ
  pub slots : ℕ

abbrev pub wrote : List ℕ → List ℕ → ℕ → ℕ → ℕ → Outcome
wrote out messages status bytes slots =
    record {{ out = out; messages = messages; status = status; bytes = bytes; slots = slots }}

-- the file with this name
abbrev content : {{X : Type 0}} → List (List ℕ × X) → List ℕ → Option X
content {{X}} files name =
    option_map (λ (f : List ℕ × X). f.1) (find (λ (f : List ℕ × X). bytes_eq name f.0) files)

abbrev outcome : CommandSpec → InputBytes → Outcome
outcome m w = wrote (m.out w) (messages m w) (m.status w) (m.memory_bound w) (m.beyond.slot_bound w)

abbrev run_spec : CommandSpec → List ℕ → List (List ℕ × List ℕ) → Outcome
run_spec m standard files = outcome m (Some standard ∷ map (content files) m.names)

-- what the definitions give for words, standard input, and the files that are there
abbrev pub ran : List (List ℕ) → List ℕ → List (List ℕ × List ℕ) → Outcome
ran words standard files = run_spec (spec_of_args words) standard files

abbrev decides_with : CommandSpec → List (List ℕ × Received) → List ℕ
decides_with m files = m.decided (content files (codes "-") ∷ map (content files) m.names)

-- the output that is decided by what was received of each input; that of standard input is named `-`
abbrev pub decides : List (List ℕ) → List (List ℕ × Received) → List ℕ
decides words files = decides_with (spec_of_args words) files

abbrev of_job : Job → Option ℕ
of_job (RunTr m) = Some (length (stretches_from 0 (map m.image all_bytes)))
of_job _ = None

abbrev of_command : Result Command Fault → Option ℕ
of_command (Ok c) = of_job c.job
of_command (Err fault) = None

-- the number of stretches of the images of `tr`
abbrev pub stretch_count : List (List ℕ) → Option ℕ
stretch_count words = of_command (command_of_args words)
"""

HEAD = f"""-- Each lemma evaluates the definitions on one command.
use Rattle.std.proofs.Common.{{◌≡◌, ℕ, List, [], ◌∷◌, ◌++◌, refl, codes, true, false, Some}}
use Rattle.std.specs.Fmt.{{digits}}
use {make_specs_path("ptlangs", "TrClasses")}.{{all_bytes}}
use Rattle.{CRATE}.proofs.Harness.{{ran, wrote, decides, stretch_count}}
"""


def is_plain(byte):
    """Whether a byte is written in a string as itself. A character below 256 is its byte."""
    return byte in SHORT or 32 <= byte < 127 or byte >= 161 and byte != 173


def format_bytes(data):
    """A term for some bytes: strings of plain bytes, and numbers."""
    parts, at = [], 0
    while at < len(data):
        end = at
        while end < len(data) and is_plain(data[end]):
            end += 1
        text = "".join(SHORT.get(byte, chr(byte)) for byte in data[at:end])
        parts.append(f'codes "{text}" ++' if end > at else f"{data[at]} ∷")
        at = max(end, at + 1)
    term = " ".join(parts)
    return f"({term[:-3]})" if term.endswith(" ++") else f"({term} [])" if term else "[]"


def format_list(terms):
    return "(" + "".join(f"{term} ∷ " for term in terms) + "[])"


def format_words(words):
    return format_list(format_bytes(word.encode()) for word in words)


def format_files(files):
    """A term for files: pairs of a name and the content."""
    return format_list(f"({format_bytes(name.encode())}, {format_bytes(files[name])})" for name in sorted(files))


def format_parts(parts):
    """A term for what was received: pairs of a name, and the bytes with whether they are all."""

    def format_part(name, data, eof):
        return f"({format_bytes(name.encode())}, record {{ bytes = {format_bytes(data)}; eof = {str(eof).lower()} }})"

    return format_list(format_part(name, data, eof) for name, (data, eof) in parts)


def format_lemma(name, left, right):
    return f"\n{name} : {left}\n    ≡ {right}\n{EVALUATES}{name} = refl\n"


def format_outcome_lemma(name, words, inputs, outcome):
    """The lemma that words over inputs, by name, have an outcome: output, messages, status, and the two bounds."""
    files = {file: text for file, text in inputs.items() if file != "-"}
    left = f"ran {format_words(words)} {format_bytes(inputs.get('-', b''))} {format_files(files)}"
    out, messages, status, most, slots = outcome
    right = f"wrote {format_bytes(out)} {format_bytes(messages.encode())} {status} {most} {slots}"
    return format_lemma(name, left, right)


def format_decided_lemma(name, words, parts, out):
    """The lemma that some output is decided by parts of inputs: pairs of a name and (bytes, whether they are all)."""
    return format_lemma(name, f"decides {format_words(words)} {format_parts(parts)}", format_bytes(out))


def format_stretches_lemma(name, words, count):
    """The lemma that a command of tr has so many stretches."""
    return format_lemma(name, f"stretch_count {format_words(words)}", f"Some {count}")
