"""Shows cases as commands of a shell, and counts as a table."""
import re
import shlex

from rules import RULES

KINDS = ["equal", "choice", "extension", "undefined", "wrong", "unjudged"]
HEADS = ["as defined", "left open", "extension", "undefined input", "wrong by POSIX", "unjudged"]


def format_for_printf(text):
    """A text as the format of printf, quoted."""
    named = {92: "\\\\", 9: "\\t", 10: "\\n", 37: "%%", 39: "'\\''"}
    body = "".join(
        named.get(byte) or (chr(byte) if 32 <= byte < 127 else f"\\{byte:03o}") for byte in text
    )
    return f"printf '{body}'"


def quote(word):
    """A word for a shell. Control characters are written by printf."""
    if re.search(r"[\x00-\x1f\x7f]", word):
        return f'"$({format_for_printf(word.encode())})"'
    return word if re.fullmatch(r"[\w./:,+-]+", word, re.A) else shlex.quote(word)


def is_plain(out):
    """Whether an output can be shown as it is."""
    return re.fullmatch(rb"([!-~]([ -~]*[!-~])?\n)*", out) is not None


def format_command(case, program):
    """The case as one line of a shell, with the words of a program before those of the case."""
    files = [name for name in sorted(set(case.files)) if name in case.inputs and name != "-"]
    line = "".join(f"{format_for_printf(case.inputs[name]) if case.inputs[name] else ':'} > {name}; " for name in files)
    if "-" in case.files and case.inputs["-"]:
        line += f"{format_for_printf(case.inputs['-'])} | "
    line += " ".join([*program, *map(quote, case.words[1:])])
    return line + (" < /dev/null" if "-" in case.files and not case.inputs["-"] else "")


def format_as_cat(out):
    """An output as `cat -A` writes it."""
    shown = ""
    for byte in out:
        shown += "M-" * (byte > 127)
        low = byte & 127
        if byte == 10:
            shown += "$\n"
        else:
            shown += f"^{chr(low ^ 64)}" if low < 32 or low == 127 else chr(low)
    return shown


def format_row(name, version, counts):
    """A row of the table."""
    cells = [name, version, str(sum(counts.values())), *(str(counts[kind]) for kind in KINDS)]
    return "| " + " | ".join(cells) + " |"


def format_head():
    return "| | version | commands | " + " | ".join(HEADS) + " |\n" + "|---" * (len(HEADS) + 3) + "|"


def find_rule(title, tool):
    return next(rule for rule in RULES if rule.title == title and tool in rule.tools.split())


def format_run(mark, words, case, answer):
    """A command after its prompt, with the output below."""
    if answer.status < 0:
        return f"{mark} {format_command(case, ['timeout', '2', *words])} > /dev/null 2>&1; echo $?\n124\n"
    if answer.status and not answer.out:
        return f"{mark} {format_command(case, words)} 2>/dev/null; echo $?\n{answer.status}\n"
    command = format_command(case, words) + (" 2>/dev/null" if answer.status else "")
    out = answer.out
    if out.startswith(b"output file:\n"):
        out = out.removeprefix(b"output file:\n")
        command += f"; cat {case.operands[1]}"
    if is_plain(out):
        return f"{mark} {command}\n{out.decode()}"
    shown = format_as_cat(out)
    is_ended = shown.endswith("\n")
    return f"{mark} {command} | cat -A" + ("" if is_ended else "; echo") + f"\n{shown}" + ("" if is_ended else "\n")


def format_example(case, side, wanted, got):
    """A wrong answer as an example of docs/POSIX.md: first that of the implementation, then that of ptext."""
    prompt = {"system": "gnu"}.get(side.name, side.name)
    theirs = format_run(f"{prompt}$", side.make_words(case.tool), case, got)
    return theirs + format_run("$", ["ptext", case.tool], case, wanted)
