"""What the manual repeats of the sources: the synopsis, the commands with their options, and the refusals.

The commands and their texts are those of the help, in crates/command_line; a paragraph of the help on refusals is left
out, since all refusals are a table of the manual, with their docstrings in record_text. tests/generated.py writes
these parts.
"""

from __future__ import annotations

import os
import re
import textwrap

ROOT = os.path.dirname(os.path.dirname(os.path.abspath(__file__)))
HELP = "crates/command_line/src"
TEXTS = ("texts_in", "texts_out", "texts_finding", "arguments", "subcommands")
REFUSALS, KINDS = "crates/record_text/specs/Refusals.antt", "crates/record_text/src/refusal.rt"

STRING = re.compile(r'^(?:pub\(crate\) )?const (\w+): &str =\s*"((?:[^"\\]|\\.)*)";', re.MULTILINE | re.DOTALL)
WORD = re.compile(r"^pub\(crate\) const (\w+): Word = Word \{\n(.*?)\n\};", re.MULTILINE | re.DOTALL)
COMMAND = re.compile(r"^const (\w+): CommandRow = CommandRow \{\n(.*?)\n\};", re.MULTILINE | re.DOTALL)
ORDER = re.compile(r"^const COMMANDS: .*?= \[(.*?)\];", re.MULTILINE | re.DOTALL)
NUMBER = re.compile(r"^number_of kind\.(\w+) = ([0-9]+)$", re.MULTILINE)
SAID = re.compile(r"^    /// (.*)\.\n    (\w+),$", re.MULTILINE)
# Refusals that only the libraries answer, no command.
OF_LIBRARIES = {"Reopen", "ImportOpen", "NoImport", "NotAllStaged"}


def text_of(path):
    with open(os.path.join(ROOT, path), encoding="utf-8") as file:
        return file.read()


def sources():
    return [text_of(f"{HELP}/{name}.rt") for name in TEXTS]


def strings():
    """The constants that are texts; a line that ends in a backslash continues on the next."""
    found = {name: text for source in sources() for name, text in STRING.findall(source)}
    return {name: re.sub(r"\\(.)", r"\1", text.removeprefix("\\\n")) for name, text in found.items()}


def fields_of(body):
    """The fields of a record of constants, each as its text."""
    found = re.findall(r"(\w+): (&\[.*?\]|Form::\w+(?:\(\"[^\"]*\"\))?|\"[^\"]*\"|\w+)", body, re.DOTALL)
    return {name: value.strip('"') for name, value in found}


def constants(pattern):
    return {name: fields_of(body) for source in sources() for name, body in pattern.findall(source)}


def commands():
    """The commands in the order of the help, each with its words."""
    rows, words = constants(COMMAND), constants(WORD)
    for name in re.findall(r"\w+", ORDER.search(text_of(f"{HELP}/subcommands.rt"))[1]):
        row = rows[name]
        yield row, [words[word] for word in re.findall(r"\w+", row["words"])]


def escaped(text):
    """A text of the help in troff: names of options and what is between backquotes are bold."""
    text = re.sub(r"(?<![\w-])--(?=\w)", r"\\-\\-", text.replace("\\", "\\e"))
    text = re.sub(r"`([^`\n]+)`", r"\\fB\1\\fR", text)
    text = re.sub(r"[^\x00-\x7f]", lambda it: f"\\[u{ord(it[0]):04X}]", text)
    return re.sub(r"^(?=[.'])", r"\\&", text, flags=re.MULTILINE)


def word_of(word):
    """A word at its place, or an option with what comes after it."""
    kind, _, value = word["form"].removeprefix("Form::").partition("(")
    place, option = f"\\fI{word['id']}\\fR", f"\\fB\\-\\-{word['id']}\\fR"
    after = value.strip('")').replace("-", "\\-")
    return {"Place": place, "Places": f"{place} ...", "Named": f"{option} \\fI{after}\\fR", "Flag": option}[kind]


def synopsis(_now):
    """A line for each command, with what it takes; what may be left out is in brackets."""
    for row, words in commands():
        yield f".B parish {row['name']}"
        taken = [word_of(word) if word["needed"] == "true" else f"[{word_of(word)}]" for word in words]
        yield from filter(None, [" ".join(taken)])
        yield ".br"


def verbs_of(rows):
    """A row of a table for each verb, the fields on lines of at most 50 characters."""
    found = []
    for part in re.split(r"\s{2,}", rows.strip()):
        verb, _, names = part.partition(",")
        if part.startswith("("):
            found[-1][1] += " " + part
        else:
            found.append([verb, names.replace(",", ", ")])
    yield from (".TS", "l l.")
    for verb, names in found:
        whole = re.sub(r"(?<!,) ", "~", names)
        yield f"{verb}\t" + "\n\t".join(textwrap.wrap(whole, 50, break_on_hyphens=False)).replace("~", " ")
    yield ".TE"


def paragraph(text):
    """A paragraph of the help: its lines are filled, those that are indented stay."""
    if text.startswith(("Refusals", "docs/")):
        return
    yield ".PP"
    if text.startswith("Verbs and their fields"):
        first, _, rows = text.partition("\n")
        yield f"The {first[0].lower()}{first[1:]}"
        yield from verbs_of(rows)
        return
    for indented, lines in groups(text):
        yield from (".nf", *lines, ".fi") if indented else lines


def groups(text):
    """The lines of a paragraph, those that are indented together."""
    found = []
    for line in escaped(text).split("\n"):
        indented = line.startswith("  ")
        if not found or found[-1][0] != indented:
            found.append((indented, []))
        found[-1][1].append(line)
    return found


def of_command(row, words, said):
    yield from (".TP", f".B {row['name']}", f"{escaped(said[row['about']])}.", ".RS")
    for word in words:
        if word["id"] != "FILE":
            yield from (".TP", word_of(word), f"{escaped(said.get(word['help'], word['help']))}.")
    for text in said[row["example"]].split("\n\n"):
        yield from paragraph(text)
    yield ".RE"


def list_of_commands(_now):
    """Of each command what the help says of it, and its words."""
    said = strings()
    for row, words in commands():
        yield from of_command(row, words, said)


def list_of_refusals(_now):
    """A row for each refusal that a command may answer: its number, its name, and its docstring."""
    texts = {name: text for text, name in SAID.findall(text_of(KINDS))}
    yield from (".TS", "l l lx.")
    for name, number in NUMBER.findall(text_of(REFUSALS)):
        if name not in OF_LIBRARIES:
            yield from (f"{number}\t{name}\tT{{", escaped(texts[name]), "T}")
    yield ".TE"
