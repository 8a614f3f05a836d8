"""The verbs of rows and the names of their fields, wherever they are: code, help, manual page and FORMATS.

`names_of` of request_csv, which the lines about refused rows use, is what the others are compared with, its verbs by
the words of `Verb::as_str` of commands. The fields of an entry are compared up to its mentions. CONTRIBUTING says how
a verb is added, and names each file of the crates that one of them, `unlink`, is in.
"""

from __future__ import annotations

import os
import re

import generated
from harness import ROOT, Case, Tools, demand

COLUMNS = "crates/request_csv/src/columns.rt"
WORDS = "crates/commands/src/verb.rt"
HELP = "crates/command_line/src/texts_in.rt"
MANUAL = "docs/parish.1"
FORMATS = "docs/FORMATS.md"
CONTRIBUTING = "docs/CONTRIBUTING.md"

NAMES = re.compile(r'Verb::(\w+) => (?:\{\s*)?"([^"]*)"')
IN_THE_HELP = re.compile(r"^Verbs and their fields.*?\n(.*?)\n\n", re.MULTILINE | re.DOTALL)
IN_THE_MANUAL = re.compile(r"^The verbs and their fields.*?\.TS\n.*?\n(.*?)\n\.TE", re.MULTILINE | re.DOTALL)
IN_FORMATS = re.compile(r"^\| `(\w+)` \| ([^|]*) \|", re.MULTILINE)


def text_of(path):
    with open(os.path.join(ROOT, path), encoding="utf-8") as file:
        return file.read()


def fields(text):
    """The names of fields in a list, without what is said of them, up to the mentions of an entry."""
    names = [name.strip(" ?").removeprefix("the ") for name in re.sub(r"\([^)]*\)", "", text).split(",")]
    roles = [at for at, name in enumerate(names) if "role" in name and at > 5]
    return names[: roles[0]] if roles else names


def of_the_code():
    words = dict(re.findall(r'Verb::(\w+) => "(\w+)"', text_of(WORDS)))
    return {words[verb]: fields(names) for verb, names in NAMES.findall(text_of(COLUMNS))}


def of_the_help():
    rows = re.split(r"\s{2,}|\n", IN_THE_HELP.search(text_of(HELP))[1])
    parts = [row.strip().partition(",") for row in rows if "," in row]
    return {verb: fields(names) for verb, _, names in parts}


def of_the_manual():
    rows = IN_THE_MANUAL.search(text_of(MANUAL))[1].replace("\n\t", " ").split("\n")
    return {verb: fields(names) for verb, _, names in (row.partition("\t") for row in rows)}


def of_formats():
    table = text_of(FORMATS).partition("| verb | fields |")[2].partition("\n\n")[0]
    return {verb: fields(names) for verb, names in IN_FORMATS.findall(table)}


def are_alike(found, where):
    """The same verbs, with fields of the same names; a document may say more of a field after its name."""
    known = of_the_code()
    demand(found.keys() == known.keys(), f"{where}: {found.keys() ^ known.keys()} is not in both")
    for verb, names in known.items():
        same = [its.startswith(name) for its, name in zip(found[verb], names)]
        demand(all(same) and len(found[verb]) == len(names), f"{where}: {verb} has {found[verb]}, and not {names}")


def files_of_unlink():
    """The files of crates that have the verb, each as its crate and the name that CONTRIBUTING gives it."""
    for path in generated.paths("crates/*/*/**/*.rt") + generated.paths("crates/*/*/**/*.antt"):
        if re.search(r"\bUnlink\b|\bunlink(?:_\w+)?\b", text_of(path)):
            yield path.split("/")[1], os.path.basename(path).removesuffix(".antt")


def files_are_named():
    section = text_of(CONTRIBUTING).partition("## How a command is added\n")[2].partition("\n## ")[0]
    named = set(re.findall(r"\w+\.rt|\w+", section)) | set(re.findall(r"\w+", section))
    found = list(files_of_unlink())
    lost = [f"{crate}: {name}" for crate, name in found if not {crate, name} <= named]
    demand(bool(found) and not lost, f"{CONTRIBUTING} does not name all files of a verb: {', '.join(lost)}")


def cases(_tools: Tools):
    yield Case("verbs: the help has their fields", lambda: are_alike(of_the_help(), HELP))
    yield Case("verbs: the manual page has their fields", lambda: are_alike(of_the_manual(), MANUAL))
    yield Case("verbs: FORMATS has their fields", lambda: are_alike(of_formats(), FORMATS))
    yield Case("verbs: CONTRIBUTING names the files of one", files_are_named)
