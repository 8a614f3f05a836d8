"""What the files of the repository look like: short lines, a short README, and links that lead to a file.

No line of a text has more than 120 characters, but for those that cannot be broken: what a command of
a document prints, a line with one long word (an address), and those of LONGER. README.md is read by
newcomers and has under 1,200 words. A link of a document to a file of the repository leads to one. The
parts of documents that repeat the sources are as tests/generated.py writes them, and the calls, the
definitions and the other names that documents cite are there, and so is what a crate says that it uses.
Each type and function is imported by one path.
"""

from __future__ import annotations

import os
import re

import generated
from harness import ROOT, Case, Tools, demand
from import_paths import second_paths

LONGEST = 120  # characters
WORDS_OF_README = 1_200
KINDS = (".md", ".rt", ".antt", ".py", ".sh")
# What is no text of ours: what git and the toolchain keep.
LEFT_OUT = {".git", "out", "__pycache__"}

# Files with lines that cannot be broken, and what such a line has: a list of lemmas for the prover,
# which `rt fmt` writes on one line; a statement of SQL, which is one string; a fact of a type; a row
# of a table, in documents whose tables are no lists yet.
LEMMAS = re.compile(r"^\s*#\[tactic\(")
STATEMENT = re.compile(r'"CREATE ')
FACT = re.compile(r"^\s*ghost \w+: ")
TABLE = re.compile(r"^ *\|")
LONGER = {
    "crates/archive_core/src/applying.rt": LEMMAS,
    "crates/command_checks/src/names.rt": LEMMAS,
    "crates/command_checks/src/places.rt": LEMMAS,
    "crates/gedcom_export/src/names.rt": LEMMAS,
    "crates/gedcom_date/src/texts.rt": FACT,
    "crates/command_checks/src/normal.rt": LEMMAS,
    "crates/command_checks/src/paths.rt": LEMMAS,
    "crates/store_tables/proofs/LaterTexts.antt": STATEMENT,
    "crates/store_tables/proofs/Texts.antt": STATEMENT,
    "crates/store_tables/src/creating.rt": STATEMENT,
    "crates/tasks/src/progress.rt": LEMMAS,
    "docs/FORMATS.md": TABLE,
    "docs/KEEPING.md": TABLE,
    "docs/REFUSALS.md": TABLE,
}

LINK = re.compile(r"\]\(([^)\s]+)\)")
CODE = re.compile(r"^ *```.*?^ *```$|`[^`\n]*`", re.DOTALL | re.MULTILINE)
CODE_BLOCK = re.compile(r"^ *```.*?^ *```$", re.DOTALL | re.MULTILINE)
CONSOLE = re.compile(r"^```console\n.*?^```$", re.DOTALL | re.MULTILINE)


def text_of(path):
    with open(os.path.join(ROOT, path), encoding="utf-8") as file:
        return file.read()


def is_script(path):
    with open(os.path.join(ROOT, path), "rb") as file:
        return file.read(2) == b"#!"


def files():
    """The files of the repository, by their paths in it."""
    for at, folders, names in os.walk(ROOT):
        folders[:] = sorted(set(folders) - LEFT_OUT)
        for name in sorted(names):
            yield os.path.relpath(os.path.join(at, name), ROOT)


def texts():
    for path in files():
        ending = os.path.splitext(path)[1]
        if ending in KINDS or (not ending and is_script(path)):
            yield path


def documents():
    return [path for path in texts() if path.endswith(".md")]


def may_be_longer(path, line):
    of_file = LONGER.get(path)
    return len(line.split()) < 2 or (of_file is not None and of_file.search(line) is not None)


def without_output(path, text):
    """The text, what the commands of a document print as empty lines."""
    if not path.endswith(".md"):
        return text
    only_commands = re.compile(r"^(?!\$ |```).*$", re.MULTILINE)
    return CONSOLE.sub(lambda block: only_commands.sub("", block[0]), text)


def long_lines(path):
    for number, line in enumerate(without_output(path, text_of(path)).split("\n"), 1):
        if len(line) > LONGEST and not may_be_longer(path, line):
            yield f"{path}:{number} ({len(line)})"


def lines_are_short():
    found = [where for path in texts() for where in long_lines(path)]
    demand(not found, f"{len(found)} lines have over {LONGEST} characters: {', '.join(found[:20])}")


def exceptions_are_needed():
    for path, line in LONGER.items():
        long = [one for one in text_of(path).split("\n") if len(one) > LONGEST and line.search(one)]
        demand(bool(long), f"{path} has no such long line any more: take it out of LONGER")


def readme_is_short():
    count = len(text_of("README.md").split())
    demand(count < WORDS_OF_README, f"README.md has {count} words")


def lost_links(path):
    for link in LINK.findall(CODE.sub("", text_of(path))):
        to = link.partition("#")[0]
        if to and ":" not in to and not os.path.exists(os.path.join(ROOT, os.path.dirname(path), to)):
            yield f"{path}: {link}"


def links_lead_to_files():
    found = [link for path in documents() for link in lost_links(path)]
    demand(not found, f"links that lead to no file: {', '.join(found[:20])}")


def parts_are_generated():
    found = list(generated.differing())
    demand(not found, f"run tests/generated.py, since these parts are not as it writes them: {', '.join(found)}")


NAMED = re.compile(r"((?:`\w+`(?:, | and | )?)+)\((?:([a-z_]+): )?([A-Z]\w*(?:, [A-Z]\w*)*)[;)]")


def lost_definitions(document):
    """What a document says by hand: names, and in brackets the crate (that of before if none) and the files."""
    crate = None
    by_hand = " ".join(re.sub(r"<!-- generated.*?<!-- end", "", text_of(document), flags=re.DOTALL).split())
    for names, its, files in NAMED.findall(by_hand):
        crate = its or crate
        text = "".join(text_of(f"crates/{crate}/specs/{file}.antt") for file in files.split(", "))
        for name in re.findall(r"`(\w+)`", names):
            if not re.search(rf"\bpub (?:record |data )?{name}(?!\w)", text):
                yield f"{name} of {crate}: {files}"


def definitions_are_named():
    found = [lost for name in ("DEFINITIONS", "ARCHITECTURE") for lost in lost_definitions(f"docs/{name}.md")]
    demand(not found, f"documents name definitions that are not there: {', '.join(found)}")


CALL = re.compile(r"\b([a-z]\w+)::([a-z]\w+)")


def lost_calls():
    """The calls of ARCHITECTURE.md with their crates that no file of the crate has."""
    for crate, call in sorted(set(CALL.findall(text_of("docs/ARCHITECTURE.md")))):
        sources = generated.paths(f"crates/{crate}/src/**/*.rt")
        if not any(re.search(rf"\bfn {call}\b", text_of(path)) for path in sources):
            yield f"{crate}::{call}"


def calls_are_there():
    found = list(lost_calls())
    demand(not found, f"ARCHITECTURE.md names calls that are not there: {', '.join(found)}")


LED_TO = re.compile(r"`(\w+)`(?: and `(\w+)`)? in\s+\[[^\]]*\]\(\.\./(crates/[^)]*)\)")


def lost_homes():
    """The calls and definitions that ARCHITECTURE.md leads to with a link, where the file has none of the name."""
    for *its, path in LED_TO.findall(text_of("docs/ARCHITECTURE.md")):
        for name in filter(None, its):
            if not re.search(rf"(?:\bfn|\bpub(?: record| data)?) {name}(?!\w)", text_of(path)):
                yield f"{name} in {path}"


def links_lead_to_their_names():
    found = list(lost_homes())
    demand(not found, f"ARCHITECTURE.md leads to files without these names: {', '.join(found)}")


# Documents for whoever changes the project, and names of the kit in them.
CITING = ("ARCHITECTURE", "CONTRIBUTING", "DECISIONS", "GATE", "PROVED")
OF_THE_KIT = {"open_files", "open_from"}
CITED = re.compile(r"`([A-Za-z]\w*_\w+)`")


def names():
    """The names of the sources: words with a `_` of code, definitions, proofs and tests, and those of edits."""
    found = set(generated.crates()) | OF_THE_KIT
    for pattern in ("crates/*/src/**/*.rt", "crates/*/*/**/*.antt", "tests/**/*.py"):
        for path in generated.paths(pattern):
            found.update(re.findall(r"\b[A-Za-z]\w*_\w+", text_of(path)))
    for path in generated.paths("crates/*/must-fail/*.edit") + generated.paths("tests/edits/*/*.edit"):
        found.add(os.path.splitext(os.path.basename(path))[0])
    return found


def cited_names_are_there():
    known = names()
    paths = [f"docs/{name}.md" for name in CITING] + [f"crates/{crate}/README.md" for crate in generated.crates()]
    texts_of = {path: CODE_BLOCK.sub("", text_of(path)) for path in paths}
    lost = [f"{name}: {word}" for name, text in texts_of.items() for word in CITED.findall(text) if word not in known]
    demand(not lost, f"documents name what is not there: {', '.join(lost[:20])}")


USES = re.compile(r"\bIt uses [^.;:]*")


def unused_crates(crate):
    """What the first lines of a crate say that it uses, and its sources and definitions do not name."""
    lines = text_of(f"crates/{crate}/src/{'lib' if source(f'crates/{crate}/src/lib.rt') else 'main'}.rt").split("\n")
    said = " ".join(line[3:].strip() for line in lines if line.startswith("//!"))
    paths = generated.paths(f"crates/{crate}/src/**/*.rt") + generated.paths(f"crates/{crate}/specs/**/*.antt")
    sources = "\n".join(text_of(path) for path in paths)
    for sentence in USES.findall(said):
        for name in re.findall(r"`(\w+)`", sentence):
            if not re.search(rf"^(?!\s*//).*\b{name}\b", sources, re.MULTILINE):
                yield f"{crate}: {name}"


def crates_use_what_they_say():
    found = [lost for crate in generated.crates() for lost in unused_crates(crate)]
    demand(not found, f"crates say that they use what their sources do not name: {', '.join(found)}")


def source(path):
    return text_of(path) if os.path.exists(os.path.join(ROOT, path)) else None


def imports_have_one_path():
    found = [why for crate in generated.crates() for why in second_paths(source, crate)]
    demand(not found, f"{len(found)} have a second import path: {', '.join(found[:20])}")


# A crate with one path to each item, and what is wrong with it if one of its files is another.
LIB, PART = "crates/made/src/lib.rt", "crates/made/src/part.rt"
MADE = {LIB: "mod part;\npub mod laws;\npub use part::{One, two};\n", PART: "pub struct One;\npub fn two() {}\n"}
SECOND_PATHS = (
    (LIB, MADE[LIB].replace("mod part;", "pub mod part;"), ["One", "two"]),
    (LIB, MADE[LIB] + "pub use part::two as three;\n", ["two"]),
    (LIB, MADE[LIB] + "pub use other::{Four, five::six};\n", ["made::Four", "made::six"]),
    (LIB, MADE[LIB] + "pub use part::*;\n", ["made::*"]),
    (PART, "pub use other::One;\npub fn two() {}\n", ["made::One"]),
)


def second_paths_are_found():
    demand(not list(second_paths(MADE.get, "made")), "a crate with one path to each item has a second one")
    for path, text, wanted in SECOND_PATHS:
        found = [why.split()[0] for why in second_paths({**MADE, path: text}.get, "made")]
        demand(found == wanted, f"{text!r}: {found}")


def cases(_tools: Tools):
    yield Case("layout: lines have at most 120 characters", lines_are_short)
    yield Case("layout: the exceptions for long lines are needed", exceptions_are_needed)
    yield Case("layout: README.md has under 1,200 words", readme_is_short)
    yield Case("layout: links of documents lead to files", links_lead_to_files)
    yield Case("layout: parts of documents that repeat sources are generated", parts_are_generated)
    yield Case("layout: the definitions that documents name are there", definitions_are_named)
    yield Case("layout: the calls that ARCHITECTURE.md names are there", calls_are_there)
    yield Case("layout: the links of ARCHITECTURE.md lead to the names before them", links_lead_to_their_names)
    yield Case("layout: the names that documents cite are there", cited_names_are_there)
    yield Case("layout: crates use what they say that they use", crates_use_what_they_say)
    yield Case("layout: each type and function has one import path", imports_have_one_path)
    yield Case("layout: a second import path is found", second_paths_are_found)
