"""The numbers and names of refusals, and their hints, the same wherever they are: in six crates and docs/REFUSALS.md.

The crate of files and the crate of the archive each have a definition that gives a kind its number, and one
that gives it its name; the calls `number` and `name` are proved to answer these. The crates of lines and of
dates give their faults only numbers. So the definitions are read here, and the table of the document.
"""

from __future__ import annotations

import os
import re

from harness import ROOT, Case, Tools, demand, hints

LINES = "crates/gedcom_line/specs/Refusals.antt"
FILES = "crates/gedcom_rules/specs/Refusals.antt"
ARCHIVE = "crates/record_text/specs/Refusals.antt"
DATES = "crates/gedcom_date/specs/Refusals.antt"
TABLES = "crates/table_pages/specs/Faults.antt"
HINTS = "crates/tasks/specs/Hints.antt"
EXPECTED = "crates/tasks/specs/Expecting.antt"
DOCUMENT = "docs/REFUSALS.md"

NUMBER = re.compile(r"^number_of kind\.(\w+) = ([0-9]+)$", re.MULTILINE)
NAME = re.compile(r'^name_of kind\.(\w+) = codes "(\w+)"$', re.MULTILINE)
HINT = re.compile(r'^advice kind\.(\w+) =\s+codes "  (.+)" \+\+ 10', re.MULTILINE)
# (the line of a row that would be answered otherwise, and its hint)
UNEXPECTED = re.compile(r'codes "parish: ([0-9]+) (\w+) at row "')
UNEXPECTED_HINT = re.compile(r'^hint = codes "  (.+)" \+\+ 10', re.MULTILINE)
# (a refusal begins a row of a table, or an item of a list)
ROW = re.compile(r"^(?:\| |- \*\*)([0-9]+)(?: \||\*\*) (\w+)(?: \||:)", re.MULTILINE)

# What requests, the archive and its file are refused with: of some of these no program prints a line yet.
NOT_PRINTED = range(40, 94)


def text_of(path):
    with open(os.path.join(ROOT, path), encoding="utf-8") as file:
        return file.read()


def once(found, where):
    """A list of pairs as a mapping; nothing stands in it twice, neither left nor right."""
    found = list(found)
    for which, side in (("left", 0), ("right", 1)):
        told = [pair[side] for pair in found]
        twice = sorted({one for one in told if told.count(one) > 1})
        demand(not twice, f"{where}: twice, {which}: {twice}")
    demand(bool(found), f"{where}: nothing was found")
    return dict(found)


def numbers_of(path):
    """The number of each kind of a crate."""
    found = NUMBER.findall(text_of(path))
    return once(((kind, int(number)) for kind, number in found), f"{path}, numbers")


def kinds_of(path):
    """The number and the name of each kind of a crate."""
    text = text_of(path)
    numbers = numbers_of(path)
    names = once(NAME.findall(text), f"{path}, names")
    demand(numbers.keys() == names.keys(), f"{path}: {numbers.keys() ^ names.keys()} has only one")
    return {kind: (number, names[kind]) for kind, number in numbers.items()}


def kinds_of_tables():
    """The numbers and names of what is wrong with a table, of which several kinds may have one."""
    text = text_of(TABLES)
    numbers, names = dict(NUMBER.findall(text)), dict(NAME.findall(text))
    demand(numbers.keys() == names.keys(), f"{TABLES}: {numbers.keys() ^ names.keys()} has only one")
    return {(int(number), names[kind]) for kind, number in numbers.items()}


def rows():
    """The number of each name in the document."""
    found = ROW.findall(text_of(DOCUMENT))
    return once(((name, int(number)) for number, name in found), DOCUMENT)


def crates_agree():
    files, archive = kinds_of(FILES), kinds_of(ARCHIVE)
    for kind in files.keys() & archive.keys():
        demand(files[kind] == archive[kind], f"{kind}: {files[kind]} and {archive[kind]}")
    # kinds of only one crate have numbers and names that the other does not use
    once({*files.values(), *archive.values()}, f"{FILES} and {ARCHIVE}")


def lines_agree_with_files():
    agree(LINES, FILES)


def dates_agree_with_the_archive():
    agree(DATES, ARCHIVE)


def agree(path, table):
    """A crate has only numbers, of kinds that another has with their names."""
    kinds = kinds_of(table)
    for kind, number in numbers_of(path).items():
        told = kinds.get(kind, (None,))[0]
        demand(told == number, f"{kind}: {path} has {number}, {table} {told}")


def code_agrees_with_the_document():
    listed = rows()
    told = {name: number for path in (FILES, ARCHIVE) for number, name in kinds_of(path).values()}
    for number, name in kinds_of_tables():
        demand(told.setdefault(name, number) == number, f"{TABLES}: {name} is {number}")
    ((number, name),) = UNEXPECTED.findall(text_of(EXPECTED))
    told[name] = int(number)
    for name, number in listed.items():
        demand(told.get(name) == number, f"{DOCUMENT} has {number} {name}, the code {told.get(name)}")
    missing = sorted(
        (number, name)
        for name, number in told.items()
        if name not in listed and number not in NOT_PRINTED
    )
    demand(not missing, f"{DOCUMENT} has no row for {missing}")
    for kind, number in numbers_of(LINES).items():
        demand(listed.get(kind) == number, f"{LINES} has {number} {kind}, {DOCUMENT} {listed.get(kind)}")


def hints_agree_with_the_document():
    """The hints of the document are those of the code, where a kind has one."""
    text, numbers = text_of(HINTS), {name: number for number, name in kinds_of(ARCHIVE).values()}
    demand(len(HINT.findall(text)) > 30, f"{HINTS} has not all hints")
    told = {numbers[kind]: hint for kind, hint in HINT.findall(text)}
    ((number, _),) = UNEXPECTED.findall(text_of(EXPECTED))
    (told[int(number)],) = UNEXPECTED_HINT.findall(text_of(EXPECTED))
    demand(told == hints(), f"{set(told.items()) ^ set(hints().items())}")


def cases(_tools: Tools):
    yield Case("refusals: two crates have the same numbers and names", crates_agree)
    yield Case("refusals: a fault of a line has the number of files", lines_agree_with_files)
    yield Case("refusals: a fault of a date has the number of the archive", dates_agree_with_the_archive)
    yield Case("refusals: the code agrees with the document", code_agrees_with_the_document)
    yield Case("refusals: the hints of the document are those of the code", hints_agree_with_the_document)
