"""Usual accidents of GEDCOM files: what `check` says of each, which is the table in docs/REFUSALS.md."""

from __future__ import annotations

import os
import re
from collections.abc import Callable, Iterator

from harness import ROOT, Case, Outcome, Tools, demand, expect, run, written

FILE = """0 HEAD
1 SOUR PARISH
1 GEDC
2 VERS 5.5.1
2 FORM LINEAGE-LINKED
1 CHAR UTF-8
0 @I1@ INDI
1 NAME Zoë /Lee/
1 NOTE The stairs of the
2 CONC  old mill.
0 @I2@ INDI
1 NAME Eva /Ray/
0 TRLR
"""

# The lines CHAR and NAME of the file, the lines around its note, and how many records it has.
CHAR, NAMED, NOTE, RECORDS = "1 CHAR UTF-8", "1 NAME Zoë /Lee/", "1 NOTE The stairs of the", 2

ROW = re.compile(r"^\| ([^|`]+) \| (?:`(\d+ \w+(?: at line \d+)?)`(?:, `([^`]+)`)?|it is taken) \| ([^|]+) \|$", re.M)
DOCUMENT = os.path.join(ROOT, "docs", "REFUSALS.md")
SECTION = "## Usual accidents of a file"


def with_char(value: str, encoding: str = "utf-8") -> bytes:
    """The file, whose CHAR says this, in a character set."""
    return FILE.replace(CHAR, f"1 CHAR {value}").encode(encoding)


def changed(old: str, new: str) -> bytes:
    """The file with another text in the place of one that it has once."""
    demand(FILE.count(old) == 1, old)
    return FILE.replace(old, new).encode()


# Each accident by its name in the document, and the file that it leaves.
ACCIDENTS: dict[str, bytes] = {
    "in UTF-16, low byte first": "\ufeff".encode("utf-16-le") + FILE.encode("utf-16-le"),
    "in UTF-16, high byte first": "\ufeff".encode("utf-16-be") + FILE.encode("utf-16-be"),
    "in Windows-1252, CHAR says ANSI": with_char("ANSI", "cp1252"),
    "in Windows-1252, CHAR says CP1252": with_char("CP1252", "cp1252"),
    "in code page 437, CHAR says IBMPC": with_char("IBMPC", "cp437"),
    "in UTF-8, CHAR says ANSI": with_char("ANSI"),
    "in UTF-8, CHAR says ANSEL": with_char("ANSEL"),
    "in UTF-8, CHAR says UNICODE": with_char("UNICODE"),
    "one byte of Windows-1252 in UTF-8": FILE.encode().replace("Zoë".encode(), "Zoë".encode("cp1252")),
    "a CONC within a character": FILE.encode().replace("Zoë".encode(), b"Zo\xc3\n2 CONC \xab"),
    "Ctrl-Z at the end": FILE.encode() + b"\x1a",
    "NUL at the end": FILE.encode() + bytes(100),
    "a file of GEDCOM 7": changed("2 VERS 5.5.1", "2 VERS 7.0"),
    "no trailer": changed("0 TRLR\n", ""),
    "two files in one": FILE.encode() * 2,
    "in small letters": FILE.lower().encode(),
    "a text broken over two lines": changed(NOTE, NOTE + "\nnew and"),
    "a tab after the level": changed(NAMED, NAMED.replace("1 NAME", "1\tNAME")),
    "a cross reference with #": changed("@I2@", "@#I2@"),
    "a tag with a hyphen": changed(NAMED, "1 NICK-NAME Zoë"),
    "a level too much": changed(NAMED, NAMED.replace("1 NAME", "2 NAME")),
    "a cross reference twice": changed("@I2@", "@I1@"),
    "a page of the web": b"<!DOCTYPE html>\n<html><body>Not found</body></html>\n",
    "a file of Gramps": b'<?xml version="1.0" encoding="UTF-8"?>\n<database/>\n',
    "a zip": b"PK\x03\x04\x14\x00\x00\x00\x08\x00",
    "an empty file": b"",
    "CR as line ends": FILE.replace("\n", "\r").encode(),
}


def rows() -> dict[str, tuple[str, str]]:
    """The refusal and the hint of each accident in the document; both empty where the file is taken."""
    with open(DOCUMENT, encoding="utf-8") as file:
        section = file.read().split(SECTION)[1].split("\n## ")[0]
    return {name: (told, hint) for name, told, hint, _ in ROW.findall(section)}


def wanted(told: str, hint: str) -> Outcome:
    """What `check` comes to by a row of the document."""
    if not told:
        return written(f"ok: {RECORDS} records\n".encode())
    return Outcome(b"", f"parish: {told}\n  {hint}\n".encode(), 1)


def the_document_has_each() -> None:
    demand(len(ACCIDENTS) == 27, f"{len(ACCIDENTS)} accidents")
    demand(list(rows()) == list(ACCIDENTS), f"{rows().keys() ^ ACCIDENTS.keys()}")


def accident(tools: Tools, name: str) -> Callable[[], None]:
    def test() -> None:
        expect(run(tools.parish, ("check",), ACCIDENTS[name]), wanted(*rows()[name]))

    return test


def convert_mends(tools: Tools) -> None:
    """Of a file for which the document says that `parish convert` makes it UTF-8, `check` takes what that writes."""
    for name, (_, hint) in rows().items():
        if hint.endswith(": parish convert makes the file UTF-8"):
            got = run(tools.parish, ("convert", *(("--from", "437") if "437" in name else ())), ACCIDENTS[name])
            expect(run(tools.parish, ("check",), got.out), wanted("", ""))


def cases(tools: Tools) -> Iterator[Case]:
    yield Case("accidents: the document has each", the_document_has_each)
    for name in ACCIDENTS:
        yield Case(f"accidents: {name}", accident(tools, name))
    yield Case("accidents: what is to be converted is taken then", lambda: convert_mends(tools))
