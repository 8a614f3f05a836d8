"""Requests by hand: the examples of docs/FORMATS.md and docs/READING-ROOM.md, and what a visitor sees of the living."""

from __future__ import annotations

import pathlib
from typing import NamedTuple

from hands import SMITHS, page
from plain import Entry, Event, Family, Mention, Person, Source


class Visits(NamedTuple):
    """Records by their numbers; requests to a room that shows them, each with its status and its page."""

    name: str
    records: dict
    requests: tuple[tuple[str, int, str | None], ...]


LEES = {
    2: Person(("Ann /Lee/",)),
    3: Event(2, "DEAT"),
}
# A living man and the wife who died; the day of their marriage is hidden, whichever it is.
MARRIED = {
    1: Person(("John /Smith/",), "M"),
    2: Family((("husband", 1),)),
    3: Event(2, "MARR", "", "1960"),
}
# The archive of docs/READING-ROOM.md.
LEE_FAMILY = {
    1: Person(("Ann /Lee/",)),
    2: Person(("Tom /Lee/",)),
    3: Person(("Eva /Ray/",)),
    4: Family((("husband", 2), ("wife", 3)), (1,)),
    5: Event(2, "BIRT", "", "1850"),
    6: Event(1, "DEAT"),
    7: Event(2, "DEAT"),
    8: Event(3, "DEAT"),
    9: Source("Ashby"),
    10: Entry(9, "BAPTISM", "f. 3", 1, "1 JAN 1900", (Mention("John", "child"),)),
}
SHOWN = Visits("the pages of docs/READING-ROOM.md", LEE_FAMILY, (
    ("GET /", 200, page("Persons: 3", "Families: 1", "Registers: 1")),
    ("GET /person/2", 200, page("Person 2", "Name: Tom Lee", "BIRT: 1850", "DEAT", "Partner in: 4")),
    ("GET /family/4", 200, page("Family 4", "Husband: 2 Tom Lee", "Wife: 3 Eva Ray", "Child: 1 Ann Lee")),
    ("GET /pedigree/1", 200, page("   1  Ann Lee", "   2  Tom Lee, b. 1850", "   3  Eva Ray")),
    ("GET /pedigree/1?generations=2", 200, page("   1  Ann Lee", "   2  Tom Lee, b. 1850", "   3  Eva Ray")),
    ("GET /register/9", 200, page("Register 9: Ashby", "     1  f. 3  BAPTISM  1 JAN 1900", "        child: John")),
    ("GET /surname?name=lee", 200, page("         1  Ann Lee", "         2  Tom Lee")),
))
SMITH = page("Person 1", "Name: Living", "Partner in: 2")

# Two archives that differ in the day of the marriage alone.
MARRIAGES = (
    Visits("a marriage in 1960", MARRIED, (
        ("GET /person/1", 200, SMITH),
        ("GET /family/2", 200, page("Family 2", "Husband: 1 Living")),
        ("GET /surname?name=Smith", 200, ""),
    )),
    Visits("a marriage in 1970", {**MARRIED, 3: Event(2, "MARR", "", "1970")}, (
        ("GET /person/1", 200, SMITH),
        ("GET /family/2", 200, page("Family 2", "Husband: 1 Living")),
    )),
)

VISITS = (
    Visits("one person", LEES, (
        ("GET /", 200, page("Persons: 1", "Families: 0", "Registers: 0")),
        ("GET /surname?name=LEE", 200, page("         2  Ann Lee")),
        ("GET /surname?name=Ray", 200, ""),
        ("GET /surname", 400, None),
        ("GET /person/9", 404, None),
        ("GET /person/3", 404, None),
        ("GET /family/2", 404, None),
        ("GET /register/2", 404, None),
        ("GET /pedigree/2", 200, page("   1  Ann Lee")),
        ("GET /pedigree/2?generations=13", 400, None),
        ("GET /pedigree/9?generations=13", 404, None),
        ("GET /pedigree/3?generations=x", 404, None),
        ("GET /pedigree/9?generations=4", 404, None),
        ("HEAD /", 200, page("Persons: 1", "Families: 0", "Registers: 0")),
        ("HEAD /person/9", 404, None),
        ("POST /", 405, None),
        ("POST /person/9", 405, None),
    )),
    *MARRIAGES,
    Visits("a living wife", SMITHS, (
        ("GET /family/3", 200, page("Family 3", "Husband: 1 John Smith", "Wife: 2 Living")),
        ("GET /person/1", 200, page("Person 1", "Name: John Smith", "Sex: M", "BURI", "Partner in: 3")),
        ("GET /person/2", 200, page("Person 2", "Name: Living", "Partner in: 3")),
        ("GET /person/4", 404, None),
    )),
    SHOWN,
)


def not_shown() -> list[str]:
    """The pages of that document that it has otherwise."""
    text = (pathlib.Path(__file__).resolve().parents[2] / "docs/READING-ROOM.md").read_text("utf-8")
    shown = [(words, f"`{words[4:]}`", f"\n{wanted}```") for words, _, wanted in SHOWN.requests]
    return [words for words, path, block in shown if path not in text or block not in text]
