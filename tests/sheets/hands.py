"""Sheets by hand: the examples of docs/FORMATS.md, "Sheets", and what drawn archives have not, as the living."""

from __future__ import annotations

from typing import NamedTuple

from plain import Citation, Entry, Event, Family, Mention, Person, Place, Source


class Scene(NamedTuple):
    """Records by their numbers, and the sheets of that day."""

    name: str
    records: dict
    sheets: tuple[tuple[tuple[object, ...], str], ...]


def page(*lines: str) -> str:
    return "".join(line + "\n" for line in lines)


SMITHS = {
    1: Person(("John /Smith/",), "M"),
    2: Person(("Ann /Lee/",)),
    3: Family((("husband", 1), ("wife", 2))),
    4: Event(3, "MARR", "", "1 JAN 2000"),
    5: Event(1, "BURI"),
}
ASHBY = {
    1: Source("Ashby"),
    2: Entry(1, "BAPTISM", "f. 3", 1, "1 JAN 1900", (Mention("John", "child"),)),
    3: Entry(1, "BAPTISM", "f. 3", 2, "1 JAN 1930", (Mention("Tom", "child"),)),
}
# Each of two is the father of the other, and their mother is one wife.
ROUND = {
    1: Person(("A",)),
    2: Person(("B",)),
    3: Person(("C",)),
    4: Family((("husband", 2), ("wife", 3)), (1,)),
    5: Family((("husband", 1), ("wife", 3)), (2,)),
    6: Event(1, "DEAT", "", "1 JAN 1800"),
    7: Event(2, "DEAT"),
    8: Event(3, "BURI"),
    9: Event(1, "BIRT"),
    10: Event(1, "BIRT", "", "1 JAN 1700"),
    11: Event(1, "BIRT", "", "1 JAN 1701"),
}
# The pedigree of docs/FORMATS.md, and then its event of all parts.
LEES = {
    1: Person(("Ann /Lee/",)),
    2: Person(("Tom /Lee/",)),
    3: Person(("Eva /Ray/",)),
    4: Family((("husband", 2), ("wife", 3)), (1,)),
    5: Event(1, "DEAT"),
    6: Event(2, "DEAT"),
    7: Event(3, "DEAT"),
    8: Event(2, "BIRT", "", "1850"),
}
AT_NIGHT = {
    **LEES,
    8: Event(2, "BIRT", "at night", "1850", 11, ((1, "nurse"), (3, ""))),
    9: Source("Register"),
    10: Place("Kent"),
    11: Place("Ashby", 10),
    12: Citation(8, 9, "f. 2", "0"),
}
PARTS = {
    1: Place("Kent"),
    2: Place("Ashby", 1),
    3: Source(""),
    4: Person(("Ann\n/Lee/",)),
    5: Event(4, "BURI", "by night\nat last", "1 JAN 1700", 2, ((6, "sexton"), (4, ""))),
    6: Person(()),
    7: Event(6, "BURI"),
    8: Citation(5, 3, "", "0"),
    9: Citation(4, 3, "f. 1\nf. 2"),
    10: Family((), (4,)),
    11: Family((("wife", 4),)),
    12: Family((), (4,)),
}

SCENES = (
    Scene("a living wife", SMITHS, (
        (("person", 1), page("Person 1", "Name: John Smith", "Sex: M", "BURI", "Partner in: 3")),
        (("person", 2), page("Person 2", "Name: Living", "Partner in: 3")),
        (("family", 3), page("Family 3", "Husband: 1 John Smith", "Wife: 2 Living")),
        (("pedigree", 2, 4), page("   1  Living")),
        (("person", 9), "50 NoSuch\n"),
        (("person", 4), "50 NoSuch\n"),
        (("person", 3), "51 WrongKind\n"),
        (("family", 1), "51 WrongKind\n"),
        (("pedigree", 3, 4), "51 WrongKind\n"),
        (("register", 1), "51 WrongKind\n"),
        (("surname", ""), page("         2  Living")),
        (("surname", "Lee"), ""),
        (("surname", "SMITH"), page("         1  John Smith")),
        (("index",), page("Persons: 2", "Families: 1", "Registers: 0")),
    )),
    Scene("a closed entry", ASHBY, (
        (("register", 1), page("Register 1: Ashby", "     1  f. 3  BAPTISM  1 JAN 1900", "        child: John")),
        (("index",), page("Persons: 0", "Families: 0", "Registers: 1")),
    )),
    Scene("ancestors who come again", ROUND, (
        (("pedigree", 1, 1), page("   1  A, b. 1 JAN 1700, d. 1 JAN 1800")),
        (("pedigree", 1, 3), page(
            "   1  A, b. 1 JAN 1700, d. 1 JAN 1800", "   2  B", "   3  C",
            "   4  A, b. 1 JAN 1700, d. 1 JAN 1800", "   5  C",
        )),
    )),
    Scene("a pedigree", LEES, (
        (("pedigree", 1, 4), page("   1  Ann Lee", "   2  Tom Lee, b. 1850", "   3  Eva Ray")),
        (("index",), page("Persons: 3", "Families: 1", "Registers: 0")),
        (("surname", "LEE"), page("         1  Ann Lee", "         2  Tom Lee")),
    )),
    Scene("all that an event can have", AT_NIGHT, (
        (("person", 2), page(
            "Person 2", "Name: Tom Lee", "DEAT", "BIRT: at night; 1850; Ashby, Kent", "  with 1 Ann Lee (nurse)",
            "  with 3 Eva Ray", "  source 9, page f. 2, quality 0", "Partner in: 4",
        )),
    )),
    Scene("all parts", PARTS, (
        (("person", 4), page(
            "Person 4", "Name: Ann Lee", "BURI: by night at last; 1 JAN 1700; Ashby, Kent", "  with 6 ? (sexton)",
            "  with 4 Ann Lee", "  source 3, page , quality 0", "Source 3, page f. 1 f. 2", "Child of: 10",
            "Child of: 12", "Partner in: 11",
        )),
        (("family", 11), page("Family 11", "Wife: 4 Ann Lee")),
        (("family", 12), page("Family 12", "Child: 4 Ann Lee")),
        (("register", 3), page("Register 3: ")),
    )),
)
