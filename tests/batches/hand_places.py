"""Places: of the file, of the archive, and those that are made."""

from __future__ import annotations

from cases import makes, under
from plain import Citation, Event, Family, Other, Person, Place, Source

BORN = ["0 @I1@ INDI", "1 BIRT", "2 PLAC Ashby, Kent"]
KENT = Place("Kent")
CHAIN = ["0 @P1@ _LOC", "1 NAME 1"]
CHAIN += [line for n in range(2, 34) for line in (f"0 @P{n}@ _LOC", f"1 NAME {n}", f"1 _LOC @P{n - 1}@")]


def at(place: int, owner: int = 1, tag: str = "BIRT", **more) -> Event:
    return Event(owner, tag, place=place, **more)


FILES = (
    # ---- made, found
    makes("places made, the largest first", BORN, [Person(), at(4), KENT, Place("Ashby", 3)]),
    makes(
        "the same file again over what it made",
        BORN, [Person(), at(4, 5)], (), {1: Person(), 2: at(4), 3: KENT, 4: Place("Ashby", 3)}, 5,
    ),
    makes(
        "the place of the archive with the lowest number, and not that of the file",
        ["0 @P1@ _LOC", "1 NAME Kent", "0 INDI", "1 BIRT", "2 PLAC Kent", "1 DEAT", "2 PLAC Kent", "3 _LOC @P1@"],
        [KENT, Person(), at(3, 10), at(9, 10, "DEAT")], (), {7: KENT, 3: KENT}, 9,
    ),
    makes(
        "a path in one name, and in two",
        ["0 INDI", "1 BIRT", "2 PLAC Ashby, Kent"],
        [Person(), at(2, 7)], (), {1: KENT, 2: Place("Ashby", 1), 4: Place("Ashby, Kent")}, 7,
    ),
    makes(
        "a path in one name is the lower one",
        BORN, [Person(), at(3, 7)], (), {3: Place("Ashby, Kent"), 4: KENT, 5: Place("Ashby", 4)}, 7,
    ),
    makes(
        "a place made within one of the archive",
        ["0 INDI", "1 BIRT", "2 PLAC Farm, Ashby, Kent"],
        [Person(), at(8, 6), Place("Farm", 3)], (), {2: KENT, 3: Place("Ashby", 2), 5: Place("Ashby")}, 6,
    ),
    makes(
        "made once, however it is spelt",
        ["0 INDI", "1 BIRT", "2 PLAC  Ashby ,Kent", "1 DEAT", "2 PLAC Ashby, Kent ", "0 INDI", "1 DEAT", "2 PLAC Kent"],
        [Person(), at(4), KENT, Place("Ashby", 3), at(4, 1, "DEAT"), Person(), at(3, 6, "DEAT")],
    ),
    makes(
        "names in another case are others",
        ["0 INDI", "1 BIRT", "2 PLAC Kent", "1 DEAT", "2 PLAC kent"],
        [Person(), at(3), KENT, at(5, 1, "DEAT"), Place("kent")],
    ),
    # ---- those of the file
    makes(
        "the first place of the file, behind the line too; for a place above, those before it",
        ["0 INDI", "1 BIRT", "2 PLAC Ashby, Kent", "1 DEAT", "2 PLAC Kent", "0 _LOC", "1 NAME Kent", "0 _LOC",
         "1 NAME Kent", "0 INDI", "1 BIRT", "2 PLAC Ross, Kent", "1 DEAT", "2 PLAC Kent"],
        [
            Person(), at(4), KENT, Place("Ashby", 3), at(6, 1, "DEAT"), KENT, KENT, Person(), at(10, 8),
            Place("Ross", 6), at(6, 8, "DEAT"),
        ],
    ),
    makes(
        "a place of the file with a path in one name or in two",
        ["0 @P1@ _LOC", "1 NAME Kent", "0 @P2@ _LOC", "1 NAME Ashby", "1 _LOC @P1@", "0 @P3@ _LOC",
         "1 NAME Ashby, Kent", "0 INDI", "1 BIRT", "2 PLAC Ashby, Kent", "1 DEAT", "2 PLAC Farm, Ashby, Kent"],
        [KENT, Place("Ashby", 1), Place("Ashby, Kent"), Person(), at(2, 4), at(7, 4, "DEAT"), Place("Farm", 2)],
    ),
    makes(
        "the place that is named below the line",
        ["0 @P1@ _LOC", "1 NAME Kent", "0 @P2@ _LOC", "1 NAME Kent", "0 @P3@ _LOC", "1 NAME Ross", "0 @I1@ INDI",
         "1 BIRT", "2 PLAC Kent", "3 _LOC @P3@", "3 _LOC Kent", "3 _LOC @I1@", "3 _LOC @P2@", "4 NOTE x", "3 MAP",
         "4 LATI N51.2", "3 _LOC @P2@", "3 _LOC @P1@", "3 _LOC @P2@"],
        [
            KENT, KENT, Place("Ross"), Person(),
            at(2, 4, at=under("3 _LOC #3", "3 _LOC Kent", "3 _LOC #4", "3 _LOC #2", "4 NOTE x", "3 MAP",
                              "4 LATI N51.2", "3 _LOC #1", "3 _LOC #2")),
        ],
    ),
    makes(
        "a place that is named below the line and stands behind it, or dangles",
        ["0 INDI", "1 BIRT", "2 PLAC  Ross,Kent", "3 _LOC @P2@", "1 DEAT", "2 PLAC Ross, Kent", "3 _LOC @P9@",
         "0 @P1@ _LOC", "1 NAME Kent", "0 @P2@ _LOC", "1 NAME Ross", "1 _LOC @P1@"],
        [Person(), at(6, 2), at(1, 2, "DEAT"), KENT, Place("Ross", 5)], ["8 dangling"],
        {1: Place("Ross, Kent")}, 2,
    ),
    # ---- the form of a PLAC
    makes(
        "lines PLAC that are not in form, and the first that is",
        ["0 @I1@ INDI", "1 BIRT", "2 PLAC", "2 PLAC  , ,", "2 PLAC @I1@", "2 PLAC " + "a," * 32,
         "2 PLAC " + "a" * 4_097, "2 PLAC Kent", "3 NOTE x", "2 PLAC Ross", "3 NOTE y", "1 PLAC Lee", "1 NOTE",
         "2 PLAC Lee"],
        [
            Person((), None, under("1 PLAC Lee", "1 NOTE", "2 PLAC Lee")),
            at(3, at=under("3 NOTE x"), carried=(
                *under("2 PLAC", "2 PLAC  , ,", "2 PLAC #1", "2 PLAC " + "a," * 32, "2 PLAC " + "a" * 4_097),
                *under("2 PLAC Ross", "3 NOTE y"),
            )),
            KENT,
        ],
    ),
    makes(
        "a path of 4,096 bytes once its spaces are gone",
        ["0 INDI", "1 BIRT", "2 PLAC   " + "é" * 2_048 + " "], [Person(), at(3), Place("é" * 2_048)],
    ),
    makes(
        "a path that has too many bytes once it is made normal",
        ["0 INDI", "1 BIRT", "2 PLAC " + "a" * 4_094 + ",b"],
        [Person(), Event(1, "BIRT", carried=under("2 PLAC " + "a" * 4_094 + ",b"))],
    ),
    makes(
        "a path of 32 parts",
        ["0 INDI", "1 BIRT", "2 PLAC " + ", ".join(map(str, range(1, 33)))],
        [Person(), at(34), Place("32"), *(Place(str(35 - n), n - 1) for n in range(4, 35))],
    ),
    makes(
        "empty parts",
        ["0 INDI", "1 BIRT", "2 PLAC  , Kent", "1 DEAT", "2 PLAC Ross,", "1 BURI", "2 PLAC a,,b"],
        [
            Person(), at(4), KENT, Place("", 3), at(7, 1, "DEAT"), Place(""), Place("Ross", 6), at(11, 1, "BURI"),
            Place("b"), Place("", 9), Place("a", 10),
        ],
    ),
    makes(
        "a place without a name is above another",
        ["0 @P1@ _LOC", "0 INDI", "1 BIRT", "2 PLAC Ross,", "1 DEAT", "2 PLAC ,"],
        [Place(""), Person(), at(4, 2), Place("Ross", 1), Event(2, "DEAT", carried=under("2 PLAC ,"))],
    ),
    makes(
        "a place with line breaks in its name",
        ["0 INDI", "1 BIRT", "2 PLAC a", "3 CONT , Kent"], [Person(), at(4), KENT, Place("a\n", 3)],
    ),
    # ---- records of places
    makes(
        "the name of a place of the file",
        ["0 _LOC", "1 NAME x", "2 NOTE y", "1 NAME " + "a," * 32, "1 NAME  Ashby ,Kent ", "1 NAME Ross", "0 @P@ _LOC",
         "1 NAME @P@", "0 _LOC", "1 NAME ,", "0 _LOC", "1 NAME"],
        [
            Place("Ashby, Kent", None, under("1 NAME x", "2 NOTE y", "1 NAME " + "a," * 32, "1 NAME Ross")),
            Place("", None, under("1 NAME #2")), Place(", "), Place(""),
        ],
    ),
    makes(
        "the place above one of the file",
        ["0 @P1@ _LOC", "1 _LOC @P1@", "1 _LOC @P2@", "0 @P2@ _LOC", "1 _LOC @P1@", "2 NOTE x", "1 _LOC Kent",
         "1 _LOC @I1@", "1 _LOC @P1@", "1 _LOC @P1@", "1 TYPE farm", "0 @I1@ INDI", "1 _LOC @P1@"],
        [
            Place("", None, under("1 _LOC #1", "1 _LOC #2")),
            Place("", 1, under("1 _LOC #1", "2 NOTE x", "1 _LOC Kent", "1 _LOC #3", "1 _LOC #1", "1 TYPE farm")),
            Person((), None, under("1 _LOC #1")),
        ],
    ),
    makes(
        "a place above is one with which the path is within the limits",
        ["0 @P1@ _LOC", "1 NAME " + "a" * 4_000, "0 @P2@ _LOC", "1 NAME Kent", "0 @P3@ _LOC", "1 NAME " + "b" * 95,
         "1 _LOC @P1@", "1 _LOC @P2@", "0 @P4@ _LOC", "1 NAME " + "b" * 94, "1 _LOC @P1@"],
        [Place("a" * 4_000), KENT, Place("b" * 95, 2, under("1 _LOC #1")), Place("b" * 94, 1)],
    ),
    makes(
        "33 places, each within the one before it",
        CHAIN,
        [Place("1"), *(Place(str(n), n - 1) for n in range(2, 33)), Place("33", None, under("1 _LOC #32"))],
    ),
    # ---- numbers
    makes(
        "numbers of places between those of citations",
        ["0 @I1@ INDI", "1 BIRT", "2 SOUR @S1@", "2 PLAC Ashby, Kent", "2 SOUR @S1@", "1 SOUR @S1@", "0 @S1@ SOUR"],
        [Person(), at(5), Citation(2, 8), KENT, Place("Ashby", 4), Citation(2, 8), Citation(1, 8), Source()],
    ),
    makes(
        "lines PLAC of what is no event make nothing",
        ["0 INDI", "1 MARR", "2 PLAC Kent", "1 birt", "2 PLAC Ross", "0 FAM", "1 BIRT", "2 PLAC Lee", "0 NOTE",
         "1 BIRT", "2 PLAC Lee"],
        [
            Person((), None, under("1 MARR", "2 PLAC Kent", "1 birt", "2 PLAC Ross")),
            Family((), (), under("1 BIRT", "2 PLAC Lee")),
            Other("NOTE", "", under("1 BIRT", "2 PLAC Lee")),
        ],
    ),
    makes(
        "a place of the archive without a name",
        ["0 INDI", "1 BIRT", "2 PLAC ,Kent"], [Person(), at(2, 3)], (), {1: KENT, 2: Place("", 1)}, 3,
    ),
    makes(
        "a place of the archive is above one, though the file has such a place before the line",
        ["0 _LOC", "1 NAME Kent", "0 INDI", "1 BIRT", "2 PLAC Ross, Kent"],
        [KENT, Person(), at(6, 4), Place("Ross", 1)], (), {1: KENT}, 3,
    ),
)
