"""Lines that are those of no record, and those of a record with one more or less; from docs/FORMATS.md."""

from __future__ import annotations

from rows import Line

PERSON = (
    Line(0, "person"),
    Line(1, "name", "John /Smith/"),
    Line(2, "carried"),
    Line(3, "_UID", "x"),
    Line(4, "carried", None, 7),
    Line(1, "sex", "M"),
)
EVENT = (Line(0, "event", None, 1), Line(1, "date", ""))
CITATION = (Line(0, "citation", None, 2), Line(1, "source", "f. 3", 1))
FAMILY = (Line(0, "family"), Line(1, "partner", "wife", 4))
SOURCE = (Line(0, "source", "Ashby register"),)
ENTRY = (
    Line(0, "entry", "BAPTISM"),
    Line(1, "key", "12 f. 3", 4),
    Line(1, "page", "f. 3"),
    Line(1, "item", "12"),
    Line(1, "text", ""),
    Line(1, "mention", "John"),
    Line(2, "role", "child"),
)


def but(lines, at, *others):
    """The lines with others in place of one."""
    return (*lines[:at], *others, *lines[at + 1 :])


def keyed(key, page, item):
    """The lines of an entry with that key, page and item."""
    return (ENTRY[0], Line(1, "key", key, 4), Line(1, "page", page), Line(1, "item", item), *ENTRY[4:])


def nested(depth, levels):
    """Carried lines that stand one below another, the first of them at the depth."""
    return tuple(Line(depth + level, "NOTE", "x") for level in range(levels))


# Parts whose carried lines begin at depth 2 or at depth 3.
PLACE = (Line(0, "place", "Ashby"), Line(1, "carried"))
NAME = (*PERSON[:2], Line(2, "carried"))
SIDE = (*FAMILY, Line(2, "side"))
WHERE = (*EVENT, Line(1, "date", None, 3), Line(2, "carried"))
OTHER = (Line(0, "other"), Line(1, "SUBM", ""))

# A level of a file is 99 at most, so carried lines have 99 levels at most: each part with as many.
DEEPEST = (
    ("a place", (*PLACE, *nested(2, 99))),
    ("a name", (*NAME, *nested(3, 99))),
    ("a partner, on the person's side", (*SIDE, *nested(3, 99))),
    ("the place of an event", (*WHERE, *nested(3, 99))),
    ("another record", (*OTHER, *nested(2, 99))),
)

REFUSED = (
    ("a line of the greatest depth", (*PERSON, Line(4_294_967_295, "NOTE", "x"))),
    ("a first line of the greatest depth", (Line(4_294_967_295, "person"),)),
    ("carried lines of 100 levels", (*PLACE, *nested(2, 100))),
    ("carried lines of 100 levels below a name", (*NAME, *nested(3, 100))),
    ("carried lines of 100 levels on the person's side", (*SIDE, *nested(3, 100))),
    ("carried lines of 100 levels below the place of an event", (*WHERE, *nested(3, 100))),
    ("carried lines of 100 levels below another record", (*OTHER, *nested(2, 100))),
    ("carried lines of 126 levels", (*PLACE, *nested(2, 126))),
    ("carried lines of 127 levels", (*PLACE, *nested(2, 127))),
    ("carried lines of 100,000 levels", (*PLACE, *nested(2, 100_000))),
    ("a sex behind a sex", (*PERSON, Line(1, "sex", "M"))),
    ("a line of carried lines that has a text", (*PERSON, Line(1, "carried", "x"))),
    ("a field that a person has not", (*PERSON, Line(1, "birth", ""))),
    ("a name at depth 0", (*PERSON, Line(0, "name", "x"))),
    ("a name two deep", (*PERSON, Line(2, "name", "x"))),
    ("no lines", ()),
    ("a date in another spelling", (*EVENT, Line(1, "date", "1 jan 1700"))),
    ("a first line of depth 1", (Line(1, "person"),)),
    ("two records", (Line(0, "person"), Line(0, "person"))),
    ("a word of no kind", (Line(0, "man"),)),
    ("a kind in capitals", (Line(0, "PERSON"),)),
    ("a person with a text", (Line(0, "person", "x"),)),
    ("a person with an empty text", (Line(0, "person", ""),)),
    ("a person with a number", (Line(0, "person", None, 1),)),
    ("a line that is two deeper", (Line(0, "person"), Line(2, "name", "x"))),
    ("a name without a text", (Line(0, "person"), Line(1, "name"))),
    ("a name with a number", (Line(0, "person"), Line(1, "name", "x", 1))),
    ("a name behind a sex", (Line(0, "person"), Line(1, "sex", "M"), Line(1, "name", "x"))),
    ("a sex of no letter", (Line(0, "person"), Line(1, "sex", ""))),
    ("a sex of another letter", (Line(0, "person"), Line(1, "sex", "m"))),
    ("a sex without a text", (Line(0, "person"), Line(1, "sex"))),
    ("a line below a sex", (*PERSON, Line(2, "x", "x"))),
    ("carried lines of which there are none", (Line(0, "person"), Line(1, "carried"))),
    (
        "a field behind carried lines",
        (Line(0, "person"), Line(1, "carried"), Line(2, "NOTE", "x"), Line(1, "sex", "M")),
    ),
    (
        "a carried line with a text and a number",
        (Line(0, "person"), Line(1, "carried"), Line(2, "NOTE", "x", 1)),
    ),
    (
        "a carried line with neither",
        (Line(0, "person"), Line(1, "carried"), Line(2, "NOTE")),
    ),
    ("a place without a name", (Line(0, "place", None, 3),)),
    ("a field of a place", (Line(0, "place", "Ashby"), Line(1, "name", "x"))),
    ("a repository with a number", (Line(0, "repo", "x", 1),)),
    ("a source with a number", (Line(0, "source", "x", 1),)),
    ("an author without a text", (*SOURCE, Line(1, "author"))),
    ("two authors", (*SOURCE, Line(1, "author", "x"), Line(1, "author", "x"))),
    ("an author behind a publisher", (*SOURCE, Line(1, "publisher", "x"), Line(1, "author", "x"))),
    ("a holding without a repository", (*SOURCE, Line(1, "holding", "PR 1/1"))),
    ("a publisher behind a holding", (*SOURCE, Line(1, "holding", None, 2), Line(1, "publisher", "x"))),
    ("a citation without an owner", but(CITATION, 0, Line(0, "citation"))),
    ("a citation with a text", but(CITATION, 0, Line(0, "citation", "x", 2))),
    ("a citation without a source", CITATION[:1]),
    ("a citation of no number", but(CITATION, 1, Line(1, "source", "f. 3"))),
    ("a quality of 4", (*CITATION, Line(1, "quality", "4"))),
    ("a quality before the source", (CITATION[0], Line(1, "quality", "2"), CITATION[1])),
    ("a partner of no partnership", (*FAMILY, Line(1, "partner", "", 4))),
    ("a partner by a tag of GEDCOM", (*FAMILY, Line(1, "partner", "HUSB", 4))),
    ("a partner without a number", (*FAMILY, Line(1, "partner", "wife"))),
    ("a child with a text", (*FAMILY, Line(1, "child", "x", 5))),
    ("a child without a number", (*FAMILY, Line(1, "child"))),
    ("a partner behind a child", (FAMILY[0], Line(1, "child", None, 5), FAMILY[1])),
    (
        "the person's side behind the family's",
        (*FAMILY, Line(2, "carried"), Line(3, "A", ""), Line(2, "side"), Line(3, "B", "")),
    ),
    ("a side of which there is none", (*FAMILY, Line(2, "side"))),
    ("an event without an owner", but(EVENT, 0, Line(0, "event"))),
    ("an event without a tag", EVENT[:1]),
    ("an event without a value", but(EVENT, 1, Line(1, "BIRT"))),
    ("an event with a number behind its tag", but(EVENT, 1, Line(1, "BIRT", "", 3))),
    ("a line of neither date nor place", (*EVENT, Line(1, "date"))),
    ("two dates", (*EVENT, Line(1, "date", "1700"), Line(1, "date", "1700"))),
    (
        "a date behind a participant",
        (*EVENT, Line(1, "participant", "", 2), Line(1, "date", "1700")),
    ),
    (
        "carried lines of a place that is not there",
        (*EVENT, Line(1, "date", "1700"), Line(2, "carried"), Line(3, "MAP", "")),
    ),
    ("a participant without a role", (*EVENT, Line(1, "participant", None, 2))),
    ("a participant without a number", (*EVENT, Line(1, "participant", "witness"))),
    ("an entry of no kind", but(ENTRY, 0, Line(0, "entry", "baptism"))),
    ("an entry without a source", but(ENTRY, 1, Line(1, "key", "12 f. 3"))),
    (
        "an entry with its source on its first line",
        but(but(ENTRY, 1, Line(1, "key", "12 f. 3")), 0, Line(0, "entry", "BAPTISM", 4)),
    ),
    ("an entry with its source on two lines", but(ENTRY, 0, Line(0, "entry", "BAPTISM", 4))),
    ("an entry with its source on the line of its page", but(ENTRY, 2, Line(1, "page", "f. 3", 4))),
    ("an entry without a key", but(ENTRY, 1)),
    ("an entry whose key has another item", but(ENTRY, 1, Line(1, "key", "13 f. 3", 4))),
    ("an entry whose key has another page", but(ENTRY, 1, Line(1, "key", "12 f. 4", 4))),
    ("an entry whose key has its item alone", but(ENTRY, 1, Line(1, "key", "12", 4))),
    ("an entry whose key has a page of 1,001 bytes", keyed("12 " + "f" * 1001, "f" * 1001, "12")),
    ("an entry whose key has not its page of 1,000 bytes", keyed("12", "f" * 1000, "12")),
    ("an entry without a page", but(ENTRY, 2)),
    ("an entry without an item", but(ENTRY, 3)),
    ("an item with a leading zero", keyed("012 f. 3", "f. 3", "012")),
    ("an item of 0", keyed("0 f. 3", "f. 3", "0")),
    ("an item of 1000000", keyed("1000000 f. 3", "f. 3", "1000000")),
    ("an entry without a text", but(ENTRY, 4)),
    ("an entry with an item before its page", (*ENTRY[:2], ENTRY[3], ENTRY[2], *ENTRY[4:])),
    ("an entry with its page before its key", (ENTRY[0], ENTRY[2], ENTRY[1], *ENTRY[3:])),
    ("an entry with a date behind its text", (*ENTRY[:5], Line(1, "date", "1700"), *ENTRY[5:])),
    ("an entry of a date in another spelling", but(ENTRY, 4, Line(1, "date", "1 jan 1700"), ENTRY[4])),
    ("a mention without a role", ENTRY[:6]),
    ("a mention of no role", but(ENTRY, 6, Line(2, "role", "Child"))),
    ("a mention without a name", but(ENTRY, 5, Line(1, "mention"))),
    ("a reason without a link", (*ENTRY, Line(2, "reason", "same farm"))),
    ("a link without a reason", but(ENTRY, 5, Line(1, "mention", "John", 7))),
    ("an entry with carried lines", (*ENTRY, Line(1, "carried"), Line(2, "NOTE", "x"))),
    ("another record without a line", (Line(0, "other"),)),
    ("another record of two lines", (Line(0, "other"), Line(1, "A", "x"), Line(1, "B", "x"))),
    ("another record with a text and a number", (Line(0, "other"), Line(1, "A", "x", 2))),
    ("another record with neither", (Line(0, "other"), Line(1, "A"))),
)

# Lines that a row of the table above might be taken for, and that are those of a record.
TAKEN = (("a date in canonical spelling", (*EVENT, Line(1, "date", "1 JAN 1700"))),)
