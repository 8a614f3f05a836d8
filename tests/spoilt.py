"""Archives that somebody else has spoilt: for each rule one that breaks it, and a neighbour that breaks none. The
rules are those of a sound archive (docs/FORMATS.md, "What an archive holds"); Python's sqlite3 makes both.

The lines of a record are written (depth, tag, text, number).
"""

from __future__ import annotations

import sqlite3
from collections.abc import Callable
from typing import NamedTuple

from beside import link_of, links_of, sought_of
from calendars import span_of
from packed import lines_of, put_lines, row_of

# What is in the archive: repository 1, places 2 and 3 (Ashby, Kent), source 4, persons 5, 6 and 7, family 8 of 6 and 7
# with the child 5, events 9 and 14, citations 10 and 11, entries 12 and 13; of a file the note 15 and person 16.
ROWS = (
    "a,repo,Office", "b,place,Kent,", "c,place,Ashby,2", "d,source,Register,Rector,County,1,MS 4",
    "e,person,Ann /Lee/,F", "f,person,Tom /Lee/,M", "g,person,Eva /Ray/,F", "h,family,6,7", "i,child,8,5",
    "j,event,5,BIRT,,1 JAN 1800,3", "k,participant,9,7,witness", "l,citation,9,4,f. 3,2", "m,citation,5,4,,",
    "n,entry,4,BURIAL,f. 4,1,2 JAN 1860,3,Tom,buried,Tom,spouse,Eva", "o,link,12,1,6,same farm",
    "p,entry,4,BURIAL,f. 4,2,,,Joe,buried,Joe", "q,event,8,MARR,,1 MAY 1799,",
)
FILE = b"""0 HEAD
0 @N@ NOTE a
1 REFN x
0 @I@ INDI
1 NAME Joe /Lee/
1 _UID 7
1 ASSO @N@
0 TRLR
"""
# Person 17, with the event 18, becomes person 6: slip 19. Then event 20.
LATER = ("r,person,Tom /Leigh/,M", "s,event,17,OCCU,smith,,", "u,merge,6,17", "v,event,5,OCCU,,,")
RECORDS = 18

Line = tuple[int, str, str | None, int | None]


class Tables:
    """The tables of an archive that no program has open."""

    def __init__(self, file: str):
        self.conn = sqlite3.connect(file)

    def __enter__(self):
        return self

    def __exit__(self, *_):
        self.conn.commit()
        self.conn.close()

    def run(self, text: str, *values) -> None:
        self.conn.execute(text, values)

    def lines(self, number: int) -> list[Line]:
        return lines_of(self.conn, number)

    def put(self, number: int, lines: list[Line]) -> None:
        """The record of a number has these lines now, the span of its date, its links, and what it is looked for by."""
        put_lines(self.conn, number, lines)
        self.run("DELETE FROM span WHERE no = ?", number)
        if (span := span_of(lines[0][1], lines)) is not None:
            self.run("INSERT INTO span VALUES (?, ?, ?)", number, *span)
        for key in links_of(number, lines):
            self.run("INSERT OR IGNORE INTO link VALUES (?)", key)
        self.run("DELETE FROM sought WHERE no = ?", number)
        if (sought := sought_of(lines)) is not None:
            self.run("INSERT INTO sought VALUES (?, ?, ?)", number, *sought)

    def packed(self, number: int, text: str | None) -> None:
        """The row of a record has this packed text, and the number that it names a link: 1, or none."""
        self.run("UPDATE line SET text = ? WHERE no = ?", text, number)
        self.run("INSERT OR IGNORE INTO link VALUES (?)", link_of(number, 1))

    def changed(self, number: int, place: int, line: Line) -> None:
        """One line is another."""
        lines = self.lines(number)
        self.put(number, [*lines[:place], line, *lines[place + 1 :]])

    def more(self, number: int, *lines: Line) -> None:
        """Further lines after the others."""
        self.put(number, [*self.lines(number), *lines])

    def add(self, number: int, kind: str, lines: list[Line]) -> None:
        self.run("INSERT INTO record VALUES (?, ?, 0)", number, kind)
        self.put(number, lines)
        self.run("UPDATE meta SET next = max(next, ?)", number + 1)

    def put_slip(self, side: int, number: int, lines: list[Line]) -> None:
        """What slip 19 has of a number before the merge (0) or after it (1)."""
        self.run("UPDATE slip_line SET tag = ?, text = ?, dst = ? WHERE slip = 19 AND side = ? AND no = ?",
                 *row_of(number, lines)[3:], side, number)


class Pair(NamedTuple):
    """A change that breaks a rule, one that breaks none, and what is told of the first: the record or the slip, and
    words; nothing where the lines are no record."""

    name: str
    subject: str
    words: str
    spoilt: Callable[[Tables], None]
    sound: Callable[[Tables], None]


def change(number, place, line):
    return lambda tables: tables.changed(number, place, line)


def more(number, *lines):
    return lambda tables: tables.more(number, *lines)


def whole(number, *lines):
    return lambda tables: tables.put(number, list(lines))


def slip(side, number, *lines):
    return lambda tables: tables.put_slip(side, number, list(lines))


def packed(name, spoilt, sound):
    """A packed text of person 5 that no lines have, and one that lines have."""
    def texts(text):
        return lambda tables: tables.packed(5, text)

    return Pair(name, "", "", texts(spoilt), texts(sound))


def both(*changes):
    def all_of(tables):
        for one in changes:
            one(tables)

    return all_of


def run(text):
    return lambda tables: tables.run(text)


def nothing(_):
    pass


def names(name, number, kind, place, spoilt, sound):
    """A number of a line that names no record of the kind, and one that does."""
    changes = change(number, place, spoilt), change(number, place, sound)
    return Pair(name, f"record {number}", f"which is no {kind}", *changes)


def span(name, number, statement, sound):
    """A span that is not that of the date of its record, and a date that goes with its span."""
    return Pair(name, f"record {number}", "its span is not that of its date", run(statement), sound)


def link(name, number, named, sound):
    """A number that a record names without a link, and a link that no record needs."""
    gone = run(f"DELETE FROM link WHERE id = {link_of(number, named)}")
    return Pair(name, f"record {number}", f"it names {named}, without a link", gone, sound)


def looked_for(name, number, statement, sound):
    """A record that is not looked for by what it has, and one that is."""
    return Pair(name, f"record {number}", "it is not looked for by what it has", run(statement), sound)


def chain(depth: int, count: int) -> list[Line]:
    """Lines each below the one before."""
    return [(depth + place, "_DEEP", "", None) for place in range(count)]


def entry(kind="BURIAL", page="f. 4", item="3", source=4, roles=("buried",)):
    """The lines of a third entry."""
    mentions = [line for role in roles for line in ((1, "mention", "Kit", None), (2, "role", role, None))]
    head = [(0, "entry", kind, None), (1, "key", f"{item} {page}", source), (1, "page", page, None)]
    return [*head, (1, "item", item, None), (1, "text", "", None), *mentions]


def third(**how):
    return lambda tables: tables.add(21, "entry", entry(**how))


def other(tag, value=None, number=None, carried=()):
    """Another record in place of the note 15."""
    return whole(15, (0, "other", None, None), (1, tag, value, number), *carried)


def events_of_the_slip(tag):
    """The event 18 has this tag, now and in the slip, before the merge and after it."""
    before, after = [(0, "event", None, owner) for owner in (17, 6)]
    line = (1, tag, "smith", None)
    return slip(0, 18, before, line), slip(1, 18, after, line), whole(18, after, line)


SHAPE = ((2, "SOUR", None, 4), (2, "PAGE", "f. 9", None), (2, "_ITEM", "1", None), (2, "TEXT", "x", None),
         (2, "_MENT", "Kit", None), (3, "_ROLE", "buried", None))
PARTS = ", ".join(["a"] * 31)
PLACED = (0, "place", "Ashby", 2)
OLD = [(0, "person", None, None), (1, "name", "Tom /Leigh/", None), (1, "sex", "M", None)]

PAIRS = (
    # what a number names
    names("the source of a citation", 10, "source", 1, (1, "source", "f. 3", 5), (1, "source", "f. 5", 4)),
    names("the owner of a citation", 11, "person, family or event", 0, (0, "citation", None, 12),
          (0, "citation", None, 8)),
    names("the owner of an event", 9, "person or family", 0, (0, "event", None, 4), (0, "event", None, 6)),
    names("the place of an event", 9, "place", 2, (1, "date", "1 JAN 1800", 5), (1, "date", "1 JAN 1800", 2)),
    names("who took part", 9, "person", 3, (1, "participant", "witness", 8), (1, "participant", "witness", 6)),
    names("a husband", 8, "person", 1, (1, "partner", "husband", 4), (1, "partner", "husband", 16)),
    names("a child", 8, "person", 3, (1, "child", None, 9), (1, "child", None, 16)),
    names("the repository of a source", 4, "repository", 3, (1, "holding", "MS 4", 2), (1, "holding", "MS 5", 1)),
    names("the place above a place", 3, "place", 0, (0, "place", "Ashby", 1), PLACED),
    names("whom an entry names", 12, "person", 6, (1, "mention", "Tom", 3), (1, "mention", "Tom", 7)),
    names("a carried line", 16, "record of level 0", 4, (2, "ASSO", None, 9), (2, "ASSO", None, 12)),
    Pair("another record that names an event", "record 15", "which is no record of level 0",
         other("NOTE", None, 14), other("NOTE", None, 5)),
    # places
    Pair("a place within a later one", "record 2", "the place above it has no smaller number",
         both(change(2, 0, (0, "place", "Kent", 3)), change(3, 0, (0, "place", "Ashby", None))), nothing),
    Pair("a name that is not normal", "record 3", "the name of the place is not normal",
         change(3, 0, (0, "place", "Mill Field,Ashby", 2)), change(3, 0, (0, "place", "Mill Field, Ashby", 2))),
    Pair("a name with a space at its end", "record 3", "the name of the place is not normal",
         change(3, 0, (0, "place", "Ashby ", 2)), change(3, 0, (0, "place", "Ashby  b", 2))),
    Pair("a path of 33 parts", "record 3", "the path of the place has over 32 parts or 4,096 bytes",
         change(3, 0, (0, "place", PARTS + ", a", 2)), change(3, 0, (0, "place", PARTS, 2))),
    Pair("a path of 4,097 bytes", "record 3", "the path of the place has over 32 parts or 4,096 bytes",
         change(3, 0, (0, "place", "x" * 4_091, 2)), change(3, 0, (0, "place", "x" * 4_090, 2))),
    Pair("a place of empty parts", "record 9", "the path of its place has only empty parts",
         both(change(2, 0, (0, "place", ", ", None)), change(9, 2, (1, "date", "1 JAN 1800", 2))),
         change(2, 0, (0, "place", ", ", None))),
    # families, events, entries
    Pair("a partner who is a child too", "record 8", "a person stands twice in the family",
         change(8, 3, (1, "child", None, 6)), change(8, 3, (1, "child", None, 16))),
    Pair("a child twice", "record 8", "a person stands twice in the family",
         more(8, (1, "child", None, 5)), more(8, (1, "child", None, 16))),
    Pair("a marriage of a person", "record 9", "the tag of the event is not of its owner's kind",
         change(9, 1, (1, "MARR", "", None)), change(9, 1, (1, "BAPM", "", None))),
    Pair("a birth of a family", "record 14", "the tag of the event is not of its owner's kind",
         change(14, 1, (1, "BIRT", "", None)), change(14, 1, (1, "RESI", "", None))),
    Pair("a role of another kind", "record 12", "with roles of its kind",
         change(12, 7, (2, "role", "groom", None)), change(12, 7, (2, "role", "father", None))),
    Pair("an entry without a mention", "record 21", "it has not 1 to 100 mentions", third(roles=()), third()),
    Pair("101 mentions", "record 21", "it has not 1 to 100 mentions",
         third(roles=("spouse",) * 101), third(roles=("spouse",) * 100)),
    Pair("two entries of one key", "record", "another entry has its source, kind, page and item",
         third(item="2"), third(item="2", kind="MARRIAGE", roles=("groom",))),
    # tags, texts, levels
    Pair("a carried CONC", "record 16", "a tag is CONC or CONT",
         change(16, 3, (2, "CONC", "7", None)), change(16, 3, (2, "CONX", "7", None))),
    Pair("a trailer", "record 15", "its tag is TRLR", other("TRLR", "a"), other("TRLX", "a")),
    Pair("a text with U+0000", "", "", change(5, 1, (1, "name", "Ann\0/Lee/", None)),
         change(5, 1, (1, "name", "Ann\n/Lee/", None))),
    Pair("a carried line at level 99", "record 16", "a line is below level 98",
         more(16, *chain(2, 99)), more(16, *chain(2, 98))),
    # packed texts
    packed("a packed text without LF at its end", "\n1 name Ann", "\n1 name Ann\n"),
    packed("no packed text", None, "\n"),
    packed("an empty packed text", "", "\n"),
    packed("a first line without a space before its text", "x\n", "\n1 name x\n"),
    packed("an empty line", "\n\n1 name Ann\n", "\n1 name \n"),
    packed("a depth with a leading zero", "\n01 name Ann\n", "\n1 name 01\n"),
    packed("a depth with a sign", "\n+1 name Ann\n", "\n1 name +1\n"),
    packed("a depth of over 32 bits", "\n4294967297 name Ann\n", "\n1 name 4294967297\n"),
    packed("a depth that does not fit", "\n2 name Ann\n", "\n1 carried\n2 NAMES Ann\n"),
    packed("a tag that is none", "\n1 na-me Ann\n", "\n1 name na-me\n"),
    packed("no tag", "\n1 \n", "\n1 name  \n"),
    packed("a tag of 32 characters", f"\n1 carried\n2 {'A' * 32} x\n", f"\n1 carried\n2 {'A' * 31} x\n"),
    packed("a number with a leading zero", "\n1 carried\n2 ASSO>01\n", "\n1 carried\n2 ASSO>1\n"),
    packed("a number with a sign", "\n1 carried\n2 ASSO>+1\n", "\n1 carried\n2 ASSO +1\n"),
    packed("a number of over 32 bits", "\n1 carried\n2 ASSO>4294967297\n", "\n1 carried\n2 ASSO 4294967297\n"),
    packed("no number", "\n1 carried\n2 ASSO>\n", "\n1 carried\n2 ASSO >\n"),
    Pair("the tag of another kind in the row", "", "", run("UPDATE line SET tag = 'frob' WHERE no = 5"),
         run("UPDATE line SET pos = 3, depth = 9 WHERE no = 5")),
    # carried lines that a field would take
    Pair("a carried SEX", "record 16", "a carried line is one that a field would take",
         more(16, (2, "SEX", "M", None)), more(16, (2, "SEX", "X", None))),
    Pair("a carried NAME", "record 16", "a carried line is one that a field would take",
         more(16, (2, "NAME", "Kit", None)), more(16, (2, "NAME", None, 15))),
    Pair("a carried QUAY", "record 11", "a carried line is one that a field would take",
         more(11, (1, "carried", None, None), (2, "QUAY", "2", None)),
         more(11, (1, "carried", None, None), (2, "QUAY", "4", None))),
    Pair("a carried DATE", "record 20", "a carried line is one that a field would take",
         more(20, (1, "carried", None, None), (2, "DATE", "1800", None)),
         more(20, (1, "carried", None, None), (2, "DATE", "1800", None), (3, "NOTE", "x", None))),
    Pair("a carried HUSB", "record 8", "a carried line is one that a field would take",
         more(8, (1, "carried", None, None), (2, "HUSB", None, 16)),
         more(8, (1, "carried", None, None), (2, "HUSB", None, 4))),
    # the shape of another kind
    Pair("another record with the tag INDI", "record 15", "it has the shape of a record of another kind",
         other("INDI", "a"), other("INDX", "a")),
    Pair("another record with the lines of an entry", "record 15", "it has the shape of a record of another kind",
         other("_REG", "BURIAL", None, SHAPE), other("_REG", "BURIAL", None, SHAPE[:-1])),
    # numbers
    Pair("a number that is not below the next one", "", "not below the next one",
         run("UPDATE meta SET next = 20"), run("UPDATE meta SET next = 30")),
    # spans
    span("a last day that is a day off", 9, "UPDATE span SET hi = hi + 1 WHERE no = 9",
         change(9, 2, (1, "date", "BET 1 JAN 1800 AND 2 JAN 1800", 3))),
    span("a first day that is not there", 14, "UPDATE span SET lo = NULL WHERE no = 14",
         change(14, 2, (1, "date", "TO 1 MAY 1799", None))),
    span("the days of an entry in another calendar", 12, "UPDATE span SET lo = lo + 12, hi = hi + 12 WHERE no = 12",
         change(12, 4, (1, "date", "@#DJULIAN@ 2 JAN 1860", 3))),
    span("a date without a span", 9, "DELETE FROM span WHERE no = 9", change(9, 2, (1, "date", None, 3))),
    span("a span without a date", 20, "INSERT INTO span VALUES (20, NULL, NULL)",
         more(20, (1, "date", "in May", None))),
    span("a span of a person", 5, "INSERT INTO span VALUES (5, 0, 0)", nothing),
    # links
    link("a place that is named without a link", 9, 3, run(f"INSERT INTO link VALUES ({link_of(9, 2)})")),
    link("a partner who is named without a link", 8, 7, run(f"INSERT INTO link VALUES ({link_of(21, 7)})")),
    link("a source that is named without a link", 12, 4, other("NOTE", None, 5)),
    # what is looked for
    looked_for("a place by another name", 3, "UPDATE sought SET text = 'Ash' WHERE no = 3",
               change(3, 0, (0, "place", "Ash", 2))),
    looked_for("a place by nothing", 2, "DELETE FROM sought WHERE no = 2", nothing),
    looked_for("an entry by no source", 13, "UPDATE sought SET dst = NULL WHERE no = 13", nothing),
    looked_for("a person by a name", 5, "INSERT INTO sought VALUES (5, 'Ann', NULL)", nothing),
    # slips
    Pair("a slip that is no merge", "slip 19", "the new records are not the merge of the old ones",
         slip(0, 17, (0, "person", None, None), (1, "name", "Tom /Lea/", None), (1, "sex", "M", None)),
         run("UPDATE slip SET undone = 0")),
    Pair("what is gone was a place", "slip 19", "what is gone was no person",
         slip(0, 17, (0, "place", "Ross", None)), nothing),
    Pair("an old record that breaks a rule", "slip 19", "before the merge",
         slip(0, 17, *OLD[:2], (1, "carried", None, None), (2, "SEX", "M", None)), slip(0, 17, *OLD)),
    Pair("an event before and after a merge", "record 18", "the tag of the event is not of its owner's kind",
         both(*events_of_the_slip("MARR")), both(*events_of_the_slip("RESI"))),
    Pair("a person merged into itself", "", "", run("UPDATE slip SET gone = 6"), nothing),
    # lines that are no record
    Pair("a tag that no field has", "", "", change(5, 2, (1, "sax", "F", None)), change(5, 2, (1, "sex", "M", None))),
    Pair("a date in another spelling", "", "", change(9, 2, (1, "date", "1 jan 1800", 3)),
         change(9, 2, (1, "date", "1 JAN 1801", 3))),
    Pair("a batch that is open", "", "", run("UPDATE batch SET is_open = 1"), nothing),
)
