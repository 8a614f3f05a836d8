"""What is written to new tables, and what is read of them: each scene with the rows that all tables have at its end."""

from __future__ import annotations

from typing import NamedTuple

from packed import COLUMNS, literal, side_row, values_of
from plain import QUERIES, Tables, pair
from records import RECORDS
from rows import Ask, Case, Line, given, kept, row
from states import ENTRIES, FAMILY, NAMED_BY, entry, place

SOCIETY = "Ashby family history society"
LONGEST = 1_048_576  # bytes of a text
LAST = 4_294_967_295


class Scene(NamedTuple):
    name: str
    asks: tuple[Ask, ...]


def person(name: str) -> tuple[Line, ...]:
    return (Line(0, "person"), Line(1, "name", name))


class Filling:
    """Rows for the program, and beside them what they make of plain lists."""

    def __init__(self, society: str = SOCIETY) -> None:
        self.tables = Tables(society)
        self.asks: list[Ask] = [Ask(row("create", society), "")]

    def ask(self, *words: object, wanted: str = "") -> None:
        self.asks.append(Ask(row(*words), wanted))

    def put(self, number: int, lines: tuple[Line, ...]) -> None:
        self.asks.extend(given(lines))
        self.ask("plan", "put", number)
        self.tables.put(number, lines)

    def take(self, number: int) -> None:
        self.ask("plan", "take", number)
        self.tables.take(number)

    def receipt(self, token: str, byte: int, first: int, count: int) -> None:
        self.ask("plan", "put-receipt", token, byte, first, count)
        self.tables.keep(token, byte, first, count)

    def slip(self, number: int, keep: int, gone: int, changed: int, old, new=None) -> None:
        """A slip of one changed number; the new record is what the state that was read last has there."""
        self.asks.extend(given(old))
        self.ask("plan", "put-slip", number, keep, gone, changed)
        self.tables.merge(number, keep, gone, changed, old, new)

    def undo(self, number: int) -> None:
        self.ask("plan", "undo-slip", number)
        self.tables.undo(number)

    def write(self, after: int) -> None:
        self.ask("write", after)
        self.tables.next = after

    def read(self) -> None:
        self.ask("load")
        self.ask("state", "next", wanted=f"{self.tables.next}\n")

    def see(self, number: int, lines: tuple[Line, ...] | None) -> None:
        self.ask("state", "record", number, wanted=kept(lines) if lines else "none\n")

    def see_spans(self, spans: dict[int, tuple[int | None, int | None]]) -> None:
        rows = "".join("\t".join(["-" if part is None else str(part) for part in (number, *ends)]) + "\t\n"
                       for number, ends in sorted(spans.items()))
        self.ask("query", QUERIES["span"], wanted=rows)

    def compare(self) -> None:
        """All tables, row by row."""
        for table, query in QUERIES.items():
            self.ask("query", query, wanted=self.tables.shown(table))

    def scene(self, name: str) -> Scene:
        self.compare()
        return Scene(name, tuple(self.asks))


def named(lines: tuple[Line, ...]) -> set[int]:
    return {line.number for line in lines if line.number is not None}


def all_records() -> Scene:
    """Each record of the table of records, the persons that they name, and itself in an Other."""
    filling = Filling()
    others = sorted(set().union(*(named(lines) for _, lines, _ in RECORDS)) - {0})
    for number in others:
        filling.put(number, person(f"Ann /Lee {number}/"))
    filling.write(LAST)
    put = {}
    for at, (_, lines, _) in enumerate(RECORDS):
        if 0 not in named(lines):
            put[1000 + at] = lines
    put[3000] = (Line(0, "other"), Line(1, "_SELF", None, 3000), Line(2, "NOTE", "x"))
    put[3001] = (Line(0, "person"), Line(1, "name", "it's \"Ann\" /O'Lee/\nof Ashby"))
    put[3002] = (Line(0, "person"), Line(1, "name", "x" * LONGEST))
    # a family is put before the persons that it names
    put[3003] = (Line(0, "family"), Line(1, "partner", "husband", 3004))
    put[3004] = person("Tom /Parry/")
    for number, lines in put.items():
        filling.put(number, lines)
    filling.write(LAST)
    filling.read()
    for number, lines in put.items():
        filling.see(number, lines)
    filling.see(999, None)
    return filling.scene("each kind of record, written and read")


def one_changed() -> Scene:
    filling = Filling()
    for number in (1, 2, 3):
        filling.put(number, person(f"Ann /Lee {number}/"))
    filling.write(4)
    filling.put(2, (*person("Ann /Parry/"), Line(1, "sex", "F")))
    filling.write(4)
    filling.read()
    filling.see(2, (*person("Ann /Parry/"), Line(1, "sex", "F")))
    filling.see(1, person("Ann /Lee 1/"))
    return filling.scene("one record changed; the rows of the others stay")


def taken() -> Scene:
    filling = Filling()
    filling.put(1, person("Ann /Lee/"))
    filling.put(2, (Line(0, "family"), Line(1, "partner", "wife", 1)))
    filling.put(3, person("Tom /Lee/"))
    filling.write(4)
    filling.take(2)
    filling.take(1)
    filling.write(4)
    filling.read()
    filling.see(1, None)
    filling.see(2, None)
    filling.see(3, person("Tom /Lee/"))
    return filling.scene("a family and the person that it named, taken out together")


def receipts() -> Scene:
    filling = Filling("x")
    filling.put(1, person("Ann /Lee/"))
    filling.receipt("a~!", 7, 1, 1)
    filling.write(2)
    filling.receipt("b", 255, LAST, 0)
    filling.write(LAST + 1)
    filling.read()
    filling.ask("state", "receipt", "a~!", wanted="07" * 32 + " 1 1\n")
    filling.ask("state", "receipt", "b", wanted="ff" * 32 + f" {LAST} 0\n")
    filling.ask("state", "receipt", "c", wanted="none\n")
    filling.ask("society", wanted="=x\n")
    filling.ask("version")
    return filling.scene("receipts, and the greatest next number")


def slips() -> Scene:
    filling = Filling()
    filling.put(1, person("Ann /Lee/"))
    filling.put(2, person("Anne /Lee/"))
    filling.write(3)
    filling.read()
    # 1 is kept and changed, 2 is gone
    filling.slip(3, 1, 2, 1, person("Ann /Before/"), person("Ann /Lee/"))
    filling.write(4)
    filling.slip(4, 2, 9, 9, person("Gone /Before/"))
    filling.write(5)
    filling.read()
    done = "change 1\n" + kept(person("Ann /Before/")) + "to\n" + kept(person("Ann /Lee/"))
    filling.ask("state", "slip", 3, wanted="keep 1\ngone 2\ndone\n" + done)
    filling.undo(3)
    filling.write(5)
    filling.read()
    filling.ask("state", "slip", 3, wanted="keep 1\ngone 2\nundone\n" + done)
    gone = "change 9\n" + kept(person("Gone /Before/")) + "to\nnone\n"
    filling.ask("state", "slip", 4, wanted="keep 2\ngone 9\ndone\n" + gone)
    filling.ask("state", "slip", 5, wanted="none\n")
    return filling.scene("slips, done and undone")


def event(owner: int, tag: str, date: str | None, place: int | None = None) -> tuple[Line, ...]:
    where = () if date is None and place is None else (Line(1, "date", date, place),)
    return (Line(0, "event", None, owner), Line(1, tag, ""), *where)


def entry_of(source: int, item: int, date: str | None) -> tuple[Line, ...]:
    lines = entry(source, "BURIAL", "f. 3", item)
    return lines if date is None else (*lines[:4], Line(1, "date", date), *lines[4:])


# Dates with their first and last days, from docs/FORMATS.md; a text that fits no form, a phrase and an empty text have
# none.
DATED = {
    "15 APR 1699/00": (-98511, -98511),
    "1731/32": (-87293, -86563),
    "@#DJULIAN@ 2 SEP 1752": (-79367, -79367),
    "@#DJULIAN@ 1 JAN 1": (-719164, -719164),
    "44 B.C.": (-735233, -734869),
    "ABT @#DJULIAN@ 1700": (-98605, -98240),
    "BEF 1700": (None, -98616),
    "AFT 31 DEC 1999": (10957, None),
    "BET 1700 AND 1701": (-98615, -97886),
    "FROM 1700": (-98615, None),
    "TO 1700": (None, -98251),
    "INT 1700 (about (or so))": (-98615, -98251),
    "@#DFRENCH R@ 18 BRUM 8": (-62144, -62144),
    "@#DFRENCH R@ COMP 3": (-63658, -63653),
    "BET @#DFRENCH R@ 1 VEND 8 AND 1 JAN 1800": (-62191, -62091),
    "(unknown)": (None, None),
    "in harvest": (None, None),
    "@#DFRENCH R@ 6 COMP 4": (None, None),
    "": (None, None),
}


def spans() -> Scene:
    """Each event and entry with a date has its days; no other record has any."""
    filling = Filling()
    filling.put(1, person("Ann /Lee/"))
    filling.put(2, place("Kent"))
    filling.put(3, (Line(0, "source", "Ashby register"),))
    for at, date in enumerate(DATED):
        filling.put(10 + at, event(1, "BIRT", date, 2 if at % 2 else None))
        filling.put(40 + at, entry_of(3, at + 1, date))
    # a place alone, neither of both, an event's own tag, an Other
    filling.put(70, event(1, "BIRT", None, 2))
    filling.put(71, event(1, "BIRT", None))
    filling.put(72, event(1, "date", None))
    filling.put(73, event(1, "date", "1700"))
    filling.put(74, entry_of(3, 99, None))
    filling.put(75, (Line(0, "other"), Line(1, "date", "1700")))
    filling.write(80)
    expected = {at: days for first in (10, 40) for at, days in enumerate(DATED.values(), first)}
    expected[73] = (-98615, -98251)
    filling.see_spans(expected)
    filling.compare()
    # a date becomes another, a place alone, none, and is there again; a record is put as it was, is taken out, and
    # becomes another
    filling.put(10, event(1, "BIRT", "BEF 1700"))
    filling.put(11, event(1, "BIRT", None, 2))
    filling.put(12, event(1, "BIRT", None))
    filling.put(13, event(1, "BIRT", "@#DJULIAN@ 1 JAN 1"))
    filling.put(70, event(1, "BIRT", "44 B.C.", 2))
    filling.put(40, entry_of(3, 1, None))
    filling.put(74, entry_of(3, 99, "FROM 1700"))
    filling.take(14)
    filling.take(41)
    filling.put(15, person("Tom /Lee/"))
    filling.put(75, event(1, "BURI", "1 JAN 1970"))
    filling.write(80)
    expected |= {10: (None, -98616), 70: (-735233, -734869), 74: (-98615, None), 75: (0, 0)}
    for gone in (11, 12, 40, 14, 41, 15):
        del expected[gone]
    filling.see_spans(expected)
    filling.read()
    return filling.scene("spans of dates")


def looked_for() -> Scene:
    """What the tables themselves answer, of the rows that a number, a token, a path or a key leads to."""
    filling = Filling()
    for number, lines in FAMILY.items():
        filling.put(number, lines)
    filling.receipt("m1", 7, 11, 1)
    filling.write(12)
    for number, named_by in NAMED_BY.items():
        filling.ask("tables", "record", number, wanted=kept(FAMILY[number]) if number in FAMILY else "none\n")
        filling.ask("tables", "referrers", number, wanted=" ".join(["referrers", *map(str, named_by)]) + "\n")
    filling.ask("tables", "receipt", "m1", wanted="07" * 32 + " 11 1\n")
    filling.ask("tables", "receipt", "M1", wanted="none\n")
    filling.ask("tables", "slip", 5, wanted="none\n")
    filling.ask("tables", "next", wanted="12\n")
    return filling.scene("records, referrers and receipts, asked of the tables")


def links_that_stay() -> Scene:
    """A link of before tells no referrer: of a record that was changed, of one that was taken out, of a number that
    never had one. The greatest numbers have theirs too."""
    filling = Filling()
    for number in (1, 2):
        filling.put(number, person("Ann /Lee/"))
    filling.put(3, (Line(0, "family"), Line(1, "partner", "husband", 1), Line(1, "partner", "wife", 2)))
    filling.put(4, (Line(0, "family"), Line(1, "partner", "husband", 1), Line(1, "child", None, 2)))
    filling.put(LAST, person("Tom /Lee/"))
    filling.put(LAST - 1, (Line(0, "family"), Line(1, "partner", "husband", LAST), Line(1, "child", None, 1)))
    filling.write(LAST)
    filling.ask("tables", "referrers", 1, wanted=f"referrers 3 4 {LAST - 1}\n")
    filling.ask("tables", "referrers", 2, wanted="referrers 3 4\n")
    filling.ask("tables", "referrers", LAST, wanted=f"referrers {LAST - 1}\n")
    filling.put(3, (Line(0, "family"), Line(1, "partner", "wife", 2)))
    filling.take(4)
    filling.write(LAST)
    for number in (0, 6, LAST):
        filling.tables.links.add(pair(number, 2))
        filling.ask("sql", f"INSERT INTO link VALUES ({pair(number, 2)})")
    filling.ask("tables", "referrers", 1, wanted=f"referrers {LAST - 1}\n")
    filling.ask("tables", "referrers", 2, wanted="referrers 3\n")
    filling.ask("tables", "referrers", LAST, wanted=f"referrers {LAST - 1}\n")
    filling.ask("tables", "referrers", 0, wanted="referrers\n")
    filling.compare()
    # where it names the number again, the link is there once
    filling.put(3, (Line(0, "family"), Line(1, "partner", "wife", 2), Line(1, "child", None, 1)))
    filling.write(LAST)
    filling.ask("tables", "referrers", 1, wanted=f"referrers 3 {LAST - 1}\n")
    filling.read()
    return filling.scene("links of before, and those of the greatest numbers")


# Paths and the lowest place of each. Ashby in Kent is 25 and 27; 22 is a place within Ashby, 25, and 23 one whose own
# name has a comma.
PLACES = {
    20: place("Kent"),
    21: place("Ashby"),
    25: place("Ashby", 20),
    22: place("Mill Field"),
    23: place("Ashby, Kent"),
    26: place("Mill Field", 25),
    27: place("Ashby", 20),
    28: place("x" * 4090, 20),
    # a person of that name is no place, and an entry with the key of another's name is none
    19: (Line(0, "person"), Line(1, "name", "Kent")),
    17: (Line(0, "source", "Kent"),),
    18: entry(17, "BURIAL", "Kent", 1),
    29: place("1 Kent"),
}
PATHS = {
    "Kent": 20,
    "1 Kent": 29,
    "Ashby": 21,
    "Ashby, Kent": 23,
    "Mill Field": 22,
    "Mill Field, Ashby, Kent": 26,
    "Mill Field, Ashby": None,
    "Ashby, Kent, ": None,
    "Ashby,Kent": None,
    "ashby": None,
    "": None,
    ",": None,
    "x" * 4090 + ", Kent": 28,
    "x" * 4090: None,
}


def places_found() -> Scene:
    filling = Filling()
    for number, lines in PLACES.items():
        filling.put(number, lines)
    filling.write(30)
    for path, number in PATHS.items():
        filling.ask("tables", "place", path, wanted=f"{'-' if number is None else number}\n")
    # without 23 the path is that of 25
    filling.take(23)
    filling.write(30)
    filling.ask("tables", "place", "Ashby, Kent", wanted="25\n")
    # a place of an open batch is not there
    filling.ask("sql", "INSERT INTO batch VALUES (1, 1)")
    filling.ask("sql", "UPDATE record SET batch = 1 WHERE no = 25")
    filling.ask("tables", "place", "Ashby, Kent", wanted="27\n")
    filling.ask("sql", "UPDATE record SET batch = 0 WHERE no = 25")
    filling.ask("sql", "DELETE FROM batch WHERE no = 1")
    return filling.scene("places, asked of the tables by their paths")


def entries_found() -> Scene:
    filling = Filling()
    sources = sorted({key[0] for _, key in ENTRIES} | {1, 2})
    for number in sources:
        filling.put(100 + number, (Line(0, "source", "f. 3"),))
    for number, (source, *key) in ENTRIES:
        filling.put(number, entry(100 + source, *key))
    filling.write(200)
    for source, *key in {key for _, key in ENTRIES}:
        lowest = min(number for number, other in ENTRIES if other == (source, *key))
        filling.ask("tables", "entry", 100 + source, *key, wanted=f"{lowest}\n")
    for source, *key in (
        (1, "MARRIAGE", "f. 3", 1),
        (2, "BURIAL", "f. 3", 1),
        (1, "BURIAL", "f. 3 ", 1),
        (1, "BURIAL", "f. 3", 3),
        (1, "BURIAL", "f.3", 1),
        (1, "BURIAL", "BURIAL", 1),
    ):
        filling.ask("tables", "entry", 100 + source, *key, wanted="-\n")
    # a citation of the same page and source is no entry
    filling.put(150, person("Ann /Lee/"))
    filling.put(1, (Line(0, "citation", None, 150), Line(1, "source", "f. 3", 101)))
    filling.write(200)
    filling.ask("tables", "entry", 101, "BURIAL", "f. 3", 1, wanted="7\n")
    return filling.scene("entries, asked of the tables by their keys")


def dangling() -> Scene:
    """A line that names no record is written as it is, with its link: the database tests no link, `audit` does."""
    family = (Line(0, "family"), Line(1, "partner", "husband", 7))
    filling = Filling()
    filling.put(1, family)
    filling.write(2)
    filling.read()
    filling.see(1, family)
    filling.ask("tables", "referrers", 7, wanted="referrers 1\n")
    return filling.scene("a line that names no record")


MADE = Ask(row("create", SOCIETY), "")
UNREADABLE = "40 BadStored\n"
LINE = f"INSERT INTO line ({COLUMNS}) VALUES "
ONE = "INSERT INTO record VALUES (1, 'person', 0)"
SLIP = "INSERT INTO slip VALUES (3, 1, 2, 0)"
SIDE = "UPDATE slip_line SET "
PERSON, REPO = [(0, "person", None, None)], [(0, "repo", None, None)]
RECEIPT = "INSERT INTO receipt (token, digest, first, count) VALUES "
DIGEST = "x'" + "07" * 32 + "'"



def sides(*given: tuple[int, int, list]) -> str:
    """Sides of slip 3: of each the side, the number and the lines."""
    rows = (side_row(3, place, *one) for place, one in enumerate(given))
    return "INSERT INTO slip_line VALUES " + ", ".join(map(values_of, rows))


# the tag and the text of a row that are no lines of a record
UNPACKED = (
    ("a line of no kind", "nobody", "\n"),
    ("a tag of the first line that is none", "per son", "\n"),
    ("an empty text", "person", ""),
    ("a first line without LF", "person", " x"),
    ("a first line's text without its space", "person", "x\n"),
    ("a last line without LF", "person", "\n1 name Ann"),
    ("an empty line", "person", "\n\n1 name Ann\n"),
    ("a line too deep", "person", "\n2 name x\n"),
    ("a line at depth 0", "person", "\n0 name x\n"),
    ("a depth with a leading zero", "person", "\n01 name x\n"),
    ("a depth with a sign", "person", "\n+1 name x\n"),
    ("a depth below 0", "person", "\n-1 name x\n"),
    ("a depth of over 32 bits", "person", "\n4294967297 name x\n"),
    ("a depth that is no number", "person", "\none name x\n"),
    ("no depth", "person", "\nname x\n"),
    ("a space before the depth", "person", "\n 1 name x\n"),
    ("two spaces before the tag", "person", "\n1  name x\n"),
    ("a tag that is none", "person", "\n1 na-me x\n"),
    ("no tag", "person", "\n1 \n"),
    ("a tag of 32 characters", "person", "\n1 carried\n2 " + "A" * 32 + " x\n"),
    ("a number named with a leading zero", "family", "\n1 child>01\n"),
    ("a number named with a sign", "family", "\n1 child>+1\n"),
    ("a number named of over 32 bits", "family", "\n1 child>4294967296\n"),
    ("no number behind the sign of one", "family", "\n1 child>\n"),
    ("two numbers named", "family", "\n1 child>1>1\n"),
)
# bytes of packed texts that no literal can have
ZERO, LONE = (b"\n1 name A\0n\n".hex(), b"\n1 name A\xffn\n".hex())

# statements by somebody else, and what `load` answers then
FOREIGN = (
    ("a record without lines", (ONE,), UNREADABLE),
    *((name, (ONE, LINE + f"(1, 0, 0, {literal(tag)}, {literal(text)}, NULL)"), UNREADABLE)
      for name, tag, text in UNPACKED),
    ("no packed text", (ONE, LINE + "(1, 0, 0, 'person', NULL, NULL)"), UNREADABLE),
    ("a text with U+0000", (ONE, LINE + f"(1, 0, 0, 'person', CAST(x'{ZERO}' AS TEXT), NULL)"), UNREADABLE),
    ("a text that is no UTF-8", (ONE, LINE + f"(1, 0, 0, 'person', CAST(x'{LONE}' AS TEXT), NULL)"), UNREADABLE),
    ("a number named above the greatest", (ONE, LINE + "(1, 0, 0, 'person', '\n', 4294967296)"), UNREADABLE),
    ("a number named below 0", (ONE, LINE + "(1, 0, 0, 'person', '\n', -1)"), UNREADABLE),
    ("a place and a depth that are not read", (ONE, LINE + "(1, -3, 9, 'person', '\n', NULL)"), ""),
    ("a number above the greatest", ("INSERT INTO record VALUES (4294967296, 'person', 0)",), UNREADABLE),
    ("a number below 0", ("INSERT INTO record VALUES (-1, 'person', 0)",), UNREADABLE),
    ("a batch number above the greatest", ("INSERT INTO batch VALUES (4294967296, 0)",), UNREADABLE),
    ("no batch of commands", ("DELETE FROM batch",), UNREADABLE),
    ("an open batch of commands", ("UPDATE batch SET is_open = 1",), UNREADABLE),
    ("a next number below 0", ("UPDATE meta SET next = -1",), UNREADABLE),
    ("no row of meta", ("DELETE FROM meta",), UNREADABLE),
    ("two rows of meta", ("INSERT INTO meta VALUES (2, 1, 1, 'x')",), UNREADABLE),
    ("a token that is none", (RECEIPT + f"('a b', {DIGEST}, 1, 1)",), UNREADABLE),
    ("an empty token", (RECEIPT + f"('', {DIGEST}, 1, 1)",), UNREADABLE),
    ("a digest of 31 bytes", (RECEIPT + "('a', x'" + "07" * 31 + "', 1, 1)",), UNREADABLE),
    ("a first number below 0", (RECEIPT + f"('a', {DIGEST}, -1, 1)",), UNREADABLE),
    ("a slip's new side first", (SLIP, sides((1, 1, PERSON))), UNREADABLE),
    ("a slip's new side of another number", (SLIP, sides((0, 1, PERSON), (1, 2, PERSON))), UNREADABLE),
    ("a slip's side that is neither", (SLIP, sides((2, 1, PERSON))), UNREADABLE),
    ("a slip's side of no kind", (SLIP, sides((0, 1, [(0, "nobody", None, None)]))), UNREADABLE),
    ("a slip's side without a packed text", (SLIP, sides((0, 1, PERSON)), SIDE + "text = NULL"), UNREADABLE),
    ("a slip's side with a text that is none", (SLIP, sides((0, 1, PERSON)), SIDE + "text = ' x'"), UNREADABLE),
    ("a slip's side of a number below 0", (SLIP, sides((0, 1, PERSON)), SIDE + "no = -1"), UNREADABLE),
    ("a side's place and depth that are not read", (SLIP, sides((0, 1, PERSON)), SIDE + "pos = -3, depth = 9"), ""),
    (
        "a record of an open batch",
        ("INSERT INTO batch VALUES (1, 1)", "INSERT INTO record VALUES (1, 'person', 1)"),
        "",
    ),
    (
        "a flag of 2, which is set as every number but 0 is",
        ("INSERT INTO batch VALUES (1, 2)", "INSERT INTO slip VALUES (3, 1, 2, 2)"),
        "",
    ),
    ("a slip of no changes", (SLIP,), ""),
    ("two changes of one number", (SLIP, sides((0, 1, PERSON), (0, 1, REPO), (1, 1, REPO))), ""),
)

# what `version` answers of a store
VERSIONS = (
    ("a new archive", (), MADE, ""),
    ("the first version", ("UPDATE meta SET version = 1",), MADE, ""),
    ("a later version", ("UPDATE meta SET version = 3",), MADE, "83 NewerSchema\n"),
    ("the greatest version", ("UPDATE meta SET version = 9223372036854775807",), MADE, "83 NewerSchema\n"),
    ("version 0", ("UPDATE meta SET version = 0",), MADE, "82 NotAnArchive\n"),
    ("a version below 0", ("UPDATE meta SET version = -1",), MADE, "82 NotAnArchive\n"),
    ("no row of meta", ("DELETE FROM meta",), MADE, "82 NotAnArchive\n"),
    ("two rows of meta", ("INSERT INTO meta VALUES (2, 1, 1, 'x')",), MADE, "82 NotAnArchive\n"),
    ("nothing made", (), None, "82 NotAnArchive\n"),
    ("another table", ("CREATE TABLE note (id INTEGER PRIMARY KEY)",), None, "82 NotAnArchive\n"),
    ("a meta of other columns", ("CREATE TABLE meta (id INTEGER PRIMARY KEY)",), None, "82 NotAnArchive\n"),
    (
        "a version in words",
        ("CREATE TABLE meta (version, next, society)", "INSERT INTO meta VALUES ('x', 1, 'a')"),
        None,
        "82 NotAnArchive\n",
    ),
)


def foreign():
    for name, statements, wanted in FOREIGN:
        asks = (MADE, *(Ask(row("sql", s), "") for s in statements), Ask(row("load"), wanted))
        yield Scene(f"read: {name}", asks)
    for name, statements, made, wanted in VERSIONS:
        asks = (*([made] if made else []), *(Ask(row("sql", s), "") for s in statements))
        yield Scene(f"version: {name}", (*asks, Ask(row("version"), wanted)))


def again():
    """A second archive over the first is refused, and changes nothing."""
    filling = Filling()
    filling.put(1, person("Ann /Lee/"))
    filling.write(2)
    filling.ask("create", "Another", wanted="80 Storage\n")
    filling.read()
    filling.see(1, person("Ann /Lee/"))
    return filling.scene("a second archive in the same tables")


def scenes():
    yield from (
        all_records(),
        one_changed(),
        taken(),
        receipts(),
        slips(),
        spans(),
        looked_for(),
        links_that_stay(),
        places_found(),
        entries_found(),
        dangling(),
        again(),
    )
    yield from foreign()


def cases(scene: Scene):
    """Each row of a scene as a case."""
    for at, ask in enumerate(scene.asks):
        yield Case(f"{scene.name}, row {at + 1}", (ask,))
