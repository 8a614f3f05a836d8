"""Archives of version 1, opened by the executable, which converts their dates and adds spans, links and what records
are looked for by. `days` finds by the spans. Some are made here, by statements; tests/earlier/archive.db was made by
a program of that version, of the rows and the file beside it, and its own export lies there too.

What the tables become is worked out beside the program, from docs/FORMATS.md ("Version 1"), by the slow reader of dates
(`anew`).
"""

from __future__ import annotations

import functools
import hashlib
import os
import random
import shutil
import sqlite3
import time
from collections.abc import Iterable
from itertools import groupby

from archives import TABLES as ALL_TABLES
from archives import Folder, lines
from beside import LATER, links_of, sought_of
from calendars import anew as date_anew
from calendars import span_of
from harness import ROOT, Case, Tools, demand, expect, refused, run, unopened, written
from imports import killed_after
from packed import PACKS, each_line, row_of, side_row, unpack
from rooms import visited
from spoilt import FILE, ROWS
from spoilt import LATER as SLIPS
from table.making import between
from undisturbed import Command, bytes_of
from visits import request

HERE = os.path.join(ROOT, "tests", "earlier")
LONG = 600  # seconds that an opening of many persons may take

# The first version's tables, as its program made them.
TABLES = (
    "CREATE TABLE meta (one INTEGER PRIMARY KEY, version INTEGER NOT NULL, next INTEGER NOT NULL, "
    "society TEXT NOT NULL) STRICT",
    "CREATE TABLE batch (no INTEGER PRIMARY KEY, is_open INTEGER NOT NULL) STRICT",
    "CREATE TABLE record (no INTEGER PRIMARY KEY, kind TEXT NOT NULL, batch INTEGER NOT NULL "
    "REFERENCES batch (no) ON DELETE RESTRICT) STRICT",
    "CREATE TABLE line (id INTEGER PRIMARY KEY, no INTEGER NOT NULL REFERENCES record (no) ON DELETE RESTRICT, "
    "pos INTEGER NOT NULL, depth INTEGER NOT NULL, tag TEXT NOT NULL, text TEXT, dst INTEGER REFERENCES record (no) "
    "ON DELETE RESTRICT) STRICT",
    "CREATE TABLE receipt (id INTEGER PRIMARY KEY, token TEXT NOT NULL, digest BLOB NOT NULL, first INTEGER NOT NULL, "
    "count INTEGER NOT NULL) STRICT",
    "CREATE TABLE slip (no INTEGER PRIMARY KEY, keep INTEGER NOT NULL, gone INTEGER NOT NULL, "
    "undone INTEGER NOT NULL) STRICT",
    "CREATE TABLE slip_line (id INTEGER PRIMARY KEY, slip INTEGER NOT NULL REFERENCES slip (no) ON DELETE RESTRICT, "
    "side INTEGER NOT NULL, no INTEGER NOT NULL, pos INTEGER NOT NULL, depth INTEGER NOT NULL, tag TEXT NOT NULL, "
    "text TEXT, dst INTEGER) STRICT",
    "CREATE INDEX line_by_record ON line (no)",
    "CREATE INDEX line_by_target ON line (dst)",
    "CREATE INDEX receipt_by_token ON receipt (token)",
    "CREATE INDEX slip_line_by_slip ON slip_line (slip)",
    "CREATE INDEX line_by_text ON line (text, dst)",
)
FIRST_TABLES = tuple(name for name in ALL_TABLES if name not in LATER)

Line = tuple[int, str, "str | None", "int | None"]


def person(*names: str) -> list[Line]:
    return [(0, "person", None, None), *((1, "name", name, None) for name in names)]


def born(owner: int, date: str, place: int | None = None) -> list[Line]:
    return [(0, "event", None, owner), (1, "BIRT", "", None), (1, "date", date, place)]


def buried(source: int, item: int, date: str, place: int | None = None) -> list[Line]:
    return [
        (0, "entry", "BURIAL", None), (1, "key", f"{item} f. 1", source), (1, "page", "f. 1", None),
        (1, "item", str(item), None), (1, "date", date, place), (1, "text", "Ann", None),
        (1, "mention", "Ann", None), (2, "role", "buried", None),
    ]


class Earlier(Folder):
    """An archive of the first version, made by statements."""

    def made_of(self, records, next_number, receipts=(), slips=(), begun=None):
        """`begun`: the records of an import that is open, in batch 1."""
        conn = sqlite3.connect(self.file)
        for text in TABLES:
            conn.execute(text)
        conn.execute("INSERT INTO meta VALUES (1, 1, ?, 'Ashby Family History Society')", (next_number,))
        conn.execute("INSERT INTO batch VALUES (0, 0)")
        if begun:
            conn.execute("INSERT INTO batch VALUES (1, 1)")
        batches = ((0, records), (1, begun or {}))
        for batch, given in batches:
            for number, kept in given.items():
                conn.execute("INSERT INTO record VALUES (?, ?, ?)", (number, kept[0][1], batch))
        for _, given in batches:
            for number, kept in given.items():
                for place, line in enumerate(kept):
                    conn.execute("INSERT INTO line (no, pos, depth, tag, text, dst) VALUES (?, ?, ?, ?, ?, ?)",
                                 (number, place, *line))
        for token, row, first, count in receipts:
            digest = hashlib.sha256(row.encode() + b"\n").digest()
            conn.execute("INSERT INTO receipt (token, digest, first, count) VALUES (?, ?, ?, ?)",
                         (token, digest, first, count))
        for number, keep, gone, sides in slips:
            conn.execute("INSERT INTO slip VALUES (?, ?, ?, 0)", (number, keep, gone))
            for changed, old, new in sides:
                for side, kept in ((0, old), (1, new)):
                    for place, line in enumerate(kept):
                        conn.execute("INSERT INTO slip_line (slip, side, no, pos, depth, tag, text, dst) "
                                     "VALUES (?, ?, ?, ?, ?, ?, ?, ?)", (number, side, changed, place, *line))
        conn.commit()
        conn.close()
        return self

    def of_that_program(self):
        """The archive that a program of the first version made."""
        shutil.copy(os.path.join(HERE, "archive.db"), self.file)
        return self

    def first_tables(self):
        """All rows of the tables of the first version."""
        return {name: self.rows_of(f"SELECT * FROM {name}") for name in FIRST_TABLES}

    def schema(self):
        """The tables and the indexes, each with its statement."""
        return sorted(self.rows_of("SELECT type, name, tbl_name, sql FROM sqlite_master"))

    def export(self):
        return run(self.parish, ("export", self.file), limit=LONG)

    def audit(self):
        return run(self.parish, ("audit", self.file), limit=LONG)

    def days(self, first, last, *words):
        return run(self.parish, ("days", self.file, "--from", first, "--to", last, *words))

    def version(self):
        return self.rows_of("SELECT version FROM meta")


def grouped(rows, key) -> dict:
    """Rows by what `key` answers of them, in the order of their keys."""
    found: dict = {}
    for row in rows:
        found.setdefault(key(row), []).append(row)
    return dict(sorted(found.items()))


def lines_anew(rows: list) -> list:
    """The rows of a record, whose last columns are depth, tag, text and target, with its date as it is written now."""
    # the first line below an event is its own tag, whatever word that is
    first = {"event": 2, "entry": 1}.get(rows[0][-3], len(rows))
    is_date = [at >= first and row[-4:-2] == (1, "date") and row[-2] is not None for at, row in enumerate(rows)]
    return [(*row[:-2], date_anew(row[-2]), row[-1]) if found else row for found, row in zip(is_date, rows)]


def sides_anew(rows: list) -> list:
    """The rows of `slip_line`: of each slip each side in one row, in the order in which they stood."""
    return [
        side_row(slip, place, *key, [row[5:] for row in lines_anew(list(lines))])
        for slip, kept in grouped(rows, lambda row: row[1]).items()
        for place, (key, lines) in enumerate(groupby(kept, lambda row: (row[2], row[3])))
    ]


def anew(before: dict[str, list]) -> dict[str, list]:
    """What the tables of the first version become: an open import is gone, each date is written as it is today, the
    lines of each record are in one row, and so are those of each side of a slip, each record with a date has its span,
    each has its links and what it is looked for by, and the version is the second one. All else stays."""
    opened = {number for number, is_open in before["batch"] if is_open}
    gone = {number for number, _, batch in before["record"] if batch in opened}
    kept = [row for row in before["line"] if row[1] not in gone]
    of_records = grouped(kept, lambda row: row[1]).items()
    kept_as = {number: [row[3:] for row in lines_anew(rows)] for number, rows in of_records}
    after = {
        **before,
        "meta": [(one, 2, following, society) for one, _, following, society in before["meta"]],
        "batch": [row for row in before["batch"] if row[0] not in opened],
        "record": [row for row in before["record"] if row[0] not in gone],
        "slip_line": sides_anew(before["slip_line"]),
    }
    spans = {number: span_of(given[0][1], given) for number, given in kept_as.items()}
    soughts = {number: sought_of(given) for number, given in kept_as.items()}
    return {
        **after,
        "line": [row_of(number, given) for number, given in kept_as.items()],
        "span": [(number, *span) for number, span in spans.items() if span is not None],
        "link": sorted((key,) for number, given in kept_as.items() for key in links_of(number, given)),
        "sought": sorted((number, *sought) for number, sought in soughts.items() if sought is not None),
        "past": [],
    }


def is_made_anew(at: Earlier, before: dict[str, list]) -> None:
    """All tables are what those of before become, and they are the tables of a new archive."""
    wanted, got = anew(before), at.tables()
    for name in ALL_TABLES:
        differing = [pair for pair in zip(wanted[name], got[name]) if pair[0] != pair[1]][:3]
        demand(wanted[name] == got[name], f"{name}: {len(wanted[name])} and {len(got[name])} rows, {differing}")


# the second event is spelt as the grammar of that time knew no date, the third as this program spells it
BIRTHS = {
    1: person("Ann /Lee/"),
    2: born(1, "@#dfrench r@ 18 brum 8"),
    3: born(1, "@#DFRENCH R@ 1 VEND 8"),
    4: born(1, "(unknown)"),
    5: born(1, "BEF 1700"),
}
KEPT = (
    ("t2", "event,1,BIRT,,@#dfrench r@ 18 brum 8,", 2, 1),
    ("t3", "event,1,BIRT,,@#DFRENCH R@ 1 VEND 8,", 3, 1),
)


def dates_are_read_anew(tools):
    with Earlier(tools) as at:
        at.made_of(BIRTHS, 6, KEPT)
        text = at.export()
        demand(text.status == 0, f"{text}")
        for date in ("@#DFRENCH R@ 18 BRUM 8", "@#DFRENCH R@ 1 VEND 8", "(unknown)", "BEF 1700"):
            demand(text.out.count(f"2 DATE {date}\n".encode()) == 1, f"{date}: {text.out!r}")
        demand(at.version() == [(2,)], "the version is not the second one")
        demand(at.rows_of("SELECT no, lo, hi FROM span") == [(2, -62144, -62144), (3, -62191, -62191),
                                                            (4, None, None), (5, None, -98616)], "spans")
        rows = ("t2,event,1,BIRT,,@#dfrench r@ 18 brum 8,", "t3,event,1,BIRT,,@#DFRENCH R@ 1 VEND 8,")
        answers = at.apply(lines(rows))
        demand(answers.out == b"t2,refused,52,TokenReused\nt3,ok,3,1\n", f"{answers}")


def days_of_dates_read_anew(tools):
    with Earlier(tools) as at:
        at.made_of(BIRTHS, 6, KEPT)
        expect(at.days("1799-11-09", "1799-11-09"), written(b"2\n"))
        expect(at.days("1799-01-01", "1799-12-31"), written(b"2\n3\n"))
        expect(at.days("1600-01-01", "1600-01-01"), written(b"5\n"))


# Texts that were no dates, and how they are written now, by docs/FORMATS.md ("Dates"), with their first and last days.
READ = {
    "@#dfrench r@ 18 brum 8": ("@#DFRENCH R@ 18 BRUM 8", -62144, -62144),
    "@#DFrench   r@  18  Brum  0008": ("@#DFRENCH R@ 18 BRUM 8", -62144, -62144),
    " abt @#dfrench r@ comp 3 ": ("ABT @#DFRENCH R@ COMP 3", -63658, -63653),
    "bef @#DFRENCH R@ 8": ("BEF @#DFRENCH R@ 8", None, -62192),
    "AFT @#dfrench r@ 8": ("AFT @#DFRENCH R@ 8", -61826, None),
    "from @#dfrench r@ 1 vend 1 to @#dfrench r@ 5 comp 14":
        ("FROM @#DFRENCH R@ 1 VEND 1 TO @#DFRENCH R@ 5 COMP 14", -64748, -59636),
    "Bet @#dfrench r@ 01 vend 8 and 1 jan 1800": ("BET @#DFRENCH R@ 1 VEND 8 AND 1 JAN 1800", -62191, -62091),
    "INT @#dfrench r@ 8(an VIII)": ("INT @#DFRENCH R@ 8 (an VIII)", -62191, -61827),
    "@#DFRENCH R@ 1 VEND 1": ("@#DFRENCH R@ 1 VEND 1", -64748, -64748),
}
# Texts that are none now either, and dates that were there before.
STAY = {
    "@#DFRENCH R@ 6 COMP 4": (None, None),
    "@#dfrench r@ 15": (None, None),
    "@#dfrench r@ 8 b.c.": (None, None),
    "@#dfrenchr@ 8": (None, None),
    "(@#dfrench r@ 8)": (None, None),
    "in harvest": (None, None),
    "bef @#dfrench r@": (None, None),
    "": (None, None),
    "INT 1700 (@#dfrench r@ 8)": (-98615, -98251),
    "15 APR 1699/00": (-98511, -98511),
    "@#DJULIAN@ 2 SEP 1752": (-79367, -79367),
    "44 B.C.": (-735233, -734869),
    "BET 1700 AND 1701": (-98615, -97886),
    "TO 1700": (None, -98251),
    "AFT 31 DEC 1999": (10957, None),
}
ALL = {**READ, **{text: (text, *ends) for text, ends in STAY.items()}}


def of_each_date(merges: bool):
    """An archive with each of these texts as the date of an event and of an entry, with places and without, and all of
    the events in a merge, before and after: its records, its next number, its slips."""
    records = {1: person("Ann /Lee/", "Anne /Lee/"), 2: [(0, "place", "Ashby", None)],
               3: [(0, "source", "Ashby register", None)]}
    sides = []
    for at, text in enumerate(ALL):
        place = 2 if at % 2 else None
        records[10 + at] = born(1, text, place)
        records[50 + at] = buried(3, at + 1, text, place)
        sides.append((10 + at, born(5, text, place), born(1, text, place)))
    records[40] = [(0, "event", None, 1), (1, "RESI", "@#dfrench r@ 8", None), (1, "date", None, 2)]
    records[41] = [(0, "other", None, None), (1, "date", "@#dfrench r@ 8", None)]
    merge = (6, 1, 5, (
        (1, person("Ann /Lee/"), person("Ann /Lee/", "Anne /Lee/")), (5, person("Anne /Lee/"), []), *sides,
    ))
    return records, 100, (), (merge,) if merges else ()


def each_date(tools):
    """Of events, of entries and of what a merge keeps: each text that is a date now is written as one, with its span;
    all else stays, the event's own tag and value and other records too."""
    with Earlier(tools) as at:
        at.made_of(*of_each_date(merges=True))
        before = at.first_tables()
        [(count,)] = at.rows_of("SELECT count(*) FROM record")
        expect(at.audit(), written(f"sound: {count} records\n".encode()))
        is_made_anew(at, before)
        spans = {number: ends for number, *ends in at.rows_of("SELECT no, lo, hi FROM span")}
        for number, (text, *ends) in (pair for first in (10, 50) for pair in enumerate(ALL.values(), first)):
            found = [line[4] for line in each_line(at.rows_of(PACKS)) if (line[0], line[3]) == (number, "date")]
            demand(found == [text] and spans.pop(number, None) == ends, f"{number}: {text!r} is {found}")
            sides = at.rows_of(f"SELECT tag, text, dst FROM slip_line WHERE no = {number}")
            kept = [line[2] for side in sides for line in unpack(*side) if line[1] == "date"]
            demand(number >= 50 or kept == [text, text], f"{number}: the slip has {kept}, not {text!r}")
        demand(not spans, f"{spans} are no records with a date")
        expect(at.apply(b"u,undo,6\n"), written(b"u,ok,0,0\n"))
        demand(at.rows_of("SELECT dst FROM line WHERE no = 10") == [(5,)], "the events did not go back")
        expect(at.audit(), written(f"sound: {count + 1} records\n".encode()))
    # an event whose own tag is the word of a date; no request makes one
    with Earlier(tools) as at:
        own = [(0, "event", None, 1), (1, "date", "@#dfrench r@ 8", None)]
        before = at.made_of({1: person("Ann /Lee/"), 2: own, 3: [*own, (1, "date", "1700", None)]}, 4).first_tables()
        expect(at.apply(b""), written(b""))
        is_made_anew(at, before)
        demand(at.rows_of("SELECT * FROM span") == [(3, -98615, -98251)], "the own tag of an event has a span")


# person 2 was merged into person 1: slip 4 has the event that was the former's
MERGED = {1: person("Ann /Lee/", "Anne /Lee/"), 3: born(1, "@#dfrench r@ 1 vend 8")}
MERGE = (4, 1, 2, (
    (1, person("Ann /Lee/"), person("Ann /Lee/", "Anne /Lee/")),
    (2, person("Anne /Lee/"), []),
    (3, born(2, "@#dfrench r@ 1 vend 8"), born(1, "@#dfrench r@ 1 vend 8")),
))


def a_merge_of_that_time_is_undone(tools):
    with Earlier(tools) as at:
        at.made_of(MERGED, 5, (), (MERGE,))
        demand(b"2 DATE @#DFRENCH R@ 1 VEND 8\n" in at.export().out, "the date of the event")
        expect(at.apply(b"u,undo,4\n"), written(b"u,ok,0,0\n"))
        sheet = run(at.parish, ("sheet", at.file, "person", "2", "--today", "2024-01-01"))
        expect(sheet, written(b"Person 2\nName: Anne Lee\nBIRT: @#DFRENCH R@ 1 VEND 8\n"))
        demand(at.rows_of("SELECT no, lo, hi FROM span") == [(3, -62191, -62191)], "the span")


BEGUN = {number: born(1, f"{number % 28 + 1} NOV 1799") for number in range(1_000, 1_200)}


def an_open_import_goes_first(tools):
    """Its rows are taken out, and no span is made for them. A batch that is open stays where no record is in it."""
    for begun in (BEGUN, {6: born(1, "@#dfrench r@ 18 brum 8")}, {7: person(*["Ann /Lee/"] * 300)}):
        with Earlier(tools) as at:
            at.made_of(BIRTHS, 6, KEPT, (), begun)
            before = at.first_tables()
            expect(at.audit(), written(b"sound: 5 records\n"))
            demand(at.rows_of("SELECT no FROM batch") == [(0,)], "the batch is there")
            demand(at.rows_of("SELECT no FROM span ORDER BY no") == [(2,), (3,), (4,), (5,)], "spans of the import")
            is_made_anew(at, before)


def an_archive_of_that_program(tools):
    """What it exported is exported; its requests are answered as they were; its spans are those of a new archive."""
    with Earlier(tools) as at, Earlier(tools) as new:
        before = at.of_that_program().first_tables()
        with open(os.path.join(HERE, "export.ged"), "rb") as file:
            expect(at.export(), written(file.read()))
        is_made_anew(at, before)
        with open(os.path.join(HERE, "rows.csv"), "rb") as file:
            rows = file.read()
        again, first = at.apply(rows), new.made().apply(rows)
        demand(again == first and again.out.count(b",ok,") == 21, f"{again}\n{first}")
        with open(os.path.join(HERE, "file.ged"), "rb") as file:
            given = file.read()
        told = run(new.parish, ("import", new.file, "--token", "imp"), given)
        expect(told, written(b"imported 2 records, first 20\n"))
        expect(run(at.parish, ("import", at.file, "--token", "imp"), given), told)
        spans = "SELECT no, lo, hi FROM span ORDER BY no"
        demand(at.rows_of(spans) == new.rows_of(spans) != [], "the spans")
        demand(at.schema() == new.schema(), "the tables are not those of a new archive")
        expect(at.audit(), written(b"sound: 18 records\n"))


# With texts of several lines, and carried lines of which one names another record.
BREAKS = between("0 @N@ NOTE a", "1 CONT ", "1 CONT b", "0 @I@ INDI", "1 NAME Kit /Ray/", "2 NOTE @N@", "1 NOTE c",
                 "2 CONT d", "2 _DEEP")
KINDS = {"person", "family", "event", "citation", "place", "repo", "source", "entry", "other"}


def each_kind_of_record(tools):
    """What today's program made of rows and of files, written as the first version has it, is made anew as it was: the
    export is the same, and the tables are as is worked out beside."""
    with Earlier(tools) as at:
        at.made().apply(lines((*ROWS, 'w,name,5,"Ann\nLeigh\n"')))
        for token, given in (("file", FILE), ("breaks", BREAKS)):
            told = run(at.parish, ("import", at.file, "--token", token), given)
            demand(told.status == 0, f"{told}")
        at.apply(lines(SLIPS))
        text, tables = at.export(), at.tables()
        demand(text.status == 0 and {row[1] for row in tables["record"]} == KINDS, f"{text.err!r}")
        before = as_of_that_time(at, range(100, 110)).first_tables()
        expect(at.export(), text)
        is_made_anew(at, before)
        kept = {name: rows for name, rows in tables.items() if name not in ("link", "past")}
        demand({name: at.tables()[name] for name in kept} == kept, "the tables are not those of before")
        told = at.audit()
        demand(told.status == 0, f"{told}")


TODAY = ("--today", "2024-01-01")
# Beside Ann, who is dead, Eva, who is living, and her birth.
WITH_THE_LIVING = {**BIRTHS, 6: person("Eva /Ray/"), 7: born(6, "3 MAR 1990")}
# Each command, what it is given, and its refusal where it is refused then. For `serve`: the page that a visitor wants.
OPENING = (
    ("apply", (), b"", None),
    ("export", (), b"", None),
    ("export", ("--public", *TODAY), b"", None),
    ("sheet", ("person", "1", *TODAY), b"", None),
    ("sheet", ("person", "6", *TODAY), b"", None),
    ("sheet", ("pedigree", "6", *TODAY), b"", None),
    ("sheet", ("family", "6", *TODAY), b"", 51),
    ("sheet", ("register", "9", *TODAY), b"", 50),
    ("serve", ("/person/6",), b"", None),
    ("serve", ("/surname?name=ray",), b"", None),
    ("audit", (), b"", None),
    ("days", ("--from", "0001-01-01", "--to", "9999-12-31", "--words"), b"", None),
    ("entries", ("--source", "1", "--token", "n"), b"BURIAL,f. 3,1,,,Ann,child,Ann\n", 51),
    ("import", ("--token", "t2"), between("0 @I1@ INDI"), 52),
)


def opened(at, name, words, given):
    """What a command tells: the bytes that a visitor gets, and how it ends."""
    if name == "serve":
        return visited(at, request(words[0]))
    return b"", run(at.parish, (name, at.file, *words), given)


def whoever_opens_it(tools):
    """Each command makes the archive anew, also one that only reads, and one that is refused then; and it tells what it
    tells of an archive that was made anew before."""
    for name, words, given, number in OPENING:
        with Earlier(tools) as at, Earlier(tools) as new:
            before = at.made_of(WITH_THE_LIVING, 8, KEPT, (), BEGUN).first_tables()
            shutil.copy(at.file, new.file)
            expect(new.apply(b""), written(b""))
            got, wanted = (opened(one, name, words, given) for one in (at, new))
            demand(got == wanted, f"{name} {words}: {got}, and {wanted} of the archive made anew")
            demand(got[1] == refused(number) if number else got[1].status == 0, f"{name} {words}: {got}")
            is_made_anew(at, before)
            is_masked = name in ("sheet", "serve") or "--public" in words
            demand(not is_masked or b"Eva" not in got[0] + got[1].out + got[1].err, f"{name} {words}: {got}")


def a_later_version(tools):
    """It is refused, and nothing is changed, whatever tables it has."""
    both = ("DROP INDEX sought_by_text", "DROP TABLE slip")
    for statements in ((), ("DROP TABLE span",), ("DROP TABLE link",), both):
        with Earlier(tools) as at:
            at.made().apply(b"a,person,Ann,F\n")
            at.other_database("UPDATE meta SET version = 3", *statements)
            before = at.schema(), at.rows_of("SELECT * FROM line"), at.version()
            for command in ("export", "audit", "apply"):
                expect(run(at.parish, (command, at.file), b"b,person,Eva,F\n"), refused(83))
            demand((at.schema(), at.rows_of("SELECT * FROM line"), at.version()) == before, "it was changed")


def what_is_no_archive_of_the_first_version(tools):
    """Refused, and it stays as it was: a table is missing, a date is in no spelling that its program wrote, a slip has
    such a date, lines are those of no record. Where a batch is missing that a row refers to, the database itself cannot
    be opened (80)."""
    spoilt = {
        "DROP TABLE slip_line": 82,
        "DROP TABLE receipt": 82,
        "UPDATE line SET text = 'bef 1700' WHERE text = 'BEF 1700'": 40,
        "UPDATE line SET text = NULL WHERE tag = 'BIRT'": 40,
        "UPDATE slip_line SET text = '1 jan 1800' WHERE tag = 'date' AND side = 0": 40,
        "UPDATE slip_line SET tag = 'dates' WHERE tag = 'date'": 40,
        "DELETE FROM batch": 80,
    }
    for statement, number in spoilt.items():
        with Earlier(tools) as at:
            at.made_of({**MERGED, 5: born(1, "BEF 1700")}, 6, (), (MERGE,)).other_database(statement)
            before = at.schema(), at.rows_of("SELECT * FROM line"), at.version()
            for command in ("audit", "export"):
                got = run(at.parish, (command, at.file))
                wanted = unopened("no database") if number == 80 else refused(number)
                demand((got.status, got.err) == (1, wanted.err), f"{statement}: {got}")
            demand((at.schema(), at.rows_of("SELECT * FROM line"), at.version()) == before, f"{statement}: changed")


def a_span_refers_to_its_record(tools):
    """The database itself keeps a record that has a span, also of an archive that was made anew."""
    for is_old in (False, True):
        with Earlier(tools) as at:
            if is_old:
                at.made_of(BIRTHS, 6)
                at.audit()
            else:
                at.made().apply(b"a,person,Ann,F\nb,event,1,BIRT,,1800,\n")
            conn = sqlite3.connect(at.file)
            conn.execute("PRAGMA foreign_keys = ON")
            conn.execute("DELETE FROM line WHERE no = 2")
            try:
                conn.execute("DELETE FROM record WHERE no = 2")
                demand(False, "a record with a span was deleted")
            except sqlite3.IntegrityError:
                conn.execute("DELETE FROM span WHERE no = 2")
                conn.execute("DELETE FROM record WHERE no = 2")
            finally:
                conn.rollback()
                conn.close()


def days_of_a_new_archive(tools):
    with Earlier(tools) as at:
        at.made().apply(lines(("a,person,Ann /Lee/,F", "b,event,1,BIRT,,3 MAR 1799,", "c,event,1,DEAT,,AFT 1850,",
                               "d,event,1,OCCU,weaver,(as a child),", "e,place,Ashby,", "f,amend,2,,4 MAR 1799,5")))
        expect(at.days("1799-03-03", "1799-03-03"), written(b""))
        expect(at.days("1799-03-04", "1799-03-04"), written(b"2\n"))
        expect(at.days("1700-01-01", "2000-01-01"), written(b"2\n3\n"))
        expect(at.days("1799-03-04", "1799-03-04", "--words"), written(b"2  BIRT  4 MAR 1799  Ashby\n"))
        expect(at.days("1799-03-05", "1799-03-04"), refused(87))
        at.apply(b"g,remove,3\n")
        expect(at.days("1700-01-01", "2000-01-01"), written(b"2\n"))


def begin(at: Folder) -> None:
    """An archive of the first version in a folder, with all that is made anew, and an import that is open."""
    Earlier.made_of(at, *of_each_date(merges=True), begun={n: BEGUN[n] for n in range(1_000, 1_060)})


def closed(tables: dict[str, list]) -> dict[str, list]:
    """What the tables of the first version say beside an import that is open."""
    numbers = {number for number, _, batch in tables["record"] if (batch, 0) in tables["batch"]}
    kept = {name: [row for row in tables[name] if row[at] in numbers] for name, at in (("record", 0), ("line", 1))}
    return {**tables, **kept, "batch": [row for row in tables["batch"] if not row[1]]}


@functools.cache
def begun() -> dict[str, list]:
    with Earlier(Tools((), None)) as at:
        begin(at)
        return at.first_tables()


def is_anew(at: Folder, before: dict[str, list], after: dict[str, list]) -> bool:
    """Whether a stop has left the second version, with all that is anew. Else it has left the first one, with all its
    records, and of an import that was open some rows, or none."""
    if at.rows_of("SELECT version FROM meta") == [(2,)]:
        demand(at.tables() == after, "what a stop left is of the second version, and not all of it")
        return True
    there = {name: at.rows_of(f"SELECT * FROM {name}") for name in FIRST_TABLES}
    demand(closed(there) == closed(before), "what a stop left is neither as it was nor anew")
    for name in LATER:
        demand(not at.rows_of(f"SELECT * FROM sqlite_master WHERE name = '{name}'"), f"the first version has {name}")
    return False


# Its opening, which tests/stops.py stops and tests/wants.py refuses memory.
ANEW = Command(
    "an archive of the first version", (), ("audit",), b"", (b"sound: 53 records\n",), 3, begin,
    lambda at: is_anew(at, begun(), anew(begun())),
)

DATES = (
    "3 MAR 1799", "ABT 1760", "BEF 1700", "BET 1 JAN 1790 AND 9 NOV 1799", "@#DFRENCH R@ 18 BRUM 8",
    "BET @#DFRENCH R@ 1 VEND 8 AND @#DFRENCH R@ 5 COMP 14", "@#DFRENCH R@ COMP 3", "AFT @#DFRENCH R@ 8", "(unknown)",
    "in harvest", "@#DJULIAN@ 11 FEB 1731/32", "@#DFRENCH R@ 6 COMP 4",
)


def of_a_file(at: Earlier, persons: int, rng: random.Random) -> Earlier:
    """An archive of the first version with the persons of a file, each with a birth and a death, and with an import
    that was left open. Two of three French Republican dates are spelt as the grammar of that time read none."""
    given = between(*(
        line for n in range(persons) for line in (
            f"0 @I{n}@ INDI", f"1 NAME Ann /Lee {n}/", "1 BIRT", f"2 DATE {rng.choice(DATES)}",
            f"2 PLAC Ashby {n % 50}", "1 DEAT", f"2 DATE {rng.choice(DATES)}",
        )
    ))
    told = run(at.made().parish, ("import", at.file, "--token", "t"), given, limit=LONG)
    demand(told.status == 0, f"{told}")
    return as_of_that_time(at, range(10_000_000, 10_000_000 + persons // 4))


def as_of_that_time(at: Earlier, begun: Iterable[int]) -> Earlier:
    """An archive of the second version becomes one of the first, with an import that is open, of places with these
    numbers."""
    conn = sqlite3.connect(at.file)
    rows = each_line(conn.execute(PACKS).fetchall())
    for name in ("line", *LATER):
        conn.execute(f"DROP TABLE {name}")
    for text in TABLES:
        if text.startswith(("CREATE TABLE line ", "CREATE INDEX line_by_")):
            conn.execute(text)
    conn.executemany("INSERT INTO line (no, pos, depth, tag, text, dst) VALUES (?, ?, ?, ?, ?, ?)", rows)
    conn.execute("UPDATE meta SET version = 1")
    french = "tag = 'date' AND text LIKE '%@#DFRENCH R@%' AND id %"
    conn.execute(f"UPDATE line SET text = lower(text) WHERE {french} 3 = 0")
    conn.execute(f"UPDATE line SET text = replace(text, ' ', '  ') WHERE {french} 3 = 1")
    conn.execute("INSERT INTO batch SELECT max(no) + 1, 1 FROM batch")
    for number in begun:
        conn.execute("INSERT INTO record SELECT ?, 'place', max(no) FROM batch", (number,))
        conn.execute("INSERT INTO line (no, pos, depth, tag, text) VALUES (?, 0, 0, 'place', 'Ross')", (number,))
    conn.commit()
    conn.close()
    return at


def seconds_of(at: Earlier) -> float:
    """How long an opening takes."""
    begun = time.perf_counter()
    expect(at.apply(b"", limit=LONG), written(b""))
    return time.perf_counter() - begun


def killed_in_an_opening(tools, kills=10, persons=300, seed=11):
    """A program that is killed while it makes an archive anew leaves it as it was or anew, and the next one answers as
    one that was not killed, and leaves what it does; so it is where the next one is killed too."""
    rng = random.Random(seed)
    counted = {"as it was": 0, "without a part of the open import": 0, "anew": 0, "with rows in the log": 0}
    with Earlier(tools) as whole:
        image, before = bytes_of(of_a_file(whole, persons, rng).file), whole.first_tables()
        longest, after = seconds_of(whole), anew(before)
        is_made_anew(whole, before)
        told, text = whole.audit(), whole.export()
        demand((told.status, text.status) == (0, 0) and told.out.startswith(b"sound: "), f"{told}")
    for _ in range(kills):
        with Earlier(tools) as at:
            with open(at.file, "wb") as file:
                file.write(image)
            for _ in range(rng.choice((1, 1, 2))):
                word = rng.choice(("audit", "export", "apply"))
                killed_after([*at.parish, word, at.file], b"", rng.random() * longest)
                is_done, has_log = is_anew(at, before, after), bool(bytes_of(at.file + "-wal"))
                is_whole = not is_done and at.rows_of("SELECT * FROM record") == before["record"]
                state = "anew" if is_done else "as it was" if is_whole else "without a part of the open import"
                counted[state] += 1
                counted["with rows in the log"] += has_log and not is_done
            expect(at.audit(), told)
            demand(at.tables() == after, "the tables differ")
            expect(at.export(), text)
    return counted


TESTS = (
    dates_are_read_anew,
    days_of_dates_read_anew,
    each_date,
    a_merge_of_that_time_is_undone,
    an_open_import_goes_first,
    each_kind_of_record,
    an_archive_of_that_program,
    whoever_opens_it,
    a_later_version,
    what_is_no_archive_of_the_first_version,
    a_span_refers_to_its_record,
    killed_in_an_opening,
    days_of_a_new_archive,
)


def cases(tools: Tools):
    for test in TESTS:
        yield Case(f"earlier: {test.__name__.replace('_', ' ')}", lambda test=test: test(tools))
