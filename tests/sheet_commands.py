"""`sheet` and `export --public` by the executable. What is expected was written by hand from docs/FORMATS.md and
docs/LIVING.md, or is what the second reading in `shown/` makes of drawn archives."""

from __future__ import annotations

import datetime
import os
import sqlite3

from archives import lines
from ends import each_growth_refused, left_by_its_reader, refused_as_no_archive
from exports import HEADER, TRAILER
from harness import (
    Case, Outcome, Tools, demand, difference, expect, pipe_without_reader, refused, run, unopened, written,
)
from imports import Imported
from shown.drawn import TODAY as DAY
from shown.drawn import archive, date_of
from shown.gedcom import exported
from shown.masked import shown
from shown.sheets import Sheets

TODAY = "2024-01-01"
KINDS = ("person", "family", "pedigree", "register")

# Rows of a new archive, and sheets of its records on that day, by hand.
SMITHS = (
    "a,person,John /Smith/,M", "b,person,Ann /Lee/,", "c,family,1,2", "d,event,3,MARR,,1 JAN 2000,",
    "e,event,1,BURI,,,",
)
ASHBY = (
    "a,source,Ashby,,,,", "b,entry,1,BAPTISM,f. 3,1,1 JAN 1900,,John of Tom,child,John",
    "c,entry,1,BAPTISM,f. 3,2,1 JAN 1930,,Joe of Tom,child,Joe",
)
LEES = (
    "a,person,Ann /Lee/,F", "b,person,Tom /Lee/,M", "c,person,Eva /Ray/,F", "d,family,2,3", "e,child,4,1",
    "f,event,1,DEAT,,,", "g,event,2,DEAT,,,", "h,event,3,BURI,,,", "i,event,2,BIRT,,1850,",
    'k,name,1,"Annie\n /Lee/"', "l,source,,,,,", "m,citation,5,9,,0", "n,citation,1,9,f. 2,",
    "o,participant,8,1,nurse", "p,participant,8,3,", "q,place,Kent,", "r,place,Ashby,12", "s,amend,8,at night,,13",
)
SHEETS = (
    (SMITHS, ("person", 1), "Person 1\nName: John Smith\nSex: M\nBURI\nPartner in: 3\n"),
    (SMITHS, ("person", 2), "Person 2\nName: Living\nPartner in: 3\n"),
    (SMITHS, ("family", 3), "Family 3\nHusband: 1 John Smith\nWife: 2 Living\n"),
    (SMITHS, ("pedigree", 2), "   1  Living\n"),
    (SMITHS, ("person", 4), 50),
    (SMITHS, ("person", 6), 50),
    (SMITHS, ("person", 4_294_967_295), 50),
    (SMITHS, ("person", 3), 51),
    (SMITHS, ("person", 5), 51),
    (SMITHS, ("family", 1), 51),
    (SMITHS, ("pedigree", 3), 51),
    (SMITHS, ("register", 1), 51),
    (ASHBY, ("register", 1), "Register 1: Ashby\n     1  f. 3  BAPTISM  1 JAN 1900\n        child: John\n"),
    (ASHBY, ("register", 2), 51),
    (ASHBY, ("register", 3), 50),
    (LEES, ("pedigree", 1), "   1  Ann Lee\n   2  Tom Lee, b. 1850\n   3  Eva Ray\n"),
    (LEES, ("pedigree", 1, "--generations", "1"), "   1  Ann Lee\n"),
    (LEES, ("pedigree", 1, "--generations", "12"), "   1  Ann Lee\n   2  Tom Lee, b. 1850\n   3  Eva Ray\n"),
    (LEES, ("person", 1, "--generations", "7"),
     "Person 1\nName: Ann Lee\nName: Annie Lee\nSex: F\nDEAT\n  source 9, quality 0\nSource 9, page f. 2\n"
     "Child of: 4\n"),
    (LEES, ("person", 2),
     "Person 2\nName: Tom Lee\nSex: M\nDEAT\nBIRT: at night; 1850; Ashby, Kent\n  with 1 Ann Lee (nurse)\n"
     "  with 3 Eva Ray\nPartner in: 4\n"),
    (LEES, ("family", 4), "Family 4\nHusband: 2 Tom Lee\nWife: 3 Eva Ray\nChild: 1 Ann Lee\n"),
    (LEES, ("register", 9), "Register 9: \n"),
)
# Days on which a person, or an entry, is shown from then on: rows, a sheet, the day, and the sheet of the day before.
TURNS = (
    (("a,person,Ann /Lee/,", "b,event,1,BIRT,,1913,"), ("person", 1), TODAY, "Person 1\nName: Ann Lee\nBIRT: 1913\n",
     "Person 1\nName: Living\n"),
    (("a,person,Ann /Lee/,", "b,event,1,BIRT,,1 JAN 1914,"), ("person", 1), "2024-01-02",
     "Person 1\nName: Ann Lee\nBIRT: 1 JAN 1914\n", "Person 1\nName: Living\n"),
    (ASHBY, ("register", 1), "2030-01-01",
     "Register 1: Ashby\n     1  f. 3  BAPTISM  1 JAN 1900\n        child: John\n"
     "     2  f. 3  BAPTISM  1 JAN 1930\n        child: Joe\n",
     "Register 1: Ashby\n     1  f. 3  BAPTISM  1 JAN 1900\n        child: John\n"),
)
WORDS = (
    ("sheet",),
    ("sheet", "FILE", "person", "1"),
    ("sheet", "FILE", "person", "--today", TODAY),
    ("sheet", "FILE", "--today", TODAY),
    ("sheet", "FILE", "person", "1", "2", "--today", TODAY),
    *(("sheet", "FILE", kind, "1", "--today", TODAY) for kind in ("people", "Person", "", "index", "surname")),
    *(("sheet", "FILE", "person", no, "--today", TODAY) for no in ("0", "x", "", "4294967296", "1.0", "99999999999")),
    *(("sheet", "FILE", "pedigree", "1", "--today", TODAY, "--generations", g) for g in ("0", "13", "x", "", "-1")),
    *(("sheet", "FILE", "person", "1", "--today", day) for day in ("soon", "2024-02-30", "2023-02-29", "", "2024")),
    ("export", "FILE", "--public"),
    ("export", "FILE", "--today", TODAY),
    *(("export", "FILE", "--public", "--today", day) for day in ("2024-13-01", "2024-00-10", "x", "01.01.2024")),
)


class Shown(Imported):
    """A folder whose archive is shown."""

    def sheet(self, kind, number, *more, today=TODAY, **how):
        words = ("sheet", self.file, kind, str(number), "--today", today, *more)
        return run(self.parish, words, b"", **how)

    def public(self, today=TODAY, **how):
        return run(self.parish, ("export", self.file, "--public", "--today", today), b"", **how)


def outcome(wanted) -> Outcome:
    """What a sheet comes to: its text, or a refusal by its number or by its line."""
    if isinstance(wanted, int):
        return refused(wanted)
    first = wanted.split(" ")[0]
    return refused(int(first)) if first in ("50", "51") else written(wanted.encode())


def sheets_by_hand(tools):
    for rows in (SMITHS, ASHBY, LEES):
        with Shown(tools) as at:
            at.with_rows(rows)
            before = at.tables()
            for of, words, wanted in SHEETS:
                if of is rows:
                    expect(at.sheet(*words), outcome(wanted))
            demand(at.tables() == before, "the tables changed")


def days_at_which_a_rule_turns(tools):
    for rows, words, today, then, before in TURNS:
        eve = (datetime.date.fromisoformat(today) - datetime.timedelta(days=1)).isoformat()
        with Shown(tools) as at:
            at.with_rows(rows)
            expect(at.sheet(*words, today=eve), written(before.encode()))
            expect(at.sheet(*words, today=today), written(then.encode()))


def the_public_export(tools):
    """The society's worked example, and an archive without records."""
    records = (
        "0 @I1@ INDI\n1 NAME John /Smith/\n1 SEX M\n1 BURI\n1 FAMS @F3@\n0 @I2@ INDI\n1 NAME Living\n1 FAMS @F3@\n"
        "0 @F3@ FAM\n1 HUSB @I1@\n1 WIFE @I2@\n"
    )
    with Shown(tools) as at:
        at.made()
        expect(at.public(), written((HEADER + TRAILER).encode()))
        demand(at.apply(lines(SMITHS)).out.count(b",ok,") == len(SMITHS), "a row was refused")
        before = at.tables()
        expect(at.public(), written((HEADER + records + TRAILER).encode()))
        expect(at.public("2200-01-01"), at.export())
        demand(at.tables() == before, "the tables changed")


def words_that_are_refused(tools):
    """Status 2 with a text on standard error; no file is made or opened."""
    with Shown(tools) as at:
        for words in WORDS:
            got = run(tools.parish, [at.file if word == "FILE" else word for word in words])
            demand((got.status, got.out) == (2, b"") and got.err != b"", f"{words}: {got}")
        demand(not os.listdir(at.path), "a file was made")


def no_archive(tools):
    sheets = [lambda at, kind=kind: at.sheet(kind, 1) for kind in KINDS]
    refused_as_no_archive(Shown, tools, Shown.public, *sheets)


def lines_of_no_record(tools):
    """40 where somebody else has spoilt a record, whichever sheet is asked for, and nothing is written."""
    with Shown(tools) as at:
        at.with_rows(LEES).other_database("UPDATE line SET tag = 'frob' WHERE no = 3")
        for kind in KINDS:
            expect(at.sheet(kind, 1), refused(40))
        expect(at.public(), refused(40))


def drawn_archives(tools, first, count):
    """Every sheet of every number of drawn archives, of which a part is hidden, and their public exports."""
    for number in range(first, first + count):
        with Shown(tools) as at:
            drawn = archive(1, number)
            told = f"imported {len(drawn.records)} records, first 1\n".encode()
            expect(at.made().import_(drawn.file), written(told))
            before = at.tables()
            day = DAY + number % 3 - 1
            today, left = date_of(day).isoformat(), shown(drawn.records, day)
            sheets = Sheets(left)
            for place in range(1, len(drawn.records) + 2):
                generations = place % 5 + 1
                for kind in KINDS:
                    more = ("--generations", str(generations)) if kind == "pedigree" else ()
                    wanted = sheets.of(kind, place, generations)
                    got = at.sheet(kind, place, *more, today=today)
                    demand(got == outcome(wanted), f"archive {number}, {kind} {place}: {got}, wanted {wanted!r}")
            wanted = exported(left, "Ashby Society")
            got = at.public(today)
            demand(got == written(wanted), f"archive {number}: {difference(wanted, got.out)} {got.err!r}")
            demand(at.tables() == before, f"archive {number}: the tables changed")


def outputs_that_fail(tools):
    """95: a full device, and readers that left or leave in the middle; the archive is as it was."""
    with Shown(tools) as at:
        at.with_rows([*LEES, *(f"n{n},name,2,{'x' * 100_000}" for n in range(9))])
        before = at.tables()
        for call in (lambda **how: at.sheet("person", 2, **how), at.public):
            whole = call().out
            with open("/dev/full", "wb") as full:
                expect(call(stdout=full), refused(95))
            with pipe_without_reader() as writing:
                expect(call(stdout=writing), refused(95))
            demand(len(whole) > 900_000 and call() == written(whole), "the next call differs")
        got = left_by_its_reader([*at.parish, "sheet", at.file, "person", "2", "--today", TODAY])
        demand(at.sheet("person", 2).out.startswith(got), "no beginning")
        demand(at.tables() == before, "the tables changed")


def refused_memory(tools):
    """1, or 80 if the database wanted it, after a prefix; and the archive is as it was."""
    with Shown(tools) as at:
        before = at.with_rows(LEES).tables()
        each_growth_refused(
            at, lambda **how: at.sheet("person", 2, **how), lambda **how: at.sheet("pedigree", 1, **how),
            lambda **how: at.sheet("register", 9, **how), at.public,
        )
        demand(at.tables() == before, "the tables changed")


def another_program_has_it(tools):
    with Shown(tools) as at:
        at.with_rows(SMITHS)
        conn = sqlite3.connect(at.file, isolation_level=None)
        try:
            conn.execute("BEGIN EXCLUSIVE")
            expect(at.sheet("person", 1), unopened("another program"))
            expect(at.public(), unopened("another program"))
        finally:
            conn.close()
        expect(at.sheet("family", 3), outcome(SHEETS[2][2]))


TESTS = (
    sheets_by_hand,
    days_at_which_a_rule_turns,
    the_public_export,
    words_that_are_refused,
    no_archive,
    lines_of_no_record,
    outputs_that_fail,
    refused_memory,
    another_program_has_it,
)


def cases(tools: Tools):
    for first in range(0, 20, 5):
        name = f"shown: each sheet of drawn archives, {first} to {first + 4}"
        yield Case(name, lambda first=first: drawn_archives(tools, first, 5))
    for test in TESTS:
        yield Case(f"shown: {test.__name__.replace('_', ' ')}", lambda test=test: test(tools))
