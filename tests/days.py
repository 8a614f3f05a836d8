"""`days` by the executable: which events and entries are between two days, and what is printed of them. What is
expected was written by hand from docs/FORMATS.md. Archives of the first version are in earlier.py."""

from __future__ import annotations

import os
import sqlite3

from ends import each_growth_refused, left_by_its_reader, refused_as_no_archive
from harness import Case, Tools, demand, expect, pipe_without_reader, refused, run, unopened, written
from imports import Imported

# Rows of a new archive, which are its records 1 to 14. What has no date, or one without an end, is never found.
ROWS = (
    "a,person,Ann /Lee/,F", "b,place,Kent,", "c,place,Ashby,2", 'd,place,"Mill\nLane",3',
    "e,event,1,BIRT,,3 MAR 1799,3", "f,event,1,DEAT,,AFT 1850,", "g,event,1,OCCU,weaver,(as a child),3",
    "h,event,1,RESI,,,3", "i,source,Register,,,,", "j,entry,9,BURIAL,f. 3,1,1 MAY 1860,4,Ann of Ashby,buried,Ann",
    "k,entry,9,BAPTISM,f. 3,2,,2,Joe of Kent,child,Joe", "l,entry,9,MARRIAGE,f. 4,1,BET 1840 AND 1845,,Ann,bride,Ann",
    "m,event,1,CENS,1841,ABT 1841,2", "n,event,1,BURI,,@#DFRENCH R@ 18 BRUM 8,",
)
LINES = {
    5: "  BIRT  3 MAR 1799  Ashby, Kent",
    6: "  DEAT  AFT 1850",
    10: "  BURIAL  1 MAY 1860  Mill Lane, Ashby, Kent",
    12: "  MARRIAGE  BET 1840 AND 1845",
    13: "  CENS  ABT 1841  Kent",
    14: "  BURI  @#DFRENCH R@ 18 BRUM 8",
}
FOUND = (
    ("1799-03-03", "1799-03-03", (5,)),
    ("1799-03-04", "1799-03-04", ()),
    ("1799-03-02", "1799-03-02", ()),
    ("1799-03-02", "1799-03-04", (5,)),
    ("1799-01-01", "1799-12-31", (5, 14)),
    ("1799-11-09", "1799-11-09", (14,)),
    ("1840-12-31", "1840-12-31", (12,)),
    ("1841-01-01", "1841-01-01", (12, 13)),
    ("1845-12-31", "1845-12-31", (12,)),
    ("1846-01-01", "1846-01-01", ()),
    ("1850-12-31", "1850-12-31", ()),
    ("1851-01-01", "1851-01-01", (6,)),
    ("1860-05-01", "1860-05-01", (6, 10)),
    ("9999-12-31", "9999-12-31", (6,)),
    ("0001-01-01", "9999-12-31", (5, 6, 10, 12, 13, 14)),
)
NO_DAYS = ("soon", "1799-02-29", "", "1799", "1799-13-01", "01.01.1799")
WORDS = (
    ("days",),
    ("days", "FILE"),
    ("days", "FILE", "--from", "1800-01-01"),
    ("days", "FILE", "--to", "1800-01-01"),
    ("days", "--from", "1800-01-01", "--to", "1800-01-01"),
    ("days", "FILE", "FILE", "--from", "1800-01-01", "--to", "1800-01-01"),
    ("days", "FILE", "--from", "1800-01-01", "--to", "1800-01-01", "--words", "--words"),
    ("days", "FILE", "--from", "1800-01-01", "--to", "1800-01-01", "--today", "1800-01-01"),
    *(("days", "FILE", "--from", day, "--to", "1800-01-01") for day in NO_DAYS),
    *(("days", "FILE", "--from", "1700-01-01", "--to", day) for day in NO_DAYS),
)


class Dated(Imported):
    """A folder with an archive that is asked for days."""

    def days(self, first="0001-01-01", last="9999-12-31", *words, **how):
        return run(self.parish, ("days", self.file, "--from", first, "--to", last, *words), b"", **how)

    def told(self, **how):
        return self.days("0001-01-01", "9999-12-31", "--words", **how)

    def reversed(self, *words):
        return self.days("1799-03-04", "1799-03-03", *words)


def days_by_hand(tools):
    with Dated(tools) as at:
        before = at.with_rows(ROWS).tables()
        for first, last, found in FOUND:
            expect(at.days(first, last), written("".join(f"{n}\n" for n in found).encode()))
            told = "".join(f"{n}{LINES[n]}\n" for n in found)
            expect(at.days(first, last, "--words"), written(told.encode()))
        demand(at.tables() == before, "the tables changed")


def an_archive_without_records(tools):
    with Dated(tools) as at:
        at.made()
        expect(at.days(), written(b""))
        expect(at.told(), written(b""))


def what_is_changed_and_removed(tools):
    with Dated(tools) as at:
        at.with_rows(ROWS)
        answers = at.apply(b"p,amend,5,,4 MAR 1799,\nq,remove,6\nr,remove,14\n").out
        demand(answers.count(b",ok,") == 3, f"{answers!r}")
        expect(at.days("1799-03-03", "1799-03-03"), written(b""))
        expect(at.days("1799-03-04", "1799-03-04", "--words"), written(b"5  BIRT  4 MAR 1799  Ashby, Kent\n"))
        expect(at.days(), written(b"5\n10\n12\n13\n"))


def many_are_found(tools):
    """Ascending, past 9 and 99, each once."""
    with Dated(tools) as at:
        at.with_rows(("a,person,Ann,F", *(f"e{n},event,1,RESI,,{1700 + n % 200}," for n in range(1_200))))
        numbers = range(2, 1_202)
        expect(at.days(), written("".join(f"{n}\n" for n in numbers).encode()))
        expect(at.told(), written("".join(f"{n}  RESI  {1700 + (n - 2) % 200}\n" for n in numbers).encode()))
        expect(at.days("1700-01-01", "1700-12-31"), written("".join(f"{n}\n" for n in range(2, 1_202, 200)).encode()))


def days_in_the_wrong_order(tools):
    """87, once the file is open; what a file is refused for comes first. Nothing is written, and nothing changes."""
    calls = (Dated.reversed, lambda at: at.reversed("--words"), lambda at: at.days("9999-12-31", "0001-01-01"))
    with Dated(tools) as at:
        before = at.with_rows(ROWS).tables()
        for call in calls:
            expect(call(at), refused(87))
        demand(at.tables() == before, "the tables changed")
    refused_as_no_archive(Dated, tools, *calls)


def words_that_are_refused(tools):
    """Status 2 with a text on standard error; no file is made or opened."""
    with Dated(tools) as at:
        for words in WORDS:
            got = run(tools.parish, [at.file if word == "FILE" else word for word in words])
            demand((got.status, got.out) == (2, b"") and got.err != b"", f"{words}: {got}")
        demand(not os.listdir(at.path), "a file was made")


def no_archive(tools):
    refused_as_no_archive(Dated, tools, Dated.days, Dated.told)


def lines_of_no_record(tools):
    """40 where somebody else has spoilt a record and words are asked for, and nothing is written."""
    with Dated(tools) as at:
        at.with_rows(ROWS).other_database("UPDATE line SET tag = 'frob' WHERE no = 3")
        expect(at.told(), refused(40))


def outputs_that_fail(tools):
    """95: a full device, and readers that left or leave in the middle; the archive is as it was."""
    with Dated(tools) as at:
        long = "x" * 4_000
        rows = (f"e{n},event,1,RESI,,{1700 + n % 200},2" for n in range(200))
        before = at.with_rows(("a,person,Ann,F", f"b,place,{long},", *rows)).tables()
        whole = at.told().out
        demand(len(whole) > 800_000, f"{len(whole)} bytes")
        for call in (at.days, at.told):
            with open("/dev/full", "wb") as full:
                expect(call(stdout=full), refused(95))
            with pipe_without_reader() as writing:
                expect(call(stdout=writing), refused(95))
        words = ["days", at.file, "--from", "1700-01-01", "--to", "1999-12-31", "--words"]
        demand(whole.startswith(left_by_its_reader([*at.parish, *words])), "no beginning")
        expect(at.told(), written(whole))
        demand(at.tables() == before, "the tables changed")


def refused_memory(tools):
    """1, or 80 if the database wanted it, after a prefix; and the archive is as it was."""
    with Dated(tools) as at:
        before = at.with_rows(ROWS).tables()
        each_growth_refused(at, at.days, at.told)
        demand(at.tables() == before, "the tables changed")


def another_program_has_it(tools):
    with Dated(tools) as at:
        at.with_rows(ROWS)
        conn = sqlite3.connect(at.file, isolation_level=None)
        try:
            conn.execute("BEGIN EXCLUSIVE")
            expect(at.days(), unopened("another program"))
            expect(at.told(), unopened("another program"))
        finally:
            conn.close()
        expect(at.days("1799-03-03", "1799-03-03"), written(b"5\n"))


TESTS = (
    days_by_hand,
    an_archive_without_records,
    what_is_changed_and_removed,
    many_are_found,
    days_in_the_wrong_order,
    words_that_are_refused,
    no_archive,
    lines_of_no_record,
    outputs_that_fail,
    refused_memory,
    another_program_has_it,
)


def cases(tools: Tools):
    for test in TESTS:
        yield Case(f"days: {test.__name__.replace('_', ' ')}", lambda test=test: test(tools))
