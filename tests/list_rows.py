"""`list`, `find` and `review` with `--csv` by the executable: rows below a header in place of lines. What is expected
was written by hand from docs/FORMATS.md; Python's own reader of CSV reads what is printed."""

from __future__ import annotations

import csv
import io

from harness import Case, Tools, demand, expect, refused, run, written
from lists import Listed

# Rows of a new archive, which are its records 1 to 10.
ROWS = (
    "a,place,Kent,", "b,place,Ashby,1", "c,source,=Register,,,,", 'd,person,"Ann ""Nan"" /Lee/",F',
    'e,entry,3,MARRIAGE,f. 3,1,6 MAY 1761,2,"Wed, by banns\n=1+1\tsaid",groom,Tom Ray,bride,Ann Lee,witness,-Eva,'
    "witness,@Sam",
    "f,entry,3,BAPTISM,f. 4,2,at harvest,,,child,Eva,godparent,Ann Lee", "g,entry,3,BURIAL,,999999,,,,buried,+Tom",
    "h,person,/Ray/,M", "i,person,Eva,F", "l,link,5,2,4,same farm",
)
PAGE = (
    ("#number", "kind", "page", "item", "date", "place", "text", "child", "buried", "groom", "bride", "godparent",
     "witness", "witness 2"),
    ("5", "MARRIAGE", "f. 3", "1", "6 MAY 1761", "2", "Wed, by banns\n=1+1 said", "", "", "Tom Ray", "Ann Lee", "",
     "'-Eva", "'@Sam"),
    ("6", "BAPTISM", "f. 4", "2", "at harvest", "", "", "Eva", "", "", "", "Ann Lee", "", ""),
    ("7", "BURIAL", "", "999999", "", "", "", "", "'+Tom", "", "", "", "", ""),
)
LISTED = (
    (("list", "persons"), (("4", 'person  Ann "Nan" Lee'), ("8", "person  Ray"), ("9", "person  Eva"))),
    (("list", "persons", "--after", "4", "--limit", "1"), (("8", "person  Ray"),)),
    (("list", "sources"), (("3", "source  =Register"),)),
    (("list", "entries"), (
        ("5", "entry  source 3  page f. 3  no. 1  MARRIAGE  6 MAY 1761"),
        ("6", "entry  source 3  page f. 4  no. 2  BAPTISM  at harvest"),
        ("7", "entry  source 3  page   no. 999999  BURIAL"))),
    (("list", "slips"), ()),
    (("list", "others"), ()),
    (("find", "ann"), (
        ("4", 'person  Ann "Nan" Lee'), ("5", "entry  source 3  page f. 3  no. 1  MARRIAGE  6 MAY 1761"),
        ("6", "entry  source 3  page f. 4  no. 2  BAPTISM  at harvest"))),
    (("find", "ann", "--limit", "1"), (("4", 'person  Ann "Nan" Lee'), ("", "and 2 more"))),
    (("find", "nobody"), ()),
)
DOUBTS = (("6", "words: at harvest"), ("9", "no surname: Eva"))


class Sheet(Listed):
    """A folder with an archive whose lists are opened as spreadsheets."""

    def rows(self, command, *words):
        got = run(self.parish, (command, self.file, *words, "--csv"))
        demand((got.status, got.err) == (0, b""), f"{words}: {got}")
        return [tuple(row) for row in csv.reader(io.StringIO(got.out.decode(), newline=""))]

    def page(self, *words, source="3"):
        return self.rows("list", "entries", "--source", source, *words)


def lists_and_searches(tools):
    with Sheet(tools) as at:
        before = at.with_rows(ROWS).tables()
        for words, rows in LISTED:
            found = at.rows(*words)
            demand(found == [("number", "description"), *rows], f"{words}: {found}")
        demand(at.tables() == before, "the tables changed")


def doubts(tools):
    with Sheet(tools) as at:
        at.with_rows(ROWS)
        found = at.rows("review")
        demand(found == [("number", "doubt"), *DOUBTS], f"{found}")


def bytes_of_rows(tools):
    """A quote is doubled, only cells that have to be are quoted, and LF ends each row."""
    with Sheet(tools) as at:
        at.with_rows(("a,person,Ann /Lee/,F", 'b,person,"Tom ""T"" /Ray, senior/",M'))
        text = 'number,description\n1,person  Ann Lee\n2,"person  Tom ""T"" Ray, senior"\n'
        expect(at.list("persons", "--csv"), written(text.encode()))


def a_page(tools):
    """The entries of a source have the columns of a page, as many of a role as an entry has mentions in it."""
    with Sheet(tools) as at:
        before = at.with_rows(ROWS).tables()
        demand(at.page() == list(PAGE), f"{at.page()}")
        found = at.page("--after", "5", "--limit", "1")
        demand(found == [PAGE[0][:8] + ("godparent",), PAGE[2][:8] + ("Ann Lee",)], f"{found}")
        empty = at.rows("list", "entries", "--source", "4")
        demand(empty == [PAGE[0][:7]], f"{empty}")
        demand(at.tables() == before, "the tables changed")


def a_page_is_read_back(tools):
    """What comes out is a table of which nothing is refused: neither by the check nor where the entries are new."""
    with Sheet(tools) as at:
        at.with_rows(ROWS)
        page = run(at.parish, ("list", at.file, "entries", "--source", "3", "--csv")).out
        check = ("entries", at.file, "--table", "--check", "--source", "3")
        got = run(at.parish, check, page)
        wrong = [line for line in got.out.decode().splitlines() if ": 60 DuplicateEntry: " in line]
        demand(got.status == 1 and len(wrong) == 3, f"{got}")
        for number in (5, 6, 7):
            got = at.apply(f"r{number},remove,{number}\n".encode())
            demand(got.out == f"r{number},ok,0,0\n".encode(), f"{got}")
        got = run(at.parish, check, page)
        lines = got.out.decode().splitlines()
        demand(got.status == 0 and lines[-1] == "3 rows, 0 wrong, 2 doubtful", f"{got}")


def many_of_a_role(tools):
    """A hundred mentions in one role have a hundred columns, and the table is read back."""
    with Sheet(tools) as at:
        names = [f"Eva {n}" for n in range(1, 100)]
        mentions = ",".join(f"godparent,{name}" for name in names)
        at.with_rows(("a,place,Kent,", "b,place,Ashby,1", "c,source,Register,,,,",
                      f"d,entry,3,BAPTISM,1,1,,,,child,Tom,{mentions}"))
        header, row = at.page()
        demand(header[7:] == ("child", "godparent", *(f"godparent {n}" for n in range(2, 100))), f"{header}")
        demand(row[7:] == ("Tom", *names), f"{row}")


def no_formula(tools):
    """No cell begins as a formula does, whatever the texts of an archive are."""
    with Sheet(tools) as at:
        marks = "=+-@"
        at.with_rows((*(f'p{n},person,"{mark}1 /Lee/",F' for n, mark in enumerate(marks)), "c,source,Register,,,,",
                      *(f'e{n},entry,5,BURIAL,"{mark}x",{n + 1},,,"{mark}y",buried,"{mark}z"'
                        for n, mark in enumerate(marks))))
        for words in (("list", "persons"), ("list", "entries"), ("list", "entries", "--source", "5"), ("review",)):
            for row in at.rows(*words):
                demand(not any(cell.startswith(tuple("=+-@\t\r")) for cell in row), f"{words}: {row}")
        names = [row[-1] for row in at.page(source="5")[1:]]
        demand(names == [f"'{mark}z" for mark in marks], f"{names}")


def no_archive_no_rows(tools):
    with Sheet(tools) as at:
        for words in (("list", "persons"), ("find", "ann"), ("review",)):
            expect(run(at.parish, (words[0], at.file, *words[1:], "--csv")), refused(82))


TESTS = (
    lists_and_searches,
    doubts,
    bytes_of_rows,
    a_page,
    a_page_is_read_back,
    many_of_a_role,
    no_formula,
    no_archive_no_rows,
)


def cases(tools: Tools):
    for test in TESTS:
        yield Case(f"rows of lists: {test.__name__.replace('_', ' ')}", lambda test=test: test(tools))
