"""`entries --table` by the executable: what of a table of register entries is entered, and with `--check` what is wrong
or doubtful in it. What is expected was written by hand from docs/FORMATS.md."""

from __future__ import annotations

import hashlib
import os
import tempfile

from archives import lines
from ends import refused_as_no_archive
from failing import compiled, failing
from harness import Case, Outcome, Tools, demand, expect, hint_of, named, refused, run, written
from lists import NO_NUMBERS, NO_REFERENCES, Listed

# Rows of a new archive, which are its records 1 to 5.
ROWS = (
    "a,place,Kent,", "b,place,Ashby,1", "c,source,Register,,,,", "d,entry,3,BURIAL,7,1,,,,buried,Ann Lee",
    "e,person,Ann /Lee/,F",
)
HEADER = "Kind,Page,Item,Date,Place,Text,Buried,Father of Groom,#own,\n"
LONG = "x\n" * 20 + "x"
# A row below the header, and what is found in it, without `row 2: `.
FOUND = (
    ("burial,8,1,6 MAY 1761,2,a text,Ann Lee", ()),
    ("BURIAL,8,999999,1761.0,,,Ann Lee,,own", ()),
    ("birth,8,1,,,,Ann", ("90 BadRow: Kind: birth",)),
    ("BURIAL,8,1a,,,,Ann", ("90 BadRow: Item: 1a",)),
    ("BURIAL,8,0,,,,Ann", ("90 BadRow: Item: 0",)),
    ('BURIAL,8,"1,0",,,,Ann', ()),
    ("BURIAL,8,1,5/6/1761,,,Ann", ("90 BadRow: Date: 5/6/1761",)),
    ("BURIAL,8,1,15-Apr-10,,,Ann", ("90 BadRow: Date: 15-Apr-10",)),
    ("BURIAL,8,1,1761-02-30,,,Ann", ("90 BadRow: Date: 1761-02-30",)),
    ("BURIAL,8,1,at harvest,,,Ann", ("doubt: Date: words: at harvest",)),
    ("BURIAL,8,1,#REF!,,,Ann", ("90 BadRow: Date: #REF!",)),
    ("BURIAL,,1,,,,Ann", ("doubt: Page: no page",)),
    ("BURIAL,12.0,1,,,,Ann", ("doubt: Page: page: 12.0",)),
    ("BURIAL,5-Mar,1,,,,Ann", ("doubt: Page: page: 5-Mar",)),
    ("BURIAL,8,1,,2.0,,Ann", ()),
    ("BURIAL,8,1,,9,,Ann", ("50 NoSuch: Place: 9",)),
    ("BURIAL,8,1,,3,,Ann", ("51 WrongKind: Place: 3",)),
    ("BURIAL,8,1,,@b,,Ann", ()),
    ("BURIAL,8,1,,@c,,Ann", ("51 WrongKind: Place: @c",)),
    ("BURIAL,8,1,,@none,,Ann", ("50 NoSuch: Place: @none",)),
    ('BURIAL,8,1,,"Ashby, Kent",,Ann', ()),
    ('BURIAL,8,1,,"Ashby, Surrey",,Ann', ("50 NoSuch: Place: Ashby, Surrey",)),
    (f'BURIAL,8,1,,,"{LONG}",Ann', ("doubt: Text: long: " + LONG.replace("\n", " "),)),
    ("BURIAL,8,1,,,,", ("92 FieldCount",)),
    ("BURIAL,8,1,,,,Ann,Tom", ("62 NotOfKind: Father of Groom: Tom",)),
    ("BURIAL,8,1,,,,Ann,,,x", ("97 UnknownColumn: x",)),
    ("BURIAL,8,1,,,,Ann,,,,y", ("92 FieldCount: y",)),
    ("BURIAL,7,1,,,,Ann", ("60 DuplicateEntry: BURIAL 7 1",)),
    ("BURIAL,,0,once,Ashby,,", (
        "doubt: Page: no page", "90 BadRow: Item: 0", "doubt: Date: words: once", "50 NoSuch: Place: Ashby",
        "92 FieldCount")),
)
NO_PATH = "  no place has this path; --make-places makes it\n"
NOT_UTF8 = '  save the sheet as "CSV UTF-8", or say --from 1252\n'
# A row with letters that are not ASCII, its bytes in each character set of --from, and where other letters are read of
# them, these. The bytes of ANSEL and the tables of code pages are those of the standards that FORMATS.md names.
FOREIGN = "BURIAL,8,1,,Füßen,André,Zoë\n"
IN_SETS = (
    ("1252", b"BURIAL,8,1,,F\xfc\xdfen,Andr\xe9,Zo\xeb\n"),
    ("437", b"BURIAL,8,1,,F\x81\xe1en,Andr\x82,Zo\x89\n"),
    ("850", b"BURIAL,8,1,,F\x81\xe1en,Andr\x82,Zo\x89\n"),
    ("macintosh", b"BURIAL,8,1,,F\x9f\xa7en,Andr\x8e,Zo\x91\n"),
    ("ansel", b"BURIAL,8,1,,F\xe8u\xcfen,Andr\xe2e,Zo\xe8e\n"),
    ("utf-8", FOREIGN.encode()),
    ("utf-8", b"BURIAL,8,1,,F\xc3\xbc\xdfen,Andr\xe9,Zo\xc3\xab\n"),
    ("utf-16le", FOREIGN.encode("utf-16-le")),
    ("utf-16be", FOREIGN.encode("utf-16-be")),
)
# Inputs that are no table, and what standard error gets.
UNREAD = (
    (b"", "98 MissingColumn at row 1\n  the column is missing: kind\n"),
    (b"kind,page,buried\n", "98 MissingColumn at row 1\n  the column is missing: item\n"),
    (b"kind,page,item,Godfather\n", "97 UnknownColumn at row 1\n  no such column: Godfather\n"
     "  there are kind, page, item, date, place, text and roles, like godparent 2\n"),
    (b"kind,page,item,P\xc3\xa4te\x1b\n", "97 UnknownColumn at row 1\n  no such column: P\u00e4te \n"
     "  there are kind, page, item, date, place, text and roles, like godparent 2\n"),
    (b"kind,page,item, PAGE\n", "97 UnknownColumn at row 1\n  the column stands twice: PAGE\n"),
    (b"kind,page,item,buried\nBURIAL,8,1,Ann\n\nBURIAL,8,2,Andr\xe9\n",
     "90 BadRow at row 4\n" + NOT_UTF8),
    (b"\xff\xfe" + "kind,page,item,buried\nBURIAL,8,1,Ann\n".encode("utf-16-le")[:-1],
     "90 BadRow at row 1\n" + NOT_UTF8),
    (b"\xfe\xff" + "kind,page,item,buried\nBURIAL,8,1,Ann ".encode("utf-16-be") + b"\xd8\x00",
     "90 BadRow at row 1\n" + NOT_UTF8),
    (b'kind,page,item,buried\nBURIAL,8,1,Ann\nBURIAL,8,2,"Tom\nBURIAL,8,3,Eva\n',
     "90 BadRow at row 3\n  a quote that begins there is not closed\n"),
)
MOST = 67_108_864


class Checked(Listed):
    def check(self, given, *words, source="3", **how):
        words = ("entries", self.file, "--table", "--check", "--source", source, *words)
        return run(self.parish, words, given, **how)

    def enter(self, given, *words, source="3", token="page-8", **how):
        words = ("entries", self.file, "--table", "--source", source, "--token", token, *words)
        return run(self.parish, words, given, **how)

    def entries(self, rows, token="page-8"):
        return self.batch(lines(rows), "3", token)

    def batch(self, rows, source, token="batch"):
        return run(self.parish, ("entries", self.file, "--source", source, "--token", token), rows)


def page(*rows):
    return (HEADER + "".join(f"{row}\n" for row in rows)).encode()


def found(rows, lines):
    """What is printed of so many rows: these lines, of which each begins with its row, and their sum."""
    doubtful = {line.split(":")[0] for line in lines if ": doubt: " in line}
    wrong = {line.split(":")[0] for line in lines if ": doubt: " not in line}
    out = "".join(f"{line}\n" for line in lines) + f"{rows} rows, {len(wrong)} wrong, {len(doubtful)} doubtful\n"
    return Outcome(out.encode(), b"", 1 if wrong else 0)


def refused_at(number, row, line=""):
    """A refusal of a row, after the line of the cell, with its hint; what is wrong with a cell by itself has none."""
    hint = "" if line and number not in (50, 58) else hint_of(number)
    return Outcome(b"", f"{line}parish: {named(number)} at row {row}\n{hint}".encode(), 1)


def each_cell(tools):
    """What is found in a row; the archive is as it was."""
    with Checked(tools) as at:
        before = at.with_rows(ROWS).tables()
        for row, lines in FOUND:
            got = at.check(page(row))
            demand(got == found(1, [f"row 2: {line}" for line in lines]), f"{row!r}: {got}")
        demand(at.tables() == before, "the tables changed")


def a_page(tools):
    """Rows have the numbers of the sheet, and each is looked at, whatever is wrong with those before it."""
    with Checked(tools) as at:
        before = at.with_rows(ROWS).tables()
        rows = ("BURIAL,8,1,,,,Ann", "", "burial,8,1.0,,9,,Tom", '"BURIAL",8,2,,,"two\nlines",Eva', "x,,,,,,",
                "BURIAL,8,2,once,,,Eva")
        lines = ("row 4: 50 NoSuch: Place: 9", "row 4: 60 DuplicateEntry: BURIAL 8 1", "row 6: 90 BadRow: Kind: x",
                 "row 6: doubt: Page: no page", "row 6: 90 BadRow: Item", "row 6: 92 FieldCount",
                 "row 7: doubt: Date: words: once", "row 7: 60 DuplicateEntry: BURIAL 8 2")
        expect(at.check(page(*rows)), found(5, lines))
        expect(at.check(page()), found(0, ()))
        expect(at.check(page(*rows), "--token", "page-8"), found(5, lines))
        demand(at.tables() == before, "the tables changed")


def orders_of_dates(tools):
    with Checked(tools) as at:
        at.with_rows(ROWS)
        for order, date, is_wrong in (
            ("dmy", "31/12/1761", False), ("dmy", "12/31/1761", True), ("mdy", "12/31/1761", False),
            ("mdy", "31.12.1761", True), ("dmy", "5-6-1761", False), ("dmy", "5/6/61", True),
        ):
            lines = [f"row 2: 90 BadRow: Date: {date}"] if is_wrong else []
            expect(at.check(page(f"BURIAL,8,1,{date},,,Ann"), "--dates", order), found(1, lines))


def what_a_spreadsheet_writes(tools):
    """Other separators, line ends and marks."""
    with Checked(tools) as at:
        at.with_rows(ROWS)
        for given in (
            b"\xef\xbb\xbfkind;page;item;buried\r\nBURIAL;8;1;Ann\r\n",
            b"kind\tpage\titem\tburied\rBURIAL\t8\t1\tAnn\r",
            b"sep=|\nkind|page|item|buried 2\nBURIAL|8|1|Ann",
        ):
            expect(at.check(given), found(1, ()))


def character_sets(tools):
    """A page in each character set is that page in UTF-8, and has its digest; the mark of UTF-16 goes before --from."""
    made = written(b"made 1 entries, first 6\n")
    rows = (*ROWS[:1], "b,place,Füßen,1", *ROWS[2:])
    foreign = FOREIGN.replace("Füßen", '"Füßen, Kent"')
    with Checked(tools) as at:
        at.with_rows(rows)
        expect(at.enter((HEADER + foreign).encode()), made)
        for mark, order in ((b"\xff\xfe", "le"), (b"\xfe\xff", "be")):
            given = mark + (HEADER + foreign).encode(f"utf-16-{order}")
            for words in ((), ("--from", "1252"), ("--from", "utf-8")):
                expect(at.enter(given, *words), made)
                expect(at.check(given, *words), found(1, ["row 2: 60 DuplicateEntry: BURIAL 8 1"]))
    for name, row in IN_SETS:
        wide = name.startswith("utf-16")
        header = HEADER.encode(f"utf-16-{name[-2:]}" if wide else "ascii")
        with Checked(tools) as at, Checked(tools) as plain:
            expect(at.with_rows(rows).check(header + row, "--from", name),
                   found(1, ["row 2: 50 NoSuch: Place: Füßen"]))
            cell, place = "Füßen", "2"
            if wide:
                given = (header + row).replace(cell.encode(f"utf-16-{name[-2:]}"), place.encode(f"utf-16-{name[-2:]}"))
            else:
                given = header + row.replace(row.split(b",")[4], place.encode())
            expect(at.enter(given, "--from", name), made)
            expect(plain.with_rows(rows).enter((HEADER + FOREIGN.replace(cell, place)).encode()), made)
            demand(at.tables() == plain.tables(), f"{name}: the tables are not those of the page in UTF-8")


def no_table(tools):
    """What cannot be read as a table: a refusal with a hint, and nothing on standard output."""
    with Checked(tools) as at:
        before = at.with_rows(ROWS).tables()
        for given, text in UNREAD:
            got = at.check(given)
            demand(got == Outcome(b"", f"parish: {text}".encode(), 1), f"{given!r}: {got}")
        demand(at.tables() == before, "the tables changed")


def refusals(tools):
    """50 and 51 of the source, 40 where somebody else has spoilt it, 95 at a full device, 94 of an input that cannot be
    read, 27 of one that is too large."""
    good = page("BURIAL,8,1,,,,Ann")
    with Checked(tools) as at:
        before = at.with_rows(ROWS).tables()
        expect(at.check(good, source="9"), refused(50))
        expect(at.check(good, source="2"), refused(51))
        with open("/dev/full", "wb") as full:
            expect(at.check(good, stdout=full), refused(95))
        folder = os.open(tempfile.gettempdir(), os.O_RDONLY)
        expect(at.check(b"", stdin=folder), refused(94))
        os.close(folder)
        blank = b"\n" * (MOST + 1 - len(good))
        expect(at.check(good + blank), refused(27))
        demand(at.tables() == before, "the tables changed")
        at.other_database("UPDATE line SET tag = 'frob' WHERE no = 3")
        expect(at.check(good), refused(40))


def no_archive(tools):
    refused_as_no_archive(Checked, tools, lambda at: at.check(page("BURIAL,8,1,,,,Ann")))


def then_entered(tools):
    """What a check has found nothing in is entered by the rows of a batch."""
    with Checked(tools) as at:
        at.with_rows(ROWS)
        expect(at.check(page("BURIAL,8,1,6 MAY 1761,2,,Ann Lee")), found(1, ()))
        words = ("entries", at.file, "--source", "3", "--token", "page-8")
        expect(run(at.parish, words, b"BURIAL,8,1,6 MAY 1761,2,,buried,Ann Lee\n"), written(
            b"made 1 entries, first 6\n"))
        expect(at.check(page("BURIAL,8,1,6 MAY 1761,2,,Ann Lee")), found(1, ["row 2: 60 DuplicateEntry: BURIAL 8 1"]))


# A page, and its rows as `entries` reads them.
GOOD = (
    'burial,8,1.0,1761-05-06,"Ashby , Kent","two\nlines",Ann Lee,,mine', "", "BURIAL,8,2,at harvest,@a,,Tom",
    "MARRIAGE,,1,,2.0,,,Jo",
)
BATCH = (
    'BURIAL,8,1,6 MAY 1761,2,"two\nlines",buried,Ann Lee', "BURIAL,8,2,at harvest,1,,buried,Tom",
    "MARRIAGE,,1,,2,,father-of-groom,Jo",
)
ENTERED = Outcome(b"made 3 entries, first 6\n", b"1 dates have no days but words\n", 0)


def without_digests(at):
    """All rows of all tables, of the receipts all but the digest."""
    tables = at.tables()
    return {**tables, "receipt": [row[:2] + row[3:] for row in tables["receipt"]]}


def entered(tools):
    """A page is entered as its rows are by `entries`, once, and known by what it says."""
    with Checked(tools) as at, Checked(tools) as rows:
        expect(at.with_rows(ROWS).enter(page(*GOOD)), ENTERED)
        expect(rows.with_rows(ROWS).entries(BATCH), written(ENTERED.out))
        demand(without_digests(at) == without_digests(rows), "the tables are not those of the rows")
        expect(at.enter(page(*GOOD)), ENTERED)
        other = b"\xef\xbb\xbf" + page("", *GOOD).replace(b",", b";").replace(b"Ashby ; Kent", b"Ashby, Kent")
        expect(at.enter(other), ENTERED)
        expect(at.enter(page(*GOOD[:1])), refused(52))
        expect(at.entries(BATCH), refused(52))
        expect(rows.enter(page(*GOOD)), refused(52))
        expect(at.enter(page(*GOOD), token="again"), refused_at(60, 2))
        expect(at.enter(page(), token="none"), written(b"made 0 entries, first 9\n"))
        expect(at.enter(page("BURIAL,9,1,5/6/1761,,,Ann"), "--dates", "dmy", token="days"), written(
            b"made 1 entries, first 9\n"))
        gone = lines(("f,remove,6", "g,remove,8", "h,remove,2"))
        expect(at.apply(gone), written(b"f,ok,0,0\ng,ok,0,0\nh,ok,0,0\n"))
        expect(at.enter(page(*GOOD)), ENTERED)


def not_entered(tools):
    """Where a row is refused none is entered; the row has the number of the sheet."""
    with Checked(tools) as at:
        before = at.with_rows(ROWS).tables()
        good = "BURIAL,8,1,,,,Ann"
        for row, outcome in (
            ("BURIAL,8,1a,,,,Ann", refused_at(90, 4, "row 4: 90 BadRow: Item: 1a\n")),
            ("BURIAL,8,2,5/6/1761,,,Ann", refused_at(90, 4, "row 4: 90 BadRow: Date: 5/6/1761\n")),
            ("BURIAL,8,2,,,,,Tom", refused_at(62, 4, "row 4: 62 NotOfKind: Father of Groom: Tom\n")),
            ("BURIAL,8,2,,,,", refused_at(92, 4, "row 4: 92 FieldCount\n")),
            ("BURIAL,8,2,,,,Ann,,,x", refused_at(97, 4, "row 4: 97 UnknownColumn: x\n")),
            ('BURIAL,8,2,,"Ashby, Surrey",,Ann', refused_at(
                50, 4, "row 4: 50 NoSuch: place: Ashby, Surrey\n" + NO_PATH)),
            ("BURIAL,8,2,,@none,,Ann", refused_at(50, 4, "row 4: 50 NoSuch: place: @none\n")),
            ("BURIAL,8,2,,9,,Ann", refused_at(50, 4)),
            ("BURIAL,8,2,,@c,,Ann", refused_at(51, 4)),
            ("BURIAL,8,1.0,,,,Eva", refused_at(60, 4)),
            ("BURIAL,7,1,,,,Ann", refused_at(60, 4)),
        ):
            expect(at.enter(page(good, "", row, "BURIAL,8,3,,,,Jo")), outcome)
        for given, text in UNREAD:
            expect(at.enter(given), Outcome(b"", f"parish: {text}".encode(), 1))
        expect(at.enter(page(good), source="9"), refused(50))
        expect(at.enter(page(good), source="2"), refused(51))
        expect(at.enter(page(good), token="two words"), refused(93))
        expect(at.enter(page(good) + b"\n" * (MOST + 1 - len(page(good)))), refused(27))
        folder = os.open(tempfile.gettempdir(), os.O_RDONLY)
        expect(at.enter(b"", stdin=folder), refused(94))
        os.close(folder)
        demand(at.tables() == before, "the tables changed")
        with open("/dev/full", "wb") as full:
            expect(at.enter(page(good), stdout=full), refused(95))
        expect(at.enter(page(good)), written(b"made 1 entries, first 6\n"))
        at.other_database("UPDATE line SET tag = 'frob' WHERE no = 3")
        expect(at.enter(page(good), token="spoilt"), refused(40))


def sources_by_token(tools):
    """The source given by `@` and a token is the first number of the answer stored for it before; then the page, or the
    rows, are those of the number."""
    given = page("BURIAL,8,1,,,,Ann")
    rows = lines(("BURIAL,9,1,,,,buried,Ann",))
    made, batch = written(b"made 1 entries, first 6\n"), written(b"made 1 entries, first 7\n")
    with Checked(tools) as at, Checked(tools) as by_number:
        at.with_rows(ROWS)
        by_number.with_rows(ROWS)
        expect(at.check(given, source="@c"), found(1, ()))
        for source in ("@c", "3", "@c"):
            expect(at.enter(given, source=source), made)
        for source in ("@c", "3", "@c"):
            expect(at.batch(rows, source), batch)
        expect(by_number.enter(given), made)
        expect(by_number.batch(rows, "3"), batch)
        demand(at.tables() == by_number.tables(), "the tables are not those of the number")
        expect(at.check(given, source="@c"), found(1, ["row 2: 60 DuplicateEntry: BURIAL 8 1"]))
        expect(at.batch(rows, "@c", token="again"), refused_at(60, 1))
        new = page('BURIAL,8,2,,"Hill, Kent",,Eva')
        expect(at.check(new, "--make-places", source="@c"), found(1, ["row 2: doubt: Place: new place: Hill, Kent"]))
        expect(at.enter(new, "--make-places", source="@c", token="hill"), Outcome(
            b"made 1 entries, first 9\n", b"place 8 is new: Hill, Kent\n", 0))
        expect(at.enter(new, source="@page-8", token="other"), refused(51))
        expect(at.batch(rows, "@page-8", token="other"), refused(51))
        expect(at.check(new, source="@page-8"), refused(51))


def no_sources_by_token(tools):
    """50 without a row where nothing is stored for the token, or an answer that made nothing: after the form of the
    rows, and before their places. A word that is no number and no token is refused before the archive is opened."""
    good, wrong = "BURIAL,8,1,,,,Ann", "BURIAL,8,1a,,,,Ann"
    with Checked(tools) as at:
        before = at.with_rows((*ROWS, "n,sex,5,M")).tables()
        for source in ("@none", "@n", "@C", "@page-8"):
            expect(at.check(page(good), source=source), refused(50))
            expect(at.enter(page(good), source=source), refused(50))
            expect(at.enter(page(good), "--make-places", source=source), refused(50))
            expect(at.batch(b"BURIAL,8,1,,,,buried,Ann\n", source), refused(50))
            expect(at.batch(b"", source), refused(50))
            expect(at.enter(page("BURIAL,8,1,,@none,,Ann"), source=source), refused(50))
            expect(at.batch(b"BURIAL,8,1,,@none,,buried,Ann\n", source), refused(50))
            expect(at.check(page(wrong), source=source), refused(50))
            expect(at.enter(page(wrong), source=source), refused_at(90, 2, "row 2: 90 BadRow: Item: 1a\n"))
            expect(at.batch(b"BURIAL,8,1a,,,,buried,Ann\n", source), refused_at(90, 1))
            for given, text in UNREAD:
                for got in (at.check(given, source=source), at.enter(given, source=source)):
                    expect(got, Outcome(b"", f"parish: {text}".encode(), 1))
        for source in (*NO_NUMBERS, *NO_REFERENCES):
            for got in (
                at.check(page(good), source=source), at.enter(page(good), source=source),
                at.batch(b"BURIAL,8,1,,,,buried,Ann\n", source),
            ):
                demand(got.status == 2 and got.out == b"", f"{source!r}: {got}")
        demand(at.tables() == before, "the tables changed")


# Rows whose places are to be made, of an archive of ROWS, and of each the doubts without `row 2: doubt: Place: `.
NEW_PLACES = (
    ('BURIAL,8,1,,"Mill Lane, Ashby, Kent",,Ann', ("new place: Mill Lane, Ashby, Kent",)),
    ("BURIAL,8,1,,ASHBY Kent,,Ann", ("new place: ASHBY Kent", "like: Ashby, Kent")),
    ('BURIAL,8,1,,"Hill, KENT",,Ann', ("new place: KENT", "like: Kent", "new place: Hill, KENT")),
    ('BURIAL,8,1,,"Ashby, Surrey",,Ann', ("new place: Surrey", "new place: Ashby, Surrey")),
    ('BURIAL,8,1,,"Ashby, Kent",,Ann', ()),
    ("BURIAL,8,1,,2,,Ann", ()),
)


def token_of(path, token="page-8"):
    """The token under which a page makes a place."""
    return "p" + hashlib.sha256(f"{token}\n{path}".encode()).hexdigest()[:63]


def new_places(tools):
    """With --check too each place that would be made is a doubt, with those that it is like; nothing is made."""
    with Checked(tools) as at:
        before = at.with_rows(ROWS).tables()
        for row, doubts in NEW_PLACES:
            got = at.check(page(row), "--make-places")
            demand(got == found(1, [f"row 2: doubt: Place: {it}" for it in doubts]), f"{row!r}: {got}")
        rows = ('BURIAL,8,1,,"Mill, Hill, Surrey",,Ann', 'BURIAL,8,2,,"Hill, Surrey",,Tom',
                'BURIAL,8,3,,"Pond, Hill, Surrey",,Eva', 'BURIAL,8,4,,"Lane, , Essex",,Jo', "BURIAL,8,5,,9,,Meg",
                "BURIAL,8,6,,@none,,Ned")
        paths = {2: ("Surrey", "Hill, Surrey", "Mill, Hill, Surrey"), 4: ("Pond, Hill, Surrey",), 5: ("Essex",)}
        new = {row: [f"row {row}: doubt: Place: new place: {it}" for it in its] for row, its in paths.items()}
        expect(at.check(page(*rows), "--make-places"), found(6, (
            *new[2], *new[4], "row 5: 58 BadText: Place: Lane, , Essex", *new[5], "row 6: 50 NoSuch: Place: 9",
            "row 7: 50 NoSuch: Place: @none")))
        demand(at.tables() == before, "the tables changed")


def places_made(tools):
    """The places of a page are made as by rows of `place`, the larger first, and then the page is entered, once."""
    given = ('BURIAL,8,1,,"Mill, Hill, Kent",,Ann', 'BURIAL,8,2,,"Hill, Kent",,Tom', "BURIAL,8,3,,Surrey,,Eva",
             'BURIAL,8,4,,"Ashby, Kent",,Jo')
    made = "made 4 entries, first 9\n".encode()
    paths = {6: "Hill, Kent", 7: "Mill, Hill, Kent", 8: "Surrey"}
    said = "".join(f"place {n} is new: {path}\n" for n, path in paths.items())
    with Checked(tools) as at, Checked(tools) as rows:
        expect(at.with_rows(ROWS).enter(page(*given), "--make-places"), Outcome(made, said.encode(), 0))
        places = (f"{token_of('Hill, Kent')},place,Hill,1", f"{token_of('Mill, Hill, Kent')},place,Mill,6",
                  f"{token_of('Surrey')},place,Surrey,")
        demand(rows.with_rows(ROWS).apply(lines(places)).status == 0, "the rows of places are not taken")
        expect(rows.enter(page(*given)), written(made))
        demand(at.tables() == rows.tables(), "the tables are not those of the rows")
        expect(at.enter(page(*given), "--make-places"), written(made))
        expect(at.enter(page(*given)), written(made))
        expect(at.enter(page(*given[:2]), "--make-places"), refused(52))
        expect(at.enter(page("BURIAL,9,1,,Kent,,Ann"), "--make-places", token="more"), written(
            b"made 1 entries, first 13\n"))
        demand(at.tables() != rows.tables(), "the tables did not change")


def no_places_made(tools):
    """Where a row is refused no place is made."""
    new = 'BURIAL,8,1,,"Mill, Surrey",,Ann'
    with Checked(tools) as at:
        before = at.with_rows(ROWS).tables()
        for row, outcome in (
            ("BURIAL,8,1a,,,,Ann", refused_at(90, 3, "row 3: 90 BadRow: Item: 1a\n")),
            ("BURIAL,8,2,,9,,Ann", refused_at(50, 3)),
            ("BURIAL,8,2,,@none,,Ann", refused_at(50, 3, "row 3: 50 NoSuch: place: @none\n")),
            ("BURIAL,8,1,,,,Eva", refused_at(60, 3)),
            ("BURIAL,7,1,,,,Eva", refused_at(60, 3)),
            ('BURIAL,8,2,,"Lane, , Kent",,Ann', refused_at(58, 3, "row 3: 58 BadText: place: Lane, , Kent\n")),
        ):
            expect(at.enter(page(new, row), "--make-places"), outcome)
        expect(at.enter(page(new), "--make-places", source="9"), refused(50))
        expect(at.enter(page(new), "--make-places", source="2"), refused(51))
        demand(at.tables() == before, "the tables changed")
        expect(at.enter(page(new)), refused_at(50, 2, "row 2: 50 NoSuch: place: Mill, Surrey\n" + NO_PATH))


def places_made_again(tools):
    """Where a run was stopped after the first places it makes the others."""
    given = page('BURIAL,8,1,,"Mill, Surrey",,Ann')
    with Checked(tools) as at:
        first = lines((f"{token_of('Surrey')},place,Surrey,",))
        demand(at.with_rows(ROWS).apply(first).status == 0, "the row of the place is not taken")
        expect(at.enter(given, "--make-places"), Outcome(
            b"made 1 entries, first 8\n", b"place 7 is new: Mill, Surrey\n", 0))


def stopped_among_places(tools):
    """Where a call on the file or its log fails, and all after it: the first of the places are there, after all of them
    perhaps the page, and nothing else; given again, the page is entered."""
    given = page('BURIAL,8,1,,"Mill, Hill, Surrey",,Ann')
    names = (("Surrey", "Surrey", ""), ("Hill, Surrey", "Hill", 6), ("Mill, Hill, Surrey", "Mill", 7))
    states = []
    with Checked(tools) as at:
        states.append(at.with_rows(ROWS).tables())
        for path, name, parent in names:
            demand(at.apply(lines((f"{token_of(path)},place,{name},{parent}",))).status == 0, f"{path} is not taken")
            states.append(at.tables())
        expect(at.enter(given), written(b"made 1 entries, first 9\n"))
        states.append(at.tables())
    found = set()
    with tempfile.TemporaryDirectory() as folder:
        library = compiled(folder)
        for end in ("", "-wal"):
            for passed in range(0, 4_000, 5):
                with Checked(tools) as at:
                    at.with_rows(ROWS)
                    mark = os.path.join(at.path, "mark")
                    stopping = failing(library, os.path.realpath(at.file) + end, passed, mark)
                    got = at.enter(given, "--make-places", env=stopping)
                    if not os.path.exists(mark):
                        break
                    demand(got.status in (0, 1) and (got.out == b"") == (got.status == 1), f"{passed}: {got}")
                    run(at.parish, ("audit", at.file))
                    found.add(states.index(at.tables()))
                    demand(at.enter(given, "--make-places").out == b"made 1 entries, first 9\n", f"{passed}: not again")
                    demand(at.tables() == states[-1], f"{passed}: given again it leaves something else")
    demand({0, 1, 2} <= found, f"it was stopped only after {sorted(found)} requests")


def in_no_archive(tools):
    refused_as_no_archive(Checked, tools, lambda at: at.enter(page("BURIAL,8,1,,,,Ann Lee")))


TESTS = (
    each_cell,
    a_page,
    orders_of_dates,
    what_a_spreadsheet_writes,
    character_sets,
    no_table,
    refusals,
    no_archive,
    then_entered,
    entered,
    not_entered,
    sources_by_token,
    no_sources_by_token,
    new_places,
    places_made,
    no_places_made,
    places_made_again,
    stopped_among_places,
    in_no_archive,
)


def cases(tools: Tools):
    for test in TESTS:
        yield Case(f"tables: {test.__name__.replace('_', ' ')}", lambda test=test: test(tools))
