"""`list`, `find` and `show` by the executable: which records there are, and what is printed of each, with nothing
masked. What is expected was written by hand from docs/FORMATS.md."""

from __future__ import annotations

import os
import sqlite3

from ends import each_growth_refused, left_by_its_reader, refused_as_no_archive
from harness import Case, Tools, demand, expect, pipe_without_reader, refused, run, unopened, written
from imports import Imported
from table.making import between

# Rows of a new archive, which are its records 1 to 12. The event 7 is the birth of somebody who may be living.
ROWS = (
    "a,person,Ann /Müller/,F", "b,person,Tom /O’Neil/,M", "c,person,Jean /van der Berg/,", "d,family,2,1",
    "e,child,4,3", "f,place,Kent,", "g,place,Ashby,5", "h,event,3,BIRT,,3 MAR 2015,6", "i,event,4,MARR,,,",
    "j,repo,Müller Archive", "k,source,Register of Ashby,Rev. Lee,,9,R 7", "l,citation,7,10,f. 3,2",
    'm,entry,10,BURIAL,f. 3,4,1 MAY 1860,6,"Ann of Ashby\nburied",buried,Ann Müller,spouse,Tom',
    "n,link,12,1,1,same farm", "o,participant,7,2,witness",
)
LINES = {
    1: "person  Ann Müller",
    2: "person  Tom O’Neil",
    3: "person  Jean van der Berg",
    4: "family  husband 2  wife 1  child 3",
    5: "place  Kent",
    6: "place  Ashby",
    7: "event  BIRT  3 MAR 2015  of 3",
    8: "event  MARR  of 4",
    9: "repository  Müller Archive",
    10: "source  Register of Ashby",
    11: "citation  of 7  source 10, page f. 3",
    12: "entry  source 10  page f. 3  no. 4  BURIAL  1 MAY 1860",
}
# Of each record its fields, the numbers that they name, and the numbers of the records that name it.
SHOWN = {
    1: ("name: Ann /Müller/\nsex: F\n", (), (4, 12)),
    2: ("name: Tom /O’Neil/\nsex: M\n", (), (4, 7)),
    3: ("name: Jean /van der Berg/\n", (), (4, 7)),
    4: ("husband: 2\nwife: 1\nchild: 3\n", (2, 1, 3), (8,)),
    5: ("name: Kent\n", (), (6,)),
    6: ("name: Ashby\nwithin: 5\n", (5,), (7, 12)),
    7: ("of: 3\ntag: BIRT\nvalue: \ndate: 3 MAR 2015\nplace: 6\nwith: 2\nrole: witness\n", (3, 6, 2), (11,)),
    8: ("of: 4\ntag: MARR\nvalue: \n", (4,), ()),
    9: ("name: Müller Archive\n", (), (10,)),
    10: ("title: Register of Ashby\nauthor: Rev. Lee\nrepository: 9\ncall number: R 7\n", (9,), (11, 12)),
    11: ("of: 7\nsource: 10\npage: f. 3\nquality: 2\n", (7, 10), ()),
    12: ("source: 10\nkind: BURIAL\npage: f. 3\nitem: 4\ndate: 1 MAY 1860\nplace: 6\ntext: Ann of Ashby buried\n"
         "buried: Ann Müller\nperson: 1\nreason: same farm\nspouse: Tom\n", (10, 6, 1), ()),
}
# The owner of each event and citation, and what is shown of it with that one.
OWNERS = {7: 3, 8: 4, 11: 7}
DETAILS = {
    7: "  place: 6  place  Ashby\n  with: 2  person  Tom O’Neil\n  role: witness\n",
    8: "",
    11: "  source: 10  source  Register of Ashby\n  quality: 2\n",
}
LISTED = (
    (("persons",), (1, 2, 3)),
    (("families",), (4,)),
    (("events",), (7, 8)),
    (("places",), (5, 6)),
    (("repositories",), (9,)),
    (("sources",), (10,)),
    (("citations",), (11,)),
    (("entries",), (12,)),
    (("others",), ()),
    (("persons", "--after", "0"), (1, 2, 3)),
    (("persons", "--after", "1"), (2, 3)),
    (("persons", "--after", "3"), ()),
    (("persons", "--after", "4294967295"), ()),
    (("persons", "--limit", "2"), (1, 2)),
    (("persons", "--limit", "3"), (1, 2, 3)),
    (("persons", "--limit", "4294967295"), (1, 2, 3)),
    (("persons", "--after", "1", "--limit", "1"), (2,)),
    (("entries", "--source", "10"), (12,)),
    (("entries", "--source", "9"), ()),
    (("entries", "--source", "10", "--after", "12"), ()),
)
FOUND = (
    (("muller",), (1, 9, 12)),
    (("Müller",), (1, 9, 12)),
    (("MU\u0308LLER",), (1, 9, 12)),
    (("mull",), (1, 9, 12)),
    (("uller",), ()),
    (("ann", "muller"), (1, 12)),
    (("muller", "ann"), (1, 12)),
    (("ann muller",), (1, 12)),
    (("muller", "archive"), (9,)),
    (("oneil",), (2,)),
    (("neil",), (2,)),
    (("O'Neil",), (2,)),
    (("tom",), (2, 12)),
    (("berg",), (3,)),
    (("van", "berg"), (3,)),
    (("ashby",), (6, 10)),
    (("of", "register"), (10,)),
    (("lee",), ()),
    (("burial",), ()),
    (("muller", "--kind", "persons"), (1,)),
    (("muller", "--kind", "repositories"), (9,)),
    (("muller", "--kind", "entries"), (12,)),
    (("muller", "--kind", "families"), ()),
    (("muller", "--limit", "3"), (1, 9, 12)),
    (("muller", "--limit", "4294967295"), (1, 9, 12)),
    (("muller", "--kind", "entries", "--limit", "1"), (12,)),
)
# Searches whose limit leaves some out, and how many.
FOUND_IN_PART = (
    (("muller", "--limit", "2"), (1, 9), 1),
    (("muller", "--limit", "1"), (1,), 2),
    (("ann", "muller", "--limit", "1"), (1,), 1),
    (("tom", "--kind", "persons", "--limit", "1"), (2,), 0),
)
# A file whose records are 1 to 3 of a new archive, with lines that no field takes.
CARRIED = between("0 @I1@ INDI", "1 NAME Ann /Lee/", "2 NICK Annie", "1 ASSO @I2@", "2 RELA aunt", "0 @I2@ INDI",
                  "0 OBJE @I1@", "1 FILE a.png")
CARRIED_SHOWN = {
    1: "1  person  Ann Lee\nname: Ann /Lee/\n2 NICK Annie\n1 ASSO @2@\n2 RELA aunt\nnamed by: 3  other  OBJE\n",
    2: "2  person  ?\nnamed by: 1  person  Ann Lee\n",
    3: "3  other  OBJE\ntag: OBJE\nvalue: 1\n1 FILE a.png\n",
}
NO_NUMBERS = ("0", "x", "", "4294967296", "1.0", "-1", "99999999999")
NO_REFERENCES = ("@", "@ ", "@a b", "@é", f"@{65 * 'x'}", " @a", "a@")
NO_KINDS = ("people", "Persons", "", "person", "slip", "Slips")
NO_KEYS = ("'", "-", "", " ", "’", "/")
WORDS = (
    ("list",), ("list", "FILE"), ("list", "persons"), ("list", "FILE", "persons", "places"),
    ("find",), ("find", "FILE"), ("show",), ("show", "FILE"),
    ("list", "FILE", "persons", "--today", "2024-01-01"),
    ("list", "FILE", "persons", "--limit", "1", "--limit", "2"),
    ("list", "FILE", "persons", "--source", "10"),
    ("list", "FILE", "persons", "--csv", "yes"), ("show", "FILE", "1", "--csv"),
    ("find", "FILE", "ann", "--after", "1"),
    *(("list", "FILE", kind) for kind in NO_KINDS),
    *(("find", "FILE", "ann", "--kind", kind) for kind in (*NO_KINDS, "slips")),
    ("list", "FILE", "slips", "--source", "10"),
    *(("list", "FILE", "persons", "--limit", number) for number in NO_NUMBERS),
    *(("list", "FILE", "persons", "--after", number) for number in NO_NUMBERS[1:]),
    *(("list", "FILE", "entries", "--source", number) for number in (*NO_NUMBERS, *NO_REFERENCES)),
    ("list", "FILE", "persons", "--source", "@k"), ("list", "FILE", "persons", "--after", "@a"),
    *(("find", "FILE", "ann", "--limit", number) for number in NO_NUMBERS),
    *(("find", "FILE", word) for word in NO_KEYS),
    *(("find", "FILE", "ann", word) for word in NO_KEYS),
    *(("show", "FILE", number) for number in (*NO_NUMBERS, *NO_REFERENCES)),
    *(("show", "FILE", "1", number) for number in (*NO_NUMBERS, *NO_REFERENCES)),
)


def line(number):
    return f"{number}  {LINES[number]}\n"


def listed(numbers):
    return written("".join(map(line, numbers)).encode())


def said_of(more):
    return f"and {more} more\n" if more else ""


def whole(number):
    fields, names, named_by = SHOWN[number]
    namers = (f"named by: {line(n)}{DETAILS[n] if OWNERS.get(n) == number else ''}" for n in named_by)
    return line(number) + fields + "".join(f"names: {line(n)}" for n in names) + "".join(namers)


class Listed(Imported):
    """A folder with an archive that is looked over by whoever keeps it."""

    def list(self, *words, **how):
        return run(self.parish, ("list", self.file, *words), b"", **how)

    def find(self, *words, **how):
        return run(self.parish, ("find", self.file, *words), b"", **how)

    def show(self, *numbers, **how):
        return run(self.parish, ("show", self.file, *map(str, numbers)), b"", **how)

    def persons(self, **how):
        return self.list("persons", **how)

    def anns(self, **how):
        return self.find("ann", **how)

    def first(self, **how):
        return self.show(1, **how)


def lists_by_hand(tools):
    with Listed(tools) as at:
        before = at.with_rows(ROWS).tables()
        for words, numbers in LISTED:
            expect(at.list(*words), listed(numbers))
        demand(at.tables() == before, "the tables changed")


def searches_by_hand(tools):
    with Listed(tools) as at:
        before = at.with_rows(ROWS).tables()
        for words, numbers in FOUND:
            expect(at.find(*words), listed(numbers))
        for words, numbers, more in FOUND_IN_PART:
            expect(at.find(*words), written(f"{''.join(map(line, numbers))}{said_of(more)}".encode()))
        demand(at.tables() == before, "the tables changed")


def records_by_hand(tools):
    with Listed(tools) as at:
        before = at.with_rows(ROWS).tables()
        for number in LINES:
            expect(at.show(number), written(whole(number).encode()))
        for numbers in ((3, 1), (7, 7), tuple(LINES)):
            expect(at.show(*numbers), written("\n".join(map(whole, numbers)).encode()))
        demand(at.tables() == before, "the tables changed")


def numbers_by_token(tools):
    """The first number of the answer that is stored for the token after `@`; 50 if there is none, and nothing is
    written."""
    with Listed(tools) as at:
        at.with_rows(ROWS)
        batch = "BURIAL,f. 4,1,,,,buried,Ann Lee\nBURIAL,f. 4,2,,,,buried,Tom Lee\n"
        entered = run(tools.parish, ("entries", at.file, "--source", "10", "--token", 64 * "b"), batch.encode())
        expect(entered, written(b"made 2 entries, first 13\n"))
        answers = at.apply(b"@,sex,1,F\nx,event,99,BIRT,,,\n").out
        demand(answers == b"@,ok,0,0\nx,refused,50,NoSuch\n", f"{answers!r}")
        before = at.tables()
        for token, number in (("a", 1), ("f", 5), ("g", 6), ("l", 11)):
            expect(at.show(f"@{token}"), written(whole(number).encode()))
        expect(at.show("@c", 1, "@a"), written("\n".join(map(whole, (3, 1, 1))).encode()))
        first = "13  entry  source 10  page f. 4  no. 1  BURIAL\n"
        demand(at.show(f"@{64 * 'b'}").out.startswith(first.encode()), "the first of a batch")
        expect(at.list("entries", "--source", "@k", "--limit", "1"), listed((12,)))
        expect(at.list("entries", "--source", "@j"), listed(()))
        for word in ("@@", "@x", "@none", "@A", "@e", f"@{64 * 'a'}"):
            expect(at.show(word), refused(50))
            expect(at.show(1, word), refused(50))
            expect(at.show(word, 1), refused(50))
            expect(at.list("entries", "--source", word), refused(50))
            expect(at.list("entries", "--source", word, "--csv"), refused(50))
        demand(at.tables() == before, "the tables changed")


def events_and_citations_of_a_person(tools):
    """What their lines leave out is below them, if there is any."""
    with Listed(tools) as at:
        at.with_rows(('a,person,Ann /Lee/,F', 'b,event,1,RESI,"farm\nby the mill",,', "c,source,Book,,,,",
                      "d,citation,1,3,,", "e,citation,2,3,p. 9,0", "f,event,1,BAPM,,1761,", "g,participant,6,1,"))
        book = "  source: 3  source  Book\n"
        expect(at.show(1), written((
            "1  person  Ann Lee\nname: Ann /Lee/\nsex: F\n"
            "named by: 2  event  RESI  of 1\n  value: farm by the mill\n"
            f"named by: 4  citation  of 1  source 3\n{book}"
            "named by: 6  event  BAPM  1761  of 1\n  with: 1  person  Ann Lee\n  role: \n").encode()))
        expect(at.show(2), written((
            "2  event  RESI  of 1\nof: 1\ntag: RESI\nvalue: farm by the mill\nnames: 1  person  Ann Lee\n"
            f"named by: 5  citation  of 2  source 3, page p. 9\n{book}  quality: 0\n").encode()))
        expect(at.show(3), written((
            "3  source  Book\ntitle: Book\nnamed by: 4  citation  of 1  source 3\n"
            "named by: 5  citation  of 2  source 3, page p. 9\n").encode()))


def lines_that_no_field_takes(tools):
    with Listed(tools) as at:
        expect(at.made().import_(CARRIED), written(b"imported 3 records, first 1\n"))
        for number, text in CARRIED_SHOWN.items():
            expect(at.show(number), written(text.encode()))
        expect(at.list("others"), written(b"3  other  OBJE\n"))


def nobody_is_masked(tools):
    """A sheet of the same person on the same day says no name."""
    with Listed(tools) as at:
        at.with_rows(ROWS)
        sheet = run(tools.parish, ("sheet", at.file, "person", "3", "--today", "2024-01-01"))
        demand(b"Name: Living\n" in sheet.out and b"Jean" not in sheet.out, f"{sheet}")
        expect(at.find("jean"), listed((3,)))
        expect(at.show(3), written(whole(3).encode()))


def characters_that_are_not_printed(tools):
    """Control characters, and those that turn the direction of a text, are spaces; a line is one line."""
    with Listed(tools) as at:
        at.with_rows(('a,person,"Ann\nB. /Lee/",', "b,source,A\u202eB\tC\u2069D\x7fE\x85F,,,,"))
        expect(at.list("persons"), written(b"1  person  Ann B. Lee\n"))
        expect(at.list("sources"), written(b"2  source  A B C D E F\n"))
        expect(at.show(1), written(b"1  person  Ann B. Lee\nname: Ann B. /Lee/\n"))
        expect(at.show(2), written(b"2  source  A B C D E F\ntitle: A B C D E F\n"))


def an_archive_without_records(tools):
    with Listed(tools) as at:
        at.made()
        expect(at.persons(), written(b""))
        expect(at.anns(), written(b""))
        expect(at.first(), refused(50))


def page_by_page(tools):
    """Each page begins after the last number of the one before; all of them together are the whole list."""
    with Listed(tools) as at:
        at.with_rows(tuple(row for n in range(700) for row in (f"p{n},person,Ann /Lee{n % 7}/,", f"q{n},place,Ashby,")))
        whole_list, got, after = at.persons().out, b"", 0
        demand(whole_list == b"".join(b"%d  person  Ann Lee%d\n" % (2 * n + 1, n % 7) for n in range(700)), "the list")
        while page := at.list("persons", "--after", str(after), "--limit", "300").out:
            demand(page.count(b"\n") <= 300, "a page is too long")
            after, got = int(page.splitlines()[-1].split()[0]), got + page
        demand(got == whole_list, "the pages are not the list")
        numbers = [int(it.split()[0]) for it in at.find("lee3").out.splitlines()]
        demand(numbers == [2 * n + 1 for n in range(3, 700, 7)], f"{numbers}")


def more_than_a_thousand(tools):
    """`find` prints 1,000 lines, or as many as its limit says, and how many more there are; `list` prints all."""
    with Listed(tools) as at:
        at.with_rows(tuple(row for n in range(1_001) for row in (f"p{n},person,Ann /Lee/,", f"q{n},place,Lee Green,")))
        persons = [f"{2 * n + 1}  person  Ann Lee\n" for n in range(1_001)]
        both = [line for n in range(1_001) for line in (persons[n], f"{2 * n + 2}  place  Lee Green\n")]
        for words, lines, limit in (
            (("ann",), persons, 1_000), (("lee",), both, 1_000), (("lee", "--kind", "persons"), persons, 1_000),
            (("lee", "--limit", "1001"), both, 1_001), (("ann", "--limit", "1001"), persons, 1_001),
            (("lee", "--limit", "5000"), both, 5_000), (("lee", "--limit", "7"), both, 7),
        ):
            expected = "".join(lines[:limit]) + said_of(len(lines[limit:]))
            expect(at.find(*words), written(expected.encode()))
        expect(at.persons(), written("".join(persons).encode()))


def what_is_removed_and_merged(tools):
    """50 for what is removed and for who is gone, and nothing is written; a merge is shown by its slip."""
    with Listed(tools) as at:
        at.with_rows(("a,person,Ann /Lee/,F", "b,person,Anna /Lee/,F", "c,place,Kent,"))
        answers = at.apply(b"m,merge,1,2\nr,remove,3\n").out
        demand(answers == b"m,ok,4,1\nr,ok,0,0\n", f"{answers!r}")
        for number in (2, 3, 5, 4_294_967_295):
            expect(at.show(number), refused(50))
            expect(at.show(1, number), refused(50))
            expect(at.show(number, 1), refused(50))
        expect(at.list("persons"), written(b"1  person  Ann Lee\n"))


def a_slip_of_a_merge(tools):
    """Who was merged into whom, the records that changed as they were before, and the person that stays."""
    with Listed(tools) as at:
        at.with_rows(("a,person,Ann /Lee/,F", "b,person,Anna /Lee/,F", "c,person,Tom /Lee/,M", "d,family,3,2",
                      "e,event,1,BIRT,,,"))
        answers = at.apply(b"m,merge,1,2\n").out
        demand(answers == b"m,ok,6,1\n", f"{answers!r}")
        changed = "before: 1  person  Ann Lee\nbefore: 2  person  Anna Lee\nbefore: 4  family  husband 3  wife 2\n"
        end = f"merged: 2\ninto: 1\n{changed}names: 1  person  Ann Lee\n"
        expect(at.show(6), written(f"6  slip  2 into 1\n{end}".encode()))
        expect(at.show(6, "@m"), written(f"6  slip  2 into 1\n{end}\n6  slip  2 into 1\n{end}".encode()))
        expect(at.show(2), refused(50))
        expect(at.show(6, 2), refused(50))
        answers = at.apply(b"u,undo,6\n").out
        demand(answers == b"u,ok,0,0\n", f"{answers!r}")
        before = at.tables()
        expect(at.show(6), written(f"6  slip  2 into 1  undone\n{end}".encode()))
        demand(at.tables() == before, "the tables changed")


def slips_by_number(tools):
    """The slips and no record, by number; those after a number, so many at most; and the archive is as it was."""
    with Listed(tools) as at:
        at.with_rows(("a,person,Ann /Lee/,F", "b,person,Anna /Lee/,F", "c,person,Anne /Lee/,F"))
        expect(at.list("slips"), written(b""))
        answers = at.apply(b"m,merge,1,2\nu,undo,4\nd,place,Kent,\nn,merge,3,2\no,merge,1,3\nr,remove,5\n").out
        demand(answers == b"m,ok,4,1\nu,ok,0,0\nd,ok,5,1\nn,ok,6,1\no,ok,7,1\nr,ok,0,0\n", f"{answers!r}")
        lines = {4: "4  slip  2 into 1  undone\n", 6: "6  slip  2 into 3\n", 7: "7  slip  3 into 1\n"}
        before = at.tables()
        for words, numbers in (
            ((), (4, 6, 7)), (("--after", "0"), (4, 6, 7)), (("--after", "3"), (4, 6, 7)), (("--after", "4"), (6, 7)),
            (("--after", "6"), (7,)), (("--after", "7"), ()), (("--after", "4294967295"), ()), (("--limit", "1"), (4,)),
            (("--limit", "2"), (4, 6)), (("--limit", "4294967295"), (4, 6, 7)),
            (("--after", "4", "--limit", "1"), (6,)),
        ):
            expect(at.list("slips", *words), written("".join(lines[n] for n in numbers).encode()))
        for number, text in lines.items():
            demand(at.show(number).out.startswith(text.encode()), f"{number}")
        demand(at.tables() == before, "the tables changed")


def words_that_are_refused(tools):
    """Status 2 with a text on standard error; no file is made or opened."""
    with Listed(tools) as at:
        for words in WORDS:
            got = run(tools.parish, [at.file if word == "FILE" else word for word in words])
            demand((got.status, got.out) == (2, b"") and got.err != b"", f"{words}: {got}")
        demand(not os.listdir(at.path), "a file was made")


def no_archive(tools):
    refused_as_no_archive(Listed, tools, Listed.persons, Listed.anns, Listed.first)


def lines_of_no_record(tools):
    """40 where somebody else has spoilt a record that is looked at, and nothing is written; others are shown."""
    with Listed(tools) as at:
        at.with_rows(ROWS).other_database("UPDATE line SET text = 'frob' WHERE no = 2")
        expect(at.persons(), refused(40))
        expect(at.anns(), refused(40))
        expect(at.show(2), refused(40))
        expect(at.show(5, 2), refused(40))
        expect(at.show(5), written(whole(5).encode()))


def a_spoilt_kind(tools):
    """A record of which somebody else has spoilt the word of its kind is in no list; `audit` and `show` refuse it."""
    with Listed(tools) as at:
        persons = [n for n in LINES if LINES[n].startswith("person")]
        at.with_rows(ROWS).other_database("UPDATE line SET tag = 'frob' WHERE no = 2")
        expect(at.persons(), listed([n for n in persons if n != 2]))
        expect(at.show(2), refused(40))
        expect(run(at.parish, ("audit", at.file), b""), refused(40))


def outputs_that_fail(tools):
    """95: a full device, and readers that left or leave in the middle; the archive is as it was."""
    with Listed(tools) as at:
        long = "x" * 4_000
        rows = (f"e{n},event,1,RESI,{long},{1700 + n}," for n in range(200))
        before = at.with_rows((f"a,person,Ann {long},F", *rows)).tables()
        numbers = range(1, 202)
        text = at.show(*numbers).out
        demand(len(text) > 800_000, f"{len(text)} bytes")
        for call in (at.persons, at.anns, at.first):
            with open("/dev/full", "wb") as full:
                expect(call(stdout=full), refused(95))
            with pipe_without_reader() as writing:
                expect(call(stdout=writing), refused(95))
        words = ["show", at.file, *map(str, numbers)]
        demand(text.startswith(left_by_its_reader([*at.parish, *words])), "no beginning")
        expect(at.show(*numbers), written(text))
        demand(at.tables() == before, "the tables changed")


def refused_memory(tools):
    """1, or 80 where the database wanted it, after a beginning; and the archive is as it was."""
    with Listed(tools) as at:
        before = at.with_rows(ROWS).tables()
        each_growth_refused(at, at.persons, at.anns, lambda **how: at.show(12, 7, **how))
        demand(at.tables() == before, "the tables changed")


def another_program_has_it(tools):
    with Listed(tools) as at:
        at.with_rows(ROWS)
        conn = sqlite3.connect(at.file, isolation_level=None)
        try:
            conn.execute("BEGIN EXCLUSIVE")
            for call in (at.persons, at.anns, at.first):
                expect(call(), unopened("another program"))
        finally:
            conn.close()
        expect(at.persons(), listed((1, 2, 3)))


TESTS = (
    lists_by_hand,
    searches_by_hand,
    records_by_hand,
    events_and_citations_of_a_person,
    numbers_by_token,
    lines_that_no_field_takes,
    nobody_is_masked,
    characters_that_are_not_printed,
    an_archive_without_records,
    page_by_page,
    more_than_a_thousand,
    what_is_removed_and_merged,
    a_slip_of_a_merge,
    slips_by_number,
    words_that_are_refused,
    no_archive,
    lines_of_no_record,
    a_spoilt_kind,
    outputs_that_fail,
    refused_memory,
    another_program_has_it,
)


def cases(tools: Tools):
    for test in TESTS:
        yield Case(f"lists: {test.__name__.replace('_', ' ')}", lambda test=test: test(tools))
