"""`history` by the executable (docs/FORMATS.md, "Lists and records"): what a record was and is, and the rows that put
it back, by hand; and on drawn archives these rows are sent, after which the record is as it was.
"""

from __future__ import annotations

import csv
import functools
import io
import re
import shutil
import sqlite3
from collections.abc import Iterator

from archives import lines
from ends import each_growth_refused, left_by_its_reader
from harness import Case, Tools, demand, expect, pipe_without_reader, refused, run, unopened, written
from imports import Imported
from past_values import drawn
from table.making import between

PAST = "SELECT id, token FROM past WHERE no = ? ORDER BY id"
NUMBERS = "SELECT DISTINCT no FROM past ORDER BY no"
SEEDS = range(4)
# What `history` may say below the rows.
LEFT = {
    "no row puts back carried lines",
    "no row puts back the order of members",
    "no row puts back that a name or title was empty",
    "no row puts back a removed record",
    "no row takes away what was added later",
}

# A small archive: each row with the number that it makes.
SMALL = (
    "p1,person,Jonh /Lee/,M",  # 1
    "p2,person,Eva /Ray/,F",  # 2
    "p3,person,Tom /Lee/,M",  # 3
    "p4,person,Ann /Lee/,",  # 4
    "f,family,1,2",  # 5
    "c1,child,5,3",
    "c2,child,5,4",
    "e,event,5,MARR,,1 MAY 1800,",  # 6
    "w1,participant,6,3,witness",
    "w2,participant,6,4,",
    "l,place,Kent,",  # 7
    "s,source,Deeds,,,,",  # 8
    "r,entry,8,BAPTISM,f. 1,1,,,,child,Ann",  # 9
    "o,repo,Archive",  # 10
    "q,citation,1,8,p. 3,2",  # 11
)
COUNT = len(SMALL)
JOHN = "1  person  Jonh Lee\nname: Jonh /Lee/\nsex: M\n"
FAMILY = "5  family  husband 1  wife 2  child 3  child 4\nhusband: 1\nwife: 2\nchild: 3\nchild: 4\n"
OF_FAMILY = (
    "names: 1  person  Jonh Lee\nnames: 2  person  Eva Ray\nnames: 3  person  Tom Lee\nnames: 4  person  Ann Lee\n"
)
# Rows that are sent to the small archive, the number whose history is asked for, and what comes after the values: rows
# without their tokens, and what no row does.
BACK = (
    (("k,correct,1,name 1,John /Lee/",), 1, ("correct,1,name 1,Jonh /Lee/",), ()),
    (("k,correct,1,sex,",), 1, ("correct,1,sex,M",), ()),
    (("k,sex,4,F",), 4, ("correct,4,sex,",), ()),
    (("k,correct,1,name 1,John /Lee/", "n,name,1,Jack"), 1, ("correct,1,name 1,Jonh /Lee/",),
     ("no row takes away what was added later",)),
    (("n,name,1,Jack", "k,correct,1,name 2,"), 1, ("name,1,Jack",), ()),
    (("k,unpartner,5,1",), 5, ("partner,5,husband,1",), ("no row puts back the order of members",)),
    (("k,unpartner,5,2",), 5, ("partner,5,wife,2",), ()),
    (("k,unchild,5,4",), 5, ("child,5,4",), ()),
    (("k,unchild,5,3",), 5, ("child,5,3",), ("no row puts back the order of members",)),
    (("k,unchild,5,3", "m,child,5,3"), 5, (), ("no row puts back the order of members",)),
    (("k,unpartner,5,2", "p5,person,Zoe,F", "m,partner,5,wife,12"), 5, ("partner,5,wife,2",),
     ("no row takes away what was added later",)),
    (("k,amend,6,at Ashby,2 MAY 1800,7",), 6,
     ("correct,6,value,", "correct,6,date,1 MAY 1800", "correct,6,place,"), ()),
    (("k,correct,6,tag,ENGA",), 6, ("correct,6,tag,MARR",), ()),
    (("k,unparticipant,6,2",), 6, ("participant,6,4,",), ()),
    (("k,unparticipant,6,1",), 6, ("participant,6,3,witness",), ("no row puts back the order of members",)),
    (("k,correct,7,name,Surrey",), 7, ("correct,7,name,Kent",), ()),
    (("k,correct,8,author,Lee", "m,correct,8,author,"), 8, ("correct,8,author,Lee",), ()),
    (("k,correct,8,repository,10", "m,correct,8,call number,A 1"), 8, ("correct,8,call number,",), ()),
    (("k,correct,8,repository,10", "m,correct,8,repository,"), 8, ("correct,8,repository,10",), ()),
    (("k,link,9,1,4,same name",), 9, ("unlink,9,1",), ()),
    (("k,link,9,1,4,same name", "m,unlink,9,1"), 9, ("link,9,1,4,same name",), ()),
    (("k,link,9,1,4,same name", "m,link,9,1,3,\"a \"\"slip\"\"\""), 9, ("link,9,1,4,same name",), ()),
    (("k,correct,9,page,\"f. 1,\nverso\"", "m,correct,9,item,3"), 9, ("correct,9,item,1",), ()),
    (("k,correct,9,text,\"a, b\"", "m,correct,9,text,c"), 9, ("correct,9,text,\"a, b\"",), ()),
    (("k,correct,9,name 1,Anne", "m,correct,9,role 1,father"), 9, ("correct,9,role 1,child",), ()),
    (("k,correct,10,name,Office",), 10, ("correct,10,name,Archive",), ()),
    (("k,correct,11,page,p. 4", "m,correct,11,quality,"), 11, ("correct,11,quality,2",), ()),
    (("k,remove,11",), 11, (), ("no row puts back a removed record",)),
)
# A file with lines that no field takes, and a person without a name's text.
CARRIED = between("0 @I1@ INDI", "1 NAME Ann /Lee/", "2 NICK Annie", "1 NAME Nan /Lee/", "0 @I2@ INDI", "1 NAME")


class Remembered(Imported):
    """A folder with an archive of which `history` is asked."""

    def history(self, number, **how):
        return run(self.parish, ("history", self.file, str(number)), b"", **how)

    def small(self):
        got = self.made().apply(lines(SMALL))
        demand(got.status == 0 and b"refused" not in got.out, f"the small archive: {got}")
        return self

    def sent(self, *rows):
        got = self.apply(lines(rows))
        demand(got.status == 0 and b"refused" not in got.out, f"{rows}: {got}")
        return got

    def kept(self, number):
        return [row for row in self.rows_of(PAST.replace("?", str(number)))]


def each_value_by_hand(tools: Tools) -> None:
    with Remembered(tools) as at:
        at.small().sent("k1,correct,1,name 1,John /Lee/", "k2,correct,1,sex,", "k3,unchild,5,3", "k4,remove,11")
        before = at.tables()
        expect(at.history(1), written((
            f"1 k1\n{JOHN}2 k2\n{JOHN.replace('Jonh', 'John')}now\n1  person  John Lee\nname: John /Lee/\n"
            f"back-{COUNT + 4}-1-1,correct,1,sex,M\n").encode()))
        names = OF_FAMILY.replace("Jonh", "John")
        now = FAMILY.replace("  child 3", "", 1).replace("child: 3\n", "")
        expect(at.history(5), written((
            f"3 k3\n{FAMILY}{names}now\n{now}{names.replace('names: 3  person  Tom Lee' + chr(10), '')}"
            f"back-{COUNT + 4}-5-1,child,5,3\nno row puts back the order of members\n").encode()))
        expect(at.history(11), written(
            b"4 k4\n11  citation  of 1  source 8, page p. 3\nof: 1\nsource: 8\npage: p. 3\nquality: 2\n"
            b"names: 1  person  John Lee\nnames: 8  source  Deeds\nremoved\nno row puts back a removed record\n"))
        expect(at.history(2), written(b"now\n2  person  Eva Ray\nname: Eva /Ray/\nsex: F\n"))
        for number in (12, 4294967295):
            expect(at.history(number), refused(50))
        demand(at.tables() == before, "the tables changed")


def the_rows_that_put_back(tools: Tools, rows, number, back, left) -> None:
    with Remembered(tools) as at:
        at.small().sent(*rows)
        count = len(at.rows_of("SELECT id FROM receipt"))
        wanted = [f"back-{count}-{number}-{place},{row}" for place, row in enumerate(back, 1)] + list(left)
        got = at.history(number)
        demand(got.status == 0 and got.err == b"", f"{got}")
        demand(got.out.decode().endswith("\n" + "".join(f"{it}\n" for it in wanted)), f"{got}")
        found = got.out.decode().split("\n")
        demand(sum(it.startswith("back-") for it in found) == len(back), f"{got}")
        demand(sum(it.startswith("no row") for it in found) == len(left), f"{got}")


def what_is_removed_is_named_so(tools: Tools) -> None:
    with Remembered(tools) as at:
        at.small().sent("k1,unparticipant,6,2", "k2,unchild,5,4", "k3,remove,4")
        got = at.history(6).out.decode()
        demand("\nwith: 4\nrole: \n" in got and "\nnames: 4  removed\n" in got, got)
        demand(f"\nback-{COUNT + 3}-6-1,participant,6,4,\n" in got, got)


def carried_lines_are_told(tools: Tools) -> None:
    with Remembered(tools) as at:
        expect(at.made().import_(CARRIED), written(b"imported 2 records, first 1\n"))
        at.sent("k1,correct,1,name 1,", "k2,correct,2,name 1,Tom")
        got = at.history(1).out.decode()
        demand(got.startswith("1 k1\n1  person  Ann Lee\nname: Ann /Lee/\n2 NICK Annie\nname: Nan /Lee/\nnow\n"), got)
        demand(got.endswith("back-3-1-1,correct,1,name 1,Ann /Lee/\nback-3-1-2,name,1,Nan /Lee/\n"
                            "no row puts back carried lines\n"), got)
        got = at.history(2).out.decode()
        demand(got.endswith("\nname: Tom\nno row puts back that a name or title was empty\n"), got)


def imports_and_merges_keep_none(tools: Tools) -> None:
    with Remembered(tools) as at:
        at.small().sent("m,merge,3,4", "u,undo,12")
        for number in (3, 4, 5):
            got = at.history(number).out.decode()
            demand(got.startswith(f"now\n{number}  ") and "back-" not in got, got)
        # a slip is no record
        expect(at.history(12), refused(50))


def a_row_that_cannot_be_read(tools: Tools) -> None:
    with Remembered(tools) as at:
        at.small().sent("k1,correct,1,name 1,John /Lee/", "k2,correct,7,name,Surrey")
        whole = at.history(7)
        for text in ("x", "0 person\n1 sex Q\n", "", "1 person\n"):
            at.other_database(f"UPDATE past SET text = '{text}' WHERE no = 1")
            expect(at.history(1), refused(40))
            expect(at.history(7), whole)
            demand(at.apply(b"k9,sex,2,\n").status == 0, "a request after it")
        at.other_database("UPDATE past SET text = '0 person\n', token = 'a b' WHERE no = 1")
        expect(at.history(1), refused(40))


def words_and_files(tools: Tools) -> None:
    with Remembered(tools) as at:
        expect(at.history(1), refused(82))
        at.small()
        for words in (("history",), ("history", at.file), ("history", at.file, "1", "2"), ("history", at.file, "@p1"),
                      *(("history", at.file, number) for number in ("0", "x", "", "-1", "1.0", "4294967296"))):
            got = run(tools.parish, words)
            demand(got.status == 2 and got.out == b"" and got.err, f"{words}: {got}")


def devices_and_memory(tools: Tools) -> None:
    """95 of an output that fails, 1 or 80 where memory is refused, 80 where another program has the file open; and the
    archive is as it was."""
    with Remembered(tools) as at:
        long = "x" * 4_000
        at.small().sent(*(f"k{n},correct,9,text,{long}{n}" for n in range(200)))
        before = at.tables()
        call = functools.partial(at.history, 9)
        text = call().out
        demand(len(text) > 800_000, f"{len(text)} bytes")
        with open("/dev/full", "wb") as full:
            expect(call(stdout=full), refused(95))
        with pipe_without_reader() as writing:
            expect(call(stdout=writing), refused(95))
        demand(text.startswith(left_by_its_reader([*at.parish, "history", at.file, "9"])), "no beginning")
        each_growth_refused(at, functools.partial(at.history, 5))
        conn = sqlite3.connect(at.file, isolation_level=None)
        try:
            conn.execute("BEGIN EXCLUSIVE")
            expect(at.history(1), unopened("another program"))
        finally:
            conn.close()
        expect(call(), written(text))
        demand(at.tables() == before, "the tables changed")


# ---- on drawn archives


def sections(text: str):
    """The values of before with their keys and tokens, the value of now, the rows, and what is left as it is."""
    values, now, rows, left = [], None, [], []
    for line in re.findall(r"[^\n]*\n", text):
        if re.fullmatch(r"\d+ [!-~]+\n", line) and now is None:
            values.append((line.rstrip("\n"), []))
        elif line in ("now\n", "removed\n") and now is None:
            now = [line]
        elif line.rstrip("\n") in LEFT and now is not None:
            left.append(line.rstrip("\n"))
        elif now is None:
            values[-1][1].append(line)
        elif rows or re.match(r"back-\d+-\d+-1,", line):
            rows.append(line)
        else:
            now.append(line)
    return [(head, "".join(value)) for head, value in values], "".join(now), "".join(rows), left


def puts_back(tools: Tools, at: Remembered, number: int) -> bool:
    """Whether the rows that `history` of a number has could be sent; then the record is what it was."""
    got = at.history(number)
    demand(got.status == 0 and got.err == b"", f"history of {number}: {got}")
    values, now, rows, left = sections(got.out.decode())
    demand([head for head, _ in values] == [f"{key} {token}" for key, token in at.kept(number)], f"{number}: {got}")
    if left or now == "removed\n":
        demand(now != "removed\n" or left == ["no row puts back a removed record"], f"{number}: {got}")
        return False
    if re.search(r"^names: \d+  removed$", values[-1][1], re.MULTILINE):
        # (what it named is gone, by a merge that gave what named it another number)
        return False
    with Remembered(tools) as copy:
        shutil.copy(at.file, copy.file)
        sent = copy.apply(rows.encode())
        given = list(csv.reader(io.StringIO(rows, newline="")))
        demand(all(row[0] == f"back-{row[0].split('-')[1]}-{number}-{n}" for n, row in enumerate(given, 1)), rows)
        answers = list(csv.reader(io.StringIO(sent.out.decode(), newline="")))
        demand(len(answers) == len(given), f"{number}: {rows}{sent}")
        if any(answer[1] != "ok" for answer in answers):
            return False
        after = sections(copy.history(number).out.decode())
        demand(after[1] == "now\n" + values[-1][1], f"{number}: {rows}\nwas {values[-1][1]}\nis {after[1]}")
    return True


def drawn_rows_are_put_back(tools: Tools, seed: int) -> None:
    with Remembered(tools) as at:
        at.made().apply(b"".join(drawn(seed)))
        numbers = [number for (number,) in at.rows_of(NUMBERS)]
        done = sum(puts_back(tools, at, number) for number in numbers)
        demand(done * 5 >= len(numbers) and len(numbers) >= 3, f"only {done} of {len(numbers)} were put back")


def cases(tools: Tools) -> Iterator[Case]:
    for test in (each_value_by_hand, what_is_removed_is_named_so, carried_lines_are_told, imports_and_merges_keep_none,
                 a_row_that_cannot_be_read, words_and_files, devices_and_memory):
        yield Case(f"histories: {test.__name__.replace('_', ' ')}", lambda test=test: test(tools))
    for rows, number, back, left in BACK:
        name = f"histories: {' and '.join(rows)}"
        yield Case(name, lambda rows=rows, number=number, back=back, left=left: the_rows_that_put_back(
            tools, rows, number, back, left))
    for seed in SEEDS:
        yield Case(f"histories: drawn rows, {seed}", lambda seed=seed: drawn_rows_are_put_back(tools, seed))
