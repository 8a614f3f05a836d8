"""Archives in real files, by `init` and `apply`: what is answered, what is refused, and what a stop leaves."""

from __future__ import annotations

import csv
import os
import random
import shutil
import socket
import sqlite3
import subprocess
import tempfile
import time

from failing import compiled, failing
from harness import (
    CAUSES, ROOT, Case, Outcome, Tools, close_output_of, demand, difference, expect, hinted, pipe_without_reader,
    refused, refused_row, run, shown, unopened, written,
)
from packed import PACKS, each_line

NAME = "Ashby Family History Society"

# A family with a wedding: each row with its answer, in a new archive.
WEDDING = (
    ("a1,person,John /Smith/,M", "a1,ok,1,1"),
    ("a2,family,1,", "a2,ok,2,1"),
    ("a3,child,2,1", "a3,refused,59,AlreadyInFamily"),
    ("a4,event,2,BIRT,,,", "a4,refused,62,NotOfKind"),
    ("a5,event,2,MARR,,1 MAY 1800,", "a5,ok,3,1"),
    ("a6,participant,3,1,witness", "a6,ok,0,0"),
    ("a7,event,2,MARR,,,1", "a7,refused,51,WrongKind"),
    ("a8,frob,1", "a8,refused,91,UnknownVerb"),
    ("a9,person", "a9,refused,92,FieldCount"),
    (",person,X,", ",refused,93,BadToken"),
    ("a2,family,1,", "a2,ok,2,1"),
    ("a2,family,,", "a2,refused,52,TokenReused"),
)


def lines(texts):
    return "".join(text + "\n" for text in texts).encode()


def faults_of(answers):
    """How each line on standard error begins where rows are answered so: a line for each row that is refused."""
    rows = enumerate(csv.reader(answers.decode().splitlines()), 1)
    return [f"row {n}: {row[2]} {row[3]}: " for n, row in rows if row[1] == "refused"]


def answered(got, answers):
    """The answers byte for byte, and beside them what is wrong with each row that is refused."""
    expect(Outcome(got.out, b"", got.status), written(answers))
    told = got.err.decode().split("\n")
    wanted = [*faults_of(answers), ""]
    same = len(told) == len(wanted) and all(line.startswith(head) for line, head in zip(told, wanted, strict=True))
    demand(same and told[-1] == "", f"standard error has {shown(got.err)}")
    demand(all(line.isprintable() and not line.endswith(": ") for line in told), f"no words in {shown(got.err)}")


TABLES = ("meta", "batch", "record", "line", "receipt", "slip", "slip_line", "span", "link", "sought", "past")
ROWS = lines(row for row, _ in WEDDING)
ANSWERS = lines(answer for _, answer in WEDDING)


class Folder:
    """A folder of its own for an archive, which goes when the test is done."""

    def __init__(self, tools):
        self.parish = tools.parish

    def __enter__(self):
        self.path = tempfile.mkdtemp()
        self.file = os.path.join(self.path, "ashby.db")
        return self

    def __exit__(self, *_):
        shutil.rmtree(self.path)

    def init(self, name=NAME):
        return run(self.parish, ("init", self.file, "--society", name))

    def made(self):
        expect(self.init(), written(b""))
        return self

    def apply(self, rows=ROWS, **how):
        return run(self.parish, ("apply", self.file), rows, **how)

    def entries(self, rows, source=1, token="batch", **how):
        return run(self.parish, ("entries", self.file, "--source", str(source), "--token", token), rows, **how)

    def with_register(self):
        expect(self.made().apply(b"r,source,Register,,,,\n"), written(b"r,ok,1,1\n"))
        return self

    def rows_of(self, text):
        """The rows of a query, by another reader of the file."""
        conn = sqlite3.connect(f"file:{self.file}?mode=ro", uri=True)
        try:
            return conn.execute(text).fetchall()
        finally:
            conn.close()

    def tables(self):
        """All rows of all tables."""
        return {name: self.rows_of(f"SELECT * FROM {name}") for name in TABLES}

    def other_database(self, *statements):
        conn = sqlite3.connect(self.file)
        for statement in statements:
            conn.execute(statement)
        conn.commit()
        conn.close()
        return self


def a_wedding(tools):
    with Folder(tools) as at:
        answered(at.made().apply(), ANSWERS)


def the_same_rows_again(tools):
    """What was answered is answered again, by another run too, and nothing is made twice."""
    with Folder(tools) as at:
        at.made().apply()
        answered(at.apply(), ANSWERS)
        answered(at.apply(b"p,person,Eva,F\n"), b"p,ok,4,1\n")


def row_by_row(tools):
    """Each row in a run of its own."""
    with Folder(tools) as at:
        at.made()
        for row, answer in WEDDING:
            answered(at.apply(lines([row])), lines([answer]))


def an_answer_before_the_next_row(tools):
    """Who types rows sees each answer before the next row is there."""
    with Folder(tools) as at:
        at.made()
        process = subprocess.Popen(
            [*at.parish, "apply", at.file], stdin=subprocess.PIPE, stdout=subprocess.PIPE, stderr=subprocess.DEVNULL
        )
        try:
            for row, answer in WEDDING:
                process.stdin.write(lines([row]))
                process.stdin.flush()
                got = process.stdout.readline()
                demand(got == lines([answer]), f"{row} was answered {got!r}")
            process.stdin.close()
            demand(process.wait(timeout=20) == 0, f"status {process.returncode}")
        finally:
            process.kill()
            process.stdout.close()
            process.wait()


def nothing_to_do(tools):
    with Folder(tools) as at:
        at.made()
        for rows in (b"", b"\n", b"\n\r\n\n", b"\xef\xbb\xbf"):
            answered(at.apply(rows), b"")


def spellings_of_rows(tools):
    """Byte order mark, CR LF, quotes, a quoted line end, no line end at the last row, blank lines."""
    rows = b'\xef\xbb\xbfa,person,"two\nlines",M\r\n\r\n"b","person","x, y"," "\r\n\nc,person,"a ""b"" c",F'
    with Folder(tools) as at:
        answered(at.made().apply(rows), b"a,ok,1,1\nb,refused,90,BadRow\nc,ok,2,1\n")
        names = [text for _, _, _, tag, text, _ in each_line(at.rows_of(PACKS)) if tag == "name"]
        demand(names == ["two\nlines", 'a "b" c'], f"the names are {names}")


def breaks_of_lines_in_texts(tools):
    """A text of several lines is kept in one row, with CR for LF, and comes out as it went in; a CR beside it does
    not."""
    rows = lines(('a,person,"Ann\nMary\n\n/Lee/",F', 'b,source,"\n",,,,', 'c,event,1,OCCU,"weaver\n",,'))
    with Folder(tools) as at:
        answered(at.made().apply(rows), b"a,ok,1,1\nb,ok,2,1\nc,ok,3,1\n")
        kept = at.rows_of("SELECT no, text, dst FROM line ORDER BY no")
        wanted = [
            (1, "\n1 name Ann\rMary\r\r/Lee/\n1 sex F\n", None),
            (2, " \r\n", None),
            (3, "\n1 OCCU weaver\r\n", 1),
        ]
        demand(kept == wanted, f"the packed texts are {kept}")
        text = run(at.parish, ("export", at.file)).out
        demand(b"1 NAME Ann\n2 CONT Mary\n2 CONT\n2 CONT /Lee/\n" in text, f"{text}")
        demand(b"1 OCCU weaver\n2 CONT\n" in text, f"{text}")
        answered(at.apply(b'd,name,1,"Ann\rLee"\n'), b"d,refused,58,BadText\n")
        demand(at.rows_of("SELECT no, text, dst FROM line ORDER BY no") == kept, "the rows changed")


def what_was_before(tools):
    """`past` is made with a new archive, and empty; what somebody else writes there is not looked at, and stays, and
    what a row removes comes after it."""
    with Folder(tools) as at:
        at.made().apply(b"a,person,Ann,F\nb,name,1,Anna\n")
        demand(at.rows_of("SELECT * FROM past") == [], "it is not empty")
        at.other_database("INSERT INTO past VALUES (7, 9, 't', 'no lines at all'), (8, -1, '', '')")
        answered(at.apply(b"c,name,1,Annie\nd,remove,1\n"), b"c,ok,0,0\nd,ok,0,0\n")
        expect(run(at.parish, ("audit", at.file)), written(b"sound: 0 records\n"))
        removed = "0 person\n1 name Ann\n1 name Anna\n1 name Annie\n1 sex F\n"
        wanted = [(7, 9, "t", "no lines at all"), (8, -1, "", ""), (9, 1, "d", removed)]
        kept = at.rows_of("SELECT id, no, token, text FROM past ORDER BY id")
        demand(kept == wanted, f"its rows are {kept}")


def rows_that_are_no_requests(tools):
    """What is wrong with a row is told, and the next row is done."""
    rows = b"x,person,\xff,M\nb c,person,X,M\nd\ne,person,X,M,F\nf,person,a\0b,M\ng,name,0,X\nh,person,Ann,F\n"
    answers = (
        b",refused,90,BadRow\n,refused,93,BadToken\nd,refused,92,FieldCount\ne,refused,92,FieldCount\n"
        b"f,refused,58,BadText\ng,refused,90,BadRow\nh,ok,1,1\n"
    )
    with Folder(tools) as at:
        answered(at.made().apply(rows), answers)


def a_field_of_ten_million_bytes(tools):
    with Folder(tools) as at:
        rows = b"a,person," + b"x" * 10_000_000 + b",M\nb,person,Ann,F\n"
        answered(at.made().apply(rows), b"a,refused,58,BadText\nb,ok,1,1\n")


# Rows that are refused, with what is wrong: the words, in an archive with what MADE makes.
MADE = (
    "p1,person,Ann /Lee/,F",
    "p2,person,Tom /Lee/,M",
    "f,family,2,1",
    "s,source,Register,,,,",
    "e,entry,4,BAPTISM,f. 3,1,,,,child,Ann",
    "m0,person,Thos. /Lee/,M",
    "m,merge,2,6",
    "b,event,2,BIRT,,,",
)
TOLD = (
    ("x,person,\xff,M", "90 BadRow: field 3 (name): it is not UTF-8"),
    (",person,X,", "93 BadToken: field 1 (token): it is empty"),
    ("a b,person,X,", "93 BadToken: field 1 (token): it has another character than those from ! to ~"),
    ("t" * 65 + ",person,X,", "93 BadToken: field 1 (token): it has more than 64 characters"),
    ("x", "92 FieldCount: there is no field after the token"),
    ("x,frob", "91 UnknownVerb: field 2 (verb): there is no such verb; verbs are small letters"),
    (
        "x,event,2,BIRT,,",
        "92 FieldCount: the fields of event are owner, tag, value, date, place; after the verb the row has 4",
    ),
    ("x,person,X,M,F", "92 FieldCount: the fields of person are name, sex; after the verb the row has 3"),
    ("x,person,X,m", "90 BadRow: field 4 (sex): neither empty nor M, F or U"),
    ("x,sex,1,", "90 BadRow: field 4 (sex): none of M, F and U"),
    ("x,name,0,X", "90 BadRow: field 3 (person): no number from 1 to 4294967295"),
    ("x,family,1,4294967296", "90 BadRow: field 4 (wife): neither empty nor a number from 1 to 4294967295"),
    ("x,citation,1,4,,4", "90 BadRow: field 6 (quality): neither empty nor 0, 1, 2 or 3"),
    ("x,entry,4,BIRTH,,1,,,,child,X", "90 BadRow: field 4 (kind): none of BAPTISM, MARRIAGE and BURIAL"),
    ("x,entry,4,BAPTISM,,1000000,,,,child,X", "90 BadRow: field 6 (item): no number from 1 to 999999"),
    ("x,person,a\0b,M", "58 BadText: field 3 (name): it has the character U+0000"),
    ("x,event,2,BIRT,,\"a\rb\",", "58 BadText: field 6 (date): it has a carriage return (U+000D)"),
    ("x,repo," + "y" * 1_048_577, "58 BadText: field 3 (name): it has more than 1048576 bytes"),
    ("x,place,,", "58 BadText: field 3 (name): it is empty"),
    ("x,place,\"a,b\",", "58 BadText: field 3 (name): it is not normal, or its path passes the limits"),
    ("x,source,T,,,,7", "58 BadText: field 7 (call number): it comes without a repository"),
    ("x,link,5,1,1,", "58 BadText: field 6 (reason): it is empty"),
    ("x,name,99,X", "50 NoSuch: field 3 (person): nothing has this number"),
    ("x,child,99,1", "50 NoSuch: field 3 (family) or field 4 (person): nothing has this number"),
    ("x,event,2,MARR,,,1", "51 WrongKind: field 3 (owner) or field 7 (place): what has this number is of another kind"),
    ("x,event,4,BIRT,,,", "51 WrongKind: field 3 (owner): what has this number is of another kind"),
    ("p1,person,X,M", "52 TokenReused: field 1 (token): another request was done under it"),
    ("x,remove,4", "53 StillNamed: field 3 (number): another record names this one"),
    ("x,family,1,1", "54 SamePerson: field 3 (husband) and field 4 (wife): both are one person"),
    (
        "x,merge,1,2",
        "55 MergeWithinFamily: field 3 (person that stays) and field 4 (person that is gone): both are in one family, "
        "and not both its children",
    ),
    ("x,child,3,1", "59 AlreadyInFamily: field 4 (person): the family has this person already"),
    (
        "x,entry,4,BAPTISM,f. 3,1,,,,child,X",
        "60 DuplicateEntry: there is an entry of the same source, kind, page and item",
    ),
    ("x,unlink,5,2", "61 NoSuchMention: field 4 (mention): the entry has not so many mentions"),
    ("x,partner,3,man,1", "90 BadRow: field 4 (role): neither husband nor wife"),
    ("x,partner,99,wife,1", "50 NoSuch: field 3 (family) or field 5 (person): nothing has this number"),
    ("x,partner,3,wife,1", "59 AlreadyInFamily: field 5 (person): the family has this person already"),
    ("x,unparticipant,8,1", "64 NoSuchField: field 4 (participant): the event has not so many participants"),
    ("x,unchild,3,1", "65 NotMember: field 4 (person): the family has no such child"),
    ("x,correct,2,sexes,M", "90 BadRow: field 4 (field): no field of a record"),
    ("x,correct,2,sex,m", "90 BadRow: field 5 (value): neither empty nor M, F or U"),
    (
        "x,correct,8,place,2",
        "51 WrongKind: field 3 (number) or field 5 (value): what has this number is of another kind",
    ),
    ("x,correct,1,name 2,X", "64 NoSuchField: field 4 (field): the record has no such field, or not so many"),
    ("x,correct,4,call number,7", "58 BadText: field 5 (value): there is no repository"),
    # the merge left a second SEX
    (
        "x,correct,2,sex,",
        "66 StillCarried: field 5 (value): with it a line that is carried would be read as a field",
    ),
    (
        "x,correct,8,tag,MARR",
        "62 NotOfKind: field 5 (value): it is no tag of the owner, or no role of the entry's kind",
    ),
    ("x,event,2,MARR,,,", "62 NotOfKind: field 4 (tag): the owner has no events of this tag"),
    ("x,entry,4,BAPTISM,,2,,,,child,X,priest,Y", "62 NotOfKind: field 12 (role): there is no such role"),
    ("x,entry,4,BAPTISM,,2,,,,groom,X", "62 NotOfKind: a role of a mention is none of the kind of the entry"),
    ("x,name,2,Thos.", None),
    (
        "x2,undo,7",
        "56 ChangedSince: field 3 (slip): a record that the merge changed was changed since, or removed",
    ),
)


def what_is_wrong_is_told(tools):
    """Each refused row has a line on standard error, with its number and the field that is to blame."""
    with Folder(tools) as at:
        made = at.made().apply(lines(MADE))
        demand(made.status == 0 and made.err == b"" and b"refused" not in made.out, f"{made}")
        got = at.apply("\n\n".join(row for row, _ in TOLD).encode("latin-1"))
        told = [f"row {n}: {words}" for n, (_, words) in enumerate(TOLD, 1) if words]
        demand(got.err.decode().splitlines() == told, f"{difference(lines(told), got.err)}")
        demand(got.status == 0 and got.out.count(b"\n") == len(TOLD), f"{got.status} {shown(got.out)}")
        expect(at.apply(b"x3,person,Eva,F\n"), written(b"x3,ok,9,1\n"))


def faults_that_cannot_be_told(tools):
    """Where standard error fails or is closed, the answers and the status are the same, and so is what is done."""
    with Folder(tools) as whole, Folder(tools) as at:
        whole.made().apply()
        at.made()
        with open("/dev/full", "wb") as full:
            got = at.apply(stderr=full)
        demand((got.out, got.status) == (ANSWERS, 0), f"{got}")
        demand(at.tables() == whole.tables(), "the tables differ")
        got = run(("sh", "-c", 'exec "$@" 2>&-', "sh", *at.parish), ("apply", at.file), ROWS)
        demand((got.out, got.status) == (ANSWERS, 0), f"{got}")


def a_fault_is_told_behind_its_answer(tools):
    """Who reads both streams in one sees each answer, and then what is wrong with its row."""
    with Folder(tools) as at:
        got = at.made().apply(stderr=subprocess.STDOUT)
        told = iter(faults_of(ANSWERS))
        for answer in ANSWERS.decode().splitlines():
            line, _, rest = got.out.decode().partition("\n")
            demand(line == answer, f"{line} for {answer}")
            if ",refused," in answer:
                line, _, rest = rest.partition("\n")
                demand(line.startswith(next(told)), f"{line} after {answer}")
            got = Outcome(rest.encode(), b"", got.status)
        demand(got.out == b"", f"{got.out!r} is left")


def an_open_quote(tools):
    """A quote that is not closed takes the rows after it into its field: there are fewer answers than rows."""
    rows = b'a,person,Ann,F\nb,person,"Tom,M\nc,person,Eva,F\nd,person,Joe,M\n'
    with Folder(tools) as at:
        answered(at.made().apply(rows), b"a,ok,1,1\nb,refused,92,FieldCount\n")
        answered(at.apply(rows.replace(b'"', b"")), b"a,ok,1,1\nb,ok,2,1\nc,ok,3,1\nd,ok,4,1\n")


def a_file_with_two_names(tools):
    """A hard link is refused, by either name, and nothing changes; with one name again the archive is there."""
    with Folder(tools) as at:
        at.made().apply(b"a,person,Ann,F\n")
        other = os.path.join(at.path, "other.db")
        os.link(at.file, other)
        for at.file in (at.file, other):
            expect(at.apply(b"b,person,Eva,F\n"), unopened("second name"))
        os.remove(other)
        at.file = os.path.join(at.path, "ashby.db")
        answered(at.apply(b"b,person,Eva,F\n"), b"b,ok,2,1\n")


def going_back_to_a_copy(tools):
    """FILE and its log are moved away, the copy is put in place, and the later rows are sent again."""
    with Folder(tools) as at:
        at.made().apply(b"a,person,Ann,F\n")
        copy = os.path.join(at.path, "copy.db")
        shutil.copy(at.file, copy)
        at.apply(b"b,person,Eva,F\n")
        wanted = at.tables()
        for name in ("ashby.db", "ashby.db-wal"):
            if os.path.exists(os.path.join(at.path, name)):
                os.rename(os.path.join(at.path, name), os.path.join(at.path, f"old-{name}"))
        os.rename(copy, at.file)
        answered(at.apply(b"a,person,Ann,F\nb,person,Eva,F\n"), b"a,ok,1,1\nb,ok,2,1\n")
        demand(at.tables() == wanted, "the tables differ")


def init_over_an_archive(tools):
    with Folder(tools) as at:
        at.made().apply()
        before = at.tables()
        expect(at.init("Another"), refused(82))
        demand(at.tables() == before, "the tables changed")
        answered(at.apply(b"p,person,Eva,F\n"), b"p,ok,4,1\n")


def init_over_another_database(tools):
    with Folder(tools) as at:
        at.other_database("CREATE TABLE kings (name TEXT)", "INSERT INTO kings VALUES ('John')")
        for got in (at.init(), at.apply()):
            expect(got, refused(82))
        demand(at.rows_of("SELECT name FROM kings") == [("John",)], "its table changed")


def init_over_an_empty_file(tools):
    with Folder(tools) as at:
        with open(at.file, "wb"):
            pass
        expect(at.apply(), refused(82))
        answered(at.made().apply(), ANSWERS)


def a_society_without_a_name(tools):
    with Folder(tools) as at:
        for name in ("", "two\rlines"):
            expect(at.init(name), refused(58))
        demand(not os.listdir(at.path), "a file was made")


def the_society_is_kept(tools):
    with Folder(tools) as at:
        at.made()
        demand(at.rows_of("SELECT version, next, society FROM meta") == [(2, 1, NAME)], "meta has something else")


def apply_without_an_archive(tools):
    with Folder(tools) as at:
        expect(at.apply(), refused(82))
        demand(not os.listdir(at.path), "a file was made")


def a_folder_as_file(tools):
    with Folder(tools) as at:
        os.mkdir(at.file)
        for got in (at.init(), at.apply()):
            expect(got, unopened("folder, or"))


def a_folder_that_is_not_there(tools):
    with Folder(tools) as at:
        at.file = os.path.join(at.path, "none", "ashby.db")
        expect(at.init(), unopened("does not exist"))
        expect(at.apply(), refused(82))


def a_file_that_is_no_database(tools):
    with Folder(tools) as at:
        for size in (10, 5_000, 40_000):
            with open(at.file, "wb") as file:
                file.write(b"x" * size)
            for got in (at.init(), at.apply()):
                expect(got, unopened("no database"))
            with open(at.file, "rb") as file:
                demand(file.read() == b"x" * size, "the file changed")


META = "CREATE TABLE meta (version INTEGER NOT NULL, next INTEGER NOT NULL, society TEXT NOT NULL)"


def other_versions(tools):
    for version, number in ((3, 83), (1_000, 83), (0, 82), (1, 82), (2, 82)):  # 1 and 2: but no other table
        with Folder(tools) as at:
            at.other_database(META, f"INSERT INTO meta VALUES ({version}, 1, 'x')")
            expect(at.apply(), refused(number))


def two_programs_at_once(tools):
    """The second is refused, and the first goes on."""
    with Folder(tools) as at:
        at.made()
        first = subprocess.Popen([*at.parish, "apply", at.file], stdin=subprocess.PIPE, stdout=subprocess.PIPE)
        try:
            first.stdin.write(b"a,person,Ann,F\n")
            first.stdin.flush()
            demand(first.stdout.readline() == b"a,ok,1,1\n", "the first is not answered")
            expect(at.apply(b"b,person,Eva,F\n"), unopened("another program"))
            expect(run(at.parish, ("export", at.file)), unopened("another program"))
            first.stdin.write(b"c,person,Eve,F\n")
            first.stdin.close()
            demand(first.stdout.read() == b"c,ok,2,1\n", "the first does not go on")
            demand(first.wait(timeout=20) == 0, f"status {first.returncode}")
        finally:
            first.kill()
            first.stdout.close()
            first.wait()


def an_output_that_is_full(tools):
    """The row was done and its answer could not be written. Sent again it gets that answer."""
    with Folder(tools) as at:
        at.made()
        with open("/dev/full", "wb") as full:
            expect(at.apply(stdout=full), refused(95))
        answered(at.apply(), ANSWERS)


def a_reader_that_left(tools):
    with Folder(tools) as at:
        at.made()
        with pipe_without_reader() as writing:
            expect(at.apply(stdout=writing), refused(95))
        answered(at.apply(), ANSWERS)


def an_output_that_fails(tools):
    """An output that cannot be written to, from the start or after an answer. Rows that were done are kept, and each
    that was acknowledged is among them; sent again they get their answers."""
    rows = [f"t{n},person,Ann /{n}/,F" for n in range(1, 51)]
    answers = [f"t{n},ok,{n},1" for n in range(1, 51)]
    with Folder(tools) as at:
        at.made()
        folder = os.open("/", os.O_RDONLY)
        try:
            expect(at.apply(lines(rows[:3]), stdout=folder), refused(95))
        finally:
            os.close(folder)
        kept = at.rows_of("SELECT token FROM receipt")
        demand(kept == [("t1",)], f"kept is {kept}")
        process = subprocess.Popen(
            [*at.parish, "apply", at.file], stdin=subprocess.PIPE, stdout=subprocess.PIPE, stderr=subprocess.PIPE
        )
        try:
            process.stdin.write(lines(rows[:2]))
            process.stdin.flush()
            got = process.stdout.readline() + process.stdout.readline()
            demand(got == lines(answers[:2]), f"the first rows were answered {got!r}")
            close_output_of(process)
            process.stdin.write(lines(rows[2:]))
            process.stdin.close()
            told = process.stderr.read()
            demand(process.wait(timeout=20) == 1 and told == refused(95).err, f"{process.returncode} {told!r}")
        finally:
            process.kill()
            process.stderr.close()
            process.wait()
        kept = at.rows_of("SELECT token FROM receipt ORDER BY id")
        demand(kept == [("t1",), ("t2",), ("t3",)], f"kept is {kept}")
        answered(at.apply(lines(rows)), lines(answers))


def an_input_that_fails(tools):
    with Folder(tools) as at:
        at.made()
        folder = os.open("/", os.O_RDONLY)
        try:
            expect(at.apply(stdin=folder), refused(94))
        finally:
            os.close(folder)
        answered(at.apply(), ANSWERS)


def a_copy_is_an_archive(tools):
    """A copy of the file with its log, and one by the backup of sqlite3, which are written to as the archive is."""
    with Folder(tools) as at:
        at.made().apply()
        tables = at.tables()
        first = at.file
        for name in sorted(os.listdir(at.path)):
            shutil.copy(os.path.join(at.path, name), os.path.join(at.path, name.replace("ashby", "copy")))
        source = sqlite3.connect(f"file:{first}?mode=ro", uri=True)
        copy = sqlite3.connect(os.path.join(at.path, "backup.db"))
        source.backup(copy)
        source.close()
        copy.close()
        for name in ("copy.db", "backup.db"):
            at.file = os.path.join(at.path, name)
            answered(at.apply(), ANSWERS)
            demand(at.tables() == tables, f"the tables of {name} differ")
            answered(at.apply(b"p,person,Eva,F\n"), b"p,ok,4,1\n")


def init_takes_no_input(tools):
    with Folder(tools) as at:
        ours, theirs = socket.socketpair()
        with ours, theirs:
            expect(run(at.parish, ("init", at.file, "--society", NAME), stdin=theirs), written(b""))


def a_full_disk(tools):
    """Where no more may be written to a file, 80; what was answered is kept, and the rest is done when there is
    room."""
    with Folder(tools) as at:
        at.made()
        rows = [f"t{n},person,{'x' * 2_000} /{n}/,M" for n in range(1, 101)]
        limited = ("sh", "-c", 'trap "" XFSZ; ulimit -f 64; exec "$@"', "sh", *at.parish)
        got = run(limited, ("apply", at.file), lines(rows))
        answers = [f"t{n},ok,{n},1" for n in range(1, 101)]
        done = got.out.count(b"\n")
        expect(got, Outcome(lines(answers[:done]), refused(80).err, 1))
        demand(done < 100, "nothing was stopped")
        answered(at.apply(lines(rows)), lines(answers))


def no_place_on_the_disk(tools):
    """If the system says that the disk is full, a second hint of 80 does so; what was answered is kept."""
    with Folder(tools) as at:
        at.made()
        log, mark = f"{at.file}-wal", os.path.join(at.path, "failed")
        how = {**failing(compiled(at.path), log, 60, mark), "FAIL_FULL": "1"}
        rows = [f"t{n},person,Ann /{n}/,F" for n in range(1, 21)]
        got = run(at.parish, ("apply", at.file), lines(rows), env=how)
        demand(os.path.exists(mark), "no call failed")
        told = refused(80).err + hinted(CAUSES["no place"]).encode()
        demand((got.status, got.err) == (1, told), f"{got}")
        answers = lines([f"t{n},ok,{n},1" for n in range(1, 21)])
        demand(answers.startswith(got.out) and got.out != answers, f"{got}")
        answered(at.apply(lines(rows)), answers)


def generated(seed, count, *how):
    """Rows of all verbs for a new archive, by the generator of the tests of requests."""
    words = ("python3", os.path.join(ROOT, "tests/requests/generate.py"), str(seed), str(count), *how)
    return subprocess.run(words, stdout=subprocess.PIPE, check=True).stdout


def killed(at, rows, after):
    """The answers of a run that is killed once it wrote so many bytes, or right away where that is none."""
    with tempfile.TemporaryFile() as given:
        given.write(rows)
        given.seek(0)
        process = subprocess.Popen(
            [*at.parish, "apply", at.file], stdin=given, stdout=subprocess.PIPE, stderr=subprocess.DEVNULL
        )
    got = b""
    while len(got) < after:
        piece = os.read(process.stdout.fileno(), min(64, after - len(got)))
        if not piece:
            break
        got += piece
    process.kill()
    got += process.stdout.read()
    process.stdout.close()
    process.wait()
    return got


def killed_and_run_again(tools, seed=1, count=300, stops=10, rows=None):
    """A program that is killed at some moment, and again: the rows sent again get the answers of a run that was not
    stopped."""
    rows = generated(seed, count, "lasting") if rows is None else rows
    with Folder(tools) as whole:
        wanted = whole.made().apply(rows)
        answered(wanted, wanted.out)
        kept = whole.tables()
    rng = random.Random(seed)
    with Folder(tools) as at:
        at.made()
        for _ in range(stops):
            got = killed(at, rows, rng.randrange(len(wanted.out)))
            demand(wanted.out.startswith(got), "an answer is another one")
        expect(at.apply(rows), wanted)
        demand(at.tables() == kept, "the tables differ")
        demand(at.rows_of("PRAGMA integrity_check") == [("ok",)], "integrity_check finds something")


BAPTISM = "BAPTISM,f. 3,1,15 APR 1699/00,,John,child,John,father,Tom Lee"
BURIAL = "BURIAL,f. 3,1,,,Ann,buried,Ann Lee"


def a_page_of_a_register(tools):
    """A batch is made once, and its entries are linked as others are."""
    rows = b"p1,person,Tom /Lee/,M\nl1,link,2,2,4,same farm\nl2,link,2,3,4,x\nl3,unlink,2,1\nl4,remove,4\n"
    answers = b"p1,ok,4,1\nl1,ok,0,0\nl2,refused,61,NoSuchMention\nl3,ok,0,0\nl4,refused,53,StillNamed\n"
    with Folder(tools) as at:
        at.with_register()
        for _ in range(2):
            expect(at.entries(lines([BAPTISM, BURIAL])), written(b"made 2 entries, first 2\n"))
        answered(at.apply(rows), answers)
        expect(at.entries(lines([BAPTISM, BURIAL]), token="other"), refused_row(60, 1))
        expect(at.entries(lines([BAPTISM])), refused(52))


def batches_that_are_refused(tools):
    """The first refused row is named, and nothing is made."""
    batches = (
        ([BAPTISM, BAPTISM], 60, 2),
        (["BURIAL,f. 4,1,,,Ann,child,Ann"], 62, 1),
        ([BAPTISM, BURIAL, "BURIAL,f. 4,1,,,Ann"], 92, 3),
        ([BAPTISM, "BURIAL,f. 4,1,,,Ann,buried", "BIRTH"], 92, 2),
        ([BAPTISM, "BIRTH,f. 4,1,,,Ann,buried,Ann"], 90, 2),
        ([BAPTISM, "BURIAL,f. 4,0,,,Ann,buried,Ann"], 90, 2),
        ([BAPTISM, "BURIAL,f. 4,1000000,,,Ann,buried,Ann"], 90, 2),
        ([BAPTISM, "BURIAL,f. 4,1" + ",,,Ann" + ",buried,Ann" * 101], 92, 2),
        ([BAPTISM, "BURIAL,f. 4,1,,7,Ann,buried,Ann"], 50, 2),
        ([BAPTISM, "BURIAL,f. 4,1,,1,Ann,buried,Ann"], 51, 2),
        ([BAPTISM, "BURIAL,f. 4,1,,2,Ann,buried,Ann"], 51, 2),  # the number of the entry before
        ([BAPTISM, "BURIAL,f. 4,1,,3,Ann,buried,Ann"], 50, 2),  # its own
        ([BAPTISM, "BURIAL,f. 4,1,,,A\0nn,buried,Ann"], 58, 2),
    )
    with Folder(tools) as at:
        before = at.with_register().tables()
        for rows, number, row in batches:
            expect(at.entries(lines(rows)), refused_row(number, row))
            demand(at.tables() == before, f"the tables changed at {rows}")


def a_source_is_looked_at_before_the_rows(tools):
    with Folder(tools) as at:
        at.with_register()
        answered(at.apply(b"p,person,Ann,F\n"), b"p,ok,2,1\n")
        for source, number in ((9, 50), (2, 51)):
            expect(at.entries(lines([BAPTISM, BAPTISM]), source=source), refused(number))


def a_batch_without_rows(tools):
    with Folder(tools) as at:
        at.with_register()
        for rows in (b"", b"\n\r\n", b"\xef\xbb\xbf"):
            expect(at.entries(rows), written(b"made 0 entries, first 2\n"))


def a_batch_without_an_archive(tools):
    """The token is looked at first, then the file, and the rows last."""
    with Folder(tools) as at:
        expect(at.entries(b"x\n", token="two words"), refused(93))
        expect(at.entries(b"x\n"), refused(82))
        demand(not os.listdir(at.path), "a file was made")


def the_longest_entry(tools):
    with Folder(tools) as at:
        at.with_register()
        expect(
            at.entries(lines(["BURIAL,,0000999999,,," + ",buried,Ann" * 100])), written(b"made 1 entries, first 2\n")
        )


ROLES = {
    "BAPTISM": ("child", "father", "mother", "godparent"),
    "MARRIAGE": ("groom", "bride", "father-of-groom", "father-of-bride", "witness"),
    "BURIAL": ("buried", "spouse", "father", "mother"),
}


def roles_of_each_kind(tools):
    """All roles of a kind in one entry; one of another kind, or none, refuses the batch."""
    words = {role for roles in ROLES.values() for role in roles} | {"", "Child", "priest"}
    with Folder(tools) as at:
        at.with_register()
        for n, (kind, roles) in enumerate(ROLES.items(), 2):
            row = f"{kind},f. 1,1,,," + "".join(f",{role},Ann" for role in roles)
            expect(at.entries(lines([row]), token=kind), written(f"made 1 entries, first {n}\n".encode()))
            for role in sorted(words - set(roles)):
                expect(at.entries(lines([f"{kind},f. 2,1,,,,{role},Ann"]), token="other"), refused_row(62, 1))


def one_entry_across_batches(tools):
    """An entry is one by its source, kind, page and item, however the item is written; another of these makes another
    entry."""
    others = [
        "MARRIAGE,f. 3,1,,,,groom,Ann",
        "BAPTISM,F. 3,1,,,,child,Ann",
        "BAPTISM,f. 3,2,,,,child,Ann",
        "BAPTISM,,1,,,,child,Ann",
    ]
    with Folder(tools) as at:
        at.with_register()
        answered(at.apply(b"s,source,Second,,,,\n"), b"s,ok,2,1\n")
        expect(at.entries(lines([BAPTISM])), written(b"made 1 entries, first 3\n"))
        expect(at.entries(lines([*others, "BAPTISM,f. 3,001,,,,child,Eva"]), token="b"), refused_row(60, 5))
        answered(at.apply(b"e,entry,1,BAPTISM,f. 3,1,,,,child,Eva\n"), b"e,refused,60,DuplicateEntry\n")
        expect(at.entries(lines([*others, *others[:1]]), token="c"), refused_row(60, 5))
        expect(at.entries(lines(others), token="d"), written(b"made 4 entries, first 4\n"))
        expect(at.entries(lines([BAPTISM]), source=2, token="e"), written(b"made 1 entries, first 8\n"))


def a_token_of_a_batch(tools):
    """A token is kept with the source and the rows of its batch: another batch, or a row of requests, is 52 under it. A
    refused batch keeps none."""
    with Folder(tools) as at:
        at.with_register()
        expect(at.entries(lines([BAPTISM, BAPTISM])), refused_row(60, 2))
        expect(at.entries(lines([BAPTISM])), written(b"made 1 entries, first 2\n"))
        expect(
            at.entries(b"\n" + lines([BAPTISM.replace("15 APR 1699/00", "15 apr  1699/00")])),
            written(b"made 1 entries, first 2\n"),
        )
        expect(at.entries(lines([BAPTISM]), source=2), refused(52))
        answered(at.apply(b"batch,person,Ann,F\n"), b"batch,refused,52,TokenReused\n")
        expect(at.entries(lines([BURIAL]), token="r"), refused(52))


def killed_in_a_batch(tools, count=300, stops=12):
    """A program that is killed while it enters a batch leaves all of it or nothing."""
    rows = lines(f"BURIAL,f. {n // 20},{n + 1},,,Ann,buried,Ann Lee,spouse,Tom" for n in range(count))
    rng = random.Random(count)
    with Folder(tools) as whole:
        start = time.perf_counter()
        expect(whole.with_register().entries(rows), written(f"made {count} entries, first 2\n".encode()))
        longest, wanted = time.perf_counter() - start, whole.tables()
    for _ in range(stops):
        with Folder(tools) as at:
            before = at.with_register().tables()
            words = [*at.parish, "entries", at.file, "--source", "1", "--token", "batch"]
            process = subprocess.Popen(words, stdin=subprocess.PIPE, stdout=subprocess.PIPE, stderr=subprocess.DEVNULL)
            try:
                process.communicate(rows, timeout=rng.random() * longest)
            except subprocess.TimeoutExpired:
                process.kill()
                process.communicate()
            demand(at.tables() in (before, wanted), "a part of a batch is there")
            expect(at.entries(rows), written(f"made {count} entries, first 2\n".encode()))
            demand(at.tables() == wanted, "the tables differ")


TESTS = (
    a_page_of_a_register,
    batches_that_are_refused,
    a_source_is_looked_at_before_the_rows,
    a_batch_without_rows,
    a_batch_without_an_archive,
    the_longest_entry,
    roles_of_each_kind,
    one_entry_across_batches,
    a_token_of_a_batch,
    killed_in_a_batch,
    killed_and_run_again,
    a_wedding,
    the_same_rows_again,
    row_by_row,
    an_answer_before_the_next_row,
    nothing_to_do,
    spellings_of_rows,
    breaks_of_lines_in_texts,
    what_was_before,
    rows_that_are_no_requests,
    what_is_wrong_is_told,
    faults_that_cannot_be_told,
    a_fault_is_told_behind_its_answer,
    an_open_quote,
    a_file_with_two_names,
    going_back_to_a_copy,
    a_field_of_ten_million_bytes,
    init_over_an_archive,
    init_over_another_database,
    init_over_an_empty_file,
    a_society_without_a_name,
    the_society_is_kept,
    apply_without_an_archive,
    a_folder_as_file,
    a_folder_that_is_not_there,
    a_file_that_is_no_database,
    other_versions,
    two_programs_at_once,
    an_output_that_is_full,
    a_reader_that_left,
    an_output_that_fails,
    an_input_that_fails,
    a_copy_is_an_archive,
    init_takes_no_input,
    a_full_disk,
    no_place_on_the_disk,
)


def cases(tools: Tools):
    for test in TESTS:
        yield Case(f"archives: {test.__name__.replace('_', ' ')}", lambda test=test: test(tools))
