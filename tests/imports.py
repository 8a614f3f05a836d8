"""Files imported into archives: what is reported, what stays, what a stop leaves, and what an export has."""

from __future__ import annotations

import os
import random
import re
import subprocess
import time

from archives import BAPTISM, generated
from exports import SOCIETY, Exported
from harness import (
    ROOT, WANTS, Case, Outcome, Tools, demand, difference, expect, pipe_without_reader, refused, refused_row, run,
    unopened, written,
)
from lineages import drawn
from memory import apart
from refusing import built, refusing
from table.making import between

# a person that a family does not name, and a pointer to nothing
LEE = between("0 @I1@ INDI", "1 NAME Ann /Lee/", "1 FAMC @F1@", "1 NOTE @N9@", "0 @F1@ FAM")
LEE_TOLD = b"imported 2 records, first 1\nline 5: dangling\n"
BORN = between("0 @I1@ INDI", "1 BIRT", "2 PLAC Ashby, Kent")
ENTRY = ("1 SOUR @S1@", "1 PAGE f. 3", "1 _ITEM 1", "1 TEXT Ann", "1 _MENT Ann Lee", "2 _ROLE buried")
TWICE = between("0 @S1@ SOUR", "0 @E1@ _REG BURIAL", *ENTRY, "0 @E2@ _REG BURIAL", *ENTRY)

# files, what is told of each in a new archive, and the records that are exported then
FILES = {
    "nothing": (between(), "imported 0 records, first 1\n", ""),
    "a person whom the family does not name": (
        LEE,
        LEE_TOLD.decode(),
        "0 @I1@ INDI\n1 NAME Ann /Lee/\n1 FAMC @F2@\n0 @F2@ FAM\n1 CHIL @I1@\n",
    ),
    "places made for an event": (
        BORN,
        "imported 4 records, first 1\n",
        "0 @P3@ _LOC\n1 NAME Kent\n0 @P4@ _LOC\n1 NAME Ashby\n1 _LOC @P3@\n"
        "0 @I1@ INDI\n1 BIRT\n2 PLAC Ashby, Kent\n3 _LOC @P4@\n",
    ),
    "two husbands, and a child twice": (
        between("0 @F1@ FAM", "1 HUSB @I1@", "1 HUSB @I2@", "1 CHIL @I3@", "1 CHIL @I3@", "1 CHIL @I1@",
                "0 @I1@ INDI", "1 FAMC @F1@", "0 @I2@ INDI", "1 FAMS @F1@", "1 FAMS @F1@", "0 @I3@ INDI",
                "1 FAMS @F1@"),
        "imported 4 records, first 1\nline 6: doubled\nline 7: doubled\nline 9: one-sided\nline 12: doubled\n"
        "line 14: one-sided\n",
        "0 @I2@ INDI\n1 FAMS @F1@\n0 @I3@ INDI\n1 FAMS @F1@\n0 @I4@ INDI\n1 FAMC @F1@\n"
        "0 @F1@ FAM\n1 HUSB @I2@\n1 HUSB @I3@\n1 CHIL @I4@\n",
    ),
    "values where none belongs, and what nobody knows": (
        between("0 @I1@ INDI Ann", "1 SEX X", "1 SEX F", "1 _UID 7", "2 @A@ NOTE a", "0 NOTE a", "1 RIN 3",
                "0 OBJE @I1@", "0 OBJE @O9@", "1 FILE a.png"),
        "imported 3 records, first 1\nline 2: value dropped\nline 10: dangling\n",
        "0 @I1@ INDI\n1 SEX F\n1 SEX X\n1 _UID 7\n2 NOTE a\n0 @X2@ NOTE a\n1 RIN 3\n0 @X3@ OBJE @I1@\n",
    ),
    "a register entry, linked, and one that is none": (
        between("0 @S1@ SOUR", "1 TITL Register", "0 @E1@ _REG BURIAL", *ENTRY, "2 _LINK @I1@", "3 _WHY same farm",
                "0 @I1@ INDI", "0 @E2@ _REG BURIAL", *ENTRY[:-1], "2 _ROLE child"),
        "imported 4 records, first 1\n",
        "0 @S1@ SOUR\n1 TITL Register\n0 @I3@ INDI\n0 @E2@ _REG BURIAL\n1 SOUR @S1@\n1 PAGE f. 3\n1 _ITEM 1\n"
        "1 TEXT Ann\n1 _MENT Ann Lee\n2 _ROLE buried\n2 _LINK @I3@\n3 _WHY same farm\n"
        "0 @X4@ _REG BURIAL\n1 SOUR @S1@\n1 PAGE f. 3\n1 _ITEM 1\n1 TEXT Ann\n1 _MENT Ann Lee\n2 _ROLE child\n",
    ),
}


class Imported(Exported):
    """A folder with an archive that files are imported into."""

    def import_(self, given, token="t", *options, **how):
        return run(self.parish, ("import", self.file, "--token", token, *options), given, **how)

    def records(self):
        """What is exported, without the header and the trailer."""
        text = self.export().out.decode()
        begun = text.index(f"1 NAME {SOCIETY}\n") + len(f"1 NAME {SOCIETY}\n")
        return text[begun : -len("0 TRLR\n")]


def renumbered(text):
    """An export whose records are numbered anew, in the order in which they stand."""
    names = re.findall(rb"(?m)^0 (@[A-Z]\d+@) ", text)
    new = {name: b"@%c%d@" % (name[1], number) for number, name in enumerate(names, 1)}
    return re.sub(rb"(?m)(?<=^0 )@[A-Z]\d+@(?= )|(?<= )@[A-Z]\d+@$", lambda it: new.get(it[0], it[0]), text)


def worked_files(tools):
    for name, (given, told, records) in FILES.items():
        with Imported(tools) as at:
            expect(at.made().import_(given), written(told.encode()))
            demand(at.records() == records, f"{name}: {difference(records.encode(), at.records().encode())}")
            kept = at.tables()
            expect(at.import_(given), written(told.encode()))
            demand(at.tables() == kept, f"{name}: the same again changed something")


def by_another_token(tools):
    """The file is taken in once more; its places are those that stand."""
    with Imported(tools) as at:
        expect(at.made().import_(BORN), written(b"imported 4 records, first 1\n"))
        expect(at.import_(BORN, "u"), written(b"imported 2 records, first 5\n"))
        demand("0 @I5@ INDI\n1 BIRT\n2 PLAC Ashby, Kent\n3 _LOC @P4@\n" in at.records(), at.records())
        expect(at.import_(between(), "v"), written(b"imported 0 records, first 7\n"))


def the_same_file_spelled_otherwise(tools):
    """It is the same request, and its report is of the lines at hand."""
    other = LEE.replace(b"\n", b"\r\n").replace(b"1 NAME", b"\t1 NAME").replace(b"0 @F1@", b"00  @F1@")
    other = b"\xef\xbb\xbf" + other
    with Imported(tools) as at:
        expect(at.made().import_(LEE), written(LEE_TOLD))
        expect(at.import_(other), written(LEE_TOLD))
        expect(at.import_(LEE.replace(b"Ann", b"Eva")), refused(52))
        expect(at.apply(b"t,person,Ann,F\n").out and at.import_(LEE), written(LEE_TOLD))


def refused_files(tools):
    """The line is named, and nothing is there then."""
    files = (
        (b"", 21, 1),
        (b"0 HEAD\n", 22, 2),
        (LEE[:-9], 22, 7),
        (between("2 CHAR UTF-8"), 20, 2),
        (between("1 NOTE a\0b"), 15, 2),
        (between("0 @I1@ INDI", "0 @I1@ INDI"), 26, 3),
        (TWICE, 60, 10),
    )
    says = b"parish: 29 Charset at line 2\n  CHAR is ANSEL: parish convert makes the file UTF-8\n"
    with Imported(tools) as at:
        kept = at.made().tables()
        for given, number, line in files:
            expect(at.import_(given), refused(number, line))
            demand(at.tables() == kept, f"{number} changed something")
        expect(at.import_(between("1 CHAR ANSEL")), Outcome(b"", says, 1))
        demand(at.tables() == kept, "29 changed something")
        expect(at.import_(LEE), written(LEE_TOLD))


def a_key_that_the_archive_has(tools):
    """Entries of one file are looked at, not those of the archive: an import makes a source of its own for them."""
    once = TWICE.replace(TWICE[TWICE.index(b"0 @E2@") : TWICE.index(b"0 TRLR")], b"")
    with Imported(tools) as at:
        expect(at.made().import_(once), written(b"imported 2 records, first 1\n"))
        expect(at.import_(once, "u"), written(b"imported 2 records, first 3\n"))


def words_that_are_no_token(tools):
    """93 comes before the file is looked for, and that before the input is read."""
    with Imported(tools) as at:
        for token in ("", "a b", "x" * 65, "é"):
            expect(at.import_(LEE, token), refused(93))
        demand(not os.listdir(at.path), "a file was made")
        expect(at.import_(b"no file"), refused(82))
        demand(not os.listdir(at.path), "a file was made")
        expect(at.made().import_(b"no file", "a b"), refused(93))
        expect(at.import_(LEE, "x" * 64), written(LEE_TOLD))


def other_files(tools):
    with Imported(tools) as at:
        with open(at.file, "wb") as file:
            file.write(b"x" * 5_000)
        expect(at.import_(LEE), unopened("no database"))
    with Imported(tools) as at:
        expect(at.made().other_database("UPDATE meta SET version = 3").import_(LEE), refused(83))


def no_number_left(tools):
    with Imported(tools) as at:
        at.made().other_database("UPDATE meta SET next = 4294967295")
        expect(at.import_(LEE), refused(63))
        expect(at.import_(between("0 @I1@ INDI")), written(b"imported 1 records, first 4294967295\n"))
        expect(at.import_(between("0 @I1@ INDI"), "u"), refused(63))
        expect(at.import_(between(), "u"), refused(63))
        expect(at.import_(TWICE, "u"), refused(60, 10))
        expect(at.import_(between("0 @I1@ INDI")), written(b"imported 1 records, first 4294967295\n"))


def there_and_back(tools, seed, files=60):
    """What is exported of an imported file is imported without a line of the report, and exported as the same again, up
    to the numbers."""
    for number in range(files):
        with Imported(tools) as first, Imported(tools) as second:
            told = first.made().import_(drawn(seed, number))
            if told.status:
                expect(told, Outcome(b"", told.err, 1))
                demand(told.err.startswith(b"parish: 60 "), f"file {number}: {told.err!r}")
                continue
            text = first.export().out
            expect(run(tools.parish, ("norm",), text), written(text))
            again = second.made().import_(text)
            demand(again.status == 0 and again.out.count(b"\n") == 1, f"file {number}: {again}")
            count = re.match(rb"imported (\d+) ", told.out)
            demand(again.out.startswith(b"imported %s " % count[1]), f"file {number}: {told.out!r} {again.out!r}")
            wanted, got = renumbered(text), renumbered(second.export().out)
            demand(wanted == got, f"file {number}: {difference(wanted, got)}")


def among_rows(tools):
    """Into an archive with rows, entries and merges; then a merge of persons of the file that a carried line and
    another record name, and its undo."""
    given = between("0 @I1@ INDI", "1 NAME Ann /Lee/", "1 ASSO @I2@", "0 @I2@ INDI", "1 NAME Anne /Lee/",
                    "0 OBJE @I2@", "0 @F1@ FAM", "1 WIFE @I2@")
    with Imported(tools) as at:
        at.made().apply(generated(5, 200))
        first = int(at.import_(between(), "none").out.split()[-1])
        kept = at.records()
        expect(at.import_(given), written(f"imported 4 records, first {first}\n".encode()))
        made, both = at.records(), f"m,merge,{first},{first + 1}\n".encode()
        demand(made.count("\n") == kept.count("\n") + 9, "the records of before changed")
        expect(at.apply(both), written(f"m,ok,{first + 4},1\n".encode()))
        merged = at.records()
        demand(f"@I{first + 1}@" not in merged and f"1 ASSO @I{first}@" in merged, "the person is named still")
        demand(f"OBJE @I{first}@" in merged and f"1 WIFE @I{first}@" in merged, "the person is named still")
        expect(at.apply(f"u,undo,{first + 4}\n".encode()), written(b"u,ok,0,0\n"))
        demand(at.records() == made, "the undo left something")
        expect(at.import_(given), written(f"imported 4 records, first {first}\n".encode()))


def an_output_that_is_full(tools):
    """95: the file is taken in all the same, and is told when it comes again."""
    with Imported(tools) as at:
        at.made()
        with open("/dev/full", "wb") as full:
            expect(at.import_(LEE, stdout=full), refused(95))
        with pipe_without_reader() as writing:
            expect(at.import_(BORN, "u", stdout=writing), refused(95))
        expect(at.import_(LEE), written(LEE_TOLD))
        expect(at.import_(BORN, "u"), written(b"imported 4 records, first 3\n"))


def an_input_that_fails(tools):
    with Imported(tools) as at:
        kept = at.made().tables()
        folder = os.open(at.path, os.O_RDONLY)
        try:
            expect(at.import_(b"", stdin=folder), refused(94))
        finally:
            os.close(folder)
        demand(at.tables() == kept, "something was taken in")


def opened_again(at):
    """The tables after an opening, which removes what an import left that did not end."""
    told = run(at.parish, ("audit", at.file))
    demand(told.status == 0, f"the archive is not sound: {told.err!r}")
    return at.tables()


def killed_after(words, given, seconds):
    """A program that is killed after so many seconds, if it has not ended."""
    process = subprocess.Popen(words, stdin=subprocess.PIPE, stdout=subprocess.PIPE, stderr=subprocess.DEVNULL)
    try:
        process.communicate(given, timeout=seconds)
    except subprocess.TimeoutExpired:
        process.kill()
        process.communicate()


def killed_in_an_import(tools, stops=10, persons=600, seed=10):
    """A program that is killed while it imports, and the next one too, which takes out what it left, leaves the whole
    file or nothing, and the file sent again gets the answer of a run that was not stopped; so does a person after it.
    """
    given = between(*(line for n in range(persons) for line in (f"0 @I{n}@ INDI", "1 BIRT", f"2 PLAC Ashby {n % 50}")))
    rng = random.Random(seed)
    counted = {"absent": 0, "whole": 0, "begun": 0, "partly taken out": 0}
    with Imported(tools) as whole:
        whole.made()
        start = time.perf_counter()
        told = whole.import_(given)
        longest, wanted = time.perf_counter() - start, whole.tables()
        expect(told, written(f"imported {2 * persons + 50} records, first 1\n".encode()))
        person = whole.apply(b"new,person,Nora /New/,F\n")
    for _ in range(stops):
        with Imported(tools) as at:
            before = at.made().tables()
            killed_after([*at.parish, "import", at.file, "--token", "t"], given, rng.random() * longest)
            left = at.tables()
            killed_after([*at.parish, "audit", at.file], b"", rng.random() * longest / 2)
            counted["partly taken out"] += at.tables() not in (left, before)
            found = opened_again(at)
            demand(found in (before, wanted), "a part of a file is there")
            counted["whole" if found == wanted else "absent"] += 1
            counted["begun"] += left not in (before, wanted)
            expect(at.import_(given), told)
            demand(at.tables() == wanted, "the tables differ")
            expect(at.apply(b"new,person,Nora /New/,F\n"), person)
    return counted


def refused_memory(tools):
    """1, or 80 where the database wanted it; the file is taken in whole or not at all, and is told when it comes
    again."""
    with Imported(tools) as whole:
        told, wanted = whole.made().import_(LEE), whole.tables()
        library = built(whole.path)
        for number in apart():
            with Imported(tools) as at:
                before = at.made().tables()
                mark = os.path.join(at.path, str(number))
                got = at.import_(LEE, env=refusing(number, library, mark))
                if not os.path.exists(mark):
                    expect(got, told)
                    demand(number > 100, f"it has only {number} growths")
                    return
                demand(got.status == 1 and got.err in WANTS, f"growth {number}: {got}")
                demand(opened_again(at) in (before, wanted), f"growth {number}: a part of the file is there")
                expect(at.import_(LEE), told)


def the_samples(tools):
    for name in ("family.ged", "register.ged", "ashby.ged"):
        with open(os.path.join(ROOT, "samples", name), "rb") as file:
            given = file.read()
        with Imported(tools) as at:
            told = at.made().import_(given)
            demand(told.status == 0, f"{name}: {told}")
            expect(at.import_(given), told)


PROGRAMS = ("gramps", "geneweb", "webtrees", "ancestral_quest", "paf", "legacy", "family_tree_maker")


def of_program(name):
    """A file in the manner of a program, what is told of it in a new archive, and the records of its export."""
    for ending in (".ged", ".report.txt", ".records.ged"):
        with open(os.path.join(ROOT, "tests/programs", name + ending), "rb") as file:
            yield file.read()


def files_of_other_programs(tools):
    for name in PROGRAMS:
        given, told, records = of_program(name)
        with Imported(tools) as at:
            expect(at.made().import_(given), written(told))
            got = at.records().encode()
            demand(got == records, f"{name}: {difference(records, got)}")
            expect(at.import_(given), written(told))
            demand(at.records().encode() == got, f"{name}: the same again changed something")


def an_entry_of_a_file(tools):
    """It is an entry as those of rows are: its key is taken, and its mentions can be linked."""
    given = between("0 @S1@ SOUR", "0 @E1@ _REG BAPTISM", "1 SOUR @S1@", "1 PAGE f. 3", "1 _ITEM 1", "1 TEXT John",
                    "1 _MENT John", "2 _ROLE child", "0 @I1@ INDI")
    with Imported(tools) as at:
        expect(at.made().import_(given), written(b"imported 3 records, first 1\n"))
        expect(at.entries(BAPTISM.encode() + b"\n"), refused_row(60, 1))
        expect(at.apply(b"l,link,2,1,3,same farm\n"), written(b"l,ok,0,0\n"))


MANY = between(*(line for n in range(2_000) for line in (f"0 @I{n}@ INDI", "1 BIRT", f"2 PLAC Ashby {n % 50}")))


# The tables whose rows an import has.
STAGED = ("record", "line", "link", "sought", "span")


def how_far_it_is(tools):
    """With --progress standard error has lines `staged <n> of <m> rows` with n going up to m, the number of rows that
    the archive got. All else is as without it."""
    for given in (between(), LEE, BORN, MANY):
        with Imported(tools) as silent, Imported(tools) as at:
            told = silent.made().import_(given)
            expect(told, written(told.out))
            got = at.made().import_(given, "t", "--progress")
            expect(Outcome(got.out, b"", got.status), told)
            demand(at.tables() == silent.tables(), "the tables differ")
            rows = sum(len(at.rows_of(f"SELECT * FROM {name}")) for name in STAGED)
            lines = re.fullmatch(rb"((?:staged \d+ of %d rows\n)*)staged %d of %d rows\n" % ((rows,) * 3), got.err)
            demand(lines, f"{rows} rows: {got.err!r}")
            counts = [int(count) for count in re.findall(rb"staged (\d+) of", got.err)]
            demand(counts == sorted(set(counts)), f"{rows} rows: {got.err!r}")
            expect(at.import_(given, "t", "--progress"), told)


def how_far_it_is_where_it_is_refused(tools):
    with Imported(tools) as at:
        at.made()
        expect(at.import_(TWICE, "t", "--progress"), refused(60, 10))
        expect(at.import_(b"", "t", "--progress"), refused(21, 1))
        expect(at.import_(LEE, "a b", "--progress"), refused(93))


def how_far_it_is_on_a_full_device(tools):
    """What cannot be told changes nothing."""
    with Imported(tools) as at:
        at.made()
        with open("/dev/full", "wb") as full:
            expect(at.import_(LEE, "t", "--progress", stderr=full), written(LEE_TOLD))
        with pipe_without_reader() as writing:
            expect(at.import_(LEE, "u", "--progress", stderr=writing), written(LEE_TOLD.replace(b"1\n", b"3\n", 1)))


TESTS = (
    killed_in_an_import,
    refused_memory,
    worked_files,
    by_another_token,
    the_same_file_spelled_otherwise,
    refused_files,
    a_key_that_the_archive_has,
    words_that_are_no_token,
    other_files,
    no_number_left,
    among_rows,
    an_output_that_is_full,
    an_input_that_fails,
    the_samples,
    files_of_other_programs,
    an_entry_of_a_file,
    how_far_it_is,
    how_far_it_is_where_it_is_refused,
    how_far_it_is_on_a_full_device,
)


def cases(tools: Tools):
    for seed in range(1, 6):
        yield Case(f"imports: there and back, seed {seed}", lambda seed=seed: there_and_back(tools, seed))
    for test in TESTS:
        yield Case(f"imports: {test.__name__.replace('_', ' ')}", lambda test=test: test(tools))
