"""The file that `import --report` makes: its text, that it overwrites nothing, and when there is none.

Each text is written by hand from docs/FORMATS.md, but for the numbers in files that are drawn: those are looked up in
an export.
"""

from __future__ import annotations

import os
import re

from devices import each_place
from failing import compiled, failing, killed
from harness import (
    WANTS, Case, Outcome, Tools, demand, difference, expect, pipe_without_reader, refused, refused_with, tally,
    written,
)
from imports import BORN, ENTRY, LEE, LEE_TOLD, TWICE, Imported, opened_again
from lineages import drawn
from memory import apart
from refusing import built, refusing
from table.making import between

HEADED = between(
    "1 SOUR GRAMPS", "2 VERS 5.1.6", "2 CORP Ashby Society", "3 ADDR Mill Field", "4 CONT Ashby", "1 CHAR UTF-8",
    "2 VERS 14.0", "1 GEDC", "2 VERS 5.5.1", "2 FORM LINEAGE-LINKED", "1 SUBM @U1@", "1 COPR",
    "1 NOTE From the papers of", "2 CONT Thomas Lee, of As", "2 CONC hby: lee@@ashby.example", "2 CONT",
    "2 CONT to be \u202echecked", "2 SOUR a chest", "0 @I0044@ INDI", "1 NAME Ann /Lee/", "1 BIRT",
    "2 PLAC Ashby, Kent", "1 FAMC @F1@", "1 NOTE @N9@", "0 @I2@ INDI", "1 NAME Thomas /Lee/", "1 FAMS @F1@",
    "1 FAMS @F1@", "0 INDI", "1 NAME Nora /New/", "0 @F1@ FAM", "1 HUSB @I2@", "1 CHIL @I0044@", "0 @SOCIETY@ SUBM",
    "1 NAME Another", "0 @S1@ SOUR", "1 TITL Register", "0 @R1@ REPO", "1 NAME Church of Ashby", "0 @P1@ _LOC",
    "1 NAME Hill End", "0 @N1@ NOTE A note", "0 @E1@ _REG BURIAL", *ENTRY, "0 @O1@ OBJE @O9@", "0 @U1@ SUBM",
    "1 NAME Ann Lee",
)
TOLD = b"imported 13 records, first 1\nline 25: dangling\nline 29: doubled\nline 51: dangling\n"
# The birth is 2, Kent 3, Ashby 4, and the person without a cross reference 6.
REPORT = b"""line 2: head: 1 SOUR GRAMPS
line 3: head: 2 VERS 5.1.6
line 4: head: 2 CORP Ashby Society
line 5: head: 3 ADDR Mill Field Ashby
line 12: head: 1 SUBM @U1@
line 13: head: 1 COPR
line 14: head: 1 NOTE From the papers of Thomas Lee, of Ashby: lee@ashby.example  to be  checked
line 19: head: 2 SOUR a chest
line 20: @I0044@ is person 1
line 26: @I2@ is person 5
line 32: @F1@ is family 7
line 37: @S1@ is source 8
line 39: @R1@ is repository 9
line 41: @P1@ is place 10
line 43: @N1@ is record 11
line 44: @E1@ is record 12
line 52: @U1@ is record 13
line 25: dangling
line 29: doubled
line 51: dangling
"""
LEE_REPORT = b"line 2: @I1@ is person 1\nline 6: @F1@ is family 2\nline 5: dangling\n"

THERE = refused_with(80, "the file of the report is there already: name another")
NOT_MADE = refused_with(80, "the file of the report cannot be made")
DONE_BEFORE = b"  the import was done before: its report was made then\n"


class Reported(Imported):
    """A folder with an archive that files are imported into, and with the reports."""

    def at(self, name):
        return os.path.join(self.path, name)

    def reported(self, given, token="t", name="report.txt", *options, **how):
        return self.import_(given, token, "--report", self.at(name), *options, **how)

    def report(self, name="report.txt"):
        """The bytes of a report, or None if there is none."""
        if not os.path.lexists(self.at(name)):
            return None
        with open(self.at(name), "rb") as file:
            return file.read()

    def demand_report(self, wanted, name="report.txt"):
        got = self.report(name)
        demand(got is not None, f"there is no {name}")
        demand(got == wanted, difference(wanted, got))

    def demand_none(self, what, name="report.txt"):
        demand(not os.path.lexists(self.at(name)), f"{what}: there is a report")


def the_text(tools):
    for given, told, report in (
        (HEADED, TOLD, REPORT),
        (LEE, LEE_TOLD, LEE_REPORT),
        (BORN, b"imported 4 records, first 1\n", b"line 2: @I1@ is person 1\n"),
        (between(), b"imported 0 records, first 1\n", b""),
    ):
        with Reported(tools) as at:
            expect(at.made().reported(given), written(told))
            at.demand_report(report)


def all_else_is_as_without_it(tools):
    with Reported(tools) as silent, Reported(tools) as at:
        expect(silent.made().import_(HEADED), written(TOLD))
        expect(at.made().reported(HEADED), written(TOLD))
        demand(at.tables() == silent.tables(), "the tables differ")
        demand(at.records() == silent.records(), "the exports differ")
        new = set(os.listdir(at.path)) - set(os.listdir(silent.path))
        demand(new == {"report.txt"}, f"there is {sorted(new)}")


def beside_progress(tools):
    with Reported(tools) as at:
        got = at.made().reported(HEADED, "t", "report.txt", "--progress")
        expect(Outcome(got.out, b"", got.status), written(TOLD))
        demand(re.fullmatch(rb"(staged \d+ of (\d+) rows\n)*staged (\d+) of \3 rows\n", got.err), f"{got.err!r}")
        at.demand_report(REPORT)


def a_file_spelled_otherwise(tools):
    """Blank lines are not counted."""
    with Reported(tools) as at:
        expect(at.made().reported(b"\xef\xbb\xbf" + HEADED.replace(b"\n", b"\r\n\r\n")), written(TOLD))
        at.demand_report(REPORT)


def numbers_of_the_archive(tools):
    """Two numbers are drawn for the file that is imported again, whose places are there."""
    with Reported(tools) as at:
        expect(at.made().import_(BORN), written(b"imported 4 records, first 1\n"))
        expect(at.reported(BORN, "u"), written(b"imported 2 records, first 5\n"))
        at.demand_report(b"line 2: @I1@ is person 5\n")
        expect(at.reported(LEE, "v", "second.txt"), written(LEE_TOLD.replace(b"first 1", b"first 7")))
        at.demand_report(b"line 2: @I1@ is person 7\nline 6: @F1@ is family 8\nline 5: dangling\n", "second.txt")
        at.demand_report(b"line 2: @I1@ is person 5\n")


def what_is_there_already(tools):
    """It stays, and so does the archive; it may be the archive."""
    with Reported(tools) as at:
        kept = at.made().tables()
        for text in (b"", b"something else\n"):
            with open(at.at("report.txt"), "wb") as file:
                file.write(text)
            expect(at.reported(LEE), THERE)
            at.demand_report(text)
        expect(at.import_(LEE, "t", "--report", at.file), THERE)
        expect(at.import_(LEE, "t", "--report", at.path), THERE)
        os.symlink(at.at("nowhere"), at.at("link"))
        expect(at.reported(LEE, "t", "link"), THERE)
        at.demand_none("a link to nothing", "nowhere")
        demand(at.tables() == kept, "something was imported")
        expect(at.reported(LEE, "t", "another.txt"), written(LEE_TOLD))
        at.demand_report(LEE_REPORT, "another.txt")


def what_cannot_be_made(tools):
    with Reported(tools) as at:
        kept = at.made().tables()
        names = set(os.listdir(at.path))
        for name in ("folder/report.txt", "ashby.db/report.txt", "x" * 300, "ashby.db-wal", "another.db-wal"):
            expect(at.reported(LEE, "t", name), NOT_MADE)
        expect(at.import_(LEE, "t", "--report", ""), NOT_MADE)
        demand(at.tables() == kept, "something was imported")
        demand(set(os.listdir(at.path)) == names, f"there is {os.listdir(at.path)}")


def a_refused_import(tools):
    with Reported(tools) as at:
        for token, number in (("a b", 93), ("t", 82)):
            expect(at.reported(LEE, token), refused(number))
            demand(not os.listdir(at.path), f"{number}: there is {os.listdir(at.path)}")
        expect(at.import_(LEE, "t", "--report", at.file), refused(82))
        demand(not os.listdir(at.path), f"there is {os.listdir(at.path)}")
        expect(at.made().import_(LEE, "used"), written(LEE_TOLD))
        kept = at.tables()
        for given, token, number, line in (
            (b"", "t", 21, 1), (LEE[:-9], "t", 22, 7), (TWICE, "t", 60, 10), (BORN, "used", 52, None),
        ):
            expect(at.reported(given, token), refused(number, line))
            at.demand_none(number)
        demand(at.tables() == kept, "something was imported")
        folder = os.open(at.path, os.O_RDONLY)
        try:
            expect(at.reported(b"", stdin=folder), refused(94))
        finally:
            os.close(folder)
        at.demand_none(94)
        expect(at.reported(LEE), written(LEE_TOLD.replace(b"first 1", b"first 3")))


def a_token_used_before(tools):
    """The answer is that of before; a report of the first time stays."""
    with Reported(tools) as at:
        expect(at.made().import_(HEADED), written(TOLD))
        expect(at.reported(HEADED), Outcome(TOLD, DONE_BEFORE, 0))
        at.demand_none("an import without a report")
        expect(at.reported(LEE, "u"), written(LEE_TOLD.replace(b"first 1", b"first 14")))
        report, kept = at.report(), at.tables()
        expect(at.reported(LEE, "u"), THERE)
        expect(at.reported(LEE, "u", "again.txt"), Outcome(LEE_TOLD.replace(b"first 1", b"first 14"), DONE_BEFORE, 0))
        at.demand_none("a second time", "again.txt")
        at.demand_report(report)
        demand(at.tables() == kept, "something was imported")


def an_output_that_is_full(tools):
    """95: the file is imported all the same, and the report is there."""
    with Reported(tools) as at:
        at.made()
        with open("/dev/full", "wb") as full:
            expect(at.reported(LEE, stdout=full), refused(95))
        at.demand_report(LEE_REPORT)
        with pipe_without_reader() as writing:
            expect(at.reported(BORN, "u", "second.txt", stdout=writing), refused(95))
        at.demand_report(b"line 2: @I1@ is person 3\n", "second.txt")
        expect(at.import_(LEE), written(LEE_TOLD))


KINDS = {"INDI": ("person", "I"), "FAM": ("family", "F"), "SOUR": ("source", "S"), "REPO": ("repository", "R"),
         "_LOC": ("place", "P")}
NODE = re.compile(r"0 (?:(@\w+@) )?(\w+)(?: (.*))?")
POINTER = re.compile(r" *(@\w+@) *")


def records_of(given):
    """Of each node of level 0 that becomes a record: the number of its line, its cross reference and its tag."""
    nodes = [(number, *NODE.fullmatch(line).groups()) for number, line in enumerate(given.decode().split("\n"), 1)
             if line.startswith("0 ")][1:-1]
    nodes = [it for it in nodes if it[1:3] != ("@SOCIETY@", "SUBM")]
    while True:
        names = {it[1] for it in nodes}
        kept = [it for it in nodes if it[2] in KINDS or not (named := POINTER.fullmatch(it[3] or ""))
                or named[1] in names]
        if len(kept) == len(nodes):
            return [it[:3] for it in nodes]
        nodes = kept


def files_that_are_drawn(tools, seed, files=30):
    """Each record with a cross reference is named, in order, with the number that it has in an export."""
    for number in range(files):
        given = drawn(seed, number)
        with Reported(tools) as at:
            told = at.made().reported(given)
            if told.status:
                demand(told.err.startswith(b"parish: 60 "), f"file {number}: {told.err!r}")
                at.demand_none(f"file {number}")
                continue
            report, export = at.report().decode(), at.export().out.decode()
            found = re.findall(r"line (\d+): (@\w+@) is (\w+) (\d+)\n", report)
            named = [it for it in records_of(given) if it[1]]
            wanted = [(str(line), name, KINDS.get(tag, ("record",))[0]) for line, name, tag in named]
            demand([it[:3] for it in found] == wanted, f"file {number}: {found}, and not {wanted}")
            numbers = [int(it[3]) for it in found]
            demand(numbers == sorted(set(numbers)), f"file {number}: {numbers}")
            for record, (_, name, tag) in zip(numbers, named, strict=True):
                letters = KINDS.get(tag, ("record", "EX"))[1]
                is_there = re.search(rf"(?m)^0 @[{letters}]{record}@ {tag}\b", export)
                demand(is_there, f"file {number}: {name} is no {tag} {record}")
            lines = "".join(f"line {line}: {name} is {kind} {record}\n" for line, name, kind, record in found)
            rest = told.out.partition(b"\n")[2].decode()
            demand(report == lines + rest, f"file {number}: {report!r}")


def failed_writes(tools):
    """95, with nothing imported and no report, at each write and sync of the report that fails."""
    with Reported(tools) as first:
        kept = first.made().tables()
        library = compiled(first.path)

        def is_failed(passed):
            with Reported(tools) as at:
                mark = at.at("mark")
                env = failing(library, os.path.realpath(at.made().at("report.txt")), passed, mark)
                got = at.reported(HEADED, env=env)
                if not os.path.exists(mark):
                    expect(got, written(TOLD))
                    at.demand_report(REPORT)
                    return False
                expect(got, refused(95))
                at.demand_none("a failed call")
                demand(opened_again(at) == kept, "something was imported")
                expect(at.reported(HEADED), written(TOLD))
                at.demand_report(REPORT)
                return True

        failed = each_place(is_failed)
        demand(failed >= 2, f"only {failed} calls failed, and not a write and a sync")
        tally("failed reads and writes", "a report of an import", failed)


def killed_with_a_report(tools):
    """A program that is killed at each change of a file leaves a whole report if the import is done. The file sent
    again, with another report, is imported with that report, or was imported before."""
    with Reported(tools) as whole:
        before = whole.made().tables()
        expect(whole.reported(HEADED), written(TOLD))
        wanted, library = whole.tables(), compiled(whole.path)
        for after in range(1, 10_000):
            with Reported(tools) as at:
                got = at.made().reported(HEADED, env=killed(library, after, os.path.realpath(at.path)))
                if got.status == 0:
                    expect(got, written(TOLD))
                    demand(after > 3, f"only {after - 1} calls")
                    return tally("stops", "a report of an import", after - 1)
                demand(got.status == -9, f"after {after} calls: {got}")
                found = opened_again(at)
                demand(found in (before, wanted), f"after {after} calls a part of the file is there")
                again = at.reported(HEADED, "t", "again.txt")
                if found == wanted:
                    at.demand_report(REPORT)
                    expect(again, Outcome(TOLD, DONE_BEFORE, 0))
                    at.demand_none(f"after {after} calls", "again.txt")
                else:
                    expect(again, written(TOLD))
                    at.demand_report(REPORT, "again.txt")


def refused_memory(tools):
    """1, or 80 where the database wanted it. There is a report only if it is whole, and there is one of an import that
    is done."""
    with Reported(tools) as whole:
        expect(whole.made().reported(HEADED), written(TOLD))
        wanted, library = whole.tables(), built(whole.path)
        for number in apart():
            with Reported(tools) as at:
                before = at.made().tables()
                mark = at.at("mark")
                got = at.reported(HEADED, env=refusing(number, library, mark))
                if not os.path.exists(mark):
                    expect(got, written(TOLD))
                    demand(number > 100, f"it has only {number} growths")
                    return
                errors = (*WANTS, NOT_MADE.err)
                demand(got.status == 1 and got.err in errors, f"growth {number}: {got}")
                found, report = opened_again(at), at.report()
                demand(found in (before, wanted), f"growth {number}: a part of the file is there")
                demand(report in (None, REPORT), f"growth {number}: the report is {report!r}")
                demand(found == before or report is not None, f"growth {number}: {got}, and there is no report")


TESTS = (
    killed_with_a_report,
    refused_memory,
    failed_writes,
    the_text,
    all_else_is_as_without_it,
    beside_progress,
    a_file_spelled_otherwise,
    numbers_of_the_archive,
    what_is_there_already,
    what_cannot_be_made,
    a_refused_import,
    a_token_used_before,
    an_output_that_is_full,
)


def cases(tools: Tools):
    for seed in (21, 22):
        yield Case(
            f"import reports: files that are drawn, seed {seed}",
            lambda seed=seed: files_that_are_drawn(tools, seed),
        )
    for test in TESTS:
        yield Case(f"import reports: {test.__name__.replace('_', ' ')}", lambda test=test: test(tools))
