"""`audit` by the executable, over archives that Python's sqlite3 has spoilt, each beside a sound neighbour
(spoilt.py)."""

from __future__ import annotations

from archives import generated, lines
from beside import link_of
from ends import each_growth_refused, refused_as_no_archive
from exports import ARCHIVES
from harness import Case, Tools, demand, expect, pipe_without_reader, refused, run, written
from imports import Imported
from spoilt import FILE, LATER, PAIRS, RECORDS, ROWS, Tables


class Audited(Imported):
    def audit(self, **how):
        return run(self.parish, ("audit", self.file), b"", **how)

    def of_pairs(self):
        """The archive that is spoilt."""
        self.with_rows(ROWS)
        expect(self.import_(FILE, "file"), written(b"imported 2 records, first 15\n"))
        answers = self.apply(lines(LATER)).out
        demand(answers.count(b",ok,") == len(LATER), f"{answers!r}")
        return self


def sound(count: int):
    return written(f"sound: {count} records\n".encode())


def archives_that_are_sound(tools):
    """Each archive by rows of the tests of exports, and drawn ones with merges; nothing changes."""
    with Audited(tools) as at:
        expect(at.made().audit(), sound(0))
    for name, (rows, _) in ARCHIVES.items():
        with Audited(tools) as at:
            before = at.with_rows(rows).tables()
            [(count,)] = at.rows_of("SELECT count(*) FROM record")
            got = at.audit()
            demand(got == sound(count), f"{name}: {got}")
            demand(at.tables() == before, f"{name}: the tables changed")
    for seed in range(5):
        with Audited(tools) as at:
            at.made().apply(generated(seed, 200))
            [(count,)] = at.rows_of("SELECT count(*) FROM record")
            expect(at.audit(), sound(count))


def a_citation_of_a_person(tools):
    """The worked example: source 1, person 2, citation 3 of source 1, which another program points at the person."""
    with Audited(tools) as at:
        at.with_rows(("a,source,Register,,,,", "b,person,Ann,F", "c,citation,2,1,,"))
        expect(at.audit(), sound(3))
        with Tables(at.file) as tables:
            tables.changed(3, 1, (*tables.lines(3)[1][:3], 2))
        told_of(at, "record 3", "2, which is no source", "the citation")


def rows_that_mean_nothing(tools):
    """Rows of `past`, and links that no record has: nothing is reported of them, all else is read, and they stay."""
    with Audited(tools) as at:
        exported = at.of_pairs().export()
        with Tables(at.file) as tables:
            rows = "(91, 5, 'e', '0 person'), (93, 4294967295, '', 'a\rb'), (99, 0, 'x', '')"
            tables.run(f"INSERT INTO past VALUES {rows}")
            for key in (link_of(5, 20), link_of(99, 7), link_of(5, 99), link_of(0, 0), link_of(4294967295, 4294967295)):
                tables.run("INSERT INTO link VALUES (?)", key)
        before = at.tables()
        expect(at.audit(), sound(RECORDS))
        expect(at.export(), exported)
        answers = at.apply(b"z1,remove,99\nz2,remove,7\nz3,remove,20\n").out
        demand(answers == b"z1,refused,50,NoSuch\nz2,refused,53,StillNamed\nz3,ok,0,0\n", f"{answers!r}")
        after = at.tables()
        *others, removed = after["past"]
        demand(others == before["past"] and after["link"] == before["link"], "rows of others went")
        demand(removed[:3] == (100, 20, "z3"), f"what was removed is kept as {removed}")
        expect(at.audit(), sound(RECORDS - 1))


def told_of(at, subject, words, name):
    """40 with status 1 and nothing on standard output; before it, where the lines are records, what is wrong."""
    got = at.audit()
    demand((got.status, got.out) == (1, b""), f"{name}: {got}")
    *told, last, hint = got.err.decode().splitlines(keepends=True)
    demand(last + hint == refused(40).err.decode(), f"{name}: {got.err!r}")
    if words:
        is_told = len(told) == 1 and subject in told[0] and words in told[0]
        demand(is_told, f"{name}: wanted {subject}: .. {words}, got {told}")


def pair_of(tools, pair):
    for change in (pair.spoilt, pair.sound):
        with Audited(tools) as at:
            at.of_pairs()
            with Tables(at.file) as tables:
                change(tables)
            before = at.tables()
            if change is pair.spoilt:
                told_of(at, pair.subject, pair.words, pair.name)
            else:
                [(count,)] = at.rows_of("SELECT count(*) FROM record")
                got = at.audit()
                demand(got == sound(count), f"beside {pair.name}: {got}")
                if count == RECORDS:
                    demand(at.export().status == 0, f"beside {pair.name}: no export")
            demand(at.tables() == before, f"{pair.name}: the tables changed")


def no_archive(tools):
    refused_as_no_archive(Audited, tools, Audited.audit)


def words_that_are_refused(tools):
    with Audited(tools) as at:
        at.made()
        for words in ((), (at.file, at.file), (at.file, "--today", "2024-01-01"), ("--all", at.file)):
            got = run(tools.parish, ("audit", *words))
            demand((got.status, got.out) == (2, b"") and got.err != b"", f"{words}: {got}")


def outputs_that_fail(tools):
    with Audited(tools) as at:
        at.made()
        with open("/dev/full", "wb") as full:
            expect(at.audit(stdout=full), refused(95))
        with pipe_without_reader() as writing:
            expect(at.audit(stdout=writing), refused(95))
        expect(at.audit(), sound(0))


def refused_memory(tools):
    """1, or 80 where the database wanted it, never an answer that is not so."""
    with Audited(tools) as at:
        expect(at.of_pairs().audit(), sound(RECORDS))
        each_growth_refused(at, at.audit)


TESTS = (
    archives_that_are_sound,
    a_citation_of_a_person,
    rows_that_mean_nothing,
    no_archive,
    words_that_are_refused,
    outputs_that_fail,
    refused_memory,
)


def cases(tools: Tools):
    for test in TESTS:
        yield Case(f"audits: {test.__name__.replace('_', ' ')}", lambda test=test: test(tools))
    for pair in PAIRS:
        yield Case(f"audits: {pair.name}, and its neighbour", lambda pair=pair: pair_of(tools, pair))
