"""Archives that released versions made (made_archives.py), opened by the executable: every command gives what it has to
give and leaves all records, and a copy goes to a later version and back as docs/KEEPING.md says.

What is expected lies beside each archive in tests/earlier/VERSION: of the reference, or written by hand.
"""

from __future__ import annotations

import os
import shutil
import sqlite3
import tempfile

from archives import NAME, Folder, answered
from beside import links_of, sought_of
from calendars import span_of
from harness import ROOT, Case, Outcome, Tools, demand, difference, expect, refused, run, written
from interchange.kept_lines import Archive, Records, holds, normal
from made_archives import (
    EXPORTS, HERE, LAST, STEPS, TODAY, UNDONE, contents, given_to, made, rows_in, transcript, version_folder,
)
from packed import PACKS, unpack
from rooms import visited
from visits import answer, request

# Of `export --plain`: a place that nothing names, and a sex of the person who was merged.
LEFT_OUT = b"  left out: 1 place that nothing names\n  left out: 1 second sex of a person\n"
LATER = 3  # the version of archives after those
LIVING = (b"Eva", b"Anne")


class Released(Folder):
    """A folder with the archive that a version made, or the one that a stop left."""

    def __init__(self, tools: Tools, version: str):
        super().__init__(tools)
        self.kept = version_folder(version)

    def of(self, name: str = "archive.db") -> Released:
        """The archive is there, with its log if it has one."""
        for end in ("", "-wal"):
            if os.path.exists(os.path.join(self.kept, name + end)):
                shutil.copyfile(os.path.join(self.kept, name + end), self.file + end)
        return self

    def has(self, name: str) -> bytes:
        return contents(self.kept, name)

    def run(self, command: str, *words: str, given: bytes = b"") -> Outcome:
        return run(self.parish, (command, self.file, *words), given)

    def gives(self, name: str, *words: str) -> None:
        """Its export is that of a file beside the archive."""
        expect(self.run("export", *words), written(self.has(name)))

    def steps_again(self) -> None:
        """Each request is answered as it was; a refused row is refused once more."""
        got = [self.run(step.command, *step.words, given=given_to(self.kept, step)) for step in STEPS[1:]]
        out = b"".join(one.out for one in got)
        demand(out == self.has("answers.txt"), difference(self.has("answers.txt"), out))
        demand(all(one.status == 0 for one in got), f"{got}")

    def last_rows(self) -> None:
        answered(self.run(LAST.command, given=given_to(self.kept, LAST)), self.has("last.txt"))

    def packs(self) -> dict[int, list]:
        """The lines of each record, read from the tables."""
        return {no: unpack(tag, text, named) for no, _, _, tag, text, named in self.rows_of(PACKS)}

    def put_away(self) -> None:
        """FILE and its log are moved away together."""
        for end in ("", "-wal"):
            if os.path.exists(self.file + end):
                os.rename(self.file + end, f"{self.file}.away{end}")

    def copies(self, to: str) -> None:
        """FILE and its log are copied together."""
        for end in ("", "-wal"):
            if os.path.exists(self.file + end):
                shutil.copyfile(self.file + end, to + end)


def leaves_it(at: Released, before: dict[str, list], name: str) -> None:
    demand(at.tables() == before, f"{name}: the tables changed")


def each_command_that_reads(tools, version):
    """What it prints of the archive is what is kept beside it, and nothing changes."""
    with Released(tools, version) as at:
        before = at.of().tables()
        for name, words in EXPORTS.items():
            at.gives(name, *words)
            leaves_it(at, before, name)
        for name in ("told.txt", "listed.txt"):
            for words, out in transcript(at.kept, name).items():
                expect(at.run(*words.split()), written(out))
                leaves_it(at, before, words)


def every_kind(tools, version):
    """There are records of each kind in it, merges, one of them undone, and an import after it."""
    with Released(tools, version) as at:
        tables = at.of().tables()
        kinds = {kind for _, kind, _ in tables["record"]}
        wanted = {"person", "family", "event", "citation", "place", "repo", "source", "entry", "other"}
        demand(kinds == wanted, f"it has {kinds}")
        demand([row[3] for row in tables["slip"]] == [0, 1] and len(tables["slip_line"]) > 4, f"{tables['slip']}")
        tokens = {row[1] for row in tables["receipt"]}
        demand({"a1", "file", "page", "table", "e1"} <= tokens and tables["meta"][0][3] == NAME, f"{tokens}")


def tables_beside_the_lines(tools, version):
    """The spans, the links and what is looked for are those of the lines, by a plain reading of both."""
    with Released(tools, version) as at:
        packs, tables = at.of().packs(), at.tables()
        spans = {number: span_of(given[0][1], given) for number, given in packs.items()}
        soughts = {number: sought_of(given) for number, given in packs.items()}
        links = sorted((key,) for number, given in packs.items() for key in links_of(number, given))
        demand(tables["span"] == [(no, *it) for no, it in spans.items() if it is not None], "the spans")
        demand(tables["sought"] == [(no, *it) for no, it in soughts.items() if it is not None], "what is looked for")
        demand(set(links) <= set(tables["link"]), "the links")
        demand(list(packs) == [no for no, _, _ in sorted(tables["record"])] != [], "the records")


def a_plain_export(tools, version):
    """All that the kept export says stands in it, at the record that says it, and each linked mention is cited."""
    with Released(tools, version) as at:
        before = at.of().tables()
        got = at.run("export", "--plain")
        expect(Outcome(b"", got.err, got.status), Outcome(b"", LEFT_OUT, 0))
        archive, plain = Archive(at.has("export.ged").decode()), Records(got.out.decode())
        texts: dict[str, str] = {}
        for value in plain.values():
            texts[value.owner] = f"{texts.get(value.owner, '')}\n{normal(value.text)}"
        lost = [it for it in archive.said if not any(holds(texts.get(owner, ""), it) for owner in it.owners)]
        demand(len(archive.said) > 40 and not lost, f"{len(archive.said)} texts, without {lost}")
        cited = plain.cited()
        missed = [it for it in archive.mentions if it.page not in [page for page, _ in cited[it.person]]]
        demand(len(archive.mentions) == 2 and not missed, f"{missed}")
        public = at.run("export", "--plain", "--public", *TODAY)
        demand(public.status == 0 and not any(name in public.out for name in LIVING), f"{public}")
        leaves_it(at, before, "export --plain")


def a_room(tools, version):
    """A visitor sees the sheets that are kept, and nobody who is living."""
    with Released(tools, version) as at:
        before, told = at.of().tables(), transcript(at.kept, "told.txt")
        for kind in ("person 1", "person 5", "family 3", "pedigree 4", "register 15"):
            page = told[" ".join(("sheet", kind, *TODAY))].decode()
            got, _ = visited(at, request(f"/{kind.replace(' ', '/')}"))
            demand(got == answer(200, page), f"{kind}: {difference(answer(200, page), got)}")
        leaves_it(at, before, "serve")


def requests_again(tools, version):
    """Under their tokens they are answered as they were; of a page with a header too. Nothing is done twice."""
    with Released(tools, version) as at:
        before = at.of().tables()
        at.steps_again()
        leaves_it(at, before, "the same requests")
        expect(at.init(), refused(82))
        expect(at.run("entries", *STEPS[3].words, given=b"BURIAL,f. 8,1,,,Ann,buried,Ann\n"), refused(52))
        leaves_it(at, before, "refused requests")


def later_requests(tools, version):
    """Later rows are answered and done as the reference does them, and a merge of that time is undone."""
    with Released(tools, version) as at:
        at.of().last_rows()
        at.gives("last.ged")
        expect(at.apply(UNDONE), written(b"z,ok,0,0\n"))
        at.gives("undone.ged")
        expect(at.run("audit"), written(b"sound: 40 records\n"))


def what_a_stop_left(tools, version):
    """Rows that were answered before the program was killed are in the log, and there they count. FILE alone is an
    older archive."""
    with Released(tools, version) as at:
        at.of("stopped.db").gives("last.ged")
        expect(at.run("audit"), written(b"sound: 39 records\n"))
        at.last_rows()
        at.steps_again()
        at.gives("last.ged")
    with Released(tools, version) as at:
        at.of("stopped.db")
        os.remove(at.file + "-wal")
        at.gives("export.ged")


def there_and_back(tools, version):
    """A copy is made; rows are done; a later version has converted the archive, and it is refused and stays; the copy
    takes its place, is what it was, and takes the same rows again."""
    for name, export, count in (("archive.db", "export.ged", 37), ("stopped.db", "last.ged", 39)):
        with Released(tools, version) as at:
            copy = f"{at.of(name).file}.copy"
            at.copies(copy)
            at.last_rows()
            at.other_database(f"UPDATE meta SET version = {LATER}")
            before = at.rows_of("SELECT * FROM line"), at.rows_of("SELECT * FROM meta")
            for command in ("audit", "export", "review", "apply"):
                expect(at.run(command, given=b"h,person,Ann,F\n"), refused(83))
            demand((at.rows_of("SELECT * FROM line"), at.rows_of("SELECT * FROM meta")) == before, "it changed")
            at.put_away()
            for end in ("", "-wal"):
                if os.path.exists(copy + end):
                    os.rename(copy + end, at.file + end)
            expect(at.run("audit"), written(f"sound: {count} records\n".encode()))
            at.gives(export)
            at.last_rows()
            at.gives("last.ged")


def a_backup_by_sqlite(tools, version):
    """The copy that `.backup` makes of both files is one file, with all records."""
    with Released(tools, version) as at:
        conn, copy = sqlite3.connect(at.of("stopped.db").file), sqlite3.connect(f"{at.file}.copy")
        conn.backup(copy)
        conn.close(), copy.close()
        at.put_away()
        os.rename(f"{at.file}.copy", at.file)
        demand(not os.path.exists(f"{at.file}-wal"), "the copy has a log")
        at.gives("last.ged")


def made_again(tools, version):
    """As long as the executable is of that version, it makes of the same requests the same archive, row by row, and is
    stopped in the same one."""
    if run(tools.parish, ("--version",)).out.decode() != f"parish {version}\n":
        return
    with tempfile.TemporaryDirectory() as folder:
        kept = version_folder(version)
        made(tools.parish, kept, folder)
        for name in ("archive.db", "stopped.db"):
            demand(rows_in(folder, name) == rows_in(kept, name), f"{name}: python3 tests/made_archives.py")


def the_tables_of_a_new_archive(tools, version):
    """It was converted by nothing: its tables have the statements of those that `init` makes."""
    with Released(tools, version) as at, Folder(tools) as new:
        statements = "SELECT type, name, tbl_name, sql FROM sqlite_master ORDER BY name"
        demand(at.of().rows_of(statements) == new.made().rows_of(statements) != [], "other tables")
        expect(at.apply(b""), written(b""))
        demand(at.rows_of("SELECT version FROM meta") == [(2,)], "another version")


TESTS = (
    each_command_that_reads,
    every_kind,
    tables_beside_the_lines,
    a_plain_export,
    a_room,
    requests_again,
    later_requests,
    what_a_stop_left,
    there_and_back,
    a_backup_by_sqlite,
    made_again,
    the_tables_of_a_new_archive,
)
VERSIONS = sorted(name for name in os.listdir(HERE) if os.path.isdir(os.path.join(HERE, name)))


def changelog_has_them(_tools):
    """Each version that the changelog has is one of those that have an archive here."""
    with open(os.path.join(ROOT, "CHANGELOG.md"), encoding="utf-8") as file:
        released = sorted(line[3:].strip() for line in file if line.startswith("## "))
    demand(released == VERSIONS, f"CHANGELOG.md has {released}, and tests/earlier {VERSIONS}")


def cases(tools: Tools):
    yield Case("released: every version of the changelog has an archive", lambda: changelog_has_them(tools))
    for version in VERSIONS:
        for test in TESTS:
            name = f"released: {version}: {test.__name__.replace('_', ' ')}"
            yield Case(name, lambda test=test, version=version: test(tools, version))
