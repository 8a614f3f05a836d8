"""Commands on an archive, what they answer and leave if nothing stops them, and archives to stop them in."""

from __future__ import annotations

import os
from collections.abc import Callable, Iterator
from dataclasses import dataclass

from archives import Folder, lines
from harness import Outcome, Tools, demand, expect, refused, run, written
from table.making import between

SOCIETY = "Ashby Society"
ENDS = ("", "-wal")  # what the names of an archive's file and of its log end with
MANY = 600  # persons of an import


@dataclass(frozen=True)
class Command:
    """Rows that make an archive, and what is then given to a command: its words, its input, the answers to it."""

    name: str
    rows: tuple[str, ...] | None  # None: there is no file
    words: tuple[str, ...]
    given: bytes = b""
    answers: tuple[bytes, ...] | None = None  # of each request; None: one, whatever it is
    apart: int = 1  # `./test` disturbs each so many-th call
    begin: Callable[[Folder], None] | None = None  # makes an archive that each opening changes, in place of the rows
    demand_left: Callable[[Folder], object] | None = None  # looks at what a stop has left, before it is opened

    def run(self, at: Folder, **how) -> Outcome:
        return self.runs(at, self.given, **how)

    def runs(self, at: Folder, given: bytes, **how) -> Outcome:
        word, *more = self.words
        return run(at.parish, (word, at.file, *more), given, **how)

    def requests(self) -> list[bytes]:
        """What is given, one request after the other."""
        if self.answers is None or len(self.answers) == 1:
            return [self.given]
        return self.given.splitlines(keepends=True)


FAMILY = (
    "a1,person,John /Smith/,M", "a2,person,Jon /Smith/,", "a3,family,2,", "a4,event,2,BURI,,1 MAY 1800,",
    "a5,source,Ashby,,,,", "a6,entry,5,BURIAL,f. 2,1,,,John,buried,John Smith", "a7,link,6,1,2,same day",
)
MERGED = (*FAMILY, "m,merge,1,2")
FIVE = (
    ("e1,person,Eva /Lee/,F", "e1,ok,7,1"), ("e2,family,7,1", "e2,ok,8,1"), ("e3,event,8,MARR,,1820,", "e3,ok,9,1"),
    ("e4,participant,9,2,witness", "e4,ok,0,0"), ("e5,name,7,Eva /Smith/", "e5,ok,0,0"),
)
ENTRIES = lines((
    "BAPTISM,f. 3,1,15 APR 1699/00,,John,child,John,father,Tom Lee", "BURIAL,f. 3,1,,,Ann,buried,Ann Lee",
    "MARRIAGE,f. 3,1,,,Tom and Ann,groom,Tom,bride,Ann",
))
PERSONS = between(*(line for n in range(1, MANY + 1) for line in (f"0 @I{n}@ INDI", f"1 NAME Person /{n}/")))


def of_row(name: str, rows: tuple[str, ...], row: str, answer: str) -> Command:
    return Command(name, rows, ("apply",), lines([row]), (lines([answer]),))


MADE = Command("an archive is made", None, ("init", "--society", SOCIETY), answers=(b"",))
PERSON = of_row("a person", FAMILY, "s,person,Eva /Lee/,F", "s,ok,7,1")
MERGE = of_row("a merge that touches a family, an event and a link", FAMILY, "m,merge,1,2", "m,ok,7,1")
UNDO = of_row("the undoing of a merge", MERGED, "u,undo,7", "u,ok,0,0")
REMOVAL = of_row("a removal", FAMILY, "r,remove,4", "r,ok,0,0")
ROWS = Command("five rows", FAMILY, ("apply",), lines(row for row, _ in FIVE), tuple(lines([a]) for _, a in FIVE))
BATCH = Command(
    "three entries", FAMILY, ("entries", "--source", "5", "--token", "b"), ENTRIES, (b"made 3 entries, first 7\n",)
)
IMPORT = Command(
    "600 persons of a file", FAMILY, ("import", "--token", "i"), PERSONS, (b"imported 600 records, first 7\n",), 16
)


class Copy(Folder):
    """An archive in a folder of its own, whose files have these bytes; None: the file is not there."""

    def __init__(self, tools: Tools, images: tuple[bytes | None, ...]):
        super().__init__(tools)
        self.images = images

    def __enter__(self):
        super().__enter__()
        for end, data in zip(ENDS, self.images, strict=True):
            if data is not None:
                with open(self.file + end, "wb") as file:
                    file.write(data)
        return self

    def at(self, name: str) -> str:
        return os.path.join(self.path, name)


def bytes_of(path: str) -> bytes | None:
    if not os.path.exists(path):
        return None
    with open(path, "rb") as file:
        return file.read()


def tables_of(at: Folder) -> dict[str, list] | None:
    """All tables of an archive, and None where nothing is made in its file."""
    if not os.path.exists(at.file) or not at.rows_of("SELECT name FROM sqlite_master"):
        return None
    return at.tables()


class Undisturbed:
    """An archive before a command, and what the command answers and leaves where nothing disturbs it."""

    def __init__(self, tools: Tools, command: Command):
        self.tools, self.command = tools, command
        self.answers: list[bytes] = []
        with Folder(tools) as at:
            if command.begin:
                command.begin(at)
            elif command.rows is not None:
                expect(at.init(SOCIETY), written(b""))
                told = at.apply(lines(command.rows)).out
                demand(told.count(b",ok,") == len(command.rows), f"a row was refused: {told!r}")
            self.images = tuple(bytes_of(at.file + end) for end in ENDS)
            self.tables = list(self._beginnings(at))
            self.person = self._new_person(at)
        self.whole = written(b"".join(self.answers))

    def _beginnings(self, at: Folder) -> Iterator[dict[str, list] | None]:
        """The tables after none of the requests, after the first, and so on; at the end the archive has them all. An
        archive that each opening changes is never found as it was: there the first is None."""
        yield None if self.command.begin else tables_of(at)
        for number, given in enumerate(self.command.requests()):
            got = self.command.runs(at, given)
            wanted = got.out if self.command.answers is None else self.command.answers[number]
            expect(got, written(wanted))
            self.answers.append(got.out)
            yield tables_of(at)

    def _new_person(self, at: Folder) -> tuple[Outcome, dict[str, list] | None]:
        return at.apply(b"new,person,Nora /New/,F\n"), tables_of(at)

    def copy(self, images: tuple[bytes | None, ...] | None = None) -> Copy:
        """A folder with the files of before, or with these."""
        return Copy(self.tools, self.images if images is None else images)

    def answered(self, out: bytes) -> int:
        """How many requests were answered, where these answers were written."""
        counts = [n for n in range(len(self.answers) + 1) if out == b"".join(self.answers[:n])]
        demand(bool(counts), f"it wrote {out!r}, which are no first answers")
        return counts[-1] if out else counts[0]

    def demand_found(self, at: Folder, least: int, most: int) -> None:
        """An archive in which so many first requests are done, at least and at most, and no others."""
        if self.command.demand_left:
            self.command.demand_left(at)
        opened = run(at.parish, ("audit", at.file))
        got = tables_of(at)
        demand((got is None) == (opened == refused(82)), f"the archive is opened with {opened.err!r}")
        demand(got is None or opened.status == 0, f"the archive is not sound: {opened.err!r}")
        done = [n for n, wanted in enumerate(self.tables) if wanted == got]
        demand(bool(done), "what is there is no beginning of the requests")
        demand(any(least <= n <= most for n in done), f"{done} requests are there, and {least} to {most} have to be")

    def demand_ended(self, at: Folder) -> None:
        """The command given again answers and leaves what it did undisturbed, and so does a person after it."""
        is_there = self.command.rows is None and tables_of(at) == self.tables[-1]
        expect(self.command.run(at), refused(82) if is_there else self.whole)
        demand(tables_of(at) == self.tables[-1], "the command given again leaves something else")
        demand(self._new_person(at) == self.person, "a new person differs")
