"""Refused memory: each growth of a command on an archive gets none in turn (refuse.c).

A run that wanted memory says 1, or 80 where the database wanted it, or answers its row so, or does without; the archive
is as it was or as it is when the command is done, and the same command with memory then answers and leaves what it does
where none is refused. `./test` refuses growths that lie further and further apart, and more of those with which a batch
is written; tests/long_stops.py refuses each. Where the system bounds the memory of a run, a row that needs more ends
it.
"""

from __future__ import annotations

import os
from collections.abc import Iterable, Iterator

from archives import Folder, answered
from earlier import ANEW
from exports import ARCHIVES
from harness import REFUSALS, WANTS, Case, Failed, Outcome, Tools, demand, expect, refused, run, tally, written
from imports import LEE, LEE_TOLD
from memory import MOST, apart
from refusing import built, last_growth, refusing
from rooms import visited
from undisturbed import BATCH, MERGE, UNDO, Command, Undisturbed, of_row, tables_of
from visits import request

LEAST = 100  # growths that a command makes at least
APART = 30  # of the last fifth of a batch's growths each so many-th is refused: there its records are written
MOST_KB = 150_000  # what the system gives a run that it bounds
# A row of many fields, and one of a long field, with what refuses it where there is memory.
ROWS_BEYOND = (
    ("many fields", b"b,person" + b"," * 30_000_000 + b"\n", 92),
    ("a long field", b"b,person," + b"x" * 120_000_000 + b",M\n", 58),
)
TODAY = "2024-01-01"
COUPLE = ("p,person,John /Smith/,M", "f,family,1,", "m,event,2,MARR,,1960,")
GIVEN = request("/person/1")
PAGE = b"\r\n\r\nPerson 1\nName: Living\nPartner in: 2\n"
SHEET = Command("a sheet", COUPLE, ("sheet", "family", "2", "--today", TODAY))
TWO = ("p1,person,John /Smith/,", "p2,person,Jon /Smyth/,", "e,event,2,BURI,,,")
COMMANDS = (
    of_row("a person", (), "p,person,John /Smith/,M", "p,ok,1,1"),
    of_row("a merge of a person who has an event", TWO, "m1,merge,1,2", "m1,ok,4,1"),
    MERGE,
    UNDO,
    BATCH,
    Command("an import", (), ("import", "--token", "i"), LEE, (LEE_TOLD,)),
    Command("an export", ARCHIVES["register entries, linked and not"][0], ("export",)),
    Command("a public export", COUPLE, ("export", "--public", "--today", TODAY)),
    Command("a plain export", ARCHIVES["register entries, linked and not"][0], ("export", "--plain")),
    Command("a plain public export", COUPLE, ("export", "--plain", "--public", "--today", TODAY)),
    SHEET,
    ANEW,
)


def is_told(got: Outcome, whole: Outcome) -> bool:
    """1 or 80 behind a beginning of what is written, or a row that is answered with 1."""
    if got.status == 1 and got.err in WANTS:
        return whole.out.startswith(got.out)
    return got.status == 0 and got.out.endswith(b",refused,1,OutOfMemory\n") and got.out.count(b"\n") == 1


def is_wanting(whole: Undisturbed, library: str, number: int) -> bool:
    """Whether there is a growth of that number, which is refused; what is wrong then is raised."""
    with whole.copy() as at:
        mark = at.at("mark")
        got = whole.command.run(at, env=refusing(number, library, mark))
        if not os.path.exists(mark):
            expect(got, whole.whole)
            return False
        # SQLite does without some of the memory that it wants.
        is_done = got == whole.whole
        demand(is_done or is_told(got, whole.whole), f"{got}")
        whole.demand_found(at, int(is_done), 0 if b",refused," in got.out else 1)
        whole.demand_ended(at)
        return True


def each_growth(tools: Tools, command: Command, numbers: Iterable[int]) -> int:
    """Refuses the growths of these numbers until a run has no such growth; answers how many were refused."""
    whole = Undisturbed(tools, command)
    with whole.copy() as at:
        library = built(at.path)
        for tried, number in enumerate(numbers):
            try:
                if not is_wanting(whole, library, number):
                    demand(number > LEAST, f"it has only {number} growths")
                    return tried
            except Failed as failed:
                raise Failed(f"growth {number} refused: {failed}") from None
    raise Failed("the growths have no end")


def last_growths(tools: Tools, command: Command) -> int:
    """Refuses growths of the last fifth of a command, where a part of its records is written; answers how many."""
    whole = Undisturbed(tools, command)
    with whole.copy() as at:
        library = built(at.path)
        last = last_growth(lambda number: is_wanting(whole, library, number))
        demand(last > LEAST, f"it has only {last} growths")
        numbers = range(last - last // 5, last, APART)
        for number in numbers:
            try:
                demand(is_wanting(whole, library, number), "there is no such growth")
            except Failed as failed:
                raise Failed(f"growth {number} of {last} refused: {failed}") from None
    return len(numbers)


def wanting_room(whole: Undisturbed, library: str, page: bytes, number: int) -> bool:
    """The same of an archive that is opened, masked and served to one visitor, who gets the page or nothing."""
    with whole.copy() as at:
        mark = at.at("mark")
        got = visited(at, GIVEN, env=refusing(number, library, mark))
        if not os.path.exists(mark):
            demand(got == (page, written(b"")), f"{got}")
            return False
        reply, ended = got
        if ended != written(b""):
            demand(ended.status == 1 and ended.err in WANTS, f"{ended}")
        demand(reply in (page, b""), f"{reply!r} is a part of a page")
        demand(tables_of(at) == whole.tables[0], "the tables changed")
        return True


def each_growth_of_a_room(tools: Tools, numbers: Iterable[int]) -> int:
    whole = Undisturbed(tools, SHEET)
    with whole.copy() as at:
        library, (page, ended) = built(at.path), visited(at, GIVEN)
        demand(ended == written(b"") and page.endswith(PAGE), f"{page!r} {ended}")
        for tried, number in enumerate(numbers):
            try:
                if not wanting_room(whole, library, page, number):
                    demand(number > LEAST, f"it has only {number} growths")
                    return tried
            except Failed as failed:
                raise Failed(f"growth {number} refused: {failed}") from None
    raise Failed("the growths have no end")


def a_row_beyond_memory(tools: Tools, row: bytes, number: int) -> None:
    """The rows before it are done, it is not answered, and the run ends with 1; with memory all three are answered."""
    rows = b"a,person,Ann /Lee/,F\n" + row + b"c,person,Carl /Lee/,M\n"
    with Folder(tools) as at:
        bounded = ("sh", "-c", f'ulimit -v {MOST_KB}; exec "$@"', "sh", *at.made().parish)
        expect(run(bounded, ("apply", at.file), rows), Outcome(b"a,ok,1,1\n", refused(1).err, 1))
        answered(at.apply(rows), f"a,ok,1,1\nb,refused,{number},{REFUSALS[number]}\nc,ok,2,1\n".encode())


def case_of(tools: Tools, command: Command, every: bool) -> Case:
    numbers = range(1, MOST) if every else apart()
    return Case(
        f"refused memory: {command.name}",
        lambda: tally("refused growths", command.name, each_growth(tools, command, numbers)),
    )


def last_of(tools: Tools, command: Command) -> Case:
    name = f"{command.name}, the last growths"
    return Case(f"refused memory: {name}", lambda: tally("refused growths", name, last_growths(tools, command)))


def cases(tools: Tools, every: bool = False) -> Iterator[Case]:
    for command in COMMANDS:
        yield case_of(tools, command, every)
    if not every:
        yield last_of(tools, BATCH)
    for name, row, number in ROWS_BEYOND:
        yield Case(
            f"refused memory: a row of {name}, where the system bounds it",
            lambda row=row, number=number: a_row_beyond_memory(tools, row, number),
        )
    numbers = range(1, MOST) if every else apart()
    yield Case(
        "refused memory: a room",
        lambda: tally("refused growths", "a room", each_growth_of_a_room(tools, numbers)),
    )
