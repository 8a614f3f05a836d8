"""Refused memory: of the steps of an import on an archive in files in memory, each growth in turn gets none.

    python3 tests/requests/wants.py [--program COMMAND] [--only WORD] [--each]

The steps are asked three times, each time of the archive adopted again: over its connection, and then over its files.
Behind each stage a request is asked too, which is refused as long as the import is open. A step that wanted memory says
1, or 80 where the database wanted it, and `Archive` says what is answered then: behind a 1 of a stage the import is
open as before and the next stage goes on; behind an 80 all is refused with 81, and of the archive adopted again (over
its files, where the connection is broken) the steps from `begin` on make what they make where nothing is refused. Of an
import with many growths each so many-th is refused, or with `--each` every one. One line a case that fails, then how
many growths were refused in which step, and last `N passed, M failed`; status 0 only if none failed and one passed.
COMMAND as in run.py.
"""

from __future__ import annotations

import argparse
import copy
import os
import pathlib
import shlex
import subprocess
import sys
import tempfile
from collections import Counter
from collections.abc import Iterator
from concurrent.futures import ThreadPoolExecutor
from dataclasses import dataclass

sys.dont_write_bytecode = True

ROOT = pathlib.Path(__file__).resolve().parents[2]
sys.path.append(str(ROOT / "tests"))

from refusing import built, refusing  # noqa: E402
from table.making import row  # noqa: E402
from table.steps import GOOD, MORE, NONE, PERSON, imports, persons  # noqa: E402

PROGRAM = ROOT / "crates/request_rows/out/request_rows"
STAGE = 256  # rows that a stage writes
LEAST = 5  # growths of stages that are refused with 1 and with 80, at least
MOST = 10_000_000  # growths of a run, at most
TOGETHER = 64  # growths that are tried before the next ones
LIMIT = 100  # seconds for one run of the program
WANTING = ("1", "80")
FAILED = 1  # the status of a program that wanted memory for itself
PROGRAMS = ("1", "80", "90")  # how the program tells that it wanted memory for a row: 90 for the file in it
LEE = "0 HEAD\n0 @I1@ INDI\n1 NAME Ann /Lee/\n1 FAMC @F1@\n1 NOTE @N9@\n0 @F1@ FAM\n0 TRLR\n"


class Wrong(Exception):
    """An answer that is not as it has to be; the text says how."""


class Archive:
    """What an archive that was empty answers to the steps of an import of so many rows and records, and to a request
    for a person."""

    def __init__(self, rows: int, records: int):
        self.rows, self.records = rows, records
        self.next, self.made = 1, 0  # the next number, and how many records there are
        self.kept: dict[str, str] = {}  # the answers to the import and to the person
        self.left: int | None = None  # rows of the import that is open which no stage has written
        self.is_lost = False

    def shut(self, name: str) -> int | None:
        """The refusal of a step that does nothing, for which no memory is taken."""
        is_open = self.left is not None
        if self.is_lost:
            return 81
        if name in ("begin", "perform"):
            return 84 if is_open else None
        if name in ("stage", "publish", "abandon") and not is_open:
            return 85
        return 86 if name == "publish" and self.left else None

    def does(self, name: str) -> str:
        """Does a step, and answers."""
        if name == "state":
            return f"{self.next} {self.made}"
        if name == "abandon":
            self.left = None
        elif name == "stage":
            self.left = max(0, self.left - STAGE)
            return MORE if self.left else NONE
        elif name == "publish":
            self.left = None
            return self.makes("import", self.records)
        elif name == "perform":
            return self.kept.get("person") or self.makes("person", 1)
        elif name == "begin" and "import" in self.kept:
            return self.kept["import"]
        else:
            self.left = self.rows
        return NONE

    def makes(self, what: str, count: int) -> str:
        self.kept[what] = f"{self.next} {count}"
        self.next, self.made = self.next + count, self.made + count
        return self.kept[what]

    def adopted(self) -> Archive:
        """The same archive, adopted again: nothing of an import that was open is there."""
        self.left, self.is_lost = None, False
        return self


@dataclass(frozen=True)
class Walk:
    """Steps of an import of a text, which has so many rows and records; each so many-th growth is refused."""

    name: str
    text: str
    rows: int
    records: int
    last: str = "publish"
    apart: int = 1

    @property
    def names(self) -> list[str]:
        """One stage more than the rows fill."""
        stages = -(-self.rows // STAGE) + 1
        return ["begin", *["stage", "perform"] * stages, self.last, "state"]

    def given(self) -> bytes:
        names, asked = "|".join(self.names), (imports(self.text), PERSON)
        twice, once = row("! steps", "log", GOOD, names, names, *asked), row("! steps", "log", GOOD, names, "", *asked)
        return f"! store,Lee\n{twice}{once}".encode()


WALKS = (
    Walk("two records and a pointer that dangles", LEE, 6, 2),
    Walk("two records, given up", LEE, 6, 2, "abandon"),
    Walk("129 persons", persons(129), 258, 129, apart=37),
    Walk("600 persons", persons(600), 1_200, 600, apart=101),
)


class Program:
    """The program, of which a growth may be refused."""

    def __init__(self, command: list[str], folder: str):
        self.command, self.folder = command, folder
        self.library = built(folder)

    def answered(self, given: bytes, number: int) -> tuple[list[list[str]], int, bool]:
        """The words of each row that is answered, the status, and whether there was a growth of that number, which was
        refused. There is none of number 0."""
        mark = os.path.join(self.folder, str(number))
        env = refusing(number, self.library, mark)
        ended = subprocess.run(self.command, input=given, capture_output=True, env=env, check=False, timeout=LIMIT)
        rows = [line.split(",") for line in ended.stdout.decode().splitlines()]
        is_there = os.path.exists(mark)
        if is_there:
            os.remove(mark)
        return rows, ended.returncode, is_there


def visits_in(rows: list[list[str]]) -> Iterator[list[str]]:
    """What each visit to the archive was answered."""
    for first, *words in rows:
        if first != "steps":
            raise Wrong(f"{first} {words}")
        while "again" in words:
            at = words.index("again")
            yield words[:at]
            words = words[at + 1 :]
        yield words


def followed(archives: list[Archive], names: list[str], words: list[str]) -> tuple[str | None, list[Archive]]:
    """The step in which a visit wanted memory, with its answer, and the archives that it may have left: two where it is
    in doubt whether the step was done."""
    if words == ["unopened"]:
        return "open 80", archives
    if words[:-1] == ["unadopted"] and words[-1] in WANTING:
        return f"adopt {words[-1]}", archives
    if len(words) != len(names):
        raise Wrong(f"{words}")
    wrong = []
    for archive in archives:
        try:
            return step_by_step(archive, names, words)
        except Wrong as told:
            wrong.append(str(told))
    raise Wrong("; or ".join(wrong))


def step_by_step(archive: Archive, names: list[str], words: list[str]) -> tuple[str | None, list[Archive]]:
    archive, wanting, left = copy.deepcopy(archive), None, []
    for place, (name, got) in enumerate(zip(names, words, strict=True)):
        shut = archive.shut(name)
        if shut is not None:
            wanted = str(shut)
        elif got in WANTING and wanting is None and (name, got) != ("abandon", "1"):
            wanting, wanted = f"{name} {got}", got
            if got == "80":
                left = [copy.deepcopy(archive)]
                archive.does(name)
                archive.is_lost = True
        else:
            wanted = archive.does(name)
        if got != wanted:
            raise Wrong(f"step {place + 1}, {name}, answers {got} and not {wanted}; all answers: {words}")
    return wanting, [archive, *left]


def told(walk: Walk, rows: list[list[str]], status: int) -> str | None:
    """In which visit and step a run wanted memory, with the answer, or that its program wanted it. None: nothing is
    told of it."""
    if status == FAILED or any(one[:2] == ["", "refused"] and one[2] in PROGRAMS for one in rows):
        return "the program"
    if status:
        raise Wrong(f"status {status}, behind {rows}")
    if rows[:1] != [["ok"]] or len(rows) != 3:
        raise Wrong(f"{rows}")
    found, archives = None, [Archive(walk.rows, walk.records)]
    for visit, words in enumerate(visits_in(rows[1:]), 1):
        wanting, archives = followed([archive.adopted() for archive in archives], walk.names, words)
        if wanting is not None and found is not None and not (visit == 2 and is_broken(found, wanting)):
            raise Wrong(f"{found}, and then {wanting}")
        if wanting is not None and found is None:
            found = f"{visit} {wanting}"
    return found


def is_broken(before: str, wanting: str) -> bool:
    """Whether a visit was refused since the one before it, over the same connection, had failed in the database."""
    return before.endswith(" 80") and wanting in ("open 80", "adopt 80")


def is_behind(where: str | None, walk: Walk) -> bool:
    """Whether a growth lies behind the steps that are of interest, the first time that they are asked."""
    if where in (None, "the program"):
        return False
    visit, name, _ = where.split(" ")
    return visit != "1" or name == "state" or walk.last == "publish" and name == "publish"


def where(program: Program, walk: Walk, number: int) -> str | None:
    """In which visit and step the growth of that number was refused, and how that is told."""
    try:
        rows, status, is_there = program.answered(walk.given(), number)
        if not is_there:
            raise Wrong("there is no such growth, and none was refused behind the steps")
        return told(walk, rows, status)
    except (Wrong, subprocess.SubprocessError) as wrong:
        raise Wrong(f"growth {number} refused: {wrong}") from None


def first_step(program: Program, walk: Walk) -> int:
    """A growth before the first step, and not far before it."""
    for number in range(1, MOST, TOGETHER):
        place = where(program, walk, number)
        if place is not None and place.split(" ")[:2] in (["1", "adopt"], ["1", "begin"]):
            return max(1, number - TOGETHER)
    raise Wrong("no growth of a step was refused")


def found_in(program: Program, walk: Walk, apart: int) -> Counter[str]:
    """How many growths of the first visit were refused, by step and answer, up to the end of the stages."""
    rows, status, _ = program.answered(walk.given(), 0)
    if told(walk, rows, status) is not None:
        raise Wrong(f"memory was wanted where none was refused: {rows}")
    found: Counter[str] = Counter()
    with ThreadPoolExecutor(max_workers=os.cpu_count()) as pool:
        for begin in range(first_step(program, walk), MOST, TOGETHER * apart):
            numbers = range(begin, begin + TOGETHER * apart, apart)
            places = list(pool.map(lambda number: where(program, walk, number), numbers))
            found.update(place[2:] for place in places if place is not None and place.startswith("1 "))
            if any(is_behind(place, walk) for place in places):
                break
    few = [step for step in ("stage 1", "stage 80") if found[step] < LEAST]
    if few:
        raise Wrong(f"too few growths of {few}: {found}")
    return found


def run(command: list[str], only: str, each: bool = False) -> tuple[int, int]:
    """How many cases passed and failed of the walks whose names have a word; prints a line for each that failed, and
    how many growths were refused in which step."""
    walks = [walk for walk in WALKS if only in f"refused memory, {walk.name}"]
    failed = 0
    with tempfile.TemporaryDirectory() as folder:
        program = Program(command, folder)
        for walk in walks:
            try:
                found = found_in(program, walk, 1 if each else walk.apart)
                print(f"{found.total()} growths refused in steps, {walk.name}: {dict(sorted(found.items()))}")
            except Wrong as wrong:
                failed += 1
                print(f"failed: refused memory, {walk.name}: {wrong}")
    return len(walks) - failed, failed


def main() -> int:
    words = argparse.ArgumentParser(description="The tests of refused memory.")
    words.add_argument("--program", metavar="COMMAND", default=shlex.quote(str(PROGRAM)))
    words.add_argument("--only", metavar="WORD", default="")
    words.add_argument("--each", action="store_true")
    given = words.parse_args()
    passed, failed = run(shlex.split(given.program), given.only, given.each)
    print(f"{passed} passed, {failed} failed")
    return 1 if failed or not passed else 0


if __name__ == "__main__":
    sys.exit(main())
