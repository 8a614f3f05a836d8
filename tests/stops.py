"""Stops: each call of a command on one of an archive's two files fails in turn, or the power goes off after it.

A command is done once to its end. Then, of the file and of the log beside it, so many calls go well and each one after
them fails (fail.c), from none on until a run meets no such call; and the power goes off after each write, cut and sync
of both: what was not synced is lost, is there, or has old and new bytes. What is there then has to be what the first
requests of the command make, all that were answered among them; the command given again has to answer and to leave what
the undisturbed one did; and a new person then has the number that it has there. Of a command with many calls `./test`
tries each 16th, and tests/long_stops.py each.
"""

from __future__ import annotations

import os
import random
from collections.abc import Iterator
from dataclasses import dataclass, field

from earlier import ANEW
from failing import compiled, failing, noted_calls, noting
from harness import FAILED, Case, Failed, Tools, demand, expect, tally
from undisturbed import BATCH, ENDS, IMPORT, MADE, MERGE, PERSON, REMOVAL, ROWS, UNDO, Command, Undisturbed, tables_of

LEAST = 5  # calls that a command makes on a file, at least
MOST = 100_000  # and at most
LOSSES = ("lost", "kept", "torn")  # what becomes of bytes that were not synced, when the power goes off
COMMANDS = (IMPORT, ROWS, MADE, PERSON, MERGE, UNDO, REMOVAL, BATCH, ANEW)


def is_stopped(whole: Undisturbed, library: str, end: str, passed: int) -> bool:
    """Whether a call of a file fails where so many go well; what is wrong then is raised."""
    with whole.copy() as at:
        mark = at.at("mark")
        got = whole.command.run(at, env=failing(library, os.path.realpath(at.file) + end, passed, mark))
        if not os.path.exists(mark):
            expect(got, whole.whole)
            demand(tables_of(at) == whole.tables[-1], "where no call failed, it leaves something else")
            return False
        answered = whole.answered(got.out)
        # An error of the closing is not told: all that was answered is in the log then.
        if got == whole.whole:
            answered = len(whole.answers)
        else:
            demand(got.status == 1 and got.err in FAILED, f"status {got.status}, {got.err!r}")
        whole.demand_found(at, answered, min(answered + 1, len(whole.answers)))
        whole.demand_ended(at)
        return True


def each_call(whole: Undisturbed, library: str, end: str, apart: int) -> int:
    """Stops at the calls on a file, from the first on until a run meets none; answers how many there were."""
    for stops, passed in enumerate(range(0, MOST, apart)):
        try:
            if not is_stopped(whole, library, end, passed):
                demand(passed >= LEAST, f"only {passed} calls were stopped")
                return stops
        except Failed as failed:
            raise Failed(f"{passed} calls went well: {failed}") from None
    raise Failed("the calls have no end")


@dataclass
class Disk:
    """A file: its bytes, those of the last sync, and the changes since, each a place with bytes, or only a size."""

    now: bytearray
    synced: bytes
    since: list[tuple[int, bytes | None]] = field(default_factory=list)

    def do(self, words: list[str], data: bytes) -> None:
        if words[0] == "s":
            self.synced, self.since = bytes(self.now), []
        else:
            change = (int(words[1]), data if words[0] == "w" else None)
            make(self.now, *change)
            self.since.append(change)

    def left(self, loss: str, rng: random.Random) -> bytes:
        """What is there when the power is back."""
        if loss == "lost":
            return self.synced
        if loss == "kept":
            return bytes(self.now)
        there = bytearray(self.synced)
        for change in self.since:
            tear(there, *change, rng)
        return bytes(there)


def make(there: bytearray, place: int, data: bytes | None) -> None:
    """Writes the bytes at their place, or cuts or fills up to a size."""
    size = place if data is None else place + len(data)
    if len(there) < size:
        there.extend(bytes(size - len(there)))
    if data is None:
        del there[place:]
    else:
        there[place:size] = data


def tear(there: bytearray, place: int, data: bytes | None, rng: random.Random) -> None:
    """A change of which nothing, all, a beginning, an end, or some bytes come to the disk."""
    way = rng.choice(("nothing", "all", "beginning", "end", "some"))
    if way == "nothing":
        return
    if way == "all" or not data:
        make(there, place, data)
        return
    cut = rng.randrange(len(data))
    if way == "beginning":
        make(there, place, data[:cut])
    elif way == "end":
        make(there, place + cut, data[cut:])
    else:
        old = bytes(there[place : place + len(data)]).ljust(len(data), b"\0")
        make(there, place, bytes(b if rng.getrandbits(1) else a for a, b in zip(old, data, strict=True)))


def noted(whole: Undisturbed, library: str) -> list[tuple[str, list[str], bytes]]:
    """The calls of the undisturbed command: the end of the file's name, or `out`, and what was done."""
    with whole.copy() as at:
        real = os.path.realpath(at.file)
        expect(whole.command.run(at, env=noting(library, at.at("notes"), real)), whole.whole)
        return [(path.removeprefix(real), words, data) for path, words, data in noted_calls(at.at("notes"))]


def power_off(whole: Undisturbed, library: str, apart: int) -> int:
    """The power goes off after each call that changes or syncs a file; answers how many times."""
    disks = {end: Disk(bytearray(image or b""), image or b"") for end, image in zip(ENDS, whole.images, strict=True)}
    calls = noted(whole, library)
    demand(len(calls) >= LEAST, f"only {len(calls)} calls")
    out, stops, rng = b"", 0, random.Random(len(calls))
    for number, (end, words, data) in enumerate(calls, 1):
        if end == "out":
            out += data
            continue
        disks[end].do(words, data)
        for loss in LOSSES if number % apart == 0 else ():
            try:
                came_back(whole, tuple(disk.left(loss, rng) for disk in disks.values()), whole.answered(out))
            except Failed as failed:
                raise Failed(f"the power went off after call {number}, {loss}: {failed}") from None
            stops += 1
    return stops


def came_back(whole: Undisturbed, images: tuple[bytes, ...], answered: int) -> None:
    """The power is back, and the files have these bytes."""
    with whole.copy(images) as at:
        whole.demand_found(at, answered, min(answered + 1, len(whole.answers)))
        whole.demand_ended(at)


def tried(tools: Tools, command: Command, end: str | None, apart: int) -> int:
    """Stops of a command: at calls of its file or of the log, or by the power."""
    whole = Undisturbed(tools, command)
    with whole.copy() as at:
        library = compiled(at.path)
        if end is None:
            return power_off(whole, library, apart)
        return each_call(whole, library, end, apart)


WAYS = {"the file fails": "", "the log fails": "-wal", "the power goes off": None}


def case_of(tools: Tools, command: Command, way: str, apart: int) -> Case:
    name = f"{command.name}, {way}"
    return Case(f"stops: {name}", lambda: tally("stops", name, tried(tools, command, WAYS[way], apart)))


def cases(tools: Tools, every: bool = False) -> Iterator[Case]:
    for command in COMMANDS:
        for way in WAYS:
            yield case_of(tools, command, way, 1 if every else command.apart)
