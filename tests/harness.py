"""What the end-to-end tests share: a run of a command, what came of it, and what is expected."""

from __future__ import annotations

import contextlib
import functools
import os
import re
import select
import subprocess
import threading
import time
from collections.abc import Callable, Iterable, Iterator
from dataclasses import dataclass, replace

ROOT = os.path.dirname(os.path.dirname(os.path.abspath(__file__)))
LIMIT = 60  # seconds for one run
SHOWN = 200  # characters of a text in a message

# The refusals that a run may print (docs/REFUSALS.md).
REFUSALS = {
    1: "OutOfMemory",
    10: "NotUtf8",
    11: "BadLevel",
    12: "BadXref",
    13: "BadTag",
    14: "TooLong",
    15: "Nul",
    20: "LevelJump",
    21: "NoHead",
    22: "NoTrailer",
    23: "AfterTrailer",
    24: "BadContinuation",
    25: "ContinuationHasChildren",
    26: "DuplicateXref",
    27: "FileTooLarge",
    28: "TextTooLong",
    29: "Charset",
    30: "Version",
    40: "BadStored",
    50: "NoSuch",
    51: "WrongKind",
    52: "TokenReused",
    58: "BadText",
    60: "DuplicateEntry",
    62: "NotOfKind",
    63: "Full",
    70: "ExportTooLarge",
    80: "Storage",
    82: "NotAnArchive",
    83: "NewerSchema",
    87: "DaysReversed",
    90: "BadRow",
    92: "FieldCount",
    93: "BadToken",
    94: "ReadFailed",
    95: "WriteFailed",
    96: "NotAsExpected",
    97: "UnknownColumn",
    98: "MissingColumn",
}


# How many stops, refused growths and failed calls there were: of each kind, by the test that made them.
TALLIES: dict[str, dict[str, int]] = {}


def tally(kind: str, test: str, number: int) -> None:
    """Notes how many there were. There have to be some."""
    demand(number > 0, f"there were no {kind}")
    TALLIES.setdefault(kind, {})[test] = number


def tallied() -> list[str]:
    """A line for each kind, with how many there were in all tests."""
    return [f"{sum(tests.values())} {kind} in {len(tests)} tests" for kind, tests in TALLIES.items()]


class Failed(Exception):
    """A test did not go as expected; the text says how."""


@dataclass(frozen=True)
class Case:
    """A test: its name, a sentence, and what it does, which raises Failed."""

    name: str
    test: Callable[[], None]


@dataclass(frozen=True)
class Tools:
    """The commands under test, as words."""

    parish: tuple[str, ...]
    pieces: tuple[str, ...] | None
    """The program that feeds the reader in pieces, or None where there is none."""
    rows: tuple[str, ...] | None = None
    """The program that answers rows by single libraries, or None if there is none."""


@dataclass(frozen=True)
class Outcome:
    """How a run ended.  A status below 0 is the signal that ended it."""

    out: bytes
    err: bytes
    status: int
    took_all: bool = True
    """Whether the run read, or let the pipe hold, all that it was offered."""


def shown(data: bytes) -> str:
    text = repr(data)[1:]
    return text if len(text) <= SHOWN else f"{text[:SHOWN]}.. ({len(data)} bytes)"


def text_of(path: str) -> str:
    with open(os.path.join(ROOT, path), encoding="utf-8") as file:
        return file.read()


@functools.cache
def hints() -> dict[int, str]:
    """The hint of each number that has one, by the table in docs/REFUSALS.md."""
    section = text_of("docs/REFUSALS.md").split("\n### The hints\n")[1].split("\n### ")[0]
    return {int(number): text for number, text in re.findall(r"^\| (\d+) \| (.+) \|$", section, re.M)}


@functools.cache
def hints_of_80() -> list[str]:
    """The hints of 80 if the file of an archive is not opened or made, by the same document."""
    section = text_of("docs/REFUSALS.md").split("\n### The hints of 80\n")[1].split("\n## ")[0]
    return re.findall(r"^\| ([^|]+) \| [^|]+ \|$", section, re.M)[1:]


def hint_of(number: int) -> str:
    """The hint of a number, as it is printed; empty where it has none."""
    return hinted(hints()[number]) if number in hints() else ""


def named(number: int, line: int | None = None) -> str:
    """A refusal as it is told: number, name and, where it has one, its line."""
    return f"{number} {REFUSALS[number]}" + ("" if line is None else f" at line {line}")


def hinted(text: str) -> str:
    """A hint as it is printed."""
    return f"  {text}\n"


def without_hints(err: bytes) -> bytes:
    """What standard error got, without the hints of a refusal, which a second reader has not."""
    return re.sub(rb"(?m)^  .*\n", b"", err)


def refused(number: int, line: int | None = None) -> Outcome:
    """What a run that is refused before it writes comes to, with the hint that the document has for the number."""
    return Outcome(b"", f"parish: {named(number, line)}\n{hint_of(number)}".encode(), 1)


def by_number(got: Outcome) -> Outcome:
    """The same run, with the hint of 29 for what CHAR says, of which at most 60 characters are shown."""
    says = re.compile(r"  CHAR is[^\x00-\x1f\x7f]{0,60}: parish convert makes the file UTF-8\n")
    return replace(got, err=says.sub(hint_of(29), got.err.decode()).encode())


def refused_with(number: int, *hints: str) -> Outcome:
    """The same with other hints."""
    return Outcome(b"", f"parish: {named(number)}\n{''.join(map(hinted, hints))}".encode(), 1)


def refused_row(number: int, row: int) -> Outcome:
    """The same as `refused` of a row of a batch."""
    return Outcome(b"", f"parish: {named(number)} at row {row}\n{hint_of(number)}".encode(), 1)


# The hints of 80 where the file of an archive is not opened, or not made, by a word of each.
CAUSES = {
    word: next(text for text in hints_of_80() if word in text)
    for word in (
        "another program", "folder, or", "does not exist", "to read", "to write", "journal", "second name",
        "no database", "damaged", "no place", "read or written", "more memory",
    )
}


def unopened(word: str) -> Outcome:
    """What a run comes to whose archive is not opened, with 80."""
    return refused_with(80, CAUSES[word])


# What standard error gets of a run for which memory was refused: 1, or 80 where the database wanted it, with its cause
# where it was opening the file.
WANTS = (refused(1).err, refused(80).err, unopened("more memory").err)

# The same of a run of which a call of the system failed.
FAILED = (refused(80).err, *(unopened(it).err for it in CAUSES))


def written(out: bytes) -> Outcome:
    return Outcome(out, b"", 0)


def counted(wanted: Outcome) -> Outcome:
    """What `check` says of a file, where `norm` is to say this: the same refusal, or the number of
    records, which are its lines of level 0 but for the header and the trailer."""
    if wanted.status:
        return wanted
    records = sum(line.startswith(b"0 ") for line in wanted.out.split(b"\n")) - 2
    return written(f"ok: {records} records\n".encode())


class _Feeder(threading.Thread):
    """Writes pieces to a pipe until they end or nobody reads any more."""

    def __init__(self, pipe, pieces: Iterable[bytes]):
        super().__init__(daemon=True)
        self.pipe, self.pieces, self.took_all = pipe, pieces, False

    def run(self):
        try:
            with self.pipe:
                for piece in self.pieces:
                    self.pipe.write(piece)
            self.took_all = True
        except BrokenPipeError:
            pass


def run(command, words=(), given=b"", *, limit=LIMIT, **how) -> Outcome:
    """Runs a command on what it is given: bytes, or pieces that are written one after the other.

    `how` goes to Popen: stdin, stdout, cwd, env, pass_fds.
    """
    how = {"stdin": subprocess.PIPE, "stdout": subprocess.PIPE, "stderr": subprocess.PIPE, **how}
    process = subprocess.Popen([*command, *words], **how)
    feeder = None
    if how["stdin"] == subprocess.PIPE:
        feeder = _Feeder(process.stdin, (given,) if isinstance(given, bytes) else given)
        process.stdin = None
        feeder.start()
    try:
        out, err = process.communicate(timeout=limit)
    except subprocess.TimeoutExpired:
        process.kill()
        process.communicate()
        raise Failed(f"it had not ended after {limit} seconds") from None
    if feeder:
        feeder.join()
    return Outcome(out or b"", err or b"", process.returncode, not feeder or feeder.took_all)


def difference(wanted: bytes, got: bytes) -> str:
    """Two texts that differ; of long ones, from a little before the place where they do."""
    at = len(os.path.commonprefix([wanted, got]))
    start = max(0, at - SHOWN // 10) if max(len(wanted), len(got)) > SHOWN else 0
    place = f"from byte {start + 1}: " if start else ""
    return f"{place}wanted {shown(wanted[start:])}, got {shown(got[start:])}"


def expect(got: Outcome, wanted: Outcome) -> None:
    """The three parts of a run, byte for byte."""
    parts = (
        ("standard output", wanted.out, got.out),
        ("standard error", wanted.err, got.err),
    )
    wrong = [f"{name}: {difference(a, b)}" for name, a, b in parts if a != b]
    if got.status != wanted.status:
        wrong.append(f"status: wanted {wanted.status}, got {got.status}")
    if wrong:
        raise Failed("; ".join(wrong))


def demand(holds: bool, message: str) -> None:
    if not holds:
        raise Failed(message)


def open_files_of(process: str) -> Iterator[str]:
    """What a process has open, by the names under /proc; of one that has ended meanwhile nothing."""
    with contextlib.suppress(OSError):
        for end in os.listdir(f"/proc/{process}/fd"):
            with contextlib.suppress(OSError):
                yield os.readlink(f"/proc/{process}/fd/{end}")


def holders_of(pipe: str) -> set[int]:
    """The processes that have an end of a pipe open."""
    return {int(name) for name in filter(str.isdigit, os.listdir("/proc")) if pipe in open_files_of(name)}


def close_output_of(process: subprocess.Popen) -> None:
    """Leaves a process without a reader of its output. A process that another test is just starting has the reading end
    too, until it runs its own program; so that is waited for."""
    pipe = os.readlink(f"/proc/self/fd/{process.stdout.fileno()}")
    process.stdout.close()
    begun = time.monotonic()
    while holders_of(pipe) - {process.pid}:
        demand(time.monotonic() - begun < 30, "the output still has a reader after 30 s")


@contextlib.contextmanager
def pipe_without_reader():
    """The writing end of a pipe that no process reads. A process that another test is just starting has the reading end
    too, until it runs its own program; so that is waited for."""
    reading, writing = os.pipe()
    os.close(reading)
    try:
        poll = select.poll()
        poll.register(writing, 0)
        demand(bool(poll.poll(30_000)), "the pipe still has a reader after 30 s")
        yield writing
    finally:
        os.close(writing)
