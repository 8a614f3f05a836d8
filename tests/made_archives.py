"""The archive that a released version made, in tests/earlier/VERSION: what it was made of, and how it is made again.

    python3 tests/made_archives.py [--parish COMMAND] [--reference COMMAND] [--write]

The requests are in the folder too: rows, a file, two pages of a register, later rows, and last ones. The executable
makes the archive of them; with last.csv it is killed once it has answered, so that these rows are only in the log of
stopped.db. It is compared with the archive in the folder, table by table; with `--write` it takes its place. `./test`
compares it too, as long as the executable is of that version.

`--reference` is a second, slow program with the same commands, from the specification. All that the archive has to give
is compared with what that one gives for the same requests, or with `--write` written as that one gives it: answers.txt,
the exports, told.txt. It knows no page with a header, and is given table.rows.csv, which says the same. listed.txt,
which has lists, searches, records and doubts, was written by hand from docs/FORMATS.md. So no file is what the
executable says itself, but for the archive. Last `N passed, M failed`.
"""

from __future__ import annotations

import argparse
import os
import re
import shlex
import shutil
import subprocess
import sys
import tempfile
from typing import NamedTuple

sys.dont_write_bytecode = True

from archives import NAME, Folder  # noqa: E402
from harness import ROOT, Failed, Outcome, Tools, demand, run  # noqa: E402

HERE = os.path.join(ROOT, "tests", "earlier")
PARISH = os.path.join(ROOT, "crates", "parish", "out", "parish")
TODAY = ("--today", "2024-01-01")
FOUND = re.compile(r"^\$ (.*)\n", re.MULTILINE)


class Step(NamedTuple):
    """A request: its words after FILE, and the file of what it is given; where another program reads it otherwise, the
    words and the file for that."""

    command: str
    words: tuple[str, ...] = ()
    given: str = ""
    other: tuple[tuple[str, ...], str] | None = None


PAGE = ("--source", "15", "--token")
STEPS = (
    Step("init", ("--society", NAME)),
    Step("apply", (), "rows.csv"),
    Step("import", ("--token", "file"), "file.ged"),
    Step("entries", (*PAGE, "page"), "page.csv"),
    Step("entries", ("--table", *PAGE, "table"), "table.csv", ((*PAGE, "table"), "table.rows.csv")),
    Step("apply", (), "later.csv"),
)
LAST = Step("apply", (), "last.csv")
UNDONE = b"z,undo,37\n"
# The exports that are kept, and the words of each.
EXPORTS = {"export.ged": (), "public.ged": ("--public", *TODAY)}
# What the reference tells of it too.
TOLD = (
    *(f"sheet {kind} {' '.join(TODAY)}" for kind in
      ("person 1", "person 5", "person 24", "family 3", "family 29", "pedigree 4", "register 15")),
    "days --from 0001-01-01 --to 9999-12-31 --words",
    "days --from 1823-03-08 --to 1825-05-04",
    "audit",
)


def version_folder(version: str) -> str:
    return os.path.join(HERE, version)


def contents(folder: str, name: str) -> bytes:
    with open(os.path.join(folder, name), "rb") as file:
        return file.read()


def given_to(folder: str, step: Step) -> bytes:
    return contents(folder, step.given) if step.given else b""


def transcript(folder: str, name: str) -> dict[str, bytes]:
    """Of a file of commands, each after a dollar sign, what each prints."""
    pieces = FOUND.split(contents(folder, name).decode())
    return {words: out.encode() for words, out in zip(pieces[1::2], pieces[2::2], strict=True)}


class Program(Folder):
    """An archive in a folder of its own, and the program that makes it: the executable, or the reference."""

    def __init__(self, command: tuple[str, ...], kept: str, is_other: bool = False):
        super().__init__(Tools(command, None))
        self.kept, self.is_other = kept, is_other

    def told(self, command: str, *words: str, given: bytes = b"") -> bytes:
        got = run(self.parish, (command, self.file, *words), given)
        demand(got.status == 0, f"{command} {words}: {got.status}, {got.err!r}")
        return got.out

    def does(self, step: Step) -> bytes:
        words, given = (step.words, step.given) if not (self.is_other and step.other) else step.other
        return self.told(step.command, *words, given=given_to(self.kept, Step("", (), given)))

    def gives(self) -> dict[str, bytes]:
        """What the requests are answered, and what the archive gives then, by the names of the files for it. It has the
        last rows then, and the merge is undone."""
        found = {"answers.txt": b"".join(map(self.does, STEPS))}
        found |= {name: self.told("export", *words) for name, words in EXPORTS.items()}
        found["told.txt"] = b"".join(b"$ %s\n%s" % (it.encode(), self.told(*it.split())) for it in TOLD)
        found["last.txt"] = self.does(LAST)
        found["last.ged"] = self.told("export")
        self.told("apply", given=UNDONE)
        found["undone.ged"] = self.told("export")
        return found

    def stopped(self) -> None:
        """The last rows are done, and the program is killed once it has answered them."""
        pipes = {"stdin": subprocess.PIPE, "stdout": subprocess.PIPE}
        process = subprocess.Popen([*self.parish, LAST.command, self.file], **pipes)
        rows = given_to(self.kept, LAST)
        process.stdin.write(rows)
        process.stdin.flush()
        answers = [process.stdout.readline() for _ in rows.splitlines()]
        process.kill()
        process.communicate()
        demand(all(b",ok," in it for it in answers), f"{answers}")
        demand(os.path.getsize(self.file + "-wal") > 0, "nothing is in the log")


def made(command: tuple[str, ...], kept: str, to: str) -> None:
    """The archive, and the one that a stop left, in a folder."""
    with Program(command, kept) as at:
        for step in STEPS:
            at.does(step)
        shutil.copyfile(at.file, os.path.join(to, "archive.db"))  # its log is copied into it when a program ends
        at.stopped()
        for end in ("", "-wal"):
            shutil.copyfile(at.file + end, os.path.join(to, f"stopped.db{end}"))


def rows_in(folder: str, name: str) -> dict[str, list]:
    """The tables of an archive, with what is in its log."""
    with Folder(Tools((), None)) as at:
        for end in ("", "-wal"):
            if os.path.exists(os.path.join(folder, name + end)):
                shutil.copyfile(os.path.join(folder, name + end), at.file + end)
        return at.tables()


def written(folder: str, name: str, data: bytes) -> None:
    with open(os.path.join(folder, name), "wb") as file:
        file.write(data)


def checks(parish, reference, kept: str, is_written: bool):
    """Each thing that is looked at, by name."""
    with tempfile.TemporaryDirectory() as room:
        made(parish, kept, room)
        for name in ("archive.db", "stopped.db"):
            if is_written:
                for end in ("", "-wal") if name == "stopped.db" else ("",):
                    shutil.copyfile(os.path.join(room, name + end), os.path.join(kept, name + end))
            yield name, rows_in(room, name) == rows_in(kept, name)
    with Program(parish, kept) as at:
        ours = at.gives()
    if reference:
        with Program(reference, kept, is_other=True) as at:
            theirs = at.gives()
        for name, data in theirs.items():
            if is_written:
                written(kept, name, data)
            yield f"{name}, as the reference gives it", contents(kept, name) == data
    for name, data in ours.items():
        yield f"{name}, as the program gives it", contents(kept, name) == data


def main() -> int:
    words = argparse.ArgumentParser(description="Makes the archive of a released version again.")
    words.add_argument("--parish", default=PARISH)
    words.add_argument("--reference")
    words.add_argument("--write", action="store_true")
    given = words.parse_args()
    parish, reference = tuple(shlex.split(given.parish)), tuple(shlex.split(given.reference or ""))
    version = subprocess.run((*parish, "--version"), capture_output=True, check=True, text=True).stdout.split()[1]
    kept = version_folder(version)
    if not os.path.isdir(kept):
        sys.exit(f"made_archives: there is no folder for version {version}")
    outcomes = dict(checks(parish, reference, kept, given.write))
    for name, is_so in outcomes.items():
        print(f"{name}: {'passed' if is_so else 'FAILED'}")
    passed = sum(outcomes.values())
    print(f"{passed} passed, {len(outcomes) - passed} failed")
    return 0 if passed == len(outcomes) else 1


if __name__ == "__main__":
    try:
        sys.exit(main())
    except (Failed, OSError) as error:
        sys.exit(f"made_archives: {error}")
