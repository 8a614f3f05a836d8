"""What Gramps, LifeLines and Gedcom.pm keep of exports, beside what they keep of the files that were imported.

    python3 tests/long_interchange.py [--parish COMMAND] [--seed N] [--archives N] [--shown N] [--keep FOLDER]

It needs Debian's packages gramps, lifelines and libgedcom-perl. If one is missing it says so, with status 2:

    apt-get update && apt-get install -y --no-install-recommends gramps lifelines libgedcom-perl

Files of other programs (tests/programs, samples, and drawn ones: interchange/society.py, lineages.py) are read
straight, and after `import` by `export` and by `export --plain`. A value is kept if it is at the same record, by what
people call it, on the same path as straight, also in a longer text. Archives (that of docs/WALK.md, drawn societies
with registers, and ARCHIVES (20) of shown/drawn.py and of tests/requests/generate.py each) are read by both exports: a
text of the archive is kept if its person, family, source or repository has it somewhere; a linked mention is cited if
its person, or a family of its person, has its page and its transcription in one citation.

It prints what misses its goal, with the first texts that are lost (`--shown`, 5), complaints, and tables. The goals,
of a plain export: of all files together Gramps keeps 99 % of what it keeps straight, of each with as many errors at
most; Gedcom.pm has as many complaints at most, and of an archive none; LifeLines reads it; every linked mention is
cited. No goal is set for what is drawn with records that no society has. Last `N passed, M failed`. `--keep` leaves
the files in FOLDER.
"""

from __future__ import annotations

import argparse
import collections
import glob
import os
import re
import shlex
import sys
import tempfile
from typing import NamedTuple

sys.dont_write_bytecode = True

from documents import ARCHIVE, walks_of  # noqa: E402
from harness import ROOT, Failed, run  # noqa: E402
from interchange.kept_lines import Archive, holds, kept, normal  # noqa: E402
from interchange.programs import PROGRAMS, Told, missing  # noqa: E402
from interchange.registers import Registers  # noqa: E402
from interchange.society import PERSON_EVENTS, drawn as society  # noqa: E402
from lineages import drawn as lineage  # noqa: E402
from long_archives import generated  # noqa: E402
from shown.drawn import archive as drawn_archive  # noqa: E402

PARISH = os.path.join(ROOT, "crates/parish/out/parish")
SAMPLES = ("family.ged", "moved.ged", "note.ged", "register.ged")
FORMS = {"export": (), "plain": ("--plain",)}
# Drawn for the tests of this program, with records that no society has: counted, but no goal is set for them.
ODDITIES = ("drawn faults", "drawn archives", "drawn rows")
LEAST = 0.99  # of what Gramps keeps of a file straight


class Given(NamedTuple):
    """A file, or an archive, and its group in the tables; the paths of what the programs are given."""

    group: str
    name: str
    paths: dict[str, str]


class Parish:
    """The program, and the folder for what it writes."""

    def __init__(self, command: tuple[str, ...], folder: str):
        self.command, self.folder, self.count = command, folder, 0

    def run(self, words, given=b"", status=0):
        got = run(self.command, words, given, limit=600)
        if got.status != status:
            raise Failed(f"parish {shlex.join(words)}: status {got.status}, {got.err.decode(errors='replace')}")
        return got.out

    def path(self, ending: str) -> str:
        self.count += 1
        return os.path.join(self.folder, f"{self.count:03}.{ending}")

    def archive(self) -> str:
        file = self.path("db")
        self.run(("init", file, "--society", "Ashby Family History Society"))
        return file

    def exports(self, file: str) -> dict[str, str]:
        """Each form of an archive's export, in a file."""
        found = {}
        for form, words in FORMS.items():
            found[form] = self.path(f"{form}.ged")
            with open(found[form], "wb") as out:
                out.write(self.run(("export", file, *words)))
        return found

    def foreign(self, group: str, name: str, given: bytes) -> Given:
        """A file of another program: straight, and imported and exported."""
        straight, file = self.path("ged"), self.archive()
        with open(straight, "wb") as out:
            out.write(given)
        self.run(("import", file, "--token", "file"), given)
        return Given(group, name, {"straight": straight, **self.exports(file)})

    def imported(self, group: str, name: str, given: bytes) -> Given:
        file = self.archive()
        self.run(("import", file, "--token", "file"), given)
        return Given(group, name, self.exports(file))

    def walked(self) -> Given:
        """The archive of docs/WALK.md after all its commands."""
        file = self.path("db")
        program = shlex.join(self.command)
        for command, _ in walks_of("docs/WALK.md")[0]:
            words = command.replace(ARCHIVE, shlex.quote(file)).replace("./parish", program)
            run(("sh", "-c", f"exec 2>&1; {words}"), cwd=ROOT)
        return Given("the walk", "docs/WALK.md", self.exports(file))

    def with_registers(self, seed: int) -> Given:
        """A drawn society with register entries, links and participants."""
        file = self.archive()
        self.run(("import", file, "--token", "file"), society(seed))
        rows = Registers(self.run(("export", file)).decode(), seed)
        answers = self.run(("apply", file), rows.entries())
        self.run(("apply", file), rows.linking(answers))
        found = self.run(("days", file, "--from", "1600-01-01", "--to", "1900-01-01", "--words")).decode()
        events = [words[0] for words in map(str.split, found.splitlines()) if words[1] in PERSON_EVENTS]
        self.run(("apply", file), rows.participants(events))
        return Given("drawn registers", f"registers.py {seed}", self.exports(file))

    def rows(self, seed: int) -> Given:
        file = self.archive()
        self.run(("apply", file), generated(seed, 200))
        return Given("drawn rows", f"generate.py {seed}", self.exports(file))


def without_more(file: bytes) -> bytes:
    """A drawn file without its lines of a tag that no program knows, which would each be a complaint."""
    kept_lines, above = [], None
    for line in file.split(b"\n"):
        level = int(line.split(b" ")[0] or b"0")
        if above is not None and level > above:
            continue
        above = level if line.split(b" ")[1:2] == [b"_MORE"] else None
        if above is None:
            kept_lines.append(line)
    return b"\n".join(kept_lines)


def contents(path: str) -> bytes:
    with open(path, "rb") as file:
        return file.read()


def files_of(parish: Parish, seed: int, count: int):
    """All that the programs are given."""
    for path in sorted(glob.glob(os.path.join(ROOT, "tests/programs/*.ged"))):
        if not path.endswith(".records.ged"):
            yield parish.foreign("manners of programs", os.path.basename(path), contents(path))
    for name in SAMPLES:
        yield parish.foreign("samples", name, contents(os.path.join(ROOT, "samples", name)))
    for number in range(2):
        yield parish.foreign("drawn societies", f"society.py {seed + number}", society(seed + number))
    for number in range(count):
        yield parish.foreign("drawn faults", f"lineages.py {seed} {number}", lineage(seed, number))
    yield parish.walked()
    for number in range(2):
        yield parish.with_registers(seed + number)
    for number in range(count):
        given = without_more(drawn_archive(seed, number).file)
        yield parish.imported("drawn archives", f"drawn.py {seed} {number}", given)
    for number in range(count):
        yield parish.rows(seed * 1_000 + number)


# ---- what is kept


class Table:
    """Counts by row and column, and what misses a goal."""

    def __init__(self, most_shown: int):
        self.rows: dict[tuple[str, str], dict[str, int]] = {}
        self.failures: list[str] = []
        self.passed, self.most_shown = 0, most_shown
        self.complaints: collections.Counter = collections.Counter()
        self.totals: dict[str, tuple[int, int]] = {}

    def complaint(self, program: str, said: str) -> None:
        """Counts a complaint of a plain export by its words, without numbers, names and values."""
        words = re.sub(r"\(.*\)$|@\w+@|\b[A-Z]?\d+\b|^\W+|\s+Line .*$", "", said)
        self.complaints[program, " ".join(words.replace(":", " ").split())] += 1

    def add(self, group: str, program: str, **counts: int) -> None:
        row = self.rows.setdefault((group, program), {})
        for name, count in counts.items():
            row[name] = row.get(name, 0) + count

    def show(self, said: str, lost) -> None:
        """Prints what is lost, if anything is."""
        if lost:
            print(said, *lost[: self.most_shown], sep="\n    ", flush=True)

    def total(self, program: str, straight: int, count: int) -> None:
        """Adds to the values of all files of other programs."""
        of, found = self.totals.get(program, (0, 0))
        self.totals[program] = of + straight, found + count

    def demand(self, holds: bool, said: str, lost=()) -> None:
        self.passed += holds
        if not holds:
            self.failures.append(said)
            print(f"missed: {said}", *list(lost)[: self.most_shown], sep="\n    ", flush=True)

    def text(self) -> str:
        return "\n".join(f"{group} | {program} | " + ", ".join(f"{name.replace('_', ' ')} {count}" for name, count in
                         row.items()) for (group, program), row in self.rows.items())


def compare_foreign(table: Table, given: Given, program: str, told: dict[str, Told]) -> None:
    """A file of another program, straight and by both exports."""
    straight = told["straight"]
    counts = {"files": 1, "straight": len(straight.values), "errors straight": straight.errors}
    for form in FORMS:
        count, lost = kept(straight.values, told[form].values)
        counts |= {form: count, f"errors {form}": told[form].errors}
        if form != "plain" or given.group in ODDITIES:
            continue
        table.show(f"{given.name}: {program} keeps {count} of {len(straight.values)} values", lost)
        table.total(program, len(straight.values), count)
        more = [one for one in told[form].said if one not in straight.said]
        table.demand(told[form].errors <= straight.errors or program == "LifeLines" and not refused(told[form]),
                     f"{given.name}: {program} has {told[form].errors} errors, straight {straight.errors}", more)
    table.add(given.group, program, **counts)


def refused(told: Told) -> bool:
    """Whether LifeLines refused a file; it reads one with warnings."""
    return any(one.startswith("error") for one in told.said)


def compare_archive(table: Table, given: Given, program: str, told: dict[str, Told]) -> None:
    """An archive by both exports: texts by kind, and linked mentions."""
    with open(given.paths["export"], encoding="utf-8") as file:
        archive = Archive(file.read())
    for form in FORMS:
        texts: dict[str, list[str]] = {}
        for value in told[form].values:
            texts.setdefault(value.owner, []).append(normal(value.text))
        whole = {owner: "\n".join(all) for owner, all in texts.items()}
        lost = [one for one in archive.said if not any(holds(whole.get(it, ""), one) for it in one.owners)]
        missed = [one for one in archive.mentions if not is_cited(one, told[form].cited.get(one.person, []))]
        table.add(given.group, program, **{f"archives {form}": 1, f"texts {form}": len(archive.said),
                                           f"kept {form}": len(archive.said) - len(lost),
                                           f"mentions {form}": len(archive.mentions),
                                           f"cited {form}": len(archive.mentions) - len(missed),
                                           f"errors {form}": told[form].errors})
        for kind in sorted({one.kind for one in archive.said}):
            count = sum(one.kind == kind for one in archive.said)
            left = sum(one.kind == kind for one in lost)
            table.add(f"{given.group}: {kind}", program, **{form: count - left, f"of {form}": count})
        if form == "plain" and given.group not in ODDITIES:
            table.demand(not missed, f"{given.name}: {program}: {len(missed)} mentions are not cited", missed)
            table.demand(told[form].errors == 0 or program == "LifeLines" and not refused(told[form]),
                         f"{given.name}: {program} has {told[form].errors} errors", told[form].said)
        if form == "plain":
            for said in told[form].said:
                table.complaint(program, said)
            table.show(f"{given.name}: {program} does not have {len(lost)} of {len(archive.said)} texts", lost)


def is_cited(mention, cited) -> bool:
    text = normal(mention.text)
    on_page = (texts for page, texts in cited if normal(page) == normal(mention.page))
    return any(not text or text in map(normal, texts) for texts in on_page)


def main() -> int:
    words = argparse.ArgumentParser(description="What other programs keep of exports.")
    words.add_argument("--parish", default=PARISH)
    words.add_argument("--seed", type=int, default=1)
    words.add_argument("--archives", type=int, default=20)
    words.add_argument("--shown", type=int, default=5)
    words.add_argument("--keep", metavar="FOLDER")
    given = words.parse_args()
    if lacking := missing():
        print(f"long_interchange: not installed: {', '.join(lacking)}: apt-get update && apt-get install -y "
              f"--no-install-recommends {' '.join(lacking)}")
        return 2
    with tempfile.TemporaryDirectory() as folder:
        parish = Parish(tuple(shlex.split(given.parish)), os.path.abspath(given.keep or folder))
        every = list(files_of(parish, given.seed, given.archives))
        table = Table(given.shown)
        for program, read in PROGRAMS.items():
            paths = [path for one in every for path in one.paths.values()]
            told = dict(zip(paths, read(paths), strict=True))
            for one in every:
                by_form = {form: told[path] for form, path in one.paths.items()}
                (compare_foreign if "straight" in by_form else compare_archive)(table, one, program, by_form)
    straight, found = table.totals["Gramps"]
    table.demand(found >= LEAST * straight, f"Gramps keeps {found} of {straight} values of the files of other programs")
    for (program, said), count in table.complaints.most_common(40):
        print(f"complaints of plain exports of archives: {program}: {count} times {said}")
    print(table.text())
    print(f"{table.passed} passed, {len(table.failures)} failed")
    return 1 if table.failures or not table.passed else 0


if __name__ == "__main__":
    sys.exit(main())
