"""Long tests of archives in files, which `./test` does not run:

    python3 tests/long_archives.py [--parish COMMAND] kills [ROWS [KILLS [SEED]]]
    python3 tests/long_archives.py [--parish COMMAND] killed-imports [PERSONS [KILLS [SEED]]]
    python3 tests/long_archives.py [--parish COMMAND] killed-openings [PERSONS [KILLS [SEED]]]
    python3 tests/long_archives.py [--parish COMMAND] [--loaded] compare 'COMMAND' [ROWS [SEED]]
    python3 tests/long_archives.py [--parish COMMAND] [--loaded] exports 'COMMAND' [ARCHIVES [SEED]]
    python3 tests/long_archives.py [--parish COMMAND] [--loaded] imports 'COMMAND' [FILES [SEED]]

`kills` gives ROWS generated rows (2,000) to `apply`, kills it KILLS times (20) at random moments and gives the same
rows again: each answer has to be that of a run that was not stopped, and so have the tables. `killed-imports` gives a
file of PERSONS persons (20,000) to `import`, kills it KILLS times (200), each time in a new archive, kills the
opening after it, which removes what is left, and gives the file again; it tells how often nothing of the file was
there after a whole opening, all of it, how often rows of it were left before, and how often the opening was killed
while it took them out. `killed-openings` kills KILLS times (20) the opening of an archive of the first version with
PERSONS persons (20,000) and an import that was left open: what is left then has to be as it was or anew, and the next
opening has to make it anew. `compare` gives ROWS rows (5,000), in archives of 200 rows each, to `apply` and to a second
program, which takes the same words, then drawn batches to `entries`, and their rows one by one to `apply`, and
compares what is told. `exports` gives the rows of ARCHIVES archives (500) to both, and compares what they export.
`imports` gives FILES drawn files (2,000) to both, each into an archive of 20 rows, each tenth twice, and compares
what is told and what is exported then. `--loaded`: the second program is one of Python, as `python3 PROGRAM.py`, and
is loaded once (loaded.py), so that a file takes a twentieth of a second and not a whole one. TMPDIR=/dev/shm spares
the disk. The last line is `N passed, M failed`.
"""

from __future__ import annotations

import argparse
import collections
import csv
import functools
import io
import os
import random
import shlex
import sys
import tempfile

sys.dont_write_bytecode = True

from archives import killed_and_run_again  # noqa: E402
from earlier import killed_in_an_opening  # noqa: E402
from harness import ROOT, Failed, Tools, difference, run  # noqa: E402
from imports import killed_in_an_import  # noqa: E402
from lineages import drawn as drawn_file  # noqa: E402
from loaded import Loaded  # noqa: E402

EACH = 200  # rows of an archive
ALIKE = 50  # files that are imported into the same rows
BATCHES = 12  # of an archive
SIZES = [0, 1, 2, 3, 5, 8]  # rows of a batch
TOKENS = ["b1", "b2", "b3", "b4", "b5", "b6", "b7", "b8", "b 9"]
PARISH = os.path.join(ROOT, "crates/parish/out/parish")


@functools.cache
def generator():
    """The generator of rows, loaded once."""
    return Loaded((sys.executable, os.path.join(ROOT, "tests/requests/generate.py")))


def generated(seed, count):
    """Rows of all verbs for a new archive."""
    return generator().run((str(seed), str(count))).out


def started(command):
    """A run of a command: from its words and its input to what comes of it."""
    return lambda words, given=b"": run(command, words, given, limit=600)


def fields_of(rows):
    return list(csv.reader(io.StringIO(rows.decode("utf-8", "surrogateescape"), newline="")))


def written(rows):
    text = io.StringIO(newline="")
    csv.writer(text, lineterminator="\n").writerows(rows)
    return text.getvalue().encode("utf-8", "surrogateescape")


def drawn(seed, answered):
    """Token, source and rows of batches: entries that another archive is asked for, of sources of this one, most
    without their place."""
    rng = random.Random(seed)
    sources = [row[2] for row in answered if row[1] == "ok" and row[0] in sources_of(seed)] or ["1"]
    entries = [row[3:] for row in fields_of(generated(seed + 500_000, EACH)) if row[1:2] == ["entry"]]
    for _ in range(BATCHES):
        rows = [list(row) for row in rng.choices(entries, k=rng.choice(SIZES))]
        for row in rows:
            if len(row) > 4 and rng.random() < 0.95:
                row[4] = ""
            if len(row) > 2 and rng.random() < 0.8:
                row[2] = str(rng.randrange(1, 1_000_000))
        yield rng.choice(TOKENS), rng.choice([*sources] * 5 + ["1", "1000"]), rows


def sources_of(seed):
    """The tokens of the rows that ask for a source."""
    return {row[0] for row in fields_of(generated(seed, EACH)) if row[1:2] == ["source"]}


def archive_of(program, seed, batches):
    """What is told of an archive: of the rows, of batches, which are drawn once where there are none, and of their rows
    one by one."""
    with tempfile.TemporaryDirectory() as folder:
        file = os.path.join(folder, "a.db")
        made = program(("init", file, "--society", "Ashby"))
        if made.status or made.err:
            raise Failed(f"init: {made}")
        told = [program(("apply", file), generated(seed, EACH))]
        batches.extend([] if batches else drawn(seed, fields_of(told[0].out)))
        for token, source, rows in batches:
            words = ("entries", file, "--source", source, "--token", token)
            told.append(program(words, written(rows)))
        single = [[f"e{n}", "entry", source, *row] for n, (_, source, rows) in enumerate(batches) for row in rows]
        told.append(program(("apply", file), written(single)))
        return told


def said(outcome):
    """What is compared of a run: not how much it read of what a refusal leaves unread, nor what it reports of rows. Of
    words that are refused (status 2) each program tells in its own way."""
    told = [line for line in outcome.err.splitlines() if not line.startswith(b"row ")]
    return outcome.out, [] if outcome.status == 2 else told, outcome.status


def compared(parish, second, rows, seed):
    """How many archives had the same answers, and how many had others."""
    passed = failed = accepted = entered = 0
    for number in range((rows + EACH - 1) // EACH):
        batches: list = []
        ours = archive_of(parish, seed * 1_000 + number, batches)
        theirs = archive_of(second, seed * 1_000 + number, batches)
        accepted += ours[0].out.count(b",ok,")
        entered += sum(one.status == 0 for one in ours[1:-1])
        if list(map(said, ours)) == list(map(said, theirs)) and ours[0].status == 0:
            passed += 1
        else:
            failed += 1
            one, other = next(
                (both for both in zip(ours, theirs, strict=True) if said(both[0]) != said(both[1])),
                (ours[0], theirs[0]),
            )
            print(f"archive {number}: {difference(other.out, one.out)} {one.err!r} {other.err!r}")
    print(f"{accepted} rows accepted, {entered} batches entered")
    return passed, failed


def exports_compared(parish, second, archives, seed):
    """How many archives of drawn rows are exported as a second program exports them, and how many are not."""
    passed = failed = lines = 0
    for number in range(archives):
        told = []
        for program in (parish, second):
            with tempfile.TemporaryDirectory() as folder:
                file = os.path.join(folder, "ashby.db")
                program(("init", file, "--society", "Ashby"))
                program(("apply", file), generated(seed * 1_000 + number, EACH))
                told.append(program(("export", file)))
        same = said(told[0]) == said(told[1]) and told[0].status == 0
        passed += same
        failed += not same
        lines += told[0].out.count(b"\n")
        if not same:
            print(f"archive {number}: {difference(told[1].out, told[0].out)} {told[0].err!r} {told[1].err!r}")
    print(f"{lines} lines exported")
    return passed, failed


@functools.lru_cache(maxsize=4)
def with_rows(program, seed):
    """The file of an archive with some rows."""
    with tempfile.TemporaryDirectory() as folder:
        file = os.path.join(folder, "ashby.db")
        program(("init", file, "--society", "Ashby"))
        program(("apply", file), generated(seed, 20))
        with open(file, "rb") as made:
            return made.read()


def imported_by(program, seed, given, times):
    """What is told of a file that is imported so many times into an archive with some rows, and what is exported
    then."""
    with tempfile.TemporaryDirectory() as folder:
        path = os.path.join(folder, "ashby.db")
        with open(path, "wb") as file:
            file.write(with_rows(program, seed))
        told = [program(("import", path, "--token", "file"), given) for _ in range(times)]
        return [*told, program(("export", path))]


def imports_compared(parish, second, files, seed):
    """How many drawn files are taken in as by a second program, and how many are not."""
    passed = failed = 0
    found: collections.Counter = collections.Counter()
    for number in range(files):
        given = drawn_file(seed, number)
        rows, times = seed * 1_000 + number // ALIKE, 1 if number % 10 else 2
        ours, theirs = (imported_by(program, rows, given, times) for program in (parish, second))
        same = list(map(said, ours)) == list(map(said, theirs))
        passed += same
        failed += not same
        found.update(line.partition(b": ")[2].decode() for line in ours[0].out.splitlines()[1:])
        found[f"status {ours[0].status}"] += 1
        if not same:
            one, other = next(both for both in zip(ours, theirs, strict=True) if said(both[0]) != said(both[1]))
            print(f"file {number}: {difference(other.out, one.out)} {one.err!r} {other.err!r}")
        if (number + 1) % 500 == 0:
            print(f"{passed} of {number + 1} files agree", flush=True)
    print(", ".join(f"{count} {what}" for what, count in sorted(found.items())))
    return passed, failed


def stopped(command, rows, kills, seed):
    try:
        killed_and_run_again(Tools(command, None), seed, rows, kills)
    except Failed as failed:
        print(failed)
        return 0, 1
    return 1, 0


def stopped_by(kill):
    """A test that kills a program, counts what was left, and fails where that is wrong."""
    def counted(command, persons, kills, seed):
        try:
            found = kill(Tools(command, None), kills, persons, seed)
        except Failed as failed:
            print(failed)
            return 0, 1
        print(", ".join(f"{count} {what}" for what, count in found.items()))
        return 1, 0

    return counted


KILLED = {
    "kills": (stopped, (2_000, 20, 1)),
    "killed-imports": (stopped_by(killed_in_an_import), (20_000, 200, 1)),
    "killed-openings": (stopped_by(killed_in_an_opening), (20_000, 20, 1)),
}
COMPARED = {"compare": (compared, 5_000), "exports": (exports_compared, 500), "imports": (imports_compared, 2_000)}


def main():
    words = argparse.ArgumentParser(usage=__doc__.strip())
    words.add_argument("--parish", default=PARISH)
    words.add_argument("--loaded", action="store_true")
    words.add_argument("what", choices=(*KILLED, *COMPARED))
    words.add_argument("words", nargs="*")
    given = words.parse_args()
    parish = tuple(shlex.split(given.parish))
    if given.what in KILLED:
        kill, numbers = KILLED[given.what]
        passed, failed = kill(parish, *map(int, given.words), *numbers[len(given.words) :])
    else:
        second, *numbers = given.words
        compare, most = COMPARED[given.what]
        count, seed = [*map(int, numbers), *(most, 1)[len(numbers) :]]
        command = tuple(shlex.split(second))
        other = Loaded(command).run if given.loaded else started(command)
        passed, failed = compare(started(parish), other, count, seed)
    print(f"{passed} passed, {failed} failed")
    return 1 if failed or not passed else 0


if __name__ == "__main__":
    sys.exit(main())
