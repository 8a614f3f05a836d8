"""Times `parish audit`: python3 bench/audit.py [PERSONS..].

Of PERSONS persons (100,000), each with a birth at a place, a citation and a note (bench/export.py), and of inputs where
a step that is quadratic would show, of a tenth as many records each. Told are wall and processor time and the most
memory of the fastest of three runs: of an opening alone (`apply` without rows), and of `audit`, which reads all tables
and judges what they mean.
"""

import pathlib
import sqlite3
import subprocess
import sys
import tempfile

from export import filled, put
from norm import PARISH, one_run


def places(count):
    """Chains of 32 places, each within the one before."""
    for n in range(count):
        yield "place", [(0, "place", f"p{n}", None if n % 32 == 0 else n + 2)]


def family(count):
    """Persons, and a family of which all are children."""
    for _ in range(count):
        yield "person", [(0, "person", None, None), (1, "name", "Ann /Lee/", None)]
    yield "family", [(0, "family", None, None), *((1, "child", None, n + 3) for n in range(count))]


def page(count):
    """Register entries of one page."""
    for n in range(count):
        yield "entry", [
            (0, "entry", "BURIAL", None),
            (1, "key", f"{n + 1} f. 1", 1),
            (1, "page", "f. 1", None),
            (1, "item", str(n + 1), None),
            (1, "text", "Ann", None),
            (1, "mention", "Ann", None),
            (2, "role", "buried", None),
        ]


def notes(count):
    """Other records, of which each points to the next, and the last to the first."""
    for n in range(count):
        yield "other", [(0, "other", None, None), (1, "NOTE", None, (n + 1) % count + 3)]


HARD = {"chains of 32 places": places, "children of one family": family, "entries of one page": page,
        "notes in a ring": notes}


def made(file, records, first=3):
    """An archive of these records behind a source and a place; the number of the first is `first`."""
    subprocess.run([PARISH, "init", file, "--society", "Ashby Society"], check=True)
    rows = b"s,source,Ashby register,,,,\np,place,Ashby by the Water,\n"
    subprocess.run([PARISH, "apply", file], input=rows, stdout=subprocess.DEVNULL, check=True)
    with sqlite3.connect(file) as conn:
        number = first
        for kind, lines in records:
            put(conn, number, kind, lines)
            number += 1
        conn.execute("UPDATE meta SET next = ?", (number,))
    conn.close()


def told(name, file):
    """Two rows of the table: the opening of the file alone, and its audit."""
    for what, command in (("opening", "apply"), ("`audit`", "audit")):
        wall, cpu, memory = min(one_run([PARISH, command, file], "/dev/null") for _ in range(3))
        print(f"| {name}: {what} | {wall:.2f} s | {cpu:.2f} s | {memory / 1e3:.0f} MB |", flush=True)
    said = subprocess.run([PARISH, "audit", file], stdout=subprocess.PIPE, check=True).stdout
    assert said.startswith(b"sound: "), said


def main():
    for persons in [int(word) for word in sys.argv[1:]] or [100_000]:
        print("| | wall | processor | most memory |\n|---|---|---|---|")
        with tempfile.TemporaryDirectory() as folder:
            file = str(pathlib.Path(folder, "ashby.db"))
            filled(file, persons)
            told(f"{persons:,} persons", file)
        for name, records in HARD.items():
            with tempfile.TemporaryDirectory() as folder:
                file = str(pathlib.Path(folder, "hard.db"))
                made(file, records(persons // 10))
                told(f"{persons // 10:,} {name}", file)
        with tempfile.TemporaryDirectory() as folder:
            file = str(pathlib.Path(folder, "far.db"))
            made(file, [("repo", [(0, "repo", None, None)])], 4_294_967_295)
            told("one record with the last number", file)


if __name__ == "__main__":
    main()
