"""Times `parish export` beside `norm` of the same bytes and `cat`: python3 bench/export.py [PERSONS..].

Of PERSONS persons (100,000), each with a birth at a place, a citation and a note: three records and 21 lines of the
file for each. `parish init` makes the archive, and Python's module `sqlite3` fills it, since rows of requests carry no
notes. Told are wall and processor time and the most memory of the fastest of three runs: of an opening alone (`apply`
without rows), of `export`, of `norm` and `cat` of what was exported. `export` less the opening, beside `norm`, is what
counts.
"""

import pathlib
import random
import sqlite3
import subprocess
import sys
import tempfile

from norm import FIRST, LAST, MONTHS, PARISH, ROOT, SAID, one_run

sys.path.append(str(ROOT / "tests"))

from beside import links_of, sought_of  # noqa: E402
from calendars import span_of  # noqa: E402
from packed import row_of  # noqa: E402

LINE = "INSERT INTO line (no, pos, depth, tag, text, dst) VALUES (?, ?, ?, ?, ?, ?)"


def person(rng, number):
    """The stored lines of a person, of the birth and of a citation, each a depth, a tag, a text and a number."""
    date = f"{rng.randint(1, 28)} {rng.choice(MONTHS)} {rng.randint(1600, 1900)}"
    first, last = rng.choice(FIRST), rng.choice(LAST)
    note = " ".join(rng.choices(SAID, k=rng.randint(10, 30)))
    yield "person", [
        (0, "person", None, None),
        (1, "name", f"{first} /{last}/", None),
        (2, "carried", None, None),
        (3, "GIVN", first, None),
        (3, "SURN", last, None),
        (1, "sex", rng.choice("MFU"), None),
        (1, "carried", None, None),
        (2, "NOTE", f"{note}\nCopied by A. Lee from the register, {number % 3 + 2020}", None),
        (3, "SOUR", None, 1),
        (4, "PAGE", f"p. {number % 300} of the printed edition", None),
        (2, "RFN", f"{number}", None),
        (2, "CHAN", "", None),
        (3, "DATE", date, None),
    ]
    yield "event", [
        (0, "event", None, number),
        (1, "BIRT", "", None),
        (1, "date", date, 2),
        (1, "carried", None, None),
        (2, "NOTE", "at night", None),
    ]
    yield "citation", [
        (0, "citation", None, number),
        (1, "source", f"f. {number % 211}, item {number % 9}, the second hand", 1),
        (1, "quality", str(number % 4), None),
    ]


def put(conn, number, kind, lines):
    """A record that is kept as these lines, with all that an archive has beside them."""
    conn.execute("INSERT INTO record (no, kind, batch) VALUES (?, ?, 0)", (number, kind))
    conn.execute(LINE, row_of(number, lines))
    conn.executemany("INSERT INTO link VALUES (?)", ((key,) for key in links_of(number, lines)))
    if (sought := sought_of(lines)) is not None:
        conn.execute("INSERT INTO sought VALUES (?, ?, ?)", (number, *sought))
    if (span := span_of(kind, lines)) is not None:
        conn.execute("INSERT INTO span VALUES (?, ?, ?)", (number, *span))


def filled(file, persons):
    """An archive of so many persons behind a source and a place."""
    subprocess.run([PARISH, "init", file, "--society", "Ashby Society"], check=True)
    rows = b"s,source,Ashby register,,,,\np,place,Ashby by the Water,\n"
    subprocess.run([PARISH, "apply", file], input=rows, stdout=subprocess.DEVNULL, check=True)
    rng = random.Random(7)
    with sqlite3.connect(file) as conn:
        number = 3
        for _ in range(persons):
            for kind, lines in person(rng, number):
                put(conn, number, kind, lines)
                number += 1
        conn.execute("UPDATE meta SET next = ?", (number,))
    conn.close()


def told(name, command, path, size):
    """A row of the table: the fastest of three runs that read the file at the path."""
    wall, cpu, memory = min(one_run(command, path) for _ in range(3))
    print(f"| {name} | {wall:.2f} s | {cpu:.2f} s | {memory / 1e3:.0f} MB | {size / 1e6 / cpu:.0f} MB/s |", flush=True)
    return cpu


def main():
    for persons in [int(word) for word in sys.argv[1:]] or [100_000]:
        with tempfile.TemporaryDirectory() as folder:
            file, text = str(pathlib.Path(folder, "ashby.db")), pathlib.Path(folder, "ashby.ged")
            filled(file, persons)
            with open(text, "wb") as out:
                subprocess.run([PARISH, "export", file], stdout=out, check=True)
            size = text.stat().st_size
            with open(text, "rb") as found:
                lines = sum(1 for _ in found)
            print(f"{persons:,} persons, {3 * persons + 2:,} records: {size:,} bytes, {lines:,} lines\n")
            print("| | wall | processor | most memory | of the export's bytes |")
            print("|---|---|---|---|---|")
            nothing = "/dev/null"
            opened = told("opening", [PARISH, "apply", file], nothing, size)
            whole = told("`export`", [PARISH, "export", file], nothing, size)
            norm = told("`norm`", [PARISH, "norm"], str(text), size)
            told("`cat`", ["cat"], str(text), size)
            print(f"\n`export` less the opening is {(whole - opened) / norm:.2f} times `norm`\n")


if __name__ == "__main__":
    main()
