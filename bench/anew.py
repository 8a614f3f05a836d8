"""Times the opening that makes an archive of the first version anew: python3 bench/anew.py [PERSONS..].

Of PERSONS persons (20,000 and 100,000) of bench/imports.py, with their events, families and sources. `parish import`
takes them in; then Python's module `sqlite3` makes of it an archive of the first version, in which the date of each
event whose number ends in 0 is a French Republican one that was no date then. Told are wall and processor time and the
most memory of the opening (`apply` without rows) that makes the archive anew, of three copies the fastest, of an
opening after it, and of `cat` of the file; and the size of the file before and after.
"""

from __future__ import annotations

import os
import shutil
import sqlite3
import subprocess
import sys
import tempfile

from imports import lines_of
from norm import PARISH, ROOT, one_run, written

sys.path.append(str(ROOT / "tests"))

from beside import LATER  # noqa: E402
from packed import PACKS, each_line  # noqa: E402

# The first version's table of lines, of which each has a row.
FIRST = (
    "CREATE TABLE line (id INTEGER PRIMARY KEY, no INTEGER NOT NULL REFERENCES record (no) ON DELETE RESTRICT,"
    " pos INTEGER NOT NULL, depth INTEGER NOT NULL, tag TEXT NOT NULL, text TEXT,"
    " dst INTEGER REFERENCES record (no) ON DELETE RESTRICT) STRICT",
    "CREATE INDEX line_by_record ON line (no)",
    "CREATE INDEX line_by_target ON line (dst)",
    "CREATE INDEX line_by_text ON line (text, dst)",
)


def made(file: str, text: str, persons: int) -> tuple[int, int, int]:
    """An archive of the first version; how many records, events and lines it has."""
    written(text, lines_of(persons))
    subprocess.run([PARISH, "init", file, "--society", "Ashby Society"], check=True)
    with open(text, "rb") as given:
        subprocess.run([PARISH, "import", file, "--token", "bench"], stdin=given, stdout=subprocess.DEVNULL, check=True)
    with sqlite3.connect(file) as conn:
        rows = each_line(conn.execute(PACKS).fetchall())
        for name in ("line", *LATER):
            conn.execute(f"DROP TABLE {name}")
        for statement in FIRST:
            conn.execute(statement)
        conn.executemany("INSERT INTO line (no, pos, depth, tag, text, dst) VALUES (?, ?, ?, ?, ?, ?)", rows)
        conn.execute("UPDATE meta SET version = 1")
        conn.execute("UPDATE line SET text = '@#dfrench r@ 18 brum 8' WHERE tag = 'date' AND no % 10 = 0")
        counts = [conn.execute(f"SELECT count(*) FROM {what}").fetchone()[0]
                  for what in ("record", "line WHERE tag = 'date' AND depth = 1", "line")]
    conn.execute("VACUUM")
    conn.close()
    return tuple(counts)


def told(name: str, run: tuple[float, float, int]) -> None:
    wall, processor, memory = run
    print(f"| {name} | {wall:.2f} s | {processor:.2f} s | {memory / 1e3:.0f} MB |", flush=True)


def main() -> None:
    for persons in [int(word) for word in sys.argv[1:]] or [20_000, 100_000]:
        with tempfile.TemporaryDirectory() as folder:
            first, file = os.path.join(folder, "first.db"), os.path.join(folder, "ashby.db")
            records, dates, lines = made(first, os.path.join(folder, "bench.ged"), persons)
            print(f"{persons:,} persons: {records:,} records, {lines:,} lines, {dates:,} dates\n")
            print("| | wall | processor | most memory |\n|---|---|---|---|")
            runs = []
            for _ in range(3):
                shutil.copy(first, file)
                runs.append(one_run([PARISH, "apply", file], "/dev/null"))
            told("made anew", min(runs))
            told("an opening behind it", min(one_run([PARISH, "apply", file], "/dev/null") for _ in range(3)))
            told("`cat`", min(one_run(["cat", file], "/dev/null") for _ in range(3)))
            with sqlite3.connect(file) as conn:
                spans = conn.execute("SELECT count(*) FROM span").fetchone()[0]
                assert conn.execute("SELECT version FROM meta").fetchone() == (2,)
            conn.close()
            before, after = os.path.getsize(first), os.path.getsize(file)
            print(f"\nthe file had {before:,} bytes and has {after:,}, and there are {spans:,} spans\n")


if __name__ == "__main__":
    main()
