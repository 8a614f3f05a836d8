"""Times batches of register entries in a real file, beside sqlite3 (C): python3 bench/batches.py [ROWS..].

For batches of ROWS rows (10,000, 20,000, 40,000 and 100,000), 20 entries a page, each with two mentions: how long
`parish entries` takes to enter them on a new archive with one source, its opening and closing in it. Beside it, for the
first ROWS: the same entries as rows of `entry` by `parish apply`, which commits each, and the C library through
Python's module `sqlite3`, which writes the same rows of the tables with the look-ups of a row of `entry`, in one commit
and with a commit an entry (see bench/requests.py). Three runs of each in turn, of which the fastest counts.
"""

import csv
import io
import pathlib
import sqlite3
import subprocess
import sys
import tempfile
import time

from requests import LINE, LINK, PARISH, RUNS, SOUGHT, apply, beside, copied, entry_row, lines_of, span_of, text

EACH = 20  # entries of a page


def new(folder):
    """An archive with a source."""
    file = pathlib.Path(folder) / "new.db"
    subprocess.run([str(PARISH), "init", str(file), "--society", "Ashby"], check=True)
    apply(file, text([("source", "Baptisms", "", "", "", "")], 1_000_000))
    return file


def entries(count):
    return [entry_row(1, f"f. {k // EACH}", k % EACH) for k in range(count)]


def entered(file, rows):
    """Seconds of one process that enters these rows as a batch."""
    out = io.StringIO()
    csv.writer(out, lineterminator="\n").writerows(row[2:] for row in rows)
    start = time.perf_counter()
    words = [str(PARISH), "entries", str(file), "--source", "1", "--token", "batch"]
    told = subprocess.run(words, input=out.getvalue().encode(), stdout=subprocess.PIPE, check=True).stdout
    seconds = time.perf_counter() - start
    assert told == f"made {len(rows)} entries, first 2\n".encode(), told
    return seconds


def written(file):
    """The rows of the tables that each entry of an archive has."""
    conn = sqlite3.connect(file)
    numbers = conn.execute("SELECT no, kind, batch FROM record WHERE no > 1 ORDER BY no").fetchall()
    found = [(record, lines_of(conn, record[0]), span_of(conn, record[0])) for record in numbers]
    conn.close()
    return [(*row, *beside(row[1])) for row in found]


def theirs(file, made, together):
    """Seconds of the peer for the same rows: in one commit, or with a commit and a receipt an entry."""
    with tempfile.TemporaryDirectory() as folder:
        conn = sqlite3.connect(copied(file, folder), isolation_level=None)
        for pragma in ("journal_mode = WAL", "synchronous = FULL", "foreign_keys = ON"):
            conn.execute(f"PRAGMA {pragma}").fetchall()
        start = time.perf_counter()
        if together:
            conn.execute("BEGIN")
        for n, (record, line, span, links, sought) in enumerate(made):
            if not together:
                conn.execute("SELECT digest, first, count FROM receipt WHERE token = ?1", (f"t{n}",)).fetchall()
                lines_of(conn, 1)
                conn.execute("SELECT next FROM meta").fetchall()
                conn.execute("BEGIN")
            conn.execute("SELECT no FROM sought WHERE text = ?1 AND dst = ?2", sought[1:]).fetchall()
            conn.execute("INSERT INTO record (no, kind, batch) VALUES (?1, ?2, ?3)", record)
            conn.execute(LINE, line)
            conn.executemany(LINK, ((key,) for key in links))
            conn.execute(SOUGHT, sought)
            if span:
                conn.execute("INSERT INTO span (no, lo, hi) VALUES (?1, ?2, ?3)", span)
            if not together or n + 1 == len(made):
                conn.execute("UPDATE meta SET next = ?1", (record[0] + 1,))
                conn.execute(
                    "INSERT INTO receipt (token, digest, first, count) VALUES (?1, ?2, ?3, ?4)",
                    (f"t{n}", bytes(32), record[0], 1),
                )
                conn.execute("COMMIT")
        seconds = time.perf_counter() - start
        conn.close()
    return seconds


def fastest(call):
    return min(call() for _ in range(RUNS))


def told(name, seconds, count):
    print(f"| {name} | {count:,} | {seconds:.2f} s | {seconds / count * 1_000:.3f} ms |", flush=True)


def main():
    counts = [int(word) for word in sys.argv[1:]] or [10_000, 20_000, 40_000, 100_000]
    print("| | entries | time | each |\n|---|---|---|---|")
    with tempfile.TemporaryDirectory() as folder:
        file = new(folder)

        def on_a_copy(call):
            with tempfile.TemporaryDirectory() as other:
                return call(copied(file, other))

        rows = entries(counts[0])
        for count in counts:
            told(
                "`parish entries`, one batch",
                fastest(lambda: on_a_copy(lambda copy: entered(copy, entries(count)))),
                count,
            )
        told(
            "`parish apply`, rows of `entry`",
            fastest(lambda: on_a_copy(lambda copy: apply(copy, text(rows)))),
            len(rows),
        )
        with tempfile.TemporaryDirectory() as other:
            copy = copied(file, other)
            entered(copy, rows)
            made = written(copy)
        for name, together in (("one commit", True), ("a commit an entry", False)):
            told(f"`sqlite3` (C), {name}", fastest(lambda: theirs(file, made, together)), len(made))


if __name__ == "__main__":
    main()
