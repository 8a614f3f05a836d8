"""Times rows written in one commit and read back, beside sqlite3 (C): python3 bench/tables.py [COUNT..].

Of COUNT persons with a name each (10,000 and 100,000): a row of `record` and one of `line` for each, in memory, in one
commit, and all of them read back. archive_rows is timed by differences: a run that makes the records, one that writes
them too, and one that reads them too. The peer is the C library through Python's module `sqlite3`, with the same tables
and the same statements, each prepared once, over a database in memory. Five runs of each in turn, of which the fastest
counts.
"""

import pathlib
import sqlite3
import subprocess
import sys
import time

ROOT = pathlib.Path(__file__).resolve().parents[1]
PROGRAM = ROOT / "crates/archive_rows/out/archive_rows"
SCHEMA = (
    "CREATE TABLE batch (no INTEGER PRIMARY KEY, is_open INTEGER NOT NULL) STRICT",
    "CREATE TABLE record (no INTEGER PRIMARY KEY, kind TEXT NOT NULL,"
    " batch INTEGER NOT NULL REFERENCES batch (no) ON DELETE RESTRICT) STRICT",
    "CREATE TABLE line (no INTEGER PRIMARY KEY REFERENCES record (no) ON DELETE RESTRICT,"
    " pos INTEGER NOT NULL, depth INTEGER NOT NULL, tag TEXT NOT NULL, text TEXT, dst INTEGER) STRICT",
    "INSERT INTO batch VALUES (0, 0)",
)


def ours(count, steps):
    """Seconds of a run with so many of the steps."""
    rows = ["create\tx", f"plan\tmany\t{count}", f"write\t{count + 1}", "load"][: 2 + steps]
    data = "".join(row + "\n" for row in rows).encode()
    start = time.perf_counter()
    out = subprocess.run([str(PROGRAM)], input=data, stdout=subprocess.PIPE, check=True).stdout
    seconds = time.perf_counter() - start
    assert out == b".\n" * len(rows), out[:100]
    return seconds


def theirs(count):
    """Seconds of the same statements, and of reading all rows in order."""
    conn = sqlite3.connect(":memory:", isolation_level=None)
    conn.execute("PRAGMA foreign_keys = ON")
    for text in SCHEMA:
        conn.execute(text)
    start = time.perf_counter()
    conn.execute("BEGIN")
    for number in range(1, count + 1):
        if conn.execute("UPDATE record SET kind = ?2, batch = ?3 WHERE no = ?1", (number, "person", 0)).rowcount == 0:
            conn.execute("INSERT INTO record (no, kind, batch) VALUES (?1, ?2, ?3)", (number, "person", 0))
    insert = "INSERT INTO line (no, pos, depth, tag, text, dst) VALUES (?1, ?2, ?3, ?4, ?5, ?6)"
    for number in range(1, count + 1):
        conn.execute("DELETE FROM line WHERE no = ?1", (number,))
        conn.execute(insert, (number, 0, 0, "person", f"\n1 name Ann /Lee {number}/\n", None))
    conn.execute("COMMIT")
    written = time.perf_counter() - start
    start = time.perf_counter()
    records = conn.execute("SELECT no, batch FROM record ORDER BY no").fetchall()
    lines = conn.execute("SELECT no, tag, text, dst FROM line ORDER BY no").fetchall()
    read = time.perf_counter() - start
    assert len(records) == count and len(lines) == count
    return written, read


def main():
    print("| records | rows | | written | rows a second | read back | rows a second |")
    print("|---|---|---|---|---|---|---|")
    for count in [int(word) for word in sys.argv[1:]] or [10_000, 100_000]:
        runs = [([ours(count, steps) for steps in range(3)], theirs(count)) for _ in range(5)]
        made, wrote, read = [min(run[0][step] for run in runs) for step in range(3)]
        peer = [min(run[1][step] for run in runs) for step in range(2)]
        for name, found in (("store_rows", (wrote - made, read - wrote)), ("`sqlite3` (C)", peer)):
            cells = [f"{seconds:.2f} s | {2 * count / seconds:,.0f}" for seconds in found]
            print(f"| {count:,} | {2 * count:,} | {name} | {cells[0]} | {cells[1]} |")


if __name__ == "__main__":
    main()
