"""Times requests on an archive in a real file, beside sqlite3 (C): python3 bench/requests.py [PERSONS..].

For archives of PERSONS persons (100, 10,000 and 100,000, written in one transaction of this script's own): how long
`parish apply` takes to open and close the archive, and for each verb to do one row, with its commit. A row's time is
what a process that does 100 such rows, each changing a record that no other changes, takes from the answer to the first
until the answer to the last, over 99: so the opening is not in it. Then 10,000 rows of all verbs in turn on the
smallest archive.

The peer is the C library through Python's module `sqlite3`, over a copy of the same file, with a log (WAL) and a sync
at each commit (synchronous=FULL): for each row it looks up the token, the next number, and the records and lines that
the row names, and then writes the same rows as parish has written, which the script has read of parish's own archive
before. It decides nothing. Three runs of each in turn, of which the fastest counts.
"""

import csv
import io
import pathlib
import shutil
import sqlite3
import subprocess
import sys
import tempfile
import time

ROOT = pathlib.Path(__file__).resolve().parents[1]
sys.path.append(str(ROOT / "tests"))

from beside import links_of, sought_of  # noqa: E402
from packed import row_of, unpack  # noqa: E402

PARISH = ROOT / "crates/parish/out/parish"
MANY, ROWS, RUNS = 100, 10_000, 3
LINE = "INSERT INTO line (no, pos, depth, tag, text, dst) VALUES (?1, ?2, ?3, ?4, ?5, ?6)"
LINK = "INSERT OR IGNORE INTO link (id) VALUES (?1)"
SOUGHT = "INSERT INTO sought (no, text, dst) VALUES (?1, ?2, ?3)"
VERBS = (
    "person", "name", "sex", "family", "child", "event", "amend", "participant", "place", "repo", "source", "citation",
    "entry", "link", "unlink", "remove", "partner", "unpartner", "correct",
)


def row(verb, k, persons):
    """The fields of the k-th row of a verb. It changes no record that another row of this verb changes."""
    husband, wife, child, other = ((k + n) % persons + 1 for n in range(4))
    family, event = persons + 1 + k, persons + 1 + MANY + k
    source, unnamed = persons + 1 + 2 * MANY, persons + 2 + 2 * MANY + k
    entry, linked = persons + 2 + 3 * MANY + k, persons + 2 + 4 * MANY + k
    match verb:
        case "person":
            return ("person", f"Ann /Lee {k}/", "F")
        case "name":
            return ("name", husband, f"Anna /Leigh {k}/")
        case "sex":
            return ("sex", wife, "F")
        case "family":
            return ("family", husband, wife)
        case "child":
            return ("child", family, child)
        case "event":
            return ("event", child, "BIRT", "", "3 MAY 1701", "")
        case "amend":
            return ("amend", event, "born at Mill Field", "4 MAY 1701", "")
        case "participant":
            return ("participant", event, wife, "witness")
        case "place":
            return ("place", f"Mill Field {k}", "")
        case "repo":
            return ("repo", f"Parish chest {k}")
        case "source":
            return ("source", f"Baptisms {k}", "", "", "", "")
        case "citation":
            return ("citation", child, source, f"f. {k}", "2")
        case "entry":
            return entry_row(source, "f. 13", k)
        case "link":
            return ("link", entry, "1", child, "same day and father")
        case "unlink":
            return ("unlink", linked, "2")
        case "remove":
            return ("remove", unnamed)
        case "partner":
            return ("partner", family, "husband", other)
        case "unpartner":
            return ("unpartner", family, wife)
        case "correct":
            return ("correct", event, "date", "4 MAY 1701")


def entry_row(source, page, k):
    """The k-th entry of a page. What is no record's number is a string, so that the peer looks for no record of it."""
    words = (f"John of Thos. Lee, Mill Field, {k}", "child", "John", "father", "Thos. Lee")
    return ("entry", source, "BAPTISM", page, str(k + 1), "6 MAR 1757", "", *words)


def text(rows, first=0):
    out = io.StringIO()
    csv.writer(out, lineterminator="\n").writerows((f"t{first + n}", *fields) for n, fields in enumerate(rows))
    return out.getvalue()


def apply(file, rows):
    """Seconds of one process that does these rows."""
    start = time.perf_counter()
    out = subprocess.run(
        [str(PARISH), "apply", str(file)], input=rows.encode(), stdout=subprocess.PIPE, check=True
    ).stdout
    seconds = time.perf_counter() - start
    assert out.count(b",ok,") == rows.count("\n"), out[-200:]
    return seconds


def between_answers(file, rows):
    """Seconds from the answer to the first of these rows until that to the last. Each is answered once it is kept."""
    with subprocess.Popen([str(PARISH), "apply", str(file)], stdin=subprocess.PIPE, stdout=subprocess.PIPE) as ended:
        ended.stdin.write(rows.encode())
        ended.stdin.close()
        assert b",ok," in ended.stdout.readline()
        start = time.perf_counter()
        rest = ended.stdout.read(1)
        seconds = start
        while line := ended.stdout.readline():
            rest, seconds = rest + line, time.perf_counter()
    assert rest.count(b",ok,") == rows.count("\n") - 1, rest[-200:]
    return seconds - start


def made(file, persons):
    """An archive of so many persons, and behind them MANY families, as many events, a source, MANY repositories that
    nothing names, and twice as many register entries, of which the latter half have a link."""
    subprocess.run([str(PARISH), "init", str(file), "--society", "Ashby"], check=True)
    with sqlite3.connect(file) as conn:
        for number in range(1, persons + 1):
            conn.execute("INSERT INTO record (no, kind, batch) VALUES (?1, 'person', 0)", (number,))
            lines = [(0, "person", None, None), (1, "name", f"Tom /Ray {number}/", None), (1, "sex", "M", None)]
            conn.execute(LINE, row_of(number, lines))
        conn.execute("UPDATE meta SET next = ?1", (persons + 1,))
    conn.close()
    families = [row("family", k, persons) for k in range(MANY)]
    events = [("event", persons + 1 + k, "MARR", "", "1 MAY 1700", "") for k in range(MANY)]
    source = [("source", "Baptisms", "", "", "", "")]
    repos = [("repo", f"Chest {k}") for k in range(MANY)]
    entries = [entry_row(persons + 1 + 2 * MANY, "f. 12", k) for k in range(2 * MANY)]
    links = [("link", persons + 2 + 4 * MANY + k, "2", k % persons + 1, "same name") for k in range(MANY)]
    apply(file, text(families + events + source + repos + entries + links, 1_000_000))


def copied(file, folder):
    copy = pathlib.Path(folder) / "a.db"
    shutil.copy(file, copy)
    return copy


def ours(file, rows):
    with tempfile.TemporaryDirectory() as folder:
        return apply(copied(file, folder), text(rows))


def lines_of(conn, number):
    """The row of `line` of a number, where it has one."""
    return conn.execute("SELECT no, pos, depth, tag, text, dst FROM line WHERE no = ?1", (number,)).fetchone()


def beside(row):
    """What a record has beside its row of `line`: its links, and the row of what it is looked for by."""
    number, _, _, tag, packed, named = row
    lines = unpack(tag, packed, named)
    sought = sought_of(lines)
    return links_of(number, lines), sought and (number, *sought)


def span_of(conn, number):
    """The row of `span` of a number, where it has one."""
    return conn.execute("SELECT no, lo, hi FROM span WHERE no = ?1", (number,)).fetchone()


def plan(file, rows):
    """What parish writes for each row: the numbers that it names, the records that it puts with their spans, its
    receipt. Each row is one request on records that no other row changes, so the lines that are there at the end
    are those that it wrote."""
    with tempfile.TemporaryDirectory() as folder:
        copy = copied(file, folder)
        before, after = sqlite3.connect(file), sqlite3.connect(copy)
        apply(copy, text(rows))
        found = []
        for n, fields in enumerate(rows):
            receipt = after.execute(
                "SELECT token, digest, first, count FROM receipt WHERE token = ?1", (f"t{n}",)
            ).fetchone()
            named = [word for word in fields[1:] if isinstance(word, int)]
            put = [number for number in named if lines_of(before, number) != lines_of(after, number)]
            put += [receipt[2]] * receipt[3]
            kinds = [
                after.execute("SELECT no, kind, batch FROM record WHERE no = ?1", (number,)).fetchone()
                for number in put
            ]
            rows_of = [(kind, lines_of(after, number), span_of(after, number)) for number, kind in zip(put, kinds)]
            rows_of = [(*row, beside(row[1]) if row[1] else ([], None)) for row in rows_of]
            found.append((named, [(number, *rest) for number, rest in zip(put, rows_of)], receipt))
        before.close()
        after.close()
    return found


def theirs(file, steps):
    """Seconds of opening, and of the same look-ups and rows, each request in a commit."""
    with tempfile.TemporaryDirectory() as folder:
        start = time.perf_counter()
        conn = sqlite3.connect(copied(file, folder), isolation_level=None)
        for pragma in ("journal_mode = WAL", "synchronous = FULL", "foreign_keys = ON"):
            conn.execute(f"PRAGMA {pragma}").fetchall()
        conn.execute("SELECT version, next, society FROM meta").fetchall()
        opened = time.perf_counter() - start
        start = time.perf_counter()
        for named, put, receipt in steps:
            perform(conn, named, put, receipt)
        seconds = time.perf_counter() - start
        conn.close()
    return opened, seconds


def perform(conn, named, put, receipt):
    conn.execute("SELECT digest, first, count FROM receipt WHERE token = ?1", receipt[:1]).fetchall()
    for number in named:
        conn.execute("SELECT kind, batch FROM record WHERE no = ?1", (number,)).fetchall()
        lines_of(conn, number)
    conn.execute("SELECT next FROM meta").fetchall()
    conn.execute("BEGIN")
    for number, kind, line, span, (links, sought) in put:
        if kind is None:
            remove(conn, number)
            continue
        if conn.execute("UPDATE record SET kind = ?2, batch = ?3 WHERE no = ?1", kind).rowcount == 0:
            conn.execute("INSERT INTO record (no, kind, batch) VALUES (?1, ?2, ?3)", kind)
        conn.execute("DELETE FROM line WHERE no = ?1", kind[:1])
        conn.execute(LINE, line)
        conn.executemany(LINK, ((key,) for key in links))
        conn.execute("DELETE FROM sought WHERE no = ?1", kind[:1])
        if sought:
            conn.execute(SOUGHT, sought)
        if span and conn.execute("UPDATE span SET lo = ?2, hi = ?3 WHERE no = ?1", span).rowcount == 0:
            conn.execute("INSERT INTO span (no, lo, hi) VALUES (?1, ?2, ?3)", span)
    if receipt[3]:
        conn.execute("UPDATE meta SET next = ?1", (receipt[2] + 1,))
    conn.execute("INSERT INTO receipt (token, digest, first, count) VALUES (?1, ?2, ?3, ?4)", receipt)
    conn.execute("COMMIT")


def remove(conn, number):
    """Takes a record out, where no line names it."""
    first = (number << 32) - (1 << 63)
    found = conn.execute("SELECT id FROM link WHERE id BETWEEN ?1 AND ?2", (first, first + (1 << 32) - 1)).fetchall()
    assert not [key for (key,) in found if key & 0xFFFFFFFF != number]
    conn.execute("DELETE FROM line WHERE no = ?1", (number,))
    conn.execute("DELETE FROM sought WHERE no = ?1", (number,))
    conn.execute("DELETE FROM span WHERE no = ?1", (number,))
    conn.execute("DELETE FROM record WHERE no = ?1", (number,))


def verbs(file, persons):
    """A line for each verb: milliseconds a row of ours and of the peer."""
    rows_of = {verb: [row(verb, k, persons) for k in range(MANY)] for verb in VERBS}
    plans = {verb: plan(file, rows) for verb, rows in rows_of.items()}
    for verb, rows in rows_of.items():
        own, peer = [], []
        for _ in range(RUNS):
            with tempfile.TemporaryDirectory() as folder:
                own.append(between_answers(copied(file, folder), text(rows)) / (MANY - 1))
            peer.append(theirs(file, plans[verb])[1] / MANY)
        print(f"| {persons:,} | {verb} | {min(own) * 1_000:.2f} ms | {min(peer) * 1_000:.2f} ms |", flush=True)


def opening(file, persons):
    own = min(ours(file, []) for _ in range(RUNS))
    peer = min(theirs(file, [])[0] for _ in range(RUNS))
    size = file.stat().st_size / 1_000
    print(f"| {persons:,} | opening, {size:,.0f} kB | {own * 1_000:.1f} ms | {peer * 1_000:.1f} ms |", flush=True)


def all_in_turn(file, persons):
    """10,000 rows: the first MANY of all verbs in turn, then persons, families and events of persons."""
    rows = [row(verb, k, persons) for k in range(MANY) for verb in VERBS]
    rows += [row(("person", "family", "event")[k % 3], k, persons) for k in range(ROWS - len(rows))]
    steps = plan(file, rows)
    opened = min(ours(file, []) for _ in range(RUNS))
    own = min(ours(file, rows) for _ in range(RUNS)) - opened
    peer = min(theirs(file, steps)[1] for _ in range(RUNS))
    for name, seconds in (("parish", own), ("`sqlite3` (C)", peer)):
        print(f"| {name} | {seconds:.2f} s | {len(rows) / seconds:,.0f} |", flush=True)


def main():
    sizes = [int(word) for word in sys.argv[1:]] or [100, 10_000, 100_000]
    with tempfile.TemporaryDirectory() as folder:
        files = [pathlib.Path(folder) / f"{persons}.db" for persons in sizes]
        print("| persons there | verb | parish, a row | `sqlite3` (C), a row |")
        print("|---|---|---|---|")
        for file, persons in zip(files, sizes):
            made(file, persons)
            opening(file, persons)
            verbs(file, persons)
        print(f"\n| 10,000 rows on {sizes[0]:,} persons | time | rows a second |")
        print("|---|---|---|")
        all_in_turn(files[0], sizes[0])


if __name__ == "__main__":
    main()
