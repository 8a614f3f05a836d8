"""Compares `audit` with a second judge of archives, on drawn archives, each as it is and once spoilt.

    python3 tests/compare_audits.py 'COMMAND' [COUNT [SEED]] [--parish COMMAND]

COMMAND reads names of archive files, one a line, and answers each with a line: `sound` or anything else. An archive is
drawn by tests/requests/generate.py, and a copy is spoilt by one to three changes of its tables, of which some break no
rule. An archive that is not sound may also be refused otherwise: where a line names a record that is not there, the
database itself does not read it, which is 80. One line a difference with its seed, and a last line that counts; status
0 if there is none.
"""

from __future__ import annotations

import argparse
import os
import random
import shlex
import shutil
import sqlite3
import subprocess
import sys
import tempfile

sys.dont_write_bytecode = True

from beside import links_of, sought_of  # noqa: E402
from harness import ROOT, without_hints  # noqa: E402
from packed import lines_of, put_lines, row_of, unpack  # noqa: E402

OURS = os.path.join(ROOT, "crates", "parish", "out", "parish")
ROWS = 60  # of an archive
NAMES = ("Ashby", "Ashby ", " Ashby", "a,b", "a, b", ", ", "", "x" * 4_090, ", ".join(["a"] * 32))
TAGS = ("BIRT", "MARR", "OCCU", "EVEN", "DEAT", "CONC", "CONT", "TRLR", "NAME", "SEX", "NOTE", "_UID", "SOUR", "DATE")


class Spoiling:
    """An archive whose tables are changed by a seed."""

    def __init__(self, conn: sqlite3.Connection, rng: random.Random):
        self.conn = conn
        self.rng = rng
        [(self.next,)] = self.rows("SELECT next FROM meta")

    def rows(self, text, *values):
        return self.conn.execute(text, values).fetchall()

    def one(self, text, *values):
        found = self.rows(text, *values)
        return self.rng.choice(found) if found else None

    def line(self, is_meant):
        """One of the lines that are meant: its number, its place, the line."""
        found = [
            (number, at, line)
            for (number,) in self.rows("SELECT no FROM line ORDER BY no")
            for at, line in enumerate(lines_of(self.conn, number))
            if is_meant(line)
        ]
        return self.rng.choice(found) if found else None

    def changed(self, number, at, line):
        lines = lines_of(self.conn, number)
        put_lines(self.conn, number, [*lines[:at], line, *lines[at + 1 :]])

    def side(self, key):
        return unpack(*self.rows("SELECT tag, text, dst FROM slip_line WHERE id = ?", key)[0])

    def line_of_slip(self, is_meant):
        """A line of a side of a slip: the key of the side, the line's place and the line; or nothing."""
        found = [
            (key, at, line)
            for (key,) in self.rows("SELECT id FROM slip_line ORDER BY id")
            for at, line in enumerate(self.side(key))
            if is_meant(line)
        ]
        return self.rng.choice(found) if found else None

    def changed_side(self, key, at, line):
        lines = self.side(key)
        row = row_of(0, [*lines[:at], line, *lines[at + 1 :]])
        self.rows("UPDATE slip_line SET tag = ?, text = ?, dst = ? WHERE id = ?", *row[3:], key)

    def number(self):
        return self.rng.randrange(1, self.next + 2)

    def pointer(self):
        """A line names another number."""
        if self.rng.randrange(4):
            found = self.line(lambda line: line[3] is not None)
            if found:
                taken = self.line(lambda line: line[3] is not None)[2][3]
                self.changed(*found[:2], (*found[2][:3], self.rng.choice((taken, self.number()))))
            return
        found = self.line_of_slip(lambda line: line[3] is not None)
        if found:
            taken = self.line_of_slip(lambda line: line[3] is not None)[2][3]
            self.changed_side(*found[:2], (*found[2][:3], self.rng.choice((taken, self.number()))))

    def place(self):
        found = self.line(lambda line: line[:2] == (0, "place"))
        if found:
            number, at, (depth, tag, _, named) = found
            self.changed(number, at, (depth, tag, self.rng.choice(NAMES), named))

    def next_number(self):
        numbers = (0, 1, self.next - 1, self.next + 1, 2**32, 2**32 + 1)
        self.rows("UPDATE meta SET next = ?", self.rng.choice(numbers))

    def gone(self):
        """A record is no more."""
        found = self.one("SELECT no FROM record")
        if found:
            self.rows("DELETE FROM line WHERE no = ?", *found)
            self.rows("DELETE FROM span WHERE no = ?", *found)
            self.rows("DELETE FROM sought WHERE no = ?", *found)
            self.rows("DELETE FROM record WHERE no = ?", *found)

    def moved(self):
        """A record gets a number that nothing has, below the next one or not."""
        found = self.one("SELECT no FROM record")
        number = self.rng.choice((self.next, self.number(), self.next + 5))
        if found and not self.rows("SELECT no FROM record WHERE no = ?", number):
            self.rows("UPDATE record SET no = ? WHERE no = ?", number, *found)
            self.rows("UPDATE line SET no = ? WHERE no = ?", number, *found)
            self.rows("UPDATE span SET no = ? WHERE no = ?", number, *found)

    def copied(self):
        """A record stands twice."""
        found = self.one("SELECT no, kind FROM record WHERE kind = 'entry'") or self.one("SELECT no, kind FROM record")
        if found:
            [(free,)] = self.rows("SELECT max(next, (SELECT max(no) FROM record) + 1) FROM meta")
            self.rows("INSERT INTO record VALUES (?, ?, 0)", free, found[1])
            self.rows("INSERT INTO line SELECT ?, pos, depth, tag, text, dst FROM line WHERE no = ?", free, found[0])
            self.rows("INSERT INTO span SELECT ?, lo, hi FROM span WHERE no = ?", free, found[0])
            self.rows("UPDATE meta SET next = ?", free + 1)

    def tag(self):
        """An event or what is carried gets another tag."""
        found = self.line(lambda line: line[0] > 0 and line[1].upper() == line[1])
        if found:
            number, at, (depth, _, text, named) = found
            self.changed(number, at, (depth, self.rng.choice(TAGS), text, named))

    def carried(self):
        """One more carried line, with a text or a number."""
        found = self.one("SELECT no FROM record WHERE kind IN ('person', 'source', 'repo', 'place')")
        if found:
            text, number = self.rng.choice((("x", None), ("", None), (None, self.number())))
            lines = lines_of(self.conn, found[0])
            more = [(1, "carried", None, None), (2, self.rng.choice(TAGS), text, number)]
            put_lines(self.conn, found[0], lines + more)

    def slip(self):
        column = self.rng.choice(("keep", "gone", "undone"))
        found = self.one("SELECT no FROM slip")
        if found:
            value = self.rng.randrange(2) if column == "undone" else self.number()
            self.rows(f"UPDATE slip SET {column} = ? WHERE no = ?", value, *found)

    def text_of_slip(self):
        found = self.line_of_slip(lambda line: line[1] == "name")
        if found:
            depth, tag, _, number = found[2]
            self.changed_side(*found[:2], (depth, tag, "Kit", number))

    def beside(self):
        """Links and what is looked for are those of the lines that are there now."""
        self.rows("DELETE FROM sought")
        for number, in self.rows("SELECT no FROM record"):
            lines = lines_of(self.conn, number)
            for key in links_of(number, lines):
                self.rows("INSERT OR IGNORE INTO link VALUES (?)", key)
            sought = sought_of(lines) if lines else None
            if sought is not None and sought[0] is not None:
                self.rows("INSERT INTO sought VALUES (?, ?, ?)", number, *sought)

    def spoil(self):
        changes = (self.pointer, self.pointer, self.pointer, self.place, self.next_number, self.gone, self.moved,
                   self.copied, self.tag, self.carried, self.slip, self.text_of_slip)
        for change in self.rng.choices(changes, k=self.rng.choice((1, 1, 2, 3))):
            change()
        self.beside()


def drawn(parish, file, seed):
    subprocess.run([*parish, "init", file, "--society", "Ashby"], check=True)
    words = ("python3", os.path.join(ROOT, "tests/requests/generate.py"), str(seed), str(ROWS))
    rows = subprocess.run(words, stdout=subprocess.PIPE, check=True).stdout
    subprocess.run([*parish, "apply", file], input=rows, stdout=subprocess.DEVNULL, stderr=subprocess.DEVNULL)


def spoilt(file, copy, seed):
    shutil.copyfile(file, copy)
    conn = sqlite3.connect(copy)
    Spoiling(conn, random.Random(seed)).spoil()
    conn.commit()
    conn.close()


def ours(parish, file):
    ran = subprocess.run([*parish, "audit", file], capture_output=True, check=False)
    if ran.returncode == 0:
        return "sound", ran.stdout
    return ("not" if without_hints(ran.stderr).endswith(b"40 BadStored\n") else "other"), ran.stderr


def main():
    parser = argparse.ArgumentParser(description=__doc__)
    parser.add_argument("command")
    parser.add_argument("count", nargs="?", type=int, default=2_000)
    parser.add_argument("seed", nargs="?", type=int, default=1)
    parser.add_argument("--parish", default=OURS)
    told = parser.parse_args()
    parish = shlex.split(told.parish)
    judge = subprocess.Popen(shlex.split(told.command), stdin=subprocess.PIPE, stdout=subprocess.PIPE, text=True)
    counts = {"sound": 0, "not": 0, "other": 0}
    differences = 0
    with tempfile.TemporaryDirectory() as folder:
        for seed in range(told.seed, told.seed + told.count):
            file, copy = os.path.join(folder, "a.db"), os.path.join(folder, "b.db")
            drawn(parish, file, seed)
            spoilt(file, copy, seed)
            for name, path in (("as it is", file), ("spoilt", copy)):
                judge.stdin.write(path + "\n")
                judge.stdin.flush()
                wanted = judge.stdout.readline().strip()
                got, words = ours(parish, path)
                counts[got] += 1
                if (got == "sound") != (wanted == "sound"):
                    differences += 1
                    print(f"{seed} {name}: {got} {words!r}, and the judge: {wanted}", flush=True)
            for left in os.listdir(folder):
                os.remove(os.path.join(folder, left))
    judge.stdin.close()
    print(f"{counts['sound']} sound, {counts['not']} not, {counts['other']} refused otherwise; "
          f"{differences} differences")
    return 1 if differences else 0


if __name__ == "__main__":
    sys.exit(main())
