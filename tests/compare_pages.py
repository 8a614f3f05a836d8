"""Compares `entries --table` with a second reader of pages, on drawn archives and pages.

    python3 tests/compare_pages.py 'COMMAND' [COUNT [SEED]] [--parish COMMAND]

COMMAND reads a page and takes `--check`, `--make-places`, `--token T` and `--places FILE`, which has a line `number TAB
path` for each place of the archive. With `--check` it prints what `parish entries --table --check` does, but in a row
faults before doubts, and of paths that a new one is like each once. Else it prints a row of `apply` behind `#apply `
for each place that is to be made, and then the rows as `entries` reads them, with new places by their tokens; or it
refuses the page. What ours makes of the page then has to be what those rows make. One line a difference with its seed,
and a last line that counts; status 0 if there is none.
"""

from __future__ import annotations

import argparse
import os
import random
import shlex
import sqlite3
import subprocess
import sys
import tempfile

sys.dont_write_bytecode = True

from harness import ROOT  # noqa: E402

OURS = os.path.join(ROOT, "crates", "parish", "out", "parish")
NAMES = ("Kent", "KENT", "Ashby", "ashby", "Ash-by", "Füßen", "Fussen", "O'Neil Hill", "ONeil Hill", "Mill", "Hill", "")
CELLS = ("@none", "9", "99", "2.0", "x" * 4_097)


def path_of(rng):
    """A path as a page may have it."""
    names = [rng.choice(NAMES if rng.random() < 0.15 else NAMES[:-1]) for _ in range(rng.choice((1, 1, 2, 2, 3)))]
    return rng.choice((", ", ",", " , ")).join(names)


def cell_of(rng):
    way = rng.random()
    return "" if way < 0.1 else rng.choice(CELLS) if way < 0.2 else path_of(rng)


def quoted(cell):
    return '"' + cell.replace('"', '""') + '"'


class Drawn:
    """An archive of some places and a source, and a page for it."""

    def __init__(self, seed):
        rng = random.Random(seed)
        self.rows, self.paths = ["s,source,Register,,,,"], {}
        for number in range(2, rng.randint(2, 12)):
            name = rng.choice(NAMES[:-1])
            parent = rng.choice([0, *self.paths]) if self.paths else 0
            self.rows.append(f"t{number},place,{name},{parent or ''}")
            self.paths[number] = f"{name}, {self.paths[parent]}" if parent else name
        self.page = "Kind,Page,Item,Date,Place,Buried\n"
        for _ in range(rng.randint(1, 8)):
            kind = "BURIAL" if rng.random() < 0.97 else "birth"
            item, date = rng.randint(1, 30), rng.choice(("", "", "1761", "once"))
            self.page += f"{kind},f. 1,{item},{date},{quoted(cell_of(rng))},Ann\n"


def tables_of(file):
    """All rows of an archive's tables, but the digests of its receipts: those of a page and of its rows differ."""
    conn = sqlite3.connect(file)
    names = [name for (name,) in conn.execute("SELECT name FROM sqlite_master WHERE type = 'table' ORDER BY name")]
    found = {name: conn.execute(f"SELECT * FROM {name}").fetchall() for name in names}
    found["receipt"] = conn.execute("SELECT token, first, count FROM receipt").fetchall()
    conn.close()
    return found


class Comparing:
    def __init__(self, ours, other):
        self.ours, self.other = ours, other

    def run(self, words, given, cwd):
        return subprocess.run(words, input=given.encode(), capture_output=True, cwd=cwd, timeout=60)

    def made(self, drawn, folder, name):
        file = os.path.join(folder, name)
        self.run([*self.ours, "init", file, "--society", "Ashby"], "", folder)
        self.run([*self.ours, "apply", file], "".join(f"{row}\n" for row in drawn.rows), folder)
        return file

    def lines(self, out):
        """Lines of a check, of a row faults before doubts, and each once."""
        text = dict.fromkeys(out.decode().splitlines())
        row = lambda line: int(line[4 : line.index(":")]) if line.startswith("row ") else 1 << 40
        return sorted(text, key=lambda line: (row(line), ": doubt: " in line, line))

    def differences(self, drawn, folder):
        places = os.path.join(folder, "places")
        with open(places, "w", encoding="utf-8") as file:
            file.writelines(f"{number}\t{path}\n" for number, path in drawn.paths.items())
        entering = ("--table", "--source", "1")
        for words in ((), ("--make-places",)):
            theirs = self.run([*self.other, "--check", *words, "--places", places], drawn.page, folder)
            archive = self.made(drawn, folder, f"checked{len(words)}")
            ours = self.run([*self.ours, "entries", archive, *entering, "--check", *words], drawn.page, folder)
            if (ours.returncode, self.lines(ours.stdout)) != (theirs.returncode, self.lines(theirs.stdout)):
                yield f"a check with {words}: {ours.stdout!r} and {theirs.stdout!r}"
            theirs = self.run([*self.other, *words, "--token", "page", "--places", places], drawn.page, folder)
            archive = self.made(drawn, folder, f"ours{len(words)}")
            ours = self.run([*self.ours, "entries", archive, *entering, *words, "--token", "page"], drawn.page, folder)
            if ours.returncode != theirs.returncode:
                yield f"a page with {words}: {ours.stderr!r} and {theirs.stderr!r}"
            elif ours.returncode == 0:
                again = self.made(drawn, folder, f"theirs{len(words)}")
                told = theirs.stdout.decode().splitlines()
                first = "".join(f"{line[7:]}\n" for line in told if line.startswith("#apply "))
                rest = "".join(f"{line}\n" for line in told if not line.startswith("#apply "))
                self.run([*self.ours, "apply", again], first, folder)
                self.run([*self.ours, "entries", again, "--source", "1", "--token", "page"], rest, folder)
                if tables_of(archive) != tables_of(again):
                    yield f"a page with {words} makes other tables"


def main() -> int:
    parser = argparse.ArgumentParser(description=__doc__.split("\n")[0])
    parser.add_argument("command")
    parser.add_argument("count", type=int, nargs="?", default=500)
    parser.add_argument("seed", type=int, nargs="?", default=1)
    parser.add_argument("--parish", default=OURS)
    given = parser.parse_args()
    comparing, found = Comparing(shlex.split(given.parish), shlex.split(given.command)), 0
    for seed in range(given.seed, given.seed + given.count):
        with tempfile.TemporaryDirectory() as folder:
            for difference in comparing.differences(Drawn(seed), folder):
                print(f"{seed}: {difference}", flush=True)
                found += 1
    print(f"{given.count} pages, {found} differences")
    return 1 if found else 0


if __name__ == "__main__":
    sys.exit(main())
