"""Times what an import makes of a file, in memory, without reading and writing: python3 bench/batch_of.py [SCALE].

`--program PATH` and `--parish PATH` are other executables than those of the gate; `--only WORD` takes the files whose
names have the word. SCALE is 1 at the sizes that are named: 100,000 persons as bench/imports.py has them, and the files
of bench/hard_imports.py.

`crates/state_rows/out/state_rows` gets each file as a row `size`, and then the same file without its last line, which
is read to its end and refused there. Told is the difference of the least processor times of three runs each, and how
many times that of `parish norm` of the file in the same turn it is; the time of reading alone, as the floor; and by how
many times the file's size the most memory of a run is above that of reading alone, in which the forest is.
"""

from __future__ import annotations

import argparse
import os
import pathlib
import shutil
import tempfile

from hard_imports import HARD, places, written
from imports import lines_of
from norm import PARISH, one_run

PROGRAM = str(pathlib.Path(__file__).resolve().parents[1] / "crates/state_rows/out/state_rows")
RUNS = 3
TRAILER = "0 TRLR\n"
PARTS = 32
COMMON = ", ".join(map(str, range(PARTS - 1)))


def apart(number):
    """A path of 32 parts that no other number has."""
    return ", ".join(f"{number} {part}" for part in range(PARTS))


def chains(count):
    """Places of which each 32 stand within each other, and an event at each of them that names it."""
    for number in range(count):
        part = number % PARTS
        above = f"1 _LOC @P{number - 1}@\n" if part else ""
        yield f"0 @P{number}@ _LOC\n1 NAME {number}\n{above}".encode()
        path = ", ".join(str(number - it) for it in range(part + 1))
        yield f"0 @I{number}@ INDI\n1 BIRT\n2 PLAC {path}\n3 _LOC @P{number}@\n".encode()


FILES = (
    ("100,000 persons", lines_of),
    *HARD,
    ("200,000 PLAC of 32 parts, with a common end", lambda n: places(2 * n, lambda k: f"Farm {k}, {COMMON}")),
    ("10,000 PLAC of 32 parts of their own", lambda n: places(n // 10, apart)),
    ("100,000 `_LOC` in chains of 32, and a PLAC of each", chains),
)


def write_rows(given, whole, cut):
    """The row of a file, in which no backslash is, and the row of the file without its last line. It is written line by
    line, since the memory of a process is counted from its fork."""
    with open(given, encoding="utf-8") as lines, open(whole, "w", encoding="utf-8") as row:
        row.write("size\t")
        for line in lines:
            row.write(line.replace("\n", "\\n"))
        row.write("\n")
    shutil.copyfile(whole, cut)
    with open(cut, "r+b") as row:
        row.truncate(os.path.getsize(cut) - len(TRAILER) - 2)
        row.seek(0, os.SEEK_END)
        row.write(b"\n")


def measured(commands):
    """For each command and its input the least processor time and the most megabytes, of runs in turn."""
    runs = [[one_run(command, path) for command, path in commands] for _ in range(RUNS)]
    return [(min(cpu for _, cpu, _ in of), max(memory for *_, memory in of) * 1.024 / 1e3) for of in zip(*runs)]


def told(name, folder, pieces, program, parish):
    """A row of the table."""
    given, whole, cut = (f"{folder}/{it}" for it in ("given.ged", "whole.rows", "cut.rows"))
    size = written(given, pieces)
    write_rows(given, whole, cut)
    commands = (([parish, "norm"], given), ([program], cut), ([program], whole))
    (norm, _), (read, least), (both, most) = measured(commands)
    print(f"| {name} | {size / 1e6:.1f} MB | {norm:.2f} s | {read:.2f} s | {both - read:.2f} s | "
          f"{(both - read) / norm:.1f} | {(most - least) * 1e6 / size:.1f} |", flush=True)
    for path in (given, whole, cut):
        os.remove(path)


def main():
    parser = argparse.ArgumentParser()
    parser.add_argument("scale", type=float, nargs="?", default=1.0)
    parser.add_argument("--program", default=PROGRAM)
    parser.add_argument("--parish", default=PARISH)
    parser.add_argument("--only", default="")
    words = parser.parse_args()
    print("| file | size | `norm` | reading | what is made | of `norm` | memory, of the size |")
    print("|---|---|---|---|---|---|---|")
    with tempfile.TemporaryDirectory() as folder:
        for name, pieces in FILES:
            if words.only in name:
                told(name, folder, pieces(int(words.scale * 100_000)), words.program, words.parish)


if __name__ == "__main__":
    main()
