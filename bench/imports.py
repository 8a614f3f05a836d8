"""Times `parish import` into a new archive, beside `check` of the file and GeneWeb's `ged2gwb` where it is installed:

    python3 bench/imports.py [PERSONS..]

The file has PERSONS persons (100,000) as bench/norm.py draws them, about 540 bytes each, with the families and sources
that they name. Told are wall and processor time and the most memory of `check`, of the import, of the same import again
(whose answer is kept, but whose file is read and reported of), and of an opening then; and the size of the archive.
"""

from __future__ import annotations

import os
import random
import shutil
import subprocess
import sys
import tempfile

from norm import PARISH, one_run, person, written


def families(persons):
    """The records that the persons name: each third is the child of one, each second a spouse in one."""
    for number in range(persons // 2 + 1):
        yield b"0 @F%d@ FAM\n1 MARR\n2 DATE 2 MAY 1756\n" % number
        for spouse in (2 * number, 2 * number + 1):
            if 0 < spouse <= persons:
                yield b"1 %s @I%d@\n" % ((b"HUSB", b"WIFE")[spouse % 2], spouse)
        for child in range(3 * number, 3 * number + 3):
            if 0 < child <= persons:
                yield b"1 CHIL @I%d@\n" % child
    for number in range(97):
        yield b"0 @S%d@ SOUR\n1 TITL Register %d\n" % (number, number)


def lines_of(persons):
    rng = random.Random(1)
    for number in range(1, persons + 1):
        yield person(rng, number)
    yield from families(persons)


def told(name, command, path):
    run = one_run(command, path)
    if run is None:
        print(f"| {name} | failed | | |", flush=True)
        return
    wall, processor, memory = run
    print(f"| {name} | {wall:.2f} s | {processor:.2f} s | {memory / 1e3:.0f} MB |", flush=True)


def main():
    for persons in [int(word) for word in sys.argv[1:]] or [100_000]:
        with tempfile.TemporaryDirectory() as folder:
            text, file = os.path.join(folder, "bench.ged"), os.path.join(folder, "ashby.db")
            size, lines = written(text, lines_of(persons))
            print(f"{persons:,} persons: {size:,} bytes, {lines:,} lines\n")
            print("| | wall | processor | most memory |\n|---|---|---|---|")
            subprocess.run([PARISH, "init", file, "--society", "Ashby Society"], check=True)
            told("`check`", [PARISH, "check"], text)
            told("`import`", [PARISH, "import", file, "--token", "bench"], text)
            told("`import` again", [PARISH, "import", file, "--token", "bench"], text)
            told("opening", [PARISH, "apply", file], "/dev/null")
            if shutil.which("ged2gwb"):
                told("`ged2gwb`", ["ged2gwb", text, "-o", os.path.join(folder, "bench")], "/dev/null")
            print(f"\nthe archive has {os.path.getsize(file):,} bytes\n")


if __name__ == "__main__":
    main()
