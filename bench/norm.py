"""Times `parish norm` beside its peers.

    python3 bench/norm.py [--reference COMMAND] [--sizes 16,64] [--small 1] [--no-hard]

Each reads a file and writes to /dev/null: `cat` as the floor, `parish norm`, and, where they are
there, a slow reader of the same commands (COMMAND takes the word `norm`) and libgedcom-perl
(bench/norm.pl). Those two get the file of `--small` megabytes. Printed is, of the run with the least
wall time of three (one of the slow ones), wall and processor time, and the most memory of any run.
The memory is never below that of this script, some 12 MB, as the system counts a process from its fork.
"""

from __future__ import annotations

import argparse
import itertools
import os
import pathlib
import random
import shlex
import shutil
import subprocess
import sys
import tempfile
import time

ROOT = pathlib.Path(__file__).resolve().parents[1]
PARISH = str(ROOT / "crates/parish/out/parish")
PERL = str(ROOT / "bench/norm.pl")
MB = 1_000_000
LONGEST = 65_536  # bytes of a line

FIRST = "Ann Thomas Eva John Mary William Jane Пётр Anna-Lena Zoë".split()
LAST = "Lee Ray Smith Ashby Иванов Møller Oakes Field".split()
MONTHS = "JAN FEB MAR APR MAY JUN JUL AUG SEP OCT NOV DEC".split()
SAID = "The hand is that of the clerk who wrote the marriage of 1756 and signs as churchwarden".split()


def person(rng, number):
    """Lines of levels 0 to 3, of 30 bytes on average with their ends."""
    date = f"{rng.randint(1, 28)} {rng.choice(MONTHS)} {rng.randint(1600, 1900)}"
    first, last = rng.choice(FIRST), rng.choice(LAST)
    note = " ".join(rng.choices(SAID, k=rng.randint(10, 56)))
    return f"""0 @I{number}@ INDI
1 NAME {first} {rng.choice(FIRST)} /{last}/
2 GIVN {first} {rng.choice(FIRST)}
2 SURN {last}
1 SEX {rng.choice("MFU")}
1 BIRT
2 DATE {rng.choice(["", "ABT ", "@#DJULIAN@ "])}{date}
2 PLAC Ashby by the Water, Kent, England
2 SOUR @S{number % 97}@
3 PAGE f. {number % 211}, item {number % 9}, the second hand
3 QUAY {number % 4}
1 NOTE {note}
2 CONT Copied by A. Lee from the register, {number % 3 + 2020}
2 SOUR @S{number % 89}@
3 PAGE p. {number % 300} of the printed edition
1 FAMC @F{number // 3}@
1 FAMS @F{number // 2}@
""".encode()


def usual(size):
    """Usual lines up to a size."""
    rng = random.Random(1)
    left = size
    for number in itertools.count(1):
        record = person(rng, number)
        left -= len(record)
        if left < 0:
            return
        yield record


def nested(count):
    nest = b"".join(b"%d A\n" % level for level in range(98)) + b"98 NOTE a\n99 CONT b\n"
    return itertools.repeat(nest, count)


def long_text(piece, count):
    """Texts of 1,048,576 bytes, each in lines that have a piece of 128 bytes."""
    return itertools.repeat(b"1 NOTE\n" + (b"2 CONC " + piece + b"\n") * 8_192, count)


def filled(line, letters):
    """A line of 65,536 bytes without its end."""
    return line + (letters * LONGEST)[: LONGEST - len(line)] + b"\n"


HARD = (
    ("1,000,000 lines `1 A`", lambda: itertools.repeat(b"1 A\n" * 1_000, 1_000)),
    ("10,000 times the levels 0 to 99", lambda: nested(10_000)),
    ("one text of 1,048,576 bytes in CONC lines", lambda: long_text(b"x" * 128, 1)),
    ("16 such texts", lambda: long_text(b"x" * 128, 16)),
    ("16 such texts of spaces", lambda: long_text(b" " * 128, 16)),
    ("256 lines of 65,536 bytes", lambda: itertools.repeat(filled(b"1 NOTE ", b"x"), 256)),
    ("256 lines of 65,536 bytes, all `@`", lambda: itertools.repeat(filled(b"1 NOTE ", b"@"), 256)),
    ("256 lines of 65,536 bytes, all `@#`", lambda: itertools.repeat(filled(b"1 NOTE ", b"@#"), 256)),
    ("78,000 lines of 200 `@`", lambda: itertools.repeat(b"1 NOTE " + b"@" * 200 + b"\n", 78_000)),
    ("500,000 names", lambda: (b"0 @I%d@ INDI\n" % number for number in range(500_000))),
)


def written(path, pieces):
    """Writes a file piece by piece, and counts its bytes and lines."""
    size = lines = 0
    with open(path, "wb") as file:
        for piece in itertools.chain([b"0 HEAD\n1 CHAR UTF-8\n"], pieces, [b"0 TRLR\n"]):
            file.write(piece)
            size += len(piece)
            lines += piece.count(b"\n")
    return size, lines


def one_run(command, path):
    """Wall and processor seconds, and the most kilobytes; None where it failed."""
    with open(path, "rb") as given:
        begun = time.perf_counter()
        process = subprocess.Popen(command, stdin=given, stdout=subprocess.DEVNULL,
                                   stderr=subprocess.DEVNULL)
        _, status, used = os.wait4(process.pid, 0)
        wall = time.perf_counter() - begun
    process.returncode = os.waitstatus_to_exitcode(status)
    return None if status else (wall, used.ru_utime + used.ru_stime, used.ru_maxrss)


def row(name, command, path, size, lines, runs=3):
    measured = [one_run(command, path) for _ in range(runs)]
    if None in measured:
        print(f"| {name} | {size:,} | {lines:,} | failed | | | |", flush=True)
        return
    wall, processor, _ = min(measured)
    most = max(memory for _, _, memory in measured) * 1_024
    print(f"| {name} | {size:,} | {lines:,} | {wall:.2f} s | {processor:.2f} s | "
          f"{size / MB / wall:.1f} | {most / MB:.0f} MB, {most / size:.1f} times |", flush=True)


def has_perl():
    return shutil.which("perl") and not subprocess.run(
        ["perl", "-MGedcom", "-e", "1"], stderr=subprocess.DEVNULL, check=False).returncode


def parse_words():
    words = argparse.ArgumentParser(description=__doc__.splitlines()[0])
    words.add_argument("--parish", metavar="COMMAND", default=PARISH)
    words.add_argument("--reference", metavar="COMMAND")
    words.add_argument("--sizes", metavar="MB", default="16,64")
    words.add_argument("--small", metavar="MB", type=float, default=1)
    words.add_argument("--no-hard", action="store_true", help="no hard inputs")
    return words.parse_args()


def usual_rows(given, parish, path):
    peers = [] if not given.reference else [("the slow reference", [*shlex.split(given.reference), "norm"])]
    peers += [("libgedcom-perl", ["perl", PERL])] if has_perl() else []
    for megabytes in [given.small, *map(float, given.sizes.split(","))]:
        size, lines = written(path, usual(int(megabytes * MB)))
        row("`cat`", ["cat"], path, size, lines)
        row("`parish norm`", parish, path, size, lines)
        for name, command in peers if megabytes == given.small else []:
            row(name, command, path, size, lines, runs=1)


def main():
    given = parse_words()
    parish = [*shlex.split(given.parish), "norm"]
    with tempfile.TemporaryDirectory() as folder:
        path = os.path.join(folder, "bench.ged")
        print("| usual lines | bytes | lines | wall | processor | MB/s | most memory |")
        print("|---|---|---|---|---|---|---|")
        usual_rows(given, parish, path)
        if given.no_hard:
            return
        print("\n| hard input, `parish norm` | bytes | lines | wall | processor | MB/s | most memory |")
        print("|---|---|---|---|---|---|---|")
        for name, pieces in HARD:
            row(name, parish, path, *written(path, pieces()))


if __name__ == "__main__":
    sys.exit(main())
