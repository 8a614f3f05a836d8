"""Times `parish import` of files in which a step that is quadratic would show: python3 bench/hard_imports.py [SCALE].

SCALE is 1 at the sizes that are named. Each file is imported into a new archive in a file of its own. Told are wall and
processor time and the most memory of the fastest of three runs, the size of the archive's file, and how many times
`norm` of the same file that is. The wall of `cat` of all files is the floor.
"""

import os
import pathlib
import subprocess
import sys
import tempfile

from norm import PARISH, one_run


def chain(count, ahead):
    """Others each of which names the next one, or the one before."""
    for number in range(1, count + 1):
        other = number + 1 if ahead else number - 1
        value = f" @X{other}@" if 0 < other <= count else ""
        yield f"0 @X{number}@ NOTE{value}\n".encode()


def many_families(count):
    yield b"0 @I1@ INDI\n"
    yield from (b"1 FAMS @F%d@\n" % number for number in range(count))
    yield from (b"0 @F%d@ FAM\n1 HUSB @I1@\n" % number for number in range(count))


def many_children(count):
    yield b"0 @F1@ FAM\n"
    yield from (b"1 CHIL @I%d@\n1 CHIL @I%d@\n" % (number, number) for number in range(count))
    yield from (b"0 @I%d@ INDI\n" % number for number in range(count))


def places(count, path):
    for number in range(count):
        yield b"0 @I%d@ INDI\n1 BIRT\n2 PLAC %s\n" % (number, path(number).encode())


HARD = (
    ("500,000 others, each names the next", lambda n: chain(5 * n, True)),
    ("500,000 others, each names the one before", lambda n: chain(5 * n, False)),
    ("one person with 100,000 FAMS", many_families),
    ("one family with 100,000 CHIL, all doubled", many_children),
    ("200,000 PLAC of one path", lambda n: places(2 * n, lambda k: "Ashby, Kent, England")),
    ("200,000 PLAC with a common end", lambda n: places(2 * n, lambda k: f"Farm {k}, Kent, England")),
    ("50,000 PLAC of 32 parts", lambda n: places(n // 2, lambda k: f"Farm {k}, " + ", ".join(map(str, range(31))))),
    ("100,000 lines of levels up to 98", lambda n: (b"%d A\n" % (k % 99) for k in range(n))),
)


def written(path, pieces):
    size = 0
    with open(path, "wb") as out:
        for piece in (b"0 HEAD\n1 CHAR UTF-8\n", *pieces, b"0 TRLR\n"):
            size += out.write(piece)
    return size


def imported(folder, given):
    """Wall and processor seconds, kilobytes, and the bytes of the archive, of an import into a new archive."""
    archive = f"{folder}/ashby.db"
    for name in (archive, archive + "-wal"):
        pathlib.Path(name).unlink(missing_ok=True)
    subprocess.run([PARISH, "init", archive, "--society", "Ashby"], check=True)
    run = one_run([PARISH, "import", archive, "--token", "t1"], given)
    return run and (*run, sum(os.path.getsize(it) for it in (archive, archive + "-wal") if os.path.exists(it)))


def told(name, folder, pieces):
    """A row of the table."""
    given = f"{folder}/given.ged"
    size = written(given, pieces)
    floor, *_ = min(one_run(["cat"], given) for _ in range(3))
    _, norm, _ = min(one_run([PARISH, "norm"], given) for _ in range(3))
    wall, cpu, memory, kept = min(imported(folder, given) for _ in range(3))
    print(f"| {name} | {size:,} | {floor:.2f} s | {wall:.2f} s | {cpu:.2f} s | {cpu / norm:.1f} | "
          f"{memory * 1.024 / 1e3:.0f} MB | {kept / 1e6:.0f} MB |", flush=True)


def main():
    scale = float(sys.argv[1]) if len(sys.argv) > 1 else 1.0
    print("| file | bytes | `cat` | wall | processor | of `norm` | most memory | archive |")
    print("|---|---|---|---|---|---|---|---|")
    with tempfile.TemporaryDirectory() as folder:
        for name, pieces in HARD:
            told(name, folder, pieces(int(scale * 100_000)))


if __name__ == "__main__":
    main()
