"""Times the rows that cost most: python3 bench/hard_rows.py [MEGABYTES].

Over the executable that the gate has built, on archives in real files. Told are wall and processor time, and the most
memory: of opening and closing an empty archive, which is in all the others; of 500, 1,000 and 2,000 names added to
one person, each of which writes all names anew, beside as many persons; of 1,000 entries with pages of 20 and of
1,200 bytes, of which the index of entries does not have the page; and of one row of MEGABYTES (100) millions of
commas, and one of a field of twice as many bytes, each of which is refused.
"""

import os
import pathlib
import subprocess
import sys
import tempfile
import time

PARISH = pathlib.Path(__file__).resolve().parents[1] / "crates/parish/out/parish"
MB = 1_000_000


def measured(folder, rows, is_refused):
    """Wall and processor seconds and the most bytes of `apply` with these rows, on a new archive."""
    archive, given, answered = folder / "a.db", folder / "rows.csv", folder / "answers.csv"
    for old in folder.glob("a.db*"):
        old.unlink()
    subprocess.run([PARISH, "init", archive, "--society", "Bench"], check=True)
    with open(given, "wb") as file:
        for piece in rows:
            file.write(piece)
    with open(given, "rb") as file, open(answered, "wb") as answers:
        begun = time.perf_counter()
        process = subprocess.Popen([PARISH, "apply", archive], stdin=file, stdout=answers, stderr=subprocess.DEVNULL)
        _, status, used = os.wait4(process.pid, 0)
        wall = time.perf_counter() - begun
    if status or (b",refused," in answered.read_bytes()) != is_refused:
        sys.exit(f"not answered as wanted: {answered.read_bytes()[:200]!r}")
    return wall, used.ru_utime + used.ru_stime, used.ru_maxrss * 1_024


def names(count):
    yield b"p,person,Ann /Lee/,F\n"
    for k in range(count):
        yield f"n{k},name,1,Anna /Lee {k}/\n".encode()


def persons(count):
    for k in range(count + 1):
        yield f"p{k},person,Ann /Lee {k}/,F\n".encode()


def entries(count, page):
    yield b"s,source,Burials of Ashby,,,,\n"
    for k in range(count):
        yield f"e{k},entry,1,BURIAL,{page},{k + 1},,,text,buried,Ann /Lee/\n".encode()


def wide(megabytes):
    yield b"t,person"
    for _ in range(megabytes):
        yield b"," * MB
    yield b"\n"


def long(megabytes):
    yield b"t,person,"
    for _ in range(megabytes):
        yield b"x" * MB
    yield b",F\n"


def main():
    megabytes = int(sys.argv[1]) if len(sys.argv) > 1 else 100
    print("| rows | wall | processor | most memory |\n|---|---|---|---|")
    cases = [("none: opening and closing", (), False)]
    for count in (500, 1_000, 2_000):
        cases.append((f"{count:,} names of one person", names(count), False))
        cases.append((f"{count:,} persons", persons(count), False))
    cases.append(("1,000 entries on pages of 20 bytes", entries(1_000, "p" * 20), False))
    cases.append(("1,000 entries on pages of 1,200 bytes", entries(1_000, "p" * 1_200), False))
    cases.append((f"one row of {megabytes} MB of commas", wide(megabytes), True))
    cases.append((f"one row with a field of {2 * megabytes} MB", long(2 * megabytes), True))
    with tempfile.TemporaryDirectory() as folder:
        for name, rows, is_refused in cases:
            wall, processor, most = measured(pathlib.Path(folder), rows, is_refused)
            print(f"| {name} | {wall:.2f} s | {processor:.2f} s | {most / MB:.0f} MB |", flush=True)


if __name__ == "__main__":
    main()
