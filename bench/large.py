"""Times an archive that is filled by several imports: python3 bench/large.py [FILES [PERSONS]].

FILES (10) files of PERSONS persons (100,000) each, as bench/imports.py has them, are imported one after the other into
one archive. It prints the processor time and the most memory of each import, and the size of the archive after it; and
after the first and the last one those of an opening (`apply` without rows), of the sheets of a person and of a family,
and of an audit, and the processor time of a row of `person` and of `event`, from the first answer to the last of 1,000.
Only one process runs at a time, with at most `--memory` gigabytes (6): one that needs more is reported as failed.
`--parish PATH` is another executable than that of the gate, `--folder PATH` where the archive is.
"""

from __future__ import annotations

import argparse
import os
import random
import resource
import sqlite3
import subprocess
import tempfile

from imports import families
from norm import PARISH, one_run, person, written

ROWS = 1_000
TICKS = os.sysconf("SC_CLK_TCK")


def lines_of(seed: int, persons: int):
    rng = random.Random(seed)
    for number in range(1, persons + 1):
        yield person(rng, number)
    yield from families(persons)


def processor_of(process: subprocess.Popen) -> float:
    """The processor seconds of a process that runs."""
    with open(f"/proc/{process.pid}/stat", encoding="ascii") as file:
        fields = file.read().rpartition(")")[2].split()
    return (int(fields[11]) + int(fields[12])) / TICKS


def a_row(parish: str, file: str, rows: list[bytes]) -> float:
    """The processor milliseconds of a row, after the first one, which waits for the opening."""
    process = subprocess.Popen([parish, "apply", file], stdin=subprocess.PIPE, stdout=subprocess.PIPE)
    times = []
    for row in rows:
        process.stdin.write(row)
        process.stdin.flush()
        answer = process.stdout.readline()
        assert b",ok," in answer, answer
        if not times:
            times.append(processor_of(process))
    times.append(processor_of(process))
    process.stdin.close()
    assert process.wait() == 0
    return (times[1] - times[0]) * 1_000 / (len(rows) - 1)


def told(name: str, run: tuple[float, float, int] | None) -> None:
    if run is None:
        print(f"| {name} | failed | |", flush=True)
        return
    _, processor, memory = run
    print(f"| {name} | {processor:.2f} s | {memory * 1.024 / 1e3:.0f} MB |", flush=True)


def first_of(kind: str, file: str) -> str:
    """The number of the first record of a kind."""
    with sqlite3.connect(file) as conn:
        [(number,)] = conn.execute("SELECT min(no) FROM record WHERE kind = ?", (kind,))
    conn.close()
    return str(number)


def measured(parish: str, file: str, turn: int) -> None:
    person_no, family_no = first_of("person", file), first_of("family", file)
    told("opening", one_run([parish, "apply", file], "/dev/null"))
    for kind, number in (("person", person_no), ("family", family_no)):
        words = [parish, "sheet", file, kind, number, "--today", "2024-01-01"]
        told(f"a sheet of a {kind}", one_run(words, "/dev/null"))
    told("`audit`", one_run([parish, "audit", file], "/dev/null"))
    for verb, fields in (("person", "Ann /Lee/,F"), ("event", f"{person_no},OCCU,weaver,3 MAY 1701,")):
        rows = [f"{verb}-{turn}-{n},{verb},{fields}\n".encode() for n in range(ROWS)]
        print(f"| a row of `{verb}` | {a_row(parish, file, rows):.2f} ms | |", flush=True)


def main() -> None:
    words = argparse.ArgumentParser(usage=__doc__.strip())
    words.add_argument("files", type=int, nargs="?", default=10)
    words.add_argument("persons", type=int, nargs="?", default=100_000)
    words.add_argument("--parish", default=PARISH)
    words.add_argument("--folder")
    words.add_argument("--memory", type=float, default=6.0)
    given = words.parse_args()
    resource.setrlimit(resource.RLIMIT_AS, (int(given.memory * 1e9),) * 2)
    with tempfile.TemporaryDirectory(dir=given.folder) as folder:
        text, file = os.path.join(folder, "bench.ged"), os.path.join(folder, "ashby.db")
        subprocess.run([given.parish, "init", file, "--society", "Ashby Society"], check=True)
        for turn in range(1, given.files + 1):
            size, _ = written(text, lines_of(turn, given.persons))
            run = one_run([given.parish, "import", file, "--token", f"bench-{turn}"], text)
            print(f"\n{turn * given.persons:,} persons, the last file with {size:,} bytes; the archive has "
                  f"{os.path.getsize(file):,}\n\n| | processor | most memory |\n|---|---|---|")
            told("the last import", run)
            if turn in (1, given.files):
                measured(given.parish, file, turn)


if __name__ == "__main__":
    main()
