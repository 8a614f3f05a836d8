"""Times `parish list`, `find`, `show` and `history` beside `sqlite3` and `grep`: python3 bench/finding.py [PERSONS..].

The archive is that of bench/export.py: of PERSONS persons (100,000) with a birth and a citation each. Printed are wall
and processor time and the most memory of the fastest of three runs: of an opening (`apply` without rows), of each
command, of a search by `sqlite3` for lines of the tables with LIKE (by Python's module of that name, whose own start is
a row), and of `grep -i` over the export. A command less the opening is what counts; sqlite3 opens without a check.
"""

import pathlib
import shlex
import subprocess
import sys
import tempfile

from export import filled
from norm import PARISH, one_run

SEARCH = "import sqlite3,sys; c = sqlite3.connect(sys.argv[1]); print(len(c.execute(sys.argv[2]).fetchall()))"
LIKE = "SELECT no FROM line WHERE text LIKE '%wat%'"


def row(name, command, opened=0.0):
    wall, cpu, memory = min(one_run(command, "/dev/null") for _ in range(3))
    print(f"{name:28}{wall:8.2f}{cpu:8.2f}{cpu - opened:8.2f}{memory / 1e3:8.0f}", flush=True)
    return cpu


def main():
    for persons in [int(word) for word in sys.argv[1:]] or [100_000]:
        with tempfile.TemporaryDirectory() as folder:
            file, text = str(pathlib.Path(folder, "ashby.db")), str(pathlib.Path(folder, "ashby.ged"))
            filled(file, persons)
            with open(text, "wb") as out:
                subprocess.run([PARISH, "export", file], stdout=out, check=True)
            print(f"{persons:,} persons, {3 * persons + 2:,} records")
            print(f"{'':28}{'wall, s':>8}{'cpu, s':>8}{'less':>8}{'MB':>8}")
            opened = row("opening", [PARISH, "apply", file])
            for words in (
                "list FILE sources", "list FILE persons --limit 100", "list FILE persons", "find FILE wat",
                "find FILE zoe lee --limit 100", "find FILE zoe lee", "show FILE 3", "show FILE 1", "history FILE 3",
            ):
                command = [file if word == "FILE" else word for word in shlex.split(words)]
                row("parish " + words.replace(" FILE", ""), [PARISH, *command], opened)
            row("sqlite3, nothing", [sys.executable, "-c", SEARCH, file, "SELECT 1"])
            row("sqlite3, LIKE", [sys.executable, "-c", SEARCH, file, LIKE])
            # into a pipe: where the output is /dev/null, grep ends at the first line
            row("grep -i of the export", ["sh", "-c", f"grep -i wat {shlex.quote(text)} | cat"])


if __name__ == "__main__":
    main()
