"""Compares the dates of library_rows with a second reader of dates, on texts of the seeded generator.

    python3 tests/dates/compare.py 'COMMAND' [COUNT [SEED]]

COMMAND reads a text a line and writes its canonical text, first and last day with tabs between, `-`
where there is none. One line a difference, and a last line that counts them; status 0 if there is none.
"""

import pathlib
import shlex
import subprocess
import sys

import generate

OURS = pathlib.Path(__file__).resolve().parents[2] / "crates/library_rows/out/library_rows"


def answers(command, data):
    lines = subprocess.run(command, input=data, stdout=subprocess.PIPE, check=True).stdout.decode("utf-8").split("\n")
    return lines[:-1]


def main():
    command = shlex.split(sys.argv[1])
    count = int(sys.argv[2]) if len(sys.argv) > 2 else 100_000
    seed = int(sys.argv[3]) if len(sys.argv) > 3 else 1
    made = generate.texts(seed, count)
    ours = answers([str(OURS)], "".join(f"date\t{text}\n" for text in made).encode("utf-8"))
    theirs = answers(command, "".join(f"{text}\n" for text in made).encode("utf-8"))
    wrong = 0
    for text, mine, other in zip(made, ours, theirs):
        if mine != other:
            wrong += 1
            print(f"{text!r}: {mine!r}, and the other has {other!r}")
    short = len(made) - min(len(ours), len(theirs))
    read = sum(1 for text, line in zip(made, ours) if not line.endswith("\t-\t-"))
    print(f"{len(made)} texts, {read} with a day, {wrong + short} differences")
    return 1 if wrong or short else 0


if __name__ == "__main__":
    sys.exit(main())
