"""Compares state_rows with a second program on drawn files: python3 tests/batches/compare.py 'COMMAND' [FILES [SEED]].

COMMAND reads the rows that run.py gives (`new`, `line`, `put`, `next`, `batch`) and answers as state_rows does. FILES
(20,000) files of SEED are given to both, each second one over an archive with places, and what is answered is compared
byte for byte. `--program PATH` is another executable than ours; `--corpus FOLDER` gives each `.ged` file of a folder,
too. Files that a program refuses count as others do. One line a difference, and last what was in the files that agreed.
"""

from __future__ import annotations

import argparse
import collections
import pathlib
import re
import shlex
import subprocess
import sys

sys.dont_write_bytecode = True
HERE = pathlib.Path(__file__).resolve().parent
sys.path.insert(0, str(HERE.parent / "archive"))

import drawn  # noqa: E402
from plain import stored  # noqa: E402
from rows import row  # noqa: E402
from run import PROGRAM  # noqa: E402

AT_ONCE = 500
SHOWN = 20
WORDS = r"(?m)^(?:line \d+: (dangling|one-sided|doubled|value dropped)|0\t(\w+)|(\d+ [A-Z]\w+)(?: at line \d+)?)"


def files(count: int, seed: int, corpus: str | None):
    """Names of files, each with the rows of an archive and the file's text."""
    for number in range(count):
        archive, after = drawn.archive(f"{seed} {number}") if number % 2 else ({}, 1)
        yield f"{seed} {number}", archive, after, drawn.text(f"{seed} {number}")
    for path in sorted(pathlib.Path(corpus).rglob("*.ged")) if corpus else ():
        yield str(path), {}, 1, path.read_bytes().decode()


def rows_of(archive: dict, after: int, text: str) -> str:
    return "".join(ask.row + "\n" for ask in stored(archive, after)) + row("batch", text) + "\n"


def answers(command: list[str], given: list) -> list[str]:
    """What the last row of each is answered with."""
    rows = [rows_of(*one) for _, *one in given]
    out = subprocess.run(command, input="".join(rows).encode(), stdout=subprocess.PIPE, check=True).stdout.decode()
    found = re.split(r"(?m)^\.\n", out)
    ends, at = [], -1
    for one in rows:
        at += one.count("\n")
        ends.append(found[at])
    return ends


def main() -> int:
    parser = argparse.ArgumentParser()
    parser.add_argument("command")
    parser.add_argument("files", type=int, nargs="?", default=20_000)
    parser.add_argument("seed", type=int, nargs="?", default=1)
    parser.add_argument("--program", default=str(PROGRAM))
    parser.add_argument("--corpus")
    words = parser.parse_args()
    given, wrong, seen = list(files(words.files, words.seed, words.corpus)), 0, collections.Counter()
    for k in range(0, len(given), AT_ONCE):
        some = given[k : k + AT_ONCE]
        both = zip(some, answers([words.program], some), answers(shlex.split(words.command), some))
        for (name, *_), ours, theirs in both:
            if ours != theirs:
                wrong += 1
                if wrong <= SHOWN:
                    print(f"file {name}:\nours:\n{ours}\ntheirs:\n{theirs}", flush=True)
            seen.update(word for found in re.findall(WORDS, ours) for word in found if word)
    print(", ".join(f"{count:,} {word}" for word, count in seen.most_common()))
    print(f"{len(given) - wrong} files agreed, {wrong} differed")
    return 1 if wrong else 0


if __name__ == "__main__":
    sys.exit(main())
