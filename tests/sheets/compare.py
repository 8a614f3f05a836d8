"""Compares what the executable and a second program answer to drawn requests: not a part of `./test`.

    python3 tests/sheets/compare.py 'COMMAND' [HEADS [SEED]] [--parish COMMAND]

COMMAND takes the words `init`, `apply` and `serve` as parish does. Both make archives of 200 generated rows, and answer
250 drawn heads (20,000 in all) to each, one a connection. A head that is malformed or cut, and too large, may get 400
by the one and 431 by the other. One line a difference, and last `N passed, M failed`.
"""

from __future__ import annotations

import argparse
import collections
import csv
import io
import os
import pathlib
import shlex
import socket
import subprocess
import sys
import tempfile

sys.dont_write_bytecode = True
HERE = pathlib.Path(__file__).resolve().parent
sys.path[:0] = [str(HERE), str(HERE.parent)]

from archives import generated  # noqa: E402
from heads import Heads  # noqa: E402
from plain import Family, Person, Source  # noqa: E402
from room import MOST_BYTES, MOST_LINES  # noqa: E402

PARISH = str(HERE.parents[1] / "crates/parish/out/parish")
EACH = 250  # heads of an archive
ROWS = 200
TODAY = "2024-01-01"
KINDS = {"person": Person(), "family": Family(), "source": Source()}
EITHER = {b"400", b"431"}


def free_port() -> int:
    with socket.create_server(("127.0.0.1", 0)) as server:
        return server.getsockname()[1]


class Served:
    """An archive that a program has made of rows and serves, in a folder of its own."""

    def __init__(self, command: str, folder: str, rows: bytes, count: int):
        self.words = [os.path.abspath(word) if os.path.exists(word) else word for word in shlex.split(command)]
        self.folder = folder
        os.mkdir(folder)
        self.ran("init", "a.db", "--society", "Ashby Society")
        self.answers = self.ran("apply", "a.db", given=rows).decode()
        self.port = free_port()
        words = ["serve", "a.db", "--port", str(self.port), "--count", str(count), "--today", TODAY]
        self.program = subprocess.Popen([*self.words, *words], cwd=folder, stdout=subprocess.PIPE)
        if not self.program.stdout.readline():
            raise SystemExit(f"{command}: nothing listens")

    def ran(self, *words: str, given: bytes = b"") -> bytes:
        command = [*self.words, *words]
        return subprocess.run(command, cwd=self.folder, input=given, capture_output=True, check=False).stdout

    def answer(self, given: bytes) -> bytes:
        with socket.create_connection(("127.0.0.1", self.port), timeout=60) as visitor:
            visitor.sendall(given)
            visitor.shutdown(socket.SHUT_WR)
            return b"".join(iter(lambda: visitor.recv(65_536), b""))

    def end(self) -> int:
        return self.program.wait(timeout=60)


def kinds(rows: bytes, answers: str) -> dict:
    """The numbers of persons, families and sources, each with a record of the kind."""
    asked = csv.reader(io.StringIO(rows.decode("utf-8", "replace"), newline=""))
    made = csv.reader(answers.splitlines())
    verbs = [(words[1:2] or [""])[0] for words in asked if words]
    return {int(row[2]): KINDS[verb] for verb, row in zip(verbs, made) if row[1] == "ok" and verb in KINDS}


def may_differ(given: bytes, one: bytes, other: bytes) -> bool:
    large = len(given) >= MOST_BYTES or given.count(b"\n") > MOST_LINES + 1
    return large and {one[9:12], other[9:12]} == EITHER


def differences(commands, folder, seed, counts):
    """What is told of heads that the two programs answer otherwise."""
    rows = generated(seed, ROWS)
    ours, theirs = (Served(command, f"{folder}/{at}", rows, EACH) for at, command in enumerate(commands))
    heads = Heads(seed, kinds(rows, ours.answers))
    for number in range(EACH):
        given = heads.head()
        one, other = ours.answer(given), theirs.answer(given)
        counts[one[9:12].decode()] += 1
        if one != other and not may_differ(given, one, other):
            yield f"archive {seed}, head {number}: {given[:100]!r} gives {one[:200]!r} and {other[:200]!r}"
    if (ours.end(), theirs.end()) != (0, 0):
        yield f"archive {seed}: a program did not end with status 0"


def main() -> int:
    parser = argparse.ArgumentParser()
    parser.add_argument("command")
    parser.add_argument("heads", nargs="?", type=int, default=20_000)
    parser.add_argument("seed", nargs="?", type=int, default=1)
    parser.add_argument("--parish", default=PARISH)
    words = parser.parse_args()
    count, failed, counts = 0, 0, collections.Counter()
    for seed in range(words.seed, words.seed + max(1, words.heads // EACH)):
        count += EACH
        with tempfile.TemporaryDirectory() as folder:
            for told in differences((words.parish, words.command), folder, seed, counts):
                failed += 1
                print(told)
    print(", ".join(f"{status or 'nothing'}: {times}" for status, times in sorted(counts.items())))
    print(f"{count - failed} passed, {failed} failed")
    return 1 if failed else 0


if __name__ == "__main__":
    sys.exit(main())
