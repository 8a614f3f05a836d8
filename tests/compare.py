"""Compares the executable with a second reader of GEDCOM files, on files of the seeded generator.

    python3 tests/compare.py 'COMMAND' [COUNT [SEED]] [--parish COMMAND]

COMMAND takes the words `norm` and `check` as parish does. Both are to have the same status and the
same bytes on both streams. Some files of at most 150 bytes are also cut at each of their places, for `norm`.
One line a difference, with the number of the file (`python3 tests/generate.py SEED NUMBER` writes
it), and a last line that counts; status 0 if there is none. A second reader that is a script of
Python is run within the processes of this one, which saves the start of each run.
"""

from __future__ import annotations

import argparse
import collections
import dataclasses
import io
import multiprocessing
import os
import shlex
import subprocess
import sys
import time

sys.dont_write_bytecode = True

import generate  # noqa: E402
from harness import ROOT, Failed, Outcome, expect, without_hints  # noqa: E402

OURS = os.path.join(ROOT, "crates", "parish", "out", "parish")
SHORT = 150  # bytes of a file that is compared cut everywhere
CUT = 5  # one of so many short files is
SHOWN = 20  # differences that are told


def by_process(command):
    def outcome(word, data):
        ran = subprocess.run([*command, word], input=data, capture_output=True, check=False)
        return Outcome(ran.stdout, ran.stderr, ran.returncode)

    return outcome


def by_script(path, words):
    """A script of Python, read once and run within this process on streams over memory."""
    with open(path, encoding="utf-8") as file:
        code = compile(file.read(), path, "exec")
    sys.path.insert(0, os.path.dirname(os.path.abspath(path)))

    def outcome(word, data):
        streams = [io.TextIOWrapper(io.BytesIO(given)) for given in (data, b"", b"")]
        kept = sys.stdin, sys.stdout, sys.stderr, sys.argv
        sys.stdin, sys.stdout, sys.stderr = streams
        sys.argv = [path, *words, word]
        status = 0
        try:
            exec(code, {"__name__": "__main__", "__file__": path})
        except SystemExit as end:
            status = end.code or 0
        finally:
            sys.stdin, sys.stdout, sys.stderr, sys.argv = kept
        for stream in streams:
            stream.flush()
        return Outcome(streams[1].buffer.getvalue(), streams[2].buffer.getvalue(), status)

    return outcome


def reader(command):
    words = shlex.split(command)
    if os.path.basename(words[0]).startswith("python") and words[1:2] and words[1].endswith(".py"):
        return by_script(words[1], words[2:])
    return by_process(words)


def cuts(data, number):
    """The file, and where it is short and one of a few also what is left of it at each place."""
    yield "", data
    if len(data) <= SHORT and number % CUT == 0:
        for place in range(len(data)):
            yield f", cut at {place}", data[:place]


def kind(outcome):
    """What came of a file: the number of its refusal, or that it was read."""
    return "read" if outcome.status == 0 else outcome.err.split()[1].decode()


class Worker:
    """Compares the files of one seed; each process has its own readers."""

    def __init__(self, ours, theirs, seed):
        self.given = ours, theirs, seed
        self.readers = None

    def __call__(self, number):
        ours, theirs, seed = self.given
        self.readers = self.readers or (reader(ours), reader(theirs))
        wrong, found = [], collections.Counter()
        for place, data in cuts(generate.file(seed, number), number):
            for word in ("norm",) if place else ("norm", "check"):
                mine, other = (read(word, data) for read in self.readers)
                try:
                    expect(dataclasses.replace(mine, err=without_hints(mine.err)), other)
                except Failed as failed:
                    wrong.append(f"file {number}{place}: {word}: {failed}")
            found["cut" if place else kind(mine)] += 1
        return wrong, found


def parse_words():
    words = argparse.ArgumentParser(description=__doc__.splitlines()[0])
    words.add_argument("command", metavar="COMMAND")
    words.add_argument("count", nargs="?", type=int, default=20_000)
    words.add_argument("seed", nargs="?", type=int, default=1)
    words.add_argument("--parish", metavar="COMMAND", default=OURS)
    return words.parse_args()


def main():
    given = parse_words()
    begun = time.monotonic()
    found, wrong = collections.Counter(), 0
    worker = Worker(given.parish, given.command, given.seed)
    with multiprocessing.Pool() as pool:
        for differences, kinds in pool.imap(worker, range(given.count), chunksize=8):
            found += kinds
            for difference in differences:
                wrong += 1
                if wrong <= SHOWN:
                    print(difference, flush=True)
    cut, read = found.pop("cut", 0), found.pop("read", 0)
    refused = ", ".join(f"{count} with {kind}" for kind, count in sorted(found.items()))
    print(f"{given.count} files of seed {given.seed}, {read} read, refused: {refused}; {cut} cut files; "
          f"{wrong} differences; {time.monotonic() - begun:.0f} s")
    return 1 if wrong else 0


if __name__ == "__main__":
    sys.exit(main())
