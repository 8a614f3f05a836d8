"""A program written in Python, loaded once and then run for many command lines. Of a slow reader most of a run is the
start of Python. `Loaded` is the one side; run as a program, `python3 tests/loaded.py PROGRAM.py`, this file is the
other: it has the modules that PROGRAM.py imports, and for each command line forks a process of its own, which runs
PROGRAM.py from its beginning, as `python3 PROGRAM.py WORDS..` does.

A call is a line of JSON, the words and the length of the input, and the input; its answer is such a line too, the
status and the lengths of both outputs, and the outputs.
"""

from __future__ import annotations

import io
import json
import os
import subprocess
import sys
import traceback

from harness import Outcome


class Loaded:
    """A Python program, by its words: the interpreter and the path of the program."""

    def __init__(self, command: tuple[str, ...]):
        python, program = command
        words = [python, os.path.abspath(__file__), os.path.abspath(program)]
        self.process = subprocess.Popen(words, stdin=subprocess.PIPE, stdout=subprocess.PIPE)

    def run(self, words: tuple[str, ...], given: bytes = b"") -> Outcome:
        self.process.stdin.write(json.dumps([list(words), len(given)]).encode() + b"\n" + given)
        self.process.stdin.flush()
        status, *lengths = json.loads(self.process.stdout.readline())
        out, err = map(self.process.stdout.read, lengths)
        return Outcome(out, err, status)


def status_of(end: SystemExit) -> int:
    """The status that Python gives a program that ends so."""
    if end.code is None:
        return 0
    return end.code if isinstance(end.code, int) else 1


def run_here(code, program, words, ends):
    """Runs the program in this process, which has no other work, on files for its three streams."""
    for number, file in enumerate(ends):
        os.dup2(file, number)
    sys.stdin = io.TextIOWrapper(open(0, "rb", closefd=False))
    sys.stdout, sys.stderr = (io.TextIOWrapper(open(end, "wb", closefd=False)) for end in (1, 2))
    sys.argv = [program, *words]
    status = 0
    try:
        exec(code, {"__name__": "__main__", "__file__": program})  # noqa: S102
    except SystemExit as end:
        status = status_of(end)
    except BaseException:
        traceback.print_exc()
        status = 1
    sys.stdout.flush()
    sys.stderr.flush()
    os._exit(status)


def held(file: int) -> bytes:
    """All that a file has."""
    with open(file, "rb", closefd=False) as whole:
        whole.seek(0)
        return whole.read()


def serve(program, calls, answers):
    sys.path[0] = os.path.dirname(program)
    with open(program, "rb") as file:
        code = compile(file.read(), program, "exec")
    exec(code, {"__name__": "loaded", "__file__": program})  # noqa: S102: its modules are here from now on
    while line := calls.readline():
        words, length = json.loads(line)
        ends = [os.memfd_create(name) for name in ("in", "out", "err")]
        with open(ends[0], "wb", closefd=False) as file:
            file.write(calls.read(length))
        os.lseek(ends[0], 0, os.SEEK_SET)
        child = os.fork()
        if not child:
            run_here(code, program, words, ends)
        status = os.waitstatus_to_exitcode(os.waitpid(child, 0)[1])
        out, err = map(held, ends[1:])
        answers.write(json.dumps([status, len(out), len(err)]).encode() + b"\n" + out + err)
        answers.flush()
        for file in ends:
            os.close(file)


if __name__ == "__main__":
    serve(sys.argv[1], open(os.dup(0), "rb"), open(os.dup(1), "wb"))
