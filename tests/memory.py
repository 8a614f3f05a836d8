"""Refused memory: each growth of a run in turn gets none (refuse.c), and the run says so."""

from __future__ import annotations

import os
import tempfile

from harness import Case, Failed, Outcome, Tools, demand, expect, refused, run, tally, written
from refusing import built, refusing
from table.making import between

LEAST = 4  # growths that a run has at least; fewer show that none was refused
MOST = 10_000_000  # and at most

SAMPLE = between(
    "1 SOUR A", "2 VERS 1", "1 CHAR UTF-8", "0 @I1@ INDI", "1 NAME Ann /Lee/", "1 FAMC @F1@",
    "1 NOTE " + "x" * 300, "2 CONC y@z", "2 CONT @#D@ " + "y " * 120, "2 SOUR", "2 CONT", "0 @F1@ FAM",
)
# a note that begins with a line end, and how it is written
NOTE = between("0 @N1@ NOTE", "1 CONT", "1 CONC ab")
NOTE_TEXT = between("0 @N1@ NOTE", "1 CONT ab")
MANY_WORDS = ("--version", *["x"] * 20)
# canonical text beyond what one write takes
LONG_SAMPLE = between(*["1 " + "T" * 31, "1 NOTE " + "x" * 250, "2 CONT y"] * 700)


def apart():
    """Numbers from 1 that lie further and further apart."""
    number = 1
    while number < MOST:
        yield number
        number += 1 + number // 4


def refused_in_turn(tools, name, words, given, numbers, wanted=None):
    """Runs a command with the growth of each number refused, until a run has no such growth."""
    plain = run(tools.parish, words, given)
    demand(plain.status == 0, f"without a refusal: status {plain.status}, {plain.err!r}")
    demand(wanted is None or plain == written(wanted), f"without a refusal: {plain}")
    with tempfile.TemporaryDirectory() as folder:
        library = built(folder)
        for tried, number in enumerate(numbers):
            mark = os.path.join(folder, str(number))
            got = run(tools.parish, words, given, env=refusing(number, library, mark))
            if not os.path.exists(mark):
                expect(got, plain)
                demand(tried >= LEAST, f"only {tried} growths were refused")
                tally("refused growths", name, tried)
                return
            told_and_nothing_wrong(got, plain, number)
    raise Failed("the growths have no end")


def told_and_nothing_wrong(got, plain, number):
    try:
        expect(Outcome(b"", got.err, got.status), refused(1))
        demand(plain.out.startswith(got.out), "it wrote what is no beginning of the right output")
    except Failed as failed:
        raise Failed(f"growth {number} refused: {failed}") from None


# each word is a growth before any is looked at
RUNS = (
    ("each growth of a command line of many words refused in turn", MANY_WORDS, b"", lambda: range(1, MOST), None),
    ("each growth of norm of a note refused in turn", ("norm",), NOTE, lambda: range(1, MOST), NOTE_TEXT),
    ("each growth of norm refused in turn", ("norm",), SAMPLE, lambda: range(1, MOST), None),
    ("each growth of check refused in turn", ("check",), SAMPLE, lambda: range(1, MOST), None),
    ("growths of norm of a long file refused", ("norm",), LONG_SAMPLE, apart, None),
)


def cases(tools: Tools):
    for name, words, given, numbers, wanted in RUNS:
        yield Case(
            f"memory: {name}",
            lambda name=name, words=words, given=given, numbers=numbers, wanted=wanted: refused_in_turn(
                tools, name, words, given, numbers(), wanted
            ),
        )
