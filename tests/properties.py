"""What holds of every file, tried on files of the seeded generator; no second reader is needed.

The long comparison with one is tests/compare.py.
"""

from __future__ import annotations

import re

import generate
from harness import REFUSALS, Case, Failed, Outcome, Tools, counted, demand, expect, run, shown

SEED = 20_261_122
FORESTS = 120
BROKEN = 160
CUT = 12  # files that are cut at each of their places
SHORT = 220  # bytes of one of these
REFUSAL = re.compile(rb"parish: ([0-9]+) ([A-Za-z0-9]+) at line [1-9][0-9]*\n(?:  [^\n]+\n){0,2}")
LINE_END = re.compile(rb"[\r\n]")
LINE_ENDS = (b"\n", b"\r", b"\r\n", b"\n\r", b"\n\n \t\n")


def norm(tools: Tools, data: bytes) -> Outcome:
    return run(tools.parish, ("norm",), data)


def demand_read(got: Outcome) -> bytes:
    demand(got.status == 0 and not got.err, f"it was not read: {shown(got.err)}")
    return got.out


def demand_refused(got: Outcome) -> None:
    """A refusal of a file: nothing on standard output, a line with number and name."""
    told = REFUSAL.fullmatch(got.err)
    demand(got.status == 1 and not got.out and told is not None, f"it was not refused: {got}")
    number, name = int(told[1]), told[2].decode()
    demand(REFUSALS.get(number) == name, f"there is no such refusal: {shown(got.err)}")


def is_canonical(text: bytes) -> bool:
    """Lines of at most 301 characters with LF, no white space before a level, the trailer at the end."""
    lines = text.decode().split("\n")
    return (
        lines[-2:] == ["0 TRLR", ""]
        and all(re.match(r"(0|[1-9][0-9]?) ", line) and len(line) <= 300 for line in lines[:-1])
        and "\r" not in text.decode()
    )


def two_spellings(tools: Tools, number: int) -> None:
    """Two spellings of one forest have one canonical text, and that is its own canonical text."""
    rng = generate.random_of(SEED, number, "spelled")
    forest = generate.forest(rng)
    text = demand_read(norm(tools, generate.spelled(rng, forest)))
    demand(is_canonical(text), f"it is not canonical: {shown(text)}")
    for data in (generate.spelled(rng, forest), text):
        expect(norm(tools, data), Outcome(text, b"", 0))
    expect(run(tools.parish, ("check",), text), counted(Outcome(text, b"", 0)))


def line_ends(tools: Tools, number: int) -> None:
    """What is said of a file does not depend on its line ends; `check` says the same as `norm`."""
    rng = generate.random_of(SEED, number, "broken")
    data = generate.broken(rng, generate.forest(rng))
    got = norm(tools, data)
    if got.status == 0:
        expect(norm(tools, got.out), got)
    else:
        demand_refused(got)
    expect(run(tools.parish, ("check",), data), counted(got))
    for end in LINE_ENDS:
        expect(norm(tools, LINE_END.sub(end, data)), got)


def cut_everywhere(tools: Tools, number: int) -> None:
    """A file that is cut is refused, or what was cut off was no part of what it says."""
    data = short_file(number)
    text = demand_read(norm(tools, data))
    for place in range(len(data)):
        got = norm(tools, data[:place])
        try:
            demand_refused(got) if got.status else expect(got, Outcome(text, b"", 0))
        except Failed as failed:
            raise Failed(f"cut at {place}: {failed}") from None


def short_file(number: int) -> bytes:
    tried = 0
    while True:
        rng = generate.random_of(SEED, number, f"short {tried}")
        data = generate.spelled(rng, generate.forest(rng))
        if 40 < len(data) <= SHORT:
            return data
        tried += 1


PROPERTIES = (
    ("two spellings of a forest have one text", FORESTS, two_spellings),
    ("line ends do not matter", BROKEN, line_ends),
    ("cut at each place it is refused or the same", CUT, cut_everywhere),
)


def cases(tools: Tools):
    for name, count, test in PROPERTIES:
        for number in range(count):
            yield Case(
                f"properties: {name}: file {number}",
                lambda test=test, number=number: test(tools, number),
            )
