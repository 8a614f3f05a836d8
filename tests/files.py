"""Small files, and what `norm` and `check` make of each: the rows of tests/table/.

Each file is given to both commands, whole, and to the program that feeds the reader in pieces, which also tells the
lines of the nodes, or the byte that decides a fault. What `norm` writes is given to it again, and comes out as it is.
"""

from __future__ import annotations

import re

from harness import Case, Outcome, Tools, by_number, counted, expect, run, without_hints, written
from table import deciding, lines, names, order, structure, values
from table.making import MARK

FED_IN_PIECES = 4_096  # a larger file takes too long cut at each of its places

FILES = (*lines.ROWS, *names.ROWS, *values.ROWS, *structure.ROWS, *order.ROWS, *deciding.ROWS)
LINE_END = re.compile(rb"[\r\n]")
TAG = re.compile(rb"[ \t]*[0-9]+ +(?:@[^@]*@ +)?([0-9A-Za-z_]+)")
BLANK = re.compile(rb"[ \t]*")


def pieces_of(given: bytes):
    """What stands between line ends, each with the byte, from 1, that ends it; None of the last one."""
    start = len(MARK) if given.startswith(MARK) else 0
    for end in LINE_END.finditer(given):
        yield given[start : end.start()], end.end()
        start = end.end()
    yield given[start:], None


def lines_of(given: bytes):
    """The lines, which are the pieces that are not blank."""
    return [(piece, end) for piece, end in pieces_of(given) if not BLANK.fullmatch(piece)]


def node_lines(given: bytes) -> list[int]:
    """The numbers of the lines that are nodes: all but continuations and the trailer, which is the last."""
    tags = [TAG.match(line)[1] for line, _ in lines_of(given)]
    return [at for at, tag in enumerate(tags[:-1], 1) if tag not in (b"CONC", b"CONT")]


def deciding_byte(given: bytes, line: int) -> int | None:
    """The byte that ends a line, which is judged then; None where the end of the file does."""
    lines = lines_of(given)
    return lines[line - 1][1] if line <= len(lines) else None


def in_pieces(given: bytes, wanted: Outcome) -> Outcome:
    """The same answer as the program of pieces tells it: a text and its nodes' lines, or a refusal on standard
    output and what decides it."""
    if wanted.status == 0:
        return written(wanted.out + f"lines {node_lines(given)}\n".encode())
    told = without_hints(wanted.err).removeprefix(b"parish: ")
    byte = deciding_byte(given, int(told.split()[-1]))
    place = "at the end" if byte is None else f"at byte {byte}"
    return Outcome(told + f"decided {place}\n".encode(), b"", 1)


def norm(tools: Tools, given: bytes, wanted: Outcome) -> None:
    expect(by_number(run(tools.parish, ("norm",), given)), wanted)
    if wanted.status == 0 and wanted.out != given:
        expect(run(tools.parish, ("norm",), wanted.out), wanted)


def check(tools: Tools, given: bytes, wanted: Outcome) -> None:
    expect(by_number(run(tools.parish, ("check",), given)), counted(wanted))


def pieces(tools: Tools, given: bytes, wanted: Outcome) -> None:
    expect(run(tools.pieces, (), given), in_pieces(given, wanted))


def cases(tools: Tools):
    tests = [("file", norm), ("check", check)]
    if tools.pieces:
        tests.append(("in pieces", pieces))
    for kind, test in tests:
        for name, given, wanted in FILES:
            if test is not pieces or len(given) <= FED_IN_PIECES:
                yield Case(
                    f"{kind}: {name}",
                    lambda test=test, given=given, wanted=wanted: test(tools, given, wanted),
                )
