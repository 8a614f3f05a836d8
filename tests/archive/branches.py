"""Stored lines as branches and as carried lines."""

from __future__ import annotations

from rows import Ask, Case, Line, given, kept, row

# A place with the number of its parent, and carried lines below it.
PLACE = (Line(0, "place", "Ashby", 3), Line(1, "NOTE", "x"), Line(2, "SOUR", None, 7))

BRANCHES = (
    ("a place with carried lines", PLACE),
    ("one line", (Line(0, "x"),)),
    ("a text with LF and a tab", (Line(0, "x", "two\nlines\tand\\n", 4_294_967_295),)),
    (
        "lines that come up by two",
        (Line(0, "a"), Line(1, "b"), Line(2, "c", ""), Line(1, "d"), Line(2, "e", None, 1), Line(2, "f")),
    ),
    ("lines 40 deep", tuple(Line(depth, "x") for depth in range(40))),
    ("lines 128 deep", tuple(Line(depth, "x") for depth in range(128))),
)

NO_BRANCHES = (
    ("no lines", ()),
    ("a first line of depth 1", PLACE[1:]),
    ("two lines of depth 0", (Line(0, "a"), Line(0, "b"))),
    ("a line two deeper", (Line(0, "a"), Line(2, "b"))),
    ("a line two deeper, further down", (Line(0, "a"), Line(1, "b"), Line(1, "c"), Line(3, "d"))),
    ("a line of the greatest depth", (Line(0, "a"), Line(4_294_967_295, "b"))),
    ("lines 129 deep", tuple(Line(depth, "x") for depth in range(129))),
    ("lines 100,000 deep", tuple(Line(depth, "x") for depth in range(100_000))),
)


def nested(levels: int) -> tuple[Line, ...]:
    """A line, and as many levels of carried lines below it."""
    return tuple(Line(depth, "A", "x") for depth in range(levels + 1))



# Lines, and those below the first of them as carried lines. A line that has a text and a number is one of the
# text, and a line that has neither is one of an empty text.
CARRIED = (
    ("a note with a pointer below it", PLACE, "0 NOTE =x\n1 SOUR 7\n"),
    ("nothing", (Line(0, "x", "y"),), ""),
    (
        "three deep and beside one another",
        (
            Line(0, "x"),
            Line(1, "A", "1"),
            Line(2, "B", ""),
            Line(3, "C", None, 4),
            Line(2, "D", "two\nlines"),
            Line(1, "E", ""),
        ),
        "0 A =1\n1 B =\n2 C 4\n1 D =two\\nlines\n0 E =\n",
    ),
    ("a text and a number", (Line(0, "x"), Line(1, "A", "1", 2)), "0 A =1\n"),
    ("neither", (Line(0, "x"), Line(1, "A")), "0 A =\n"),
    ("99 levels", nested(99), "".join(f"{depth} A =x\n" for depth in range(99))),
)

# Levels of carried lines that are too many: a file has 99 below level 0.
TOO_DEEP = (100, 127, 1_000, 100_000)

# Lines, the place from which on they are compared with the whole, and whether these are the same.
SAME = (
    (PLACE, 0, "true\n"),
    (PLACE, 1, "false\n"),
    (PLACE, 3, "false\n"),
    (PLACE, 4, "none\n"),
    ((), 0, "true\n"),
)


def case(name: str, lines: tuple[Line, ...], words: tuple[object, ...], wanted: str) -> Case:
    return Case(name, (*given(lines), Ask(row("lines", *words), wanted)))


def cases():
    for name, lines in BRANCHES:
        yield case(f"branch: {name}", lines, ("branch",), kept(lines))
    for name, lines in NO_BRANCHES:
        yield case(f"no branch: {name}", lines, ("branch",), "none\n")
    for name, lines, below in CARRIED:
        wanted = f"first\n{below}again\n{below}copies\n{below}"
        yield case(f"carried: {name}", lines, ("carried",), wanted)
    for levels in TOO_DEEP:
        yield case(f"carried: {levels} levels", nested(levels), ("carried",), "none\n")
    for lines, at, wanted in SAME:
        yield case(f"{len(lines)} lines and those from {at} on", lines, ("same", at), wanted)
