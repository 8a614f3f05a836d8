"""The packed text of a record's lines, as tests expect it. See docs/FORMATS.md, "The tables of an archive". They
are in one row of `line`, and those of a side of a slip in one of `slip_line`: the first line's tag and number in
columns, and all else in the packed text.

The lines of a record are written (depth, tag, text, number).
"""

from __future__ import annotations

import sqlite3
from collections.abc import Iterable, Sequence

from beside import Line

# The columns of the row of a record, which `row_of` fills, and the statements that write and read one.
COLUMNS = "no, pos, depth, tag, text, dst"
PUT = f"INSERT INTO line ({COLUMNS}) VALUES (?, ?, ?, ?, ?, ?)"
PACKS = f"SELECT {COLUMNS} FROM line ORDER BY no"


def words(text: str | None) -> str:
    """The text of a line after its head: nothing where it has none, and else a space and the text, with CR for LF."""
    return "" if text is None else " " + text.replace("\n", "\r")


def text_of(text: str) -> str | None:
    """The other way."""
    return text[1:].replace("\r", "\n") if text else None


def pack(lines: Sequence[Line]) -> str:
    """The packed text of a record, which has neither the tag nor the number of its first line."""
    return words(lines[0][2]) + "\n" + "".join(whole(line) for line in lines[1:])


def whole(line: Line) -> str:
    """One line of a packed text."""
    depth, tag, text, number = line
    return f"{depth} {tag}" + ("" if number is None else f">{number}") + words(text) + "\n"


def row_of(number: int, lines: Sequence[Line]) -> tuple[int, int, int, str, str, int | None]:
    """The row of a record."""
    depth, tag, _, named = lines[0]
    return (number, 0, depth, tag, pack(lines), named)


def side_row(slip: int, place: int, side: int, number: int, lines: Sequence[Line]) -> tuple[int | str | None, ...]:
    """The row of a side of a slip, the record before the merge (0) or after it (1), at its place among the others."""
    return ((slip << 32) + place - (1 << 63), slip, side, *row_of(number, lines))


def unpack(tag: str, text: str, number: int | None) -> list[Line]:
    """The lines of a row."""
    first, *others, last = text.split("\n")
    assert not last, f"a last line without LF: {text!r}"
    return [(0, tag, text_of(first), number), *map(line_of, others)]


def line_of(one: str) -> Line:
    """A line of a packed text."""
    depth, _, behind = one.partition(" ")
    head, space, _ = behind.partition(" ")
    tag, named, number = head.partition(">")
    return (int(depth), tag, text_of(behind[len(head):] if space else ""), int(number) if named else None)


def lines_of(conn: sqlite3.Connection, number: int) -> list[Line]:
    """The lines of a record in the tables."""
    rows = conn.execute("SELECT tag, text, dst FROM line WHERE no = ?", (number,)).fetchall()
    return [line for row in rows for line in unpack(*row)]


def put_lines(conn: sqlite3.Connection, number: int, lines: Sequence[Line]) -> None:
    """The record has these lines and no others."""
    conn.execute("DELETE FROM line WHERE no = ?", (number,))
    conn.execute(PUT, row_of(number, lines))


def each_line(packs: Iterable[tuple]) -> list[tuple]:
    """Of rows as PACKS shows them each line: number, place, depth, tag, text, number named."""
    return [
        (no, at, *line)
        for no, _, _, tag, text, named in packs
        for at, line in enumerate(unpack(tag, text, named))
    ]


def literal(text: str) -> str:
    """A text as a literal of SQL."""
    return "'" + text.replace("'", "''") + "'"


def values_of(row: Sequence[int | str | None]) -> str:
    """A row as the VALUES of an INSERT."""
    values = ["NULL" if one is None else literal(one) if isinstance(one, str) else str(one) for one in row]
    return "(" + ", ".join(values) + ")"
