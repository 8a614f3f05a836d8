"""The rows that archive_rows reads and the answers that it writes: how both are spelt."""

from __future__ import annotations

from typing import NamedTuple

ESCAPES = {"\\": "\\\\", "\n": "\\n", "\r": "\\r", "\t": "\\t", "\0": "\\0"}


class Line(NamedTuple):
    """A stored line: its depth, its tag, its text and the number of a record."""

    depth: int
    tag: str
    text: str | None = None
    number: int | None = None


class Ask(NamedTuple):
    """A row and its answer."""

    row: str
    wanted: str


class Case(NamedTuple):
    """Rows that are asked one after another; what is tested is the answer to the last."""

    name: str
    asks: tuple[Ask, ...]


def escaped(words: str) -> str:
    return "".join(ESCAPES.get(c, c) for c in words)


def row(*words: object) -> str:
    return "\t".join(escaped(str(word)) for word in words)


def written(words: str) -> str:
    """Words as they are answered."""
    return "=" + escaped(words)


def optional(text: str | None) -> str:
    return "-" if text is None else "=" + text


def number(value: int | None) -> str:
    return "-" if value is None else str(value)


def given(lines: tuple[Line, ...]) -> tuple[Ask, ...]:
    """The rows that give the lines."""
    return tuple(
        Ask(row("line", line.depth, line.tag, optional(line.text), number(line.number)), "")
        for line in lines
    )


def kept(lines: tuple[Line, ...]) -> str:
    """The lines as they are answered."""
    return "".join(
        row(line.depth, line.tag, optional(line.text), number(line.number)) + "\n" for line in lines
    )
