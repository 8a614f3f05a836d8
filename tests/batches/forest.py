"""The nodes of a file that is well formed, by docs/FORMATS.md, "Lines" to "Files"."""

from __future__ import annotations

import re

# A letter, digit or underscore, and no `@` within.
NAME = r"@[A-Za-z0-9_][^@]*@"
LINE = re.compile(rf"[ \t]*(\d\d?) +(?:({NAME}) +)?(\w+)(?: (.*))?", re.ASCII | re.DOTALL)
LONGEST_NAME = 64


class Node:
    """A line that is no continuation, with its number among the lines that are not blank, from 1; `to` is the name that
    it points to, or none, and then `value` is its text."""

    def __init__(self, line: int, tag: str, name: str | None, value: str):
        self.line, self.tag, self.name = line, tag, name
        self.to = pointer(value)
        self.value = "" if self.to else unescaped(value)
        self.below: list[Node] = []


def pointer(value: str) -> str | None:
    """The name where the value is one, but for spaces at its ends."""
    bare = value.strip(" ")
    return bare if re.fullmatch(NAME, bare) and len(bare.encode()) <= LONGEST_NAME else None


def unescaped(value: str) -> str:
    return value.replace("@@", "@")


def read(text: str) -> list[Node]:
    """The nodes of level 0, from the header to the one before the trailer."""
    roots: list[Node] = []
    above: list[Node] = []
    pieces = (piece for piece in re.split(r"[\r\n]", text.removeprefix("\ufeff")) if piece.strip(" \t"))
    for number, piece in enumerate(pieces, 1):
        digits, name, tag, value = LINE.fullmatch(piece).groups()
        level, value = int(digits), value or ""
        del above[level:]
        if tag in ("CONC", "CONT"):
            above[-1].value += ("\n" if tag == "CONT" else "") + unescaped(value)
            continue
        node = Node(number, tag, name, value)
        (above[-1].below if above else roots).append(node)
        above.append(node)
    return roots[:-1]
