"""What the tables have beside the lines of a record, as tests expect it: its links, and what it is looked for by. See
docs/FORMATS.md, "The tables of an archive".

The lines of a record are written (depth, tag, text, number).
"""

from __future__ import annotations

from collections.abc import Iterable, Sequence

Line = tuple[int, str, "str | None", "int | None"]

# The tables that the second version has, and the first one has not.
LATER = ("span", "link", "sought", "past")


def link_of(number: int, named: int) -> int:
    """The key in `link` of a record that names a number."""
    return (named << 32) + number - (1 << 63)


def links_of(number: int, lines: Iterable[Line]) -> list[int]:
    """The keys in `link` of a record that is kept as these lines, each once, in their order."""
    return sorted({link_of(number, named) for _, _, _, named in lines if named is not None})


def sought_of(lines: Sequence[Line]) -> tuple[str | None, int | None] | None:
    """What a record that is kept as these lines is looked for by: a place by its name, an entry by its key and the
    number of its source, which stand on one line."""
    kind, text = lines[0][1], lines[0][2]
    if kind == "place":
        return (text, None)
    if kind == "entry":
        return next(((text, source) for _, tag, text, source in lines if tag == "key"), None)
    return None
