"""Records, and which of the numbers from 1 to 9 each names."""

from __future__ import annotations

from rows import Line


def below(depth: int, number: int) -> tuple[Line, ...]:
    """Carried lines of which the second points to a number."""
    return (Line(depth, "carried"), Line(depth + 1, "_SEE", "below"), Line(depth + 2, "_SEE", None, number))


NAMES = (
    ("a person with a pointer below a carried line", (Line(0, "person"), *below(1, 5)), (5,)),
    (
        "an event with its owner, its place and a participant",
        (
            Line(0, "event", None, 1),
            Line(1, "BIRT", ""),
            Line(1, "date", None, 2),
            *below(2, 3),
            Line(1, "participant", "", 4),
            *below(2, 6),
            *below(1, 8),
        ),
        (1, 2, 3, 4, 6, 8),
    ),
    (
        "a burial of source 3 in place 5, linked to person 7",
        (
            Line(0, "entry", "BURIAL"),
            Line(1, "key", "1 f. 3", 3),
            Line(1, "page", "f. 3"),
            Line(1, "item", "1"),
            Line(1, "date", None, 5),
            Line(1, "text", ""),
            Line(1, "mention", "Tho. Lee", 7),
            Line(2, "role", "buried"),
            Line(2, "reason", "same farm"),
        ),
        (3, 5, 7),
    ),
    (
        "another record, whose value is 2",
        (Line(0, "other"), Line(1, "_TASK", None, 2), *below(1, 9)[1:]),
        (2, 9),
    ),
    ("a person", (Line(0, "person"), Line(1, "name", "1 /2/"), Line(1, "sex", "M")), ()),
    ("a name with a pointer", (Line(0, "person"), Line(1, "name", "x"), *below(2, 6)), (6,)),
    ("a place within another", (Line(0, "place", "7", 3), *below(1, 9)), (3, 9)),
    ("a place", (Line(0, "place", "7"),), ()),
    ("a repository", (Line(0, "repo", "1"), *below(1, 4)), (4,)),
    (
        "a source with two holdings",
        (
            Line(0, "source", "9"),
            Line(1, "holding", "8", 2),
            *below(2, 5),
            Line(1, "holding", None, 3),
            *below(1, 6),
        ),
        (2, 3, 5, 6),
    ),
    (
        "a citation",
        (Line(0, "citation", None, 2), Line(1, "source", "3", 1), Line(1, "quality", "3"), *below(1, 9)),
        (1, 2, 9),
    ),
    (
        "a family with carried lines on both sides of each",
        (
            Line(0, "family"),
            Line(1, "partner", "husband", 1),
            Line(2, "side"),
            *below(2, 2)[1:],
            *below(2, 3),
            Line(1, "child", None, 4),
            Line(2, "side"),
            *below(2, 5)[1:],
            *below(2, 6),
            *below(1, 8),
        ),
        (1, 2, 3, 4, 5, 6, 8),
    ),
    (
        "an event that names one number twice",
        (Line(0, "event", None, 1), Line(1, "BIRT", "5"), Line(1, "participant", "6", 1)),
        (1,),
    ),
    (
        "an entry of the numbers 10 and 11",
        (
            Line(0, "entry", "BURIAL"),
            Line(1, "key", "2 1", 10),
            Line(1, "page", "1"),
            Line(1, "item", "2"),
            Line(1, "date", "1700", 11),
            Line(1, "text", "3"),
        ),
        (),
    ),
)
