"""How the rows of the tables are made: rows that are given, one after the other, and the rows that answer each.

Each expected answer is written by hand from docs/FORMATS.md, never taken from a program.
"""

from __future__ import annotations

import hashlib
from dataclasses import dataclass

NAMES = {
    50: "NoSuch",
    51: "WrongKind",
    52: "TokenReused",
    53: "StillNamed",
    54: "SamePerson",
    55: "MergeWithinFamily",
    56: "ChangedSince",
    57: "AlreadyUndone",
    58: "BadText",
    59: "AlreadyInFamily",
    60: "DuplicateEntry",
    61: "NoSuchMention",
    62: "NotOfKind",
    63: "Full",
    64: "NoSuchField",
    65: "NotMember",
    66: "StillCarried",
    90: "BadRow",
    91: "UnknownVerb",
    92: "FieldCount",
    93: "BadToken",
}
LAST = 4_294_967_295  # the greatest number
LONGEST = 1_048_576  # bytes of a text

Step = tuple[bytes, bytes]


@dataclass(frozen=True)
class Scenario:
    """Rows given to a new archive, each with its answer."""

    name: str
    steps: tuple[Step, ...]


def scenario(name: str, *parts: Step | list[Step]) -> Scenario:
    """A scenario of steps and lists of steps."""
    steps: list[Step] = []
    for part in parts:
        steps += part if isinstance(part, list) else [part]
    return Scenario(name, tuple(steps))


def field(value: str | int) -> str:
    """A field as RFC 4180 has it, in quotes only where it has to be."""
    text = str(value)
    if any(c in text for c in ',"\r\n'):
        return '"' + text.replace('"', '""') + '"'
    return text


def row(*fields: str | int) -> str:
    return ",".join(field(one) for one in fields) + "\n"


def raw(given: bytes | str, *wanted: str) -> Step:
    """Bytes as they stand, and the rows that answer them."""
    data = given.encode() if isinstance(given, str) else given
    return data, "".join(line + "\n" for line in wanted).encode()


def ask(given: str, *wanted: str) -> Step:
    """A row as it stands, and the rows that answer it."""
    return raw(given + "\n", *wanted)


def makes(number: int, *fields: str | int) -> Step:
    """A request that makes this record."""
    return row(*fields).encode(), row(fields[0], "ok", number, 1).encode()


def changes(*fields: str | int) -> Step:
    """A request that is accepted and makes no record."""
    return row(*fields).encode(), row(fields[0], "ok", 0, 0).encode()


def refuses(number: int, *fields: str | int) -> Step:
    """A request that is refused."""
    return row(*fields).encode(), row(fields[0], "refused", number, NAMES[number]).encode()


def next_is(number: int) -> Step:
    return ask("! next", f"next,{number}")


def next_set(number: int) -> Step:
    return ask(f"! set next,{number}", f"next,{number}")


def place(number: int, name: str, parent: int | str = "") -> Step:
    """Puts a place at a number, as no request does."""
    given = row("! place", number, name, parent)
    return given.encode(), row(0, "place", name, parent or "-").encode()


def places(count: int, name: str) -> Step:
    """Puts places at the numbers from 1 on by one change, and shows the last."""
    return row("! places", count, name).encode(), row(0, "place", name, "-").encode()


def shows(number: int, *lines: tuple[str | int, ...]) -> Step:
    """The stored lines of a record: depth, tag, text and number, with `-` for nothing."""
    wanted = "".join(row(*line) for line in lines) or "none\n"
    return row("! show", number).encode(), wanted.encode()


def digest(*fields: str | int) -> str:
    """SHA-256 of a command as one row."""
    return hashlib.sha256(row(*fields).encode()).hexdigest()


def keeps(token: str, first: int, count: int, *command: str | int) -> Step:
    """What is kept under a token: the answer, and the digest of a command that is written as it is spelt."""
    wanted = row("kept", first, count, digest(*command))
    return row("! kept", token).encode(), wanted.encode()


def keeps_nothing(token: str) -> Step:
    return row("! kept", token).encode(), b"none\n"


def spells(given: tuple[str | int, ...], *command: str | int) -> list[Step]:
    """A command, given in some spelling, with its bytes and their digest."""
    wanted = row("bytes", row(*command)) + row("digest", digest(*command))
    return [(row("! bytes", *given).encode(), wanted.encode())]


def itself(*command: str | int) -> list[Step]:
    """A command whose row is spelt as its bytes are."""
    return spells(command, *command)


def looks(number: int, *request: str | int) -> list[Step]:
    """A request of a token, a verb and fields makes so many looks, and each that fails, be it with 40 or with 80, is
    answered as such."""
    return [
        (row(f"! looks {failure}", *request).encode(), row("looks", number).encode())
        for failure in (40, 80)
    ]


def source(
    number: int,
    token: str,
    title: str,
    author: str = "",
    publisher: str = "",
    repo: int | str = "",
    call: str = "",
) -> Step:
    """A request that makes a source at this number."""
    return makes(number, token, "source", title, author, publisher, repo, call)


# A mention that an entry of a kind may have.
FIRST = {"BAPTISM": ("child", "John"), "MARRIAGE": ("groom", "John"), "BURIAL": ("buried", "John")}


def entry(
    source: int | str,
    kind: str = "BAPTISM",
    page: str = "f. 3",
    item: int | str = 1,
    date: str = "",
    place: int | str = "",
    text: str = "",
    mentions: tuple[str, ...] = (),
) -> tuple[str | int, ...]:
    """The verb and the fields of a register entry; mentions are roles and names, one after the other."""
    return ("entry", source, kind, page, item, date, place, text, *(mentions or FIRST[kind]))


def shows_entry(
    number: int,
    kind: str,
    page: tuple[str, int],
    item: int,
    text: str,
    *mentions: tuple[str | int, ...],
    when: tuple[str, int | str] | None = None,
) -> Step:
    """The stored lines of a register entry: its page and source, its date and place, and the role, name, person and
    reason of each mention."""
    # of a page of more than 1,000 bytes the key has the item alone
    key = f"{item} {page[0]}" if len(page[0].encode()) <= 1_000 else f"{item}"
    lines = [(0, "entry", kind, "-"), (1, "key", key, page[1]), (1, "page", page[0], "-"), (1, "item", item, "-")]
    if when is not None:
        lines.append((1, "date", *when))
    lines.append((1, "text", text, "-"))
    for role, name, *link in mentions:
        lines += [(1, "mention", name, link[0] if link else "-"), (2, "role", role, "-")]
        lines += [(2, "reason", link[1], "-")] if link else []
    return shows(number, *lines)


# Persons 1 and 2, family 3 with person 1 as its wife, and event 4 of it.
FAMILY = [
    makes(1, "p1", "person", "Tom /Lee/", ""),
    makes(2, "p2", "person", "Ann /Lee/", ""),
    makes(3, "f1", "family", "", 1),
    makes(4, "e1", "event", 3, "DIV", "", "1700", ""),
]
