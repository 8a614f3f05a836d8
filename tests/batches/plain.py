"""Records as plain values, and the lines that each is kept as: docs/FORMATS.md, "Texts, names and stored lines of the
archive". A carried line's value is a text, or the number of a record."""

from __future__ import annotations

import pathlib
import sys
from typing import NamedTuple

sys.path.insert(0, str(pathlib.Path(__file__).resolve().parents[1] / "archive"))

from rows import Ask, Line, given, row  # noqa: E402


class Carried(NamedTuple):
    tag: str
    value: str | int = ""
    below: tuple[Carried, ...] = ()


class Place(NamedTuple):
    name: str
    parent: int | None = None
    carried: tuple[Carried, ...] = ()


class Repo(NamedTuple):
    name: str | None = None
    carried: tuple[Carried, ...] = ()


class Holding(NamedTuple):
    repo: int
    call: str | None = None
    carried: tuple[Carried, ...] = ()


class Source(NamedTuple):
    title: str | None = None
    author: str | None = None
    publisher: str | None = None
    holdings: tuple[Holding, ...] = ()
    carried: tuple[Carried, ...] = ()


class Name(NamedTuple):
    text: str
    carried: tuple[Carried, ...] = ()


class Person(NamedTuple):
    names: tuple[Name, ...] = ()
    sex: str | None = None
    carried: tuple[Carried, ...] = ()


class Member(NamedTuple):
    """A membership: `husband`, `wife` or `child`, the person, what the family's line carries, and what the person's."""

    word: str
    person: int
    ours: tuple[Carried, ...] = ()
    theirs: tuple[Carried, ...] = ()


class Family(NamedTuple):
    partners: tuple[Member, ...] = ()
    children: tuple[Member, ...] = ()
    carried: tuple[Carried, ...] = ()


class Participant(NamedTuple):
    person: int
    role: str = ""
    carried: tuple[Carried, ...] = ()


class Event(NamedTuple):
    """`at` is what the line of the place carries."""

    owner: int
    tag: str
    value: str = ""
    date: str | None = None
    place: int | None = None
    at: tuple[Carried, ...] = ()
    participants: tuple[Participant, ...] = ()
    carried: tuple[Carried, ...] = ()


class Citation(NamedTuple):
    owner: int
    source: int
    page: str | None = None
    quality: str | None = None
    carried: tuple[Carried, ...] = ()


class Mention(NamedTuple):
    role: str
    name: str
    person: int | None = None
    reason: str | None = None


class Entry(NamedTuple):
    source: int
    kind: str
    page: str
    item: int
    text: str
    mentions: tuple[Mention, ...]
    date: str | None = None
    place: int | None = None


class Other(NamedTuple):
    tag: str
    value: str | int = ""
    carried: tuple[Carried, ...] = ()


def trees(depth: int, carried: tuple[Carried, ...]) -> list[Line]:
    """Carried lines and those below them."""
    out = []
    for tag, value, below in carried:
        text, number = (value, None) if isinstance(value, str) else (None, value)
        out += [Line(depth, tag, text, number), *trees(depth + 1, below)]
    return out


def part(depth: int, word: str, carried: tuple[Carried, ...]) -> list[Line]:
    return [Line(depth, word), *trees(depth + 1, carried)] if carried else []


def carried(depth: int, lines: tuple[Carried, ...]) -> list[Line]:
    return part(depth, "carried", lines)


def field(word: str, text: str | None) -> list[Line]:
    return [] if text is None else [Line(1, word, text)]


def source(record: Source) -> list[Line]:
    out = [Line(0, "source", record.title), *field("author", record.author), *field("publisher", record.publisher)]
    for repo, call, more in record.holdings:
        out += [Line(1, "holding", call, repo), *carried(2, more)]
    return out


def person(record: Person) -> list[Line]:
    out = [Line(0, "person")]
    for text, more in record.names:
        out += [Line(1, "name", text), *carried(2, more)]
    return out + field("sex", record.sex)


def family(record: Family) -> list[Line]:
    out = [Line(0, "family")]
    for word, number, ours, theirs in record.partners + record.children:
        first = Line(1, "child", None, number) if word == "child" else Line(1, "partner", word, number)
        out += [first, *part(2, "side", theirs), *carried(2, ours)]
    return out


def event(record: Event) -> list[Line]:
    out = [Line(0, "event", None, record.owner), Line(1, record.tag, record.value)]
    if (record.date, record.place) != (None, None):
        out += [Line(1, "date", record.date, record.place), *carried(2, record.at)]
    for number, role, more in record.participants:
        out += [Line(1, "participant", role, number), *carried(2, more)]
    return out


def citation(record: Citation) -> list[Line]:
    first = [Line(0, "citation", None, record.owner), Line(1, "source", record.page, record.source)]
    return first + field("quality", record.quality)


def key(item: int, page: str) -> str:
    """The word by which an entry is found: the page is left out of it where it has more than 1,000 bytes."""
    return str(item) if len(page.encode()) > 1_000 else f"{item} {page}"


def entry(record: Entry) -> list[Line]:
    out = [Line(0, "entry", record.kind), Line(1, "key", key(record.item, record.page), record.source)]
    out += [Line(1, "page", record.page), Line(1, "item", str(record.item))]
    if (record.date, record.place) != (None, None):
        out += [Line(1, "date", record.date, record.place)]
    out += [Line(1, "text", record.text)]
    for role, name, number, reason in record.mentions:
        out += [Line(1, "mention", name, number), Line(2, "role", role)]
        out += [] if reason is None else [Line(2, "reason", reason)]
    return out


SPELT = {
    Place: lambda it: [Line(0, "place", it.name, it.parent)],
    Repo: lambda it: [Line(0, "repo", it.name)],
    Source: source,
    Person: person,
    Family: family,
    Event: event,
    Citation: citation,
    Entry: entry,
}


def lines(record) -> tuple[Line, ...]:
    """The lines that a record is kept as."""
    if isinstance(record, Other):
        return (Line(0, "other"), *trees(1, (Carried(*record),)))
    more = () if isinstance(record, Entry) else record.carried
    return (*SPELT[type(record)](record), *carried(1, more))


def stored(archive: dict, after: int) -> tuple[Ask, ...]:
    """The rows that make a state of these records, whose next number is `after`."""
    rows = [Ask("new", "")]
    for number, record in archive.items():
        rows += [*given(lines(record)), Ask(row("put", number), "")]
    return (*rows, Ask(row("next", after), ""))
