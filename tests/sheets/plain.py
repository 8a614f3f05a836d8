"""Records as plain values, and the lines that each is kept as: docs/FORMATS.md, "Texts, names and stored lines of the
archive"."""

from __future__ import annotations

import pathlib
import sys
from typing import NamedTuple

sys.path.insert(0, str(pathlib.Path(__file__).resolve().parents[1] / "archive"))

from rows import Line  # noqa: E402


class Place(NamedTuple):
    name: str
    parent: int | None = None


class Source(NamedTuple):
    title: str | None = None


class Person(NamedTuple):
    names: tuple[str, ...] = ()
    sex: str | None = None


class Family(NamedTuple):
    partners: tuple[tuple[str, int], ...] = ()
    children: tuple[int, ...] = ()


class Event(NamedTuple):
    owner: int
    tag: str
    value: str = ""
    date: str | None = None
    place: int | None = None
    participants: tuple[tuple[int, str], ...] = ()


class Citation(NamedTuple):
    owner: int
    source: int
    page: str | None = None
    quality: str | None = None


class Mention(NamedTuple):
    name: str
    role: str
    person: int | None = None
    reason: str = "same farm"


class Entry(NamedTuple):
    source: int
    kind: str
    page: str
    item: int
    date: str | None = None
    mentions: tuple[Mention, ...] = ()


def dated(date: str | None, place: int | None = None) -> list[Line]:
    return [] if date is None and place is None else [Line(1, "date", date, place)]


def owned_lines(record) -> tuple[Line, ...]:
    """The lines of an event, a citation or an entry."""
    if isinstance(record, Event):
        others = [Line(1, "participant", role, person) for person, role in record.participants]
        return (
            Line(0, "event", None, record.owner),
            Line(1, record.tag, record.value),
            *dated(record.date, record.place),
            *others,
        )
    if isinstance(record, Citation):
        quality = [] if record.quality is None else [Line(1, "quality", record.quality)]
        return (Line(0, "citation", None, record.owner), Line(1, "source", record.page, record.source), *quality)
    out = [
        Line(0, "entry", record.kind),
        Line(1, "key", f"{record.item} {record.page}", record.source),
        Line(1, "page", record.page),
        Line(1, "item", str(record.item)),
        *dated(record.date),
        Line(1, "text", "as it stands there"),
    ]
    for mention in record.mentions:
        out += [Line(1, "mention", mention.name, mention.person), Line(2, "role", mention.role)]
        out += [] if mention.person is None else [Line(2, "reason", mention.reason)]
    return tuple(out)


def lines(record) -> tuple[Line, ...]:
    """The lines that a record is kept as."""
    if isinstance(record, Place):
        return (Line(0, "place", record.name, record.parent),)
    if isinstance(record, Source):
        return (Line(0, "source", record.title),)
    if isinstance(record, Person):
        sex = [Line(1, "sex", record.sex)] if record.sex else []
        return (Line(0, "person"), *(Line(1, "name", name) for name in record.names), *sex)
    if isinstance(record, Family):
        partners = [Line(1, "partner", word, person) for word, person in record.partners]
        return (Line(0, "family"), *partners, *(Line(1, "child", None, person) for person in record.children))
    return owned_lines(record)
