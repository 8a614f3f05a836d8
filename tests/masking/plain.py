"""Records as plain values, and the lines that each is kept as: docs/FORMATS.md, "Texts, names and stored lines of the
archive". A part with `extra` has a carried line."""

from __future__ import annotations

import datetime
import pathlib
import sys
from typing import NamedTuple

sys.path.insert(0, str(pathlib.Path(__file__).resolve().parents[1] / "archive"))

from rows import Line  # noqa: E402

DAY_0 = datetime.date(1970, 1, 1)
MONTHS = "JAN FEB MAR APR MAY JUN JUL AUG SEP OCT NOV DEC".split()


def spelt(day: int) -> str:
    """The date of a day, as GEDCOM spells it."""
    date = DAY_0 + datetime.timedelta(days=day)
    return f"{date.day} {MONTHS[date.month - 1]} {date.year}"


class When(NamedTuple):
    """A date and its last day, if it has one."""

    text: str
    last: int | None


class Place(NamedTuple):
    name: str
    parent: int | None = None
    extra: bool = False


class Repo(NamedTuple):
    name: str | None
    extra: bool = False


class Source(NamedTuple):
    title: str
    repos: tuple[tuple[int, bool], ...] = ()
    extra: bool = False


class Person(NamedTuple):
    names: tuple[tuple[str, bool], ...]
    sex: str | None = None
    extra: bool = False


class Family(NamedTuple):
    partners: tuple[tuple[str, int, bool], ...]
    children: tuple[tuple[int, bool], ...] = ()
    extra: bool = False


class Event(NamedTuple):
    owner: int
    tag: str
    when: When | None = None
    place: int | None = None
    participants: tuple[tuple[str, int, bool], ...] = ()
    extra: bool = False


class Citation(NamedTuple):
    owner: int
    source: int
    page: str | None = None
    extra: bool = False


class Entry(NamedTuple):
    source: int
    kind: str
    item: int
    when: When | None
    mentions: tuple[tuple[str, str, int | None], ...]


class Other(NamedTuple):
    tag: str


def extra(depth: int, is_there: bool) -> list[Line]:
    return [Line(depth, "carried"), Line(depth + 1, "_UID", "x")] if is_there else []


def sides(is_there: bool) -> list[Line]:
    return [Line(2, "side"), Line(3, "_UID", "y"), Line(2, "carried"), Line(3, "_UID", "x")] if is_there else []


def dated(when: When | None, place: int | None) -> list[Line]:
    if when is None and place is None:
        return []
    return [Line(1, "date", None if when is None else when.text, place)]


def lines(record) -> tuple[Line, ...]:
    """The lines that a record is kept as."""
    out: list[Line] = []
    if isinstance(record, Place):
        out = [Line(0, "place", record.name, record.parent), *extra(1, record.extra)]
    elif isinstance(record, Repo):
        out = [Line(0, "repo", record.name), *extra(1, record.extra)]
    elif isinstance(record, Source):
        out = [Line(0, "source", record.title)]
        for repo, more in record.repos:
            out += [Line(1, "holding", None, repo), *extra(2, more)]
        out += extra(1, record.extra)
    elif isinstance(record, Person):
        out = [Line(0, "person")]
        for name, more in record.names:
            out += [Line(1, "name", name), *extra(2, more)]
        out += [Line(1, "sex", record.sex)] if record.sex else []
        out += extra(1, record.extra)
    elif isinstance(record, Family):
        out = [Line(0, "family")]
        for word, person, more in record.partners:
            out += [Line(1, "partner", word, person), *sides(more)]
        for person, more in record.children:
            out += [Line(1, "child", None, person), *sides(more)]
        out += extra(1, record.extra)
    elif isinstance(record, Event):
        out = [Line(0, "event", None, record.owner), Line(1, record.tag, ""), *dated(record.when, record.place)]
        for role, person, more in record.participants:
            out += [Line(1, "participant", role, person), *extra(2, more)]
        out += extra(1, record.extra)
    elif isinstance(record, Citation):
        out = [Line(0, "citation", None, record.owner), Line(1, "source", record.page, record.source)]
        out += extra(1, record.extra)
    elif isinstance(record, Entry):
        out = [
            Line(0, "entry", record.kind),
            Line(1, "key", f"{record.item} p", record.source),
            Line(1, "page", "p"),
            Line(1, "item", str(record.item)),
            *dated(record.when, None),
            Line(1, "text", "t"),
        ]
        for role, name, person in record.mentions:
            out += [Line(1, "mention", name, person), Line(2, "role", role)]
            out += [] if person is None else [Line(2, "reason", "why")]
    else:
        out = [Line(0, "other"), Line(1, record.tag, "lost")]
    return tuple(out)
