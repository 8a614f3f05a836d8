"""Records with all that they can hold, as plain values. `more` are texts of lines that no field takes."""

from __future__ import annotations

from typing import NamedTuple


class When(NamedTuple):
    """A date in canonical spelling, and its last day, if it has one."""

    text: str
    last: int | None


class Place(NamedTuple):
    name: str
    parent: int | None = None
    more: tuple[str, ...] = ()


class Repo(NamedTuple):
    name: str
    more: tuple[str, ...] = ()


class Source(NamedTuple):
    title: str | None
    author: str
    publisher: str
    repo: int
    call: str
    more: tuple[str, ...] = ()


class Person(NamedTuple):
    names: tuple[str, ...] = ()
    sex: str | None = None
    more: tuple[str, ...] = ()


class Family(NamedTuple):
    partners: tuple[tuple[str, int], ...] = ()
    children: tuple[int, ...] = ()
    more: tuple[str, ...] = ()


class Event(NamedTuple):
    owner: int
    tag: str
    value: str = ""
    when: When | None = None
    place: int | None = None
    participants: tuple[tuple[int, str], ...] = ()
    more: tuple[str, ...] = ()


class Citation(NamedTuple):
    owner: int
    source: int
    page: str | None = None
    quality: str | None = None
    more: tuple[str, ...] = ()


class Mention(NamedTuple):
    name: str
    role: str
    person: int | None = None
    reason: str = ""


class Entry(NamedTuple):
    source: int
    kind: str
    page: str
    item: int
    when: When | None
    place: int | None
    text: str
    mentions: tuple[Mention, ...]


class Other(NamedTuple):
    tag: str
    value: str
    more: tuple[str, ...] = ()
