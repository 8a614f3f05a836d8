"""Small archives, drawn, in which each text is a word that comes once: names, places, notes, pages, roles, reasons, and
dates, each of which has its word as a phrase or is a day that comes once.

An archive is a file to import into a new archive. The numbers of its records are those that the import gives.
"""

from __future__ import annotations

import datetime
import random
from typing import NamedTuple

from shown.gedcom import File
from shown.masked import rules
from shown.records import (
    Citation, Entry, Event, Family, Mention, Other, Person, Place, Repo, Source, When,
)

TODAY = 19_889  # 2024-06-15: in the middle of a month, so that the days about it have two digits
DAY_0 = datetime.date(1970, 1, 1)
MONTHS = "JAN FEB MAR APR MAY JUN JUL AUG SEP OCT NOV DEC".split()
PERSON_TAGS = ("BIRT", "DEAT", "BURI", "CREM", "OCCU", "RESI", "BAPM", "EVEN")
FAMILY_TAGS = ("MARR", "ENGA", "DIV", "EVEN")
ROLES = {"BAPTISM": ("child", "father", "mother", "godparent"), "MARRIAGE": ("groom", "bride", "witness"),
         "BURIAL": ("buried", "spouse", "father")}


class Archive(NamedTuple):
    """A file, and the records that its import makes, by their numbers."""

    file: bytes
    records: dict


class Drawing:
    def __init__(self, seed: str, words: int = 0):
        self.draw = random.Random(seed)
        self.words = words
        self.days: set[int] = set()
        self.made: dict = {}

    def word(self) -> str:
        self.words += 1
        return f"zq{self.words:04}"

    def some(self, chance: float) -> bool:
        return self.draw.random() < chance

    def text(self, chance: float = 0.6) -> str:
        return self.word() if self.some(chance) else ""

    def more(self) -> tuple[str, ...]:
        return tuple(self.word() for _ in range(self.draw.choice((0, 0, 0, 1, 2))))

    def day(self, age: int) -> int:
        """A day near one at which a rule turns, mostly that of this age, which no other date of this archive has, of
        two digits in its month."""
        while True:
            turn = TODAY - self.draw.choice((age, age, age, rules.LONG_AGO, *rules.CLOSED_FOR.values()))
            day = turn + self.draw.choice((-1, 0, 1) if self.some(0.5) else range(-4_000, 4_000, 97))
            if day not in self.days and date_of(day).day > 9:
                self.days.add(day)
                return day

    def when(self, age: int = rules.LONG_AGO) -> When | None:
        day = self.day(age)
        spelt, form = spelling(day), self.draw.randrange(10)
        match form:
            case 0:
                return None
            case 1:
                return When(f"({self.word()})", None)
            case 2:
                return When(f"AFT {spelt}", None)
            case 3:
                return When(f"BEF {spelt}", day - 1)
            case 4:
                return When(self.word(), None)
            case 5 | 6:
                return When(f"INT {spelt} ({self.word()})", day)
            case 7:
                return When(f"BET {spelling(day - 700)} AND {spelt}", day)
        return When(spelt, day)

    def add(self, record) -> int:
        self.made[len(self.made) + 1] = record
        return len(self.made)

    def citations(self, owner: int) -> None:
        for _ in range(self.draw.choice((0, 0, 1, 2))):
            page, quality = self.draw.choice((None, "", self.word())), self.draw.choice((None, *"0123"))
            self.add(Citation(owner, self.draw.choice(self.sources), page, quality, self.more()))

    def events(self, owner: int, tags: tuple[str, ...], most: int) -> None:
        for _ in range(self.draw.randrange(most + 1)):
            others = self.draw.sample(self.persons, self.draw.randrange(min(3, len(self.persons))))
            event = self.add(Event(
                owner, self.draw.choice(tags), self.text(), self.when(), self.draw.choice((None, *self.places)),
                tuple((person, self.text()) for person in others), self.more(),
            ))
            self.citations(event)

    def family(self) -> None:
        members = self.draw.sample(self.persons, self.draw.randrange(min(6, len(self.persons)) + 1))
        split = self.draw.randrange(min(3, len(members)) + 1)
        partners = tuple((self.draw.choice(("husband", "wife")), who) for who in members[:split])
        family = self.add(Family(partners, tuple(members[split:]), self.more()))
        self.events(family, FAMILY_TAGS, 2)
        self.citations(family)

    def entry(self, item: int) -> None:
        kind = self.draw.choice(tuple(ROLES))
        mentions = []
        for _ in range(self.draw.randrange(1, 4)):
            person = self.draw.choice((None, None, *self.persons))
            reason = "" if person is None else self.word()
            mentions.append(Mention(self.text(0.9), self.draw.choice(ROLES[kind]), person, reason))
        place = self.draw.choice((None, *self.places))
        source = self.draw.choice(self.sources)
        when = self.when(rules.CLOSED_FOR[kind])
        self.add(Entry(source, kind, self.word(), item, when, place, self.word(), tuple(mentions)))

    def all_records(self) -> dict:
        above = self.add(Place(self.word(), None, self.more()))
        self.places = [above, self.add(Place(self.word(), above, self.more()))]
        repo = self.add(Repo(self.word(), self.more()))
        self.sources = [
            self.add(Source(title, self.word(), self.word(), repo, self.word(), self.more()))
            for title in (self.word(), self.draw.choice((None, "", self.word())))
        ]
        self.persons = []
        names = [self.draw.choice(("{} /{}/", "/{}/ {}", "{} {}")) for _ in range(self.draw.randrange(2, 9))]
        for one in names:
            said = tuple(one.format(self.word(), self.word()) for _ in range(self.draw.choice((0, 1, 1, 1, 2))))
            self.persons.append(self.add(Person(said, self.draw.choice((None, *"MFU")), self.more())))
        for person in list(self.persons):
            self.events(person, PERSON_TAGS, 3)
            self.citations(person)
        for _ in range(self.draw.randrange(5)):
            self.family()
        for item in range(1, self.draw.randrange(1, 6)):
            self.entry(item)
        for _ in range(self.draw.randrange(3)):
            self.add(Other(self.draw.choice(("NOTE", "OBJE", "_X")), self.word(), self.more()))
        return self.made


def date_of(day: int) -> datetime.date:
    return DAY_0 + datetime.timedelta(days=day)


def spelling(day: int) -> str:
    """The date of a day, as GEDCOM spells it."""
    date = date_of(day)
    return f"{date.day} {MONTHS[date.month - 1]} {date.year}"


def numbered_anew(record, new: dict):
    """A record in which each number of another is a new one."""
    put = lambda number: None if number is None else new[number]  # noqa: E731
    match record:
        case Place():
            return record._replace(parent=put(record.parent))
        case Source():
            return record._replace(repo=put(record.repo))
        case Family():
            partners = tuple((word, put(who)) for word, who in record.partners)
            return record._replace(partners=partners, children=tuple(map(put, record.children)))
        case Event():
            others = tuple((put(who), role) for who, role in record.participants)
            return record._replace(owner=put(record.owner), place=put(record.place), participants=others)
        case Citation():
            return record._replace(owner=put(record.owner), source=put(record.source))
        case Entry():
            mentions = tuple(one._replace(person=put(one.person)) for one in record.mentions)
            return record._replace(source=put(record.source), place=put(record.place), mentions=mentions)
    return record


def archive(seed: int, number: int = 0, words: int = 0) -> Archive:
    """The archive of that number, whose first word comes after so many others."""
    one = Drawing(f"{seed} {number}", words)
    file = File(one.all_records())
    first = [number for number, record in file.records.items() if isinstance(record, (Place, Repo, Source))]
    rest = [number for number, record in file.records.items() if isinstance(record, (Person, Family, Entry, Other))]
    one.draw.shuffle(rest)
    for number in (*first, *rest):
        file.record(number)
    new = {old: place for place, old in enumerate(file.numbered, 1)}
    records = {new[old]: numbered_anew(record, new) for old, record in file.records.items()}
    return Archive(f"0 HEAD\n{file.text()}0 TRLR\n".encode(), dict(sorted(records.items())))
