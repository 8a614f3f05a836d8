"""Small archives, drawn, of which all is shown as it is: everybody is buried, and each entry is long open."""

from __future__ import annotations

import random

from plain import Citation, Entry, Event, Family, Mention, Person, Place, Source

TEXTS = ("", "a", "a long text; with, marks", "two\nlines", "tab\there", "\nx\n", "Straße")
NAMES = ("Ann /Lee/", "Tom /LEE/ sen.", "/Ray/", "", "  ", "A\nB /STRASSE/", "x /Straße/ y", "/lee", "Bob", "/")
DATES = (None, "1 JAN 1900", "1 JAN 1850", "BET 1 JAN 1800 AND 1 FEB 1801", "(long\nago)", "AFT 1700", "ABT 1913")
OLD_DATES = ("1 JAN 1800", "BEF 1750", "ABT 1813", "BET 1 JAN 1800 AND 1 FEB 1801")
ROLES = {"BAPTISM": ("child", "father", "godparent"), "MARRIAGE": ("groom", "bride"), "BURIAL": ("buried", "spouse")}


class Drawing:
    def __init__(self, seed: int):
        self.draw = random.Random(seed)
        self.numbers = iter(sorted(self.draw.sample(range(1, 120), 100)))
        self.made: dict = {}

    def add(self, record) -> int:
        number = next(self.numbers)
        self.made[number] = record
        return number

    def some(self, most: int, items: list) -> list:
        return self.draw.sample(items, self.draw.randrange(min(most, len(items)) + 1))

    def family(self, persons: list[int]) -> int:
        members = self.some(6, persons)
        split = self.draw.randrange(min(3, len(members)) + 1)
        partners = tuple((self.draw.choice(("husband", "wife")), who) for who in members[:split])
        return self.add(Family(partners, tuple(members[split:])))

    def event(self, owner: int, tags: tuple[str, ...], places: list[int], persons: list[int]) -> int:
        choice = self.draw.choice
        others = tuple((who, choice(TEXTS)) for who in self.some(2, persons))
        place = choice((None, *places))
        return self.add(Event(owner, choice(tags), choice(TEXTS), choice(DATES), place, others))

    def entry(self, sources: list[int], persons: list[int], item: int) -> None:
        choice = self.draw.choice
        kind = choice(tuple(ROLES))
        mentions = tuple(
            Mention(choice(TEXTS[1:]), choice(ROLES[kind]), choice((None, *persons)), choice(TEXTS[1:]))
            for _ in range(self.draw.randrange(1, 4))
        )
        self.add(Entry(choice(sources), kind, choice(TEXTS), item, choice(OLD_DATES), mentions))


def archive(seed: int) -> dict:
    """The records of an archive by their numbers, which have gaps."""
    one = Drawing(seed)
    draw = one.draw
    ashby = one.add(Place("Ashby"))
    places = [ashby, one.add(Place("High Street", ashby)), one.add(Place("Kent\nEast"))]
    sources = [one.add(Source(draw.choice((None, *TEXTS)))) for _ in range(2)]
    persons = [
        one.add(Person(tuple(draw.choices(NAMES, k=draw.randrange(4))), draw.choice((None, "M", "F", "U"))))
        for _ in range(draw.randrange(1, 9))
    ]
    families = [one.family(persons) for _ in range(draw.randrange(6))]
    events = [one.event(who, ("BIRT", "DEAT", "OCCU"), places, persons) for who in draw.choices(persons, k=8)]
    events += [one.event(at, ("MARR", "DIV"), places, persons) for at in one.some(4, families)]
    for who in persons:
        one.add(Event(who, "BURI"))
    for owner in draw.choices([*persons, *families, *events], k=draw.randrange(12)):
        quality = draw.choice((None, "0", "1", "2", "3"))
        one.add(Citation(owner, draw.choice(sources), draw.choice((None, *TEXTS)), quality))
    for item in draw.sample((1, 2, 77, 1234, 999_999), draw.randrange(5)):
        one.entry(sources, persons, item)
    return one.made
