"""Small archives, drawn: families, events around the days at which a rule turns, entries, citations."""

from __future__ import annotations

import random

from plain import Citation, Entry, Event, Family, Other, Person, Place, Repo, Source, When, spelt
from rules import CLOSED_FOR, LONG_AGO

TODAY = 19_723  # 2024-01-01
PERSON_TAGS = ("BIRT", "DEAT", "BURI", "CREM", "OCCU", "RESI")
FAMILY_TAGS = ("MARR", "ENGA", "DIV")
ROLES = {"BAPTISM": ("child", "godparent"), "MARRIAGE": ("groom", "witness"), "BURIAL": ("buried", "spouse")}


def when(draw: random.Random) -> When | None:
    """A date whose last day is near a day at which some rule turns, or one without a last day."""
    day = TODAY - draw.choice((LONG_AGO, *CLOSED_FOR.values())) + draw.choice((-400, -1, 0, 1, 400))
    form = draw.randrange(9)
    if form == 0:
        return None
    if form == 1:
        return When(f"BEF {spelt(day + 1)}", day)
    if form == 2:
        return When(f"AFT {spelt(day - 9000)}", None)
    if form == 3:
        return When(f"BET {spelt(day - 700)} AND {spelt(day)}", day)
    if form == 4:
        return When(draw.choice(("(long ago)", "in harvest", f"FROM {spelt(day - 900)}")), None)
    if form == 5:
        return When(f"TO {spelt(day)}", day)
    return When(spelt(day), day)


def is_so(draw: random.Random) -> bool:
    return draw.random() < 0.3


def archive(seed: int) -> dict:
    """The records of an archive by their numbers, which have gaps."""
    draw = random.Random(seed)
    numbers = iter(sorted(draw.sample(range(1, 60), 40)))
    made: dict = {}

    def add(record) -> int:
        number = next(numbers)
        made[number] = record
        return number

    place = add(Place("Ashby", None, is_so(draw)))
    repo = add(Repo("Office", is_so(draw)))
    source = add(Source("Register", ((repo, is_so(draw)),), is_so(draw)))
    persons = [
        add(Person(((f"N{k} /Lee/", is_so(draw)),), draw.choice(("M", "F", None)), is_so(draw)))
        for k in range(draw.randrange(2, 8))
    ]
    families = []
    for _ in range(draw.randrange(0, 4)):
        members = draw.sample(persons, draw.randrange(1, min(5, len(persons) + 1)))
        split = draw.randrange(0, min(3, len(members) + 1))
        partners = tuple((("husband", "wife")[k % 2], who, is_so(draw)) for k, who in enumerate(members[:split]))
        families.append(add(Family(partners, tuple((who, is_so(draw)) for who in members[split:]), is_so(draw))))
    events = []
    for _ in range(draw.randrange(0, 7)):
        owner = draw.choice([*persons, *families])
        tag = draw.choice(FAMILY_TAGS if owner in families else PERSON_TAGS)
        others = tuple(
            (draw.choice(("", "witness")), who, is_so(draw)) for who in draw.sample(persons, draw.randrange(0, 3))
        )
        events.append(add(Event(owner, tag, when(draw), draw.choice((None, place)), others, is_so(draw))))
    for _ in range(draw.randrange(0, 4)):
        owner = draw.choice([*persons, *families, *events])
        add(Citation(owner, source, draw.choice((None, "f. 1")), is_so(draw)))
    for item in range(1, draw.randrange(1, 5)):
        kind = draw.choice(tuple(ROLES))
        mentions = tuple(
            (draw.choice(ROLES[kind]), "Name", draw.choice([None, *persons])) for _ in range(draw.randrange(1, 4))
        )
        add(Entry(source, kind, item, when(draw), mentions))
    if is_so(draw):
        add(Other("NOTE"))
    return made
