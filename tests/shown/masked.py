"""What is shown of an archive on a day: `tests/masking/rules.py` decides it of records in which the texts have no part,
and here the texts are put back."""

from __future__ import annotations

from shown import modules_of
from shown.records import Citation, Entry, Event, Family, Other, Person, Place, Repo, Source

plain, rules = modules_of("masking")


def judged(record):
    """A record as the rules know it."""
    when = None
    if isinstance(record, (Event, Entry)) and record.when:
        when = plain.When(*record.when)
    if isinstance(record, Place):
        return plain.Place(record.name, record.parent)
    if isinstance(record, Repo):
        return plain.Repo(record.name)
    if isinstance(record, Source):
        return plain.Source("", ((record.repo, False),))
    if isinstance(record, Person):
        return plain.Person(tuple((name, False) for name in record.names), record.sex)
    if isinstance(record, Family):
        partners = tuple((word, person, False) for word, person in record.partners)
        return plain.Family(partners, tuple((child, False) for child in record.children))
    if isinstance(record, Event):
        others = tuple((role, person, False) for person, role in record.participants)
        return plain.Event(record.owner, record.tag, when, record.place, others)
    if isinstance(record, Citation):
        return plain.Citation(record.owner, record.source, record.page)
    if isinstance(record, Entry):
        mentions = tuple((one.role, one.name, one.person) for one in record.mentions)
        return plain.Entry(record.source, record.kind, record.item, when, mentions)
    assert isinstance(record, Other)
    return plain.Other(record.tag)


def shown(archive: dict, today: int) -> dict:
    """The records that are shown, by their numbers: without the lines that no field takes."""
    masked = rules.shown({number: judged(record) for number, record in archive.items()}, today)
    out = {}
    for number, kept in sorted(masked.items()):
        record = archive[number]
        if isinstance(record, Person):
            out[number] = Person(tuple(name for name, _ in kept.names), kept.sex)
        elif isinstance(record, Event):
            others = tuple((person, role) for role, person, _ in kept.participants)
            out[number] = record._replace(participants=others, more=())
        elif isinstance(record, Entry):
            out[number] = record
        else:
            out[number] = record._replace(more=())
    return out
