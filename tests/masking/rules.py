"""What is shown, slowly and plainly, by docs/LIVING.md: the second opinion on archives that are drawn."""

from __future__ import annotations

from plain import Citation, Entry, Event, Family, Other, Person, Place, Repo, Source

LONG_AGO = 40_178
CLOSED_FOR = {"BAPTISM": 36_525, "MARRIAGE": 27_394, "BURIAL": 10_958}
ENDS = ("DEAT", "BURI", "CREM")


def is_over(when, day: int) -> bool:
    return when is not None and when.last is not None and when.last <= day


def is_dead(archive: dict, person: int, today: int) -> bool:
    families = [
        number
        for number, record in archive.items()
        if isinstance(record, Family) and person in [partner for _, partner, _ in record.partners]
    ]
    for record in archive.values():
        if isinstance(record, Event):
            if record.owner == person and record.tag in ENDS:
                return True
            if record.owner in [person, *families] and is_over(record.when, today - LONG_AGO):
                return True
        elif isinstance(record, Entry) and ("buried", person) in [(role, who) for role, _, who in record.mentions]:
            return True
    return False


def shown(archive: dict, today: int) -> dict:
    alive = {
        number
        for number, record in archive.items()
        if isinstance(record, Person) and not is_dead(archive, number, today)
    }
    silent = alive | {
        number
        for number, record in archive.items()
        if isinstance(record, Family) and any(partner in alive for _, partner, _ in record.partners)
    }
    gone = {n for n, record in archive.items() if isinstance(record, Event) and record.owner in silent}
    masked = {}
    for number, record in archive.items():
        if isinstance(record, Person):
            masked[number] = (
                Person((("Living", False),))
                if number in alive
                else Person(tuple((name, False) for name, _ in record.names), record.sex)
            )
        elif isinstance(record, Family):
            masked[number] = Family(
                tuple((word, partner, False) for word, partner, _ in record.partners),
                tuple((child, False) for child, _ in record.children),
            )
        elif isinstance(record, Event):
            if number not in gone:
                others = tuple((role, who, False) for role, who, _ in record.participants if who not in alive)
                masked[number] = record._replace(participants=others, extra=False)
        elif isinstance(record, Citation):
            if record.owner not in silent | gone:
                masked[number] = record._replace(extra=False)
        elif isinstance(record, Entry):
            if is_over(record.when, today - CLOSED_FOR[record.kind]):
                if not any(who in alive for _, _, who in record.mentions):
                    masked[number] = record
        elif isinstance(record, Source):
            masked[number] = Source(record.title, tuple((repo, False) for repo, _ in record.repos))
        elif isinstance(record, (Place, Repo)):
            masked[number] = record._replace(extra=False)
        else:
            assert isinstance(record, Other)
    return masked
