"""Each sheet of an archive of which all is shown, by `tests/sheets/rules.py`."""

from __future__ import annotations

from shown import modules_of
from shown.records import Citation, Entry, Event, Family, Person, Place, Source

plain, rules = modules_of("sheets")


def printable(record):
    """A record as the rules of sheets know it, or None where no sheet shows it."""
    if isinstance(record, Place):
        return plain.Place(record.name, record.parent)
    if isinstance(record, Source):
        return plain.Source(record.title)
    if isinstance(record, Person):
        return plain.Person(record.names, record.sex)
    if isinstance(record, Family):
        return plain.Family(record.partners, record.children)
    if isinstance(record, Event):
        date = record.when.text if record.when else None
        return plain.Event(record.owner, record.tag, record.value, date, record.place, record.participants)
    if isinstance(record, Citation):
        return plain.Citation(record.owner, record.source, record.page, record.quality)
    if isinstance(record, Entry):
        date = record.when.text if record.when else None
        mentions = tuple(plain.Mention(*mention) for mention in record.mentions)
        return plain.Entry(record.source, record.kind, record.page, record.item, date, mentions)
    return None


# A number whose record no sheet shows is there all the same: 51, and not 50.
class NoSheet:
    pass


class Sheets:
    """The sheets of shown records by their numbers."""

    def __init__(self, shown: dict):
        self.rules = rules.Sheets({number: printable(record) or NoSheet() for number, record in shown.items()})

    def of(self, kind: str, number: int, generations: int = 4) -> str:
        """A sheet, or the line of its refusal."""
        match kind:
            case "person":
                return self.rules.sheet(plain.Person, number, self.rules.person)
            case "family":
                return self.rules.sheet(plain.Family, number, self.rules.family)
            case "register":
                return self.rules.sheet(plain.Source, number, self.rules.register)
        up = lambda subject, _: self.rules.pedigree(subject, generations)  # noqa: E731
        return self.rules.sheet(plain.Person, number, up)

    def index(self) -> str:
        return self.rules.index()

    def surname(self, name: str) -> str:
        return self.rules.page(name)
