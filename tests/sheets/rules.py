"""Sheets by the rules of docs/FORMATS.md, "Sheets", slowly: of archives of which all is shown as it is."""

from __future__ import annotations

from plain import Citation, Entry, Event, Family, Person, Source

NO_SUCH, WRONG_KIND = "50 NoSuch\n", "51 WrongKind\n"


def printed(text: str) -> str:
    return text.replace("\n", " ")


def displayed(name: str) -> str:
    return " ".join(word for word in printed(name.replace("/", "")).split(" ") if word)


def surname(name: str) -> str:
    parts = name.split("/")
    return parts[1] if len(parts) > 2 else ""


class Sheets:
    """The sheets of the records of an archive by their numbers."""

    def __init__(self, records: dict):
        self.records = dict(sorted(records.items()))

    def of(self, kind) -> list:
        return [(number, record) for number, record in self.records.items() if isinstance(record, kind)]

    def owned(self, kind, owner: int) -> list:
        return [(number, record) for number, record in self.of(kind) if record.owner == owner]

    def display(self, number: int) -> str:
        names = self.records[number].names
        return displayed(names[0]) if names else "?"

    def who(self, number: int) -> str:
        return f"{number} {self.display(number)}"

    def path(self, place: int | None) -> str:
        if place is None:
            return ""
        above = self.records[place].parent
        return self.records[place].name + ("" if above is None else ", " + self.path(above))

    def citations(self, word: str, owner: int) -> list[str]:
        out = []
        for _, record in self.owned(Citation, owner):
            page = "" if record.page is None else f", page {printed(record.page)}"
            quality = "" if record.quality is None else f", quality {record.quality}"
            out.append(f"{word} {record.source}{page}{quality}")
        return out

    def events(self, owner: int) -> list[str]:
        out = []
        for number, event in self.owned(Event, owner):
            parts = [part for part in (event.value, event.date or "", self.path(event.place)) if part]
            out.append(event.tag + (": " + "; ".join(map(printed, parts)) if parts else ""))
            for person, role in event.participants:
                out.append(f"  with {self.who(person)}" + (f" ({printed(role)})" if role else ""))
            out += self.citations("  source", number)
        return out

    def person(self, number: int, record: Person) -> list[str]:
        out = [f"Person {number}", *(f"Name: {displayed(name)}" for name in record.names)]
        out += [f"Sex: {record.sex}"] if record.sex else []
        out += self.events(number) + self.citations("Source", number)
        families = self.of(Family)
        out += [f"Child of: {at}" for at, family in families if number in family.children]
        return out + [f"Partner in: {at}" for at, family in families if number in [who for _, who in family.partners]]

    def family(self, number: int, record: Family) -> list[str]:
        out = [f"Family {number}", *(f"{word.capitalize()}: {self.who(who)}" for word, who in record.partners)]
        out += self.events(number) + self.citations("Source", number)
        return out + [f"Child: {self.who(child)}" for child in record.children]

    def register(self, number: int, record: Source) -> list[str]:
        out = [f"Register {number}: {'?' if record.title is None else printed(record.title)}"]
        for _, entry in self.of(Entry):
            if entry.source != number:
                continue
            date = "" if entry.date is None else f"  {printed(entry.date)}"
            out.append(f"{entry.item:6}  {printed(entry.page)}  {entry.kind}{date}")
            for mention in entry.mentions:
                link = "" if mention.person is None else f" = {mention.person}, {printed(mention.reason)}"
                out.append(f"        {mention.role}: {printed(mention.name)}{link}")
        return out

    def parent(self, word: str, person: int) -> int | None:
        families = [family for _, family in self.of(Family) if person in family.children]
        found = [who for has, who in families[0].partners if has == word] if families else []
        return found[0] if found else None

    def standing(self, subject: int, number: int) -> int | None:
        """Who stands at a number of a pedigree: down to the subject, and up again."""
        if number == 1:
            return subject
        child = self.standing(subject, number // 2)
        return None if child is None else self.parent("wife" if number % 2 else "husband", child)

    def date(self, tag: str, person: int) -> str | None:
        dates = [event.date for _, event in self.owned(Event, person) if event.tag == tag and event.date is not None]
        return printed(dates[0]) if dates else None

    def pedigree(self, subject: int, generations: int) -> list[str]:
        out = []
        for number in range(1, 2**generations):
            person = self.standing(subject, number)
            if person is None:
                continue
            birth, death = self.date("BIRT", person), self.date("DEAT", person)
            dates = ("" if birth is None else f", b. {birth}") + ("" if death is None else f", d. {death}")
            out.append(f"{number:4}  {self.display(person)}{dates}")
        return out

    def sheet(self, kind, number: int, of) -> str:
        """A sheet, or its refusal."""
        record = self.records.get(number)
        if record is None:
            return NO_SUCH
        return "".join(line + "\n" for line in of(number, record)) if isinstance(record, kind) else WRONG_KIND

    def page(self, surname_of: str) -> str:
        out = ""
        for number, person in self.of(Person):
            if any(surname(name).casefold() == surname_of.casefold() for name in person.names):
                out += f"{number:10}  {displayed(person.names[0])}\n"
        return out

    def index(self) -> str:
        counts = [len(self.of(kind)) for kind in (Person, Family, Source)]
        return "Persons: {}\nFamilies: {}\nRegisters: {}\n".format(*counts)
