"""Records as the text of a file, by docs/FORMATS.md, "Exports": no text here has a line end, an `@` or 200 characters,
so that none is cut."""

from __future__ import annotations

from shown.records import Citation, Entry, Event, Family, Other, Person, Place, Repo, Source

LETTERS = {Place: "P", Repo: "R", Source: "S", Person: "I", Family: "F", Entry: "E", Other: "X"}
ORDER = tuple(LETTERS)
HEADER = """0 HEAD
1 SOUR PARISH
1 SUBM @SOCIETY@
1 GEDC
2 VERS 5.5.1
2 FORM LINEAGE-LINKED
1 CHAR UTF-8
0 @SOCIETY@ SUBM
1 NAME {}
"""


class File:
    """Writes records by their numbers. `numbered` has the numbers of records, events and citations in the order of
    their lines."""

    def __init__(self, records: dict):
        self.records, self.lines, self.numbered = records, [], []
        self.owned: dict[tuple[type, int], list] = {}
        self.child_in: dict[int, list[int]] = {}
        self.partner_in: dict[int, list[int]] = {}
        for number, one in records.items():
            match one:
                case Event() | Citation():
                    self.owned.setdefault((type(one), one.owner), []).append((number, one))
                case Family():
                    for person in dict.fromkeys(one.children):
                        self.child_in.setdefault(person, []).append(number)
                    for person in dict.fromkeys(person for _, person in one.partners):
                        self.partner_in.setdefault(person, []).append(number)

    def name(self, number: int) -> str:
        return f"@{LETTERS[type(self.records[number])]}{number}@"

    def line(self, level: int, tag: str, value: object = "") -> None:
        self.lines.append(f"{level} {tag} {value}" if value != "" else f"{level} {tag}")

    def more(self, level: int, texts: tuple[str, ...]) -> None:
        for text in texts:
            self.line(level, "_MORE", text)
            self.line(level + 1, "NOTE", text)

    def path(self, place: int) -> str:
        above = self.records[place].parent
        return self.records[place].name + ("" if above is None else ", " + self.path(above))

    def dated(self, level: int, record) -> None:
        if record.when:
            self.line(level, "DATE", record.when.text)
        if record.place is not None:
            self.line(level, "PLAC", self.path(record.place))
            self.line(level + 1, "_LOC", self.name(record.place))

    def citations(self, level: int, owner: int) -> None:
        for number, one in self.owned.get((Citation, owner), ()):
            self.numbered.append(number)
            self.line(level, "SOUR", self.name(one.source))
            if one.page is not None:
                self.line(level + 1, "PAGE", one.page)
            if one.quality is not None:
                self.line(level + 1, "QUAY", one.quality)
            self.more(level + 1, one.more)

    def events(self, owner: int) -> None:
        for number, one in self.owned.get((Event, owner), ()):
            self.numbered.append(number)
            self.line(1, one.tag, one.value)
            self.dated(2, one)
            for person, role in one.participants:
                self.line(2, "_PART", self.name(person))
                if role:
                    self.line(3, "_ROLE", role)
            self.citations(2, number)
            self.more(2, one.more)

    def person(self, number: int, one: Person) -> None:
        for name in one.names:
            self.line(1, "NAME", name)
        if one.sex:
            self.line(1, "SEX", one.sex)
        self.events(number)
        for family in self.child_in.get(number, ()):
            self.line(1, "FAMC", self.name(family))
        for family in self.partner_in.get(number, ()):
            self.line(1, "FAMS", self.name(family))
        self.citations(1, number)

    def family(self, number: int, one: Family) -> None:
        for word, person in one.partners:
            self.line(1, "HUSB" if word == "husband" else "WIFE", self.name(person))
        for child in one.children:
            self.line(1, "CHIL", self.name(child))
        self.events(number)
        self.citations(1, number)

    def source(self, one: Source) -> None:
        if one.title is not None:
            self.line(1, "TITL", one.title)
        self.line(1, "AUTH", one.author)
        self.line(1, "PUBL", one.publisher)
        self.line(1, "REPO", self.name(one.repo))
        self.line(2, "CALN", one.call)

    def entry(self, one: Entry) -> None:
        self.line(1, "SOUR", self.name(one.source))
        self.line(1, "PAGE", one.page)
        self.line(1, "_ITEM", one.item)
        self.dated(1, one)
        self.line(1, "TEXT", one.text)
        for mention in one.mentions:
            self.line(1, "_MENT", mention.name)
            self.line(2, "_ROLE", mention.role)
            if mention.person is not None:
                self.line(2, "_LINK", self.name(mention.person))
                self.line(3, "_WHY", mention.reason)

    def record(self, number: int) -> None:
        """A record of level 0, with the events and citations that it owns."""
        one = self.records[number]
        self.numbered.append(number)
        head = self.name(number)
        match one:
            case Place():
                self.line(0, head, "_LOC")
                self.line(1, "NAME", one.name)
                if one.parent is not None:
                    self.line(1, "_LOC", self.name(one.parent))
            case Repo():
                self.line(0, head, "REPO")
                self.line(1, "NAME", one.name)
            case Source():
                self.line(0, head, "SOUR")
                self.source(one)
            case Person():
                self.line(0, head, "INDI")
                self.person(number, one)
            case Family():
                self.line(0, head, "FAM")
                self.family(number, one)
            case Entry():
                self.line(0, head, f"_REG {one.kind}")
                self.entry(one)
            case Other():
                self.line(0, head, f"{one.tag} {one.value}")
        if not isinstance(one, Entry):
            self.more(1, one.more)

    def text(self) -> str:
        return "".join(line + "\n" for line in self.lines)


def exported(records: dict, society: str) -> bytes:
    """The whole export of an archive."""
    file = File(dict(sorted(records.items())))
    for kind in ORDER:
        for number in file.records:
            if isinstance(file.records[number], kind):
                file.record(number)
    return (HEADER.format(society) + file.text() + "0 TRLR\n").encode()
