"""Pages of HTML by their definitions (crates/html_pages/specs, crates/html_lists/specs), slowly: of archives of which
all is shown as it is."""

from __future__ import annotations

import pathlib
import sys
import urllib.parse

sys.path.append(str(pathlib.Path(__file__).resolve().parents[1] / "searches"))

import keys  # noqa: E402
from plain import Citation, Entry, Event, Family, Person, Source  # noqa: E402
from rules import Sheets, displayed, printed, surname  # noqa: E402

SOCIETY = "Kent & \"Sons'\" <Society>"
MARKS = {"&": "&amp;", "<": "&lt;", ">": "&gt;", '"': "&quot;", "'": "&#39;"}
NO_PAGE = "no page\n"
EACH = 50
LAST = "\U0010ffff"  # comes after all letters


def text(words: str) -> str:
    """Words in a page. No text of a drawn archive has a character that is shown as a space."""
    return "".join(MARKS.get(c, c) for c in words)


def element(name: str, inside: str) -> str:
    return f"<{name}>{inside}</{name}>"


def item(*inside: str) -> str:
    return element("li", "".join(inside))


def link(path: str, words: str) -> str:
    return f'<a href="{text(path)}">{text(words)}</a>'


def section(heading: str, items: list[str]) -> str:
    return element("section", element("h2", text(heading)) + element("ul", "".join(items))) if items else ""


def brackets(words: str) -> str:
    return f" ({printed(words)})" if words else ""


def framed(title: str, main: str) -> str:
    head = (
        '<meta charset="utf-8"><meta name="viewport" content="width=device-width, initial-scale=1">'
        + element("title", text(title) + " - " + text(SOCIETY))
        + '<link rel="stylesheet" href="/style.css">'
    )
    body = element("nav", link("/", SOCIETY)) + element("main", main)
    return f'<!DOCTYPE html>\n<html lang="en">{element("head", head)}{element("body", body)}</html>\n'


def form(words: str) -> str:
    field = f'<input type="search" name="q" aria-label="Words of names" value="{text(words)}">'
    return f'<form action="/search" role="search">{field}<button>Search</button></form>'


def note(words: str) -> str:
    return f'<p class="note">{text(words)}</p>'


class Pages:
    """The pages of the records of an archive by their numbers."""

    def __init__(self, records: dict):
        self.sheets = Sheets(records)
        self.records = self.sheets.records

    # ---- links and items
    def person_link(self, number: int) -> str:
        return link(f"/person/{number}", self.sheets.display(number))

    def title(self, source: int) -> str:
        title = self.records[source].title
        return "?" if title is None else printed(title)

    def citations(self, owner: int) -> list[str]:
        own = self.sheets.owned(Citation, owner)
        lines = self.sheets.citations("Source", owner)
        return [item(link(f"/register/{one.source}", line + "\n")) for (_, one), line in zip(own, lines)]

    def events(self, owner: int) -> list[str]:
        out = []
        for number, event in self.sheets.owned(Event, owner):
            parts = [part for part in (event.value, event.date or "", self.sheets.path(event.place)) if part]
            line = event.tag + (": " + "; ".join(map(printed, parts)) if parts else "") + "\n"
            others = [item(self.person_link(who), text(brackets(role))) for who, role in event.participants]
            out.append(item(text(line), element("ul", "".join(others + self.citations(number)))))
        return out

    def partners(self, family: Family) -> list[str]:
        return [item(word.capitalize(), ": ", self.person_link(who)) for word, who in family.partners]

    def children(self, family: Family) -> list[str]:
        return [item("Child: ", self.person_link(who)) for who in family.children]

    def families(self, numbers: list[int]) -> list[str]:
        out = []
        for number in numbers:
            family = self.records[number]
            members = "".join(self.partners(family) + self.children(family))
            out.append(item(link(f"/family/{number}", f"Family {number}"), element("ul", members)))
        return out

    def entry_words(self, entry: Entry) -> str:
        date = "" if entry.date is None else f", {printed(entry.date)}"
        return f"Page {printed(entry.page)}, no. {entry.item}: {entry.kind}{date}"

    def entry_link(self, entry: Entry) -> str:
        return item(link(f"/register/{entry.source}", self.entry_words(entry)))

    # ---- pages of one record
    def person(self, number: int, person: Person) -> str:
        families = self.sheets.of(Family)
        child_in = [at for at, family in families if number in family.children]
        partner_in = [at for at, family in families if number in [who for _, who in family.partners]]
        naming = [entry for _, entry in self.sheets.of(Entry) if number in [x.person for x in entry.mentions]]
        sex = f"Sex: {person.sex}\n" if person.sex else ""
        return framed(self.sheets.display(number), "".join((
            element("h1", text(self.sheets.display(number))),
            note(f"Person {number}. {sex}"),
            section("Names", [item(text(displayed(name))) for name in person.names]),
            section("Events", self.events(number)),
            section("Sources", self.citations(number)),
            section("Parents and siblings", self.families(child_in)),
            section("Partners and children", self.families(partner_in)),
            section("Register entries", [self.entry_link(entry) for entry in naming]),
            element("p", link(f"/pedigree/{number}", "Pedigree")),
        )))

    def family(self, number: int, family: Family) -> str:
        return framed(f"Family {number}", "".join((
            element("h1", f"Family {number}"),
            section("Partners", self.partners(family)),
            section("Events", self.events(number)),
            section("Sources", self.citations(number)),
            section("Children", self.children(family)),
        )))

    def tree(self, generations: int, person: int | None) -> str:
        if generations == 0 or person is None:
            return ""
        birth, death = self.sheets.date("BIRT", person), self.sheets.date("DEAT", person)
        dates = ("" if birth is None else f", b. {birth}") + ("" if death is None else f", d. {death}")
        above = "".join(
            self.tree(generations - 1, self.sheets.parent(word, person)) for word in ("husband", "wife")
        )
        box = link(f"/person/{person}", self.sheets.display(person) + dates)
        return item(box, element("ul", above) if above else "")

    def pedigree(self, number: int, generations: int) -> str:
        shown = self.sheets.display(number)
        return framed(shown, f'{element("h1", text(shown))}<ul class="tree">{self.tree(generations, number)}</ul>')

    # ---- pages of lists
    def listed(self, address: str, page: int, items: list[str]) -> str | None:
        """A page of a list, with the ways to the pages before and after; None where there is no such page."""
        last = max(1, -(-len(items) // EACH))
        if not 1 <= page <= last:
            return None
        ways = [link(f"{address}page={page - 1}", "Previous page")] if page > 1 else []
        ways += [link(f"{address}page={page + 1}", "Next page")] if page < last else []
        shown = items[EACH * (page - 1) : EACH * page]
        return element("ul", "".join(shown)) + f'<p class="pages">Page {page} of {last}. {" ".join(ways)}</p>'

    def register_entry(self, entry: Entry) -> str:
        mentions = []
        for x in entry.mentions:
            name = text(x.name) if x.person is None else link(f"/person/{x.person}", x.name)
            mentions.append(item(f"{x.role}: ", name, "" if x.person is None else text(brackets(x.reason))))
        words = '<p class="text">as it stands there</p>'
        return item(text(self.entry_words(entry)), words, element("ul", "".join(mentions)))

    def register(self, number: int, page: int) -> str | None:
        entries = [entry for _, entry in self.sheets.of(Entry) if entry.source == number]
        listed = self.listed(f"/register/{number}?", page, [self.register_entry(entry) for entry in entries])
        if listed is None:
            return None
        title = self.title(number)
        head = element("h1", text(title)) + note(f"Register {number}. Entries: {len(entries)}")
        return framed(title, head + listed)

    @staticmethod
    def surnames_of(person: Person) -> list[str]:
        """Those of the names of a person; one that is empty where there is no name."""
        return [surname(name) for name in person.names] or [""]

    def called(self, of: str) -> list[int]:
        return [
            number
            for number, person in self.sheets.of(Person)
            if of.casefold() in (name.casefold() for name in self.surnames_of(person))
        ]

    @staticmethod
    def surname_address(of: str) -> str:
        return f"/surname?{urllib.parse.urlencode({'name': of})}"

    def surname(self, of: str, page: int) -> str | None:
        called = self.called(of)
        listed = self.listed(f"{self.surname_address(of)}&", page, [item(self.person_link(n)) for n in called])
        if listed is None:
            return None
        return framed(of or "?", element("h1", text(of or "?")) + note(f"Persons: {len(called)}") + listed)

    def surnames(self) -> list[str]:
        """A list for each letter: the first of the search keys of its surnames; the last one of those without a key."""
        written = {}
        for _, person in self.sheets.of(Person):
            for of in self.surnames_of(person):
                letter = (keys.words(of) or [LAST])[0][0]
                written[letter, of.casefold()] = of
        lists = {}
        for (letter, _), of in sorted(written.items()):
            shown = item(link(self.surname_address(of), of or "?"), f": {len(self.called(of))}")
            lists.setdefault(letter, []).append(shown)
        return [
            item("?" if letter == LAST else letter.upper() if letter.isascii() else letter, element("ul", "".join(own)))
            for letter, own in lists.items()
        ]

    def found(self, asked: str) -> list[str]:
        wanted = keys.words(asked)

        def named(names: list[str], of_person: bool) -> bool:
            found_by = [keys.beginnings(name, of_person) for name in names]
            return any(all(any(key.startswith(word) for key in own) for word in wanted) for own in found_by)

        if not wanted:
            return []
        persons = [item(self.person_link(n)) for n, x in self.sheets.of(Person) if named(list(x.names), True)]
        sources = [
            item(link(f"/register/{number}", self.title(number)))
            for number, source in self.sheets.of(Source)
            if source.title is not None and named([source.title], False)
        ]
        entries = [self.entry_link(x) for _, x in self.sheets.of(Entry) if named([y.name for y in x.mentions], True)]
        return persons + sources + entries

    def search(self, asked: str, page: int) -> str | None:
        items = self.found(asked)
        listed = self.listed(f"/search?{urllib.parse.urlencode({'q': asked})}&", page, items)
        if listed is None:
            return None
        return framed("Search", element("h1", "Search") + form(asked) + note(f"Found: {len(items)}") + listed)

    def home(self) -> str:
        counts = [len(self.sheets.of(kind)) for kind in (Person, Family, Source)]
        named = zip(("Persons", "Families", "Registers"), counts)
        registers = [item(link(f"/register/{n}", self.title(n))) for n, _ in self.sheets.of(Source)]
        return framed("Reading room", "".join((
            element("h1", text(SOCIETY)),
            form(""),
            element("ul", "".join(item(f"{name}: {count}") for name, count in named)),
            section("Registers", registers),
            section("Surnames", self.surnames()),
        )))

    # ---- what is answered
    def page(self, kind: str, of, page: int) -> str:
        """A page, or that there is none."""
        if kind == "home":
            return self.home()
        if kind in ("surname", "search"):
            return getattr(self, kind)(of, page) or NO_PAGE
        record = self.records.get(of)
        if kind == "person" and isinstance(record, Person):
            return self.person(of, record)
        if kind == "family" and isinstance(record, Family):
            return self.family(of, record)
        if kind == "pedigree" and isinstance(record, Person):
            return self.pedigree(of, page)
        if kind == "register" and isinstance(record, Source):
            return self.register(of, page) or NO_PAGE
        return NO_PAGE
