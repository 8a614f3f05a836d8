"""What an import makes of a file: a second reading of docs/FORMATS.md, "What becomes of each line of a file", slow and
plain. Records are looked for in lists."""

from __future__ import annotations

import forest
from filed import (
    EVENTS, WORDS, File, Refused, bare, first, in_form, is_citation, is_event, is_member, is_side, names, normal, spelt,
)
from plain import (
    Carried, Citation, Entry, Event, Family, Holding, Member, Mention, Name, Other, Participant, Person, Place, Repo,
    Source, lines,
)
from rows import kept

LAST = 4_294_967_295


class Made:
    """The records that a file makes of an archive whose next number is `after`."""

    def __init__(self, file: File, archive: dict, after: int):
        self.file, self.archive, self.next = file, archive, after
        self.records: dict = {}
        self.by_path: dict[str, int] = {}
        self.parents: list[tuple[int, str, object]] = []
        for root in file.roots:
            self.number(root)
        if self.next > LAST + 1:
            raise Refused("63 Full")
        for number, name, above in self.parents:
            self.records[number] = Place(name, number_of(above))
        for root in file.roots:
            self.records[root.number] = self.record(root)

    # ---- numbers

    def draw(self) -> int:
        self.next += 1
        return self.next - 1

    def number(self, root):
        root.number = self.draw()
        for line in root.below if root.tag in EVENTS else ():
            if is_event(root, line):
                line.number = self.draw()
                line.placed = first(line.below, in_form)
                for one in line.below:
                    if one is line.placed:
                        self.place(one)
                    elif is_citation(one):
                        one.number = self.draw()
            elif is_citation(line):
                line.number = self.draw()

    def place(self, line):
        path = normal(line.value)
        named = [it for it in line.below if it.tag == "_LOC" and not it.below and names(it, "_LOC")]
        line.loc = first(named, lambda it: it.to.path == path)
        line.found = line.loc.to if line.loc else self.found(path, self.file.places, line)

    def found(self, path: str, places, line):
        """The place of a path: a number, or a node of the file, of these; or a new number."""
        stored = [number for number in self.archive if path_in(self.archive, number) == path]
        if stored:
            return min(stored)
        for place in places:
            if place.path == path:
                return place
        if path not in self.by_path:
            name, comma, rest = path.partition(", ")
            before = [place for place in self.file.places if place.line < line.line]
            above = self.found(rest, before, line) if comma else None
            self.by_path[path] = self.draw()
            self.parents.append((self.by_path[path], name, above))
        return self.by_path[path]

    # ---- records

    def record(self, root):
        if root.entry:
            return self.entry(root)
        made = {"INDI": self.person, "FAM": self.family, "SOUR": self.source, "REPO": self.repo, "_LOC": self.place_of}
        if root.tag in made:
            return made[root.tag](root)
        return Other(root.tag, value_of(root), carried(root.below))

    def place_of(self, root):
        above = root.above.to.number if root.above else None
        return Place(root.place, above, but(root, [root.named, root.above]))

    def repo(self, root):
        name = one_of(root, "NAME")
        return Repo(text_of(name), but(root, [name]))

    def source(self, root):
        texts = [one_of(root, tag) for tag in ("TITL", "AUTH", "PUBL")]
        repos = [it for it in root.below if it.tag == "REPO" and names(it, "REPO")]
        holdings = []
        for repo in repos:
            call = one_of(repo, "CALN")
            holdings.append(Holding(repo.to.number, text_of(call), but(repo, [call])))
        return Source(*map(text_of, texts), tuple(holdings), but(root, [*texts, *repos]))

    def below(self, owner):
        """The lines that become events and citations of a record, each with what it makes."""
        found = [it for it in owner.below if hasattr(it, "number")]
        for line in found:
            self.records[line.number] = self.citation(owner, line) if line.tag == "SOUR" else self.event(owner, line)
        return found

    def person(self, root):
        texts = [it for it in root.below if it.tag == "NAME" and not it.to]
        sex = first(root.below, lambda it: it.tag == "SEX" and bare(it) and it.value in ("M", "F", "U"))
        sides = [it for it in root.below if is_side(it)]
        named = tuple(Name(it.value, carried(it.below)) for it in texts)
        return Person(named, text_of(sex), but(root, [*texts, sex, *sides, *self.below(root)]))

    def family(self, root):
        members = [
            Member(WORDS[tag], person.number, carried(ours), carried(theirs or ()))
            for person, (tag, ours, theirs) in root.members.items()
        ]
        partners = tuple(it for it in members if it.word != "child")
        children = tuple(it for it in members if it.word == "child")
        lines_of = [it for it in root.below if is_member(it)]
        return Family(partners, children, but(root, [*lines_of, *self.below(root)]))

    def event(self, owner, line):
        date = one_of(line, "DATE")
        placed = line.placed
        parts = [it for it in line.below if it.tag == "_PART" and names(it, "INDI")]
        return Event(
            owner.number, line.tag, line.value, spelt(date.value) if date else None,
            number_of(placed.found) if placed else None, but(placed, [placed.loc]) if placed else (),
            tuple(map(participant, parts)), but(line, [date, placed, *parts, *self.below(line)]),
        )

    @staticmethod
    def citation(owner, line):
        page = one_of(line, "PAGE")
        quality = first(line.below, lambda it: it.tag == "QUAY" and bare(it) and it.value in ("0", "1", "2", "3"))
        more = but(line, [page, quality])
        return Citation(owner.number, line.to.number, text_of(page), text_of(quality), more)

    @staticmethod
    def entry(root):
        source, page, item, date, place, text, mentions = root.entry
        mentioned = tuple(Mention(role, name, number_of(person), why) for role, name, person, why in mentions)
        at = place.below[0].to.number if place else None
        return Entry(
            source.to.number, root.value, page.value, int(item.value), text.value, mentioned, text_of(date), at
        )


def path_in(archive: dict, number: int) -> str | None:
    """The path of a place of the archive."""
    if not isinstance(archive[number], Place):
        return None
    name, parent, _ = archive[number]
    return name if parent is None else f"{name}, {path_in(archive, parent)}"


def number_of(found):
    """The number of a node, or the number itself."""
    return found.number if isinstance(found, forest.Node) else found


def value_of(node):
    return node.to.number if node.to else node.value


def carried(nodes) -> tuple[Carried, ...]:
    return tuple(Carried(node.tag, value_of(node), carried(node.below)) for node in nodes)


def but(node, taken) -> tuple[Carried, ...]:
    """What is carried below a node: all but the lines that are taken."""
    return carried(it for it in node.below if it not in taken)


def one_of(node, tag: str):
    return first(node.below, lambda it: it.tag == tag and bare(it))


def text_of(node) -> str | None:
    return node.value if node else None


def participant(line):
    role = first(line.below, lambda it: it.tag == "_ROLE" and bare(it) and it.value)
    return Participant(line.to.number, role.value if role else "", but(line, [role]))


def answer(text: str, archive: dict, after: int) -> str:
    """What is answered where the file of this text is imported."""
    try:
        file = File(text)
        made = Made(file, archive, after)
    except Refused as refused:
        return f"{refused}\n"
    records = "".join(f"record {number}\n{kept(lines(record))}" for number, record in sorted(made.records.items()))
    said = "".join(f"line {line}: {word}\n" for line, word in sorted(file.said))
    return f"next {made.next}\n{records}{said}"
