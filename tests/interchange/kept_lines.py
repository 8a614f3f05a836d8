"""GEDCOM lines as trees, the values in them, and what of an archive's export another program should show.

A value is the number of its record in the file, the record by a name that people give it, the tags on the way, and the
text; a pointer stands for the record that it names.
"""

from __future__ import annotations

import collections
import re
from dataclasses import dataclass, field
from typing import NamedTuple

LINE = re.compile(r"\s*(\d+) (?:(@[^@]+@) )?(\w+)(?: (.*))?$", re.DOTALL)
POINTER = re.compile(r"@[^@#]+@$")


class Value(NamedTuple):
    owner: str
    label: str
    path: str
    text: str


@dataclass
class Node:
    name: str
    tag: str
    value: str
    below: list[Node] = field(default_factory=list)

    def all(self, tag: str) -> list[Node]:
        return [one for one in self.below if one.tag == tag]

    def text(self, tag: str) -> str:
        return next((one.value for one in self.below if one.tag == tag), "")


def normal(text: str) -> str:
    """A text as it is compared: neither the case of letters nor the blanks around commas or in a row count."""
    return " ".join(re.sub(r"\s*,\s*", ", ", text.replace("@@", "@")).casefold().split())


def records_of(text: str) -> dict[str, Node]:
    """The records of a file by their names, those without one by their place."""
    found: dict[str, Node] = {}
    above: list[Node] = []
    for line in text.removeprefix("\ufeff").split("\n"):
        got = LINE.match(line.rstrip("\r"))
        if not got:
            continue
        level, name, tag, value = int(got[1]), got[2] or "", got[3], got[4] or ""
        if tag in ("CONC", "CONT") and 0 < level <= len(above):
            above[level - 1].value += ("\n" if tag == "CONT" else "") + value
            continue
        node = Node(name.strip("@"), tag, value)
        if level == 0:
            found[node.name or f"line {len(found)}"] = node
        elif level <= len(above):
            above[level - 1].below.append(node)
        else:
            continue
        above[level:] = [node]
    return found


class Records:
    """The records of a file, or of what a program says that it keeps of one."""

    def __init__(self, text: str):
        self.all = records_of(text)

    def named(self, pointer: str) -> Node | None:
        return self.all.get(pointer.strip("@")) if POINTER.match(pointer) else None

    def label(self, node: Node) -> str:
        match node.tag:
            case "INDI":
                return "person " + node.text("NAME")
            case "FAM":
                partners = [self.named(one.value) for one in node.below if one.tag in ("HUSB", "WIFE")]
                return "family " + ", ".join(dict.fromkeys(one.text("NAME") for one in partners if one))
            case "SOUR":
                return "source " + node.text("TITL")
            case "REPO":
                return "repository " + node.text("NAME")
        return f"{node.tag} {node.value or node.text('NAME') or node.text('FILE')}"

    def values(self) -> list[Value]:
        found = []

        def below(node: Node, path: str) -> None:
            for one in node.below:
                named = self.named(one.value)
                here = f"{path} {one.tag}"
                found.append(Value(name, label, here, self.label(named) if named else one.value))
                below(one, here)

        for name, node in self.all.items():
            if node.tag not in ("HEAD", "TRLR"):
                label = self.label(node)
                if node.value:
                    found.append(Value(name, label, node.tag, node.value))
                below(node, node.tag)
        return found

    def families(self, person: str) -> list[str]:
        """The families where a person is a partner."""
        return [one.value.strip("@") for one in self.all[person].all("FAMS") if self.named(one.value)]

    def citations(self, owner: str) -> list[tuple[str, list[str]]]:
        """What is cited in a record and its events: page and texts."""
        found, looked = [], [self.all[owner]]
        while looked:
            node = looked.pop()
            looked += node.below
            if node.tag == "SOUR" and node is not self.all[owner]:
                texts = [one.value for data in node.all("DATA") for one in data.all("TEXT")]
                found.append((node.text("PAGE"), texts + [one.value for one in node.all("NOTE")]))
        return found

    def cited(self) -> dict[str, list[tuple[str, list[str]]]]:
        """What is cited for each person, in the families where a partner too."""
        return {
            name: [one for owner in (name, *self.families(name)) for one in self.citations(owner)]
            for name, node in self.all.items() if node.tag == "INDI"
        }


# ---- what an archive's export of today says


class Said(NamedTuple):
    """A text of an archive, its kind, and the records of which one at least should have it."""

    kind: str
    owners: frozenset[str]
    text: str


class Mention(NamedTuple):
    """A linked mention: the person, the page as a plain export writes it, and the text of the entry."""

    person: str
    page: str
    text: str


KINDS = {"INDI": "persons", "FAM": "families", "SOUR": "sources", "REPO": "repositories"}


class Archive:
    """An archive by its export of today, with `_LOC`, `_REG`, `_MENT` and `_PART`."""

    def __init__(self, text: str):
        self.records = Records(text)
        self.said: list[Said] = []
        self.mentions: list[Mention] = []
        for name, node in self.records.all.items():
            if node.tag in KINDS:
                self.record(KINDS[node.tag], frozenset({name}), node)
            elif node.tag == "_REG":
                self.entry(node)

    def say(self, kind: str, owners: frozenset[str], text: str) -> None:
        if normal(text):
            self.said.append(Said(kind, owners, text))

    def record(self, kind: str, owners: frozenset[str], node: Node) -> None:
        for one in node.below:
            if one.tag == "_PART":
                named = self.records.named(one.value)
                self.say("participants", owners, named.text("NAME").replace("/", "") if named else "")
                self.say("participants", owners, one.text("_ROLE"))
            elif one.tag == "SOUR" and self.records.named(one.value):
                self.say(kind, owners, self.records.named(one.value).text("TITL"))
                self.record(kind, owners, one)
            elif one.tag != "_LOC":
                self.say(kind, owners, "" if self.records.named(one.value) else one.value)
                self.record(kind, owners, one)

    def entry(self, node: Node) -> None:
        page, item = node.text("PAGE"), node.text("_ITEM")
        whole = f"{page}, no. {item}" if page else f"no. {item}"
        texts = [whole, node.text("DATE"), node.text("TEXT")]
        linked, names = [], []
        for one in node.all("_MENT"):
            role = one.text("_ROLE")
            if links := one.all("_LINK"):
                person = links[0].value.strip("@")
                owners = frozenset({person, *self.records.families(person)})
                linked += owners
                self.mentions.append(Mention(person, whole, node.text("TEXT")))
                for text in (*texts, f"{role} {one.value}", links[0].text("_WHY")):
                    self.say("linked mentions", owners, text)
            else:
                names.append(f"{role} {one.value}")
        owners = frozenset(linked) or frozenset({node.text("SOUR").strip("@")})
        for text in names if linked else (*texts, node.text("PLAC"), *names):
            self.say("names without a link" if linked else "entries without a link", owners, text)


def holds(texts: str, said: Said) -> bool:
    """Whether a record has a text; of a name, each of its words."""
    if re.fullmatch(r"[^/]*/[^/]*/[^/]*", said.text):
        return all(word in texts for word in normal(said.text.replace("/", " ")).split())
    return normal(said.text) in texts


def kept(straight: list[Value], other: list[Value]) -> tuple[int, list[Value]]:
    """How many values of one list another has too, at the same record and path, whole or in a longer text; and those
    that it has not."""
    left: dict[tuple[str, str], list[str]] = collections.defaultdict(list)
    for one in other:
        left[normal(one.label), one.path].append(normal(one.text))
    rest, lost = [], []
    for one in straight:
        found, text = left[normal(one.label), one.path], normal(one.text)
        found.remove(text) if text in found else rest.append(one)
    for one in rest:
        found, text = left[normal(one.label), one.path], normal(one.text)
        longer = next((it for it in found if text in it), None)
        lost.append(one) if longer is None else found.remove(longer)
    return len(straight) - len(lost), lost
