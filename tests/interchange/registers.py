"""Rows for an archive that has a drawn society (society.py): register entries of its persons, links to them with
reasons, and participants of its events. Some mentions are linked to nobody, and some entries have no link."""

from __future__ import annotations

import csv
import io
import random

from interchange.kept_lines import Node, Records

ENTRIES = 120
REASONS = ("the only one of that name in Ashby", "the will of 1761 names the wife", "same hand, same farm, f. 12")
OTHERS = ("Ann Hill", "Wm. Kay", "Søren Møller", "the widow O'Neil")


def written(rows) -> bytes:
    text = io.StringIO(newline="")
    csv.writer(text, lineterminator="\n").writerows(rows)
    return text.getvalue().encode()


class Registers:
    """The rows for an archive, by its export."""

    def __init__(self, export: str, seed: int):
        self.records, self.draw = Records(export), random.Random(seed)
        self.persons = {name: node for name, node in self.records.all.items() if node.tag == "INDI"}
        self.families = [node for node in self.records.all.values() if node.tag == "FAM"]
        self.sources = [name for name, node in self.records.all.items() if node.tag == "SOUR"]
        self.places = [name for name, node in self.records.all.items() if node.tag == "_LOC"]
        self.links: dict[str, list[tuple[int, str]]] = {}

    def name(self, person: str) -> str:
        return self.persons[person].text("NAME").replace("/", "")

    def partners(self, family: Node) -> list[str]:
        return [one.value.strip("@") for tag in ("HUSB", "WIFE") for one in family.all(tag)]

    def drawn(self) -> tuple[str, list[tuple[str, str | None]]]:
        """The kind of an entry, and its roles, each of a person or of nobody."""
        family, draw = self.draw.choice(self.families), self.draw
        both, kind = self.partners(family), draw.choice(("BAPTISM", "MARRIAGE", "BURIAL"))
        if kind == "MARRIAGE":
            return kind, [("groom", both[0]), ("bride", both[-1]), ("witness", draw.choice(list(self.persons))),
                          ("witness", None)]
        if kind == "BURIAL":
            return kind, [("buried", draw.choice(both)), ("spouse", draw.choice((*both, None)))]
        children = [one.value.strip("@") for one in family.all("CHIL")]
        child = draw.choice(children or list(self.persons))
        return kind, [("child", child), ("father", both[0]), ("mother", both[-1]), ("godparent", None)]

    def date(self, kind: str, roles) -> str:
        """Mostly that of an event of the person who comes first."""
        tags = {"BAPTISM": ("BAPM", "CHR"), "BURIAL": ("BURI",), "MARRIAGE": ("MARR",)}[kind]
        records = [self.persons[roles[0][1]]] + [one for one in self.families if roles[0][1] in self.partners(one)]
        dates = [one.text("DATE") for record in records for one in record.below if one.tag in tags]
        return self.draw.choice([date for date in dates if date] or ["3 APR 1757", "(torn)"])

    def entries(self) -> bytes:
        """Rows of entries, and in `links` what is linked of each by its token."""
        rows = []
        for number in range(1, ENTRIES + 1):
            kind, roles = self.drawn()
            linked = [(k, one) for k, (_, one) in enumerate(roles, 1) if one and self.draw.random() < 0.8]
            token = f"r{number}"
            said = [(role, self.name(one) if one else self.draw.choice(OTHERS)) for role, one in roles]
            self.links[token] = linked if self.draw.random() < 0.85 else []
            text = f"{kind.capitalize()} {number}: " + " and ".join(name for _, name in said)
            text += "\nin the margin: paid 6 d. " + "and so on, " * self.draw.choice((0, 0, 40))
            page = "" if number == 1 else f"f. {number // 10 + 1}"
            place = self.draw.choice((*self.places, ""))[1:]
            where = [self.sources[number % 5][1:], kind, page, number]
            mentions = [word for one in said for word in one]
            rows.append([token, "entry", *where, self.date(kind, roles), place, text, *mentions])
        return written(rows)

    def linking(self, answers: bytes) -> bytes:
        """Rows of links, by the answers to the entries; and participants of each tenth event."""
        rows = []
        for token, verdict, first, *_ in csv.reader(io.StringIO(answers.decode())):
            if verdict != "ok":
                raise ValueError(f"entry {token} is refused: {first}")
            for mention, person in self.links[token]:
                rows.append([f"{token}-{mention}", "link", first, mention, person[1:], self.draw.choice(REASONS)])
        return written(rows)

    def participants(self, events: list[str]) -> bytes:
        """Rows of participants of these events."""
        chosen = self.draw.sample(events, len(events) // 10)
        persons = list(self.persons)
        return written([[f"p{event}", "participant", event, self.draw.choice(persons)[1:],
                         self.draw.choice(("witness", "godparent", ""))] for event in chosen])
