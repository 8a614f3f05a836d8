"""Files of families by a seeded generator: python3 tests/lineages.py SEED NUMBER writes the file of that number.

Persons, families, sources, repositories, places, register entries and other records, as other programs write them: with
both sides of memberships or one, lines whose pointers name nothing, lines said twice, values where none belongs, events
with dates, places and sources, and lines of tags that nobody knows. The same seed and number give the same file.
"""

from __future__ import annotations

import random
import sys

PERSON_EVENTS = ["BIRT", "CHR", "DEAT", "BURI", "OCCU", "RESI", "EVEN", "TITL"]
FAMILY_EVENTS = ["MARR", "DIV", "MARB", "EVEN"]
DATES = ["1 JAN 1700", "abt 1731/32", "@#DJULIAN@ 2 sep 1752", "BET 1 MAR 1700 AND 1701", "(in the frost)", "1700 ?",
         ""]
NAMES = ["Ann /Lee/", "John /Smith/", "Eva /Ray/", "Tom", "", "Jōn //", "Ann", "/Lee/"]
PLACES = ["Ashby", "Ashby, Kent", "Mill Field,Ashby , Kent", "Kent", " , Kent", ",", "Ross", "Ashby,"]
WORDS = ["f. 3", "a long text " * 30, "two\nlines", "j@x", "@I1@ and more", "", " x "]
KINDS = {"BAPTISM": ["child", "father", "godparent"], "MARRIAGE": ["groom", "bride", "witness"],
         "BURIAL": ["buried", "spouse", "child"]}
UNKNOWN = ["_FSFTID", "CHAN", "RIN", "OBJE", "ASSO", "_UID", "ADDR"]


class File:
    def __init__(self, rng):
        self.rng, self.lines = rng, []
        self.names = {kind: [f"@{kind}{n}@" for n in range(1, rng.choice([1, 2, 3, 6]) + 1)] for kind in "IFSRPEX"}

    def some(self, chance):
        return self.rng.random() < chance

    def line(self, level, tag, value="", name=""):
        """A line, with a text of several lines continued. A single `@` is doubled, but in what looks like a pointer."""
        first, *more = value.split("\n")
        whole = [first[k : k + 150] for k in range(0, max(len(first), 1), 150)]
        self.lines.append(" ".join(filter(None, [str(level), name, tag])) + (" " + whole[0] if whole[0] else ""))
        self.lines += [f"{level + 1} CONC {part}" for part in whole[1:]]
        self.lines += [f"{level + 1} CONT {part}" if part else f"{level + 1} CONT" for part in more]

    def text(self):
        return self.rng.choice(WORDS).replace("@", "@@")

    def pointer(self, kinds):
        """Mostly to a record of one of these kinds, or to any, or to none."""
        kind = self.rng.choice(kinds) if self.some(0.85) else self.rng.choice("IFSRPEX")
        return self.rng.choice(self.names[kind]) if self.some(0.93) else self.rng.choice(["@N9@", "@Z@"])

    def unknown(self, level, depth=0):
        value = self.pointer("IFSRPEX") if self.some(0.3) else self.text()
        self.line(level, self.rng.choice([*UNKNOWN, "NOTE", "SEX", "DATE", "PLAC", "HUSB", "FAMC"]), value)
        while self.some(0.25) and depth < 4:
            self.unknown(level + 1, depth + 1)

    def citation(self, level):
        self.line(level, "SOUR", self.pointer("S") if self.some(0.85) else self.text())
        if self.some(0.6):
            self.line(level + 1, "PAGE", self.text())
        if self.some(0.4):
            self.line(level + 1, "QUAY", self.rng.choice("012345"))
        if self.some(0.2):
            self.unknown(level + 1)

    def place(self, level):
        self.line(level, "PLAC", self.rng.choice(PLACES))
        for _ in range(self.rng.choice([0, 0, 0, 1, 2])):
            self.line(level + 1, "_LOC", self.pointer("P"))
        if self.some(0.2):
            self.line(level + 1, "MAP")
            self.line(level + 2, "LATI", "N51.2")

    def event(self, level, tags):
        self.line(level, self.rng.choice(tags), self.rng.choice(["", "", "Y", "miller"]))
        for part in self.rng.sample(["date", "place", "part", "source", "other"], self.rng.randrange(5)):
            match part:
                case "date":
                    self.line(level + 1, "DATE", self.rng.choice(DATES))
                case "place":
                    self.place(level + 1)
                case "part":
                    self.line(level + 1, "_PART", self.pointer("I"))
                    if self.some(0.6):
                        self.line(level + 2, "_ROLE", self.rng.choice(["witness", "", "godparent"]))
                case "source":
                    self.citation(level + 1)
                case _:
                    self.unknown(level + 1)

    def dropped(self):
        """What stands after the tag of a record, where mostly nothing does."""
        return self.text() if self.some(0.1) else ""

    def person(self, name):
        self.line(0, "INDI", self.dropped(), name)
        for _ in range(self.rng.choice([0, 1, 1, 2])):
            self.line(1, "NAME", self.rng.choice(NAMES))
            if self.some(0.2):
                self.line(2, "GIVN", "Ann")
        parts = ["sex", "event", "event", "famc", "fams", "source", "other"]
        for part in self.rng.choices(parts, k=self.rng.randrange(8)):
            match part:
                case "sex":
                    self.line(1, "SEX", self.rng.choice("MFUX"))
                case "event":
                    self.event(1, PERSON_EVENTS)
                case "famc" | "fams":
                    self.line(1, part.upper(), self.pointer("F"))
                    if self.some(0.3):
                        self.line(2, "PEDI", "birth")
                case "source":
                    self.citation(1)
                case _:
                    self.unknown(1)

    def family(self, name):
        self.line(0, "FAM", self.dropped(), name)
        parts = ["HUSB", "WIFE", "CHIL", "CHIL", "event", "source", "other"]
        for part in self.rng.choices(parts, k=self.rng.randrange(8)):
            match part:
                case "event":
                    self.event(1, FAMILY_EVENTS)
                case "source":
                    self.citation(1)
                case "other":
                    self.unknown(1)
                case tag:
                    self.line(1, tag, self.pointer("I"))
                    if self.some(0.2):
                        self.line(2, "_FREL", "Natural")

    def source(self, name):
        self.line(0, "SOUR", self.dropped(), name)
        for tag in self.rng.sample(["TITL", "AUTH", "PUBL"], self.rng.randrange(4)):
            self.line(1, tag, self.text())
        if self.some(0.4):
            self.line(1, "REPO", self.pointer("R"))
            if self.some(0.6):
                self.line(2, "CALN", self.text())
        if self.some(0.2):
            self.unknown(1)

    def repo(self, name):
        self.line(0, "REPO", self.dropped(), name)
        if self.some(0.8):
            self.line(1, "NAME", self.text())
        if self.some(0.3):
            self.unknown(1)

    def location(self, name):
        self.line(0, "_LOC", self.dropped(), name)
        if self.some(0.9):
            self.line(1, "NAME", self.rng.choice(PLACES))
        if self.some(0.5):
            self.line(1, "_LOC", self.pointer("P"))

    def entry(self, name):
        """A register entry, or nearly one."""
        kind = self.rng.choice(list(KINDS))
        self.line(0, "_REG", kind if self.some(0.9) else "BIRTH", name)
        self.line(1, "SOUR", self.pointer("S"))
        self.line(1, "PAGE", self.rng.choice(["f. 1", "f. 2"]))
        self.line(1, "_ITEM", str(self.rng.choice([1, 2, 3, 999999, 1000000])))
        if self.some(0.5):
            self.line(1, "DATE", self.rng.choice(["1 JAN 1700", "1 jan 1700"]))
        if self.some(0.4):
            self.line(1, "PLAC", self.rng.choice(["Ashby", "Ashby, Kent"]))
            self.line(2, "_LOC", self.pointer("P"))
        self.line(1, "TEXT", self.text())
        for _ in range(self.rng.choice([1, 1, 2, 0])):
            self.line(1, "_MENT", self.rng.choice(["Ann Lee", ""]))
            self.line(2, "_ROLE", self.rng.choice(KINDS[kind]))
            if self.some(0.4):
                self.line(2, "_LINK", self.pointer("I"))
                self.line(3, "_WHY", "same farm")

    def other(self, name):
        value = self.pointer("IX") if self.some(0.4) else self.text()
        self.line(0, self.rng.choice(["NOTE", "SUBM", "OBJE", "HEAD", "_X"]), value, name)
        while self.some(0.4):
            self.unknown(1)

    def text_of_all(self):
        writers = {"I": self.person, "F": self.family, "S": self.source, "R": self.repo, "P": self.location,
                   "E": self.entry, "X": self.other}
        named = [(writers[kind], name) for kind, names in self.names.items() for name in names if self.some(0.9)]
        self.rng.shuffle(named)
        self.line(0, "HEAD")
        self.line(1, "CHAR", "UTF-8")
        if self.some(0.3):
            self.line(0, "SUBM", "", "@SOCIETY@")
        for write, name in named:
            write(name if self.some(0.97) else "")
        self.line(0, "TRLR")
        return "\n".join(self.lines) + "\n"


def drawn(seed: int, number: int) -> bytes:
    return File(random.Random(f"{seed} {number}")).text_of_all().encode()


if __name__ == "__main__":
    sys.stdout.buffer.write(drawn(int(sys.argv[1]), int(sys.argv[2])))
