"""A file as a program of today writes it, drawn: families over some generations with what societies record of them,
within the grammar of GEDCOM 5.5.1 and with some tags of the program's own."""

from __future__ import annotations

import random

GIVEN = {"M": "Thomas John William Søren Jürgen Étienne Ivan".split(),
         "F": "Eva Ann Mary Zoë Grete Łucja Anna".split()}
SURNAMES = "Lee Ray Hill Kay Sørensen Müller Lefèvre O'Neil Сидоров".split()
PLACES = ("Ashby, Kent, England", "Mill Field, Ashby, Kent, England", "Ross", "Århus, Danmark",
          "Tours, Touraine, France")
MONTHS = "JAN FEB MAR APR MAY JUN JUL AUG SEP OCT NOV DEC".split()
NOTES = (
    "He held Mill Field of the manor.",
    "His brother wrote to him from London until 1771; the letters are lost, but for the one that his widow gave to the "
    "school of Ashby, where it hung until the fire. A copy in the hand of the curate is with the family. " * 2,
    "Two lines:\nthe second, ann@@ashby.example",
)
PERSON_EVENTS = ("BIRT", "BAPM", "CHR", "DEAT", "BURI", "CENS", "EMIG", "RESI", "WILL")
ATTRIBUTES = {"OCCU": "yeoman", "EDUC": "Latin school", "RELI": "Anglican", "TITL": "Dr.", "PROP": "12 acres"}


def pieces(text: str) -> list[str]:
    """A text in pieces, cut within words, as the standard asks."""
    found = []
    while len(text) > 180:
        cut = next(k for k in range(180, 0, -1) if " " not in text[k - 1 : k + 1])
        found.append(text[:cut])
        text = text[cut:]
    return [*found, text]


class File:
    def __init__(self, seed: int, persons: int):
        self.draw = random.Random(seed)
        self.lines = ["0 HEAD", "1 SOUR Kinfolk", "2 VERS 9.1", "2 NAME Kinfolk for Societies", "1 DATE 26 NOV 2026",
                      "1 SUBM @U1@", "1 GEDC", "2 VERS 5.5.1", "2 FORM LINEAGE-LINKED", "1 CHAR UTF-8",
                      "0 @U1@ SUBM", "1 NAME Ann Lee"]
        self.sexes = [self.draw.choice("MF") for _ in range(persons)]
        self.families: list[tuple[list[int], list[int]]] = []
        self.pair()

    def some(self, chance: float) -> bool:
        return self.draw.random() < chance

    def pair(self) -> None:
        """Families of persons side by side, with children among the later ones."""
        free = list(range(len(self.sexes)))
        for man in free:
            if self.sexes[man] == "M":
                near = (one for one in free if self.sexes[one] == "F" and abs(one - man) < 9 and self.some(0.5))
                woman = next(near, None)
                if woman is not None:
                    free.remove(woman)
                    later = range(man + 12, min(man + 40, len(self.sexes)))
                    taken = {child for _, children in self.families for child in children}
                    left = [one for one in later if one not in taken]
                    children = self.draw.sample(left, min(len(left), self.draw.randrange(5)))
                    self.families.append(([man, woman], children))

    def line(self, level: int, tag: str, value: str = "") -> None:
        """A line; a text of several lines, or a long one, is continued."""
        first, *more = value.split("\n")
        for number, text in enumerate((first, *more)):
            for part, piece in enumerate(pieces(text)):
                words = (level, tag) if number + part == 0 else (level + 1, "CONT" if part == 0 else "CONC")
                self.lines.append(f"{words[0]} {words[1]} {piece}" if piece else f"{words[0]} {words[1]}")

    def day(self, year: int) -> str:
        return f"{self.draw.randrange(1, 29)} {self.draw.choice(MONTHS)} {year}"

    def date(self, year: int) -> str:
        day = self.day(year)
        return self.draw.choice((day, day, day, str(year), f"ABT {year}", f"BEF {day}", f"AFT {year}", f"EST {year}",
                                 f"BET {year} AND {year + 3}", f"FROM {year} TO {year + 5}", f"INT {day} (Easter)",
                                 "(in the frost)", f"@#DJULIAN@ {day}/{(year + 1) % 100:02}", f"CAL {year}",
                                 f"@#DFRENCH R@ 12 VEND {year % 9 + 1}", f"{day[:-4]} {year}".split(" ", 1)[1]))

    def note(self, level: int) -> None:
        self.line(level, "NOTE", self.draw.choice((*NOTES, "@N1@", "@N2@")))

    def citation(self, level: int) -> None:
        self.line(level, "SOUR", f"@S{self.draw.randrange(1, 6)}@")
        self.line(level + 1, "PAGE", f"f. {self.draw.randrange(1, 300)}, no. {self.draw.randrange(1, 30)}")
        if self.some(0.4):
            self.line(level + 1, "DATA")
            self.line(level + 2, "DATE", self.day(1750))
            text = f"{self.draw.choice(SURNAMES)}, of this parish, {self.draw.randrange(9_999)}"
            self.line(level + 2, "TEXT", text)
        if self.some(0.5):
            self.line(level + 1, "QUAY", self.draw.choice("0123"))
        if self.some(0.2):
            self.note(level + 1)

    def event(self, tag: str, year: int, value: str = "") -> None:
        self.line(1, tag, value)
        if tag == "EVEN" or self.some(0.1):
            self.line(2, "TYPE", f"{self.draw.choice(('Move', 'Manumission', 'Lease'))} {self.draw.randrange(99)}")
        if self.some(0.8):
            self.line(2, "DATE", self.date(year))
        if self.some(0.7):
            self.line(2, "PLAC", self.draw.choice(PLACES))
            if self.some(0.2):
                self.lines += ["3 MAP", "4 LATI N51.2", "4 LONG E0.9"]
        if tag == "DEAT" and self.some(0.3):
            self.line(2, "CAUS", "fever")
        for chance, add in ((0.5, self.citation), (0.2, self.note)):
            if self.some(chance):
                add(2)

    def person(self, one: int) -> None:
        sex, year = self.sexes[one], 1650 + one
        given, surname = self.draw.choice(GIVEN[sex]), self.draw.choice(SURNAMES)
        self.lines.append(f"0 @I{one + 1}@ INDI")
        self.line(1, "NAME", f"{given} {one} /{surname}/")
        self.lines += [f"2 GIVN {given} {one}", f"2 SURN {surname}"]
        if self.some(0.2):
            self.line(1, "NAME", f"{given} {one} /{self.draw.choice(SURNAMES)}/")
            self.line(2, "TYPE", self.draw.choice(("aka", "married", "immigrant")))
        self.line(1, "SEX", sex)
        for tag in PERSON_EVENTS:
            if self.some(0.35):
                self.event(tag, year + PERSON_EVENTS.index(tag) * 8)
        for tag, value in ATTRIBUTES.items():
            if self.some(0.15):
                self.event(tag, year + 30, value)
        if self.some(0.15):
            self.event("EVEN", year + 40)
        for number, (partners, children) in enumerate(self.families, 1):
            if one in children:
                self.line(1, "FAMC", f"@F{number}@")
                if self.some(0.1):
                    self.line(2, "PEDI", "adopted")
            if one in partners:
                self.line(1, "FAMS", f"@F{number}@")
        for chance, add in ((0.3, self.citation), (0.3, self.note)):
            if self.some(chance):
                add(1)
        if self.some(0.1):
            self.lines += [f"1 ASSO @I{self.draw.randrange(len(self.sexes)) + 1}@", "2 RELA Godfather"]
        if self.some(0.2):
            self.lines += [f"1 REFN L-{one}", f"1 _UID {one:032X}"]

    def text(self) -> bytes:
        for one in range(len(self.sexes)):
            self.person(one)
        for number, (partners, children) in enumerate(self.families, 1):
            self.lines.append(f"0 @F{number}@ FAM")
            for one in partners:
                self.line(1, "HUSB" if self.sexes[one] == "M" else "WIFE", f"@I{one + 1}@")
            self.event("MARR", 1675 + partners[0])
            if self.some(0.1):
                self.event("DIV", 1690 + partners[0])
            for one in children:
                self.line(1, "CHIL", f"@I{one + 1}@")
            if self.some(0.2):
                self.note(1)
        for number in range(1, 6):
            self.lines += [f"0 @S{number}@ SOUR", f"1 TITL Register {number} of Ashby", "1 AUTH The rectors",
                           "1 PUBL Ashby", "1 REPO @R1@", f"2 CALN PR {number}"]
        self.lines += ["0 @R1@ REPO", "1 NAME County Record Office", "1 ADDR High Street", "2 CONT Maidstone",
                       "0 @N1@ NOTE The entry is hard to read.", "1 CONT The clerk's hand is small.",
                       "0 @N2@ NOTE Copied in 1870.", "0 TRLR", ""]
        return "\n".join(self.lines).encode()


def drawn(seed: int, persons: int = 150) -> bytes:
    return File(seed, persons).text()
