"""Small files of lines, drawn, and archives with places: python3 tests/batches/drawn.py SEED writes a file.

A file is about one subject, so that its lines meet: members of a few families, places and their paths, register entries
that are nearly ones, others that point to each other, fields of all kinds, or lines of any tag anywhere. The same seed
gives the same file.
"""

from __future__ import annotations

import random
import re
import sys

from plain import Person, Place, Source

# dates as they are written in a file, and their canonical spelling: docs/FORMATS.md, "Dates"
DATES = {
    "11 FEB 1731/32": "11 FEB 1731/32",
    "abt 1731/32": "ABT 1731/32",
    "1731/33": "1731/33",
    "@#djulian@ 2 sep 1752": "@#DJULIAN@ 2 SEP 1752",
    "bet 1700 and 1701": "BET 1700 AND 1701",
    "BET 1 MAR 1700 AND 1 JAN 1700": "BET 1 MAR 1700 AND 1 JAN 1700",
    "  INT 1700 (about (or so))": "INT 1700 (about (or so))",
    "in harvest": "in harvest",
    "": "",
}
ROLES = {
    "BAPTISM": ("child", "father", "mother", "godparent"),
    "MARRIAGE": ("groom", "bride", "father-of-groom", "father-of-bride", "witness"),
    "BURIAL": ("buried", "spouse", "father", "mother"),
}
NO_ROLES = ("", "Child", "witness", "mother-of-bride")
ITEMS = ("1", "1", "2", "2", "999999", "1000000", "0", "01", "+1", "1 ")
PARTS = ("Ashby", "Kent", "Mill Field", "", " Ross ", "two\nlines")
TEXTS = ("f. 3", "two\nlines", "j@x", "@I1@ and more", "", " x ", "a long text " * 20, "@N9@ ")
TAGS = ("NOTE", "NAME", "SEX", "BIRT", "MARR", "EVEN", "RESI", "TITL", "DATE", "PLAC", "_LOC", "_PART", "_ROLE", "SOUR",
        "PAGE", "QUAY", "HUSB", "CHIL", "FAMC", "FAMS", "REPO", "CALN", "AUTH", "PUBL", "TEXT", "_MENT", "_LINK",
        "INDI", "birt", "HEAD", "TRLR", "SUBM", "_REG", "_ITEM")
LAST = 4_294_967_295


class File:
    def __init__(self, draw: random.Random):
        self.draw, self.lines, self.marks = draw, [], 0
        self.pool = {letter: [f"@{letter}{n}@" for n in range(1, draw.choice((2, 3, 4)))] for letter in "IFSRP"}
        self.pool["E"] = [f"@E{n}@" for n in range(1, 7)]
        self.pool["X"] = [f"@X{n}@" for n in range(1, draw.choice((2, 4, 7)))]
        self.kind = draw.choice(list(ROLES))
        self.paths = {name: draw.choice(("Ashby", "Kent", "Kent", "Ashby, Kent", "Ross")) for name in self.pool["P"]}
        self.free = [name for names in self.pool.values() for name in names]

    def some(self, chance: float) -> bool:
        return self.draw.random() < chance

    def any_of(self, items):
        return self.draw.choice(items)

    # ---- lines

    def line(self, level: int, tag: str, value: str = "", name: str = ""):
        """A line whose value is spelt already; seldom with a name that nothing else has."""
        if level and self.some(0.03):
            self.marks += 1
            name = f"@M{self.marks}@"
        self.lines.append(" ".join([str(level), *filter(None, [name, tag])]) + (f" {value}" if value else ""))

    def text(self, level: int, tag: str, value: str, name: str = ""):
        """A line with a text, cut somewhere at times."""
        first, *more = [piece.replace("@", "@@") for piece in value.split("\n")]
        cut = self.draw.randrange(1, len(first)) if len(first) > 1 and self.some(0.1) else len(first)
        if "@" in first:
            cut = len(first)
        self.line(level, tag, first[:cut], name)
        if first[cut:]:
            self.lines.append(f"{level + 1} CONC {first[cut:]}")
        self.lines += [f"{level + 1} CONT {piece}" for piece in more]

    def pointer(self, letters: str) -> str:
        """Mostly to a record of one of these kinds, or to one of another, or to none."""
        if self.some(0.05):
            return self.any_of(("@N9@", "@M1@", "@SOCIETY@"))
        return self.any_of(self.pool[self.any_of(letters if self.some(0.9) else "IFSRPEX")])

    def value(self, level: int, tag: str, letters: str = "IFSRPEX"):
        """A line with a pointer or a text."""
        if self.some(0.5):
            self.line(level, tag, self.pointer(letters))
        else:
            self.text(level, tag, self.any_of(TEXTS))

    def stray(self, level: int):
        """A line of any tag, with lines below it, seldom down to the last level."""
        for deeper in range(level, 98 if self.some(0.003) else level):
            self.line(deeper, "NOTE")
            level = deeper + 1
        self.value(level, self.any_of(TAGS))
        while self.some(0.3) and level < 6:
            self.stray(level + 1)

    def strays(self, level: int, chance: float = 0.15):
        while self.some(chance):
            self.stray(level)

    # ---- parts

    def path(self) -> str:
        if self.some(0.02):
            return self.any_of((", ".join(map(str, range(31))), "a," * 31, "a," * 32, "é" * 2_048, "é" * 2_048 + "a",
                                "a" * 4_089, "a" * 4_090))
        if self.some(0.6):
            return self.any_of(("Ashby", "Ashby", "Kent", "Ashby, Kent"))
        comma = self.any_of((", ", ",", " , "))
        return comma.join(self.any_of(PARTS) for _ in range(self.any_of((1, 1, 2, 2, 3))))

    def place(self, level: int):
        """A line PLAC, mostly of the path of a place of the file, and lines _LOC below it."""
        self.text(level, "PLAC", self.any_of(list(self.paths.values())) if self.some(0.5) else self.path())
        for _ in range(self.any_of((0, 0, 1, 1, 2))):
            self.line(level + 1, "_LOC", self.pointer("P"))
            self.strays(level + 2, 0.1)
        self.strays(level + 1)

    def citation(self, level: int):
        self.value(level, "SOUR", "S")
        for _ in range(self.draw.randrange(3)):
            self.text(level + 1, "PAGE", self.any_of(TEXTS))
            self.line(level + 1, "QUAY", self.any_of(("0", "3", "4", "03")))
            self.strays(level + 1)

    def date(self, level: int):
        date = self.any_of(list(DATES))
        self.line(level, "DATE", date.replace("@#djulian@ ", self.any_of(("@#djulian@ ", "@@#djulian@@ "))))

    def participant(self, level: int):
        self.value(level, "_PART", "I")
        for _ in range(self.draw.randrange(3)):
            self.text(level + 1, "_ROLE", self.any_of((*ROLES["MARRIAGE"], *NO_ROLES)))
            self.strays(level + self.any_of((1, 2)))

    def event(self, level: int, tags):
        self.text(level, self.any_of(tags), self.any_of(("", "", "Y", "two\nlines")))
        for _ in range(self.draw.randrange(4)):
            self.any_of((self.date, self.place, self.place, self.participant, self.citation, self.stray))(level + 1)

    # ---- records

    def person(self, name: str):
        self.dropped("INDI", name)
        for _ in range(self.draw.randrange(7)):
            part = self.draw.randrange(6)
            if part == 0:
                self.text(1, "NAME", self.any_of(("Ann /Lee/", "", "Eva /Ray/")))
                self.strays(2)
            elif part == 1:
                self.line(1, "SEX", self.any_of(("M", "F", "U", "X", "")))
                self.strays(2, 0.2)
            elif part == 2:
                self.event(1, ("BIRT", "DEAT", "EVEN", "RESI", "TITL", "MARR"))
            elif part == 3:
                self.citation(1)
            else:
                self.side(1, ("FAMC", "FAMS"), "F")

    def side(self, level: int, tags, letters: str):
        self.line(level, self.any_of(tags), self.pointer(letters))
        self.strays(level + 1, 0.2)

    def family(self, name: str):
        self.dropped("FAM", name)
        for _ in range(self.draw.randrange(5)):
            if self.some(0.7):
                self.side(1, ("HUSB", "WIFE", "CHIL"), "I")
            else:
                self.any_of((lambda level: self.event(level, ("MARR", "EVEN", "BIRT")), self.citation, self.stray))(1)

    def source(self, name: str):
        self.dropped("SOUR", name)
        for _ in range(self.draw.randrange(4)):
            self.text(1, self.any_of(("TITL", "AUTH", "PUBL")), self.any_of(TEXTS))
            self.strays(2, 0.05)
        while self.some(0.4):
            self.line(1, "REPO", self.pointer("R"))
            for _ in range(self.draw.randrange(3)):
                self.text(2, "CALN", self.any_of(TEXTS))
            self.strays(2)

    def repo(self, name: str):
        self.dropped("REPO", name)
        for _ in range(self.draw.randrange(3)):
            self.text(1, "NAME", self.any_of(TEXTS))
            self.strays(2, 0.1)

    def location(self, name: str):
        self.dropped("_LOC", name)
        for _ in range(self.any_of((0, 1, 1, 1, 2))):
            path = self.paths.get(name, "Kent") if self.some(0.6) else self.path()
            self.text(1, "NAME", path.split(",")[0] if self.some(0.3) else path)
            self.strays(2, 0.05)
        for _ in range(self.any_of((0, 0, 1, 2))):
            self.line(1, "_LOC", self.pointer("P"))
            self.strays(2, 0.05)
        self.strays(1)

    def entry(self, name: str):
        """A register entry, and at times one line that is left out, said twice, moved, or has another value or one
        below it."""
        kept, self.lines = self.lines, []
        kind = self.kind if self.some(0.6) else self.any_of(list(ROLES))
        self.line(0, "_REG", kind if self.some(0.95) else self.any_of(("baptism", "", "@I1@")), name)
        self.line(1, "SOUR", self.any_of(self.pool["S"]))
        self.text(1, "PAGE", self.any_of(("f. 3", "")))
        self.line(1, "_ITEM", self.any_of(ITEMS[:5] if self.some(0.9) else ITEMS))
        if self.some(0.3):
            self.line(1, "DATE", self.any_of(("11 FEB 1731/32", "in harvest", "abt 1731/32", "")))
        if self.some(0.3):
            name = self.any_of(self.pool["P"])
            self.text(1, "PLAC", self.paths[name] if self.some(0.8) else self.path())
            self.line(2, "_LOC", name)
        self.text(1, "TEXT", self.any_of(TEXTS))
        for _ in range(self.any_of((1, 1, 2, 3))):
            self.mention(kind)
        self.lines = kept + (self.spoilt(self.lines) if self.some(0.3) else self.lines)

    def mention(self, kind: str):
        self.text(1, "_MENT", self.any_of(("Ann Lee", "", "Tom")))
        self.line(2, "_ROLE", self.any_of(ROLES[kind] if self.some(0.95) else NO_ROLES))
        if self.some(0.3):
            self.line(2, "_LINK", self.any_of(self.pool["I"]))
            self.line(3, "_WHY", self.any_of(("same farm", "")))

    def spoilt(self, lines: list[str]) -> list[str]:
        """One line of them, but the first, with all below it: it is left out, said twice or put last, or has more."""
        level = self.draw.randrange(1, 4)
        heads = [k for k in range(1, len(lines)) if lines[k].startswith(f"{level} ") and " CON" not in lines[k]]
        if not heads:
            return lines
        at = self.any_of(heads)
        end = next((k for k in range(at + 1, len(lines)) if int(lines[k].split()[0]) <= level), len(lines))
        part, rest = lines[at:end], lines[:at] + lines[end:]
        last = int(part[-1].split()[0])
        more = f"{level + 1} {self.any_of(TAGS[:6])} {self.any_of(('@N9@', 'x'))}"
        again = [re.sub(" @M[0-9]+@ ", " ", line, count=1) for line in part]
        return self.any_of((rest, lines[:end] + again + lines[end:], rest + part if last == level else rest,
                            lines[:end] + [more] + lines[end:]))

    def other(self, name: str):
        tag = self.any_of(("NOTE", "SUBM", "OBJE", "HEAD", "_X", "BIRT"))
        named = self.pointer("X" if self.some(0.8) else "IFSRPEX")
        if self.some(0.6):
            self.line(0, tag, named, name)
        else:
            self.text(0, tag, self.any_of(TEXTS), name)
        self.strays(1, 0.3)

    def dropped(self, tag: str, name: str):
        """The first line of a record, with a value that is not wanted at times."""
        if self.some(0.05):
            self.line(0, tag, self.pointer("IX"), name)
        else:
            self.text(0, tag, self.any_of(TEXTS) if self.some(0.1) else "", name)

    # ---- files

    def whole(self) -> str:
        writers = {"I": self.person, "F": self.family, "S": self.source, "R": self.repo, "P": self.location,
                   "E": self.entry, "X": self.other}
        subject = self.any_of(("IF", "IF", "IP", "PI", "ES", "ES", "ESPI", "X", "IS", "SR", "IFSRPEX"))
        self.line(0, "HEAD")
        self.lines += self.any_of(([], ["1 CHAR UTF-8"], ["0 @SOCIETY@ SUBM", "1 NAME @I1@"], ["0 @U@ SUBM"],
                                   ["0 @SOCIETY@ NOTE"]))
        names = [name for name in self.free if name[1] in subject or self.some(0.1)]
        self.draw.shuffle(names)
        size = self.draw.randrange(10, 60)
        for name in names:
            if len(self.lines) < size:
                writers[name[1]](name if self.some(0.97) else "")
        self.lines.append(self.any_of(("0 TRLR", "0 @T@ TRLR x")))
        return self.spelt()

    def spelt(self) -> str:
        """The lines, seldom with other line ends, blank lines or a byte order mark."""
        end = self.any_of(("\n",) * 8 + ("\r\n", "\n \n"))
        return ("\ufeff" if self.some(0.05) else "") + end.join(self.lines) + (end if self.some(0.9) else "")


def text(seed) -> str:
    return File(random.Random(f"file {seed}")).whole()


def archive(seed) -> tuple[dict, int]:
    """The records of an archive by their numbers, places mostly, and its next number; each second is empty."""
    draw = random.Random(f"archive {seed}")
    made: dict = {}
    for number in sorted(draw.sample(range(1, 30), draw.choice((0, 0, 0, 3, 5, 8)))):
        above = draw.choice([None, *(it for it in made if isinstance(made[it], Place))])
        name = draw.choice(("Ashby", "Kent", "Mill Field", "", "Ashby, Kent", "Ross"))
        made[number] = Place(name, above) if draw.random() < 0.8 else draw.choice((Person(), Source("Register")))
    after = max(made, default=0) + draw.choice((1, 1, 7))
    return made, after if draw.random() < 0.93 else LAST - draw.randrange(15)


if __name__ == "__main__":
    sys.stdout.write(text(sys.argv[1]))
