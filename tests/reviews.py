"""`review` by the executable: what is doubtful in an archive, by kind of doubt and number. What is expected is what
docs/FORMATS.md says of drawn archives, read a second time in plain Python."""

from __future__ import annotations

import random

from harness import Case, Tools, demand, expect, refused, run, written
from lists import Listed
from table.making import between

KINDS = ("words", "nameless", "nobody", "missed", "older", "outside", "twice")
# Dates, whether they are words only, and the first and the last day that they may mean, written by hand.
DATES = {
    "": (False, None, None),
    "1761": (False, (1761, 1, 1), (1761, 12, 31)),
    "6 MAY 1761": (False, (1761, 5, 6), (1761, 5, 6)),
    "7 MAY 1761": (False, (1761, 5, 7), (1761, 5, 7)),
    "FEB 1764": (False, (1764, 2, 1), (1764, 2, 29)),
    "1 MAR 1764": (False, (1764, 3, 1), (1764, 3, 1)),
    "ABT 1740": (False, (1740, 1, 1), (1740, 12, 31)),
    "BET 1740 AND 1761": (False, (1740, 1, 1), (1761, 12, 31)),
    "BEF 1761": (False, None, (1760, 12, 31)),
    "AFT 1761": (False, (1762, 1, 1), None),
    "FROM 1761": (False, (1761, 1, 1), None),
    "TO 1761": (False, None, (1761, 12, 31)),
    "INT 1761 (harvest)": (False, (1761, 1, 1), (1761, 12, 31)),
    "(at harvest)": (True, None, None),
    "6 mai 1761": (True, None, None),
    "in harvest": (True, None, None),
    "32 MAY 1761": (True, None, None),
}
ROLE = "godparent"
NAMES = ("Ann /Lee/", "Ann", "/Lee/", "Ann //", "Tom /de la Roche/ junior", "Tom /Lee", "Ann of Ashby")
PAGES = ("f. 3", "f. 3v", "")
MENTIONED = ("Ann", "ann", "Ann Lee", "Ann  Lee", "")


def before(one, other):
    """Whether the last day of a date is before the first day of another."""
    return one is not None and other is not None and one < other


class Drawn:
    """Rows of a new archive, and the doubts of each of its records: the kind, the number and the words."""

    def __init__(self, seed):
        self.draw = random.Random(seed)
        self.rows, self.doubts, self.persons, self.next = [], [], [], 1
        self.events, self.families, self.entries = [], [], []
        self.sources = [self.add("source,Register,,,,"), self.add("source,Other,,,,")]
        for _ in range(100):
            getattr(self, self.draw.choice(("person", "family", "event", "event", "entry")))()
        self.judge_names()
        self.judge_lives()

    def add(self, fields):
        number, self.next = self.next, self.next + 1
        self.rows.append(f"r{len(self.rows)},{fields}")
        return number

    def change(self, fields):
        self.rows.append(f"r{len(self.rows)},{fields}")

    def doubt(self, kind, number, words):
        self.doubts.append((KINDS.index(kind), number, words))

    def date(self):
        return self.draw.choice(tuple(DATES))

    def judge_date(self, number, date):
        if DATES[date][0]:
            self.doubt("words", number, f"words: {date}")

    def person(self):
        names = [self.draw.choice(NAMES) for _ in range(self.draw.choice((1, 1, 2)))]
        number = self.add(f"person,{names[0]},")
        self.persons.append(number)
        for name in names[1:]:
            self.change(f"name,{number},{name}")
        if not any(name.count("/") >= 2 and name.split("/")[1] for name in names):
            display = " ".join(names[0].replace("/", "").split())
            self.doubt("nameless", number, f"no surname: {display}")

    def family(self):
        some = self.draw.sample(self.persons, min(len(self.persons), self.draw.randint(0, 5)))
        partners, children = some[:2], some[2:]
        number = self.add(f"family,{','.join(map(str, partners))}{',' * (2 - max(1, len(partners)))}")
        for child in children:
            self.change(f"child,{number},{child}")
        self.families.append((number, partners, children))
        if not some:
            self.doubt("nobody", number, "nobody")

    def event(self):
        if self.persons:
            date = self.date()
            owner, tag = self.draw.choice(self.persons[:6]), self.draw.choice(("RESI", "BIRT", "BURI", "DEAT"))
            if self.families and self.draw.random() < 0.2:
                owner, tag = self.draw.choice(self.families)[0], "MARR"
            number = self.add(f"event,{owner},{tag},,{date},")
            self.events.append((number, owner, tag, date))
            self.judge_date(number, date)

    def entry(self):
        date, count = self.date(), self.draw.randint(1, 5)
        names = [self.draw.choice(MENTIONED) for _ in range(count)]
        source, page = self.draw.choice(self.sources), self.draw.choice(PAGES)
        mentions = "".join(f",{ROLE},{name}" for name in names)
        number = self.add(f"entry,{source},BAPTISM,{page},{self.next},{date},,Ann{mentions}")
        self.judge_date(number, date)
        linked = {}
        for mention in range(count):
            if self.persons and self.draw.random() < 0.3:
                person = self.draw.choice(self.persons[:3])
                self.change(f"link,{number},{mention + 1},{person},same farm")
                if person in linked.values():
                    self.doubt("twice", number, f"twice: {person}")
                linked[mention] = person
        self.entries.append((number, source, page, names, linked))

    def judge_names(self):
        there = {
            (source, page, names[mention]) for _, source, page, names, linked in self.entries for mention in linked
        }
        for number, source, page, names, linked in self.entries:
            for mention, name in enumerate(names):
                if name and mention not in linked and (source, page, name) in there:
                    self.doubt("missed", number, f"not linked: {name}")

    def judge_lives(self):
        born, buried = {}, {}
        for number, owner, tag, date in self.events:
            if date and tag in ("BIRT", "BURI"):
                (born if tag == "BIRT" else buried).setdefault(owner, DATES[date][1:])
        for number, partners, children in self.families:
            for child in children:
                last = born.get(child, (None, None))[1]
                if any(before(last, born.get(partner, (None, None))[0]) for partner in partners):
                    self.doubt("older", number, f"older than a parent: {child}")
        for number, owner, tag, date in self.events:
            first, last = DATES[date][1:]
            if before(last, born.get(owner, (None, None))[0]):
                self.doubt("outside", number, "before birth")
            if before(buried.get(owner, (None, None))[1], first):
                self.doubt("outside", number, "after burial")

    def lines(self):
        """By kind and number; of one record in the order in which they were found."""
        ordered = sorted(self.doubts, key=lambda it: it[:2])
        return "".join(f"{number}  {words}\n" for _, number, words in ordered)


class Reviewed(Listed):
    def review(self, **how):
        return run(self.parish, ("review", self.file), b"", **how)


def an_archive_without_doubts(tools):
    with Reviewed(tools) as at:
        expect(at.made().review(), written(b""))
        answers = at.apply(b"a,person,Ann /Lee/,\nb,family,1,\nc,event,1,BIRT,,1761,\n").out
        demand(answers.count(b",ok,") == 3, f"{answers!r}")
        expect(at.review(), written(b""))


def doubts_by_hand(tools):
    """Each kind of doubt, by kind and number; and the archive is as it was."""
    with Reviewed(tools) as at:
        before = at.with_rows((
            "a,person,Ann,F", "b,person,Tom /Lee/,M", "c,family,,", "d,event,2,BIRT,,6 mai 1761,",
            "e,event,2,DEAT,,1761,", "f,source,Register,,,,",
            "g,entry,6,BAPTISM,f. 3,1,(at harvest),,Ann,child,Ann,father,Tom,godparent,Tom",
            "h,link,7,2,2,name", "i,link,7,3,2,name", "j,person,Eva,F",
        )).tables()
        expect(at.review(), written(
            b"4  words: 6 mai 1761\n7  words: (at harvest)\n1  no surname: Ann\n8  no surname: Eva\n3  nobody\n"
            b"7  twice: 2\n"))
        demand(at.tables() == before, "the tables changed")


def mentions_to_be_linked(tools):
    """Of the very name on the very page of the source; not of another name, page or source."""
    with Reviewed(tools) as at:
        at.with_rows((
            "a,person,Ann /Lee/,F", "b,source,Register,,,,", "c,source,Other,,,,",
            "d,entry,2,BAPTISM,f. 3,1,,,text,child,Ann,mother,Ann Lee", "e,link,4,2,1,name",
            "f,entry,2,BURIAL,f. 3,2,,,text,buried,Ann Lee", "g,entry,2,BAPTISM,f. 3v,1,,,text,child,Ann Lee",
            "h,entry,3,BAPTISM,f. 3,1,,,text,child,Ann Lee", "i,entry,2,BAPTISM,f. 3,3,,,text,child,ann lee",
        ))
        expect(at.review(), written(b"5  not linked: Ann Lee\n"))


def lives(tools):
    """A child that is older than its mother, but not by the other birth; and events that are not within a life."""
    with Reviewed(tools) as at:
        at.with_rows((
            "a,person,Ann /Lee/,F", "b,person,Tom /Lee/,M", "c,person,Eva /Lee/,F", "d,family,2,1", "e,child,4,3",
            "f,event,1,BIRT,,6 MAY 1761,", "g,event,3,BIRT,,5 MAY 1761,", "h,event,3,BIRT,,1790,",
            "i,event,1,BURI,,1820,", "j,event,1,RESI,,1821,", "k,event,1,RESI,,BEF 1761,", "l,event,1,RESI,,1761,",
            "m,event,2,BIRT,,in May,",
        ))
        expect(at.review(), written(
            b"12  words: in May\n4  older than a parent: 3\n9  after burial\n10  before birth\n"))


def a_person_without_a_name(tools):
    with Reviewed(tools) as at:
        expect(at.made().import_(between("0 @I1@ INDI", "1 SEX F")), written(b"imported 1 records, first 1\n"))
        expect(at.review(), written(b"1  no name\n"))


def drawn_archives(tools):
    for seed in range(12):
        drawn = Drawn(seed)
        with Reviewed(tools) as at:
            at.with_rows(tuple(drawn.rows))
            got = at.review()
            demand(got == written(drawn.lines().encode()), f"seed {seed}: {got}\nexpected {drawn.lines()}")


def characters_that_are_not_printed(tools):
    with Reviewed(tools) as at:
        at.with_rows(('a,person,"Ann\n\u202eB.",', 'b,event,1,RESI,,"in\u2069harvest",'))
        expect(at.review(), written(b"2  words: in harvest\n1  no surname: Ann  B.\n"))


def failures(tools):
    """40 where somebody else has spoilt a record, 95 at a full device, 82 without an archive: nothing else is done."""
    with Reviewed(tools) as at:
        at.with_rows(("a,person,Ann,",))
        with open("/dev/full", "wb") as full:
            expect(at.review(stdout=full), refused(95))
        at.other_database("UPDATE line SET tag = 'frob' WHERE no = 1")
        expect(at.review(), refused(40))
        got = run(tools.parish, ("review", at.file + ".none"))
        demand(got.status == 1 and b"82 NotAnArchive" in got.err, f"{got}")
        for words in (("review",), ("review", at.file, "words"), ("review", at.file, "--limit", "1")):
            demand(run(tools.parish, words).status == 2, f"{words}")


TESTS = (
    an_archive_without_doubts,
    doubts_by_hand,
    mentions_to_be_linked,
    lives,
    a_person_without_a_name,
    drawn_archives,
    characters_that_are_not_printed,
    failures,
)


def cases(tools: Tools):
    for test in TESTS:
        yield Case(f"reviews: {test.__name__.replace('_', ' ')}", lambda test=test: test(tools))
