"""Rows of requests for a new archive, most of them accepted, by a seeded generator.

    python3 tests/requests/generate.py SEED COUNT [lasting]

`lasting`: no row removes or corrects a record or merges persons, so that each row, whenever it is given again, is
answered as before.
"""

import random
import re
import sys

from corrected import Corrections, plain
from drawn_words import (
    BACK,
    CORRECTED,
    DATES,
    DEEPEST,
    FAMILY_TAGS,
    ITEMS,
    KINDS,
    MENTIONS,
    MOST,
    NAMES,
    ODD,
    ODD_TOKENS,
    ODD_VERBS,
    OF_FIELD,
    OF_MEMBERS,
    OF_MENTION,
    PAGES,
    PARTNERSHIPS,
    PERSON_TAGS,
    PLACES,
    QUALITIES,
    REASONS,
    ROLES,
    ROLES_OF,
    SEXES,
    SHORT,
    TITLES,
    VALUES,
)
from table.making import LAST, field


class Slip:
    """What a merge changed: what was kept of each record before, and which change each has had last since; none of the
    one that is gone."""

    def __init__(self, old, new):
        self.old = old
        self.new = new
        self.is_open = True


class Rows(Corrections):
    """The rows of one archive. It keeps what stands at which number, and what each record names."""

    def __init__(self, rng, removes):
        self.rng = rng
        self.removes = removes
        self.people, self.families, self.events = [], [], []
        self.places, self.repos, self.sources, self.citations = [], [], [], []
        self.entries = []
        self.keys = {}  # source, kind, page and item of each entry
        self.links = {}  # for each mention of an entry, the person that it is linked to, or none
        self.names = {}  # the numbers that each record names
        self.members = {}  # the partners and the children of each family
        self.parties = {}  # the owner of each event, and after it the participants
        self.traits = {}  # of each person how many names, the sex, and whether a line of another one is carried
        self.calls = set()  # the sources with a call number
        self.slips = {}  # what each merge changed
        self.stamps = {}  # which change of each record was the last
        self.changed = 0
        self.next = 1
        self.given = []
        self.doubled = set()  # the fields of entries that were there already
        self.refused = {}  # the tokens of what was refused but may be accepted later, and its verb and fields
        self.is_good = True  # whether the last row that was to be accepted is

    def chance(self, share):
        return self.rng.random() < share

    def spelt(self, number):
        return f"{number:03}" if self.chance(0.05) else str(number)

    def of(self, numbers):
        return self.spelt(self.rng.choice(numbers))

    def kinds(self):
        """The numbers of each kind, by the verb that makes it."""
        return {
            "person": self.people,
            "family": self.families,
            "event": self.events,
            "place": self.places,
            "repo": self.repos,
            "source": self.sources,
            "citation": self.citations,
            "entry": self.entries,
        }

    def touch(self, number, stamp=None):
        """A record has a new value, or that of an earlier change. What may be had before has a stamp below 0."""
        self.changed += 1
        self.stamps[number] = self.changed if stamp is None else stamp

    def is_named(self, number):
        return any(number in named for one, named in self.names.items() if one != number)

    def take_out(self, number):
        del self.names[number], self.stamps[number]
        self.members.pop(number, None)
        self.parties.pop(number, None)
        self.keys.pop(number, None)
        self.links.pop(number, None)
        self.traits.pop(number, None)
        self.calls.discard(number)
        for numbers in self.kinds().values():
            if number in numbers:
                numbers.remove(number)

    def person(self):
        return [self.rng.choice(NAMES), self.rng.choice(["", *SEXES])]

    def name(self):
        return [self.of(self.people), self.rng.choice(NAMES)]

    def sex(self):
        return [self.of(self.people), self.rng.choice(SEXES)]

    def family(self):
        partners = self.rng.sample(self.people, 2) if len(self.people) > 1 else [self.people[0], ""]
        return [one if self.chance(0.7) else "" for one in partners]

    def child(self):
        return [self.of(self.families), self.of(self.people)]

    def partner(self):
        return [self.of(self.families), self.rng.choice(PARTNERSHIPS), self.of(self.people)]

    def with_member(self, which):
        """The families that have a partner (0) or a child (1)."""
        return [number for number in self.families if self.members[number][which]]

    def member(self, which):
        number = self.rng.choice(self.with_member(which))
        return [self.spelt(number), self.of(sorted(self.members[number][which]))]

    def unpartner(self):
        return self.member(0)

    def unchild(self):
        return self.member(1)

    def with_participant(self):
        return [number for number in self.events if len(self.parties[number]) > 1]

    def unparticipant(self):
        number = self.rng.choice(self.with_participant())
        return [self.spelt(number), self.spelt(self.rng.randrange(1, len(self.parties[number])))]

    def event(self):
        kinds = [(self.people, PERSON_TAGS)] + [(self.families, FAMILY_TAGS)] * bool(self.families)
        numbers, tags = self.rng.choice(kinds)
        value, date = self.rng.choice(VALUES), self.rng.choice(DATES)
        return [self.of(numbers), self.rng.choice(tags), value, date, self.place_or_none()]

    def amend(self):
        value, date = self.rng.choice(VALUES), self.rng.choice(DATES)
        return [self.of(self.events), value, date, self.place_or_none()]

    def participant(self):
        return [self.of(self.events), self.of(self.people), self.rng.choice(ROLES)]

    def depth(self, number):
        """How many places a place is within, with itself."""
        return 1 + max((self.depth(parent) for parent in self.names[number]), default=0)

    def place(self):
        above = [number for number in self.places if self.depth(number) < DEEPEST]
        return [self.rng.choice(PLACES), self.of(above) if above and self.chance(0.6) else ""]

    def place_or_none(self):
        return self.of(self.places) if self.places and self.chance(0.5) else ""

    def repo(self):
        return [self.rng.choice(TITLES)]

    def source(self):
        texts = [self.rng.choice(TITLES), self.rng.choice(SHORT), self.rng.choice(SHORT)]
        if self.repos and self.chance(0.5):
            return [*texts, self.of(self.repos), self.rng.choice(SHORT)]
        return [*texts, "", ""]

    def citation(self):
        owners = self.rng.choice([one for one in (self.people, self.families, self.events) if one])
        return [self.of(owners), self.of(self.sources), self.rng.choice(SHORT), self.rng.choice(QUALITIES)]

    def entry(self):
        """An entry that is not there yet."""
        source, kind, page = self.rng.choice(self.sources), self.rng.choice(list(ROLES_OF)), self.rng.choice(PAGES)
        item = self.rng.randrange(1, ITEMS)
        while (source, kind, page, item) in self.keys.values():
            item = self.rng.randrange(1, 1_000_000)
        return self.entry_of(source, kind, page, item)

    def entry_of(self, source, kind, page, item):
        head = [self.spelt(source), kind, page, self.spelt(item), self.rng.choice(DATES), self.place_or_none()]
        count = MOST if self.chance(0.02) else self.rng.choice(MENTIONS)
        return [*head, self.rng.choice(VALUES), *self.mentions(kind, count)]

    def mentions(self, kind, count):
        return [word for _ in range(count) for word in (self.rng.choice(ROLES_OF[kind]), self.rng.choice(NAMES))]

    def link(self):
        return [*self.unlink(), self.of(self.people), self.rng.choice(REASONS)]

    def unlink(self):
        number = self.rng.choice(self.entries)
        return [self.spelt(number), self.of(list(self.links[number]))]

    def kind_of(self, number):
        return next((kind for kind, numbers in self.kinds().items() if number in numbers), None)

    def is_clash(self, keep, gone):
        """Whether both are of one family, but not both as its children."""
        members = self.members.values()
        return any({keep, gone} <= two[0] | two[1] and not {keep, gone} <= two[1] for two in members)

    def mergeable(self):
        """Two persons that can become one, if some of those that are drawn can."""
        drawn = [self.rng.sample(self.people, 2) for _ in range(5)] if len(self.people) > 1 else []
        return next((two for two in drawn if not self.is_clash(*two)), None)

    def undoable(self):
        return [number for number, slip in self.slips.items() if slip.is_open and self.has_new(slip)]

    def has_new(self, slip):
        return all(self.stamps.get(number) == stamp for number, stamp in slip.new.items())

    def merge(self):
        return [self.spelt(number) for number in self.mergeable() or self.people[:1] * 2]

    def undo(self):
        return [self.of(self.undoable())]

    def as_is(self, number):
        """What is kept of a record."""
        links, members, parties = self.links.get(number), self.members.get(number), self.parties.get(number)
        traits = self.traits.get(number)
        return (
            self.stamps[number],
            set(self.names[number]),
            None if links is None else dict(links),
            None if members is None else tuple(set(some) for some in members),
            None if parties is None else list(parties),
            None if traits is None else list(traits),
        )

    def note_merge(self, keep, gone):
        """One person is gone, and is named no more; its slip has the next number."""
        changed = [number for number, named in self.names.items() if gone in named and number not in (keep, gone)]
        old = {number: self.as_is(number) for number in (keep, gone, *changed)}
        for number in changed:
            self.names[number] = {keep if one == gone else one for one in self.names[number]}
            if number in self.links:
                self.links[number] = {at: keep if one == gone else one for at, one in self.links[number].items()}
            if number in self.members:
                self.members[number] = tuple(
                    {keep if one == gone else one for one in some} for some in self.members[number]
                )
            if number in self.parties:
                self.parties[number] = [keep if one == gone else one for one in self.parties[number]]
        (names, sex, carries), (others, other, has_other) = self.traits[keep], self.traits[gone]
        self.traits[keep] = [names + others, sex or other, carries or has_other or "" not in (sex, other)]
        self.take_out(gone)
        for number in (keep, *changed):
            self.touch(number)
        self.slips[self.next] = Slip(old, {gone: None, **{number: self.stamps[number] for number in (keep, *changed)}})
        self.next += 1

    def note_undo(self, number):
        slip = self.slips[number]
        if not slip.is_open or not self.has_new(slip):
            return
        slip.is_open = False
        for number, (stamp, named, links, members, parties, traits) in slip.old.items():
            self.touch(number, stamp)
            self.names[number] = named
            if links is not None:
                self.links[number] = links
            if members is not None:
                self.members[number] = members
            if parties is not None:
                self.parties[number] = parties
            if traits is not None:
                self.traits[number] = traits
            if slip.new[number] is None:
                self.people.append(number)

    def remove(self):
        return [self.of([number for number in self.names if not self.is_named(number)])]

    def verbs(self):
        """The verbs for which there is what they name, those that make something more than once."""
        found = ["person"] * 3 + ["place", "repo", "source"]
        if self.people:
            found += ["family"] * 2 + ["event"] * 3 + ["name", "sex"]
        if self.families and self.people:
            found += ["child"] * 2 + ["partner"]
        if self.removes and self.with_member(0):
            found += ["unpartner"]
        if self.removes and self.with_member(1):
            found += ["unchild"]
        if self.events:
            found += ["amend"] + ["participant"] * 2 * bool(self.people)
        if self.removes and self.with_participant():
            found += ["unparticipant"]
        if self.sources and (self.people or self.families or self.events):
            found += ["citation"] * 3
        if self.sources:
            found += ["entry"] * 4
        if self.entries:
            found += ["unlink"] + ["link"] * 3 * bool(self.people)
        if self.removes and self.people and self.mergeable():
            found += ["merge"] * 2
        if self.removes and self.undoable():
            found += ["undo"] * 2
        if self.removes and not all(self.is_named(number) for number in self.names):
            found += ["remove"]
        if self.removes and any(numbers for kind, numbers in self.kinds().items() if kind in CORRECTED):
            found += ["correct"] * 4
        return found

    def note(self, verb, fields):
        """Keeps what an accepted command makes, names and removes."""
        named = {int(one) for one, kind in zip(fields, kinds_of(verb, fields)) if kind == "N" and one}
        made = self.kinds().get(verb)
        if made is not None:
            made.append(self.next)
            self.names[self.next] = named
            self.touch(self.next)
            if verb == "person":
                self.traits[self.next] = [1, fields[1], False]
            if verb == "source" and fields[4]:
                self.calls.add(self.next)
            if verb == "family":
                self.members[self.next] = (set(named), set())
            if verb == "event":
                self.parties[self.next] = [int(fields[0])]
            if verb == "entry":
                self.keys[self.next] = key_of(fields)
                self.links[self.next] = dict.fromkeys(range(1, mention_count(fields) + 1))
            self.next += 1
        elif verb == "remove":
            self.take_out(*named)
        elif verb == "merge":
            if fields[0] != fields[1]:
                self.note_merge(*map(int, fields))
        elif verb == "undo":
            self.note_undo(*named)
        else:
            self.note_change(verb, int(fields[0]), fields, named)

    def note_change(self, verb, number, fields, named):
        """Keeps what a record names after a command that changes it: another place or person goes with the new one."""
        before = self.names[number]
        self.touch(number)
        if verb in BACK:
            self.stamps[number] = -self.changed
        if verb in ("child", "partner"):
            self.members[number][verb == "child"].update(named - {number})
        if verb == "participant":
            self.parties[number].append(int(fields[1]))
        if verb == "name":
            self.traits[number][0] += 1
        if verb == "sex":
            self.traits[number][1] = fields[1]
        if verb == "correct":
            before = before - self.note_correction(number, *fields[1:])
        if verb in ("unpartner", "unchild"):
            self.members[number][verb == "unchild"].discard(int(fields[1]))
            before, named = set.union(*self.members[number]), set()
        elif verb == "unparticipant":
            gone = self.parties[number].pop(int(fields[1]))
            before, named = before - ({gone} - set(self.parties[number])), set()
        if verb in ("link", "unlink"):
            self.links[number][int(fields[1])] = int(fields[2]) if verb == "link" else None
            named = {one for one in self.links[number].values() if one is not None}
            before = before - set(self.people)
        elif verb == "amend" and fields[3]:
            before = before - set(self.places)
        self.names[number] = (before | named) - {number}

    def good(self):
        """A verb and its fields that are accepted, but for a child or a partner who is in the family already."""
        verb = self.rng.choice(self.verbs())
        fields = getattr(self, verb)()
        self.is_good = verb not in OF_MEMBERS or self.fits(verb, fields)
        if self.is_good:
            self.note(verb, fields)
        return [verb, *fields]

    def fits(self, verb, fields):
        """Whether a well-formed row on members or participants is accepted."""
        number, last = int(fields[0]), int(fields[-1])
        if verb == "unparticipant":
            return 0 < last < len(self.parties.get(number, ()))
        if number not in self.members or last not in self.people:
            return False
        partners, children = self.members[number]
        if verb in ("child", "partner"):
            return last not in partners | children
        return last in (partners if verb == "unpartner" else children)

    def odd(self):
        """A row that is refused: an unknown verb, a field more or less, one person twice, a call number alone, what is
        wrong with an entry or a mention, or a wrong field."""
        verb = self.rng.choice(self.verbs())
        fields = getattr(self, verb)()
        form = self.rng.random()
        if form < 0.08:
            return [self.rng.choice(ODD_VERBS), *fields]
        if form < 0.16:
            return [verb, *fields, self.rng.choice(["", "1"])]
        if form < 0.24:
            return [verb, *fields[:-1]]
        if verb == "family" and form < 0.5:
            return [verb, str(self.people[0]), self.of(self.people[:1])]
        if verb == "source" and form < 0.5:
            return [verb, *fields[:3], "", "MS 4"]
        if verb == "merge" and form < 0.6:
            return [verb, *self.odd_merge(fields)]
        if verb == "undo" and form < 0.7:
            return [verb, self.of(self.refused_slips() or [1000])]
        if verb == "entry" and form < 0.7:
            return [verb, *self.odd_entry(fields)]
        if verb in ("unpartner", "unchild", "unparticipant") and form < 0.5:
            return [verb, fields[0], self.no_member(verb, int(fields[0]))]
        if verb in ("link", "unlink") and form < 0.5:
            return [
                verb,
                fields[0],
                self.spelt(len(self.links[int(fields[0])]) + self.rng.choice([1, 1, 2, 9])),
                *fields[2:],
            ]
        if verb == "correct":
            return [verb, *self.odd_correction(*fields)]
        kinds = kinds_of(verb, fields)
        at = self.rng.randrange(len(fields))
        fields[at] = self.wrong(verb, kinds[at], at)
        return [verb, *fields]

    def no_member(self, verb, number):
        """A person who is not that in the family, or the place of no participant of the event."""
        if verb == "unparticipant":
            return self.spelt(len(self.parties[number]) + self.rng.choice([0, 0, 1, 9]))
        members = self.members[number][verb == "unchild"]
        return self.of([one for one in self.people if one not in members] or [1000])

    def odd_merge(self, fields):
        """One person twice, or two of one family of whom one is a partner."""
        found = [
            (a, b)
            for partners, children in self.members.values()
            for a in partners
            for b in sorted((partners | children) - {a})
        ]
        if not found or self.chance(0.3):
            return [fields[0], fields[0]]
        two = self.rng.choice(sorted(found))
        return [self.spelt(number) for number in (two if self.chance(0.5) else reversed(two))]

    def refused_slips(self):
        """Slips that were undone, or of which a record has changed for good since."""
        slips = self.slips.items()
        return [
            number
            for number, slip in slips
            if not slip.is_open or (not self.has_new(slip) and not self.may_have_new(slip))
        ]

    def may_have_new(self, slip):
        """Whether each record of a slip has its new value, or one that may be the same."""
        stamps = [(self.stamps.get(number), stamp) for number, stamp in slip.new.items() if stamp is not None]
        return all(now is not None and (now < 0 or now == stamp) for now, stamp in stamps)

    def odd_entry(self, fields):
        """One that is there already, with a role of another kind, with no mention, or with one too many."""
        form = self.rng.random()
        if self.keys and form < 0.5:
            made = self.entry_of(*self.rng.choice(list(self.keys.values())))
            self.doubled.add(tuple(made))
            return made
        if form < 0.8:
            others = [role for kind in ROLES_OF if kind != fields[1] for role in ROLES_OF[kind]]
            at = 7 + 2 * self.rng.randrange(mention_count(fields))
            fields[at] = self.rng.choice([role for role in others if role not in ROLES_OF[fields[1]]])
            return fields
        return [*fields[:7], *self.mentions(fields[1], self.rng.choice([0, MOST + 1]))]

    def wrong(self, verb, kind, at):
        """What is wrong for a field; of a number often one of another kind."""
        if kind != "N" or self.chance(0.5):
            return self.rng.choice(ODD[kind])
        if verb == "entry":
            others = self.people + self.events + self.citations + self.entries
        elif verb in ("link", "unlink") and at == 0:
            others = self.people + self.sources + self.citations
        elif verb == "event" and at == 0:
            others = self.events + self.sources + self.places
        elif verb == "place":
            others = self.people + self.events
        elif verb == "source":
            others = self.people + self.sources
        elif verb == "citation" and at == 0:
            others = self.repos + self.sources + self.citations + self.entries
        elif verb == "citation":
            others = self.people + self.repos
        elif verb == "remove":
            others = [number for number in self.names if self.is_named(number)] + list(self.slips)
        elif verb == "merge":
            others = self.families + self.events + self.entries + list(self.slips)
        elif verb == "undo":
            others = list(self.names)
        elif verb in ("child", "partner", "unpartner", "unchild") and at == 0:
            others = self.people + self.events
        elif verb in ("amend", "participant", "unparticipant") and at == 0:
            others = self.people + self.families
        else:
            others = self.families + self.events + self.entries
        return self.of(others or [1000])

    def row(self, place):
        """A row with a token of its own, a row of before, a token of before, or a token that is odd."""
        form = self.rng.random()
        if self.given and form < 0.12:
            return self.once_more(self.rng.choice(self.given))
        if self.given and form < 0.18:
            return [self.rng.choice(self.given)[0], *self.odd()]
        if form < 0.21:
            return [self.rng.choice(ODD_TOKENS), *self.odd()]
        if self.chance(0.25):
            made = [f"t{place}", *self.odd()]
            if self.may_be_accepted(*made[1:]):
                self.refused[made[0]] = made[1:]
        else:
            made = [f"t{place}", *self.good()]
            if not self.is_good:
                self.refused[made[0]] = made[1:]
        self.given.append(made)
        return made

    def may_be_accepted(self, verb, *fields):
        """Whether a row that is refused is a removal or on members, and well formed, or an entry that is there
        already."""
        if verb == "entry":
            return fields in self.doubled
        if verb == "correct":
            return len(fields) == 3
        return verb in ("remove", *OF_MEMBERS) and is_well_formed(verb, fields)

    def is_accepted(self, verb, *fields):
        """Whether such a row is accepted now."""
        if verb == "remove":
            return int(fields[0]) in self.names and not self.is_named(int(fields[0]))
        if verb in OF_MEMBERS:
            return self.fits(verb, fields)
        if verb == "correct":
            return self.corrects(*fields)
        source, *_ = key = key_of(fields)
        has_place = fields[5] == "" or int(fields[5]) in self.places
        return source in self.sources and has_place and key not in self.keys.values()

    def once_more(self, given):
        """A row of before. One that was refused may be accepted now."""
        refused = self.refused.get(given[0])
        if refused is not None and self.is_accepted(*refused):
            del self.refused[given[0]]
            self.note(refused[0], refused[1:])
        return given


def is_well_formed(verb, fields):
    """Whether the fields of a verb without texts are of their kinds."""
    return len(fields) == len(KINDS[verb]) and all(
        one in PARTNERSHIPS if kind == "H" else re.fullmatch("[0-9]{1,10}", one)
        for one, kind in zip(fields, KINDS[verb])
    )


def kinds_of(verb, fields):
    """The kind of each field."""
    if verb == "correct":
        return KINDS[verb] + OF_FIELD.get(plain(fields[1])[0], "T")
    return KINDS[verb] + (OF_MENTION * mention_count(fields) if verb == "entry" else "")


def mention_count(fields):
    """How many mentions the fields of an entry have."""
    return (len(fields) - len(KINDS["entry"])) // len(OF_MENTION)


def key_of(fields):
    """Source, kind, page and item of the fields of an entry."""
    source, kind, page, item, *_ = fields
    return int(source), kind, page, int(item)


def written(rng, fields):
    """A row as bytes: some fields in quotes that need none, some line ends CR LF, some lines blank."""
    words = [field(one) for one in fields]
    if rng.random() < 0.1:
        words = [one if one.startswith('"') else f'"{one}"' for one in words]
    end = rng.choice(["\n", "\n", "\n", "\r\n", "\n\n"])
    return (",".join(words) + end).encode("utf-8")


def rows(seed, count, removes=True):
    """So many rows for one archive."""
    rng = random.Random(seed)
    made = Rows(rng, removes)
    return [written(rng, made.row(place)) for place in range(count)]


if __name__ == "__main__":
    sys.stdout.buffer.write(b"".join(rows(sys.argv[1], int(sys.argv[2]), sys.argv[3:] != ["lasting"])))
