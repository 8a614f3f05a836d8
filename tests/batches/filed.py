"""What a file tells by itself: which nodes become records, its places, entries and memberships, and what is reported. A
second reading of docs/FORMATS.md, "What becomes of each line of a file", slow and plain: all is looked for in lists."""

from __future__ import annotations

import re

import forest
from drawn import DATES

SOCIETY = "@SOCIETY@"
ALWAYS = ("INDI", "FAM", "SOUR", "REPO", "_LOC")
WORDS = {"HUSB": "husband", "WIFE": "wife", "CHIL": "child"}
EVENTS = {
    "INDI": "BIRT CHR BAPM DEAT BURI CREM ADOP BARM BASM BLES CHRA CONF FCOM ORDN NATU EMIG IMMI CENS PROB WILL GRAD "
            "RETI EVEN CAST DSCR EDUC IDNO NATI NCHI NMR OCCU PROP RELI RESI SSN TITL FACT".split(),
    "FAM": "ANUL CENS DIV DIVF ENGA MARB MARC MARR MARL MARS RESI EVEN".split(),
}
ROLES = {
    "BAPTISM": ("child", "father", "mother", "godparent"),
    "MARRIAGE": ("groom", "bride", "father-of-groom", "father-of-bride", "witness"),
    "BURIAL": ("buried", "spouse", "father", "mother"),
}


class Refused(Exception):
    pass


# ---- lines


def spelt(date: str) -> str:
    """The canonical spelling of a date."""
    return DATES.get(date, date)


def first(nodes, test):
    return next((node for node in nodes if test(node)), None)


def bare(node) -> bool:
    return not node.to and not node.below


def names(node, tag: str) -> bool:
    """Does the line point to a record of that tag?"""
    return node.to is not None and node.to.tag == tag


def normal(text: str) -> str:
    return ", ".join(part.strip(" ") for part in text.split(","))


def within(path: str) -> bool:
    return len(path.split(",")) <= 32 and len(path.encode()) <= 4_096


def has_part(path: str) -> bool:
    return path.strip(", ") != ""


# ---- what the file says by itself


class File:
    """The nodes that become records, whose `to` are nodes then; and what is reported."""

    def __init__(self, text: str):
        self.said: list[tuple[int, str]] = []
        nodes = [node for node in forest.read(text)[1:] if (node.tag, node.name) != ("SUBM", SOCIETY)]
        self.roots = self.kept(nodes)
        self.by_name = {node.name: node for node in self.roots if node.name}
        for root in self.roots:
            self.settle(root)
        self.places = self.of("_LOC")
        for place in self.places:
            self.read_place(place)
        for root in self.roots:
            root.entry = self.shape(root) if root.tag == "_REG" else None
        self.look_for_second()
        self.read_members()

    def of(self, tag: str):
        return [root for root in self.roots if root.tag == tag]

    def say(self, node, word: str):
        self.said.append((node.line, word))

    def kept(self, nodes):
        """Without those that point to none of what is left, until there is none such."""
        while True:
            there = [node.name for node in nodes]
            lost = [node for node in nodes if node.tag not in ALWAYS and node.to and node.to not in there]
            if not lost:
                return nodes
            for node in lost:
                self.say(node, "dangling")
            nodes = [node for node in nodes if node not in lost]

    def settle(self, root):
        if root.tag in ALWAYS:
            if root.to or root.value:
                self.say(root, "value dropped")
            root.to, root.value = None, ""
        elif root.to:
            root.to = self.by_name[root.to]
        self.drop_below(root)

    def drop_below(self, node):
        """Drops each line that names nothing, with all below it."""
        for one in node.below:
            if one.to and one.to not in self.by_name:
                self.say(one, "dangling")
        node.below = [one for one in node.below if not one.to or one.to in self.by_name]
        for one in node.below:
            one.to = self.by_name[one.to] if one.to else None
            self.drop_below(one)

    # ---- places

    def read_place(self, root):
        root.named = first(root.below, lambda it: it.tag == "NAME" and bare(it) and within(normal(it.value)))
        root.place = normal(root.named.value) if root.named else ""

        def is_above(it):
            before = names(it, "_LOC") and it.to.line < root.line
            return it.tag == "_LOC" and not it.below and before and within(f"{root.place}, {it.to.path}")

        root.above = first(root.below, is_above)
        root.path = f"{root.place}, {root.above.to.path}" if root.above else root.place

    # ---- entries

    def shape(self, root):
        """The lines of an entry; or none, where they are not exactly these."""
        rest = list(root.below)

        def take(tag, test):
            return rest.pop(0) if rest and rest[0].tag == tag and test(rest[0]) else None

        source = take("SOUR", lambda it: names(it, "SOUR") and not it.below)
        page = take("PAGE", bare)
        item = take("_ITEM", lambda it: bare(it) and re.fullmatch("[1-9][0-9]{0,5}", it.value))
        date = take("DATE", lambda it: bare(it) and spelt(it.value) == it.value)
        place = take("PLAC", self.is_at_path)
        text = take("TEXT", bare)
        mentions = [self.mention(root.value, it) for it in rest]
        if root.to or None in (source, page, item, text, *mentions) or not 1 <= len(mentions) <= 100:
            return None
        return source, page, item, date, place, text, mentions

    @staticmethod
    def is_at_path(node) -> bool:
        if node.to or len(node.below) != 1:
            return False
        [one] = node.below
        named = one.tag == "_LOC" and names(one, "_LOC") and not one.below
        return named and one.to.path == node.value and has_part(node.value)

    @staticmethod
    def mention(kind: str, node):
        """Role, name, the person whom it is linked to, and why."""
        if node.tag != "_MENT" or node.to or not 1 <= len(node.below) <= 2:
            return None
        role, *link = node.below
        if role.tag != "_ROLE" or not bare(role) or role.value not in ROLES.get(kind, ()):
            return None
        if not link:
            return role.value, node.value, None, None
        if link[0].tag != "_LINK" or not names(link[0], "INDI") or len(link[0].below) != 1:
            return None
        [why] = link[0].below
        return (role.value, node.value, link[0].to, why.value) if why.tag == "_WHY" and bare(why) else None

    def look_for_second(self):
        seen = []
        for root in self.roots:
            if root.entry:
                source, page, item, *_ = root.entry
                found = (source.to, root.value, page.value, item.value)
                if found in seen:
                    raise Refused(f"60 DuplicateEntry at line {root.line}")
                seen.append(found)

    # ---- memberships

    def read_members(self):
        """For each family its members: the person, then tag, what the family's line has below, and what the
        person's."""
        for family in self.of("FAM"):
            family.members = {}
            for line in family.below:
                if is_member(line) and line.to in family.members:
                    self.say(line, "doubled")
                elif is_member(line):
                    family.members[line.to] = [line.tag, line.below, None]
        for person in self.of("INDI"):
            for line in person.below:
                if is_side(line):
                    self.read_side(person, line)

    def read_side(self, person, line):
        found = line.to.members.get(person)
        is_partner = found is not None and found[0] != "CHIL"
        if is_partner != (line.tag == "FAMS"):
            self.say(line, "one-sided")
        elif found is None:
            line.to.members[person] = ["CHIL", [], line.below]
        elif found[2] is None:
            found[2] = line.below
        else:
            self.say(line, "doubled")


def is_member(line) -> bool:
    return line.tag in WORDS and names(line, "INDI")


def is_side(line) -> bool:
    return line.tag in ("FAMC", "FAMS") and names(line, "FAM")


def is_event(root, line) -> bool:
    return line.tag in EVENTS.get(root.tag, ()) and not line.to


def is_citation(line) -> bool:
    return line.tag == "SOUR" and names(line, "SOUR")


def in_form(line) -> bool:
    return line.tag == "PLAC" and not line.to and within(normal(line.value)) and has_part(line.value)
