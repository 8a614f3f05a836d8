"""Corrections that the seeded generator of rows draws: most that are accepted, and some that are refused."""

import re

from drawn_words import (
    CORRECTED,
    DATES,
    FAMILY_TAGS,
    ITEMS,
    NAMES,
    NO_FIELDS,
    ODD,
    OF_FIELD,
    PAGES,
    PERSON_TAGS,
    PLACES,
    QUALITIES,
    ROLES_OF,
    SEXES,
    SHORT,
    TITLES,
    VALUES,
)
from table.making import LAST


class Corrections:
    """Of the rows of one archive (`generate.Rows`), those of `correct`."""

    def correct(self):
        """A field of a record, with a value that it may have."""
        kind = self.rng.choice([kind for kind, numbers in self.kinds().items() if numbers and kind in CORRECTED])
        number = self.rng.choice(self.kinds()[kind])
        word = self.rng.choice(CORRECTED[kind])
        count = self.traits[number][0] if kind == "person" else len(self.links.get(number, ()))
        at = str(self.rng.randint(1, count)) if word.endswith("K") else ""
        return [self.spelt(number), word.replace("K", at), self.value_of(number, kind, word)]

    def value_of(self, number, kind, word):
        """A value of a field that the record may have."""
        if word == "sex":
            return self.rng.choice(SEXES if self.traits[number][2] else ["", *SEXES])
        if word == "tag":
            return self.rng.choice(self.tags_of(number))
        if word == "place":
            return self.place_or_none()
        if word == "repository":
            is_given = self.repos and (number in self.calls or self.chance(0.7))
            return self.of(self.repos) if is_given else ""
        if word == "call number":
            return self.rng.choice(SHORT) if self.names[number] else ""
        if kind == "entry" and word in ("page", "item", "role K"):
            return self.value_of_entry(number, word)
        if word.startswith("name"):
            return self.rng.choice({"place": PLACES, "repo": TITLES}.get(kind, NAMES))
        texts = {"date": DATES, "value": VALUES, "text": VALUES, "title": TITLES, "quality": QUALITIES}
        return self.rng.choice(texts.get(word, SHORT))

    def value_of_entry(self, number, word):
        """A role of its kind, or a page or an item with which no other entry has its key."""
        source, kind, page, item = self.keys[number]
        if word == "role K":
            return self.rng.choice(ROLES_OF[kind])
        if word == "page":
            pages = [one for one in PAGES if self.is_key_free(number, (source, kind, one, item))]
            return self.rng.choice(pages or [page])
        item = self.rng.randrange(1, ITEMS)
        while not self.is_key_free(number, (source, kind, page, item)):
            item = self.rng.randrange(1, 1_000_000)
        return self.spelt(item)

    def is_key_free(self, number, key):
        return all(one == number for one, other in self.keys.items() if other == key)

    def tags_of(self, number):
        """The tags that an event may have."""
        return PERSON_TAGS if self.parties[number][0] in self.people else FAMILY_TAGS

    def corrects(self, number, word, value):
        """Whether a correction is accepted."""
        number = int(number) if re.fullmatch("[0-9]{1,10}", number) else 0
        kind, (word, at) = self.kind_of(number), plain(word)
        if word not in CORRECTED.get(kind, ()):
            return False
        if at is not None and at > (self.traits[number][0] if kind == "person" else len(self.links[number])):
            return False
        if word == "sex":
            return value in SEXES or (value == "" and not self.traits[number][2])
        if word == "call number" and value and not self.names[number]:
            return False
        known = {"tag": "event" == kind and self.tags_of(number), "quality": QUALITIES}
        if kind == "place":
            known["name"] = PLACES
        if kind == "entry":
            known["role K"] = ROLES_OF[self.keys[number][1]]
        if word in known:
            return value in known[word]
        if word in ("place", "repository"):
            return self.is_number_free(number, word, value)
        if kind == "entry" and word in ("page", "item"):
            return self.is_entry_free(number, word, value)
        return not {"\0", "\r"} & set(value)

    def is_number_free(self, number, word, value):
        """Whether a place or a repository may be that of a record."""
        if value == "":
            return word == "place" or number not in self.calls
        named = self.places if word == "place" else self.repos
        return bool(re.fullmatch("[0-9]{1,10}", value)) and int(value) in named

    def is_entry_free(self, number, word, value):
        """Whether a page or an item may be that of an entry."""
        if word == "page":
            is_typed = not {"\0", "\r"} & set(value)
        else:
            is_typed = bool(re.fullmatch("[0-9]{1,10}", value)) and 0 < int(value) < 1_000_000
        return is_typed and self.is_key_free(number, self.corrected_key(number, word, value))

    def corrected_key(self, number, word, value):
        source, kind, page, item = self.keys[number]
        return (source, kind, value, item) if word == "page" else (source, kind, page, int(value))

    def note_correction(self, number, word, value):
        """Keeps what a correction changes, and answers what the record may have named in the field before."""
        word, at = plain(word)
        if word == "sex":
            self.traits[number][1] = value
        if number in self.traits and at is not None and value == "":
            self.traits[number][0] = max(1, self.traits[number][0] - 1)
        if word == "call number":
            (self.calls.add if value else self.calls.discard)(number)
        if number in self.keys and word in ("page", "item"):
            self.keys[number] = self.corrected_key(number, word, value)
        return set(self.places if word == "place" else self.repos if word == "repository" else ())

    def odd_correction(self, number, word, value):
        """Another record, a field that there is not, that the record has not, or whose list is shorter; a value that is
        not of its type, or that the record may not have."""
        form, doubled = self.rng.random(), self.doubling()
        if form < 0.2:
            number = self.rng.choice([*ODD["N"], *map(str, self.families)])
        elif form < 0.3:
            word = self.rng.choice(NO_FIELDS)
        elif form < 0.5:
            others = [one for fields in CORRECTED.values() for one in fields]
            word = self.rng.choice(others).replace("K", self.rng.choice(["1", "2", "9", str(LAST)]))
        elif form < 0.6 and doubled:
            number, word, value = self.rng.choice(doubled)
        elif form < 0.8:
            value = self.rng.choice(self.forbidden(int(number), plain(word)[0]))
        if self.corrects(number, word, value):
            value = self.rng.choice(ODD[OF_FIELD.get(plain(word)[0], "T")])
        return [number, word, "a\0b"] if self.corrects(number, word, value) else [number, word, value]

    def doubling(self):
        """Corrections that would give entries the keys of others."""
        found, pages, items = [], {}, {}
        for number, (source, kind, page, item) in self.keys.items():
            for other in pages.setdefault((source, kind, page), []):
                found.append((str(number), "item", str(self.keys[other][3])))
            for other in items.setdefault((source, kind, item), []):
                found.append((str(number), "page", self.keys[other][2]))
            pages[source, kind, page].append(number)
            items[source, kind, item].append(number)
        return found

    def forbidden(self, number, word):
        """Values of a field that the record may not have, or some that it may."""
        found = {
            "place": self.people + self.events + self.entries,
            "repository": ["", "", *self.people, *self.sources],
            "call number": ["MS 4"],
            "sex": [""],
            "tag": [*PERSON_TAGS[:4], *FAMILY_TAGS[:3]],
            "role K": [role for roles in ROLES_OF.values() for role in roles],
        }.get(word)
        return [str(one) for one in found or ["a\rb"]]


def plain(word):
    """The word of a field with K for a place in a list, and that place or none."""
    found = re.fullmatch("(name|role) ([1-9][0-9]{0,9})", word)
    if found is None or int(found.group(2)) > LAST:
        return ("no field" if word.endswith("K") else word), None
    return f"{found.group(1)} K", int(found.group(2))
