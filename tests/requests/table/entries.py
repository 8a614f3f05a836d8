"""Register entries and their links: the order of the checks, keys, roles, mentions and reasons.

`entry`: 58 for the texts, then 50 and 51 of the source, 50, 51 and 58 of the place, then 62 for a role, 60 for an entry
that is there, and last 63. `link`: 58 for the reason, then 50 and 51 of the entry and of the person, then 61. `unlink`:
50 and 51 of the entry, then 61.
"""

from __future__ import annotations

from table.making import (
    FAMILY,
    LAST,
    LONGEST,
    changes,
    entry,
    makes,
    next_is,
    next_set,
    refuses,
    scenario,
    shows,
    shows_entry,
    source,
)
from table.order import NO_TEXTS, refused_each
from table.reading import changed

ROLES = {
    "BAPTISM": "child father mother godparent".split(),
    "MARRIAGE": "groom bride father-of-groom father-of-bride witness".split(),
    "BURIAL": "buried spouse father mother".split(),
}
OF_NONE = (
    *("", " ", "Child", "CHILD", "child ", " child", "children", "chil", "godfather", "Father", "mother\n"),
    *("father of groom", "father_of_groom", "fatherofgroom", "father-of-Bride", "groom-father", "widow", "BURIAL"),
)
MANY = 100  # mentions, the most of an entry

# Persons 1 and 2, family 3, event 4, a repository, source 6, what cites its page 3, places 8 and 9, of which the second
# says nothing, and the first entry of that page.
REGISTER = [
    *FAMILY,
    makes(5, "r1", "repo", "County archive"),
    source(6, "s1", "Ashby register"),
    makes(7, "c1", "citation", 4, 6, "f. 3", ""),
    makes(8, "k1", "place", "Kent", ""),
    makes(9, "k2", "place", ", ", ""),
    makes(10, "b1", *entry(6, mentions=("child", "John", "father", "Tom Lee"))),
]
FIRST_ENTRY = shows_entry(10, "BAPTISM", ("f. 3", 6), 1, "", ("child", "John"), ("father", "Tom Lee"))
OTHERS = (1, 2, 3, 4, 5, 7, 8, 9)  # no sources and no entries
DOUBLED = entry(6, mentions=("godparent", "Ann"))
WRONG_ROLE = entry(6, mentions=("child", "John", "witness", "Tom"))


def entries_with(text, *command):
    """The entry with a text in each place that has one, its date apart."""
    return [changed(command, at, text) for at in (3, 7, *range(8, len(command)))]


# Nothing in it is right but its texts: neither source nor place is there, and the roles are of another kind.
ALL_WRONG = entry(99, "BURIAL", place=98, mentions=("witness", "Ann", "groom", "Tom"))

TEXTS = (
    scenario(
        "texts of entries and links come before numbers",
        [refuses(58, "t", *command) for text in NO_TEXTS for command in entries_with(text, *ALL_WRONG)],
        [refuses(58, "t", *changed(ALL_WRONG, 5, date)) for date in ("(\r)", "INT 1700 (\0)", *NO_TEXTS)],
        [refuses(58, "t", "link", 99, mention, 98, text) for text in ("", *NO_TEXTS) for mention in (1, LAST)],
        refuses(50, "t", *ALL_WRONG),
        refuses(50, "t", "link", 99, 1, 98, " "),
        makes(1, "t", "person", "", ""),
        [refuses(52, "t", *command) for text in NO_TEXTS for command in entries_with(text, *ALL_WRONG)],
        refuses(52, "t", "link", 99, 1, 98, ""),
        refuses(52, "t", "unlink", 99, 1),
    ),
    scenario(
        "texts of entries and links come before wrong kinds, roles, keys and the last number",
        REGISTER,
        [
            refuses(58, "x", *command)
            for wrong in (entry(1), entry(6, place=99), entry(6, place=1), entry(6, place=9), WRONG_ROLE, DOUBLED)
            for command in entries_with("\r", *wrong)
        ],
        [refuses(58, "x", *changed(wrong, 5, "\0")) for wrong in (entry(1), entry(6, place=9), WRONG_ROLE, DOUBLED)],
        refused_each(
            58, *(("link", *given, text) for given in ((1, 1, 1), (10, 1, 3), (10, 3, 1)) for text in ("", "\r"))
        ),
        refused_each(58, entry(6, item=2, mentions=("child\r", "John")), entry(6, item=2, mentions=("child", "a\0b"))),
        next_set(LAST + 1),
        refused_each(58, *entries_with("\0", *entry(6, item=2)), changed(entry(6, item=2), 5, "a\rb")),
        refused_each(58, ("link", 10, 1, 1, ""), ("link", 10, 1, 1, "a\rb")),
        FIRST_ENTRY,
    ),
    scenario(
        "the longest texts of an entry and of a link",
        source(1, "s", "Ashby register"),
        makes(2, "p", "person", "", ""),
        makes(
            3,
            "a",
            *entry(1, "BURIAL", "x" * LONGEST, 1, "y" * LONGEST, "", "z" * LONGEST, ("buried", "é" * (LONGEST // 2))),
        ),
        changes("l", "link", 3, 1, 2, "x" * LONGEST),
        refuses(60, "b", *entry(1, "BURIAL", "x" * LONGEST)),
        refuses(58, "c", *entry(1, "BURIAL", "x" * (LONGEST + 1))),
        makes(4, "d", *entry(1, "BURIAL", "x" * (LONGEST - 1))),
        makes(5, "e", *entry(1, "BURIAL", date="1700" + " " * LONGEST)),
        shows_entry(5, "BURIAL", ("f. 3", 1), 1, "", ("buried", "John"), when=("1700", "-")),
        shows_entry(
            3,
            *("BURIAL", ("x" * LONGEST, 1), 1, "z" * LONGEST),
            ("buried", "é" * (LONGEST // 2), 2, "x" * LONGEST),
            when=("y" * LONGEST, "-"),
        ),
    ),
)

NUMBERS = (
    scenario(
        "the numbers of an entry in the order of their fields, then roles, then its key",
        REGISTER,
        refused_each(50, ALL_WRONG, entry(99, place=9), entry(99, place=1), entry(LAST), entry(11)),
        refused_each(51, *(entry(number, place=99) for number in (*OTHERS, 10))),
        refused_each(51, *(entry(number, "BURIAL", mentions=("child", "Ann")) for number in (*OTHERS, 10))),
        refused_each(50, *(changed(wrong, 6, 99) for wrong in (entry(6), WRONG_ROLE, DOUBLED))),
        refused_each(51, *(changed(wrong, 6, at) for wrong in (WRONG_ROLE, DOUBLED) for at in (1, 3, 4, 5, 6, 7, 10))),
        refused_each(58, *(changed(wrong, 6, 9) for wrong in (entry(6, item=2), WRONG_ROLE, DOUBLED))),
        refused_each(62, *(changed(WRONG_ROLE, 6, place) for place in ("", 8))),
        refused_each(60, *(changed(DOUBLED, 6, place) for place in ("", 8))),
        next_is(11),
        makes(11, "x", *entry(6, item=2, place=8, mentions=("godparent", "Ann"))),
        shows_entry(11, "BAPTISM", ("f. 3", 6), 2, "", ("godparent", "Ann"), when=("-", 8)),
        FIRST_ENTRY,
    ),
    scenario(
        "the numbers of a link in the order of their fields, then the mention",
        REGISTER,
        refused_each(
            50, ("link", 99, 9, 98, "x"), ("link", 99, 1, 3, "x"), ("link", LAST, 1, 1, "x"), ("link", 11, 1, 1, "x")
        ),
        refused_each(51, *(("link", number, 9, 99, "x") for number in (*OTHERS, 6))),
        refused_each(51, *(("link", number, 1, 1, "x") for number in (*OTHERS, 6))),
        refused_each(50, ("link", 10, 1, 99, "x"), ("link", 10, 3, 99, "x"), ("link", 10, LAST, 99, "x")),
        refused_each(
            51, *(("link", 10, mention, number, "x") for mention in (1, 3) for number in (*OTHERS[2:], 6, 10))
        ),
        refused_each(61, *(("link", 10, mention, 1, "x") for mention in (3, 4, 10, 100, 101, LAST))),
        refused_each(50, ("unlink", 99, 9), ("unlink", LAST, 1), ("unlink", 11, 1)),
        refused_each(51, *(("unlink", number, mention) for number in (*OTHERS, 6) for mention in (1, 9))),
        refused_each(61, *(("unlink", 10, mention) for mention in (3, 4, 10, 100, 101, LAST))),
        FIRST_ENTRY,
        next_is(11),
        changes("x", "link", 10, 2, 1, "same farm"),
        changes("y", "unlink", 10, 1),
    ),
    scenario(
        "an entry that is of another kind than what is wanted",
        REGISTER,
        refused_each(51, ("name", 10, "a"), ("sex", 10, "M"), ("family", 10, ""), ("family", "", 10)),
        refused_each(51, ("child", 10, 1), ("child", 3, 10), ("event", 10, "BIRT", "", "", "")),
        refused_each(51, ("event", 1, "BIRT", "", "", 10), ("amend", 10, "", "", ""), ("amend", 4, "", "", 10)),
        refused_each(51, ("participant", 10, 1, ""), ("participant", 4, 10, ""), ("place", "Ashby", 10)),
        refused_each(51, ("source", "", "", "", 10, ""), ("citation", 10, 6, "", ""), ("citation", 1, 10, "", "")),
        next_is(11),
        FIRST_ENTRY,
    ),
    scenario(
        "room comes last for an entry, and links need none",
        REGISTER,
        next_set(LAST),
        makes(LAST, "l", *entry(6, "BURIAL", mentions=("buried", "Tom"))),
        refused_each(63, entry(6, item=2), entry(6, "MARRIAGE", place=8)),
        refused_each(50, entry(99), entry(6, item=2, place=99)),
        refused_each(51, entry(1), entry(6, item=2, place=1)),
        refused_each(58, entry(6, item=2, place=9)),
        refused_each(62, entry(6, item=2, mentions=("spouse", "Ann"))),
        refused_each(60, DOUBLED, entry(6, "BURIAL")),
        changes("w", "link", LAST, 1, 1, "same name"),
        changes("y", "link", 10, 1, 2, "same name"),
        changes("z", "unlink", 10, 1),
        makes(LAST, "l", *entry(6, "BURIAL", mentions=("buried", "Tom"))),
        next_is(LAST + 1),
        shows_entry(LAST, "BURIAL", ("f. 3", 6), 1, "", ("buried", "Tom", 1, "same name")),
        changes("d", "remove", LAST),
        refused_each(63, entry(6, "BURIAL")),
        FIRST_ENTRY,
    ),
)


def role_steps():
    """Each word as the role of a mention in an entry of each kind, and behind a role that is right."""
    steps, number, item = [], 2, 1
    words = sorted({role for roles in ROLES.values() for role in roles}) + list(OF_NONE)
    for kind, roles in ROLES.items():
        for role in words:
            for mentions in ((role, "Ann"), (roles[0], "Eva", role, "Ann")):
                request = (f"t{item}", *entry(1, kind, "f. 3", item, mentions=mentions))
                steps.append(makes(number, *request) if role in roles else refuses(62, *request))
                number, item = number + (role in roles), item + 1
    return steps


def mentions(count, role="buried"):
    return tuple(word for number in range(1, count + 1) for word in (role, f"Ann {number}"))


MENTIONS = (
    scenario(
        "each role is of one kind of entry or several, or of none", source(1, "s", "Ashby register"), role_steps()
    ),
    scenario(
        "one role among others is not of the kind",
        source(1, "s", "Ashby register"),
        [
            refuses(62, "x", *entry(1, "BURIAL", mentions=changed(mentions(MANY), 2 * at, role)))
            for at in (0, 1, 50, MANY - 1)
            for role in ("witness", "", "Buried")
        ],
        makes(2, "x", *entry(1, "BURIAL", mentions=changed(mentions(MANY), 2 * (MANY - 1), "spouse"))),
    ),
    scenario(
        "entries with 1, 2, 99 and 100 mentions",
        source(1, "s", "Ashby register"),
        makes(2, "p", "person", "Ann", ""),
        [
            makes(number, f"e{count}", *entry(1, "BURIAL", item=count, mentions=mentions(count)))
            for number, count in ((3, 1), (4, 2), (5, MANY - 1), (6, MANY))
        ],
        [
            step
            for number, count in ((3, 1), (4, 2), (5, MANY - 1), (6, MANY))
            for step in (
                refuses(61, "x", "link", number, count + 1, 2, "x"),
                refuses(61, "x", "unlink", number, count + 1),
                changes(f"u{count}", "unlink", number, count),
                changes(f"l{count}", "link", number, count, 2, "same name"),
            )
        ],
        shows_entry(
            6,
            *("BURIAL", ("f. 3", 1), MANY, ""),
            *(("buried", f"Ann {number}") for number in range(1, MANY)),
            ("buried", f"Ann {MANY}", 2, "same name"),
        ),
    ),
    scenario(
        "mentions of one role and of one name, and names that are empty",
        source(1, "s", "Ashby register"),
        makes(2, "a", *entry(1, mentions=("child", "Eva", "child", "Eva", "child", "", "godparent", "Eva"))),
        shows_entry(
            2, "BAPTISM", ("f. 3", 1), 1, "", ("child", "Eva"), ("child", "Eva"), ("child", ""), ("godparent", "Eva")
        ),
        makes(3, "b", *entry(1, item=2, mentions=("godparent", 'Ann, "the widow"\nof Tom'))),
        shows_entry(3, "BAPTISM", ("f. 3", 1), 2, "", ("godparent", 'Ann, "the widow"\nof Tom')),
    ),
    scenario(
        "dates and places of entries, and what is empty",
        REGISTER,
        makes(11, "a", *entry(6, "BURIAL", "", 1, "", "", "", ("buried", ""))),
        makes(12, "b", *entry(6, "BURIAL", "", 2, " 01  may 1700", "", "two\nlines")),
        makes(13, "c", *entry(6, "BURIAL", "", 3, "", 8, " ")),
        makes(14, "d", *entry(6, "BURIAL", "", "004", "on a rainy day", "0008", "x")),
        makes(15, "e", *entry(6, "BURIAL", "", 5, " ", 8)),
        shows_entry(11, "BURIAL", ("", 6), 1, "", ("buried", "")),
        shows_entry(12, "BURIAL", ("", 6), 2, "two\nlines", ("buried", "John"), when=("1 MAY 1700", "-")),
        shows_entry(13, "BURIAL", ("", 6), 3, " ", ("buried", "John"), when=("-", 8)),
        shows_entry(14, "BURIAL", ("", 6), 4, "x", ("buried", "John"), when=("on a rainy day", 8)),
        shows_entry(15, "BURIAL", ("", 6), 5, "", ("buried", "John"), when=(" ", 8)),
        refuses(53, "x", "remove", 8),
        [changes(f"d{number}", "remove", number) for number in (13, 14, 15, 8)],
    ),
    scenario(
        "the place of an entry is within one that says something",
        source(1, "s", "Ashby register"),
        makes(2, "k", "place", "Kent", ""),
        makes(3, "n", "place", ", ", ""),
        makes(4, "m", "place", ", ", 2),
        makes(5, "o", "place", ", ", 3),
        refuses(58, "x", *entry(1, place=3)),
        refuses(58, "x", *entry(1, place=5)),
        makes(6, "x", *entry(1, place=4)),
        shows_entry(6, "BAPTISM", ("f. 3", 1), 1, "", ("child", "John"), when=("-", 4)),
    ),
)

# Words that are near to the page of the first entry, and other words that stand somewhere in its archive.
PAGES = (
    *("", "f. 4", "F. 3", "f. 3 ", " f. 3", "f.3", "f. 3\n", "f. 30", "f. \u0663"),
    *("Ashby register", "child", "John", "1", "BAPTISM"),
)

# Pages that lie in the key of their entry, which are those of at most 1,000 bytes, and longer ones.
LONG_PAGES = ("x" * 1_000, "x" * 999 + "y", "é" * 500, "x" * 1_001, "x" * 1_000 + "y", "é" * 501, "é" * 500 + "x")


def again(at, page):
    """The entry of a page is made again, at the next number."""
    number = 2 + 2 * len(LONG_PAGES) + at
    return (
        makes(number, f"c{at}", *entry(1, page=page)),
        shows_entry(number, "BAPTISM", (page, 1), 1, "", ("child", "John")),
    )


KEYS = (
    scenario(
        "an entry of one source, kind, page and item is there once",
        REGISTER,
        refused_each(60, entry(6), DOUBLED, entry(6, item="001"), entry(6, item="0000000001")),
        refused_each(60, entry(6, date="1700"), entry(6, place=8), entry(6, text="another"), entry("06")),
        makes(11, "s2", "source", "Ashby register", "", "", "", ""),
        makes(12, "a1", *entry(11)),
        makes(13, "a2", *entry(6, "MARRIAGE")),
        makes(14, "a3", *entry(6, "BURIAL")),
        [
            makes(number, f"a{number}", *entry(6, item=item))
            for number, item in ((15, 2), (16, 10), (17, 11), (18, 999_999))
        ],
        [makes(number, f"a{number}", *entry(6, page=page)) for number, page in enumerate(PAGES, 19)],
        refused_each(60, entry(11), entry(6, "MARRIAGE"), entry(6, "BURIAL")),
        refused_each(60, *(entry(6, item=item) for item in (1, 2, 10, 11, 999_999))),
        refused_each(60, *(entry(6, page=page) for page in PAGES)),
        next_is(19 + len(PAGES)),
        makes(19 + len(PAGES), "x", *entry(11, page="")),
        makes(10, "b1", *entry(6, mentions=("child", "John", "father", "Tom Lee"))),
        refuses(52, "b1", *entry(6, mentions=("child", "John"))),
        FIRST_ENTRY,
    ),
    scenario(
        "pages of up to 1,000 bytes and longer ones, of one source and item",
        source(1, "s", "Ashby register"),
        [makes(number, f"a{number}", *entry(1, page=page)) for number, page in enumerate(LONG_PAGES, 2)],
        refused_each(60, *(entry(1, page=page) for page in LONG_PAGES)),
        [
            makes(2 + len(LONG_PAGES) + at, f"b{at}", *entry(1, "BURIAL", page=page))
            for at, page in enumerate(LONG_PAGES)
        ],
        refused_each(60, *(entry(1, kind, page=page) for kind in ("BAPTISM", "BURIAL") for page in LONG_PAGES)),
        [
            step
            for at, page in enumerate(LONG_PAGES)
            for step in (changes(f"d{at}", "remove", 2 + at), *again(at, page))
        ],
        next_is(2 + 3 * len(LONG_PAGES)),
    ),
    scenario(
        "the key of an entry that was removed is free",
        REGISTER,
        refuses(60, "x", *DOUBLED),
        changes("l", "link", 10, 2, 1, "same farm"),
        refuses(60, "x", *DOUBLED),
        changes("d", "remove", 10),
        shows(10),
        makes(11, "x", *DOUBLED),
        refuses(60, "y", *entry(6)),
        makes(10, "b1", *entry(6, mentions=("child", "John", "father", "Tom Lee"))),
        shows(10),
        changes("l", "link", 10, 2, 1, "same farm"),
        refuses(50, "m", "link", 10, 2, 1, "same farm"),
        refuses(50, "m", "unlink", 10, 2),
        shows_entry(11, "BAPTISM", ("f. 3", 6), 1, "", ("godparent", "Ann")),
        next_is(12),
    ),
)

LINKS = (
    scenario(
        "a link replaces the one that is there, and may be taken away",
        REGISTER,
        changes("u1", "unlink", 10, 1),
        FIRST_ENTRY,
        changes("l1", "link", 10, 2, 1, "same farm"),
        shows_entry(10, "BAPTISM", ("f. 3", 6), 1, "", ("child", "John"), ("father", "Tom Lee", 1, "same farm")),
        changes("l2", "link", 10, 2, 1, "same farm"),
        changes("l3", "link", 10, 2, 1, "same name"),
        shows_entry(10, "BAPTISM", ("f. 3", 6), 1, "", ("child", "John"), ("father", "Tom Lee", 1, "same name")),
        changes("l4", "link", 10, 2, 2, "same name"),
        changes("l5", "link", 10, 1, 2, "a\nb, \"c\""),
        shows_entry(
            *(10, "BAPTISM", ("f. 3", 6), 1, ""),
            ("child", "John", 2, 'a\nb, "c"'),
            ("father", "Tom Lee", 2, "same name"),
        ),
        changes("u2", "unlink", 10, 2),
        shows_entry(10, "BAPTISM", ("f. 3", 6), 1, "", ("child", "John", 2, 'a\nb, "c"'), ("father", "Tom Lee")),
        changes("l6", "link", 10, 1, 1, " "),
        shows_entry(10, "BAPTISM", ("f. 3", 6), 1, "", ("child", "John", 1, " "), ("father", "Tom Lee")),
        changes("u3", "unlink", 10, 1),
        changes("u4", "unlink", 10, 1),
        changes("l1", "link", 10, 2, 1, "same farm"),
        changes("u2", "unlink", "010", "002"),
        FIRST_ENTRY,
        next_is(11),
    ),
    scenario(
        "who is linked, and what an entry is of and at, is not removed; the entry is",
        REGISTER,
        makes(11, "p", "person", "Eva", "F"),
        makes(12, "e", *entry(6, "BURIAL", "f. 9", 4, "1700", 8, "", ("buried", "Eva", "mother", "Una"))),
        changes("l1", "link", 12, 1, 11, "same age"),
        changes("l2", "link", 10, 1, 11, "same name"),
        refused_each(53, ("remove", 6), ("remove", 8), ("remove", 11)),
        changes("u1", "unlink", 12, 1),
        refused_each(53, ("remove", 11)),
        changes("l3", "link", 10, 1, 2, "same name"),
        changes("d1", "remove", 11),
        refuses(50, "l4", "link", 12, 2, 11, "same age"),
        changes("l5", "link", 12, 2, 2, "same age"),
        changes("d2", "remove", 12),
        changes("d3", "remove", 8),
        refused_each(53, ("remove", 2), ("remove", 6)),
        changes("d4", "remove", 10),
        changes("d5", "remove", 7),
        changes("d6", "remove", 6),
        [shows(number) for number in (6, 7, 8, 10, 11, 12)],
        next_is(13),
    ),
)

SCENARIOS = TEXTS + NUMBERS + MENTIONS + KEYS + LINKS
