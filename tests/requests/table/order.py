"""The order of the checks of a command.

52, then 58 for the texts, then for each number in the order of its field 50 and 51, then 58 for a place, then the
command's own (53, 54, 59, 62), and last 63. A call number without a repository is 58 too, and so is a place whose
path passes the limits.
"""

from __future__ import annotations

from table.making import (
    FAMILY,
    LAST,
    LONGEST,
    changes,
    makes,
    next_is,
    next_set,
    place,
    refuses,
    scenario,
    shows,
    source,
)

# The events of a person and those of a family: docs/FORMATS.md, "What an archive holds".
OF_PERSONS = (
    "BIRT CHR BAPM DEAT BURI CREM ADOP BARM BASM BLES CHRA CONF FCOM ORDN NATU EMIG IMMI CENS PROB WILL "
    "GRAD RETI EVEN CAST DSCR EDUC IDNO NATI NCHI NMR OCCU PROP RELI RESI SSN TITL FACT"
).split()
OF_FAMILIES = "ANUL CENS DIV DIVF ENGA MARB MARC MARR MARL MARS RESI EVEN".split()
OF_NEITHER = ["", "marr", "Birt", "BIRT ", "HUSB", "NAME", "SEX", "DATE", "NOTE", "_BIRT", "BIR", "BIRTH"]

# Words that are no text.
NO_TEXTS = ("a\rb", "\r", "a\0b", "\0", "x" * (LONGEST + 1))


def refused_each(number, *requests):
    """Requests of one token, each refused so."""
    return [refuses(number, "x", *request) for request in requests]


def sources_with(text):
    """Sources of a repository that is not there, with a text in each place that has one."""
    empty = ("source", "", "", "", 9, "")
    return [(*empty[:at], text, *empty[at + 1 :]) for at in (1, 2, 3, 5)]


def tag_steps():
    """Each tag asked for person 1 and for family 2."""
    steps, number = [], 3
    for tag in sorted({*OF_PERSONS, *OF_FAMILIES}) + OF_NEITHER:
        for owner, tags in ((1, OF_PERSONS), (2, OF_FAMILIES)):
            request = (f"{owner}{tag.replace(' ', '_')}!", "event", owner, tag, "", "", "")
            if tag in tags:
                steps.append(makes(number, *request))
                number += 1
            else:
                steps.append(refuses(62, *request))
    return steps


TEXTS = (
    scenario(
        "texts come before numbers",
        [refuses(58, "t", "person", text, sex) for text in NO_TEXTS for sex in ("", "F")],
        [refuses(58, "t", "name", 9, text) for text in NO_TEXTS],
        [refuses(58, "t", "event", 9, text, "", "", "") for text in ("BIRT\r", *NO_TEXTS)],
        [refuses(58, "t", "event", 9, "BIRT", text, "", "") for text in NO_TEXTS],
        [refuses(58, "t", "event", 9, "BIRT", "", text, "") for text in ("(\r)", "(\0)", *NO_TEXTS)],
        [refuses(58, "t", "amend", 9, text, "", "") for text in NO_TEXTS],
        [refuses(58, "t", "amend", 9, "", text, "") for text in ("(\r)", "INT 1700 (\0)", *NO_TEXTS)],
        [refuses(58, "t", "participant", 9, 9, text) for text in NO_TEXTS],
        [refuses(58, "t", "place", text, parent) for text in NO_TEXTS for parent in ("", 9)],
        [refuses(58, "t", "repo", text) for text in NO_TEXTS],
        [refuses(58, "t", *command) for text in NO_TEXTS for command in sources_with(text)],
        [refuses(58, "t", "citation", 9, 9, text, quality) for text in NO_TEXTS for quality in ("", "3")],
        makes(1, "t", "person", "", ""),
        [refuses(52, "t", "person", text, "") for text in NO_TEXTS],
        refuses(52, "t", "name", 9, "\r"),
    ),
    scenario(
        "texts come before wrong kinds, tags and the last number",
        FAMILY,
        refused_each(
            58,
            ("name", 3, "\r"),
            ("event", 4, "MARR", "\r", "", ""),
            ("event", 1, "MARR", "\r", "", ""),
            ("event", 1, "\r", "", "", 9),
            ("event", 1, "BIRT", "", "\r", 2),
            ("amend", 1, "\r", "", 9),
            ("amend", 4, "", "\r", 9),
            ("participant", 1, 4, "\r"),
            ("participant", 4, 9, "\0"),
            ("source", "", "\r", "", 1, ""),
            ("source", "", "", "\0", "", "MS 4"),
            ("citation", 1, 1, "\r", ""),
            ("citation", 4, 9, "\0", "2"),
        ),
        next_set(LAST + 1),
        refused_each(58, ("person", "\r", ""), ("event", 1, "BIRT", "\r", "", "")),
        refused_each(58, ("repo", "\0"), ("source", "\0", "", "", "", "")),
    ),
    scenario(
        "the longest texts",
        makes(1, "p", "person", "x" * LONGEST, ""),
        changes("n", "name", 1, "é" * (LONGEST // 2)),
        refuses(58, "n2", "name", 1, "é" * (LONGEST // 2) + "x"),
        makes(2, "e", "event", 1, "BIRT", "x" * LONGEST, "x" * LONGEST, ""),
        changes("r", "participant", 2, 1, "x" * LONGEST),
        changes("a", "amend", 2, "short", "1700" + " " * LONGEST, ""),
        shows(
            2,
            (0, "event", "-", 1),
            (1, "BIRT", "short", "-"),
            (1, "date", "1700", "-"),
            (1, "participant", "x" * LONGEST, 1),
        ),
    ),
    scenario(
        "the longest texts of a repository, a source and a citation",
        makes(1, "r", "repo", "x" * LONGEST),
        source(2, "s", "a" * LONGEST, "b" * LONGEST, "c" * LONGEST, 1, "d" * LONGEST),
        shows(
            2,
            (0, "source", "a" * LONGEST, "-"),
            (1, "author", "b" * LONGEST, "-"),
            (1, "publisher", "c" * LONGEST, "-"),
            (1, "holding", "d" * LONGEST, 1),
        ),
        makes(3, "p", "person", "", ""),
        makes(4, "c", "citation", 3, 2, "é" * (LONGEST // 2), ""),
        shows(4, (0, "citation", "-", 3), (1, "source", "é" * (LONGEST // 2), 2)),
    ),
    scenario(
        "a call number without a repository",
        makes(1, "r", "repo", "County archive"),
        refused_each(
            58,
            ("source", "Deeds", "", "", "", "MS 4"),
            ("source", "", "Rev. Lee", "Ray", "", " "),
            ("source", "", "", "", "", "\r"),
        ),
        next_is(2),
        source(2, "x", "Deeds", repo=1, call=" "),
        shows(2, (0, "source", "Deeds", "-"), (1, "holding", " ", 1)),
        source(3, "y", "Deeds"),
        refused_each(52, ("source", "Deeds", "", "", "", " ")),
        next_set(LAST + 1),
        refuses(58, "z", "source", "Deeds", "", "", "", "MS 4"),
        refuses(63, "z", "source", "Deeds", "", "", 1, "MS 4"),
    ),
    scenario(
        "texts with line feeds, tabs and other characters",
        makes(1, "p", "person", "two\nlines\tand \x01 \x7f \u2028 \U0001f600", ""),
        shows(
            1,
            (0, "person", "-", "-"),
            (1, "name", "two\nlines\tand \x01 \x7f \u2028 \U0001f600", "-"),
        ),
    ),
)

NUMBERS = (
    scenario(
        "numbers come in the order of their fields",
        FAMILY,
        refused_each(50, ("name", 9, "a"), ("name", LAST, "a"), ("sex", 9, "M")),
        refused_each(51, ("name", 3, "a"), ("name", 4, "a"), ("sex", 3, "M"), ("sex", 4, "M")),
        refused_each(50, ("family", 9, 3), ("family", 1, 9), ("family", 9, 9), ("family", "", 9)),
        refused_each(51, ("family", 3, 9), ("family", "", 4), ("family", 3, 3), ("family", 1, 3)),
        refused_each(54, ("family", 2, 2), ("family", 1, 1)),
        refused_each(50, ("child", 9, 3), ("child", 3, 9), ("child", 9, 9)),
        refused_each(51, ("child", 1, 9), ("child", 3, 4), ("child", 4, 1), ("child", 3, 3)),
        refused_each(59, ("child", 3, 1)),
        refused_each(50, ("event", 9, "MARR", "", "", 1), ("event", 1, "MARR", "", "", 9)),
        refused_each(51, ("event", 4, "MARR", "", "", 9), ("event", 1, "MARR", "", "", 2)),
        refused_each(51, ("event", 3, "BIRT", "", "", 3), ("event", 4, "DIV", "", "", "")),
        refused_each(
            62,
            ("event", 1, "MARR", "", "", ""),
            ("event", 3, "BIRT", "", "", ""),
            ("event", 3, "marr", "", "", ""),
            ("event", 3, "", "", "", ""),
        ),
        refused_each(50, ("participant", 9, 4, ""), ("participant", 4, 9, "")),
        refused_each(51, ("participant", 1, 9, ""), ("participant", 4, 3, "")),
        refused_each(51, ("participant", 3, 1, ""), ("participant", 4, 4, "")),
        refused_each(50, ("amend", 9, "", "", 9), ("amend", 4, "", "", 9)),
        refused_each(51, ("amend", 1, "", "", 9), ("amend", 4, "", "", 1), ("amend", 3, "", "", "")),
        next_is(5),
        shows(5),
    ),
    scenario(
        "repositories, sources and what they are of, in the order of their fields",
        FAMILY,
        makes(5, "r", "repo", "County archive"),
        source(6, "s", "Deeds", repo=5),
        makes(7, "c", "citation", 1, 6, "", ""),
        refused_each(50, ("source", "", "", "", 9, ""), ("source", "", "", "", LAST, "MS 4")),
        refused_each(51, *(("source", "", "", "", number, "") for number in (1, 3, 4, 6, 7))),
        refused_each(50, ("citation", 9, 9, "", ""), ("citation", 9, 1, "", ""), ("citation", 1, 9, "", "")),
        refused_each(50, ("citation", 3, 9, "", ""), ("citation", 4, LAST, "", "2")),
        refused_each(51, *(("citation", owner, 9, "", "") for owner in (5, 6, 7))),
        refused_each(51, *(("citation", owner, 6, "", "") for owner in (5, 6, 7))),
        refused_each(51, *(("citation", 1, number, "", "") for number in (1, 2, 3, 4, 5, 7))),
        refused_each(51, ("citation", 3, 3, "", ""), ("citation", 4, 1, "", "1")),
        refused_each(50, ("remove", 8), ("remove", 9), ("remove", LAST)),
        refused_each(53, *(("remove", number) for number in (1, 3, 5, 6))),
        refused_each(51, *(("name", number, "a") for number in (5, 6, 7))),
        refused_each(51, *(("event", number, "BIRT", "", "", "") for number in (5, 6, 7))),
        refused_each(51, ("child", 3, 6), ("family", 7, ""), ("participant", 4, 5, "")),
        refused_each(51, ("event", 1, "BIRT", "", "", 5), ("amend", 4, "", "", 6), ("amend", 7, "", "", "")),
        next_is(8),
        makes(8, "x", "citation", 3, 6, "", ""),
    ),
    scenario(
        "a place that is of another kind than a place",
        FAMILY,
        place(5, "Kent"),
        next_set(6),
        refused_each(51, ("name", 5, "a"), ("sex", 5, "M"), ("family", 5, ""), ("family", "", 5)),
        refused_each(51, ("child", 5, 1), ("child", 3, 5), ("event", 5, "BIRT", "", "", "")),
        refused_each(51, ("participant", 5, 1, ""), ("participant", 4, 5, ""), ("amend", 5, "", "", 5)),
        refused_each(51, ("source", "", "", "", 5, ""), ("citation", 5, 9, "", ""), ("citation", 1, 5, "", "")),
        makes(6, "x", "event", 1, "BIRT", "", "", 5),
        shows(6, (0, "event", "-", 1), (1, "BIRT", "", "-"), (1, "date", "-", 5)),
        refuses(53, "y", "remove", 5),
        changes("z", "remove", 6),
        changes("y", "remove", 5),
        shows(5),
    ),
    scenario(
        "each tag is of persons, of families, of both or of neither",
        makes(1, "p", "person", "", ""),
        makes(2, "f", "family", "", ""),
        tag_steps(),
    ),
    scenario(
        "room comes last",
        FAMILY,
        next_set(LAST),
        makes(LAST, "l", "person", "Eva /Ray/", "F"),
        next_is(LAST + 1),
        refused_each(63, ("person", "", ""), ("event", 1, "BIRT", "", "", ""), ("family", 1, 2)),
        refused_each(63, ("family", "", ""), ("event", 3, "MARR", "", "1700", "")),
        refused_each(63, ("repo", ""), ("source", "", "", "", "", ""), ("place", "Kent", "")),
        refused_each(58, ("place", "", ""), ("place", "x" * 4_097, "")),
        refused_each(50, ("place", "Kent", 9)),
        refused_each(51, ("place", "Kent", 1)),
        refused_each(50, ("source", "", "", "", 9, ""), ("citation", 1, 9, "", "")),
        refused_each(51, ("source", "", "", "", 1, ""), ("citation", 1, 2, "", "")),
        refused_each(53, ("remove", 1)),
        refused_each(62, ("event", 1, "DIV", "", "", "")),
        refused_each(54, ("family", 2, 2)),
        refused_each(50, ("family", 9, ""), ("event", 9, "BIRT", "", "", "")),
        refused_each(51, ("family", 3, ""), ("event", 4, "BIRT", "", "", "")),
        changes("x", "name", 1, "Eva"),
        changes("y", "sex", LAST, "U"),
        changes("z", "child", 3, LAST),
        changes("v", "participant", 4, LAST, "witness"),
        changes("w", "amend", 4, "court", "", ""),
        makes(LAST, "l", "person", "Eva /Ray/", "F"),
        next_is(LAST + 1),
        shows(
            LAST,
            (0, "person", "-", "-"),
            (1, "name", "Eva /Ray/", "-"),
            (1, "sex", "U", "-"),
        ),
    ),
    scenario(
        "a number that was removed leaves no room",
        FAMILY,
        source(5, "s", "Deeds"),
        next_set(LAST),
        makes(LAST, "c", "citation", 2, 5, "", ""),
        refuses(63, "x", "citation", 2, 5, "", ""),
        changes("d", "remove", LAST),
        shows(LAST),
        next_is(LAST + 1),
        refuses(63, "x", "citation", 2, 5, "", ""),
        makes(LAST, "c", "citation", 2, 5, "", ""),
        shows(LAST),
        changes("e", "remove", 5),
        refuses(50, "x", "citation", 2, 5, "", ""),
    ),
)

# Places 1 to 6 by hand; the parent of place 5 has a greater number, so that it does not count.
PLACES = [
    place(1, "Kent"),
    place(2, ""),
    place(3, ", ", 2),
    place(4, " , ", 1),
    place(5, "", 6),
    place(6, "Ashby"),
    next_set(7),
    makes(7, "p", "person", "", ""),
]


def births(*places, number):
    return [makes(number + i, f"x{at}", "event", 7, "BIRT", "", "", at) for i, at in enumerate(places)]


AT_PLACES = (
    scenario(
        "a path of empty parts is refused",
        PLACES,
        [
            refuses(58, "x", "event", 7, tag, "", "", at)
            for at in (2, 3, 5)
            for tag in ("BIRT", "MARR")
        ],
        births(1, 4, 6, number=8),
        refuses(58, "y", "amend", 8, "", "", 3),
        shows(8, (0, "event", "-", 7), (1, "BIRT", "", "-"), (1, "date", "-", 1)),
        changes("y", "amend", 8, "", "", 6),
        shows(8, (0, "event", "-", 7), (1, "BIRT", "", "-"), (1, "date", "-", 6)),
        next_set(LAST + 1),
        refuses(58, "x", "event", 7, "BIRT", "", "", 2),
        refuses(62, "x", "event", 7, "MARR", "", "", 1),
        refuses(63, "x", "event", 7, "BIRT", "", "", 1),
        refuses(58, "x", "amend", 8, "", "", 2),
    ),
    scenario(
        "what is empty in an amendment stays",
        FAMILY,
        place(8, "Kent"),
        changes("x1", "amend", 4, "", "", ""),
        shows(4, (0, "event", "-", 3), (1, "DIV", "", "-"), (1, "date", "1700", "-")),
        changes("x2", "amend", 4, "court", "", ""),
        shows(4, (0, "event", "-", 3), (1, "DIV", "court", "-"), (1, "date", "1700", "-")),
        changes("x3", "amend", 4, "", "abt 1701", ""),
        shows(4, (0, "event", "-", 3), (1, "DIV", "court", "-"), (1, "date", "ABT 1701", "-")),
        next_is(5),
        changes("x4", "amend", 4, "", "", 8),
        shows(4, (0, "event", "-", 3), (1, "DIV", "court", "-"), (1, "date", "ABT 1701", 8)),
        changes("x5", "amend", 4, "at home", "1702", 8),
        changes("x6", "amend", 4, "", "", ""),
        shows(4, (0, "event", "-", 3), (1, "DIV", "at home", "-"), (1, "date", "1702", 8)),
        next_is(5),
    ),
)

# Names of places that are not normal, or empty.
NO_PLACES = (
    "", " ", ",", ",,", " Kent", "Kent ", "Ashby,Kent", "Ashby , Kent", "Ashby,  Kent", "Ashby, Kent ", ", Kent,"
)


def parts(count):
    return ", ".join(["A"] * count)


NEW_PLACES = (
    scenario(
        "names of places",
        [refuses(58, "x", "place", name, parent) for name in NO_PLACES for parent in ("", 9)],
        makes(1, "a", "place", "Kent", ""),
        [refuses(58, "x", "place", name, 1) for name in NO_PLACES],
        makes(2, "b", "place", ", ", ""),
        makes(3, "c", "place", "Ashby, Kent", ""),
        makes(4, "d", "place", ", Kent", 1),
        makes(5, "e", "place", "Kent, ", ""),
        makes(6, "f", "place", "\tKent\n", ""),
        makes(7, "g", "place", "Kent", ""),
        shows(2, (0, "place", ", ", "-")),
        shows(6, (0, "place", "\tKent\n", "-")),
        makes(8, "p", "person", "", ""),
        refuses(58, "x", "event", 8, "BIRT", "", "", 2),
        makes(9, "h", "place", ", ", 2),
        refuses(58, "x", "event", 8, "BIRT", "", "", 9),
        makes(10, "x", "event", 8, "BIRT", "", "", 4),
    ),
    scenario(
        "the parent of a place comes before the limits of its path",
        FAMILY,
        refuses(58, "x", "place", parts(33), ""),
        refuses(50, "x", "place", parts(33), 9),
        refuses(51, "x", "place", parts(33), 1),
        refuses(50, "x", "place", "x" * 4_097, 9),
        refuses(51, "x", "place", "x" * 4_097, 3),
        [refuses(51, "x", "place", "Kent", number) for number in (1, 3, 4)],
        refuses(50, "x", "place", "Kent", 5),
        refuses(50, "x", "place", "Kent", LAST),
        next_is(5),
    ),
    scenario(
        "the thirty-third place of a chain",
        [makes(number, f"a{number}", "place", "A", number - 1 if number > 1 else "") for number in range(1, 33)],
        refuses(58, "q1", "place", "A", 32),
        refuses(50, "q2", "place", "A", 33),
        makes(33, "q3", "person", "Ann /Lee/", ""),
        refuses(51, "q4", "place", "A", 33),
        refuses(58, "q5", "place", "A, B", 31),
        makes(34, "q6", "place", "B", 31),
        makes(35, "q7", "place", parts(31), 1),
        refuses(58, "q8", "place", parts(32), 1),
        makes(36, "q9", "place", parts(32), ""),
        refuses(58, "q10", "place", "A", 36),
    ),
    scenario(
        "a path of 4,096 bytes",
        makes(1, "a", "place", "x" * 4_096, ""),
        refuses(58, "b", "place", "x" * 4_097, ""),
        makes(2, "c", "place", "é" * 2_048, ""),
        refuses(58, "d", "place", "é" * 2_048 + "x", ""),
        refuses(58, "e", "place", "A", 1),
        makes(3, "f", "place", "y" * 2_000, ""),
        refuses(58, "g", "place", "z" * 2_095, 3),
        makes(4, "h", "place", "z" * 2_094, 3),
        refuses(58, "i", "place", "A", 4),
        shows(4, (0, "place", "z" * 2_094, 3)),
        next_is(5),
    ),
)

SCENARIOS = TEXTS + NUMBERS + AT_PLACES + NEW_PLACES
