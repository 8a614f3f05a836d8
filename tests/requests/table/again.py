"""Requests that come again.

The same command under the same token gets the kept answer, another one is 52, and nothing is kept of a refused one.
"""

from __future__ import annotations

from table.making import (
    FAMILY,
    LAST,
    changes,
    keeps,
    keeps_nothing,
    makes,
    next_is,
    next_set,
    place,
    refuses,
    scenario,
    shows,
    shows_entry,
    source,
)

# A request of each verb in the archive of FAMILY with place 8 and next number 9, and what it makes.
EACH = (
    (9, "person", "Eva /Ray/", "F"),
    (0, "name", "1", "Thomas"),
    (0, "sex", "1", "M"),
    (10, "family", "1", "2"),
    (0, "child", "3", "2"),
    (11, "event", "1", "BIRT", "at home", "1 MAY 1700", "8"),
    (0, "amend", "4", "court", "ABT 1701", "8"),
    (0, "participant", "4", "2", "witness"),
    (12, "repo", "County archive"),
    (13, "source", "Ashby register", "Rev. Lee", "", "12", "MS 4"),
    (14, "citation", "4", "13", "f. 3", "2"),
    (0, "remove", "14"),
    (15, "place", "Mill, Ashby", "8"),
    (16, "entry", "13", "BAPTISM", "f. 3", "1", "1 MAY 1700", "8", "John", "child", "John", "father", "Tom Lee"),
    (0, "link", "16", "2", "1", "same farm"),
    (0, "link", "16", "1", "2", "same name"),
    (0, "unlink", "16", "1"),
    (17, "merge", "9", "2"),
    (0, "undo", "17"),
    (0, "correct", "13", "author", "Rev. Ray"),
)


def answered(number, token, *command):
    return makes(number, token, *command) if number else changes(token, *command)


def firsts():
    return [answered(number, f"t{i}", *command) for i, (number, *command) in enumerate(EACH)]


def kept():
    return [
        keeps(f"t{i}", number, 1 if number else 0, *command)
        for i, (number, *command) in enumerate(EACH)
    ]


def others():
    """Each token with each other command."""
    return [
        refuses(52, f"t{i}", *command)
        for i in range(len(EACH))
        for j, (_, *command) in enumerate(EACH)
        if i != j
    ]


# Another value for each field of the entry and of the first link.
OTHER_FIELDS = {
    "entry": ("1", "BURIAL", "f. 4", "2", "1700", "", "Jon", "mother", "Jon", "mother", "Tom"),
    "link": ("13", "1", "2", "same name"),
}


def near(verb, *fields):
    """The command with each of its fields otherwise, and an entry with a mention less and more, and in another
    order."""
    commands = [(verb, *fields[:at], value, *fields[at + 1 :]) for at, value in enumerate(OTHER_FIELDS[verb])]
    if verb == "entry":
        commands += [(verb, *fields[:-2]), (verb, *fields, "", ""), (verb, *fields[:7], *fields[9:], *fields[7:9])]
    return commands


WHOLE = [*FAMILY, place(8, "Kent"), next_set(9)]
EVENT_4 = shows(
    4,
    (0, "event", "-", 3),
    (1, "DIV", "court", "-"),
    (1, "date", "ABT 1701", 8),
    (1, "participant", "witness", 2),
)
SOURCE_13 = shows(
    13,
    (0, "source", "Ashby register", "-"),
    (1, "author", "Rev. Ray", "-"),
    (1, "holding", "MS 4", 12),
)

ENTRY_16 = shows_entry(
    *(16, "BAPTISM", ("f. 3", 13), 1, "John"),
    ("child", "John"),
    ("father", "Tom Lee", 1, "same farm"),
    when=("1 MAY 1700", 8),
)

SCENARIOS = (
    scenario(
        "each command once, again, and another under its token",
        WHOLE,
        firsts(),
        next_is(18),
        firsts(),
        next_is(18),
        EVENT_4,
        SOURCE_13,
        ENTRY_16,
        shows(14),
        kept(),
        others(),
        next_is(18),
        firsts(),
        kept(),
        EVENT_4,
        SOURCE_13,
        ENTRY_16,
        shows(14),
    ),
    scenario(
        "a kept answer comes before all checks",
        WHOLE,
        firsts(),
        next_set(LAST + 1),
        firsts(),
        next_is(LAST + 1),
        refuses(52, "t0", "person", "\r", ""),
        refuses(52, "t0", "name", 99, "a"),
        refuses(52, "t4", "child", 3, 1),
        refuses(52, "t3", "family", 2, 2),
        refuses(52, "t8", "repo", "\0"),
        refuses(52, "t9", "source", "", "", "", "", "MS 4"),
        refuses(52, "t9", "source", "", "", "", 99, ""),
        refuses(52, "t10", "citation", 13, 99, "\r", ""),
        refuses(52, "t11", "remove", 13),
        refuses(52, "t11", "remove", 99),
        refuses(52, "t12", "place", "", 99),
        refuses(52, "t13", "entry", 99, "BURIAL", "\r", 1, "", 99, "", "child", "Ann"),
        refuses(52, "t13", "entry", 13, "BAPTISM", "f. 3", 1, "", "", "", "child", "John"),
        refuses(52, "t14", "link", 16, 2, 1, ""),
        refuses(52, "t14", "link", 16, 3, 99, "same farm"),
        refuses(52, "t16", "unlink", 16, 3),
        refuses(52, "t16", "unlink", 99, 1),
        refuses(52, "t19", "correct", 13, "author", "\r"),
        refuses(52, "t19", "correct", 99, "author", "Rev. Ray"),
        refuses(52, "t19", "correct", 13, "sex", "M"),
        refuses(60, "u", "entry", 13, "BAPTISM", "f. 3", 1, "", "", "", "child", "John"),
        refuses(61, "u", "unlink", 16, 3),
        refuses(59, "u", "child", 3, 2),
        refuses(53, "v", "remove", 12),
        refuses(50, "v", "remove", 14),
    ),
    scenario(
        "the same command in another spelling",
        WHOLE,
        firsts(),
        changes("t1", "name", "0000000001", "Thomas"),
        changes("t2", "sex", "01", "M"),
        makes(10, "t3", "family", "001", "02"),
        changes("t4", "child", "03", "2"),
        makes(11, "t5", "event", "1", "BIRT", "at home", "01  may 1700", "08"),
        makes(11, "t5", "event", "1", "BIRT", "at home", "@#dgregorian@ 1 May 1700", "8"),
        changes("t6", "amend", "4", "court", " abt 1701 ", "8"),
        changes("t7", "participant", "04", "0002", "witness"),
        makes(13, "t9", "source", "Ashby register", "Rev. Lee", "", "0012", "MS 4"),
        makes(14, "t10", "citation", "0000000004", "013", "f. 3", "2"),
        changes("t11", "remove", "014"),
        makes(15, "t12", "place", "Mill, Ashby", "0008"),
        makes(
            *(16, "t13", "entry", "013", "BAPTISM", "f. 3", "0000000001", " 01  may 1700", "08", "John"),
            *("child", "John", "father", "Tom Lee"),
        ),
        makes(
            *(16, "t13", "entry", "13", "BAPTISM", "f. 3", "001", "@#dgregorian@ 1 May 1700", "8", "John"),
            *("child", "John", "father", "Tom Lee"),
        ),
        changes("t14", "link", "016", "0000000002", "01", "same farm"),
        changes("t15", "link", "0016", "1", "02", "same name"),
        changes("t16", "unlink", "00016", "001"),
        changes("t19", "correct", "0013", "author", "Rev. Ray"),
        makes(17, "t17", "merge", "09", "0000000002"),
        changes("t18", "undo", "00017"),
        refuses(52, "t17", "merge", "2", "9"),
        refuses(52, "t18", "undo", "1"),
        [refuses(52, "t13", *command) for command in near(*EACH[13][1:])],
        [refuses(52, "t14", *command) for command in near(*EACH[14][1:])],
        refuses(52, "t16", "unlink", "16", "2"),
        refuses(52, "t12", "place", "Mill, Ashby", ""),
        refuses(52, "t12", "place", "Mill,Ashby", "8"),
        refuses(52, "t1", "name", "1", "thomas"),
        refuses(52, "t1", "name", "1", "Thomas "),
        refuses(52, "t5", "event", "1", "BIRT", "at home", "@#DJULIAN@ 1 MAY 1700", "8"),
        refuses(52, "t5", "event", "1", "BIRT", "at home", "1 MAY 1700", ""),
        refuses(52, "t6", "amend", "4", "court", "", "8"),
        refuses(52, "t6", "amend", "4", "", "ABT 1701", "8"),
        refuses(52, "t8", "repo", "County archive "),
        refuses(52, "t9", "source", "Ashby register", "", "Rev. Lee", "12", "MS 4"),
        refuses(52, "t9", "source", "Ashby register", "Rev. Lee", "", "12", ""),
        refuses(52, "t9", "source", "Ashby register", "Rev. Lee", "", "", "MS 4"),
        refuses(52, "t10", "citation", "4", "13", "f. 3", ""),
        refuses(52, "t10", "citation", "4", "13", "f. 3", "3"),
        refuses(52, "t10", "citation", "4", "13", "", "2"),
        next_is(18),
        EVENT_4,
        SOURCE_13,
        ENTRY_16,
    ),
    scenario(
        "fields that are joined otherwise",
        makes(1, "p", "person", "", ""),
        changes("n", "name", 1, "a,b"),
        refuses(52, "n", "name", 1, '"a,b"'),
        changes("n", "name", 1, "a,b"),
        makes(2, "q", "person", 'M,"', ""),
        refuses(52, "q", "person", "M", "M"),
        refuses(52, "q", "person", 'M,""', ""),
        refuses(52, "p", "person", " ", ""),
        refuses(52, "p", "person", "", "U"),
        source(3, "s", "a", "b"),
        refuses(52, "s", "source", "a,b", "", "", "", ""),
        refuses(52, "s", "source", "a", "", "b", "", ""),
        refuses(52, "s", "repo", "a"),
        source(3, "s", "a", "b"),
        next_is(4),
    ),
    scenario(
        "a refused request is not kept",
        FAMILY,
        refuses(50, "x", "name", 9, "a"),
        keeps_nothing("x"),
        refuses(58, "x", "person", "\r", ""),
        refuses(54, "x", "family", 2, 2),
        refuses(59, "x", "child", 3, 1),
        refuses(62, "x", "event", 1, "MARR", "", "", ""),
        refuses(58, "x", "source", "", "", "", "", "MS 4"),
        refuses(51, "x", "citation", 1, 2, "", ""),
        refuses(53, "x", "remove", 1),
        refuses(50, "x", "entry", 9, "BURIAL", "f. 3", 1, "", "", "", "buried", "Ann"),
        refuses(51, "x", "entry", 1, "BURIAL", "f. 3", 1, "", "", "", "child", "Ann"),
        refuses(58, "x", "link", 9, 1, 1, ""),
        refuses(51, "x", "unlink", 1, 1),
        keeps_nothing("x"),
        next_is(5),
        makes(5, "x", "person", "Eva", ""),
        refuses(52, "x", "name", 9, "a"),
        keeps("x", 5, 1, "person", "Eva", ""),
    ),
    scenario(
        "a request that is refused may be accepted later",
        makes(1, "p", "person", "", ""),
        refuses(50, "f", "family", 1, 2),
        makes(2, "q", "person", "", ""),
        makes(3, "f", "family", 1, 2),
        makes(3, "f", "family", 1, 2),
        refuses(50, "s", "source", "Deeds", "", "", 4, "MS 4"),
        makes(4, "r", "repo", "County archive"),
        source(5, "s", "Deeds", repo=4, call="MS 4"),
        refuses(53, "d", "remove", 4),
        changes("e", "remove", 5),
        changes("d", "remove", 4),
        source(5, "s", "Deeds", repo=4, call="MS 4"),
        refuses(53, "g", "remove", 2),
        refuses(50, "b", "entry", 6, "BURIAL", "f. 3", 1, "", "", "", "buried", "Ann"),
        refuses(50, "l", "link", 7, 1, 2, "same age"),
        source(6, "w", "Wills"),
        makes(7, "b", "entry", 6, "BURIAL", "f. 3", 1, "", "", "", "buried", "Ann"),
        refuses(60, "c", "entry", 6, "BURIAL", "f. 3", 1, "", "", "", "buried", "Eva"),
        changes("l", "link", 7, 1, 2, "same age"),
        changes("k", "remove", 7),
        makes(8, "c", "entry", 6, "BURIAL", "f. 3", 1, "", "", "", "buried", "Eva"),
        makes(7, "b", "entry", 6, "BURIAL", "f. 3", 1, "", "", "", "buried", "Ann"),
        changes("l", "link", 7, 1, 2, "same age"),
        shows_entry(8, "BURIAL", ("f. 3", 6), 1, "", ("buried", "Eva")),
        shows(7),
        next_is(9),
    ),
    scenario(
        "the same command under two tokens is done twice",
        makes(1, "a", "person", "Eva", "F"),
        makes(2, "b", "person", "Eva", "F"),
        makes(2, "b", "person", "Eva", "F"),
        changes("c", "name", 1, "Eve"),
        changes("d", "name", 1, "Eve"),
        shows(
            1,
            (0, "person", "-", "-"),
            (1, "name", "Eva", "-"),
            (1, "name", "Eve", "-"),
            (1, "name", "Eve", "-"),
            (1, "sex", "F", "-"),
        ),
        next_is(3),
    ),
)
