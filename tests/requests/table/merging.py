"""Persons merged, and merges undone.

`merge`: 50 and 51 of the person that stays, then of the one that is gone, then 54, 55, and last 63. `undo`: 50 where no
slip has the number, or 51 where a record has it, then 57, and last 56. A slip draws a number and is no record.
"""

from __future__ import annotations

from table.making import (
    FAMILY,
    LAST,
    changes,
    entry,
    keeps,
    makes,
    next_is,
    next_set,
    refuses,
    scenario,
    shows,
    shows_entry,
    source,
)
from table.order import refused_each

MANY = 2_000  # records that name the person that is gone


def person(number, *names, sex=None, carried=()):
    """The stored lines of a person: the names, the sex, and the sexes that are carried."""
    lines = [(0, "person", "-", "-"), *((1, "name", name, "-") for name in names)]
    lines += [(1, "sex", sex, "-")] if sex else []
    lines += [(1, "carried", "-", "-"), *((2, "SEX", other, "-") for other in carried)] if carried else []
    return shows(number, *lines)


def family(number, partners=(), children=()):
    """The stored lines of a family; a partner is `husband` or `wife` with a number."""
    lines = [(0, "family", "-", "-"), *((1, "partner", role, who) for role, who in partners)]
    return shows(number, *lines, *((1, "child", "-", who) for who in children))


def event(number, owner, tag, *participants):
    """The stored lines of an event without value, date and place; a participant is a role and a number."""
    return shows(
        number, (0, "event", "-", owner), (1, tag, "", "-"), *((1, "participant", *one) for one in participants)
    )


PERSONS = [makes(1, "p1", "person", "a", ""), makes(2, "p2", "person", "b", ""), makes(3, "p3", "person", "c", "")]
AS_MADE = [person(1, "a"), person(2, "b"), person(3, "c")]

SLIPS = (
    scenario(
        "three persons become one, and again three",
        PERSONS,
        makes(4, "m1", "merge", 1, 2),
        person(1, "a", "b"),
        shows(2),
        shows(4),
        makes(5, "m2", "merge", 3, 1),
        person(3, "c", "a", "b"),
        shows(1),
        refuses(56, "u1", "undo", 4),
        changes("u2", "undo", 5),
        person(1, "a", "b"),
        person(3, "c"),
        changes("u1", "undo", 4),
        AS_MADE,
        next_is(6),
        [refuses(57, "u3", "undo", slip) for slip in (4, 5)],
        [keeps(token, number, 1, "merge", *two) for token, number, two in (("m1", 4, (1, 2)), ("m2", 5, (3, 1)))],
        keeps("u1", 0, 0, "undo", 4),
        # what is asked again by its token is answered, and does nothing
        makes(4, "m1", "merge", 1, 2),
        changes("u1", "undo", 4),
        refuses(52, "m1", "merge", 2, 1),
        refuses(52, "u1", "undo", 5),
        AS_MADE,
        makes(6, "m3", "merge", 2, 1),
        person(2, "b", "a"),
        shows(1),
        changes("u4", "undo", 6),
        AS_MADE,
        next_is(7),
    ),
    scenario(
        "a slip is no record",
        PERSONS,
        makes(4, "m", "merge", 1, 2),
        refused_each(
            50, ("remove", 4), ("name", 4, "x"), ("sex", 4, "M"), ("family", 4, ""), ("child", 4, 4), ("merge", 4, 1)
        ),
        refused_each(
            50, ("merge", 1, 4), ("event", 4, "BIRT", "", "", ""), ("citation", 4, 4, "", ""), ("link", 4, 1, 1, "x")
        ),
        refused_each(
            50,
            ("remove", 2),
            ("name", 2, "x"),
            ("merge", 1, 2),
            ("merge", 2, 1),
            ("undo", 2),
            ("undo", 5),
            ("undo", LAST),
        ),
        refused_each(51, ("undo", 1), ("undo", 3)),
        next_is(5),
        makes(5, "n", "person", "d", ""),
        refuses(51, "x", "undo", 5),
        changes("u", "undo", 4),
        refused_each(50, ("remove", 4), ("merge", 4, 1), ("merge", 1, 4)),
        refuses(57, "x", "undo", 4),
        AS_MADE,
    ),
    scenario(
        "what is looked at first in a merge and in its undoing",
        FAMILY,
        refused_each(
            50, ("merge", 99, 99), ("merge", 99, 3), ("merge", 99, 1), ("merge", 1, 99), ("merge", LAST, LAST)
        ),
        refused_each(51, ("merge", 3, 99), ("merge", 4, 4), ("merge", 3, 1), ("merge", 1, 3), ("merge", 1, 4)),
        refused_each(54, ("merge", 1, 1), ("merge", 2, 2)),
        changes("c", "child", 3, 2),
        refused_each(55, ("merge", 1, 2), ("merge", 2, 1)),
        makes(5, "p", "person", "Eva", ""),
        next_set(LAST),
        makes(LAST, "m", "merge", 5, 2),
        next_is(LAST + 1),
        refused_each(50, ("merge", 2, 1), ("merge", 99, 1)),
        refused_each(51, ("merge", 1, 3), ("merge", 3, 99)),
        refused_each(54, ("merge", 1, 1), ("merge", 5, 5)),
        refused_each(55, ("merge", 1, 5), ("merge", 5, 1)),
        changes("u", "undo", LAST),
        refused_each(55, ("merge", 1, 2), ("merge", 2, 1)),
        refused_each(63, ("merge", 1, 5), ("merge", 5, 2)),
        refuses(57, "x", "undo", LAST),
        next_is(LAST + 1),
    ),
    scenario(
        "a merge is not undone over what was changed since",
        FAMILY,
        makes(5, "m", "merge", 1, 2),
        person(1, "Tom /Lee/", "Ann /Lee/"),
        changes("s", "sex", 1, "F"),
        refuses(56, "u", "undo", 5),
        person(1, "Tom /Lee/", "Ann /Lee/", sex="F"),
        next_is(6),
        makes(6, "p", "person", "Eva", "M"),
        makes(7, "n", "merge", 1, 6),
        person(1, "Tom /Lee/", "Ann /Lee/", "Eva", sex="F", carried=("M",)),
        refuses(56, "u", "undo", 5),
        changes("v", "undo", 7),
        refuses(56, "u", "undo", 5),
        family(3, [("wife", 1)]),
    ),
    scenario(
        "a record that has its new value again does not stand in the way",
        makes(1, "p", "person", "a", "M"),
        makes(2, "q", "person", "b", ""),
        makes(3, "m", "merge", 1, 2),
        changes("s", "sex", 1, "F"),
        refuses(56, "u", "undo", 3),
        changes("t", "sex", 1, "M"),
        changes("u", "undo", 3),
        person(1, "a", sex="M"),
        person(2, "b"),
    ),
    scenario(
        "the person that stays is gone too, and comes back first",
        PERSONS,
        makes(4, "m", "merge", 1, 2),
        changes("d", "remove", 1),
        refuses(56, "u", "undo", 4),
        refuses(50, "x", "merge", 1, 3),
        shows(1),
        shows(2),
        makes(5, "p", "person", "d", ""),
        refuses(56, "u", "undo", 4),
    ),
    scenario(
        "other records are left as they are when a merge is undone",
        PERSONS,
        makes(4, "m", "merge", 1, 2),
        makes(5, "p", "person", "Ann /Lee/", "F"),
        changes("s", "sex", 3, "U"),
        makes(6, "f", "family", 3, 5),
        makes(7, "e", "event", 1, "BIRT", "", "", ""),
        changes("u", "undo", 4),
        person(1, "a"),
        person(2, "b"),
        person(3, "c", sex="U"),
        person(5, "Ann /Lee/", sex="F"),
        family(6, [("husband", 3), ("wife", 5)]),
        event(7, 1, "BIRT"),
        next_is(8),
    ),
)


def sexes():
    """Each sex, or none, of the one that stays and of the one that is gone."""
    steps, number = [], 1
    for first in ("", "M", "F", "U"):
        for second in ("", "M", "F", "U"):
            keep, gone, slip = number, number + 1, number + 2
            both = first and second
            steps += [
                makes(keep, f"k{keep}", "person", "a", first),
                makes(gone, f"g{gone}", "person", "b", second),
                makes(slip, f"m{slip}", "merge", keep, gone),
                person(keep, "a", "b", sex=first or second, carried=(second,) if both else ()),
                changes(f"u{slip}", "undo", slip),
                person(keep, "a", sex=first),
                person(gone, "b", sex=second),
            ]
            number += 3
    return steps


MERGED = (
    scenario(
        "the sex of the one that is gone fills an empty one, and else is carried, also where it is the same", sexes()
    ),
    scenario(
        "sexes that are carried come one behind the other",
        [
            makes(n, f"p{n}", "person", name, sex)
            for n, name, sex in ((1, "a", "M"), (2, "b", "F"), (3, "c", "U"), (4, "d", "M"))
        ],
        makes(5, "m1", "merge", 3, 4),
        person(3, "c", "d", sex="U", carried=("M",)),
        makes(6, "m2", "merge", 1, 2),
        makes(7, "m3", "merge", 1, 3),
        person(1, "a", "b", "c", "d", sex="M", carried=("F", "M", "U")),
        changes("u3", "undo", 7),
        changes("u1", "undo", 5),
        person(1, "a", "b", sex="M", carried=("F",)),
        person(4, "d", sex="M"),
    ),
    scenario(
        "two children of one family become one, where the first of them is",
        PERSONS,
        makes(4, "f", "family", "", ""),
        [changes(f"c{n}", "child", 4, n) for n in (3, 2, 1)],
        makes(5, "m1", "merge", 1, 2),
        family(4, children=[3, 1]),
        changes("u1", "undo", 5),
        family(4, children=[3, 2, 1]),
        makes(6, "m2", "merge", 3, 1),
        family(4, children=[3, 2]),
        makes(7, "m3", "merge", 2, 3),
        family(4, children=[2]),
        refuses(56, "u2", "undo", 6),
        changes("u3", "undo", 7),
        changes("u2", "undo", 6),
        family(4, children=[3, 2, 1]),
        AS_MADE,
    ),
    scenario(
        "the children of a family, and a person that is made since",
        makes(1, "a", "person", "a", ""),
        makes(2, "b", "person", "b", ""),
        makes(3, "f", "family", "", ""),
        changes("c", "child", 3, 1),
        changes("d", "child", 3, 2),
        makes(4, "m", "merge", 1, 2),
        family(3, children=[1]),
        makes(5, "p", "person", "Ann /Lee/", "F"),
        changes("u", "undo", 4),
        family(3, children=[1, 2]),
        person(5, "Ann /Lee/", sex="F"),
    ),
    scenario(
        "persons of one family, of whom one is a partner",
        PERSONS,
        makes(4, "f", "family", 1, 2),
        changes("c", "child", 4, 3),
        refused_each(55, *(("merge", keep, gone) for keep in (1, 2, 3) for gone in (1, 2, 3) if keep != gone)),
        makes(5, "g", "family", "", 3),
        changes("d", "child", 5, 1),
        refused_each(55, ("merge", 1, 3), ("merge", 3, 1)),
        next_is(6),
    ),
    scenario(
        "all that names the person that is gone names the one that stays",
        PERSONS,
        makes(4, "f1", "family", 2, 3),
        makes(5, "f2", "family", "", ""),
        changes("c", "child", 5, 2),
        makes(6, "e1", "event", 2, "BIRT", "", "", ""),
        makes(7, "e2", "event", 3, "DEAT", "", "", ""),
        changes("q1", "participant", 7, 2, "witness"),
        changes("q2", "participant", 7, 1, "clerk"),
        changes("q3", "participant", 7, 2, ""),
        source(8, "s", "Ashby register"),
        makes(9, "t", "citation", 2, 8, "f. 3", ""),
        makes(10, "n", *entry(8, mentions=("child", "John", "father", "b", "mother", "c"))),
        changes("l1", "link", 10, 2, 2, "same farm"),
        changes("l2", "link", 10, 3, 3, "same name"),
        changes("l3", "link", 10, 1, 2, "age"),
        makes(11, "m", "merge", 1, 2),
        person(1, "a", "b"),
        shows(2),
        family(4, [("husband", 1), ("wife", 3)]),
        family(5, children=[1]),
        event(6, 1, "BIRT"),
        event(7, 3, "DEAT", ("witness", 1), ("clerk", 1), ("", 1)),
        shows(9, (0, "citation", "-", 1), (1, "source", "f. 3", 8)),
        shows_entry(
            10,
            *("BAPTISM", ("f. 3", 8), 1, ""),
            ("child", "John", 1, "age"),
            ("father", "b", 1, "same farm"),
            ("mother", "c", 3, "same name"),
        ),
        refuses(53, "d", "remove", 1),
        refuses(50, "d", "remove", 2),
        changes("u", "undo", 11),
        AS_MADE,
        family(4, [("husband", 2), ("wife", 3)]),
        family(5, children=[2]),
        event(6, 2, "BIRT"),
        event(7, 3, "DEAT", ("witness", 2), ("clerk", 1), ("", 2)),
        shows(9, (0, "citation", "-", 2), (1, "source", "f. 3", 8)),
        shows_entry(
            10,
            *("BAPTISM", ("f. 3", 8), 1, ""),
            ("child", "John", 2, "age"),
            ("father", "b", 2, "same farm"),
            ("mother", "c", 3, "same name"),
        ),
        refuses(53, "d", "remove", 2),
        changes("d", "remove", 10),
    ),
    scenario(
        "a record that named the one that is gone was removed since",
        PERSONS,
        makes(4, "e", "event", 2, "BIRT", "", "", ""),
        makes(5, "m", "merge", 1, 2),
        changes("d", "remove", 4),
        refuses(56, "u", "undo", 5),
        person(1, "a", "b"),
    ),
)

FAR = (
    scenario(
        f"a merge of a person with {MANY:,} events, undone",
        makes(1, "p1", "person", "a", ""),
        makes(2, "p2", "person", "b", ""),
        [makes(3 + at, f"e{at}", "event", 2, "RESI", "", "", "") for at in range(MANY)],
        makes(3 + MANY, "m", "merge", 1, 2),
        [event(number, 1, "RESI") for number in (3, 4, 1_000, 2 + MANY)],
        person(1, "a", "b"),
        shows(2),
        changes("u", "undo", 3 + MANY),
        [event(number, 2, "RESI") for number in (3, 4, 1_000, 2 + MANY)],
        makes(4 + MANY, "n", "merge", 2, 1),
        changes("x", "amend", 3, "at home", "", ""),
        changes("v", "undo", 4 + MANY),
        person(1, "a"),
        person(2, "b"),
    ),
)

SCENARIOS = (*SLIPS, *MERGED, *FAR)
