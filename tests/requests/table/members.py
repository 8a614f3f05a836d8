"""Members of families and participants of events: added, removed, refused, and what an undoing makes of them.

The checks of `partner`, `unpartner` and `unchild` come in this order: 50 and 51 of the family, then of the person, then
59 or 65; those of `unparticipant`: 50 and 51 of the event, then 64.
"""

from __future__ import annotations

from table.making import FAMILY, LAST, changes, keeps, looks, makes, next_is, next_set, refuses, row, scenario, shows
from table.order import refused_each
from table.stored import SAME, STORE, STORED, with_made

# A family of person 1, whose membership has lines on both sides, and of person 2, a child with lines on both sides.
FILE = "\n".join((
    "0 HEAD",
    "0 @I1@ INDI",
    "1 FAMS @F1@",
    "2 NOTE his",
    "0 @I2@ INDI",
    "1 FAMC @F1@",
    "2 PEDI adopted",
    "0 @F1@ FAM",
    "1 HUSB @I1@",
    "2 NOTE of the family",
    "1 CHIL @I2@",
    "2 NOTE the first",
    "1 _SEEN 1900",
    "0 TRLR",
)) + "\n"

EVENT = [
    changes("q1", "participant", 4, 2, "witness"),
    changes("q2", "participant", 4, 1, "priest"),
    changes("q3", "participant", 4, 2, ""),
]


def family(*partners, children=()):
    """The stored lines of family 3; a partner is `husband` or `wife` with a number."""
    lines = [(0, "family", "-", "-"), *((1, "partner", role, who) for role, who in partners)]
    return shows(3, *lines, *((1, "child", "-", who) for who in children))


def event(*participants):
    """The stored lines of event 4 with these roles and persons."""
    lines = [(0, "event", "-", 3), (1, "DIV", "", "-"), (1, "date", "1700", "-")]
    return shows(4, *lines, *((1, "participant", role, who) for role, who in participants))


SCENARIOS = (
    scenario(
        "partners are added and removed",
        FAMILY,
        changes("a", "partner", 3, "husband", 2),
        family(("wife", 1), ("husband", 2)),
        changes("b", "unpartner", 3, 1),
        family(("husband", 2)),
        changes("c", "partner", 3, "husband", 1),
        family(("husband", 2), ("husband", 1)),
        changes("d", "unpartner", 3, 2),
        changes("e", "unpartner", 3, 1),
        family(),
        changes("f", "partner", 3, "wife", 2),
        family(("wife", 2)),
        keeps("a", 0, 0, "partner", 3, "husband", 2),
        keeps("b", 0, 0, "unpartner", 3, 1),
        # what is asked again by its token is answered, and does nothing
        changes("b", "unpartner", "03", "0001"),
        changes("f", "partner", "003", "wife", "02"),
        family(("wife", 2)),
        refuses(52, "a", "partner", 3, "wife", 2),
        refuses(52, "a", "child", 3, 2),
        refuses(52, "b", "unchild", 3, 1),
        refuses(52, "d", "unpartner", 3, 1),
        shows(1, (0, "person", "-", "-"), (1, "name", "Tom /Lee/", "-")),
        next_is(5),
    ),
    scenario(
        "children are removed",
        FAMILY,
        makes(5, "p3", "person", "Eva", ""),
        changes("a", "child", 3, 2),
        changes("b", "child", 3, 5),
        changes("c", "unchild", 3, 2),
        family(("wife", 1), children=(5,)),
        changes("d", "child", 3, 2),
        family(("wife", 1), children=(5, 2)),
        changes("e", "unchild", 3, 5),
        changes("f", "partner", 3, "husband", 5),
        family(("wife", 1), ("husband", 5), children=(2,)),
        refuses(65, "x", "unchild", 3, 5),
        refuses(65, "x", "unpartner", 3, 2),
        changes("c", "unchild", 3, 2),
        refuses(52, "c", "unchild", 3, 5),
        changes("g", "unchild", 3, 2),
        family(("wife", 1), ("husband", 5)),
        changes("h", "remove", 2),
        next_is(6),
    ),
    scenario(
        "participants are removed by their place",
        FAMILY,
        EVENT,
        event(("witness", 2), ("priest", 1), ("", 2)),
        refused_each(64, *(("unparticipant", 4, place) for place in (4, 5, LAST))),
        changes("a", "unparticipant", 4, 2),
        event(("witness", 2), ("", 2)),
        changes("b", "unparticipant", 4, 2),
        event(("witness", 2)),
        refuses(64, "x", "unparticipant", 4, 2),
        changes("a", "unparticipant", "04", "0002"),
        refuses(52, "a", "unparticipant", 4, 1),
        event(("witness", 2)),
        changes("c", "unparticipant", 4, 1),
        event(),
        refuses(64, "x", "unparticipant", 4, 1),
        next_is(5),
    ),
    scenario(
        "what a membership carries goes on both sides",
        STORE,
        (row("i1", "! import", FILE).encode(), b"i1,ok,1,3\n"),
        shows(
            3,
            (0, "family", "-", "-"),
            (1, "partner", "husband", 1),
            (2, "side", "-", "-"),
            (3, "NOTE", "his", "-"),
            (2, "carried", "-", "-"),
            (3, "NOTE", "of the family", "-"),
            (1, "child", "-", 2),
            (2, "side", "-", "-"),
            (3, "PEDI", "adopted", "-"),
            (2, "carried", "-", "-"),
            (3, "NOTE", "the first", "-"),
            (1, "carried", "-", "-"),
            (2, "_SEEN", "1900", "-"),
        ),
        changes("a", "unpartner", 3, 1),
        changes("b", "unchild", 3, 2),
        shows(3, (0, "family", "-", "-"), (1, "carried", "-", "-"), (2, "_SEEN", "1900", "-")),
        shows(1, (0, "person", "-", "-")),
        shows(2, (0, "person", "-", "-")),
        SAME,
        changes("c", "partner", 3, "wife", 2),
        changes("d", "child", 3, 1),
        shows(
            3,
            (0, "family", "-", "-"),
            (1, "partner", "wife", 2),
            (1, "child", "-", 1),
            (1, "carried", "-", "-"),
            (2, "_SEEN", "1900", "-"),
        ),
        SAME,
    ),
    scenario(
        "the order of the checks on members and participants",
        FAMILY,
        EVENT,
        changes("c", "child", 3, 2),
        refused_each(50, ("partner", 99, "wife", 3), ("partner", 3, "wife", 99), ("partner", LAST, "husband", LAST)),
        refused_each(51, ("partner", 1, "wife", 99), ("partner", 4, "wife", 2), ("partner", 3, "husband", 3)),
        refused_each(51, ("partner", 3, "husband", 4)),
        refused_each(59, *(("partner", 3, role, person) for role in ("husband", "wife") for person in (1, 2))),
        [
            step
            for verb in ("unpartner", "unchild")
            for step in (
                *refused_each(50, (verb, 99, 3), (verb, 3, 99), (verb, 99, 1)),
                *refused_each(51, (verb, 1, 99), (verb, 4, 1), (verb, 3, 3), (verb, 3, 4)),
            )
        ],
        refused_each(65, ("unpartner", 3, 2), ("unchild", 3, 1)),
        refused_each(50, ("unparticipant", 99, 1), ("unparticipant", 5, 9)),
        refused_each(51, ("unparticipant", 1, 1), ("unparticipant", 3, 9), ("unparticipant", 2, LAST)),
        refused_each(64, ("unparticipant", 4, 4)),
        next_set(LAST + 1),
        refused_each(59, ("partner", 3, "wife", 1)),
        refused_each(65, ("unchild", 3, 1)),
        refused_each(64, ("unparticipant", 4, 4)),
        # none of them draws a number
        changes("k1", "unparticipant", 4, 1),
        changes("k2", "unchild", 3, 2),
        changes("k3", "partner", 3, "wife", 2),
        changes("k4", "unpartner", 3, 1),
        family(("wife", 2)),
        next_is(LAST + 1),
    ),
    scenario(
        "a slip is undone where its members are as they were",
        FAMILY,
        makes(5, "p3", "person", "Eva", ""),
        makes(6, "m", "merge", 5, 1),
        family(("wife", 5)),
        changes("a", "unpartner", 3, 5),
        refuses(56, "u", "undo", 6),
        changes("b", "partner", 3, "husband", 5),
        refuses(56, "u", "undo", 6),
        changes("c", "unpartner", 3, 5),
        changes("d", "partner", 3, "wife", 5),
        changes("u", "undo", 6),
        family(("wife", 1)),
        refuses(50, "x", "unpartner", 6, 1),
        refuses(50, "x", "partner", 3, "wife", 6),
        next_is(7),
    ),
    scenario(
        "looks of the commands on members and participants",
        FAMILY,
        EVENT,
        looks(4, "x", "partner", 3, "husband", 2),
        looks(4, "x", "unpartner", 3, 1),
        looks(3, "x", "unparticipant", 4, 1),
        looks(2, "x", "partner", 99, "husband", 2),
        looks(2, "x", "partner", 1, "husband", 99),
        looks(3, "x", "partner", 3, "husband", 99),
        looks(3, "x", "partner", 3, "husband", 1),
        looks(2, "x", "unpartner", 99, 1),
        looks(3, "x", "unpartner", 3, 4),
        looks(3, "x", "unpartner", 3, 2),
        looks(3, "x", "unchild", 3, 1),
        looks(2, "x", "unparticipant", 99, 1),
        looks(2, "x", "unparticipant", 3, 1),
        looks(2, "x", "unparticipant", 4, 4),
        changes("c", "child", 3, 2),
        looks(4, "x", "unchild", 3, 2),
        changes("d", "unpartner", 3, 1),
        looks(2, "d", "unpartner", 3, 1),
        looks(1, "d", "unpartner", 3, 2),
    ),
    scenario(
        "members and participants in files",
        STORED,
        EVENT,
        changes("a", "partner", 3, "husband", 2),
        SAME,
        changes("b", "unpartner", 3, 1),
        SAME,
        changes("c", "child", 3, 1),
        changes("d", "unchild", 3, 1),
        SAME,
        changes("e", "unparticipant", 4, 2),
        family(("husband", 2)),
        event(("witness", 2), ("", 2)),
        SAME,
        with_made("", ("partner", 3, "wife", 1), "ok", "ok", "ok", "ok"),
        with_made("", ("unpartner", 3, 2), "ok", "ok", "ok", "ok"),
        with_made("", ("unpartner", 3, 1), 65, 65, "ok", "ok"),
        with_made("", ("unchild", 3, 2), 65, 65, "ok", "ok"),
        with_made("", ("unparticipant", 4, 2), "ok", "ok", "ok", "ok"),
        with_made("", ("unparticipant", 4, 3), 64, 64, "ok", "ok"),
        SAME,
    ),
)
