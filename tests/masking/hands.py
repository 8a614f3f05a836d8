"""Cases by hand: each rule of docs/LIVING.md on both sides of the day at which it turns. Expected answers are written
from these rules."""

from __future__ import annotations

from plain import Citation, Entry, Event, Family, Other, Person, Place, Repo, Source, When, spelt

TODAY = 19_723  # 2024-01-01
NOBODY = Person((("Living", False),))
ANN = Person((("Ann /Lee/", False),), "F")
TOM = Person((("Tom /Ray/", False),), "M")
REGISTER = Source("Ashby")


def on(day: int) -> When:
    return When(spelt(day), day)


def alone(when: When | None, tag: str = "BIRT") -> dict:
    """One person with one event."""
    return {1: ANN, 2: Event(1, tag, when)}


def entry(kind: str, day: int, *people: tuple[str, int | None]) -> Entry:
    return Entry(9, kind, 1, on(day), tuple((role, "Name", who) for role, who in people))


TURNS = (
    ("BAPTISM", "child", 36_525),
    ("MARRIAGE", "groom", 27_394),
    ("BURIAL", "spouse", 10_958),
)

AGES = tuple(
    (f"a birth {days} days ago", alone(on(TODAY - days)), TODAY, alone(on(TODAY - days)) if is_dead else {1: NOBODY})
    for days, is_dead in ((40_177, False), (40_178, True), (40_179, True))
)

ENTRIES = tuple(
    (
        f"{kind} {days + more} days ago",
        {9: REGISTER, 10: entry(kind, TODAY - days - more, (role, None))},
        TODAY,
        {9: REGISTER, **({10: entry(kind, TODAY - days - more, (role, None))} if more >= 0 else {})},
    )
    for kind, role, days in TURNS
    for more in (-1, 0, 1)
)

DEATHS = tuple((f"an undated {tag}", alone(None, tag), TODAY, alone(None, tag)) for tag in ("DEAT", "BURI", "CREM"))

OLD = on(TODAY - 40_178)
NEW = on(TODAY - 40_177)
REPUBLICAN = When("@#DFRENCH R@ 18 BRUM 8", -62_144)
BEFORE = When(f"BEF {spelt(TODAY - 40_177)}", TODAY - 40_178)
COUPLE = {1: ANN, 2: TOM, 3: Family((("wife", 1, False), ("husband", 2, False)))}
BOTH_LIVING = {1: NOBODY, 2: NOBODY, 3: COUPLE[3]}

SHOWN = (
    ("nothing", {}, TODAY, {}),
    *AGES,
    *ENTRIES,
    *DEATHS,
    ("the year 1913 was over", alone(When("1913", TODAY - 40_178)), TODAY, alone(When("1913", TODAY - 40_178))),
    ("before a day", alone(BEFORE), TODAY, alone(BEFORE)),
    ("a French Republican day", alone(REPUBLICAN), TODAY, alone(REPUBLICAN)),
    ("a French Republican day, 40,178 days ago", alone(REPUBLICAN), -21_966, alone(REPUBLICAN)),
    ("a French Republican day, 40,177 days ago", alone(REPUBLICAN), -21_967, {1: NOBODY}),
    ("before the next day", alone(When(f"BEF {spelt(TODAY - 40_176)}", None)), TODAY, {1: NOBODY}),
    ("after a day long ago", alone(When("AFT 1 JAN 1700", None)), TODAY, {1: NOBODY}),
    ("from a day long ago", alone(When("FROM 1 JAN 1700", None)), TODAY, {1: NOBODY}),
    ("a note in words", alone(When("(long ago)", None)), TODAY, {1: NOBODY}),
    ("no date", alone(None), TODAY, {1: NOBODY}),
    (
        "a wedding long ago shows both partners dead, and no child",
        {**COUPLE, 3: COUPLE[3]._replace(children=((4, False),)), 4: ANN, 5: Event(3, "MARR", OLD)},
        TODAY,
        {**COUPLE, 3: COUPLE[3]._replace(children=((4, False),)), 4: NOBODY, 5: Event(3, "MARR", OLD)},
    ),
    ("a wedding of the living", {**COUPLE, 5: Event(3, "MARR", NEW)}, TODAY, BOTH_LIVING),
    (
        "one partner is living: no event, no source of the family, and both keep their places",
        {**COUPLE, 4: Event(1, "DEAT"), 5: Event(3, "MARR", NEW), 6: Citation(3, 9), 7: Citation(5, 9), 9: REGISTER},
        TODAY,
        {**COUPLE, 2: NOBODY, 4: Event(1, "DEAT"), 9: REGISTER},
    ),
    (
        "a living child does not hide its parents' wedding",
        {**COUPLE, 3: COUPLE[3]._replace(children=((6, False),)), 4: Event(3, "MARR", OLD), 6: TOM},
        TODAY,
        {**COUPLE, 3: COUPLE[3]._replace(children=((6, False),)), 4: Event(3, "MARR", OLD), 6: NOBODY},
    ),
    (
        "a living participant in an event of the dead",
        {1: ANN, 2: TOM, 4: Event(1, "DEAT", None, None, (("witness", 2, False), ("", 1, False)))},
        TODAY,
        {1: ANN, 2: NOBODY, 4: Event(1, "DEAT", None, None, (("", 1, False),))},
    ),
    (
        "to take part in an old event makes nobody dead",
        {1: ANN, 2: TOM, 4: Event(1, "BIRT", OLD, None, (("witness", 2, False),))},
        TODAY,
        {1: ANN, 2: NOBODY, 4: Event(1, "BIRT", OLD)},
    ),
    (
        "buried in an entry, though the entry is closed",
        {1: ANN, 9: REGISTER, 10: entry("BURIAL", TODAY, ("buried", 1))},
        TODAY,
        {1: ANN, 9: REGISTER},
    ),
    (
        "the spouse of a burial is not buried, and closes the entry",
        {1: ANN, 9: REGISTER, 10: entry("BURIAL", TODAY - 20_000, ("buried", None), ("spouse", 1))},
        TODAY,
        {1: NOBODY, 9: REGISTER},
    ),
    (
        "one of two mentions is linked to a living person",
        {
            1: ANN,
            2: TOM,
            4: Event(1, "DEAT"),
            9: REGISTER,
            10: entry("MARRIAGE", TODAY - 30_000, ("bride", 1), ("witness", 2)),
        },
        TODAY,
        {1: ANN, 2: NOBODY, 4: Event(1, "DEAT"), 9: REGISTER},
    ),
    (
        "an entry whose mentions are all of the dead",
        {1: ANN, 4: Event(1, "DEAT"), 9: REGISTER, 10: entry("MARRIAGE", TODAY - 30_000, ("bride", 1))},
        TODAY,
        {1: ANN, 4: Event(1, "DEAT"), 9: REGISTER, 10: entry("MARRIAGE", TODAY - 30_000, ("bride", 1))},
    ),
    (
        "an entry without a date stays closed",
        {9: REGISTER, 10: Entry(9, "BURIAL", 1, None, (("spouse", "Name", None),))},
        TODAY,
        {9: REGISTER},
    ),
    (
        "carried lines are gone everywhere, and other records",
        {
            1: Person((("Ann /Lee/", True),), "F", True),
            2: TOM._replace(extra=True),
            3: Family((("wife", 1, True),), ((2, True),), True),
            4: Event(1, "DEAT", None, 6, (("", 1, True),), True),
            5: Citation(1, 9, "f. 1", True),
            6: Place("Kent", None, True),
            7: Repo("Office", True),
            8: Other("NOTE"),
            9: Source("Ashby", ((7, True),), True),
        },
        TODAY,
        {
            1: ANN,
            2: NOBODY,
            3: Family((("wife", 1, False),), ((2, False),)),
            4: Event(1, "DEAT", None, 6, (("", 1, False),)),
            5: Citation(1, 9, "f. 1"),
            6: Place("Kent"),
            7: Repo("Office"),
            9: Source("Ashby", ((7, False),)),
        },
    ),
    ("long before there was a calendar of days", alone(on(0)), -2_147_483_648, {1: NOBODY}),
    ("the last day that there is", alone(on(0)), 2_147_483_647, alone(on(0))),
)

ASKED = {1: ANN, 2: TOM, 3: Event(1, "BIRT", on(TODAY - 40_178)), 4: Family((("husband", 2, False),))}

ANSWERS = (
    (1, TODAY, "dead"),
    (1, TODAY - 1, "living"),
    (2, TODAY, "living"),
    (3, TODAY, "51 WrongKind"),
    (4, TODAY, "51 WrongKind"),
    (5, TODAY, "50 NoSuch"),
    (0, TODAY, "50 NoSuch"),
)

LIVING = (("who is living", ASKED, ANSWERS),)
