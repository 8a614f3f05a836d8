"""Changes of many records, which take no more of the stack than one."""

from __future__ import annotations

from table.making import makes, next_is, place, places, refuses, scenario, shows

SCENARIOS = (
    scenario(
        "100,000 records are put by one change",
        places(100_000, "Ashby"),
        next_is(100_001),
        shows(1, (0, "place", "Ashby", "-")),
        shows(50_000, (0, "place", "Ashby", "-")),
        shows(100_001),
        makes(100_001, "p", "person", "Ann /Lee/", "F"),
        makes(100_002, "e", "event", 100_001, "BIRT", "", "", 99_999),
    ),
    scenario(
        "records are put where others are, and where none are",
        place(2, "Kent"),
        place(5, "Mill", 2),
        next_is(1),
        places(3, "Ashby"),
        next_is(4),
        shows(1, (0, "place", "Ashby", "-")),
        shows(2, (0, "place", "Ashby", "-")),
        shows(3, (0, "place", "Ashby", "-")),
        shows(4),
        shows(5, (0, "place", "Mill", 2)),
        refuses(51, "n", "name", 3, "Ann /Lee/"),
    ),
)
