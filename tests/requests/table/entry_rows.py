"""Rows of register entries and of their links, read as commands: their bytes with the digests, and rows that are
refused.

The order for a row is that of reading.py. An entry has six fields behind its source, and a role and a name for each of
1 to 100 mentions; another count is told before any field is looked at.
"""

from __future__ import annotations

from table.making import LAST, ask, entry, itself, keeps_nothing, next_is, refuses, scenario, spells
from table.reading import DATES, NO_NUMBERS, changed

KINDS = ("BAPTISM", "MARRIAGE", "BURIAL")
NO_KINDS = (
    *("", " ", "baptism", "Marriage", "burial", "BAPTISM ", " BURIAL", "MARRIAGES", "BAPT", "MARR", "CHRISTENING"),
    *("BURIAL\n", "BURIAL\0", "\u0412URIAL", "\u0130", "1", "buried", "_REG", "BAPTISM,MARRIAGE"),
)
# Items of a page, as they are given and as they are spelt.
ITEMS = (
    *(("1", 1), ("9", 9), ("10", 10), ("999999", 999_999), ("7", 7), ("007", 7), ("0000000001", 1)),
    *(("0000999999", 999_999), ("0000000010", 10)),
)
# Numbers that are no items, behind what is no number.
NO_ITEMS = (*NO_NUMBERS, "", "1000000", "0001000000", "1000001", "4294967295")

# Behind the verb: the source, the kind, the page, the item, the date, the place, the text, a role and a name.
PLAIN = ("7", "BAPTISM", "f. 3", "1", "1700", "12", "John of Tom", "child", "John")
SOURCE, KIND, ITEM, DATE, PLACE = 0, 1, 3, 4, 5
MOST = 100  # mentions of an entry


def mentions(count):
    """So many mentions of a burial, all of one person."""
    return ("buried", "Ann Lee") * count


def with_each(at, given):
    """The plain entry with each of these in one place."""
    return [("entry", *changed(PLAIN, at, value)) for value in given]


BYTES = (
    scenario(
        "the bytes of register entries",
        ask(
            "! bytes,entry,7,BAPTISM,f. 3,1,15 APR 1699/00,,John,child,John,father,Tom Lee",
            'bytes,"entry,7,BAPTISM,f. 3,1,15 APR 1699/00,,John,child,John,father,Tom Lee\n"',
            "digest,f93a94c9e6cb9c5170854e14950840f3bcb8f0040306d67e523a3b063b106abe",
        ),
        ask(
            '! bytes,entry,007,BURIAL,"f. 3, verso",0000000002, 01  may 1800 ,0012,"Ann, widow",buried,Ann Lee,spouse,',
            'bytes,"entry,7,BURIAL,""f. 3, verso"",2,1 MAY 1800,12,""Ann, widow"",buried,Ann Lee,spouse,\n"',
            "digest,52df15aa57afa26cda1a37ba39ce1a090fb7f08e16b2aa5cd1c5dc1ef6bb82c3",
        ),
        [itself(*entry(7, kind))[0] for kind in KINDS],
        itself("entry", *PLAIN),
        itself("entry", LAST, "MARRIAGE", "", 999_999, "", LAST, "", "groom", "Tom", "bride", "Ann"),
        itself("entry", 1, "BAPTISM", "", 1, "", "", "", "", ""),
        itself("entry", 1, "BAPTISM", "", 1, "", "", "", "child", "", "child", ""),
        itself("entry", 1, "BAPTISM", "", 1, "", "", "", "no role", "a\rb", "buried", 'Ann "Nan" Lee'),
        itself("entry", 1, "BURIAL", "a\0b", 1, "(\r)", "", "two\nlines", "buried", "\u00e9 \U0001f600"),
        itself("entry", 1, "BURIAL", " ", 1, " ", "", " ", " ", " "),
        itself("entry", 1, "BURIAL", "f. 3", 1, "", "", "", *mentions(MOST)),
        itself("entry", 1, "BURIAL", "f. 3", 1, "", "", "", *mentions(MOST - 1), "", ""),
        next_is(1),
    ),
    scenario(
        "the bytes of links",
        ask(
            "! bytes,link,2,2,4,same farm",
            'bytes,"link,2,2,4,same farm\n"',
            "digest,5587587e3c505c642b93e20ebd6f189b277550ef578ba1d06533ca177e6185cb",
        ),
        ask(
            '! bytes,link,0000000002,0100,04,"same farm, same year"',
            'bytes,"link,2,100,4,""same farm, same year""\n"',
            "digest,050ba086f7385c238192caf97f0b8bc788bf4896b5d8a4d5b4540d2a26d822d4",
        ),
        ask(
            "! bytes,unlink,02,001",
            'bytes,"unlink,2,1\n"',
            "digest,ff860467a9044ca569d0366c2b6cd6f5f5bd3851a13ee65733187e6825d9c1a6",
        ),
        itself("link", LAST, LAST, LAST, ""),
        itself("link", 2, 101, 4, " "),
        itself("link", 2, 1, 4, 'two\nlines, "a\rb" and a\0b'),
        itself("unlink", LAST, LAST),
        next_is(1),
    ),
    scenario(
        "numbers and items of entries in other spellings",
        [
            step
            for at in (SOURCE, PLACE)
            for value in ("7", "007", "0000000001", "4294967295")
            for step in spells(("entry", *changed(PLAIN, at, value)), "entry", *changed(PLAIN, at, int(value)))
        ],
        [
            step
            for value, item in ITEMS
            for step in spells(("entry", *changed(PLAIN, ITEM, value)), "entry", *changed(PLAIN, ITEM, item))
        ],
        [step for command in with_each(PLACE, ("",)) for step in itself(*command)],
    ),
    scenario(
        "dates of entries in other spellings",
        [
            step
            for given, spelt in DATES
            for step in spells(("entry", *changed(PLAIN, DATE, given)), "entry", *changed(PLAIN, DATE, spelt))
        ],
        [step for command in with_each(DATE, ("",)) for step in itself(*command)],
    ),
    scenario(
        "rows of entries and links that are refused have no bytes",
        ask("! bytes,entry", ",refused,92,FieldCount"),
        ask("! bytes,entry,7,BURIAL,f. 3,1,,,", ",refused,92,FieldCount"),
        ask("! bytes,entry,7,BURIAL,f. 3,0,,,,buried,Ann", ",refused,90,BadRow"),
        ask("! bytes,link,2,1,4", ",refused,92,FieldCount"),
        ask("! bytes,link,2,0,4,x", ",refused,90,BadRow"),
        ask("! bytes,unlink,2,", ",refused,90,BadRow"),
    ),
)

ROWS = (
    scenario(
        "too few fields of an entry, and a role without a name",
        [refuses(92, "x", "entry", *PLAIN[:count]) for count in range(9)],
        refuses(92, "x", "entry", *PLAIN, "father"),
        refuses(92, "x", "entry", *PLAIN, ""),
        refuses(92, "x", "entry", *PLAIN, "father", "Tom", "mother"),
        [refuses(92, "x", "entry", *["?"] * count) for count in (0, 1, 6, 7, 8, 10, 12, 206, 208, 209, 210, 211, 407)],
        [refuses(92, "x", "entry", *[""] * count) for count in (0, 1, 6, 7, 8, 10, 12, 206, 208, 209, 210, 211, 407)],
        [refuses(90, "x", "entry", *["?"] * count) for count in (9, 11, 205, 207)],
        next_is(1),
    ),
    scenario(
        "no mention, 100 mentions and 101",
        refuses(92, "x", "entry", 7, "BURIAL", "f. 3", 1, "", "", ""),
        refuses(50, "x", "entry", 7, "BURIAL", "f. 3", 1, "", "", "", *mentions(1)),
        refuses(50, "x", "entry", 7, "BURIAL", "f. 3", 1, "", "", "", *mentions(MOST - 1)),
        refuses(92, "x", "entry", 7, "BURIAL", "f. 3", 1, "", "", "", *mentions(MOST - 1), "buried"),
        refuses(50, "x", "entry", 7, "BURIAL", "f. 3", 1, "", "", "", *mentions(MOST)),
        refuses(92, "x", "entry", 7, "BURIAL", "f. 3", 1, "", "", "", *mentions(MOST), "buried"),
        refuses(92, "x", "entry", 7, "BURIAL", "f. 3", 1, "", "", "", *mentions(MOST + 1)),
        refuses(92, "x", "entry", 7, "BURIAL", "f. 3", 1, "", "", "", *mentions(200)),
    ),
    scenario(
        "kinds of entries that are none",
        [refuses(90, "x", *command) for command in with_each(KIND, NO_KINDS)],
        [refuses(50, "x", *entry(7, kind)) for kind in KINDS],
    ),
    scenario(
        "items that are none",
        [refuses(90, "x", *command) for command in with_each(ITEM, NO_ITEMS)],
        [refuses(50, "x", *command) for command in with_each(ITEM, (value for value, _ in ITEMS))],
    ),
    scenario(
        "numbers of entries that are none",
        [refuses(90, "x", *command) for command in with_each(SOURCE, (*NO_NUMBERS, ""))],
        [refuses(90, "x", *command) for command in with_each(PLACE, NO_NUMBERS)],
    ),
    scenario(
        "the order of what is wrong with a row of an entry",
        ask(",entry,7", ",refused,93,BadToken"),
        ask("x,entry", "x,refused,92,FieldCount"),
        ask("x,entry,", "x,refused,92,FieldCount"),
        ask("x,entry,0,FROB,\0,0,,0,\0", "x,refused,92,FieldCount"),
        ask("x,entry,0,FROB,\0,0,,0,\0,\0", "x,refused,92,FieldCount"),
        ask("x,entry,0,FROB,\0,0,,0,\0,\0,\0", "x,refused,90,BadRow"),
        ask("x,entry,0,BURIAL,\0,1,,,\0,\0,\0", "x,refused,90,BadRow"),
        ask("x,entry,9,FROB,\0,1,,,\0,\0,\0", "x,refused,90,BadRow"),
        ask("x,entry,9,BURIAL,\0,0,,,\0,\0,\0", "x,refused,90,BadRow"),
        ask("x,entry,9,BURIAL,\0,1,,0,\0,\0,\0", "x,refused,90,BadRow"),
        ask("x,entry,9,BURIAL,\0,1,,,\0,\0,\0", "x,refused,58,BadText"),
        ask("x,entry,9,BURIAL,,1000000,,9,,child,Ann", "x,refused,90,BadRow"),
        ask("x,entry,9,BURIAL,,999999,,9,,child,Ann", "x,refused,50,NoSuch"),
        keeps_nothing("x"),
        next_is(1),
    ),
)

SCENARIOS = BYTES + ROWS
