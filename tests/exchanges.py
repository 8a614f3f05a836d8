"""An archive of everything awkward, exported, imported into an empty one, and compared record by record. And an
export that is cut anywhere."""

from __future__ import annotations

from archives import BAPTISM, BURIAL, generated, lines
from exports import ARCHIVES
from harness import Case, Tools, demand, expect, run, tally, written
from imports import Imported
from packed import unpack
from renumbering import demand_same
from table.making import between

LINES = "SELECT no, kind, tag, text, dst FROM record JOIN line USING (no) ORDER BY no"

# two places of one name, an unused one, lines carried at level 98, and others that name each other
GIVEN = between(
    "0 @L1@ _LOC", "1 NAME Ashby", "0 @L2@ _LOC", "1 NAME Ashby", "0 @L3@ _LOC", "1 NAME Nowhere",
    "0 @S1@ SOUR", "1 TITL Register",
    "0 @I1@ INDI", "1 NAME Ann /Lee/", "1 BIRT", "2 DATE ABT 1700", "2 PLAC Ashby", "3 _LOC @L2@",
    *(f"{level} _DEEP" for level in range(1, 98)), "98 NOTE at the bottom", "99 CONT of all levels",
    "0 @X1@ OBJE @X2@", "1 FILE a.png", "0 @X2@ OBJE @X1@",
)

# a number that is missing, events that are not in the order of their dates, a family, entries linked and not
ROWS = b"""g1,person,Nobody,
g2,remove,9
e1,event,5,OCCU,Smith,1750,1
e2,event,5,BAPM,,1 JAN 1701,2
c1,citation,11,4,f. 3,2
p1,person,Tom /Ray/,M
f1,family,13,5
e3,event,14,MARR,,,
b1,entry,4,BAPTISM,f. 3,1,1701,2,Ann,child,Ann Lee,father,Tom
b2,entry,4,BURIAL,f. 3,2,,,Ann,buried,Ann Ray
l1,link,16,1,5,same farm
"""


def records(at):
    """Each record by its number: its kind and its lines."""
    return {number: (kind, unpack(*packed)) for number, kind, *packed in at.rows_of(LINES)}


def it_comes_back(tools):
    with Imported(tools) as first, Imported(tools) as second:
        first.made().import_(GIVEN)
        answers = first.apply(ROWS).out.decode().splitlines()
        demand(len(answers) == 11 and all(",ok," in answer for answer in answers), f"{answers}")
        text = first.export().out
        expect(second.made().import_(text), written(b"imported 16 records, first 1\n"))
        here, there = records(first), records(second)
        demand(9 not in here and max(here) == 17 and max(there) == 16, f"{sorted(here)} {sorted(there)}")
        demand(any(depth > 90 for _, lines in there.values() for depth, *_ in lines), "nothing is deep")
        demand_same(here, there)
        expect(run(tools.parish, ("norm",), text), written(text))


def rows_of_all_verbs_come_back(tools, count=2_000, seed=4):
    """What generated rows, a page of a register and a file make of an archive comes back from its export."""
    with Imported(tools) as first, Imported(tools) as second:
        answers = first.made().apply(generated(seed, count)).out
        demand(answers.count(b",ok,") > count // 2, f"{answers.count(b',ok,')} of {count} rows were accepted")
        source = first.apply(b"s,source,A register of its own,,,,\n").out.split(b",")[2].decode()
        page = first.entries(lines([BAPTISM, BURIAL]), source, "page")
        demand(page.out.startswith(b"made 2 entries"), f"{page}")
        demand(first.import_(GIVEN, "file").status == 0, "the file was refused")
        here, text = records(first), first.export().out
        expect(second.made().import_(text), written(f"imported {len(here)} records, first 1\n".encode()))
        demand_same(here, records(second))


def cut_anywhere(tools):
    """Each beginning of an export is refused, but the one without the last line end, and nothing is taken in."""
    with Imported(tools) as first, Imported(tools) as second:
        text = first.with_rows(ARCHIVES["a place and a person"][0]).export().out
        before = second.made().tables()
        for size in range(len(text) - 1):
            got = second.import_(text[:size])
            is_refused = got.status == 1 and got.out == b"" and got.err.startswith(b"parish: ")
            demand(is_refused and b" at line " in got.err, f"{size} bytes of {len(text)}: {got}")
            demand(second.tables() == before, f"{size} bytes of {len(text)}: something was taken in")
        tally("cut exports", "exchanges", len(text) - 1)
        expect(second.import_(text[:-1]), written(b"imported 3 records, first 1\n"))


def cases(tools: Tools):
    yield Case("exchanges: an awkward archive comes back", lambda: it_comes_back(tools))
    yield Case("exchanges: 2,000 rows of all verbs come back", lambda: rows_of_all_verbs_come_back(tools))
    yield Case("exchanges: an export that is cut anywhere", lambda: cut_anywhere(tools))
