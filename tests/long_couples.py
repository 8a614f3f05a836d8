"""Two men as partners of a family, in each form that was tried, read by Gramps, LifeLines and Gedcom.pm.

    python3 tests/long_couples.py

It needs the packages that long_interchange.py names. Each form is a small file with the couple, a child and a marriage.
For each it prints which of the two men each program keeps as a partner, and what it complains of, and compares this
with the table of docs/INTERCHANGE.md. Last `N passed, M failed`.
"""

from __future__ import annotations

import os
import sys
import tempfile
from typing import NamedTuple

sys.dont_write_bytecode = True

from interchange.programs import Told, gedcom_pm, gramps, lifelines, missing  # noqa: E402

FILE = """0 HEAD
1 SOUR PARISH
1 SUBM @S@
1 GEDC
2 VERS 5.5.1
2 FORM LINEAGE-LINKED
1 CHAR UTF-8
0 @S@ SUBM
1 NAME Ashby
0 @I1@ INDI
1 NAME Tom /Lee/
1 SEX M
1 FAMS @F1@
{first}0 @I2@ INDI
1 NAME Joe /Ray/
{sex}1 FAMS @F1@
{second}0 @I3@ INDI
1 NAME Eva /Lee/
1 SEX F
1 FAMC @F1@
0 @F1@ FAM
{partners}1 CHIL @I3@
1 MARR
2 DATE 1 MAY 1990
0 TRLR
"""
ASSOCIATED = {"first": "1 ASSO @I2@\n2 RELA partner\n", "second": "1 ASSO @I1@\n2 RELA partner\n"}
TOM, JOE = "person Tom /Lee/", "person Joe /Ray/"
BOTH = (TOM, JOE)
PARTNERS = {"Gramps": ("father_handle", "mother_handle"), "LifeLines": ("HUSB", "WIFE"), "Gedcom.pm": ("HUSB", "WIFE")}


class Form(NamedTuple):
    """How the couple is written, and of each program the partners that it keeps and how many complaints it has. The
    database of LifeLines is empty where it refuses a file."""

    name: str
    partners: tuple[str, ...]
    sex: str
    more: dict[str, str]
    gramps: tuple[tuple[str, ...], int]
    lifelines: tuple[tuple[str, ...], int]
    gedcom_pm: tuple[tuple[str, ...], int]


def form(name, partners, gramps, lifelines, gedcom_pm, sex="1 SEX M\n", more=None):
    return Form(name, partners, sex, more or {}, gramps, lifelines, gedcom_pm)


PAIR = ("HUSB @I1@", "WIFE @I2@")
FORMS = (
    form("HUSB, WIFE", PAIR, (BOTH, 0), ((), 1), (BOTH, 0)),
    form("HUSB, HUSB", ("HUSB @I1@", "HUSB @I2@"), ((JOE,), 1), (BOTH, 1), (BOTH, 1)),
    form("HUSB, HUSB, ASSO", ("HUSB @I1@", "HUSB @I2@"), ((JOE,), 1), (BOTH, 1), (BOTH, 1), more=ASSOCIATED),
    form("HUSB, HUSB, WIFE", ("HUSB @I1@", "HUSB @I2@", "WIFE @I2@"), ((JOE, JOE), 1), ((), 3), ((TOM, JOE, JOE), 1)),
    form("HUSB, ASSO", ("HUSB @I1@",), ((TOM,), 1), ((TOM,), 0), ((TOM,), 1), more=ASSOCIATED),
    form("HUSB, a tag that is none", ("HUSB @I1@", "_WIFE @I2@"), ((TOM,), 1), ((TOM,), 0), ((TOM,), 1)),
    form("HUSB, WIFE without SEX", PAIR, (BOTH, 0), (BOTH, 0), (BOTH, 0), sex=""),
    form("HUSB, WIFE with SEX U", PAIR, (BOTH, 0), (BOTH, 0), (BOTH, 0), sex="1 SEX U\n"),
    form("HUSB, WIFE with SEX m", PAIR, (BOTH, 0), (BOTH, 0), (BOTH, 0), sex="1 SEX m\n"),
    form("HUSB, WIFE with SEX U, M", PAIR, (BOTH, 0), ((), 1), (BOTH, 1), sex="1 SEX U\n1 SEX M\n"),
)


def file_of(one: Form) -> str:
    partners = "".join(f"1 {line}\n" for line in one.partners)
    return FILE.format(**{"first": "", "second": "", **one.more}, sex=one.sex, partners=partners)


def kept(program: str, told: Told) -> tuple[tuple[str, ...], int]:
    """The partners that a program has, and its complaints."""
    found = [one.text for one in told.values
             if one.label.startswith("family ") and one.path.split()[-1] in PARTNERS[program]]
    return tuple(found), told.errors


def main() -> int:
    if lacking := missing():
        print(f"long_couples: not installed: {', '.join(lacking)}")
        return 2
    with tempfile.TemporaryDirectory() as folder:
        paths = [os.path.join(folder, f"{number}.ged") for number in range(len(FORMS))]
        for path, one in zip(paths, FORMS, strict=True):
            with open(path, "w", encoding="utf-8") as file:
                file.write(file_of(one))
        told = {
            "Gramps": gramps(paths),
            "LifeLines": [lifelines(path) for path in paths],
            "Gedcom.pm": [gedcom_pm(path) for path in paths],
        }
    passed = failed = 0
    for number, one in enumerate(FORMS):
        for program, wanted in zip(told, (one.gramps, one.lifelines, one.gedcom_pm), strict=True):
            got = kept(program, told[program][number])
            is_so = got == wanted
            passed, failed = passed + is_so, failed + (not is_so)
            instead = "" if is_so else f", and not {wanted}"
            print(f"{one.name}: {program}: {got}{instead}", *told[program][number].said)
    print(f"{passed} passed, {failed} failed")
    return 1 if failed else 0


if __name__ == "__main__":
    sys.exit(main())
