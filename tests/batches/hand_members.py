"""Memberships: the lines of a family and of its persons."""

from __future__ import annotations

from cases import makes, under
from plain import Event, Family, Member, Name, Other, Person

FILES = (
    makes(
        "both sides, each with lines below",
        ["0 @I1@ INDI", "1 FAMS @F1@", "2 NOTE his", "0 @I2@ INDI", "1 FAMS @F1@", "0 @I3@ INDI", "1 FAMC @F1@",
         "2 PEDI birth", "3 ASSO @I1@", "0 @F1@ FAM", "1 HUSB @I1@", "2 NOTE the family's", "1 WIFE @I2@",
         "1 CHIL @I3@", "2 _FREL Natural"],
        [
            Person(), Person(), Person(),
            Family(
                (Member("husband", 1, under("2 NOTE the family's"), under("2 NOTE his")), Member("wife", 2)),
                (Member("child", 3, under("2 _FREL Natural"), under("2 PEDI birth", "3 ASSO #1")),),
            ),
        ],
    ),
    makes(
        "partners and children, each in the family's order",
        ["0 @F1@ FAM", "1 CHIL @I3@", "1 WIFE @I2@", "1 CHIL @I1@", "1 HUSB @I4@", "1 HUSB @I5@",
         *(f"0 @I{n}@ INDI" for n in range(1, 6))],
        [
            Family((Member("wife", 3), Member("husband", 5), Member("husband", 6)),
                   (Member("child", 4), Member("child", 2))),
            *(Person(),) * 5,
        ],
    ),
    makes(
        "the family's side alone",
        ["0 @I1@ INDI", "0 @F1@ FAM", "1 HUSB @I1@", "2 NOTE x", "0 @F2@ FAM", "1 CHIL @I1@"],
        [Person(), Family((Member("husband", 1, under("2 NOTE x")),)), Family((), (Member("child", 1),))],
    ),
    makes(
        "FAMC of persons whom the family has not",
        ["0 @I1@ INDI", "1 FAMC @F1@", "2 PEDI adopted", "0 @F1@ FAM", "1 CHIL @I3@", "1 WIFE @I4@", "0 @I2@ INDI",
         "1 FAMC @F1@", "0 @I3@ INDI", "1 FAMC @F1@", "0 @I4@ INDI"],
        [
            Person(),
            Family((Member("wife", 5),), (Member("child", 4), Member("child", 1, (), under("2 PEDI adopted")),
                                          Member("child", 3))),
            Person(), Person(), Person(),
        ],
    ),
    makes(
        "FAMS of persons who are no partners",
        ["0 @I1@ INDI", "1 FAMS @F1@", "2 NOTE x", "0 @I2@ INDI", "1 FAMS @F1@", "1 FAMC @F1@", "1 FAMS @F1@",
         "0 @F1@ FAM", "1 CHIL @I2@"],
        [Person(), Person(), Family((), (Member("child", 2),))],
        ["3 one-sided", "6 one-sided", "8 one-sided"],
    ),
    makes(
        "FAMS behind a FAMC that made the person a child",
        ["0 @I1@ INDI", "1 FAMC @F1@", "1 FAMS @F1@", "0 @F1@ FAM"],
        [Person(), Family((), (Member("child", 1),))],
        ["4 one-sided"],
    ),
    makes(
        "FAMC of partners, told each time",
        ["0 @I1@ INDI", "1 FAMC @F1@", "1 FAMC @F1@", "1 FAMS @F1@", "2 NOTE x", "0 @F1@ FAM", "1 WIFE @I1@"],
        [Person(), Family((Member("wife", 1, (), under("2 NOTE x")),))],
        ["3 one-sided", "4 one-sided"],
    ),
    makes(
        "a person twice in a family",
        ["0 @F1@ FAM", "1 HUSB @I1@", "1 WIFE @I1@", "2 NOTE x", "1 CHIL @I1@", "1 CHIL @I2@", "1 CHIL @I2@",
         "1 HUSB @I2@", "0 @F2@ FAM", "1 CHIL @I1@", "0 @I1@ INDI", "0 @I2@ INDI"],
        [Family((Member("husband", 3),), (Member("child", 4),)), Family((), (Member("child", 3),)), Person(), Person()],
        ["4 doubled", "6 doubled", "8 doubled", "9 doubled"],
    ),
    makes(
        "FAMS and FAMC a second time",
        ["0 @I1@ INDI", "1 FAMS @F1@", "1 FAMS @F1@", "2 NOTE x", "1 FAMC @F2@", "2 NOTE y", "1 FAMC @F2@",
         "1 FAMC @F3@", "1 FAMC @F3@", "0 @F1@ FAM", "1 WIFE @I1@", "0 @F2@ FAM", "1 CHIL @I1@", "0 @F3@ FAM"],
        [
            Person(), Family((Member("wife", 1),)), Family((), (Member("child", 1, (), under("2 NOTE y")),)),
            Family((), (Member("child", 1),)),
        ],
        ["4 doubled", "8 doubled", "10 doubled"],
    ),
    makes(
        "a second FAMC that has lines where the first has none",
        ["0 @I1@ INDI", "1 FAMC @F1@", "1 FAMC @F1@", "2 PEDI birth", "0 @F1@ FAM", "1 CHIL @I1@"],
        [Person(), Family((), (Member("child", 1),))],
        ["4 doubled"],
    ),
    makes(
        "what dangles below a line that is dropped is told too",
        ["0 @I1@ INDI", "1 FAMS @F1@", "2 NOTE @N9@", "3 NOTE @N9@", "0 @F1@ FAM", "1 CHIL @I1@", "1 CHIL @I1@",
         "2 NOTE @N9@"],
        [Person(), Family((), (Member("child", 1),))],
        ["3 one-sided", "4 dangling", "8 doubled", "9 dangling"],
    ),
    makes(
        "a line that dangles is no member",
        ["0 @F1@ FAM", "1 HUSB @I9@", "1 HUSB @I1@", "1 HUSB @I9@", "0 @I1@ INDI", "1 FAMS @F9@"],
        [Family((Member("husband", 2),)), Person()],
        ["3 dangling", "5 dangling", "7 dangling"],
    ),
    makes(
        "lines of a family that name no person",
        ["0 @F1@ FAM", "1 HUSB @F1@", "1 HUSB @F1@", "1 WIFE Ann", "1 CHIL", "1 CHIL @N@", "2 NOTE x", "1 husb @I1@",
         "1 FAMC @F1@", "1 FAMS @I1@", "0 @N@ NOTE", "0 @I1@ INDI"],
        [
            Family((), (), under("1 HUSB #1", "1 HUSB #1", "1 WIFE Ann", "1 CHIL", "1 CHIL #2", "2 NOTE x", "1 husb #3",
                                 "1 FAMC #1", "1 FAMS #3")),
            Other("NOTE"), Person(),
        ],
    ),
    makes(
        "lines of a person that name no family",
        ["0 @I1@ INDI", "1 FAMC @I1@", "1 FAMS Lee", "1 FAMC", "1 HUSB @I1@", "1 CHIL @F1@", "1 NAME", "2 FAMC @F1@",
         "1 BIRT", "2 FAMC @F1@", "3 ADOP BOTH", "0 @F1@ FAM"],
        [
            Person((Name("", under("2 FAMC #3")),), None, under("1 FAMC #1", "1 FAMS Lee", "1 FAMC", "1 HUSB #1",
                                                                "1 CHIL #3")),
            Event(1, "BIRT", carried=under("2 FAMC #3", "3 ADOP BOTH")),
            Family(),
        ],
    ),
    makes(
        "the family stands behind its persons or in front of them",
        ["0 @F1@ FAM", "1 CHIL @I1@", "0 @I1@ INDI", "1 FAMC @F2@", "1 FAMC @F1@", "2 PEDI birth", "0 @F2@ FAM",
         "1 WIFE @I2@", "0 @I2@ INDI", "1 FAMS @F2@"],
        [
            Family((), (Member("child", 2, (), under("2 PEDI birth")),)), Person(),
            Family((Member("wife", 4),), (Member("child", 2),)), Person(),
        ],
    ),
)
