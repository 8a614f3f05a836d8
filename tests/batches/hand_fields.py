"""Records and their fields; what is carried, what is dropped, and what becomes a record at all."""

from __future__ import annotations

from cases import makes, under
from filed import EVENTS
from plain import Citation, Event, Family, Holding, Name, Other, Participant, Person, Place, Repo, Source

DEEP = [f"{level} A" for level in range(1, 98)]


FILES = (
    makes("nothing", [], []),
    # ---- persons
    makes(
        "a person with all fields",
        ["0 @I1@ INDI", "1 NAME Ann /Lee/", "2 GIVN Ann", "3 NOTE x", "1 _UID 7", "1 NAME Anne", "1 SEX F", "1 RIN"],
        [Person((Name("Ann /Lee/", under("2 GIVN Ann", "3 NOTE x")), Name("Anne")), "F", under("1 _UID 7", "1 RIN"))],
    ),
    makes(
        "a name is a text, also an empty one",
        ["0 @I1@ INDI", "1 NAME @I1@", "1 NAME", "1 NAME two", "2 CONT lines", "1 name Ann"],
        [Person((Name(""), Name("two\nlines")), None, under("1 NAME #1", "1 name Ann"))],
    ),
    makes(
        "the first sex in the stated form",
        ["0 INDI", "1 SEX X", "1 SEX M", "2 NOTE x", "1 SEX f", "1 SEX F ", "1 SEX F", "1 SEX U", "0 INDI", "1 SEX"],
        [
            Person((), "F", under("1 SEX X", "1 SEX M", "2 NOTE x", "1 SEX f", "1 SEX F ", "1 SEX U")),
            Person((), None, under("1 SEX")),
        ],
    ),
    # ---- repositories and sources
    makes(
        "a repository has the first name without lines below",
        ["0 REPO", "1 NAME x", "2 NOTE y", "1 NAME", "1 NAME z", "0 REPO", "1 NAME @R@", "0 @R@ REPO"],
        [Repo("", under("1 NAME x", "2 NOTE y", "1 NAME z")), Repo(None, under("1 NAME #3")), Repo()],
    ),
    makes(
        "a source",
        ["0 @S1@ SOUR", "1 PUBL London", "1 TITL Old", "2 ABBR o", "1 TITL Register", "1 AUTH", "1 AUTH Lee",
         "1 TEXT seen", "1 PUBL York"],
        [Source("Register", "", "London", (), under("1 TITL Old", "2 ABBR o", "1 AUTH Lee", "1 TEXT seen",
                                                    "1 PUBL York"))],
    ),
    makes(
        "where a source is kept",
        ["0 @S1@ SOUR", "1 REPO @R1@", "2 CALN a/1", "3 MEDI book", "2 CALN b/2", "2 NOTE x", "1 REPO @S1@",
         "1 REPO Office", "1 REPO @R1@", "2 CALN @R1@", "0 @R1@ REPO"],
        [
            Source(None, None, None, (Holding(2, "b/2", under("2 CALN a/1", "3 MEDI book", "2 NOTE x")),
                                      Holding(2, None, under("2 CALN #2"))), under("1 REPO #1", "1 REPO Office")),
            Repo(),
        ],
    ),
    # ---- citations
    makes(
        "citations of a person, an event and a family",
        ["0 @I1@ INDI", "1 SOUR @S1@", "1 BIRT", "2 SOUR @S1@", "3 PAGE", "0 @F1@ FAM", "1 SOUR @S1@", "2 QUAY 3",
         "0 @S1@ SOUR"],
        [Person(), Citation(1, 7), Event(1, "BIRT"), Citation(3, 7, ""), Family(), Citation(5, 7, None, "3"), Source()],
    ),
    makes(
        "page and quality of a citation",
        ["0 @I1@ INDI", "1 SOUR @S1@", "2 PAGE f. 3", "3 NOTE x", "2 QUAY 4", "2 PAGE f. 4", "2 QUAY 03", "2 QUAY 0",
         "2 QUAY 1", "2 PAGE f. 5", "2 DATA", "3 TEXT seen", "2 SOUR @S1@", "0 @S1@ SOUR"],
        [
            Person(),
            Citation(1, 3, "f. 4", "0", under("2 PAGE f. 3", "3 NOTE x", "2 QUAY 4", "2 QUAY 03", "2 QUAY 1",
                                              "2 PAGE f. 5", "2 DATA", "3 TEXT seen", "2 SOUR #3")),
            Source(),
        ],
    ),
    makes(
        "lines SOUR that are no citations",
        ["0 @I1@ INDI", "1 SOUR a book", "1 SOUR @I1@", "1 SOUR", "1 NAME Ann", "2 SOUR @S1@", "0 @S1@ SOUR",
         "1 SOUR @S1@", "0 REPO", "1 SOUR @S1@", "0 NOTE", "1 SOUR @S1@"],
        [
            Person((Name("Ann", under("2 SOUR #2")),), None, under("1 SOUR a book", "1 SOUR #1", "1 SOUR")),
            Source(None, None, None, (), under("1 SOUR #2")),
            Repo(None, under("1 SOUR #2")),
            Other("NOTE", "", under("1 SOUR #2")),
        ],
    ),
    # ---- events
    makes(
        "each event of a person",
        ["0 INDI", *(f"1 {tag} {tag.lower()}" for tag in EVENTS["INDI"])],
        [Person(), *(Event(1, tag, tag.lower()) for tag in EVENTS["INDI"])],
    ),
    makes(
        "each event of a family",
        ["0 FAM", *(f"1 {tag}" for tag in EVENTS["FAM"])],
        [Family(), *(Event(1, tag) for tag in EVENTS["FAM"])],
    ),
    makes(
        "an event's tag where it is none",
        ["0 @I1@ INDI", "1 BIRT two", "2 CONT lines", "1 MARR", "2 DATE 1700", "1 birt", "1 DEAT @I1@", "2 NOTE x",
         "0 FAM", "1 BIRT", "1 MARR", "0 REPO", "1 BIRT", "0 BIRT"],
        [
            Person((), None, under("1 MARR", "2 DATE 1700", "1 birt", "1 DEAT #1", "2 NOTE x")),
            Event(1, "BIRT", "two\nlines"),
            Family((), (), under("1 BIRT")),
            Event(3, "MARR"),
            Repo(None, under("1 BIRT")),
            Other("BIRT"),
        ],
    ),
    makes(
        "dates of events",
        ["0 @I1@ INDI", "1 BIRT", "2 DATE 1 JAN 1700", "3 TIME noon", "2 DATE abt @#djulian@ 1700", "2 DATE 1701",
         "1 DEAT", "2 DATE", "1 BURI", "2 DATE @I1@", "1 RESI", "2 DATE 1700 ?", "1 DATE 1700"],
        [
            Person((), None, under("1 DATE 1700")),
            Event(1, "BIRT", "", "ABT @#DJULIAN@ 1700",
                  carried=under("2 DATE 1 JAN 1700", "3 TIME noon", "2 DATE 1701")),
            Event(1, "DEAT", "", ""),
            Event(1, "BURI", carried=under("2 DATE #1")),
            Event(1, "RESI", "", "1700 ?"),
        ],
    ),
    makes(
        "who took part in an event",
        ["0 @I1@ INDI", "1 BIRT", "2 _PART @I2@", "3 _ROLE", "3 _ROLE witness", "4 NOTE x", "3 _ROLE godparent",
         "3 _ROLE friend", "3 SOUR @S1@", "2 _PART @I2@", "2 _PART @S1@", "2 _PART Tom", "0 @I2@ INDI", "1 _PART @I1@",
         "0 @S1@ SOUR"],
        [
            Person(),
            Event(1, "BIRT", participants=(
                Participant(3, "godparent", under("3 _ROLE", "3 _ROLE witness", "4 NOTE x", "3 _ROLE friend",
                                                  "3 SOUR #4")),
                Participant(3),
            ), carried=under("2 _PART #4", "2 _PART Tom")),
            Person((), None, under("1 _PART #1")),
            Source(),
        ],
    ),
    # ---- values of records
    makes(
        "values that are dropped",
        ["0 @I1@ INDI Ann", "0 @F1@ FAM @I1@", "0 @S1@ SOUR   ", "0 @R1@ REPO @N9@", "0 @P1@ _LOC x", "1 CONT y",
         "0 @I2@ INDI ", "0 @I3@ INDI", "1 CONT"],
        [Person(), Family(), Source(), Repo(), Place(""), Person(), Person()],
        ["2 value dropped", "3 value dropped", "4 value dropped", "5 value dropped", "6 value dropped",
         "9 value dropped"],
    ),
    # ---- others
    makes(
        "others",
        ["0 NOTE a note", "1 CONT of two lines", "1 SOUR @S1@", "0 @S1@ SOUR", "0 @U@ SUBM", "1 NAME Tom", "0 HEAD",
         "1 CHAR ANSEL", "0 OBJE @S1@", "1 FILE a.png", "0 @SOCIETY@ NOTE", "0 indi", "1 SEX F"],
        [
            Other("NOTE", "a note\nof two lines", under("1 SOUR #2")),
            Source(),
            Other("SUBM", "", under("1 NAME Tom")),
            Other("HEAD", "", under("1 CHAR ANSEL")),
            Other("OBJE", 2, under("1 FILE a.png")),
            Other("NOTE"),
            Other("indi", "", under("1 SEX F")),
        ],
    ),
    makes(
        "others that point to each other",
        ["0 @A@ NOTE @B@", "0 @B@ NOTE @C@", "1 REFN @N9@", "0 @C@ NOTE @N9@", "1 REFN @D@", "0 @D@ NOTE @D@",
         "0 @E@ NOTE @F@", "0 @F@ NOTE @E@", "0 @G@ OBJE @E@", "1 REFN @A@", "0 @H@ INDI", "1 NOTE @C@", "2 SEX F"],
        [Other("NOTE", 1), Other("NOTE", 3), Other("NOTE", 2), Other("OBJE", 2), Person()],
        ["2 dangling", "3 dangling", "5 dangling", "11 dangling", "13 dangling"],
    ),
    makes(
        "an other that points to one behind it, which dangles, and a register entry that does",
        ["0 NOTE @B@", "0 _REG @B@", "1 NOTE x", "0 @B@ OBJE @N9@", "0 @I1@ INDI @B@"],
        [Person()],
        ["2 dangling", "3 dangling", "5 dangling", "6 value dropped"],
    ),
    # ---- what makes nothing
    makes(
        "the header and the society",
        ["1 SUBM @SOCIETY@", "1 NOTE @N9@", "0 @SOCIETY@ SUBM x", "1 NAME @N9@", "0 @I1@ INDI", "1 SUBM @SOCIETY@",
         "1 NOTE @H@", "0 SUBM @SOCIETY@"],
        [Person()],
        ["7 dangling", "8 dangling", "9 dangling"],
        head="0 @H@ HEAD",
    ),
    makes(
        "names below level 0",
        ["0 @I1@ INDI", "1 @A@ NOTE x", "1 @B@ SEX F", "1 ASSO @A@", "1 @C@ BIRT", "2 @D@ DATE 1700", "0 NOTE @C@"],
        [Person((), "F", under("1 NOTE x")), Event(1, "BIRT", "", "1700")],
        ["5 dangling", "8 dangling"],
    ),
    # ---- lines that dangle
    makes(
        "a line that dangles goes with all below it, and is told once",
        ["0 @I1@ INDI", "1 ASSO @N9@", "2 RELA @N8@", "3 NOTE x", "1 SOUR @S9@", "2 PAGE 1", "1 BIRT", "2 _PART @I9@",
         "3 _ROLE witness", "2 SOUR @S9@", "2 NOTE x", "3 NOTE @N9@", "1 FAMC @F9@", "0 FAM", "1 HUSB @I9@",
         "1 CHIL @I9@", "2 NOTE x"],
        [Person(), Event(1, "BIRT", carried=under("2 NOTE x")), Family()],
        ["3 dangling", "6 dangling", "9 dangling", "11 dangling", "13 dangling", "14 dangling", "16 dangling",
         "17 dangling"],
    ),
    makes(
        "a line is bare where what is below it dangles",
        ["0 INDI", "1 SEX F", "2 SOUR @S9@", "1 BIRT", "2 DATE 1700", "3 NOTE @N9@", "0 REPO", "1 NAME x",
         "2 NOTE @N9@", "0 SOUR", "1 TITL y", "2 NOTE @N9@", "2 NOTE z", "0 _LOC", "1 NAME Kent", "2 NOTE @N9@"],
        [Person((), "F"), Event(1, "BIRT", "", "1700"), Repo("x"),
         Source(None, None, None, (), under("1 TITL y", "2 NOTE z")), Place("Kent")],
        ["4 dangling", "7 dangling", "10 dangling", "13 dangling", "17 dangling"],
    ),
    makes(
        "names are byte for byte",
        ["0 @i1@ INDI", "0 @I1@ INDI", "1 ASSO @i1@", "1 ASSO @I1 @", "1 ASSO   @I1@  ", "1 ASSO @I1@ x"],
        [Person(), Person((), None, under("1 ASSO #1", "1 ASSO #2", "1 ASSO @I1@ x"))],
        ["5 dangling"],
    ),
    # ---- carried lines
    makes(
        "carried lines keep their texts",
        ["0 INDI", "1 NOTE a@@b", "2 CONC  c", "2 CONT", "2 CONT d", "1 NOTE @@I1@@", "1 NOTE   x ", "1 NOTE"],
        [Person((), None, (("NOTE", "a@b c\n\nd", ()), ("NOTE", "@I1@", ()), ("NOTE", "  x ", ()), ("NOTE", "", ())))],
    ),
    makes(
        "98 levels of carried lines",
        ["0 @X@ NOTE x", *DEEP, "98 A @X@", "0 INDI", *DEEP, "98 A b", "99 CONC c"],
        [Other("NOTE", "x", under(*DEEP, "98 A #1")), Person((), None, under(*DEEP, "98 A bc"))],
    ),
    makes(
        "carried lines below each part",
        ["0 @I1@ INDI", "1 NAME", *DEEP[1:], "98 A @I1@", "1 BIRT", "2 _PART @I1@", *DEEP[2:], "2 PLAC Kent", *DEEP[2:],
         "1 SOUR @S@", *DEEP[1:], "0 @S@ SOUR", "1 REPO @R@", *DEEP[1:], "0 @R@ REPO", *DEEP],
        [
            Person((Name("", under(*DEEP[1:], "98 A #1")),)),
            Event(1, "BIRT", "", None, 3, under(*DEEP[2:]), (Participant(1, "", under(*DEEP[2:])),)),
            Place("Kent"),
            Citation(1, 5, None, None, under(*DEEP[1:])),
            Source(None, None, None, (Holding(6, None, under(*DEEP[1:])),)),
            Repo(None, under(*DEEP)),
        ],
    ),
)
