"""Archives written for other programs by `export --plain`: each kind of record byte for byte, and nothing of ours or of
what is hidden."""

from __future__ import annotations

import re

from archives import generated
from ends import left_by_its_reader, refused_as_no_archive
from exports import ARCHIVES as EXPORTED
from exports import HEADER, TRAILER, Exported
from harness import Case, Outcome, Tools, demand, expect, refused, run, written
from imports import Imported
from table.making import between

TODAY = ("--today", "2024-01-01")
OURS = re.compile(rb"^[0-9]+ (@[^@]*@ )?_(LOC|REG|MENT|PART|ROLE|LINK|WHY|ITEM)\b", re.MULTILINE)

# Rows that are accepted in a new archive, and the records of its plain export, written by hand from docs/FORMATS.md.
ARCHIVES = {
    "nothing": ((), ""),
    "a place without a record, and who took part in an event of a person": (
        (
            "a,place,Kent,",
            "b,place,Ashby,1",
            "c,person,Ann /Lee/,F",
            "d,person,Tom /Ray/,M",
            "e,event,3,BIRT,,1 may 1800,2",
            "f,participant,5,4,midwife",
            "g,participant,5,4,",
        ),
        """0 @I3@ INDI
1 NAME Ann /Lee/
1 SEX F
1 BIRT
2 DATE 1 MAY 1800
2 PLAC Ashby, Kent
2 NOTE with Tom Ray (midwife)
2 NOTE with Tom Ray
1 ASSO @I4@
2 RELA midwife
2 NOTE BIRT, 1 MAY 1800
1 ASSO @I4@
2 RELA participant
2 NOTE BIRT, 1 MAY 1800
0 @I4@ INDI
1 NAME Tom /Ray/
1 SEX M
""",
    ),
    "who took part in an event of a family": (
        (
            "a,person,Ann,F",
            "b,person,Tom,M",
            "c,person,,",
            "d,family,2,1",
            "e,event,4,MARR,,,",
            "f,participant,5,3,witness",
        ),
        """0 @I1@ INDI
1 NAME Ann
1 SEX F
1 FAMS @F4@
1 ASSO @I3@
2 RELA witness
2 NOTE MARR
0 @I2@ INDI
1 NAME Tom
1 SEX M
1 FAMS @F4@
1 ASSO @I3@
2 RELA witness
2 NOTE MARR
0 @I3@ INDI
0 @F4@ FAM
1 HUSB @I2@
1 WIFE @I1@
1 MARR
2 NOTE with  (witness)
""",
    ),
    "values of events": (
        (
            "a,person,Tom /Lee/,M",
            "b,event,1,BIRT,at sea,1 may 1800,",
            "c,event,1,DEAT,Y,,",
            "d,event,1,BURI,Y,,",
            "e,event,1,OCCU,smith,,",
            "f,event,1,RESI,Leeds,,",
            "g,event,1,EVEN,strike,,",
            'h,event,1,WILL,"all\nto Eva",,',
            "i,family,1,",
            "j,event,9,MARR,Y,,",
            "k,event,9,DIV,no,,",
            "l,person,Eva,F",
            "m,participant,2,12,midwife",
        ),
        """0 @I1@ INDI
1 NAME Tom /Lee/
1 SEX M
1 BIRT
2 DATE 1 MAY 1800
2 NOTE at sea
2 NOTE with Eva (midwife)
1 DEAT Y
1 BURI Y
1 OCCU smith
1 RESI
2 NOTE Leeds
1 EVEN strike
1 WILL
2 NOTE all
3 CONT to Eva
1 FAMS @F9@
1 ASSO @I12@
2 RELA midwife
2 NOTE BIRT, 1 MAY 1800
0 @I12@ INDI
1 NAME Eva
1 SEX F
0 @F9@ FAM
1 HUSB @I1@
1 MARR Y
1 DIV
2 NOTE no
""",
    ),
    "texts of one line, and a page of 201 bytes": (
        (
            'a,repo,"Record\nOffice"',
            'b,source,"Long\ntitle",,,1,"PR\n12"',
            'c,place,"Ash\nby",',
            'd,person,"Ann\n/Lee/",F',
            'e,event,4,OCCU,"smith\nand farmer",,3',
            'f,event,4,DSCR,"tall\nand fair",,',
            'g,citation,4,2,"f. 3\nand 4",',
            f"h,citation,4,2,{'x' * 201},",
            "i,person,Eva,F",
            'j,participant,5,9,"nurse\nof Ann"',
            'k,entry,2,BURIAL,"f.\n1",1,,,,buried,Ann',
            "l,link,10,1,4,age",
        ),
        f"""0 @R1@ REPO
1 NAME Record Office
0 @S2@ SOUR
1 TITL Long
2 CONT title
1 REPO @R1@
2 CALN PR 12
0 @I4@ INDI
1 NAME Ann /Lee/
1 SEX F
1 OCCU smith and farmer
2 PLAC Ash by
2 NOTE with Eva (nurse
3 CONT of Ann)
1 DSCR tall
2 CONT and fair
1 SOUR @S2@
2 PAGE f. 3 and 4
1 SOUR @S2@
2 NOTE {'x' * 200}
3 CONC x
1 ASSO @I9@
2 RELA nurse of Ann
2 NOTE OCCU
1 SOUR @S2@
2 PAGE f. 1, no. 1
2 NOTE buried Ann: age
0 @I9@ INDI
1 NAME Eva
1 SEX F
""",
    ),
    "entries: of a baptism, of a person, and without a link": (
        (
            "a,source,Register,,,,",
            "b,place,Ashby,",
            "c,entry,1,BAPTISM,f. 3,1,15 apr 1699/00,2,John of Tom Lee,child,John,father,Tom Lee",
            "d,person,Tom /Lee/,M",
            "e,link,3,2,4,same farm",
            "f,entry,1,BURIAL,,999999,,2,,buried,Kit",
            "g,person,John /Lee/,M",
            "h,event,6,BAPM,,15 apr 1699/00,2",
            "i,link,3,1,6,the child",
        ),
        """0 @S1@ SOUR
1 TITL Register
1 NOTE no. 999999: BURIAL, Ashby
2 CONT buried Kit
0 @I4@ INDI
1 NAME Tom /Lee/
1 SEX M
1 SOUR @S1@
2 PAGE f. 3, no. 1
2 DATA
3 DATE 15 APR 1699/00
3 TEXT John of Tom Lee
2 NOTE father Tom Lee: same farm
0 @I6@ INDI
1 NAME John /Lee/
1 SEX M
1 BAPM
2 DATE 15 APR 1699/00
2 PLAC Ashby
2 SOUR @S1@
3 PAGE f. 3, no. 1
3 DATA
4 DATE 15 APR 1699/00
4 TEXT John of Tom Lee
3 NOTE child John: the child
""",
    ),
    "an entry of a marriage, with names that are linked to nobody": (
        (
            "a,source,Register,,,,",
            "b,entry,1,MARRIAGE,f. 9,2,,,Tom and Eva,witness,Joe,groom,Tom,bride,Eva",
            "c,person,Tom /Lee/,M",
            "d,family,3,",
            "e,event,4,MARR,,2 may 1759,",
            "f,link,2,2,3,he signs",
        ),
        """0 @S1@ SOUR
1 TITL Register
0 @I3@ INDI
1 NAME Tom /Lee/
1 SEX M
1 FAMS @F4@
0 @F4@ FAM
1 HUSB @I3@
1 MARR
2 DATE 2 MAY 1759
2 SOUR @S1@
3 PAGE f. 9, no. 2
3 DATA
4 TEXT Tom and Eva
3 NOTE witness Joe
3 NOTE groom Tom: he signs
3 NOTE bride Eva
""",
    ),
}


def married(*roles):
    """A family with persons in these roles, and what a plain export has of the persons."""
    persons = [(f"0 @I{n}@ INDI", f"1 NAME {n}", "1 FAMS @F1@") for n in range(len(roles))]
    partners = [f"1 {role} @I{n}@" for n, role in enumerate(roles)]
    given = ["0 @F1@ FAM", *partners, *(line for one in persons for line in one)]
    return between(*given), "".join(f"0 @I{n + 2}@ INDI\n1 NAME {n}\n1 FAMS @F1@\n" for n in range(len(roles)))


# Files that are imported into a new archive, and the records of its plain export: a person has a number of its own in
# each, from 2 on if the family is the first record.
FILES = {
    "two husbands": (married("HUSB", "HUSB"), "0 @F1@ FAM\n1 HUSB @I2@\n1 WIFE @I3@\n"),
    "three wives": (married("WIFE", "WIFE", "WIFE"), "0 @F1@ FAM\n1 WIFE @I2@\n1 HUSB @I3@\n1 WIFE @I4@\n"),
    "two husbands and a wife": (
        married("HUSB", "HUSB", "WIFE"), "0 @F1@ FAM\n1 HUSB @I2@\n1 HUSB @I3@\n1 WIFE @I4@\n",
    ),
    "a wife before a husband": (married("WIFE", "HUSB"), "0 @F1@ FAM\n1 WIFE @I2@\n1 HUSB @I3@\n"),
    "names without a text": (
        (between("0 @I1@ INDI", "1 NAME", "1 NAME Ann /Lee/", "1 NAME", "2 GIVN Ann", "2 SURN Ray"), ""),
        "0 @I1@ INDI\n1 NAME Ann /Lee/\n1 NAME //\n2 GIVN Ann\n2 SURN Ray\n",
    ),
}

# A person who is living, an event of whom is the only one at a place.
LIVING = (
    "a,place,Hidden Farm,",
    "b,place,Ashby,",
    "c,person,Ann /Lee/,F",
    "d,event,3,BIRT,,1 may 1990,1",
    "e,person,Tom /Lee/,M",
    "f,event,5,BIRT,,1 may 1800,2",
    "g,participant,6,3,reader",
)
PUBLIC = """0 @I3@ INDI
1 NAME Living
0 @I5@ INDI
1 NAME Tom /Lee/
1 SEX M
1 BIRT
2 DATE 1 MAY 1800
2 PLAC Ashby
"""

# A file with what a plain export leaves out: places with lines of their own, of which one is named, a record with a tag
# of ours, and second sexes, of a person who is dead and of one who is living.
FILE = between(
    "0 @P1@ _LOC", "1 NAME Kent", "1 NOTE by the sea",
    "0 @P2@ _LOC", "1 NAME Hill", "1 NOTE steep", "1 NOTE windy",
    "0 @I1@ INDI", "1 NAME Ann /Lee/", "1 SEX F", "1 SEX M",
    "1 BIRT", "2 DATE 1 MAY 1800", "2 PLAC Kent", "3 _LOC @P1@",
    "0 @I2@ INDI", "1 NAME Tom /Lee/", "1 SEX M", "1 SEX U", "1 BIRT", "2 DATE 1 MAY 1990",
    "0 @I3@ INDI", "1 SEX U",
    "0 @E1@ _REG BURIAL", "1 NOTE torn",
    "0 @T1@ _TODO look again",
)  # fmt: skip
WITH_LINES = (
    """0 @I3@ INDI
1 NAME Ann /Lee/
1 SEX F
1 BIRT
2 DATE 1 MAY 1800
2 PLAC Kent
0 @I5@ INDI
1 NAME Tom /Lee/
1 SEX M
1 BIRT
2 DATE 1 MAY 1990
0 @I7@ INDI
1 SEX U
0 @X9@ _TODO look again
""",
    """  left out: 2 places with lines of their own
  left out: 1 place that nothing names
  left out: 1 record with a tag of our own
  left out: 2 second sexes of persons
""",
)
WITHOUT_LINES = (
    """0 @I3@ INDI
1 NAME Ann /Lee/
1 SEX F
1 BIRT
2 DATE 1 MAY 1800
2 PLAC Kent
0 @I5@ INDI
1 NAME Living
0 @I7@ INDI
1 NAME Living
""",
    "  left out: 1 place that nothing names\n",
)


# One of each kind: a count of one has the singular.
ONE_OF_EACH = between(
    "0 @P1@ _LOC", "1 NAME Kent", "1 NOTE by the sea",
    "0 @I1@ INDI", "1 NAME Ann /Lee/", "1 SEX F", "1 SEX M",
    "0 @E1@ _REG BURIAL", "1 NOTE torn",
)  # fmt: skip
ONE_LEFT_OUT = """  left out: 1 place with lines of its own
  left out: 1 place that nothing names
  left out: 1 record with a tag of our own
  left out: 1 second sex of a person
"""


def plain(at, *words, **how):
    return run(at.parish, ("export", at.file, "--plain", *words), b"", **how)


def plain_exports(tools):
    for name, (rows, records) in ARCHIVES.items():
        with Exported(tools) as at:
            got = plain(at.with_rows(rows))
            demand(got == written((HEADER + records + TRAILER).encode()), f"{name}: {got}")


def of_files(tools):
    for name, ((given, persons), records) in FILES.items():
        with Imported(tools) as at:
            demand(at.made().import_(given).status == 0, f"{name}: the import")
            got = plain(at)
            demand(got == written((HEADER + persons + records + TRAILER).encode()), f"{name}: {got}")


def what_is_left_out(tools):
    """Places that nothing names, also of what is shown; no line where nothing is left out."""
    rows = ("a,place,Kent,", "b,place,Ashby,1", "c,place,Hill,", "d,person,Ann,F", "e,event,4,BIRT,,1 may 1990,2")
    for words, number in (((), "1 place"), (("--public", *TODAY), "2 places")):
        with Exported(tools) as at:
            got = plain(at.with_rows(rows), *words)
            wanted = f"  left out: {number} that nothing names\n"
            demand(got.status == 0 and got.err == wanted.encode(), f"{words}: {got}")
            demand(got.out.endswith(TRAILER.encode()), f"{words}: {got}")


def each_kind_that_is_left_out(tools):
    """Of a file that is imported: the lines of places, a record with a tag of ours and a second sex; none is shown."""
    for words, records, told in (((), *WITH_LINES), (("--public", *TODAY), *WITHOUT_LINES)):
        with Imported(tools) as at:
            expect(at.made().import_(FILE), written(b"imported 9 records, first 1\n"))
            wanted = Outcome((HEADER + records + TRAILER).encode(), told.encode(), 0)
            expect(plain(at, *words), wanted)


def one_of_each_kind(tools):
    with Imported(tools) as at:
        demand(at.made().import_(ONE_OF_EACH).status == 0, "the import")
        got = plain(at)
        demand((got.status, got.err) == (0, ONE_LEFT_OUT.encode()), f"{got}")


def standard_error_fails(tools):
    """The file is written whole, and the status is 0."""
    with Exported(tools) as at, open("/dev/full", "wb") as full:
        whole = plain(at.with_rows(("a,place,Kent,",)))
        demand(whole.err == b"  left out: 1 place that nothing names\n", f"{whole}")
        expect(plain(at, stderr=full), written(whole.out))


def nothing_of_ours(tools):
    """It is in canonical form, has no tag of ours, and each person and family of the usual export."""
    for seed in range(6):
        with Exported(tools) as at:
            at.made().apply(generated(seed, 200))
            got, usual = plain(at), at.export().out
            demand(got.status == 0 and not OURS.search(got.out), f"a tag of ours: {got}")
            expect(run(tools.parish, ("norm",), got.out), written(got.out))
            for tag in (b"INDI", b"FAM", b"SOUR", b"REPO"):
                found = re.findall(rb"^0 @\w+@ " + tag + rb"$", got.out, re.MULTILINE)
                demand(found == re.findall(rb"^0 @\w+@ " + tag + rb"$", usual, re.MULTILINE), f"{tag}: {found}")


def the_public_one(tools):
    """The living are masked, and a place that only something hidden names is not in it; the whole one has both."""
    with Exported(tools) as at:
        said = b"  left out: 1 place that nothing names\n"
        wanted = Outcome((HEADER + PUBLIC + TRAILER).encode(), said, 0)
        expect(plain(at.with_rows(LIVING), "--public", *TODAY), wanted)
        whole = plain(at).out
        demand(b"2 PLAC Hidden Farm\n" in whole and b"1 NAME Ann /Lee/\n" in whole, f"the whole one: {whole}")


def nothing_changes(tools):
    with Exported(tools) as at:
        at.with_rows(EXPORTED["register entries, linked and not"][0])
        before = at.tables()
        demand(plain(at) == plain(at), "two plain exports differ")
        plain(at, "--public", *TODAY)
        demand(at.tables() == before, "the tables changed")


def what_stops_it(tools):
    refused_as_no_archive(Exported, tools, plain)
    refused_as_no_archive(Exported, tools, lambda at: plain(at, "--public", *TODAY))
    with Exported(tools) as at, open("/dev/full", "wb") as full:
        at.with_rows(LIVING)
        expect(plain(at, stdout=full), refused(95))
        expect(plain(at, "--public", *TODAY, stdout=full), refused(95))


def too_long_for_a_text(tools):
    """The note of an entry without a link, of 1,048,576 bytes, and of one more: that cannot be a text."""
    words = "f. 9, no. 2: BURIAL\nburied Kit\n"
    for more, status in ((0, 0), (1, 1)):
        with Exported(tools) as at:
            text = "x" * (1_048_576 - len(words) + more)
            at.with_rows(("a,source,Register,,,,", f"b,entry,1,BURIAL,f. 9,2,,,{text},buried,Kit"))
            got = plain(at)
            demand(got.status == status and (more == 0 or got == refused(70)), f"{more}: {got.status}, {got.err}")
            demand(at.export().status == 0, "the usual export")


def the_reader_leaves(tools):
    """In the middle of a plain export of 900,000 bytes: what it got is a prefix."""
    with Exported(tools) as at:
        whole = plain(at.with_rows([f"p{n},person,{'x' * 100_000}," for n in range(9)])).out
        demand(whole.startswith(left_by_its_reader([*at.parish, "export", at.file, "--plain"])), "no prefix")


TESTS = (
    plain_exports,
    of_files,
    what_is_left_out,
    each_kind_that_is_left_out,
    one_of_each_kind,
    standard_error_fails,
    nothing_of_ours,
    the_public_one,
    nothing_changes,
    what_stops_it,
    too_long_for_a_text,
    the_reader_leaves,
)


def cases(tools: Tools):
    for test in TESTS:
        yield Case(f"plain exports: {test.__name__.replace('_', ' ')}", lambda test=test: test(tools))
