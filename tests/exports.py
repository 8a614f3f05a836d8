"""Archives written as GEDCOM files by `export`: each kind of record byte for byte, in order, and what stops it."""

from __future__ import annotations

import sqlite3

import shown.gedcom
from archives import Folder, generated, lines
from ends import each_growth_refused, left_by_its_reader, refused_as_no_archive
from harness import Case, Tools, demand, expect, pipe_without_reader, refused, run, written

SOCIETY = "Ashby Society"

HEADER = shown.gedcom.HEADER.format(SOCIETY)
TRAILER = "0 TRLR\n"

# Rows that are accepted in a new archive, and the records of its export, written by hand from docs/FORMATS.md.
ARCHIVES = {
    "nothing": ((), ""),
    "a place and a person": (
        ("t1,place,Ashby,", "t2,person,John /Smith/,M", "t3,event,2,BIRT,,@#DJULIAN@ 2 sep 1752,1"),
        """0 @P1@ _LOC
1 NAME Ashby
0 @I2@ INDI
1 NAME John /Smith/
1 SEX M
1 BIRT
2 DATE @#DJULIAN@ 2 SEP 1752
2 PLAC Ashby
3 _LOC @P1@
""",
    ),
    "a French Republican date": (
        ("t1,person,Anne /Leroy/,F", "t2,event,1,BIRT,,@#dfrench r@ 18 brum 8,"),
        """0 @I1@ INDI
1 NAME Anne /Leroy/
1 SEX F
1 BIRT
2 DATE @#DFRENCH R@ 18 BRUM 8
""",
    ),
    "places within places, unused ones and two of one name": (
        ("a,place,Kent,", "b,place,Ashby,1", "c,place,Ashby,", "d,place,Ashby,", "e,place,\"Hill, The\",2"),
        """0 @P1@ _LOC
1 NAME Kent
0 @P2@ _LOC
1 NAME Ashby
1 _LOC @P1@
0 @P3@ _LOC
1 NAME Ashby
0 @P4@ _LOC
1 NAME Ashby
0 @P5@ _LOC
1 NAME Hill, The
1 _LOC @P2@
""",
    ),
    "the order of kinds, not of numbers": (
        (
            "a,family,,",
            "b,person,Ann /Lee/,F",
            "c,source,Register,Clerk,County,,",
            "d,repo,County Record Office",
            "e,place,Ashby,",
            "f,source,,,,4,PR 12",
            "g,person,,",
            "h,source,,,,4,",
        ),
        """0 @P5@ _LOC
1 NAME Ashby
0 @R4@ REPO
1 NAME County Record Office
0 @S3@ SOUR
1 TITL Register
1 AUTH Clerk
1 PUBL County
0 @S6@ SOUR
1 TITL
1 REPO @R4@
2 CALN PR 12
0 @S8@ SOUR
1 TITL
1 REPO @R4@
0 @I2@ INDI
1 NAME Ann /Lee/
1 SEX F
0 @I7@ INDI
1 NAME
0 @F1@ FAM
""",
    ),
    "members of families, in the order in which they were added": (
        (
            "a,person,Kit,",
            "b,person,Ann,F",
            "c,person,Tom,M",
            "d,family,3,2",
            "e,person,Joe,M",
            "f,child,4,5",
            "g,child,4,1",
            "h,family,,2",
            "i,child,6,3",
            "j,family,5,",
        ),
        """0 @I1@ INDI
1 NAME Kit
1 FAMC @F4@
0 @I2@ INDI
1 NAME Ann
1 SEX F
1 FAMS @F4@
1 FAMS @F6@
0 @I3@ INDI
1 NAME Tom
1 SEX M
1 FAMC @F6@
1 FAMS @F4@
0 @I5@ INDI
1 NAME Joe
1 SEX M
1 FAMC @F4@
1 FAMS @F7@
0 @F4@ FAM
1 HUSB @I3@
1 WIFE @I2@
1 CHIL @I5@
1 CHIL @I1@
0 @F6@ FAM
1 WIFE @I2@
1 CHIL @I3@
0 @F7@ FAM
1 HUSB @I5@
""",
    ),
    "events with what stands below them": (
        (
            "a,source,Register,,,,",
            "b,person,Ann /Lee/,F",
            "c,place,Ashby,",
            "d,event,2,OCCU,yeoman,about 1760,3",
            "e,event,2,BIRT,,abt 1740,",
            "f,participant,4,2,",
            "g,participant,4,2,witness",
            "h,citation,4,1,\"f. 12, item 3\",3",
            "i,citation,2,1,,",
            "j,citation,4,1,,0",
            "k,amend,5,at night,,",
            "l,family,,2",
            "m,event,9,MARR,,2 may 1759,3",
            "n,citation,10,1,f. 4,",
            "o,citation,9,1,f. 5,1",
            "p,sex,2,U",
            "q,name,2,Nan /Lee/",
        ),
        """0 @P3@ _LOC
1 NAME Ashby
0 @S1@ SOUR
1 TITL Register
0 @I2@ INDI
1 NAME Ann /Lee/
1 NAME Nan /Lee/
1 SEX U
1 OCCU yeoman
2 DATE about 1760
2 PLAC Ashby
3 _LOC @P3@
2 _PART @I2@
2 _PART @I2@
3 _ROLE witness
2 SOUR @S1@
3 PAGE f. 12, item 3
3 QUAY 3
2 SOUR @S1@
3 QUAY 0
1 BIRT at night
2 DATE ABT 1740
1 FAMS @F9@
1 SOUR @S1@
0 @F9@ FAM
1 WIFE @I2@
1 MARR
2 DATE 2 MAY 1759
2 PLAC Ashby
3 _LOC @P3@
2 SOUR @S1@
3 PAGE f. 4
1 SOUR @S1@
2 PAGE f. 5
2 QUAY 1
""",
    ),
    "register entries, linked and not": (
        (
            "a,source,Register,,,,",
            "b,place,Ashby,",
            "c,entry,1,BAPTISM,f. 3,1,15 apr 1699/00,2,John of Tom Lee,child,John,father,Tom Lee",
            "d,person,Tom /Lee/,M",
            "e,link,3,2,4,same farm",
            "f,entry,1,BURIAL,,999999,,,,buried,",
            "g,entry,1,MARRIAGE,f. 9,2,,,Tom and Eva,groom,Tom,bride,Eva,father-of-bride,Joe,witness,Kit",
            "h,unlink,3,2",
            "i,link,6,1,4,\"he signs\"",
        ),
        """0 @P2@ _LOC
1 NAME Ashby
0 @S1@ SOUR
1 TITL Register
0 @I4@ INDI
1 NAME Tom /Lee/
1 SEX M
0 @E3@ _REG BAPTISM
1 SOUR @S1@
1 PAGE f. 3
1 _ITEM 1
1 DATE 15 APR 1699/00
1 PLAC Ashby
2 _LOC @P2@
1 TEXT John of Tom Lee
1 _MENT John
2 _ROLE child
1 _MENT Tom Lee
2 _ROLE father
0 @E5@ _REG BURIAL
1 SOUR @S1@
1 PAGE
1 _ITEM 999999
1 TEXT
1 _MENT
2 _ROLE buried
0 @E6@ _REG MARRIAGE
1 SOUR @S1@
1 PAGE f. 9
1 _ITEM 2
1 TEXT Tom and Eva
1 _MENT Tom
2 _ROLE groom
2 _LINK @I4@
3 _WHY he signs
1 _MENT Eva
2 _ROLE bride
1 _MENT Joe
2 _ROLE father-of-bride
1 _MENT Kit
2 _ROLE witness
""",
    ),
    "a merge: what was the second person's is the first one's": (
        (
            "a,person,John /Smith/,M",
            "b,person,Jon /Smyth/,M",
            "c,event,2,BIRT,,1700,",
            "d,merge,1,2",
            "e,person,Eva,F",
            "f,event,5,DEAT,Y,,",
            "g,remove,6",
        ),
        """0 @I1@ INDI
1 NAME John /Smith/
1 NAME Jon /Smyth/
1 SEX M
1 BIRT
2 DATE 1700
1 SEX M
0 @I5@ INDI
1 NAME Eva
1 SEX F
""",
    ),
    "texts with line ends, with @ and with more than a line holds": (
        (
            'a,person,"two\nlines",',
            "b,event,1,OCCU,j@x and @#DJULIAN@ 1700 or @I1@,,",
            "c,event,1,RELI,@I1@,,",
            f"d,event,1,EDUC,{'a ' * 300},,",
        ),
        f"""0 @I1@ INDI
1 NAME two
2 CONT lines
1 OCCU j@@x and @#DJULIAN@ 1700 or @@I1@@
1 RELI @@I1@@
1 EDUC {'a ' * 100}
2 CONC {'a ' * 100}
2 CONC {'a ' * 100}
""",
    ),
}


class Exported(Folder):
    """A folder whose archive is that of a short name."""

    def init(self, name=SOCIETY):
        return super().init(name)

    def export(self, **how):
        return run(self.parish, ("export", self.file), b"", **how)

    def with_rows(self, rows):
        answers = self.made().apply(lines(rows)).out.decode().splitlines()
        bad = [answer for answer in answers if ",ok," not in answer]
        demand(not bad and len(answers) == len(rows), f"a row was refused: {bad}")
        return self


def exports(tools):
    for name, (rows, records) in ARCHIVES.items():
        with Exported(tools) as at:
            got = at.with_rows(rows).export()
            demand(got == written((HEADER + records + TRAILER).encode()), f"{name}: {got}")


def it_is_canonical(tools):
    """`norm` changes nothing, and `check` counts the records and the society."""
    for seed in range(6):
        with Exported(tools) as at:
            at.made().apply(generated(seed, 200))
            text = at.export().out
            expect(run(tools.parish, ("norm",), text), written(text))
            records = sum(line.startswith(b"0 @") for line in text.split(b"\n"))
            expect(run(tools.parish, ("check",), text), written(b"ok: %d records\n" % records))


def nothing_changes(tools):
    with Exported(tools) as at:
        at.with_rows(ARCHIVES["register entries, linked and not"][0])
        before = at.tables()
        demand(at.export() == at.export(), "two exports differ")
        demand(at.tables() == before, "the tables changed")


def numbers_far_apart(tools):
    """Two records with four thousand million numbers between them are read and written at once."""
    with Exported(tools) as at:
        at.with_rows(["a,person,Ann /Lee/,F"]).other_database("UPDATE meta SET next = 4294967293")
        expect(at.apply(lines(["b,person,Bob /Lee/,M"])), written(b"b,ok,4294967293,1\n"))
        records = "".join(
            f"0 @I{number}@ INDI\n1 NAME {name} /Lee/\n1 SEX {sex}\n"
            for number, name, sex in ((1, "Ann", "F"), (4294967293, "Bob", "M"))
        )
        expect(at.export(), written((HEADER + records + TRAILER).encode()))
        expect(run(tools.parish, ("audit", at.file), b""), written(b"sound: 2 records\n"))
        for words in (("export", at.file, "--public"), ("sheet", at.file, "person", "4294967293")):
            got = run(tools.parish, (*words, "--today", "2026-01-01"), b"")
            demand(got.status == 0 and got.out, f"{words[2:]}: {got}")


def no_archive(tools):
    refused_as_no_archive(Exported, tools, Exported.export)


def an_output_that_is_full(tools):
    with Exported(tools) as at:
        at.with_rows(ARCHIVES["a place and a person"][0])
        with open("/dev/full", "wb") as full:
            expect(at.export(stdout=full), refused(95))
        expect(at.export(), written((HEADER + ARCHIVES["a place and a person"][1] + TRAILER).encode()))


def a_reader_that_left(tools):
    with Exported(tools) as at:
        at.made().apply(generated(3, 400))
        with pipe_without_reader() as writing:
            expect(at.export(stdout=writing), refused(95))


def a_reader_that_leaves(tools):
    """In the middle of an export of 900,000 bytes: what it got is a beginning."""
    with Exported(tools) as at:
        whole = at.with_rows([f"p{n},person,{'x' * 100_000}," for n in range(9)]).export().out
        demand(whole.startswith(left_by_its_reader([*at.parish, "export", at.file])), "no beginning")


def refused_memory(tools):
    """1, or 80 if the database wanted it, after a prefix; and the archive is as it was."""
    with Exported(tools) as at:
        at.with_rows(ARCHIVES["register entries, linked and not"][0])
        before = at.tables()
        each_growth_refused(at, at.export)
        demand(at.tables() == before, "the tables changed")


def spoilt_lines(tools):
    """40 where somebody else has spoilt a record's lines, whichever it is, and what was written is a beginning."""
    rows = ARCHIVES["events with what stands below them"][0]
    with Exported(tools) as at:
        whole = at.with_rows(rows).export().out
        numbers = [no for (no,) in at.rows_of("SELECT no FROM record ORDER BY no")]
    for number in numbers:
        with Exported(tools) as at:
            at.with_rows(rows)
            conn = sqlite3.connect(at.file)
            conn.execute("UPDATE line SET tag = 'frob' WHERE no = ?", (number,))
            conn.commit()
            conn.close()
            got = at.export()
            demand(got.status == 1 and got.err == refused(40).err, f"{number}: {got}")
            demand(whole.startswith(got.out) and got.out != whole, f"{number}: no beginning")


def too_large(tools):
    """70 where the text would pass 67,108,864 bytes; the last byte that fits is written."""
    name = "x" * 1_048_576
    with Exported(tools) as at:
        at.with_rows([f"p{n},person,{name}," for n in range(61)])
        got = at.export(limit=600)
        demand(got.status == 0 and len(got.out) <= 67_108_864, f"{got.status} {got.err!r} {len(got.out)}")
        expect(at.apply(lines([f"q,person,{name},"])), written(b"q,ok,62,1\n"))
        more = at.export(limit=600)
        demand(more.status == 1 and more.err == refused(70).err, f"{more.status} {more.err!r}")
        whole = got.out.removesuffix(TRAILER.encode())
        begins = whole.startswith(more.out) or more.out.startswith(whole)
        demand(begins and len(more.out) <= 67_108_864, "no beginning")


TESTS = (
    exports,
    it_is_canonical,
    nothing_changes,
    numbers_far_apart,
    no_archive,
    an_output_that_is_full,
    a_reader_that_left,
    a_reader_that_leaves,
    refused_memory,
    spoilt_lines,
    too_large,
)


def cases(tools: Tools):
    for test in TESTS:
        yield Case(f"exports: {test.__name__.replace('_', ' ')}", lambda test=test: test(tools))
