"""Rows with two faults on one line, or in one file: which of them is told.

On one line the order is 15, 10, 11, 12, 13, 23, 21, 20, 25, 24, 26, 28, 29, 30; 14 comes before all.
Some neighbours never meet: 23 needs a trailer and 21 the first line; 21 has no line before it to
jump from; two levels above a CONC is 20 and one level 25; 28 is of continuations, 26, 29 and 30
of other lines; 29 and 30 are of two tags.
"""

from __future__ import annotations

from table.making import HEAD, LONGEST, TRLR, between, header, refuses
from table.values import LONG_LINES

AFTER = HEAD + TRLR  # what follows stands behind the trailer


def after_trailer(line: str) -> bytes:
    return AFTER + line.encode() + b"\n"


ONE_LINE = (
    refuses("too long before U+0000", HEAD + b"\0" * (LONGEST + 1) + b"\n" + TRLR, 14, 2),
    refuses("too long before UTF-8", HEAD + b"\xff" * (LONGEST + 1), 14, 2),
    refuses("too long before a line behind the trailer", AFTER + b"x" * (LONGEST + 1), 14, 3),
    # 15, 10
    refuses("U+0000 before UTF-8", between(b"1 \xff\0"), 15, 2),
    refuses("U+0000 before UTF-8 in a tag", between(b"0 N\0\xff"), 15, 2),
    refuses("U+0000 before UTF-8 in a value", between(b"1 NOTE \0\xff"), 15, 2),
    refuses("U+0000 before the level", between(b"\0A"), 15, 2),
    refuses("U+0000 before a cross reference", between(b"0 @A\0 B"), 15, 2),
    refuses("U+0000 before the header", b"1 NOTE\0\n", 15, 1),
    refuses("U+0000 before the trailer", AFTER + b"0 A \0", 15, 3),
    refuses("U+0000 before a gap of levels", between(b"2 A \0"), 15, 2),
    # 10, 11
    refuses("UTF-8 before the level", between(b"\xff"), 10, 2),
    refuses("UTF-8 before level 99", between(b"99 NOTE \xff"), 10, 2),
    refuses("UTF-8 before a cross reference", between(b"0 @\xff"), 10, 2),
    refuses("UTF-8 before the tag", between(b"0 A-B \xff"), 10, 2),
    refuses("UTF-8 before the trailer", AFTER + b"0 A \xff", 10, 3),
    refuses("UTF-8 before the header", b"1 HEAD \xff\n" + TRLR, 10, 1),
    refuses("UTF-8 before a gap of levels", between(b"2 A \xff"), 10, 2),
    refuses("UTF-8 before a continuation", between(b"0 CONC \xff"), 10, 2),
    refuses("UTF-8 before a name again", between("0 @A@ B", b"0 @A@ C \xff"), 10, 3),
    refuses("UTF-8 before the character set", header(b"1 CHAR \xff"), 10, 2),
    refuses("UTF-8 before the version", header("1 GEDC", b"2 VERS 7\xff"), 10, 3),
    # 11, 12, 13
    refuses("the level before a cross reference", between("100 @A TAG"), 11, 2),
    refuses("the level before the tag", between("100 A-B"), 11, 2),
    refuses("the level before the trailer", after_trailer("1"), 11, 3),
    refuses("the level before the header", b"HEAD x\n", 11, 1),
    refuses("level 99 before the header", b"99 NOTE\n", 11, 1),
    refuses("level 99 before the trailer", after_trailer("99 NOTE"), 11, 3),
    refuses("level 99 before a gap of levels", between("1 A", "99 B x"), 11, 3),
    refuses("level 99 before a name again", between("0 @A@ B", "99 @A@ C"), 11, 3),
    refuses("a cross reference before the tag", between("0 @A- N-"), 12, 2),
    refuses("a cross reference without space before the tag", between("0 @A@N-"), 12, 2),
    refuses("a cross reference before the trailer", after_trailer("0 @A NOTE"), 12, 3),
    refuses("a cross reference before the header", b"0 @A NOTE\n", 12, 1),
    refuses("a cross reference before a gap of levels", between("3 @A NOTE"), 12, 2),
    refuses("a cross reference before a continuation", between("0 @A CONC"), 12, 2),
    refuses("a cross reference before the character set", header("1 @C CHAR ANSEL"), 12, 2),
    # 13, 23
    refuses("the tag before the trailer", after_trailer("0 A-B"), 13, 3),
    refuses("the tag before the header", b"0 A-B\n", 13, 1),
    refuses("the tag before a gap of levels", between("3 A-B"), 13, 2),
    refuses("the tag before what stands below a continuation",
            between("1 NOTE a", "2 CONC b", "3 A-B"), 13, 4),
    refuses("the tag before a continuation", between("0 CONC\tx"), 13, 2),
    refuses("the tag before a name again", between("0 @A@ B", "0 @A@ C-"), 13, 3),
    refuses("the tag before the character set", header("1 CHAR\tANSEL"), 13, 2),
    # 23, and what is behind it but 21
    refuses("the trailer before a gap of levels", after_trailer("2 A"), 23, 3),
    refuses("the trailer before a continuation", after_trailer("1 CONT x"), 23, 3),
    refuses("the trailer before a continuation at level 0", after_trailer("0 CONC"), 23, 3),
    refuses("the trailer before a name again", b"0 @A@ HEAD\n" + TRLR + b"0 @A@ NOTE\n", 23, 3),
    refuses("the trailer before the character set", after_trailer("1 CHAR ANSEL"), 23, 3),
    # 21, and what is behind it
    refuses("the header before a gap of levels", b"2 A\n", 21, 1),
    refuses("the header before a continuation", b"1 CONC x\n", 21, 1),
    refuses("the header before a continuation at level 0", b"0 @A@ CONC\n", 21, 1),
    refuses("the header before the character set", b"1 CHAR ANSEL\n", 21, 1),
    # 20, and what is behind it
    refuses("a gap of levels two above a continuation", between("1 NOTE a", "2 CONC b", "4 A"), 20, 4),
    refuses("a gap of levels before a continuation", between("2 @A@ CONC"), 20, 2),
    refuses("a gap of levels before a continuation of a pointer",
            between("1 NOTE @A@", "3 CONC b"), 20, 3),
    refuses("a gap of levels before a name again", between("0 @A@ B", "2 @A@ C"), 20, 3),
    # 25, 24
    refuses("below a continuation before its cross reference",
            between("1 NOTE a", "2 CONC b", "3 @A@ CONT c"), 25, 4),
    refuses("below a continuation before a name again",
            between("0 @A@ NOTE a", "1 CONC b", "2 @A@ C"), 25, 4),
    # 24, 26
    refuses("a continuation before a name again",
            between("0 @A@ NOTE a", "1 @A@ CONC b"), 24, 3),
    refuses("a continuation at level 0 before a name again",
            between("0 @A@ NOTE a", "0 @A@ CONT b"), 24, 3),
    # 24, 28
    refuses("a continuation before a text that is too long",
            between(*LONG_LINES, "2 @A@ CONC x"), 24, 35),
    # 26, 29 and 26, 30
    refuses("a name again before the character set", b"0 @A@ HEAD\n1 @A@ CHAR ANSEL\n" + TRLR, 26, 2),
    refuses("a name again before the version",
            b"0 @A@ HEAD\n1 GEDC\n2 @A@ VERS 7.0\n" + TRLR, 26, 3),
)

TWO_LINES = (
    refuses("of two faulty lines the first", between("2 A", b"1 \xff"), 20, 2),
    refuses("the character set before a line of other bytes",
            header("1 CHAR ANSEL", b"1 NOTE \xe9"), 29, 2),
    refuses("the version before the character set",
            header("1 GEDC", "2 VERS 7.0", "1 CHAR ANSEL"), 30, 3),
    refuses("the character set before the version",
            header("1 CHAR ANSEL", "1 GEDC", "2 VERS 7.0"), 29, 2),
    refuses("a faulty line before one that is too long",
            between("1 A-B", b" " * (LONGEST + 1)), 13, 2),
    refuses("a line that is too long before a faulty line",
            between(b" " * (LONGEST + 1), "1 A-B"), 14, 2),
    refuses("a faulty line before the trailer that is missing", b"0 HEAD\n1 A-B", 13, 2),
    refuses("a text that is too long before a line below it",
            between(*LONG_LINES, "2 CONC x", "3 A"), 28, 35),
    refuses("a name again before a text that is too long",
            between("0 @A@ A", "0 @A@ A", *LONG_LINES, "2 CONC x"), 26, 3),
)

ROWS = (*ONE_LINE, *TWO_LINES)
