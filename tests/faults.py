"""All faulty lines of a file: what `check --all` lists, beside the one refusal of `check`.

Each expected line is written by hand from docs/FORMATS.md, "The faults of a file".
"""

from __future__ import annotations

from harness import Case, Outcome, Tools, by_number, expect, refused, run, written
from table.making import HEAD, LARGEST, LONGEST, LONGEST_TEXT, MARK, TRLR, between, lines

WORDS = ("check", "--all")
LISTED = 1_000
SHOWN = 60

# A name, a file, and the list: of each faulty line its number, the number of the refusal, its name, and the line as it
# is displayed.
FAULTS = (
    ("10", between(b"1 NOTE caf\xe9"), [(2, 10, "NotUtf8", r"1 NOTE caf\xE9")]),
    ("11", between("NOTE x"), [(2, 11, "BadLevel", "NOTE x")]),
    ("11, level 99", between("99 NOTE"), [(2, 11, "BadLevel", "99 NOTE")]),
    ("12", between("1 @x NOTE y"), [(2, 12, "BadXref", "1 @x NOTE y")]),
    ("13", between("1 N-TE x"), [(2, 13, "BadTag", "1 N-TE x")]),
    ("14", between("1 NOTE " + LONGEST * "a"), [(2, 14, "TooLong", "1 NOTE " + 53 * "a")]),
    ("14 in the last line", HEAD + LONGEST * b" " + b"a", [(2, 14, "TooLong", SHOWN * " "), (3, 22, "NoTrailer", "")]),
    ("15", between(b"1 NOTE a\0b"), [(2, 15, "Nul", "1 NOTE a b")]),
    ("20", between("2 NOTE"), [(2, 20, "LevelJump", "2 NOTE")]),
    ("21", lines("0 NOTE", "0 TRLR"), [(1, 21, "NoHead", "0 NOTE")]),
    ("21, no line", b"", [(1, 21, "NoHead", "")]),
    ("21, blank lines", b"\n \n\t\n", [(1, 21, "NoHead", "")]),
    ("22", lines("0 HEAD", "0 NOTE"), [(3, 22, "NoTrailer", "")]),
    ("23", lines("0 HEAD", "0 TRLR", "0 NOTE"), [(3, 23, "AfterTrailer", "0 NOTE")]),
    ("24, a cross reference", between("1 @a@ CONT x"), [(2, 24, "BadContinuation", "1 @a@ CONT x")]),
    ("24, a pointer", between("1 NOTE @N1@", "2 CONT x"), [(3, 24, "BadContinuation", "2 CONT x")]),
    (
        "25",
        between("1 NOTE a", "2 CONT b", "3 NOTE c"),
        [(4, 25, "ContinuationHasChildren", "3 NOTE c")],
    ),
    ("26", between("1 @A@ NOTE", "1 @A@ NOTE"), [(3, 26, "DuplicateXref", "1 @A@ NOTE")]),
    (
        "27",
        HEAD + (LARGEST - len(HEAD) - 2) * b"\n" + b"1 A\n",
        [(2, 27, "FileTooLarge", "1 ")],
    ),
    (
        "28",
        between("1 NOTE", *17 * ["2 CONC " + LONGEST_TEXT // 17 * "a"], "2 CONC bcdefghijklmnopqrs"),
        [(20, 28, "TextTooLong", "2 CONC bcdefghijklmnopqrs")],
    ),
    ("29", between("1 CHAR ANSEL"), [(2, 29, "Charset", "1 CHAR ANSEL")]),
    ("30", between("1 GEDC", "2 VERS 7.0"), [(3, 30, "Version", "2 VERS 7.0")]),
    # how the list reads on
    (
        "a line with 11 is passed over",
        between("1 NOTE a", "and its end", "2 CONT b"),
        [(3, 11, "BadLevel", "and its end")],
    ),
    (
        "one with 11 in front of the header",
        lines("text", "0 HEAD", "0 TRLR"),
        [(1, 11, "BadLevel", "text")],
    ),
    (
        "one with 10 counts with its level",
        between(b"1 NOTE caf\xe9", "2 CONC x", "3 A"),
        [(2, 10, "NotUtf8", r"1 NOTE caf\xE9"), (4, 25, "ContinuationHasChildren", "3 A")],
    ),
    (
        "and so do those with 12, 13, 14 and 15",
        between("1 @x A", "2 B", "1 A-", "2 B", "1 A " + LONGEST * "a", "2 B", b"1 A\0", "2 B"),
        [
            (2, 12, "BadXref", "1 @x A"),
            (4, 13, "BadTag", "1 A-"),
            (6, 14, "TooLong", "1 A " + 56 * "a"),
            (8, 15, "Nul", "1 A "),
        ],
    ),
    (
        "of these nothing but the level counts",
        between(b"1 @A@ NOTE caf\xe9", "1 @A@ NOTE"),
        [(2, 10, "NotUtf8", r"1 @A@ NOTE caf\xE9")],
    ),
    (
        "one with 20 counts as one below the line before",
        between("0 @I1@ INDI", "3 NAME x", "2 GIVN y", "4 NOTE z"),
        [(3, 20, "LevelJump", "3 NAME x"), (5, 20, "LevelJump", "4 NOTE z")],
    ),
    (
        "one with 25 counts at the level of its continuation",
        between("1 NOTE a", "2 CONT b", "3 CONT c", "3 CONT d", "2 CONT e"),
        [
            (4, 25, "ContinuationHasChildren", "3 CONT c"),
            (5, 25, "ContinuationHasChildren", "3 CONT d"),
        ],
    ),
    (
        "after a 29 nothing is 10",
        between("1 CHAR ANSEL", b"0 @I\xe9@ INDI", b"1 NAME Andr\xe9", b"and \xe9", b"0 @I\xe9@ INDI"),
        [
            (2, 29, "Charset", "1 CHAR ANSEL"),
            (5, 11, "BadLevel", r"and \xE9"),
            (6, 26, "DuplicateXref", r"0 @I\xE9@ INDI"),
        ],
    ),
    (
        "before a 29 something is",
        between(b"1 NOTE \xe9", "1 CHAR ANSEL", b"1 NOTE \xe9"),
        [(2, 10, "NotUtf8", r"1 NOTE \xE9"), (3, 29, "Charset", "1 CHAR ANSEL")],
    ),
    (
        "23 is reported once and ends the list",
        lines("0 HEAD", "0 TRLR", "0 NOTE", "no level", "0 NOTE"),
        [(3, 23, "AfterTrailer", "0 NOTE")],
    ),
    (
        "a first line below level 0 is below a header",
        lines("1 SOUR X", "2 VERS 3", "1 CHAR ANSEL", "0 TRLR"),
        [(1, 21, "NoHead", "1 SOUR X"), (3, 29, "Charset", "1 CHAR ANSEL")],
    ),
    (
        "one with another fault counts as it stands",
        between("1 @A@ NOTE", "1 @A@ NOTE", "2 CONT x", "1 NOTE @A@", "2 CONT y", "3 B"),
        [
            (3, 26, "DuplicateXref", "1 @A@ NOTE"),
            (6, 24, "BadContinuation", "2 CONT y"),
            (7, 25, "ContinuationHasChildren", "3 B"),
        ],
    ),
    (
        "several faults of one line are one",
        between(b"\0\xe9", "9 @ NOTE"),
        [(2, 15, "Nul", r" \xE9"), (3, 12, "BadXref", "9 @ NOTE")],
    ),
    ("blank lines are not counted", lines("0 HEAD", "", "x", " ", "0 TRLR"), [(2, 11, "BadLevel", "x")]),
    ("a mark at the start is skipped", MARK + lines("0 HEAD", "x", "0 TRLR"), [(2, 11, "BadLevel", "x")]),
    # how a line is displayed
    ("60 characters", between("x" + 100 * "é"), [(2, 11, "BadLevel", "x" + 59 * "é")]),
    (
        "a character of each length",
        between("xé€𐍈" + 100 * "y"),
        [(2, 11, "BadLevel", "xé€𐍈" + 56 * "y")],
    ),
    (
        "control characters",
        between("x\ty\x7fz\x85w\x1b[1m\xa0"),
        [(2, 11, "BadLevel", "x y z w [1m\xa0")],
    ),
    (
        "bytes that begin no character",
        between(b"x\xff\xc3(\xe2\x82\xed\xa0\x80"),
        [(2, 10, "NotUtf8", r"x\xFF\xC3(\xE2\x82\xED\xA0\x80")],
    ),
    ("60 of these", between(61 * b"\xff"), [(2, 10, "NotUtf8", 60 * r"\xFF")]),
)


def listing(found, more=0):
    """The lines of a list."""
    told = "".join(f"line {line}: {number} {name}: {text}\n" for line, number, name, text in found)
    return (told + (f"and {more} more\n" if more else "")).encode()


def refusal(found):
    """What `check` says of the first of them."""
    line, number = found[0][:2]
    return refused(number, line).err


def lists(tools, given, found, more=0):
    """The list, and the first of it as the refusal, which is that of `check` too."""
    expect(run(tools.parish, WORDS, given), Outcome(listing(found, more), refusal(found), 1))
    expect(by_number(run(tools.parish, ("check",), given)), Outcome(b"", refusal(found), 1))


def many(tools, number):
    """A file with so many faulty lines, and what is listed of it."""
    found = [(line, 11, "BadLevel", "x") for line in range(2, min(number, LISTED) + 2)]
    lists(tools, between(*number * ["x"]), found, max(number - LISTED, 0))


def none(tools):
    given = between("0 @I1@ INDI", "1 NAME A /B/")
    expect(run(tools.parish, WORDS, given), written(b"ok: 1 records\n"))


def full_device(tools):
    with open("/dev/full", "wb") as full:
        expect(run(tools.parish, WORDS, HEAD, stdout=full), refused(95))


def cases(tools: Tools):
    for name, given, found in FAULTS:
        yield Case(f"faults: {name}", lambda given=given, found=found: lists(tools, given, found))
    for number in (LISTED, LISTED + 1, 100_000):
        yield Case(f"faults: {number} faulty lines", lambda number=number: many(tools, number))
    yield Case("faults: none", lambda: none(tools))
    yield Case("faults: a full device", lambda: full_device(tools))
