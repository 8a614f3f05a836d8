"""Refusals and reports as they are printed. The table is that of docs/REFUSALS.md."""

from __future__ import annotations

from rows import Ask, Case, row

REFUSALS = """\
1 OutOfMemory
10 NotUtf8
11 BadLevel
12 BadXref
13 BadTag
14 TooLong
15 Nul
20 LevelJump
21 NoHead
22 NoTrailer
23 AfterTrailer
24 BadContinuation
25 ContinuationHasChildren
26 DuplicateXref
27 FileTooLarge
28 TextTooLong
29 Charset
30 Version
40 BadStored
50 NoSuch
51 WrongKind
52 TokenReused
53 StillNamed
54 SamePerson
55 MergeWithinFamily
56 ChangedSince
57 AlreadyUndone
58 BadText
59 AlreadyInFamily
60 DuplicateEntry
61 NoSuchMention
62 NotOfKind
63 Full
64 NoSuchField
65 NotMember
66 StillCarried
70 ExportTooLarge
80 Storage
81 Reopen
82 NotAnArchive
83 NewerSchema
84 ImportOpen
85 NoImport
86 NotAllStaged
87 DaysReversed
90 BadRow
91 UnknownVerb
92 FieldCount
93 BadToken
94 ReadFailed
95 WriteFailed
""".splitlines()


def refusal(wanted: str, *words: object) -> Case:
    return Case(f"refusal {wanted}", (Ask(row("refusal", *words), wanted + "\n"),))


def cases():
    every = "".join(f"{name} {name}\n{number} {name}\n" for number, name in map(str.split, REFUSALS))
    yield Case("every refusal: the name in its type, its name, and as it is printed", (Ask("refusals", every),))
    for told in REFUSALS:
        name = told.split()[1]
        yield refusal(told, name)
        yield refusal(f"{told} at line 2", name, "line", 2)
        yield refusal(f"{told} at row 3", name, "row", 3)
    yield refusal("22 NoTrailer at line 4294967295", "NoTrailer", "line", 4_294_967_295)
    yield refusal("52 TokenReused", "TokenReused", "row", "-")
    report = "line 5: dangling\nline 6: one-sided\nline 7: doubled\nline 9: value dropped\n"
    yield Case("a report has its words", (Ask(row("report", 5, 6, 7, 9), report),))


def twins(refusals: list[str]):
    """The numbers and the names that two refusals share."""
    for part in (0, 1):
        words = [told.split()[part] for told in refusals]
        yield from (f"{word} stands twice" for word in words if words.count(word) > 1)


def faults():
    """What is wrong with the table itself."""
    yield from twins(REFUSALS)
    if not list(twins(["15 Nul", "63 Full", "15 Nul"])):
        yield "a refusal that stands twice is not noticed"
