"""Records: the lines that each is kept as, its fields, and the numbers that it names; written by hand from
docs/FORMATS.md, "Texts, names and stored lines of the archive"."""

from __future__ import annotations

from rows import Ask, Case, Line, given, kept, row

BAD_STORED = "40 BadStored\n"


def carried(depth: int) -> tuple[Line, ...]:
    """`_UID x` with a pointer to 7 below it, whose tag is that of stored lines."""
    return (Line(depth, "carried"), Line(depth + 1, "_UID", "x"), Line(depth + 2, "carried", None, 7))


def tree(depth: int, word: str = "carried") -> tuple[Line, ...]:
    """Carried lines three deep: a text with LF, an empty text, a number; and one beside them."""
    return (
        Line(depth, word),
        Line(depth + 1, "NOTE", "two\nlines"),
        Line(depth + 2, "CONT", ""),
        Line(depth + 3, "SOUR", None, 8),
        Line(depth + 1, "name", "a\\b\tc"),
    )


# What the two are as fields.
X = "0 _UID =x\n1 carried 7\n"
TREE = "0 NOTE =two\\nlines\n1 CONT =\n2 SOUR 8\n0 name =a\\\\b\\tc\n"

# A name, the lines of a record, and its fields.
RECORDS = (
    # places
    (
        "a place within another",
        (Line(0, "place", "Ashby", 3), *carried(1)),
        f"place name =Ashby\nparent 3\ncarried\n{X}",
    ),
    ("a place", (Line(0, "place", "Kent"),), "place name =Kent\nparent -\ncarried\n"),
    ("a place with an empty name", (Line(0, "place", ""),), "place name =\nparent -\ncarried\n"),
    (
        "a place of the last number, with carried lines three deep",
        (Line(0, "place", "two\nlines", 4_294_967_295), *tree(1)),
        f"place name =two\\nlines\nparent 4294967295\ncarried\n{TREE}",
    ),
    # repositories
    ("a repository without a name", (Line(0, "repo"),), "repo name -\ncarried\n"),
    ("a repository", (Line(0, "repo", "County office"),), "repo name =County office\ncarried\n"),
    ("a repository with an empty name", (Line(0, "repo", ""),), "repo name =\ncarried\n"),
    (
        "a repository with carried lines",
        (Line(0, "repo", "-"), *tree(1)),
        f"repo name =-\ncarried\n{TREE}",
    ),
    # sources
    (
        "a source without an author, with an empty publisher",
        (
            Line(0, "source", "Ashby register"),
            Line(1, "publisher", ""),
            Line(1, "holding", "PR 1/1", 2),
        ),
        "source title =Ashby register\nauthor -\npublisher =\n"
        "holding repo 2\nholding call_number =PR 1/1\nholding carried\ncarried\n",
    ),
    ("a bare source", (Line(0, "source"),), "source title -\nauthor -\npublisher -\ncarried\n"),
    (
        "a source with an author alone",
        (Line(0, "source"), Line(1, "author", "T. Lee")),
        "source title -\nauthor =T. Lee\npublisher -\ncarried\n",
    ),
    (
        "a source with a publisher alone",
        (Line(0, "source"), Line(1, "publisher", "Kent Press")),
        "source title -\nauthor -\npublisher =Kent Press\ncarried\n",
    ),
    (
        "a source with all of its fields",
        (
            Line(0, "source", ""),
            Line(1, "author", "T. Lee"),
            Line(1, "publisher", "Kent Press"),
            Line(1, "holding", None, 2),
            *carried(2),
            Line(1, "holding", "", 3),
            *tree(1),
        ),
        "source title =\nauthor =T. Lee\npublisher =Kent Press\n"
        f"holding repo 2\nholding call_number -\nholding carried\n{X}"
        f"holding repo 3\nholding call_number =\nholding carried\ncarried\n{TREE}",
    ),
    # citations
    (
        "a citation",
        (Line(0, "citation", None, 2), Line(1, "source", "f. 3", 1), Line(1, "quality", "2")),
        "citation owner 2\nsource 1\npage =f. 3\nquality 2\ncarried\n",
    ),
    (
        "a citation without page and quality",
        (Line(0, "citation", None, 2), Line(1, "source", None, 1)),
        "citation owner 2\nsource 1\npage -\nquality -\ncarried\n",
    ),
    (
        "a citation with an empty page",
        (Line(0, "citation", None, 2), Line(1, "source", "", 1)),
        "citation owner 2\nsource 1\npage =\nquality -\ncarried\n",
    ),
    *(
        (
            f"a citation of quality {digit}",
            (Line(0, "citation", None, 1), Line(1, "source", None, 7), Line(1, "quality", digit)),
            f"citation owner 1\nsource 7\npage -\nquality {digit}\ncarried\n",
        )
        for digit in ("0", "1", "3")
    ),
    (
        "a citation with carried lines",
        (Line(0, "citation", None, 1), Line(1, "source", "f. 3", 7), *tree(1)),
        f"citation owner 1\nsource 7\npage =f. 3\nquality -\ncarried\n{TREE}",
    ),
    # persons
    (
        "a person",
        (
            Line(0, "person"),
            Line(1, "name", "John /Smith/"),
            *carried(2),
            Line(1, "sex", "M"),
        ),
        f"person\nname text =John /Smith/\nname carried\n{X}sex M\ncarried\n",
    ),
    ("a person without a name", (Line(0, "person"),), "person\nsex -\ncarried\n"),
    (
        "a person of whom a sex is known",
        (Line(0, "person"), Line(1, "sex", "F")),
        "person\nsex F\ncarried\n",
    ),
    (
        "a person with two names, whose sex could not be told",
        (
            Line(0, "person"),
            Line(1, "name", "Ann /Lee/"),
            Line(1, "name", ""),
            *carried(2),
            Line(1, "sex", "U"),
            *tree(1),
        ),
        f"person\nname text =Ann /Lee/\nname carried\nname text =\nname carried\n{X}"
        f"sex U\ncarried\n{TREE}",
    ),
    (
        "the person of the example",
        (
            Line(0, "person"),
            Line(1, "name", "John /Smith/"),
            Line(2, "carried"),
            Line(3, "TYPE", "birth"),
            Line(1, "sex", "M"),
        ),
        "person\nname text =John /Smith/\nname carried\n0 TYPE =birth\nsex M\ncarried\n",
    ),
    (
        "a person with carried lines whose tags are words of fields",
        (Line(0, "person"), Line(1, "carried"), Line(2, "name", "x"), Line(2, "sex", "M")),
        "person\nsex -\ncarried\n0 name =x\n0 sex =M\n",
    ),
    # families
    (
        "a family of a wife and a child",
        (
            Line(0, "family"),
            Line(1, "partner", "wife", 4),
            Line(2, "side"),
            *carried(2)[1:],
            Line(1, "child", None, 5),
            *carried(2),
        ),
        f"family\npartner wife\npartner person 4\npartner carried\npartner carried_by_person\n{X}"
        f"child person 5\nchild carried\n{X}child carried_by_person\ncarried\n",
    ),
    ("a family of nobody", (Line(0, "family"),), "family\ncarried\n"),
    (
        "the family of the example",
        (
            Line(0, "family"),
            Line(1, "partner", "husband", 1),
            Line(1, "partner", "wife", 4),
            Line(1, "child", None, 5),
            Line(2, "side"),
            Line(3, "PEDI", "adopted"),
        ),
        "family\npartner husband\npartner person 1\npartner carried\npartner carried_by_person\n"
        "partner wife\npartner person 4\npartner carried\npartner carried_by_person\n"
        "child person 5\nchild carried\nchild carried_by_person\n0 PEDI =adopted\ncarried\n",
    ),
    (
        "a family with carried lines on both sides of each",
        (
            Line(0, "family"),
            Line(1, "partner", "husband", 1),
            *tree(2, "side"),
            *carried(2),
            Line(1, "child", None, 5),
            *tree(2, "side"),
            *carried(2),
            Line(1, "child", None, 6),
            *tree(1),
        ),
        f"family\npartner husband\npartner person 1\npartner carried\n{X}partner carried_by_person\n{TREE}"
        f"child person 5\nchild carried\n{X}child carried_by_person\n{TREE}"
        f"child person 6\nchild carried\nchild carried_by_person\ncarried\n{TREE}",
    ),
    # events
    (
        "an event with a value, a date, a place and a participant",
        (
            Line(0, "event", None, 1),
            Line(1, "BIRT", "Y"),
            Line(1, "date", "@#DJULIAN@ 11 FEB 1731/32", 3),
            *carried(2),
            Line(1, "participant", "witness", 2),
        ),
        "event owner 1\ntag =BIRT\nvalue =Y\ndate =@#DJULIAN@ 11 FEB 1731/32\n"
        f"place 3\nplace carried\n{X}"
        "participant person 2\nparticipant role =witness\nparticipant carried\ncarried\n",
    ),
    (
        "an event without date and place, whose tag is `date`",
        (Line(0, "event", None, 1), Line(1, "date", "")),
        "event owner 1\ntag =date\nvalue =\ndate -\nplace -\ncarried\n",
    ),
    (
        "an event with a date alone",
        (Line(0, "event", None, 1), Line(1, "date", ""), Line(1, "date", "in harvest")),
        "event owner 1\ntag =date\nvalue =\ndate =in harvest\nplace -\ncarried\n",
    ),
    (
        "an event with a place alone",
        (Line(0, "event", None, 1), Line(1, "date", ""), Line(1, "date", None, 3)),
        "event owner 1\ntag =date\nvalue =\ndate -\nplace 3\nplace carried\ncarried\n",
    ),
    (
        "an event with an empty date",
        (Line(0, "event", None, 1), Line(1, "BIRT", ""), Line(1, "date", "")),
        "event owner 1\ntag =BIRT\nvalue =\ndate =\nplace -\ncarried\n",
    ),
    (
        "the event of the example",
        (
            Line(0, "event", None, 1),
            Line(1, "BIRT", ""),
            Line(1, "date", "@#DJULIAN@ 11 FEB 1731/32", 3),
            Line(2, "carried"),
            Line(3, "MAP", ""),
            Line(1, "participant", "witness", 2),
        ),
        "event owner 1\ntag =BIRT\nvalue =\ndate =@#DJULIAN@ 11 FEB 1731/32\n"
        "place 3\nplace carried\n0 MAP =\n"
        "participant person 2\nparticipant role =witness\nparticipant carried\ncarried\n",
    ),
    (
        "an event with participants and carried lines, whose tag is `carried`",
        (
            Line(0, "event", None, 1),
            Line(1, "carried", "two\nlines"),
            Line(1, "participant", "", 2),
            *tree(2),
            Line(1, "participant", "godfather", 3),
            *carried(1),
        ),
        "event owner 1\ntag =carried\nvalue =two\\nlines\ndate -\nplace -\n"
        f"participant person 2\nparticipant role =\nparticipant carried\n{TREE}"
        "participant person 3\nparticipant role =godfather\nparticipant carried\n"
        f"carried\n{X}",
    ),
    # register entries
    (
        "an entry of a baptism that names two, one of them linked",
        (
            Line(0, "entry", "BAPTISM"),
            Line(1, "key", "12 f. 3", 4),
            Line(1, "page", "f. 3"),
            Line(1, "item", "12"),
            Line(1, "date", "15 APR 1699/00", 3),
            Line(1, "text", ""),
            Line(1, "mention", "John"),
            Line(2, "role", "child"),
            Line(1, "mention", "Tom Lee", 7),
            Line(2, "role", "father"),
            Line(2, "reason", "same farm"),
        ),
        "entry BAPTISM\nsource 4\npage =f. 3\nitem 12\ndate =15 APR 1699/00\nplace 3\ntext =\n"
        "mention child\nmention name =John\nlink -\n"
        "mention father\nmention name =Tom Lee\nlink person 7\n"
        "link reason =same farm\n",
    ),
    (
        "the entry of the example",
        (
            Line(0, "entry", "BAPTISM"),
            Line(1, "key", "1 f. 3", 4),
            Line(1, "page", "f. 3"),
            Line(1, "item", "1"),
            Line(1, "date", "15 APR 1699/00", 3),
            Line(1, "text", "John of Tom"),
            Line(1, "mention", "John"),
            Line(2, "role", "child"),
            Line(1, "mention", "Tom Lee", 7),
            Line(2, "role", "father"),
            Line(2, "reason", "same farm"),
        ),
        "entry BAPTISM\nsource 4\npage =f. 3\nitem 1\ndate =15 APR 1699/00\nplace 3\n"
        "text =John of Tom\nmention child\nmention name =John\nlink -\n"
        "mention father\nmention name =Tom Lee\nlink person 7\n"
        "link reason =same farm\n",
    ),
    (
        "an entry without date, place and mentions",
        (
            Line(0, "entry", "BURIAL"),
            Line(1, "key", "999999 ", 4),
            Line(1, "page", ""),
            Line(1, "item", "999999"),
            Line(1, "text", "two\nlines"),
        ),
        "entry BURIAL\nsource 4\npage =\nitem 999999\ndate -\nplace -\ntext =two\\nlines\n",
    ),
    *(
        (
            f"an entry of a page of {len(page)} bytes",
            (
                Line(0, "entry", "BURIAL"),
                Line(1, "key", key, 4),
                Line(1, "page", page),
                Line(1, "item", "7"),
                Line(1, "text", ""),
            ),
            f"entry BURIAL\nsource 4\npage ={page}\nitem 7\ndate -\nplace -\ntext =\n",
        )
        for page, key in (("f" * 1000, "7 " + "f" * 1000), ("f" * 1001, "7"))
    ),
    (
        "an entry with a date alone",
        (
            Line(0, "entry", "MARRIAGE"),
            Line(1, "key", "1 f. 3", 4),
            Line(1, "page", "f. 3"),
            Line(1, "item", "1"),
            Line(1, "date", ""),
            Line(1, "text", "x"),
        ),
        "entry MARRIAGE\nsource 4\npage =f. 3\nitem 1\ndate =\nplace -\ntext =x\n",
    ),
    (
        "an entry with a place alone",
        (
            Line(0, "entry", "MARRIAGE"),
            Line(1, "key", "1 f. 3", 4),
            Line(1, "page", "f. 3"),
            Line(1, "item", "1"),
            Line(1, "date", None, 3),
            Line(1, "text", "x"),
        ),
        "entry MARRIAGE\nsource 4\npage =f. 3\nitem 1\ndate -\nplace 3\ntext =x\n",
    ),
    *(
        (
            f"an entry that names a {role}",
            (
                Line(0, "entry", "BURIAL"),
                Line(1, "key", "1 f. 3", 4),
                Line(1, "page", "f. 3"),
                Line(1, "item", "1"),
                Line(1, "text", ""),
                Line(1, "mention", "", 7),
                Line(2, "role", role),
                Line(2, "reason", ""),
            ),
            "entry BURIAL\nsource 4\npage =f. 3\nitem 1\ndate -\nplace -\ntext =\n"
            f"mention {role}\nmention name =\nlink person 7\nlink reason =\n",
        )
        for role in (
            "child",
            "father",
            "mother",
            "godparent",
            "groom",
            "bride",
            "father-of-groom",
            "father-of-bride",
            "witness",
            "buried",
            "spouse",
        )
    ),
    # others
    (
        "another record with a text",
        (Line(0, "other"), Line(1, "NOTE", "Lost"), *carried(1)[1:]),
        f"other tag =NOTE\nvalue =Lost\ncarried\n{X}",
    ),
    (
        "another record that points to a number",
        (Line(0, "other"), Line(1, "SUBM", None, 2)),
        "other tag =SUBM\nvalue 2\ncarried\n",
    ),
    (
        "another record with an empty text, whose tag is `carried`",
        (Line(0, "other"), Line(1, "carried", ""), *tree(1)[1:]),
        f"other tag =carried\nvalue =\ncarried\n{TREE}",
    ),
)
