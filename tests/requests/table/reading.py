"""Rows read as commands: each with its bytes and their digest, and rows that are refused.

The order for a row is: not UTF-8 (90), token (93), one field only (92), verb (91), count (92), types (90).
"""

from __future__ import annotations

from table.making import (
    FAMILY,
    LAST,
    ask,
    itself,
    keeps_nothing,
    makes,
    next_is,
    raw,
    refuses,
    row,
    scenario,
    shows,
    spells,
)

# A row of each verb that is well formed; register entries are in entry_rows.py.
GOOD = {
    "person": ("John /Smith/", "M"),
    "name": ("1", "John"),
    "sex": ("1", "F"),
    "family": ("1", "2"),
    "child": ("3", "1"),
    "event": ("1", "BIRT", "", "1700", "1"),
    "amend": ("4", "court", "1700", "1"),
    "participant": ("4", "1", "witness"),
    "place": ("Mill, Ashby", "8"),
    "repo": ("County archive",),
    "source": ("Ashby register", "Rev. Lee", "Ray, Ashby", "6", "MS 4"),
    "citation": ("1", "5", "f. 3", "2"),
    "link": ("9", "2", "1", "same farm"),
    "unlink": ("9", "2"),
    "merge": ("1", "2"),
    "undo": ("4",),
    "remove": ("7",),
    "partner": ("3", "wife", "2"),
    "unpartner": ("3", "1"),
    "unchild": ("3", "2"),
    "unparticipant": ("4", "1"),
    "correct": ("4", "value", "court"),
}
# The places of the numbers in it, and of those that may be missing.
NUMBERS = {
    "name": (0,),
    "sex": (0,),
    "family": (0, 1),
    "child": (0, 1),
    "event": (0, 4),
    "amend": (0, 3),
    "participant": (0, 1),
    "place": (1,),
    "source": (3,),
    "citation": (0, 1),
    "link": (0, 1, 2),
    "unlink": (0, 1),
    "merge": (0, 1),
    "undo": (0,),
    "remove": (0,),
    "partner": (0, 2),
    "unpartner": (0, 1),
    "unchild": (0, 1),
    "unparticipant": (0, 1),
    "correct": (0,),
}
MAY_BE_MISSING = {"family": (0, 1), "event": (4,), "amend": (3,), "place": (1,), "source": (3,)}

NO_NUMBERS = (
    "0",
    "00",
    "0000000000",
    "4294967296",
    "9999999999",
    "00000000001",
    "12345678901",
    "+1",
    "-1",
    " 1",
    "1 ",
    "1a",
    "a",
    "1.0",
    "1_0",
    "0x1",
    "\u0661",
    "\uff11",
    "1\0",
    "1\n",
    "M",
)
QUALITIES = ("0", "1", "2", "3")
NO_QUALITIES = (
    *("4", "5", "9", "10", "33", "00", "02", "03", "-1", "+2", " 2", "2 ", "2.0", "2,", "2\0", "2\n", "a"),
    *(" ", "primary", "\u0662", "\uff12", "\u00b2"),
)
NO_SEXES = ("X", "m", "f", "u", "MF", "M ", " M", "male", "\u039c", "M\n")

NO_PARTNERSHIPS = (
    *("", "Husband", "WIFE", "HUSB", "partner", "child", "spouse", "M", "F", "w", " wife", "wife ", "wife\n", "wives"),
    *("husbands", "husban", "husband\0", "1"),
)

# The words of fields whose value is a text, and words that are no field's.
TEXT_FIELDS = (
    *("tag", "value", "name", "title", "author", "publisher", "call number", "page", "text"),
    *("name 1", "name 10", "name 4294967295", "role 1", "role 100"),
)
NO_FIELDS = (
    *("", "Sex", "sex ", " sex", "names", "name 0", "name 01", "name  1", "name 1 ", "name -1", "name +1", "name a"),
    *("name 4294967296", "name 99999999999", "name ", "role", "role ", "role 0", "roles 1", "call_number"),
    *("call  number", "repo", "kind", "source", "parent", "owner", "PAGE", "name\n1", "value\0"),
)

# Dates as they are given, and as they are spelt: docs/FORMATS.md, "Dates".
DATES = (
    ("1 may 1800", "1 MAY 1800"),
    (" 01  may 1800", "1 MAY 1800"),
    ("@#DGREGORIAN@ 1 MAY 1800", "1 MAY 1800"),
    ("@#djulian@ 11 feb 1731/32", "@#DJULIAN@ 11 FEB 1731/32"),
    ("11 FEB 1731/32", "11 FEB 1731/32"),
    ("@#dfrench  r@ 018 brum 8", "@#dfrench  r@ 018 brum 8"),
    ("@#dfrench  r@ 08 brum 0008", "@#DFRENCH R@ 8 BRUM 8"),
    ("@#dfrench r@ comp 3", "@#DFRENCH R@ COMP 3"),
    ("@#dfrench r@ 6 comp 4", "@#dfrench r@ 6 comp 4"),
    ("1731/33", "1731/33"),
    ("29 FEB 1699/00", "29 FEB 1699/00"),
    ("bet 1700 and 1701", "BET 1700 AND 1701"),
    ("BET 1 MAR 1700 AND 1 JAN 1700", "BET 1 MAR 1700 AND 1 JAN 1700"),
    ("from 1700  to  1701", "FROM 1700 TO 1701"),
    ("abt @#djulian@ 1700", "ABT @#DJULIAN@ 1700"),
    ("aft 31 dec 1999", "AFT 31 DEC 1999"),
    ("44b.c.", "44 B.C."),
    ("INT 1700 (about (or so))", "INT 1700 (about (or so))"),
    ("int 1700(about, or so)", "INT 1700 (about, or so)"),
    ("()", "()"),
    ("(unknown)", "(unknown)"),
    ("0044", "44"),
    ("about a day", "about a day"),
    ("ABT", "ABT"),
    ("1 JAN 0", "1 JAN 0"),
    ("9999/00", "9999/00"),
    ('he said "1700", once', 'he said "1700", once'),
    ("1700\n1701", "1700\n1701"),
    (" ", " "),
)


def changed(fields, at, value):
    return (*fields[:at], value, *fields[at + 1 :])


def bad_numbers():
    """Each number of each verb, spelt in each wrong way; empty where it may not be missing."""
    for verb, places in NUMBERS.items():
        for at in places:
            wrong = NO_NUMBERS + (() if at in MAY_BE_MISSING.get(verb, ()) else ("",))
            for value in wrong:
                yield refuses(90, "x", verb, *changed(GOOD[verb], at, value))


def good_numbers():
    """Each number of each verb, spelt in other ways, and missing where it may be."""
    for verb, places in NUMBERS.items():
        for at in places:
            for value in ("7", "007", "0000000001", "4294967295"):
                given = changed(GOOD[verb], at, value)
                yield from spells((verb, *given), verb, *changed(given, at, int(value)))
            if at in MAY_BE_MISSING.get(verb, ()):
                yield from itself(verb, *changed(GOOD[verb], at, ""))


def dated(given, spelt):
    """The two verbs that have a date, with it."""
    return [
        *spells(("event", 1, "BIRT", "", given, ""), "event", 1, "BIRT", "", spelt, ""),
        *spells(("amend", 1, "", given, ""), "amend", 1, "", spelt, ""),
    ]


def counts():
    """Each verb with fewer and with more fields than it has; its types are not looked at."""
    for verb, fields in GOOD.items():
        fewer = [fields[:n] for n in range(len(fields))]
        for wrong in (*fewer, (*fields, ""), (*fields, "1", "2")):
            yield refuses(92, "x", verb, *wrong)
        yield refuses(92, "x", verb, *["?"] * (len(fields) + 1))


def batch(source, rows, wanted):
    """The bytes of a batch of entries; each row is given with a bar between its fields."""
    return row("! batch", source, *rows).encode(), row("bytes", wanted).encode()


def imported(text, wanted):
    """The bytes of an import of a text."""
    return row("! import", text).encode(), row("bytes", wanted).encode()


BYTES = (
    scenario(
        "the bytes of commands",
        itself("person", "John /Smith/", "M"),
        ask(
            "! bytes,person,John /Smith/,M",
            'bytes,"person,John /Smith/,M\n"',
            "digest,d0c6599be6fcf592528d98b12a13b517482f56bf05a18206e8a8075647d87fd6",
        ),
        itself("person", "", ""),
        itself("person", "", "F"),
        itself("name", "7", 'Smith, "Jon"'),
        ask(
            '! bytes,name,7,"Smith, ""Jon"""',
            'bytes,"name,7,""Smith, """"Jon""""""\n"',
            "digest,e458350d46f1d81710db0fea1b6795a08a1b4b7aa2446fdf32219ee1b0548148",
        ),
        itself("name", "7", "Smith, Jon"),
        itself("name", "7", 'O"Hara'),
        itself("name", "7", "a\rb"),
        itself("name", "7", "a\0b"),
        itself("name", "7", " "),
        itself("name", "7", "\u00e9\u4e2d\U0001f600"),
        itself("sex", "10", "U"),
        itself("family", "1", ""),
        itself("family", "", "2"),
        itself("family", "", ""),
        itself("child", "2", "1"),
        itself("event", "2", "MARR", "", "1 MAY 1800", ""),
        spells(
            ("event", "2", "MARR", "", "1 may 1800", ""),
            *("event", "2", "MARR", "", "1 MAY 1800", ""),
        ),
        itself("event", "4294967295", "BIRT", "", "", "1"),
        spells(
            ("event", "1", "BIRT", "at home", " 01  may 1800", "12"),
            *("event", "1", "BIRT", "at home", "1 MAY 1800", "12"),
        ),
        itself("event", "1", "no tag", "two\nlines", "about, a day", "4"),
        itself("amend", "3", "two\nlines", "about a day", "4"),
        itself("amend", "3", "", "about a day", ""),
        itself("amend", "3", "no", "", "4"),
        itself("amend", "3", "", "", ""),
        itself("amend", "3", "", " ", ""),
        itself("participant", "3", "1", "witness"),
        itself("participant", "3", "1", ""),
        itself("place", "Kent", ""),
        itself("place", "Mill Lane, Ashby", "12"),
        itself("place", " not normal,", "4294967295"),
        itself("place", "", ""),
        ask(
            '! bytes,place,"Mill, Ashby",0008',
            'bytes,"place,""Mill, Ashby"",8\n"',
            "digest,53e770cf9dfca261201849804370bdc43b2f8898353e8801bed0233d4e14c4c2",
        ),
        itself("repo", "County archive"),
        itself("repo", ""),
        itself("repo", 'The "old" archive, Ashby'),
        itself("repo", "a\0b"),
        itself("source", "Ashby register", "", "", "", ""),
        itself("source", "", "", "", "", ""),
        itself("source", "", "Rev. Lee", "", "", ""),
        itself("source", "", "", "Rev. Lee", "", ""),
        itself("source", "Deeds", "", "", "6", ""),
        itself("source", "Deeds", "", "", "", "MS 4"),
        itself("source", "Deeds, vol. 1", 'A. "Sandy" Ray', "two\nlines", "4294967295", "a\rb"),
        ask(
            "! bytes,source,Ashby register,Rev. Lee,,06,MS 4",
            'bytes,"source,Ashby register,Rev. Lee,,6,MS 4\n"',
            "digest,d7b6ba9346a27f48ed4b6f78ea46fee2f1cfc9de9049b6d3267572b73d414cc8",
        ),
        [step for quality in QUALITIES for step in itself("citation", "2", "1", "f. 3", quality)],
        itself("citation", "2", "1", "", ""),
        itself("citation", "2", "1", "", "0"),
        itself("citation", "4294967295", "4294967294", "f. 3, verso", ""),
        ask(
            "! bytes,citation,002,0000000001,f. 3,2",
            'bytes,"citation,2,1,f. 3,2\n"',
            "digest,da892559a9df6052ce05ede7f8ed8b0ff47d629a4832395217e8a12f2882c2cb",
        ),
        itself("merge", "1", "2"),
        ask(
            "! bytes,merge,01,0000000002",
            'bytes,"merge,1,2\n"',
            "digest,b4bb529cc1524c60fef4635b8e973c16e818f2e4a816630a8a022dd2ee96b773",
        ),
        itself("undo", "4"),
        ask(
            "! bytes,undo,004",
            'bytes,"undo,4\n"',
            "digest,b399d6b712a1182a6d893a9998239d887d3fa7613baf4b00295aff201c683802",
        ),
        itself("remove", "7"),
        ask(
            "! bytes,remove,0000000007",
            'bytes,"remove,7\n"',
            "digest,8c85572a23a19208d983ab4123c61d717566d430b5b674a209d1a4a8d981690a",
        ),
        itself("partner", "3", "husband", "2"),
        itself("partner", "4294967295", "wife", "4294967294"),
        ask(
            "! bytes,partner,003,wife,0000000002",
            'bytes,"partner,3,wife,2\n"',
            "digest,0f77aeea83ab9112231cafc0ebedcf2372415ac447afb2798e9e98a78f3a9d24",
        ),
        itself("unpartner", "3", "1"),
        itself("unchild", "3", "1"),
        itself("unparticipant", "4", "1"),
        ask(
            "! bytes,unparticipant,04,001",
            'bytes,"unparticipant,4,1\n"',
            "digest,fab4ff8e6a56c0b5f82c2d056da01989800e80a8fb86c7e558f1b244ad6229a4",
        ),
        [step for word in TEXT_FIELDS for step in itself("correct", "4", word, 'a, "b"\n')],
        [step for word in TEXT_FIELDS for step in itself("correct", "4", word, "")],
        [step for sex in ("M", "F", "U", "") for step in itself("correct", "4", "sex", sex)],
        [step for quality in (*QUALITIES, "") for step in itself("correct", "4", "quality", quality)],
        [step for number in ("7", "") for step in itself("correct", "4", "place", number)],
        [step for number in ("7", "") for step in itself("correct", "4", "repository", number)],
        itself("correct", "4294967295", "place", "4294967295"),
        spells(("correct", "004", "place", "0007"), "correct", "4", "place", "7"),
        spells(("correct", "4", "item", "0000000007"), "correct", "4", "item", "7"),
        itself("correct", "4", "date", ""),
        spells(("correct", "4", "date", " 01  may 1700"), "correct", "4", "date", "1 MAY 1700"),
        next_is(1),
    ),
    scenario("numbers in other spellings", list(good_numbers())),
    scenario(
        "dates in other spellings",
        [step for given, spelt in DATES for step in dated(given, spelt)],
    ),
    scenario(
        "rows that are refused have no bytes",
        ask("! bytes,frob", ",refused,91,UnknownVerb"),
        ask("! bytes,entries,7", ",refused,91,UnknownVerb"),
        ask("! bytes,import", ",refused,91,UnknownVerb"),
        ask("! bytes,person", ",refused,92,FieldCount"),
        ask("! bytes,sex,1,X", ",refused,90,BadRow"),
        ask("! bytes", ",refused,92,FieldCount"),
    ),
    scenario(
        "the bytes of batches of entries",
        ask(
            "! batch,7,BAPTISM|f. 3|1|15 APR 1699/00||John|child|John|father|Tom Lee,"
            '"BURIAL|f. 3, verso|2|||Ann|buried|Ann Lee"',
            'bytes,"entries,7\nBAPTISM,f. 3,1,15 APR 1699/00,,John,child,John,father,Tom Lee\n'
            'BURIAL,""f. 3, verso"",2,,,Ann,buried,Ann Lee\n"',
        ),
        batch(7, (), "entries,7\n"),
        batch(0, (), "entries,0\n"),
        batch("007", (), "entries,7\n"),
        batch(LAST, ("a|b",), "entries,4294967295\na,b\n"),
        batch(1, ("a",), "entries,1\na\n"),
        batch(1, ("a", "b"), "entries,1\na\nb\n"),
        batch(1, ("a|b",), "entries,1\na,b\n"),
        batch(1, ("",), 'entries,1\n""\n'),
        batch(1, ("", ""), 'entries,1\n""\n""\n'),
        batch(1, ("|",), "entries,1\n,\n"),
        batch(1, ("a|", "|b|"), "entries,1\na,\n,b,\n"),
        batch(1, ("a|b|c", "d"), "entries,1\na,b,c\nd\n"),
        batch(1, ('say "a"|two\nlines|c\rd| ',), 'entries,1\n"say ""a""","two\nlines","c\rd", \n'),
        batch(1, ("\u00e9|\u4e2d\U0001f600\0",), "entries,1\n\u00e9,\u4e2d\U0001f600\0\n"),
        batch(1, ("x" * 20_000 + "|y",), "entries,1\n" + "x" * 20_000 + ",y\n"),
        batch(1, ("a|b",) * 1_000, "entries,1\n" + "a,b\n" * 1_000),
        ask("! batch", ",refused,92,FieldCount"),
        ask("! batch,,a", ",refused,90,BadRow"),
        next_is(1),
    ),
    scenario(
        "the bytes of imports",
        imported(
            "0 HEAD\n1 GEDC\n2 VERS 5.5.1\n0 TRLR\n",
            "import\n0 HEAD\n1 GEDC\n2 VERS 5.5.1\n0 TRLR\n",
        ),
        imported("", "import\n"),
        imported("\n", "import\n\n"),
        imported('a,"b"', 'import\na,"b"'),
        imported("x" * 20_000, "import\n" + "x" * 20_000),
        ask("! import", ",refused,92,FieldCount"),
        next_is(1),
    ),
)

ROWS = (
    scenario(
        "verbs that nobody knows",
        [
            refuses(91, "x", *fields)
            for fields in (
                ("frob",),
                ("frob", "1"),
                ("", "1", "a"),
                ("Person", "John", "M"),
                ("PERSON", "John", "M"),
                (" person", "John", "M"),
                ("person ", "John", "M"),
                ("persons", "John", "M"),
                ("perso", "John", "M"),
                ("person\n", "John", "M"),
                ("x", "person", "John", "M"),
                ("places", "Kent", ""),
                ("Place", "Kent", ""),
                ("repository", "County archive"),
                ("Repo", "County archive"),
                ("sources", "Deeds", "", "", "", ""),
                ("sour", "Deeds", "", "", "", ""),
                ("cite", "2", "1", "", ""),
                ("citations", "2", "1", "", ""),
                ("removed", "7"),
                ("Merge", "1", "2"),
                ("merges", "1", "2"),
                ("undone", "4"),
                ("UNDO", "4"),
                ("delete", "7"),
                ("Entry", "7", "BURIAL", "f. 3", "1", "", "", "", "buried", "Ann Lee"),
                ("entry ", "7", "BURIAL", "f. 3", "1", "", "", "", "buried", "Ann Lee"),
                ("register", "7", "BURIAL", "f. 3", "1", "", "", "", "buried", "Ann Lee"),
                ("BURIAL", "f. 3", "1", "", "", "", "buried", "Ann Lee"),
                ("Link", "9", "2", "1", "same farm"),
                ("links", "9", "2", "1", "same farm"),
                ("unlinked", "9", "2"),
                ("unlink ", "9", "2"),
                ("Partner", "3", "wife", "2"),
                ("partners", "3", "wife", "2"),
                ("unpartners", "3", "1"),
                ("Unchild", "3", "1"),
                ("unchildren", "3", "1"),
                ("unparticipants", "4", "1"),
                ("import",),
                ("entries", "1"),
            )
        ],
    ),
    scenario("too few and too many fields", ask("x", "x,refused,92,FieldCount"), list(counts())),
    scenario("numbers that are none", list(bad_numbers())),
    scenario(
        "sexes that are none",
        [refuses(90, "x", "person", "John", sex) for sex in NO_SEXES],
        [refuses(90, "x", "sex", "1", sex) for sex in (*NO_SEXES, "")],
    ),
    scenario(
        "roles of partners that are none",
        [refuses(90, "x", "partner", "3", role, "1") for role in NO_PARTNERSHIPS],
        [refuses(50, "x", "partner", "3", role, "1") for role in ("husband", "wife")],
    ),
    scenario(
        "fields that are none, and values that are of another type",
        [refuses(90, "x", "correct", "4", word, "") for word in NO_FIELDS],
        [refuses(90, "x", "correct", "4", "sex", sex) for sex in NO_SEXES],
        [refuses(90, "x", "correct", "4", "quality", quality) for quality in NO_QUALITIES],
        [refuses(90, "x", "correct", "4", word, value) for word in ("place", "repository") for value in NO_NUMBERS],
        [refuses(90, "x", "correct", "4", "item", value) for value in ("", "0", "1000000", "+1", "a", "1.0")],
        [refuses(50, "x", "correct", "4", word, "a") for word in TEXT_FIELDS],
    ),
    scenario(
        "qualities that are none",
        [refuses(90, "x", "citation", "1", "5", page, quality) for quality in NO_QUALITIES for page in ("", "\r")],
        refuses(50, "x", "citation", "1", "5", "", ""),
        [refuses(50, "x", "citation", "1", "5", "f. 3", quality) for quality in QUALITIES],
    ),
    scenario(
        "the order of what is wrong with a row",
        ask(",frob", ",refused,93,BadToken"),
        ask(",", ",refused,93,BadToken"),
        ask(",sex,1", ",refused,93,BadToken"),
        ask('""', ",refused,93,BadToken"),
        ask("x", "x,refused,92,FieldCount"),
        ask("x,", "x,refused,91,UnknownVerb"),
        ask("x,frob,1,2,3,4,5,6,7", "x,refused,91,UnknownVerb"),
        ask("x,sex,0,X,", "x,refused,92,FieldCount"),
        ask("x,event,2,MARR,,", "x,refused,92,FieldCount"),
        ask("x,event,2,MARR,,,nowhere", "x,refused,90,BadRow"),
        ask("x,name,0,\0", "x,refused,90,BadRow"),
        ask("x,participant,9,0,\0", "x,refused,90,BadRow"),
        ask("x,place,\0", "x,refused,92,FieldCount"),
        ask("x,place,\0,0", "x,refused,90,BadRow"),
        ask("x,repo,\0,", "x,refused,92,FieldCount"),
        ask("x,source,\0,\0,\0,0,\0", "x,refused,90,BadRow"),
        ask("x,source,,,,,MS 4,", "x,refused,92,FieldCount"),
        ask("x,citation,0,0,,4,", "x,refused,92,FieldCount"),
        ask("x,citation,9,9,\0,4", "x,refused,90,BadRow"),
        ask("x,merge,0", "x,refused,92,FieldCount"),
        ask("x,merge,1,", "x,refused,90,BadRow"),
        ask("x,merge,1,2,", "x,refused,92,FieldCount"),
        ask("x,undo,", "x,refused,90,BadRow"),
        ask("x,undo,4,1", "x,refused,92,FieldCount"),
        ask("x,remove,", "x,refused,90,BadRow"),
        ask("x,remove,0,0", "x,refused,92,FieldCount"),
        ask("x,link,0,0,0", "x,refused,92,FieldCount"),
        ask("x,link,9,0,9,\0", "x,refused,90,BadRow"),
        ask("x,unlink,0,0,", "x,refused,92,FieldCount"),
        ask("x,unlink,9,0", "x,refused,90,BadRow"),
        ask("x,partner,0,X", "x,refused,92,FieldCount"),
        ask("x,partner,9,husband,0", "x,refused,90,BadRow"),
        ask("x,unpartner,0,0,", "x,refused,92,FieldCount"),
        ask("x,unpartner,9,0", "x,refused,90,BadRow"),
        ask("x,unchild,9,", "x,refused,90,BadRow"),
        ask("x,unparticipant,9", "x,refused,92,FieldCount"),
        ask("x,unparticipant,9,0", "x,refused,90,BadRow"),
        keeps_nothing("x"),
        next_is(1),
    ),
    scenario(
        "what is wrong with a row comes before what is kept under its token",
        FAMILY,
        ask("p1,frob", "p1,refused,91,UnknownVerb"),
        ask("p1", "p1,refused,92,FieldCount"),
        ask("p1,person,Tom /Lee/", "p1,refused,92,FieldCount"),
        ask("p1,person,Tom /Lee/,X", "p1,refused,90,BadRow"),
        ask("p1,person,Tom /Lee/,", "p1,ok,1,1"),
        next_is(5),
    ),
)

TOKENS = (
    scenario(
        "tokens that are none",
        [
            (row(token, "person", "X", "").encode(), b",refused,93,BadToken\n")
            for token in (
                "",
                " ",
                " a",
                "a ",
                "a b",
                "! ",
                "!\t",
                "a\nb",
                "a\r",
                "a\0",
                "\x1f",
                "\x7f",
                "\u00e9",
                "\ufeffa",
                "\uff01",
                "x" * 65,
                "x" * 1000,
            )
        ],
        next_is(1),
    ),
    scenario(
        "tokens that are unusual",
        [
            makes(number, token, "person", "", "")
            for number, token in enumerate(
                ("!", "~", "!next", "a,b", '"', 'a"b', ",", "-", "#a", "0", "x" * 64, "X" * 64, "=1+1"), 1
            )
        ],
        [makes(number, token, "person", "", "") for number, token in ((1, "!"), (4, "a,b"), (11, "x" * 64))],
    ),
)

BAD_UTF8 = (b"\xff", b"\xc3", b"\x80", b"\xed\xa0\x80", b"\xc0\x80", b"\xf4\x90\x80\x80")

FORM = (
    scenario(
        "line ends, blank lines and quotes",
        raw("a1,person,A,\r\n", "a1,ok,1,1"),
        raw("\n\r\n\na2,person,B,\r", "a2,ok,2,1"),
        raw('"a3","person","C, ""the second""","F"\n', "a3,ok,3,1"),
        raw('a4,name,3,"two\nlines"\n', "a4,ok,0,0"),
        raw('a5,name,"3","a,b"\n', "a5,ok,0,0"),
        shows(
            3,
            (0, "person", "-", "-"),
            (1, "name", 'C, "the second"', "-"),
            (1, "name", "two\nlines", "-"),
            (1, "name", "a,b", "-"),
            (1, "sex", "F", "-"),
        ),
        raw("a7,person,D,", "a7,ok,4,1"),
    ),
    scenario("a byte order mark", raw("\ufeffa1,person,A,\n", "a1,ok,1,1"), next_is(2)),
    scenario(
        "bytes that are not UTF-8",
        [raw(b"x,person," + bad + b",\n", ",refused,90,BadRow") for bad in BAD_UTF8],
        [raw(bad + b",person,X,\n", ",refused,90,BadRow") for bad in BAD_UTF8],
        [raw(b",frob," + bad + b"\n", ",refused,90,BadRow") for bad in BAD_UTF8],
        makes(1, "x", "person", "X", ""),
    ),
)

SCENARIOS = BYTES + ROWS + TOKENS + FORM
