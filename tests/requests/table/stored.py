"""An archive in files: requests that are performed on it, its society, and files that are no archive."""

from __future__ import annotations

from beside import LATER, Line, links_of
from packed import COLUMNS, literal, row_of, values_of
from table import again, entries, merging, order, worked
from table.making import (
    FAMILY,
    Scenario,
    ask,
    changes,
    entry,
    keeps,
    makes,
    next_is,
    refuses,
    row,
    scenario,
    shows,
    shows_entry,
    source,
)

SAME = ask("! stored", "same")
STORE = ask("! store,Lee", "ok")

# Persons 1 and 2, family 3 and event 4, in files too.
STORED = [STORE, *FAMILY]

# What these four are kept as.
KEPT = {
    1: [(0, "person", None, None), (1, "name", "Tom /Lee/", None)],
    2: [(0, "person", None, None), (1, "name", "Ann /Lee/", None)],
    3: [(0, "family", None, None), (1, "partner", "wife", 1)],
    4: [(0, "event", None, 3), (1, "DIV", "", None), (1, "date", "1700", None)],
}


def of_text(text: str | None) -> str:
    """A text of a line as a value of SQL."""
    return "NULL" if text is None else literal(text)


def of_number(number: int | None) -> str:
    return "NULL" if number is None else str(number)


# An archive of these four becomes one of the first version, in which each line has a row.
FIRST_LINE = (
    "CREATE TABLE line (id INTEGER PRIMARY KEY, no INTEGER NOT NULL REFERENCES record (no) ON DELETE RESTRICT, "
    "pos INTEGER NOT NULL, depth INTEGER NOT NULL, tag TEXT NOT NULL, text TEXT, dst INTEGER REFERENCES record (no) "
    "ON DELETE RESTRICT) STRICT"
)
FIRST = "; ".join((
    "UPDATE meta SET version = 1",
    *(f"DROP TABLE {name}" for name in ("line", *LATER)),
    FIRST_LINE,
    "CREATE INDEX line_by_record ON line (no)",
    "CREATE INDEX line_by_target ON line (dst)",
    "CREATE INDEX line_by_text ON line (text, dst)",
    *(
        f"INSERT INTO line ({COLUMNS}) VALUES ({number}, {at}, {depth}, '{tag}', {of_text(text)}, {of_number(named)})"
        for number, lines in KEPT.items()
        for at, (depth, tag, text, named) in enumerate(lines)
    ),
))

META = "CREATE TABLE meta (one INTEGER PRIMARY KEY, version INTEGER, next INTEGER, society TEXT)"


def society(name: str) -> list:
    """An archive that is made for a society, and says so."""
    return [
        (row("! store", name).encode(), b"ok\n"),
        (b"! society\n", row("society", name).encode()),
        SAME,
    ]


def no_society(name: str) -> tuple[bytes, bytes]:
    return row("! store", name).encode(), b",refused,58,BadText\n"


def adopts(statements: str, *told: str | int):
    """What is told of files in which statements made tables."""
    return row("! adopt", statements).encode(), row("adopt", *told).encode()


def spoils(statements: str, *told: str | int):
    """What is told of requests after statements changed the tables of an archive."""
    given = row("! spoil", statements, "z1", "name", 1, "Eva")
    return given.encode(), row("spoil", *told).encode()


def put(number: int, *lines: Line) -> str:
    """Statements that give a record these lines and no others, and its links."""
    values = values_of(row_of(number, lines))
    row = f"; DELETE FROM line WHERE no = {number}; INSERT INTO line ({COLUMNS}) VALUES {values}"
    return row + "".join(f"; INSERT OR IGNORE INTO link VALUES ({key})" for key in links_of(number, lines))


def with_made(statements: str, request: tuple[str | int, ...], *told: str | int):
    """What is told of a request after statements put what no request makes: of it, of it again, of the state and the
    society."""
    return row("! spoil", statements, "z1", *request).encode(), row("spoil", *told).encode()


# What stands at number 6, where source 5 is the last record: an entry of source 5 that is linked to person 2 for no
# reason, the same with a word that is no role, another record that points to itself, one that points to source 5, and
# slips.
MADE = "INSERT INTO record VALUES (6, '{}', 0); UPDATE meta SET next = 7"


def an_entry(role: str) -> str:
    lines = (
        (0, "entry", "BURIAL", None),
        (1, "key", "1 f. 3", 5),
        (1, "page", "f. 3", None),
        (1, "item", "1", None),
        (1, "text", "Ann", None),
        (1, "mention", "Ann", 2),
        (2, "role", role, None),
        (2, "reason", "", None),
    )
    return MADE.format("entry") + put(6, *lines) + "; INSERT INTO sought VALUES (6, '1 f. 3', 5)"


def another(text: str | None, named: int | None) -> str:
    return MADE.format("other") + put(6, (0, "other", None, None), (1, "NOTE", text, named))


ENTRY = an_entry("buried")
NO_ENTRY = an_entry("widow")
OTHER = another("x", None)
OF_ITSELF = another(None, 6)
OF_A_SOURCE = another(None, 5)
CARRIED_BY_ANN = "UPDATE meta SET next = 7" + put(2, *KEPT[2], (1, "carried", None, None), (2, "NOTE", None, 5))
SLIP = "INSERT INTO slip VALUES (6, 1, 2, 0); UPDATE meta SET next = 7"


def in_files(one: Scenario) -> Scenario:
    """The same rows, performed in files too."""
    return scenario(one.name + ", in files", STORE, list(one.steps), SAME)


def has_requests_alone(one: Scenario) -> bool:
    """Whether nothing is put into an archive but by requests."""
    return not any(given.startswith((b"! place", b"! set next")) for given, _ in one.steps)


OTHERS = tuple(
    in_files(one)
    for part in (worked, order, entries, merging, again)
    for one in part.SCENARIOS
    # each row opens the files and reads them whole
    if has_requests_alone(one) and len(one.steps) < 1_000
)

SCENARIOS = OTHERS + (
    scenario(
        "a family with a wedding, asked again in files",
        ask("! store,Kirchspiel Lee", "ok"),
        SAME,
        ask("a1,person,John /Smith/,M", "a1,ok,1,1"),
        ask("a2,family,1,", "a2,ok,2,1"),
        ask("a3,child,2,1", "a3,refused,59,AlreadyInFamily"),
        ask("a4,event,2,BIRT,,,", "a4,refused,62,NotOfKind"),
        ask("a5,event,2,MARR,,1 MAY 1800,", "a5,ok,3,1"),
        ask("a6,participant,3,1,witness", "a6,ok,0,0"),
        ask("a7,event,2,MARR,,,1", "a7,refused,51,WrongKind"),
        ask("a8,frob,1", "a8,refused,91,UnknownVerb"),
        ask("a9,person", "a9,refused,92,FieldCount"),
        ask(",person,X,", ",refused,93,BadToken"),
        ask("a2,family,1,", "a2,ok,2,1"),
        ask("a2,family,,", "a2,refused,52,TokenReused"),
        SAME,
        ask("! society", "society,Kirchspiel Lee"),
        ask("a1,person,John /Smith/,M", "a1,ok,1,1"),
        ask("a5,event,2,MARR,,1 MAY 1800,", "a5,ok,3,1"),
        ask("a6,participant,3,1,witness", "a6,ok,0,0"),
        ask("a1,person,John /Smith/,F", "a1,refused,52,TokenReused"),
        ask("a3,child,2,1", "a3,refused,59,AlreadyInFamily"),
        ask("a4,person,Eva,F", "a4,ok,4,1"),
        keeps("a4", 4, 1, "person", "Eva", "F"),
        next_is(5),
        SAME,
    ),
    scenario(
        "each command, in files",
        STORED,
        changes("x1", "name", 2, "Anna, \"Ann\"\nLee"),
        changes("x2", "sex", 2, "F"),
        changes("x3", "amend", 4, "at home", "ABT 1701", ""),
        changes("x4", "child", 3, 2),
        changes("x5", "participant", 4, 1, ""),
        makes(5, "x6", "event", 1, "BIRT", "Köln", "", ""),
        refuses(50, "x7", "name", 9, "Eva"),
        refuses(54, "x8", "family", 1, 1),
        refuses(58, "x9", "person", "\0", ""),
        makes(6, "x10", "repo", "Archiv, Köln"),
        source(7, "x11", "Kirchenbuch", "Pfarrer \"Lee\"", "", 6, "MS 4"),
        makes(8, "x12", "citation", 5, 7, "f. 3\nverso", "2"),
        makes(9, "x13", "citation", 3, 7, "", ""),
        refuses(53, "x14", "remove", 7),
        changes("x15", "remove", 9),
        changes("x16", "remove", 4),
        refuses(50, "x17", "remove", 9),
        refuses(51, "x18", "citation", 1, 6, "", ""),
        makes(10, "x19", "place", "Rheinprovinz", ""),
        makes(11, "x20", "place", "Köln, Altstadt", 10),
        changes("x21", "amend", 5, "", "1700", 11),
        refuses(53, "x22", "remove", 10),
        refuses(58, "x23", "place", "Köln,Altstadt", 10),
        shows(
            2,
            (0, "person", "-", "-"),
            (1, "name", "Ann /Lee/", "-"),
            (1, "name", "Anna, \"Ann\"\nLee", "-"),
            (1, "sex", "F", "-"),
        ),
        shows(
            7,
            (0, "source", "Kirchenbuch", "-"),
            (1, "author", "Pfarrer \"Lee\"", "-"),
            (1, "holding", "MS 4", 6),
        ),
        shows(8, (0, "citation", "-", 5), (1, "source", "f. 3\nverso", 7), (1, "quality", "2", "-")),
        shows(4),
        shows(9),
        shows(5, (0, "event", "-", 1), (1, "BIRT", "Köln", "-"), (1, "date", "1700", 11)),
        shows(11, (0, "place", "Köln, Altstadt", 10)),
        next_is(12),
        SAME,
        makes(
            *(12, "x24", "entry", 7, "MARRIAGE", "f. 3\nverso", "007", "1 may 1700", 11, "Getraut \"in der Stille\""),
            *("groom", "Tom, Bürger", "bride", "Ann\nLee", "witness", ""),
        ),
        makes(13, "x25", *entry(7, "BURIAL", "", 7)),
        refuses(60, "x26", *entry(7, "MARRIAGE", "f. 3\nverso", 7)),
        refuses(62, "x26", *entry(7, "MARRIAGE", "f. 3\nverso", 7, mentions=("widow", "Ann"))),
        changes("x27", "link", 12, 2, 2, "gleicher Hof, \"Mühle\""),
        changes("x28", "link", 12, 3, 2, "?"),
        changes("x29", "link", 12, 2, 1, "gleicher Name"),
        changes("x30", "unlink", 12, 3),
        changes("x31", "unlink", 13, 1),
        refuses(61, "x32", "link", 12, 4, 2, "x"),
        refuses(58, "x32", "link", 12, 1, 2, ""),
        shows_entry(
            *(12, "MARRIAGE", ("f. 3\nverso", 7), 7, "Getraut \"in der Stille\""),
            ("groom", "Tom, Bürger"),
            ("bride", "Ann\nLee", 1, "gleicher Name"),
            ("witness", ""),
            when=("1 MAY 1700", 11),
        ),
        shows_entry(13, "BURIAL", ("", 7), 7, "", ("buried", "John")),
        changes("x33", "remove", 13),
        shows(13),
        next_is(14),
        SAME,
    ),
    scenario(
        "records are removed in files, one after the other",
        STORED,
        changes("d1", "remove", 4),
        SAME,
        changes("d2", "remove", 3),
        changes("d3", "remove", 1),
        changes("d4", "remove", 2),
        [shows(number) for number in (1, 2, 3, 4)],
        next_is(5),
        SAME,
        changes("d1", "remove", 4),
        refuses(50, "d5", "remove", 4),
        makes(5, "p3", "person", "Eva", ""),
        SAME,
    ),
    scenario(
        "what no request makes is cited, removed and named",
        STORED,
        source(5, "s1", "Deeds"),
        with_made(ENTRY, ("citation", 6, 5, "", ""), 51, 51, "ok", "ok"),
        with_made(ENTRY, ("citation", 1, 6, "", ""), 51, 51, "ok", "ok"),
        with_made(ENTRY, ("citation", 1, 5, "", ""), "ok", "ok", "ok", "ok"),
        with_made(ENTRY, ("remove", 5), 53, 53, "ok", "ok"),
        with_made(ENTRY, ("remove", 2), 53, 53, "ok", "ok"),
        with_made(ENTRY, ("remove", 6), "ok", "ok", "ok", "ok"),
        with_made(ENTRY, ("link", 6, 1, 2, "same age"), "ok", "ok", "ok", "ok"),
        with_made(ENTRY, ("link", 6, 1, 1, ""), 58, 58, "ok", "ok"),
        with_made(ENTRY, ("link", 6, 2, 1, "same age"), 61, 61, "ok", "ok"),
        with_made(ENTRY, ("unlink", 6, 1), "ok", "ok", "ok", "ok"),
        with_made(ENTRY, ("unlink", 6, 2), 61, 61, "ok", "ok"),
        with_made(ENTRY, entry(5, "BURIAL"), 60, 60, "ok", "ok"),
        with_made(ENTRY, entry(5, "BURIAL", item=2), "ok", "ok", "ok", "ok"),
        with_made(ENTRY, entry(5), "ok", "ok", "ok", "ok"),
        with_made(ENTRY, entry(6, "BURIAL"), 51, 51, "ok", "ok"),
        with_made(NO_ENTRY, ("link", 6, 1, 1, "same age"), 40, 40, 40, "ok"),
        with_made(NO_ENTRY, ("unlink", 6, 1), 40, 40, 40, "ok"),
        with_made(NO_ENTRY, entry(5, "BURIAL"), 40, 40, 40, "ok"),
        with_made(NO_ENTRY, entry(5, "BURIAL", "f. 4"), "ok", "ok", 40, "ok"),
        with_made(OTHER, ("citation", 6, 5, "", ""), 51, 51, "ok", "ok"),
        with_made(OF_ITSELF, ("link", 6, 1, 1, "same age"), 51, 51, "ok", "ok"),
        with_made(OF_ITSELF, ("unlink", 6, 1), 51, 51, "ok", "ok"),
        with_made(OF_ITSELF, entry(6), 51, 51, "ok", "ok"),
        with_made(OF_ITSELF, ("remove", 6), "ok", "ok", "ok", "ok"),
        with_made(OF_A_SOURCE, ("remove", 5), 53, 53, "ok", "ok"),
        with_made(OF_A_SOURCE, ("remove", 6), "ok", "ok", "ok", "ok"),
        with_made(CARRIED_BY_ANN, ("remove", 5), 53, 53, "ok", "ok"),
        with_made(CARRIED_BY_ANN, ("remove", 2), "ok", "ok", "ok", "ok"),
        with_made(SLIP, ("remove", 6), 50, 50, "ok", "ok"),
        with_made(SLIP, ("citation", 6, 5, "", ""), 50, 50, "ok", "ok"),
        with_made(SLIP, entry(6), 50, 50, "ok", "ok"),
        with_made(SLIP, ("link", 6, 1, 1, "same age"), 50, 50, "ok", "ok"),
        with_made(SLIP, ("unlink", 6, 1), 50, 50, "ok", "ok"),
        with_made(SLIP, ("remove", 2), "ok", "ok", "ok", "ok"),
        SAME,
        changes("d1", "remove", 5),
        SAME,
    ),
    scenario(
        "several requests in one call",
        STORED,
        ask(
            "! run,r1|name|1|Thomas,r2|name|9|Eva,r3|person|Eva|F,r1|name|1|Thomas,r1|name|1|Tim,r4|child|3|5",
            "r1,ok,0,0",
            "r2,refused,50,NoSuch",
            "r3,ok,5,1",
            "r1,ok,0,0",
            "r1,refused,52,TokenReused",
            "r4,ok,0,0",
        ),
        ask("! run"),
        SAME,
        ask("r3,person,Eva,F", "r3,ok,5,1"),
        next_is(6),
        ask(
            "! run,r5|source|Deeds||||,r6|citation|4|6||2,r7|remove|6,r8|remove|7,r7|remove|6,r9|citation|4|6||",
            "r5,ok,6,1",
            "r6,ok,7,1",
            "r7,refused,53,StillNamed",
            "r8,ok,0,0",
            "r7,ok,0,0",
            "r9,refused,50,NoSuch",
        ),
        SAME,
        next_is(8),
        ask(
            "! run,r10|source|Ashby register||||,r11|entry|8|BURIAL|f. 3|1||||buried|Ann,"
            "r12|entry|8|BURIAL|f. 3|1||||buried|Eva,"
            "r13|link|9|1|2|same age,r14|remove|9,r12|entry|8|BURIAL|f. 3|1||||buried|Eva,r15|link|10|2|2|same age,"
            "r16|unlink|10|1,r17|unlink|9|1",
            "r10,ok,8,1",
            "r11,ok,9,1",
            "r12,refused,60,DuplicateEntry",
            "r13,ok,0,0",
            "r14,ok,0,0",
            "r12,ok,10,1",
            "r15,refused,61,NoSuchMention",
            "r16,ok,0,0",
            "r17,refused,50,NoSuch",
        ),
        SAME,
        next_is(11),
    ),
    scenario(
        "names of societies",
        society("L"),
        society("Verein für Familienkunde, Köln \"1906\"\n(e. V.)"),
        society("x" * 100_000),
        no_society(""),
        no_society("a\0b"),
        no_society("a\rb"),
        no_society("x" * 1_048_577),
        (row("! store over", "Lee").encode(), b"over,82,same\n"),
    ),
    scenario(
        "an archive is not made over another",
        STORED,
        ask("! store over,Lee", "over,82,same"),
        ask("! store over,Other", "over,82,same"),
        ask("! store over,", "over,58,same"),
        ask("! society", "society,Lee"),
        SAME,
    ),
    scenario(
        "files that are no archive",
        ask("! stored", "none"),
        ask("! society", "none"),
        adopts("", "unadopted", 82),
        adopts("CREATE TABLE note (id INTEGER PRIMARY KEY)", "unadopted", 82),
        adopts("CREATE TABLE meta (id INTEGER PRIMARY KEY)", "unadopted", 82),
        adopts(META, "unadopted", 82),
        adopts(META + "; INSERT INTO meta VALUES (1, 1, 1, 'Lee')", "unadopted", 82),
        adopts(META + "; INSERT INTO meta VALUES (1, 2, 1, 'Lee')", "unadopted", 82),
        adopts(META + "; INSERT INTO meta VALUES (1, 3, 1, 'Lee')", "unadopted", 83),
        adopts(META + "; INSERT INTO meta VALUES (1, 0, 1, 'Lee')", "unadopted", 82),
        adopts(META + "; INSERT INTO meta VALUES (1, 1, 1, 'Lee'), (2, 1, 1, 'Lee')", "unadopted", 82),
        adopts("CREATE VIEW meta AS SELECT 1 AS version, 1 AS next, 'Lee' AS society", "unadopted", 82),
        ask("! adopt bytes,x,4096", "adopt,unopened"),
        ask("! adopt bytes,SQLite format 3,400", "adopt,unopened"),
        ask("! adopt bytes,x,0", "adopt,unadopted,82"),
    ),
    scenario(
        "an archive whose tables were changed",
        STORED,
        spoils("", "ok", "ok", "ok", "ok"),
        spoils("UPDATE meta SET version = 3", "unadopted", 83),
        spoils(FIRST, "ok", "ok", "ok", "ok"),
        spoils(FIRST + "; DELETE FROM line", "unadopted", 40),
        spoils("DROP TABLE span", "unadopted", 82),
        spoils("DROP TABLE link", "unadopted", 82),
        spoils("DROP TABLE sought", "unadopted", 82),
        spoils("DELETE FROM meta", "unadopted", 82),
        spoils("DROP TABLE receipt", "unadopted", 82),
        spoils("DELETE FROM line", 40, 40, 40, "ok"),
        spoils("UPDATE line SET text = '\n9 name Ann /Lee/\n'", 40, 40, 40, "ok"),
        spoils("UPDATE line SET text = '\n1 name Ann /Lee/' WHERE no = 1", 40, 40, 40, "ok"),
        spoils("UPDATE line SET text = '\n01 name Ann /Lee/\n' WHERE no = 2", "ok", "ok", 40, "ok"),
        spoils("UPDATE line SET depth = 9, pos = 7", "ok", "ok", "ok", "ok"),
        spoils("DELETE FROM line WHERE no = 2", "ok", "ok", 40, "ok"),
        SAME,
    ),
)
