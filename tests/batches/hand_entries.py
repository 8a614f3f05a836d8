"""Register entries, each way to be none, two of one key; and numbers."""

from __future__ import annotations

from cases import makes, refuses, under
from plain import Citation, Entry, Event, Mention, Name, Other, Person, Place, Source

LAST = 4_294_967_295
# a source, a place and a person that entries name, and what they make: 1, 2 and 3
NAMED = ["0 @S@ SOUR", "0 @P@ _LOC", "1 NAME Kent", "0 @I@ INDI"]
MADE = [Source(), Place("Kent"), Person()]
PLAIN = ["1 SOUR @S@", "1 PAGE f. 3", "1 _ITEM 1", "1 TEXT Ann", "1 _MENT Ann Lee", "2 _ROLE buried"]
FULL = [*PLAIN[:3], "1 DATE 1 JAN 1700", "1 PLAC Kent", "2 _LOC @P@", *PLAIN[3:], "2 _LINK @I@", "3 _WHY same farm"]
NUMBERS = {"@S@": "#1", "@P@": "#2", "@I@": "#3"}


def burial(page="f. 3", item=1, text="Ann", name="Ann Lee", date=None, place=None, link=(None, None)) -> Entry:
    return Entry(1, "BURIAL", page, item, text, (Mention("buried", name, *link),), date, place)


def entry(name, given, wanted, said=()):
    """A node _REG behind the three that it names, and the record that it becomes."""
    return makes(name, [*NAMED, *given], [*MADE, wanted], said)


def with_numbers(line: str) -> str:
    return " ".join(NUMBERS.get(word, word) for word in line.split(" "))


def none(name, given, kind: str | int = "BURIAL", said=()):
    """Lines below a node _REG that make it none of an entry: it is another record, and all of them are carried."""
    value = "@I@" if kind == 3 else kind
    first = f"0 _REG {value}" if value else "0 _REG"
    wanted = Other("_REG", kind, under(*map(with_numbers, given)))
    return entry(f"no entry: {name}", [first, *given], wanted, said)


def mentions(*roles: str) -> list[str]:
    return [line for n, role in enumerate(roles) for line in (f"1 _MENT Lee {n}", f"2 _ROLE {role}")]


def mentioned(*roles: str) -> tuple[Mention, ...]:
    return tuple(Mention(role, f"Lee {n}") for n, role in enumerate(roles))


def changed(lines, at: int, *others: str) -> list[str]:
    """The lines with others in the place of one."""
    return [*lines[:at], *others, *lines[at + 1 :]]


FILES = (
    # ---- entries
    entry("an entry of a burial", ["0 @E@ _REG BURIAL", *PLAIN], burial()),
    entry(
        "an entry with date, place and link", ["0 _REG BURIAL", *FULL],
        burial(date="1 JAN 1700", place=2, link=(3, "same farm")),
    ),
    entry(
        "texts of an entry that are empty or have line breaks",
        ["0 _REG BURIAL", "1 SOUR @S@", "1 PAGE", "1 _ITEM 999999", "1 TEXT two", "2 CONT lines", "1 _MENT",
         "2 _ROLE buried"],
        burial("", 999_999, "two\nlines", ""),
    ),
    entry("an entry with an empty date", ["0 _REG BURIAL", *PLAIN[:3], "1 DATE", *PLAIN[3:]], burial(date="")),
    entry(
        "an entry with a date that fits no form", ["0 _REG BURIAL", *PLAIN[:3], "1 DATE in harvest", *PLAIN[3:]],
        burial(date="in harvest"),
    ),
    entry(
        "a link without a reason", ["0 _REG BURIAL", *PLAIN, "2 _LINK @I@", "3 _WHY"], burial(link=(3, "")),
    ),
    entry(
        "names below level 0 do not matter",
        ["0 _REG BURIAL", "1 @A@ SOUR @S@", *PLAIN[1:5], "2 @B@ _ROLE buried", "2 @C@ _LINK @I@", "3 @D@ _WHY kin"],
        burial(link=(3, "kin")),
    ),
    entry(
        "a page of more than 1,000 bytes",
        ["0 _REG BURIAL", *changed(PLAIN, 1, "1 PAGE " + "é" * 501)],
        burial("é" * 501),
    ),
    entry(
        "a baptism with all its roles",
        ["0 _REG BAPTISM", *PLAIN[:4], *mentions("child", "father", "mother", "godparent", "godparent")],
        Entry(1, "BAPTISM", "f. 3", 1, "Ann", mentioned("child", "father", "mother", "godparent", "godparent")),
    ),
    entry(
        "a marriage with all its roles",
        ["0 _REG MARRIAGE", *PLAIN[:4], *mentions("witness", "groom", "bride", "father-of-groom", "father-of-bride")],
        Entry(1, "MARRIAGE", "f. 3", 1, "Ann",
              mentioned("witness", "groom", "bride", "father-of-groom", "father-of-bride")),
    ),
    entry(
        "a burial with all its roles, and 100 mentions",
        ["0 _REG BURIAL", *PLAIN[:4], *mentions(*("spouse", "father", "mother", "buried") * 25)],
        Entry(1, "BURIAL", "f. 3", 1, "Ann", mentioned(*("spouse", "father", "mother", "buried") * 25)),
    ),
    entry(
        "mentions that are linked, and one that is not",
        ["0 _REG BURIAL", *PLAIN, "2 _LINK @I@", "3 _WHY kin", *mentions("father"), "2 _LINK @I@", "3 _WHY",
         *mentions("mother")],
        Entry(1, "BURIAL", "f. 3", 1, "Ann", (Mention("buried", "Ann Lee", 3, "kin"),
                                              Mention("father", "Lee 0", 3, ""), Mention("mother", "Lee 0"))),
    ),
    entry(
        "lines that dangle are gone before it is judged",
        ["0 _REG BURIAL", *FULL[:2], "2 NOTE @N9@", *FULL[2:4], "1 NOTE @N9@", *FULL[4:9], "2 _LINK @N9@", "3 _WHY x"],
        burial(date="1 JAN 1700", place=2),
        ["9 dangling", "12 dangling", "18 dangling"],
    ),
    # ---- no entries
    none("another kind", PLAIN, "BIRTH"),
    none("a kind in small letters", PLAIN, "burial"),
    none("a kind with a space", PLAIN, "BURIAL "),
    none("without a kind", PLAIN, ""),
    none("a pointer as its kind", PLAIN, 3),
    none("no lines", []),
    none("without a source", PLAIN[1:]),
    none("a text as its source", changed(PLAIN, 0, "1 SOUR Register")),
    none("a person as its source", changed(PLAIN, 0, "1 SOUR @I@")),
    none("a line below the source", changed(PLAIN, 0, "1 SOUR @S@", "2 PAGE 1")),
    none("the page before the source", [PLAIN[1], PLAIN[0], *PLAIN[2:]]),
    none("two sources", ["1 SOUR @S@", *PLAIN]),
    none("without a page", changed(PLAIN, 1)),
    none("a pointer as its page", changed(PLAIN, 1, "1 PAGE @S@")),
    none("a line below the page", changed(PLAIN, 1, PLAIN[1], "2 NOTE x")),
    none("without an item", changed(PLAIN, 2)),
    *(none(f"the item {item!r}", changed(PLAIN, 2, f"1 _ITEM {item}".rstrip("~")))
      for item in ("0", "1000000", "01", "+1", "1 ", " 1", "x", "1.0", "~")),
    none("a line below the item", changed(PLAIN, 2, "1 _ITEM 1", "2 NOTE x")),
    none("a date in another spelling", changed(FULL, 3, "1 DATE 1 jan 1700")),
    none("a date with spaces", changed(FULL, 3, "1 DATE 1 JAN 1700 ")),
    none("a line below the date", changed(FULL, 3, "1 DATE 1 JAN 1700", "2 TIME noon")),
    none("two dates", changed(FULL, 3, FULL[3], FULL[3])),
    none("the date behind the place", [*FULL[:3], *FULL[4:6], FULL[3], *FULL[6:]]),
    none("a place without its record", [*FULL[:5], *FULL[6:]]),
    none("a place of another path", changed(FULL, 4, "1 PLAC Ross")),
    none("a place in another spelling", changed(FULL, 4, "1 PLAC Kent ")),
    none("a pointer as its place", changed(FULL, 4, "1 PLAC @P@")),
    none("a person as the record of its place", changed(FULL, 5, "2 _LOC @I@")),
    none("a line below the record of its place", changed(FULL, 5, FULL[5], "3 NOTE x")),
    none("a further line below the place", changed(FULL, 5, FULL[5], "2 MAP")),
    none("without the text", changed(PLAIN, 3)),
    none("a line below the text", changed(PLAIN, 3, "1 TEXT Ann", "2 NOTE x")),
    none("the text behind the mentions", [*PLAIN[:3], *PLAIN[4:], PLAIN[3]]),
    none("without a mention", PLAIN[:4]),
    none("101 mentions", [*PLAIN[:4], *PLAIN[4:] * 101]),
    none("a pointer as a name", changed(PLAIN, 4, "1 _MENT @I@")),
    none("a mention without a role", PLAIN[:5]),
    none("a role of another kind", changed(PLAIN, 5, "2 _ROLE child")),
    none("a role in another case", changed(PLAIN, 5, "2 _ROLE Buried")),
    none("an empty role", changed(PLAIN, 5, "2 _ROLE")),
    none("a line below the role", [*PLAIN, "3 NOTE x"]),
    none("two roles", [*PLAIN, PLAIN[5]]),
    none("the link before the role", [*PLAIN[:5], "2 _LINK @I@", "3 _WHY kin", PLAIN[5]]),
    none("a link without _WHY", FULL[:-1]),
    none("a link to a source", [*FULL[:-2], "2 _LINK @S@", "3 _WHY kin"]),
    none("a text as a link", [*FULL[:-2], "2 _LINK Ann", "3 _WHY kin"]),
    none("two reasons", [*FULL, "3 _WHY kin"]),
    none("a line below the reason", [*FULL, "4 NOTE x"]),
    none("two links", [*FULL, *FULL[-2:]]),
    none("a further line", [*PLAIN, "1 NOTE x"]),
    none("a further line in front", ["1 NOTE x", *PLAIN]),
    none("a mention that is none among others", [*PLAIN, "1 _MENT Tom"]),
    makes(
        "no entry: the source dangles", ["0 _REG BURIAL", "1 SOUR @S9@", *PLAIN[1:]],
        [Other("_REG", "BURIAL", under(*PLAIN[1:]))], ["3 dangling"],
    ),
    makes(
        "no entry: a path of empty parts",
        ["0 @S@ SOUR", "0 @P@ _LOC", "0 _REG BURIAL", *PLAIN[:3], "1 PLAC", "2 _LOC @P@", *PLAIN[3:]],
        [Source(), Place(""), Other("_REG", "BURIAL", under(*map(with_numbers, PLAIN[:3]), "1 PLAC", "2 _LOC #2",
                                                           *PLAIN[3:]))],
    ),
    makes(
        "an entry at a place of two parts, which stands behind it",
        ["0 _REG BURIAL", *PLAIN[:3], "1 PLAC Ashby, Kent", "2 _LOC @P@", *PLAIN[3:], "0 @K@ _LOC", "1 NAME Kent",
         "0 @P@ _LOC", "1 NAME Ashby", "1 _LOC @K@", "0 @S@ SOUR"],
        [Entry(4, "BURIAL", "f. 3", 1, "Ann", (Mention("buried", "Ann Lee"),), None, 3), Place("Kent"),
         Place("Ashby", 2), Source()],
    ),
    # ---- entries of one key
    refuses(
        "two entries of one key", ["0 @S@ SOUR", "0 _REG BURIAL", *PLAIN, "0 @E@ _REG BURIAL", *PLAIN],
        "60 DuplicateEntry at line 10",
    ),
    refuses(
        "two entries of one key, with other words, among others, and a third",
        [*NAMED, "0 _REG BURIAL", *PLAIN, "0 NOTE x", "0 _REG BURIAL", *FULL, "0 _REG BURIAL", *PLAIN],
        "60 DuplicateEntry at line 14",
    ),
    refuses(
        "the first second entry of two", ["0 @S@ SOUR", "0 _REG BURIAL", *PLAIN, "0 _REG BURIAL", *changed(PLAIN, 2,
        "1 _ITEM 2"), "0 _REG BURIAL", *changed(PLAIN, 2, "1 _ITEM 2"), "0 _REG BURIAL", *PLAIN],
        "60 DuplicateEntry at line 17",
    ),
    refuses(
        "60 comes before 63", ["0 @S@ SOUR", "0 _REG BURIAL", *PLAIN, "0 _REG BURIAL", *PLAIN],
        "60 DuplicateEntry at line 10", after=LAST,
    ),
    makes(
        "entries that differ in source, kind, page or item, and one that is none",
        ["0 @S@ SOUR", "0 @T@ SOUR", "0 _REG BURIAL", *PLAIN, "0 _REG BURIAL", *changed(PLAIN, 0, "1 SOUR @T@"),
         "0 _REG BAPTISM", *changed(PLAIN, 5, "2 _ROLE mother"), "0 _REG BURIAL", *changed(PLAIN, 1, "1 PAGE f. 3 "),
         "0 _REG BURIAL", *changed(PLAIN, 2, "1 _ITEM 11"), "0 _REG BURIAL", *PLAIN, "1 NOTE"],
        [
            Source(), Source(), burial(), burial()._replace(source=2),
            Entry(1, "BAPTISM", "f. 3", 1, "Ann", (Mention("mother", "Ann Lee"),)), burial("f. 3 "), burial(item=11),
            Other("_REG", "BURIAL", under(*map(with_numbers, PLAIN), "1 NOTE")),
        ],
    ),
    # ---- numbers
    makes(
        "numbers in the order of lines",
        ["0 @N@ NOTE @I@", "0 @I@ INDI", "1 BIRT", "2 SOUR @S@", "2 PLAC Kent", "1 NAME Ann", "1 SOUR @S@", "1 DEAT",
         "2 PLAC Kent", "2 SOUR @S@", "0 @S@ SOUR", "1 NOTE @N@"],
        [Other("NOTE", 12), Person((Name("Ann"),)), Event(12, "BIRT", place=15), Citation(13, 19), Place("Kent"),
         Citation(12, 19), Event(12, "DEAT", place=15), Citation(17, 19), Source(None, None, None, (),
                                                                               under("1 NOTE #11"))],
        after=11,
    ),
    makes("the next number where nothing is made", ["0 @SOCIETY@ SUBM"], [], after=LAST),
    makes("the last number", ["0 INDI"], [Person()], after=LAST),
    makes(
        "the last number, of a place that is made", ["0 INDI", "1 BIRT", "2 PLAC Ashby, Kent"],
        [Person(), Event(LAST - 3, "BIRT", place=LAST), Place("Kent"), Place("Ashby", LAST - 1)], after=LAST - 3,
    ),
    refuses("one record too many", ["0 INDI", "0 INDI x"], "63 Full", after=LAST),
    refuses("one event too many", ["0 INDI", "1 BIRT"], "63 Full", after=LAST),
    refuses("one place too many", ["0 INDI", "1 BIRT", "2 PLAC Ashby, Kent"], "63 Full", after=LAST - 2),
    makes(
        "no number is drawn for what is dropped",
        ["0 NOTE @N9@", "0 INDI", "1 SOUR @S9@"], [Person()], ["2 dangling", "4 dangling"], after=LAST,
    ),
)
