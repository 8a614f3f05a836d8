"""Words, and the value that each is: written by hand from docs/FORMATS.md and GEDCOM 5.5.1, chapter 2."""

from __future__ import annotations

from rows import Ask, Case, row, written

# How often the answer has the value: itself, its copy, and what is made of its parts.
TIMES = {"text": 2, "tag": 2, "token": 3, "date": 4, "display": 1, "surname": 1, "key": 1}

# A kind, words, and what they are written as; None: they are no such value.
SPELT = (
    ("text", "", ""),
    ("text", "two\nlines é", "two\nlines é"),
    ("text", "a\rb", None),
    ("text", "a\0b", None),
    ("text", "\r", None),
    ("text", "\0", None),
    ("text", "\n", "\n"),
    ("text", "a\\n\tb", "a\\n\tb"),
    ("text", " spaces ", " spaces "),
    ("text", "\ufeff\u2028\U0001f600", "\ufeff\u2028\U0001f600"),
    ("text", "x" * 1_048_576, "x" * 1_048_576),
    ("text", "x" * 1_048_577, None),
    ("text", "é" * 524_288, "é" * 524_288),
    ("text", "é" * 524_288 + "x", None),
    ("tag", "NAME", "NAME"),
    ("tag", "_loc2", "_loc2"),
    ("tag", "A234567890B234567890C234567890D", "A234567890B234567890C234567890D"),
    ("tag", "A234567890B234567890C234567890D2", None),
    ("tag", "", None),
    ("tag", "TWO WORDS", None),
    ("tag", "N-", None),
    ("tag", "É", None),
    ("tag", "0", "0"),
    ("tag", "9", "9"),
    ("tag", "_", "_"),
    ("tag", "A", "A"),
    ("tag", "Z", "Z"),
    ("tag", "a", "a"),
    ("tag", "z", "z"),
    ("tag", "/", None),
    ("tag", ":", None),
    ("tag", "@", None),
    ("tag", "[", None),
    ("tag", "`", None),
    ("tag", "{", None),
    ("tag", "NAME\n", None),
    ("token", "!", "!"),
    ("token", "~", "~"),
    ("token", "a1", "a1"),
    ("token", "x" * 64, "x" * 64),
    ("token", "", None),
    ("token", " ", None),
    ("token", "a b", None),
    ("token", "a\x7f", None),
    ("token", "é", None),
    ("token", "x" * 65, None),
    ("token", "a\n", None),
    ("token", "\t", None),
    ("token", "\0", None),
    ("date", "1 jan 1700", "1 JAN 1700"),
    ("date", "44b.c.", "44 B.C."),
    ("date", "about 1700", "about 1700"),
    ("date", "int 1700 (so it says)", "INT 1700 (so it says)"),
    ("date", "", ""),
    ("date", "(a\r)", None),
    ("date", " @#djulian@ 11  feb 1731/32", "@#DJULIAN@ 11 FEB 1731/32"),
    ("date", "15 apr 1699/00", "15 APR 1699/00"),
    ("date", "@#dfrench r@ 18 brum 8", "@#DFRENCH R@ 18 BRUM 8"),
    ("date", "@#dfrench r@ 15", "@#dfrench r@ 15"),
    ("date", "in harvest", "in harvest"),
    ("date", "(a\0)", None),
    ("date", "a\rb", None),
    ("date", "a\0", None),
    ("date", "two\nlines", "two\nlines"),
    ("date", "(two\nlines)", "(two\nlines)"),
    ("date", "from 1700 to 1710", "FROM 1700 TO 1710"),
    ("date", "bef 1700", "BEF 1700"),
    ("date", "@#dgregorian@ 1700", "1700"),
    ("display", "William Lee /Mac Parry/", "William Lee Mac Parry"),
    ("display", "William /Lee/ Parry", "William Lee Parry"),
    ("display", "/Parry/", "Parry"),
    ("display", " Jo/hn  \n/ Smith\n", "John Smith"),
    ("display", " / ", ""),
    ("display", "", ""),
    ("display", "///", ""),
    ("display", "Ann\n/Lee/", "Ann Lee"),
    ("display", "Ann\t/Lee/", "Ann\tLee"),
    ("surname", "William Lee", ""),
    ("surname", "/Parry/", "Parry"),
    ("surname", "William Lee /Mac Parry/", "Mac Parry"),
    ("surname", "William /Lee/ Parry", "Lee"),
    ("surname", "William /Lee", ""),
    ("surname", "//Lee/", ""),
    ("surname", "A /B/C/D/", "B"),
    ("surname", "", ""),
    ("surname", "/", ""),
    ("surname", "A / Lee /", " Lee "),
    ("surname", "A /L\nee/", "L\nee"),
    ("key", "McLEAN", "mclean"),
    ("key", "Straßer", "strasser"),
    ("key", "Ångström", "ångström"),
    ("key", "", ""),
    ("key", "ΣΊΣΥΦΟΣ", "σίσυφοσ"),
    ("key", "ﬁ", "fi"),
)

# Words and the item that they are; None: they are none.
ITEMS = (
    ("12", 12),
    ("", None),
    ("0", None),
    ("012", None),
    ("+12", None),
    ("1000000", None),
    ("99999999999", None),
    ("x", None),
    ("1", 1),
    ("999999", 999_999),
    ("-1", None),
    ("1 ", None),
    ("4294967297", None),
)

# A number and whether it is that of an entry on its page.
NUMBERS = ((1, True), (12, True), (999_999, True), (0, False), (1_000_000, False), (4_294_967_295, False))

# A kind, a word, and the name of its value; None: it is that of none.
NAMED = (
    ("quality", "0", "Unreliable"),
    ("quality", "1", "Questionable"),
    ("quality", "2", "Secondary"),
    ("quality", "3", "Primary"),
    ("quality", "4", None),
    ("quality", "", None),
    ("quality", "02", None),
    ("sex", "M", "Male"),
    ("sex", "F", "Female"),
    ("sex", "U", "Unknown"),
    ("sex", "m", None),
    ("sex", "X", None),
    ("sex", "", None),
    ("partnership", "husband", "Husband"),
    ("partnership", "wife", "Wife"),
    ("partnership", "HUSB", None),
    ("partnership", "", None),
    ("kind", "BAPTISM", "Baptism"),
    ("kind", "MARRIAGE", "Marriage"),
    ("kind", "BURIAL", "Burial"),
    ("kind", "baptism", None),
    ("kind", "", None),
    ("role", "child", "Child"),
    ("role", "father", "Father"),
    ("role", "mother", "Mother"),
    ("role", "godparent", "Godparent"),
    ("role", "groom", "Groom"),
    ("role", "bride", "Bride"),
    ("role", "father-of-groom", "FatherOfGroom"),
    ("role", "father-of-bride", "FatherOfBride"),
    ("role", "witness", "Witness"),
    ("role", "buried", "Buried"),
    ("role", "spouse", "Spouse"),
    ("role", "Child", None),
    ("role", "father-of", None),
    ("role", "", None),
)

# An optional text and its copy, as they stand on a stored line.
COPIED = ("=x", "-", "=", "=two\nlines")


def one(kind: str, word: object, wanted: str) -> Case:
    return Case(f"{kind} {str(word)[:40]!r}", (Ask(row(kind, word), wanted),))


def spelt(kind: str, word: str, value: str | None) -> Case:
    wanted = "none\n" if value is None else (written(value) + "\n") * TIMES[kind]
    return one(kind, word, wanted)


def item(value: int | None) -> str:
    return "none\n" if value is None else f"{value}\n={value}\n"


def cases():
    yield from (spelt(*case) for case in SPELT)
    yield from (one("item", word, item(value)) for word, value in ITEMS)
    yield from (one("number", value, item(value if is_item else None)) for value, is_item in NUMBERS)
    yield one("first", "", item(1))
    for kind, word, name in NAMED:
        yield one(kind, word, "none\n" if name is None else f"{name} {word}\n")
    for text in COPIED:
        yield Case(f"copied {text!r}", (Ask(row("copied", text), row(text) + "\n"),))
