"""Pages of HTML by hand: one of each kind, of the archive of docs/READING-ROOM.md, and lists of more than one page."""

from __future__ import annotations

from by_requests import LEE_FAMILY
from plain import Entry, Event, Mention, Person, Source

HEAD = (
    "<!DOCTYPE html>\n"
    '<html lang="en"><head><meta charset="utf-8">'
    '<meta name="viewport" content="width=device-width, initial-scale=1"><title>'
)
SOCIETY = "Kent &amp; &quot;Sons&#39;&quot; &lt;Society&gt;"
FRONT = (
    f' - {SOCIETY}</title><link rel="stylesheet" href="/style.css"></head>'
    f'<body><nav><a href="/">{SOCIETY}</a></nav><main>'
)
END = "</main></body></html>\n"
FORM = (
    '<form action="/search" role="search"><input type="search" name="q" aria-label="Words of names" value="{}">'
    "<button>Search</button></form>"
)
LEES = '<li><a href="/person/1">Ann Lee</a></li><li><a href="/person/2">Tom Lee</a></li>'
ONE_PAGE = '<p class="pages">Page 1 of 1. </p>'
ENTRY = (
    '<li>Page f. 3, no. 1: BAPTISM, 1 JAN 1900<p class="text">as it stands there</p>'
    "<ul><li>child: John</li></ul></li>"
)


def page(title: str, main: str) -> str:
    return HEAD + title + FRONT + main + END


BY_HAND = (
    (("home",), page("Reading room", (
        f"<h1>{SOCIETY}</h1>" + FORM.format("")
        + "<ul><li>Persons: 3</li><li>Families: 1</li><li>Registers: 1</li></ul>"
        + '<section><h2>Registers</h2><ul><li><a href="/register/9">Ashby</a></li></ul></section>'
        + '<section><h2>Surnames</h2><ul><li>L<ul><li><a href="/surname?name=Lee">Lee</a>: 2</li></ul></li>'
        + '<li>R<ul><li><a href="/surname?name=Ray">Ray</a>: 1</li></ul></li></ul></section>'
    ))),
    (("register", 9, 1), page("Ashby", (
        f'<h1>Ashby</h1><p class="note">Register 9. Entries: 1</p><ul>{ENTRY}</ul>{ONE_PAGE}'
    ))),
    (("register", 9, 0), "no page\n"),
    (("register", 9, 2), "no page\n"),
    (("register", 1, 1), "no page\n"),
    (("surname", "LEE", 1), page("LEE", (
        f'<h1>LEE</h1><p class="note">Persons: 2</p><ul>{LEES}</ul>{ONE_PAGE}'
    ))),
    (("surname", "<b>", 1), page("&lt;b&gt;", (
        f'<h1>&lt;b&gt;</h1><p class="note">Persons: 0</p><ul></ul>{ONE_PAGE}'
    ))),
    (("search", "le", 1), page("Search", (
        f'<h1>Search</h1>{FORM.format("le")}<p class="note">Found: 2</p><ul>{LEES}</ul>{ONE_PAGE}'
    ))),
    (("search", "\"'", 1), page("Search", (
        f'<h1>Search</h1>{FORM.format("&quot;&#39;")}<p class="note">Found: 0</p><ul></ul>{ONE_PAGE}'
    ))),
    (("search", "jo", 1), page("Search", (
        f'<h1>Search</h1>{FORM.format("jo")}<p class="note">Found: 1</p><ul>'
        + '<li><a href="/register/9">Page f. 3, no. 1: BAPTISM, 1 JAN 1900</a></li></ul>' + ONE_PAGE
    ))),
    (("pedigree", 1, 4), page("Ann Lee", (
        '<h1>Ann Lee</h1><ul class="tree"><li><a href="/person/1">Ann Lee</a><ul>'
        + '<li><a href="/person/2">Tom Lee, b. 1850</a></li><li><a href="/person/3">Eva Ray</a></li></ul></li></ul>'
    ))),
    (("family", 4), page("Family 4", (
        "<h1>Family 4</h1><section><h2>Partners</h2><ul>"
        + '<li>Husband: <a href="/person/2">Tom Lee</a></li><li>Wife: <a href="/person/3">Eva Ray</a></li></ul>'
        + "</section>"
        + '<section><h2>Children</h2><ul><li>Child: <a href="/person/1">Ann Lee</a></li></ul></section>'
    ))),
    (("person", 9), "no page\n"),
)

# Three pages of entries and of persons: 101 of each.
LONG = {
    1: Source("A & B"),
    **{
        number: Entry(1, "BURIAL", "7", number, "1 JAN 1800", (Mention(f"N{number}", "buried"),))
        for number in range(2, 103)
    },
    **{number: Person((f"P{number} /Long/",)) for number in range(103, 204)},
    **{number + 101: Event(number, "DEAT") for number in range(103, 204)},
}
# What is asked of both: a page, or none.
PAGES_OF_LONG = tuple(
    (kind, of, page)
    for kind, of in (("register", 1), ("surname", "long"), ("search", "p"), ("search", "n"), ("search", "long"))
    for page in (0, 1, 2, 3, 4)
)
OF_LEES = LEE_FAMILY

# Surnames by letter: of the search key, written as the last name has them, and without a letter at the end; there also
# persons without any name.
NAMED = (
    ("Ann /Örtli/", "Ann /ORTLI/"), ("Tom /o’Neil/",), ("Eva /van der Berg/",), ("Eva",),
    ("Jo /VAN DER BERG/", "Jo /Van der Berg/"), ("Al /1st/",), ("X /?/",), ("И. /Яков/",), (),
)
LETTERS = {number: Person(names) for number, names in enumerate(NAMED, 1)}
LETTERS |= {number + 10: Event(number, "DEAT") for number in LETTERS}
OF_LETTERS = page("Reading room", (
    f"<h1>{SOCIETY}</h1>" + FORM.format("")
    + "<ul><li>Persons: 9</li><li>Families: 0</li><li>Registers: 0</li></ul>"
    + "<section><h2>Surnames</h2><ul>"
    + '<li>1<ul><li><a href="/surname?name=1st">1st</a>: 1</li></ul></li>'
    + '<li>O<ul><li><a href="/surname?name=ORTLI">ORTLI</a>: 1</li>'
    + '<li><a href="/surname?name=o%E2%80%99Neil">o’Neil</a>: 1</li>'
    + '<li><a href="/surname?name=%C3%96rtli">Örtli</a>: 1</li></ul></li>'
    + '<li>V<ul><li><a href="/surname?name=Van+der+Berg">Van der Berg</a>: 2</li></ul></li>'
    + '<li>я<ul><li><a href="/surname?name=%D0%AF%D0%BA%D0%BE%D0%B2">Яков</a>: 1</li></ul></li>'
    + '<li>?<ul><li><a href="/surname?name=">?</a>: 2</li><li><a href="/surname?name=%3F">?</a>: 1</li></ul></li>'
    + "</ul></section>"
))
OF_NO_SURNAME = page("?", (
    '<h1>?</h1><p class="note">Persons: 2</p>'
    + f'<ul><li><a href="/person/4">Eva</a></li><li><a href="/person/9">?</a></li></ul>{ONE_PAGE}'
))
