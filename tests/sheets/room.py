"""What a reading room answers to the bytes of a connection, by docs/FORMATS.md, "The reading room": slowly, over the
sheets of `rules`."""

from __future__ import annotations

import re
from urllib.parse import unquote_to_bytes

from plain import Family, Person, Source
from rules import NO_SUCH, WRONG_KIND, Sheets
from visits import answer

MOST_BYTES, MOST_LINES = 8_192, 64
TOKEN = rb"[!#$%&'*+\-.^_`|~0-9A-Za-z]+"
LINE = TOKEN + rb":[\t -~\x80-\xff]*\r?\n"
HEAD = re.compile(
    rb"(?:\r?\n)*(" + TOKEN + rb") ([!-~\x80-\xff]+) HTTP/1\.([01])\r?\n((?:" + LINE + rb")*)\r?\n"
)


def value(query, name):
    """The value of the first pair of that name."""
    for pair in filter(None, query.split("&")):
        key, _, found = (unquote_to_bytes(part.replace("+", " ")).decode("utf-8", "replace") for part in
                         pair.partition("="))
        if key == name:
            return found
    return None


def generations(query):
    """How many a query asks for; None where it has no right number."""
    text = value(query, "generations")
    if text is None:
        return 4
    return int(text) if re.fullmatch("[0-9]{1,2}", text) and 1 <= int(text) <= 12 else None


class Room:
    """A room that shows these records."""

    def __init__(self, records: dict):
        self.sheets = Sheets(records)

    def numbered(self, word: str, number: int, query: str):
        """The status and the page of a path with a number."""
        sheets, up = self.sheets, generations(query)
        kind, of = {
            "person": (Person, sheets.person),
            "family": (Family, sheets.family),
            "register": (Source, sheets.register),
            "pedigree": (Person, lambda subject, _: sheets.pedigree(subject, up or 1)),
        }[word]
        page = sheets.sheet(kind, number, of)
        if page in (NO_SUCH, WRONG_KIND):
            return 404, None
        return (400, None) if word == "pedigree" and up is None else (200, page)

    def page(self, path: str, query: str):
        if path == "/":
            return 200, self.sheets.index()
        if path == "/surname":
            name = value(query, "name")
            return (400, None) if name is None else (200, self.sheets.page(name))
        found = re.fullmatch("/(person|family|register|pedigree)/([0-9]{1,10})", path)
        if not found or not 1 <= int(found[2]) <= 4_294_967_295:
            return 404, None
        return self.numbered(found[1], int(found[2]), query)

    def whole(self, method: bytes, target: str, minor: bytes, lines: bytes):
        """The status and the page of a whole head."""
        hosts = len(re.findall(rb"^host:", lines, re.IGNORECASE | re.MULTILINE))
        if hosts > 1 or (minor == b"1" and not hosts):
            return 400, None
        if target.startswith("http://"):
            target = "/" + target[7:].partition("/")[2]
        if not target.startswith("/"):
            return 400, None
        if method not in (b"GET", b"HEAD"):
            return 405, None
        path, _, query = target.partition("?")
        return self.page(path, query)

    def answers(self, given: bytes):
        """The answers that bytes may get: two where a head is malformed or cut, and too large."""
        if not given:
            return (b"",)
        head = HEAD.match(given[:MOST_BYTES])
        if head and is_text(head[2]) and head[4].count(b"\n") <= MOST_LINES:
            status, page = self.whole(head[1], head[2].decode(), head[3], head[4])
            return (answer(status, page, head[1] != b"HEAD"),)
        return tuple(answer(status) for status in unread(given))


def is_text(target: bytes) -> bool:
    try:
        target.decode()
    except UnicodeDecodeError:
        return False
    return True


def unread(given: bytes):
    """The statuses that bytes may get which begin with no head within the limits."""
    head = HEAD.match(given)
    if head and is_text(head[2]):
        return (431,)
    # no head at all: cut or malformed, and too large where it has so many lines or bytes
    is_large = len(given) >= MOST_BYTES or given.count(b"\n") > MOST_LINES + 1
    return (400, 431) if is_large else (400,)
