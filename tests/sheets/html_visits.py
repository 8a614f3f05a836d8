"""Requests by hand to a room of HTML, each with its whole answer: of the archive of docs/READING-ROOM.md, and of lists
of more than one page. The room may also be asked for by the name Room.example.org."""

from __future__ import annotations

import pathlib
import re

from html_hands import END, FRONT, HEAD, LONG
from html_rules import Pages

PHRASES = {
    200: "OK",
    400: "Bad Request",
    404: "Not Found",
    405: "Method Not Allowed",
    431: "Request Header Fields Too Large",
}
WORDS = {
    400: "The request is none that this room understands.",
    404: "There is no such page, or nothing is shown of what it would be of.",
    405: "This room only shows pages: it takes no other request than GET and HEAD.",
    431: "The head of the request is too large.",
}
HEADERS = (
    "Content-Security-Policy: default-src 'none'; style-src 'self'; form-action 'self'; base-uri 'none'; "
    "frame-ancestors 'none'\r\nX-Content-Type-Options: nosniff\r\nReferrer-Policy: no-referrer\r\n"
    "Cache-Control: no-store\r\nConnection: close\r\n\r\n"
)
RULE = re.compile(r'^    "(.*)"$', re.MULTILINE)
STYLE = "style"  # in place of a page: the style sheet


def style_sheet() -> str:
    """The style sheet: the rules of its source, one after another."""
    source = pathlib.Path(__file__).resolve().parents[2] / "crates/html_parts/src/style.rt"
    rules = RULE.findall(source.read_text("utf-8"))
    assert len(rules) == 14 and all(rule.endswith("\\n") for rule in rules)
    return "".join(rule[:-2] + "\n" for rule in rules)


def error_page(status: int) -> str:
    phrase = PHRASES[status]
    main = f'<h1>{phrase}</h1><p>{WORDS[status]}</p><p><a href="/">To the first page</a></p>'
    return HEAD + phrase + FRONT + main + END


def answer(status: int, page: str | None = None, with_page: bool = True) -> bytes:
    """The bytes of an answer; the page of a refusal says what happened."""
    text = error_page(status) if page is None else page
    # (the pages by hand end as the program prints them, with a line end after the page)
    body = (style_sheet() if page is STYLE else text.removesuffix("\n")).encode()
    media = "css" if page is STYLE else "html"
    allow = "Allow: GET, HEAD\r\n" if status == 405 else ""
    head = (
        f"HTTP/1.1 {status} {PHRASES[status]}\r\n{allow}Content-Type: text/{media}; charset=utf-8\r\n"
        f"Content-Length: {len(body)}\r\n{HEADERS}"
    )
    return head.encode() + (body if with_page else b"")


def request(target: str, method: str = "GET", version: str = "HTTP/1.1", lines: str = "Host: localhost\r\n") -> bytes:
    return f"{method} {target} {version}\r\n{lines}\r\n".encode()


def targets(pages: Pages, of_long: bool):
    """Targets of a GET: the status, and the page of 200."""
    asked = [
        ("/", "home", "", 1),
        ("/?page=7", "home", "", 1),
        ("http://a/", "home", "", 1),
        ("/search", "search", "", 1),
        ("/search?", "search", "", 1),
        ("/search?q=", "search", "", 1),
        ("/search?q=%3Cb%3E", "search", "<b>", 1),
        ("/search?q=%22%27%26", "search", "\"'&", 1),
        ("/search?Q=ann&q=tom+le&q=x", "search", "tom le", 1),
        ("/surname?name=LEE", "surname", "LEE", 1),
        ("/surname?name=%3C", "surname", "<", 1),
        ("/surname?name=&page=01", "surname", "", 1),
    ]
    if of_long:
        for page in (1, 2, 3):
            asked.append((f"/register/1?page={page}", "register", 1, page))
            asked.append((f"/surname?name=long&page={page}", "surname", "long", page))
            asked.append((f"/search?page=0{page}&q=long", "search", "long", page))
        asked += [("/register/1", "register", 1, 1), ("/person/103", "person", 103, 1)]
    else:
        asked += [
            ("/person/2", "person", 2, 1),
            ("/person/0000000002?page=x", "person", 2, 1),
            ("/family/4", "family", 4, 1),
            ("/pedigree/1", "pedigree", 1, 4),
            ("/pedigree/1?generations=2", "pedigree", 1, 2),
            ("/register/9", "register", 9, 1),
        ]
    yield from ((target, 200, pages.page(kind, of, page)) for target, kind, of, page in asked)
    yield "/style.css", 200, STYLE
    yield "/style.css?x", 200, STYLE
    missing = "/favicon.ico /search/ /style.css/ /Search /x /person/0 /person/9999 /family/9999 /register/9999 "
    missing += "/search?page=0 /search?page=2 /search?page= /search?page=x /surname?name=x&page=4294967296 "
    missing += "/surname?name=x&page=2 /pedigree/9999?generations=13 /register/9999?page=x"
    yield from ((target, 404, None) for target in missing.split())
    if of_long:
        yield from ((f"/register/1?page={page}", 404, None) for page in ("0", "4", "-1", "4294967295", "x"))
    else:
        yield from ((target, 404, None) for target in ("/family/2", "/person/4", "/register/2", "/person/9"))
        yield "/pedigree/1?generations=13", 400, None
    yield "/surname", 400, None
    yield "/surname?page=2", 400, None
    yield "x", 400, None


# Header lines of a GET of `/`: whether the host is one of the room.
HOSTS = (
    ("Host: localhost", True),
    ("hOST:  LocalHost:8080 ", True),
    ("Host: localhost:", True),
    ("Host: 127.0.0.1", True),
    ("Host: 127.0.0.1:80", True),
    ("Host: [::1]", True),
    ("Host: [::1]:65536", True),
    ("Host: room.example.org", True),
    ("Host: ROOM.Example.ORG:443", True),
    ("Host: a", False),
    ("Host:", False),
    ("Host: localhost.example.org", False),
    ("Host: my.localhost", False),
    ("Host: localhost:80x", False),
    ("Host: localhost:80:80", False),
    ("Host: localhost.", False),
    ("Host: 127.0.0.1.example.org", False),
    ("Host: 127.0.0.2", False),
    ("Host: ::1", False),
    ("Host: [::1]x", False),
    ("Host: example.org", False),
    ("Host: xroom.example.org", False),
    ("Host: local\thost", False),
    ("X: a\r\nHost: localhost\r\nY: b", True),
    ("Host: localhost\r\nHost: localhost", False),
    ("Host: a\r\nHost: localhost", False),
)


def visits(records: dict):
    """Bytes of connections, each with its answer."""
    pages = Pages(records)
    home = pages.page("home", "", 1)
    for target, status, page in targets(pages, records is LONG):
        yield request(target), answer(status, page)
        yield request(target, method="HEAD"), answer(status, page, False)
        yield request(target, method="POST"), answer(400 if target == "x" else 405)
    for lines, right in HOSTS:
        yield request("/", lines=lines + "\r\n"), answer(200, home) if right else answer(400)
        yield request("/", "POST", lines=lines + "\r\n"), answer(405) if right else answer(400)
    yield request("/", version="HTTP/1.0", lines=""), answer(200, home)
    yield request("/", version="HTTP/1.0", lines="Host: a\r\n"), answer(400)
    yield request("/", lines=""), answer(400)
    yield request("/", lines="Host: localhost\r\n" + "a: b\r\n" * 64), answer(431)
    yield request("/", lines="Host: localhost\r\npad: " + "x" * 8_200 + "\r\n"), answer(431)
    yield b"GET / HT", answer(400)
    yield b"", b""
