"""Bytes of connections, drawn: heads of requests for an archive's pages, good and spoilt."""

from __future__ import annotations

import random

from plain import Family, Person, Source

METHODS = (b"GET",) * 40 + (b"HEAD",) * 12 + (b"POST", b"get", b"OPTIONS", b"G|T", b"HEADS")
VERSIONS = (b"HTTP/1.1",) * 50 + (b"HTTP/1.0",) * 8 + (b"HTTP/1.2", b"HTTP/2.0", b"http/1.1", b"HTTP/1.1 ")
FRONTS = ("",) * 60
FRONTS += ("http://a", "http://a:80", "http://", "http:/", "HTTP://a", "https://a", "a", "/", "http://a?b=c")
WORDS = ("person", "family", "register", "pedigree", "pedigree") * 3 + ("persons", "Person", "surname", "")
NAMES = ("Lee", "LEE", "strasse", "STRA%C3%9FE", "Straße", "", "Ray", "a+b", "%", "%4", "%ff", "Le%65", "nobody")
GENERATIONS = ("1", "4", "07", "12") * 3 + ("13", "0", "00", "012", "-1", "+1", "%31", " 2", "", "x", "２")
PAIRS = ("", "x", "x=1", "=", "&", "nam=Lee", "Name=Lee", "generation=3", "a=b=c")
LINES = (
    b"Host: a", b"Host: a", b"Host:", b"hOST: b:80", b"Hosts: a", b"Accept: */*", b"Connection: keep-alive",
    b"X-Y: \xe9\t z ", b"Cookie: a=b; c=d", b"Content-Length: 3", b"a:", b"Host : a", b" folded", b"no colon", b": x",
    b"a\x01b: c", b"a: \x7f", b"a: b\rc", b"\xc3\xa9: x",
)
ENDS = (b"\r\n",) * 10 + (b"\n",)


class Heads:
    """Draws for the pages of these records."""

    def __init__(self, seed: int, records: dict):
        self.draw = random.Random(seed)
        self.records = records
        self.others = (*records, 0, 121, 4_294_967_295, 4_294_967_296, 9_999_999_999)

    def number(self, word: str) -> str:
        """A number, mostly of a record of the kind."""
        kind = {"family": Family, "register": Source}.get(word, Person)
        fitting = [number for number, record in self.records.items() if isinstance(record, kind)]
        text = str(self.draw.choice(fitting if fitting and self.draw.random() < 0.8 else self.others))
        return self.draw.choice((text,) * 30 + ("0" + text, text.zfill(10), text.zfill(11), text + "/", "+" + text, ""))

    def path(self) -> str:
        choice = self.draw.choice
        if self.draw.random() < 0.3:
            good = ("/", "/surname", "/surname")
            return choice((*good * 4, "//", "/surname/", "/x", "/%2f", "/é", "", "*"))
        word = choice(WORDS)
        return f"/{word}/{self.number(word)}"

    def query(self) -> str:
        choice = self.draw.choice
        pair = {
            0: lambda: choice(PAIRS),
            1: lambda: f"{choice(('name', 'name', 'n%61me', 'name+'))}={choice(NAMES)}",
            2: lambda: f"{choice(('generations', 'generations', 'gener%61tions'))}={choice(GENERATIONS)}",
        }
        pairs = [pair[choice((0, 1, 1, 2, 2))]() for _ in range(self.draw.randrange(4))]
        return choice(("?",) * 12 + ("", "#", "??")) + "&".join(pairs).replace(" ", "%20")

    def lines(self) -> list[bytes]:
        """Lines behind the first: mostly one Host among few others, and now and then about 64, or about 8,192 bytes."""
        draw = self.draw
        lines = [b"Host: a"] if draw.random() < 0.96 else []
        if draw.random() < 0.4:
            lines += draw.choices(LINES[5:11] if draw.random() < 0.85 else LINES, k=draw.randrange(4))
        way = draw.random()
        if way < 0.08:
            lines += [b"a: b"] * draw.randrange(60, 68)
        elif way < 0.16:
            lines.append(b"pad: " + b"x" * draw.randrange(8_080, 8_200))
        draw.shuffle(lines)
        return lines

    def spoilt(self, head: bytes) -> bytes:
        """A head with one byte changed, one put in or one left out, or cut."""
        draw = self.draw
        at = draw.randrange(len(head))
        byte = bytes([draw.choice((0, 9, 10, 13, 32, 47, 58, 63, 65, 127, 195, 255, draw.randrange(256)))])
        return draw.choice((head[:at] + byte + head[at + 1:], head[:at] + byte + head[at:], head[:at] + head[at + 1:],
                            head[:at], head[:at]))

    def head(self) -> bytes:
        draw = self.draw
        target = (draw.choice(FRONTS) + self.path() + self.query()).encode()
        end = draw.choice(ENDS)
        first = draw.choice(METHODS) + b" " + target + b" " + draw.choice(VERSIONS)
        front = draw.choice((b"",) * 30 + (b"\r\n", b"\n\r\n", b" ", b"\r"))
        head = front + b"".join(line + end for line in (first, *self.lines(), b""))
        if draw.random() < 0.15:
            head = self.spoilt(head)
        return head + draw.choice((b"",) * 6 + (b"body", b"GET / HTTP/1.1\r\n\r\n"))
