"""The reading room by the executable: `serve` on the loopback, each page and each status. Manners of visitors are in
visitors.py."""

from __future__ import annotations

import contextlib
import datetime
import http.client
import re
import socket
import subprocess

from harness import Case, Outcome, Tools, demand, difference, expect, refused
from sheet_commands import ASHBY, LEES, SMITHS, TODAY, Shown
from shown.drawn import TODAY as DAY
from shown.drawn import archive, date_of
from shown.masked import shown
from shown.records import Person
from shown.sheets import Sheets
from visits import HOST, answer, request

LINE = re.compile(rb"listening on 127\.0\.0\.1:(\d+)\n")


def free_port() -> int:
    with socket.create_server(("127.0.0.1", 0)) as server:
        return server.getsockname()[1]


class Room:
    """The room of an archive, open for so many visits; of further words is `--html`."""

    def __init__(self, at, count, today=TODAY, more=()):
        self.at, self.count, self.today, self.more = at, count, today, more

    def __enter__(self):
        for _ in range(20):  # a port that was free may be taken meanwhile
            self.port = free_port()
            words = ["--port", str(self.port), "--count", str(self.count), "--today", self.today, *self.more]
            pipes = {"stdin": subprocess.DEVNULL, "stdout": subprocess.PIPE, "stderr": subprocess.PIPE}
            self.process = subprocess.Popen([*self.at.parish, "serve", self.at.file, *words], **pipes)
            self.said = self.process.stdout.readline()
            found = LINE.fullmatch(self.said)
            if found:
                demand(int(found[1]) == self.port, f"{self.said!r} for port {self.port}")
                return self
            told = self.end()
            if told != refused(94):
                break
        demand(False, f"it does not listen: {self.said!r} {told}")

    def end(self) -> Outcome:
        out, err = self.process.communicate(timeout=60)
        return Outcome(out, err, self.process.returncode)

    def __exit__(self, kind, *_):
        """The program ends by itself after the last visit, with 0 and no word more."""
        if kind:
            self.process.kill()
            self.process.communicate()
        else:
            expect(self.end(), Outcome(b"", b"", 0))

    def visit(self):
        return socket.create_connection(("127.0.0.1", self.port), timeout=60)

    def asked(self, given: bytes, piece=65_536) -> bytes:
        """All that is answered to these bytes."""
        with self.visit() as one:
            one.setsockopt(socket.IPPROTO_TCP, socket.TCP_NODELAY, 1)
            with contextlib.suppress(ConnectionError):  # a head that is refused is not read to its end
                for start in range(0, len(given), piece):
                    one.sendall(given[start : start + piece])
                one.shutdown(socket.SHUT_WR)
            return read_all(one)

    def is_closed(self) -> bool:
        try:
            self.visit().close()
        except ConnectionRefusedError:
            return True
        return False


def read_all(one: socket.socket) -> bytes:
    pieces = []
    while piece := one.recv(65_536):
        pieces.append(piece)
    return b"".join(pieces)


def visited(at, given: bytes, tries=20, **how) -> tuple[bytes, Outcome]:
    """What a room that is open for one visit answers to these bytes, and how it ends, where its calls or its memory may
    fail: nothing, where nobody is heard. A port that was free may be taken meanwhile."""
    port = free_port()
    words = ["--port", str(port), "--count", "1", "--today", TODAY]
    pipes = {"stdin": subprocess.DEVNULL, "stdout": subprocess.PIPE, "stderr": subprocess.PIPE}
    process = subprocess.Popen([*at.parish, "serve", at.file, *words], **pipes, **how)
    reply, said = b"", process.stdout.readline()
    try:
        if LINE.fullmatch(said):
            with socket.create_connection(("127.0.0.1", port), timeout=60) as one, contextlib.suppress(OSError):
                one.sendall(given)
                one.shutdown(socket.SHUT_WR)
                while piece := one.recv(65_536):
                    reply += piece
        out, err = process.communicate(timeout=60)
    finally:
        process.kill()
    ended = Outcome(out, err, process.returncode)
    if not said and ended == refused(94) and tries:
        return visited(at, given, tries - 1, **how)
    return reply, ended


# Targets, with status and page, of the rows of tests/sheet_commands.py.
PAGES = (
    (SMITHS, (
        ("/", 200, "Persons: 2\nFamilies: 1\nRegisters: 0\n"),
        ("/person/1", 200, "Person 1\nName: John Smith\nSex: M\nBURI\nPartner in: 3\n"),
        ("/person/0000000002", 200, "Person 2\nName: Living\nPartner in: 3\n"),
        ("/family/3", 200, "Family 3\nHusband: 1 John Smith\nWife: 2 Living\n"),
        ("/pedigree/1", 200, "   1  John Smith\n"),
        ("/surname?name=smith", 200, "         1  John Smith\n"),
        ("/surname?name=Lee", 200, ""),
        ("/surname?name=", 200, "         2  Living\n"),
        ("http://room.example/person/2?x", 200, "Person 2\nName: Living\nPartner in: 3\n"),
        ("/person/3", 404, None),
        ("/person/4", 404, None),
        ("/person/9", 404, None),
        ("/person/0", 404, None),
        ("/family/1", 404, None),
        ("/register/3", 404, None),
        ("/pedigree/3?generations=13", 404, None),
        ("/people", 404, None),
        ("/person/1/", 404, None),
        ("/pedigree/1?generations=13", 400, None),
        ("/pedigree/1?generations=", 400, None),
        ("/surname", 400, None),
        ("person/1", 400, None),
    )),
    (ASHBY, (
        ("/", 200, "Persons: 0\nFamilies: 0\nRegisters: 1\n"),
        ("/register/1", 200, "Register 1: Ashby\n     1  f. 3  BAPTISM  1 JAN 1900\n        child: John\n"),
        ("/register/3", 404, None),
    )),
    (LEES, (
        ("/pedigree/1", 200, "   1  Ann Lee\n   2  Tom Lee, b. 1850\n   3  Eva Ray\n"),
        ("/pedigree/1?generations=01", 200, "   1  Ann Lee\n"),
        ("/surname?name=LEE&name=Ray", 200, "         1  Ann Lee\n         2  Tom Lee\n"),
        ("/surname?n=Lee&n%61me=%52ay", 200, "         3  Eva Ray\n"),
    )),
)
HEADS = (
    (request("/", method="POST"), 405),
    (request("/person/9", method="PUT"), 405),
    (request("/", lines=b""), 400),
    (request("/", lines=HOST + HOST), 400),
    (b"GET / HT", 400),
    (b"GET / HTTP/1.1\r\nHost: a\r\n", 400),
    (request("/", version="HTTP/2.0"), 400),
    (request("/", lines=HOST + b" folded\r\n"), 400),
    (request("/", lines=HOST + b"a:\r\n" * 64), 431),
    (request("/", lines=HOST + b"p:" + b"x" * 9_000 + b"\r\n"), 431),
)


def pages_by_hand(tools):
    """Whole answers, byte for byte, with their page and by HEAD without it."""
    for rows, targets in PAGES:
        with Shown(tools) as at:
            before = at.with_rows(rows).tables()
            with Room(at, 2 * len(targets)) as room:
                for target, status, page in targets:
                    for method, with_page in (("GET", True), ("HEAD", False)):
                        got, wanted = room.asked(request(target, method)), answer(status, page, with_page)
                        demand(got == wanted, f"{method} {target}: {difference(wanted, got)}")
            demand(at.tables() == before, "the tables changed")


def heads(tools):
    with Shown(tools) as at:
        at.with_rows(SMITHS)
        with Room(at, 2 * len(HEADS) + 1) as room:
            for given, status in HEADS:
                for piece in (65_536, 500):
                    got, wanted = room.asked(given, piece), answer(status)
                    demand(got == wanted, f"{given[:60]!r}: {difference(wanted, got)}")
            demand(room.asked(b"") == b"", "nothing was asked, and something answered")


def the_largest_heads(tools):
    """8,192 bytes and 64 header lines are answered; a byte or a line more is 431."""
    with Shown(tools) as at:
        at.with_rows(SMITHS)
        with Room(at, 4) as room:
            for more, wanted in ((0, answer(200, "Persons: 2\nFamilies: 1\nRegisters: 0\n")), (1, answer(431))):
                long = b"p:" + b"x" * (8_192 - 31 + more) + b"\r\n"
                demand(len(request("/", lines=HOST + long)) == 8_192 + more, "the head has another size")
                for lines in (long, b"a:\r\n" * (63 + more)):
                    got = room.asked(request("/", lines=HOST + lines))
                    demand(got == wanted, f"{len(lines)} bytes: {difference(wanted, got)}")


def by_another_client(tools):
    """Python's http.client takes each answer for one."""
    with Shown(tools) as at:
        at.with_rows(SMITHS)
        targets = [one for rows, of in PAGES if rows is SMITHS for one in of if one[0].startswith("/")]
        with Room(at, 2 * len(targets)) as room:
            for target, status, page in targets:
                for method in ("GET", "HEAD"):
                    client = http.client.HTTPConnection("127.0.0.1", room.port, timeout=60)
                    client.request(method, target)
                    got = client.getresponse()
                    body = got.read().decode()
                    client.close()
                    wanted = (page if page is not None else f"{got.reason}\n") if method == "GET" else ""
                    length = len((page if page is not None else f"{got.reason}\n").encode())
                    demand((got.status, body) == (status, wanted), f"{method} {target}: {got.status} {body!r}")
                    kind = got.getheader("Content-Type")
                    demand(kind == "text/plain; charset=utf-8", f"{target}: {kind}")
                    demand(got.getheader("Content-Length") == str(length), f"{target}: the length")
                    demand(got.getheader("Connection") == "close", f"{target}: the connection stays")


def targets_of(records: dict, left: dict) -> list[tuple[str, str]]:
    """Each page of an archive with what is on it; a refused sheet is 404."""
    sheets = Sheets(left)
    out = [("/", sheets.index()), ("/surname?name=", sheets.surname(""))]
    for number in range(1, len(records) + 2):
        for kind in ("person", "family", "register"):
            out.append((f"/{kind}/{number}", sheets.of(kind, number)))
        out.append((f"/pedigree/{number}", sheets.of("pedigree", number)))
        out.append((f"/pedigree/{number}?generations=7", sheets.of("pedigree", number, 7)))
    for name in sorted({name for one in records.values() if isinstance(one, Person) for name in one.names}):
        surname = name.split("/")[1] if name.count("/") > 1 else name
        out.append((f"/surname?name={surname.replace(' ', '+').upper()}", sheets.surname(surname)))
    return out


def drawn_archives(tools, first, count):
    """Each page of archives of which a part is hidden."""
    for number in range(first, first + count):
        with Shown(tools) as at:
            drawn = archive(2, number)
            demand(at.made().import_(drawn.file).status == 0, "the file is refused")
            targets = targets_of(drawn.records, shown(drawn.records, DAY))
            with Room(at, len(targets), date_of(DAY).isoformat()) as room:
                for target, page in targets:
                    is_refused = page.startswith(("50 ", "51 "))
                    wanted = answer(404) if is_refused else answer(200, page)
                    got = room.asked(request(target))
                    demand(got == wanted, f"archive {number}, {target}: {difference(wanted, got)}")


def archives_that_show_the_same(tools):
    """Two archives that differ in nothing but what is hidden answer with the same bytes."""
    rows = ("a,person,Ann /Lee/,F", "b,family,1,", "c,event,2,MARR,,{},")
    told = []
    for year in ("1960", "1970"):
        with Shown(tools) as at:
            at.with_rows([row.format(year) for row in rows])
            with Room(at, 2) as room:
                told.append([room.asked(request("/person/1")), room.asked(request("/family/2"))])
    demand(told[0][0] == answer(200, "Person 1\nName: Living\nPartner in: 2\n"), f"{told[0][0]!r}")
    demand(told[0] == told[1], "what is hidden shows")
    for number in range(5):
        drawn = archive(3, number)
        left = shown(drawn.records, DAY)
        said = repr(left)
        other = re.sub(rb"zq\d{4}", lambda word: word[0] if word[0].decode() in said else b"other", drawn.file)
        demand(other != drawn.file, "nothing is hidden")
        targets = [target for target, _ in targets_of(drawn.records, left)]
        told = []
        for given in (drawn.file, other):
            with Shown(tools) as at:
                demand(at.made().import_(given).status == 0, "the file is refused")
                with Room(at, len(targets), date_of(DAY).isoformat()) as room:
                    told.append([room.asked(request(target)) for target in targets])
        demand(told[0] == told[1], f"archive {number}: what is hidden shows")


def the_day_of_the_opening(tools):
    """Masked once, for the day that was given."""
    rows = ("a,person,Ann /Lee/,", "b,event,1,BIRT,,1 JAN 1914,")
    with Shown(tools) as at:
        at.with_rows(rows)
        eve = datetime.date(2024, 1, 1)
        for today, page in ((eve, "Living"), (eve + datetime.timedelta(days=1), "Ann Lee")):
            with Room(at, 1, today.isoformat()) as room:
                got = room.asked(request("/pedigree/1?generations=1"))
                date = ", b. 1 JAN 1914" if page != "Living" else ""
                wanted = answer(200, f"   1  {page}{date}\n")
                demand(got == wanted, difference(wanted, got))


TESTS = (
    pages_by_hand,
    heads,
    the_largest_heads,
    by_another_client,
    archives_that_show_the_same,
    the_day_of_the_opening,
)


def cases(tools: Tools):
    for first in range(0, 20, 5):
        name = f"rooms: each page of drawn archives, {first} to {first + 4}"
        yield Case(name, lambda first=first: drawn_archives(tools, first, 5))
    for test in TESTS:
        yield Case(f"rooms: {test.__name__.replace('_', ' ')}", lambda test=test: test(tools))
