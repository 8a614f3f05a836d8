"""Visitors of the reading room who leave, send a byte at a time, say nothing, do not read or close, or come too late
or from elsewhere; and how the room is opened and ends."""

from __future__ import annotations

import contextlib
import socket
import struct
import time

from archives import lines
from harness import Case, Outcome, Tools, demand, difference, expect, refused, run
from rooms import Room, read_all
from sheet_commands import SMITHS, TODAY, Shown
from visits import HOST, answer, request

LONGEST = 30  # seconds for taking the answer, from docs/READING-ROOM.md
SILENCE = 2  # seconds until a visitor who sends nothing is let go, from the same
LEAVING = 2  # seconds until a visitor who has the answer and does not close is left, from the same
A_LITTLE = 10  # what a busy machine may add

FAMILY = answer(200, "Family 3\nHusband: 1 John Smith\nWife: 2 Living\n")


def answered_within(one: socket.socket, seconds: int) -> bytes:
    """All that is answered until the room closes its side, by that time."""
    end, got = time.monotonic() + seconds, b""
    while (left := end - time.monotonic()) > 0:
        one.settimeout(left)
        try:
            piece = one.recv(65_536)
        except TimeoutError:
            break
        if not piece:
            return got
        got += piece
    demand(False, f"no end of the answer after {seconds} s: {got[:80]!r}")


def so_many_visits(tools):
    """The room ends after the last one, whatever the visits were, and nobody is let in then."""
    with Shown(tools) as at:
        at.with_rows(SMITHS)
        with Room(at, 0):
            pass
        for count in (1, 3):
            with Room(at, count) as room:
                for _ in range(count):
                    demand(room.asked(request("/x")) == answer(404), "another answer")
                room.process.wait(timeout=60)
                demand(room.is_closed(), "it still lets somebody in")


def visitors_who_leave(tools):
    """In the middle of a request, before it, and before the answer: each counts, and the next is served."""
    reset = struct.pack("ii", 1, 0)
    with Shown(tools) as at:
        at.with_rows([*SMITHS, *(f"n{n},name,1,{'x' * 100_000}" for n in range(20))])
        whole = answer(200, at.sheet("person", 1).out.decode())
        with Room(at, 6) as room:
            for given, is_rude in ((b"", False), (b"GET /per", False), (b"GET /per", True), (b"", True),
                                   (request("/person/1"), True)):
                with room.visit() as one:
                    one.sendall(given)
                    if is_rude:
                        one.setsockopt(socket.SOL_SOCKET, socket.SO_LINGER, reset)
            got = room.asked(request("/person/1"))
            demand(got == whole, difference(whole, got))


def byte_by_byte(tools):
    with Shown(tools) as at:
        at.with_rows(SMITHS)
        with Room(at, 2) as room:
            demand(room.asked(request("/person/2"), 1) == room.asked(request("/person/2")), "they differ")


def a_head_that_has_ended(tools):
    """It is answered after its last byte, though the visitor neither closes nor says more, or says more at once."""
    given = request("/family/3")
    with Shown(tools) as at:
        at.with_rows(SMITHS)
        pieces = [given[place : place + 1] for place in range(len(given))]
        visits = ([given], pieces, [given + b"GET /", b"x"])
        with Room(at, len(visits)) as room:
            for said in visits:
                with room.visit() as one:
                    one.setsockopt(socket.IPPROTO_TCP, socket.TCP_NODELAY, 1)
                    for piece in said:
                        one.sendall(piece)
                    got = answered_within(one, A_LITTLE)
                    demand(got == FAMILY, f"{len(said)} pieces: {difference(FAMILY, got)}")


def beside_one_another(tools):
    """Who comes while another says nothing is answered at once."""
    with Shown(tools) as at:
        at.with_rows(SMITHS)
        with Room(at, 2) as room, room.visit():
            time.sleep(0.2)
            begun = time.monotonic()
            got = room.asked(request("/family/3"))
            took = time.monotonic() - begun
            demand(got == FAMILY, difference(FAMILY, got))
            demand(took < SILENCE, f"the second visitor waited {took:.1f} s")


def who_says_nothing(tools):
    """Who says nothing is let go after two seconds, and who stops within the head; neither is answered."""
    with Shown(tools) as at:
        at.with_rows(SMITHS)
        for given in (b"", request("/person/1")[:-2]):
            with Room(at, 1) as room, room.visit() as one:
                begun = time.monotonic()
                one.sendall(given)
                got = b""
                with contextlib.suppress(ConnectionResetError):  # what was not read yet is thrown away
                    got = answered_within(one, SILENCE + A_LITTLE)
                took = time.monotonic() - begun
                demand(got == b"", f"{given!r}: {got!r}")
                demand(took > SILENCE - 0.5, f"the visitor was let go after {took:.1f} s")


def who_does_not_read(tools):
    """Who asks for a page of 10 MB and reads none of it is let go after half a minute, and holds up nobody."""
    with Shown(tools) as at:
        at.with_rows([*SMITHS, *(f"n{n},name,1,{'x' * 1_000_000}" for n in range(10))])
        with Room(at, 2) as room, socket.socket() as idle:
            idle.setsockopt(socket.SOL_SOCKET, socket.SO_RCVBUF, 4_096)  # the less is on its way
            idle.settimeout(60)
            idle.connect(("127.0.0.1", room.port))
            begun = time.monotonic()
            idle.sendall(request("/person/1"))
            with room.visit() as other:
                other.sendall(request("/family/3"))
                got = answered_within(other, A_LITTLE)
            demand(got == FAMILY, difference(FAMILY, got))
            room.process.wait(timeout=LONGEST + A_LITTLE)
            took = time.monotonic() - begun
            demand(took > LONGEST - 1, f"after {took:.0f} s: the page was on its way before anybody read it")


def who_does_not_close(tools):
    """A visitor who has the answer, and neither closes nor shuts down, is left after two seconds."""
    with Shown(tools) as at:
        at.with_rows(SMITHS)
        with Room(at, 3) as room, room.visit() as first, room.visit() as second:
            for stays in (first, second):
                stays.sendall(request("/family/3"))
                got = answered_within(stays, LEAVING + A_LITTLE)
                demand(got == FAMILY, difference(FAMILY, got))
            with room.visit() as other:
                other.sendall(request("/family/3"))
                got = answered_within(other, LEAVING + A_LITTLE)
                demand(got == FAMILY, difference(FAMILY, got))


def elsewhere() -> list[str]:
    """Addresses of this machine other than 127.0.0.1."""
    found = {"127.0.0.2"}
    with contextlib.suppress(OSError):
        found.update(socket.gethostbyname_ex(socket.gethostname())[2])
    with socket.socket(socket.AF_INET, socket.SOCK_DGRAM) as probe, contextlib.suppress(OSError):
        probe.connect(("192.0.2.1", 9))  # it sends nothing, and shows by which address this would go
        found.add(probe.getsockname()[0])
    return sorted(found - {"127.0.0.1", "0.0.0.0"})


def by_another_address(tools):
    """Nobody is let in but at 127.0.0.1."""
    with Shown(tools) as at:
        at.with_rows(SMITHS)
        with Room(at, 1) as room:
            for address in elsewhere():
                try:
                    socket.create_connection((address, room.port), timeout=A_LITTLE).close()
                except ConnectionRefusedError:
                    continue
                demand(False, f"somebody was let in at {address}")
            with contextlib.suppress(OSError):  # a machine may have no IPv6
                socket.create_connection(("::1", room.port), timeout=A_LITTLE).close()
                demand(False, "somebody was let in at ::1")
            demand(room.asked(request("/family/3")) == FAMILY, "another answer")


def a_port_that_is_taken(tools):
    with Shown(tools) as at:
        at.with_rows(SMITHS)
        with socket.create_server(("127.0.0.1", 0)) as server:
            port = str(server.getsockname()[1])
            got = run(tools.parish, ("serve", at.file, "--port", port, "--count", "1", "--today", TODAY))
            expect(got, refused(94))


def words_that_are_refused(tools):
    right = {"--port": "8080", "--count": "0", "--today": TODAY}
    wrong = [(name, None) for name in right]
    wrong += [("--port", port) for port in ("0", "65536", "x", "")]
    wrong += [("--count", count) for count in ("-1", "x", "", "1000001")]
    wrong += [("--today", day) for day in ("2024-02-30", "x", "")]
    with Shown(tools) as at:
        for name, value in wrong:
            words = [word for pair in {**right, name: value}.items() if pair[1] is not None for word in pair]
            got = run(tools.parish, ("serve", at.file, *words))
            demand((got.status, got.out) == (2, b"") and got.err != b"", f"{words}: {got}")
        words = [word for pair in right.items() for word in pair]
        expect(run(tools.parish, ("serve", at.file, *words)), refused(82))


def the_file_is_free(tools):
    """While the room is open rows are taken, which it does not show."""
    with Shown(tools) as at:
        at.with_rows(SMITHS)
        with Room(at, 1) as room:
            expect(at.apply(lines(["z,person,Eva /Ray/,F"])), Outcome(b"z,ok,6,1\n", b"", 0))
            page = "Persons: 2\nFamilies: 1\nRegisters: 0\n"
            demand(room.asked(request("/")) == answer(200, page), "it shows what came later")


TESTS = (
    who_says_nothing,
    who_does_not_read,
    so_many_visits,
    visitors_who_leave,
    byte_by_byte,
    a_head_that_has_ended,
    beside_one_another,
    who_does_not_close,
    by_another_address,
    a_port_that_is_taken,
    words_that_are_refused,
    the_file_is_free,
)


def cases(tools: Tools):
    for test in TESTS:
        yield Case(f"visitors: {test.__name__.replace('_', ' ')}", lambda test=test: test(tools))
