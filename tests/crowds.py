"""Many visitors of the reading room at once, by the executable: 200 of whom 20 say nothing and 20 read slowly, more
than the room holds, and a room of HTML without an end. The pages and the times are those of docs/FORMATS.md and
docs/READING-ROOM.md."""

from __future__ import annotations

import concurrent.futures
import contextlib
import select
import signal
import socket
import subprocess
import time

from harness import Case, Tools, demand, difference
from rooms import LINE, Room, free_port, read_all
from sheet_commands import SMITHS, TODAY, Shown
from visits import answer, request

SILENCE = 2  # seconds until a visitor who sends nothing is let go, from docs/READING-ROOM.md
ASKING = 10  # seconds for a whole head, from the same
PLACES = 256  # visitors at once, from the same
A_LITTLE = 10  # what a busy machine may add

FAMILY = answer(200, "Family 3\nHusband: 1 John Smith\nWife: 2 Living\n")
LONG = [*SMITHS, *(f"n{n},name,1,{'x' * 1_000_000}" for n in range(8))]


def slow_visit(room, target) -> socket.socket:
    """A visitor who asks for a long page, and does not read it yet."""
    one = socket.socket()
    one.setsockopt(socket.SOL_SOCKET, socket.SO_RCVBUF, 65_536)
    one.settimeout(60)
    one.connect(("127.0.0.1", room.port))
    one.sendall(request(target))
    return one


def asked_in_time(room) -> tuple[bytes, float]:
    begun = time.monotonic()
    return room.asked(request("/family/3")), time.monotonic() - begun


def two_hundred(tools):
    """160 are answered while 20 say nothing and 20 do not read; the silent are let go, and the slow get all of it."""
    with Shown(tools) as at:
        at.with_rows(LONG)
        whole = answer(200, at.sheet("person", 1).out.decode())
        demand(len(whole) > 8_000_000, "the page is short")
        with Room(at, 200) as room, contextlib.ExitStack() as open_ones:
            begun = time.monotonic()
            silent = [open_ones.enter_context(room.visit()) for _ in range(20)]
            slow = [open_ones.enter_context(slow_visit(room, "/person/1")) for _ in range(20)]
            with concurrent.futures.ThreadPoolExecutor(32) as pool:
                told = [*pool.map(lambda _: asked_in_time(room), range(160))]
            for got, _ in told:
                demand(got == FAMILY, difference(FAMILY, got))
            longest = max(took for _, took in told)
            demand(longest < A_LITTLE, f"a visitor waited {longest:.1f} s for a short page")
            for one in silent:
                one.settimeout(SILENCE + A_LITTLE)
                demand(read_all(one) == b"", "who said nothing was answered")
            took = time.monotonic() - begun
            demand(took > SILENCE - 0.5, f"who said nothing was let go after {took:.1f} s")
            with concurrent.futures.ThreadPoolExecutor(20) as pool:
                late = [*pool.map(read_all, slow)]
            for got in late:
                demand(got == whole, f"a slow visitor got {len(got)} of {len(whole)} bytes")


def more_than_there_are_places(tools):
    """Who comes while 256 say nothing is let in once these are let go."""
    with Shown(tools) as at:
        at.with_rows(SMITHS)
        with Room(at, PLACES + 20) as room, contextlib.ExitStack() as open_ones:
            for _ in range(PLACES):
                open_ones.enter_context(room.visit())
            for _ in range(20):
                got, took = asked_in_time(room)
                demand(got == FAMILY, f"after {took:.1f} s: {difference(FAMILY, got)}")


def a_byte_now_and_then(tools):
    """A head that does not end in 10 seconds is not answered, though its bytes come; nobody else waits."""
    given = request("/family/3", lines=b"Host: a\r\nx:" + b"y" * 200 + b"\r\n")
    with Shown(tools) as at:
        at.with_rows(SMITHS)
        with Room(at, 1 + ASKING + A_LITTLE) as room, room.visit() as slow:
            begun, ended = time.monotonic(), None
            for place in range(ASKING + A_LITTLE):
                if ended is None:
                    with contextlib.suppress(ConnectionError):
                        slow.sendall(given[place : place + 1])
                    if select.select([slow], [], [], 1)[0]:
                        with contextlib.suppress(ConnectionError):
                            demand(slow.recv(1) == b"", "half a head was answered")
                        ended = time.monotonic() - begun
                got, took = asked_in_time(room)
                demand(got == FAMILY and took < 5, f"after {took:.1f} s: {difference(FAMILY, got)}")
            demand(ended is not None, "the visitor was not let go")
            demand(ended > ASKING - 1, f"the visitor was let go after {ended:.1f} s")


def without_an_end(tools):
    """`--count 0` with `--html` serves on, and without it nobody."""
    with Shown(tools) as at:
        at.with_rows(SMITHS)
        with Room(at, 0):
            pass
        port = free_port()
        words = ["serve", at.file, "--port", str(port), "--count", "0", "--today", TODAY, "--html"]
        pipes = {"stdin": subprocess.DEVNULL, "stdout": subprocess.PIPE, "stderr": subprocess.PIPE}
        process = subprocess.Popen([*at.parish, *words], **pipes)
        try:
            said = process.stdout.readline()
            demand(LINE.fullmatch(said) is not None, f"{said!r}")
            for _ in range(50):
                with socket.create_connection(("127.0.0.1", port), timeout=60) as one:
                    one.sendall(request("/person/1", lines=b"Host: localhost\r\n"))
                    got = read_all(one)
                demand(got.startswith(b"HTTP/1.1 200 OK\r\n"), f"{got[:80]!r}")
            demand(process.poll() is None, "it ended")
        finally:
            process.send_signal(signal.SIGTERM)
            process.communicate(timeout=60)


TESTS = (two_hundred, more_than_there_are_places, a_byte_now_and_then, without_an_end)


def cases(tools: Tools):
    for test in TESTS:
        yield Case(f"crowds: {test.__name__.replace('_', ' ')}", lambda test=test: test(tools))
