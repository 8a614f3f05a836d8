"""Times the reading room: python3 bench/rooms.py [--parish COMMAND] [PERSONS [VISITS [MANY]]].

An archive of PERSONS persons (100,000), as bench/norm.py draws them, is opened by `serve`, and asked VISITS times
(2,000), one after the other, each time by a new connection on the loopback: a person's page, a pedigree of twelve
generations, and the page of a surname that each eighth person has. In the same run Python's http.server is asked as
often for a file of the size of the person's page. Then the person's page is asked for MANY times (100,000), with the
memory of the program before and after. At last a room of HTML is asked a tenth as often for its first page, for a
person, and for searches of one letter, a name, two words, and a word that no name has. Told are milliseconds a visit:
the mean, the middle one and the longest.
"""

from __future__ import annotations

import argparse
import contextlib
import datetime
import os
import shlex
import socket
import statistics
import subprocess
import sys
import tempfile
import time

from imports import lines_of
from norm import LAST, PARISH, written


def free_port():
    with socket.create_server(("127.0.0.1", 0)) as server:
        return server.getsockname()[1]


def asked(port, target):
    """The answer to a GET."""
    with socket.create_connection(("127.0.0.1", port)) as one:
        one.sendall(f"GET {target} HTTP/1.1\r\nHost: localhost\r\nConnection: close\r\n\r\n".encode())
        pieces = []
        while piece := one.recv(1 << 20):
            pieces.append(piece)
    got = b"".join(pieces)
    if b" 200 OK\r\n" not in got[:20]:
        raise SystemExit(f"{target}: {got[:100]!r}")
    return got


def visits(port, target, count):
    """Milliseconds of each visit."""
    took = []
    for _ in range(count):
        begun = time.perf_counter()
        asked(port, target)
        took.append((time.perf_counter() - begun) * 1e3)
    return took


def told(name, took, size):
    middle, mean = statistics.median(took), statistics.mean(took)
    print(f"| {name} | {size:,} | {mean:.2f} | {middle:.2f} | {max(took):.2f} |", flush=True)


def memory_of(process):
    """Megabytes that a process holds."""
    with open(f"/proc/{process.pid}/status", encoding="utf-8") as lines:
        [held] = [line.split()[1] for line in lines if line.startswith("VmRSS:")]
    return int(held) / 1e3


def archive(command, folder, persons):
    """The file of an archive of so many persons, in the folder."""
    text, file = os.path.join(folder, "bench.ged"), os.path.join(folder, "ashby.db")
    written(text, lines_of(persons))
    subprocess.run([*command, "init", file, "--society", "Ashby Society"], check=True)
    with open(text, "rb") as lines:
        words = [*command, "import", file, "--token", "bench"]
        subprocess.run(words, stdin=lines, stdout=subprocess.DEVNULL, check=True)
    return file


@contextlib.contextmanager
def room(command, file, count, *more):
    """The room of an archive, and how long it took to open."""
    port, begun = free_port(), time.perf_counter()
    today = datetime.date.today().isoformat()
    words = [*command, "serve", file, "--port", str(port), "--count", str(count), "--today", today, *more]
    process = subprocess.Popen(words, stdout=subprocess.PIPE)
    try:
        if not process.stdout.readline().startswith(b"listening on "):
            raise SystemExit("the room does not open")
        yield process, port, time.perf_counter() - begun
    finally:
        process.kill()
        process.communicate()


def wait_for(port):
    """Waits until a server listens at the port, ten seconds at most."""
    for _ in range(100):
        with contextlib.suppress(ConnectionRefusedError):
            socket.create_connection(("127.0.0.1", port)).close()
            return
        time.sleep(0.1)


@contextlib.contextmanager
def peer(folder):
    """Python's http.server, with a port."""
    port = free_port()
    words = [sys.executable, "-m", "http.server", "--bind", "127.0.0.1", "--directory", folder, str(port)]
    process = subprocess.Popen(words, stdout=subprocess.DEVNULL, stderr=subprocess.DEVNULL)
    try:
        wait_for(port)
        yield port
    finally:
        process.kill()
        process.wait()


def main():
    words = argparse.ArgumentParser(usage=__doc__)
    words.add_argument("--parish", default=PARISH)
    for name, most in (("persons", 100_000), ("visits", 2_000), ("many", 100_000)):
        words.add_argument(name, nargs="?", type=int, default=most)
    given = words.parse_args()
    command = shlex.split(given.parish)
    with tempfile.TemporaryDirectory() as folder:
        file = archive(command, folder, given.persons)
        with room(command, file, 4 + 3 * given.visits + given.many) as (process, port, opening):
            print(f"{given.persons:,} persons: open after {opening:.2f} s, {memory_of(process):.0f} MB\n")
            print("| page | bytes | mean | middle | longest |\n|---|---|---|---|---|")
            person = "/person/1"
            targets = (person, "/pedigree/1?generations=12", f"/surname?name={LAST[0]}")
            sizes = [len(asked(port, target)) for target in targets]
            for target, size in zip(targets, sizes, strict=True):
                told(f"`{target}`", visits(port, target, given.visits), size)
            with open(os.path.join(folder, "page.txt"), "wb") as page:
                page.write(b"x" * sizes[0])
            with peer(folder) as other:
                took = visits(other, "/page.txt", given.visits)
            told("http.server, a file of the first size", took, sizes[0])
            asked(port, person)
            before = memory_of(process)
            visits(port, person, given.many)
            print(f"\n{given.many:,} visits more: {before:.1f} MB before, {memory_of(process):.1f} MB after\n")
        with room(command, file, 0, "--html") as (process, port, opening):
            print(f"HTML: open after {opening:.2f} s, {memory_of(process):.0f} MB\n")
            print("| page of HTML | bytes | mean | middle | longest |\n|---|---|---|---|---|")
            for target in ("/", person, "/search?q=a", "/search?q=lee", "/search?q=ann+lee", "/search?q=zzz"):
                size = len(asked(port, target))
                told(f"`{target}`", visits(port, target, max(given.visits // 10, 1)), size)


if __name__ == "__main__":
    main()
