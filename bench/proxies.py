"""Times rooms behind Debian's nginx, by wrk: python3 bench/proxies.py [--parish COMMAND] [PERSONS [SECONDS]].

An archive of PERSONS persons (100,000), as bench/norm.py draws them, is opened by one `serve --html`, and then by four.
`wrk` asks with 64 connections for SECONDS (10): the room itself, nginx before it, nginx before the four, and nginx for
a file of the size of the page. Then it asks the same again while each room has 20 visitors who say nothing and 20 who
read a long page at 10 KB a second, without nginx, and who come again when they are let go. Told are answers a second,
milliseconds of the middle one, of the 99th of 100 and of the longest, and how many were refused or lost. It needs
`nginx` and `wrk` (apt-get install nginx-light wrk).
"""

from __future__ import annotations

import argparse
import contextlib
import os
import re
import shlex
import socket
import subprocess
import tempfile
import threading
import time

from norm import LAST, PARISH
from rooms import archive, asked, free_port, room, wait_for

MANY = 1_000_000  # as many visitors as a room can have that ends
CONNECTIONS, THREADS = 64, 2  # of wrk
CROWD = 20  # visitors who say nothing, and as many who read slowly
PAGE, LONG_PAGE = "/person/1", f"/surname?name={LAST[0]}"
UNITS = {"us": 1e-3, "ms": 1, "s": 1e3, "m": 6e4}

NGINX = """
daemon off;
{user}
worker_processes 2;
error_log stderr crit;
pid {folder}/nginx.pid;
events {{ worker_connections 4096; }}
http {{
    access_log off;
    client_body_temp_path {folder}/body;
    proxy_temp_path {folder}/proxied;
    fastcgi_temp_path {folder}/fastcgi;
    uwsgi_temp_path {folder}/uwsgi;
    scgi_temp_path {folder}/scgi;
    upstream rooms {{ {rooms} }}
    server {{
        listen 127.0.0.1:{port} backlog=4096;
        location / {{ proxy_pass http://rooms; proxy_set_header Host localhost; }}
        location = /page.html {{ root {folder}; }}
    }}
}}
"""


@contextlib.contextmanager
def nginx(folder, rooms):
    """nginx before the rooms of these ports, with its own."""
    port, file = free_port(), os.path.join(folder, "nginx.conf")
    servers = " ".join(f"server 127.0.0.1:{one};" for one in rooms)
    with open(file, "w", encoding="utf-8") as out:
        user = "" if os.geteuid() else "user root;"
        out.write(NGINX.format(folder=folder, port=port, rooms=servers, user=user))
    process = subprocess.Popen(["nginx", "-p", folder, "-c", file])
    try:
        wait_for(port)
        yield port
    finally:
        process.terminate()
        process.wait()


def milliseconds(text):
    number, unit = re.fullmatch(r"([\d.]+)(us|ms|s|m)", text).groups()
    return float(number) * UNITS[unit]


def measured(name, port, target, seconds):
    """Has wrk ask, and prints the row."""
    url = f"http://127.0.0.1:{port}{target}"
    words = ["wrk", f"-t{THREADS}", f"-c{CONNECTIONS}", f"-d{seconds}s", "--timeout", "60s", "--latency", url]
    said = subprocess.run(words, stdout=subprocess.PIPE, check=True, text=True).stdout
    rate = float(re.search(r"Requests/sec: +([\d.]+)", said)[1])
    middle, late = (milliseconds(re.search(rf"\b{part}% +(\S+)", said)[1]) for part in (50, 99))
    longest = milliseconds(re.search(r"Latency +\S+ +\S+ +(\S+)", said)[1])
    lost = sum(int(number) for line in re.findall(r"(?:Socket errors|Non-2xx).*", said)
               for number in re.findall(r"\b\d+\b", line.replace("2xx", "").replace("3xx", "")))
    print(f"| {name} | {rate:,.0f} | {middle:.2f} | {late:.2f} | {longest:.2f} | {lost} |", flush=True)


def says_nothing(port, ended):
    """Who comes, says nothing until let go, and comes again."""
    while not ended.is_set():
        with contextlib.suppress(OSError), socket.create_connection(("127.0.0.1", port), timeout=5) as one:
            one.recv(1)


def reads_slowly(port, ended):
    """Who asks for a long page, reads a thousandth of a megabyte ten times a second, and comes again."""
    head = f"GET {LONG_PAGE} HTTP/1.1\r\nHost: localhost\r\n\r\n".encode()
    while not ended.is_set():
        with contextlib.suppress(OSError), socket.socket() as one:
            one.setsockopt(socket.SOL_SOCKET, socket.SO_RCVBUF, 4_096)
            one.settimeout(5)
            one.connect(("127.0.0.1", port))
            one.sendall(head)
            while one.recv(1_000) and not ended.is_set():
                time.sleep(0.1)


@contextlib.contextmanager
def crowd(ports):
    """20 who say nothing and 20 who read slowly, in each room."""
    ended = threading.Event()
    calls = [(call, port) for port in ports for call in (says_nothing, reads_slowly) for _ in range(CROWD)]
    threads = [threading.Thread(target=call, args=(port, ended)) for call, port in calls]
    for thread in threads:
        thread.start()
    time.sleep(1)
    try:
        yield
    finally:
        ended.set()
        for thread in threads:
            thread.join()


def compared(folder, ports, seconds):
    """The rows of so many rooms."""
    name = "one room" if len(ports) == 1 else f"{len(ports)} rooms"
    with open(os.path.join(folder, "page.html"), "wb") as page:
        page.write(b"x" * len(asked(ports[0], PAGE).partition(b"\r\n\r\n")[2]))
    with nginx(folder, ports) as proxy:
        measured("nginx, a file of the size of the page", proxy, "/page.html", seconds)
        if len(ports) == 1:
            measured(name, ports[0], PAGE, seconds)
        measured(f"nginx before {name}", proxy, PAGE, seconds)
        with crowd(ports):
            if len(ports) == 1:
                measured(f"{name}, with the crowd", ports[0], PAGE, seconds)
            measured(f"nginx before {name}, with the crowd", proxy, PAGE, seconds)


def main():
    words = argparse.ArgumentParser(usage=__doc__)
    words.add_argument("--parish", default=PARISH)
    for name, most in (("persons", 100_000), ("seconds", 10)):
        words.add_argument(name, nargs="?", type=int, default=most)
    given = words.parse_args()
    command = shlex.split(given.parish)
    with tempfile.TemporaryDirectory() as folder:
        file = archive(command, folder, given.persons)
        print("| asked | answers a second | middle, ms | 99 of 100 | longest | lost |\n|---|---|---|---|---|---|")
        for count in (1, 4):
            with contextlib.ExitStack() as open_ones:
                rooms = [open_ones.enter_context(room(command, file, MANY, "--html")) for _ in range(count)]
                compared(folder, [port for _, port, _ in rooms], given.seconds)


if __name__ == "__main__":
    main()
