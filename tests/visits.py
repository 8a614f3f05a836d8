"""Requests and their answers, byte for byte, by a room of the tests' own (crates/library_rows). It shows the records of
odd numbers, by a word and the number. What is expected follows docs/FORMATS.md, "The reading room".
"""

from __future__ import annotations

from harness import Case, Tools, demand, difference, run, tally

PHRASES = {
    200: "OK",
    400: "Bad Request",
    404: "Not Found",
    405: "Method Not Allowed",
    431: "Request Header Fields Too Large",
}
HOST = b"Host: a\r\n"


def answer(status, page=None, with_page=True):
    """The bytes of an answer; the page of a refusal is its phrase."""
    body = (f"{PHRASES[status]}\n" if page is None else page).encode()
    allow = "Allow: GET, HEAD\r\n" if status == 405 else ""
    head = (
        f"HTTP/1.1 {status} {PHRASES[status]}\r\n{allow}Content-Type: text/plain; charset=utf-8\r\n"
        f"Content-Length: {len(body)}\r\nConnection: close\r\n\r\n"
    )
    return head.encode() + (body if with_page else b"")


def request(target, method="GET", version="HTTP/1.1", lines=HOST):
    return f"{method} {target} {version}\r\n".encode() + lines + b"\r\n"


# Targets of a GET with one Host: the status, and the page of 200.
TARGETS = (
    ("/", 200, "index\n"),
    ("/person/1", 200, "person 1\n"),
    ("/person/0000000001", 200, "person 1\n"),
    ("/family/4294967295", 200, "family 4294967295\n"),
    ("/register/3?x", 200, "register 3\n"),
    ("/pedigree/1", 200, "4 generations of 1\n"),
    ("/pedigree/1?generations=12", 200, "12 generations of 1\n"),
    ("/pedigree/1?generations=03", 200, "3 generations of 1\n"),
    ("/pedigree/1?gener%61tions=%31", 200, "1 generations of 1\n"),
    ("/pedigree/1?generations=2&generations=99", 200, "2 generations of 1\n"),
    ("/surname?name=LEE", 200, "surname LEE\n"),
    ("/surname?name=Lee+Ray&name=x", 200, "surname Lee Ray\n"),
    ("/surname?name=%C3%BC", 200, "surname ü\n"),
    ("/surname?&name=", 200, "surname \n"),
    ("/surname?name=a?b#c", 200, "surname a?b#c\n"),
    ("http://a/person/1", 200, "person 1\n"),
    ("http://a", 200, "index\n"),
    ("http:///person/3", 200, "person 3\n"),
    ("http://a?x=/person/5", 200, "person 5\n"),
    ("HTTP://a/", 400, None),
    ("https://a/", 400, None),
    ("person/1", 400, None),
    ("*", 400, None),
    ("/surname", 400, None),
    ("/surname?nam=x", 400, None),
    ("/pedigree/1?generations=", 400, None),
    ("/pedigree/1?generations=0", 400, None),
    ("/pedigree/1?generations=13", 400, None),
    ("/pedigree/1?generations=003", 400, None),
    ("/pedigree/1?generations=+1", 400, None),
    ("/pedigree/1?generations=99&generations=1", 400, None),
    ("/pedigree/2?generations=13", 404, None),
    ("/person/2", 404, None),
    ("/person/0", 404, None),
    ("/person/00000000001", 404, None),
    ("/family/4294967297", 404, None),
    ("/person/%31", 404, None),
    ("/person/", 404, None),
    ("/person/1/", 404, None),
    ("/person", 404, None),
    ("/persons/1", 404, None),
    ("/surname/?name=x", 404, None),
    ("//", 404, None),
    ("/x?name=y", 404, None),
    ("/x#?", 404, None),
)

# Heads: their bytes, the status, and the page of 200.
HEADS = (
    (request("/", version="HTTP/1.0", lines=b""), 200, "index\n"),
    (request("/", lines=b"hOsT:b\r\n"), 200, "index\n"),
    (b"\r\n\n" + request("/"), 200, "index\n"),
    (request("/").replace(b"\r\n", b"\n"), 200, "index\n"),
    (request("/", lines=b"Host: \xff\r\nX:\ty \r\n"), 200, "index\n"),
    (request("/") + b"body", 200, "index\n"),
    (request("/", lines=HOST + b"a:\r\n" * 63), 200, "index\n"),
    (request("/", lines=HOST + b"p:" + b"x" * (8_192 - 31) + b"\r\n"), 200, "index\n"),
    (request("/", lines=b""), 400, None),
    (request("/", lines=HOST + b"host: b\r\n"), 400, None),
    (request("/", version="HTTP/1.0", lines=HOST + HOST), 400, None),
    (request("/", version="HTTP/1.2"), 400, None),
    (request("/", version="HTTP/2.0"), 400, None),
    (request("/", version="http/1.1"), 400, None),
    (request("/", method="G@T"), 400, None),
    (request("/", lines=HOST + b" folded\r\n"), 400, None),
    (request("/", lines=b"Host : a\r\n"), 400, None),
    (request("/", lines=HOST + b"a: \x00\r\n"), 400, None),
    (b"GET  / HTTP/1.1\r\n" + HOST + b"\r\n", 400, None),
    (b"GET / HT", 400, None),
    (b"\r\n\r\n", 400, None),
    (request("/", method="POST", lines=HOST + HOST), 400, None),
    (request("/", lines=HOST + b"a:\r\n" * 64), 431, None),
    (request("/", lines=b"a:\r\n" * 65), 431, None),
    (request("/", lines=HOST + b"p:" + b"x" * (8_193 - 31) + b"\r\n"), 431, None),
    (request("/", method="POST"), 405, None),
    (request("/x", method="POST"), 405, None),
    (request("/", method="get"), 405, None),
    (request("/person/1", method="A-LONG-METHOD-OF-ANOTHER"), 405, None),
)


def visits(program, rows):
    """What becomes of rows of a piece, a read and a write that fail, and a request: a word and the bytes written."""
    text = "".join(f"visit\t{piece} {read} {write} {given.hex()}\n" for piece, read, write, given in rows)
    got = run(program, (), text.encode())
    demand(got.status == 0 and not got.err, f"status {got.status}, {got.err!r}")
    ends = [line.split(" ") for line in got.out.decode().splitlines()]
    demand(len(ends) == len(rows), f"{len(rows)} rows, {len(ends)} lines")
    return [(word, bytes.fromhex(written)) for word, written in ends]


def answered(program, wanted):
    """Requests with their answers, in pieces of any size."""
    for piece in (100_000, 7, 1):
        rows = [(piece, 0, 0, given) for given, _ in wanted]
        for (given, out), (word, got) in zip(wanted, visits(program, rows)):
            demand(word == "ok", f"{given[:80]!r}: {word}")
            demand(got == out, f"{given[:80]!r}: {difference(out, got)}")


def targets(program):
    answered(program, [(request(target), answer(status, page)) for target, status, page in TARGETS])


def heads(program):
    answered(program, [(given, answer(status, page)) for given, status, page in HEADS])


def without_pages(program):
    of = [(request(target, method="HEAD"), answer(status, page, False)) for target, status, page in TARGETS]
    answered(program, of)


def cut(program):
    whole = request("/person/1")
    wanted = [(whole[:at], answer(400)) for at in range(1, len(whole))]
    answered(program, [(b"", b""), *wanted, (whole, answer(200, "person 1\n"))])


def failing_reads(program):
    given = request("/person/1")
    calls = range(1, len(given) + 1)
    for call, end in zip(calls, visits(program, [(1, call, 0, given) for call in calls])):
        demand(end == ("ReadFailed", b""), f"read {call}: {end}")
    tally("failed reads and writes", "reads of a request", len(calls))


def failing_writes(program):
    given, wanted = request("/person/1"), answer(200, "person 1\n")
    calls = range(1, len(wanted) + 1)
    for call, end in zip(calls, visits(program, [(1, 0, call, given) for call in calls])):
        demand(end == ("WriteFailed", wanted[: call - 1]), f"write {call}: {end}")
    tally("failed reads and writes", "writes of an answer", len(calls))


def cases(tools: Tools):
    if not tools.rows:
        return
    for name, test in (
        ("a request: its target decides its answer", targets),
        ("a request: its head decides its answer", heads),
        ("a request: a HEAD is answered without the page", without_pages),
        ("a request: one that is cut at any byte is refused", cut),
        ("a request: where a read fails nothing is written", failing_reads),
        ("a request: where a write fails a beginning is written", failing_writes),
    ):
        yield Case(name, lambda test=test: test(tools.rows))
