"""`convert` by the executable: what it writes, what standard error says, and how it ends. What is expected is that of
tests/conversions.py, from the standard and from docs/FORMATS.md; docs/REFUSALS.md has the hints.
"""

from __future__ import annotations

import subprocess

from conversions import ANSEL, HINTS, REPORTS, file_of
from harness import Case, Outcome, Tools, demand, difference, expect, refused, run

# The line that leaves the set open, of each file with a hint.
LINES = (1, 2, 2, 2)

OPEN = b"0 HEAD\n1 NOTE \xfc\n0 TRLR\n"
TEXT = "0 HEAD\n1 CHAR UTF-8\n1 NOTE \u00fc\n0 TRLR\n".encode()
REPORT = (
    "read as Windows-1252: --from says so\nlines CHAR added: 1\n"
    "lines with other characters than ASCII: 1\n  2: 1 NOTE \u00fc\n"
).encode()


def convert(tools, given, *words, **how):
    return run(tools.parish, ("convert", *words), given, **how)


def values_in_ansel(tools):
    for value, text in ANSEL:
        got = convert(tools, file_of(b"ANSEL", value))
        wanted = file_of(b"UTF-8", text.encode())
        demand((got.status, got.out) == (0, wanted), f"{value!r}: {got.status}, {difference(wanted, got.out)}")


def what_is_reported(tools):
    for word, file, text in REPORTS:
        got = convert(tools, file, *(() if word == "-" else ("--from", word)))
        demand((got.status, got.err) == (0, text.encode()), f"{file!r}: {difference(text.encode(), got.err)}")


def hints_after_the_refusal(tools):
    for (file, hint), line in zip(HINTS, LINES, strict=True):
        expect(convert(tools, file), Outcome(b"", f"parish: 29 Charset at line {line}\n{hint}".encode(), 1))


def a_set_that_is_said(tools):
    expect(convert(tools, OPEN, "--from", "1252"), Outcome(TEXT, REPORT, 0))
    expect(convert(tools, OPEN, "--from=1252"), Outcome(TEXT, REPORT, 0))


def full_devices(tools):
    with open("/dev/full", "wb") as full:
        expect(convert(tools, OPEN, "--from", "1252", stdout=full), refused(95))
        expect(convert(tools, OPEN, "--from", "1252", stderr=full), Outcome(TEXT, b"", 0))
        expect(convert(tools, OPEN, stderr=full), Outcome(b"", b"", 1))


def closed_input(tools):
    command = ["sh", "-c", '"$0" "$@" <&-', *tools.parish, "convert"]
    got = subprocess.run(command, capture_output=True, check=False)
    expect(Outcome(got.stdout, got.stderr, got.returncode), refused(94))


TESTS = (values_in_ansel, what_is_reported, hints_after_the_refusal, a_set_that_is_said, full_devices, closed_input)


def cases(tools: Tools):
    for test in TESTS:
        yield Case(f"convert: {test.__name__.replace('_', ' ')}", lambda test=test: test(tools))
