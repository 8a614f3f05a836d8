"""The largest file that is read, 67,108,864 bytes, and what lies around it.

Files are made as they are written to the program, and never stored.  White space before the levels
makes their lines long, so that there are few.
"""

from __future__ import annotations

from harness import Case, Tools, demand, expect, refused, run, written
from table.making import HEAD, LARGEST, LONGEST, MARK, TRLR

LINE = b" " * (LONGEST - 4) + b"1 A\n"  # 65,536 bytes with its end
SHORT = b"1 A\n"
MANY = 1_000_000  # short lines of one file


def filled(front, size, back):
    """A file of that size: lines between its front and its back."""
    room = size - len(front) - len(back)
    yield front
    for _ in range(room // len(LINE)):
        yield LINE
    left = room % len(LINE)
    yield b" " * (left - len(SHORT)) + SHORT
    yield back


def largest(tools, front=HEAD, size=LARGEST, back=TRLR):
    # 1,023 whole lines and a shorter one stand between header and trailer
    text = HEAD + SHORT * 1_024 + TRLR
    expect(run(tools.parish, ("norm",), filled(front, size, back)), written(text))


def largest_without_end(tools):
    largest(tools, back=TRLR.rstrip())


def largest_with_mark(tools):
    largest(tools, front=MARK + HEAD)


def too_large(line, front=HEAD, size=LARGEST + 1, back=TRLR, number=27):
    """One byte more than is read.  1,026 lines stand in each of these files."""

    def test(tools):
        expect(run(tools.parish, ("norm",), filled(front, size, back)), refused(number, line))

    return test


def many_lines(tools):
    normalised(tools, HEAD + SHORT * MANY + TRLR)


def normalised(tools, text):
    """A large canonical file comes out as it is; it is compared once before it is shown."""
    got = run(tools.parish, ("norm",), text)
    demand(got.err == b"", f"standard error: {got.err!r}")
    demand(got.out == text, f"{len(got.out)} bytes that are not the {len(text)} expected")
    expect(got, written(text))


def many_names(tools):
    """Records that all have names, the last of which is the first again in the second file."""
    records = b"".join(b"0 @I%d@ INDI\n1 NOTE @I%d@\n" % (n, n + 1) for n in range(MANY // 5))
    normalised(tools, HEAD + records + TRLR)
    again = HEAD + records + b"0 @I0@ INDI\n" + TRLR
    expect(run(tools.parish, ("norm",), again), refused(26, 2 * (MANY // 5) + 2))


def many_nested(tools):
    """Levels 0 to 98, a thousand times, with a text that goes on at 99."""
    nest = b"".join(b"%d A\n" % level for level in range(98)) + b"98 NOTE a\n99 CONT b\n"
    normalised(tools, HEAD + nest * 1_000 + TRLR)


def many_long_texts(tools):
    """Texts of 1,048,576 bytes in canonical lines: 5,242 of 200 bytes and one of 176."""
    note = b"1 NOTE " + b"x" * 200 + (b"\n2 CONC " + b"x" * 200) * 5_241 + b"\n2 CONC " + b"x" * 176
    normalised(tools, HEAD + (note + b"\n") * 12 + TRLR)


SIZES = (
    ("a file of 67,108,864 bytes is read", largest),
    ("a file of 67,108,864 bytes that ends without line end is read", largest_without_end),
    ("a file of 67,108,864 bytes with its byte order mark is read", largest_with_mark),
    ("one byte more is refused, where it ends the last line", too_large(1_026)),
    ("one byte more is refused, where it is a blank line", too_large(1_027, back=TRLR + b"\n")),
    ("one byte more is refused, where a byte order mark makes it",
     too_large(1_026, front=MARK + HEAD)),
    ("the byte that is too many decides before the line that it ends",
     too_large(1_026, back=b"0 A-B\n")),
    ("a line that ends before it decides first",
     too_large(1_026, back=b"0 A-B\n\n", number=13)),
    ("a line that it makes too long is told as that",
     too_large(1_025, back=b" " * (LONGEST + 1), number=14)),
    ("a file of a million lines", many_lines),
    ("a file of 200,000 names, and the first of them again", many_names),
    ("a file of 100,000 nested lines", many_nested),
    ("a file of twelve texts of 1,048,576 bytes", many_long_texts),
)


def cases(tools: Tools):
    for name, test in SIZES:
        yield Case(f"sizes: {name}", lambda test=test: test(tools))
