"""How the rows of the table are made: a name, a file, and what `norm` makes of it.

Each expected answer is written by hand from docs/FORMATS.md, never taken from a program.
"""

from __future__ import annotations

from harness import Outcome, refused, written

HEAD = b"0 HEAD\n"
TRLR = b"0 TRLR\n"
MARK = b"\xef\xbb\xbf"  # the byte order mark of UTF-8

LONGEST = 65_536  # bytes between two line ends
LARGEST = 67_108_864  # bytes of a file
LONGEST_TEXT = 1_048_576  # bytes of a text with its continuations
PIECE = 200  # characters of a value as it is written

Row = tuple[str, bytes, Outcome]


def reads(name: str, given: bytes, text: bytes) -> Row:
    return name, given, written(text)


def same(name: str, given: bytes) -> Row:
    """A file that is canonical already."""
    return reads(name, given, given)


def refuses(name: str, given: bytes, number: int, line: int) -> Row:
    return name, given, refused(number, line)


def lines(*texts: bytes | str) -> bytes:
    """Lines, each ended by LF."""
    return b"".join(
        (text.encode() if isinstance(text, str) else text) + b"\n" for text in texts
    )


def between(*texts: bytes | str) -> bytes:
    """Lines between header and trailer."""
    return HEAD + lines(*texts) + TRLR


def header(*texts: bytes | str) -> bytes:
    """Lines of the header, and a record below it, so that they are not the last ones."""
    return HEAD + lines(*texts, b"0 @N1@ NOTE") + TRLR


def indented(line: bytes, length: int) -> bytes:
    """A line that white space before its level makes so long."""
    return b" " * (length - len(line)) + line


def nested(first: int, last: int) -> list[bytes]:
    """Lines of the levels from the first to the last, each below the one before."""
    return [b"%d A" % level for level in range(first, last + 1)]
