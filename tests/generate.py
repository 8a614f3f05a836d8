"""GEDCOM files by a seeded generator: python3 tests/generate.py SEED NUMBER writes the file of that number.

`forest` draws what a file says, `spelled` spells it in one of its many ways, and `broken` spells it
and then breaks it somewhere. The same seed and number give the same file.
"""

from __future__ import annotations

import random
import sys
from collections.abc import Iterator
from dataclasses import dataclass, field

LONGEST = 65_536  # bytes between two line ends
LARGEST = 67_108_864  # bytes of a file
LONGEST_TEXT = 1_048_576  # bytes of a text
MARK = b"\xef\xbb\xbf"

TAGS = ["NOTE", "NAME", "DATE", "PLAC", "SOUR", "BIRT", "_X", "a9", "CHAR", "VERS", "GEDC", "HEAD",
        "conc", "T" * 31]
LETTERS = ["a", "b", "x", "7", " ", " ", " ", "  ", "@", "@@", "#", "\t", ".", "é", "я", "€", "字",
           "\U0001f333", "\u00a0", "\u2028", "\ufeff", "\x01", "\u0301"]
WORDS = ["Ann", "/Lee/", "of", "Ashby", "1700", "@#DJULIAN@ ", "@#DJULIAN@", "@#x@ ", "@#é字@ ", "@#@ ", "@N1@",
         "@", "@@", "# ", "é", "Иванов", "Ελλάς", "字", "\U0001f333"]
NAME_ENDS = ["", "", "", " ", ":x", "!", "é", "#", "\t", "字"]
LINE_ENDS = [b"\n", b"\r", b"\r\n", b"\n\r"]


@dataclass
class Node:
    tag: str
    text: str = ""
    pointer: str | None = None
    name: str | None = None
    below: list[Node] = field(default_factory=list)
    whole: bool = False
    """Whether it has no continuations: a line of the header that is looked at."""


@dataclass
class Line:
    """A line as it is spelled. What breaks a file changes it."""

    level: str
    name: str
    tag: str
    value: str | None = None
    front: str = ""
    gap: str = " "

    def spelled(self) -> str:
        head = self.front + self.level + self.gap + self.name + (self.gap if self.name else "")
        return head + self.tag + ("" if self.value is None else " " + self.value)


# ---------------------------------------------------------------- what a file says


def length_of(rng) -> int:
    """Of a text, in characters: mostly short, often about a multiple of 200."""
    form = rng.random()
    if form < 0.72:
        return rng.randint(0, 40)
    if form < 0.94:
        return 200 * rng.randint(1, 3) + rng.randint(-8, 8)
    return rng.randint(200, 1_500)


def text(rng) -> str:
    length = length_of(rng)
    if rng.random() < 0.5:
        letters = rng.sample(LETTERS, rng.randint(1, 6)) + ["a"] * rng.choice([0, 3, 30])
        made = "".join(rng.choices(letters, k=length))
    else:
        between = rng.choice([" ", "", "  "])
        made = between.join(rng.choices(WORDS, k=1 + length // 6))
    if rng.random() < 0.25:
        for _ in range(rng.randint(1, 4)):
            at = rng.randint(0, len(made))
            made = made[:at] + "\n" + made[at:]
    return made[:length] if rng.random() < 0.5 else made


def name(rng, number: int) -> str:
    first = rng.choice("IFSNab09_")
    inner = f"{first}{number}{rng.choice(NAME_ENDS)}"
    if rng.random() < 0.02:
        inner += "y" * (62 - len(inner.encode()))  # the longest that is read
    return f"@{inner}@"


def node(rng, depth: int, numbers: Iterator[int]) -> Node:
    made = Node(rng.choice(TAGS))
    if rng.random() < 0.15:
        made.pointer = name(rng, rng.randint(1, 9))
    elif rng.random() < 0.8:
        made.text = text(rng)
    if rng.random() < (0.6 if depth == 0 else 0.05):
        made.name = name(rng, next(numbers))
    wanted = rng.choice([0, 0, 0, 1, 2, 3]) if depth < 5 else 0
    made.below = [node(rng, depth + 1, numbers) for _ in range(wanted)]
    return made


def chain(rng, depth: int) -> Node:
    """A node with one below it, and so on, down to a level."""
    last = made = Node("A")
    for level in range(1, depth + 1):
        last.below.append(Node(rng.choice(TAGS[:6]), text(rng) if level == depth else ""))
        last = last.below[0]
    return made


def header(rng, numbers: Iterator[int]) -> Node:
    made = Node("HEAD", text(rng) if rng.random() < 0.1 else "")
    if rng.random() < 0.1:
        made.name = name(rng, next(numbers))
    if rng.random() < 0.7:
        spaces = " " * rng.choice([0, 0, 0, 1, 5, 90, 94, 95])
        word = rng.choice(["UTF-8", "UTF-8", "utf-8", "UTF8", "ASCII", "AsCii"])
        made.below.append(Node("CHAR", rng.choice([word + spaces, spaces + word]), whole=True))
    if rng.random() < 0.7:
        said = rng.choice(["5.5.1", "5.5.1", "", " 7", "x", "@", "é" * 100, "@" * 100])
        version = Node("VERS", said, whole=True)
        if rng.random() < 0.05:
            version = Node("VERS", pointer="@7@", whole=True)
        made.below.append(Node("GEDC", below=[version, Node("FORM", "LINEAGE-LINKED")]))
    for _ in range(rng.choice([0, 0, 1, 2])):
        one = node(rng, 2, numbers)
        if one.tag not in ("CHAR", "GEDC"):  # those are drawn above
            made.below.append(one)
    rng.shuffle(made.below)
    return made


def forest(rng) -> list[Node]:
    numbers = iter(range(1, 1_000_000))
    made = [header(rng, numbers)]
    made += [node(rng, 0, numbers) for _ in range(rng.choice([0, 1, 1, 2, 3, 6]))]
    if rng.random() < 0.04:
        made.append(chain(rng, rng.choice([10, 50, 97, 98])))
    return made


# ---------------------------------------------------------------- how it is spelled


def doubled(rng, piece: str) -> str:
    """The piece as a value: a single @ is read as itself where none stands beside it."""
    out = []
    for at, letter in enumerate(piece):
        alone = letter == "@" and piece[at - 1 : at] != "@" and piece[at + 1 : at + 2] != "@"
        out.append("@@" if letter == "@" and not (alone and rng.random() < 0.3) else letter)
    return "".join(out)


def is_like_pointer(value: str) -> bool:
    return value.strip(" ").startswith("@") and value.strip(" ").endswith("@")


def first_value(rng, piece: str) -> str | None:
    """The value of a line that is no continuation: it must not look like a pointer."""
    made = doubled(rng, piece)
    if is_like_pointer(made):
        made = piece.replace("@", "@@")
    return made if made or rng.random() < 0.3 else None


def pieces(rng, said: str) -> list[tuple[str, str]]:
    """A text cut anywhere: each piece with its tag, that of the first being empty."""
    out = []
    for number, segment in enumerate(said.split("\n")):
        tag = "CONT" if number else ""
        while True:
            cut = len(segment) if rng.random() < 0.7 else rng.randint(0, len(segment))
            out.append((tag, segment[:cut]))
            segment, tag = segment[cut:], "CONC"
            if not segment and rng.random() < 0.9:
                break
    return out


def lines_of(rng, one: Node, level: int, out: list[Line]) -> None:
    """Appends the lines of a node; its continuations stand anywhere among those below it."""
    cut = [("", one.text)] if one.whole else pieces(rng, one.text)
    value = first_value(rng, cut[0][1])
    if one.pointer is not None:
        cut = cut[:1]
        spaces = rng.choice(["", "", " ", "  "])
        value = rng.choice([one.pointer + spaces, spaces + one.pointer])
    out.append(Line(str(level), one.name or "", one.tag, value))
    groups = [[Line(str(level + 1), "", tag, doubled(rng, piece) or None)] for tag, piece in cut[1:]]
    places = sorted(rng.randint(0, len(one.below)) for _ in groups)
    if rng.random() < 0.6:
        places = [0] * len(groups)  # as most programs write them
    for number, child in enumerate([*one.below, None]):
        for place, group in zip(places, groups):
            if place == number:
                out += group
        if child is not None:
            lines_of(rng, child, level + 1, out)


def lines(rng, nodes: list[Node]) -> list[Line]:
    out: list[Line] = []
    for one in nodes:
        lines_of(rng, one, 0, out)
    trailer = Line("0", rng.choice(["", "", "", "@TRAILER@"]), "TRLR")
    trailer.value = rng.choice([None, None, None, "", "x", "@N1@"])
    out.append(trailer)
    for line in out:
        if rng.random() < 0.05:
            line.front = rng.choice([" ", "\t", " \t "])
        if rng.random() < 0.05:
            line.gap = "   "
        if rng.random() < 0.05:
            line.level = line.level.zfill(2)
    return out


def bytes_of(rng, spelled: list[bytes], ends: list[bytes] | None = None) -> bytes:
    """The lines with their ends, blank lines between, a byte order mark and a last end or none."""
    ends = ends or rng.choice([[b"\n"], [b"\n"], [b"\r\n"], [b"\r"], [b"\n\r"], LINE_ENDS])
    out = [MARK if rng.random() < 0.15 else b""]
    blanks = rng.random() < 0.2
    for line in spelled:
        if blanks and rng.random() < 0.2:
            out.append(rng.choice([b"", b" ", b"\t ", b" " * 70]) + rng.choice(ends))
        out += [line, rng.choice(ends)]
    if rng.random() < 0.2:
        out.pop()
    return b"".join(out)


def spelled(rng, nodes: list[Node]) -> bytes:
    return bytes_of(rng, [line.spelled().encode() for line in lines(rng, nodes)])


# ---------------------------------------------------------------- how it is broken


def some(rng, made: list[Line]) -> int:
    """The place of a line, seldom the first, whose faults hide all others."""
    return rng.randrange(1 if len(made) > 1 and rng.random() < 0.9 else 0, len(made))


def nul(rng, made):
    line = made[some(rng, made)]
    line.value = (line.value or "") + rng.choice(["\0", "a\0b"])


def bad_level(rng, made):
    line = made[some(rng, made)]
    line.level = rng.choice(["", "100", "-1", "x", "\u0661", "1x", "99", "99", "+1", "\ufeff0"])


def bad_gap(rng, made):
    made[some(rng, made)].gap = rng.choice(["\t", "", " \t", "\u00a0"])


def bad_name(rng, made):
    line = made[some(rng, made)]
    line.name = rng.choice(["@", "@@", "@A", "@ A@", "@#A@", "@é@", "@A@@", "@" + "A" * 63 + "@",
                            "@A" + "é" * 31 + "@", "@A@\t", "@-@", "@A@x"])


def bad_tag(rng, made):
    line = made[some(rng, made)]
    line.tag = rng.choice(["", "A-B", "T" * 32, "é", "NOTE\t", "\tNOTE", "@A@", "N@", "NOTE.", "CONC-"])


def jump(rng, made):
    line = made[some(rng, made)]
    if line.level.isascii() and line.level.isdigit():
        line.level = str(min(98, int(line.level) + rng.choice([1, 2, 2, 3, 40])))


def other_header(rng, made):
    made[0].tag = rng.choice(["head", "NOTE", "TRLR", "CONC", "HEADER"])
    made[0].level = rng.choice(["0", "1"])


def without_header(_rng, made):
    del made[0]


def without_trailer(rng, made):
    del made[rng.choice([-1, -1, len(made) // 2]) :]


def after_trailer(rng, made):
    made.insert(rng.randint(1, len(made)), Line("0", "", "TRLR"))


def bad_continuation(rng, made):
    at = some(rng, made)
    tag = rng.choice(["CONC", "CONT"])
    if rng.random() < 0.5:
        made[at].tag = tag
    else:
        level = rng.choice([0, 1, 2, 99])
        made.insert(at + 1, Line(str(level), rng.choice(["", "", "@A@"]), tag, rng.choice([None, "x"])))


def continued_header(rng, made):
    """A line below each CHAR and VERS that stands near the front."""
    for at, line in reversed(list(enumerate(made[:12]))):
        if line.tag in ("CHAR", "VERS") and line.level.isdigit():
            made.insert(at + 1, Line(str(int(line.level) + 1), "", rng.choice(["CONC", "CONT"])))


def continued_pointer(rng, made):
    """A value that is a pointer or looks like one, where there is one that goes on."""
    continued = [line for line, below in zip(made, made[1:]) if below.tag in ("CONC", "CONT")]
    line = rng.choice(continued or made)
    line.value = rng.choice(["@A@", " @A@  ", "@A b@", "@A@\t", "@A@ x", "@@A@@", "@ A@", "@#A@",
                             "@" + "A" * 62 + "@ ", "@" + "A" * 63 + "@", "@A" + "é" * 31 + "@"])


def below_continuation(rng, made):
    for at in rng.sample(range(len(made)), len(made)):
        if made[at].tag in ("CONC", "CONT") and made[at].level.isdigit():
            tag = rng.choice(["A", "CONC", "CONT"])
            made.insert(at + 1, Line(str(int(made[at].level) + 1), rng.choice(["", "@A@"]), tag))
            return


def name_again(rng, made):
    named = [line.name for line in made if line.name]
    if named:
        made[some(rng, made)].name = rng.choice(named)


def bad_header_line(rng, made):
    for line in made[: rng.choice([6, 30])]:
        if line.tag == "CHAR":
            line.value = rng.choice([None, "", "ANSEL", "UTF-16", "UTF-8 x", "@A@", "UTF-8" + " " * 96,
                                     "A\u017fCII", "\tUTF-8", "utf-8 "])
        elif line.tag == "VERS":
            line.value = rng.choice(["7", "7.0", "70", " 7", "@7@", "5" * 101, "@@" * 101, "é" * 101, None])


def line_moved(rng, made):
    made.insert(some(rng, made), made.pop(some(rng, made)))


def line_lost(rng, made):
    del made[some(rng, made)]


def line_again(rng, made):
    made.insert(some(rng, made), made[some(rng, made)])


def long_line(rng, made):
    """A line of 65,536 bytes, or of one less or more."""
    at = some(rng, made)
    line = made[at]
    wanted = LONGEST + rng.choice([-1, 0, 0, 1, 1])
    missing = wanted - len(line.spelled().encode())
    if rng.random() < 0.5 or line.value is None:
        line.front = " " * max(0, missing) + line.front
    else:
        line.value += rng.choice(["x", "x", " "]) * max(0, missing)


def long_text(rng, made):
    """A text of 1,048,576 bytes, or of a few less or more, in few lines."""
    at = rng.randrange(max(1, len(made) - 1))
    level = made[at].level
    if not level.isdigit() or int(level) > 90 or made[at].tag in ("CONC", "CONT", "CHAR", "VERS"):
        return
    below = str(int(level) + 1)
    letter, size = rng.choice([("x", 1), ("é", 2), ("字", 3), ("\U0001f333", 4), ("@@", 1)])
    many = rng.choice([20_000, 16_384, 10_000])
    count = LONGEST_TEXT // (many * size)
    made[at].value = None
    left = LONGEST_TEXT - count * many * size + rng.choice([-1, 0, 0, 1])
    added = [Line(below, "", "CONC", letter * many) for _ in range(count)]
    while left > 0:
        added.append(Line(below, "", "CONC", "y" * min(left, 50_000)))
        left -= 50_000
    if rng.random() < 0.3:
        added[-1].tag = "CONT"
    made[at + 1 : at + 1] = added


CHANGES = (
    (5, nul), (7, bad_level), (3, bad_gap), (7, bad_name), (7, bad_tag), (8, jump), (3, other_header),
    (2, without_header), (4, without_trailer), (4, after_trailer), (9, bad_continuation),
    (3, continued_header), (6, continued_pointer), (9, below_continuation), (10, name_again),
    (7, bad_header_line), (6, line_moved), (4, line_lost), (5, line_again), (2, long_line),
)
WEIGHTS = [weight for weight, _ in CHANGES]
LONG_TEXTS = 0.006  # of all broken files
TOO_LARGE = 0.000_3


def other_bytes(rng, data: bytes) -> bytes:
    """The bytes with a few of them lost, changed, or put in."""
    out = bytearray(data)
    for _ in range(rng.choice([1, 1, 2, 5])):
        at = rng.randint(0, len(out))
        form = rng.random()
        if form < 0.3:
            del out[at : at + 1]
        elif form < 0.7:
            out[at:at] = rng.choice([b"\xff", b"\xc3", b"\0", b"\n", b"\r", b"@", b" ", b"1", b"\xed\xa0\x80"])
        else:
            out[at : at + 1] = bytes([rng.randrange(256)])
    return bytes(out)


def too_large(rng, made: list[bytes]) -> bytes:
    """A file of 67,108,864 bytes, or of one less or more; long white space makes it so large."""
    front, back = b"\n".join(made[:-1]) + b"\n", made[-1] + b"\n"
    size = LARGEST + rng.choice([-1, 0, 1, 1, 2])
    filler = b" " * (LONGEST - 4) + b"0 A\n"
    count, left = divmod(size - len(front) - len(back), len(filler))
    return front + filler * count + b" " * left + back


def broken(rng, nodes: list[Node]) -> bytes:
    made = lines(rng, nodes)
    if rng.random() < LONG_TEXTS:
        long_text(rng, made)
        return bytes_of(rng, [line.spelled().encode() for line in made])
    for _ in range(rng.choice([1, 1, 1, 2, 4])):
        change = rng.choices([change for _, change in CHANGES], WEIGHTS)[0]
        if made:
            change(rng, made)
    spelled = [line.spelled().encode() for line in made]
    if spelled and rng.random() < TOO_LARGE:
        return too_large(rng, spelled)
    data = bytes_of(rng, spelled)
    return other_bytes(rng, data) if rng.random() < 0.2 else data


def random_of(seed: int, number: int, what: str = "") -> random.Random:
    return random.Random(f"{seed}/{number}/{what}")


def file(seed: int, number: int) -> bytes:
    """The file of that number: two of five are valid."""
    rng = random_of(seed, number)
    made = forest(rng)
    return spelled(rng, made) if rng.random() < 0.4 else broken(rng, made)


if __name__ == "__main__":
    sys.stdout.buffer.write(file(int(sys.argv[1]), int(sys.argv[2])))
