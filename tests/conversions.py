"""Files in other character sets, converted by a program of the tests (crates/library_rows). What is expected of the
code pages, of UTF-16 and of UTF-8 is what Python's codecs say; of ANSEL, and of what standard error says, it is written
by hand, from ANSI/NISO Z39.47 and from docs/FORMATS.md.
"""

from __future__ import annotations

from harness import Case, Tools, demand, difference, run, tally

# The sets that Python knows, with the word of CHAR that names each.
CODECS = (
    ("1252", "cp1252", "ANSI"),
    ("437", "cp437", ""),
    ("850", "cp850", "IBM850"),
    ("macintosh", "mac_roman", "Macintosh"),
)

# Words of CHAR, and the set that each names.
WORDS = {
    "ansel": ("ANSEL", "ansel", " Ansel\t"),
    "1252": ("ANSI", "WINDOWS", "IBM WINDOWS", "CP1252", "WINDOWS-1252", "LATIN1", "ISO-8859-1", "ISO8859-1"),
    "437": ("IBMPC", "IBM", "IBM DOS", "DOS", "MSDOS", "MS-DOS", "OEM", "CP437"),
    "850": ("CP850", "IBM850"),
    "macintosh": ("MACINTOSH", "MAC"),
    "utf-8": ("UTF-8", "UTF8", "UNICODE", "ASCII"),
}

# Values in ANSEL, and what they are: a mark stands before its letter, and the two are composed.
ANSEL = (
    (b"Andr\xe2e", "Andr\u00e9"),
    (b"M\xe8uller", "M\u00fcller"),
    (b"\xa1\xe2od\xe2z", "\u0141\u00f3d\u017a"),
    (b"\xe8\xe5u", "\u01d6"),
    (b"\xe2x", "x\u0301"),
    (b"\xf2\xe3a", "\u1ead"),
    (b"\xf0c, \xa5, \xb5, \xc7, \xcf", "\u00e7, \u00c6, \u00e6, \u00df, \u00df"),
    (b"end \xe2", "end \ufffd"),
    (b"\x80\xa0\xff", "\ufffd\ufffd\ufffd"),
    (b"\xe2 a", " \u0301a"),
)

# Lines that were cut within a character: the set, the lines after the HEAD, and the same in UTF-8.
CUTS = (
    ("utf-8", b"1 NOTE Mu\xc3\n2 CONC \xbcller", "1 NOTE Mu\n2 CONC \u00fcller"),
    ("utf-8", b"1 NOTE \xe2\x82\n2 CONC \xac x", "1 NOTE \n2 CONC \u20ac x"),
    ("utf-8", b"1 NOTE \xf0\n2 CONC \x9f\n2 CONC \x98\x80", "1 NOTE \n2 CONC \n2 CONC \U0001f600"),
    ("ansel", b"1 NOTE M\xe8\n2 CONC uller", "1 NOTE M\n2 CONC \u00fcller"),
    ("ansel", b"1 NOTE M\xe8\r\n \t\r\n2 CONC uller", "1 NOTE M\r\n \t\r\n2 CONC \u00fcller"),
    ("ansel", b"1 NOTE M\xe8\n2 CONT uller", "1 NOTE M\ufffd\n2 CONT uller"),
    ("ansel", b"1 NOTE M\xe8\n3 CONC uller", "1 NOTE M\ufffd\n3 CONC uller"),
    ("ansel", b"1 NOTE M\n2 CONT x\xe8\n2 CONC uller", "1 NOTE M\n2 CONT x\n2 CONC \u00fcller"),
    ("ansel", b"1 NOTE M\xe8\n2 CONC", "1 NOTE M\n2 CONC \ufffd"),
)

# Files without a set to be asked for, and how each ends: the set, or the line that leaves it open.
HEADS = (
    (b"0 HEAD\n1 CHAR ANSEL\n0 TRLR\n", "utf-8"),
    (b"0 HEAD\n1 CHAR ANSEL\n1 NOTE \xc3\xbc\n", "utf-8"),
    (b"0 HEAD\n1 CHAR ANSEL\n1 NOTE \xe8u\n", "ansel"),
    (b"0 HEAD\n1 NOTE \xe8u\n", "29:1"),
    (b"0 HEAD\n1 SOUR x\n \n1 CHAR KLINGON\n1 NOTE \xe8u\n", "29:3"),
    (b"0 HEAD\n1 CHAR ANSI\n1 CHAR ANSEL\n1 NOTE \xe8u\n", "29:2"),
    (b"0 HEAD\n1 CHAR ANSI\n1 CHARACTER LATIN1\n1 NOTE \xe8u\n", "1252"),
    (b"0 HEAD\n0 @N@ NOTE\n1 CHAR ANSI\n1 NOTE \xe8u\n", "29:1"),
    (b"0 @N@ NOTE\n0 HEAD\n1 CHAR ANSI\n1 NOTE \xe8u\n", "29:1"),
    (b"0 HEAD\n1 CHAR IBMPC\n1 NOTE \x81\n", "437"),
    (b"0 HEAD\n1 CHAR IBMPC\n1 NOTE \x81\n1 NOTE \xa9\n", "29:4"),
    (b"\xef\xbb\xbf0 HEAD\n1 CHAR ANSI\n1 NOTE \xe8\n", "utf-8"),
    (b"", "utf-8"),
)

# How the counts of a report begin.
OTHERS = "lines with other characters than ASCII: "
JOINED = "values cut within a character, which their CONC now has whole: "
STRAYS = "bytes that are no UTF-8, read as Windows-1252: "
LOST = "U+FFFD, for what could not be read: "
MARKED = "marks of ANSEL before what is no letter: "
CHANGED = "lines CHAR that now say UTF-8: "
ADDED = "lines CHAR added: 1\n"
MARKS = "marks at the beginning, left out: "
FILLING = "NUL and Ctrl-Z at the end, left out: "

# Files with the set that is asked for, and what standard error says of each.
REPORTS = (
    ("-", b"0 HEAD\n1 CHAR UTF-8\n0 TRLR\n", "read as UTF-8: no byte is above 7F\n"),
    ("-", b"0 HEAD\n1 char  UTF-8\n", f"read as UTF-8: no byte is above 7F\n{ADDED}"),
    ("-", b"0 HEAD\n1 CHAR utf-8\n", f"read as UTF-8: no byte is above 7F\n{CHANGED}1, line 2\n"),
    ("-", b"0 HEAD\n1 CHAR ANSEL\n", f"read as UTF-8: no byte is above 7F\nCHAR says ANSEL\n{CHANGED}1, line 2\n"),
    ("-", b"0 HEAD\n1 CHAR ANSI\n1 CHAR Ansel\n", f"read as UTF-8: no byte is above 7F\nCHAR says ANSI ANSEL\n"
        f"{CHANGED}2, line 2, line 3\n"),
    ("-", b"", "read as UTF-8: no byte is above 7F\n"),
    ("-", b"0 NOTE\n1 CHAR ANSEL\n", "read as UTF-8: no byte is above 7F\n"),
    ("-", b"0 HEAD\r\n1 NOTE \xc3\xbc", f"read as UTF-8: all of it is UTF-8\n{ADDED}{OTHERS}1\n  2: 1 NOTE \u00fc\n"),
    ("-", b"\xef\xbb\xbf\xef\xbb\xbf0 HEAD\n1 CHAR UTF-8\n0 TRLR\n\x1a\0",
        f"read as UTF-8: the mark at its beginning says so\n{MARKS}2\n{FILLING}2\n"),
    ("ansel", "\ufeff0 HEAD\n1 CHAR UTF-8\n".encode("utf-16-be"),
        f"read as UTF-16, high byte first: the mark at its beginning says so\n{MARKS}1\n"),
    ("-", "0 HEAD\n1 CHAR UTF-8\n".encode("utf-16-le"),
        "read as UTF-16, low byte first: a NUL is one of its first two bytes\n"),
    ("1252", b"0 HEAD\n1 CHAR ANSI\n1 NOTE \x80\x81\n", f"read as Windows-1252: --from says so\n{CHANGED}1, line 2\n"
        f"{OTHERS}1\n  3: 1 NOTE \u20ac\ufffd\n{LOST}1, line 3\n"),
    ("macintosh", b"0 HEAD\n1 CHAR KLINGON\x07\n1 NOTE \x80\n",
        f"read as MacRoman: --from says so\nCHAR says KLINGON \n{CHANGED}1, line 2\n{OTHERS}1\n  3: 1 NOTE \u00c4\n"),
    ("-", b"0 HEAD\n1 CHAR IBMPC\n1 NOTE \x81\n",
        f"read as code page 437: CHAR says so\n{CHANGED}1, line 2\n{OTHERS}1\n  3: 1 NOTE \u00fc\n"),
    ("-", b"0 HEAD\n1 CHAR ANSEL\n1 NOTE M\xe8\n2 CONC uller\n1 NOTE \xe2\xe2 \xe2\n1 NOTE \xe27\n",
        f"read as ANSEL: CHAR says so\n{CHANGED}1, line 2\n{OTHERS}3\n  4: 2 CONC \u00fcller\n"
        f"  5: 1 NOTE  \u0301\u0301\ufffd\n  6: 1 NOTE 7\u0301\n{JOINED}1, line 4\n{LOST}1, line 5\n"
        f"{MARKED}2, line 5, line 6\n"),
    ("-", b"0 HEAD\n1 NOTE \xef\xbf\xbd\xef\xbf\xbd\n \n1 NOTE \xef\xbf\xbd\n",
        f"read as UTF-8: all of it is UTF-8\n{ADDED}{OTHERS}2\n  2: 1 NOTE \ufffd\ufffd\n  3: 1 NOTE \ufffd\n"
        f"{LOST}3, line 2, line 3\n"),
)

# Files whose set is not known, and the hint of each.
SAY = "  say which set it is: --from 1252, 437, 850, macintosh, ansel or utf-8\n"
HINTS = (
    (b"0 HEAD\n1 NOTE \xe8u\n", "  no line CHAR of its HEAD says the set, and it is not UTF-8\n" + SAY),
    (b"0 HEAD\n1 CHAR Klingon\t2 \n1 NOTE \xe8u\n", "  CHAR says KLINGON 2\n" + SAY),
    (b"0 HEAD\n1 CHAR ANSI\n1 CHAR ANSEL\n1 NOTE \xe8u\n", "  CHAR says ANSI ANSEL\n" + SAY),
    (b"0 HEAD\n1 CHAR " + b"X" * 70 + b"\n1 NOTE \xe8u\n", "  CHAR says " + "X" * 59 + "\n" + SAY),
)


def conversions(program, rows):
    """Of each word of a set and file: how it ended, what was written, and what was said of it."""
    given = "".join(f"convert\t{word} {file.hex()}\n" for word, file in rows).encode()
    lines = run(program, given=given).out.decode().splitlines()
    demand(len(lines) == len(rows), f"{len(rows)} rows, {len(lines)} lines")
    ends = [line.split(" ") for line in lines]
    return [(end, bytes.fromhex(written), bytes.fromhex(said)) for end, written, said in ends]


def converted(program, wanted):
    """Files with the set and the text that each comes to."""
    ends = conversions(program, [(word, file) for word, file, _, _ in wanted])
    for (word, file, name, text), (end, got, _) in zip(wanted, ends):
        demand(end == name, f"{word}, {file[:80]!r}: {end} and not {name}")
        demand(got == text, f"{word}, {file[:80]!r}: {difference(text, got)}")


def file_of(char, value):
    """A file with a line CHAR and one value, as bytes."""
    return b"0 HEAD\n1 CHAR " + char + b"\n1 NOTE " + value + b"\n0 TRLR\n"


def code_pages(program):
    """Each byte above 7F: with the set asked for, and as CHAR names it."""
    wanted = []
    for word, codec, char in CODECS:
        for byte in range(0x80, 0x100):
            value = bytes([byte])
            text = file_of(b"UTF-8", value.decode(codec, "replace").encode())
            wanted.append((word, file_of(b"x", value), word, text))
            if char:
                wanted.append(("-", file_of(char.encode(), value), word, text))
    converted(program, wanted)
    tally("bytes of code pages", "conversions", len(wanted))


def words_of_sets(program):
    """C1 is a character of each set, and no part of one of UTF-8."""
    wanted = []
    for name, words in WORDS.items():
        codec = {"ansel": None, "utf-8": "cp1252"}.get(name, {w: c for w, c, _ in CODECS}.get(name))
        value = b"\xc1"
        text = "\u2113" if codec is None else value.decode(codec)
        for word in words:
            wanted.append(("-", file_of(word.encode(), value), name, file_of(b"UTF-8", text.encode())))
    converted(program, wanted)


def wide(program):
    """UTF-16 with and without a mark, whatever is asked for; a character outside the first 65,536; halves of one."""
    text = "0 HEAD\r\n1 CHAR UNICODE\r\n1 NOTE \u0141\u00f3d\u017a \U0001f600\r\n0 TRLR"
    plain = text.replace("UNICODE", "UTF-8").encode()
    cut = "0 HEAD\n1 NOTE \ud83d\n2 CONC \ude00\n1 NOTE \ude00\ud83d"
    mended = "0 HEAD\n1 CHAR UTF-8\n1 NOTE \n2 CONC \U0001f600\n1 NOTE \ufffd\ufffd".encode()
    wanted = []
    for name, codec in (("utf-16le", "utf-16-le"), ("utf-16be", "utf-16-be")):
        for mark in ("", "\ufeff", "\ufeff\ufeff"):
            for word in ("-", "ansel"):
                wanted.append((word, (mark + text).encode(codec), name, plain))
        wanted.append(("-", cut.encode(codec, "surrogatepass"), name, mended))
        wanted.append(("-", text.encode(codec) + b"\0", name, plain))
    converted(program, wanted)


def ansel(program):
    converted(program, [("-", file_of(b"ANSEL", v), "ansel", file_of(b"UTF-8", t.encode())) for v, t in ANSEL])


def cuts(program):
    head, told = b"0 HEAD\n1 CHAR UTF-8\n", "0 HEAD\n1 CHAR UTF-8\n"
    converted(program, [(word, head + file, word, (told + text).encode()) for word, file, text in CUTS])


def stray_bytes(program):
    """A byte that is no part of a character of UTF-8 is one of Windows-1252."""
    value = b"\xc3\xbc \xfc \xe2\x82 \x81 \xed\xa0\x80 \xc0\xaf \xf4\x90\x80\x80"
    text = "\u00fc \u00fc \u00e2\u201a \ufffd \u00ed\u00a0\u20ac \u00c0\u00af \u00f4\ufffd\u20ac\u20ac"
    converted(program, [("-", file_of(b"ASCII", value), "utf-8", file_of(b"UTF-8", text.encode()))])


def heads(program):
    ends = conversions(program, [("-", file) for file, _ in HEADS])
    for (file, name), (end, got, _) in zip(HEADS, ends):
        demand(end == name, f"{file!r}: {end} and not {name}")
        demand(not (end.startswith("29") and got), f"{file!r}: {got!r} was written")


def chars(program):
    """The line CHAR, where it is and where it is not, and what is dropped at the ends."""
    wanted = (
        (b"0 HEAD\r\n1 SOUR x\r\n", b"0 HEAD\r\n1 CHAR UTF-8\r\n1 SOUR x\r\n"),
        (b"0 HEAD\n\r1 SOUR x", b"0 HEAD\n\r1 CHAR UTF-8\n\r1 SOUR x"),
        (b"0 HEAD\n\n1 SOUR x", b"0 HEAD\n1 CHAR UTF-8\n\n1 SOUR x"),
        (b"0 HEAD", b"0 HEAD\n1 CHAR UTF-8"),
        (b"\n \n0 HEADER\n 1 @A@ CHARACTER ANSI\n2 VERS 1\n", b"\n \n0 HEADER\n 1 @A@ CHAR UTF-8\n2 VERS 1\n"),
        (b"0 HEAD\n1 CHAR\n1 CHAR\t\n", b"0 HEAD\n1 CHAR UTF-8\n1 CHAR UTF-8\n"),
        (b"0 NOTE\n0 HEAD\n1 CHAR ANSI\n", b"0 NOTE\n0 HEAD\n1 CHAR ANSI\n"),
        (b"0 HEAD\n1 CHAR ASCII\n0 TRLR\n\x1a\0 \0", b"0 HEAD\n1 CHAR UTF-8\n0 TRLR\n "),
        (b"\xef\xbb\xbf\xef\xbb\xbf0 HEAD\n1 CHAR x\n", b"0 HEAD\n1 CHAR UTF-8\n"),
    )
    converted(program, [("-", file, "utf-8", text) for file, text in wanted])


def said(program, wanted):
    """Files with the set that is asked for, and what is said of each."""
    ends = conversions(program, [(word, file) for word, file, _ in wanted])
    for (word, file, text), (end, _, got) in zip(wanted, ends):
        demand(got == text.encode(), f"{word}, {file[:80]!r}, {end}: {difference(text.encode(), got)}")


def reports(program):
    said(program, REPORTS)


def long_reports(program):
    """Of seven lines the first five are named, and all are counted, the last too; a line is cut at 60 characters."""
    lines = [b"1 NOTE " + b"\xfc" * n + b"\x9d" + b"x" * 60 for n in range(1, 8)]
    texts = [("1 NOTE " + "\u00fc" * n + "\ufffd" + "x" * 60)[:60] for n in range(1, 6)]
    shown = "".join(f"  {n}: {text}\n" for n, text in enumerate(texts, 3))
    named = ", line 3, line 4, line 5, line 6, line 7\n"
    file = b"0 HEAD\n1 CHAR UTF-8\n" + b"\n".join(lines)
    said(program, [("-", file, f"read as UTF-8: CHAR says so\n{OTHERS}7\n{shown}{STRAYS}35{named}{LOST}7{named}")])


def reports_of_bytes(program):
    """Each byte above 7F in a line of its own: the lines, and what the set has not, are what Python's codecs say."""
    wanted = []
    for word, codec, _ in CODECS:
        texts = ["1 NOTE " + bytes([byte]).decode(codec, "replace") for byte in range(0x80, 0x100)]
        lost = [number for number, text in enumerate(texts, 3) if "\ufffd" in text]
        shown = "".join(f"  {number}: {text}\n" for number, text in enumerate(texts[:5], 3))
        report = f"{OTHERS}128\n{shown}"
        if lost:
            report += f"{LOST}{len(lost)}" + "".join(f", line {number}" for number in lost[:5]) + "\n"
        name = {"1252": "Windows-1252", "macintosh": "MacRoman"}.get(word, f"code page {word}")
        file = b"0 HEAD\n1 CHAR UTF-8\n" + b"".join(b"1 NOTE " + bytes([b]) + b"\n" for b in range(0x80, 0x100))
        char = "CHAR says UTF-8\n"
        wanted.append((word, file, f"read as {name}: --from says so\n{char}{report}"))
    said(program, wanted)


def hidden_controls(program):
    """Control characters are shown as spaces: those of ASCII, and U+0080 to U+009F."""
    file = b"0 HEAD\n1 CHAR UTF-8\n1 NOTE \x1b[1m\x7f \xc2\x9b1m \xc2\xa9\n"
    text = f"read as UTF-8: all of it is UTF-8\n{OTHERS}1\n  3: 1 NOTE  [1m  \u00a01m \u00a9\n"
    said(program, [("-", file, text)])


def hints(program):
    """What leaves the set open; of code pages 437 and 850 the line in both readings, from near the first difference."""
    wanted = [("-", file, text) for file, text in HINTS]
    value = b"x" * 80 + b"\xa9" + b"y" * 80
    shown = [("x" * 30 + value[80:].decode(codec))[:60] for codec in ("cp437", "cp850")]
    text = f"  --from 437 reads: {shown[0]}\n  --from 850 reads: {shown[1]}\n"
    wanted.append(("-", b"0 HEAD\n1 CHAR IBMPC\n1 NOTE \x81\n1 NOTE " + value + b"\n", text))
    said(program, wanted)


def cases(tools: Tools):
    if not tools.rows:
        return
    for name, test in (
        ("a conversion: each byte of a code page is its character", code_pages),
        ("a conversion: each word of CHAR names its set", words_of_sets),
        ("a conversion: UTF-16 is known by its first bytes", wide),
        ("a conversion: a mark of ANSEL comes after its letter", ansel),
        ("a conversion: what a CONC was cut in goes to the CONC", cuts),
        ("a conversion: a byte that is no UTF-8 is one of Windows-1252", stray_bytes),
        ("a conversion: the set is known, or a line leaves it open and nothing is written", heads),
        ("a conversion: CHAR says UTF-8, and the ends are cut", chars),
        ("a conversion: the set, what said so, and each kind of change are reported", reports),
        ("a conversion: all lines are counted, and the first five are named", long_reports),
        ("a conversion: the lines of a report are read as they are written", reports_of_bytes),
        ("a conversion: control characters are shown as spaces", hidden_controls),
        ("a conversion: a set that is not known has a hint", hints),
    ):
        yield Case(name, lambda test=test: test(tools.rows))
