"""What a refused command line and a refused FILE leave untouched: standard input, standard output, the file and its
folder.

Standard input is a file whose place the program and the test share, so that each byte that is read moves it; or a pipe,
of which nothing may be gone.
"""

from __future__ import annotations

import contextlib
import os
import subprocess
import tempfile

from archives import META, Folder, lines
from harness import FAILED, Case, Outcome, Tools, demand, expect, refused, run, shown
from table.making import between

TODAY = ("--today", "2024-01-01")
# Right command lines, on an archive with a person who is living. Those of OPTIONAL may be left out.
RIGHT = (
    ("init", "FILE", "--society", "Ashby"),
    ("apply", "FILE"),
    ("apply", "FILE", "--stop"),
    ("apply", "FILE", "--expect", "ANSWERS"),
    ("entries", "FILE", "--source", "1", "--token", "t"),
    ("import", "FILE", "--token", "t"),
    ("import", "FILE", "--progress", "--token", "t"),
    ("import", "FILE", "--report", "REPORT", "--token", "t"),
    ("export", "FILE"),
    ("export", "FILE", "--public", *TODAY),
    ("export", "FILE", "--plain"),
    ("export", "FILE", "--plain", "--public", *TODAY),
    ("sheet", "FILE", "person", "1", *TODAY),
    ("sheet", "FILE", "pedigree", "1", "--generations", "2", *TODAY),
    ("serve", "FILE", "--port", "8080", "--count", "0", *TODAY),
    ("audit", "FILE"),
    ("history", "FILE", "1"),
    ("days", "FILE", "--words", "--from", "1800-01-01", "--to", "1801-01-01"),
    ("norm",),
    ("check",),
)
FLAGS = ("--plain", "--progress", "--public", "--stop", "--words")
OPTIONAL = ("--plain", "--progress", "--report", "--stop", "--expect", "--words", "--generations")
# Further wrong lines, by hand.
WRONG = (
    (),
    ("",),
    ("FILE",),
    ("help",),
    ("--frobnicate",),
    ("sheet", "FILE", "person", "1", "--tody", "2024-01-01"),
    ("sheet", "FILE", "person", "1", "--today", "2024-01-01", "--generation", "3"),
    ("sheet", "FILE", "person", "1", "--today=", "2024-01-01"),
    ("sheet", "FILE", "person", "1", "-today", "2024-01-01"),
    ("sheet", "FILE", "person", "1", "--Today", "2024-01-01"),
    ("sheet", "FILE", "person", "one", *TODAY),
    ("sheet", "FILE", "Person", "1", *TODAY),
    ("sheet", "person", "1", "FILE", *TODAY),
    ("sheet", "FILE", "entry", "1", *TODAY),
    ("sheet", "FILE", "pedigree", "1", *TODAY, "--generations", "13"),
    ("export", "FILE", *TODAY),
    ("export", "FILE", "--publick", *TODAY),
    ("export", "FILE", "--public=yes", *TODAY),
    ("export", "FILE", "--plain", *TODAY),
    ("export", "FILE", "--plain=yes"),
    ("export", "FILE", "--public", "2024-01-01"),
    ("export", "FILE", "--public", "--today", "2024-02-30"),
    ("serve", "FILE", "--port", "65536", "--count", "0", *TODAY),
    ("serve", "FILE", "--port", "8080", "--count", "-1", *TODAY),
    ("serve", "FILE", "--host", "0.0.0.0", "--port", "8080", "--count", "0", *TODAY),
    ("days", "FILE", "--from", "1800-01-01", "--until", "1801-01-01"),
    ("apply", "FILE", "--today", "2024-01-01"),
    ("apply", "FILE", "rows.csv"),
    ("import", "FILE", "family.ged", "--token", "t"),
    ("entries", "FILE", "--source", "0", "--token", "t"),
    ("norm", "FILE"),
    ("check", "FILE"),
    ("norm", "check"),
)


def wrong_of(words):
    """A right line with one thing wrong: a word too many, an option that is unknown, mistyped, missing, given twice or
    without its value; the command in capitals, or without its last letter; no FILE."""
    command, *rest = words
    yield (*words, "more")
    yield (*words, "--frobnicate")
    yield (command.upper(), *rest)
    yield (command[:-1], *rest)
    if "FILE" in words:
        yield tuple(word for word in words if word != "FILE")
    for at, option in enumerate(words):
        if not option.startswith("--"):
            continue
        after = words[at + 1 :] if option in FLAGS else words[at + 2 :]
        whole = words[at : len(words) - len(after)]
        yield (*words[:at], option[:-2] + option[-1], *words[at + 1 :])
        yield (*words[:at], *whole, *whole, *after)
        yield (*words[:at], *after, "--", *whole)
        if option not in FLAGS:
            yield (*words[:at], *after, option)
        if option not in OPTIONAL:
            yield (*words[:at], *after)


def ended(parish, words, given: bytes) -> tuple[Outcome, int]:
    """How a run ends, and how many bytes of its standard input it has read."""
    with tempfile.TemporaryFile() as file:
        file.write(given)
        file.flush()
        os.lseek(file.fileno(), 0, os.SEEK_SET)
        got = run(parish, words, stdin=file.fileno())
        return got, os.lseek(file.fileno(), 0, os.SEEK_CUR)


def files_of(at) -> dict[str, bytes]:
    """The files of a folder, with their bytes."""
    found = {}
    for name in sorted(os.listdir(at.path)):
        with open(os.path.join(at.path, name), "rb") as file:
            found[name] = file.read()
    return found


def words_that_are_refused(tools, lines_of_words):
    """Status 2 and a text on standard error, in which nothing of the archive stands; all else is as it was."""
    with Folder(tools) as at:
        expect(at.made().apply(b"a,person,Ann /Lee/,F\n"), Outcome(b"a,ok,1,1\n", b"", 0))
        before = files_of(at)
        for line in lines_of_words:
            words = [at.file if word == "FILE" else word for word in line]
            got, read = ended(tools.parish, words, b"b,person,Eva,F\n")
            what = " ".join(line)
            demand(got.status == 2 and got.out == b"", f"{what}: {got}")
            demand(got.err.endswith(b"\n") and b"Ann" not in got.err, f"{what}: standard error: {shown(got.err)}")
            demand(read == 0, f"{what}: {read} bytes of standard input are gone")
            demand(files_of(at) == before, f"{what}: a file is another, or new")


def another_database(at):
    at.other_database("CREATE TABLE kings (name TEXT)", "INSERT INTO kings VALUES ('John')")


def an_archive_of(version):
    return lambda at: at.other_database(META, f"INSERT INTO meta VALUES ({version}, 1, 'x')")


def an_archive_without_a_table(at):
    at.made().other_database("DROP TABLE slip_line")


def an_archive_without_what_is_beside(at):
    """The second version as it was for a while before it was given to anybody."""
    at.made().other_database("DROP TABLE link", "DROP TABLE sought", "DROP TABLE past")


def bytes_in(data):
    def write(at):
        with open(at.file, "wb") as file:
            file.write(data)

    return write


def nothing(_):
    pass


# What FILE is, how it is made, and what it is refused with.
FILES = (
    ("no file", nothing, 82),
    ("a file of no bytes", bytes_in(b""), 82),
    ("another program's database", another_database, 82),
    ("an archive that lacks a table", an_archive_without_a_table, 82),
    ("an archive that lacks links and what is looked for", an_archive_without_what_is_beside, 82),
    ("tables of no version", an_archive_of(0), 82),
    ("a later archive", an_archive_of(3), 83),
    ("ten bytes", bytes_in(b"x" * 10), 80),
    ("no database", bytes_in(b"x" * 40_000), 80),
    ("a folder", lambda at: os.mkdir(at.file), 80),
)
# Commands with what they are given, which they are not to read, and commands that are given nothing.
READERS = (
    ("apply", (), lines(["a,person,Ann,F"] * 20_000)),
    ("entries", ("--source", "1", "--token", "t"), lines(["BURIAL,f. 3,1,,,Ann,buried,Ann"] * 20_000)),
    ("import", ("--token", "t"), between(*["0 NOTE a"] * 20_000)),
)
OTHERS = (
    ("export", ()), ("export", ("--public", *TODAY)), ("sheet", ("person", "1", *TODAY)), ("audit", ()),
    ("serve", ("--port", "8080", "--count", "0", *TODAY)),
    ("days", ("--from", "1800-01-01", "--to", "1801-01-01")),
)


def is_left_alone(at, number, word, words, given):
    """The refusal, with nothing on standard output, nothing read, and FILE and its folder as they were. Beside what is
    no database at all (80) a log may be made; one that was there may be another."""
    before = None if os.path.isdir(at.file) else files_of(at)
    got, read = ended(at.parish, (word, at.file, *words), given)
    wanted = refused(number)
    demand(number == 80 or got == wanted, f"{word}: {got}")
    demand(number != 80 or (got.status == 1 and got.err in FAILED and not got.out), f"{word}: {got}")
    demand(read == 0, f"{word}: {read} bytes of standard input are gone")
    if before is None:
        demand(os.listdir(at.path) == [os.path.basename(at.file)], f"{word}: something is new: {os.listdir(at.path)}")
        return
    after = files_of(at)
    log = os.path.basename(at.file) + "-wal"
    new = [name for name in after if name not in before and (number, name) != (80, log)]
    demand(not new, f"{word}: there is {new}, and was {list(before)}")
    changed = [name for name, data in before.items() if name != log and after.get(name) != data]
    demand(not changed, f"{word}: {changed} changed")


def each_command(at, number):
    for word, words, given in READERS:
        is_left_alone(at, number, word, words, given)
    for word, words in OTHERS:
        is_left_alone(at, number, word, words, b"x\n")


def a_file_that_is_refused(tools, make, number):
    with Folder(tools) as at:
        make(at)
        each_command(at, number)


def init_of_a_file_that_is_refused(tools):
    """`init` where something is: its rows stay, and standard input is not read."""
    for make in (another_database, an_archive_of(3), lambda at: at.made()):
        with Folder(tools) as at:
            make(at)
            is_left_alone(at, 82, "init", ("--society", "x"), b"x\n")


def a_token_that_is_none(tools):
    """93 comes before FILE is opened, and before anything is read."""
    with Folder(tools) as at:
        for word, words, given in READERS[1:]:
            is_left_alone(at, 93, word, (*words[:-1], "two words"), given)
        expect(at.made().apply(b"a,source,Register,,,,\n"), Outcome(b"a,ok,1,1\n", b"", 0))
        for word, words, given in READERS[1:]:
            is_left_alone(at, 93, word, (*words[:-1], "two words"), given)


def a_pipe_is_not_read(tools):
    """All that was written into a pipe is still there for the next program."""
    for make, number in ((nothing, 82), (bytes_in(b""), 82), (an_archive_of(3), 83)):
        for word, words, _ in READERS:
            with Folder(tools) as at, contextlib.ExitStack() as stack:
                make(at)
                reading, writing = os.pipe()
                stack.callback(os.close, reading)
                os.write(writing, b"a,person,Ann,F\n")
                os.close(writing)
                got = subprocess.run(
                    [*tools.parish, word, at.file, *words], stdin=reading, capture_output=True, timeout=60, check=False
                )
                expect(Outcome(got.stdout, got.stderr, got.returncode), refused(number))
                left = os.read(reading, 100)
                demand(left == b"a,person,Ann,F\n", f"{word}: {left!r} is left")


TESTS = (
    init_of_a_file_that_is_refused,
    a_token_that_is_none,
    a_pipe_is_not_read,
)


def cases(tools: Tools):
    yield Case("untouched: words that are refused, by hand", lambda: words_that_are_refused(tools, WRONG))
    for words in RIGHT:
        yield Case(
            f"untouched: {' '.join(words)}, and one thing wrong",
            lambda words=words: words_that_are_refused(tools, wrong_of(words)),
        )
    for name, make, number in FILES:
        yield Case(
            f"untouched: {name} as FILE",
            lambda make=make, number=number: a_file_that_is_refused(tools, make, number),
        )
    for test in TESTS:
        yield Case(f"untouched: {test.__name__.replace('_', ' ')}", lambda test=test: test(tools))
