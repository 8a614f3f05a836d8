"""Streams and words as users meet them: full devices, readers that leave, closed streams."""

from __future__ import annotations

import os
import socket
import subprocess
import tempfile

from harness import Case, Outcome, Tools, demand, expect, pipe_without_reader, refused, run, shown, written
from table.making import HEAD, TRLR, between

COMMANDS = ("norm", "check")
SMALL = between("1 A")
ANSWERS = (("norm", SMALL), ("check", b"ok: 0 records\n"))
LARGE = between(*["1 A"] * 200_000)  # its canonical text is far above what a pipe holds
USAGE = b"\nUsage: parish <COMMAND>\n"
NOT_UTF8 = b"error: a word of the command line"
OFFERED = 4 * 67_108_864  # bytes of an endless input, beyond any that is read


def endlessly(front, piece):
    """An input without an end; it is given up after four times what a file may have."""
    yield front
    for _ in range(OFFERED // len(piece)):
        yield piece


def with_streams(tools, redirections, given=SMALL, word="norm"):
    """A command as a shell starts it with redirections, such as `<&-`; without a word where it is None."""
    words = () if word is None else (word,)
    return run(("sh", "-c", f'exec "$@" {redirections}', "sh", *tools.parish), words, given)


def full_device(tools):
    for word in COMMANDS:
        expect(with_streams(tools, ">/dev/full", word=word), refused(95))


def full_device_large(tools):
    expect(with_streams(tools, ">/dev/full", LARGE), refused(95))


def reader_that_leaves(tools):
    """What `parish norm < large | head -1` does: the status of the first command is looked at."""
    with tempfile.TemporaryFile() as large:
        large.write(LARGE)
        large.seek(0)
        process = subprocess.Popen(
            [*tools.parish, "norm"],
            stdin=large,
            stdout=subprocess.PIPE,
            stderr=subprocess.PIPE,
        )
        first = process.stdout.readline()
        process.stdout.close()
        err = process.stderr.read()
        process.stderr.close()
        status = process.wait()
    expect(Outcome(first, err, status), Outcome(HEAD, refused(95).err, 1))


def reader_that_never_came(tools):
    with pipe_without_reader() as writing:
        for word in COMMANDS:
            expect(run(tools.parish, (word,), SMALL, stdout=writing), refused(95))


def folder_as_input(tools):
    folder = os.open("/", os.O_RDONLY)
    try:
        for word in COMMANDS:
            expect(run(tools.parish, (word,), stdin=folder), refused(94))
    finally:
        os.close(folder)


def input_for_writing_only(tools):
    with tempfile.NamedTemporaryFile() as file:
        expect(with_streams(tools, f"0>{file.name}"), refused(94))


def closed_input(tools):
    for word in COMMANDS:
        expect(with_streams(tools, "<&-", word=word), refused(94))


def closed_output(tools):
    for word in COMMANDS:
        expect(with_streams(tools, ">&-", word=word), refused(95))


def closed_output_of_a_refused_file(tools):
    for word in COMMANDS:
        expect(with_streams(tools, ">&-", HEAD, word), refused(22, 2))


def full_device_for_a_text(tools):
    expect(with_streams(tools, ">/dev/full", word="--help"), refused(95))


def closed_input_and_output(tools):
    """The input fails first."""
    expect(with_streams(tools, "<&- >&-"), refused(94))


def errors_that_cannot_be_told(tools):
    for redirection in ("2>&-", "2>/dev/full"):
        expect(with_streams(tools, redirection, HEAD), Outcome(b"", b"", 1))
        expect(with_streams(tools, f"<&- {redirection}"), Outcome(b"", b"", 1))
        expect(with_streams(tools, f">/dev/full {redirection}"), Outcome(b"", b"", 1))
        expect(with_streams(tools, redirection, word=None), Outcome(b"", b"", 2))
        expect(with_streams(tools, redirection, word="--frobnicate"), Outcome(b"", b"", 2))


def refusals_in_one_write(tools):
    """Each write to such a socket is a packet of its own: the line of a refusal is one, and its hint another."""
    for given, wanted in ((HEAD, refused(22, 2)), (b"", refused(21, 1))):
        ours, theirs = socket.socketpair(socket.AF_UNIX, socket.SOCK_SEQPACKET)
        with ours:
            with theirs:
                got = run(tools.parish, ("norm",), given, stderr=theirs)
            packets = list(iter(lambda: ours.recv(4_096), b""))
        expect(Outcome(got.out, b"".join(packets), got.status), wanted)
        demand(packets == wanted.err.splitlines(keepends=True), f"it came as {packets}")


def no_input(tools):
    for word in COMMANDS:
        expect(run(tools.parish, (word,), stdin=subprocess.DEVNULL), refused(21, 1))


def input_byte_by_byte(tools):
    """A slow writer: each read gets what is there."""
    for word, answer in ANSWERS:
        pieces = (SMALL[at : at + 1] for at in range(len(SMALL)))
        expect(run(tools.parish, (word,), pieces), written(answer))


def endless_file(tools):
    # the limit is 1,024 times 65,536: of the lines of 65,536 bytes after the header 1,023 end
    # before it, so that 1,024 lines stand before the byte that passes it
    line = b" " * (65_536 - 4) + b"1 A\n"
    got = run(tools.parish, ("norm",), endlessly(HEAD, line))
    expect(got, refused(27, 1_025))
    demand(not got.took_all, "it read on after the limit of a file")


def endless_line(tools):
    got = run(tools.parish, ("norm",), endlessly(HEAD + b"1 ", b"T" * 65_536))
    expect(got, refused(14, 2))
    demand(not got.took_all, "it read on after the limit of a line")


def endless_blank_lines(tools):
    got = run(tools.parish, ("norm",), endlessly(HEAD + TRLR, b"\n" * 65_536))
    expect(got, refused(27, 3))
    demand(not got.took_all, "it read on after the limit of a file")


def called(tools, name, words, given=b""):
    """A run under that name, which is the first word that a program gets."""
    program, *more = tools.parish
    return run((name, *more), words, given, executable=program)


def asks_for(work, name, *words):
    """Words that ask for the work of a command, whatever the program is called."""
    return lambda tools: expect(called(tools, name, words, SMALL), written(dict(ANSWERS)[work]))


def told(part, *words, name="parish"):
    """Words that are answered by a text on standard output with that part."""

    def test(tools):
        got = called(tools, name, words)
        demand(got.status == 0, f"status: wanted 0, got {got.status}")
        demand(got.err == b"", f"standard error: wanted nothing, got {shown(got.err)}")
        demand(part in got.out, f"standard output: wanted {part}, got {shown(got.out)}")
        demand(got.out.endswith(b"\n"), f"standard output: wanted lines, got {shown(got.out)}")

    return test


def version(tools):
    expect(run(tools.parish, ("--version",)), written(b"parish 0.1.0\n"))


def refuses_words(part, *words):
    """Words that are refused, by a text on standard error with that part."""

    def test(tools):
        got = run(tools.parish, words, SMALL)
        demand(got.status == 2, f"status: wanted 2, got {got.status}")
        demand(got.out == b"", f"standard output: wanted nothing, got {shown(got.out)}")
        demand(part in got.err, f"standard error: wanted {part}, got {shown(got.err)}")
        demand(got.err.endswith(b"\n"), f"standard error: wanted lines, got {shown(got.err)}")

    return test


def not_utf8(*words):
    """A word that is not UTF-8 is told without being shown."""

    def test(tools):
        refuses_words(NOT_UTF8, *words)(tools)
        got = run(tools.parish, words)
        demand(got.err.startswith(NOT_UTF8), f"standard error begins otherwise: {shown(got.err)}")

    return test


def another_folder(tools):
    with tempfile.TemporaryDirectory() as folder:
        for word, answer in ANSWERS:
            expect(run(tools.parish, (word,), SMALL, cwd=folder), written(answer))
            demand(not os.listdir(folder), f"{word} left a file in its folder")


def many_records(tools):
    """The text of `check` is its one line, whatever is counted."""
    given = between(*["0 @A%d@ NOTE" % number for number in range(100_000)])
    expect(run(tools.parish, ("check",), given), written(b"ok: 100000 records\n"))


STREAMS = (
    ("a full device as standard output is 95", full_device),
    ("a full device and a large file is 95", full_device_large),
    ("a reader that leaves early is 95, and no signal", reader_that_leaves),
    ("a pipe that nobody reads is 95, and no signal", reader_that_never_came),
    ("a folder as standard input is 94", folder_as_input),
    ("a standard input that is for writing only is 94", input_for_writing_only),
    ("a closed standard input is 94", closed_input),
    ("a closed standard output is 95", closed_output),
    ("a refused file needs no standard output", closed_output_of_a_refused_file),
    ("a refusal that cannot be told has its status", errors_that_cannot_be_told),
    ("an empty device as standard input is an empty file", no_input),
    ("an input that comes byte by byte", input_byte_by_byte),
    ("an endless file ends at the limit of a file", endless_file),
    ("an endless line ends at the limit of a line", endless_line),
    ("endless blank lines end at the limit of a file", endless_blank_lines),
    ("a full device for a text that was asked for is 95", full_device_for_a_text),
    ("a closed input and output is 94", closed_input_and_output),
    ("each line of a refusal is told in one write", refusals_in_one_write),
    ("norm", asks_for("norm", "parish", "norm")),
    ("norm of a program without a name", asks_for("norm", "", "norm")),
    ("check", asks_for("check", "parish", "check")),
    ("check of a program that is called norm", asks_for("check", "norm", "check")),
    ("--version", version),
    ("--help tells norm", told(b"\n  norm         Write the", "--help")),
    ("--help tells check", told(b"\n  check        Check the", "--help")),
    ("-h of a program of another name", told(USAGE, "-h", name="other")),
    ("norm --help", told(b"parish norm <", "norm", "--help")),
    ("check --help", told(b"parish check <", "check", "--help")),
    ("check -h", told(b"parish check <", "check", "-h")),
    ("--help tells init", told(b"\n  init         Make a", "--help")),
    ("--help tells apply", told(b"\n  apply        Do the", "--help")),
    ("init --help", told(b"parish init ashby.db --society", "init", "--help")),
    ("apply --help", told(b"parish apply ashby.db <", "apply", "--help")),
    ("apply --help tells fields", told(b"\n  event,owner,tag,value?,date?,place?\n", "apply", "--help")),
    ("apply --help tells refusals", told(b"\n  56 ChangedSince  ", "apply", "--help")),
    ("apply --help tells --stop", told(b"\n      --stop  ", "apply", "--help")),
    ("apply with --stop of something", refuses_words(b"'--stop", "apply", "a.db", "--stop=1")),
    ("apply with --stop twice", refuses_words(b"--stop", "apply", "a.db", "--stop", "--stop")),
    ("apply --help tells --expect", told(b"\n      --expect <ANSWERS>  ", "apply", "--help")),
    ("apply with --expect of nothing", refuses_words(b"--expect", "apply", "a.db", "--expect")),
    ("entries with --stop", refuses_words(b"'--stop'", "entries", "a.db", "--source", "1", "--token", "t", "--stop")),
    ("apply --help names the document", told(b"\ndocs/REFUSALS.md ", "apply", "--help")),
    ("init without a file", refuses_words(b"<FILE>", "init", "--society", "x")),
    ("init without a society", refuses_words(b"--society <NAME>", "init", "a.db")),
    ("init of two files", refuses_words(b"'b.db'", "init", "a.db", "b.db", "--society", "x")),
    ("init with two societies", refuses_words(b"--society <NAME>", "init", "a.db", "--society", "x", "--society", "y")),
    ("init with an unknown option", refuses_words(b"'--name'", "init", "a.db", "--name", "x")),
    ("apply without a file", refuses_words(b"<FILE>", "apply")),
    ("apply of two files", refuses_words(b"'b.db'", "apply", "a.db", "b.db")),
    ("apply with a society", refuses_words(b"'--society'", "apply", "a.db", "--society", "x")),
    ("--help tells entries", told(b"\n  entries      Enter the", "--help")),
    ("entries --help", told(b"parish entries ashby.db --source 3 --token", "entries", "--help")),
    ("entries --help tells refusals", told(b"\n  62 NotOfKind  ", "entries", "--help")),
    ("entries without a file", refuses_words(b"<FILE>", "entries", "--source", "1", "--token", "t")),
    ("entries without a source", refuses_words(b"--source <N>", "entries", "a.db", "--token", "t")),
    ("entries without a token", refuses_words(b"--token <T>", "entries", "a.db", "--source", "1")),
    ("entries --help tells tables", told(b"parish entries ashby.db --table --check", "entries", "--help")),
    (
        "a table that is not checked, without a token",
        refuses_words(b"--token <T>", "entries", "a.db", "--source", "1", "--table"),
    ),
    (
        "a check of no table",
        refuses_words(b"'--check' cannot be used without '--table'", "entries", "a.db", "--source", "1", "--check"),
    ),
    (
        "a batch that is to make places",
        refuses_words(
            b"'--make-places' cannot be used without '--table'",
            "entries", "a.db", "--source", "1", "--token", "t", "--make-places"),
    ),
    (
        "a character set of no table",
        refuses_words(b"without '--table'", "entries", "a.db", "--source", "1", "--token", "t", "--from", "1252"),
    ),
    (
        "a table in a character set that there is not",
        refuses_words(
            b"'latin' for '--from <SET>'", "entries", "a.db", "--source", "1", "--table", "--check", "--from", "latin"),
    ),
    (
        "dates of no table",
        refuses_words(b"without '--table'", "entries", "a.db", "--source", "1", "--token", "t", "--dates", "dmy"),
    ),
    (
        "dates in an order that there is not",
        refuses_words(
            b"'ymd' for '--dates <ORDER>'", "entries", "a.db", "--source", "1", "--table", "--check", "--dates", "ymd"),
    ),
    ("a table without a source", refuses_words(b"--source <N>", "entries", "a.db", "--table", "--check")),
    (
        "entries of two sources",
        refuses_words(b"--source <N>", "entries", "a.db", "--source", "1", "--source", "2", "--token", "t"),
    ),
    ("entries of source 0", refuses_words(b"'0'", "entries", "a.db", "--source", "0", "--token", "t")),
    (
        "entries of a source above all numbers",
        refuses_words(b"'4294967296'", "entries", "a.db", "--source", "4294967296", "--token", "t"),
    ),
    (
        "entries of a source that is no number",
        refuses_words(b"'one'", "entries", "a.db", "--source", "one", "--token", "t"),
    ),
    (
        "entries of a source without words",
        refuses_words(b"--source <N>", "entries", "a.db", "--source", "", "--token", "t"),
    ),
    (
        "entries with a society",
        refuses_words(b"'--society'", "entries", "a.db", "--source", "1", "--token", "t", "--society", "x"),
    ),
    ("--help tells import", told(b"\n  import       Take the GEDCOM file", "--help")),
    ("import --help", told(b"parish import ashby.db --token first-file < ", "import", "--help")),
    ("import --help tells refusals", told(b"\n  60 DuplicateEntry   ", "import", "--help")),
    ("import --help tells --progress", told(b"\n      --progress  ", "import", "--help")),
    (
        "import with --progress of something",
        refuses_words(b"'--progress", "import", "a.db", "--token", "t", "--progress=1"),
    ),
    ("export with --progress", refuses_words(b"'--progress'", "export", "a.db", "--progress")),
    ("import --help tells --report", told(b"\n      --report <REPORT>  ", "import", "--help")),
    (
        "import with --report of nothing",
        refuses_words(b"--report <REPORT>", "import", "a.db", "--token", "t", "--report"),
    ),
    (
        "import with two reports",
        refuses_words(b"--report <REPORT>", "import", "a.db", "--token", "t", "--report", "a", "--report", "b"),
    ),
    ("export with --report", refuses_words(b"'--report'", "export", "a.db", "--report", "a")),
    ("import without a file", refuses_words(b"<FILE>", "import", "--token", "t")),
    ("import without a token", refuses_words(b"--token <T>", "import", "a.db")),
    ("import of two files", refuses_words(b"'b.ged'", "import", "a.db", "b.ged", "--token", "t")),
    ("import with a source", refuses_words(b"'--source'", "import", "a.db", "--token", "t", "--source", "1")),
    ("--help tells export", told(b"\n  export       Write the archive", "--help")),
    ("export --help", told(b"parish export ashby.db > ", "export", "--help")),
    ("export --help tells refusals", told(b"\n  70 ExportTooLarge  ", "export", "--help")),
    ("export --help tells --plain", told(b"\n      --plain  ", "export", "--help")),
    ("export with --plain twice", refuses_words(b"--plain", "export", "a.db", "--plain", "--plain")),
    ("export with --plain and a day", refuses_words(b"--public", "export", "a.db", "--plain", "--today", "2024-01-01")),
    ("sheet with --plain", refuses_words(b"'--plain'", "sheet", "a.db", "person", "1", "--plain")),
    ("export without a file", refuses_words(b"<FILE>", "export")),
    ("export of two files", refuses_words(b"'b.db'", "export", "a.db", "b.db")),
    ("export with a token", refuses_words(b"'--token'", "export", "a.db", "--token", "t")),
    ("--help tells convert", told(b"\n  convert      Write the GEDCOM file", "--help")),
    ("convert --help", told(b"parish convert --from 850 < ", "convert", "--help")),
    ("convert --help tells refusals", told(b"\n  29 Charset  ", "convert", "--help")),
    ("convert from no character set", refuses_words(b"'latin1'", "convert", "--from", "latin1")),
    ("convert from a set in capitals", refuses_words(b"'ANSEL'", "convert", "--from", "ANSEL")),
    ("convert from nothing", refuses_words(b"--from <SET>", "convert", "--from")),
    ("convert from two sets", refuses_words(b"--from <SET>", "convert", "--from", "850", "--from", "437")),
    ("convert of a file", refuses_words(b"'a.ged'", "convert", "a.ged")),
    ("--help tells list", told(b"\n  list         List the records", "--help")),
    ("list --help", told(b"parish list ashby.db entries --source 3", "list", "--help")),
    ("list without a file", refuses_words(b"<FILE>", "list")),
    ("list without a kind", refuses_words(b"<KIND>", "list", "a.db")),
    ("list of no kind", refuses_words(b"'person'", "list", "a.db", "person")),
    ("list of two kinds", refuses_words(b"'places'", "list", "a.db", "persons", "places")),
    ("list of the persons of a source", refuses_words(b"'--source <N>'", "list", "a.db", "persons", "--source", "3")),
    ("list of the entries of source 0", refuses_words(b"'0'", "list", "a.db", "entries", "--source", "0")),
    ("list after no number", refuses_words(b"'x'", "list", "a.db", "persons", "--after", "x")),
    ("list after all numbers", refuses_words(b"'4294967296'", "list", "a.db", "persons", "--after", "4294967296")),
    ("list of none", refuses_words(b"'0'", "list", "a.db", "persons", "--limit", "0")),
    ("--help tells find", told(b"\n  find         Find the records", "--help")),
    ("find --help", told(b"parish find ashby.db tom lee", "find", "--help")),
    ("find without a file", refuses_words(b"<FILE>", "find")),
    ("find without a word", refuses_words(b"<WORD>", "find", "a.db")),
    ("find of no kind", refuses_words(b"'place'", "find", "a.db", "ash", "--kind", "place")),
    ("find of two kinds", refuses_words(b"--kind <KIND>", "find", "a.db", "a", "--kind", "places", "--kind", "events")),
    ("find of none", refuses_words(b"'0'", "find", "a.db", "ash", "--limit", "0")),
    ("find of a source", refuses_words(b"'--source'", "find", "a.db", "ash", "--source", "3")),
    ("--help tells show", told(b"\n  show         Show records whole", "--help")),
    ("show --help", told(b"parish show ashby.db 17 21", "show", "--help")),
    ("show without a file", refuses_words(b"<FILE>", "show")),
    ("show without a number", refuses_words(b"<NO>", "show", "a.db")),
    ("show of record 0", refuses_words(b"'0'", "show", "a.db", "0")),
    ("show of a second that is no number", refuses_words(b"'x'", "show", "a.db", "1", "x")),
    ("show of a number above all", refuses_words(b"'4294967296'", "show", "a.db", "1", "4294967296")),
    ("--help tells history", told(b"\n  history      Show what a record was before", "--help")),
    ("history --help", told(b"parish history ashby.db 17", "history", "--help")),
    ("history without a file", refuses_words(b"<FILE>", "history")),
    ("history without a number", refuses_words(b"<NO>", "history", "a.db")),
    ("history of record 0", refuses_words(b"'0'", "history", "a.db", "0")),
    ("history of two records", refuses_words(b"'2'", "history", "a.db", "1", "2")),
    ("history of a number above all", refuses_words(b"'4294967296'", "history", "a.db", "4294967296")),
    ("no words", refuses_words(USAGE)),
    ("an unknown command", refuses_words(b"'frobnicate'", "frobnicate")),
    ("an empty word", refuses_words(b"''", "")),
    ("the command help", refuses_words(b"'help'", "help")),
    ("a command with a capital", refuses_words(b"'Norm'", "Norm")),
    ("a command in capitals", refuses_words(b"'CHECK'", "CHECK")),
    ("an unknown option", refuses_words(b"'--frobnicate'", "--frobnicate")),
    ("a command as an option", refuses_words(b"'--norm'", "--norm")),
    ("an unknown option of norm", refuses_words(b"'--frobnicate'", "norm", "--frobnicate")),
    ("an option --file of norm", refuses_words(b"'--file'", "norm", "--file")),
    ("a word too many", refuses_words(b"'file.ged'", "norm", "file.ged")),
    ("a letter too many", refuses_words(b"'x'", "norm", "x")),
    ("an unknown option of check", refuses_words(b"'--frobnicate'", "check", "--frobnicate")),
    ("an option --file of check", refuses_words(b"'--file'", "check", "--file")),
    ("a word too many for check", refuses_words(b"'file.ged'", "check", "file.ged")),
    ("two commands", refuses_words(b"'check'", "norm", "check")),
    ("two commands, the other first", refuses_words(b"'norm'", "check", "norm")),
    ("a word that is not UTF-8", not_utf8(b"\xff")),
    ("a word of norm that is not UTF-8", not_utf8("norm", b"a\xff")),
    ("another folder", another_folder),
    ("a hundred thousand records are counted", many_records),
)


def cases(tools: Tools):
    for name, test in STREAMS:
        yield Case(f"streams: {name}", lambda test=test: test(tools))
