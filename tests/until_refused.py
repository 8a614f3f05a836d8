"""`apply --stop`: what is answered and done up to the first row that is refused. The answers are those of a slow
reference in Python."""

from __future__ import annotations

from archives import ANSWERS, ROWS, Folder, faults_of
from harness import Case, Outcome, Tools, demand, expect, refused, run, shown, written

# Rows, the answers to all of them, and how many answers there are with --stop.
CASES = (
    (
        "a row in the middle",
        b"a1,person,John /Smith/,M\na2,family,1,\na3,child,2,1\na4,event,2,BIRT,,,\na5,event,2,MARR,,1 MAY 1800,\n",
        b"a1,ok,1,1\na2,ok,2,1\na3,refused,59,AlreadyInFamily\na4,refused,62,NotOfKind\na5,ok,3,1\n",
        3,
    ),
    (
        "a row that is not UTF-8",
        b"a,person,Ann,F\nb,person,\xff,M\nc,person,Eva,F\n",
        b"a,ok,1,1\n,refused,90,BadRow\nc,ok,2,1\n",
        2,
    ),
    (
        "a field of another type",
        b"a,person,Ann,F\nb,sex,1,\nc,person,Eva,F\n",
        b"a,ok,1,1\nb,refused,90,BadRow\nc,ok,2,1\n",
        2,
    ),
    (
        "an unknown verb",
        b"a,person,Ann,F\nb,frob,1\nc,person,Eva,F\n",
        b"a,ok,1,1\nb,refused,91,UnknownVerb\nc,ok,2,1\n",
        2,
    ),
    (
        "a wrong number of fields",
        b"a,person,Ann,F\nb,person\nc,person,Eva,F\n",
        b"a,ok,1,1\nb,refused,92,FieldCount\nc,ok,2,1\n",
        2,
    ),
    (
        "no token",
        b"a,person,Ann,F\nb b,person,Tom,M\nc,person,Eva,F\n",
        b"a,ok,1,1\n,refused,93,BadToken\nc,ok,2,1\n",
        2,
    ),
    (
        "a guessed number",
        b"t1,person,Thomas /Lee/,M\nt2,person,Eva /Ray/,f\nt3,person,Ann /Fox/,F\nt4,family,1,2\n",
        b"t1,ok,1,1\nt2,refused,90,BadRow\nt3,ok,2,1\nt4,ok,3,1\n",
        2,
    ),
    ("the last row", b"a,person,Ann,F\nb,sex,9,M\n", b"a,ok,1,1\nb,refused,50,NoSuch\n", 2),
    ("the first row", b"b,sex,9,M\na,person,Ann,F\n", b"b,refused,50,NoSuch\na,ok,1,1\n", 1),
)


def stopping(at, rows, **how):
    return run(at.parish, ("apply", at.file, "--stop"), rows, **how)


def stopped(got, answers):
    """The answers, status 1, and on standard error the line of the last row and no other."""
    expect(Outcome(got.out, b"", got.status), Outcome(answers, b"", 1))
    (head,) = faults_of(answers)
    demand(got.err.decode().startswith(head) and got.err.count(b"\n") == 1, f"standard error has {shown(got.err)}")


def up_to_a_refusal(tools, rows, answers, count):
    """No row is done after the one that is refused; the same rows again come to the same; without --stop all are."""
    first = b"".join(answers.splitlines(keepends=True)[:count])
    with Folder(tools) as whole, Folder(tools) as at:
        whole.made().apply(b"".join(rows.splitlines(keepends=True)[:count]))
        at.made()
        for _ in range(2):
            stopped(stopping(at, rows), first)
            demand(at.tables() == whole.tables(), "a row was done after the one that was refused")
        got = at.apply(rows)
        expect(Outcome(got.out, b"", got.status), written(answers))


def no_row_is_refused(tools):
    """The same as without --stop; the token of a row that is sent again is answered as before."""
    rows, answers = b"a,person,Ann,F\nb,person,Tom,M\na,person,Ann,F\n", b"a,ok,1,1\nb,ok,2,1\na,ok,1,1\n"
    with Folder(tools) as at:
        at.made()
        for given, wanted in ((b"", b""), (rows, answers), (rows, answers)):
            expect(stopping(at, given), written(wanted))


def a_row_that_is_corrected(tools):
    """The rows after it get the numbers that were meant."""
    rows = b"t1,person,Thomas /Lee/,M\nt2,person,Eva /Ray/,f\nt3,family,1,2\n"
    with Folder(tools) as at:
        stopped(stopping(at.made(), rows), b"t1,ok,1,1\nt2,refused,90,BadRow\n")
        expect(stopping(at, rows.replace(b",f\n", b",F\n")), written(b"t1,ok,1,1\nt2,ok,2,1\nt3,ok,3,1\n"))


def an_early_end(tools):
    """A refusal of the run is as without --stop: the line of the refusal, and nothing of a row."""
    with Folder(tools) as at:
        expect(stopping(at, ROWS), refused(82))
        with open("/dev/full", "wb") as full:
            expect(stopping(at.made(), ROWS, stdout=full), refused(95))
        stopped(stopping(at, ROWS), b"".join(ANSWERS.splitlines(keepends=True)[:3]))


def faults_that_cannot_be_told(tools):
    """Where standard error fails, the answers and the status are the same."""
    with Folder(tools) as at, open("/dev/full", "wb") as full:
        got = stopping(at.made(), ROWS, stderr=full)
        expect(Outcome(got.out, b"", got.status), Outcome(b"".join(ANSWERS.splitlines(keepends=True)[:3]), b"", 1))


TESTS = (no_row_is_refused, a_row_that_is_corrected, an_early_end, faults_that_cannot_be_told)


def cases(tools: Tools):
    for name, rows, answers, count in CASES:
        yield Case(f"until refused: {name}", lambda r=rows, a=answers, n=count: up_to_a_refusal(tools, r, a, n))
    for test in TESTS:
        yield Case(f"until refused: {test.__name__.replace('_', ' ')}", lambda test=test: test(tools))
