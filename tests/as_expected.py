"""`apply --expect`: rows are done up to the first that would be answered otherwise than a file of answers has it. What
is wanted is that of a slow reference in Python."""

from __future__ import annotations

import os
import shutil

from archives import ANSWERS, ROWS, Folder, faults_of
from harness import WANTS, Case, Outcome, Tools, demand, expect, refused, refused_row, run, shown, written
from refusing import built, last_growth, refusing

LEAST, TRIED = 100, 300  # growths of memory that rows make at least, and of how many of them one is refused
# Rows that name each other, and what they are answered.
NAMING = b"a,person,Ann,F\nb,sex,@a,M\nc,event,@a,BIRT,,1900,\n"
TOLD = b"a,ok,1,1\nb,ok,0,0\nc,ok,2,1\n"

# Rows, the answers that are expected, the answers that are given, and the row at which they end; 0: at none.
CASES = (
    ("the same answers", b"a,person,Ann,F\nb,person,Tom,M\n", b"a,ok,1,1\nb,ok,2,1\n", b"a,ok,1,1\nb,ok,2,1\n", 0),
    ("no answers", b"a,person,Ann,F\nb,sex,9,M\n", b"", b"a,ok,1,1\nb,refused,50,NoSuch\n", 0),
    ("another number", b"b,person,Tom,M\na,person,Ann,F\n", b"a,ok,1,1\nb,ok,2,1\n", b"", 1),
    ("a number in the middle", b"a,person,Ann,F\nc,person,Eva,F\nb,person,Tom,M\n", b"a,ok,1,1\nb,ok,2,1\n",
     b"a,ok,1,1\nc,ok,2,1\n", 3),
    ("refused, and expected to be", b"a,person,Ann,F\nb,sex,9,M\nc,person,Eva,F\n",
     b"a,ok,1,1\nb,refused,50,NoSuch\n", b"a,ok,1,1\nb,refused,50,NoSuch\nc,ok,2,1\n", 0),
    ("refused, and expected to be done", b"a,person,Ann,F\nb,sex,9,M\n", b"a,ok,1,1\nb,ok,0,0\n", b"a,ok,1,1\n", 2),
    ("done, and expected to be refused", b"a,person,Ann,F\nb,sex,1,M\n", b"b,refused,50,NoSuch\n", b"a,ok,1,1\n", 2),
    ("refused otherwise", b"b,sex,9,\n", b"b,refused,50,NoSuch\n", b"", 1),
    ("the second row of a token", b"a,person,Ann,F\na,person,Eva,F\n", b"a,ok,1,1\na,ok,1,1\n", b"a,ok,1,1\n", 2),
    ("more rows of a token than answers", b"a,person,Ann,F\na,person,Eva,F\n", b"a,ok,1,1\n",
     b"a,ok,1,1\na,refused,52,TokenReused\n", 0),
    ("no token", b"a b,person,Ann,F\nc,person,Eva,F\n", b",refused,93,BadToken\nc,ok,1,1\n",
     b",refused,93,BadToken\nc,ok,1,1\n", 0),
    ("no token, twice", b"a b,person,Ann,F\nc d,person,Eva,F\n", b",refused,93,BadToken\n,refused,90,BadRow\n",
     b",refused,93,BadToken\n", 2),
    ("answers as a spreadsheet writes them", b"a,person,Ann,F\nb,person,Tom,M\n",
     b'\xef\xbb\xbf"a","ok",1,1\r\nb,ok,"2",1', b"a,ok,1,1\nb,ok,2,1\n", 0),
    ("a field more", b"a,person,Ann,F\n", b"a,ok,1,1,\n", b"", 1),
    ("a field less", b"a,person,Ann,F\n", b"a,ok,1\n", b"", 1),
    ("another word", b"a,person,Ann,F\n", b"a,OK,1,1\n", b"", 1),
    ("a number written otherwise", b"a,person,Ann,F\n", b"a,ok,01,1\n", b"", 1),
    ("a reference", b"a,person,Ann,F\nb,sex,@a,M\nc,sex,@z,M\n", b"b,ok,0,0\nc,ok,0,0\n", b"a,ok,1,1\nb,ok,0,0\n", 3),
)


def expecting(at, rows, answers, *words, **how):
    with open(os.path.join(at.path, "answers.csv"), "wb") as file:
        file.write(answers)
    return run(at.parish, ("apply", at.file, *words, "--expect", file.name), rows, **how)


def ended(got, answers, row):
    """These answers, the lines of what is refused of them, and the line of the row at which they end, if at any."""
    expect(Outcome(got.out, b"", got.status), Outcome(answers, b"", 1 if row else 0))
    said = refused_row(96, row).err if row else b""
    demand(got.err.endswith(said), f"standard error has {shown(got.err)}")
    told = got.err.removesuffix(said).decode().splitlines()
    wanted = faults_of(answers)
    same = len(told) == len(wanted) and all(line.startswith(head) for line, head in zip(told, wanted, strict=True))
    demand(same, f"standard error has {shown(got.err)}")


def up_to_a_difference(tools, rows, expected, answers, row):
    """What is answered is done, and nothing else."""
    count = row - 1 if row else rows.count(b"\n")
    with Folder(tools) as whole, Folder(tools) as at:
        whole.made().apply(b"".join(rows.splitlines(keepends=True)[:count]))
        ended(expecting(at.made(), rows, expected), answers, row)
        demand(at.tables() == whole.tables(), "another row was done")


def what_was_answered_before(tools):
    """On a copy rows are answered as before; in another order nothing is done from the first difference on."""
    rows = ROWS.splitlines(keepends=True)
    with Folder(tools) as at:
        at.made()
        for _ in range(2):
            ended(expecting(at, ROWS, ANSWERS), ANSWERS, 0)
    with Folder(tools) as at:
        ended(expecting(at.made(), b"".join([rows[1], rows[0]]), ANSWERS), b"", 1)


def with_stop(tools):
    """Up to the first row that is refused, or before the first that differs."""
    with Folder(tools) as at:
        three = b"".join(ANSWERS.splitlines(keepends=True)[:3])
        got = expecting(at.made(), ROWS, ANSWERS, "--stop")
        expect(Outcome(got.out, b"", got.status), Outcome(three, b"", 1))
        ended(expecting(at, ROWS, b"a2,ok,9,1\n", "--stop"), b"a1,ok,1,1\n", 2)


def answers_that_cannot_be_read(tools):
    """94, and no archive is opened."""
    with Folder(tools) as at:
        for name in ("none.csv", "."):
            got = run(at.parish, ("apply", at.file, "--expect", os.path.join(at.path, name)), ROWS)
            expect(got, refused(94))
        demand(not os.path.exists(at.file), "a file was made")


def an_archive_that_cannot_be_opened(tools):
    with Folder(tools) as at:
        expect(expecting(at, ROWS, ANSWERS), refused(82))


def no_rows(tools):
    with Folder(tools) as at:
        expect(expecting(at.made(), b"", ANSWERS), written(b""))


def want_of_memory(tools):
    """Wherever rows that name each other are refused memory, the run says so, and calls no row unexpected."""
    with Folder(tools) as at:
        shutil.copy(at.made().file, at.file + ".made")
        library, mark = built(at.path), os.path.join(at.path, "mark")

        def refused_at(number, rows):
            shutil.copy(at.file + ".made", at.file)
            got = expecting(at, rows, TOLD, env=refusing(number, library, mark))
            is_refused = os.path.exists(mark)
            if is_refused:
                os.remove(mark)
            return is_refused, got

        first, last = (last_growth(lambda number, rows=rows: refused_at(number, rows)[0]) for rows in (b"", NAMING))
        demand(last - first > LEAST, f"rows have only {last - first} growths")
        for number in range(max(1, first - LEAST), last, max(1, (last - first) // TRIED)):
            _, got = refused_at(number, NAMING)
            wants = got.status == 1 and got.err in WANTS and TOLD.startswith(got.out)
            demand(got == written(TOLD) or wants, f"growth {number} refused: {got}")


TESTS = (
    what_was_answered_before, with_stop, answers_that_cannot_be_read, an_archive_that_cannot_be_opened, no_rows,
    want_of_memory,
)


def cases(tools: Tools):
    for name, rows, expected, answers, row in CASES:
        yield Case(
            f"as expected: {name}",
            lambda r=rows, e=expected, a=answers, n=row: up_to_a_difference(tools, r, e, a, n),
        )
    for test in TESTS:
        yield Case(f"as expected: {test.__name__.replace('_', ' ')}", lambda test=test: test(tools))
