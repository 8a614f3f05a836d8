"""References: `@` and a token in place of a number in a row of `apply`, or of the place of a row of `entries`. The
answers are worked out by hand, and what the archive holds is compared with that of the same rows with numbers."""

from __future__ import annotations

from archives import Folder
from harness import Case, Outcome, Tools, demand, expect, refused, refused_row, run, written

# One row of each verb, with references in every field that may have one.
ROWS = b"""a,person,Ann /Lee/,F
b,person,Bob /Ray/,M
r,repo,Kent Archives
s,source,Register,,,@r,
q,place,Kent,
p,place,Ashby,@q
f,family,@b,@a
c,person,Cy /Ray/,M
k,child,@f,@c
n,name,@a,Anne /Lee/
x,sex,@c,U
e,event,@f,MARR,,1 MAY 1800,@p
m,amend,@e,,2 MAY 1800,@q
o,participant,@e,@c,witness
t,citation,@e,@s,12,3
y,entry,@s,BAPTISM,12,1,1 MAY 1800,@p,text,child,Cy Ray
l,link,@y,1,@c,same day
u,unlink,@y,1
d,person,Cy /Ray/,M
g,merge,@c,@d
z,undo,@g
h,partner,@f,wife,@d
i,unpartner,@f,@d
j,unchild,@f,@c
aa,unparticipant,@e,1
ab,correct,@e,place,@p
ac,correct,@s,repository,@r
ad,correct,@c,sex,M
w,remove,@t
"""
NUMBERS = {"a": 1, "b": 2, "r": 3, "s": 4, "q": 5, "p": 6, "f": 7, "c": 8, "e": 9, "t": 10, "y": 11, "d": 12, "g": 13}

# Rows that stand first in each case below, the row that is looked at, and its answer.
FIRST = b"a,person,Ann /Lee/,F\nn,name,1,Anna /Lee/\nq,place,Kent,\nbad,sex,9,M\n"
FIRST_ANSWERS = b"a,ok,1,1\nn,ok,0,0\nq,ok,2,1\nbad,refused,50,NoSuch\n"
ANSWERS = (
    ("a number of before", b"v,sex,@a,M", b"v,ok,0,0"),
    ("nothing is kept", b"v,sex,@nope,M", b"v,refused,50,NoSuch"),
    ("a row that was refused", b"v,sex,@bad,M", b"v,refused,50,NoSuch"),
    ("an answer that made nothing", b"v,sex,@n,M", b"v,refused,50,NoSuch"),
    ("a record of another kind", b"v,sex,@q,M", b"v,refused,51,WrongKind"),
    ("its own token", b"v,sex,@v,M", b"v,refused,50,NoSuch"),
    ("no token", b"v,sex,@,M", b"v,refused,90,BadRow"),
    ("a space in the token", b"v,sex,@a b,M", b"v,refused,90,BadRow"),
    ("a letter that is not ASCII", "v,sex,@ä,M".encode(), b"v,refused,90,BadRow"),
    ("64 characters", b"v,sex,@" + 64 * b"x" + b",M", b"v,refused,50,NoSuch"),
    ("65 characters", b"v,sex,@" + 65 * b"x" + b",M", b"v,refused,90,BadRow"),
    ("a sign before it", b"v,sex, @a,M", b"v,refused,90,BadRow"),
    ("two signs", b"v,sex,@@a,M", b"v,refused,50,NoSuch"),
    ("the form comes first: a sex", b"v,sex,@nope,X", b"v,refused,90,BadRow"),
    ("the form comes first: a verb", b"v,frob,@nope", b"v,refused,91,UnknownVerb"),
    ("the form comes first: a count", b"v,sex,@nope", b"v,refused,92,FieldCount"),
    ("the form comes first: a mention", b"v,link,@nope,x,1,why", b"v,refused,90,BadRow"),
    ("the form comes first: UTF-8", b"v,name,@nope,\xff", b",refused,90,BadRow"),
    ("a mention is no reference", b"v,link,@a,@a,@a,why", b"v,refused,90,BadRow"),
    ("a participant is no reference", b"v,unparticipant,@a,@a", b"v,refused,90,BadRow"),
    ("a corrected item is no reference", b"v,correct,@a,item,@a", b"v,refused,90,BadRow"),
    ("a corrected place", b"v,correct,1,place,@q", b"v,refused,64,NoSuchField"),
    ("an item is no reference", b"v,entry,@a,BAPTISM,1,@a,,,,child,Tom", b"v,refused,90,BadRow"),
    ("before a text that is none", b"v,name,@nope,\"a\rb\"", b"v,refused,50,NoSuch"),
    ("before a token that is used", b"a,sex,@nope,M", b"a,refused,50,NoSuch"),
    ("a token that is used", b"a,sex,@a,M", b"a,refused,52,TokenReused"),
    ("nothing in a field that may be empty", b"v,family,,@a", b"v,ok,3,1"),
    ("a text", b"v,person,@a,F", b"v,ok,3,1"),
    ("the second of two is missing", b"v,family,@a,@nope", b"v,refused,50,NoSuch"),
)


def with_numbers(rows):
    """The rows with the numbers of NUMBERS in place of their references."""
    fields = ((field.decode() for field in row.split(b",")) for row in rows.splitlines())
    lines = (",".join(str(NUMBERS[f[1:]]) if f.startswith("@") else f for f in row) for row in fields)
    return "".join(line + "\n" for line in lines).encode()


def answers_of(rows):
    made = ((row.split(b",")[0].decode(), NUMBERS) for row in rows.splitlines())
    return "".join(f"{t},ok,{n[t]},1\n" if t in n else f"{t},ok,0,0\n" for t, n in made).encode()


def applied(at, rows, answers):
    got = at.apply(rows)
    expect(Outcome(got.out, b"", got.status), written(answers))


def every_verb(tools):
    """What is made is what the rows with the numbers make; either may be sent again as the other."""
    with Folder(tools) as at, Folder(tools) as numbers:
        at.made(), numbers.made()
        applied(at, ROWS, answers_of(ROWS))
        applied(numbers, with_numbers(ROWS), answers_of(ROWS))
        demand(at.tables() == numbers.tables(), "the rows with references made something else")
        for again in (ROWS, with_numbers(ROWS)):
            applied(at, again, answers_of(ROWS))
            applied(numbers, again, answers_of(ROWS))
        demand(at.tables() == numbers.tables(), "rows that were sent again changed something")


def one_answer(tools, row, answer):
    """After rows of the same run, and after those of a run before."""
    with Folder(tools) as at:
        applied(at.made(), FIRST + row + b"\n", FIRST_ANSWERS + answer + b"\n")
    with Folder(tools) as at:
        applied(at.made(), FIRST, FIRST_ANSWERS)
        applied(at, row + b"\n", answer + b"\n")


def families(export):
    """Of each family of an export the names of husband and wife."""
    names, found, at = {}, [], None
    for line in export.decode().splitlines():
        level, _, rest = line.partition(" ")
        if level == "0":
            at = rest
        elif rest.startswith("NAME ") and at is not None:
            names.setdefault(at.split()[0], rest[5:])
        elif rest.startswith(("HUSB ", "WIFE ")):
            found.append((at, rest[:4], rest[5:]))
    return sorted((tag, names[person]) for _, tag, person in found)


def another_order(tools):
    """Rows that are sent again in another order, on a new archive, mean the same persons."""
    persons = (b"a,person,Ann /Lee/,F\n", b"b,person,Bob /Ray/,M\n", b"c,person,Cy /Ray/,M\n")
    wanted = [("HUSB", "Bob /Ray/"), ("WIFE", "Ann /Lee/")]
    for order in ((0, 1, 2), (2, 1, 0), (1, 2, 0)):
        with Folder(tools) as at:
            at.made().apply(b"".join(persons[i] for i in order) + b"f,family,@b,@a\n")
            got = families(run(at.parish, ("export", at.file)).out)
            demand(got == wanted, f"the family has {got}")


# Rows that stand before a batch on source 1: a place, 2, a person, 3, and a row that made nothing.
KNOWN = b"q,place,Kent,\na,person,Ann /Lee/,F\nn,name,3,Anna\nbad,sex,9,M\n"
ENTRY = b"BURIAL,f. 4,%d,,%s,,buried,Ann\n"
BATCHES = (
    ("nothing is kept", (b"@q", b"@nope"), 50, 2),
    ("a row that was refused", (b"@bad",), 50, 1),
    ("an answer that made nothing", (b"2", b"@n"), 50, 2),
    ("its own token", (b"@batch",), 50, 1),
    ("a record of another kind", (b"@q", b"@a"), 51, 2),
    ("no token", (b"@q", b"@"), 90, 2),
    ("a space in the token", (b"@a b",), 90, 1),
    ("64 characters", (b"@" + 64 * b"x",), 50, 1),
    ("65 characters", (b"@" + 65 * b"x",), 90, 1),
    ("the form of a later row comes first", (b"@nope", b"x"), 90, 2),
)


def batch(places):
    return b"".join(ENTRY % (k + 1, place) for k, place in enumerate(places))


def batches_of_entries(tools):
    """A batch with references is that with their numbers, and either may be sent again as the other."""
    with Folder(tools) as at, Folder(tools) as numbers:
        for each, places in ((at, (b"@q", b"", b"2")), (numbers, (b"2", b"", b"@q"))):
            each.with_register(), each.apply(KNOWN)
            for again in (places, (b"2", b"", b"2"), (b"@q", b"", b"@q")):
                expect(each.entries(batch(again)), written(b"made 3 entries, first 4\n"))
        demand(at.tables() == numbers.tables(), "the rows with references made something else")
        expect(at.entries(batch((b"@q", b"", b""))), refused(52))


def one_batch(tools, places, number, row):
    """Nothing is made where a reference has no number."""
    with Folder(tools) as at:
        at.with_register(), at.apply(KNOWN)
        before = at.tables()
        expect(at.entries(batch(places)), refused_row(number, row))
        demand(at.tables() == before, "the tables changed")


def a_missing_place_comes_before_the_source(tools):
    with Folder(tools) as at:
        at.with_register()
        expect(at.entries(batch((b"@nope",)), source=9), refused_row(50, 1))


TESTS = (every_verb, another_order, batches_of_entries, a_missing_place_comes_before_the_source)


def cases(tools: Tools):
    for test in TESTS:
        yield Case(f"references: {test.__name__.replace('_', ' ')}", lambda test=test: test(tools))
    for name, row, answer in ANSWERS:
        yield Case(f"references: {name}", lambda r=row, a=answer: one_answer(tools, r, a))
    for name, places, number, row in BATCHES:
        yield Case(f"references of a batch: {name}", lambda p=places, n=number, r=row: one_batch(tools, p, n, r))
