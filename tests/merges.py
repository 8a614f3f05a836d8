"""Persons merged and merges undone in real files: what is there after them, and what a stop leaves."""

from __future__ import annotations

import random
import subprocess
import time

from archives import Folder, answered, killed_and_run_again, lines
from harness import Case, Tools, demand, expect, written
from packed import PACKS, each_line

MANY = 2_000  # events of the person that is gone

# Rows with their answers, each pair in a new archive.
WALKS = {
    "three persons become one and three again": (
        ("p1,person,a,", "p1,ok,1,1"),
        ("p2,person,b,", "p2,ok,2,1"),
        ("p3,person,c,", "p3,ok,3,1"),
        ("m1,merge,1,2", "m1,ok,4,1"),
        ("m2,merge,3,1", "m2,ok,5,1"),
        ("u1,undo,4", "u1,refused,56,ChangedSince"),
        ("u2,undo,5", "u2,ok,0,0"),
        ("u3,undo,4", "u3,ok,0,0"),
        ("u4,undo,4", "u4,refused,57,AlreadyUndone"),
        ("u5,undo,6", "u5,refused,50,NoSuch"),
        ("u6,undo,1", "u6,refused,51,WrongKind"),
        ("d1,remove,4", "d1,refused,50,NoSuch"),
        ("m1,merge,1,2", "m1,ok,4,1"),
        ("m1,merge,2,1", "m1,refused,52,TokenReused"),
    ),
    "two children of a family": (
        ("p1,person,a,", "p1,ok,1,1"),
        ("p2,person,b,", "p2,ok,2,1"),
        ("f1,family,,", "f1,ok,3,1"),
        ("c1,child,3,1", "c1,ok,0,0"),
        ("c2,child,3,2", "c2,ok,0,0"),
        ("m1,merge,1,2", "m1,ok,4,1"),
        ("p3,person,Ann /Lee/,F", "p3,ok,5,1"),
        ("u1,undo,4", "u1,ok,0,0"),
        ("m2,merge,1,1", "m2,refused,54,SamePerson"),
        ("m3,merge,1,3", "m3,refused,51,WrongKind"),
        ("h1,family,1,", "h1,ok,6,1"),
        ("c3,child,6,2", "c3,ok,0,0"),
        ("m4,merge,1,2", "m4,refused,55,MergeWithinFamily"),
        ("m5,merge,2,1", "m5,refused,55,MergeWithinFamily"),
    ),
}


def walks(tools):
    """Each row gets its answer, in one run and in a run of its own."""
    for steps in WALKS.values():
        with Folder(tools) as at:
            answered(at.made().apply(lines(row for row, _ in steps)), lines(answer for _, answer in steps))
        with Folder(tools) as at:
            at.made()
            for row, answer in steps:
                answered(at.apply(lines([row])), lines([answer]))


def records_of_before(tools):
    """An undoing leaves the lines that were there before the merge, and the slip."""
    rows = lines(
        [
            *("p1,person,Thomas /Lee/,M", "p2,person,Thos. /Lee/,M", "p3,person,Eva,F", "p4,person,John,"),
            *("f1,family,2,3", "c1,child,5,4", "f2,family,,", "c2,child,6,2", "c3,child,6,1"),
            *("e1,event,2,BIRT,,1700,", "e2,event,5,MARR,,1730,", "q1,participant,8,1,witness", "q2,participant,7,2,"),
            *("s1,source,Register,,,,", "t1,citation,2,9,f. 3,2"),
            *("n1,entry,9,BAPTISM,f. 3,1,,,John,child,John,father,Thos. Lee", "l1,link,11,2,2,same farm"),
        ]
    )
    with Folder(tools) as at:
        done = at.made().apply(rows)
        demand(done.status == 0 and b"refused" not in done.out, f"{done}")
        before = each_line(at.rows_of(PACKS))
        expect(at.apply(b"m,merge,1,2\n"), written(b"m,ok,12,1\n"))
        merged = each_line(at.rows_of(PACKS))
        demand(all(dst != 2 and number != 2 for number, *_, dst in merged), "a line names the person that is gone")
        demand((1, 5, 2, "SEX", "M", None) in merged, "the second sex is not carried")
        expect(at.apply(b"u,undo,12\n"), written(b"u,ok,0,0\n"))
        demand(each_line(at.rows_of(PACKS)) == before, "the lines of before are not there again")
        demand(at.rows_of("SELECT no, keep, gone, undone FROM slip") == [(12, 1, 2, 1)], "the slip is another one")


def with_many_events(at):
    """A new archive with a person and another one, who has many events."""
    done = at.made().apply(
        lines(["p1,person,Tom,M", "p2,person,Thos.,F", *(f"e{n},event,2,RESI,,," for n in range(MANY))])
    )
    demand(done.status == 0 and b"refused" not in done.out, f"{done.status} {done.err!r}")
    return at


def records(at):
    return at.rows_of("SELECT no, kind FROM record ORDER BY no"), each_line(at.rows_of(PACKS))


def a_merge_of_many_events(tools, stops=8):
    """A merge that changes many records, and its undoing, are killed while they are written: each is there whole or not
    at all."""
    requests = ((b"m,merge,1,2\n", f"m,ok,{MANY + 3},1\n".encode()), (f"u,undo,{MANY + 3}\n".encode(), b"u,ok,0,0\n"))
    rng = random.Random(MANY)
    with Folder(tools) as at:
        before = records(with_many_events(at))
        start = time.perf_counter()
        expect(at.apply(requests[0][0]), written(requests[0][1]))
        longest, merged = time.perf_counter() - start, records(at)
        demand(all(dst != 2 for *_, dst in merged[1]), "a line names the person that is gone")
    with Folder(tools) as at:
        demand(records(with_many_events(at)) == before, "the same rows make other records")
        for (rows, answer), after in zip(requests, (merged, before), strict=True):
            for _ in range(stops):
                cut_off(at, rows, rng.random() * longest)
                demand(records(at) in (before, merged), "a part of it is there")
            expect(at.apply(rows), written(answer))
            demand(records(at) == after, "other records are there than in a run that was not stopped")


def cut_off(at, rows, seconds):
    """A run that is killed after some seconds, if it is not done."""
    process = subprocess.Popen(
        [*at.parish, "apply", at.file], stdin=subprocess.PIPE, stdout=subprocess.DEVNULL, stderr=subprocess.DEVNULL
    )
    try:
        process.communicate(rows, timeout=seconds)
    except subprocess.TimeoutExpired:
        process.kill()
        process.communicate()


def families_of_merges(count):
    """Rows that are all accepted: in each family the husband is merged with another spelling of him, and every second
    merge is undone."""
    rows, number = [], 1
    for n in range(count):
        a, b, family, event, slip = range(number, number + 5)
        rows += [
            f"a{n},person,Tom,M", f"b{n},person,Thos.,M", f"f{n},family,{b},", f"e{n},event,{b},BIRT,,17{n % 100:02},"
        ]
        rows += [f"q{n},participant,{event},{a},witness", f"m{n},merge,{a},{b}"]
        rows += [f"u{n},undo,{slip}"] * (n % 2)
        number += 5
    return lines(rows)


def killed_while_merging(tools):
    killed_and_run_again(tools, seed=2, stops=15, rows=families_of_merges(60))


TESTS = (walks, records_of_before, a_merge_of_many_events, killed_while_merging)


def cases(tools: Tools):
    for test in TESTS:
        yield Case(f"merges: {test.__name__.replace('_', ' ')}", lambda test=test: test(tools))
