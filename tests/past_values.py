"""Values of before, in the table `past` (docs/FORMATS.md, "The tables of an archive"): after each row the table is
compared with what the record's row in `line` held before it.
"""

from __future__ import annotations

import csv
import io
import os
import subprocess
import sys
from collections.abc import Iterator

from archives import Folder, lines
from harness import ROOT, Case, Tools, demand, run
from packed import PACKS

# The rows that put something right or take it away: what they overwrite is kept.
KEEPING = {"correct", "amend", "sex", "link", "unlink", "unpartner", "unchild", "unparticipant", "remove"}
PAST = "SELECT id, no, token, text FROM past ORDER BY id"
SEEDS, COUNT = range(4), 120
GENERATOR = os.path.join(ROOT, "tests", "requests", "generate.py")

# Each verb that keeps what it overwrites, a request that is answered again, one that changes nothing and one that is
# refused; a merge and its undoing, a batch and an import keep nothing.
MENDED = (
    "p1,person,Ann /Lee/,", "p2,person,Tom /Ray/,M", "f,family,,1", "c,child,3,2", "e,event,1,BIRT,,1700,",
    "w,participant,4,2,", "l,place,Kent,", "s,source,Deeds,,,,", "r,entry,6,BAPTISM,f. 1,1,,,,child,Ann",
    "k1,sex,1,F", "k1,sex,1,F", "k2,sex,1,F", "k3,correct,1,name 1,Anne /Lee/", "k4,correct,1,name 1,Anne /Lee/",
    "k5,amend,4,,1701,", "k6,amend,4,,1701,", "k7,link,7,1,1,same name", "k8,link,7,1,1,same name", "k9,unlink,7,1",
    "l1,unparticipant,4,1", "l2,unchild,3,2", "l3,unpartner,3,1", "l4,unpartner,3,1", "l5,correct,7,page,f. 2",
    "l6,correct,5,name,Surrey", "m,merge,1,2", "u,undo,8", "l7,remove,4", "l8,remove,6", "n1,correct,3,name,x",
    "n2,name,1,Nan", "n3,correct,1,name 2,", "n4,remove,1",
)


def drawn(seed: int) -> list[bytes]:
    """Rows of the seeded generator."""
    words = (sys.executable, GENERATOR, f"past {seed}", str(COUNT))
    text = subprocess.run(words, capture_output=True, check=True).stdout.decode()
    rows = []
    for fields in csv.reader(io.StringIO(text, newline="")):
        row = io.StringIO(newline="")
        csv.writer(row, lineterminator="\n").writerow(fields)
        rows.append(row.getvalue().encode())
    return rows


def values(at: Folder) -> dict[int, str]:
    """Of each record the text that a value of before would have: all its lines, the first one too."""
    return {
        no: f"{depth} {tag}" + ("" if named is None else f">{named}") + text
        for no, _, depth, tag, text, named in at.rows_of(PACKS)
    }


def keeps_just(at: Folder, row: bytes) -> None:
    """What a row leaves in the table: what stood there, and then what it overwrites, if it keeps that."""
    before, kept = values(at), at.rows_of(PAST)
    answer = at.apply(row).out
    after = values(at)
    fields = next(csv.reader(io.StringIO(row.decode(), newline="")), [])
    wanted = list(kept)
    if len(fields) > 1 and fields[1] in KEEPING and b",ok," in answer:
        overwritten = [no for no, text in sorted(before.items()) if after.get(no) != text]
        last = kept[-1][0] if kept else 0
        wanted += [(last + n, no, fields[0], before[no]) for n, no in enumerate(overwritten, 1)]
    demand(at.rows_of(PAST) == wanted, f"after {row!r}, {answer!r}: {at.rows_of(PAST)[len(kept):]}")


def each_row_keeps_what_it_overwrites(tools: Tools, rows: list[bytes], least: int) -> None:
    with Folder(tools) as at:
        at.made()
        for row in rows:
            keeps_just(at, row)
        count = len(at.rows_of(PAST))
        demand(count >= least, f"only {count} values of before")


def batches_imports_and_exports_keep_nothing(tools: Tools) -> None:
    with Folder(tools) as at, Folder(tools) as other:
        at.made().apply(lines(MENDED))
        kept = at.rows_of(PAST)
        run(tools.parish, ("entries", at.file, "--source", "6", "--token", "b"), b"BAPTISM,f. 9,1,,,,child,Ann\n")
        exported = run(tools.parish, ("export", at.file)).out
        run(tools.parish, ("import", at.file, "--token", "i"), exported)
        demand(at.rows_of(PAST) == kept, "a batch or an import changed the table")
        other.made()
        run(tools.parish, ("import", other.file, "--token", "i"), exported)
        demand(other.rows_of(PAST) == [], "values of before were exported")


def cases(tools: Tools) -> Iterator[Case]:
    mended = [f"{row}\n".encode() for row in MENDED]
    yield Case("values of before: each verb", lambda: each_row_keeps_what_it_overwrites(tools, mended, 13))
    for seed in SEEDS:
        name = f"values of before: drawn rows, {seed}"
        yield Case(name, lambda seed=seed: each_row_keeps_what_it_overwrites(tools, drawn(seed), 5))
    yield Case(
        "values of before: batches, imports and exports", lambda: batches_imports_and_exports_keep_nothing(tools)
    )
