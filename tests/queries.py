"""The questions of docs/KEEPING.md for `sqlite3`, over samples/views.sql and an archive that has an answer to each.

What is expected is written by hand from the rows below and docs/FORMATS.md. That the views show every line of every
record is compared with tests/packed.py, which reads the same rows.
"""

from __future__ import annotations

import os
import re
import shutil
import sqlite3
import subprocess
from collections.abc import Iterator

from archives import Folder, lines
from harness import ROOT, Case, Tools, demand
from packed import PACKS, each_line

VIEWS = os.path.join(ROOT, "samples", "views.sql")
BLOCK = re.compile(r"^```sql\n(.*?)^```$", re.DOTALL | re.MULTILINE)
QUESTION = re.compile(r"^-- (.*)\n([^;]*;)", re.MULTILINE)

# The page: numbers are drawn in this order, from 1.
ROWS = (
    "t1,place,Kent,",  # 1
    "t2,place,Ashby,1",  # 2
    "t3,repo,Record office",  # 3
    "t4,source,Ashby register,,,3,MS 4",  # 4
    "t5,person,Ann /Lee/,F",  # 5
    "t6,person,Tom /Lee/,M",  # 6
    "t7,event,5,BIRT,,1 MAY 1761,2",  # 7
    "t8,event,6,OCCU,yeoman,at harvest,",  # 8
    "t9,family,6,",  # 9
    "t10,child,9,5",
    'u1,entry,4,BAPTISM,f. 3,2,5 MAY 1761,2,"Ann of Tom\nand of Eva",child,Ann,father,Tom Lee',  # 10
    "u2,entry,4,BAPTISM,f. 3,1,,,Eva,child,Eva,mother,Joan",  # 11
    "u3,link,10,1,5,same farm",
    "u4,person,T. /Leigh/,",  # 12
    "u5,merge,6,12",  # 13, a slip
    "u6,citation,5,4,f. 3,3",  # 14
    "u7,place,Mill Field,2",  # 15
)

ANSWERS = {
    "How many records of each kind are there?": [
        ("citation", 1), ("entry", 2), ("event", 2), ("family", 1), ("person", 2), ("place", 3), ("repo", 1),
        ("source", 1),
    ],
    "Which records were entered last?": [(15, "place"), (14, "citation"), (11, "entry")],
    "Who has the surname Lee?": [(5, "Ann /Lee/"), (6, "Tom /Lee/")],
    "What are the lines of record 5?": [
        (0, "person", None, None), (1, "name", "Ann /Lee/", None), (1, "sex", "F", None),
    ],
    "Which records name record 5?": [(7, "event"), (9, "family"), (10, "entry"), (14, "citation")],
    "Which events has person 5, when and where?": [(7, "BIRT", "", "1 MAY 1761", "Ashby, Kent")],
    "Who is in the families of person 5?": [(9, "partner", "husband", 6), (9, "child", None, 5)],
    "Which entries has source 4, page by page?": [
        (11, "f. 3", 1, "BAPTISM", None), (10, "f. 3", 2, "BAPTISM", "5 MAY 1761"),
    ],
    "Which mentions are not linked to a person yet?": [
        (10, 2, "father", "Tom Lee"), (11, 1, "child", "Eva"), (11, 2, "mother", "Joan"),
    ],
    "Which mentions are linked to person 5, and why?": [(10, "child", "Ann", "same farm")],
    "Which citations has source 4, on which page?": [(14, "f. 3")],
    "Which dates of events are words that stand for no day?": [(8, "at harvest")],
    "Which places does no record name?": [(15, "Mill Field, Ashby, Kent")],
    "What was the request with the token t9 answered?": [(9, 1)],
    "Which merges were not undone?": [(13, 6, 12)],
    "What was record 10 before, and which request changed it?": [
        (1, "u3", "0 entry BAPTISM\n1 key>4 2 f. 3\n1 page f. 3\n1 item 2\n1 date>2 5 MAY 1761\n"
                  "1 text Ann of Tom\rand of Eva\n1 mention Ann\n2 role child\n1 mention Tom Lee\n2 role father\n"),
    ],
    "Which records have a link to record 5?": [(7,), (9,), (10,), (14,)],
}


def text_of(path: str) -> str:
    with open(path, encoding="utf-8") as file:
        return file.read()


def questions() -> dict[str, str]:
    """The questions that KEEPING has, each with its statement."""
    text = text_of(os.path.join(ROOT, "docs", "KEEPING.md"))
    return {found[0]: found[1] for block in BLOCK.findall(text) for found in QUESTION.findall(block)}


def with_views(file: str) -> sqlite3.Connection:
    """A connection that may only read, with the views."""
    conn = sqlite3.connect(f"file:{file}?mode=ro", uri=True)
    conn.executescript(text_of(VIEWS))
    return conn


def questions_are_answered(tools: Tools) -> None:
    asked = questions()
    demand(asked.keys() == ANSWERS.keys(), f"KEEPING asks {asked.keys() ^ ANSWERS.keys()}")
    with Folder(tools) as at:
        answers = at.made().apply(lines(ROWS)).out
        demand(answers.count(b",ok,") == len(ROWS), f"a row was refused: {answers!r}")
        before = at.rows_of(PACKS)
        conn = with_views(at.file)
        for question, query in asked.items():
            got = conn.execute(query).fetchall()
            demand(got == ANSWERS[question], f"{question} {got}")
        conn.close()
        demand(at.rows_of(PACKS) == before, "the views changed the archive")


def each_line_is_shown(tools: Tools) -> None:
    """Records of each kind, an empty text and none, a line break and a space in a text."""
    rows = ('p,place,"Mill ""Field""",', "s,source,Register,,,,", 'a,person,"Ann\n/Lee/ ",F', "e,event,3,BIRT,,1700,1",
            "r,repo,", "c,citation,4,2,,", "b,person,it's Tom,", "m,source,Wills,,,5,1", "f,family,3,7")
    with Folder(tools) as at:
        demand(at.made().apply(lines(rows)).out.count(b",ok,") == len(rows), "a row was refused")
        conn = with_views(at.file)
        got = conn.execute("SELECT no, pos, depth, tag, text, named FROM lines ORDER BY no, pos").fetchall()
        conn.close()
        demand(got == each_line(at.rows_of(PACKS)), f"{got}")


def the_shell_reads_the_views(tools: Tools) -> None:
    """Debian's `sqlite3`, where it is there: by `.read` and read-only, as KEEPING shows it."""
    with Folder(tools) as at:
        demand(at.made().apply(lines(ROWS)).out.count(b",ok,") == len(ROWS), "a row was refused")
        words = (f".read {VIEWS}", "SELECT no, name FROM names WHERE name LIKE '%/Lee/%' ORDER BY no, name;")
        ran = subprocess.run(("sqlite3", "-readonly", at.file), input="\n".join(words), capture_output=True, text=True,
                             check=False)
        demand((ran.returncode, ran.stdout) == (0, "5|Ann /Lee/\n6|Tom /Lee/\n"), f"{ran.stdout} {ran.stderr}")


def cases(tools: Tools) -> Iterator[Case]:
    yield Case("queries: each question of KEEPING has its answer", lambda: questions_are_answered(tools))
    yield Case("queries: the views show each line of each record", lambda: each_line_is_shown(tools))
    if shutil.which("sqlite3"):
        yield Case("queries: sqlite3 reads the views", lambda: the_shell_reads_the_views(tools))
