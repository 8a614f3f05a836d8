"""Times pages of the reading room that show much: python3 bench/pages.py [--parish COMMAND] [VISITS [ENTRIES]].

Pedigrees of 6 and of 12 generations, which have 63 and 4,095 numbers: of 23 persons, where each generation is one
couple, so that each of them stands at many numbers, and of 4,095 persons, each of whom stands at one. Registers of a
tenth of ENTRIES (100,000) and of all. Each archive is imported, opened by `serve`, and asked for the page VISITS times
(200; for registers a tenth of that), one after the other. In the same run SQLite, in the memory of this script and
without a connection, is asked for the same lines: a pedigree by one recursive query, a register by one join. Both texts
have to be the same. Told are milliseconds a visit: the mean, the middle one and the longest.
"""

from __future__ import annotations

import argparse
import os
import shlex
import sqlite3
import subprocess
import tempfile
import time

from norm import FIRST, LAST, PARISH, written
from rooms import asked, room, told

TABLES = """
create table person (number integer primary key, name text);
create table family (number integer primary key, husband integer, wife integer);
create table child (person integer primary key, family integer);
create table entry (number integer primary key, item integer, page text, date text);
create table mention (entry integer, place integer, role text, name text, primary key (entry, place)) without rowid;
"""
PEDIGREE = """
with recursive stands (number, person) as (
  select 1, 1
  union all select 2 * stands.number, husband from stands join child using (person)
    join family on family.number = family where stands.number < :half
  union all select 2 * stands.number + 1, wife from stands join child using (person)
    join family on family.number = family where stands.number < :half)
select stands.number, name from stands join person on person.number = person order by stands.number
"""
REGISTER = """
select entry.number, item, page, date, role, name from entry join mention on entry = entry.number
order by entry.number, place
"""


def name_of(number):
    return FIRST[number % len(FIRST)], LAST[number // 7 % len(LAST)]


def one_couple(generations):
    """Families of one couple a generation, with both of the next as children: number, couple, children."""
    yield 1, (2, 3), (1,)
    for number in range(2, generations):
        yield number, (2 * number, 2 * number + 1), (2 * number - 2, 2 * number - 1)


def all_apart(generations):
    """The same where nobody stands at two numbers."""
    for number in range(1, 2 ** (generations - 1)):
        yield number, (2 * number, 2 * number + 1), (number,)


def family_lines(families):
    """The lines of persons 1 to the last, and of their families."""
    for number in range(1, max(couple[1] for _, couple, _ in families) + 1):
        yield "0 @I{0}@ INDI\n1 NAME {1} /{2}/\n1 SEX U\n1 DEAT\n".format(number, *name_of(number)).encode()
    for number, (husband, wife), children in families:
        told = "".join(f"1 CHIL @I{child}@\n" for child in children)
        yield f"0 @F{number}@ FAM\n1 HUSB @I{husband}@\n1 WIFE @I{wife}@\n{told}".encode()


def family_tables(families):
    tables = new_tables()
    for number, couple, children in families:
        tables.execute("insert into family values (?, ?, ?)", (number, *couple))
        tables.executemany("insert into child values (?, ?)", ((child, number) for child in children))
    last = max(couple[1] for _, couple, _ in families)
    tables.executemany("insert into person values (?, ?)", ((it, " ".join(name_of(it))) for it in range(1, last + 1)))
    return tables


def entry_of(number):
    """Item, page, date, and roles with names."""
    first, last = name_of(number)
    mentions = (("child", f"{first} /{last}/"), ("father", f"{FIRST[number % 5]} /{last}/"))
    return number % 12 + 1, f"f. {number // 12}", f"{number % 28 + 1} JAN 1750", mentions


def entry_lines(count):
    """The lines of a register, and of its entries."""
    yield b"0 @S1@ SOUR\n1 TITL Ashby\n"
    for number in range(count):
        item, page, date, mentions = entry_of(number)
        told = "".join(f"1 _MENT {name}\n2 _ROLE {role}\n" for role, name in mentions)
        yield (f"0 @E{number}@ _REG BAPTISM\n1 SOUR @S1@\n1 PAGE {page}\n1 _ITEM {item}\n1 DATE {date}\n"
               f"1 TEXT {mentions[0][1]}\n{told}").encode()


def entry_tables(count):
    tables = new_tables()
    for number in range(count):
        item, page, date, mentions = entry_of(number)
        tables.execute("insert into entry values (?, ?, ?, ?)", (number, item, page, date))
        rows = ((number, place, *told) for place, told in enumerate(mentions))
        tables.executemany("insert into mention values (?, ?, ?, ?)", rows)
    return tables


def new_tables():
    tables = sqlite3.connect(":memory:")
    tables.executescript(TABLES)
    return tables


def pedigree(tables, generations):
    rows = tables.execute(PEDIGREE, {"half": 2 ** (generations - 1)})
    return "".join([f"{number:4}  {name}\n" for number, name in rows])


def register(tables):
    lines, last = ["Register 1: Ashby\n"], None
    for number, item, page, date, role, name in tables.execute(REGISTER):
        if number != last:
            lines.append(f"{item:6}  {page}  BAPTISM  {date}\n")
            last = number
        lines.append(f"        {role}: {name}\n")
    return "".join(lines)


def timed(call, count):
    """Milliseconds of each call."""
    took = []
    for _ in range(count):
        begun = time.perf_counter()
        call()
        took.append((time.perf_counter() - begun) * 1e3)
    return took


def compared(name, port, target, theirs, count):
    """The two rows of a page, which has to be the text that SQLite gives."""
    page = asked(port, target).partition(b"\r\n\r\n")[2].decode()
    if page != theirs():
        raise SystemExit(f"{target}: not the same lines")
    told(f"{name}: `{target}`", timed(lambda: asked(port, target), count), len(page))
    told("SQLite", timed(theirs, count), len(page))


def opened(command, folder, name, lines, count):
    """The room of an archive that is imported from lines."""
    text, file = os.path.join(folder, f"{name}.ged"), os.path.join(folder, f"{name}.db")
    written(text, lines)
    subprocess.run([*command, "init", file, "--society", "Ashby Society"], check=True)
    with open(text, "rb") as given:
        words = [*command, "import", file, "--token", "bench"]
        subprocess.run(words, stdin=given, stdout=subprocess.DEVNULL, check=True)
    return room(command, file, count)


def main():
    words = argparse.ArgumentParser(usage=__doc__)
    words.add_argument("--parish", default=PARISH)
    for name, most in (("visits", 200), ("entries", 100_000)):
        words.add_argument(name, nargs="?", type=int, default=most)
    given = words.parse_args()
    command, few = shlex.split(given.parish), max(given.visits // 10, 3)
    print("| page | bytes | mean | middle | longest |\n|---|---|---|---|---|")
    with tempfile.TemporaryDirectory() as folder:
        for name, families in (("23 persons", [*one_couple(12)]), ("4,095 persons", [*all_apart(12)])):
            tables = family_tables(families)
            with opened(command, folder, name, family_lines(families), 2 * given.visits + 2) as (_, port, _):
                for generations in (6, 12):
                    target = f"/pedigree/1?generations={generations}"
                    compared(name, port, target, lambda: pedigree(tables, generations), given.visits)
        for entries in (given.entries // 10, given.entries):
            tables, name = entry_tables(entries), f"{entries:,} entries"
            with opened(command, folder, name, entry_lines(entries), few + 1) as (_, port, _):
                compared(name, port, "/register/1", lambda: register(tables), few)


if __name__ == "__main__":
    main()
