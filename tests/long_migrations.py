"""An archive of version 1 with many persons, whose conversion is killed at many moments, which `./test` does not run:

    python3 tests/long_migrations.py [--parish COMMAND] [--persons N] [--kills N] [--seed N]

The archive is written only by statements, as version 1 stored records: N persons (20,000) with their events, families,
citations and register entries, dates that were none then, merges, receipts, and an import that was left open. Its
opening is killed (SIGKILL) at `--kills` moments (24) spread over its time, at as many of its calls that change or sync
the file or the log, and just before and after each sync; every fourth time the next opening is killed too. What is
found then has to be all of version 1, of the open import some rows, or all of version 2; and the next opening has to
export, byte for byte, what docs/FORMATS.md says of the records that were written, and to leave the tables that
it says. The last line is `N passed, M failed`.
"""

from __future__ import annotations

import argparse
import os
import random
import sys
import tempfile
import time
from collections import Counter

sys.dont_write_bytecode = True

from earlier import LONG, READ, STAY, Earlier, anew, closed, is_anew, is_made_anew  # noqa: E402
from failing import compiled, killed, noted_calls, noting  # noqa: E402
from harness import Failed, Tools, demand, difference, run, written  # noqa: E402
from imports import killed_after  # noqa: E402
from run import command, executable  # noqa: E402
from shown.gedcom import exported  # noqa: E402
from shown.records import (  # noqa: E402
    Citation, Entry, Event, Family, Mention, Other, Person, Place, Repo, Source, When,
)
from undisturbed import bytes_of  # noqa: E402

SOCIETY = "Ashby Family History Society"
PLACES, SOURCES = 50, 10
# Dates as version 1 kept them, of which some were none by its grammar.
DATES = (*READ, *(text for text in STAY if text and "@#dfrench" not in text.lower() and not text.startswith("(")))
AGAIN = 4  # of so many kills one is followed by a kill of the next opening


def carried(more) -> list:
    """Texts of lines that no field takes, below a record or a part of it."""
    below = [line for text in more for line in ((2, "_MORE", text, None), (3, "NOTE", text, None))]
    return [(1, "carried", None, None), *below] if more else []


def dated(when: When | None, place: int | None) -> list:
    return [] if when is None and place is None else [(1, "date", when.text if when else None, place)]


def kept(record) -> list:
    """The lines that a record is kept as (docs/FORMATS.md, "Texts, names and stored lines of the archive")."""
    match record:
        case Place():
            lines = [(0, "place", record.name, record.parent)]
        case Repo():
            lines = [(0, "repo", record.name, None)]
        case Source():
            lines = [(0, "source", record.title, None), (1, "author", record.author, None),
                     (1, "publisher", record.publisher, None), (1, "holding", record.call, record.repo)]
        case Person():
            lines = [(0, "person", None, None), *((1, "name", name, None) for name in record.names),
                     (1, "sex", record.sex, None)]
        case Family():
            lines = [(0, "family", None, None), *((1, "partner", *partner) for partner in record.partners),
                     *((1, "child", None, child) for child in record.children)]
        case Event():
            lines = [(0, "event", None, record.owner), (1, record.tag, record.value, None),
                     *dated(record.when, record.place),
                     *((1, "participant", role, person) for person, role in record.participants)]
        case Citation():
            lines = [(0, "citation", None, record.owner), (1, "source", record.page, record.source),
                     (1, "quality", record.quality, None)]
        case Entry():
            return entry_lines(record)
        case Other():
            return [(0, "other", None, None), (1, record.tag, record.value, None)]
    return [*lines, *carried(record.more)]


def entry_lines(one: Entry) -> list:
    lines = [(0, "entry", one.kind, None), (1, "key", f"{one.item} {one.page}", one.source),
             (1, "page", one.page, None), (1, "item", str(one.item), None), *dated(one.when, one.place),
             (1, "text", one.text, None)]
    for mention in one.mentions:
        lines += [(1, "mention", mention.name, mention.person), (2, "role", mention.role, None)]
        lines += [(2, "reason", mention.reason, None)] if mention.person is not None else []
    return lines


class Drawing:
    """An archive with so many persons, drawn."""

    def __init__(self, persons: int, rng: random.Random):
        self.rng, self.records, self.deaths, self.next = rng, {}, {}, 1
        self.add(Place("Kent"))
        for n in range(2, PLACES + 1):
            self.add(Place(f"Ashby {n}", 1, ("a farm",) if n % 7 == 0 else ()))
        self.repo = self.add(Repo("County Record Office"))
        self.sources = [self.add(Source(f"Register {n}", "Clerk", "County", self.repo, f"PR {n}"))
                        for n in range(SOURCES)]
        self.persons = [self.add(Person(self.names(n), rng.choice("MFU"))) for n in range(persons)]
        for n, person in enumerate(self.persons):
            self.life(n, person)
        for n in range(2, persons // 3):
            self.family(n)
        self.add(Other("NOTE", "Copied from the register"))
        self.slips = tuple(self.slip(person) for person in self.persons[:: max(1, persons // 100)])

    def add(self, record) -> int:
        self.records[self.next] = record
        self.next += 1
        return self.next - 1

    def names(self, n: int) -> tuple[str, ...]:
        return tuple(f"{word} /Lee {n}/" for word in ("Ann", "Anne")[: self.rng.choice((1, 1, 2))])

    def event(self, owner: int, tag: str, more: tuple[str, ...] = ()) -> int:
        when, place = When(self.rng.choice(DATES), None), self.rng.choice((None, self.rng.randrange(1, PLACES + 1)))
        return self.add(Event(owner, tag, "", when, place, (), more))

    def life(self, n: int, person: int) -> None:
        birth = self.event(person, "BIRT", ("a note",) if n % 5 == 0 else ())
        self.add(Citation(birth, self.rng.choice(self.sources), f"f. {n % 300}", self.rng.choice("0123")))
        self.deaths[person] = self.event(person, "DEAT")
        if n % 4 == 0:
            mentions = (Mention(f"Ann {n}", "child", person, "same farm"), Mention("Tom Lee", "father"))
            when = When(self.rng.choice(DATES), None)
            self.add(Entry(self.sources[n % SOURCES], "BAPTISM", f"f. {n}", 1, when, None, "Ann of Tom", mentions))

    def family(self, n: int) -> None:
        partners = (("husband", self.persons[2 * n]), ("wife", self.persons[2 * n + 1]))
        self.event(self.add(Family(partners, tuple(self.persons[3 * n : 3 * n + 3][:2]))), "MARR")

    def slip(self, person: int) -> tuple:
        """The slip of a merge of a person who is gone into this one, of which an event was."""
        gone, number, event = self.next, self.next + 1, self.deaths[person]
        self.next += 2
        now, other = kept(self.records[event]), kept(self.records[event]._replace(owner=gone))
        both = kept(self.records[person])
        one = [line for line in both if line[2] != self.records[person].names[-1]]
        absorbed = kept(Person(self.records[person].names[-1:], self.records[person].sex))
        return number, person, gone, ((person, one, both), (gone, absorbed, []), (event, other, now))

    def today(self) -> dict:
        """The records with their dates as they are written today."""
        return {number: today(one) for number, one in self.records.items()}


def today(record):
    if isinstance(record, (Event, Entry)) and record.when:
        return record._replace(when=When(READ.get(record.when.text, (record.when.text,))[0], None))
    return record


class Whole:
    """The archive of version 1, what it has to become, and how long and by which calls an opening converts it."""

    def __init__(self, tools: Tools, folder: str, persons: int, rng: random.Random):
        self.tools, self.library = tools, compiled(folder)
        drawn = Drawing(persons, rng)
        self.export = exported(drawn.today(), SOCIETY)
        self.count = len(drawn.records)
        receipts = [(f"t{n}", f"person,Ann /Lee {n}/,", n, 1) for n in range(1, 1_001)]
        begun = {n: [(0, "place", "Ross", None)] for n in range(10_000_000, 10_000_000 + persons // 4)}
        records = {number: kept(one) for number, one in drawn.records.items()}
        with Earlier(tools) as at:
            at.made_of(records, drawn.next, receipts, drawn.slips, begun)
            self.image, self.before = bytes_of(at.file), at.first_tables()
            self.after = anew(self.before)
            begun_at = time.perf_counter()
            self.demand_converted(at)
            self.seconds = time.perf_counter() - begun_at
        with self.copy() as at:
            self.calls = self.calls_of(at)

    def copy(self) -> Copied:
        return Copied(self.tools, self.image)

    def calls_of(self, at: Earlier) -> list[str]:
        """The calls of an opening that change or sync the file or the log: `w`, `t` or `s` each."""
        notes, real = os.path.join(at.path, "notes"), os.path.realpath(at.file)
        got = run(at.parish, ("apply", at.file), env=noting(self.library, notes, real), limit=LONG)
        demand(got == written(b""), f"{got}")
        return [words[0] for path, words, _ in noted_calls(notes) if path != "out"]

    def demand_converted(self, at: Earlier) -> None:
        """An opening exports the records, and leaves the tables of version 2 with them."""
        got = at.export()
        demand((got.status, got.err) == (0, b""), f"status {got.status}, {got.err!r}")
        demand(got.out == self.export, f"the export differs: {difference(self.export, got.out)}")
        is_made_anew(at, self.before)


class Copied(Earlier):
    """A copy of the archive in a folder of its own."""

    def __init__(self, tools: Tools, image: bytes):
        super().__init__(tools)
        self.image = image

    def __enter__(self):
        super().__enter__()
        with open(self.file, "wb") as file:
            file.write(self.image)
        return self


def state_of(at: Earlier, whole: Whole) -> str:
    """What a kill has left, which is whole or as it was."""
    if is_anew(at, whole.before, whole.after):
        return "of version 2, whole"
    if at.rows_of("SELECT * FROM record") == whole.before["record"]:
        return "of version 1, whole"
    demand(bool(closed(whole.before)["record"]), "no record is left")
    return "of version 1, without a part of the open import"


def moments(whole: Whole, kills: int):
    """Each kill: its name, and what it does to an archive."""
    for n in range(kills):
        seconds = (n + 0.5) / kills * whole.seconds
        yield f"after {seconds:.2f} s", lambda at, s=seconds: killed_after([*at.parish, "audit", at.file], b"", s)
    count = len(whole.calls)
    spread = {1 + (count - 1) * n // max(1, kills - 1) for n in range(kills)}
    syncs = [n for n, what in enumerate(whole.calls, 1) if what == "s"]
    for n in sorted(spread | {at for sync in (*syncs[:2], *syncs[-6:]) for at in (sync - 1, sync, sync + 1)}):
        if 0 < n <= count:
            yield f"after call {n} of {count}", lambda at, n=n: killed_at(at, whole.library, n)


def killed_at(at: Earlier, library: str, after: int) -> None:
    got = run(at.parish, ("apply", at.file), env=killed(library, after, os.path.realpath(at.file)), limit=LONG)
    demand(got.status == -9, f"it was not killed: {got}")


def tried(tools: Tools, folder: str, persons: int, kills: int, rng: random.Random) -> None:
    whole = Whole(tools, folder, persons, rng)
    print(f"{whole.count} records, {len(whole.before['line'])} lines, {len(whole.image)} bytes, {len(whole.calls)} "
          f"calls, {whole.seconds:.1f} s", flush=True)
    found: Counter = Counter()
    for number, (name, kill) in enumerate(moments(whole, kills)):
        try:
            with whole.copy() as at:
                kill(at)
                found[state_of(at, whole)] += 1
                found["with rows in the log"] += bool(bytes_of(at.file + "-wal"))
                if number % AGAIN == 0:
                    killed_after([*at.parish, "audit", at.file], b"", rng.random() * whole.seconds)
                    found["killed again: " + state_of(at, whole)] += 1
                whole.demand_converted(at)
        except Failed as failed:
            raise Failed(f"killed {name}: {failed}") from None
        found["kills"] += 1
    print(*(f"{count} {what}" for what, count in sorted(found.items())), sep="\n")


def main() -> int:
    words = argparse.ArgumentParser(usage=__doc__.strip())
    words.add_argument("--parish", metavar="COMMAND")
    words.add_argument("--persons", type=int, default=20_000)
    words.add_argument("--kills", type=int, default=24)
    words.add_argument("--seed", type=int, default=1)
    given = words.parse_args()
    tools = Tools(command(given.parish) if given.parish else (executable("parish"),), None)
    try:
        with tempfile.TemporaryDirectory() as folder:
            tried(tools, folder, given.persons, given.kills, random.Random(given.seed))
    except Failed as failed:
        print(f"{failed}\n0 passed, 1 failed")
        return 1
    print("1 passed, 0 failed")
    return 0


if __name__ == "__main__":
    sys.exit(main())
