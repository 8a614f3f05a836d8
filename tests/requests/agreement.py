"""Agreement: 2,000 requests, drawn by a seeded generator, are put to all archives of request_rows.

    python3 tests/requests/agreement.py [--program COMMAND]

They come in calls of 100, behind each of which the archive in files is adopted again and holds what the others hold.
Every verb of rows, batches of entries and imports of files are each accepted at least 20 times, and none is refused for
want of memory or by the storage. At the end the archive in files is exported, and the export, imported into an empty
archive, gives the same records up to numbers. A case is one such call, the end of an archive, its export, and last how
often each verb was accepted.
"""

from __future__ import annotations

import argparse
import csv
import io
import pathlib
import random
import shlex
import subprocess
import sys
from collections import Counter

sys.dont_write_bytecode = True

from generate import KINDS, NAMES, ROLES_OF, Rows  # noqa: E402
from table.making import field, row  # noqa: E402

ROOT = pathlib.Path(__file__).resolve().parents[2]
sys.path.append(str(ROOT / "tests"))

from harness import Failed, demand  # noqa: E402
from renumbering import Records, demand_same  # noqa: E402

PROGRAM = ROOT / "crates/request_rows/out/request_rows"
ARCHIVES = ((13, 2_000),)  # the seed of each archive, and its requests
TOGETHER, LEAST = 100, 20
BATCH, IMPORT = "! batch", "! import"
VERBS = (*KINDS, BATCH, IMPORT)
LIMIT = 300  # seconds
MOST = 6_000  # numbers that are looked at, more than are drawn
NEVER = ("1", "80", "81")  # refusals that there are none of


class Requests(Rows):
    """Rows, batches and imports, most of them accepted."""

    def remove(self):
        """One of the records that nothing names, if some of those that are drawn are."""
        numbers = list(self.names)
        drawn = [self.rng.choice(numbers) for _ in range(200)]
        return [self.of([number for number in drawn if not self.is_named(number)] or drawn)]

    def batch(self):
        """Entries of one source that are not there yet; fields of a row have semicolons between them."""
        source, rows = self.rng.choice(self.sources), []
        for _ in range(self.rng.choice((1, 2, 3, 5))):
            kind, page, item = self.rng.choice(list(ROLES_OF)), "f. 9", self.rng.randrange(1, 1_000_000)
            while (source, kind, page, item) in self.keys.values():
                item = self.rng.randrange(1, 1_000_000)
            made = self.entry_of(source, kind, page, item)[:17]
            self.note("entry", made)
            rows.append(";".join(made[1:]))
        return [BATCH, str(source), *rows]

    def file(self):
        """A family with its children, as a file of lines, each with a name of its own or none."""
        count = self.rng.choice((1, 2, 3, 6))
        lines = ["0 HEAD"]
        for number in range(count):
            lines += [f"0 @I{number}@ INDI", f"1 NAME {self.rng.choice(NAMES[:4])}".rstrip()]
            self.note("person", ["", ""])
        lines += ["0 @F@ FAM", "1 HUSB @I0@", *(f"1 CHIL @I{number}@" for number in range(1, count)), "0 TRLR"]
        first = self.next - count
        self.note("family", [str(first), ""])
        self.members[self.next - 1][1].update(range(first + 1, first + count))
        self.names[self.next - 1].update(range(first + 1, first + count))
        return [IMPORT, "\n".join(lines)]

    def request(self, place):
        """A new request; one of before, under its token or as another's; or one that names nothing."""
        form = self.rng.random()
        if self.given and form < 0.06:
            return self.rng.choice(self.given)
        if self.given and form < 0.09:
            return [self.rng.choice(self.given)[0], "person", "Another /Request/", ""]
        if form < 0.12:
            return [f"t{place}", "name", "4000000000", "Nobody"]
        if self.sources and form < 0.17:
            made = [f"t{place}", *self.batch()]
        elif form < 0.22:
            made = [f"t{place}", *self.file()]
        else:
            made = [f"t{place}", *self.good()]
        if made[1] not in ("child", "partner"):  # it may be refused, and then its token is not kept
            self.given.append(made)
        return made


def requests(seed: int, count: int) -> list[list[str]]:
    """A token, a verb and fields of each request."""
    made = Requests(random.Random(seed), True)
    return [made.request(place) for place in range(count)]


def row_of(calls: list[list[str]]) -> bytes:
    """One call of several requests, each of them a field with bars between its own fields."""
    return (",".join(["! run", *(field("|".join(map(str, one))) for one in calls)]) + "\n").encode()


def judged(asked: list[list[str]], answers: list[list[str]], kept: set[str]) -> tuple[str | None, Counter[str]]:
    """What is wrong with a call, and how often each verb was accepted that was not asked before."""
    tokens = [token for token, *_ in asked]
    if [answer[0] for answer in answers] != tokens:
        return f"{answers[0]} for {asked[0]}", Counter()
    accepted: Counter[str] = Counter()
    for (token, verb, *_), (_, outcome, number, _) in zip(asked, answers, strict=True):
        if outcome != "ok" and number in NEVER:
            return f"{verb} of {token} is refused with {number}", accepted
        if outcome == "ok" and token not in kept:
            kept.add(token)
            accepted[verb] += 1
    return None, accepted


def rows_of(command: list[str], given: bytes) -> list[list[str]]:
    """The fields of each row that is answered."""
    ended = subprocess.run(command, input=given, stdout=subprocess.PIPE, check=True, timeout=LIMIT)
    csv.field_size_limit(len(ended.stdout) + 1)
    return list(csv.reader(io.StringIO(ended.stdout.decode(), newline="")))


SHOW_ALL = b"! next\n" + b"".join(b"! show,%d\n" % number for number in range(1, MOST + 1))


def records_in(shown: list[list[str]]) -> Records:
    """The records of what SHOW_ALL is answered with: the next number, and for each number the rows of its lines, or
    `none`."""
    (word, following), *rows = shown
    found: Records = {}
    number = 0
    for fields in rows:
        number += fields == ["none"] or fields[0] == "0"
        if fields != ["none"]:
            depth, tag, text, named = fields
            lines = found.setdefault(number, (tag, []))[1]
            lines.append((int(depth), tag, text, None if named == "-" else int(named)))
    demand((word, number) == ("next", MOST) and int(following) <= MOST, f"{number} numbers before {following}")
    return found


def comes_back(command: list[str], exported: list[str], here: Records) -> str | None:
    """What is wrong with an export of these records, which is imported into an empty archive."""
    try:
        demand(exported[:1] == ["export"] and len(exported) == 2, f"the export is {exported[:4]}")
        given = f"! store,Lee\n{row('x', IMPORT, exported[1])}! stored\n! export\n".encode()
        made, answer, same, again, *shown = rows_of(command, given + SHOW_ALL)
        demand((made, same) == (["ok"], ["same"]), f"it is answered with {made} and {same}")
        demand(answer == ["x", "ok", "1", str(len(here))], f"of {len(here)} records it is answered with {answer}")
        demand(again[1].count("\n") == exported[1].count("\n"), "a line was dropped")
        demand_same(here, records_in(shown))
    except (Failed, ValueError, subprocess.SubprocessError) as wrong:
        return str(wrong)
    return None


def answered(command: list[str], drawn: list[list[str]]) -> tuple[list[str | None], Counter[str], int]:
    """What is wrong with each call, with the end of an archive and with its export; how often each verb was accepted;
    and how many records the archive had."""
    calls = [drawn[at : at + TOGETHER] for at in range(0, len(drawn), TOGETHER)]
    given = b"! store,Lee\n" + b"".join(map(row_of, calls)) + b"! stored\n! export\n" + SHOW_ALL
    made, *told = rows_of(command, given)
    wrong: list[str | None] = []
    accepted: Counter[str] = Counter()
    kept: set[str] = set()
    for asked in calls:
        answers, told = told[: len(asked)], told[len(asked) :]
        why, found = judged(asked, answers, kept) if answers else ("no answer", Counter())
        accepted += found
        wrong.append(why)
    same, exported, *shown = told
    wrong.append(None if (made, same) == (["ok"], ["same"]) else f"at the end: {same}")
    here = records_in(shown)
    wrong.append(comes_back(command, exported, here))
    return wrong, accepted, len(here)


def run(command: list[str]) -> tuple[int, int]:
    """How many cases passed and failed; prints a line for each that failed, and how many requests agreed."""
    cases, accepted, records = [], Counter(), 0
    for seed, count in ARCHIVES:
        name = f"agreement, archive {seed}"
        try:
            (*calls, end, export), found, there = answered(command, requests(seed, count))
        except (Failed, ValueError, subprocess.SubprocessError) as wrong:
            cases.append((name, repr(wrong)))
            continue
        cases += [(f"{name}, call {number}", why) for number, why in enumerate(calls, 1)]
        cases += [(f"{name}, its end", end), (f"{name}, its export", export)]
        accepted += found
        records += there
    few = {verb: accepted[verb] for verb in VERBS if accepted[verb] < LEAST}
    cases.append(("agreement, accepted verbs", f"too few: {few}" if few else None))
    failed = [(name, why) for name, why in cases if why is not None]
    for name, why in failed:
        print(f"failed: {name}: {why}")
    asked = sum(count for _, count in ARCHIVES)
    print(f"{asked} requests, of which {accepted.total()} were accepted anew, agree; {records} records were exported")
    return len(cases) - len(failed), len(failed)


def main() -> int:
    words = argparse.ArgumentParser(description="The test of agreement.")
    words.add_argument("--program", metavar="COMMAND", default=shlex.quote(str(PROGRAM)))
    passed, failed = run(shlex.split(words.parse_args().program))
    print(f"{passed} passed, {failed} failed")
    return 1 if failed or not passed else 0


if __name__ == "__main__":
    sys.exit(main())
