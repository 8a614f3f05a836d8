"""Stops: an archive is made, and requests performed, in files of which one fails from some call on.

    python3 tests/requests/stops.py [--program COMMAND] [--only WORD]

For each file, and with the power going off at the end or not, the number of calls that go well rises from 0 until
nothing is stopped any more. A case is one such number: what was answered, what is found when the files are opened
again, and what is answered and found then when the same is asked once more. One line a case that fails, then how many
stops there were and what was found behind them, and last `N passed, M failed`; status 0 only if none failed and one
passed. COMMAND as in run.py.
"""

from __future__ import annotations

import argparse
import os
import pathlib
import shlex
import subprocess
import sys
from collections import Counter
from concurrent.futures import ThreadPoolExecutor
from dataclasses import dataclass, replace
from typing import Callable

sys.dont_write_bytecode = True

ROOT = pathlib.Path(__file__).resolve().parents[2]
sys.path.append(str(ROOT / "tests"))

from table import making  # noqa: E402
from table.stored import STORED  # noqa: E402

PROGRAM = ROOT / "crates/request_rows/out/request_rows"
TOGETHER = 16  # numbers of calls that one run of the program tries
BEHIND = 3  # numbers that are tried behind the first with which nothing is stopped
MOST = 20_000  # calls after which a test gives up
LIMIT = 300  # seconds for one run of the program
SHOWN = 200  # characters of what is wrong
REOPEN = "81"
FAILED = "80"


@dataclass(frozen=True)
class Stopped:
    """What a row of stops tells: what became of the first try, how many requests were found done then, and the same of
    the next."""

    first: list[str]
    found: str
    again: list[str]
    last: str

    @property
    def is_begun(self) -> bool:
        return len(self.first) > 2

    @property
    def is_done(self) -> bool:
        return self.first[0] == "ok"

    @property
    def is_whole(self) -> bool:
        return all(one == "ok" for one in self.first)


def stopped(answer: str, requests: int) -> Stopped:
    word, *told, last = answer.split(",")
    if word != "stop" or len(told) < requests + 2:
        raise ValueError(answer)
    first, again = told[: -requests - 1], told[-requests:]
    return Stopped(first, told[-requests - 1], again, last)


def is_answered(first: list[str], outcomes: int) -> bool:
    """So many outcomes, the state and the society: after an 80 each call answers 81."""
    if first in (["unopened"], ["unadopted", FAILED]):
        return True
    if len(first) != outcomes + 2:
        return False
    ended = first.index(FAILED) if FAILED in first else outcomes + 2
    return all(one == "ok" for one in first[:ended]) and all(one == REOPEN for one in first[ended + 1 :])


def is_performed(one: Stopped, requests: int) -> bool:
    """Requests that were answered are found done, and of the others at most the one that failed; none where they were
    not begun; and all are done when they are sent again. One alone was sent twice at first."""
    outcomes = one.first[: max(requests, 2)] if one.is_begun else []
    answered = outcomes.index(FAILED) if FAILED in outcomes else len(outcomes)
    found = {min(answered, requests)}
    if FAILED in outcomes and answered < requests:
        found.add(answered + 1)
    words = {0: "before", requests: "after"}
    is_last = one.again == ["ok"] * requests and one.last == "after"
    is_found = one.found in {words.get(count, str(count)) for count in found}
    return is_answered(one.first, max(requests, 2)) and is_found and is_last


def in_steps(count: int, is_published: bool) -> Callable[[Stopped, int], bool]:
    """So many steps of an import, of which the last publishes it, or gives it up: nothing of it is found, unless that
    step was answered with 80 or as done; and it is done when it is asked once more."""

    def is_right(one: Stopped, requests: int) -> bool:
        last = one.first[count - 1] if one.is_begun and is_published else "none"
        found = {"ok": {"after"}, FAILED: {"before", "after"}}.get(last, {"before"})
        is_done = (one.again, one.last) == (["ok"] * requests, "after")
        return is_answered(one.first, count) and one.found in found and is_done

    return is_right


def is_made(one: Stopped, requests: int) -> bool:
    """An archive that was made is found; else it is, or nothing is; and it is made again where nothing is."""
    wanted = {"ok": {"new"}, FAILED: {"new", "empty"}, "unopened": {"empty"}}
    again = "ok" if one.found == "empty" else "82"
    return (
        len(one.first) == requests
        and one.found in wanted.get(one.first[0], set())
        and (one.again, one.last) == ([again], "new")
    )


@dataclass(frozen=True)
class Trial:
    """Rows that come first, and a row that is stopped: in `file` after `calls` calls, so many requests."""

    name: str
    before: bytes
    row: str
    file: str
    requests: int = 1
    is_right: Callable[[Stopped, int], bool] = is_performed
    undone: str = "before"  # what is found where nothing was done
    is_reached: bool = True  # whether the call itself uses the file, and not its opening and its closing alone
    last: tuple[str, ...] = ()  # what the last of the rows that come first may be answered with; nothing: anything


FILES = ("log", "db", "log off", "db off")
LONG = 200_000  # bytes that 50 pages of a cache can't hold
REGISTER = [
    making.source(5, "r1", "Ashby register"),
    making.makes(6, "b1", *making.entry(5, mentions=("child", "John", "father", "Tom Lee"))),
]
REQUESTS = b"".join(given for given, _ in (*STORED, *REGISTER))
PERFORMED = {
    "an event": 'event,3,MARR,"at home, ""late""",ABT 1750,',
    "an amendment": "amend,4,Köln,1800,",
    "a removal": "remove,4",
    "an entry": 'entry,5,BURIAL,f. 3,1,1 MAY 1800,,"Ann, widow of Tom",buried,Ann Lee,spouse,Tom Lee',
    "a link": 'link,6,2,1,"same farm, same age"',
    "a long name": "name,2," + "x" * 2 * LONG,
    "a person": "person,Eva /Lee/,F",
    "three entries": "! batch,5,BAPTISM;f. 4;1;15 APR 1699/00;;John;child;John;father;Tom Lee,"
    "BURIAL;f. 4;1;;;Ann;buried;Ann Lee,MARRIAGE;f. 4;1;;;Tom and Ann;groom;Tom;bride;Ann",
}

# Persons 1 and 2, of whom the second is a partner of family 3, has event 4 and is linked to the mention of entry 6.
ALIKE = """! store,Lee
a1,person,John /Smith/,M
a2,person,Jon /Smith/,
a3,family,2,
a4,event,2,BURI,,1 MAY 1800,
a5,source,Ashby,,,,
a6,entry,5,BURIAL,f. 2,1,,,John,buried,John Smith
a7,link,6,1,2,same day
"""
MERGED = ALIKE + "m,merge,1,2\n"
MERGES = {"a merge": (ALIKE, "merge,1,2"), "its undoing": (MERGED, "undo,7")}
PERSONS = "\n".join(["0 HEAD", *(f"0 @I{n}@ INDI\n1 NAME Person /{n}/" for n in range(600)), "0 TRLR"])
FIVE = "e1|person|Eva /Lee/|F,e2|family|7|1,e3|event|8|MARR||1820|,e4|participant|9|2|witness,e5|name|7|Eva"


def performs(name: str, before: bytes, request: str, file: str) -> Trial:
    row = "! stop,{file},{calls},s1," + request + "\n"
    is_reached = file in ("log", "log off") or len(request) > LONG
    return Trial(f"{name}, {file}", before, row, file, is_reached=is_reached)


def runs(file: str) -> Trial:
    row = "! stop run,{file},{calls}," + FIVE + "\n"
    return Trial(f"five requests, {file}", ALIKE.encode(), row, file, 5, is_reached=file in ("log", "log off"))


def makes(file: str) -> Trial:
    row = "! stop create,{file},{calls},Kirchspiel Lee\n"
    is_reached = file in ("log", "log off")
    return Trial(f"a new archive, {file}", b"", row, file, 1, is_made, "empty", is_reached)


IMPORT = f"s1|! import|{PERSONS}"
STEPS = {
    "600 persons by steps": (["begin", *["stage"] * 5, "publish"], True),
    "an import that is given up": (["begin", "stage", "stage", "abandon"], False),
    "an import that is given up late": (["begin", *["stage"] * 4, "abandon"], False),
}
GOOD = 1_000_000  # calls, more than are made
TAKEN = range(0, 300, 4)  # calls after which a taking up may be stopped
STOPPED = 4  # of these numbers so many are tried
LEFT_AGAIN = "left and stopped after"
LEFT = ALIKE + making.row("! steps", "log", GOOD, "|".join(["begin", *["stage"] * 4]), "", IMPORT)


def walks(name: str, names: list[str], is_published: bool, file: str) -> Trial:
    row = making.row("! stop steps", "{file}", "{calls}", "|".join(names), IMPORT)
    right = in_steps(len(names), is_published)
    is_reached = file in ("log", "log off")
    return Trial(f"{name}, {file}", ALIKE.encode(), row, file, 1, right, is_reached=is_reached)


def adopts(file: str) -> Trial:
    """An archive with an import that was left, which is taken up for a request."""
    return performs("an import that was left", LEFT.encode(), PERFORMED["a person"], file)


def adopts_again(calls: int, file: str) -> Trial:
    """The same after it was taken up once, and that was stopped after so many calls."""
    rows = LEFT + making.row("! steps", file, calls, "", "")
    trial = performs(f"{LEFT_AGAIN} {calls}", rows.encode(), PERFORMED["a person"], file)
    return replace(trial, last=("steps,unadopted,80", "steps,unopened"))


def stopped_adoptions(command: list[str], file: str) -> list[int]:
    """Numbers of calls with which the taking up itself is stopped; of a file that it does not use, the opening."""
    told = [stopped(answer, 1).first for answer in answers(command, adopts(file), TAKEN)]
    calls = [count for count, first in zip(TAKEN, told, strict=True) if first == ["unadopted", FAILED]]
    calls = calls or [count for count, first in zip(TAKEN, told, strict=True) if first == ["unopened"]]
    if len(calls) < STOPPED:
        raise ValueError(f"a taking up is stopped after {calls} calls alone")
    return [calls[(len(calls) - 1) * at // (STOPPED - 1)] for at in range(STOPPED)]


TRIALS = (
    *(walks(name, *steps, file) for file in FILES for name, steps in STEPS.items()),
    *(adopts(file) for file in FILES),
    *(performs("600 persons", ALIKE.encode(), f'! import,"{PERSONS}"', file) for file in FILES),
    *(performs(name, REQUESTS, request, file) for file in FILES for name, request in PERFORMED.items()),
    *(performs(name, rows.encode(), row, file) for file in FILES for name, (rows, row) in MERGES.items()),
    *(runs(file) for file in FILES),
    *(makes(file) for file in FILES),
)


def answers(command: list[str], trial: Trial, calls: range) -> list[str]:
    """What the program answers where so many calls go well; the last lines, of what comes first as many as it has."""
    rows = "".join(trial.row.format(file=trial.file, calls=count) for count in calls)
    given = trial.before + rows.encode()
    ended = subprocess.run(command, input=given, stdout=subprocess.PIPE, check=True, timeout=LIMIT)
    told = ended.stdout.decode().splitlines()
    if trial.last and told[-len(calls) - 1] not in trial.last:
        raise ValueError(f"before it: {told[-len(calls) - 1]}")
    return told[-len(calls) :]


def tried(command: list[str], trial: Trial) -> tuple[list[tuple[str, str | None]], Counter[str]]:
    """Each number of calls as a case, with what is wrong with it; and what is wrong with them all. Behind them how many
    were found how, of those that were stopped."""
    seen: list[Stopped] = []
    cases: list[tuple[str, str | None]] = []
    while len(seen) < MOST and not (len(seen) > BEHIND and all(s.is_whole for s in seen[-BEHIND:])):
        calls = range(len(seen), len(seen) + TOGETHER)
        for count, answer in zip(calls, answers(command, trial, calls), strict=True):
            one = stopped(answer, trial.requests)
            is_right = trial.is_right(one, trial.requests) and (one.is_done or not any(s.is_done for s in seen))
            cases.append((f"{trial.name}, {count}", None if is_right else answer))
            seen.append(one)
    undone = [s for s in seen if FAILED in s.first and s.found == trial.undone]
    found = Counter(s.found for s in seen if not s.is_whole)
    is_right = seen[-1].is_whole and found.total() > 0 and (len(undone) > 0 or not trial.is_reached)
    told = None if is_right else f"{found.total()} stops, {len(undone)} failed and were undone; last {seen[-1]}"
    return [*cases, (f"{trial.name}, all", told)], found


def judged(command: list[str], trial: Trial) -> tuple[list[tuple[str, str | None]], Counter[str]]:
    try:
        return tried(command, trial)
    except (ValueError, IndexError, OSError, subprocess.SubprocessError) as error:
        return [(trial.name, repr(error))], Counter()


def again(command: list[str], only: str) -> list[Trial]:
    """The trials of a second taking up, if the word may be in their names."""
    if only not in LEFT_AGAIN and LEFT_AGAIN not in only:
        return []
    stopped = {file: stopped_adoptions(command, file) for file in ("log", "db")}
    return [adopts_again(calls, file) for file in FILES for calls in stopped[file.removesuffix(" off")]]


def run(command: list[str], only: str) -> tuple[int, int]:
    """How many cases passed and failed of the trials whose names have a word; prints a line for each that failed, and
    how many stops there were and how many requests were found done behind them."""
    trials = [trial for trial in (*TRIALS, *again(command, only)) if only in trial.name]
    with ThreadPoolExecutor(max_workers=os.cpu_count()) as pool:
        results = list(pool.map(lambda trial: judged(command, trial), trials))
    cases = [case for result, _ in results for case in result]
    failed = [(name, why) for name, why in cases if why is not None]
    for name, why in failed:
        print(f"failed: {name}: {why[:SHOWN]}")
    found = sum((counts for _, counts in results), Counter())
    if trials:
        print(f"{found.total()} stops in {len(trials)} requests; found done: {dict(sorted(found.items()))}")
    return len(cases) - len(failed), len(failed)


def main() -> int:
    words = argparse.ArgumentParser(description="The tests of stops.")
    words.add_argument("--program", metavar="COMMAND", default=shlex.quote(str(PROGRAM)))
    words.add_argument("--only", metavar="WORD", default="")
    told = words.parse_args()
    passed, failed = run(shlex.split(told.program), told.only)
    print(f"{passed} passed, {failed} failed")
    return 1 if failed or not passed else 0


if __name__ == "__main__":
    sys.exit(main())
