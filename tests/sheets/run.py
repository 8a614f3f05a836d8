"""Runs state_rows on sheets and pages of HTML by hand and on those of drawn archives, and on requests to a reading
room, by hand and drawn: python3 tests/sheets/run.py [ARCHIVES [PROGRAM]].

One line a failed case, and last `N passed, M failed`; status 0 only if none failed and one passed.
"""

from __future__ import annotations

import pathlib
import sys
from collections import Counter

sys.dont_write_bytecode = True
HERE = pathlib.Path(__file__).resolve().parent
sys.path.insert(0, str(HERE.parent / "archive"))
sys.path.append(str(HERE.parent))

import drawn  # noqa: E402
import hands  # noqa: E402
import html_visits  # noqa: E402
from asking import answers, differences, given_to  # noqa: E402
from by_requests import MARRIAGES, SHOWN, VISITS, Visits, not_shown  # noqa: E402
from heads import Heads  # noqa: E402
from html_hands import BY_HAND, LETTERS, LONG, OF_LEES, OF_LETTERS, OF_NO_SURNAME, PAGES_OF_LONG  # noqa: E402
from html_rules import Pages  # noqa: E402
from memory import REFUSED, fault  # noqa: E402
from plain import Family, Person, Source, lines  # noqa: E402
from rows import Ask, Case, given, row  # noqa: E402
from room import Room  # noqa: E402
from rules import Sheets  # noqa: E402
from visits import answer  # noqa: E402
from wanting import Wrong, wanted_in  # noqa: E402

PROGRAM = HERE.parents[1] / "crates/state_rows/out/state_rows"
TODAY = 19_723  # 2024-01-01
HEADS = 20  # of each of 25 archives
SURNAMES = ("Lee", "LEE", "strasse", "", "Ray", "nobody")
SEARCHED = ("", "a", "lee", "tom le", "STRASSE", "marks with", "x", "?")


def stored(records: dict) -> tuple[Ask, ...]:
    """The rows that make an archive of these records."""
    rows = [Ask("new", "")]
    for number, record in records.items():
        rows += [*given(lines(record)), Ask(row("put", number), "")]
    return (*rows, Ask(row("next", max(records) + 1), ""))


def cases_by_hand():
    for scene in hands.SCENES:
        asks = [Ask(row("sheet", TODAY, *words), wanted) for words, wanted in scene.sheets]
        yield Case(f"by hand: {scene.name}", (*stored(scene.records), *asks))


def html(pages: Pages, kind: str, of, page: int) -> Ask:
    """A page of HTML."""
    return Ask(row("html", TODAY, kind, of, page), pages.page(kind, of, page))


def pages_by_hand():
    asks = [Ask(row("html", TODAY, *words), wanted) for words, wanted in BY_HAND]
    yield Case("pages of HTML by hand", (*stored(OF_LEES), *asks))
    asks = (Ask(row("html", TODAY, "home"), OF_LETTERS), Ask(row("html", TODAY, "surname", "", 1), OF_NO_SURNAME))
    yield Case("surnames by letter by hand", (*stored(LETTERS), *asks))
    pages = Pages(LONG)
    yield Case("long lists in HTML", (*stored(LONG), *(html(pages, *asked) for asked in PAGES_OF_LONG)))
    for name, records in (("by hand", OF_LEES), ("of long lists", LONG)):
        visits = html_visits.visits(records)
        asks = [Ask(row("html-visit", TODAY, sent.hex()), got.hex() + "\n") for sent, got in visits]
        yield Case(f"requests to a room of HTML {name}", (*stored(records), *asks))


def drawn_case(seed: int) -> Case:
    """Every sheet of every number of an archive, and the pages."""
    records = drawn.archive(seed)
    sheets = Sheets(records)
    asks = [*stored(records), Ask(row("sheet", TODAY, "index"), sheets.index())]
    pages = Pages(records)
    asks.append(html(pages, "home", "", 1))
    asks += [html(pages, "surname", name, 1) for name in SURNAMES]
    asks += [html(pages, "search", words, 1) for words in SEARCHED]
    for number in (*records, 0, 121):
        asks += [html(pages, kind, number, seed % 4 + 1) for kind in ("person", "family", "pedigree", "register")]
        generations = (seed + number) % 7 + 1

        def up(subject: int, _: Person) -> list[str]:
            return sheets.pedigree(subject, generations)

        for words, kind, of in (
            (("person", number), Person, sheets.person),
            (("family", number), Family, sheets.family),
            (("register", number), Source, sheets.register),
            (("pedigree", number, generations), Person, up),
        ):
            asks.append(Ask(row("sheet", TODAY, *words), sheets.sheet(kind, number, of)))
    asks += [Ask(row("sheet", TODAY, "surname", name), sheets.page(name)) for name in SURNAMES]
    return Case(f"drawn: {seed}", tuple(asks))


def visit(given: bytes) -> str:
    """The row of a visit whose connection gives these bytes."""
    return row("visit", TODAY, given.hex())


def visits_to(scene) -> Case:
    asks = []
    for words, status, wanted in scene.requests:
        given = f"{words} HTTP/1.1\r\nHost: a\r\n\r\n".encode()
        asks.append(Ask(visit(given), answer(status, wanted, not words.startswith("HEAD ")).hex() + "\n"))
    return Case(f"requests by hand: {scene.name}", (*stored(scene.records), *asks))


def without_memory(program):
    """What is told of visits of which each growth in turn is refused. The room writes into memory, so that a growth of
    what was written is a write that fails."""
    told = fault(program, given_to([visits_to(SHOWN)]), (REFUSED, "95 WriteFailed\n"))
    return [f"visits without memory: {told}"] if told else []


def each_growth(program) -> tuple[Counter[str], list[str]]:
    """How many growths of visits to rooms of a living husband were refused, by the room, and what is wrong."""
    refused: Counter[str] = Counter()
    wrong = []
    for scene in MARRIAGES:
        *made, visit = visits_to(Visits(scene.name, scene.records, scene.requests[:1])).asks
        try:
            refused[scene.name] = wanted_in(program, tuple(made), visit, row("shown", TODAY))
        except Wrong as told:
            wrong.append(f"growths refused in a visit, {scene.name}: {told}")
    return refused, wrong


def drawn_visits(program, seed: int):
    """What is told of drawn heads that a room of a drawn archive answers otherwise than the second reading."""
    records = drawn.archive(seed)
    heads, room = Heads(seed, records), Room(records)
    given = [heads.head() for _ in range(HEADS)]
    asks = (*stored(records), *(Ask(visit(head), "") for head in given))
    got = answers(program, [Case("", asks)])[-HEADS:]
    for head, found in zip(given, got):
        wanted = room.answers(head)
        if found not in [one.hex() + "\n" for one in wanted]:
            yield f"drawn head of archive {seed}: {head[:120]!r} gives {found[:400]!r}, and {wanted!r} was wanted"


def main() -> int:
    archives = int(sys.argv[1]) if len(sys.argv) > 1 else 100
    program = sys.argv[2] if len(sys.argv) > 2 else PROGRAM
    count, failures = 0, []
    by_hand = [*cases_by_hand(), *pages_by_hand(), *(visits_to(scene) for scene in VISITS)]
    runs = [by_hand] + [[drawn_case(seed)] for seed in range(archives)]
    for cases in runs:
        count += len(cases)
        failures += differences(program, cases)
    count += 2
    failures += [f"docs/READING-ROOM.md has not the page of {words}" for words in not_shown()]
    failures += without_memory(program)
    count += len(MARRIAGES)
    refused, wrong = each_growth(program)
    failures += wrong
    for seed in range(archives // 4):
        count += HEADS
        failures += drawn_visits(program, seed)
    for failure in failures:
        print(f"failed: {failure}")
    for name, number in refused.items():
        print(f"{number} growths refused in a visit: {name}")
    print(f"{count - len(failures)} passed, {len(failures)} failed")
    return 1 if failures or not count else 0


if __name__ == "__main__":
    sys.exit(main())
