"""No sheet, page, page of HTML, public export or refusal of drawn archives has a word that only hidden records hold,
and a search for such a word is answered as one for a word that is nowhere. In these archives each text is a word that
comes once (shown/drawn.py). A word that on that day only hidden records hold must be in no sheet of any number and
kind, on no page of the rooms, in no head of an answer, in no public export and in no refusal. Which words these are is
decided by a second reading of docs/LIVING.md (masking/rules.py), and not by the program.

    python3 tests/leaks.py [--parish COMMAND] [ARCHIVES [SEED]]

looks through ARCHIVES drawn archives (20,000) of SEED; `./test` looks through 100. The last line is `N passed, M
failed`.
"""

from __future__ import annotations

import argparse
import os
import re
import shlex
import sys

sys.dont_write_bytecode = True

from harness import ROOT, Case, Failed, Tools, demand  # noqa: E402
from rooms import Room  # noqa: E402
from sheet_commands import KINDS, Shown  # noqa: E402
from shown.drawn import TODAY, archive, date_of  # noqa: E402
from shown.gedcom import exported  # noqa: E402
from shown.masked import shown  # noqa: E402
from shown.records import Person  # noqa: E402
from visits import request  # noqa: E402

WORD = re.compile(rb"zq\d{4}|\d\d [A-Z]{3} \d{4}")
WORD_ALONE = re.compile(rb"zq\d{4}")
DAYS = (-1, 0, 1, 200)  # from TODAY


def hidden_words(drawn, left: dict) -> list[bytes]:
    """The words of an archive that no shown record has."""
    seen = exported(left, "Ashby Society")
    return sorted(word for word in set(WORD.findall(drawn.file)) if word not in seen)


def targets_of(drawn) -> list[str]:
    """Pages by each number, and by each surname and what else a name has."""
    targets = ["/", "/surname?name=", "/surname?name=living", "/nothing"]
    for number in range(len(drawn.records) + 2):
        targets += [f"/person/{number}", f"/family/{number}", f"/register/{number}"]
        targets += [f"/pedigree/{number}?generations=12"]
    for person in drawn.records.values():
        if isinstance(person, Person):
            for name in person.names:
                targets += [f"/surname?name={word}" for word in re.split("[ /]+", name) if word]
    return targets


def html_targets_of(drawn) -> list[str]:
    """Pages of HTML by each number and each surname, and what a search for a word finds."""
    targets = targets_of(drawn) + ["/style.css", "/search", "/search?q=", "/search?q=living", "/search?q=z&page=2"]
    targets += [f"/register/{number}?page=1" for number in range(len(drawn.records) + 2)]
    return targets + [target.replace("/surname?name=", "/search?q=") for target in targets if "name=zq" in target]


def pages_of(at, drawn, today: str):
    """What a room of HTML answers, but for the words that a visitor asks for, which may come back."""
    targets = html_targets_of(drawn)
    with Room(at, len(targets), today, ("--html",)) as room:
        for place, target in enumerate(targets):
            got = room.asked(request(target, "HEAD" if place % 50 == 7 else "GET"))
            asked = WORD.findall(target.encode())
            yield f"the page of HTML {target}", got.replace(asked[0], b"") if asked else got


def searches_of(at, words: list[bytes], today: str) -> None:
    """Hidden words are answered as a word that is nowhere."""
    forms = [f"{path}{{}}" for path in ("/search?q=", "/surname?name=", "/search?page=2&q=")]
    with Room(at, len(forms) * (len(words) + 1), today, ("--html",)) as room:
        for form in forms:
            nowhere = room.asked(request(form.format("zz0000")))
            for word in words:
                got = room.asked(request(form.format(word.decode())))
                alike = got.replace(word, b"zz0000") == nowhere
                demand(alike, f"{form.format(word.decode())} is answered otherwise than a word that is nowhere")


def told_of(at, drawn, today: str):
    """All that is told of an archive on a day, each with what it is of."""
    got = at.public(today)
    yield "the public export", got.out + got.err
    for number, record in drawn.records.items():
        for kind in KINDS if isinstance(record, Person) or number % 5 == 0 else KINDS[number % 4 :][:1]:
            got = at.sheet(kind, number, "--generations", "12", today=today)
            yield f"the sheet {kind} {number}", got.out + got.err
    targets = targets_of(drawn)
    with Room(at, len(targets), today) as room:
        for place, target in enumerate(targets):
            yield f"the page {target}", room.asked(request(target, "HEAD" if place % 50 == 7 else "GET"))
    yield from pages_of(at, drawn, today)


def searched(tools, seed: int, number: int) -> int:
    """How many words were looked for in all that is told of an archive. A word that somebody asks for does not come
    back; so none may be there, and each is in the full export."""
    drawn = archive(seed, number)
    day = TODAY + DAYS[number % len(DAYS)]
    words = hidden_words(drawn, shown(drawn.records, day))
    with Shown(tools) as at:
        demand(at.made().import_(drawn.file).status == 0, "the file is refused")
        whole = at.export().out
        lost = [word for word in words if word not in whole]
        demand(not lost, f"archive {number}: the archive does not hold {lost[:3]}")
        if not words:
            return 0
        hidden = re.compile(b"|".join(map(re.escape, words)))
        for what, text in told_of(at, drawn, date_of(day).isoformat()):
            found = hidden.search(text)
            demand(not found, f"archive {number} of seed {seed}: {what} has {found and found[0]!r}, which is hidden")
        searches_of(at, [word for word in words if WORD_ALONE.fullmatch(word)][:8], date_of(day).isoformat())
    return len(words)


def some_archives(tools, first, count):
    words = sum(searched(tools, 1, number) for number in range(first, first + count))
    demand(words > 10 * count, f"only {words} words were looked for")


def cases(tools: Tools):
    for first in range(0, 100, 10):
        name = f"leaks: what is hidden, in drawn archives {first} to {first + 9}"
        yield Case(name, lambda first=first: some_archives(tools, first, 10))


def main():
    words = argparse.ArgumentParser(usage=__doc__.strip())
    words.add_argument("--parish", default=os.path.join(ROOT, "crates/parish/out/parish"))
    words.add_argument("archives", nargs="?", type=int, default=20_000)
    words.add_argument("seed", nargs="?", type=int, default=1)
    given = words.parse_args()
    tools = Tools(tuple(shlex.split(given.parish)), None)
    failed = count = 0
    for number in range(given.archives):
        try:
            count += searched(tools, given.seed, number)
        except Failed as why:
            failed += 1
            print(why, flush=True)
        if (number + 1) % 1_000 == 0:
            print(f"{number + 1 - failed} of {number + 1} archives, {count} words", flush=True)
    print(f"{count} words looked for\n{given.archives - failed} passed, {failed} failed")
    return 1 if failed or not count else 0


if __name__ == "__main__":
    sys.exit(main())
