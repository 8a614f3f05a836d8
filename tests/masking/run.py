"""Runs state_rows on cases by hand and on drawn archives: python3 tests/masking/run.py.

One line a failed case, and last `N passed, M failed`; status 0 only if none failed and one passed.
"""

from __future__ import annotations

import pathlib
import sys

sys.dont_write_bytecode = True
HERE = pathlib.Path(__file__).resolve().parent
sys.path.insert(0, str(HERE.parent / "archive"))

import drawn  # noqa: E402
import hands  # noqa: E402
import rules  # noqa: E402
from asking import differences  # noqa: E402
from plain import lines  # noqa: E402
from rows import Ask, Case, given, kept, row  # noqa: E402

PROGRAM = HERE.parents[1] / "crates/state_rows/out/state_rows"
DRAWN = 2000
AT_ONCE = 200


def put(archive: dict) -> tuple[Ask, ...]:
    """The rows that make the archive anew, in another order than that of the numbers."""
    asks = [Ask(row("new"), "")]
    for number in sorted(archive, key=lambda n: n % 7):
        asks += [*given(lines(archive[number])), Ask(row("put", number), "")]
    return (*asks, Ask(row("next", max(archive, default=0) + 2), ""))


def said(archive: dict) -> str:
    """What is answered where an archive of these records is shown."""
    return "".join(f"record {number}\n{kept(lines(archive[number]))}" for number in sorted(archive))


def shown(archive: dict, masked: dict, today: int) -> Ask:
    return Ask(row("shown", today), f"next {max(archive, default=0) + 2}\n{said(masked)}")


def by_hand():
    for name, archive, today, masked in hands.SHOWN:
        yield Case(name, (*put(archive), shown(archive, masked, today)))
    for name, archive, asked in hands.LIVING:
        asks = tuple(Ask(row("living", person, today), wanted + "\n") for person, today, wanted in asked)
        yield Case(name, (*put(archive), *asks))


def by_chance(seeds):
    for seed in seeds:
        archive = drawn.archive(seed)
        masked = rules.shown(archive, drawn.TODAY)
        yield Case(f"drawn {seed}", (*put(archive), shown(archive, masked, drawn.TODAY)))


def main():
    groups = [list(by_hand())]
    groups += [list(by_chance(range(k, k + AT_ONCE))) for k in range(0, DRAWN, AT_ONCE)]
    count = sum(len(cases) for cases in groups)
    failures = [wrong for cases in groups for wrong in differences(PROGRAM, cases)]
    for failure in failures:
        print(f"failed: {failure}")
    print(f"{count - len(failures)} passed, {len(failures)} failed")
    return 1 if failures or not count else 0


if __name__ == "__main__":
    sys.exit(main())
