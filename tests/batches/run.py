"""Runs state_rows on files by hand and on drawn ones: python3 tests/batches/run.py [FILES [PROGRAM]].

One line a failed case, and last `N passed, M failed`; status 0 only if none failed and one passed.
"""

from __future__ import annotations

import pathlib
import sys

sys.dont_write_bytecode = True
HERE = pathlib.Path(__file__).resolve().parent
sys.path.insert(0, str(HERE.parent / "archive"))

import drawn  # noqa: E402
import hands  # noqa: E402
import rules  # noqa: E402
from asking import differences  # noqa: E402
from plain import stored  # noqa: E402
from rows import Ask, Case, row  # noqa: E402

PROGRAM = HERE.parents[1] / "crates/state_rows/out/state_rows"
FILES = 2_000
AT_ONCE = 100


def by_hand():
    for name, text, wanted, archive, after in hands.FILES:
        yield Case(name, (*stored(archive, after), Ask(row("batch", text), wanted)))


def by_chance(seeds):
    for seed in seeds:
        text, (archive, after) = drawn.text(seed), drawn.archive(seed)
        wanted = rules.answer(text, archive, after)
        yield Case(f"drawn {seed}", (*stored(archive, after), Ask(row("batch", text), wanted)))


def main() -> int:
    files = int(sys.argv[1]) if len(sys.argv) > 1 else FILES
    program = sys.argv[2] if len(sys.argv) > 2 else PROGRAM
    groups = [list(by_hand())]
    groups += [list(by_chance(range(k, min(k + AT_ONCE, files)))) for k in range(0, files, AT_ONCE)]
    count = sum(len(cases) for cases in groups)
    failures = [wrong for cases in groups for wrong in differences(program, cases)]
    for failure in failures:
        print(f"failed: {failure}")
    print(f"{count - len(failures)} passed, {len(failures)} failed")
    return 1 if failures or not count else 0


if __name__ == "__main__":
    sys.exit(main())
