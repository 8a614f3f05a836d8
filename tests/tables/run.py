"""Runs archive_rows on the scenes beside this file: python3 tests/tables/run.py.

Each scene is a run of the program, over tables in memory that are new. One line a scene that fails, and last
`N passed, M failed`, which counts rows; status 0 only if none failed and one passed.
"""

from __future__ import annotations

import pathlib
import sys

sys.dont_write_bytecode = True
HERE = pathlib.Path(__file__).resolve().parent
sys.path += [str(HERE.parent / "archive"), str(HERE.parent)]

import imports  # noqa: E402
import memory  # noqa: E402
import scenes  # noqa: E402
from asking import differences, given_to  # noqa: E402

PROGRAM = HERE.parents[1] / "crates/archive_rows/out/archive_rows"


def main():
    count, failures = 0, []
    for scene in (*scenes.scenes(), *imports.scenes()):
        cases = list(scenes.cases(scene))
        count += len(cases)
        failures += differences(PROGRAM, cases)
    # refused memory: each growth of two short scenes in turn; inside SQLite it is an error of the database
    refusals = (memory.REFUSED, "80 Storage\n", "out of memory\n")
    for scene in (scenes.slips(), imports.short()):
        wrong = memory.fault(PROGRAM, given_to(list(scenes.cases(scene))), refusals)
        count += 1
        failures += [f"memory refused: {scene.name}: {wrong}"] if wrong else []
    for failure in failures:
        print(f"failed: {failure}")
    print(f"{count - len(failures)} passed, {len(failures)} failed")
    return 1 if failures or not count else 0


if __name__ == "__main__":
    sys.exit(main())
