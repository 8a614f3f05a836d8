"""Runs archive_rows on the tables beside this file: python3 tests/archive/run.py.

One line a failed case, and last `N passed, M failed`; status 0 only if none failed and one passed.
"""

from __future__ import annotations

import pathlib
import sys

sys.dont_write_bytecode = True

import branches  # noqa: E402
import links  # noqa: E402
import memory  # noqa: E402
import printed  # noqa: E402
import records  # noqa: E402
import refused  # noqa: E402
import states  # noqa: E402
import words  # noqa: E402
from asking import differences, given_to  # noqa: E402
from rows import Ask, Case, given, kept, row  # noqa: E402

HERE = pathlib.Path(__file__).resolve().parent
PROGRAM = HERE.parents[1] / "crates/archive_rows/out/archive_rows"


def read(kind, name, lines, asked, wanted):
    return Case(f"{kind}: {name}", (*given(lines), Ask(row("read", asked), wanted)))


def record_cases():
    """Each record with its copy, and its fields; lines of no record; what records name."""
    for name, lines, fields in records.RECORDS:
        yield read("record", name, lines, "record", kept(lines))
        yield read("copy", name, lines, "copy", kept(lines))
        yield read("fields", name, lines, "fields", fields)
    for name, lines in refused.DEEPEST:
        yield read("99 levels", name, lines, "record", kept(lines))
        yield read("99 levels, copied", name, lines, "copy", kept(lines))
    for name, lines in refused.TAKEN:
        yield read("record", name, lines, "record", kept(lines))
    for name, lines in refused.REFUSED:
        yield read("no record", name, lines, "record", records.BAD_STORED)
    for name, lines, numbers in links.NAMES:
        yield read("names", name, lines, "names", " ".join(["names", *map(str, numbers)]) + "\n")


def runs():
    """The cases of each run of the program."""
    yield [*words.cases(), *printed.cases(), *branches.cases(), *record_cases()]
    for scene in states.SCENES:
        yield list(states.cases(scene))


def memory_faults():
    """Of a scene and of some twenty records: what goes wrong where memory is refused. None: nothing."""
    slips = next(scene for scene in states.SCENES if scene.name.startswith("a slip"))
    kinds = [case for case in record_cases() if case.name.split(":")[0] in ("copy", "fields", "names")]
    for name, cases in (("slips", list(states.cases(slips))), ("records", kinds[:: len(kinds) // 20])):
        wrong = memory.fault(PROGRAM, given_to(cases))
        yield f"memory refused, {name}: {wrong}" if wrong else None


def main():
    count, failures = 0, list(printed.faults())
    for cases in runs():
        count += len(cases)
        failures += differences(PROGRAM, cases)
    refused_runs = list(memory_faults())
    count += len(refused_runs)
    failures += [wrong for wrong in refused_runs if wrong]
    for failure in failures:
        print(f"failed: {failure}")
    print(f"{count - len(failures)} passed, {len(failures)} failed")
    return 1 if failures or not count else 0


if __name__ == "__main__":
    sys.exit(main())
