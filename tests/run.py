"""The end-to-end tests: the executable from outside, by files, streams, sizes and refused memory.

    python3 tests/run.py [--parish COMMAND] [--pieces COMMAND] [--only WORD] [-v]

COMMAND is a program, or a command in quotes; without it, the executable that `rt ci` or `rt run`
left under crates/.  `--only` runs the cases whose names have the word.  The last line is
`N passed, M failed`; the status is 0 where none failed and one passed.
"""

from __future__ import annotations

import argparse
import os
import re
import shlex
import shutil
import sys
import time
from concurrent.futures import ThreadPoolExecutor

sys.dont_write_bytecode = True

import accidents  # noqa: E402
import archives  # noqa: E402
import as_expected  # noqa: E402
import audits  # noqa: E402
import conversions  # noqa: E402
import converted  # noqa: E402
import crowds  # noqa: E402
import days  # noqa: E402
import devices  # noqa: E402
import documents  # noqa: E402
import earlier  # noqa: E402
import exchanges  # noqa: E402
import exports  # noqa: E402
import faults  # noqa: E402
import files  # noqa: E402
import gate_edits  # noqa: E402
import histories  # noqa: E402
import import_reports  # noqa: E402
import imports  # noqa: E402
import kept_gate  # noqa: E402
import layout  # noqa: E402
import leaks  # noqa: E402
import list_rows  # noqa: E402
import lists  # noqa: E402
import memory  # noqa: E402
import merges  # noqa: E402
import page_commands  # noqa: E402
import past_values  # noqa: E402
import plain_exports  # noqa: E402
import properties  # noqa: E402
import queries  # noqa: E402
import readme_lines  # noqa: E402
import references  # noqa: E402
import refusals  # noqa: E402
import released  # noqa: E402
import releases  # noqa: E402
import reviews  # noqa: E402
import rooms  # noqa: E402
import scripts  # noqa: E402
import sheet_commands  # noqa: E402
import shells  # noqa: E402
import sizes  # noqa: E402
import stops  # noqa: E402
import streams  # noqa: E402
import unsound  # noqa: E402
import until_refused  # noqa: E402
import untouched  # noqa: E402
import verbs  # noqa: E402
import visitors  # noqa: E402
import visits  # noqa: E402
import wants  # noqa: E402
from harness import ROOT, Case, Failed, Tools, tallied  # noqa: E402

# The longest ones first, since they run side by side.
PARTS = (
    stops,
    sizes,
    wants,
    devices,
    archives,
    until_refused,
    as_expected,
    references,
    past_values,
    histories,
    import_reports,
    imports,
    kept_gate,
    leaks,
    visitors,
    crowds,
    sheet_commands,
    rooms,
    audits,
    unsound,
    days,
    list_rows,
    lists,
    earlier,
    released,
    merges,
    exports,
    plain_exports,
    exchanges,
    faults,
    memory,
    properties,
    queries,
    streams,
    untouched,
    visits,
    conversions,
    accidents,
    converted,
    scripts,
    releases,
    reviews,
    shells,
    page_commands,
    documents,
    readme_lines,
    refusals,
    verbs,
    files,
    gate_edits,
    layout,
)
PIECES = "tree_pieces"
ROWS = "library_rows"


def executable(crate):
    return os.path.join(ROOT, "crates", crate, "out", crate)


def is_listed(crate):
    with open(os.path.join(ROOT, "crates.txt"), encoding="utf-8") as lines:
        return any(re.match(rf"{crate}[\s:]", line) for line in lines)


def built(crate, given):
    """The program of a crate as it was built here, or None where another program is under test."""
    return (executable(crate),) if is_listed(crate) and not given.parish else None


def command(text):
    """The words of a command, its program by its whole path, as tests run it from other folders."""
    program, *words = shlex.split(text)
    return (os.path.abspath(shutil.which(program) or program), *words)


def tools_of(given):
    parish = command(given.parish) if given.parish else (executable("parish"),)
    if given.pieces:
        return Tools(parish, command(given.pieces))
    return Tools(parish, built(PIECES, given), built(ROWS, given))


def outcome_of(case: Case):
    """None where the case passed, else why not; and the seconds that it took."""
    begun = time.monotonic()
    try:
        case.test()
        why = None
    except Failed as failed:
        why = str(failed)
    except Exception as error:  # a mistake of the test, or a command that cannot be started
        why = f"{type(error).__name__}: {error}"
    return why, time.monotonic() - begun


def main():
    words = argparse.ArgumentParser(description="The end-to-end tests of parish.")
    words.add_argument("--parish", metavar="COMMAND")
    words.add_argument("--pieces", metavar="COMMAND")
    words.add_argument("--only", metavar="WORD", default="")
    words.add_argument("-v", "--verbose", action="store_true")
    given = words.parse_args()
    tools = tools_of(given)
    cases = [
        case
        for part in PARTS
        for case in part.cases(tools)
        if given.only in case.name
    ]
    failed = 0
    with ThreadPoolExecutor(max_workers=min(8, os.cpu_count() or 1)) as pool:
        for case, (why, seconds) in zip(cases, pool.map(outcome_of, cases)):
            failed += why is not None
            if why is not None:
                print(f"FAILED {case.name}\n       {why}", flush=True)
            elif given.verbose:
                print(f"passed {case.name} ({seconds:.1f} s)", flush=True)
    for line in tallied():
        print(line)
    print(f"{len(cases) - failed} passed, {failed} failed")
    return 1 if failed or not cases else 0


if __name__ == "__main__":
    sys.exit(main())
