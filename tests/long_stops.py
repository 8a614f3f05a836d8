"""Every stop and every refused growth of the commands on an archive.

    python3 tests/long_stops.py [--parish COMMAND] [--only WORD]

`./test` tries some of them (stops.py, wants.py). A line for each case with how many there were and how long it took,
then how many there were of each kind, and last `N passed, M failed`.
"""

from __future__ import annotations

import argparse
import os
import sys
from concurrent.futures import ThreadPoolExecutor

sys.dont_write_bytecode = True

import devices  # noqa: E402
import stops  # noqa: E402
import wants  # noqa: E402
from harness import TALLIES, Tools, tallied  # noqa: E402
from run import command, executable, outcome_of  # noqa: E402


def main() -> int:
    words = argparse.ArgumentParser(description="Every stop and every refused growth.")
    words.add_argument("--parish", metavar="COMMAND")
    words.add_argument("--only", metavar="WORD", default="")
    given = words.parse_args()
    tools = Tools(command(given.parish) if given.parish else (executable("parish"),), None)
    every = (*stops.cases(tools, True), *wants.cases(tools, True), *devices.cases(tools))
    cases = [case for case in every if given.only in case.name]
    failed = 0
    with ThreadPoolExecutor(max_workers=os.cpu_count() or 1) as pool:
        for case, (why, seconds) in zip(cases, pool.map(outcome_of, cases), strict=True):
            failed += why is not None
            print(f"{case.name}: {why or 'passed'} ({seconds:.0f} s)", flush=True)
    for kind, tests in TALLIES.items():
        for test, number in tests.items():
            print(f"{number} {kind}: {test}")
    print(*tallied(), sep="\n")
    print(f"{len(cases) - failed} passed, {failed} failed")
    return 1 if failed or not cases else 0


if __name__ == "__main__":
    sys.exit(main())
