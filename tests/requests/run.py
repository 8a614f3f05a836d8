"""Runs request_rows on the table beside this file.

    python3 tests/requests/run.py [--program COMMAND] [--only WORD]

Each scenario is a run of the program, in new archives; a row with its answer is a case, and a last one that the
archives of the program hold the same at the end. Then come the cases of stops.py, of wants.py and of agreement.py. One
line a scenario that fails, and last `N passed, M failed`; status 0 only if none failed and one passed. COMMAND is a
program, or a command in quotes; without it, the executable that `rt ci` or `rt run` left under crates/.
"""

import argparse
import pathlib
import shlex
import subprocess
import sys

sys.dont_write_bytecode = True

import agreement  # noqa: E402
import stops  # noqa: E402
import wants  # noqa: E402
from table import again, corrections, entries, entry_rows, failing, many, members, merging, order, reading  # noqa: E402
from table import steps, stored, worked  # noqa: E402
from table.making import LAST  # noqa: E402

ROOT = pathlib.Path(__file__).resolve().parents[2]
PROGRAM = ROOT / "crates/request_rows/out/request_rows"
PARTS = (
    worked, reading, entry_rows, order, entries, merging, members, corrections, again, failing, many, stored, steps
)
SCENARIOS = [scenario for part in PARTS for scenario in part.SCENARIOS]
LIMIT = 50  # seconds for one scenario
SHOWN = 100  # bytes of a text in a message
SHOW_ALL = b"".join(b"! show,%d\n" % number for number in (*range(1, 80), LAST)) + b"! next\n"


def rows_of(scenario):
    """The rows of a scenario. Behind them each record is shown, but for the scenario whose last row has no end."""
    given = b"".join(given for given, _ in scenario.steps)
    return given + SHOW_ALL if given.endswith(b"\n") else given


def answers(command, scenario):
    """What the program writes, and its status."""
    given = rows_of(scenario)
    ended = subprocess.run(command, input=given, stdout=subprocess.PIPE, check=False, timeout=LIMIT)
    return ended.stdout, ended.returncode


def judged(scenario, out, status):
    """How many cases passed, and what is wrong with the first that did not, if one did not."""
    at = 0
    for i, (given, wanted) in enumerate(scenario.steps):
        if not out.startswith(wanted, at):
            got = out[at : at + len(wanted)]
            return i, f"{given[:SHOWN]!r} gives {got[:SHOWN]!r}, and {wanted[:SHOWN]!r} was wanted"
        at += len(wanted)
    rest = out[at:]
    shown = rows_of(scenario).endswith(SHOW_ALL)
    if status != 0 or b"differs" in rest or bool(rest) != shown:
        return len(scenario.steps), f"status {status}, and last {rest[-SHOWN:]!r}"
    return len(scenario.steps) + 1, None


def main():
    words = argparse.ArgumentParser(description="The tests of requests.")
    words.add_argument("--program", metavar="COMMAND", default=shlex.quote(str(PROGRAM)))
    words.add_argument("--only", metavar="WORD", default="")
    told = words.parse_args()
    passed = failed = 0
    for scenario in SCENARIOS:
        if told.only in scenario.name:
            well, why = judged(scenario, *answers(shlex.split(told.program), scenario))
            passed += well
            failed += len(scenario.steps) + 1 - well
            if why is not None:
                print(f"failed: {scenario.name}, row {well + 1} and what follows: {why}")
    for part in (stops, wants):
        well, bad = part.run(shlex.split(told.program), told.only)
        passed += well
        failed += bad
    if told.only in "agreement":
        well, bad = agreement.run(shlex.split(told.program))
        passed += well
        failed += bad
    print(f"{passed} passed, {failed} failed")
    return 1 if failed or not passed else 0


if __name__ == "__main__":
    sys.exit(main())
