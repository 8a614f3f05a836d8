"""Refused memory: of a run, each growth in turn gets none. Then each row is answered as before, up to one that is
answered with that refusal, or up to the end of a run that says so by its status."""

from __future__ import annotations

import os
import pathlib
import subprocess
import sys
import tempfile

sys.path.append(str(pathlib.Path(__file__).resolve().parent.parent))

from refusing import built, refusing  # noqa: E402

REFUSED = "1 OutOfMemory\n"
LEAST = 100  # refusals that are told of a run at least; fewer show that none came


def answered(program, data, env=None):
    """The answers of a run, and its status."""
    run = subprocess.run([str(program)], input=data, capture_output=True, env=env, check=False, timeout=50)
    return run.stdout.decode("utf-8").split(".\n")[:-1], run.returncode


def told(plain, got, status, refusals=(REFUSED,)):
    """Whether the run told that a growth was refused, by one of these answers. False: its answers are those of before,
    as where std asks for less instead. ValueError: an answer is another one."""
    for wanted, found in zip(plain, got):
        if found in refusals:
            return True
        if found != wanted:
            raise ValueError(f"{found[-200:]!r} in place of {wanted[-200:]!r}")
    if not status and len(got) != len(plain):
        raise ValueError(f"{len(got)} answers and status 0")
    return status != 0


def fault(program, data, refusals=(REFUSED,)):
    """What is wrong with the runs in which each growth in turn is refused. None: nothing."""
    plain, _ = answered(program, data)
    number, count = 0, 0
    with tempfile.TemporaryDirectory() as folder:
        library = built(folder)
        while True:
            number += 1
            mark = os.path.join(folder, str(number))
            try:
                count += told(plain, *answered(program, data, refusing(number, library, mark)), refusals)
            except ValueError as wrong:
                return f"growth {number} refused: {wrong}"
            if not os.path.exists(mark):
                return None if count >= LEAST else f"only {count} refusals were told"
