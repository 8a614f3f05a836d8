"""Runs a command of the kit's `rt` in a crate's folder, without going every way to the crates below it:

    python3 ../../tests/quick_rt.py check --only reading::read

`rt check`, `rt try` and `rt tidy` ask again and again what a crate is made from, on each path to it; for a crate high
up that takes minutes before anything is checked. Here the answers are remembered for the run, as in rt_ci.py. What is
proved, and how, is the same. No source may change while it runs.
"""

from __future__ import annotations

import os
import shutil
import sys

import rt_ci

sys.dont_write_bytecode = True


def main() -> int:
    path = os.path.realpath(shutil.which("rt") or "rt")
    module = rt_ci.loaded(path) if os.path.isfile(path) else None
    if module is None:
        os.execvp("rt", ["rt", *sys.argv[1:]])
    for one in {module.Crate, module.rtlib.Crate}:
        for name in {"below", "stamp"} & set(vars(one)):
            setattr(one, name, rt_ci.remembered(vars(one)[name]))
    status = module.main(sys.argv[1:])
    sys.stdout.flush()
    return status


if __name__ == "__main__":
    sys.exit(main())
