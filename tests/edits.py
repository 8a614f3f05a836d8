"""Tries the edits of tests/edits/: wrong bodies that the prover has to refuse.

    python3 tests/edits.py [--at-once N] [NAME..]

NAME is a crate; without one, each crate that has edits there is tried, the lowest first. The crates' own edits, in
crates/NAME/must-fail/, are tried by the gate; these are of the same form, and would cost it hours. Each is tried as the
gate tries its own (rt_ci.py): on the function that it changes first, and not again where an earlier run on this machine
refused it over the same sources, so that a run that was ended goes on where it was. Libraries below a crate are those
that the gate keeps (kept_libraries.py), or are proved first. Nothing in the sources is changed.
Each crate has a line at its end; the last line is `N passed, M failed`, and the status is 0 only where nothing failed
and something passed.
"""

from __future__ import annotations

import os
import resource
import shutil
import sys
import time
from concurrent.futures import ThreadPoolExecutor

import kept_libraries
import rt_ci

sys.dont_write_bytecode = True
ROOT = os.path.dirname(os.path.dirname(os.path.realpath(__file__)))
EDITS = os.path.join(ROOT, "tests", "edits")


def edits_of(crate: str) -> list[str]:
    folder = os.path.join(EDITS, crate)
    names = sorted(os.listdir(folder)) if os.path.isdir(folder) else []
    return [os.path.join(folder, name) for name in names if name.endswith(".edit")]


def processor_seconds() -> float:
    spent = resource.getrusage(resource.RUSAGE_CHILDREN)
    return spent.ru_utime + spent.ru_stime


def has_libraries(module, every, crate) -> bool:
    """Whether all libraries below the crate are in their places now."""
    lacking = kept_libraries.lacking_below(module, every, [crate.name])
    return not any(it.ci(["--jobs", "2"], False) for it in lacking)


def try_edits(module, crate, pool) -> tuple[int, int]:
    """Tries a crate's edits, and answers how many were refused and how many were not."""
    begun, spent = time.monotonic(), processor_seconds()
    refused = 0
    for kind, said in pool.map(lambda it: module.must_fail(crate, it, ["--jobs", "1"]), edits_of(crate.name)):
        print(said, flush=True)
        refused += kind in rt_ci.refused_kinds(module)
    failed = len(edits_of(crate.name)) - refused
    wall, processor = time.monotonic() - begun, processor_seconds() - spent
    print(f"{crate.name}: {refused} refused, {failed} not, {wall:.0f} s, {processor:.0f} s of processor", flush=True)
    return refused, failed


def main(words: list[str]) -> int:
    module = rt_ci.loaded(os.path.realpath(shutil.which("rt") or "rt"))
    if module is None:
        sys.exit("edits: the kit's rt is not made as this needs it")
    at_once = int(words[words.index("--at-once") + 1]) if "--at-once" in words else 1
    names = [it for it in words if not it.startswith("--") and not it.isdigit()] or sorted(os.listdir(EDITS))
    os.chdir(ROOT)
    every = rt_ci.crates(module, ROOT)
    unknown = set(names) - {it.name for it in every if edits_of(it.name)}
    if unknown:
        sys.exit(f"edits: no listed crate with edits: {' '.join(sorted(unknown))}")
    rt_ci.kept_by(module, ROOT, aside=True)
    passed = failed = 0
    with ThreadPoolExecutor(at_once) as pool:
        for crate in (it for it in every if it.name in names):
            tried = try_edits(module, crate, pool) if has_libraries(module, every, crate) else (0, 1)
            passed, failed = passed + tried[0], failed + tried[1]
    print(f"{passed} passed, {failed} failed")
    return 0 if passed and not failed else 1


if __name__ == "__main__":
    sys.exit(main(sys.argv[1:]))
