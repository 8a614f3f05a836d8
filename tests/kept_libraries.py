"""Puts the libraries that the gate keeps on this machine into crates/*/out, for a check of the crates above them.

    python3 tests/kept_libraries.py NAME..

`rt check` in a clone proves all that is below a crate anew, where no check in another clone has done so; only the gate
begins with what earlier runs kept. Here each library below the named crates that is kept, of these very sources, comes
to its place with the stamp by which `rt check` knows it. The crates that have none are printed. What is kept is that of
the kit's own `rt ci`, or of tests/rt_ci.py where the kit keeps nothing (kept_proofs.py); this is no part of the gate,
which proves or takes each crate by itself.
"""

from __future__ import annotations

import os
import shutil
import sys

import rt_ci
from kept_proofs import KeptProofs

sys.dont_write_bytecode = True


def given_by_kit(kept, crate) -> bool:
    """Whether the library is in its place now; all below it have to be."""
    if any(it.name not in kept.rlibs for it in crate.below()):
        return False
    key = kept.key(crate)
    if not os.path.isdir(kept.place(crate, False, key)) or not kept.give(crate, False, key):
        return False
    kept.is_built(crate)
    return True


def is_given(kept, crate) -> bool:
    """Whether the library is in its place now, with its stamp."""
    shutil.rmtree(f"{crate.folder}/out/rlib", ignore_errors=True)
    os.makedirs(f"{crate.folder}/out", exist_ok=True)
    ours = isinstance(kept, KeptProofs)
    if not (kept.give(crate, False) is not None if ours else given_by_kit(kept, crate)):
        return False
    with open(f"{crate.folder}/out/rlib/stamp", "w", encoding="utf-8") as file:
        file.write(crate.stamp())
    return True


def is_there(kept, crate) -> bool:
    """Whether the library is in its place; those above it are kept under a name that has its sum."""
    if not crate.is_built():
        return is_given(kept, crate)
    if not isinstance(kept, KeptProofs):
        kept.is_built(crate)
    return True


def lacking_below(module, every, names: list[str]) -> list:
    """Puts each library below the named crates into its place where it is kept; those that are not, lowest first."""
    below = {one.name for it in every if it.name in names for one in it.below()}
    libraries = [it for it in every if it.name in below and not it.is_program]
    kept = module.Kept(libraries, False) if hasattr(module, "Kept") else KeptProofs(module, os.getcwd())
    return [it for it in libraries if not is_there(kept, it)]


def main(names: list[str]) -> int:
    module = rt_ci.loaded(os.path.realpath(shutil.which("rt") or "rt"))
    if module is None or not names:
        print(__doc__)
        return 1
    lacking = lacking_below(module, rt_ci.crates(module, os.getcwd()), names)
    print(f"not kept: {' '.join(it.name for it in lacking) or 'none'}")
    return 0


if __name__ == "__main__":
    sys.exit(main(sys.argv[1:]))
