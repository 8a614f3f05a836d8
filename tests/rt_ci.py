"""Runs the kit's `rt ci` at the top of the repository, at less cost.

    python3 tests/rt_ci.py

Each proof, run and test is that of `rt ci`, and so is its status; an `rt` that is made otherwise is run as it is.

- What an earlier run on this machine proved or refused, of the very same sources and kit, is taken from it, as by the
  `rt ci` of newer kits (kept_proofs.py). PARISH_GATE_ANEW=1 has all proved from nothing.

- `rt ci` goes every way from a crate to those below it whenever it wants to know which they are, and that of some kits
  (rattle-kit-13b) also to know what they are made from: there are 5.1 million ways here, and to read the sources on
  each is about two hours of one processor. Both answers depend only on crates.txt and the sources, so they are
  remembered; the run fails where one of these files differs at its end from what it was at its beginning.
- It tries an edit by a check of the whole crate, and before two edits of one crate it checks the crate once more. Here
  the functions that the edit changes, or that use a constant which it changes, are checked first, with what they call
  (`--only`), each edit by itself: if one is not proved, the crate is not. Any other edit is tried as by `rt ci`.
- It expects a check of a large crate to take two to four times the memory that was measured, and lets processors
  wait for it. Here it expects half of that, and 0.5 GB.
"""

from __future__ import annotations

import functools
import hashlib
import importlib.machinery
import importlib.util
import os
import re
import shutil
import sys

from changed_functions import changed_functions
from kept_proofs import KeptProofs

sys.dont_write_bytecode = True


def sources() -> str:
    """A sum over crates.txt, HANDLES and each file of a crate but what is made in out/."""
    found = hashlib.sha256()
    paths = ["crates.txt", "HANDLES"]
    for at, folders, files in os.walk("crates"):
        folders[:] = sorted(it for it in folders if it != "out")
        paths += [os.path.join(at, it) for it in sorted(files)]
    for path in paths:
        with open(path, "rb") as file:
            found.update(repr((path, file.read())).encode())
    return found.hexdigest()


def loaded(path: str):
    """The kit's `rt` as a module; None where it is not made as we know it."""
    with open(path, "rb") as file:
        if not file.readline().startswith(b"#!") or b"class Crate(rtlib.Crate)" not in file.read():
            return None
    sys.path.insert(0, os.path.dirname(path))
    loader = importlib.machinery.SourceFileLoader("rt_of_kit", path)
    module = importlib.util.module_from_spec(importlib.util.spec_from_loader(loader.name, loader))
    loader.exec_module(module)
    ours = module.rtlib.Crate
    return module if hasattr(ours, "below") and hasattr(ours, "stamp") else None


def remembered(answer):
    """The same method, asked once of each crate's folder."""
    known: dict = {}

    @functools.wraps(answer)
    def once(crate):
        if crate.folder not in known:
            known[crate.folder] = answer(crate)
        found = known[crate.folder]
        return list(found) if isinstance(found, list) else found

    return once


def goals(lines: list[str], crate: str, paths: list[str]) -> list[str]:
    """What a check of some functions says of those at the paths where one is not proved; else nothing."""
    counts = re.fullmatch(r"only=(\d+) proved=(\d+)", lines[-1])
    unproved = tuple(f"fn {crate}::{path}: {how}" for path in paths for how in ("not proved", "no proof"))
    if not counts or counts[1] == counts[2] or not any(it.startswith(unproved) for it in lines):
        return []
    return [it for it in lines if re.match(r"note: \S+:\d+:\d+: .*not proved|\./proofs/\S+:\d+:\d+: error", it)]


def refused_kinds(module) -> tuple:
    """What the kit's `must_fail` answers of a refused edit, the plainest first; kits up to 13b say whether it is."""
    return (module.REFUSED, module.AT_LIMIT) if hasattr(module, "REFUSED") else (True,)


def refused_in_part(module, crate, edit: str, flags: list[str], kept=None) -> str | None:
    """Why a function that an edit changes is not proved. None: all are, or the whole crate has to be tried."""
    texts, why = module.read_edit(edit, crate.folder)
    paths = [] if why else changed_functions(texts, crate.folder)
    if not paths:
        return None
    ran = module.checked(crate, texts, [*flags, *(it for path in paths for it in ("--only", path))], kept)
    lines = ran.stdout.rstrip("\n").split("\n")
    if ran.returncode != 1 or module.rtlib.STALE.search(ran.stdout) or any(module.unread(it, texts) for it in lines):
        return None
    # (a proof file that names what the edit took away says nothing of the contract)
    names = r"(\./)?proofs/.*(has no field|is not in scope|has no `|was not admitted)"
    return next((it for it in goals(lines, crate.name, paths) if not re.match(names, it)), None)


def tried(module, store: KeptProofs | None = None):
    """How an edit is tried, where no earlier run refused it: on its function first, and then as by `rt ci`."""
    whole, kinds = module.must_fail, refused_kinds(module)

    def anew(crate, edit, flags, kept):
        why = refused_in_part(module, crate, edit, flags, kept)
        if why is None:
            return whole(crate, edit, flags, kept)
        return kinds[0], f"must-fail {crate.name}/{os.path.basename(edit)}: refused, as it must be: {why[:160]}"

    def must_fail(crate, edit, flags, kept=None):
        known = store and store.refusal(crate, edit)
        if known:
            return kinds[0], f"{known} (an earlier run)"
        kind, said = anew(crate, edit, flags, kept)
        if kind in kinds and store and is_unchanged(crate):
            store.keep_refusal(crate, edit, said)
        return kind, said

    return must_fail


def each_by_itself(add_edits):
    """How a kit that checks a crate once more before two edits of it tries each as the only one, without that check."""

    def add(tasks, crate, edits, *given, **named):
        results, known = [], []
        for number, edit in enumerate(edits):
            own: dict = {}
            of_this, known_of_this = add_edits(own, crate, [edit], *given, **named)
            (key,) = own
            tasks[crate.name, "edits", number] = own[key]
            results.append((key, of_this))
            known.append(known_of_this)
        at = lambda given, key, number: {key: given[crate.name, "edits", number]}
        found = lambda given: [it for number, (key, of) in enumerate(results) for it in of(at(given, key, number))]
        return found, lambda: {number: it for number, of in enumerate(known) for it in of().values()}

    return add


def is_unchanged(crate) -> bool:
    """Whether the crate and each library below it are still as they were when their sums were worked out."""
    stamp = type(crate).stamp.__wrapped__
    return all(stamp(it) == it.stamp() for it in [crate, *crate.below()])


def crates(module, root: str) -> list:
    """The crates as `rt ci` sees them, lowest first: proved as by it, with what its HANDLES allows."""
    one = module.Crate
    one.below, one.stamp = remembered(one.below), remembered(one.stamp)
    one.cuts_libraries, one.allowed = True, module.handles_of(root)
    module.rtlib.Crate = one
    module.rtlib.guarded()
    return sorted(module.rtlib.crates_below(root), key=lambda it: len(it.below()))


def keeping(prove, store: KeptProofs):
    """A crate's proof that is taken from an earlier run where its sum is the same, and kept where it passed."""

    @functools.wraps(prove)
    def ci(crate, flags, tests):
        said = store.give(crate, tests)
        if said is not None:
            print(f"rt_ci: proved by an earlier run on this machine, of the same sum\n{said}", end="", file=crate.out)
            return 0
        at = crate.out.seek(0, os.SEEK_END)
        status = prove(crate, flags, tests)
        if status == 0 and is_unchanged(crate):
            crate.out.seek(at)
            store.keep(crate, tests, crate.out.read())
        return status

    return ci


def kept_by(module, root: str, aside: bool = False) -> KeptProofs | None:
    """Has proofs and edits kept, and taken from earlier runs; None where the kit does that.

    Of edits that stand `aside`, no kit keeps what became of them.
    """
    by_kit = hasattr(module, "Kept")
    store = None if by_kit and not aside else KeptProofs(module, root)
    if store and not by_kit:
        module.Crate.ci = keeping(module.Crate.ci, store)
    module.must_fail = tried(module, store)
    return store


def main() -> int:
    path = os.path.realpath(shutil.which("rt") or "rt")
    module = loaded(path) if os.path.isfile(path) else None
    if module is None:
        os.execvp("rt", ["rt", "ci"])
    crate = module.rtlib.Crate
    crate.below, crate.stamp = remembered(crate.below), remembered(crate.stamp)
    store = kept_by(module, os.getcwd())
    module.must_fail_all = lambda crate, edits, flags: [module.must_fail(crate, it, flags) for it in edits]
    if hasattr(module, "add_edits"):
        module.add_edits = each_by_itself(module.add_edits)
    need = module.need
    module.need = lambda crate: need(crate) / 2 + 500_000_000
    before = sources()
    status = module.main(["ci"])
    if store:
        print(f"rt_ci: of an earlier run on this machine: {store.summary()}")
    if sources() != before:
        if store:
            store.forget()
        print("rt_ci: a source has changed while it was proved\n0 passed, 1 failed")
        return 1
    return status


if __name__ == "__main__":
    sys.exit(main())
