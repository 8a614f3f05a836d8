"""What the gate proved on this machine, kept by a sum of all that it was made from.

The `rt ci` of newer kits keeps what it passed, so that the next run on the same machine proves only what has changed.
That of rattle-kit-13b proves all anew each time, which takes hours on a slow machine; for such a kit tests/rt_ci.py
keeps the same by this file.

- A proof, a test program or a refused edit is taken from an earlier run only where the sum is the same: over the
  sources of the crate and of each library below it, their lines of crates.txt, HANDLES, the kit's list, its prover and
  its scripts, and this file; of an edit also over its text and what tries it (rt_ci.py, changed_functions.py).
- It is kept only after `rt ci` itself passed it, with a sum of each file that it made. A file that differs from its sum
  when it is taken, or is missing, or a folder of somebody else's: all is proved anew.
- Nothing is taken that was run: programs and tests run in each gate.
- The folder is `parish-gate` in XDG_CACHE_HOME, else in ~/.cache. PARISH_GATE_ANEW=1 takes nothing from it, and so
  proves everything from nothing.
"""

from __future__ import annotations

import hashlib
import os
import pwd
import shutil
import tempfile

HERE = os.path.dirname(os.path.abspath(__file__))
TRIES = ("rt_ci.py", "changed_functions.py")


def sum_of(path: str) -> str:
    with open(path, "rb") as file:
        return hashlib.file_digest(file, "sha256").hexdigest()


def files_below(folder: str) -> list[str]:
    """The plain files of a folder, by their paths in it; a link or anything else is an error."""
    found = []
    for at, folders, files in os.walk(folder):
        folders.sort()
        for name in sorted(files):
            path = os.path.join(at, name)
            if os.path.islink(path) or not os.path.isfile(path):
                raise OSError(f"{path} is no plain file")
            found.append(os.path.relpath(path, folder))
    return found


def made_by(crate, tests: bool) -> list[str]:
    """What a proof leaves in the crate's folder out: a library, or a program as each compiler builds it."""
    if crate.makes_rlib() and not tests:
        return [f"rlib/{crate.name}.rlib"]
    name = f"{crate.name}_tests" if tests else crate.name
    return [f"{name}{end}" for end in ("", ".o", ".by-rattle", ".by-rattle.o")]


class KeptProofs:
    """The folder of this user in which results are, each in a folder with the name of its crate and its sum."""

    def __init__(self, module, root: str, environment=os.environ):
        home = environment.get("XDG_CACHE_HOME") or os.path.join(pwd.getpwuid(os.getuid()).pw_dir, ".cache")
        self.folder = os.path.join(home, "parish-gate")
        self.takes = environment.get("PARISH_GATE_ANEW", "") != "1"
        self.taken = {"proofs": 0, "tests": 0, "edits": 0}
        kit = module.KIT
        paths = [f"{kit}/WHAT", f"{kit}/KIT-ID", f"{kit}/bin/rattle", f"{kit}/bin/rattle-link"]
        paths += [os.path.realpath(module.__file__), os.path.realpath(module.rtlib.__file__)]
        paths += [os.path.abspath(__file__)]
        handles = os.path.join(root, "HANDLES")
        self.base = [sum_of(it) for it in paths] + [sum_of(handles) if os.path.isfile(handles) else "none"]
        self.tries = [sum_of(os.path.join(HERE, it)) for it in TRIES]
        self.kept: list[str] = []
        os.makedirs(self.folder, mode=0o700, exist_ok=True)
        if os.stat(self.folder).st_uid != os.getuid() or os.path.islink(self.folder):
            self.takes = False

    def place(self, crate, what: str, more: str = "") -> str:
        """Where the result is, if it is kept: by the sum of all that it is made from."""
        key = hashlib.sha256(repr((self.base, crate.stamp(), what, more)).encode()).hexdigest()
        return os.path.join(self.folder, f"{crate.name}-{what}-{key[:40]}")

    def give(self, crate, tests: bool) -> str | None:
        """Puts what is kept into the crate's folder out; what the proof said, or None where nothing fits."""
        place = self.place(crate, "tests" if tests else "proof")
        if not self.takes or not os.path.isdir(place):
            return None
        try:
            said = self.checked(place)
            for name in made_by(crate, tests):
                put(os.path.join(place, "made", name), os.path.join(crate.folder, "out", name))
        except (OSError, ValueError):
            return None
        self.taken["tests" if tests else "proofs"] += 1
        return said

    def checked(self, place: str) -> str:
        """What the proof said, after each file has been compared with its sum."""
        with open(os.path.join(place, "sums"), encoding="utf-8") as file:
            sums = dict(line.rstrip("\n").split("  ", 1)[::-1] for line in file)
        if set(sums) != set(files_below(place)) - {"sums"}:
            raise ValueError(f"{place} has other files than its list")
        if any(sum_of(os.path.join(place, name)) != known for name, known in sums.items()):
            raise ValueError(f"{place} has a file that differs from its sum")
        with open(os.path.join(place, "said"), encoding="utf-8") as file:
            return file.read()

    def keep(self, crate, tests: bool, said: str) -> None:
        """Keeps what a proof made that has passed; whole or not at all."""
        self.written(self.place(crate, "tests" if tests else "proof"), said, crate, made_by(crate, tests))

    def refusal(self, crate, edit: str) -> str | None:
        """What the prover said of an edit that it refused, of this very text over these very sources."""
        place = self.place(crate, "edit", self.of_edit(edit))
        if not self.takes or not os.path.isdir(place):
            return None
        try:
            said = self.checked(place)
        except (OSError, ValueError):
            return None
        self.taken["edits"] += 1
        return said

    def keep_refusal(self, crate, edit: str, said: str) -> None:
        self.written(self.place(crate, "edit", self.of_edit(edit)), said, crate, [])

    def of_edit(self, edit: str) -> str:
        return repr((self.tries, os.path.basename(edit), sum_of(edit)))

    def summary(self) -> str:
        """How many results were taken, by what they are of: `90 proofs, 1 tests, 82 edits`."""
        return ", ".join(f"{count} {what}" for what, count in self.taken.items())

    def forget(self) -> None:
        """Removes what this run has kept: a source has changed under it."""
        for place in self.kept:
            shutil.rmtree(place, ignore_errors=True)

    def written(self, place: str, said: str, crate, names: list[str]) -> None:
        room = tempfile.mkdtemp(dir=self.folder, prefix=".new-")
        try:
            for name in names:
                put(os.path.join(crate.folder, "out", name), os.path.join(room, "made", name))
            with open(os.path.join(room, "said"), "w", encoding="utf-8") as file:
                file.write(said)
            lines = [f"{sum_of(os.path.join(room, it))}  {it}\n" for it in files_below(room)]
            with open(os.path.join(room, "sums"), "w", encoding="utf-8") as file:
                file.writelines(lines)
            shutil.rmtree(place, ignore_errors=True)
            os.rename(room, place)
            self.kept.append(place)
        except OSError:
            shutil.rmtree(room, ignore_errors=True)


def put(path: str, to: str) -> None:
    """Copies a file or a folder where it is there, in place of what stood there."""
    if os.path.isdir(path):
        shutil.rmtree(to, ignore_errors=True)
        shutil.copytree(path, to)
    elif os.path.isfile(path):
        os.makedirs(os.path.dirname(to), exist_ok=True)
        shutil.copy2(path, to)
