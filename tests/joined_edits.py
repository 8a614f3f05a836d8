"""Tries many edits of a crate in one check: each in a function of its own, so that each is judged by itself.

    python3 tests/joined_edits.py [--gate] [--jobs N] NAME..

What a function has to show follows from its own body and from the contracts of what it calls. So an edit within
the body of a function changes the goals of that function only, and a check of a copy in which each of several
functions has an edit refuses each of them on its own: an edit counts as refused only if a goal of its own
function is not proved. Only these functions are checked, with what they call (`--only`). Edits of one function are
tried in turns, an edit that changes more than one body is tried as the gate does (rt_ci.py), and so is one that no
turn decided (a function is not looked at while what it calls is not proved). `--gate` takes those of the crates'
folders must-fail too. What is refused is printed after each turn; each crate has a line at its end, and the last line
is `N passed, M failed`.

Libraries below the crates are those that the gate keeps, or are proved first.
"""

from __future__ import annotations

import copy
import functools
import os
import re
import shutil
import subprocess
import sys
import tempfile
import time
from dataclasses import dataclass

import edits as alone
import rt_ci
from changed_functions import bodies, changed_function

sys.dont_write_bytecode = True
NAMES = re.compile(r"has no field|is not in scope|has no `|was not admitted")
TURNS = 8


@dataclass(frozen=True)
class Edit:
    """An edit within the body of one function: the pairs of texts, and the lines of that function, from 1.

    `path` is that of the function below the crate.
    """

    name: str
    file: str
    function: str
    path: str
    first: int
    last: int
    pairs: tuple


def pairs_of(path: str):
    """The file of an edit and its pairs of texts; None if it has several files, or changes more than bodies."""
    file, old, pairs = None, None, []
    with open(path, encoding="utf-8") as lines:
        for line in lines.read().split("\n"):
            if line.startswith("file: "):
                if file is not None and file != line[6:].strip():
                    return None
                file = line[6:].strip()
            elif line.startswith("old: "):
                old = line[5:]
            elif line.startswith("new:"):
                new = line[4:].removeprefix(" ")
                if old is None or "/*" in new or "*/" in new or re.search(r"\bfn\b|\bimpl\b", new):
                    return None
                pairs.append((old, new))
    balanced = sum(new.count("{") - new.count("}") - old.count("{") + old.count("}") for old, new in pairs) == 0
    return (file, tuple(pairs)) if file and file.startswith("src/") and pairs and balanced else None


def placed(path: str, folder: str) -> Edit | None:
    """The edit, if all that it changes is within the body of one function."""
    read = pairs_of(path)
    if read is None:
        return None
    file, pairs = read
    with open(os.path.join(folder, file), encoding="utf-8") as source:
        text = source.read()
    if any(text.count(old) != 1 for old, _ in pairs):
        return None
    edited = functools.reduce(lambda now, pair: now.replace(*pair), pairs, text)
    function = changed_function({file: edited}, folder)
    rows = [text[: text.index(old)].count("\n") + 1 for old, _ in pairs]
    for name, first, body, last in bodies(text):
        if function and all(body <= row < last and (row > body or first == body) for row in rows):
            return Edit(os.path.basename(path), file, name, function, first, last, pairs)
    return None


def put(edits: list[Edit], folder: str, room: str):
    """Copies the crate with these edits."""
    for part in ("src", "specs", "proofs"):
        if os.path.isdir(os.path.join(folder, part)):
            shutil.copytree(os.path.join(folder, part), os.path.join(room, part))
    for edit in edits:
        path = os.path.join(room, edit.file)
        with open(path, encoding="utf-8") as source:
            text = source.read()
        for old, new in edit.pairs:
            if text.count(old) != 1:
                raise ValueError(f"{edit.name}: its text is not there once beside {[it.name for it in edits]}")
            text = text.replace(old, new)
        with open(path, "w", encoding="utf-8") as source:
            source.write(text)


def goal_of(edit: Edit, said: str) -> str | None:
    """The line that says which goal of the edit's function is not proved; None if no line does."""
    for found in re.finditer(r"^note: (src/\S+?):(\d+):\d+: (.*not proved.*)$", said, re.M):
        if found[1] == edit.file and edit.first <= int(found[2]) <= edit.last:
            return found[0]
    *within, function = edit.path.split("::")
    proofs = "".join(f"{it}/" for it in within) + rf"\+?{function}"
    for found in re.finditer(rf"^\./proofs/{proofs}/\w+\.antt:\d+:\d+: error: .*$", said, re.M):
        if not NAMES.search(found[0]):
            return found[0]
    return None


class Trial:
    """One crate whose edits are tried."""

    def __init__(self, module, crate, jobs: int):
        self.module, self.crate, self.jobs = module, crate, jobs

    def check(self, edits: list[Edit]):
        """What the prover says of the functions of these edits; None if the crate cannot be read with them at once."""
        with tempfile.TemporaryDirectory(prefix="parish-joined-") as room:
            try:
                put(edits, self.crate.folder, room)
            except ValueError:
                # (one of them has the text that another changes)
                return None
            only = [it for path in sorted({edit.path for edit in edits}) for it in ("--only", path)]
            words = [*self.crate.words(["--jobs", str(self.jobs)], keeps=False), *only]
            how = {"cwd": room, "stdin": subprocess.DEVNULL, "stdout": subprocess.PIPE, "stderr": subprocess.STDOUT}
            rtlib = self.module.rtlib
            ran = subprocess.run([*rtlib.guarded(), rtlib.RATTLE, "check", *words], errors="replace", **how)
            last = ran.stdout.rstrip("\n").split("\n")[-1]
            return ran.stdout if last.startswith("only=") else None

    def decided(self, edits: list[Edit]):
        """Which of these edits, each of a function of its own, are refused, each with the goal that stops it."""
        said = self.check(edits)
        if said is None and len(edits) > 1:
            half = len(edits) // 2
            return {**self.decided(edits[:half]), **self.decided(edits[half:])}
        found = {} if said is None else {edit.name: goal_of(edit, said) for edit in edits}
        return {name: goal for name, goal in found.items() if goal}

    def refused(self, edits: list[Edit]):
        """The edits that are refused, tried in turns: of each function the next one of those that are left."""
        left, found = list(edits), {}
        for _ in range(TURNS):
            turn = list({(it.file, it.first): it for it in reversed(left)}.values())
            if not turn:
                break
            found.update(now := self.decided(turn))
            for name, goal in sorted(now.items()):
                print(f"joined {self.crate.name}/{name}: refused, as it must be: {goal[:160]}", flush=True)
            left = [it for it in left if it.name not in now]
            if len(now) < len(turn) / 3:
                break
        return found


def try_crate(module, crate, with_gate: bool, jobs: int):
    """Tries the edits of a crate, and answers how many were refused and how many were not."""
    begun, spent = time.monotonic(), alone.processor_seconds()
    paths = {os.path.basename(it): it for it in alone.edits_of(crate.name)}
    gate = os.path.join(crate.folder, "must-fail")
    if with_gate and os.path.isdir(gate):
        paths.update({it: os.path.join(gate, it) for it in sorted(os.listdir(gate)) if it.endswith(".edit")})
    joined = [it for path in paths.values() if (it := placed(path, crate.folder))]
    found = Trial(module, crate, jobs).refused(joined)
    failed = 0
    for name in sorted(paths.keys() - found.keys()):
        kind, text = module.must_fail(crate, paths[name], ["--jobs", str(jobs)])
        print(text, flush=True)
        failed += kind not in rt_ci.refused_kinds(module)
    wall, processor = time.monotonic() - begun, alone.processor_seconds() - spent
    refused = len(paths) - failed
    print(f"{crate.name}: {refused} refused ({len(found)} joined), {failed} not, {wall:.0f} s, "
          f"{processor:.0f} s of processor", flush=True)
    return refused, failed


def main(words: list[str]) -> int:
    module = rt_ci.loaded(os.path.realpath(shutil.which("rt") or "rt"))
    jobs = int(words[words.index("--jobs") + 1]) if "--jobs" in words else 1
    names = [it for it in words if not it.startswith("--") and not it.isdigit()]
    if module is None or not names:
        print(__doc__)
        return 1
    os.chdir(alone.ROOT)
    crates = rt_ci.crates(module, alone.ROOT)
    rt_ci.kept_by(module, alone.ROOT, aside=True)
    every = {it.name: it for it in crates}
    passed = failed = 0
    for name in names:
        one = copy.copy(every[name])
        if not alone.has_libraries(module, crates, one):
            return 1
        refused, through = try_crate(module, one, "--gate" in words, jobs)
        passed, failed = passed + refused, failed + through
    print(f"{passed} passed, {failed} failed")
    return 0 if passed and not failed else 1


if __name__ == "__main__":
    sys.exit(main(sys.argv[1:]))
