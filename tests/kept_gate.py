"""What the gate takes from an earlier run (kept_proofs.py): only what was made from the same, and is as it was kept."""

from __future__ import annotations

import os
import re
import tempfile
from dataclasses import dataclass
from types import SimpleNamespace

import kept_proofs
import rt_ci
from harness import Case, Tools, demand


@dataclass
class Library:
    """A crate with what KeptProofs asks of one."""

    folder: str
    sum: str
    out: object = None
    name: str = "register"

    def stamp(self):
        return f"{self.sum} {text_of(f'{self.folder}/src/lib.rt')}"

    def below(self):
        return []

    def makes_rlib(self):
        return True


def library(*given):
    """One whose sum is worked out once, as in a run of the gate."""
    return type("Remembered", (Library,), {"stamp": rt_ci.remembered(Library.stamp)})(*given)


def write(path: str, text: str) -> None:
    os.makedirs(os.path.dirname(path), exist_ok=True)
    with open(path, "w", encoding="utf-8") as file:
        file.write(text)


def text_of(path: str) -> str:
    with open(path, encoding="utf-8") as file:
        return file.read()


class Room:
    """A kit, a crate, and a gate whose proofs write a library and count how often they ran."""

    def __init__(self, top: str):
        self.top, self.runs, self.environment = top, 0, {"XDG_CACHE_HOME": f"{top}/cache"}
        for name in ("WHAT", "KIT-ID", "bin/rattle", "bin/rattle-link", "bin/rt", "bin/rtlib.py"):
            write(f"{top}/kit/{name}", name)
        write(f"{top}/HANDLES", "Handles allowed: none.")
        write(f"{top}/register/src/lib.rt", "fn pages() {}")

    def store(self):
        kit = f"{self.top}/kit"
        rtlib = SimpleNamespace(__file__=f"{kit}/bin/rtlib.py")
        module = SimpleNamespace(KIT=kit, __file__=f"{kit}/bin/rt", rtlib=rtlib)
        return kept_proofs.KeptProofs(module, self.top, self.environment)

    def prove(self, crate, _flags, _tests):
        self.runs += 1
        write(f"{crate.folder}/out/rlib/register.rlib/lib", "proved")
        print("logic=proved", file=crate.out)
        return 0 if "fn" in text_of(f"{crate.folder}/src/lib.rt") else 1

    def gate(self, sum="a", prove=None):
        """A run of the gate in a clone of its own: its status, and what it said."""
        with tempfile.TemporaryFile("a+") as out:
            crate = library(f"{self.top}/register", sum, out)
            status = rt_ci.keeping(prove or self.prove, self.store())(crate, [], False)
            out.seek(0)
            return status, out.read()


def in_room(test):
    def run():
        with tempfile.TemporaryDirectory() as top:
            test(Room(top))

    return run


def the_same_is_taken(room):
    room.gate()
    made = f"{room.top}/register/out/rlib/register.rlib/lib"
    os.remove(made)
    status, said = room.gate()
    demand(status == 0 and room.runs == 1, "a proof of the same sum ran again")
    demand("an earlier run" in said and "logic=proved" in said, f"it is not said what was taken: {said}")
    demand(text_of(made) == "proved", "the library is not in its place")


def what_differs_is_proved(room):
    room.gate()
    room.gate(sum="b")
    demand(room.runs == 2, "a proof of other sources was taken")
    for count, name in enumerate(("HANDLES", "kit/WHAT", "kit/bin/rattle", "kit/bin/rt", "kit/bin/rtlib.py"), 3):
        write(f"{room.top}/{name}", "changed")
        room.gate()
        demand(room.runs == count, f"a proof was taken though {name} has changed")


def a_damaged_one_is_proved(room):
    room.gate()
    store = room.store()
    place = store.place(library(f"{room.top}/register", "a"), "proof")
    for count, name in enumerate(("made/rlib/register.rlib/lib", "said", "sums", "made/rlib/register.rlib/more"), 2):
        write(f"{place}/{name}", "changed")
        room.gate()
        demand(room.runs == count, f"a proof was taken though its {name} has changed")
    os.remove(f"{place}/made/rlib/register.rlib/lib")
    room.gate()
    demand(room.runs == 6, "a proof was taken of which a file is missing")


def a_failed_one_is_not_kept(room):
    write(f"{room.top}/register/src/lib.rt", "nothing")
    demand([room.gate()[0], room.gate()[0]] == [1, 1] and room.runs == 2, "a proof that failed was kept")


def a_changed_source_is_not_kept(room):
    def prove(crate, flags, tests):
        write(f"{crate.folder}/src/lib.rt", "fn pages() {} // changed")
        return room.prove(crate, flags, tests)

    room.gate(prove=prove)
    write(f"{room.top}/register/src/lib.rt", "fn pages() {}")
    room.gate()
    demand(room.runs == 2, "a proof was kept though its source changed under it")


def nothing_is_taken_anew(room):
    room.gate()
    room.environment["PARISH_GATE_ANEW"] = "1"
    room.gate()
    demand(room.runs == 2, "a proof was taken in a run from nothing")


def an_edit_is_taken_by_its_text(room):
    crate, edit = library(f"{room.top}/register", "a"), f"{room.top}/one.edit"
    write(edit, "file: src/lib.rt")
    room.store().keep_refusal(crate, edit, "refused")
    demand(room.store().refusal(crate, edit) == "refused", "the edit is not known")
    demand(room.store().refusal(library(crate.folder, "b"), edit) is None, "it is known over other sources")
    write(edit, "file: src/main.rt")
    demand(room.store().refusal(crate, edit) is None, "another edit of its name is known")


def kit(crate, **words):
    """A kit whose check of an edit's function does not prove it, and whose own try of it counts how often it ran."""
    said = f"note: src/lib.rt:1:1: it is not proved\nfn {crate.name}::pages: not proved\nonly=1 proved=0"

    def must_fail(*_given):
        raise AssertionError("the whole crate was checked, though the function is not proved")

    return SimpleNamespace(
        read_edit=lambda _edit, folder: ({"src/lib.rt": "fn pages() {\n    2\n}\n"}, None),
        checked=lambda *_given: SimpleNamespace(stdout=said, returncode=1),
        unread=lambda _line, _texts: False,
        rtlib=SimpleNamespace(STALE=re.compile("stale")),
        must_fail=must_fail,
        **words,
    )


def a_refused_edit_is_one_of_the_kits_kinds(room):
    write(f"{room.top}/register/src/lib.rt", "fn pages() {\n    1\n}\n")
    crate, edit = library(f"{room.top}/register", "a"), f"{room.top}/one.edit"
    write(edit, "file: src/lib.rt\nold:     1\nnew:     2\n")
    older, newer = kit(crate), kit(crate, REFUSED="refused", AT_LIMIT="limit")
    for module, kind in ((older, True), (newer, "refused")):
        found, said = rt_ci.tried(module)(crate, edit, [])
        demand(found == kind, f"a refused edit counts as {found!r}, which that kit does not know")
        demand("not proved" in said, f"it is not said what stops it: {said}")


def an_edit_that_is_proved_is_not_refused(_room):
    newer = kit(library("", "a"), REFUSED="refused", AT_LIMIT="limit", MISSED="missed")
    kinds = rt_ci.refused_kinds(newer)
    demand("missed" not in kinds and "refused" in kinds, f"refused are {kinds}")
    demand(rt_ci.refused_kinds(SimpleNamespace()) == (True,), "older kits answer True and False")


def add_edits_of_kit(tasks, crate, edits):
    """Adds tasks as the kit does: before two edits a check of the crate as it stands."""
    for number, edit in enumerate(edits):
        tasks[crate.name, "edits", number] = f"try {edit}"
    if len(edits) > 1:
        tasks[crate.name, "seed"] = "check"
    return lambda given: [given[crate.name, "edits", it] for it in range(len(edits))], lambda: {0: f"known {edits[0]}"}


def each_edit_is_tried_by_itself(_room):
    tasks: dict = {}
    found, known = rt_ci.each_by_itself(add_edits_of_kit)(tasks, library("", "a"), ["one", "two"])
    wanted = {("register", "edits", 0): "try one", ("register", "edits", 1): "try two"}
    demand(tasks == wanted, f"the tasks are {tasks}")
    given = {("register", "edits", 0): "one refused", ("register", "edits", 1): "two refused"}
    demand(found(given) == ["one refused", "two refused"], f"their results are {found(given)}")
    demand(known() == {0: "known one", 1: "known two"}, f"known from earlier runs are {known()}")


TESTS = (
    ("takes a proof of the same sum", the_same_is_taken),
    ("proves what has another source, kit or HANDLES", what_differs_is_proved),
    ("proves again what differs from its sums", a_damaged_one_is_proved),
    ("keeps no proof that failed", a_failed_one_is_not_kept),
    ("keeps no proof under which a source changed", a_changed_source_is_not_kept),
    ("takes nothing where all is to be proved anew", nothing_is_taken_anew),
    ("takes an edit by its text and sources", an_edit_is_taken_by_its_text),
    ("counts a refused edit as the kit does", a_refused_edit_is_one_of_the_kits_kinds),
    ("counts an edit that is proved as none refused", an_edit_that_is_proved_is_not_refused),
    ("tries two edits of a crate each by itself", each_edit_is_tried_by_itself),
)


def cases(_tools: Tools):
    for name, test in TESTS:
        yield Case(f"the gate {name}", in_room(test))
