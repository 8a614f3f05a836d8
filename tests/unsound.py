"""Archives that somebody else has spoilt (spoilt.py), under every command: what is shown, refused and left. What only
reads leaves all tables as they are. What shows an archive to visitors shows nothing of one that is not sound, and
never the name of a living person. What is refused changes nothing."""

from __future__ import annotations

import functools

from audits import Audited
from harness import Case, Outcome, Tools, demand, refused, run, without_hints
from rooms import visited
from spoilt import PAIRS, Tables
from table.making import between
from visits import request

TODAY = ("--today", "2024-01-01")
# What an archive is refused with that is not sound, or none at all.
REFUSED = (40, 80, 82)
# What else a request may be refused with: what it names is no record any more.
MISSING = (50,)
LIVING = b"Joe"  # the name of person 16, and of the one who is named in an entry that is closed

# Words after FILE of the commands that only read; those of SHOWN hide the living. `serve` has a visitor.
READ = {
    "audit": (),
    "export": (),
    "export --plain": ("--plain",),
    "days": ("--from", "0001-01-01", "--to", "9999-12-31", "--words"),
}
SHOWN = {
    "export --public": ("--public", *TODAY),
    "export --plain --public": ("--plain", "--public", *TODAY),
    "sheet person": ("person", "16", *TODAY),
    "sheet family": ("family", "8", *TODAY),
    "sheet pedigree": ("pedigree", "5", *TODAY, "--generations", "12"),
    "sheet register": ("register", "4", *TODAY),
    "serve": (),
}
TARGETS = ("/", "/person/16", "/person/5", "/family/8", "/pedigree/5", "/register/4", "/surname?name=lee")
# Commands that write: the words after FILE, and what they are given.
WRITTEN = {
    "apply": ((), b"z,person,Kit /Lee/,M\n"),
    "entries": (("--source", "4", "--token", "z"), b"BURIAL,f. 9,1,,,Kit,buried,Kit\n"),
    "import": (("--token", "z"), between("0 @I@ INDI", "1 NAME Kit /Lee/")),
}


def told(at, name: str, words, given=b"", target=None) -> Outcome:
    """What a command tells of an archive; of a room its answer to one visitor."""
    if target is None:
        return run(at.parish, (name.split()[0], at.file, *words), given)
    reply, ended = visited(at, request(target))
    return Outcome(reply + ended.out, ended.err, ended.status)


def all_told(at, commands):
    """Each command with what it tells, by names; `serve` for each of its targets."""
    for name, words in commands.items():
        for target in TARGETS if name == "serve" else (None,):
            yield f"{name} {target or ''}".strip(), lambda name=name, words=words, target=target: told(
                at, name, words, b"", target
            )


@functools.cache
def whole(tools) -> tuple[bytes, dict[str, Outcome]]:
    """The file of an archive that nobody has spoilt, and what is shown of it."""
    with Audited(tools) as at:
        at.of_pairs()
        with open(at.file, "rb") as file:
            image = file.read()
        shown = {name: call() for name, call in all_told(at, SHOWN)}
        wrong = [name for name, got in shown.items() if got.status or not got.out or got.err or LIVING in got.out]
        demand(not wrong, f"of an archive that is sound: {wrong}")
        return image, shown


class Spoilt(Audited):
    """A folder with an archive that a change has spoilt."""

    def by(self, image: bytes, change):
        with open(self.file, "wb") as file:
            file.write(image)
        with Tables(self.file) as tables:
            change(tables)
        return self


def is_refused(got: Outcome, numbers=REFUSED) -> bool:
    """A refusal, perhaps after a line on what is wrong, or with the row; and nothing on standard output."""
    last = without_hints(got.err).decode().splitlines()[-1:]
    named = [without_hints(refused(number).err).decode().strip() for number in numbers]
    return got.status == 1 and got.out == b"" and any(line.startswith(name) for line in last for name in named)


def readers_leave_it(tools, pair):
    image, shown = whole(tools)
    with Spoilt(tools) as at:
        before = at.by(image, pair.spoilt).tables()
        for name, call in all_told(at, SHOWN):
            got = call()
            # (a rule on slips, spans or the next number may be broken where all that is shown is sound)
            demand(is_refused(got) or got == shown[name], f"{name}: {got}")
            demand(LIVING not in got.out + got.err, f"{name}: it shows who is living")
            demand(at.tables() == before, f"{name}: the tables changed")
        for name, call in all_told(at, READ):
            got = call()
            begun = Outcome(b"", got.err, got.status)  # a refused export may have written a beginning
            demand((got.status == 0 and name != "audit") or is_refused(begun), f"{name}: {got}")
            demand(at.tables() == before, f"{name}: the tables changed")


def writers_are_refused_or_do_it(tools, pair):
    image, _ = whole(tools)
    for name, (words, given) in WRITTEN.items():
        with Spoilt(tools) as at:
            before = at.by(image, pair.spoilt).tables()
            got = told(at, name, words, given)
            if is_refused(got, REFUSED + MISSING) or b",refused,40,BadStored\n" in got.out:
                at.audit()  # an opening takes out what was staged of a file before an 80
                demand(at.tables() == before, f"{name}: refused, and the tables changed")
            else:
                demand(got.status == 0 and got.err == b"" and got.out.count(b"\n") == 1, f"{name}: {got}")
                there = set(at.rows_of("SELECT no FROM record"))
                lost = [row[0] for row in before["record"] if (row[0],) not in there]
                demand(not lost, f"{name}: the records {lost} are gone")


def cases(tools: Tools):
    for pair in PAIRS:
        yield Case(f"unsound: {pair.name}, to whoever reads it", lambda pair=pair: readers_leave_it(tools, pair))
        yield Case(
            f"unsound: {pair.name}, to whoever writes it", lambda pair=pair: writers_are_refused_or_do_it(tools, pair)
        )
