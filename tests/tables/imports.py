"""Imports that are staged: what the tables have at each stage, what is seen of it, and how it is published or taken out
again. A stage writes 256 rows: first those of `record`, then those of `line`, then the links, what is looked for, and
the spans."""

from __future__ import annotations

from plain import rows_of
from rows import Line, given, kept
from scenes import Filling, Scene, event, person
from states import place

STAGE = 256
PERSON = 5  # a person who was there before
FIRST = 10  # the first number of an import


class Importing(Filling):
    """A filling with one import that is open, beside it the rows that it has still to write."""

    def __init__(self) -> None:
        super().__init__()
        self.noted: dict[int, tuple[Line, ...]] = {}
        self.left: list[tuple[object, ...]] = []
        self.batch, self.after = 0, 0
        self.put(PERSON, person("Ann /Lee/"))
        self.receipt("before", 1, PERSON, 1)
        self.write(FIRST)

    def note(self, number: int, lines: tuple[Line, ...]) -> None:
        """Notes a record of the import that is opened next."""
        self.asks.extend(given(lines))
        self.ask("plan", "put", number)
        self.noted[number] = lines

    def open(self, batch: int, after: int) -> None:
        self.ask("open", batch, after)
        self.tables.open(batch)
        self.batch, self.after = batch, after
        self.left = rows_of(self.noted)
        self.noted = {}

    def stage(self) -> None:
        now, self.left = self.left[:STAGE], self.left[STAGE:]
        self.tables.stage(self.batch, now)
        self.ask("stage", wanted="more\n" if self.left else "all\n")

    def publish(self) -> None:
        self.ask("publish")
        self.tables.publish(self.batch, self.after)

    def remove(self) -> None:
        self.ask("remove")
        self.tables.remove(self.batch)

    def clear(self) -> None:
        """What the opening of an archive does."""
        self.ask("clear")
        for batch in [batch for batch, is_open in self.tables.batches.items() if is_open]:
            self.tables.remove(batch)

    def see_all(self, shown: dict[int, tuple[Line, ...]], hidden=()) -> None:
        """What is read at once, and what is looked for: these records, and none at the hidden numbers."""
        self.read()
        self.ask("tables", "next", wanted=f"{self.tables.next}\n")
        for number, lines in {PERSON: person("Ann /Lee/"), **shown}.items():
            self.see(number, lines)
            self.ask("tables", "record", number, wanted=kept(lines))
        for number in hidden:
            self.see(number, None)
            self.ask("tables", "record", number, wanted="none\n")
            self.ask("tables", "referrers", number, wanted="referrers\n")


def places(count: int) -> dict[int, tuple[Line, ...]]:
    """Places, of which each has three rows: of `record`, of `line`, and of what is looked for."""
    return {FIRST + at: place(f"Kent {at}") for at in range(count)}


def births(count: int) -> dict[int, tuple[Line, ...]]:
    """Events with a date, of which each has four rows, the last two of them of `link` and `span`; of every third the
    first day is open, of every third the last one."""
    dates = ("3 MAR 1799", "BEF 1700", "AFT @#DFRENCH R@ 8")
    return {FIRST + at: event(PERSON, "BIRT", dates[at % 3]) for at in range(count)}


def named(count: int) -> tuple[Line, ...]:
    """A person with so many names: a row of `record` and one of `line`, however many there are."""
    return (Line(0, "person"), *(Line(1, "name", f"Ann /Lee {at}/") for at in range(count)))


# Imports by the number of their rows: none, the fewest of a record, and about one, two and three stages. What is looked
# for begins within a stage and goes on into the next one (600), or has a stage of its own (384); the links begin within
# one and go on (400), and so do the spans (768).
IMPORTS = {
    0: {},
    2: {FIRST: named(0)},
    3: places(1),
    4: {FIRST: named(699), 900: named(0)},
    255: places(85),
    256: {**places(84), 900: named(2), 901: named(0)},
    257: {**places(85), 900: named(0)},
    384: places(128),
    512: {**places(170), 900: named(0)},
    600: places(200),
    400: births(100),
    768: births(192),
}


def stages_of(rows: int) -> int:
    """Stages until the answer is `all`, one of an import of no rows too."""
    return max(1, (rows + STAGE - 1) // STAGE)


def some_of(rows: int) -> list[int]:
    """Some of the numbers of an import, the first and the last among them."""
    numbers = list(IMPORTS[rows])
    return [*numbers[:1], *numbers[100:101], *numbers[-1:]]


def opened(rows: int) -> Importing:
    filling = Importing()
    for number, lines in IMPORTS[rows].items():
        filling.note(number, lines)
    filling.open(1, 1000)
    return filling


def published(rows: int) -> Scene:
    """Nothing is seen of an import until it is published; then all of it is."""
    filling = opened(rows)
    filling.see_all({}, some_of(rows))
    for _ in range(stages_of(rows)):
        filling.stage()
        filling.compare()
        filling.see_all({}, some_of(rows))
        filling.ask("tables", "place", "Kent 0", wanted="-\n")
    filling.publish()
    filling.see_all(IMPORTS[rows])
    found = FIRST if IMPORTS[rows].get(FIRST) == place("Kent 0") else "-"
    filling.ask("tables", "place", "Kent 0", wanted=f"{found}\n")
    # none is open any more
    for word in ("stage", "publish", "remove"):
        filling.ask(word, wanted="80 Storage\n")
    filling.clear()
    return filling.scene(f"an import of {rows} rows, published")


def taken_out(rows: int, stages: int, word: str) -> Scene:
    """Taken out behind so many stages, by itself or with all that is open: all tables are as before."""
    filling = opened(rows)
    for _ in range(stages):
        filling.stage()
    (filling.remove if word == "remove" else filling.clear)()
    filling.see_all({}, some_of(rows))
    filling.ask("stage", wanted="80 Storage\n")
    return filling.scene(f"an import of {rows} rows, {stages} stages, {word}")


def again() -> Scene:
    """Behind one that was taken out the same numbers and the same batch are taken."""
    filling = opened(257)
    filling.stage()
    filling.remove()
    for number, lines in places(3).items():
        filling.note(number, lines)
    filling.open(1, 13)
    filling.stage()
    filling.publish()
    filling.see_all(places(3), (13, 900))
    return filling.scene("an import behind one that was taken out")


def several() -> Scene:
    """Two batches are open, one with a person of 700 lines, and between them one is published."""
    filling = opened(4)
    filling.stage()
    filling.note(20, place("Ashby"))
    filling.open(2, 1001)
    filling.stage()
    filling.publish()
    for number in range(30, 33):
        filling.note(number, person(f"Tom /Parry {number}/"))
    filling.note(33, (Line(0, "person"), *(Line(1, "name", "Ann /Lee/") for _ in range(256))))
    filling.note(34, (Line(0, "person"), *(Line(1, "name", "Ann /Lee/") for _ in range(255))))
    filling.open(7, 1002)
    filling.stage()
    filling.see_all({20: place("Ashby")}, (FIRST, 30, 33, 34))
    filling.compare()
    filling.clear()
    filling.see_all({20: place("Ashby")}, (FIRST, 30, 33, 34))
    # where all are closed, nothing is done
    filling.clear()
    return filling.scene("two open batches and a closed one between them")


def linked() -> Scene:
    """A family in front of the persons that it names, one of whom was there before; with an answer that is kept."""
    family = (Line(0, "family"), Line(1, "partner", "husband", 11), Line(1, "partner", "wife", PERSON))
    filling = Importing()
    for taken in (True, False):
        filling.note(10, family)
        filling.note(11, person("Tom /Lee/"))
        filling.ask("plan", "put-receipt", "import", 9, 10, 2)
        filling.open(3, 12)
        filling.stage()
        filling.see_all({}, (10, 11))
        filling.ask("tables", "referrers", PERSON, wanted="referrers\n")
        filling.ask("tables", "receipt", "import", wanted="none\n")
        filling.compare()
        if taken:
            filling.remove()
            filling.see_all({}, (10, 11))
    filling.publish()
    filling.tables.keep("import", 9, 10, 2)
    filling.see_all({10: family, 11: person("Tom /Lee/")}, (12,))
    filling.ask("tables", "referrers", PERSON, wanted="referrers 10\n")
    filling.ask("tables", "receipt", "import", wanted="09" * 32 + " 10 2\n")
    return filling.scene("an import of records that name others, and its receipt")


def refused() -> Scene:
    """A batch that is there, and one that is not. A line that names no record is staged: the database tests no link."""
    filling = Importing()
    filling.note(10, place("Kent"))
    filling.noted = {}
    filling.ask("open", 0, 11, wanted="80 Storage\n")
    filling.ask("remove", wanted="80 Storage\n")
    filling.note(10, (Line(0, "family"), Line(1, "partner", "husband", 99)))
    filling.open(1, 11)
    filling.stage()
    filling.compare()
    filling.remove()
    filling.see_all({}, (10, 99))
    return filling.scene("imports that are refused")


def short() -> Scene:
    """A short one, for refused memory."""
    filling = Importing()
    filling.note(10, place("Kent"))
    filling.open(1, 11)
    filling.stage()
    filling.remove()
    filling.note(10, person("Tom /Lee/"))
    filling.open(1, 11)
    filling.stage()
    filling.clear()
    filling.note(10, person("Tom /Lee/"))
    filling.open(1, 11)
    filling.stage()
    filling.publish()
    filling.see_all({10: person("Tom /Lee/")})
    return filling.scene("short imports")


def scenes():
    for rows in IMPORTS:
        yield published(rows)
    for rows in (0, 3, 4, 256, 257, 384, 600, 400, 768):
        for stages in range(stages_of(rows) + 1):
            yield taken_out(rows, stages, "remove")
            yield taken_out(rows, stages, "clear")
    yield from (again(), several(), linked(), refused(), short())
