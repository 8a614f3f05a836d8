"""States that are filled, asked and changed. Each question is put to the state itself and to a view of it."""

from __future__ import annotations

from typing import NamedTuple

from rows import Ask, Case, Line, given, kept, number, row

DIGEST = "07" * 32


class Scene(NamedTuple):
    """Rows that change a new state, and what it answers behind them."""

    name: str
    changes: tuple[Ask, ...]
    asks: tuple[Ask, ...]


def change(wanted: str, *words: object) -> Ask:
    return Ask(row("change", *words), wanted)


def ask(wanted: str, *words: object) -> Ask:
    return Ask(row(*words), wanted + "\n")


def put(at: int, lines: tuple[Line, ...], before: str = "none\n") -> tuple[Ask, ...]:
    return (*given(lines), change(before, "put", at))


def place(name: str, parent: int | None = None) -> tuple[Line, ...]:
    return (Line(0, "place", name, parent),)


def person(name: str) -> tuple[Line, ...]:
    return (Line(0, "person"), Line(1, "name", name))


def entry(source: int, kind: str, page: str, item: int) -> tuple[Line, ...]:
    return (
        Line(0, "entry", kind),
        Line(1, "key", f"{item} {page}", source),
        Line(1, "page", page),
        Line(1, "item", str(item)),
        Line(1, "text", ""),
    )


def pointer(number: int) -> tuple[Line, ...]:
    """A carried line of a person with a pointer below it."""
    return (Line(1, "carried"), Line(2, "_SEE", ""), Line(3, "_SEE", None, number))


# Two persons, their family, a source in a repository, and a citation of the family.
FAMILY = {
    10: (Line(0, "citation", None, 8), Line(1, "source", None, 5)),
    6: (Line(0, "repo"),),
    5: (Line(0, "source", "Ashby register"), Line(1, "holding", None, 6)),
    8: (
        Line(0, "family"),
        Line(1, "partner", "wife", 7),
        Line(2, "side"),
        Line(3, "_SEE", ""),
        Line(4, "_SEE", None, 6),
        Line(1, "child", None, 9),
    ),
    9: person("Tom /Lee/"),
    7: (*person("Ann /Lee/"), *pointer(5)),
}
NAMED_BY = {5: (7, 10), 6: (5, 8), 7: (8,), 8: (10,), 9: (8,), 10: (), 11: (), 0: ()}

# The slip of a merge of 13 into 9, which was undone, with the record of 13 before it.
THOS = person("Thos /Lee/")
SLIP = f"keep 9\ngone 13\nundone\nchange 13\n{kept(THOS)}to\nnone\n"
RECEIPT = f"{DIGEST} 11 1\n"


def put_slip(before: str) -> tuple[Ask, ...]:
    return (*given(THOS), change(before, "put-slip", 11, 9, 13, 13, "undone"))


def put_receipt(before: str) -> Ask:
    return change(before, "put-receipt", "m1", 7, 11, 1)


def named_by(at: int, numbers: tuple[int, ...]) -> Ask:
    return ask(" ".join(["referrers", *map(str, numbers)]), "referrers", at)


def found(at: int, lines: tuple[Line, ...] | None) -> Ask:
    return Ask(row("record", at), "none\n" if lines is None else kept(lines))


FAMILY_CHANGES = (
    *(ask for at in FAMILY for ask in put(at, FAMILY[at])),
    *put_slip("none\n"),
    put_receipt("none\n"),
    change("", "next", 12),
)
FAMILY_ASKS = (
    *(found(at, FAMILY.get(at)) for at in NAMED_BY),
    *(named_by(*pair) for pair in NAMED_BY.items()),
    Ask(row("receipt", "m1"), RECEIPT),
    ask("none", "receipt", "m2"),
    ask("none", "receipt", "M1"),
    Ask(row("slip", 11), SLIP),
    ask("none", "slip", 10),
    ask("none", "slip", 9),
    ask("12", "next"),
)

PLACES = (
    *put(4, place("Ashby, Kent")),
    *put(2, place("Ashby", 1)),
    *put(1, place("Kent")),
    *put(3, place("Ashby")),
)


def place_at(path: str, at: int | None) -> Ask:
    return ask(number(at), "place", path)


# Numbers and the keys of entries; each of the first five differs in one part from the last two.
ENTRIES = (
    (2, (1, "BURIAL", "f. 3", 2)),
    (3, (1, "BURIAL", "f. 4", 1)),
    (4, (1, "BURIAL", "", 1)),
    (5, (1, "BAPTISM", "f. 3", 1)),
    (6, (9, "BURIAL", "f. 3", 1)),
    (8, (1, "BURIAL", "f. 3", 1)),
    (7, (1, "BURIAL", "f. 3", 1)),
)


def entry_at(key: tuple[int, str, str, int], at: int | None) -> Ask:
    return ask(number(at), "entry", *key)


NEW = Scene(
    "a new state",
    (),
    (
        ask("1", "next"),
        ask("none", "record", 1),
        ask("none", "receipt", "m1"),
        ask("none", "slip", 1),
        named_by(1, ()),
        place_at("", None),
        entry_at((1, "BURIAL", "f. 3", 1), None),
    ),
)

SCENES = (
    NEW,
    Scene("a family", FAMILY_CHANGES, FAMILY_ASKS),
    Scene(
        "places",
        PLACES,
        (
            place_at("Kent", 1),
            place_at("Ashby, Kent", 2),
            place_at("Ashby", 3),
            place_at("Ashby,Kent", None),
            place_at("Ashby, ", None),
            place_at("", None),
            place_at("Ashby, Kent, ", None),
            place_at("ashby, kent", None),
            named_by(1, (2,)),
        ),
    ),
    Scene(
        "entries",
        tuple(ask for at, key in ENTRIES for ask in put(at, entry(*key))),
        (
            *(entry_at(key, min(n for n, other in ENTRIES if other == key)) for _, key in ENTRIES),
            entry_at((1, "MARRIAGE", "f. 3", 1), None),
            entry_at((2, "BURIAL", "f. 3", 1), None),
            entry_at((1, "BURIAL", "f. 3 ", 1), None),
            entry_at((1, "BURIAL", "f. 3", 3), None),
            entry_at((1, "BURIAL", "f.3", 1), None),
        ),
    ),
    Scene(
        "a record put where one stood, and one taken out",
        (
            *PLACES,
            *put(3, person("Eva /Ray/"), kept(place("Ashby"))),
            change(kept(place("Ashby", 1)), "take", 2),
            change("none\n", "take", 2),
        ),
        (
            found(3, person("Eva /Ray/")),
            found(2, None),
            place_at("Ashby, Kent", 4),
            place_at("Ashby", None),
            named_by(1, ()),
        ),
    ),
    Scene(
        "a slip and a receipt put again, and the slip taken out",
        (
            *FAMILY_CHANGES,
            *put_slip(SLIP),
            change(SLIP, "take-slip", 11),
            change("none\n", "take-slip", 11),
            put_receipt(RECEIPT),
        ),
        (ask("none", "slip", 11), Ask(row("receipt", "m1"), RECEIPT)),
    ),
    Scene(
        "another receipt under a token",
        (
            put_receipt("none\n"),
            change(RECEIPT, "put-receipt", "m1", 255, 0, 0),
            change("none\n", "put-receipt", "m2", 0, 1, 2),
        ),
        (
            Ask(row("receipt", "m1"), "ff" * 32 + " 0 0\n"),
            Ask(row("receipt", "m2"), "00" * 32 + " 1 2\n"),
            ask("none", "receipt", "m"),
        ),
    ),
    Scene(
        "the slip of a record that still stands",
        (
            *put(9, person("Tom /Lee/")),
            *given(THOS),
            change("none\n", "put-slip", 14, 9, 13, 9, "done"),
        ),
        (
            Ask(
                row("slip", 14),
                f"keep 9\ngone 13\ndone\nchange 9\n{kept(THOS)}to\n{kept(person('Tom /Lee/'))}",
            ),
        ),
    ),
    Scene(
        "places without a smaller parent",
        (*put(1, place("Ashby", 1)), *put(2, place("Ashby", 3))),
        (place_at("Ashby", None), place_at("Ashby, Ashby", None), named_by(3, (2,)), named_by(1, (1,))),
    ),
    Scene(
        "a path of three places",
        (
            *put(1, place("England")),
            *put(2, place("Kent", 1)),
            *put(7, place("Ashby", 2)),
            *put(8, place("Ashby", 1)),
            *put(9, place("Ashby", 5)),
            *put(5, person("Ann /Lee/")),
        ),
        (
            place_at("Ashby, Kent, England", 7),
            place_at("Ashby, England", 8),
            place_at("Kent, England", 2),
            place_at("Ashby", None),
            place_at("Ashby, Kent", None),
            named_by(1, (2, 8)),
        ),
    ),
    Scene(
        "places with commas and empty names",
        (
            *put(1, place("")),
            *put(2, place("", 1)),
            *put(3, place("Mill\nField, Ashby", 1)),
        ),
        (place_at("", 1), place_at(", ", 2), place_at("Mill\nField, Ashby, ", 3)),
    ),
    Scene(
        "the greatest numbers",
        (
            *put(4_294_967_295, person("Ann /Lee/")),
            *put(1, place("Ashby", 4_294_967_295)),
            change("", "next", 4_294_967_295),
        ),
        (
            found(4_294_967_295, person("Ann /Lee/")),
            named_by(4_294_967_295, (1,)),
            ask("4294967295", "next"),
        ),
    ),
)

# A view of memory never fails.
FAILURES = ask("0", "failures")


def through(how: str, asks: tuple[Ask, ...]) -> list[Ask]:
    return [Ask(f"{how}\t{asked.row}", asked.wanted) for asked in asks]


def cases(scene: Scene):
    """The rows of one run: each change, the questions, and those of an empty state."""
    yield from (Case(f"{scene.name}: {asked.row!r}", (asked,)) for asked in scene.changes)
    looks = (*scene.asks, FAILURES)
    for how, asks in (("state", scene.asks), ("view", looks)):
        yield from named(scene, through(how, asks))
    yield Case(f"{scene.name}: new", (change("", "new"),))
    yield from named(scene, through("state", NEW.asks))


def named(scene: Scene, asks: list[Ask]):
    return (Case(f"{scene.name}: {asked.row!r}", (asked,)) for asked in asks)
