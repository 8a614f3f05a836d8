"""An import by its steps on an archive in files that stays open, and what it answers while an import is open."""

from __future__ import annotations

from table.making import Step, ask, makes, next_is, row, scenario
from table.stored import SAME, STORE

GOOD = 1_000_000  # calls of a file, more than a row makes
NONE = "0 0"  # what a step answers that has no numbers; of a stage that nothing more is left
MORE = "0 1"  # more is left
PERSON = "p1|person|Eva /Lee/|F"


def forest(*lines: str) -> str:
    return "\n".join(["0 HEAD", *lines, "0 TRLR"]) + "\n"


def persons(count: int, *below: str) -> str:
    """Persons, each with the same lines below it. One has two rows, of `record` and of `line`, whatever is below it."""
    return forest(*(line for number in range(count) for line in (f"0 @I{number}@ INDI", *below)))


def imports(text: str, token: str = "i1") -> str:
    return f"{token}|! import|{text}"


Told = list[str | int]


def steps(names: str, told: Told, *requests: str, then: str = "", behind: tuple[str | int, ...] = ()) -> Step:
    """Steps in their order, with what each answers: first and count, or the number of a refusal. `then` come when the
    connection was given back and the archive adopted again."""
    given = row("! steps", "log", GOOD, names.replace(" ", "|"), then.replace(" ", "|"), *requests)
    again = ("again", *behind) if then else ()
    return given.encode(), row("steps", *told, *again).encode()


SMALL = persons(1)
OTHER = persons(2)
MANY = imports(persons(600))
NAMED = imports(persons(600, "1 NAME"))

SCENARIOS = (
    scenario(
        "steps: 600 persons",
        STORE,
        steps(
            "begin stage stage stage publish state audit stage stage stage publish stage state audit",
            [NONE, MORE, MORE, MORE, 86, "1 0", "0 0", MORE, NONE, NONE, "1 600", 85, "601 600", "0 600"],
            MANY,
            PERSON,
            then="state begin stage perform state audit",
            behind=("601 600", "1 600", 85, "601 1", "602 601", "0 601"),
        ),
    ),
    scenario(
        "steps: 600 persons with a name",
        STORE,
        steps(
            "begin stage stage stage stage publish stage publish",
            [NONE, *4 * [MORE], 86, NONE, "1 600"],
            NAMED,
        ),
    ),
    scenario(
        "steps: rows that stages hold just",
        STORE,
        steps("begin stage publish state", [NONE, NONE, "1 128", "129 128"], imports(persons(128))),
        steps("begin stage publish stage publish", [NONE, MORE, 86, NONE, "129 129"], imports(persons(129), "i2")),
    ),
    scenario(
        "steps: nothing to import",
        STORE,
        steps("begin publish state stage", [NONE, "1 0", "1 0", 85], imports(forest())),
        steps("begin stage publish state", [NONE, NONE, "1 0", "1 0"], imports(forest(), "i2")),
        steps("begin stage", ["1 0", 85], imports(forest())),
    ),
    scenario(
        "steps: no import is open",
        STORE,
        steps("stage publish abandon state", [85, 85, 85, "1 0"]),
        SAME,
    ),
    scenario(
        "steps: an import is open",
        STORE,
        steps(
            "begin perform run begin state society stage perform state society abandon abandon state perform state",
            [NONE, 84, 84, 84, 84, "1 0", NONE, MORE, 84, "1 0", NONE, NONE, 85, "1 0", "1 1", "2 1"],
            MANY,
            PERSON,
            then="state run",
            behind=("2 1", "2 600", "1 1"),
        ),
    ),
    scenario(
        "steps: given up before its first row, in the middle and behind its last",
        STORE,
        steps("begin abandon state", [NONE, NONE, "1 0"], imports(SMALL)),
        SAME,
        steps("begin stage abandon state", [NONE, MORE, NONE, "1 0"], MANY),
        SAME,
        steps("begin stage abandon publish", [NONE, NONE, NONE, 85], imports(SMALL)),
        SAME,
        makes(1, "i1", "! import", SMALL),
    ),
    scenario(
        "steps: the token is kept",
        STORE,
        makes(1, "i1", "! import", SMALL),
        steps("begin stage publish abandon state", ["1 1", 85, 85, 85, "2 1"], imports(SMALL)),
        SAME,
        steps("begin stage perform", [52, 85, "2 1"], imports(OTHER), PERSON),
    ),
    scenario(
        "steps: the token of another command",
        STORE,
        makes(1, "u1", "person", "Eva", ""),
        steps("begin stage", [52, 85], imports(SMALL, "u1")),
        SAME,
        next_is(2),
    ),
    scenario(
        "steps: an import is left",
        STORE,
        steps(
            "begin stage stage",
            [NONE, MORE, MORE],
            MANY,
            PERSON,
            then="state stage society",
            behind=("1 0", 85, NONE),
        ),
        SAME,
        steps("begin stage stage", [NONE, MORE, MORE], MANY),
        SAME,
        makes(1, "p1", "person", "Eva /Lee/", "F"),
    ),
    scenario(
        "steps: an import is left with all its rows",
        STORE,
        steps("begin stage", [NONE, NONE], imports(SMALL)),
        SAME,
        steps("begin", [NONE], MANY),
        SAME,
        makes(1, "p1", "person", "Eva /Lee/", "F"),
    ),
    scenario(
        "steps: without an archive, and rows that ask nothing",
        ask("! steps,log,9,begin,", "none"),
        ask("! steps,log,x,begin,", ",refused,90,BadRow"),
        STORE,
        steps("begin perform frob", [90, 90, 90]),
    ),
)
