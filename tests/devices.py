"""Devices that fail: one read or write of a command fails, at each place in turn (fail.c), while the streams move some
bytes a call; and streams that move one byte a call.

94 or 95 is told, what was written is a beginning, and the archive has what was answered, and at 95 perhaps the request
in hand; the same command on good devices then answers and leaves what it does undisturbed. One byte a call changes
nothing.
"""

from __future__ import annotations

import os
from collections.abc import Callable, Iterator

from exports import ARCHIVES
from failing import compiled, failing, piecewise
from harness import Case, Failed, Outcome, Tools, demand, expect, refused, run, tally, written
from imports import LEE, LEE_TOLD
from memory import SAMPLE
from rooms import visited
from undisturbed import BATCH, ROWS, Command, Undisturbed, tables_of
from wants import GIVEN, PAGE, SHEET

MOST = 10_000  # calls that a command makes on a stream, at most
PIECE = 7  # bytes that a stream moves a call
IMPORT = Command("an import", (), ("import", "--token", "i"), LEE, (LEE_TOLD,))
EXPORT = Command("an export", ARCHIVES["register entries, linked and not"][0], ("export",))
REFUSED = {"in": 94, "out": 95}
READING = (ROWS, BATCH, IMPORT)
WRITING = (*READING, EXPORT, SHEET)


def is_refused(got: Outcome, stream: str) -> bool:
    return (got.status, got.err) == (1, refused(REFUSED[stream]).err)


def each_place(is_failed: Callable[[int], bool]) -> int:
    """Fails the calls from the first on until a run meets no such call; answers how many failed."""
    for passed in range(MOST):
        try:
            if not is_failed(passed):
                return passed
        except Failed as failed:
            raise Failed(f"{passed} calls went well: {failed}") from None
    raise Failed("the calls have no end")


def env_of(library: str, stream: str, passed: int, mark: str) -> dict[str, str]:
    return {**failing(library, stream, passed, mark, once=True), "PIECE": str(PIECE)}


def on_an_archive(tools: Tools, command: Command, stream: str) -> int:
    whole = Undisturbed(tools, command)
    with whole.copy() as kept:
        library = compiled(kept.path)

        def is_failed(passed: int) -> bool:
            with whole.copy() as at:
                mark = at.at("mark")
                got = command.run(at, env=env_of(library, stream, passed, mark))
                if not os.path.exists(mark):
                    expect(got, whole.whole)
                    return False
                demand(is_refused(got, stream) and whole.whole.out.startswith(got.out), f"{got}")
                firsts = [b"".join(whole.answers[: n + 1]) for n in range(len(whole.answers))]
                answered = sum(got.out.startswith(first) for first in firsts)
                in_hand = 1 if stream == "out" else 0
                whole.demand_found(at, answered, min(answered + in_hand, len(whole.answers)))
                whole.demand_ended(at)
                return True

        return each_place(is_failed)


def of_a_file(tools: Tools, word: str, stream: str) -> int:
    whole = run(tools.parish, (word,), SAMPLE)
    with Undisturbed(tools, SHEET).copy() as at:
        library = compiled(at.path)

        def is_failed(passed: int) -> bool:
            mark = at.at(f"mark{passed}")
            got = run(tools.parish, (word,), SAMPLE, env=env_of(library, stream, passed, mark))
            if not os.path.exists(mark):
                expect(got, whole)
                return False
            is_none = stream == "in" and got.out
            demand(is_refused(got, stream) and whole.out.startswith(got.out) and not is_none, f"{got}")
            return True

        return each_place(is_failed)


def of_a_room(tools: Tools) -> int:
    """A visitor gets a prefix of the page, all of it if the room fails to read on after it."""
    whole = Undisturbed(tools, SHEET)
    with whole.copy() as at:
        library, (page, ended) = compiled(at.path), visited(at, GIVEN)
        demand(ended == written(b"") and page.endswith(PAGE), f"{page!r} {ended}")

        def is_failed(passed: int) -> bool:
            mark = at.at(f"mark{passed}")
            got, ended = visited(at, GIVEN, env=env_of(library, "room", passed, mark))
            demand(ended == written(b""), f"{ended}")
            if not os.path.exists(mark):
                demand(got == page, f"{got!r}")
                return False
            demand(page.startswith(got) and (passed > 0 or got == b""), f"{got!r}")
            return True

        failed = each_place(is_failed)
        demand(tables_of(at) == whole.tables[0], "the tables changed")
        return failed


def a_byte_a_call(tools: Tools) -> None:
    for command in WRITING:
        whole = Undisturbed(tools, command)
        with whole.copy() as at:
            library = compiled(at.path)
            expect(command.run(at, env=piecewise(library, 1)), whole.whole)
            demand(tables_of(at) == whole.tables[-1], f"{command.name} leaves something else")
            whole.demand_ended(at)
    with Undisturbed(tools, SHEET).copy() as at:
        slowly = piecewise(compiled(at.path), 1)
        slow, fast = visited(at, GIVEN, env=slowly), visited(at, GIVEN)
        demand(slow == fast and slow[0].endswith(PAGE), f"{slow}")
        for word in ("norm", "check"):
            expect(run(tools.parish, (word,), SAMPLE, env=slowly), run(tools.parish, (word,), SAMPLE))


def case_of(name: str, failed: Callable[[], int]) -> Case:
    return Case(f"devices: {name}", lambda: tally("failed reads and writes", name, failed()))


def cases(tools: Tools) -> Iterator[Case]:
    for stream, commands in (("in", READING), ("out", WRITING)):
        for command in commands:
            yield case_of(
                f"standard {stream}put of {command.name}",
                lambda command=command, stream=stream: on_an_archive(tools, command, stream),
            )
        for word in ("norm", "check"):
            yield case_of(
                f"standard {stream}put of {word}",
                lambda word=word, stream=stream: of_a_file(tools, word, stream),
            )
    yield case_of("the connection of a room", lambda: of_a_room(tools))
    yield Case("devices: one byte a call", lambda: a_byte_a_call(tools))
