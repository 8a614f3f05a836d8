"""Refused memory in a reading room: of a visit, each growth in turn gets none.

A visit masks the archive, makes a room of what is shown, and answers one request, all of it over memory. A visit that
wanted memory says 1, and nothing was written (state_rows says 90 where something was), or 95 where the bytes that are
written had no room; the same visit is then made again, and gets its page, and what is shown is as before.
"""

from __future__ import annotations

import itertools
import os
import tempfile
from collections import Counter
from collections.abc import Iterator

from asking import given_to
from memory import REFUSED, answered
from refusing import built, refusing
from rows import Ask, Case

FULL = "95 WriteFailed\n"
FAILED = 1  # the status of a program that wanted memory for itself
LEAST = 50  # growths of a visit that are refused with 1, at least
MOST = 10_000  # growths of a run, at most


class Wrong(Exception):
    """A run that is not as it has to be; the text says how."""


def told(got: list[str], status: int, plain: list[str], at: int) -> str:
    """Where a growth was that a run did not get: `before` or `behind` the visit that has this place among the answers,
    and is made again behind it; or what the visit says to it; `none` where nothing is said."""
    if got[:at] != plain[:at] or len(got) == at:
        if status not in (0, FAILED) or not status and REFUSED not in got[:at]:
            raise Wrong(f"{got[:at]} and status {status}")
        return "before"
    if got[at] in (REFUSED, FULL):
        if status or got[at + 1 :] != plain[at + 1 :]:
            raise Wrong(f"behind {got[at]!r} come {got[at + 1:]!r} and status {status}")
        return got[at]
    if got[at] != plain[at]:
        raise Wrong(f"{got[at]!r} in place of {plain[at]!r}")
    if got[at + 1 : at + 2] not in ([], [REFUSED], [FULL], plain[at + 1 : at + 2]):
        raise Wrong(f"behind the visit comes {got[at + 1:]!r}")
    return "none" if got == plain and not status else "behind"


def growths(program, data: bytes, plain: list[str], at: int) -> Iterator[str]:
    """Where each growth was, up to the first behind the visit."""
    with tempfile.TemporaryDirectory() as folder:
        library = built(folder)
        for number in itertools.count(1):
            mark = os.path.join(folder, str(number))
            try:
                where = told(*answered(program, data, refusing(number, library, mark)), plain, at)
            except Wrong as wrong:
                raise Wrong(f"growth {number} refused: {wrong}") from None
            if where == "behind":
                return
            if not os.path.exists(mark) or number > MOST:
                raise Wrong(f"of {number} growths none came behind the visit")
            yield where


def wanted_in(program, made: tuple[Ask, ...], visit: Ask, shown: str) -> int:
    """How many growths of a visit to an archive, which these rows make, were refused with 1. `shown` is the row that
    asks what is shown."""
    asks = (*made, visit, visit, Ask(shown, ""), visit)
    data = given_to([Case("", asks)])
    plain, status = answered(program, data)
    at = len(made)
    if status or len(plain) != len(asks) or {plain[at], plain[at + 1], plain[-1]} != {visit.wanted}:
        raise Wrong(f"with memory: {plain[at:]}, status {status}")
    found = Counter(growths(program, data, plain, at))
    if found[REFUSED] < LEAST:
        raise Wrong(f"only {found[REFUSED]} growths of the visit were refused")
    return found[REFUSED]
