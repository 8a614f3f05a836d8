"""Whether two archives have the same records up to their numbers. A record is its kind, and its lines: each a depth,
a tag, a text and the number of a record or none."""

from __future__ import annotations

from harness import demand

Line = tuple[int, str, str | None, int | None]
Records = dict[int, tuple[str, list[Line]]]


def owned(found: Records, owner: int, kind: str) -> list[int]:
    return [n for n, (own, lines) in sorted(found.items()) if own == kind and lines[0][3] == owner]


def numbers(one: Records, other: Records) -> dict[int, int]:
    """The numbers of one archive with those of another: records of one kind by their order, events and citations by
    their order within their owner."""
    kinds = {kind for kind, _ in [*one.values(), *other.values()]} - {"event", "citation"}
    ordered = ([[n for n in sorted(found) if found[n][0] == kind] for found in (one, other)] for kind in kinds)
    same: dict[int, int] = {}
    for here, there in ordered:
        demand(len(here) == len(there), f"{len(here)} and {len(there)} of a kind")
        same.update(zip(here, there))
    for kind in ("event", "citation"):
        for owner, like in list(same.items()):
            here, there = owned(one, owner, kind), owned(other, like, kind)
            demand(len(here) == len(there), f"{owner} owns {len(here)} and {len(there)}")
            same.update(zip(here, there))
    return same


def renumbered(found: Records, same: dict[int, int]) -> Records:
    """The records under other numbers."""
    return {
        same[number]: (kind, [(depth, tag, text, same.get(named)) for depth, tag, text, named in lines])
        for number, (kind, lines) in found.items()
    }


def demand_same(here: Records, there: Records) -> None:
    """The records of two archives are the same up to numbers."""
    same = numbers(here, there)
    demand(len(set(same.values())) == len(here) == len(there), "the numbers are not one to one")
    for number, record in renumbered(here, same).items():
        demand(there[number] == record, f"{record} is {there[number]}")
