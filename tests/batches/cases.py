"""How the cases by hand are made: a name, the lines of a file, the records that it makes, and what is reported."""

from __future__ import annotations

from typing import NamedTuple

from plain import Carried, lines
from rows import kept


class File(NamedTuple):
    """A file, what is answered, and the archive that it is imported into, with its next number."""

    name: str
    text: str
    wanted: str
    archive: dict
    after: int


def file(*given: str, head: str = "0 HEAD") -> str:
    """Lines between the header, which is line 1, and the trailer."""
    return "".join(f"{line}\n" for line in (head, *given, "0 TRLR"))


def makes(name, given, records, said=(), archive=None, after=1, head="0 HEAD") -> File:
    """A file that makes these records, in the order of their numbers, which follow one another from `after` on. Of what
    is reported each is a line and a word, as "3 dangling"."""
    told = [f"line {one.replace(' ', ': ', 1)}\n" for one in said]
    found = [f"record {number}\n{kept(lines(record))}" for number, record in enumerate(records, after)]
    wanted = f"next {after + len(records)}\n" + "".join(found) + "".join(told)
    return File(name, file(*given, head=head), wanted, archive or {}, after)


def refuses(name, given, refusal, archive=None, after=1) -> File:
    return File(name, file(*given), refusal + "\n", archive or {}, after)


def under(*given: str) -> tuple[Carried, ...]:
    """Carried lines, each with its level: `2 NOTE x`, and `2 ASSO #5` for one that names record 5."""
    if not given:
        return ()
    first = given[0].split(" ")[0]
    heads = [k for k, line in enumerate(given) if line.split(" ")[0] == first]
    out = []
    for k, end in zip(heads, [*heads[1:], len(given)]):
        _, tag, *value = given[k].split(" ", 2)
        text = value[0] if value else ""
        number = int(text[1:]) if text.startswith("#") else None
        out.append(Carried(tag, text if number is None else number, under(*given[k + 1 : end])))
    return tuple(out)
