"""Dates, read slowly from docs/FORMATS.md ("Dates"): how a text is written, and the first and the last day that it may
mean. tests/dates/run.py has it answer the tables of dates, whose days come from elsewhere.
"""

from __future__ import annotations

import re
from typing import NamedTuple

ROMAN = "JAN FEB MAR APR MAY JUN JUL AUG SEP OCT NOV DEC".split()
REPUBLICAN = "VEND BRUM FRIM NIVO PLUV VENT GERM FLOR PRAI MESS THER FRUC COMP".split()
LENGTHS = (31, 28, 31, 30, 31, 30, 31, 31, 30, 31, 30, 31)
SEXTILE = (3, 7, 11)  # the French Republican years with a sixth complementary day
LONGEST = 1_048_576  # bytes of a spelling
ESCAPES = {("@#DGREGORIAN@",): "gregorian", ("@#DJULIAN@",): "julian", ("@#DFRENCH", "R@"): "french"}
WRITTEN = {"gregorian": "", "julian": "@#DJULIAN@ ", "french": "@#DFRENCH R@ "}
CAPITALS = {ord(small): small.upper() for small in "abcdefghijklmnopqrstuvwxyz"}

YEAR = re.compile(r"([0-9]{1,4})(?:/([0-9]{2}))?")
BEFORE_CHRIST = re.compile(r"([0-9]{1,4}) ?B\.C\.")
DAY = re.compile(r"[0-9]{1,2}")
INTERPRETED = re.compile(r"(INT [^(]*)\((.*)\)", re.DOTALL)

Span = tuple["int | None", "int | None"]


class Date(NamedTuple):
    """A date of one calendar: how it is written, its calendar, its first and its last day."""

    written: str
    calendar: str
    first: int
    last: int


class Read(NamedTuple):
    """A text as a date: how it is written, the ends of its days, and the calendars of its dates. Of a text that fits
    no form the first is the text, and there are none of the others."""

    written: str
    first: int | None = None
    last: int | None = None
    calendars: frozenset[str] = frozenset()


def is_leap(calendar: str, year: int) -> bool:
    """Years are counted without a break: 0 is 1 B.C."""
    return year % 4 == 0 and (calendar == "julian" or year % 100 != 0 or year % 400 == 0)


def length(calendar: str, year: int, month: int) -> int:
    if calendar == "french":
        return 30 if month < 13 else 6 if year in SEXTILE else 5
    return LENGTHS[month - 1] + (month == 2 and is_leap(calendar, year))


def months(calendar: str) -> list[str]:
    return REPUBLICAN if calendar == "french" else ROMAN


def number(calendar: str, year: int, month: int, day: int) -> int:
    """Days from 1970-01-01 on, by the days of all years, of the months of this one, and the day itself."""
    if calendar == "french":
        return -64748 + 365 * (year - 1) + year // 4 + 30 * (month - 1) + day - 1
    before = year - 1
    leaps = before // 4 if calendar == "julian" else before // 4 - before // 100 + before // 400
    # 1 JAN 1 of either calendar
    first = -719164 if calendar == "julian" else -719162
    return first + 365 * before + leaps + sum(length(calendar, year, m) for m in range(1, month)) + day - 1


def of_years(calendar: str, opening: int, closing: int, written: str) -> Date:
    month = len(months(calendar))
    end = number(calendar, closing, month, length(calendar, closing, month))
    return Date(WRITTEN[calendar] + written, calendar, number(calendar, opening, 1, 1), end)


def year_of(calendar: str, word: str) -> tuple[int, int, str] | None:
    """The year that a word names, the later one of a double year, and how it is written."""
    found = YEAR.fullmatch(word)
    if not found:
        return None
    year, more = int(found[1]), found[2]
    if not 1 <= year <= (14 if calendar == "french" else 9999):
        return None
    if more is None:
        return year, year, str(year)
    if calendar == "french" or year == 9999 or int(more) != (year + 1) % 100:
        return None
    return year, year + 1, f"{year}/{more}"


def date_of(words: list[str]) -> Date | None:
    """A date of words without spaces, in capitals."""
    calendar = "gregorian"
    for escape, name in ESCAPES.items():
        if tuple(words[: len(escape)]) == escape:
            calendar, words = name, words[len(escape) :]
            break
    if before := BEFORE_CHRIST.fullmatch(" ".join(words)):
        year = int(before[1])
        is_one = calendar != "french" and 1 <= year <= 9999
        return of_years(calendar, 1 - year, 1 - year, f"{year} B.C.") if is_one else None
    year = year_of(calendar, words[-1]) if words else None
    if year is None:
        return None
    if len(words) == 1:
        return of_years(calendar, *year)
    if words[-2] not in months(calendar):
        return None
    month, counted, written = months(calendar).index(words[-2]) + 1, year[1], f"{words[-2]} {year[2]}"
    last = length(calendar, counted, month)
    if len(words) == 2:
        ends = (number(calendar, counted, month, day) for day in (1, last))
        return Date(WRITTEN[calendar] + written, calendar, *ends)
    if len(words) > 3 or not DAY.fullmatch(words[0]) or not 1 <= int(words[0]) <= last:
        return None
    day = number(calendar, counted, month, int(words[0]))
    return Date(f"{WRITTEN[calendar]}{int(words[0])} {written}", calendar, day, day)


def one(form: str, span, words: list[str]) -> Read | None:
    """A form of one date."""
    date = date_of(words)
    return None if date is None else Read(form.format(date.written), *span(date), frozenset((date.calendar,)))


def two(form: str, words: list[str], between: str) -> Read | None:
    """A form of two dates with a word between."""
    at = words.index(between)
    first, last = date_of(words[:at]), date_of(words[at + 1 :])
    if first is None or last is None or first.first > last.last:
        return None
    calendars = frozenset((first.calendar, last.calendar))
    return Read(form.format(first.written, last.written), first.first, last.last, calendars)


def form_of(text: str) -> Read | None:
    """What a text says, where it fits a form."""
    bare = text.strip(" ")
    if len(bare) > 1 and bare.startswith("(") and bare.endswith(")"):
        return Read(bare)
    capitals = bare.translate(CAPITALS)
    if inner := INTERPRETED.fullmatch(capitals):
        phrase = bare[inner.start(2) : inner.end(2)].replace("{", "{{").replace("}", "}}")
        return one(f"INT {{}} ({phrase})", lambda d: (d.first, d.last), words_of(inner[1][4:]))
    word, *words = words_of(capitals) or [""]
    if word in ("ABT", "CAL", "EST"):
        return one(word + " {}", lambda d: (d.first, d.last), words)
    if word == "BEF":
        return one("BEF {}", lambda d: (None, d.first - 1), words)
    if word == "AFT":
        return one("AFT {}", lambda d: (d.last + 1, None), words)
    if word == "BET":
        return two("BET {} AND {}", words, "AND") if "AND" in words else None
    if word == "TO":
        return one("TO {}", lambda d: (None, d.last), words)
    if word == "FROM":
        if "TO" in words:
            return two("FROM {} TO {}", words, "TO")
        return one("FROM {}", lambda d: (d.first, None), words)
    return one("{}", lambda d: (d.first, d.last), [word, *words])


def words_of(text: str) -> list[str]:
    return [word for word in text.split(" ") if word]


def read(text: str) -> Read:
    """What a text says."""
    found = form_of(text)
    return found if found and len(found.written.encode()) <= LONGEST else Read(text)


def anew(text: str) -> str:
    """What stands in place of a date of the first version: its spelling of today, where it was no date then."""
    found = read(text)
    return found.written if "french" in found.calendars else text


def span_of(kind: str, lines) -> Span | None:
    """The span of a record of this kind that is kept as these lines, of which each has a depth, a tag and a text.
    None: it has no date."""
    if kind not in ("event", "entry"):
        return None
    # the first line below an event is its own tag, whatever word that is
    texts = [line[2] for line in lines[2 if kind == "event" else 1 :] if line[0] == 1 and line[1] == "date"]
    if not texts or texts[0] is None:
        return None
    found = read(texts[0])
    return found.first, found.last
