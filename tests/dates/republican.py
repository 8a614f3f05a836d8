"""Texts of all French Republican days, with two counts of their numbers.

By the formula of docs/FORMATS.md, and by the civil calendar of Python's `datetime`, one day after the other from
22 September 1792 on, the first day of the year 1.
"""

import datetime

MONTHS = "VEND BRUM FRIM NIVO PLUV VENT GERM FLOR PRAI MESS THER FRUC COMP".split()
FIRST = datetime.date(1792, 9, 22)
EPOCH = datetime.date(1970, 1, 1)
ENGLISH = "JAN FEB MAR APR MAY JUN JUL AUG SEP OCT NOV DEC".split()


def length(year, month):
    if month < 13:
        return 30
    return 6 if year in (3, 7, 11) else 5


def by_formula(year, month, day):
    return -64748 + 365 * (year - 1) + year // 4 + 30 * (month - 1) + day - 1


def days():
    """Year, month, day and civil date of each day."""
    civil = FIRST
    for year in range(1, 15):
        for month in range(1, 14):
            for day in range(1, length(year, month) + 1):
                yield year, month, day, civil
                civil += datetime.timedelta(days=1)


def cases():
    """A name, a text and its first and last day; none where it is no date."""
    spans = {}
    for year, month, day, civil in days():
        number = (civil - EPOCH).days
        name = MONTHS[month - 1]
        yield "by the civil calendar", f"@#DFRENCH R@ {day} {name} {year}", (number, number)
        number = by_formula(year, month, day)
        yield "by the formula", f"@#DFRENCH R@ {day} {name} {year}", (number, number)
        yield "the same civil day", f"{civil.day} {ENGLISH[civil.month - 1]} {civil.year}", (number, number)
        for text in (f"@#DFRENCH R@ {name} {year}", f"@#DFRENCH R@ {year}"):
            spans.setdefault(text, []).append(number)
    for text, numbers in spans.items():
        yield "a month or a year", text, (numbers[0], numbers[-1])
    for year in range(1, 15):
        for month in range(1, 14):
            text = f"@#DFRENCH R@ {length(year, month) + 1} {MONTHS[month - 1]} {year}"
            yield "a day after the last of its month", text, None
