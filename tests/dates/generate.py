"""Texts of dates, valid and nearly valid, by a seeded generator: python3 generate.py SEED COUNT."""

import random
import sys

MONTHS = "JAN FEB MAR APR MAY JUN JUL AUG SEP OCT NOV DEC".split()
REPUBLICAN_MONTHS = "VEND BRUM FRIM NIVO PLUV VENT GERM FLOR PRAI MESS THER FRUC COMP".split()
ESCAPES = ["", "", "", "@#DJULIAN@", "@#DGREGORIAN@"]
BEFORE_A_DATE = ["ABT", "CAL", "EST", "BEF", "AFT", "FROM", "TO"]
PHRASES = ["", "about", "x", " two words ", "(", ")", "a (b) c", "@#DFRENCH R@ 8", "é", "INT 1700 (x)"]
STRAY = list("0123456789/.()@# ABCDEFJMNOPRSTVYabt") + ["ſ", "é", "\u212a", "\u00a0", "\t"]


def year(rng):
    number = rng.choice([rng.randint(1, 9999), rng.randint(1500, 1950), rng.randint(0, 30), 9998, 9999, 1699])
    form = rng.random()
    if form < 0.25:
        after = (number + 1) % 100 if rng.random() < 0.8 else rng.randint(0, 99)
        return f"{number}/{after:02}"
    if form < 0.30:
        return f"{number:04}"
    return str(number)


def day(rng):
    number = rng.choice([rng.randint(1, 28), rng.randint(28, 32), 29, 30, 31, 0])
    return f"{number:02}" if rng.random() < 0.1 else str(number)


def month(rng):
    if rng.random() < 0.95:
        return rng.choice(MONTHS + ["FEB", "FEB"])
    return rng.choice(["VEND", "JANUARY", "MARZ", "XYZ"])


def republican_date(rng):
    """A French Republican date, or one nearly."""
    year = str(rng.choice([rng.randint(1, 14), rng.randint(1, 14), 3, 7, 11, rng.randint(0, 16)]))
    if rng.random() < 0.1:
        year = rng.choice([year.zfill(2), year.zfill(4), year + "/" + str(rng.randint(1, 15)).zfill(2)])
    month = rng.choice(REPUBLICAN_MONTHS * 2 + ["COMP"] * 6 + ["JAN", "VENDE"])
    day = str(rng.choice([rng.randint(1, 5), rng.randint(1, 30), rng.randint(1, 30), 6, 30, rng.randint(0, 31)]))
    words = rng.choice([[year], [month, year], [day, month, year], [day, month, year]])
    escape = rng.choice(["@#DFRENCH R@"] * 20 + ["@#DFRENCHR@", "@#DFRENCH", "R@", "@#DJULIAN@", "@#DFRENCH  R@"])
    return [escape] + words


def date(rng):
    if rng.random() < 0.2:
        return republican_date(rng)
    words = [rng.choice(ESCAPES)]
    form = rng.random()
    if form < 0.15:
        mark = rng.choice(["B.C.", "B.C.", "B.C.", "BC", "B.C"])
        number = str(rng.randint(0, 9999))
        words += [number + mark] if rng.random() < 0.3 else [number, mark]
    elif form < 0.45:
        words += [year(rng)]
    elif form < 0.65:
        words += [month(rng), year(rng)]
    else:
        words += [day(rng), month(rng), year(rng)]
    return [word for word in words if word]


def words(rng):
    form = rng.random()
    if form < 0.35:
        return date(rng)
    if form < 0.65:
        return [rng.choice(BEFORE_A_DATE)] + date(rng)
    opening, joining = rng.choice([("BET", "AND"), ("FROM", "TO"), ("BET", "TO"), ("FROM", "AND")])
    return [opening] + date(rng) + [joining] + date(rng)


def with_phrase(rng):
    phrase = rng.choice(PHRASES)
    if rng.random() < 0.3:
        return f"({phrase})"
    front = " ".join([rng.choice(["INT", "INT", "INT", "ABT"])] + date(rng))
    return front + rng.choice([" ", "", "  "]) + f"({phrase})"


def changed(rng, text):
    """The text with a character left out, doubled, put in or moved."""
    at = rng.randrange(len(text) + 1)
    form = rng.random()
    if form < 0.4:
        return text[:at] + text[at + 1:]
    if form < 0.8:
        return text[:at] + rng.choice(STRAY) + text[at:]
    parts = text.split(" ")
    rng.shuffle(parts)
    return " ".join(parts)


def text(rng):
    made = with_phrase(rng) if rng.random() < 0.15 else rng.choice([" ", " ", " ", "  "]).join(words(rng))
    if rng.random() < 0.25:
        made = changed(rng, made)
    if rng.random() < 0.2:
        made = "".join(rng.choice([c.lower(), c.upper()]) if c.isascii() else c for c in made)
    if rng.random() < 0.1:
        made = rng.choice([" ", "  ", ""]) + made + rng.choice([" ", "   ", ""])
    return made


def texts(seed, count):
    rng = random.Random(seed)
    return [text(rng) for _ in range(count)]


if __name__ == "__main__":
    sys.stdout.reconfigure(encoding="utf-8", newline="\n")
    for made in texts(int(sys.argv[1]), int(sys.argv[2])):
        print(made)
