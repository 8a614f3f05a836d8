"""The words of a search, written beside their definition (crates/searching/specs) in Python's own tables.

    python3 tests/searches/keys.py [ROWS] [SEED]

gives the worked rows and ROWS drawn ones to crates/library_rows/out/library_rows and compares. Unicode grows, and
Python has its own version: the characters that are drawn are those that it knows, and whose folding did not change.
"""

from __future__ import annotations

import os
import random
import subprocess
import sys
import unicodedata

ROOT = os.path.dirname(os.path.dirname(os.path.dirname(os.path.realpath(__file__))))
PROGRAM = os.path.join(ROOT, "crates", "library_rows", "out", "library_rows")
APOSTROPHES = "'`\u02bb\u02bc\u2018\u2019"
PLAIN = {"ø": "o", "ł": "l", "đ": "d", "ð": "d", "þ": "th", "æ": "ae", "œ": "oe", "ı": "i"}
PLAIN.update({letter.upper(): plain for letter, plain in PLAIN.items() if letter != "ı"})


def folded(text: str, name: bool) -> str:
    """A text as a search compares it."""
    text = unicodedata.normalize("NFKD", text)
    if name:
        text = text.replace("/", "'")
    text = text.replace(" \u0301", "'")  # what NFKD makes of U+00B4
    text = "".join(PLAIN.get(c, c) for c in text)
    return "".join(c for c in text if unicodedata.category(c) != "Mn").casefold()


def parts(text: str) -> list[str]:
    """What stands between characters that are no letter, digit or apostrophe."""
    kept = (c if c in APOSTROPHES or unicodedata.category(c)[0] in "LN" else "\n" for c in text)
    return "".join(kept).split("\n")


def key(part: str) -> str:
    return "".join(c for c in part if c not in APOSTROPHES)


def words(asked: str) -> list[str]:
    """The words that are searched for."""
    return [key(part) for part in parts(folded(asked, False)) if key(part)]


def beginnings(text: str, name: bool) -> list[str]:
    """The keys by which a text is found."""
    found = []
    for part in parts(folded(text, name)):
        found += [part] + [part[at + 1 :] for at, c in enumerate(part) if c in APOSTROPHES]
    return [key(part) for part in found if key(part)]


def answer(kind: str, text: str, asked: str) -> str:
    wanted = words(asked)
    if not wanted:
        return "no word"
    keys = beginnings(text, kind == "name")
    return "found" if all(any(k.startswith(w) for k in keys) for w in wanted) else "not found"


# The rows that the rule tells: each is a promise of the documents.
WORKED = (
    ("name", "Johann /Müller/", "muller", "found"),
    ("name", "Johann /Mu\u0308ller/", "muller", "found"),
    ("name", "Johann /Muller/", "MÜLLER", "found"),
    ("name", "Mary /O’Neil/", "oneil", "found"),
    ("name", "Mary /O’Neil/", "neil", "found"),
    ("name", "Mary /O'Neil/", "O’Neil mary", "found"),
    ("name", "Mary /O\u00b4Neil/", "oneil", "found"),
    ("name", "Mary /O`Neil/", "o'neil", "found"),
    ("name", "Mary /ONeil/", "neil", "not found"),
    ("name", "Vincent /van der Berg/", "berg", "found"),
    ("name", "Vincent /van der Berg/", "van der berg vin", "found"),
    ("name", "Anne /Saint-Jean/", "jean", "found"),
    ("name", "Anne /Saint-Jean/", "saint-jean", "found"),
    ("name", "Anne /Saint-Jean/", "saintjean", "not found"),
    ("name", "Nils /Sørensen/", "sorensen", "found"),
    ("name", "Nils /SØRENSEN/", "sør", "found"),
    ("name", "Jean/Dupont/", "dupont", "found"),
    ("name", "Jean/Dupont/", "jean dupont", "found"),
    ("name", "de l'/Isle/", "lisle isle", "found"),
    ("text", "Baptisms 1700/1750", "1750", "found"),
    ("text", "Baptisms 1700/1750", "17001750", "not found"),
    ("name", "Þórður /Æsæ/", "thordur aesae", "found"),
    ("name", "Łukasz /Đặng/", "lukasz dang", "found"),
    ("text", "Straße", "STRASSE", "found"),
    ("text", "İzmir", "izmir", "found"),
    ("text", "Kırklareli", "kirk", "found"),
    ("text", "ﬁnd ①②", "find 12", "found"),
    ("text", "Ashby, Kent", "ent", "not found"),
    ("text", "Ashby, Kent", "- ' ,", "no word"),
    ("text", "", "a", "not found"),
    ("text", "a_b", "b", "found"),
    ("text", "Дмитрий", "дМИТРИи\u0306", "found"),
)
LETTERS = "aAbcoOsSß éÉüÜøØłŁđÐþÞæŒıİ" + APOSTROPHES + "\u00b4\u0301\u0308\u0327/-_.,12½²ﬁŉǆΣςσάαЙйёأ中日한글ｶﾞ"


def drawn(rows: int, seed: int) -> list[tuple[str, str, str]]:
    """Rows of few letters, so that words are often found; some of any characters that Python knows."""
    chance = random.Random(seed)
    known = [
        chr(c) for c in range(0x20, 0x30000)
        if unicodedata.category(chr(c)) not in ("Cn", "Cs", "Co", "Cc", "Zl", "Zp")
    ]

    def text(most):
        few = chance.sample(LETTERS, 6)
        return "".join(
            chance.choice(known) if chance.random() < 0.05 else chance.choice(few + [" "])
            for _ in range(chance.randrange(most))
        )

    made = []
    for _ in range(rows):
        whole = text(24)
        asked = text(4)
        if whole and chance.random() < 0.7:
            at = chance.randrange(len(whole))
            asked = whole[at : at + 1 + chance.randrange(6)]
        if chance.random() < 0.3:
            asked = unicodedata.normalize(chance.choice(("NFC", "NFD", "NFKC")), asked).swapcase()
        made.append((chance.choice(("name", "text")), whole, asked))
    return made


def answers(rows) -> list[str]:
    given = "".join(f"search\t{kind}\t{text}\t{asked}\n" for kind, text, asked in rows).encode()
    done = subprocess.run([PROGRAM], input=given, stdout=subprocess.PIPE, check=True)
    return done.stdout.decode().split("\n")[:-1]


def main() -> int:
    rows = int(sys.argv[1]) if len(sys.argv) > 1 else 5_000
    seed = int(sys.argv[2]) if len(sys.argv) > 2 else 1
    for kind, text, asked, told in WORKED:
        assert answer(kind, text, asked) == told, (kind, text, asked, told)
    given = [row[:3] for row in WORKED] + drawn(rows, seed)
    wanted = [answer(*row) for row in given]
    told = answers(given)
    failed = [(row, want, had) for row, want, had in zip(given, wanted, told) if want != had]
    for it in failed[:10]:
        print(it)
    print(f"{len(given) - len(failed)} of {len(given)} rows alike, {wanted.count('found')} found")
    return 1 if failed or len(told) != len(given) else 0


if __name__ == "__main__":
    sys.exit(main())
