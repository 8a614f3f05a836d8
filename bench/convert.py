"""Times `parish convert` of a file in ANSEL, beside `parish norm` of what it writes, `iconv` and Gramps:

    python3 bench/convert.py [PERSONS] [--gramps]

The file has PERSONS persons (100,000) as bench/imports.py draws them, in ANSEL: each letter with a mark is written as
the mark and the letter (ANSI/NISO Z39.47), and letters that ANSEL lacks as `?`. `iconv` reads a file of the same lines
in Windows-1252. With `--gramps` Debian's gramps imports the file in ANSEL too, which takes minutes. Told are wall and
processor time of the fastest of three runs (of one of Gramps), and the most memory of any.
"""

from __future__ import annotations

import argparse
import os
import shutil
import subprocess
import sys
import tempfile
import unicodedata

from imports import lines_of
from norm import PARISH, one_run

# Marks of ANSEL by the combining character of each, and letters that it has whole.
MARKS = {"\u0300": 0xE1, "\u0301": 0xE2, "\u0302": 0xE3, "\u0303": 0xE4, "\u0308": 0xE8, "\u030a": 0xEA, "\u0327": 0xF0}
LETTERS = {"\u00d8": 0xA2, "\u00f8": 0xB2, "\u00c6": 0xA5, "\u00e6": 0xB5, "\u0141": 0xA1, "\u0142": 0xB1}
HEAD = b"0 HEAD\n1 SOUR BENCH\n1 GEDC\n2 VERS 5.5.1\n1 CHAR %s\n"


def ansel_of(text: str) -> bytes:
    """The characters in ANSEL, each mark before its letter."""
    out = bytearray()
    for character in text:
        letter, *marks = unicodedata.normalize("NFD", character)
        out += bytes(MARKS.get(mark, ord("?")) for mark in marks)
        out.append(ord(letter) if letter.isascii() else LETTERS.get(letter, ord("?")))
    return bytes(out)


def write_all(path: str, word: bytes, lines: list[str], encoded) -> int:
    with open(path, "wb") as file:
        file.write(HEAD % word)
        for text in lines:
            file.write(encoded(text))
        file.write(b"0 TRLR\n")
    return os.path.getsize(path)


def told(name: str, command: list[str], path: str, size: int, runs: int = 3) -> None:
    done = [run for run in (one_run(command, path) for _ in range(runs)) if run]
    if not done:
        print(f"| {name} | failed | | | |", flush=True)
        return
    wall, processor, _ = min(done)
    memory = max(run[2] for run in done) * 1_024
    most = f"{memory / 1e6:.0f} MB, {memory / size:.1f} times"
    print(f"| {name} | {size:,} | {wall:.2f} s | {processor:.2f} s | {most} |", flush=True)


def main() -> int:
    words = argparse.ArgumentParser()
    words.add_argument("persons", nargs="?", type=int, default=100_000)
    words.add_argument("--gramps", action="store_true")
    given = words.parse_args()
    lines = [piece.decode() for piece in lines_of(given.persons)]
    with tempfile.TemporaryDirectory() as folder:
        ansel, windows, utf8 = (os.path.join(folder, name) for name in ("ansel.ged", "windows.ged", "utf8.ged"))
        size = write_all(ansel, b"ANSEL", lines, ansel_of)
        same = write_all(windows, b"ANSI", lines, lambda text: text.encode("cp1252", "replace"))
        with open(ansel, "rb") as source, open(utf8, "wb") as target:
            subprocess.run([PARISH, "convert"], stdin=source, stdout=target, stderr=subprocess.DEVNULL, check=True)
        print("| | bytes | wall | processor | most memory |\n|---|---|---|---|---|")
        told("`convert`, ANSEL", [PARISH, "convert"], ansel, size)
        told("`convert`, Windows-1252", [PARISH, "convert"], windows, same)
        told("`norm` of what it wrote", [PARISH, "norm"], utf8, os.path.getsize(utf8))
        told("`iconv`, Windows-1252", ["iconv", "-f", "CP1252", "-t", "UTF-8"], windows, same)
        if given.gramps and shutil.which("gramps"):
            os.environ["HOME"] = folder
            told("`gramps -i`, ANSEL", ["gramps", "-C", "bench", "-q", "-i", ansel], "/dev/null", size, 1)
    return 0


if __name__ == "__main__":
    sys.exit(main())
