"""Runs of which one growth of memory gets none, by the calls of refuse.c."""

from __future__ import annotations

import os
import pathlib
import subprocess

CALLS = pathlib.Path(__file__).resolve().parent / "refuse.c"
LIMIT = 50  # seconds


def built(folder: str) -> str:
    """Compiles the calls that refuse, and answers their file."""
    library = os.path.join(folder, "refuse.so")
    words = ["cc", "-O1", "-fno-builtin", "-shared", "-fPIC", "-o", library, str(CALLS)]
    subprocess.run(words, check=True, timeout=LIMIT)
    return library


def last_growth(is_refused) -> int:
    """The number of the last growth that a run makes, by whether there is one of a number, from 1, that is refused."""
    least, above = 1, 2
    while is_refused(above):
        least, above = above, 2 * above
    while above - least > 1:
        middle = (least + above) // 2
        least, above = (middle, above) if is_refused(middle) else (least, middle)
    return least


def refusing(number: int, library: str, mark: str) -> dict[str, str]:
    """The environment of a run of which the growth of this number, from 1, is refused, and leaves this file."""
    return {**os.environ, "LD_PRELOAD": library, "REFUSE": str(number), "REFUSED": mark}
