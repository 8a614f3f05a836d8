"""Calls of a program that fail, by fail.c: on a file, on a standard stream, or on a connection."""

from __future__ import annotations

import os
import subprocess
from collections.abc import Iterator

from harness import ROOT, demand

FAILING = os.path.join(ROOT, "tests", "fail.c")


def compiled(folder: str) -> str:
    """Compiles the calls that fail, and answers their file."""
    library = os.path.join(folder, "fail.so")
    words = ["cc", "-O1", "-shared", "-fPIC", "-o", library, FAILING]
    ran = subprocess.run(words, capture_output=True, text=True, check=False)
    demand(ran.returncode == 0, f"cc did not compile fail.c: {ran.stderr}")
    return library


def failing(library: str, on: str, passed: int, mark: str, *, once: bool = False) -> dict[str, str]:
    """So many calls on a path, or on `in`, `out` or `room`, go well; then all fail, or only the next one. The first
    that fails makes the file of the mark."""
    words = {"LD_PRELOAD": library, "FAIL_ON": on, "FAIL_AFTER": str(passed), "FAILED": mark}
    return {**os.environ, **words, **({"FAIL_ONCE": "1"} if once else {})}


def piecewise(library: str, size: int) -> dict[str, str]:
    """Streams and connections move at most so many bytes a call."""
    return {**os.environ, "LD_PRELOAD": library, "PIECE": str(size)}


def noting(library: str, notes: str, noted: str) -> dict[str, str]:
    """Notes each call that changes or syncs a file whose path begins so, and what is written to standard output."""
    return {**os.environ, "LD_PRELOAD": library, "NOTES": notes, "NOTED": noted}


def killed(library: str, after: int, noted: str) -> dict[str, str]:
    """The program is killed after so many calls that change or sync a file whose path begins so."""
    return {**os.environ, "LD_PRELOAD": library, "KILLED_AFTER": str(after), "NOTED": noted}


def noted_calls(notes: str) -> Iterator[tuple[str, list[str], bytes]]:
    """The calls that were noted: the path, or `out`; `w AT SIZE`, `t SIZE` or `s`; and the bytes of the first."""
    with open(notes, "rb") as file:
        while line := file.readline():
            path, *words = line.decode().split()
            yield path, words, file.read(int(words[2])) if words[0] == "w" else b""
