"""What ./release calls, and how it says that something is missing."""

from __future__ import annotations

import os
import subprocess


class Missing(Exception):
    """Something that a release needs is missing; the text says what."""


def bytes_of(path):
    with open(path, "rb") as file:
        return file.read()


def called(words, **how):
    """Runs a command that has to end with 0, and returns what it printed."""
    how = {"stdin": subprocess.DEVNULL, **how} if "input" not in how else how
    try:
        ran = subprocess.run(words, capture_output=True, check=False, **how)
    except FileNotFoundError:
        raise Missing(f"there is no {words[0]}") from None
    if ran.returncode != 0:
        why = ran.stderr.decode(errors="replace").strip().splitlines()
        raise Missing(f"{os.path.basename(words[0])} ended with {ran.returncode}: {why[-1] if why else 'no word'}")
    return ran.stdout


def output(*words, **how):
    return called(words, **how).decode()


def without_names(data):
    """Compressed, without a name and a time, so that the same bytes are always the same."""
    return called(("gzip", "--no-name", "-9"), input=data)
