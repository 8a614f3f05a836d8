"""Gramps, LifeLines and Gedcom.pm as Debian has them, given GEDCOM files: what they keep and what they complain of."""

from __future__ import annotations

import fcntl
import json
import os
import pty
import re
import select
import shutil
import struct
import subprocess
import tempfile
import termios
import time
from typing import NamedTuple

from interchange.kept_lines import Records, Value, normal

HERE = os.path.dirname(os.path.abspath(__file__))
LIMIT = 1_800  # seconds for one run
PACKAGES = {"gramps": "/usr/bin/gramps", "lifelines": "/usr/bin/llexec",
            "libgedcom-perl": "/usr/share/perl5/Gedcom/Grammar_5_5_1.pm"}
ENVIRONMENT = {"PATH": "/usr/bin:/bin", "LC_ALL": "C.UTF-8", "LANG": "C.UTF-8", "TERM": "vt100"}


class Told(NamedTuple):
    """What a program tells of a file: complaints, values, and what is cited for each person: page and texts."""

    errors: int
    said: list[str]
    unread: int
    values: list[Value]
    cited: dict[str, list[tuple[str, list[str]]]]


def missing() -> list[str]:
    """The packages that are not installed."""
    return [package for package, file in PACKAGES.items() if not os.path.exists(file)]


def ran(words, folder) -> subprocess.CompletedProcess:
    env = ENVIRONMENT | {"HOME": folder, "GRAMPSHOME": folder}
    how = {"stdin": subprocess.DEVNULL, "capture_output": True, "timeout": LIMIT, "check": False}
    return subprocess.run(words, cwd=folder, env=env, **how)


def text_of(data: bytes) -> str:
    return data.decode("utf-8", "replace")


# ---- Gramps


def gramps(files: list[str]) -> list[Told]:
    """Of Gramps, errors are those that its report of the import counts; unread are the lines in notes of such lines."""
    with tempfile.TemporaryDirectory() as folder:
        got = ran(("/usr/bin/python3", os.path.join(HERE, "gramps_values.py"), *files), folder)
    lines = text_of(got.stdout).splitlines()
    if got.returncode or len(lines) != len(files):
        raise RuntimeError(f"Gramps: {text_of(got.stderr)[-2_000:]}")
    return [told_by_gramps(json.loads(line)) for line in lines]


def told_by_gramps(told: dict) -> Told:
    values = [Value(*one) for one in told["values"]]
    cited = {name: [(page, texts) for page, texts in all] for name, all in told["cited"].items()}
    return Told(told["errors"], told["said"], told["unread"], values, cited)


# ---- Gedcom.pm

# A line that says what is wrong; one that Gedcom.pm would add has a level after the number.
COMPLAINT = re.compile(r"^.*?:\d+: (?!\d| +\d).*$|^.*has not read.*$", re.MULTILINE)


def gedcom_pm(file: str) -> Told:
    """Of Gedcom.pm, errors are its complaints, each once: lines that the grammar has not, and what `validate` says."""
    with tempfile.TemporaryDirectory() as folder:
        got = ran(("perl", os.path.join(HERE, "gedcom_values.pl"), file), folder)
        found = COMPLAINT.findall(text_of(got.stderr))
        said = [one.removeprefix(file + ":") for one in dict.fromkeys(found)]
        records = Records(text_of(got.stdout))
        return Told(len(said), said, 0, records.values(), records.cited())


# ---- LifeLines

# What LifeLines asks on its screen, and the keys that answer.
ANSWERS = {
    "create a database": "y",
    "choose an operation": "u",
    "What utility": "r",
    "enter file name": "given.ged\r",
    "Proceed": "y",
    "original keys": "n",
    "Strike any key": " ",
}
FAULT = re.compile(r"Error at line \d+: [^.]*\.")
PAUSE = 0.3  # seconds without a sign, after which it waits for a key


def typed(folder: str) -> list[str]:
    """Has LifeLines read given.ged, by its screen, and hands back the faults that are only there."""
    child, screen = pty.fork()
    if child == 0:
        os.chdir(folder)
        os.execve("/usr/bin/llines", ["llines", "-n", "base"], ENVIRONMENT | {"HOME": folder})
    fcntl.ioctl(screen, termios.TIOCSWINSZ, struct.pack("HHHH", 40, 120, 0, 0))
    try:
        return answered(screen)
    finally:
        os.close(screen)
        os.waitpid(child, 0)


def answered(screen: int) -> list[str]:
    end, seen, asked, said = time.monotonic() + LIMIT, "", [], []
    while time.monotonic() < end:
        if select.select([screen], [], [], PAUSE)[0]:
            seen += re.sub(r"\x1b[\[()][0-9;?]*[A-Za-z0-9]?|\x1b[=>]", " ", text_of(os.read(screen, 65_536)))
            continue
        question = max(ANSWERS, key=seen.rfind)
        if question not in seen:
            continue
        said += FAULT.findall(seen)
        seen = ""
        if question == "choose an operation" and "enter file name" in asked:
            os.write(screen, b"q")
            time.sleep(PAUSE)
            return said
        asked.append(question)
        os.write(screen, ANSWERS[question].encode())
    raise TimeoutError(f"LifeLines asks after {asked}")


def lifelines(file: str) -> Told:
    """Of LifeLines, errors are what it says of an import. The names of records, which it gives anew, are given back as
    those of the file: of the first record of that kind that people call the same and that is left."""
    with tempfile.TemporaryDirectory() as folder:
        shutil.copy(file, os.path.join(folder, "given.ged"))
        said = typed(folder) + lines_of(os.path.join(folder, "errs.log"))
        ran(("llexec", "-x", os.path.join(HERE, "lifelines_values.ll"), "base"), folder)
        ours = Records("\n".join(lines_of(os.path.join(folder, "values.ged"))))
    names = of_the_file(Records("\n".join(lines_of(file))), ours)
    return Told(len(said), said, 0, [one._replace(owner=names.get(one.owner, one.owner)) for one in ours.values()],
                {names.get(name, name): all for name, all in ours.cited().items()})


def lines_of(file: str) -> list[str]:
    """The lines of a file that are not empty; none if it is not there."""
    if not os.path.exists(file):
        return []
    with open(file, encoding="utf-8", errors="replace") as text:
        return [line for line in text.read().split("\n") if line.strip()]


def of_the_file(theirs: Records, ours: Records) -> dict[str, str]:
    """The names of records in the file by those that LifeLines gives."""
    left: dict[tuple[str, str], list[str]] = {}
    for name, node in theirs.all.items():
        left.setdefault((node.tag, normal(theirs.label(node))), []).append(name)
    names = {}
    for name, node in ours.all.items():
        if found := left.get((node.tag, normal(ours.label(node)))):
            names[name] = found.pop(0)
    return names


def each(program):
    return lambda files: [program(file) for file in files]


PROGRAMS = {"Gramps": gramps, "LifeLines": each(lifelines), "Gedcom.pm": each(gedcom_pm)}
