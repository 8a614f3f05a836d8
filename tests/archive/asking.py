"""Runs a program that answers rows on cases, and tells which answers are not those that are wanted."""

from __future__ import annotations

import subprocess


def given_to(cases):
    """The rows of the cases, as the program reads them."""
    return "".join(ask.row + "\n" for case in cases for ask in case.asks).encode("utf-8")


def answers(program, cases):
    """The answer to each row, without the line that ends it."""
    rows = given_to(cases)
    out = subprocess.run([str(program)], input=rows, stdout=subprocess.PIPE, check=True, timeout=50).stdout
    found, lines = [], []
    for line in out.decode("utf-8").split("\n")[:-1]:
        if line == ".":
            found.append("".join(lines))
            lines = []
        else:
            lines.append(line + "\n")
    return found


def differences(program, cases):
    """What is told of each case whose answers are not those that are wanted."""
    got = answers(program, cases)
    if len(got) != sum(len(case.asks) for case in cases):
        yield f"{cases[0].name} and on: {len(got)} answers"
        return
    following = iter(got)
    for case in cases:
        wrong = [(ask, found) for ask, found in zip(case.asks, following) if found != ask.wanted]
        if wrong:
            ask, found = wrong[0]
            yield f"{case.name}: {ask.row[:100]!r} gives {found[-300:]!r}, and {ask.wanted[-300:]!r} was wanted"
