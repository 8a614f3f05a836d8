"""What the documents show: each command of a console is run, and prints what it has there.

In a block ```console a line that begins with `$ ` is a command, run by sh at the top of the repository with both its
outputs; the lines below it, up to the next command or the end of the block, are what it prints. Its
status is looked at only where a command prints it. The commands of the blocks that name `ashby.db`
are run one after the other, from the block that makes it to the last before one that makes it anew:
on one archive, in a folder of its own.
"""

from __future__ import annotations

import os
import re
import shlex
import tempfile

from harness import REFUSALS, ROOT, Case, Outcome, Tools, demand, expect, run, written

DOCUMENTS = (
    "README.md", "docs/WALK.md", "docs/SHEETS.md", "samples/README.md", "docs/FORMATS.md", "docs/REFUSALS.md",
)
BLOCK = re.compile(r"^```console\n(.*?)^```$", re.DOTALL | re.MULTILINE)
COMMAND = re.compile(r"^\$ (.*)\n((?:(?!\$ ).*\n)*)", re.MULTILINE)
# (a refusal begins a row of a table, or an item of a list)
ROW = re.compile(r"^(?:\| |- \*\*)([0-9]+)(?: \||\*\*) ([A-Za-z0-9]+)(?: \||:)", re.MULTILINE)


def text_of(document):
    with open(os.path.join(ROOT, document), encoding="utf-8") as file:
        return file.read()


ARCHIVE = "ashby.db"


def blocks_of(document):
    """The blocks of a document: of each its commands with the texts that they are to print."""
    return [COMMAND.findall(block) for block in BLOCK.findall(text_of(document))]


def walks_of(document):
    """Of a document the commands with their texts that are run in turn, on one archive."""
    walks = []
    for block in blocks_of(document):
        if any(ARCHIVE in command for command, _ in block):
            if not walks or any(f" init {ARCHIVE}" in command for command, _ in block):
                walks.append([])
            walks[-1] += block
    return walks


def prints(tools, command, text):
    program = shlex.join(tools.parish)
    words = ("sh", "-c", f"exec 2>&1; {command.replace('./parish', program)}")
    got = run(words, cwd=ROOT)
    expect(Outcome(got.out, got.err, 0), written(text.encode()))


def prints_in_turn(tools, walk):
    with tempfile.TemporaryDirectory() as folder:
        file = os.path.join(folder, ARCHIVE)
        for command, text in walk:
            prints(tools, command.replace(ARCHIVE, shlex.quote(file)), text)


def refusals_are_listed():
    """The table of what can be printed has the numbers and names that the tests know."""
    listed = {int(number): name for number, name in ROW.findall(text_of("docs/REFUSALS.md"))}
    demand(listed == REFUSALS, f"the table has {listed}")


def cases(tools: Tools):
    yield Case("documents: the refusals are listed", refusals_are_listed)
    for document in DOCUMENTS:
        for walk in walks_of(document):
            name = f"documents: {document}: {walk[0][0]} and what follows"
            yield Case(name, lambda walk=walk: prints_in_turn(tools, walk))
        for block in blocks_of(document):
            if any(ARCHIVE in command for command, _ in block):
                continue
            for command, text in block:
                yield Case(
                    f"documents: {document}: {command}",
                    lambda command=command, text=text: prints(tools, command, text),
                )
