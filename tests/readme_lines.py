"""The lines of tests/README.md on the files beside it: of each the first sentence of its docstring.

    python3 tests/readme_lines.py    writes them again, each where it is

A line of README begins with the name of the file; in which order they are, and under which heading, is written by hand.
"""

from __future__ import annotations

import ast
import os
import re
import textwrap

from harness import ROOT, Case, Tools, demand

FOLDER = os.path.join(ROOT, "tests")
README = os.path.join(FOLDER, "README.md")
ITEM = re.compile(r"^- \*\*`(\w+\.py)`\*\*.*\n(?:  .*\n)*", re.MULTILINE)
SENTENCE = re.compile(r"(.+?)(?:\.(?:\s|$)|:$|$)")
WIDTH = 118


def text_of(path):
    with open(path, encoding="utf-8") as file:
        return file.read()


def first_sentence(docstring):
    """That of the first paragraph, without the stop at its end."""
    return SENTENCE.match(" ".join(docstring.split("\n\n")[0].split()))[1]


def line_of(name):
    docstring = ast.get_docstring(ast.parse(text_of(os.path.join(FOLDER, name))))
    words = f"- **`{name}`**: {first_sentence(docstring)}"
    filled = textwrap.fill(
        words, WIDTH, subsequent_indent="  ", break_long_words=False, break_on_hyphens=False,
    )
    return f"{filled}\n"


def written_again(readme):
    return ITEM.sub(lambda item: line_of(item[1]), readme)


def each_file_has_a_line():
    files = sorted(name for name in os.listdir(FOLDER) if name.endswith(".py"))
    named = sorted(ITEM.findall(text_of(README)))
    demand(named == files, f"README.md has not one line for each file: {sorted(set(files) ^ set(named)) or named}")


def lines_are_those_of_the_files():
    readme = text_of(README)
    demand(readme == written_again(readme), "README.md differs: run python3 tests/readme_lines.py")


def sentences_are_found():
    for docstring, sentence in (
        ("One: two.\n", "One: two"),
        ("`x.py` of\nRoom.antt. More.\n\nEven more.", "`x.py` of Room.antt"),
        ("Long tests:\n\n    python3 a.py", "Long tests"),
        ("A word", "A word"),
    ):
        demand(first_sentence(docstring) == sentence, f"of {docstring!r}: {first_sentence(docstring)!r}")


def cases(_tools: Tools):
    yield Case("readme lines: each file of tests has a line", each_file_has_a_line)
    yield Case("readme lines: they are the first sentences of the files", lines_are_those_of_the_files)
    yield Case("readme lines: the first sentence is found", sentences_are_found)


if __name__ == "__main__":
    AGAIN = written_again(text_of(README))
    with open(README, "w", encoding="utf-8") as FILE:
        FILE.write(AGAIN)
