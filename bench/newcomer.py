"""Times the way of somebody who has never seen the project, from a clone to a page on the screen:

    python3 bench/newcomer.py [--parish COMMAND] [REPOSITORY]

clones REPOSITORY (the one that this file is in) into a new folder and does there what README.md says, and then the
walks that it leads to: the clone; the first call of `./parish`, which proves and builds the program; each command of
README.md, docs/WALK.md and docs/SHEETS.md, which has to print what stands below it; and a reading room with its first
page. Beside these are the words to read until then, at 200 words a minute. With `--parish` nothing is built, and the
commands are of that program.
"""

from __future__ import annotations

import argparse
import os
import re
import shlex
import shutil
import subprocess
import tempfile
import time
import urllib.request

from rooms import free_port

ROOT = os.path.dirname(os.path.dirname(os.path.abspath(__file__)))
A_MINUTE = 200  # words
TODAY = "2024-01-01"
FILE = "ashby.db"
# What is read of each document before the next step, and of which its commands are done.
DOCUMENTS = (("README.md", "## Test it"), ("docs/WALK.md", None), ("docs/SHEETS.md", None))
BLOCK = re.compile(r"^```console\n(.*?)^```$", re.DOTALL | re.MULTILINE)
COMMAND = re.compile(r"^\$ (.*)\n((?:(?!\$ ).*\n)*)", re.MULTILINE)


def told(step, seconds, more=""):
    print(f"| {step} | {seconds:.2f} s | {more} |", flush=True)


def timed(step, words):
    """Runs a command, which has to end with 0, and tells its time."""
    begun = time.perf_counter()
    ran = subprocess.run(words, stdin=subprocess.DEVNULL, capture_output=True, check=False)
    took = time.perf_counter() - begun
    if ran.returncode:
        raise SystemExit(f"{step}: status {ran.returncode}\n{ran.stderr.decode()[-2_000:]}")
    told(step, took)


def read(here, document, until):
    """The part of a document that is read, and how long that takes."""
    with open(os.path.join(here, document), encoding="utf-8") as file:
        text = file.read()
    part = text[: text.index(until)] if until else text
    count = len(part.split())
    told(f"reading {document}" + (f", up to `{until}`" if until else ""), 60 * count / A_MINUTE, f"{count} words")
    return part


def follow(here, document, text, command):
    """Does each command of a document in turn, and tells how long they take together, and the longest alone."""
    took = []
    for name in (FILE, f"{FILE}-wal"):  # as the walks say
        if os.path.exists(os.path.join(here, name)):
            os.remove(os.path.join(here, name))
    for block in BLOCK.findall(text):
        for words, output in COMMAND.findall(block):
            line = f"exec 2>&1; {words.replace('./parish', shlex.join(command))}"
            begun = time.perf_counter()
            got = subprocess.run(["sh", "-c", line], cwd=here, capture_output=True, check=False).stdout
            took.append(time.perf_counter() - begun)
            if got != output.encode():
                raise SystemExit(f"{document}: {words}\n{got.decode(errors='replace')}")
    told(f"its {len(took)} commands", sum(took), f"the longest {max(took):.2f} s")


def page_of(here, command):
    """From the call of `serve` to the page of a person."""
    port, begun = free_port(), time.perf_counter()
    words = [*command, "serve", os.path.join(here, FILE), "--port", str(port), "--count", "1", "--today", TODAY]
    with subprocess.Popen(words, stdout=subprocess.PIPE) as process:
        process.stdout.readline()
        with urllib.request.urlopen(f"http://127.0.0.1:{port}/person/5") as page:
            text = page.read().decode()
    told("`serve`, and a page of it", time.perf_counter() - begun, text.splitlines()[0])


def main():
    words = argparse.ArgumentParser(usage=__doc__)
    words.add_argument("--parish")
    words.add_argument("repository", nargs="?", default=ROOT)
    given = words.parse_args()
    folder = tempfile.mkdtemp()
    try:
        print("| step | time | |\n|---|---|---|")
        here = os.path.join(folder, "parish")
        timed("`git clone`", ["git", "clone", "-q", given.repository, here])
        command = shlex.split(given.parish) if given.parish else ["./parish"]
        for document, until in DOCUMENTS:
            text = read(here, document, until)
            if document == "README.md":
                step = "the program's version" if given.parish else "the first call: `./parish --version`"
                timed(step, [*command, "--version"] if given.parish else [os.path.join(here, "parish"), "--version"])
            follow(here, document, text, command)
        page_of(here, command if given.parish else [os.path.join(here, "parish")])
    finally:
        shutil.rmtree(folder)


if __name__ == "__main__":
    main()
