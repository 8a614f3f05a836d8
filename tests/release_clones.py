"""The small clone in which `./release` is tried. Its `rt` proves nothing, and its program prints a version."""

from __future__ import annotations

import functools
import os
import subprocess
import tempfile

import generated
from harness import ROOT, demand, run, shown
from scripts import Copy, copied

VERSION = "7.8.9"
TARBALL, DEB = f"out/parish-{VERSION}-x86_64-linux.tar.gz", f"out/parish_{VERSION}_amd64.deb"
NOTE = "crates/parish/out/gate"
MANIFEST = "share/doc/parish/MANIFEST"
COMMITTED = "2026-01-02T03:04:05+00:00"
SOURCES = tuple(sorted(generated.paths("crates/command_line/src/*.rt")))
OURS = ("release", *(f"packaging/{name}.py" for name in ("checking", "completions", "contents", "packages", "tools")))

PROGRAM = f"""
#include <stdio.h>
#include <string.h>
int main(int count, char **words) {{
    return count == 2 && strcmp(words[1], "--version") == 0 ? puts("parish {VERSION}") < 0 : STATUS;
}}
"""

DOCUMENTS = (
    "CHANGELOG.md", "README.md", "docs/BENCH.md", "docs/FORMATS.md", "docs/INTERCHANGE.md", "docs/KEEPING.md",
    "docs/LIVING.md", "docs/PROVED.md", "docs/READING-ROOM.md", "docs/REFUSALS.md", "docs/SHEETS.md",
    "docs/VERSIONS.md", "docs/WALK.md", "docs/room-family.png", "docs/room-person.png",
)
SAMPLES = ("samples/README.md", "samples/note.ged")


@functools.cache
def program(status):
    """An executable that is not stripped, of which there may be several."""
    with tempfile.TemporaryDirectory() as folder:
        path = os.path.join(folder, "program")
        words = ("cc", "-g", f"-DSTATUS={status}", "-x", "c", "-", "-o", path)
        subprocess.run(words, input=PROGRAM.encode(), check=True)
        with open(path, "rb") as file:
            return file.read()


def put(copy, name, data):
    copy.write(name, "")
    with open(copy.path(*name.split("/")), "wb") as file:
        file.write(data)


def bytes_of(copy, name):
    with open(copy.path(*name.split("/")), "rb") as file:
        return file.read()


def ran(copy, *words, **how):
    """A run in the clone; of a command that lies there by Copy.run, since another case may have it open for a while."""
    how = {"cwd": copy.folder, **how}
    if words[0].startswith("./"):
        return copy.run(words[0], *words[1:], **how)
    return run(words, env=copy.env, **how)


def of(copy, *words, **how):
    """What a command prints in the clone, where it has to end with 0."""
    got = ran(copy, *words, **how)
    demand((got.status, got.err) == (0, b""), f"{words}: status {got.status}, {shown(got.err)}")
    return got.out.decode()


def commit(copy):
    of(copy, "git", "add", "--all")
    of(copy, "git", "commit", "--quiet", "--message", "a change")


def clone(folder):
    """A clone with all that a release asks for, but that its gate has not run."""
    copy = copied(folder)
    who = {f"GIT_{who}_{what}": "a" for who in ("AUTHOR", "COMMITTER") for what in ("NAME", "EMAIL")}
    days = {"GIT_AUTHOR_DATE": COMMITTED, "GIT_COMMITTER_DATE": COMMITTED}
    path = f"{copy.env['PATH']}:{os.environ['PATH']}"
    copy.env |= {**who, **days, "PATH": path, "HOME": folder, "GIT_CONFIG_NOSYSTEM": "1", "TZ": "UTC"}
    for name in (*OURS, *SOURCES):
        with open(os.path.join(ROOT, name), encoding="utf-8") as file:
            copy.write(name, file.read(), executable=name == "release")
    for name in (*DOCUMENTS, *SAMPLES, "LICENSE", "docs/DECISIONS.md"):
        copy.write(name, f"This is {name}.\n")
    copy.write("CHANGELOG.md", f"# Changes\n\n## {VERSION}\n")
    copy.write("docs/parish.1", f'.TH PARISH 1 "" "parish {VERSION}" "User Commands"\n.SH NAME\nparish \\- it\n')
    copy.write(".gitignore", "out/\n__pycache__/\n")
    put(copy, "crates/parish/src/main.rt", program(7))
    kit_of(copy)
    of(copy, "git", "init", "--quiet")
    commit(copy)
    return copy


def kit_of(copy):
    """The kit of the stand-in for rt: clap stands on strsim, and unused is not in the program."""
    kit = Copy(os.path.dirname(copy.folder), {})
    for name, below in (("clap", "dep strsim\n"), ("strsim", ""), ("unused", "")):
        kit.write(f"rlibs/{name}.rlib/format", f"rattle rlib\ncrate {name}\n{below}")
        kit.write(f"rattle/{name}/LICENSE-MIT", "The licence of two.\n" if below else f"That of {name}.\n")
    kit.write("rattle/strsim/LICENSE", "The licence of two.\n")


def passed(folder):
    copy = clone(folder)
    of(copy, "./test")
    return copy


def released(folder):
    copy = passed(folder)
    of(copy, "./release")
    return copy


def made(copy):
    """The names of what is in out/, where that is there."""
    return sorted(os.listdir(copy.path("out"))) if os.path.isdir(copy.path("out")) else []


def refuses(copy, why, *words):
    """It ends with 1 and one line that says why, and nothing is made that was not there."""
    before = made(copy)
    got = ran(copy, "./release", *words)
    demand((got.status, got.out) == (1, b""), f"{why}: status {got.status}, it printed {shown(got.out)}")
    line = got.err.decode()
    demand(line.startswith("release: ") and line.count("\n") == 1 and why in line, f"{why}: it says {line!r}")
    demand(before == made(copy), f"{why}: out/ has {made(copy)}")


def unpacked(copy, name):
    """The folder with the files of a package as its manifest names them."""
    to = tempfile.mkdtemp(dir=os.path.dirname(copy.folder))
    if name == DEB:
        of(copy, "dpkg-deb", "--extract", DEB, to)
        return os.path.join(to, "usr")
    of(copy, "tar", "-xzf", name, "-C", to)
    return os.path.join(to, f"parish-{VERSION}-x86_64-linux")
