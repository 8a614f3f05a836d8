"""How a command that reads an archive ends if there is none, if its reader leaves, or if memory is refused."""

from __future__ import annotations

import os
import subprocess

from harness import WANTS, demand, expect, refused, unopened
from memory import apart
from refusing import built, refusing


def refused_as_no_archive(folder, tools, *calls):
    """Each call, of a new folder of this class, is 82 where there is no file, 80 where the file is none of SQLite's,
    and 83 where its version is a later one."""
    with folder(tools) as at:
        for call in calls:
            expect(call(at), refused(82))
        demand(not os.listdir(at.path), "a file was made")
        with open(at.file, "wb") as file:
            file.write(b"x" * 5_000)
        for call in calls:
            expect(call(at), unopened("no database"))
    with folder(tools) as at:
        at.made().other_database("UPDATE meta SET version = 3")
        for call in calls:
            expect(call(at), refused(83))


def left_by_its_reader(words) -> bytes:
    """What a reader has got that leaves after 300,000 bytes; the command is told that it left: 95."""
    process = subprocess.Popen(words, stdout=subprocess.PIPE, stderr=subprocess.PIPE)
    try:
        got = process.stdout.read(300_000)
        process.stdout.close()
        told = process.stderr.read()
        demand(process.wait(timeout=60) == 1 and told == refused(95).err, f"{process.returncode} {told!r}")
    finally:
        process.kill()
        process.stderr.close()
        process.wait()
    demand(len(got) == 300_000, f"{len(got)} bytes")
    return got


SPARE = 2  # lists of buffers that the kit's SQLite keeps for later rows; where one can't grow, the buffer is made anew


def each_growth_refused(at, *calls):
    """Each call with one growth of its memory refused: 1, or 80 where the database wanted it, after a beginning of
    what it writes otherwise; or nothing is missing, at no more growths than there are lists that are only to save
    time."""
    library = built(at.path)
    for call in calls:
        whole, unharmed = call(), 0
        for number in apart():
            mark = os.path.join(at.path, "mark")
            got = call(env=refusing(number, library, mark))
            if not os.path.exists(mark):
                expect(got, whole)
                demand(number > 100, f"it has only {number} growths")
                break
            os.remove(mark)
            unharmed += got == whole
            is_told = got.status == 1 and got.err in WANTS
            demand(
                is_told and whole.out.startswith(got.out) or got == whole and unharmed <= SPARE,
                f"growth {number}: {got}",
            )
