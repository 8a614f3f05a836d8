"""Measures a run of the gate, crate by crate, and prints it as the table of docs/GATE.md.

    python3 tests/gate_times.py COMMAND..

runs COMMAND (`rt ci`, or `./test` on a clean clone), shows what it writes, and looks twice a second at
the processes below it: how much processor time each has taken, and how much memory at the most.  A
process is that of a crate's proof, of its tests, or of one of its edits by its words and its folder.
What ended between two looks is missing by half a second at the most.  The whole is as the system counts it.
The status is that of COMMAND.
"""

from __future__ import annotations

import os
import re
import resource
import subprocess
import sys
import threading
import time
from dataclasses import dataclass

from generated import gate_rows, measured_so_far

TICKS = os.sysconf("SC_CLK_TCK")
LOOK_EVERY = 0.5
CRATE = re.compile(r"--crate-name\s(\w+)")


@dataclass
class Seen:
    """What was last seen of a process."""

    crate: str
    part: str
    seconds: float = 0.0
    peak: int = 0  # KiB


def text_of(path):
    try:
        with open(path, encoding="utf-8", errors="replace") as file:
            return file.read()
    except OSError:
        return ""


def parents():
    """Each process's parent."""
    found = {}
    for name in os.listdir("/proc"):
        if name.isdigit():
            fields = text_of(f"/proc/{name}/stat").rpartition(")")[2].split()
            if fields:
                found[int(name)] = int(fields[1])
    return found


def below(root, above):
    """The processes that `root` started, and those that they started, each after its parent."""
    found = [root]
    for parent in found:
        found += [child for child, its in above.items() if its == parent]
    return found[1:]


def part_of(process):
    """The crate and the part of the gate that a process works at, or None."""
    words = text_of(f"/proc/{process}/cmdline").replace("\0", " ")
    named = CRATE.search(words)
    if "/rattle " not in words or not named:
        return None
    try:
        folder = os.readlink(f"/proc/{process}/cwd")
    except OSError:
        return None
    if "/rt-edit-" in folder:
        return named[1], "edits"
    return named[1], "tests" if " --test" in words else "proof"


def spent(process):
    """The processor seconds of a process and of those that it has waited for."""
    fields = text_of(f"/proc/{process}/stat").rpartition(")")[2].split()
    return sum(map(int, fields[11:15])) / TICKS if fields else 0.0


def peak(process):
    found = re.search(r"^VmHWM:\s+(\d+)", text_of(f"/proc/{process}/status"), re.M)
    return int(found[1]) if found else 0


def look(root, seen):
    above = parents()
    for process in below(root, above):
        helped = seen.get(above[process])
        if helped:  # its time is its parent's once it has ended
            helped.peak = max(helped.peak, peak(process))
            continue
        if process not in seen:
            named = part_of(process)
            if named is None:
                continue
            seen[process] = Seen(*named)
        found = seen[process]
        found.seconds = max(found.seconds, spent(process))
        found.peak = max(found.peak, peak(process))


def watch(root, seen, is_over):
    while not is_over.wait(LOOK_EVERY):
        look(root, seen)


def seconds_of(rows, part):
    return sum(row.seconds for row in rows if row.part == part)


def figures(rows):
    """Of a crate's processes: the seconds of its proof, the GB of the largest, the seconds of its edits."""
    proof, edits = seconds_of(rows, "proof"), seconds_of(rows, "edits")
    largest = max(row.peak for row in rows) / 1024 / 1024
    return f"{proof:.0f}", f"{largest:.1f}", f"{edits:.0f}" if edits else "-"


def table(seen):
    """The table of docs/GATE.md with these figures; the last runs of the edits aside stay as they are there."""
    rows, known = list(seen.values()), measured_so_far()
    for crate in {row.crate for row in rows}:
        last = known.get(crate, ("-", "-", "-", "-"))[3]
        known[crate] = (*figures([row for row in rows if row.crate == crate]), last)
    yield from gate_rows(known)
    whole = ", ".join(f"{part} {seconds_of(rows, part):.0f} s" for part in ("proof", "tests", "edits"))
    yield f"Sums: {whole}; largest process {max((row.peak for row in rows), default=0) / 1024 / 1024:.1f} GB."


def main(command):
    if not command:
        sys.exit(__doc__)
    seen, is_over = {}, threading.Event()
    begun = time.monotonic()
    with subprocess.Popen(
        command, stdout=subprocess.PIPE, stderr=subprocess.STDOUT, text=True, errors="replace"
    ) as run:
        watcher = threading.Thread(target=watch, args=(run.pid, seen, is_over))
        watcher.start()
        for line in run.stdout:
            print(line, end="", flush=True)
    is_over.set()
    watcher.join()
    used = resource.getrusage(resource.RUSAGE_CHILDREN)
    wall = time.monotonic() - begun
    print("\n" + "\n".join(table(seen)))
    print(
        f"Wall {wall // 60:.0f} min {wall % 60:.0f} s; processor {(used.ru_utime + used.ru_stime) / 60:.1f} min; "
        f"{os.cpu_count()} processors."
    )
    return run.returncode


if __name__ == "__main__":
    sys.exit(main(sys.argv[1:]))
