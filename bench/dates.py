"""Times the dates of library_rows beside a second reader of dates: python3 bench/dates.py 'COMMAND' [COUNT [SEED]].

Each reads COUNT texts (a million) of tests/dates/generate.py, and writes the canonical text and the
days of each. Time of the whole run divided by the number of texts, three runs each in turn, least one.
"""

import pathlib
import shlex
import subprocess
import sys
import time

ROOT = pathlib.Path(__file__).resolve().parents[1]
sys.path.insert(0, str(ROOT / "tests/dates"))

import generate  # noqa: E402

OURS = [str(ROOT / "crates/library_rows/out/library_rows")]


def seconds(command, data):
    start = time.perf_counter()
    subprocess.run(command, input=data, stdout=subprocess.DEVNULL, check=True)
    return time.perf_counter() - start


def main():
    theirs = shlex.split(sys.argv[1])
    count = int(sys.argv[2]) if len(sys.argv) > 2 else 1_000_000
    seed = int(sys.argv[3]) if len(sys.argv) > 3 else 1
    texts = list(generate.texts(seed, count))
    rows = "".join(f"date\t{text}\n" for text in texts).encode("utf-8")
    data = "".join(f"{text}\n" for text in texts).encode("utf-8")
    times = [(seconds(OURS, rows), seconds(theirs, data)) for _ in range(3)]
    for name, best in (("library_rows", min(t[0] for t in times)), (sys.argv[1], min(t[1] for t in times))):
        print(f"{best / count * 1e9:8.0f} ns a date  {name}")


if __name__ == "__main__":
    main()
