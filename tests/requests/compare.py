"""Compares request_rows with a second program, on rows of the seeded generator.

    python3 tests/requests/compare.py 'COMMAND' [ARCHIVES [SEED]]

COMMAND reads rows of requests for a new archive and writes a row of answer for each. It is run once for each
of ARCHIVES (200), with ROWS rows. One line an archive that differs, how many rows were answered so, and a last line
that counts what differs; status 0 if there is none.
"""

import pathlib
import shlex
import subprocess
import sys
from collections import Counter

sys.dont_write_bytecode = True

import generate  # noqa: E402

OURS = pathlib.Path(__file__).resolve().parents[2] / "crates/request_rows/out/request_rows"
ROWS = 200  # of one archive


def answers(command, data):
    out = subprocess.run(command, input=data, stdout=subprocess.PIPE, check=True, timeout=50).stdout
    return out.split(b"\n")[:-1]


def kind(answer):
    """`ok`, or the number and name of the refusal."""
    words = answer.rsplit(b",", 3)
    return b" ".join(words[-2:]).decode() if words[-3].endswith(b"refused") else "ok"


def main():
    command = shlex.split(sys.argv[1])
    count = int(sys.argv[2]) if len(sys.argv) > 2 else 200
    seed = int(sys.argv[3]) if len(sys.argv) > 3 else 1
    wrong, kinds = 0, Counter()
    for archive in range(count):
        made = generate.rows(f"{seed} {archive}", ROWS)
        ours, theirs = answers([str(OURS)], b"".join(made)), answers(command, b"".join(made))
        kinds.update(kind(one) for one in ours)
        if ours != theirs or len(ours) != len(made):
            wrong += 1
            pairs = [(a, b) for a, b in zip(ours, theirs) if a != b]
            print(f"archive {archive} of seed {seed}: {len(ours)} and {len(theirs)} answers, first {pairs[:1]}")
    print(", ".join(f"{what}: {n}" for what, n in sorted(kinds.items())))
    print(f"{count} archives of {ROWS} rows, {wrong} differ")
    return 1 if wrong else 0


if __name__ == "__main__":
    sys.exit(main())
