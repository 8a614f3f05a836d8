"""Runs the dates of library_rows on the tables beside this file: python3 tests/dates/run.py.

One line a failed case, and last `N passed, M failed`; status 0 only if none failed. Each canonical text
is also given again, and must be answered as it stands with the same days. The slow reader of dates by which other tests
expect days (tests/calendars.py) has to answer the same tables.
"""

import pathlib
import subprocess
import sys

import republican

HERE = pathlib.Path(__file__).resolve().parent
sys.dont_write_bytecode = True
sys.path.append(str(HERE.parent))

import calendars  # noqa: E402

PROGRAM = HERE.parents[1] / "crates/library_rows/out/library_rows"


def rows(name):
    lines = (HERE / name).read_text(encoding="utf-8").split("\n")
    return [line.split("\t") for line in lines if line and not line.startswith("#")]


def answers(texts):
    data = "".join(f"date\t{text}\n" for text in texts).encode("utf-8")
    out = subprocess.run([str(PROGRAM)], input=data, stdout=subprocess.PIPE, check=True, timeout=50).stdout
    return out.decode("utf-8").split("\n")[:-1]


def cases():
    """A name, a text and the wanted line of each case."""
    for name in ("rows.tsv", "sample.tsv"):
        for text, written, lo, hi in rows(name):
            yield name, text, "\t".join([written, lo, hi])
            yield name + ", written again", written, "\t".join([written, lo, hi])
    for text, lo, hi, source in rows("published.tsv"):
        yield source, text, "\t".join([text, lo, hi])
    for name, text, span in republican.cases():
        first, last = ("-", "-") if span is None else span
        yield name, text, f"{text}\t{first}\t{last}"


def long_cases():
    """A spelling of 1,048,576 bytes, one that is longer, and a text whose spelling is longer than it."""
    days = "-98615\t-98251"
    most = 1_048_576 - len("INT 1700 ()")
    fits = "INT 1700 (" + "x" * most + ")"
    over = "INT 1700 (" + "x" * (most + 1) + ")"
    joined = "INT 1700(" + "x" * (most + 1) + ")"
    yield "the longest spelling", fits, f"{fits}\t{days}"
    yield "a spelling that is too long", over, f"{over}\t-\t-"
    yield "a text whose spelling is too long", joined, f"{joined}\t-\t-"


def read_slowly(text):
    """The line that the slow reader answers."""
    read = calendars.read(text)
    return "\t".join([read.written, *("-" if day is None else str(day) for day in (read.first, read.last))])


def main():
    tables = list(cases()) + list(long_cases())
    made = tables + [(f"{name}, read slowly", text, wanted) for name, text, wanted in tables]
    got = answers([text for _, text, _ in tables])
    failed = abs(len(got) - len(tables))
    got += [read_slowly(text) for _, text, _ in tables]
    for (name, text, wanted), line in zip(made, got):
        if line != wanted:
            failed += 1
            print(f"failed: {name}: {text[:100]!r} gives {line[-100:]!r}, and {wanted[-100:]!r} was wanted")
    print(f"{len(made) - failed} passed, {failed} failed")
    return 1 if failed else 0


if __name__ == "__main__":
    sys.exit(main())
