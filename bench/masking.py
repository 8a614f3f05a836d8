"""Times the masked state: python3 bench/masking.py [PERSONS..].

Of PERSONS persons (100,000), each with three events, half of them in a family each; and of two hubs, one person with
50,000 events, and one event with 50,000 participants. `crates/state_rows/out/state_rows` reads the records as rows,
and then makes the masked state of a day no time and five times. Told is the processor time of one masked state: the
difference, by five. Beside it stand the time in which the same run reads and keeps the records, as the floor, and the
most memory of both runs.
"""

import pathlib
import random
import sys
import tempfile

from norm import FIRST, LAST, MONTHS, one_run

PROGRAM = str(pathlib.Path(__file__).resolve().parents[1] / "crates/state_rows/out/state_rows")
TODAY = 19_723  # 2024-01-01
TIMES = 5


def line(depth, tag, text=None, number=None):
    return f"line\t{depth}\t{tag}\t{'-' if text is None else '=' + text}\t{'-' if number is None else number}\n"


def person(rng, number):
    """The rows of a person."""
    name = line(1, "name", f"{rng.choice(FIRST)} {number} /{rng.choice(LAST)}/")
    return line(0, "person") + name + line(1, "sex", rng.choice("MFU")) + f"put\t{number}\n"


def event(rng, number, owner, tag, participants=()):
    """The rows of an event of the last 150 years, so that some owners are dead and some are not."""
    date = f"{rng.randint(1, 28)} {rng.choice(MONTHS)} {rng.randint(1874, 2023)}"
    others = "".join(line(1, "participant", "witness", it) for it in participants)
    return line(0, "event", None, owner) + line(1, tag, "") + line(1, "date", date) + others + f"put\t{number}\n"


def family(number, husband, wife):
    """The rows of a family of two."""
    partners = line(1, "partner", "husband", husband) + line(1, "partner", "wife", wife)
    return line(0, "family") + partners + f"put\t{number}\n"


def usual(rng, persons):
    """Persons with a birth, a residence and an occupation; each two of them are a family."""
    number = 1
    for at in range(persons):
        owner = number
        yield person(rng, owner)
        for more, tag in enumerate(("BIRT", "RESI", "OCCU"), 1):
            yield event(rng, owner + more, owner, tag)
        number = owner + 4
        if at % 2:
            yield family(number, owner - 4, owner)
            number += 1
    yield f"next\t{number}\n"


def one_with_all_events(rng, events):
    yield person(rng, 1)
    for number in range(2, events + 2):
        yield event(rng, number, 1, "RESI")
    yield f"next\t{events + 2}\n"


def one_with_all_persons(rng, persons):
    for number in range(1, persons + 1):
        yield person(rng, number)
    yield event(rng, persons + 1, 1, "BURI", range(1, persons + 1))
    yield f"next\t{persons + 2}\n"


def least(path):
    """The least processor time of three runs, and the most memory in MB."""
    runs = [one_run([PROGRAM], path) for _ in range(3)]
    return min(cpu for _, cpu, _ in runs), max(memory for _, _, memory in runs) / 1e3


def told(name, rows, folder):
    """A row of the table."""
    path = f"{folder}/rows"
    with open(path, "w", encoding="utf-8") as out:
        out.writelines(rows)
    floor, held = least(path)
    with open(path, "a", encoding="utf-8") as out:
        out.write(f"count\t{TODAY}\n" * TIMES)
    whole, most = least(path)
    one = (whole - floor) / TIMES
    print(f"| {name} | {one:.2f} s | {floor:.2f} s | {held:.0f} MB | {most:.0f} MB |", flush=True)


def main():
    rng = random.Random(7)
    print("| archive | one masked state | reading it | memory | with a masked state |\n|---|---|---|---|---|")
    with tempfile.TemporaryDirectory() as folder:
        for persons in [int(it) for it in sys.argv[1:]] or [100_000]:
            told(f"{persons:,} persons, {3 * persons:,} events", usual(rng, persons), folder)
        told("one person with 50,000 events", one_with_all_events(rng, 50_000), folder)
        told("one event with 50,000 participants", one_with_all_persons(rng, 50_000), folder)


if __name__ == "__main__":
    main()
