"""The tables of an archive as plain lists, and what each change makes of them: written from docs/FORMATS.md, beside
which the program's own tables are compared, row by row and key by key."""

from __future__ import annotations

from calendars import span_of
from packed import row_of, side_row
from rows import Line, written

# what `query` is asked of each table, and the columns that it shows
QUERIES = {
    "record": "SELECT no, kind, batch FROM record ORDER BY no",
    "line": "SELECT no, pos, depth, tag, text, dst FROM line ORDER BY no",
    "receipt": "SELECT id, token, digest, first, count FROM receipt ORDER BY id",
    "slip": "SELECT no, keep, gone, undone FROM slip ORDER BY no",
    "slip_line": "SELECT id, slip, side, no, pos, depth, tag, text, dst FROM slip_line ORDER BY id",
    "link": "SELECT id FROM link ORDER BY id",
    "sought": "SELECT no, text, dst FROM sought ORDER BY no",
    "span": "SELECT no, lo, hi FROM span ORDER BY no",
    "batch": "SELECT no, is_open FROM batch ORDER BY no",
    "meta": "SELECT version, next, society FROM meta",
}


def pair(number: int, named: int) -> int:
    """The key in `link` of a record that names a number."""
    return (named << 32) + number - (1 << 63)


def links_of(number: int, lines: tuple[Line, ...]) -> set[int]:
    """The keys in `link` of a record that is kept as these lines."""
    return {pair(number, line.number) for line in lines if line.number is not None}


def sought_of(lines: tuple[Line, ...]) -> tuple[object, ...] | None:
    """What a record that is kept as these lines is looked for by: a place by its name, an entry by its key and the
    number of its source, which stand on one line."""
    if lines[0].tag == "place":
        return (lines[0].text, None)
    if lines[0].tag == "entry":
        return next((line.text, line.number) for line in lines if line.tag == "key")
    return None


class Tables:
    """Rows of each table as tuples, in the order of their keys."""

    def __init__(self, society: str) -> None:
        self.next = 1
        self.society = society
        self.batches = {0: 0}
        self.records: dict[int, tuple[str, int]] = {}
        self.packs: dict[int, tuple[object, ...]] = {}
        self.receipts: list[tuple[object, ...]] = []
        self.slips: dict[int, tuple[int, int, int]] = {}
        self.slip_lines: list[tuple[object, ...]] = []
        self.spans: dict[int, tuple[int | None, int | None]] = {}
        self.links: set[int] = set()  # of a record that is changed or taken out they stay
        self.soughts: dict[int, tuple[object, ...]] = {}

    def put(self, number: int, lines: tuple[Line, ...]) -> None:
        self.records[number] = (lines[0].tag, 0)
        self.packs[number] = row_of(number, lines)
        self.spans.pop(number, None)
        if (span := span_of(lines[0].tag, lines)) is not None:
            self.spans[number] = span
        self.links |= links_of(number, lines)
        self.soughts.pop(number, None)
        if (sought := sought_of(lines)) is not None:
            self.soughts[number] = sought

    def take(self, number: int) -> None:
        self.packs.pop(number, None)
        self.records.pop(number, None)
        self.spans.pop(number, None)
        self.soughts.pop(number, None)

    def keep(self, token: str, byte: int, first: int, count: int) -> None:
        self.receipts.append((following(self.receipts), token, bytes([byte]) * 32, first, count))

    def merge(self, number: int, keep: int, gone: int, changed: int, old, new) -> None:
        self.slips[number] = (keep, gone, 0)
        self.slip_lines = [row for row in self.slip_lines if row[1] != number]
        sides = [(side, lines) for side, lines in ((0, old), (1, new or ())) if lines]
        self.slip_lines += [side_row(number, place, side, changed, lines) for place, (side, lines) in enumerate(sides)]
        self.slip_lines.sort()

    def undo(self, number: int) -> None:
        keep, gone, _ = self.slips[number]
        self.slips[number] = (keep, gone, 1)

    def open(self, batch: int) -> None:
        self.batches[batch] = 1

    def stage(self, batch: int, staged: list[tuple[object, ...]]) -> None:
        """Rows of an import that is open, of each its table, its number and the rest (`rows_of`)."""
        for table, number, *row in staged:
            if table == "record":
                self.records[number] = (row[0], batch)
            elif table == "line":
                self.packs[number] = row_of(number, row[0])
            elif table == "link":
                self.links.add(number)
            elif table == "sought":
                self.soughts[number] = (row[0], row[1])
            else:
                self.spans[number] = (row[0], row[1])

    def publish(self, batch: int, after: int) -> None:
        self.batches[batch] = 0
        self.next = after

    def remove(self, batch: int) -> None:
        gone = {number for number, (_, own) in self.records.items() if own == batch}
        self.packs = {number: row for number, row in self.packs.items() if number not in gone}
        self.records = {number: row for number, row in self.records.items() if number not in gone}
        self.spans = {number: span for number, span in self.spans.items() if number not in gone}
        self.soughts = {number: row for number, row in self.soughts.items() if number not in gone}
        self.links = {key for key in self.links if key & 0xFFFFFFFF not in gone}
        del self.batches[batch]

    def rows(self, table: str) -> list[tuple[object, ...]]:
        return {
            "record": [(number, *row) for number, row in sorted(self.records.items())],
            "line": [row for _, row in sorted(self.packs.items())],
            "receipt": self.receipts,
            "slip": [(number, *row) for number, row in sorted(self.slips.items())],
            "slip_line": self.slip_lines,
            "link": [(key,) for key in sorted(self.links)],
            "sought": [(number, *row) for number, row in sorted(self.soughts.items())],
            "span": [(number, *span) for number, span in sorted(self.spans.items())],
            "batch": sorted(self.batches.items()),
            "meta": [(2, self.next, self.society)],
        }[table]

    def shown(self, table: str) -> str:
        return "".join("".join(value(part) + "\t" for part in row) + "\n" for row in self.rows(table))


def rows_of(records: dict[int, tuple[Line, ...]]) -> list[tuple[object, ...]]:
    """The rows of an import of these records, in the order in which they are written: of each its table, its number or
    its key, and the rest."""
    spans = {number: span_of(lines[0].tag, lines) for number, lines in records.items()}
    soughts = {number: sought_of(lines) for number, lines in records.items()}
    links = {key for number, lines in records.items() for key in links_of(number, lines)}
    return [
        *(("record", number, lines[0].tag) for number, lines in records.items()),
        *(("line", number, lines) for number, lines in records.items()),
        *(("link", key) for key in sorted(links)),
        *(("sought", number, *sought) for number, sought in soughts.items() if sought is not None),
        *(("span", number, *span) for number, span in spans.items() if span is not None),
    ]


def following(rows: list[tuple[object, ...]]) -> int:
    """The key of a row that gets the next one."""
    return rows[-1][0] + 1 if rows else 1


def value(part: object) -> str:
    """A value as it is answered."""
    if part is None:
        return "-"
    if isinstance(part, bytes):
        return part.hex()
    return str(part) if isinstance(part, int) else written(part)
