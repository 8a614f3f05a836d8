"""A page of 20 baptisms that LibreOffice Calc writes, entered by `entries --table`, which `./test` does not do.

    python3 tests/long_spreadsheets.py [--parish COMMAND] [--only WORD] [--keep FOLDER]

The sheet is written here, as cells of a spreadsheet: days as days, numbers as numbers, texts of several lines and with
quotes, separators and letters that are not ASCII, an empty row, and columns of its own. Calc
(`apt-get install --no-install-recommends libreoffice-calc-nogui`) writes it by its command line, with each separator
and in several character sets, and shows days in several ways. Each of these files is looked over and entered, and the
archive has to be that in which the same 20 entries were entered by rows of `entries`. A line for each file, and last
`N passed, M failed`.
"""

from __future__ import annotations

import argparse
import os
import shutil
import subprocess
import sys
import tempfile
from dataclasses import dataclass
from xml.sax.saxutils import escape

sys.dont_write_bytecode = True

from archives import lines  # noqa: E402
from harness import Case, Outcome, Tools, demand, expect, run, written  # noqa: E402
from page_commands import Checked, refused_at, without_digests  # noqa: E402
from run import command, executable, outcome_of  # noqa: E402

OFFICE, LIMIT = "soffice", 600
# Rows of a new archive, which are its records 1 to 4.
ROWS = ("a,place,Kent,", "b,place,Ashby,1", "c,source,Register of Ashby,,,,", 'd,place,"Füßen",1')
HEADER = ("Kind", "Page", "Item", "Date", "Place", "Text", "Child", "Father", "Mother", "Godparent 1", "Godparent 2",
          "# who typed it")
PLACES = {"Ashby, Kent": "2", "Füßen ,  Kent": "4", "Kent": "1"}
CHILDREN = ("Ann", "Tom", "Eva", "Zoë", "Jean", "André", "Jörg", "Mary", "Wm.", "Hugh")
TEXTS = ("", "of the mill", 'called "the younger"', "two\nlines, and a comma", "half; a semicolon", "Füße")
EMPTY = 12  # the row of the sheet that is empty
# How Calc is told to write: the separator by its number and the number of the character set (its filter "Text - txt -
# csv"), and what `entries --table` is told of the file.
FILES = (
    ("commas in UTF-8", 44, 76, ()),
    ("semicolons in UTF-8", 59, 76, ()),
    ("tabs in UTF-8", 9, 76, ()),
    ("commas in UTF-16", 44, 65535, ()),
    ("semicolons in Windows-1252", 59, 1, ("--from", "1252")),
    ("commas in MacRoman", 44, 2, ("--from", "macintosh")),
    ("tabs in code page 850", 9, 4, ("--from", "850")),
)
MONTHS = ("January", "February", "March", "April", "May", "June", "July", "August", "September", "October", "November",
          "December")


@dataclass(frozen=True)
class Days:
    """How days are shown: by a format of a country, or as texts."""

    like: str
    country: str
    order: str
    """The parts, with what is between them; empty for texts."""
    words: tuple[str, ...]
    """What `entries --table` is told of them."""

    @property
    def format(self):
        """As OpenDocument has it (part 3, 16.29)."""
        made = "".join(f'<number:{it} number:style="long"/>' if it.isalpha() else f"<number:text>{it}</number:text>"
                       for it in self.order.split())
        language, country = self.country.split("-")
        return (f'<number:date-style style:name="shown" number:language="{language}" number:country="{country}">{made}'
                "</number:date-style>")


ISO = Days("1757-06-12", "en-GB", "year - month - day", ())
DAYS = (
    Days("12/06/1757", "en-GB", "day / month / year", ("--dates", "dmy")),
    Days("06/12/1757", "en-US", "month / day / year", ("--dates", "mdy")),
    Days("12.06.1757", "de-DE", "day . month . year", ("--dates", "dmy")),
    Days("12 June 1757", "en-GB", "", ()),
)


@dataclass(frozen=True)
class Baptism:
    """One row of the sheet."""

    item: int
    year: int
    month: int
    day: int
    place: str
    text: str
    names: tuple[str, str, str, str, str]
    """Of the child, father, mother and two godparents; empty if the cell is."""

    @property
    def row(self):
        """As `entries` reads it."""
        roles = ("child", "father", "mother", "godparent", "godparent")
        mentions = [word for role, name in zip(roles, self.names, strict=True) if name for word in (role, name)]
        date = f"{self.day} {MONTHS[self.month - 1][:3].upper()} {self.year}"
        fields = ["BAPTISM", "f. 15", str(self.item), date, PLACES[self.place], self.text, *mentions]
        return ",".join(f'"{it.replace(chr(34), chr(34) * 2)}"' for it in fields)

    def cells(self, days):
        """As the sheet has it."""
        texts = [text_cell(it) for it in (self.place, self.text, *self.names, "Ann, of the society")]
        value = f'office:value-type="date" office:date-value="{self.year}-{self.month:02}-{self.day:02}"'
        day = f'<table:table-cell table:style-name="day" {value}/>'
        if not days.order:
            day = text_cell(f"{self.day} {MONTHS[self.month - 1]} {self.year}")
        item = f'<table:table-cell office:value-type="float" office:value="{self.item}"/>'
        return [text_cell("Baptism"), text_cell("f. 15"), item, day, *texts]


def baptisms():
    for item in range(1, 21):
        child = CHILDREN[item % len(CHILDREN)]
        names = (child, "Thos. Lee" if item % 3 else "", "Eva", f"{child} Hill" if item % 4 else "", "Tom Kay")
        place = tuple(PLACES)[item % len(PLACES)]
        yield Baptism(item, 1757, item % 12 + 1, item + 8, place, TEXTS[item % len(TEXTS)], names)


def text_cell(text):
    if not text:
        return "<table:table-cell/>"
    parts = "".join(f"<text:p>{escape(it)}</text:p>" for it in text.split("\n"))
    return f'<table:table-cell office:value-type="string">{parts}</table:table-cell>'


def sheet_of(rows, days):
    """A sheet as a flat OpenDocument file."""
    spaces = {
        "office": "office:1.0", "style": "style:1.0", "text": "text:1.0", "table": "table:1.0",
        "number": "datastyle:1.0",
    }
    names = " ".join(f'xmlns:{it}="urn:oasis:names:tc:opendocument:xmlns:{name}"' for it, name in spaces.items())
    body = "".join(f"<table:table-row>{''.join(cells) or '<table:table-cell/>'}</table:table-row>" for cells in rows)
    return (
        f'<?xml version="1.0" encoding="UTF-8"?><office:document {names} office:version="1.2" '
        'office:mimetype="application/vnd.oasis.opendocument.spreadsheet"><office:automatic-styles>'
        f'{days.format}<style:style style:name="day" style:family="table-cell" style:data-style-name="shown"/>'
        f'</office:automatic-styles><office:body><office:spreadsheet><table:table table:name="page">{body}'
        "</table:table></office:spreadsheet></office:body></office:document>"
    )


def rows_of(days):
    """The rows of the sheet; one of them is empty."""
    rows = [[text_cell(it) for it in HEADER], *(it.cells(days) for it in baptisms())]
    return [*rows[: EMPTY - 1], [], *rows[EMPTY - 1 :]]


def written_by_calc(folder, rows, days, separator, charset):
    """The bytes of the file that Calc writes of a sheet."""
    with open(os.path.join(folder, "page.fods"), "w", encoding="utf-8") as file:
        file.write(sheet_of(rows, days))
    # cells as they are shown, quotes only where they have to be
    form = f"csv:Text - txt - csv (StarCalc):{separator},34,{charset},1,,0,false,true,false"
    words = (OFFICE, f"-env:UserInstallation=file://{folder}/profile", "--headless", "--convert-to", form, "--outdir",
             folder, os.path.join(folder, "page.fods"))
    ran = subprocess.run(words, stdin=subprocess.DEVNULL, capture_output=True, timeout=LIMIT, check=False)
    path = os.path.join(folder, "page.csv")
    demand(ran.returncode == 0 and os.path.exists(path), f"Calc has written nothing: {ran.stdout} {ran.stderr}")
    with open(path, "rb") as file:
        return file.read()


def is_entered(tools, folder, days, separator, charset, words):
    """What Calc writes is entered as the same entries, row by row, are; and sent again it is answered as before."""
    given = written_by_calc(folder, rows_of(days), days, separator, charset)
    with Checked(tools) as at, Checked(tools) as plain:
        expect(at.with_rows(ROWS).check(given, *words), written(b"20 rows, 0 wrong, 0 doubtful\n"))
        made = written(b"made 20 entries, first 5\n")
        expect(at.enter(given, *words), made)
        batch = ("entries", plain.with_rows(ROWS).file, "--source", "3", "--token", "page-8")
        expect(run(plain.parish, batch, lines(it.row for it in baptisms())), made)
        demand(without_digests(at) == without_digests(plain), f"the tables are not those of the rows: {given!r}")
        expect(at.enter(given, *words), made)


def a_row_is_refused(tools, folder):
    """A row that is refused has the number that Calc shows, and nothing is entered."""
    rows = rows_of(ISO)
    rows[EMPTY + 2][0] = text_cell("Baptised")
    given = written_by_calc(folder, rows, ISO, 59, 76)
    with Checked(tools) as at:
        before = at.with_rows(ROWS).tables()
        row = EMPTY + 3
        expect(at.enter(given), refused_at(90, row, f"row {row}: 90 BadRow: Kind: Baptised\n"))
        wrong = f"row {row}: 90 BadRow: Kind: Baptised\n20 rows, 1 wrong, 0 doubtful\n"
        expect(at.check(given), Outcome(wrong.encode(), b"", 1))
        demand(at.tables() == before, "the tables changed")


def a_set_is_not_said(tools, folder):
    """A page in Windows-1252 is refused where `--from` is not given, with what to do."""
    given = written_by_calc(folder, rows_of(ISO), ISO, 44, 1)
    row = next(it for it, text in enumerate(given.split(b"\n"), 1) if not text.isascii())
    hint = b'  save the sheet as "CSV UTF-8", or say --from 1252\n'
    with Checked(tools) as at:
        expect(at.with_rows(ROWS).enter(given), Outcome(b"", b"parish: 90 BadRow at row %d\n%s" % (row, hint), 1))


def cases(tools, keep):
    def of(name, test, *given):
        def in_folder():
            with tempfile.TemporaryDirectory() as folder:
                try:
                    test(tools, folder, *given)
                finally:
                    path = os.path.join(folder, "page.csv")
                    if keep and os.path.exists(path):
                        shutil.copy(path, os.path.join(keep, f"{name}.csv"))

        return Case(name, in_folder)

    for name, separator, charset, words in FILES:
        yield of(name, is_entered, ISO, separator, charset, words)
    for days in DAYS:
        yield of(f"days like {days.like.replace('/', '-')}", is_entered, days, 59, 76, days.words)
    yield of("a row is refused", a_row_is_refused)
    yield of("a set is not said", a_set_is_not_said)


def main() -> int:
    words = argparse.ArgumentParser(description="Pages of LibreOffice Calc.")
    words.add_argument("--parish", metavar="COMMAND")
    words.add_argument("--only", metavar="WORD", default="")
    words.add_argument("--keep", metavar="FOLDER")
    given = words.parse_args()
    if shutil.which(OFFICE) is None:
        print("long_spreadsheets: not installed: apt-get install --no-install-recommends libreoffice-calc-nogui")
        return 2
    tools = Tools(command(given.parish) if given.parish else (executable("parish"),), None)
    failed, tried = 0, [case for case in cases(tools, given.keep) if given.only in case.name]
    for case in tried:
        why, seconds = outcome_of(case)
        failed += why is not None
        print(f"{case.name}: {why or 'passed'} ({seconds:.0f} s)", flush=True)
    print(f"{len(tried) - failed} passed, {failed} failed")
    return 1 if failed or not tried else 0


if __name__ == "__main__":
    sys.exit(main())
