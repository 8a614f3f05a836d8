"""The parts of documents and sources that repeat other sources, and what writes them.

    python3 tests/generated.py

A part stands between `<!-- generated: NAME -->` and `<!-- end of NAME -->`, of the manual between comments of
troff. What is there is replaced by what the sources say today: the list of crates, the files whose definitions
contracts cite, the main words, the standards that files of definitions name, the laws and what some of them say,
the tables of an archive, the rows of the gate's table, whose measured columns stay, and what tests/manual.py has
for the manual.
tests/layout.py tests that each part is what is written here.
"""

from __future__ import annotations

import glob
import os
import re
import sys
import textwrap

import manual
from cited import LAWS_SAID, MAIN_WORDS

ROOT = os.path.dirname(os.path.dirname(os.path.abspath(__file__)))
sys.path.insert(0, os.path.join(ROOT, "packaging"))
import completions  # noqa: E402

WIDTH = 120

HEADING = re.compile(r"# (.*)")
CRATE = re.compile(r"(\w+):(.*)")
SENTENCE = re.compile(r"(.*?\.)(?:\s|$)", re.DOTALL)
# The names of a module that a file's contracts use.
IMPORT = re.compile(r"^ghost use Rattle\.(\w+)\.specs\.([\w.]+)\.\{([^}]*)\};", re.MULTILINE)
# A public function up to its body, which begins at the end of the header or, after clauses, on a line of its own.
PUBLIC = re.compile(r"^( *)pub fn (?:[^\n]*\{$|.*?(?:^\1\{|^\1\)[^\n]*\{$))", re.MULTILINE | re.DOTALL)
TRAIT = re.compile(r"^pub trait .*?^\}", re.MULTILINE | re.DOTALL)
LAW = re.compile(r"^pub fn (\w+)", re.MULTILINE)


def text_of(path):
    with open(os.path.join(ROOT, path), encoding="utf-8") as file:
        return file.read()


def paths(pattern):
    """The files of a pattern, without what the gate makes in out/, which has copies of crates that an edit changed."""
    return sorted(it for it in glob.glob(pattern, root_dir=ROOT, recursive=True) if "out" not in it.split("/"))


def sections():
    """The headings of crates.txt, each with its crates in their order."""
    found = []
    for line in text_of("crates.txt").split("\n"):
        heading, crate = HEADING.match(line), CRATE.match(line)
        if heading:
            found.append((heading[1], []))
        elif crate:
            found[-1][1].append(crate[1])
    return [(heading, crates) for heading, crates in found if crates]


def crates():
    return [crate for _, its in sections() for crate in its]


def product():
    """The crates of the program."""
    return [crate for heading, its in sections() for crate in its if not heading.startswith("Tests")]


def first_sentence(text):
    joined = " ".join(text.split())
    found = SENTENCE.match(joined)
    return found[1] if found else joined


def comment(lines, mark):
    """The comment at the top of a file, without its marks."""
    top = []
    for line in lines:
        if not line.startswith(mark):
            break
        top.append(line.removeprefix(mark))
    return "\n".join(top)


def root_file(crate):
    found = paths(f"crates/{crate}/src/lib.rt") + paths(f"crates/{crate}/src/main.rt")
    return found[0]


def said_of(path, mark):
    return first_sentence(comment(text_of(path).split("\n"), mark))


def item(text):
    return textwrap.fill(
        "- " + text, WIDTH, subsequent_indent="  ", break_long_words=False, break_on_hyphens=False
    )


def crate_item(crate):
    return item(f"[{crate}](../crates/{crate}/README.md): {said_of(root_file(crate), '//!')}")


def list_of_crates(_now):
    """Under each heading of crates.txt its crates, each with the first sentence of its root file."""
    for heading, its in sections():
        name, colon, rest = heading.partition(": ")
        yield f"**{name}**{colon}{rest}\n"
        yield from map(crate_item, its)
        yield ""


def imported(text):
    """The definitions that a file names: of each name its crate and its file."""
    return {
        name.strip().split(" as ")[-1]: (crate, file, name.strip().split(" as ")[0])
        for crate, file, names in IMPORT.findall(text)
        for name in names.split(",")
        if name.strip()
    }


def cited_by(text):
    """The definitions that the contracts of a file's public functions and traits cite."""
    known = imported(text)
    for found in (*PUBLIC.finditer(text), *TRAIT.finditer(text)):
        for word in re.findall(r"[^\s(){}.,;]+", found[0]):
            if word in known:
                yield known[word]


def citations():
    """Of each crate the files of definitions that contracts of the program cite, with the names that are cited."""
    found = {}
    for crate in product():
        for path in paths(f"crates/{crate}/src/**/*.rt"):
            for home, file, name in cited_by(text_of(path)):
                found.setdefault(home, {}).setdefault(file, set()).add(name)
    return found


def definition_item(crate, file, names):
    path = f"crates/{crate}/specs/{file.replace('.', '/')}.antt"
    words = ", ".join(f"`{name}`" for name in sorted(names))
    return item(f"[{file}](../{path}): {said_of(path, '--')} {words}")


def is_written(crate, file):
    """Whether a file of definitions is written by hand: those of types are made of the source."""
    return os.path.exists(os.path.join(ROOT, f"crates/{crate}/specs/{file.replace('.', '/')}.antt"))


def list_of_definitions(_now):
    """Of each crate its files of definitions that contracts cite: what each is about, and the names that are cited."""
    found = citations()
    for crate in crates():
        files = {file: names for file, names in found.get(crate, {}).items() if is_written(crate, file)}
        if files:
            yield f"**{crate}**\n"
            yield from (definition_item(crate, file, files[file]) for file in sorted(files))
            yield ""


def said_above(path, name):
    """The comment above a definition; the file's own, if there is none."""
    found = re.search(rf"((?:^ *--.*\n)*)^ *(?:\w+ )*pub (?:record |data )?{name}(?!\w)", text_of(path), re.MULTILINE)
    if found is None:
        raise ValueError(f"{path} has no {name}")
    above = [line.strip() for line in found[1].split("\n")]
    return first_sentence(comment(above, "--")) or said_of(path, "--")


def list_of_main_words(_now):
    """Of each subject its definitions, with what their comments say."""
    for subject, places in MAIN_WORDS.items():
        yield f"**{subject}**\n"
        for place in places.split("; "):
            home, _, names = place.partition(": ")
            crate, _, file = home.partition("/")
            path = f"crates/{crate}/specs/{file}.antt"
            for name in names.split():
                yield item(f"[`{name}`](../{path}) of {crate}: {said_above(path, name)}")
        yield ""


# What the comments of definitions name, and how: chapters are those of GEDCOM 5.5.1.
STANDARDS = (
    ("GEDCOM 5.5.1, chapter 1", r"5\.5\.1.*chapter 1"),
    ("GEDCOM 5.5.1, chapter 2", r"5\.5\.1.*chapter 2"),
    ("The Unicode Standard", r"The Unicode Standard"),
    ("RFC 3629, UTF-8", r"RFC 3629"),
    ("ANSI/NISO Z39.47, ANSEL", r"Z39\.47"),
    ("RFC 4180, CSV", r"RFC 4180"),
    ("FIPS 180-4, SHA-256", r"FIPS 180-4"),
    ("RFC 9112 and RFC 9110, HTTP", r"RFC 91\d\d"),
    ("the URL Standard", r"the URL Standard"),
    ("the HTML Living Standard", r"HTML Living Standard"),
)
BLOCK = re.compile(r"(?:^ *--.*\n)+", re.MULTILINE)


def comments_of(path):
    """The comments of a file of definitions, each as one line without its marks."""
    for block in BLOCK.findall(text_of(path)):
        yield " ".join(line.strip().removeprefix("--").strip() for line in block.splitlines())


def names_standard(path, pattern):
    return any(re.search(pattern, comment) for comment in comments_of(path))


def files_naming(crate, pattern):
    found = [path for path in paths(f"crates/{crate}/specs/**/*.antt") if names_standard(path, pattern)]
    return [path.removeprefix(f"crates/{crate}/specs/").removesuffix(".antt") for path in found]


def list_of_standards(_now):
    """Of each standard the files of definitions whose comments name it, by their crates."""
    for title, pattern in STANDARDS:
        found = {crate: files_naming(crate, pattern) for crate in product()}
        yield item(f"**{title}**: " + "; ".join(f"{it}: {', '.join(files)}" for it, files in found.items() if files))


def laws_of(crate):
    for path in paths(f"crates/{crate}/src/laws.rt") + paths(f"crates/{crate}/src/laws/**/*.rt"):
        yield from LAW.findall(text_of(path))


def list_of_laws(_now):
    """The laws of each crate by their names, which are sentences."""
    for crate in product():
        laws = list(laws_of(crate))
        if laws:
            yield item(f"[{crate}](../crates/{crate}/src/laws.rt): {', '.join(f'`{law}`' for law in laws)}")


SAID_LAW = re.compile(r"((?:^///.*\n)+)(?:^#\[.*\n)*^pub fn (\w+)", re.MULTILINE)


def said_laws(crate):
    """The laws of a crate, each with its docstring."""
    for path in paths(f"crates/{crate}/src/laws.rt") + paths(f"crates/{crate}/src/laws/**/*.rt"):
        for said, law in SAID_LAW.findall(text_of(path)):
            yield law, " ".join(comment(said.split("\n"), "///").split())


def list_of_said_laws(section):
    """The laws of a section of PROVED.md, each with its docstring."""
    for place in LAWS_SAID[section].split("; "):
        crate, _, laws = place.partition(": ")
        known = dict(said_laws(crate))
        for law in laws.split():
            yield item(f"`{law}` ({crate}): {known[law]}")


SCHEMA = "crates/store_tables/src/creating.rt"
SLIP_LINE = re.compile(r'^const CREATE_SLIP_LINE: &str =\s*"([^"]*)";', re.MULTILINE)
STATEMENT = re.compile(r'"((?:CREATE|DROP) [^"]*)"')
MADE = re.compile(r"CREATE (?:TABLE|INDEX) (\w+) (?:ON (\w+))?")


def schemas():
    """The statements of both versions: a new archive is one of version 1 first, and then changed to version 2."""
    source = text_of(SCHEMA)
    source = SLIP_LINE.sub("", source).replace("CREATE_SLIP_LINE", f'"{SLIP_LINE.search(source)[1]}"')
    first, _, later = source.partition("pub fn create_later_tables")
    made = {MADE.match(statement)[1]: statement for statement in STATEMENT.findall(first)}
    changed = dict(made)
    for statement in STATEMENT.findall(later):
        if statement.startswith("DROP TABLE "):
            gone = statement.removeprefix("DROP TABLE ")
            changed = {name: its for name, its in changed.items() if name != gone and MADE.match(its)[2] != gone}
        else:
            changed[MADE.match(statement)[1]] = statement
    return list(made.values()), list(changed.values())


def sql(statements):
    yield "```sql"
    for statement in statements:
        yield textwrap.fill(statement + ";", WIDTH, subsequent_indent="  ", break_on_hyphens=False)
    yield "```"


def list_of_tables(_now):
    """The tables and the indexes of an archive."""
    return sql(schemas()[1])


def list_of_first_tables(_now):
    """Those of version 1 that are others."""
    first, now = schemas()
    return sql(statement for statement in first if statement not in now)


GATE = "{:<20}{:>5}  {:>3}  {:>5}  {:>4}  {:>5}  {}"
COLUMNS = ("crate", "proof", "GB", "edits", "cost", "aside", "last run of those aside")


def edits_of(crate):
    return len(paths(f"crates/{crate}/must-fail/*.edit")), len(paths(f"tests/edits/{crate}/*.edit"))


def measured(now):
    """What the table has of each crate that is not counted here: seconds, memory, cost, the last run."""
    rows = [line.split(None, 6) for line in now.split("\n") if line and not line.startswith("```")]
    return {row[0]: (row[1], row[2], row[4], row[6]) for row in rows if len(row) == 7}


def gate_row(crate, known):
    proof, memory, cost, last = known.get(crate, ("-", "-", "-", "-"))
    tried, aside = edits_of(crate)
    return GATE.format(crate, proof, memory, tried or "-", cost, aside or "-", last).rstrip()


def gate_rows(known):
    """A row for each crate: the numbers of its edits are counted, what was measured is given."""
    sums = [sum(each) for each in zip(*map(edits_of, crates()))]
    yield "```text"
    yield GATE.format(*COLUMNS)
    yield from (gate_row(crate, known) for crate in sorted(crates()))
    yield GATE.format("all", "", "", sums[0], "", sums[1], "").rstrip()
    yield "```"


def gate_table(now):
    """The rows of the gate with what was measured so far."""
    return gate_rows(measured(now))


def literal_line(text):
    """A line of a literal of Rust, broken at spaces if it is long."""
    line, pieces = text.replace("\\", "\\\\").replace('"', '\\"'), []
    while len(line) >= WIDTH:
        at = line.rindex(" ", 0, WIDTH - 1) + 1
        pieces.append(line[:at] + "\\")
        line = line[at:]
    return "\n".join([*pieces, line])


def completion_texts(_now):
    """What each shell reads, as a constant of Rust."""
    for shell, text in (("bash", completions.bash(ROOT)), ("zsh", completions.zsh(ROOT))):
        lines = "\n".join(map(literal_line, text.split("\n")))
        yield f'const {shell.upper()}: &str = "\\\n{lines}";\n'


PARTS = {
    ("crates/command_line/src/shells.rt", "completions"): completion_texts,
    ("docs/ARCHITECTURE.md", "crates"): list_of_crates,
    ("docs/DEFINITIONS.md", "definitions"): list_of_definitions,
    ("docs/DEFINITIONS.md", "laws"): list_of_laws,
    ("docs/DEFINITIONS.md", "standards"): list_of_standards,
    ("docs/DEFINITIONS.md", "words"): list_of_main_words,
    ("docs/FORMATS.md", "tables"): list_of_tables,
    ("docs/FORMATS.md", "tables of version 1"): list_of_first_tables,
    ("docs/GATE.md", "edits"): gate_table,
    **{("docs/PROVED.md", section): lambda _now, section=section: list_of_said_laws(section) for section in LAWS_SAID},
    ("docs/parish.1", "commands"): manual.list_of_commands,
    ("docs/parish.1", "refusals"): manual.list_of_refusals,
    ("docs/parish.1", "synopsis"): manual.synopsis,
}


MARKS = ("<!-- generated: {} -->\n", "<!-- end of {} -->")
MARKS_OF_TROFF = ('.\\" generated: {}\n', '.\\" end of {}\n')
MARKS_OF_RUST = ("// generated: {}\n", "// end of {}")


def part_of(text, name):
    """A part of a document: what is before it, the part, what is after it."""
    marks = MARKS_OF_TROFF if text.startswith("'\\\"") else MARKS_OF_RUST if text.startswith("//!") else MARKS
    begin, end = (mark.format(name) for mark in marks)
    before, _, more = text.partition(begin)
    now, found, after = more.partition(end)
    if not found:
        raise ValueError(f"there is no part {name}")
    return before + begin, now, end + after


def written(document, name):
    """The document with the part as the sources have it today."""
    before, now, after = part_of(text_of(document), name)
    lines = "\n".join(PARTS[document, name](now)).strip("\n")
    between = "\n" if document.endswith(".md") else ""
    return f"{before}{between}{lines}\n{between}{after}"


def measured_so_far():
    """What the table of the gate has now."""
    return measured(part_of(text_of("docs/GATE.md"), "edits")[1])


def differing():
    """The parts that are not what the sources say today."""
    for document, name in PARTS:
        if written(document, name) != text_of(document):
            yield f"{document}: {name}"


def main():
    for document, name in PARTS:
        text = written(document, name)
        with open(os.path.join(ROOT, document), "w", encoding="utf-8") as file:
            file.write(text)


if __name__ == "__main__":
    main()
