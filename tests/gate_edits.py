"""Which function an edit changes (changed_functions.py), in a small source and for each edit of the gate, and whether
each edit can be made."""

from __future__ import annotations

import glob
import os
import tempfile

from changed_functions import bodies, changed_function
from harness import ROOT, Case, Tools, demand

SOURCE = """//! A source.

use std::string::String;

impl Register {
    /// How many pages there are.
    pub fn pages(&self) -> usize
        ensures { result ≡ 0 }
    {
        self.pages
    }
}

impl Display for Register {
    fn fmt(&self, f: &mut Formatter) -> Result {
        f.write_str("register")
    }
}

/// Whether it is a page.
fn is_page(number: u32) -> bool {
    if number == 0 {
        return false;
    }
    true
}

fn last() -> u32 {
    2
}
"""

# the old text and the new one, and the function that changes
EDITS = (
    ("self.pages\n", "self.pages + 1\n", "books::kept::Register::pages"),
    ('f.write_str("register")', 'f.write_str("")', "books::kept::RegisterDisplay::fmt"),
    ("number == 0", "number == 1", "books::kept::is_page"),
    ("        return false;\n    }\n    true", "        return true;\n    }\n    false", "books::kept::is_page"),
    ("    true\n}\n\nfn last() -> u32 {\n    2", "    false\n}\n\nfn last() -> u32 {\n    3", None),
    ("use std::string::String;", "use std::string::ToString;", None),
)


def functions_are_found():
    with tempfile.TemporaryDirectory() as folder:
        os.makedirs(os.path.join(folder, "src/books"))
        with open(os.path.join(folder, "src/books/kept.rt"), "w", encoding="utf-8") as file:
            file.write(SOURCE)
        for old, new, expected in EDITS:
            demand(SOURCE.count(old) == 1, f"{old!r} is not in the source once")
            found = changed_function({"src/books/kept.rt": SOURCE.replace(old, new)}, folder)
            demand(found == expected, f"{old!r}: {found}, and not {expected}")


def several_files_are_no_function():
    found = changed_function({"src/a.rt": "", "src/b.rt": ""}, ROOT)
    demand(found is None, f"two files: {found}")


def texts_of(path: str, folder: str) -> dict[str, str]:
    """The texts of the files of a crate that an edit changes, as it leaves them."""
    texts, file, old = {}, "", ""
    with open(path, encoding="utf-8") as lines:
        for line in lines.read().split("\n"):
            word, _, rest = line.partition(":")
            if word == "file":
                file = rest.strip()
                with open(os.path.join(folder, file), encoding="utf-8") as source:
                    texts.setdefault(file, source.read())
            elif word == "old":
                old = rest[1:]
            elif word == "new":
                texts[file] = texts[file].replace(old, rest[1:])
    return texts


def most_edits_change_one_function():
    """The gate checks the whole crate for each of the others: a definition, a constant, a method of a trait."""
    paths = glob.glob(os.path.join(ROOT, "crates/*/must-fail/*.edit"))
    found = []
    for path in paths:
        folder = os.path.dirname(os.path.dirname(path))
        texts = texts_of(path, folder)
        changed = changed_function(texts, folder)
        if changed is not None:
            names = [it[0] for it in bodies(next(iter(texts.values())))]
            demand(changed.split("::")[-1] in names, f"{path}: {changed} is no function")
            found.append(changed)
    demand(len(paths) > 50 and len(found) > 0.9 * len(paths), f"{len(found)} of {len(paths)} change one function")


def misses(path: str, folder: str) -> str | None:
    """Why an edit cannot be made: a text that it changes is not there once, after its earlier pairs."""
    texts, file, old = {}, "", None
    with open(path, encoding="utf-8") as lines:
        for line in lines.read().split("\n"):
            word, _, rest = line.partition(":")
            if word == "file":
                file = rest.strip()
                if not os.path.isfile(os.path.join(folder, file)):
                    return f"there is no {file}"
                with open(os.path.join(folder, file), encoding="utf-8") as source:
                    texts.setdefault(file, source.read())
            elif word == "old":
                old = rest[1:]
            elif word == "new" and old is not None:
                if texts[file].count(old) != 1:
                    return f"{old!r} is in {file} {texts[file].count(old)} times"
                texts[file] = texts[file].replace(old, rest[1:])
    return None if old else "it changes nothing"


def every_edit_can_be_made():
    """Those aside are not tried by the gate, so a change of a source leaves them behind without a word."""
    aside, gate = glob.glob(f"{ROOT}/tests/edits/*/*.edit"), glob.glob(f"{ROOT}/crates/*/must-fail/*.edit")
    crates = {it: os.path.join(ROOT, "crates", it.split(os.sep)[-2]) for it in aside}
    crates.update({it: os.path.dirname(os.path.dirname(it)) for it in gate})
    wrong = [f"{os.path.relpath(it, ROOT)}: {why}" for it, at in crates.items() if (why := misses(it, at))]
    counts = f"{len(aside)} edits aside and {len(gate)} of the gate"
    demand(len(aside) > 1000 and len(gate) > 50, f"only {counts} were found")
    demand(not wrong, "; ".join(sorted(wrong)))


def cases(_tools: Tools):
    yield Case("gate edits: the function that an edit changes is found", functions_are_found)
    yield Case("gate edits: an edit of several files changes no single function", several_files_are_no_function)
    yield Case("gate edits: nine of ten change one function", most_edits_change_one_function)
    yield Case("gate edits: each edit, also those aside, changes a text that is there once", every_edit_can_be_made)
