"""What bash and zsh offer after `parish`: the commands and options that its help names, and the values of some."""

from __future__ import annotations

import os
import re
import shutil
import subprocess
import sys
import tempfile

from harness import ROOT, Case, Tools, demand, expect, refused, run, written

sys.path.insert(0, os.path.join(ROOT, "packaging"))
import completions  # noqa: E402

# The words before, and what bash offers: all of it, of what it begins with.
OFFERED = (
    (("a",), {"apply", "audit"}),
    (("sheet", "town.db", ""), {"person", "family", "pedigree", "register"}),
    (("sheet", "town.db", "p"), {"person", "pedigree"}),
    (("norm", ""), set()),
    (("list", "town.db", "s"), {"sources", "slips"}),
    (("find", "town.db", "--kind", "e"), {"events", "entries"}),
    (("convert", "--from", "utf-16"), {"utf-16le", "utf-16be"}),
    (("apply", "town.db", "--s"), {"--stop"}),
    (("apply", "town.db", "--expect", "to"), {"town.db", "town.csv"}),
    (("completions", ""), {"bash", "zsh"}),
    (("list", "town.db", "persons", "--c"), {"--csv"}),
    (("export", "town.db", "--p"), {"--public", "--plain"}),
    (("audit", "to"), {"town.db", "town.csv"}),
    (("export", "town.db", "--today", ""), set()),
    (("import", "town.db", "--report", "to"), {"town.db", "town.csv"}),
)
ASK = """
source "$1"; shift
COMP_WORDS=(parish "$@"); COMP_CWORD=$#
_parish
printf '%s\\n' "${COMPREPLY[@]}"
"""


def offered(text, words, folder):
    """What bash offers for the last of these words."""
    path = os.path.join(folder, "completion")
    with open(path, "w", encoding="utf-8") as file:
        file.write(text)
    ran = subprocess.run(("bash", "-u", "-c", ASK, "bash", path, *words), cwd=folder, capture_output=True, text=True)
    demand((ran.returncode, ran.stderr) == (0, ""), f"{words}: status {ran.returncode}, {ran.stderr}")
    return {it for it in ran.stdout.split("\n") if it}


def values_are_offered():
    text = completions.bash(ROOT)
    with tempfile.TemporaryDirectory() as folder:
        for name in ("town.db", "town.csv", "other.db"):
            with open(os.path.join(folder, name), "w", encoding="utf-8"):
                pass
        for words, expected in OFFERED:
            found = offered(text, words, folder)
            demand(found == expected, f"{words}: {sorted(found)}, and not {sorted(expected)}")


def help_of(tools, *words):
    got = run((*tools.parish, *words, "--help"))
    demand(got.status == 0, f"{words}: status {got.status}")
    return got.out.decode()


def commands_in(text):
    part = text.partition("\nCommands:\n")[2].partition("\n\n")[0]
    return set(re.findall(r"^  (\w+)", part, re.MULTILINE))


def options_in(text):
    part = text.partition("\nOptions:\n")[2].partition("\n\n")[0]
    return set(re.findall(r"--[a-z-]+", "\n".join(line[:30] for line in part.split("\n"))))


def what_help_names(tools):
    text = completions.bash(ROOT)
    names = commands_in(help_of(tools))
    demand(len(names) > 10, f"help names {sorted(names)}")
    with tempfile.TemporaryDirectory() as folder:
        found = {it for it in offered(text, ("",), folder) if not it.startswith("-")}
        demand(found == names, f"bash offers {sorted(found)}, help names {sorted(names)}")
        for name in sorted(names):
            found, named = offered(text, (name, "--"), folder), options_in(help_of(tools, name))
            demand(found == named, f"{name}: bash offers {sorted(found)}, help names {sorted(named)}")
            for option in named - {"--help"}:
                demand(f"'{option}[" in completions.zsh(ROOT), f"{name}: zsh does not offer {option}")


def printed_as_packaged(tools):
    """`completions` prints the file that packages have, and is refused for other shells."""
    for shell, text in (("bash", completions.bash(ROOT)), ("zsh", completions.zsh(ROOT))):
        expect(run((*tools.parish, "completions", shell)), written(text.encode()))
    for words in ((), ("fish",), ("Bash",), ("",), ("bash", "zsh"), ("bash", "--csv")):
        got = run((*tools.parish, "completions", *words))
        demand((got.status, got.out) == (2, b"") and got.err != b"", f"{words}: {got}")
    with open("/dev/full", "wb") as full:
        expect(run((*tools.parish, "completions", "zsh"), stdout=full), refused(95))


def zsh_reads_it():
    with tempfile.TemporaryDirectory() as folder:
        path = os.path.join(folder, "_parish")
        with open(path, "w", encoding="utf-8") as file:
            file.write(completions.zsh(ROOT))
        ran = subprocess.run(("zsh", "-n", path), capture_output=True, text=True)
        demand((ran.returncode, ran.stderr) == (0, ""), f"status {ran.returncode}, {ran.stderr}")


def cases(tools: Tools):
    yield Case("completions: bash offers files and values", values_are_offered)
    yield Case("completions: what help names, and nothing else", lambda: what_help_names(tools))
    yield Case("completions: printed as packages have them", lambda: printed_as_packaged(tools))
    if shutil.which("zsh"):
        yield Case("completions: zsh reads its file", zsh_reads_it)
