"""What bash and zsh offer after `parish`: its commands, their options, and the values of a few of them.

The words are read from the tables that the program hands to `clap` (crates/command_line/src), so each command and each
option is there.
"""

from __future__ import annotations

import os
import re
from dataclasses import dataclass

SOURCES = "crates/command_line/src"
WORD = re.compile(
    r'const (\w+): Word = Word \{\n    id: "([\w-]+)",\n    help: ("[^"]*"|\w+),\n'
    r'    form: Form::(\w+)(?:\("([^"]*)"\))?,'
)
TEXT = re.compile(r'const (\w+): &str =\s*"([^"\\]*)";')
ORDER = re.compile(r"const COMMANDS: \[CommandRow; \d+\] = \[([^\]]*)\];")
ROW = re.compile(
    r'const (\w+): CommandRow = CommandRow \{\n    name: "(\w+)",\n    about: (\w+),.*?words: &\[([^\]]*)\],', re.DOTALL
)
# The words that are the name of a file.
FILES = ("FILE", "report", "expect")
# The words that have one of a few values, by command: the file and the name of the constant that lists them.
LISTED = {
    ("sheet", "KIND"): ("showing.rt", "KINDS"),
    ("list", "KIND"): ("choosing.rt", "LISTED"),
    ("find", "kind"): ("choosing.rt", "KINDS"),
    ("convert", "from"): ("choosing.rt", "SETS"),
    ("entries", "from"): ("choosing.rt", "SETS"),
    ("completions", "SHELL"): ("choosing.rt", "SHELLS"),
}


@dataclass(frozen=True)
class Given:
    """A word or an option of a command: its name, what help says of it, and its values if there are few."""

    id: str
    help: str
    form: str
    """How it is given: as in the table, Place, Places, Named or Flag."""
    value: str
    """What help calls the value of an option; empty if it has none."""
    values: tuple[str, ...]

    @property
    def is_option(self):
        return self.form in ("Named", "Flag")

    @property
    def is_file(self):
        return self.id in FILES


@dataclass(frozen=True)
class Command:
    """A command: its name, what help says of it, and its words and options."""

    name: str
    about: str
    given: tuple[Given, ...]

    @property
    def places(self):
        return [it for it in self.given if not it.is_option]

    @property
    def options(self):
        return [it for it in self.given if it.is_option]


def text_of(root, name):
    with open(os.path.join(root, SOURCES, name), encoding="utf-8") as file:
        return file.read()


def values_of(root, command, word):
    if (command, word) not in LISTED:
        return ()
    file, name = LISTED[command, word]
    return tuple(dict(TEXT.findall(text_of(root, file)))[name].split(", "))


def words_of(root):
    """Each word or option of the table: its id, what help says of it, its form and its value."""
    source = text_of(root, "arguments.rt")
    texts = dict(TEXT.findall(source))
    return {name: (id, texts.get(told, told.strip('"')), form, value)
            for name, id, told, form, value in WORD.findall(source)}


def abouts(root):
    names = sorted(os.listdir(os.path.join(root, SOURCES)))
    return dict(it for name in names if name.startswith("texts_") for it in TEXT.findall(text_of(root, name)))


def commands(root):
    """The commands in the order of the help."""
    table, words, told = text_of(root, "subcommands.rt"), words_of(root), abouts(root)
    rows = {row[0]: row[1:] for row in ROW.findall(table)}
    found = []
    for constant in re.findall(r"\w+", ORDER.search(table)[1]):
        name, about, given = rows[constant]
        taken = [words[it] for it in re.findall(r"\w+", given)]
        of = tuple(Given(*word, values_of(root, name, word[0])) for word in taken)
        found.append(Command(name, told[about], of))
    return found


BASH = """\
# What bash offers after `parish`.

_parish() {{
    local word=${{COMP_WORDS[COMP_CWORD]}} before=${{COMP_WORDS[COMP_CWORD - 1]}} command=${{COMP_WORDS[1]}}
    local offered= files=
    if ((COMP_CWORD == 1)); then
        offered='{names} --help --version'
    else
        case $command:$COMP_CWORD:$before in
{places}        esac
        case $command:$before in
{options}        esac
    fi
    mapfile -t COMPREPLY < <(compgen ${{files:+-f}} -W "$offered" -- "$word")
}}
complete -o filenames -F _parish parish
"""


def bash_places(command):
    """A case for each word that is a file, or one of a few values."""
    for at, word in enumerate(command.places, start=2):
        if word.is_file:
            yield f"            {command.name}:{at}:*) files=1 ;;\n"
        elif word.values:
            yield f"            {command.name}:{at}:*) offered='{' '.join(word.values)}' ;;\n"


def bash_options(command):
    """A case for the value of each option, and then one for the options themselves."""
    for option in command.options:
        if option.value:
            files = "1" if option.is_file else ""
            yield f"            {command.name}:--{option.id}) offered='{' '.join(option.values)}' files={files} ;;\n"
    names = " ".join([*(f"--{it.id}" for it in command.options), "--help"])
    yield f"            {command.name}:*) [[ $word != -* ]] || offered='{names}' files= ;;\n"


def bash(root):
    """The file that bash reads."""
    every = commands(root)
    places = "".join(line for it in every for line in bash_places(it))
    options = "".join(line for it in every for line in bash_options(it))
    return BASH.format(names=" ".join(it.name for it in every), places=places, options=options)


ZSH = """\
#compdef parish
# What zsh offers after `parish`.

local -a commands=(
{names})

if ((CURRENT == 2)); then
    _describe command commands
    _arguments '--help[Print help]' '--version[Print the version]'
    return
fi
local command=${{words[2]}}
shift words
((CURRENT -= 1))
case $command in
{cases}esac
"""


def quoted(text):
    """A text within the single quotes of a word of _arguments."""
    return re.sub(r"([\[\]:])", r"\\\1", text.replace("'", "'\\''"))


def zsh_word(at, given):
    values = f"({' '.join(given.values)})" if given.values else "_files" if given.is_file else ""
    if not given.is_option:
        return f"'{'*' if given.form == 'Places' else at}:{quoted(given.help)}:{values}'"
    return f"'--{given.id}[{quoted(given.help)}]{f':{given.value}:{values}' if given.value else ''}'"


def zsh_case(command):
    words = [zsh_word(at, it) for at, it in enumerate(command.places, start=1)]
    words += [zsh_word(0, it) for it in command.options]
    first = f"    {command.name})\n        _arguments '--help[Print help]'"
    return " \\\n            ".join([first, *words]) + "\n        ;;\n"


def zsh(root):
    """The file that zsh reads."""
    every = commands(root)
    names = "".join(f"    '{it.name}:{quoted(it.about)}'\n" for it in every)
    return ZSH.format(names=names, cases="".join(map(zsh_case, every)))
