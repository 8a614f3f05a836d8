"""Which functions of a crate an edit changes."""

from __future__ import annotations

import os
import re

FUNCTION = re.compile(r"( *)(?:pub(?:\([a-z ]+\))? )?(?:const )?(?:unsafe )?fn (\w+)")
METHODS = re.compile(r"impl(?:<[^>]*>)? (\w+)(?:<[^>]*>)? \{")
TRAIT_METHODS = re.compile(r"impl(<[^>]*>)? ([\w:]+)(<\w+>)? for (&(?:'\w+ )?(?:mut )?)?(\w+)(?:<[^>]*>)? \{")
CONSTANT = re.compile(r"(?:pub(?:\([a-z ]+\))? )?const (\w+):")


def bodies(text: str):
    """Each function of a file laid out by `rt fmt`: its name, its first line, that of its body, its last one."""
    lines = text.split("\n")
    for first, line in enumerate(lines):
        found = FUNCTION.match(line)
        if not found:
            continue
        indent = found[1]
        last = next((at for at in range(first, len(lines)) if lines[at] == indent + "}"), None)
        if last is None:
            continue
        span = range(first, last)
        body = next((at for at in span if lines[at] == indent + "{"), None)
        if body is None:
            body = next((at for at in span if lines[at].endswith("{")), None)
        if body is not None:
            yield found[2], first + 1, body + 1, last + 1


def owner(lines: list[str], first: int) -> str | None:
    """The type whose method stands at a line, counted from 1, as a check names it, with the trait whose method it is:
    empty at a function of no type; None for what a trait asks for."""
    if not lines[first - 1].startswith(" "):
        return ""
    above = next((it for it in reversed(lines[: first - 1]) if it and not it.startswith((" ", "}", "#", "//"))), "")
    found = METHODS.fullmatch(above)
    if found:
        return found[1]
    found = TRAIT_METHODS.fullmatch(above)
    if not found:
        return None
    generic, trait, argument, reference, of = found.groups()
    borrowed = "" if not reference else "RefMut" if "mut " in reference else "Ref"
    is_parameter = re.search(rf"[<,]\s*{of}\b", generic or "")
    return borrowed + ("" if is_parameter else of) + trait.rsplit("::", 1)[-1] + (argument or "").strip("<>")


def path_of(file: str, lines: list[str], name: str, first: int) -> str | None:
    """The path below the crate of a function of a file; None where it is not known."""
    of = owner(lines, first)
    if of is None:
        return None
    modules = [it for it in file[len("src/") : -len(".rt")].split("/") if it not in ("lib", "main", "mod")]
    return "::".join([*modules, *filter(None, [of]), name])


def changed_function(texts: dict[str, str], folder: str) -> str | None:
    """The path below the crate of the function that an edit changes, of the texts of the files as it leaves them.

    None where it changes anything else too.
    """
    file = next(iter(texts))
    if len(texts) != 1 or not file.startswith("src/"):
        return None
    with open(os.path.join(folder, file), encoding="utf-8") as source:
        old = source.read()
    lines, new = old.split("\n"), texts[file].split("\n")
    front = len(os.path.commonprefix([lines, new]))
    back = len(os.path.commonprefix([lines[front:][::-1], new[front:][::-1]]))
    for name, first, _, last in bodies(old):
        if first <= front + 1 and len(lines) - back <= last:
            return path_of(file, lines, name, first)
    return None


def users_of(name: str, folder: str) -> list[str]:
    """The paths of the functions of a crate whose text has a name, as far as they are known."""
    found = []
    for at, _, names in sorted(os.walk(os.path.join(folder, "src"))):
        for each in sorted(names):
            path = os.path.join(at, each)
            with open(path, encoding="utf-8") as source:
                text = source.read()
            lines = text.split("\n")
            for function, first, _, last in bodies(text):
                if re.search(rf"\b{name}\b", "\n".join(lines[first - 1 : last])):
                    found.append(path_of(os.path.relpath(path, folder), lines, function, first))
    return [it for it in found if it]


def changed_functions(texts: dict[str, str], folder: str) -> list[str]:
    """The paths of the functions that an edit changes, line by line, and of those that use a constant that it changes;
    none where it changes anything else too."""
    file = next(iter(texts))
    if len(texts) != 1 or not file.startswith("src/"):
        return []
    with open(os.path.join(folder, file), encoding="utf-8") as source:
        old = source.read()
    lines, new = old.split("\n"), texts[file].split("\n")
    one = changed_function(texts, folder)
    if one or len(lines) != len(new):
        return [one] if one else []
    found: list[str] = []
    functions = list(bodies(old))
    for row in (at for at in range(len(lines)) if lines[at] != new[at]):
        within = [path_of(file, lines, name, first) for name, first, _, last in functions if first <= row + 1 <= last]
        constant = CONSTANT.match(lines[row])
        paths = within or (users_of(constant[1], folder) if constant else [])
        if not paths or None in paths:
            return []
        found += [it for it in paths if it not in found]
    return found
