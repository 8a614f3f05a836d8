"""The paths by which code can import what a crate has: one for each type and each function.

A second path would be a module that is public beside a `pub use` of what it has, two `pub use`, or a crate that hands
on what another crate has. A tree of sources is given as a function from paths to texts, None if there is no such file,
so that a small one can be made up.
"""

from __future__ import annotations

import re

MODULE = re.compile(r"^(pub )?(?:pub\(\w+\) )?mod (\w+);", re.MULTILINE)
ITEM = re.compile(r"^pub (?:const |unsafe |async )*(?:fn|struct|enum|trait|type|const|static) (\w+)", re.MULTILINE)
USE = re.compile(r"^pub use ([^;]+);", re.MULTILINE)


def expanded(tree):
    """What a `use` names: `a::{b, c as d}` are the paths `a::b` and `a::c`, with the names `b` and `d`."""
    tree = tree.strip()
    front, brace, inner = tree.partition("{")
    if not brace:
        path, _, other = tree.partition(" as ")
        names = path.split("::")
        yield names, other or names[-1]
        return
    for part in parts_of(inner.rpartition("}")[0]):
        for path, name in expanded(part):
            yield front.rstrip(":").split("::") + path, name


def parts_of(inner):
    """The parts of a list, cut at the commas outside of braces."""
    depth, part = 0, ""
    for character in inner:
        depth += (character == "{") - (character == "}")
        if character == "," and depth == 0:
            yield part
            part = ""
        else:
            part += character
    if part.strip():
        yield part


class Module:
    """A module: its modules, the items that it defines, and what it hands on from elsewhere."""

    def __init__(self, read, folder, name):
        at = f"{folder}/{name}.rt"
        text = read(at) if read(at) is not None else read(f"{folder}/{name}/mod.rt")
        below = folder if name in ("lib", "main") else f"{folder}/{name}"
        self.place = at
        self.items = ITEM.findall(text or "")
        self.uses = [use for tree in USE.findall(text or "") for use in expanded(" ".join(tree.split()))]
        found = MODULE.findall(text or "")
        self.modules = {name: Module(read, below, name) for _, name in found}
        self.public = [name for is_public, name in found if is_public]


def origin(root, module, path):
    """The place and the name of what a path leads to from a module, or None if it leads out of the crate."""
    first, *rest = path
    if first in ("crate", "self"):
        return origin(root, root if first == "crate" else module, rest)
    if not rest:
        for used, name in module.uses:
            if name == first and used != path:
                return origin(root, module, used)
        return module.place, first
    return origin(root, module.modules[first], rest) if first in module.modules else None


def public_paths(root, module, front):
    """Each public path below a module, with what it leads to."""
    for item in module.items:
        yield f"{front}::{item}", (module.place, item)
    for path, name in module.uses:
        yield f"{front}::{name}", origin(root, module, path)
    for name in module.public:
        yield from public_paths(root, module.modules[name], f"{front}::{name}")


def second_paths(read, crate):
    """What is wrong with the public paths of a crate."""
    root = Module(read, f"crates/{crate}/src", "lib")
    found = {}
    for path, leads_to in public_paths(root, root, crate):
        if path.endswith("::*"):
            yield f"{path} does not name what it hands on"
        elif leads_to is None:
            yield f"{path} is of another crate"
        else:
            found.setdefault(leads_to, []).append(path)
    for (place, name), ways in found.items():
        if len(ways) > 1:
            yield f"{name} of {place} has the paths {', '.join(ways)}"
