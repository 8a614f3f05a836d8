"""Archives of which a part is hidden, drawn, and what is shown of them: a second reading of docs/LIVING.md and
docs/FORMATS.md, by which the commands of the executable are judged."""

from __future__ import annotations

import importlib
import os
import sys

TESTS = os.path.dirname(os.path.dirname(os.path.abspath(__file__)))
NAMES = ("plain", "rules", "rows")


def modules_of(folder: str):
    """`plain` and `rules` of a folder of tests. Other folders have modules of the same names, so that none of them
    stays known by its name."""
    kept = {name: sys.modules.pop(name, None) for name in NAMES}
    path = list(sys.path)
    sys.path.insert(0, os.path.join(TESTS, folder))
    try:
        return tuple(importlib.import_module(name) for name in NAMES[:2])
    finally:
        sys.path[:] = path
        for name, module in kept.items():
            sys.modules.pop(name, None)
            if module:
                sys.modules[name] = module
