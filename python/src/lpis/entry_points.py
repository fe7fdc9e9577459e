"""The commands that an installation puts on the path: each runs its script of the one tree, by this Python where
that is Python."""

from __future__ import annotations

import functools
import os
import sys
from typing import NoReturn

from .tree import CARRIED, home


def lpis() -> NoReturn:
    """The program, with what its script says beside it; in a clone by that of the repository."""
    script = str(CARRIED / "lpis" if CARRIED.is_dir() else home().parent / "lpis")
    os.execv(script, [script, *sys.argv[1:]])


def tool(name: str) -> NoReturn:
    os.execv(sys.executable, [sys.executable, str(home() / name), *sys.argv[1:]])


check, country, explain, faults, lineage, prepare, report, year = (
    functools.partial(tool, name)
    for name in ("check", "country", "explain", "faults", "lineage", "prepare", "report", "year")
)
