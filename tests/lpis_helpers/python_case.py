"""What the tests of the package `lpis` share: where things lie, who can answer, and calls of other programs."""

import functools
import importlib.util
import os
import pathlib
import shutil
import sys

from lpis_helpers import calls
from lpis_helpers import places

TOP = pathlib.Path(places.TOP)
PYTHON, EXAMPLES = TOP / "python", TOP / "examples"
NAMES = ("parcels", "covers", "classes")
NO_LIBRARY = "no liblpis.so of these sources in out/library (dev/library), and LPIS_LIBRARY names none"
# nothing that leads to this clone
ALONE = {name: value for name, value in os.environ.items() if not name.startswith(("PYTHON", "PIP_", "LPIS"))}
run, done = (functools.partial(call, env=ALONE) for call in (calls.run, calls.done))


def has(name):
    """Whether this Python has a module."""
    return importlib.util.find_spec(name) is not None


def mypy():
    """The words that call mypy; none where it is not there."""
    return [sys.executable, "-m", "mypy"] if has("mypy") else [name for name in [shutil.which("mypy")] if name]


def library():
    """The library that is named, or that was built here after the last change of its sources; None where there is
    none."""
    if os.environ.get("LPIS_LIBRARY"):
        return pathlib.Path(os.environ["LPIS_LIBRARY"])
    built = TOP / "out" / "library" / "liblpis.so"
    crates = done(TOP / "dev" / "sources", "--crates", "lpis_page").split()
    changed = max(path.stat().st_mtime for crate in crates for path in (TOP / "crates" / crate / "src").rglob("*.rt"))
    return built if built.exists() and built.stat().st_mtime > changed else None


LIBRARY = library()
BACKENDS = ["program", *(["library"] if LIBRARY else [])]


def release(name):
    return [EXAMPLES / name / f"{table}.csv" for table in NAMES]


def square(x, y, side=10):
    return {"type": "Polygon", "coordinates": [[(x, y), (x + side, y), (x + side, y + side), (x, y + side), (x, y)]]}


class Feature:
    """As fiona and Shapely give them."""

    def __init__(self, found):
        self.__geo_interface__ = found
