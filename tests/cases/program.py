"""What worked cases of the built program share: a call of it, and the tables of a release."""

import subprocess
from pathlib import Path

from lpis_helpers.places import BUILT as LPIS, TOP as HOUSE

TOP = Path(HOUSE)
SECONDS = 120

SQUARE = "POLYGON((0 0,10 0,10 10,0 10,0 0))"
LEFT, RIGHT = "POLYGON((0 0,5 0,5 10,0 10,0 0))", "POLYGON((5 0,10 0,10 10,5 10,5 0))"
# A class that counts whole, and one that does not count.
CLASSES = "class,eligible\nG,1\nW,0\n"


def lpis(*words):
    """The lines of standard output of a run, with what stands on standard error behind them."""
    run = subprocess.run(
        [LPIS, *map(str, words)], stdin=subprocess.DEVNULL, capture_output=True, timeout=SECONDS, check=False
    )
    return (run.stdout + run.stderr).decode("utf-8", "backslashreplace").splitlines()


def write(folder, parcels=None, covers=None, classes=CLASSES, **others):
    """Writes the tables of a release that are given, as texts or as bytes."""
    folder.mkdir(exist_ok=True)
    for name, text in {"parcels": parcels, "covers": covers, "classes": classes, **others}.items():
        if text is not None:
            (folder / f"{name}.csv").write_bytes(text if isinstance(text, bytes) else text.encode())
    return folder


def edited(text, edits):
    """A text in which the first of each pair, which stands in it, is replaced by the second."""
    for old, new in edits:
        if old not in text:
            raise ValueError(f"{old!r} is not in {text!r}")
        text = text.replace(old, new, 1)
    return text


def short(value):
    """The name of a case."""
    return ascii(value)[:60]
