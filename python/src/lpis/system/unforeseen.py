"""The last resort of every tool. An error that nobody foresaw ends in one sentence, which names where the tool was and
a file with the traceback, and in a status of its own: a crash is never passed off as an answer. Who reads a file, a
layer or rows says where it is:

    unforeseen.at(path, layer, row)
    for number, row in unforeseen.each(layer, rows)     the rows of a layer of this file, each with its number, from 1
    for row in unforeseen.numbered(layer, rows)         rows that have numbers of their own
"""

import os
import tempfile
import traceback

from .printing import escaped, without_passwords

STATUS = 70
MOST = 200  # letters of the error's own words


class Place:
    """Where a tool is."""

    __slots__ = ("file", "layer", "row", "step")

    def __init__(self):
        self.file = self.layer = self.step = ""
        self.row = None

    def words(self):
        parts = [
            f"row {self.row}" if self.row is not None else "",
            f"the layer {self.layer}" if self.layer else "",
            escaped(os.fspath(self.file)) if self.file else "",
        ]
        where = " of ".join(filter(None, parts))
        return (f", at {where}" if where else "") + (f", while {escaped(self.step)}" if self.step else "")


PLACE = Place()


def at(file="", layer="", row=None):
    PLACE.file, PLACE.layer, PLACE.row = file, layer, row


def each(layer, rows, file=None):
    """Rows with their numbers. Another file or layer may be looked at between two of them."""
    file = PLACE.file if file is None else file
    for number, row in enumerate(rows, 1):
        PLACE.file, PLACE.layer, PLACE.row = file, layer, number
        yield number, row
    at()


def numbered(layer, rows):
    for row in rows:
        PLACE.layer, PLACE.row = layer, row.number
        yield row
    at()


def kept(name, error):
    """Where the traceback is, in words. The file is made so that nobody else's is written over."""
    try:
        handle, path = tempfile.mkstemp(prefix=f"lpis-{name}-", suffix=".txt")
        with open(handle, "w", encoding="utf-8", errors="backslashreplace") as file:
            file.write(without_passwords("".join(traceback.format_exception(type(error), error, error.__traceback__))))
    except OSError as other:
        return f"the traceback could not be written ({other})"
    return f"the traceback is in {path}"


def sentence(name, error):
    """What is told of an error that nobody foresaw."""
    where = PLACE.words()
    if isinstance(error, RecursionError):
        return f"something is nested deeper than this tool can follow{where}; {kept(name, error)}"
    own = escaped(" ".join(str(error).split()))[:MOST]
    return f"this tool failed, by {type(error).__name__}{f' ({own})' if own else ''}{where}; {kept(name, error)}"
