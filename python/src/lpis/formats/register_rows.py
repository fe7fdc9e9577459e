"""Registers, as anybody may read them: also who may not write to the folder, in which SQLite would put a file beside
a register."""

from __future__ import annotations

import contextlib
import sqlite3

from . import polygons
from ..system import databases, unforeseen
from ..system.printing import counted
from ..system.trouble import Trouble

SECONDS = 60  # to wait for a publish that holds the register


class Unreadable(Trouble):
    """This file is no register that can be read."""


def opened(path):
    """A connection that reads alone, or an error of SQLite: texts of the schema that are no letters are one too."""
    unforeseen.at(path)
    try:
        return databases.opened(path, SECONDS)
    except UnicodeDecodeError as error:
        raise sqlite3.DatabaseError(f"its schema is damaged: {error}") from None


def is_empty(connection):
    """Whether a database has nothing, which lpis takes for a register without a release."""
    return not connection.execute("SELECT count(*) FROM sqlite_schema").fetchone()[0]


def facts(path):
    """The years of a register, and what it holds of the last of them."""
    try:
        with contextlib.closing(opened(path)) as connection:
            if is_empty(connection):
                return {"path": path, "years": [], "live": 0, "identifiers": 0, "shapes": 0}
            years = [int(year) for (year,) in connection.execute("SELECT year FROM lpis_release ORDER BY year")]
            (live,), (all_of_them,) = connection.execute(
                "SELECT count(*) FROM lpis_span WHERE until = 0 UNION ALL SELECT count(*) FROM lpis_span"
            )
            has_texts = connection.execute("SELECT 1 FROM sqlite_schema WHERE name = 'lpis_text'").fetchone()
            shapes = connection.execute("SELECT count(*) FROM lpis_text").fetchone()[0] if has_texts else 0
    except (sqlite3.Error, ValueError, TypeError) as error:  # a year that is no number, text that is none
        raise Unreadable(f"{path} is no register of version 2 or 3 that can be read: {databases.why(error)}") from None
    return {"path": path, "years": years, "live": live, "identifiers": all_of_them, "shapes": shapes}


def in_words(found):
    """How many years a register has, in a line."""
    years = found["years"]
    if not years:
        return "no year is published in it"
    which = f"{years[0]}" if len(years) == 1 else f"{years[0]} to {years[-1]}"
    return (
        f"{counted(len(years), 'year')} ({which}), {counted(found['live'], 'live identifier')} of"
        f" {found['identifiers']}, {counted(found['shapes'], 'shape')}"
    )


class Kept:
    """The shapes that a register keeps of the last release. A publish that still holds it is waited for."""

    def __init__(self, path):
        self.path = path
        self.connection = opened(path)
        self.has_texts = bool(
            self.connection.execute("SELECT name FROM sqlite_schema WHERE name = 'lpis_text'").fetchall()
        )

    def text(self, name):
        """The text of a shape, as bytes, or None where none is kept."""
        if not self.has_texts:
            return None
        found = self.connection.execute(
            "SELECT wkt FROM lpis_text WHERE id = ?", (name.decode("utf-8", "replace"),)
        ).fetchone()
        return found[0].encode() if found and isinstance(found[0], str) else None

    def shape(self, name):
        text = self.text(name)
        return polygons.read(text) if text is not None else None
