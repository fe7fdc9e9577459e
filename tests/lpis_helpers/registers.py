"""The register's tables as docs/FORMATS.md has them, and what SQLite (Python's own sqlite3) finds in a register, for
scripts that make, stop, starve or damage one."""

import collections
import contextlib
import os
import pathlib
import sqlite3
import sys
import time

sys.path.insert(0, str(pathlib.Path(__file__).resolve().parents[2] / "python" / "src"))
from lpis.formats import polygons  # noqa: E402

LIMIT, MOST_POINTS = 20_000_000_000, 100_000  # of a coordinate in millimetres, and of a polygon
SECONDS = 20  # for a query of a register that was made to hang

FORMAT = "CREATE TABLE lpis_format (one INTEGER NOT NULL PRIMARY KEY, version INTEGER NOT NULL) STRICT;"
RELEASE = "CREATE TABLE lpis_release (year INTEGER NOT NULL PRIMARY KEY) STRICT;"
LIVE = """CREATE TABLE lpis_live (year INTEGER NOT NULL REFERENCES lpis_release (year), id TEXT NOT NULL, PRIMARY KEY (year, id)) STRICT;"""  # noqa: E501
SPAN = """CREATE TABLE lpis_span (id TEXT NOT NULL PRIMARY KEY, since INTEGER NOT NULL REFERENCES lpis_release (year),
until INTEGER NOT NULL) STRICT;"""
ROW = """CREATE TABLE lpis_row (year INTEGER NOT NULL REFERENCES lpis_release (year), pos INTEGER NOT NULL, old TEXT NOT NULL,
new TEXT NOT NULL, PRIMARY KEY (year, pos)) STRICT;"""  # noqa: E501
TEXT = "CREATE TABLE lpis_text (id TEXT NOT NULL PRIMARY KEY, wkt TEXT NOT NULL) STRICT;"
MARK = """CREATE TABLE lpis_mark (year INTEGER NOT NULL, pos INTEGER NOT NULL, PRIMARY KEY (year, pos),
FOREIGN KEY (year, pos) REFERENCES lpis_row (year, pos)) STRICT;"""

# The tables of each version, in the order in which this program makes them. One that was moved from version 1 has its
# own order.
OLDER = FORMAT + RELEASE + SPAN + ROW
TABLES = {1: FORMAT + RELEASE + LIVE + ROW, 2: OLDER, 3: OLDER + TEXT + MARK}

SQUARE = "POLYGON((0.000 0.000,10.000 0.000,10.000 10.000,0.000 10.000,0.000 0.000))"
LEFT = "POLYGON((0.000 0.000,5.000 0.000,5.000 10.000,0.000 10.000,0.000 0.000))"
RIGHT = "POLYGON((5.000 0.000,10.000 0.000,10.000 10.000,5.000 10.000,5.000 0.000))"

# Two releases in each version: A is split into B and C, its left and its right half. Opening moves versions 1 and 2 to
# version 3.
TWO_YEARS = """
INSERT INTO lpis_release VALUES (2024), (2025);
INSERT INTO lpis_row VALUES (2025, 0, 'A', 'B'), (2025, 1, 'A', 'C');
"""
LIVES = "INSERT INTO lpis_live VALUES (2024, 'A'), (2025, 'B'), (2025, 'C');"
SPANS = "INSERT INTO lpis_span VALUES ('A', 2024, 2024), ('B', 2025, 0), ('C', 2025, 0);"
TEXTS = f"INSERT INTO lpis_text VALUES ('B', '{LEFT}'), ('C', '{RIGHT}');"
MARKS = "INSERT INTO lpis_mark VALUES (2025, 0), (2025, 1);"
VERSION_1 = TABLES[1] + "INSERT INTO lpis_format VALUES (1, 1);" + TWO_YEARS + LIVES
VERSION_2 = TABLES[2] + "INSERT INTO lpis_format VALUES (1, 2);" + TWO_YEARS + SPANS
WITHOUT_MARKS = OLDER + TEXT + "INSERT INTO lpis_format VALUES (1, 3);" + TWO_YEARS + SPANS + TEXTS
VERSION_3 = WITHOUT_MARKS + MARK + MARKS

BY_SPANS = "SELECT id FROM lpis_span WHERE since <= ?1 AND (until = 0 OR ?1 <= until) ORDER BY id"
LIVE_IN = {1: "SELECT id FROM lpis_live WHERE year = ?1 ORDER BY id", 2: BY_SPANS, 3: BY_SPANS}
ROWS_OF = "SELECT pos, old, new FROM lpis_row WHERE year = ?1 ORDER BY pos"
MARKS_OF = "SELECT pos FROM lpis_mark WHERE year = ?1"

# Tables that are read as those of version 3 where `lpis_format` is missing.
UNTOLD = {"lpis_release", "lpis_span", "lpis_row"}

# What a register says: its version; each release, ascending, with its year, its identifiers, and its rows of lineage,
# of which each tells whether it is marked; and the texts of the last release's shapes by their identifiers.
Register = collections.namedtuple("Register", "version releases texts")
NOTHING = Register(None, [], [])


def made(path, *scripts):
    """A database of these statements."""
    connection = sqlite3.connect(path)
    for script in scripts:
        connection.executescript(script)
    connection.commit()
    connection.close()
    return path


def rows(path, query):
    """What a query finds."""
    with contextlib.closing(sqlite3.connect(path)) as connection:
        return connection.execute(query).fetchall()


def register(path):
    """What a register says; nothing where there is none yet. What is not whole by SQLite's integrity_check and
    foreign_key_check comes as one text in its place."""
    if not os.path.exists(path):
        return NOTHING
    connection, end = sqlite3.connect(path), time.monotonic() + SECONDS
    connection.set_progress_handler(lambda: time.monotonic() > end, 100_000)
    try:
        found = [
            row for pragma in ("integrity_check", "foreign_key_check") for row in connection.execute(f"PRAGMA {pragma}")
        ]
        faults = [row for row in found if row != ("ok",)]
        return str(faults) if faults else read(connection)
    except (sqlite3.Error, KeyError, ValueError) as error:
        return repr(error)
    finally:
        connection.close()


def said(path):
    """The same but for the version, which an opening may raise without another word."""
    found = register(path)
    return found if isinstance(found, str) else (found.releases, found.texts)


def read(connection):
    names = {name for name, in connection.execute("SELECT name FROM sqlite_schema WHERE type = 'table'")}
    versions = (
        connection.execute("SELECT version FROM lpis_format").fetchall()
        if "lpis_format" in names
        else [(3,)] * (UNTOLD <= names)
    )
    if not versions:
        return NOTHING
    ((version,),) = versions
    years = connection.execute("SELECT year FROM lpis_release ORDER BY year").fetchall()
    has_marks = version == 3 and "lpis_mark" in names
    releases = [
        (year, connection.execute(LIVE_IN[version], (year,)).fetchall(), rows_of(connection, year, has_marks))
        for year, in years
    ]
    has_texts = version == 3 and "lpis_text" in names
    return Register(
        version,
        releases,
        connection.execute("SELECT id, wkt FROM lpis_text ORDER BY id").fetchall() if has_texts else [],
    )


def rows_of(connection, year, has_marks):
    marked = {pos for pos, in connection.execute(MARKS_OF, (year,))} if has_marks else set()
    return [(*row, row[0] in marked) for row in connection.execute(ROWS_OF, (year,))]


def is_shape(text):
    """Whether a text is that of a polygon, by docs/FORMATS.md."""
    try:
        members = polygons.read(text.encode())
    except RecursionError:
        return False
    if members is None or len(polygons.points(members)) > MOST_POINTS:
        return False
    return all(
        len(ring) >= 4 and ring[0] == ring[-1] and all(abs(value) <= LIMIT for point in ring for value in point)
        for member in members
        for ring in member
    )
