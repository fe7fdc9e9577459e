"""SQLite files of strangers. Nothing that their schema names is trusted, and no statement goes on for ever: a view may
have an endless recursion. While a statement runs, signals are heard. GDAL would end at the first broken row."""

import os
import pathlib
import sqlite3

STEPS, STEPS_A_BYTE, AT_ONCE = 10_000_000, 100, 100_000  # of SQLite's machine, for all that is asked of a file
ROWS, BYTES_A_ROW = 200_000, 8  # of one answer: more than a file of its size has
ENDLESS = "it asks for more work than a file of its size can: a view without an end?"


def opened(path, seconds=5.0):
    """A connection for reading, which waits so long for who writes the file. One in a folder that only another user may
    write is read as one that does not change, where no -wal is there and nobody writes it."""
    name = pathlib.Path(path).resolve().as_uri()
    for mode in ("mode=ro", "immutable=1"):
        connection = sqlite3.connect(f"{name}?{mode}", uri=True, timeout=seconds)
        try:
            connection.execute("SELECT count(*) FROM sqlite_master").fetchone()
            return guarded(connection)
        except (sqlite3.Error, UnicodeDecodeError) as error:  # a schema that is no text is the second
            connection.close()
            if mode != "mode=ro" or "locked" in str(error) or not os.path.isfile(path) or os.path.exists(f"{path}-wal"):
                raise


def guarded(connection):
    """The connection, with an end to its work."""
    connection.execute("PRAGMA trusted_schema = OFF")
    left = STEPS + STEPS_A_BYTE * size_of(connection)

    def is_spent():
        nonlocal left
        left -= AT_ONCE
        return left < 0

    connection.set_progress_handler(is_spent, AT_ONCE)
    return connection


def size_of(connection):
    """The bytes of a connection's file and of what was written beside it. Its name may be bytes that are no letters."""
    usual, connection.text_factory = connection.text_factory, bytes
    try:
        paths = [path for _, name, path in connection.execute("PRAGMA database_list") if name == b"main" and path]
    finally:
        connection.text_factory = usual
    return sum(os.path.getsize(path + end) for path in paths for end in (b"", b"-wal") if os.path.exists(path + end))


def rows(connection, statement):
    """The rows of an answer, as they come."""
    most = ROWS + size_of(connection) // BYTES_A_ROW
    for number, row in enumerate(connection.execute(statement)):
        if number == most:
            raise sqlite3.OperationalError("interrupted")
        yield row


def why(error):
    """What an error of SQLite means."""
    return ENDLESS if str(error) == "interrupted" else str(error)
