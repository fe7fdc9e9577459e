"""Large registers that SQLite (Python's own sqlite3) writes, and how long works on copies of them take, for scripts
that time these."""

import contextlib
import os
import shutil
import sqlite3
import sys
import time

from common import Run, done, lpis, run
from lpis_helpers.registers import TABLES

YEARS = range(2021, 2031)
POINTS = 56  # of a text: 1,354 bytes, so that 100,000 weigh 135 MB
TWENTIETH = 20
QUERIES = (
    "SELECT one, version FROM lpis_format",
    "SELECT year FROM lpis_release",
    "SELECT id, since, until FROM lpis_span",
    "SELECT year, pos, old, new FROM lpis_row",
    "SELECT year, pos FROM lpis_mark",
    "SELECT id, wkt FROM lpis_text",
)


def opened(path):
    connection = sqlite3.connect(path, isolation_level=None)
    connection.execute("PRAGMA foreign_keys = ON")
    return connection


def made(path, version, years, **rows):
    """A register of these rows."""
    connection = opened(path)
    connection.executescript("PRAGMA journal_mode = WAL;" + TABLES[version])
    connection.execute("BEGIN")
    connection.execute("INSERT INTO lpis_format VALUES (1, ?)", (version,))
    connection.executemany("INSERT INTO lpis_release VALUES (?)", [(year,) for year in years])
    for table, values in rows.items():
        connection.executemany(f"INSERT INTO {table} VALUES ({','.join('?' * len(values[0]))})", values)
    connection.execute("COMMIT")
    connection.close()
    return path


def names(count):
    return [f"parcel-{number:07}" for number in range(count)]


def square_of(number):
    """The corners of the square of a parcel, in whole metres, far from where coordinates are short."""
    x, y = 1_000_000 + 10 * (number % 1_000), 5_000_000 + 10 * (number // 1_000)
    return [(x, y), (x + 10, y), (x + 10, y + 10), (x, y + 10), (x, y)]


def text_of(number):
    """The text of a parcel as the register keeps it: a square of as many points as a digitised parcel has, most of
    them its first corner."""
    corners = square_of(number)
    corners = corners[:1] * (POINTS - len(corners)) + corners
    return f"POLYGON(({','.join(f'{x}.000 {y}.000' for x, y in corners)}))"


def with_texts(path, count, is_changed=False):
    """A register of one year of so many parcels with their texts, of which each twentieth is another one where that
    is asked for."""
    ids = names(count)
    texts = [
        (name, text_of(number + count * (is_changed and number % TWENTIETH == 0))) for number, name in enumerate(ids)
    ]
    return made(path, 3, [2021], lpis_span=[(name, 2021, 0) for name in ids], lpis_text=texts)


def moved(path, count):
    """A register of one year of so many parcels that was of version 2, and that the program has moved: it keeps no
    texts."""
    ids = names(count)
    made(path, 2, [2021], lpis_span=[(name, 2021, 0) for name in ids])
    done([lpis(), "trace", path, ids[0]])
    return path


def ten_years(path, count):
    """A register of ten years of so many identifiers, of which a tenth is renamed each year. Answers one of its last
    year."""
    live, spans, lines = dict.fromkeys(names(count), YEARS[0]), [], []
    for year in YEARS[1:]:
        gone = [name for place, name in enumerate(live) if place % len(YEARS) == year % len(YEARS)]
        for place, name in enumerate(gone):
            spans.append((name, live.pop(name), year - 1))
            new = f"{name.split('/')[0]}/{year}"
            live[new] = year
            lines.append((year, place, name, new))
    spans += [(name, since, 0) for name, since in live.items()]
    made(path, 3, YEARS, lpis_span=spans, lpis_row=lines)
    return spans[-1][0]


# Works that sqlite3 does, as the program does them.


@contextlib.contextmanager
def released(connection, year=2022):
    """The transaction of a release, with its year."""
    connection.execute("BEGIN")
    connection.execute("INSERT INTO lpis_release (year) VALUES (?)", (year,))
    yield
    connection.execute("COMMIT")


def write_spans(connection, ids):
    connection.executemany(
        "INSERT INTO lpis_span (id, since, until) VALUES (?1, ?2, ?3)", [(name, 2021, 0) for name in ids]
    )


def write_texts(connection, count):
    texts = ((name, text_of(number)) for number, name in enumerate(names(count)))
    connection.executemany("INSERT INTO lpis_text (id, wkt) VALUES (?1, ?2)", texts)


def write_release(connection, count):
    """The first release of so many parcels."""
    with released(connection, 2021):
        write_spans(connection, names(count))
        write_texts(connection, count)


def keep_texts(connection, _):
    """A further release that keeps all identifiers and texts."""
    with released(connection):
        pass


def update_texts(connection, count):
    """A further release that keeps all identifiers, with other texts of each twentieth."""
    texts = [(text_of(number), name) for number, name in enumerate(names(count)) if number % TWENTIETH == 0]
    with released(connection):
        connection.executemany("UPDATE lpis_text SET wkt = ?1 WHERE id = ?2", texts)


def insert_texts(connection, count):
    """A further release that keeps all identifiers, over a register without texts."""
    with released(connection):
        write_texts(connection, count)


def end_spans(connection, ids):
    """A further release that keeps none of these identifiers."""
    with released(connection):
        connection.executemany("UPDATE lpis_span SET until = ?1 WHERE id = ?2", [(2021, name) for name in ids])
        rows = [(2022, place, name, "") for place, name in enumerate(ids)]
        connection.executemany("INSERT INTO lpis_row (year, pos, old, new) VALUES (?1, ?2, ?3, ?4)", rows)


def read_all(connection):
    for query in QUERIES:
        connection.execute(query).fetchall()


def read_texts(connection):
    connection.execute(QUERIES[-1]).fetchall()


# Runs.


def copied(path):
    """A copy, whose pages are on the disk, so that no run waits for those of the one before."""
    copy = path + ".copy"
    for name in (copy, copy + "-wal", copy + "-shm"):
        if os.path.exists(name):
            os.remove(name)
    shutil.copy(path, copy)
    os.sync()
    return copy


def run_over(path, words, line, status=0):
    """A run of a program over a copy of a register, whose path comes in place of None; its status and its last line
    have to be these."""
    copy = copied(path)
    found = run([copy if word is None else word for word in words])
    if found.status != status or found.text.splitlines()[-1:] != [line]:
        sys.exit(f"{' '.join(map(str, words))}: status {found.status}: {(found.text + found.told)[-300:]}")
    return found


def nothing():
    """The run that takes no time."""
    return Run(0, "", "", 0, 0, 0)


def by_sqlite(path, work):
    """The seconds of sqlite3 over a copy of a register, from the opening to the closing."""
    copy = copied(path)
    start, started = time.perf_counter(), time.process_time()
    connection = opened(copy)
    work(connection)
    connection.close()
    return nothing()._replace(wall=time.perf_counter() - start, seconds=time.process_time() - started)
