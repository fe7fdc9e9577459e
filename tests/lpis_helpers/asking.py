"""What the tests of registers share: a call of the program, what SQLite finds in a register, the tables of version 3, a
release that is cut and published."""

import contextlib
import pathlib
import sqlite3
import subprocess

from lpis_helpers.places import BUILT, TOP as HOUSE
from lpis_helpers.registers import LEFT, RIGHT, TABLES, made, rows, said

TOP = pathlib.Path(HOUSE)
YEARS = TOP / "examples" / "years"
NEW = ["lpis_format", "lpis_release", "lpis_span", "lpis_row", "lpis_text", "lpis_mark"]
MOVED = ["lpis_format", "lpis_release", "lpis_live", "lpis_row", "lpis_span", "lpis_text", "lpis_mark"]
HISTORY = [(2024, [("A",)], []), (2025, [("B",), ("C",)], [(0, "A", "B", False), (1, "A", "C", False)])]
MARKED = [HISTORY[0], (2025, [("B",), ("C",)], [(0, "A", "B", True), (1, "A", "C", True)])]
SHAPES = [("B", LEFT), ("C", RIGHT)]
ELSEWHERE = "POLYGON((20 0,30 0,30 10,20 10,20 0))"


def expect(name, found, wanted):
    assert found == wanted, name


def lpis(*words):
    run = subprocess.run([BUILT, *map(str, words)], capture_output=True, text=True, timeout=60, cwd=TOP)
    return run.stdout + "".join("2> " + line + "\n" for line in run.stderr.splitlines()), run.returncode


def dump(path):
    with contextlib.closing(sqlite3.connect(path)) as connection:
        return list(connection.iterdump())


def texts(path):
    return rows(path, "SELECT id, wkt FROM lpis_text ORDER BY id")


def expect_whole(name, path):
    expect(f"{name}: integrity_check", rows(path, "PRAGMA integrity_check"), [("ok",)])
    expect(f"{name}: foreign_key_check", rows(path, "PRAGMA foreign_key_check"), [])


def names_of(path):
    """The tables, in the order in which they were made."""
    return [name for name, in rows(path, "SELECT name FROM sqlite_schema WHERE type = 'table' ORDER BY rowid")]


def shape_of(path, table):
    """The columns of a table, its foreign keys, and whether it is STRICT."""
    strict = rows(path, f"SELECT strict FROM pragma_table_list WHERE name = '{table}'")
    return (
        rows(path, f"SELECT * FROM pragma_table_xinfo('{table}')"),
        rows(path, f"SELECT * FROM pragma_foreign_key_list('{table}')"),
        strict,
    )


def expect_tables(name, path, order, folder):
    """The tables of version 3 in this order, each as docs/FORMATS.md has it."""
    expect(f"{name}: its tables", names_of(path), order)
    expect(f"{name}: version", rows(path, "SELECT * FROM lpis_format"), [(1, 3)])
    model = folder / "model.db"
    if not model.exists():
        made(model, TABLES[3])
    for table in NEW:
        expect(f"{name}: {table}", shape_of(path, table), shape_of(model, table))
    expect_whole(name, path)


def publish(folder, path, year, release):
    """Cuts a release, and publishes it in a year."""
    cert = folder / f"{year}.txt"
    expect(f"cut {release.name}", lpis("cut", release, cert)[1], 0)
    expect_published(f"publish {release.name}", path, year, release, cert)


def expect_published(name, path, year, release, cert, *before):
    """A release is published in a year, and these lines stand before the last one that is printed."""
    text, status = lpis("publish", path, year, release, cert)
    expect(f"{name}: published", (text.splitlines()[-len(before) - 1 :], status), ([*before, f"published {year}"], 0))


def write_release(release, shapes, *lineage):
    """The tables of parcels of these shapes, each with one piece, and this table of lineage."""
    release.mkdir(exist_ok=True)
    for name, lines in (
        ("parcels", ["parcel,wkt", *(f'{parcel},"{wkt}"' for parcel, wkt in shapes.items())]),
        ("classes", ["class,percent", "G,100"]),
        (
            "covers",
            ["piece,parcel,class,wkt", *(f'{parcel.lower()},{parcel},G,"{wkt}"' for parcel, wkt in shapes.items())],
        ),
        ("lineage", lineage),
    ):
        (release / f"{name}.csv").write_text("".join(f"{line}\n" for line in lines))


def release_of(folder, name, shapes, *lineage):
    """Such a release, and its certificate."""
    release, cert = folder / name, folder / f"{name}.txt"
    if not release.exists():
        write_release(release, shapes, *lineage)
        expect(f"cut {name}", lpis("cut", release, cert)[1], 0)
    return release, cert


def expect_spans(name, path, history, *spans):
    """The spans of a register's identifiers, and the history that they and the rows of lineage say."""
    expect(f"{name}: spans", rows(path, "SELECT * FROM lpis_span ORDER BY id"), list(spans))
    found = said(path)
    expect(f"{name}: history", found if isinstance(found, str) else found[0], history)
    expect_whole(name, path)
