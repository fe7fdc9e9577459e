"""Which table of a source is meant where none is called as it is wanted: the one that alone fits, by its columns and by
whether it has polygons."""

from __future__ import annotations

import os
import re
import sqlite3
from dataclasses import dataclass
from typing import Callable, Container

from . import spreadsheets
from ..system import databases

COLUMNS = {"covers": ["piece", "parcel", "class"], "parcels": ["parcel"], "classes": ["class", "percent"]}  # most first
ONLY = {"parcels": "piece"}  # a table with this column is of another layer
SHAPED = ("parcels", "covers")
ENDINGS = (".csv", ".CSV", ".txt", ".tsv")  # of tables in a folder
ASKED = re.compile(r"\(--name (\w+)(\.\w+)?=(LAYER|TABLE|COLUMN) says")
NO_POLYGONS = re.compile("(MULTI)?(POINT|LINESTRING|CURVE)")


@dataclass
class Table:
    """A table of a source: its columns, and whether it has polygons."""

    name: str
    columns: list[str]
    is_shaped: bool

    def has(self, column: str) -> bool:
        return column.lower() in map(str.lower, self.columns)

    def fits(self, layer: str, names: dict[str, str]) -> bool:
        """Whether it has what a layer wants, by the names that columns have there."""
        other = names.get(f"covers.{ONLY[layer]}", ONLY[layer]) if layer in ONLY else None
        wanted = [names.get(f"{layer}.{column}", column) for column in COLUMNS[layer]]
        return self.is_shaped == (layer in SHAPED) and all(map(self.has, wanted)) and not (other and self.has(other))


def guesses(tables: list[Table], names: dict[str, str]) -> dict[str, str]:
    """The tables that are meant by layers which no table is called by and no name is given for."""
    called = {layer: names.get(layer, layer).lower() for layer in COLUMNS}
    there = {table.name.lower() for table in tables}
    left = [table for table in tables if table.name.lower() not in called.values()]
    found = {}
    for layer in COLUMNS:
        fitting = [table for table in left if table.fits(layer, names)]
        if layer not in names and called[layer] not in there and len(fitting) == 1:
            found[layer] = fitting[0].name
            left.remove(fitting[0])
    return found


def words(layer: str, names: dict[str, str]) -> str:
    """What is told of a guess."""
    columns = [names.get(f"{layer}.{column}", column) for column in COLUMNS[layer]]
    has = (
        "column " + columns[0]
        if len(columns) == 1
        else "columns " + " and ".join([", ".join(columns[:-1]), columns[-1]])
    )
    polygons = "polygons and " if layer in SHAPED else ""
    return (
        f"nothing is called {layer}: {names[layer]} is taken for it, which alone has {polygons}the {has} (--name"
        f" {layer}=LAYER says another)"
    )


def all_names(reasons: list[str], names: dict[str, str]) -> list[str]:
    """Where reasons ask for a layer or for several names, one line with the words for all of them: of a layer that is
    not there its columns too."""
    asked: dict[str, str] = {}
    for layer, column, what in (found.groups() for reason in reasons for found in ASKED.finditer(reason)):
        asked[f"{layer}{column or ''}"] = what
        more = () if column else (f"{layer}.{one}" for one in COLUMNS[layer])
        asked.update((name, "COLUMN") for name in more if name not in names)
    if len(asked) < 2:
        return []
    return ["all names at once: " + " ".join(f"--name {name}={what}" for name, what in asked.items())]


def of_package(base: sqlite3.Connection, names: dict[str, str]) -> dict[str, str]:
    """What is meant in a GeoPackage."""
    query = "SELECT lower(table_name), upper(geometry_type_name) FROM gpkg_geometry_columns"
    shaped = {str(name) for name, form in databases.rows(base, query) if not NO_POLYGONS.fullmatch(str(form))}
    tables = []
    for (name,) in databases.rows(base, "SELECT table_name FROM gpkg_contents ORDER BY rowid"):
        found = base.execute("SELECT name FROM pragma_table_xinfo(?)", [str(name)])
        tables.append(Table(str(name), [str(column) for (column,) in found], str(name).lower() in shaped))
    return guesses(tables, names)


def of_folder(folder: str, names: dict[str, str], path_of: Callable) -> dict[str, str]:
    """What is meant in a folder of tables: the others are looked at where one is not there by its name."""
    known = {os.path.basename(path) for layer in COLUMNS if (path := path_of(folder, names.get(layer, layer)))}
    tables = [Table(os.path.splitext(name)[0], [], False) for name in known]
    return guesses([*tables, *(tables_in(folder, names, known) if len(known) < len(COLUMNS) else [])], names)


def tables_in(folder: str, names: dict[str, str], known: Container[str] = ()) -> list[Table]:
    """The tables of a folder, but those that are known."""
    shapes, tables = {names.get(f"{layer}.wkt", "wkt").lower() for layer in SHAPED}, []
    for name in sorted(os.listdir(folder)):
        path = os.path.join(folder, name)
        if name not in known and name.endswith(ENDINGS) and not name.startswith(".") and os.path.isfile(path):
            columns = spreadsheets.read(path).columns
            tables.append(Table(os.path.splitext(name)[0], columns, bool(shapes & set(map(str.lower, columns)))))
    return tables
