"""Columns of a source that go with its findings, such as the district of a parcel: so that a sheet goes to each
district. A piece without such a column has its parcel's, a parcel without one has those of its pieces."""

from __future__ import annotations

import contextlib
import os
import sqlite3
from typing import Iterable, Iterator

from ..system import databases
from ..system.trouble import Trouble
from . import land, spreadsheets

BETWEEN = " / "  # values of a finding that is of several districts
AT_ONCE = 500  # rows that are asked for together
Values = tuple  # of a row: its number, its parcel, and the columns


class Table:
    """A layer of a source, of which columns are read: `there` has what each that is kept is called in it."""

    def __init__(self, layer: land.Layer, folder: str | None, names: dict, wanted: Iterable[str]) -> None:
        self.layer = layer
        called = names.get(layer.name, layer.name)
        self.sheet = spreadsheets.read(land.table_of(folder, called)) if folder else None
        self.columns = self.sheet.columns if self.sheet else [*layer.origin.chosen.values(), *layer.others]
        own = {column.lower(): column for column in reversed(self.columns)}
        self.there = {name: own[name.lower()] for name in wanted if name.lower() in own}
        self.parcel = (
            land.columns_of(self.columns, layer.name, "parcel", names)[0]
            if self.sheet
            else layer.origin.chosen["parcel"]
        )

    def rows(self, numbers: set[str] | None = None) -> Iterator[Values]:
        """Rows of these numbers, or all."""
        columns = [self.parcel, *self.there.values()]
        if self.sheet:
            places = [self.columns.index(column) for column in columns]
            found = ((number, *(fields[place] for place in places)) for number, fields in self.sheet.rows())
            yield from (row for row in found if numbers is None or str(row[0]) in numbers)
            return
        origin = self.layer.origin
        with contextlib.closing(land.opened(origin.path)) as base:
            try:
                for number, parcel, *values in of_package(base, origin, columns, numbers):
                    yield number, *(land.text_of("", value) or "" for value in (parcel, *values))
            except (sqlite3.Error, ValueError) as error:
                raise Trouble(f"{origin.path}: {databases.why(error)}") from None


def of_package(
    base: sqlite3.Connection, origin: land.Origin, columns: list, numbers: set[str] | None
) -> Iterator[tuple]:
    """Rows of a layer of a GeoPackage; where it has no key they are numbered as they come."""
    fields = ", ".join(map(land.quoted, columns))
    table = land.quoted(origin.table)
    if not origin.key:
        found = enumerate(base.execute(f"SELECT {fields} FROM {table}"), 1)
        yield from ((number, *row) for number, row in found if numbers is None or str(number) in numbers)
    elif numbers is None:
        yield from base.execute(f"SELECT {land.quoted(origin.key)}, {fields} FROM {table}")
    else:
        wanted = [int(number) for number in numbers if number.lstrip("-").isdecimal()]
        for at in range(0, len(wanted), AT_ONCE):
            some = wanted[at : at + AT_ONCE]
            marks = ", ".join("?" * len(some))
            yield from base.execute(
                f"SELECT {land.quoted(origin.key)}, {fields} FROM {table} WHERE rowid IN ({marks})", some
            )


class Kept:
    """The columns of a source that are kept."""

    def __init__(self, source: str, layers: dict, names: dict, wanted: Iterable[str]) -> None:
        folder = source if os.path.isdir(source) and not land.is_of_another_program(source) else None
        self.columns = list(dict.fromkeys(name.strip().lower() for words in wanted for name in words.split(",")))
        self.tables = {name: Table(layers[name], folder, names, self.columns) for name in land.SHAPED}
        if lacking := [name for name in self.columns if not any(name in one.there for one in self.tables.values())]:
            there = "; ".join(f"{name} {', '.join(table.columns)}" for name, table in self.tables.items())
            raise Trouble(f"--keep {lacking[0]}: no layer has this column: there are {there}")

    def of_rows(self, keys: Iterable[tuple]) -> list[dict[str, str]]:
        """The values of findings, each by its layer and the numbers of its rows with blanks between."""
        keys = [(layer, str(rows).split()) for layer, rows in keys]
        found = {}  # by layer and number: the parcel, and the values by their columns
        for name, table in self.tables.items():
            wanted = {number for layer, numbers in keys if layer == name for number in numbers}
            for number, parcel, *values in table.rows(wanted) if wanted else ():
                found[name, str(number)] = parcel.strip(), dict(zip(table.there, values))
        others = {name: self.of_parcels(name, found) for name in self.tables}
        return [
            self.of_finding([(layer, number) for number in numbers if (layer, number) in found], found, others)
            for layer, numbers in keys
        ]

    def of_parcels(self, name: str, found: dict) -> dict[str, dict[str, dict]]:
        """What the other layer has of the parcels of rows that were found, where this one lacks a column: by parcel
        and column the values, in their order."""
        (other,) = (table for layer, table in self.tables.items() if layer != name)
        wanted = {parcel for (layer, _), (parcel, _) in found.items() if layer == name}
        known: dict[str, dict[str, dict]] = {}
        if not wanted or all(column in self.tables[name].there for column in self.columns):
            return known
        for _, parcel, *values in other.rows():
            if parcel.strip() in wanted:
                for column, value in zip(other.there, values):
                    known.setdefault(parcel.strip(), {}).setdefault(column, {})[value.strip()] = None
        return known

    def of_finding(self, rows: list, found: dict, others: dict) -> dict[str, str]:
        made = {}
        for column in self.columns:
            values: dict[str, None] = {}
            for layer, number in rows:
                parcel, own = found[layer, number]
                values.update(
                    {own[column].strip(): None} if column in own else others[layer].get(parcel, {}).get(column, {})
                )
            made[column] = BETWEEN.join(value for value in values if value)
        return made
