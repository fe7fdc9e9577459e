"""Tables as bytes, whatever they come as.

A table is one of

- a path, of a file that `lpis` reads
- bytes of such a file
- a GeoPandas frame, or anything with `__geo_interface__` that is a collection of features: a collection of fiona, a
dictionary of GeoJSON. What a feature has
  beside its shape are the columns
- rows: features, mappings of columns, or shapes alone; a shape is in the column `geometry` or `wkt`, as anything with
`__geo_interface__` (Shapely),
  a dictionary of GeoJSON, or well-known text
- of classes a mapping of each class to its percentage, such as `{"GRASS": 100, "TREES": 30}`; of these and of lineage a
pandas frame too
- what `prepare` gave, whose tables are taken.

A table has the columns of all its rows; cases and blanks around their names are no part of them. A field that a row
lacks is empty. `ValueError` says what is no table: a frame that lacks a column, a row with two shapes, a `Prepared`
without tables.

Nothing is rounded and nothing is tested here: a coordinate is written with the shortest decimals that give the same
number, and so are identifiers. The proved code reads what is written, and refuses it where it is finer than a
millimetre, no polygon, or no identifier.
"""

from __future__ import annotations

import csv
import functools
import io
import os
import sys
from collections import Counter
from pathlib import Path
from typing import Any, Iterable, Iterator, Mapping, NamedTuple, Union

from .formats import byte_tables, guarded_csv
from .shapes import is_of_shapely, texts_of

Table = Union[str, "os.PathLike[str]", bytes, bytearray, memoryview, Mapping[Any, Any], Iterable[Any], Any]
SHAPE, GEOMETRY, PERCENT = "wkt", "geometry", "percent"
HEADERS = {
    "area": [SHAPE],
    "parcels": ["parcel", SHAPE],
    "covers": ["piece", "parcel", "class", SHAPE],
    "classes": ["class", "percent"],
    "lineage": ["old", "new"],
}
WHOLE = (PERCENT, "eligible", "exact")  # columns of whole numbers
INSTEAD = {PERCENT: ("eligible",), SHAPE: (GEOMETRY,)}  # columns that do as well


def table(source: Table, name: str) -> bytes:
    """The bytes of a table, as `cut` and `check` hand them to the proved code: what a yes is about, so keep them.

    Args:
        source: whatever is a table here.
        name: its kind: `area`, `parcels`, `covers`, `classes` or `lineage`.
    """
    if name not in HEADERS:
        raise ValueError(f"{name!r} is none of {', '.join(HEADERS)}")
    if source is None:
        raise ValueError(f"{name}: None is no table; where `prepare` wrote none, its `said` says what stops")
    if hasattr(source, "table_of"):
        return bytes(source.table_of(name))
    if isinstance(source, (bytes, bytearray, memoryview)):
        return bytes(source)
    if isinstance(source, (str, os.PathLike)):
        return Path(source).read_bytes()
    return written(columns_in(source, name), name)


class Columns(NamedTuple):
    """The columns of a table that are known, each with the values of all rows. What is missing is None."""

    names: list[str]
    values: list[list[Any]]
    rows: int


def columns_in(source: Any, name: str) -> Columns:
    """The columns of what is no file."""
    look_at_frame(source, name)
    geometry = geometry_of(source)
    return (
        columns_of_rows(rows_of(source, name), name) if geometry is None else columns_of_frame(source, geometry, name)
    )


def rows_of(source: Any, name: str) -> Iterator[dict[str, Any]]:
    """The rows of what is no file, and no frame of GeoPandas."""
    for number, item in enumerate(items_in(source, name), 1):
        yield row_of(item, f"{name} row {number}")


def items_in(source: Any, name: str) -> Any:
    """What stands for each row of a source: a feature, a mapping of columns, or a shape."""
    if is_of_shapely(source):
        return [source]
    found = getattr(source, "__geo_interface__", None)
    if found is None and hasattr(source, "to_dict"):
        return records_in(source) if hasattr(source, "columns") else items_of(source, name)
    return items_of_interface(source if found is None else found, name)


def items_of_interface(found: Any, name: str) -> Any:
    """The rows of a dictionary of GeoJSON, of classes, or of what is walked through."""
    if not isinstance(found, Mapping):
        return found
    if found.get("type") == "FeatureCollection":
        return found["features"]
    if is_shape(found) or found.get("type") == "Feature":
        return [found]
    if name == "classes":
        return ({"class": key, "percent": value} for key, value in found.items())
    raise TypeError(f"{name}: a mapping is no table, unless it is GeoJSON; write its rows as a list")


def geometry_of(source: Any) -> Any:
    """The shapes of a frame or a series of GeoPandas, as a series; None of anything else. `__geo_interface__` of
    such a frame writes all of it out."""
    library = sys.modules.get("geopandas")
    if library is None or not isinstance(source, (library.GeoDataFrame, library.GeoSeries)):
        return None
    found = getattr(source, "geometry", None)
    return found if isinstance(found, library.GeoSeries) else None


def columns_of_frame(source: Any, geometry: Any, name: str) -> Columns:
    """The columns of a frame or series of GeoPandas, as those of the features that it gives: a shape with nothing in
    it is none."""
    keys = [key for key in source.columns if key != geometry.name] if hasattr(source, "columns") else []
    if len(geometry):
        row_of({"type": "Feature", "properties": dict.fromkeys(keys)}, f"{name} row 1")
    found = {key: called(key) for key in keys if called(key) in known_columns(name)}
    names, values = list(found.values()), [source[key].astype(object).tolist() for key in found]
    if SHAPE in known_columns(name):
        names, values = [*names, SHAPE], [*values, [shape if shape else None for shape in geometry.to_numpy().tolist()]]
    return Columns(names, values, len(geometry))


def look_at_frame(source: Any, name: str) -> None:
    """Names the column that a frame lacks or has twice, whether it has rows or not."""
    if not (hasattr(source, "columns") and hasattr(source, "to_dict")):
        return
    there = [str(column) for column in source.columns]
    if len(set(source.columns)) < len(there):
        raise ValueError(f"{name}: two columns of the frame have one name")
    has_shapes = geometry_of(source) is not None or hasattr(source, "__geo_interface__")
    known = {called(column) for column in there} | ({SHAPE} if has_shapes else set())
    for wanted in HEADERS[name]:
        if not known & {wanted, *INSTEAD.get(wanted, ())}:
            raise ValueError(f"{name}: the frame has no column {wanted}: there are {', '.join(there) or 'none'}")


def records_in(frame: Any) -> Any:
    """The rows of a frame of pandas, or of polars."""
    return frame.to_dicts() if hasattr(frame, "to_dicts") else frame.to_dict("records")


def items_of(series: Any, name: str) -> list[dict[str, Any]]:
    """The rows of a series: of classes each with its percentage; else shapes alone."""
    return [{"class": key, "percent": value} if name == "classes" else {SHAPE: value} for key, value in series.items()]


def is_shape(found: Any) -> bool:
    return isinstance(found, Mapping) and "type" in found and ("coordinates" in found or "geometries" in found)


@functools.lru_cache(maxsize=1000, typed=True)
def called(key: Any) -> str:
    """The name of a column as it is compared."""
    return str(key).strip().lower()


def row_of(item: Any, place: str) -> dict[str, Any]:
    """The columns of a row, its shape as `wkt`."""
    if is_of_shapely(item):
        return {SHAPE: item}
    found = getattr(item, "__geo_interface__", item)
    if not isinstance(found, Mapping):
        raise TypeError(f"{place}: {found!r:.60} is no row of a table")
    if is_shape(found):
        return {SHAPE: found}
    is_feature = found.get("type") == "Feature"
    columns = dict(found.get("properties") or {}) if is_feature else dict(found)
    if None in columns:  # as csv.DictReader has what is over
        raise ValueError(f"{place}: it has more fields than the table has columns")
    shapes = [key for key in columns if called(key) in (GEOMETRY, SHAPE)]
    if {called(key) for key in shapes} == {GEOMETRY, SHAPE} or is_feature and shapes:
        raise ValueError(
            f"{place}: it has two shapes, in"
            f" {' and '.join(map(str, ['its feature', *shapes] if is_feature else shapes))}: leave one out"
        )
    row = {SHAPE if called(key) == GEOMETRY else str(key).strip(): value for key, value in columns.items()}
    return {**row, SHAPE: found.get("geometry")} if is_feature else row


def known_columns(name: str) -> list[str]:
    """The columns that a table of this kind may have."""
    return list(byte_tables.COLUMNS[name])


def columns_of_rows(rows: Iterable[dict[str, Any]], name: str) -> Columns:
    """The columns that some rows have. One that a row has twice stands twice, and is refused."""
    every, known = list(rows), known_columns(name)
    names: list[str] = []
    different = list(dict.fromkeys(tuple(row) for row in every))
    for keys in different:
        there = [column for column in map(called, keys) if column in known]
        names += (Counter(there) - Counter(names)).elements()
    orders = {keys: order_of(keys, names) for keys in different}
    found = [orders[tuple(row)] for row in every]
    return Columns(
        names, [[row.get(order[place]) for row, order in zip(every, found)] for place in range(len(names))], len(every)
    )


def written(columns: Columns, name: str) -> bytes:
    """The table of some columns."""
    text = io.StringIO(newline="")
    writer = guarded_csv.Writer(text)
    writer.writerow(columns.names if columns.rows else HEADERS[name])
    writer.writerows(
        zip(*map(fields_of, columns.names, columns.values)) if columns.names else ([] for _ in range(columns.rows))
    )
    return text.getvalue().encode("utf-8", "backslashreplace")


def fields_of(column: str, values: list[Any]) -> list[str]:
    """The fields of a column."""
    return texts_of(values) if column == SHAPE else [field(value, column) for value in values]


def order_of(keys: tuple[Any, ...], columns: list[str]) -> list[Any]:
    """Which of a row's keys each column is: the first of a name in the first column of that name, and so on; None
    where it has no more."""
    found: dict[str, list[Any]] = {}
    for key in keys:
        found.setdefault(called(key), []).append(key)
    return [found[column].pop(0) if found.get(column) else None for column in columns]


def field(value: Any, column: str) -> str:
    """A field's text. What is missing has none; a whole number of a column of whole numbers has no point, but 1.0
    percent, which may be the whole, and is refused."""
    if type(value) is str:
        return value
    value = value.item() if hasattr(value, "item") else value
    if is_missing(value):
        return ""
    is_whole = isinstance(value, bool) or isinstance(value, float) and value.is_integer()
    if is_whole and column in WHOLE and (column != PERCENT or not isinstance(value, bool) and value != 1):
        return str(int(value))
    return value.decode("utf-8", "backslashreplace") if isinstance(value, bytes) else str(value)


def is_missing(value: Any) -> bool:
    """Whether it is nothing, no number, or what pandas has for nothing, which is no truth either."""
    try:
        return value is None or bool(value != value)
    except TypeError:
        return True


def records_of(data: bytes) -> list[list[str]]:
    """The header and the rows of a table, as `lpis` reads them."""
    text = data.decode("latin-1")
    return [
        record
        for record in csv.reader(io.StringIO(text[3:] if text.startswith("\xef\xbb\xbf") else text, newline=""))
        if record
    ]


def columns_of(records: list[list[str]], *names: str) -> list[list[str]]:
    """The fields of some columns, of each row behind the header."""
    header = [field.lower() for field in records[0]]
    places = [header.index(name) for name in names]
    return [[record[place] for place in places] for record in records[1:]]
