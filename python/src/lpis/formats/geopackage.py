"""Writes layers of polygons into a GeoPackage, by sqlite3 alone and a row at a time. The same rows give the same bytes:
no time stands in it.

    with geopackage.anew(path, 25832) as package:
        package.add("left out", blob, values)       into the layer left_out, which is made where it is not there
"""

from __future__ import annotations

import contextlib
import sqlite3
import struct
from typing import Any, Iterable, Iterator, Tuple

from . import layer_style, wkb
from ..system import files

APPLICATION, VERSION = 0x47504B47, 10300  # "GPKG", and the version of the format
CHANGED = "2000-01-01T00:00:00.000Z"  # a time is wanted of each layer
UNKNOWN = -1  # the number of a plane of which no more is known
COLUMNS = {
    "kind": "TEXT",
    "layer": "TEXT",
    "row": "TEXT",
    "identifiers": "TEXT",
    "width_m": "REAL",
    "area_m2": "REAL",
    "x": "REAL",
    "y": "REAL",
    "stops": "INTEGER",
    "done": "TEXT",
    "words": "TEXT",
    "number": "INTEGER",
    "state": "TEXT",
    "comes_from": "TEXT",
}
TABLES = f"""
PRAGMA journal_mode = OFF; PRAGMA synchronous = OFF;
PRAGMA application_id = {APPLICATION}; PRAGMA user_version = {VERSION};
CREATE TABLE gpkg_spatial_ref_sys (srs_name TEXT NOT NULL, srs_id INTEGER NOT NULL PRIMARY KEY,
  organization TEXT NOT NULL, organization_coordsys_id INTEGER NOT NULL, definition TEXT NOT NULL, description TEXT);
CREATE TABLE gpkg_contents (table_name TEXT NOT NULL PRIMARY KEY, data_type TEXT NOT NULL, identifier TEXT UNIQUE,
  description TEXT DEFAULT '', last_change DATETIME NOT NULL,
  min_x DOUBLE, min_y DOUBLE, max_x DOUBLE, max_y DOUBLE, srs_id INTEGER,
  CONSTRAINT fk_gc_r_srs_id FOREIGN KEY (srs_id) REFERENCES gpkg_spatial_ref_sys (srs_id));
CREATE TABLE gpkg_geometry_columns (table_name TEXT NOT NULL UNIQUE, column_name TEXT NOT NULL,
  geometry_type_name TEXT NOT NULL, srs_id INTEGER NOT NULL, z TINYINT NOT NULL, m TINYINT NOT NULL,
  CONSTRAINT pk_geom_cols PRIMARY KEY (table_name, column_name),
  CONSTRAINT fk_gc_tn FOREIGN KEY (table_name) REFERENCES gpkg_contents (table_name),
  CONSTRAINT fk_gc_srs FOREIGN KEY (srs_id) REFERENCES gpkg_spatial_ref_sys (srs_id));
INSERT INTO gpkg_spatial_ref_sys VALUES
  ('Undefined cartesian SRS', -1, 'NONE', -1, 'undefined', 'undefined cartesian coordinate reference system'),
  ('Undefined geographic SRS', 0, 'NONE', 0, 'undefined', 'undefined geographic coordinate reference system'),
  ('WGS 84 geodetic', 4326, 'EPSG', 4326, 'GEOGCS["WGS 84",DATUM["WGS_1984",\
SPHEROID["WGS 84",6378137,298.257223563,AUTHORITY["EPSG","7030"]],AUTHORITY["EPSG","6326"]],PRIMEM["Greenwich",0],\
UNIT["degree",0.0174532925199433],AUTHORITY["EPSG","4326"]]', 'longitude/latitude coordinates');
"""
SYSTEM = "INSERT INTO gpkg_spatial_ref_sys VALUES (?, ?, 'EPSG', ?, 'undefined', NULL)"
CONTENTS = "INSERT INTO gpkg_contents VALUES (?1, 'features', ?1, '', ?2, NULL, NULL, NULL, NULL, ?3)"
OTHERS = "INSERT INTO gpkg_contents VALUES (?1, 'attributes', ?1, '', ?2, NULL, NULL, NULL, NULL, NULL)"  # no shapes
SHAPES = "INSERT INTO gpkg_geometry_columns VALUES (?, 'geom', 'MULTIPOLYGON', ?, 0, 0)"
EXTENT = "UPDATE gpkg_contents SET min_x = ?, min_y = ?, max_x = ?, max_y = ? WHERE table_name = ?"
HEAD = struct.Struct("<2sBBi4d")  # of a shape: GP, version 0, little endian with a box, the system, the box
WITH_BOX = 3
Box = Tuple[float, float, float, float]  # least x and y, greatest x and y


class Package:
    """A GeoPackage that is written, with a layer for each kind of row."""

    def __init__(self, base: sqlite3.Connection, epsg: int | None) -> None:
        self.base, self.system = base, epsg or UNKNOWN
        self.boxes: dict[str, Box | None] = {}
        base.executescript(TABLES)
        if self.system not in (UNKNOWN, 4326):
            base.execute(SYSTEM, (f"EPSG:{self.system}", self.system, self.system))

    def add(self, kind: str, blob: bytes | None, values: Iterable) -> None:
        """Adds a row: its shape as well-known binary of a MultiPolygon, or None, and the values of the columns."""
        name = kind.replace(" ", "_")
        if name not in self.boxes:
            self.make(name)
        box = wkb.Found.of_blob(blob).box() if blob else None
        if box:
            self.boxes[name] = joined(self.boxes[name], box)
        shape = HEAD.pack(b"GP", 0, WITH_BOX, self.system, *box[0::2], *box[1::2]) + blob if box else None
        self.base.execute(f'INSERT INTO "{name}" VALUES (NULL, ?{", ?" * len(COLUMNS)})', (shape, *map(fit, values)))

    def make(self, name: str) -> None:
        columns = ", ".join(f'"{column}" {form}' for column, form in COLUMNS.items())
        self.base.execute(f'CREATE TABLE "{name}" (fid INTEGER PRIMARY KEY NOT NULL, geom MULTIPOLYGON, {columns})')
        self.base.execute(CONTENTS, (name, CHANGED, self.system))
        self.base.execute(SHAPES, (name, self.system))
        self.boxes[name] = None

    def end(self) -> None:
        """Writes how far each layer extends, and how QGIS draws it."""
        self.base.executescript(layer_style.TABLE)
        self.base.execute(OTHERS, (layer_style.NAME, CHANGED))
        style = layer_style.text()
        self.base.executemany(layer_style.ROW, [(name, style, CHANGED) for name in self.boxes])
        found = [(*box, name) for name, box in self.boxes.items() if box]
        self.base.executemany(EXTENT, found)
        self.base.commit()


def joined(box: Box | None, other: Box) -> Box:
    """The box around two, or the second where there is no first."""
    return other if box is None else (*map(min, box[:2], other[:2]), *map(max, box[2:], other[2:]))


def fit(value: Any) -> Any:
    """A value that a table takes: letters that are none are written out."""
    return value.encode("utf-8", "backslashreplace").decode() if isinstance(value, str) else value


def layers_of(base: sqlite3.Connection) -> list[str]:
    """The names of the layers of a GeoPackage that have shapes, in the order in which they were made."""
    found = base.execute("SELECT table_name FROM gpkg_contents WHERE data_type = 'features' ORDER BY rowid")
    return [name for (name,) in found]


@contextlib.contextmanager
def anew(path: str, epsg: int | None) -> Iterator[Package]:
    """A GeoPackage to write that takes its place only when it is whole. `epsg` is the number of its system, or None."""
    with files.beside(path) as new, contextlib.closing(sqlite3.connect(new)) as base:
        package = Package(base, epsg)
        yield package
        package.end()
        base.close()
