"""Reads findings.gpkg by sqlite3, and tests each shape's head and how far each layer extends."""

import contextlib
import os
import sqlite3
import struct

from shapely import wkb

HEAD = struct.Struct("<2sBBi4d")


def path_of(folder):
    return os.path.join(folder, "findings.gpkg")


def rows_of(folder):
    """The rows of all layers, each a dictionary, whose `geom` is a shape or None."""
    rows = []
    with contextlib.closing(sqlite3.connect(path_of(folder))) as base:
        base.row_factory = sqlite3.Row
        columns = "table_name, srs_id, min_x, min_y, max_x, max_y"
        layers = base.execute(
            f"SELECT {columns} FROM gpkg_contents WHERE data_type = 'features' ORDER BY rowid"
        ).fetchall()
        for name, system, *box in layers:
            found = base.execute(f'SELECT * FROM "{name}" ORDER BY fid')
            found = [{**row, "geom": shape_of(row["geom"], system)} for row in found]
            assert {row["kind"].replace(" ", "_") for row in found} == {name}
            sides = list(zip(*(row["geom"].bounds for row in found if row["geom"])))
            assert box == ([*map(min, sides[:2]), *map(max, sides[2:])] if sides else [None] * 4)
            rows += found
    return rows


def shape_of(blob, system):
    if blob is None:
        return None
    magic, version, flags, srs, left, right, low, high = HEAD.unpack_from(blob)
    shape = wkb.loads(blob[HEAD.size :])
    assert (magic, version, flags, srs) == (b"GP", 0, 3, system)
    assert (shape.geom_type, shape.bounds) == ("MultiPolygon", (left, low, right, high))
    return shape


def of_kind(folder, kind, *names):
    """The rows of a kind, or those of some names alone."""
    return [row for row in rows_of(folder) if row["kind"] == kind and (not names or row["identifiers"] in names)]
