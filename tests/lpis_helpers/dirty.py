#!/usr/bin/env python3
"""Makes a GeoPackage with every kind of dirt that a source may have, by Python's sqlite3 alone: for the tests, and to
try `tools/prepare`.

    tests/lpis_helpers/dirty.py OUT.gpkg [KIND..]      no KIND: all of them; `clean` alone: none
    tests/lpis_helpers/dirty.py OUT.gpkg 20000         a coverage of so many parcels, one in twenty dirty

KIND is one of null, empty, curve, z, degrees, crossing, blank, umlaut, long, nameless, doubled, bare, stranger, wide,
narrow, twin, line, flat, short, m, open.
"""

import os
import random
import sqlite3
import struct
import sys

EAST, NORTH = 550_000, 5_400_000
UTM = (
    'PROJCS["{}",GEOGCS["ETRS89",DATUM["European_Terrestrial_Reference_System_1989",SPHEROID["GRS'
    ' 1980",6378137,298.257222101]],'
    'PRIMEM["Greenwich",0],UNIT["degree",0.0174532925199433]],PROJECTION["Transverse_Mercator"],PARAMETER["latitude_of_origin",0],PARAMETER["central_meridian",9],'  # noqa: E501
    'PARAMETER["scale_factor",0.9996],PARAMETER["false_easting",{}],PARAMETER["false_northing",0],UNIT["metre",1],AUTHORITY["EPSG","{}"]]'  # noqa: E501
)
SYSTEMS = {
    **{
        number: (name, UTM.format(name, easting, number))
        for number, name, easting in (
            (25832, "ETRS89 / UTM zone 32N", 500000),
            (4647, "ETRS89 / UTM zone 32N (zE-N)", 32500000),
        )
    },
    2263: (
        "NAD83 / New York Long Island (ftUS)",
        (
            'PROJCS["NAD83 / New York Long Island'
            ' (ftUS)",GEOGCS["NAD83",DATUM["North_American_Datum_1983",SPHEROID["GRS'
            ' 1980",6378137,298.257222101]],PRIMEM["Greenwich",0],UNIT["degree",0.0174532925199433]],PROJECTION["Lambert_Conformal_Conic_2SP"],UNIT["US'  # noqa: E501
            ' survey foot",0.304800609601219],AUTHORITY["EPSG","2263"]]'
        ),
    ),
    4326: (
        "WGS 84",
        (
            'GEOGCS["WGS 84",DATUM["WGS_1984",SPHEROID["WGS'
            ' 84",6378137,298.257223563]],PRIMEM["Greenwich",0],UNIT["degree",0.0174532925199433],AUTHORITY["EPSG","4326"]]'  # noqa: E501
        ),
    ),
}
LARGE = (
    "null empty line flat short crossing outside open curve z blank umlaut nameless stranger doubled wide narrow"
    " degrees bare".split()
)
ALL = (
    "null empty curve z degrees crossing blank umlaut long nameless doubled bare stranger wide narrow twin line flat"
    " short m open".split()
)


def polygon(*rings, z=None, m=None):
    """A polygon as well-known binary, with a height and a measure where they are given."""
    more = [value for value in (z, m) if value is not None]
    body = b"".join(
        struct.pack("<I", len(ring)) + b"".join(struct.pack(f"<{2 + len(more)}d", *p, *more) for p in ring)
        for ring in rings
    )
    return struct.pack("<BII", 1, 3 + 1000 * (z is not None) + 2000 * (m is not None), len(rings)) + body


def arc(*points):
    """A polygon with one ring of arcs through the points."""
    ring = struct.pack("<BII", 1, 8, len(points)) + b"".join(struct.pack("<2d", *p) for p in points)
    return struct.pack("<BII", 1, 10, 1) + ring


def line(*points):
    return struct.pack("<BII", 1, 2, len(points)) + b"".join(struct.pack("<2d", *p) for p in points)


EMPTY = struct.pack("<BII", 1, 3, 0)


def box(x, y, width=10.0, height=10.0):
    """A rectangle's ring, about the corner of the land."""
    x, y = EAST + x, NORTH + y
    return [(x, y), (x + width, y), (x + width, y + height), (x, y + height), (x, y)]


class Package:
    """A GeoPackage that is being written."""

    def __init__(self, path, system=25832):
        if os.path.exists(path):
            os.remove(path)
        self.base, self.system = sqlite3.connect(path), system
        self.base.executescript(
            """
            PRAGMA application_id = 1196444487; PRAGMA user_version = 10300;
            CREATE TABLE gpkg_spatial_ref_sys (srs_name TEXT NOT NULL, srs_id INTEGER PRIMARY KEY, organization TEXT NOT NULL, organization_coordsys_id INTEGER NOT NULL,
              definition TEXT NOT NULL, description TEXT);
            CREATE TABLE gpkg_contents (table_name TEXT NOT NULL PRIMARY KEY, data_type TEXT NOT NULL, identifier TEXT UNIQUE, description TEXT DEFAULT '',
              last_change DATETIME NOT NULL DEFAULT (strftime('%Y-%m-%dT%H:%M:%fZ','now')), min_x DOUBLE, min_y DOUBLE, max_x DOUBLE, max_y DOUBLE, srs_id INTEGER);
            CREATE TABLE gpkg_geometry_columns (table_name TEXT NOT NULL, column_name TEXT NOT NULL, geometry_type_name TEXT NOT NULL, srs_id INTEGER NOT NULL, z TINYINT NOT NULL,
              m TINYINT NOT NULL, PRIMARY KEY (table_name, column_name));
            INSERT INTO gpkg_spatial_ref_sys VALUES ('undefined cartesian', -1, 'NONE', -1, 'undefined', NULL), ('undefined geographic', 0, 'NONE', 0, 'undefined', NULL);"""  # noqa: E501
        )
        for number, (name, text) in SYSTEMS.items():
            self.base.execute(
                "INSERT INTO gpkg_spatial_ref_sys VALUES (?, ?, 'EPSG', ?, ?, NULL)", (name, number, number, text)
            )

    def layer(self, name, columns, rows):
        """A layer of rows whose last value is a shape's bytes, or None."""
        self.base.execute(
            f'CREATE TABLE "{name}" (fid INTEGER PRIMARY KEY AUTOINCREMENT NOT NULL, geom GEOMETRY,'
            f' {" TEXT, ".join(columns)} TEXT)'
        )
        self.base.execute(
            "INSERT INTO gpkg_contents (table_name, data_type, identifier, srs_id) VALUES (?, 'features', ?, ?)",
            (name, name, self.system),
        )
        self.base.execute(
            "INSERT INTO gpkg_geometry_columns VALUES (?, 'geom', 'GEOMETRY', ?, 2, 2)", (name, self.system)
        )
        self.rows(name, columns, rows)

    def rows(self, name, columns, rows):
        for *fields, shape in rows:
            blob = (
                None
                if shape is None
                else b"GP\0" + bytes([17 if shape == EMPTY else 1]) + struct.pack("<i", self.system) + shape
            )
            self.base.execute(
                f'INSERT INTO "{name}" (geom, {", ".join(columns)}) VALUES (?{", ?" * len(columns)})', (blob, *fields)
            )

    def table(self, name, columns, rows):
        self.base.execute(
            f'CREATE TABLE "{name}" (fid INTEGER PRIMARY KEY AUTOINCREMENT NOT NULL, {" TEXT, ".join(columns)} TEXT)'
        )
        self.base.execute(
            "INSERT INTO gpkg_contents (table_name, data_type, identifier, srs_id) VALUES (?, 'attributes', ?, 0)",
            (name, name),
        )
        self.base.executemany(
            f'INSERT INTO "{name}" ({", ".join(columns)}) VALUES (?{", ?" * (len(columns) - 1)})', rows
        )

    def close(self):
        self.base.commit()
        self.base.close()


def rows_of(kinds):
    """Parcels and pieces: four clean ones side by side, and each kind of dirt in a row of its own above them."""
    parcels, covers = [], []

    def add(name, x, y, width=10.0, height=10.0, parts=2):
        parcels.append((name, polygon(box(x, y, width, height))))
        for part in range(parts):
            covers.append(
                (
                    f"{name}.{part + 1}",
                    name,
                    ["GRASS", "TREES"][part % 2],
                    polygon(box(x + part * width / parts, y, width / parts, height)),
                )
            )

    for number in range(4):
        add(f"clean{number + 1}", 10 * number, 0)
    for number, kind in enumerate(kinds, 1):
        y = 20 * number
        add(kind, 0, y)
        if kind == "null":
            covers[-1] = (*covers[-1][:3], None)
        elif kind == "empty":
            parcels[-1] = (kind, EMPTY)
        elif kind == "line":
            covers[-1] = (*covers[-1][:3], line((EAST, NORTH + y), (EAST + 10, NORTH + y)))
        elif kind in ("flat", "short"):
            way = [(EAST + x, NORTH + y) for x in ((5, 10, 7, 5) if kind == "flat" else (5, 10, 5))]
            covers[-1] = (*covers[-1][:3], polygon(way))
        elif kind == "curve":
            x, low = EAST, NORTH + y
            shape = arc(
                (x, low),
                (x + 5, low - 1),
                (x + 10, low),
                (x + 11, low + 5),
                (x + 10, low + 10),
                (x + 5, low + 11),
                (x, low + 10),
                (x - 1, low + 5),
                (x, low),
            )
            parcels[-1], covers[-2:] = (kind, shape), [(f"{kind}.1", kind, "GRASS", shape)]
        elif kind == "z":
            parcels[-1] = (kind, polygon(box(0, y), z=312.5))
        elif kind == "m":
            parcels[-1] = (kind, polygon(box(0, y), m=7.0))
            covers[-1] = (*covers[-1][:3], polygon(box(5, y, 5), z=312.5, m=7.0))
        elif kind == "open":
            parcels[-1] = (kind, polygon(box(0, y)[:-1]))
        elif kind == "degrees":
            parcels[-1] = (kind, polygon([(9.1, 48.1), (9.2, 48.1), (9.2, 48.2), (9.1, 48.1)]))
        elif kind == "crossing":
            bow = [
                (EAST + 5, NORTH + y),
                (EAST + 10, NORTH + y + 10),
                (EAST + 10, NORTH + y),
                (EAST + 5, NORTH + y + 10),
                (EAST + 5, NORTH + y),
            ]
            covers[-1] = (*covers[-1][:3], polygon(bow))
        elif kind in ("blank", "umlaut", "long"):
            name = {"blank": "field 7", "umlaut": "M\u00fchle", "long": "a" * 41}[kind]
            parcels[-1] = (name, parcels[-1][1])
            covers[-2:] = [
                (f"{name}.{part}", name, land_class, shape)
                for part, (_, _, land_class, shape) in enumerate(covers[-2:], 1)
            ]
        elif kind == "nameless":
            parcels[-1] = (None, parcels[-1][1])
            covers[-2:] = [(*covers[-2][:1], None, *covers[-2][2:]), (*covers[-1][:1], None, *covers[-1][2:])]
        elif kind == "doubled":
            parcels.append((kind, polygon(box(10, y))))
            covers.append((f"{kind}.3", kind, "GRASS", polygon(box(10, y))))
        elif kind == "bare":
            covers[-2:] = []
        elif kind == "stranger":
            covers.append((f"{kind}.3", "nowhere", "GRASS", polygon(box(10, y))))
        elif kind in ("wide", "narrow"):
            add(f"{kind}-2", 10 - (0.02 if kind == "wide" else 0.003), y, 10)
        elif kind == "twin":
            add("twin-2", 0, y)
    return parcels, covers


KINDS_AT_ONCE = 4  # rows of each kind, at least
AT_ONCE = 5_000  # parcels in memory


class Large:
    """A coverage of many parcels side by side, in doubles and turned, with dirt of every kind all over it. What is
    wrong is drawn by a seed."""

    ACROSS, SIDE, TURN = 500, 50.0, (0.8, 0.6)  # parcels in a row, metres, cosine and sine

    def __init__(self, count, seed, share):
        self.count, self.random, self.share = count, random.Random(seed), share
        self.parcels, self.covers = [], []

    def moved(self, ring):
        c, s = self.TURN
        return [(EAST + c * x - s * y, NORTH + s * x + c * y) for x, y in ring]

    def box(self, x, y, width, height):
        return self.moved([(x, y), (x + width, y), (x + width, y + height), (x, y + height), (x, y)])

    def write(self, package):
        """The rows of both layers, as they are made."""
        package.layer("parcels", ["parcel"], [])
        package.layer("covers", ["piece", "parcel", "class"], [])
        kinds = [kind for kind in LARGE for _ in range(KINDS_AT_ONCE)]
        places = set(
            self.random.sample(range(self.count), min(self.count, max(len(kinds), int(self.count * self.share))))
        )
        for number in range(self.count):
            self.parcel(number, (kinds.pop() if kinds else self.random.choice(LARGE)) if number in places else "")
            if number % AT_ONCE == AT_ONCE - 1 or number == self.count - 1:
                package.rows("parcels", ["parcel"], self.parcels)
                package.rows("covers", ["piece", "parcel", "class"], self.covers)
                self.parcels, self.covers = [], []

    def parcel(self, number, kind):
        """A parcel of two pieces, divided somewhere; a third of them with a pond."""
        x, y, side = number % self.ACROSS * self.SIDE, number // self.ACROSS * self.SIDE, self.SIDE
        name, cut = f"P{number:07}", self.random.uniform(10, 40)
        left, right = self.box(x, y, cut, side), self.box(x + cut, y, side - cut, side)
        rings, pieces = [self.box(x, y, side, side)], [("1", "GRASS", [left]), ("2", "TREES", [right])]
        if number % 3 == 0:
            pond = self.box(x + 2, y + 20, 5, 5)
            pieces[0][2].append(pond[::-1])
            pieces.append(("3", "WATER", [pond]))
        shape, shapes = polygon(*rings), [
            (f"{name}.{part}", name, land_class, polygon(*found)) for part, land_class, found in pieces
        ]
        self.dirt(kind, name, (x, y, cut), shape, shapes)

    def dirt(self, kind, name, place, shape, shapes):
        x, y, cut = place
        first, second, *others = shapes
        if kind in ("null", "empty", "line", "flat", "short", "crossing", "outside", "open", "curve", "z"):
            second = (*second[:3], self.shape(kind, x, y, cut))
        elif kind == "blank":
            first, name = (first[0], f"{name}  ", *first[2:]), f" {name}"
        elif kind == "umlaut":
            shapes = [(piece, f"M\u00fchle {name}", *rest) for piece, _, *rest in shapes]
            (first, second, *others), name = shapes, f"M\u00fchle {name}"
        elif kind == "nameless":
            second = (None, *second[1:])
        elif kind == "stranger":
            second = (second[0], "nowhere", *second[2:])
        elif kind == "doubled":
            second = (first[0], *second[1:])
        elif kind == "wide":
            second = (*second[:3], polygon(self.box(x + cut - 0.5, y, self.SIDE - cut + 0.5, self.SIDE)))
        elif kind == "narrow":
            second = (*second[:3], polygon(self.box(x + cut - 0.005, y, self.SIDE - cut + 0.005, self.SIDE)))
        elif kind == "degrees":
            shape = polygon([(9.1, 48.1), (9.2, 48.1), (9.2, 48.2), (9.1, 48.1)])
        self.parcels.append((name, shape))
        self.covers += [] if kind == "bare" else [first, second, *others]

    def shape(self, kind, x, y, cut):
        """The second piece's shape, with its dirt."""
        side = self.SIDE
        way = self.box(x + cut, y, side - cut, side)
        if kind == "outside":
            return polygon(way, self.box(x + cut, y + 2 * side, 5, 5))
        ways = {
            "flat": [way[0], way[1], way[0], way[0]],
            "short": way[:2] + way[:1],
            "crossing": [way[0], way[2], way[1], way[3], way[0]],
            "open": way[:-1],
        }
        if kind in ways:
            return polygon(ways[kind])
        if kind == "curve":
            return arc(
                *(point for a, b in zip(way, way[1:]) for point in (a, ((a[0] + b[0]) / 2, (a[1] + b[1]) / 2))), way[0]
            )
        return {"null": None, "empty": EMPTY, "line": line(*way[:2]), "z": polygon(way, z=312.5)}[kind]


def make_large(path, count, seed=1, share=0.05, kind=Large):
    """A coverage of many parcels of which such a share is dirty, with every kind."""
    package = Package(path)
    kind(count, seed, share).write(package)
    package.table("classes", ["class", "percent"], [("GRASS", 100), ("TREES", 30), ("WATER", 0)])
    package.close()
    return path


def make(path, kinds, system=25832):
    return put(path, *rows_of(kinds), system=system)


def put(path, parcels, covers, classes=(("GRASS", 100), ("TREES", 30)), system=25832):
    """A package of these rows; without classes it has no table of them."""
    package = Package(path, system)
    package.layer("parcels", ["parcel"], parcels)
    package.layer("covers", ["piece", "parcel", "class"], covers)
    if classes:
        package.table("classes", ["class", "percent"], classes)
    package.close()
    return path


def put_named(path, parcels, covers):
    """A package whose layers and columns have names of their own; its table of classes has the usual ones."""
    package = Package(path)
    package.layer("Feldbl\u00f6cke", ["FLIK"], parcels)
    package.layer("Bodenbedeckung", ["LE", "FLIK", "Nutzung"], covers)
    package.table("classes", ["class", "percent"], [("GRASS", 100)])
    package.close()
    return path


if __name__ == "__main__":
    if len(sys.argv) < 2 or sys.argv[1].startswith("-"):
        print(__doc__)
        sys.exit(64)
    if len(sys.argv) == 3 and sys.argv[2].isdecimal():
        make_large(sys.argv[1], int(sys.argv[2]))
    else:
        make(sys.argv[1], [kind for kind in sys.argv[2:] or ALL if kind != "clean"])
