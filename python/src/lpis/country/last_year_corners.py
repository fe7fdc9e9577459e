"""Last year's tables, of a release or of a country, row by row: the borders of its pieces, with which this year's edges
are conflated. So a border whose source did not change stays as it was, though a neighbour's corner on it is gone."""

from __future__ import annotations

import os
import re

import numpy

from . import row_store, source_parts
from ..formats import byte_tables, polygons, table_streams
from ..lineage import two_years
from ..source import file_digests, land
from ..system import progress

BORDERS = "lpis borders 1"  # what another rule gave is not taken
THEN = (
    "SELECT places, left, low, right, high FROM box_of_corner JOIN corner USING (id) WHERE left <= ? AND right >= ? AND"
    " low <= ? AND high >= ?"
)
NUMBERS = bytes.maketrans(b"(),", b"   ")
END = 1 << 62  # in the place of a point, between rings
ELSEWHERE = "none of its pieces lies where this source lies: is it another area, or another system of coordinates?"
SYSTEM = re.compile(r"EPSG::(\d+)")


def points_of(text):
    """The points of the rings of a polygon's text in whole millimetres, one ring behind the other with `END` between
    them; or None where it is none."""
    if polygons.WRITTEN.match(text):
        found = numpy.array(text[12:].translate(NUMBERS, b".").split(), numpy.int64).reshape(-1, 2)
        sizes = (
            [ring.count(b",", ring.rfind(b"(")) + 1 for ring in text.split(b")") if b" " in ring]
            if text.count(b")") > 3
            else ()
        )
    else:
        members = polygons.read(text)
        if members is None:
            return None
        found = numpy.array(polygons.points(members), numpy.int64).reshape(-1, 2)
        sizes = [len(ring) for member in members for ring in member]
    return numpy.insert(found, numpy.cumsum(sizes, dtype=int)[:-1], END, axis=0) if len(sizes) > 1 else found


def edges_of(points):
    """The edges of rings as `points_of` gives them, in whole millimetres."""
    first, last = points[:-1], points[1:]
    return numpy.hstack([first, last])[(first[:, 0] != END) & (last[:, 0] != END) & (first != last).any(axis=1)]


def edges_in(box, found):
    """The edges of pieces as a store has them, of which an end lies in a box in metres."""
    left, low, right, high = (1000 * side for side in box)
    edges = [edges_of(numpy.frombuffer(blob, numpy.int64).reshape(-1, 2)) for blob in found]
    edges = numpy.concatenate(edges) if edges else numpy.zeros((0, 4), numpy.int64)
    is_in = [
        (edges[:, k] >= left) & (edges[:, k] <= right) & (edges[:, k + 1] >= low) & (edges[:, k + 1] <= high)
        for k in (0, 2)
    ]
    return edges[is_in[0] | is_in[1]]


def rows_of(folder, name, column):
    """The place, the identifier and the text of each row of a table, and its lines."""
    path = byte_tables.path_of(folder, name)
    try:
        for row, (key, text), raw in table_streams.Stream(table_streams.Folder(folder), name, [column, "wkt"]):
            yield f"{path} row {row}: {table_streams.shown(key)}", key, text, raw
    except table_streams.Trouble as trouble:
        raise land.Trouble(f"{path}: {trouble}") from None


def shapes_of(folder):
    """The points of each piece of a release, or of a region."""
    for place, _, text, _ in rows_of(folder, "covers", "piece"):
        points = points_of(text.encode("latin-1"))
        if points is None:
            raise land.Trouble(f"{place}: its wkt is no polygon in millimetres")
        if len(points):
            yield points


def box_of(points):
    """The box of rings, in metres."""
    points = points[points[:, 0] != END]
    return (*(points.min(axis=0) / 1000).tolist(), *(points.max(axis=0) / 1000).tolist())


def write_borders(path, folder):
    """Writes the borders of a release, piece by piece, with their boxes in metres."""
    base = row_store.new(
        path, "CREATE TABLE corner (id INTEGER PRIMARY KEY, left REAL, low REAL, right REAL, high REAL, places BLOB);"
    )
    base.executemany(
        "INSERT INTO corner VALUES (?, ?, ?, ?, ?, ?)",
        ((number, *box_of(points), points.tobytes()) for number, points in enumerate(shapes_of(folder))),
    )
    base.commit()
    base.close()


class LastYear:
    """The tables of a folder."""

    def __init__(self, folder):
        self.folder, self.system, self.counts, self.contents = folder, system_of(folder), None, file_digests.Contents()
        self.folders = [os.path.join(folder, region) for region in two_years.regions_of(folder)]
        for name in ("covers", "parcels"):
            for path in (byte_tables.path_of(each, name) for each in self.folders):
                if not os.path.isfile(path):
                    raise land.Trouble(f"{folder} has no table {os.path.relpath(path, folder)} of last year")

    def digests(self):
        """What its tables are known by."""
        return [
            self.contents.digest(byte_tables.path_of(folder, name))
            for folder in self.folders
            for name in ("covers", "parcels")
        ]

    def why_not(self, work):
        """Why a source cannot have these borders, by what is known before they are read; nothing where it can."""
        if work.epsg and self.system and work.epsg != self.system:
            return f"its tables are in EPSG:{self.system}, and this release is in EPSG:{work.epsg}"
        return ""

    def rows(self, name, column):
        """Identifiers and texts of a table; a row of several regions comes from each of them."""
        shown = progress.Bytes(
            progress.Quiet.tool,
            f"reading last year's {name}",
            sum(table_streams.Folder(folder).size(name) for folder in self.folders),
        )
        for folder in self.folders:
            for _, key, text, raw in rows_of(folder, name, column):
                yield key, text
                shown.took(len(raw))
        shown.end()

    def edges(self):
        """The edges of all pieces."""
        return numpy.concatenate(
            [
                numpy.zeros((0, 4), numpy.int64),
                *(edges_of(points) for folder in self.folders for points in shapes_of(folder)),
            ]
        )

    def planned(self):
        """The parts in which the borders are read, a region each, as parts of a source are."""
        return [self.part_of(folder, byte_tables.path_of(folder, "covers")) for folder in self.folders]

    def part_of(self, folder, path):
        return {
            "borders": os.path.abspath(folder),
            "table": os.path.abspath(path),
            "signs": [self.contents.signs(path)],
            "file": source_parts.part_name([BORDERS, self.contents.digest(path)]),
        }

    def put(self, base, paths):
        """Takes the borders into a store, piece by piece, from the files that the parts gave. Why none of them is
        where this year's land lies; nothing where one is."""
        count, is_near = 0, False
        land_box = base.execute("SELECT min(left), min(low), max(right), max(high) FROM row").fetchone()
        for path in progress.each(
            paths, progress.Quiet.tool, "last year's borders by their places", len(paths), "parts", 1
        ):
            base.execute("ATTACH ? AS part", (path,))
            base.execute("INSERT INTO corner SELECT id + ?, places FROM part.corner", (count,))
            base.execute("INSERT INTO box_of_corner SELECT id + ?, left, right, low, high FROM part.corner", (count,))
            left, low, right, high = land_box
            is_near |= base.execute(
                "SELECT EXISTS (SELECT 1 FROM part.corner WHERE left <= ? AND right >= ? AND low <= ? AND high >= ?)",
                (right, left, high, low),
            ).fetchone()[0]
            count += base.execute("SELECT count(*) FROM part.corner").fetchone()[0]
            base.commit()
            base.execute("DETACH part")
        base.commit()
        return "" if is_near else ELSEWHERE if count else f"the tables of {self.folder} have no row"

    def count(self, base, text_of):
        """How many parcels have the text that they had, and how many there were; `text_of` gives this year's by
        identifier. `base` is a database for it."""
        base.execute("DROP TABLE IF EXISTS last_year")
        base.execute("CREATE TABLE last_year (name TEXT PRIMARY KEY, is_same INTEGER) WITHOUT ROWID")
        base.executemany(
            "INSERT OR IGNORE INTO last_year VALUES (?, ?)",
            ((name, text_of(name) == text) for name, text in self.rows("parcels", "parcel")),
        )
        self.counts = base.execute("SELECT total(is_same), count(*) FROM last_year").fetchone()

    def words(self):
        """How many stayed, for people."""
        return f"parcels as in {self.folder}, to the millimetre: {self.counts[0]:.0f} of its {self.counts[1]}"


def system_of(folder):
    """The system that the report beside the tables names, or None."""
    try:
        with open(os.path.join(folder, "report.geojson"), encoding="utf-8", errors="replace") as file:
            found = SYSTEM.search(file.read(400))
    except (FileNotFoundError, NotADirectoryError):
        return None
    return int(found[1]) if found else None
