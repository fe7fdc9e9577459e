#!/usr/bin/env python3
"""Tests that tables say of each point what their source says:   audit/source.py LAND OUT [--name WHAT=FOUND]..

LAND is a source, and OUT the release or the country that tools/prepare or tools/country made of it. A point farther
than 0.708 mm from every border of the source (1.5 mm with --previous; half a millimetre more beside an arc) has in the
tables the parcel, the piece, the class and its percentage that it has in the source, by the names of identifiers.csv,
unless it lies in the polygon of a row of findings.gpkg. And no row of the one is silently not in the other. Prints
`yes`: status 0. Else the first point where that is not so, what both say there, and how far it is from the nearest
border of the source: status 1. Status 64: it cannot be told. It shares no code with the tools.

Most rows of the tables go along the borders of one row of the source, and are taken as alike. Of all else Shapely finds
the regions that may differ, to a hundredth of a millimetre; fractions decide of each point that is told. That the
tables are sound, and that each is a table, is for `lpis check`. What reads sources and tables is readers.py.
"""

import argparse
import itertools
import logging
import math
import os
import sys
import tempfile
import warnings
from array import array
from collections import defaultdict
from fractions import Fraction
from pathlib import Path
from typing import Any, Iterable, Iterator, NamedTuple, Optional

from readers import COLUMNS, Names, Source, Trouble, beside, fields_of, folders_of, members_of_text, opened
from readers import percentages, plain, read_table, sheet
from shapes import Point, Shape, box_of, exact, points_of, rings_of

try:
    import numpy
    from shapely.geometry import LineString, MultiPolygon, Polygon
    from shapely.ops import linemerge, polygonize, unary_union
except ImportError:
    if sys.executable == "/usr/bin/python3" or not os.path.exists("/usr/bin/python3"):
        sys.exit("source.py: Shapely is not there (apt install python3-shapely)")
    os.execv("/usr/bin/python3", ["/usr/bin/python3", *sys.argv])

ROUNDED, KEPT, STRAIGHTENED = Fraction(708, 1000), Fraction(3, 2), Fraction(51, 100)  # millimetres; the last with ours
HAIR = 0.001  # millimetres about the polygon of a finding
SLACK = 0.00002  # millimetres that doubles may be off
SAYING_NOTHING = ("between", "kept", "spike", "slit", "column")  # findings that change no land
CONFLICTS = ("overlap", "gap", "outside")  # those of places alone: no row is gone for them

Key = tuple  # what a row says of its points: (parcel), or (piece, parcel, class, percentage)
Way = list[Point]  # a ring, in millimetres
Origin = tuple[int, int]  # in metres, near what is worked out in doubles


class Row(NamedTuple):
    """A row of the source, of the tables or of findings, in units of so many millimetres. It has the points in an odd
    number of its rings: none where its shape cannot be read.
    """

    layer: str
    number: Optional[int]
    key: Key
    shape: Shape
    unit: int = 1000

    def box(self) -> list[float]:
        """Least x and y, greatest x and y, in metres."""
        return [value * self.unit / 1000 for value in box_of(self.shape)]

    def origin(self) -> Origin:
        return tuple(map(math.floor, self.box()[:2]))

    def edges(self, origin: Optional[Origin] = None) -> Iterator[tuple[Point, Point, int]]:
        """Its edges in millimetres, in fractions or from an origin in doubles; and whether each is of an arc."""
        for ring in rings_of(self.shape):
            way = points_of(ring, self.unit, origin) if origin else exact(ring, self.unit)
            yield from zip(way, way[1:], ring[1] or bytes(len(way)))

    def has(self, point: Point) -> bool:
        (x, y), count = point, 0
        for (ax, ay), (bx, by), _ in self.edges():
            if (ay > y) != (by > y):
                count += ((bx - ax) * (y - ay) > (x - ax) * (by - ay)) == (by > ay)
        return count % 2 == 1

    def is_beside(self, point: Point, reach: Fraction) -> bool:
        """Whether a point is no farther from one of its edges, or half a millimetre more where that is of an arc."""
        return any(square_to(point, a, b) <= (reach + STRAIGHTENED * is_arc) ** 2 for a, b, is_arc in self.edges())

    def surface(self, origin: Origin) -> Any:
        return surface([[points_of(ring, self.unit, origin) for ring in member] for member in self.shape])


def square_to(point: Point, a: Point, b: Point) -> Any:
    """The square of the distance of a point from an edge."""
    dx, dy, ex, ey = b[0] - a[0], b[1] - a[1], point[0] - a[0], point[1] - a[1]
    length2 = dx * dx + dy * dy
    share = min(1, max(0, (dx * ex + dy * ey) / length2)) if length2 else 0
    return (ex - share * dx) ** 2 + (ey - share * dy) ** 2


class Rows(list):
    """Rows that are found by their boxes."""

    def __init__(self, rows: Iterable[Row]) -> None:
        super().__init__(rows)
        self.boxes = numpy.fromiter((value for row in self for value in row.box()), dtype=float).reshape(-1, 4)

    def near(self, box: Iterable, origin: Origin = (0, 0), margin: float = 0.003) -> list[Row]:
        """Those within a margin in metres of a box in millimetres from an origin."""
        left, low, right, high = (float(value) / 1000 + start for value, start in zip(box, origin * 2))
        is_beside = (self.boxes[:, 0] > right + margin) | (self.boxes[:, 2] < left - margin)
        is_beside |= (self.boxes[:, 1] > high + margin) | (self.boxes[:, 3] < low - margin)
        return [self[at] for at in numpy.flatnonzero(~is_beside)]


# What the source says, what the tables say, and what findings excuse.


def key_of(names: Iterable[str], percents: dict[str, Optional[str]]) -> Key:
    names = tuple(names)
    return (*names, percents.get(names[2])) if len(names) > 1 else names


def rows_of_source(land: Source, names: Names, percents: dict[str, Optional[str]]) -> Iterator[Row]:
    for layer in ("parcels", "covers"):
        for number, (*fields, data) in land.rows(layer, COLUMNS[layer]):
            key = key_of(map(names.of, COLUMNS[layer], fields), percents)
            yield Row(layer, number, key, land.shape(layer, data))


def rows_of_tables(out: Path) -> Iterator[tuple[str, Key, list[list[Way]]]]:
    """Layer, key and members (in whole millimetres) of each row of the tables, those of all regions of a country."""
    for folder in folders_of(out):
        percents = percentages(read_table(folder, "classes"), plain)
        for layer in ("parcels", "covers"):
            for *names, text in read_table(folder, layer, "wkt"):
                yield layer, key_of(names, percents), members_of_text(text)


def rows_of_findings(out: Path) -> Iterator[Row]:
    """Those that settle, mend, leave out, lose, make, add or change land: kind, layer, rows and identifiers."""
    package = Source(out / "findings.gpkg", {}) if (out / "findings.gpkg").exists() else None
    for table in package.systems if package else ():
        for number, (*key, stops, data) in package.rows(table, ["kind", "layer", "row", "identifiers", "stops"]):
            if key[0] not in SAYING_NOTHING and (stops or key[0] != "changed"):  # the greatest change is rounding
                yield Row(table, number, tuple(map(plain, key)), package.shape(table, data))


# Shapes that are surely alike.


def are_near(one: Point, other: Point, most2: float) -> bool:
    return (one[0] - other[0]) ** 2 + (one[1] - other[1]) ** 2 <= most2


def follows(ring: Way, way: Way, most2: float) -> bool:
    """Whether a way goes along a ring and ends where it begins, at the ring's first corner: each of its edges near the
    edge of the ring that it is on, and near each corner that it passes. Then each of its points is that near to one of
    the ring, in the same order. So a point that is farther from the ring is as often inside of the one as of the other.
    """
    at, last, start = 0, len(ring) - 2, way[0]
    for point in way[1:]:
        while not are_near(point, ring[at + 1], most2) and square_to(point, ring[at], ring[at + 1]) > most2:
            at += 1
            if at > last or square_to(ring[at], start, point) > most2:
                return False
        while at < last and are_near(point, ring[at + 1], most2):
            at += 1
        if point is not way[-1]:
            start = point
    return all(square_to(corner, start, way[-1]) <= most2 for corner in (ring[0], *ring[at + 1 : -1]))


def are_alike(shape: Shape, members: list[list[Way]], distance: Fraction) -> bool:
    """Whether each ring of a shape without arcs is followed by one of the table's, and by no other."""
    rings, ways = rings_of(shape), [way for member in members for way in member]
    if len(rings) != len(ways) or any(arcs for _, arcs in rings):
        return False
    most = float(distance) - SLACK
    for ring in map(points_of, rings):
        beside = (range(math.ceil(value - most), math.floor(value + most) + 1) for value in ring[0])
        starts = [(way, way.index(place)) for place in itertools.product(*beside) for way in ways if place in way]
        for way, at in starts:
            turned = way[at:] + way[1 : at + 1]
            if follows(ring, turned, most**2) or follows(ring, turned[::-1], most**2):
                ways.remove(way)
                break
        else:
            return False
    return True


# Overlays, in millimetres from an origin near by.


def surface(members: list[list[Way]]) -> Any:
    """The points in an odd number of rings."""
    members = [[way for way in member if len(set(way)) > 2] for member in members]
    found = MultiPolygon([Polygon(member[0], member[1:]) for member in members if member])
    if found.is_valid:
        return found
    ways = [way for member in members for way in member]
    edges = numpy.array([(*a, *b, 1) for way in ways for a, b in zip(way, way[1:])], dtype=float)
    faces = polygonize(unary_union([LineString(way) for way in ways]))
    return unary_union([face for face in faces if crossings(face, edges) % 2])


def united(surfaces: list) -> Any:
    """The points of any of them; with a hair about each where GEOS finds no union of just these."""
    try:
        return unary_union(surfaces)
    except ValueError:
        return unary_union([one.buffer(HAIR, 2) for one in surfaces])


def crossings(face: Any, edges: Any) -> int:
    """How often a view eastwards from a face crosses edges (a, b, count) that go north, more than those that go south:
    so many shapes have it that have their land on the left.
    """
    point, (ax, ay, bx, by, counts) = face.representative_point(), edges.T
    with numpy.errstate(divide="ignore", invalid="ignore"):
        is_met = ((ay > point.y) != (by > point.y)) & (ax + (point.y - ay) / (by - ay) * (bx - ax) > point.x)
    return int(numpy.where(by > ay, counts, -counts)[is_met].sum())


def parts_of(geometry: Any) -> list:
    """Its polygons, the largest first."""
    parts = [part for part in getattr(geometry, "geoms", [geometry]) if part.area > 0]
    return sorted(parts, key=lambda part: -part.area)


class Edges:
    """The edges of shapes of the tables that do not cancel against their reverses, with how many times: they count at
    each point how many of the shapes have it, and are few.
    """

    def __init__(self) -> None:
        self.left: dict[tuple[Point, Point], int] = {}

    def add(self, members: list[list[Way]]) -> None:
        """Shells have their land on the left, holes on the right."""
        for number, way in ((number, way) for member in members for number, way in enumerate(member)):
            x, y = way[0]
            doubled = sum((a - x) * (d - y) - (b - y) * (c - x) for (a, b), (c, d) in zip(way, way[1:]))
            way = way if (doubled > 0) == (number == 0) else way[::-1]
            for edge in zip(way, way[1:]):
                count = self.left.pop(edge[::-1], 0)
                if count > 1:
                    self.left[edge[::-1]] = count - 1
                elif count == 0:
                    self.left[edge] = self.left.get(edge, 0) + 1

    def doubled_faces(self) -> Iterator[tuple[Any, Origin]]:
        """The faces between them that two shapes or more have, and their origin."""
        edges = numpy.array([(*a, *b, count) for (a, b), count in self.left.items()], dtype=float).reshape(-1, 5)
        origin = edges[:, :2].min(axis=0, initial=math.inf) // 1000 if len(edges) else numpy.zeros(2)
        edges[:, :4] -= numpy.tile(origin * 1000, 2)
        edges = edges[numpy.argsort(numpy.minimum(edges[:, 1], edges[:, 3]), kind="stable")]
        low, high = numpy.sort(edges[:, [1, 3]], axis=1).T
        for face in polygonize(unary_union([LineString([edge[:2], edge[2:4]]) for edge in edges])):
            y = face.representative_point().y
            first, last = numpy.searchsorted(low, [y - (high - low).max(), y], side="right")
            if crossings(face, edges[first:last]) > 1:
                yield face, (int(origin[0]), int(origin[1]))


class Judge:
    """The source beside the tables."""

    def __init__(self, rows: Iterable[Row], tables: Iterable, findings: Iterable[Row], distance: Fraction) -> None:
        self.rows, self.findings, self.distance = Rows(rows), Rows(findings), distance
        self.by_key, self.others = defaultdict(list), defaultdict(list)  # rows of the source, and of the tables, by key
        self.keys, self.edges = {}, {"parcels": Edges(), "covers": Edges()}  # of the tables, with their layers
        for row in self.rows:
            self.by_key[row.key].append(row)
        for layer, key, members in tables:
            found = self.by_key.get(key, [])
            key = found[0].key if found else key  # one copy of it is kept
            if key not in self.keys:
                self.keys[key] = layer
                self.edges[layer].add(members)
            if len(found) != 1 or not are_alike(found[0].shape, members, distance):
                shape = [[(array("d", itertools.chain(*way)), None) for way in member] for member in members]
                self.others[key].append(Row(layer, None, key, shape, 1))
        self.moved = Rows(itertools.chain(*self.others.values()))

    def said(self, point: Point) -> tuple[set[Key], set[Key]]:
        """What the source says of a point, and what the tables say, in each copy that regions have of a row."""
        box = (*point, *point)
        source = {row.key for row in self.rows.near(box) if row.has(point)}
        tables = {key for key in source if key in self.keys and all(row.has(point) for row in self.others.get(key, ()))}
        return source, tables | {row.key for row in self.moved.near(box) if row.key not in source and row.has(point)}

    def is_excused(self, point: Point) -> bool:
        """Whether a point is as near to a border of the source as rounding moves one, or in a finding's polygon."""
        box = (*point, *point)
        return any(row.is_beside(point, self.distance) for row in self.rows.near(box)) or any(
            row.has(point) or row.is_beside(point, HAIR) for row in self.findings.near(box)
        )

    def is_broken(self, point: Point) -> bool:
        """Whether a point breaks the promise: both say something else, or the source says two things of one layer."""
        source, tables = self.said(point)
        return (source != tables or len(source) > len(set(map(len, source)))) and not self.is_excused(point)

    def regions(self) -> Iterator[tuple[Any, Origin, list[Row]]]:
        """Where the promise may be broken: the region, its origin, and the rows of the source that it is about."""
        for row in self.moved:
            rows, origin = self.by_key.get(row.key, []), row.origin()
            before = united([other.surface(origin) for other in rows])
            yield before.symmetric_difference(row.surface(origin)), origin, rows
        for row in self.rows:
            if row.key not in self.keys and row.shape:
                yield row.surface(row.origin()), row.origin(), [row]
        for edges in self.edges.values():
            yield from ((face, origin, []) for face, origin in edges.doubled_faces())

    def first_break(self) -> Optional[Point]:
        """The first point that breaks the promise."""
        for region, origin, rows in self.regions():
            for part in self.unexplained(region, origin, rows):
                found = part.representative_point()
                for digits in (3, 9):
                    point = tuple(
                        Fraction(round(value * 10**digits), 10**digits) + start * 1000
                        for value, start in zip((found.x, found.y), origin)
                    )
                    if self.is_broken(point):
                        return point
        return None

    def unexplained(self, region: Any, origin: Origin, rows: list[Row]) -> list:
        """What is left of a region without what is near a border, and without the polygons of findings, nearly."""
        cuts = [
            lambda box: self.borders(rows, box, origin),
            lambda box: united([row.surface(origin) for row in self.findings.near(box, origin)]).buffer(HAIR, 2),
            lambda box: self.borders(self.rows.near(box, origin), box, origin),
        ]
        left = [MultiPolygon(parts_of(region))] if parts_of(region) else []
        for cut in cuts:
            left = [rest for part in left for rest in parts_of(part.difference(cut(part.bounds)))]
        return left

    def borders(self, rows: list[Row], box: Iterable, origin: Origin) -> Any:
        """What is near the borders of rows, in and about a box."""
        left, low, right, high = box
        lines: dict[int, set] = {False: set(), True: set()}
        for a, b, is_arc in (edge for row in rows for edge in row.edges(origin)):
            (west, east), (south, north) = sorted((a[0], b[0])), sorted((a[1], b[1]))
            if a != b and west <= right + 3 and east >= left - 3 and south <= high + 3 and north >= low - 3:
                lines[is_arc].add((min(a, b), max(a, b)))
        reach = float(self.distance) + 0.001
        found = [linemerge([*some]).buffer(reach + STRAIGHTENED * arc, 16) for arc, some in lines.items() if some]
        return unary_union(found)

    def told(self, point: Point) -> str:
        """What source and tables say of a point, and how far it is from the nearest border of the source."""
        source, tables = map(words_of, self.said(point))
        place, margin, nearest = tuple(map(float, point)), 0.001, math.inf
        while nearest > margin and margin < 1e9:
            margin *= 10
            rows = self.rows.near((*point, *point), margin=margin)
            squares = (square_to(place, a, b) for row in rows for a, b, _ in row.edges((0, 0)))
            nearest = min(squares, default=math.inf) ** 0.5 / 1000
        return (
            f"no at {place[0] / 1000:.6f} {place[1] / 1000:.6f}: the source has {source}, the tables have {tables}; "
            f"{nearest:.6f} m from the nearest border of the source"
        )

    def first_row(self, layers: dict[str, str]) -> Optional[str]:
        """The first row of the one that is silently not in the other, in words."""
        gone = [row.key for row in self.findings if row.key[0] not in CONFLICTS]
        rows = {(layer, number) for _, layer, numbers, _ in gone for number in numbers.split()}
        names, in_tables = {name for key in gone for name in key[3].split()}, {(self.keys[k], k[0]) for k in self.keys}
        for row in self.rows:
            told = {(layer, str(row.number)) for layer in (row.layer, layers.get(row.layer))} & rows
            if (row.layer, row.key[0]) not in in_tables and not told and row.key[0] not in names:
                return f"no: {row.layer} row {row.number} of the source, {words_of({row.key})}, is in no table"
        for layer, name in sorted(in_tables - {(row.layer, row.key[0]) for row in self.rows}):
            if name not in names:
                return f"no: {name!r} of the tables' {layer} is no row of the source"
        return None


def words_of(keys: Iterable[Key]) -> str:
    words = []
    for name, *more in sorted(keys, key=lambda key: (len(key), str(key))):
        percent = f" at {more[2]} percent" if more and more[2] else ""
        words.append(f"piece {name} of {more[0]}, class {more[1]}{percent}" if more else f"parcel {name}")
    return " and ".join(words) or "nothing"


def answer(arguments: argparse.Namespace) -> str:
    """The line that is printed."""
    said, out = beside(Path(arguments.land)), Path(arguments.out)
    renamed = {key.partition(".")[2]: value for key, value in said.items() if key.startswith(("layers.", "columns."))}
    renamed.update(word.split("=", 1) for word in arguments.name)
    table, epsg = arguments.classes or said.get("classes"), arguments.epsg or int(said.get("epsg", 0)) or None
    names, written = Names(out), percentages(read_table(out, "classes"), plain)
    with tempfile.TemporaryDirectory() as spare:
        land = opened(arguments.land, renamed, epsg, spare)
        classes = (fields[:3] for _, fields in land.rows("classes", COLUMNS["classes"]))
        if table:
            classes = fields_of(sheet(Path(table)), land.called("classes"))
        percents = percentages(classes, lambda name: names.of("class", name))
        rows = list(rows_of_source(land, names, percents or written))
    if not rows:
        called = " and ".join(renamed.get(layer, layer) for layer in ("parcels", "covers"))
        raise Trouble(f"{arguments.land} has no rows in layers {called}: --name, or lpis.toml, says others")
    judge = Judge(rows, rows_of_tables(out), rows_of_findings(out), KEPT if arguments.previous else ROUNDED)
    point = judge.first_break()
    if point:
        return judge.told(point)
    differing = sorted(str(name) for name, value in percents.items() if written.get(name, value) != value)
    if differing:
        return f"no: the class {differing[0]} has another percentage in the source than in the tables"
    return judge.first_row(renamed) or "yes"


def main() -> None:
    parser = argparse.ArgumentParser(usage=__doc__)
    parser.exit = lambda status=0, text="": (print(end=text, file=sys.stderr), sys.exit(64 if status else 0))
    for word in ("land", "out", "--classes"):
        parser.add_argument(word)
    parser.add_argument("--name", action="append", default=[])
    parser.add_argument("--epsg", type=int)
    parser.add_argument("--previous", action="store_true")
    logging.getLogger("shapely").setLevel(logging.CRITICAL)
    warnings.simplefilter("ignore")
    try:
        line = answer(parser.parse_args())
    except Exception as fault:  # whatever it is, it is no answer
        print(f"source.py: {'' if isinstance(fault, Trouble) else type(fault).__name__} {fault}", file=sys.stderr)
        sys.exit(64)
    print(" ".join(line.split()))
    sys.exit(line != "yes")


if __name__ == "__main__":
    main()
