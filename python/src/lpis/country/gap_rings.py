"""The rings around land that nobody has, of the ways of all cells, and the narrow faces among it. Only what may be
narrow is put together, one at a time: the sea around a country is never held."""

from __future__ import annotations

from fractions import Fraction

import numpy

from ..geometry import widths
from ..system import progress
from ..rounding.gaps import Between, Names
from ..rounding.overlay import Faces
from ..geometry.noding import Corners, Network

WAYS = """
CREATE TABLE way (id INTEGER PRIMARY KEY, cell INTEGER, at INTEGER, is_closed INTEGER, area TEXT, length REAL, ax INTEGER, ay INTEGER, bx INTEGER, by INTEGER,
  yx INTEGER, yy INTEGER, zx INTEGER, zy INTEGER, ring INTEGER, is_narrow INTEGER);
CREATE VIRTUAL TABLE box_of_way USING rtree(id, left, right, low, high);
CREATE TABLE ring (id INTEGER PRIMARY KEY, area REAL, length REAL);
CREATE VIRTUAL TABLE box_of_ring USING rtree(id, left, right, low, high);
CREATE TABLE asked (width REAL);
"""  # noqa: E501
AWAY = "".join(f"DROP TABLE IF EXISTS {name};" for name in ("way", "box_of_way", "ring", "box_of_ring", "asked"))
INDICES = (
    "CREATE INDEX way_of_cell ON way (cell); CREATE INDEX way_of_ring ON way (ring); CREATE INDEX open_way ON way (ax,"
    " ay) WHERE NOT is_closed;"
)
WITHIN = "FROM box_of_ring JOIN {} WHERE left >= ? AND right <= ? AND low >= ? AND high <= ?"
DOUBT = 1.000_001  # of sums in doubles
ROUNDED = 2.0**-21  # of a coordinate: what an R-tree may add to it, more to one box than to another within


def put(base, cell, at, head):
    """Takes a way from the head of its record, in millimetres."""
    is_closed, doubled, length, *box = head[:7]
    number = base.execute(
        "INSERT INTO way VALUES (NULL, ?, ?, ?, ?, ?, ?, ?, ?, ?, ?, ?, ?, ?, NULL, 0)",
        (cell, at, is_closed, str(doubled), length, *head[7:]),
    ).lastrowid
    left, low, right, high = (value / 1000 for value in box)
    base.execute("INSERT INTO box_of_way VALUES (?, ?, ?, ?, ?)", (number, left, right, low, high))


def close(base):
    """Joins the ways to rings, each known by its least way."""
    base.executescript(INDICES)
    base.execute("UPDATE way SET ring = id WHERE is_closed")
    base.execute("INSERT INTO ring SELECT id, CAST(area AS REAL) / 2000000, length FROM way WHERE is_closed")
    following = {
        way: next_way(base, *ends)
        for way, *ends in base.execute("SELECT id, yx, yy, zx, zy FROM way WHERE NOT is_closed")
    }
    for first in list(following):
        at, doubled, length = first, 0, 0.0
        while at in following:
            area, more = base.execute("SELECT area, length FROM way WHERE id = ?", (at,)).fetchone()
            doubled, length = doubled + int(area), length + more
            base.execute("UPDATE way SET ring = ? WHERE id = ?", (first, at))
            at = following.pop(at)
        if length:
            base.execute("INSERT INTO ring VALUES (?, ?, ?)", (first, doubled / 2_000_000, length))
    base.execute(
        "INSERT INTO box_of_ring SELECT ring, min(left), max(right), min(low), max(high) FROM way JOIN box_of_way USING"
        " (id) GROUP BY ring"
    )


def next_way(base, x, y, at_x, at_y):
    """The way that goes on where another ends: the first clockwise from its way back."""
    found = base.execute(
        "SELECT id, bx, by FROM way WHERE NOT is_closed AND ax = ? AND ay = ?", (at_x, at_y)
    ).fetchall()
    return min(found, key=lambda way: turn((x - at_x, y - at_y), (way[1] - at_x, way[2] - at_y)))[0]


def turn(way, other):
    """How far clockwise from one direction another lies, exactly: greater where it is further."""
    along, aside = way[0] * other[0] + way[1] * other[1], way[0] * other[1] - way[1] * other[0]
    if aside == 0:
        return (1, 0) if along < 0 else (3, 0)
    return (0, Fraction(-along, -aside)) if aside < 0 else (2, Fraction(along, aside))


def narrow(base, files, width):
    """The narrow faces, as gaps. Their ways are marked."""
    (count,) = base.execute("SELECT count(*) FROM ring WHERE area > 0").fetchone()
    found = base.execute(
        "SELECT id, area, length, left, right, low, high FROM ring JOIN box_of_ring USING (id) WHERE area > 0 ORDER"
        " BY id"
    )
    for ring, area, length, left, right, low, high in progress.each(
        found, progress.Quiet.tool, "narrow land between parcels", count, "rings"
    ):
        box = [value + sign * abs(value) * ROUNDED for value, sign in ((left, -1), (right, 1), (low, -1), (high, 1))]
        islands, shores = base.execute(
            f"SELECT total(area), total(length) {WITHIN.format('ring USING (id)')} AND area < 0", box
        ).fetchone()
        if area + islands <= (width + widths.ROUNDING) * (length + shores) / 2 * DOUBT:
            face = Group(base, files, box).face(ring, width)
            if face:
                gap, rings = face
                base.executemany("UPDATE way SET is_narrow = 1 WHERE ring = ?", ((one,) for one in rings))
                yield gap


class Group:
    """The rings whose boxes lie within a box, as a map of its own."""

    def __init__(self, base, files, box):
        found = base.execute(
            f"SELECT ring, cell, at {WITHIN.format('way ON way.ring = box_of_ring.id')} ORDER BY cell, at", box
        ).fetchall()
        ways = [files.read(cell, at) for _, cell, at in found]
        a, b = (numpy.concatenate([getattr(way, end) for way in ways]) for end in ("a", "b"))
        self.names = Names([name for way in ways for name in way.names(way.whose)])
        self.rings = numpy.repeat([ring for ring, *_ in found], [len(way.a) for way in ways])
        corners = Corners(numpy.concatenate([a, b]))
        first, last = corners.numbers(a), corners.numbers(b)
        network = Network(
            corners, first, last, (numpy.arange(len(first)), numpy.zeros(len(first), int), numpy.full(len(first), -1))
        )
        key = (numpy.minimum(first, last) << 32) | numpy.maximum(first, last)
        self.halves = 2 * numpy.searchsorted((network.first << 32) | network.last, key) + (first > last)
        self.faces = Faces(network)
        self.faces.windings()
        self.is_nobody = numpy.zeros(len(self.faces.firsts), bool)
        self.is_nobody[self.faces.cycle[self.halves]] = True

    def face(self, ring, width):
        """The face to the left of a ring as a gap, and all its rings; None where it is wider."""
        beside = numpy.zeros(2 * len(self.faces.network.first), int)
        beside[self.halves] = self.names.numbers
        between = Between(
            self.faces,
            self.is_nobody,
            lambda halves: [self.names.all[number] for number in beside[halves].tolist()],
            width,
        )
        face = between.face[self.faces.cycle[self.halves]]
        mine = int(face[self.rings == ring][0])
        gap = between.narrow().get(mine)
        return gap and (gap, numpy.unique(self.rings[face == mine]).tolist())
