"""How wide land is, in metres: the diameter of the largest circle that fits into it. What is joined by thinner parts is
several places.

The cores of a shape are the parts of what is at least a radius from its border: each place that is as wide as twice
that has one. GEOS's buffer passes over shallow corners, up to a hundredth of its radius: it says what is clear. Where a
core may be there or not, or may be one or two, the land within the radius of each edge is taken away."""

from __future__ import annotations

import math

import numpy
from shapely.geometry import Polygon
from shapely.ops import unary_union

from ..formats import wkb
from .boxes import Boxes
from .noding import Rings

ROUNDING = 0.000_001  # metres: of doubles
FINE = 0.000_005  # metres: so near to its greatest a radius is looked for
DOUBT = 0.02  # of a radius: GEOS's buffer is right beyond
CRUMB = 0.000_5  # metres: what lies so near to a place belongs to it
SHARP = 100  # radii: so far a place reaches into its corners
CHORD = 0.04  # radians of a circle between two corners
MISSED = 0.000_2  # of a radius: what such chords miss of it
STEPS = 1.04, 1.15, 1.5  # times a radius that fits: what is tried first
TURN = 1e-9  # radians: a corner that turns less is none
LARGE = 1 << 14  # bytes: of so large a shape no radius is looked for further than to a share of it
MOST_MIDDLES = 10  # of cores that are left last, the largest


def parts_of(shape):
    """The polygons of whatever an operation gave."""
    if shape is None or shape.is_empty:
        return []
    if shape.geom_type == "Polygon":
        return [shape]
    return [part for inner in getattr(shape, "geoms", []) for part in parts_of(inner)]


def is_as_wide(shape, width: float) -> bool:
    """Whether a circle of a width fits."""
    shape = polygons_of(shape)
    area = shape.area
    if area < (1 - DOUBT) * width * width * math.pi / 4:
        return False
    return 2 * area >= width * shape.length or next(cores(shape, width / 2), None) is not None


def width_of(shape) -> float:
    return widest(shape)[0]


def widest(shape):
    """The width of a shape, and the middle of a circle that has it; None where nothing has an area. Lines count
    nothing."""
    shape = polygons_of(shape)
    area = shape.area
    if area <= 0:
        return 0.0, None
    low, high, core, base, depth, size = area / shape.length, (area / math.pi) ** 0.5, shape, shape, 0.0, len(shape.wkb)
    tried = [low * step for step in STEPS]
    share = 0 if size < LARGE else DOUBT / 5
    while high - low > max(FINE, low * share):
        radius = next((one for one in tried if low < one < high), (low + high) / 2)
        inner = base.buffer(depth - radius)
        if inner.is_empty:
            high, tried = radius, []
            continue
        core, low = inner, radius
        if len(core.wkb) <= size:  # else it has a corner for each chord of an arc
            base, depth = core, radius
    border = shape.boundary
    largest = sorted(parts_of(core), key=lambda part: -part.area)[:MOST_MIDDLES]
    middles = [part.representative_point() for part in largest]
    width, place = max((2 * border.distance(middle), (middle.x, middle.y)) for middle in middles)
    return max(width, 2 * area / shape.length), place


def widest_of(shapes):
    """The same of some shapes, the widest of them. One without the area of so wide a circle is not looked at."""
    found = 0.0, None
    for area, shape in sorted(((shape.area, shape) for shape in shapes), key=lambda one: -one[0]):
        if 2 * (area / math.pi) ** 0.5 >= found[0]:
            found = max(found, widest(shape), key=lambda one: one[0])
    return found


def places_of(shape, width: float):
    """The places of a shape that are as wide as a width, and what is left of it, which is thinner."""
    grown = [core.buffer(depth + CRUMB, join_style=2, mitre_limit=SHARP) for core, depth in cores(shape, width / 2)]
    if not grown:
        return [], shape
    grown = list(apart(grown))
    return [polygons_of(shape.intersection(one)) for one in grown], polygons_of(shape.difference(unary_union(grown)))


def polygons_of(shape):
    return shape if shape.geom_type in ("Polygon", "MultiPolygon") else unary_union(parts_of(shape))


def apart(shapes):
    """Shapes, each without what those before it have of its land."""
    boxes = Boxes([shape.bounds for shape in shapes])
    for number, shape in enumerate(shapes):
        before = [shapes[other] for other in boxes.meeting(shape.bounds) if other < number]
        yield shape.difference(unary_union(before)) if before else shape


def cores(shape, radius: float):
    """The parts of what is at least a radius from the border of a shape, each with how far from it that is at least."""
    border = edges = None
    for part in parts_of(shape.buffer(-(1 - DOUBT) * radius)):
        border = border or shape.boundary
        inner = parts_of(part.buffer(-2 * DOUBT * radius))
        if len(inner) == 1 and is_clear(border, inner[0], radius):
            yield part, (1 - DOUBT) * radius
        else:
            edges = edges or Border(shape)
            left = parts_of(part.difference(edges.land(part.bounds, radius)))
            yield from ((core, radius) for core in left if is_clear(border, core, radius))


def is_clear(border, core, radius):
    """Whether a point of a core is a radius from the border."""
    return border.distance(core.representative_point()) >= (1 - MISSED) * radius


class Border:
    """The edges around a shape, which lies to their left."""

    def __init__(self, shape):
        rings = Rings([wkb.Found.of_blob(wkb.several(part.wkb)) for part in parts_of(shape)])
        edges, (_, ring) = rings.edges()[0], rings.ways()
        is_long = numpy.any(edges[:, :2] != edges[:, 2:], axis=1)
        self.edges, ring = edges[is_long], ring[is_long]
        self.way = self.edges[:, 2:] - self.edges[:, :2]
        self.normal = numpy.stack([-self.way[:, 1], self.way[:, 0]], axis=1) / numpy.hypot(*self.way.T)[:, None]
        self.following = self.next_ones(ring)
        a, b = self.edges[:, :2], self.edges[:, 2:]
        self.boxes = Boxes(numpy.hstack([numpy.minimum(a, b), numpy.maximum(a, b)]))

    def next_ones(self, ring):
        """The edge that follows each: the next of its ring, or the one before, where the ring was turned."""
        number = numpy.arange(len(ring))
        first, last = numpy.searchsorted(ring, ring, "left"), numpy.searchsorted(ring, ring, "right") - 1
        after, before = numpy.where(number == last, first, number + 1), numpy.where(number == first, last, number - 1)
        goes_on = numpy.all(self.edges[first, 2:] == self.edges[after[first], :2], axis=1)
        return numpy.where(goes_on, after, before)

    def land(self, bounds, radius):
        """The land within a radius of the border, as far as it may lie in a box."""
        left, low, right, high = bounds
        near = self.boxes.meeting((left - radius, low - radius, right + radius, high + radius))
        a, b, normal, after = self.edges[near, :2], self.edges[near, 2:], self.normal[near], self.following[near]
        way = self.way[near]
        turn = numpy.arctan2(numpy.cross(way, self.way[after]), (way * self.way[after]).sum(axis=1))
        bands = numpy.stack([a, b, b + radius * normal, a + radius * normal], axis=1).tolist()
        corners = zip(b, normal, self.normal[after], turn.tolist())
        wedges = [wedge(*corner, radius) for corner in corners if corner[-1] < -TURN]
        return unary_union([Polygon(ring) for ring in (*bands, *wedges)])


def wedge(corner, normal, other, turn, radius):
    """What is within a radius of a corner, from one edge's normal to the next one's."""
    start, count = math.atan2(normal[1], normal[0]), math.ceil(-turn / CHORD)
    angles = [start + turn * step / count for step in range(1, count)]
    over = [(corner[0] + radius * math.cos(angle), corner[1] + radius * math.sin(angle)) for angle in angles]
    return [tuple(corner), tuple(corner + radius * normal), *over, tuple(corner + radius * other)]
