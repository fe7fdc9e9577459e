"""Shapes of generated lands: what they are, how they are written, and their area. Nothing of tools/ is used.

A shape has members, each of rings, each of (x, y) in metres. What it is written as: `polygon`, `multi`, `arcs` (each
ring of arcs through its points), `mixed` (each ring half a line and half arcs), or what has no area at all: `null`,
`empty`, `hollow` (a polygon without a point), `line`, `point`, `collection`."""

import math
import struct
from decimal import Decimal
from fractions import Fraction

from lpis_helpers.tables import orient

AREALESS = ("null", "empty", "hollow", "line", "point", "collection")
CURVED = ("arcs", "mixed")
STRAIGHTENED = 0.0005  # metres that an arc may be straightened by


class Shape:
    """A shape of a land."""

    __slots__ = ("form", "has_m", "has_z", "is_big_endian", "members")

    def __init__(self, members=(), form=None, has_z=False, has_m=False):
        self.members = [[[(float(x), float(y)) for x, y in ring] for ring in member] for member in members]
        self.form = form or ("polygon" if len(self.members) == 1 else "multi")
        self.has_z, self.has_m, self.is_big_endian = has_z, has_m, False

    def rings(self):
        """The rings, and whether each is a hole."""
        return [(ring, number > 0) for member in self.members for number, ring in enumerate(member)]

    def is_read(self):
        """Whether the tables' grammar has such a shape: closed rings of four points or more."""
        if self.form in AREALESS or not self.members or not all(self.members):
            return False
        return all(is_ring(ring, self.form) for ring, _ in self.rings())

    def area(self):
        """Square metres, each shell without its holes, and how far straightened arcs may be off. Exact but for arcs."""
        if not self.is_read():
            return 0.0, 0.0
        curved, straight, slack = 0.0, Fraction(), 0.0
        for ring, is_hole in self.rings():
            sign, twice = -1 if is_hole else 1, ring_area2(
                ring[0::2] + ring[-1:] * (len(ring) % 2 == 0) if self.form == "arcs" else ring
            )
            if self.form in CURVED:
                arcs = ring if self.form == "arcs" else ring[half_of(ring) :]
                curved += sign * abs(
                    float(twice / 2)
                    + sum(bulge(*arcs[k : k + 3]) for k in range(0, len(arcs) - 2, 2))
                    - chords(arcs, self.form)
                )
                slack += STRAIGHTENED * length_of(ring) * 1.6
            else:
                straight += sign * abs(twice) / 2
        return curved + float(straight), slack

    def length(self):
        return math.fsum(length_of(ring) for ring, _ in self.rings()) * (1.6 if self.form in CURVED else 1.0)

    def points(self):
        return [point for ring, _ in self.rings() for point in ring]


def is_ring(ring, form):
    if len(ring) < (3 if form in CURVED else 4) or ring[0] != ring[-1]:
        return False
    return (form != "arcs" or len(ring) % 2 == 1) and all(
        map(math.isfinite, (value for point in ring for value in point))
    )


def half_of(ring):
    """Where the arcs of a mixed ring begin: an odd number of points, three or more, is left."""
    start = len(ring) // 2
    return start - (len(ring) - start + 1) % 2 if len(ring) - start > 2 else max(0, len(ring) - 3)


def chords(arcs, form):
    """What a mixed ring's middle points of arcs add to the ring of its chords."""
    if form == "arcs":
        return 0.0
    return sum(orient(*arcs[k : k + 3]) / 2 for k in range(0, len(arcs) - 2, 2))


def bulge(a, b, c):
    """What an arc from a over b to c adds to its chord, in square metres; positive on the right of its way."""
    if a == c:
        return math.pi * (math.dist(a, b) / 2) ** 2
    doubled = orient(a, b, c)
    if doubled == 0:
        return 0.0
    ab, bc, ca = math.dist(a, b), math.dist(b, c), math.dist(c, a)
    radius = ab * bc * ca / (2 * abs(doubled))
    angle = 2 * math.asin(min(1.0, ab / (2 * radius))) + 2 * math.asin(min(1.0, bc / (2 * radius)))
    return math.copysign(radius * radius * (angle - math.sin(angle)) / 2, doubled)


def length_of(ring):
    return math.fsum(math.dist(a, b) for a, b in zip(ring, ring[1:]))


def ring_area2(ring):
    """The doubled area of a ring, exactly."""
    points = [(Fraction(x), Fraction(y)) for x, y in ring]
    return sum(a[0] * b[1] - b[0] * a[1] for a, b in zip(points, points[1:]))


# Well-known binary, as a GeoPackage has it.


def points_wkb(order, points, shape):
    more = [312.5] * shape.has_z + [7.0] * shape.has_m
    return struct.pack(f"{order}I", len(points)) + b"".join(
        struct.pack(f"{order}{2 + len(more)}d", x, y, *more) for x, y in points
    )


def wkb(shape):
    """The bytes of a shape; None where it has none."""
    if shape.form == "null":
        return None
    order, more = ">" if shape.is_big_endian else "<", 1000 * shape.has_z + 2000 * shape.has_m

    def head(kind, count=None):
        start = struct.pack(f"{order}BI", order == "<", kind + more)
        return start if count is None else start + struct.pack(f"{order}I", count)

    def ring_of(ring):
        if shape.form == "arcs":
            return head(8) + points_wkb(order, ring, shape)
        if shape.form == "mixed":
            at = half_of(ring)
            return (
                head(9, 2)
                + head(2)
                + points_wkb(order, ring[: at + 1], shape)
                + head(8)
                + points_wkb(order, ring[at:], shape)
            )
        return points_wkb(order, ring, shape)

    curved = shape.form in CURVED
    members = [head(10 if curved else 3, len(member)) + b"".join(map(ring_of, member)) for member in shape.members]
    points = shape.points()
    if shape.form == "empty":
        return head(6, 0)
    if shape.form == "hollow":
        return head(3, 1) + struct.pack(f"{order}I", 0)
    if shape.form == "line":
        return head(2) + points_wkb(order, points, shape)
    if shape.form == "point":
        return head(1) + points_wkb(order, points[:1], shape)[4:]
    if shape.form == "collection":
        return head(7, len(members)) + b"".join(members)
    return (
        members[0]
        if len(members) == 1 and shape.form != "multi"
        else head(12 if curved else 6, len(members)) + b"".join(members)
    )


def field_of_package(shape, system):
    """A GeoPackage's field."""
    blob = wkb(shape)
    return (
        None
        if blob is None
        else b"GP\0" + bytes([17 if shape.form in ("empty", "hollow") else 1]) + struct.pack("<i", system) + blob
    )


# Well-known text.


def number_text(value):
    """A double with all its digits and without an exponent."""
    return format(Decimal(repr(value)), "f") if math.isfinite(value) else str(value)


def wkt(shape):
    """The text of a shape; the empty one where it has none."""
    if shape.form == "null":
        return ""
    more = " 312.5" * shape.has_z + " 7" * shape.has_m
    tag = " " + "Z" * shape.has_z + "M" * shape.has_m if more else ""

    def points_text(points):
        return "(" + ",".join(f"{number_text(x)} {number_text(y)}{more}" for x, y in points) + ")"

    def ring_of(ring):
        if shape.form == "arcs":
            return f"CIRCULARSTRING{tag}{points_text(ring)}"
        if shape.form == "mixed":
            at = half_of(ring)
            return f"COMPOUNDCURVE{tag}({points_text(ring[:at + 1])},CIRCULARSTRING{tag}{points_text(ring[at:])})"
        return points_text(ring)

    members = ["(" + ",".join(map(ring_of, member)) + ")" for member in shape.members]
    points = shape.points()
    name = "CURVEPOLYGON" if shape.form in CURVED else "POLYGON"
    if shape.form in ("empty", "hollow"):
        return "MULTIPOLYGON EMPTY" if shape.form == "empty" else "POLYGON EMPTY"
    if shape.form == "line":
        return f"LINESTRING{tag}{points_text(points)}"
    if shape.form == "point":
        return f"POINT{tag}{points_text(points[:1])}"
    if shape.form == "collection":
        return f"GEOMETRYCOLLECTION{tag}(" + ",".join(f"POLYGON{tag}{member}" for member in members) + ")"
    if len(members) == 1 and shape.form != "multi":
        return f"{name}{tag}{members[0]}"
    if name == "CURVEPOLYGON":
        return f"MULTISURFACE{tag}(" + ",".join(f"{name}{tag}{member}" for member in members) + ")"
    return f"MULTIPOLYGON{tag}(" + ",".join(members) + ")"
