"""Shapes as a GeoPackage has them (well-known binary): Z and M are dropped and arcs made straight, and each such thing
is noted. What the grammar of the tables would refuse is refused here too, with the place: a ring of fewer than four
points, one that does not end where it begins, an empty ring, a collection. Python's standard library alone: GDAL
parts an arc by an angle, not by how far it lies beside it, and GEOS has no arcs."""

from __future__ import annotations

import math
import struct

from ..system.printing import counted

ARC = 0.0005  # metres that a straightened arc may lie beside the arc: no more than rounding does
MOST_POINTS = 100_000  # of a shape: what arcs would make beyond them is not made
FAR = 100_000_000.0  # metres: no map has places beyond it, and its arcs stay as they are
NAMES = {
    1: "a point",
    2: "a line",
    4: "points",
    5: "lines",
    7: "a collection",
    8: "an arc",
    9: "a curve",
    11: "curves",
    15: "a surface of polygons",
    16: "a net of triangles",
    17: "a triangle",
}
HEAD = struct.Struct("<BII")
COUNT = struct.Struct("<I")
# in a MultiPolygon of one ring what stands behind its fifth byte, and where its points begin
ONE_RING, POINTS = struct.pack("<IBII", 1, 1, 3, 1), 22
NO_NOTES = frozenset()


class Unreadable(Exception):
    """A shape that the tables' grammar does not have: why, and a place where it is known."""

    def __init__(self, words, place=None):
        super().__init__(words)
        self.place = place


class Found:
    """The polygons of a shape, kept as well-known binary, and what was met on the way."""

    __slots__ = ("blob", "bounds", "notes", "srid")

    def __init__(self, members=(), notes=NO_NOTES, srid=None):
        self.members, self.notes, self.srid = members, notes, srid

    @classmethod
    def of_blob(cls, blob):
        """Of bytes that are a MultiPolygon of x and y, as `written` makes them."""
        found = cls.__new__(cls)
        found.blob, found.bounds, found.notes, found.srid = blob, None, NO_NOTES, None
        return found

    @property
    def members(self):
        """Polygons, each of rings, each of (x, y)."""
        return unpacked(self.blob)

    @members.setter
    def members(self, members):
        self.blob, self.bounds = written(members), None

    def numbers(self):
        """All coordinates, x and y in turn."""
        blob, values = self.blob, []
        if is_one_ring(blob):
            return struct.unpack_from(f"<{(len(blob) - POINTS) // 8}d", blob, POINTS)
        for at, count, _ in rings_of(blob):
            values += struct.unpack_from(f"<{2 * count}d", blob, at)
        return values

    def box(self):
        """Least and greatest x and y, or None where there is no point."""
        if self.bounds is None and (values := self.numbers()):
            xs, ys = values[0::2], values[1::2]
            self.bounds = min(xs), min(ys), max(xs), max(ys)
        return self.bounds

    def count(self):
        """How many points there are."""
        return (
            (len(self.blob) - POINTS) // 16
            if is_one_ring(self.blob)
            else sum(count for _, count, _ in rings_of(self.blob))
        )


def is_one_ring(blob):
    """Whether a MultiPolygon of x and y, as `written` makes it, is one ring: most are."""
    return blob[5:18] == ONE_RING


def rings_of(blob):
    """Where the points of each ring begin, how many there are, and whether it is a hole."""
    at = 9
    for _ in range(COUNT.unpack_from(blob, 5)[0]):
        rings = COUNT.unpack_from(blob, at + 5)[0]
        at += 9
        for number in range(rings):
            count = COUNT.unpack_from(blob, at)[0]
            yield at + 4, count, number > 0
            at += 4 + 16 * count


def unpacked(blob):
    if is_one_ring(blob):
        values = struct.unpack_from(f"<{(len(blob) - POINTS) // 8}d", blob, POINTS)
        return [[list(zip(values[0::2], values[1::2]))]]
    at, members = 9, []
    for _ in range(COUNT.unpack_from(blob, 5)[0]):
        rings = []
        for _ in range(COUNT.unpack_from(blob, at + 5)[0]):
            count = COUNT.unpack_from(blob, at + 9)[0]
            values = struct.unpack_from(f"<{2 * count}d", blob, at + 13)
            rings.append(list(zip(values[0::2], values[1::2])))
            at += 4 + 16 * count
        members.append(rings)
        at += 9
    return members


def written(members):
    """Polygons as well-known binary, for Shapely."""
    return packed([[[number for point in ring for number in point] for ring in member] for member in members])


def packed(members):
    """The same of rings of x and y in turn."""
    parts = [HEAD.pack(1, 6, len(members))]
    for member in members:
        parts.append(HEAD.pack(1, 3, len(member)))
        parts += [struct.pack(f"<I{len(ring)}d", len(ring) // 2, *ring) for ring in member]
    return b"".join(parts)


def several(blob):
    """A polygon as GEOS writes it, or several, as a MultiPolygon; None of another shape, and where there is none."""
    order, kind, count = HEAD.unpack_from(blob)
    if order != 1 or kind not in (3, 6) or not count:
        return None
    return blob if kind == 6 else HEAD.pack(1, 6, 1) + blob


def judge_rings(members):
    """Refuses what the grammar of the tables refuses: the members, where it does not."""
    if not members:
        raise Unreadable("an empty shape")
    for number, member in enumerate(members, 1):
        if not member:
            raise Unreadable(f"polygon {number} of the shape is empty")
        for ring in member:
            judge_ring(ring)
    return members


def judge_ring(ring):
    if not ring:
        raise Unreadable("an empty ring")
    start, end = ring[0], ring[-1]
    if not all(math.isfinite(value) for point in ring for value in point):
        raise Unreadable(
            "a coordinate is no number", next((point for point in ring if all(map(math.isfinite, point))), None)
        )
    if len(ring) < 4:
        raise Unreadable(f"a ring has {counted(len(ring), 'point')} and not four or more", start)
    if start != end:
        raise Unreadable(f"a ring is open: it begins at {start[0]} {start[1]} and ends at {end[0]} {end[1]}", start)


class Made:
    """The points that the arcs of one shape become: no more than a shape may have."""

    def __init__(self):
        self.count = 0

    def straightened(self, points):
        way = straightened(points)
        self.count += len(way)
        return way if self.count <= MOST_POINTS else too_many(way[0])


class Reader:
    """Walks through a blob."""

    def __init__(self, blob):
        self.blob, self.at, self.notes, self.srid, self.members = blob, 0, set(), None, []
        self.made = Made()

    def take(self, form, order):
        try:
            values = struct.unpack_from(order + form, self.blob, self.at)
        except struct.error:
            raise Unreadable("the shape's bytes end too early") from None
        self.at += struct.calcsize(order + form)
        return values

    def head(self):
        """The order of bytes, the kind and how many numbers a point has."""
        (order,) = self.take("B", "<")
        if order > 1:
            raise Unreadable("the shape's bytes are no well-known binary")
        order = "<" if order else ">"
        (code,) = self.take("I", order)
        has_z, has_m = bool(code & 0x80000000), bool(code & 0x40000000)
        if code & 0x20000000:
            (self.srid,) = self.take("I", order)
        code &= 0x1FFFFFFF
        if code >= 4000:
            raise Unreadable(f"a shape of kind {code}")
        has_z |= code // 1000 in (1, 3)
        has_m |= code // 1000 in (2, 3)
        self.notes |= {name for name, is_there in (("z", has_z), ("m", has_m)) if is_there}
        return order, code % 1000, 2 + has_z + has_m

    def points(self, order, size):
        (count,) = self.take("I", order)
        if count * size * 8 > len(self.blob) - self.at:
            raise Unreadable("the shape's bytes end too early")
        numbers = self.take(f"{count * size}d", order)
        return list(zip(numbers[0::size], numbers[1::size]))

    def way(self, depth=0):
        """The points of a line, an arc or a curve of both; a curve has none in it."""
        order, kind, size = self.head()
        if kind == 2:
            return self.points(order, size)
        self.notes.add("curve")
        if kind == 8:
            return self.made.straightened(self.points(order, size))
        if kind != 9 or depth:
            raise Unreadable(f"a ring that is {NAMES.get(kind, f'a shape of kind {kind}')}")
        way = []
        for _ in range(self.take("I", order)[0]):
            join(way, self.way(1))
        return way

    def shape(self, depth=0):
        order, kind, size = self.head()
        if kind in (3, 10):
            read = self.way if kind == 10 else lambda: self.points(order, size)
            if kind == 10:
                self.notes.add("curve")
            self.members.append([read() for _ in range(self.take("I", order)[0])])
        elif kind in (6, 12) and depth == 0:
            for _ in range(self.take("I", order)[0]):
                self.shape(1)
        else:
            raise Unreadable(f"no polygon but {NAMES.get(kind, f'a shape of kind {kind}')}")


def join(way, part):
    """Puts the next part of a curve behind it, which begins where it ends."""
    if way and part and way[-1] != part[0]:
        raise Unreadable(f"the parts of a curve do not meet at {part[0][0]} {part[0][1]}", part[0])
    way += part[1:] if way else part


def too_many(place):
    raise Unreadable(f"arcs that would have more than {MOST_POINTS} points", place)


def quick(blob):
    """Polygons of x and y as most programs write them, without a look at each point; None where they are others, or
    where something is wrong."""
    try:
        (order, code, count), at = HEAD.unpack_from(blob), 9
        if order != 1 or code not in (3, 6) or not count:
            return None
        for member in range(count if code == 6 else 1):
            order, kind, rings = HEAD.unpack_from(blob, at if code == 6 else 0)
            if order != 1 or kind != 3 or not rings:
                return None
            at += 9 if code == 6 else 0
            for _ in range(rings):
                (points,) = COUNT.unpack_from(blob, at)
                start, at = at + 4, at + 4 + 16 * points
                if (
                    points < 4
                    or blob[start : start + 16] != blob[at - 16 : at]
                    or not math.isfinite(sum(struct.unpack_from(f"<{2 * points}d", blob, start)))
                ):
                    return None
    except struct.error:
        return None
    return None if at != len(blob) else Found.of_blob(blob if code == 6 else HEAD.pack(1, 6, 1) + blob)


def read(blob):
    """The polygons of well-known binary; None where it is an empty one."""
    found = quick(blob)
    if found is not None:
        return found
    reader = Reader(blob)
    reader.shape()
    if reader.at != len(blob):
        raise Unreadable(f"the shape has {len(blob) - reader.at} bytes behind its end")
    members = [member for member in reader.members if member]
    if not members:
        return None
    return Found(judge_rings(reader.members), frozenset(reader.notes), reader.srid)


def of_package(blob):
    """The polygons of a GeoPackage's field, or None where it says that it is empty. With the number that the field
    has for its system."""
    if not isinstance(blob, bytes) or blob[:2] != b"GP" or len(blob) < 8:
        raise Unreadable("the field is no shape of a GeoPackage")
    flags = blob[3]
    size = {0: 0, 1: 32, 2: 48, 3: 48, 4: 64}.get(flags >> 1 & 7)
    if size is None or flags & 32:
        raise Unreadable("the field is no shape of a GeoPackage")
    if flags & 16:
        return None
    found = read(blob[8 + size :])
    if found is not None and found.srid is None:
        found.srid = int.from_bytes(blob[4:8], "little" if flags & 1 else "big", signed=True)
    return found


def straightened(points):
    """The points along arcs, each through three points; the same whichever way an arc is walked."""
    if len(points) < 3 or len(points) % 2 == 0:
        raise Unreadable(
            f"arcs through {len(points)} points: three, five, seven or so are wanted", points[0] if points else None
        )
    if not all(math.isfinite(value) for point in points for value in point):
        raise Unreadable("a coordinate is no number")
    way = points[:1]
    for start, middle, end in zip(points[0::2], points[1::2], points[2::2]):
        way += arc(start, middle, end) if start <= end else arc(end, middle, start)[-2::-1] + [end]
        if len(way) > MOST_POINTS:
            too_many(start)
    return way


def arc(start, middle, end):
    """The points of an arc behind its first. What is no arc, or nearly straight, goes over its middle, and so does
    one beyond what any map has."""
    if start == end:
        (cx, cy), turn = ((start[0] + middle[0]) / 2, (start[1] + middle[1]) / 2), 2 * math.pi
    else:
        cx, cy, turn = centre_of(start, middle, end)
    radius, first = math.hypot(start[0] - cx, start[1] - cy), math.atan2(start[1] - cy, start[0] - cx)
    if radius == 0 or not math.isfinite(radius) or max(map(abs, (*start, *middle, *end))) > FAR:
        return [middle, end]
    count = abs(turn) / (4 * math.asin(min(math.sqrt(ARC / (2 * radius)), 0.5)))
    if count > MOST_POINTS:
        too_many(start)
    count = math.ceil(count)
    if count < 2:
        return [middle, end]
    return [
        *(
            (cx + radius * math.cos(first + turn * i / count), cy + radius * math.sin(first + turn * i / count))
            for i in range(1, count)
        ),
        end,
    ]


def centre_of(start, middle, end):
    """The centre of a circle through three points, and the angle from the first to the last, over the second: twice the
    bend there. Infinite where they lie on a line."""
    (ax, ay), (bx, by) = [(p[0] - start[0], p[1] - start[1]) for p in (middle, end)]
    cross = 2 * (ax * by - ay * bx)
    a, b = ax * ax + ay * ay, bx * bx + by * by
    try:
        cx, cy = start[0] + (by * a - ay * b) / cross, start[1] + (ax * b - bx * a) / cross
    except ZeroDivisionError:
        return math.inf, math.inf, 0.0
    return cx, cy, 2 * math.atan2(ax * (by - ay) - ay * (bx - ax), ax * (bx - ax) + ay * (by - ay))
