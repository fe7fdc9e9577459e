#!/usr/bin/python3
"""Writes a release of N parcels for the cutter, from a fixed seed: make_parcels.py N FOLDER [KIND] [turned] [FAULT]; or
of one parcel and one piece, both one polygon of about N points: make_parcels.py N FOLDER POLYGON [moved].

The parcels are the cells of a grid of about 120 metres whose nodes were moved and whose borders are digitised in 1 to
12 segments, 2.85 on average, 1.55 with `straight`: a piece has 4 to 56 points, 10.8 on average, 7.7 with `straight`
(closing points are counted). A parcel has one piece, or two to four around its middle, or a pond in its piece; some
have a second member, some a farmyard in a hole that is a parcel of its own. Every polygon takes up points in the middle
of its edges for itself, so its neighbours, and its pieces, have T-junctions there. All nodes and borders are of even
centimetres, so such middles lie exactly on the edge. It is sound by construction: a border keeps within a slim rhombus
around its straight line, and a cell is divided around its middle only where the middle sees the whole ring.

With `mosaic` each border has 8 segments, a parcel has one piece of its own shape, and no polygon takes up points;
`grid` is the same with a segment each.

With `digitised` every polygon has 5 to 60 points, a piece 18 on average, as far as a map of reference parcels shows its
borders: a road or a ditch is one straight segment, a hedge has a few, the edge of a wood or a stream has a point each 8
to 15 metres. The pieces of a parcel, 1.8 on average, meet in digitised lines too, from one of its points or middles of
edges to another: there its neighbours, and its other pieces, have T-junctions. The smaller of two pieces has at least
an eighth of both. `regular` is the same with a point each 15 metres on every border, as a receiver that is carried
along records it. With `turned` the grid is turned by 30 degrees, since fields lie as their valley does.

With FAULT nearly every parcel is wrong: `gaps` moves a corner of each piece inwards by a centimetre; `overlaps` moves
the shell of each parcel of one member outwards by one, and gives it one piece of its own shape. `stacked` and `spread`
are N equal round parcels, all in one place or side by side.

POLYGON is spiral, comb, star, coast, holes (of 20 points), diamonds (holes that touch one another and the shell in
their corners) or fan (a round field seen from its pivot). With `moved` the piece lies a centimetre further east than
its parcel, so that all edges of the two differ.
"""

import math
import random
import sys

from lpis_helpers.tables import orient, shoelace, write_release

SEED = 20_261_122
STEP, JITTER = 12_000, 1_800  # centimetres
EAST, NORTH = 40_000_000, 530_000_000
SEGMENTS = [1] * 9 + [2] * 5 + [3, 4, 5, 6, 8, 12]
STRAIGHT = [1] * 33 + [2] * 3 + [3, 4, 4, 12]
DIGITISED = [1, 1, 1, 2, 2, 3, 3, 4, 5, 6, 7, 8, 10, 14]
REGULAR = [8]
MOST_POINTS, LEAST_EDGE = 60, 2_000  # of a digitised polygon, of one edge that a line may end on the middle of
SPOKES = [1] * 50 + [2] * 26 + [3] * 14 + [4] * 10  # how many pieces, of a hundred parcels without a pond or yard


def round_point(radius, angle, x=0, y=0):
    return x + round(radius * math.cos(angle)), y + round(radius * math.sin(angle))


def even(value):
    return 2 * round(value / 2)


def middle_of(a, b):
    """The middle of an edge, where it is a point of whole centimetres, else None."""
    return None if (a[0] + b[0]) % 2 or (a[1] + b[1]) % 2 else ((a[0] + b[0]) // 2, (a[1] + b[1]) // 2)


def edges_of(ring):
    return list(zip(ring, ring[1:] + ring[:1]))


def points_of(polygon):
    """How many points are written, the closing ones counted."""
    return sum(len(ring) + 1 for member in polygon for ring in member)


def keeps_off(edge, room):
    """The edge has no point inside the convex room: a side of the room, or the edge's own line, is between them."""
    if any(orient(a, b, edge[0]) <= 0 and orient(a, b, edge[1]) <= 0 for a, b in edges_of(room)):
        return True
    turns = [orient(*edge, corner) for corner in room]
    return min(turns) >= 0 or max(turns) <= 0


class Map:
    def __init__(self, count, segments, degrees=0):
        self.numbers, self.segments, self.angle = random.Random(SEED), segments, math.radians(degrees)
        self.count, self.parcels, self.pieces = count, [], []
        self.columns = max(2, math.isqrt(count))
        self.nodes, self.lines, self.taken = {}, {}, set()

    def node(self, column, row):
        if (column, row) not in self.nodes:
            x, y = (place * STEP + self.numbers.randint(-JITTER, JITTER) for place in (column, row))
            cos, sin = math.cos(self.angle), math.sin(self.angle)
            self.nodes[column, row] = (EAST + even(x * cos - y * sin), NORTH + even(x * sin + y * cos))
        return self.nodes[column, row]

    def line(self, start, end):
        """The border between two nodes, its end left out, in the order in which it is asked for."""
        if (end, start) in self.lines:
            return [self.node(*start)] + self.lines[end, start][:0:-1]
        if (start, end) not in self.lines:
            self.lines[start, end] = self.digitised(self.node(*start), self.node(*end))
        return self.lines[start, end]

    def digitised(self, a, b):
        return self.bent(a, b, self.numbers.choice(self.segments))

    def bent(self, a, b, count):
        """A line of so many segments that strays from the straight one step by step, its end left out."""
        (dx, dy), shift, points = (b[0] - a[0], b[1] - a[1]), 0, [a]
        for k in range(1, count):
            along = (k + self.numbers.uniform(-0.2, 0.2)) / count
            most = 0.25 * min(along, 1 - along)
            shift = max(-most, min(most, shift + self.numbers.uniform(-0.4, 0.4) / count))
            points.append((even(a[0] + dx * along - dy * shift), even(a[1] + dy * along + dx * shift)))
        return points

    def cell(self, column, row):
        corners = [(column, row), (column + 1, row), (column + 1, row + 1), (column, row + 1)]
        ring = [point for start, end in zip(corners, corners[1:] + corners[:1]) for point in self.line(start, end)]
        middle = tuple(even(sum(self.node(*corner)[k] for corner in corners) / 4) for k in (0, 1))
        return ring, middle

    def dotted(self, ring):
        """The ring with the middles of some edges."""
        dots = []
        for a, b in edges_of(ring):
            dots.append(a)
            if self.numbers.random() < 0.1 and middle_of(a, b):
                dots.append(middle_of(a, b))
        return dots

    def polygon(self, members):
        return [[self.dotted(ring) for ring in member] for member in members]

    def fits(self, *_rings):
        """Whether a polygon may have these rings."""
        return True

    def add(self, members, pieces):
        name = f"P{len(self.parcels):06}"
        self.parcels.append((name, self.polygon(members)))
        for piece in pieces:
            self.pieces.append((f"C{len(self.pieces):06}", name, self.numbers.choice("GGGW"), self.polygon(piece)))

    def yard(self, middle):
        """A small ring around the middle, clockwise as holes are usually written."""
        corners, first = self.numbers.randint(5, 12), self.numbers.random()
        angles = [-2 * math.pi * (i / corners + first) for i in range(corners)]
        return [
            tuple(map(even, round_point(STEP * self.numbers.uniform(0.08, 0.12), angle, *middle))) for angle in angles
        ]

    def divided(self, ring, middle):
        """The ring cut into one to four pieces by straight lines from the middle to its points."""
        count = self.numbers.choice(SPOKES)
        if count == 1 or any(orient(middle, a, b) <= 0 for a, b in edges_of(ring)):
            return [[[ring]]]
        ends = sorted(self.numbers.sample(range(len(ring)), count))
        turned = ring + ring
        return [[[[middle] + turned[i : j + 1]]] for i, j in zip(ends, ends[1:] + [ends[0] + len(ring)])]

    def add_cell(self, column, row):
        ring, middle = self.cell(column, row)
        kind, beside = self.numbers.random(), (column + 1, row + 1)
        if kind < 0.1 and self.fits(ring, [middle] * 12):
            pond = self.yard(middle)
            self.add([[ring]], [[[ring, pond]], [[pond]]])
        elif kind < 0.14 and len(self.parcels) + 1 < self.count and self.fits(ring, [middle] * 12):
            yard = self.yard(middle)
            self.add([[ring, yard]], [[[ring, yard]]])
            self.add([[yard]], [[[yard]]])
        elif kind < 0.18 and column + 1 < self.columns and self.fits(ring, self.cell(*beside)[0]):
            self.taken.add(beside)
            other, _ = self.cell(*beside)
            members = [[ring], [other]]
            self.add(members, [members] if kind < 0.15 else [[member] for member in members])
        else:
            self.add([[ring]], self.divided(ring, middle))

    def fill(self):
        place = 0
        while len(self.parcels) < self.count:
            row, column = divmod(place, self.columns)
            if (column, row) not in self.taken:
                self.add_cell(column, row)
            place += 1
        return self.parcels, self.pieces


class Mosaic(Map):
    def digitised(self, a, b):
        """The border halved three times, each middle moved to the side by up to a tenth of what is halved."""
        points = [a, b]
        for _ in range(3):
            halves = []
            for (ax, ay), (bx, by) in zip(points, points[1:]):
                shift = self.numbers.uniform(-0.1, 0.1)
                halves += [(ax, ay), (even((ax + bx) / 2 + (by - ay) * shift), even((ay + by) / 2 - (bx - ax) * shift))]
            points = halves + points[-1:]
        return points[:-1]

    def dotted(self, ring):
        return ring

    def add_cell(self, column, row):
        ring, _ = self.cell(column, row)
        self.add([[ring]], [[[ring]]])


class Grid(Mosaic):
    def digitised(self, a, b):
        return [a]


class Digitised(Map):
    def digitised(self, a, b):
        """As many segments as the border of a whole cell would have on this length."""
        count = self.numbers.choice(self.segments)
        return self.bent(a, b, max(1, round(count * math.dist(a, b) / STEP)))

    def fits(self, *rings):
        return points_of([rings]) <= MOST_POINTS

    def polygon(self, members):
        dotted = super().polygon(members)
        return dotted if points_of(dotted) <= MOST_POINTS else members

    def halves(self, ring):
        """The ring divided by a line between two of its points or middles of edges, of which twenty pairs are tried;
        else the ring alone.

        The line keeps within a slim rhombus, which no edge of the ring may enter."""
        ends, edges = [], edges_of(ring)
        for a, b in edges:
            ends.append((a, True))
            if middle_of(a, b) and math.dist(a, b) > LEAST_EDGE:
                ends.append((middle_of(a, b), False))
        for _ in range(20):
            i, j = sorted(self.numbers.sample(range(len(ends)), 2))
            (a, _), (b, _) = ends[i], ends[j]
            side = (0.15 * (b[0] - a[0]), 0.15 * (b[1] - a[1]))
            middle = ((a[0] + b[0]) / 2, (a[1] + b[1]) / 2)
            room = [a, (middle[0] + side[1], middle[1] - side[0]), b, (middle[0] - side[1], middle[1] + side[0])]
            if all(keeps_off(edge, room) for edge in edges):
                line = self.digitised(a, b)[1:]
                one = [a] + [point for point, is_corner in ends[i + 1 : j] if is_corner] + [b] + line[::-1]
                two = [b] + [point for point, is_corner in ends[j + 1 :] + ends[:i] if is_corner] + [a] + line
                if self.are_pieces(one, two):
                    return [one, two]
        return [ring]

    def are_pieces(self, *rings):
        areas = [shoelace(ring) for ring in rings]
        return 8 * min(areas) >= sum(areas) and min(map(len, rings)) >= 4 and all(map(self.fits, rings))

    def divided(self, ring, middle):
        """The ring cut into one to four pieces, the largest first."""
        rings = [ring]
        for _ in range(self.numbers.choice(SPOKES) - 1):
            rings.sort(key=shoelace)
            rings += self.halves(rings.pop())
        return [[[part]] for part in rings]


KINDS = {
    "straight": (Map, STRAIGHT),
    "mosaic": (Mosaic, SEGMENTS),
    "grid": (Grid, SEGMENTS),
    "digitised": (Digitised, DIGITISED),
    "regular": (Digitised, REGULAR),
}


def moved(polygon, corners, sign):
    """The polygon with the first points of its shell moved by a centimetre: outwards for sign 1, inwards for -1."""
    shell = polygon[0][0]
    middle = tuple(sum(point[k] for point in shell) / len(shell) for k in (0, 1))
    step = [[sign if point[k] > middle[k] else -sign for k in (0, 1)] for point in shell]
    ring = [(x + dx, y + dy) if i < corners else (x, y) for i, ((x, y), (dx, dy)) in enumerate(zip(shell, step))]
    return [[ring] + polygon[0][1:]] + polygon[1:]


def faulty(fault, parcels, pieces):
    if fault == "gaps":
        return parcels, [(name, parcel, kind, moved(polygon, 1, -1)) for name, parcel, kind, polygon in pieces]
    grown = [
        (name, moved(polygon, len(polygon[0][0]), 1) if len(polygon) == 1 else polygon) for name, polygon in parcels
    ]
    return grown, [(f"C{name}", name, "G", polygon) for name, polygon in grown]


def round_parcels(count, step):
    """Equal parcels of 40 points with one piece each, in rows, so many centimetres from one another."""
    columns, parcels = math.isqrt(count), []
    for number in range(count):
        x, y = (place * step for place in divmod(number, columns))
        parcels.append((f"P{number:06}", [[[round_point(4_000, 2 * math.pi * i / 40, x, y) for i in range(40)]]]))
    return parcels, [(f"C{name}", name, "G", polygon) for name, polygon in parcels]


def spiral(points, _):
    """Two arms that wind side by side, with a constant gap."""
    half, gap = points // 2, 4_000
    turn = 2 * math.pi * max(4, half // 2_000) / half

    def arm(shift):
        return [round_point(50_000 + gap * i * turn / (2 * math.pi) + shift, i * turn) for i in range(half)]

    return [arm(0)[::-1] + arm(gap // 2)]


def comb(points, numbers):
    """Teeth of 20 kilometres on one bar: each box of a tooth's triangles meets those of all others through the
    bar's."""
    teeth, height = points // 4, 2_000_000
    ring = [(0, -1_000), (40 * teeth, -1_000)]
    for i in reversed(range(teeth)):
        tops = [height - numbers.randint(0, 1_000) for _ in range(2)]
        ring += [(40 * i + 30, 0), (40 * i + 30, tops[0]), (40 * i + 10, tops[1]), (40 * i + 10, 0)]
    return [ring]


def star(points, numbers):
    outer = 10**9

    def radius(i):
        return outer if i % 2 else outer // 2 + numbers.randint(0, outer // 100)

    return [[round_point(radius(i), 2 * math.pi * i / points) for i in range(points)]]


def coast(points, numbers):
    """A hexagon whose edges are bent in their middles, again and again."""
    ring = [complex(*round_point(10**8, 2 * math.pi * i / 6)) for i in range(6)]
    while 2 * len(ring) <= points:
        bent = []
        for a, b in zip(ring, ring[1:] + ring[:1]):
            bent += [a, (a + b) / 2 + 1j * (b - a) * numbers.uniform(-0.1, 0.1)]
        ring = bent
    return [[(round(point.real), round(point.imag)) for point in ring]]


def holes(points, numbers):
    corners, step = 20, 10_000
    count = points // (corners + 1)
    width = math.isqrt(count) + 1
    side = width * step
    rings = [[(0, 0), (side, 0), (side, side), (0, side)]]
    for number in range(count):
        x, y = (place * step + step // 2 + numbers.randint(-500, 500) for place in divmod(number, width))
        first = numbers.random()
        rings.append(
            [
                round_point(3_500 * numbers.uniform(0.6, 1), -2 * math.pi * (i / corners + first), x, y)
                for i in range(corners)
            ]
        )
    return rings


def diamonds(points, _):
    width, step = math.isqrt(points // 5), 2_000
    side, half = width * step, step // 2
    rings = [[(0, 0), (side, 0), (side, side), (0, side)]]
    for number in range(width * width):
        x, y = (place * step + half for place in divmod(number, width))
        rings.append([(x - half, y), (x, y + half), (x + half, y), (x, y - half)])
    return rings


def fan(points, _):
    arc = points - 2
    return [[(0, 0)] + [round_point(10**9, 1.5 * i / arc) for i in range(arc + 1)]]


POLYGONS = {kind.__name__: kind for kind in (spiral, comb, star, coast, holes, diamonds, fan)}


def one_polygon(kind, points, east):
    """The piece lies so many centimetres further east than the parcel."""
    rings = POLYGONS[kind](points, random.Random(SEED))
    return [("A", [rings])], [("C", "A", "G", [[[(x + east, y) for x, y in ring] for ring in rings]])]


def main():
    count, folder, words = int(sys.argv[1]), sys.argv[2], sys.argv[3:]
    if words and words[0] in POLYGONS:
        write_release(folder, *one_polygon(words[0], count, int("moved" in words)))
        return
    fault = next((word for word in words if word not in KINDS and word != "turned"), None)
    if fault in ("stacked", "spread"):
        parcels, pieces = round_parcels(count, 0 if fault == "stacked" else 10_000)
    else:
        kind, segments = next((KINDS[word] for word in words if word in KINDS), (Map, SEGMENTS))
        parcels, pieces = kind(count, segments, 30 if "turned" in words else 0).fill()
        if fault:
            parcels, pieces = faulty(fault, parcels, pieces)
    write_release(folder, parcels, pieces)


main()
