"""Borders in whole millimetres that meet at corners alone, in one pass: snap rounding (Hobby; Guibas and Marimont),
exact.

1. Each coordinate by itself becomes a whole number of parts, 1024 to a millimetre. All that follows is in whole
numbers. 2. A pixel is the half-open square of a millimetre about a whole point: a side belongs to the greater. It is
hot where an end of an edge of the
   source, or a proper crossing of two, lies in it.
3. Each edge becomes the way over the middles of the hot pixels that it meets, in the order in which it meets them.
4. A corner is needless where no end of an edge lies in its pixel and two edges of the result meet: the way goes
straight over it. 5. With last year's corners, which are hot too: a corner that is new between two of them is needless
also where an end lies in its pixel, if two edges of
   the result meet there and an edge of the source goes through, within `ON` of all these ends. Overlays of a GIS put
       such corners on straight borders.
6. So is one of a crossing alone, beside a corner of last year to which all edges over it go on: a line that ends on
another in doubles crosses it there.

One pass is enough. If an edge meets the pixels of two points, it meets that of each whole point between them, since
pixels are one convex set moved about: so no edge of the result goes through a corner. No two cross, by the theorem of
snap rounding. By the same convexity the hull of a way over needless corners holds no other corner, and the straight way
crosses nothing: of 5 too, since one edge goes over all corners between the two.

It is local: what an edge becomes depends on the edges within `REACH` of it. A shape's text is that of the whole land
wherever each row is read whose box comes within `REACH` of the shape's. No border moves by more than half a millimetre
in x and in y, with step 1 by 0.708 mm in all; with last year's by 1.5 mm."""

from __future__ import annotations

import numpy

from ..geometry import noding
from ..geometry.noding import Corners, Network, expanded, key_of, parts_of
from ..system.trouble import Trouble

BITS = 10
WHOLE, HALF = 1 << BITS, 1 << (BITS - 1)  # parts of a millimetre, and of half of one
# metres: half a millimetre for the move, one and a half for a pixel and those around it, as much for last year's
# borders, and room
REACH = 0.005
LONG = 1 << 29  # parts: products of differences of shorter edges fit 64 bits
# parts: an end so near to an edge may come to lie on it with last year's borders, and no further than a millimetre and
# a half from where it was
ON = 810
DOUBT = 1e-6  # pixels: crossings so near to a pixel's side are placed in whole numbers; doubles err by less than 1e-9


# of borders, in all or for each edge: beyond that a source is told to be mended
MOST_CROSSINGS, CROSSINGS_EACH = 1 << 18, 4


class Crossed(Trouble):
    """The borders cross one another too often to be rounded: how often at least, and the number of a shape that is
    crossed very often."""

    def __init__(self, count, owner):
        super().__init__(f"the borders cross one another more than {count} times")
        self.count, self.owner = count, owner


def parts_of_points(points):
    """Points in metres as whole parts, each coordinate by itself."""
    return numpy.rint(points * (1000.0 * WHOLE)).astype(numpy.int64)


def pixel(parts):
    """The pixel of coordinates in parts, in whole millimetres: that of a side belongs to the greater."""
    return (parts + HALF) >> BITS


def pixel_of(value):
    """The pixel of one coordinate in metres."""
    return pixel(round(value * (1000.0 * WHOLE)))


def pixels_of(points):
    """The corners that points in metres become, in whole millimetres."""
    return pixel(parts_of_points(points))


class Edges:
    """Different edges as rows of x, y, x, y in parts, and the cells of a grid that each of them comes near to.
    `number`, `owner` and `sign` are the sides: an edge, a shape's number, and 1 where the shape lies to the edge's
    left, -1 where to its right. `points` are the pixels of edges without length.
    """

    def __init__(self, ends, owners):
        """Of edges in parts, each with its owner to its left."""
        some = (ends[:, :2] != ends[:, 2:]).any(axis=1)
        self.points = pixel(ends[~some, :2])
        self.ends, self.number, backwards = noding.unique_edges(numpy.ascontiguousarray(ends[some]))
        self.owner, self.sign = owners[some], numpy.where(backwards, -1, 1).astype(numpy.int8)
        self.is_long = numpy.abs(self.ends[:, 2:] - self.ends[:, :2]).max(axis=1, initial=0) >= LONG
        self.side, self.edge, self.key = self.cells()

    @classmethod
    def of(cls, founds, then=None):
        """The edges of shapes, whose numbers are the owners, conflated with last year's borders."""
        metres, owners = noding.edges_of(founds)
        ends = parts_of_points(metres.reshape(-1, 2)).reshape(-1, 4)
        return cls(*(then.conflated(ends, owners) if then else (ends, owners)))

    def cells(self):
        """The side of a cell in millimetres, and pairs of an edge and a cell's key."""
        millimetres = self.ends / WHOLE
        side = noding.size_of_cells(millimetres)
        edge, key = noding.keys_along(millimetres, side)
        return side, edge, key

    def forget_cells(self):
        """Gives back the memory of the cells, when nothing is looked for in them any more."""
        del self.edge, self.key

    def kinds(self, *numbers):
        """Parts of a list of edges, or of pairs, each with the kind of number that its products fit: of 64 bits, or
        of any size."""
        is_long = numpy.zeros(len(numbers[0]), bool)
        for number in numbers:
            is_long |= self.is_long[number]
        return [(mask, kind) for mask, kind in ((~is_long, numpy.int64), (is_long, object)) if mask.any()]

    def boxes(self):
        """The least and the greatest x and y of each edge."""
        return numpy.minimum(self.ends[:, :2], self.ends[:, 2:]), numpy.maximum(self.ends[:, :2], self.ends[:, 2:])

    def pixels(self):
        """The pixels of all ends."""
        return numpy.concatenate([pixel(self.ends.reshape(-1, 2)), self.points])

    def crossings(self):
        """The pixels of all proper crossings."""
        (low, high), found = self.boxes(), [numpy.zeros((0, 2), numpy.int64)]
        most = max(MOST_CROSSINGS, CROSSINGS_EACH * len(self.ends))
        for i, j in noding.pairs_in_cells(self.edge, self.key, low[:, 0], high[:, 0]):
            for axis in (0, 1):  # boxes that touch alone have no proper crossing
                near = (high[i, axis] > low[j, axis]) & (high[j, axis] > low[i, axis])
                i, j = i[near], j[near]
            found += [
                crossing_pixels(self.ends[i[mask]], self.ends[j[mask]], kind)
                for mask, kind in (self.kinds(i, j) if len(i) else ())
            ]
            count = sum(map(len, found))
            if count > most:
                raise Crossed(count, int(self.owner[numpy.argmax(self.number == numpy.argmax(numpy.bincount(i)))]))
        return numpy.concatenate(found)

    def met(self, hot):
        """The hot pixels that each edge meets, one after the other: pairs of an edge and a corner."""
        return self.in_order(hot, self.all_met(hot))

    def all_met(self, hot):
        """The same in any order: each pair as one number."""
        keys, places = key_of(hot.points[:, 0] // self.side, hot.points[:, 1] // self.side), numpy.unique(
            hot.points[:, 0]
        )
        order = numpy.lexsort((hot.points[:, 0], keys))
        cells, cell = numpy.unique(keys[order], return_inverse=True)
        ordered = (cell << 32) | numpy.searchsorted(places, hot.points[order, 0])
        low, high = map(pixel, self.boxes())
        own = numpy.searchsorted(cells, self.key)
        is_there = (own < len(cells)) & (cells[numpy.minimum(own, len(cells) - 1)] == self.key)
        edges, own = self.edge[is_there], own[is_there] << 32
        least = numpy.searchsorted(ordered, own | numpy.searchsorted(places, low[edges, 0]))
        many = numpy.searchsorted(ordered, own | numpy.searchsorted(places, high[edges, 0], "right")) - least
        met = [numpy.zeros(0, int)]
        for first, last in parts_of(many):
            entry, step = expanded(many[first:last])
            corner, edge = order[least[first + entry] + step], edges[first + entry]
            near = (hot.points[corner, 1] >= low[edge, 1]) & (hot.points[corner, 1] <= high[edge, 1])
            corner, edge = corner[near], edge[near]
            for mask, kind in self.kinds(edge) if len(edge) else ():
                on = meets(self.ends[edge[mask]], hot.points[corner[mask]], kind)
                met.append((edge[mask][on] << 32) | corner[mask][on])
        return numpy.unique(numpy.concatenate(met))

    def in_order(self, hot, met):
        """Pairs of an edge and a corner, along the edges: from pixel to pixel x and y go the edge's way, or stay."""
        edge, corner = met >> 32, met & 0xFFFFFFFF
        place, least = numpy.zeros(len(edge), int), hot.points.min(axis=0, initial=0)
        for axis in (0, 1):
            place += (
                numpy.sign(self.ends[:, axis + 2] - self.ends[:, axis])[edge]
                * (hot.points[:, axis] - least[axis])[corner]
            )
        order = numpy.lexsort((place, edge))
        return edge[order], corner[order]

    def network(self, corners, edge, corner):
        """The network of the ways that edges take over corners."""
        inner = (edge[1:] == edge[:-1]) & (corner[1:] != corner[:-1])
        counts = numpy.bincount(edge[:-1][inner], minlength=len(self.ends))
        first, last = corner[:-1][inner], corner[1:][inner]
        return Network(corners, first, last, self.sides(counts))

    def sides(self, counts):
        """The sides of the parts of edges, of which each edge has so many."""
        starts = numpy.cumsum(counts) - counts
        side, step = expanded(counts[self.number])
        return starts[self.number[side]] + step, self.owner[side], self.sign[side]


def side_of(way, points):
    """Above 0 where points, from an edge's first end, lie to the left of its way, 0 where on its line."""
    return way[:, 0] * points[:, 1] - way[:, 1] * points[:, 0]


def crossing_pixels(a, b, kind):
    """The pixels of the proper crossings of pairs of edges in parts: an inner point of both, and their lines are
    two."""
    a_way, b_way = ((ends[:, 2:] - ends[:, :2]).astype(kind) for ends in (a, b))
    apart = (b[:, :2] - a[:, :2]).astype(kind)
    of_b = noding.is_opposite(side_of(a_way, apart), side_of(a_way, apart + b_way)).astype(bool)
    a, a_way, b_way, apart = a[of_b], a_way[of_b], b_way[of_b], apart[of_b]
    before, behind = side_of(b_way, -apart), side_of(b_way, a_way - apart)
    proper = noding.is_opposite(before, behind).astype(bool)
    # at share / whole of a's way
    a, way, share, whole = a[proper], a_way[proper], before[proper], (before - behind)[proper]
    found = numpy.empty((len(a), 2), numpy.int64)
    for axis in (0, 1):
        base, rest = pixel(a[:, axis]), (a[:, axis] + HALF) & (WHOLE - 1)
        value = (rest + way[:, axis].astype(float) * (share / whole).astype(float)) / WHOLE
        found[:, axis] = base + numpy.floor(value).astype(numpy.int64)
        for at in numpy.nonzero(numpy.abs(value - numpy.rint(value)) < DOUBT)[0].tolist():
            one, all_of_it = int(share[at]), int(whole[at])
            found[at, axis] = int(base[at]) + (int(rest[at]) * all_of_it + int(way[at, axis]) * one) // (
                all_of_it * WHOLE
            )
    return found


def meets(edges, pixels, kind):
    """Whether edges in parts meet the pixels beside them. A corner of the square that belongs to another pixel counts
    as lying a hair inwards: so on the line it is on the side to which that step leads."""
    a, b = edges[:, :2] - (pixels << BITS), edges[:, 2:] - (pixels << BITS)
    inside = numpy.ones(len(edges), bool)
    for axis in (0, 1):
        inside &= (numpy.maximum(a[:, axis], b[:, axis]) >= -HALF) & (numpy.minimum(a[:, axis], b[:, axis]) < HALF)
    # an end lies in the pixel
    ended = inside & (((a >= -HALF) & (a < HALF)).all(axis=1) | ((b >= -HALF) & (b < HALF)).all(axis=1))
    asked = numpy.nonzero(inside & ~ended)[0]
    a, way = a[asked].astype(kind), (b[asked] - a[asked]).astype(kind)
    left, right = numpy.zeros(len(a), bool), numpy.zeros(len(a), bool)
    for x, y in ((-HALF, -HALF), (HALF, -HALF), (-HALF, HALF), (HALF, HALF)):
        side = way[:, 0] * (y - a[:, 1]) - way[:, 1] * (x - a[:, 0])
        step = (way[:, 1] if x > 0 else 0) - (way[:, 0] if y > 0 else 0)
        left |= ((side > 0) | ((side == 0) & (step >= 0))).astype(bool)
        right |= ((side < 0) | ((side == 0) & (step <= 0))).astype(bool)
    ended[asked] = left & right
    return ended


def drawn(edges):
    """The corners and the ways that edges take, as pairs of an edge and a corner, with the network that they make."""
    ends = Corners(edges.pixels())
    hot = Corners(numpy.concatenate([ends.points, edges.crossings()]))
    edge, corner = edges.met(hot)
    edges.forget_cells()
    network = edges.network(hot, edge, corner)
    is_kept = network.degrees() != 2
    is_kept[hot.numbers(ends.points)] = True
    if not is_kept[corner].all():
        del network  # there is room for one
        kept = is_kept[corner]
        edge, corner = edge[kept], corner[kept]
        network = edges.network(hot, edge, corner)
    return hot, edge, corner, network


def are_in(points, ends):
    """Which of some pixels are among others, and which have one of these around them."""
    every = numpy.concatenate([points, ends])
    wide, high = (int(size) + 3 for size in numpy.ptp(every, axis=0))
    places = (every - every.min(axis=0)).astype(numpy.int64 if wide * high < 1 << 62 else object)
    key = places[:, 0] * high + places[:, 1]
    found, taken = key[: len(points)], numpy.unique(key[len(points) :])
    is_beside = [
        numpy.isin(found + (right * high + up), taken) for right in (-1, 0, 1) for up in (-1, 0, 1) if right or up
    ]
    return numpy.isin(found, taken), numpy.any(is_beside, axis=0)


def are_beside(points, ends):
    """Which of some pixels have no end of an edge, and one in a pixel around them."""
    is_in, is_beside = are_in(points, ends)
    return is_beside & ~is_in


def without_strays(edges, then, hot, edge, corner, network):
    """The same without corners beside one of last year's, to which all edges over them go on: of crossings alone, such
    as those of a border and others that end on it in doubles."""
    is_then, is_beside = are_in(hot.points, then)
    is_free = is_beside & ~is_then
    is_free[hot.numbers(edges.pixels())] = False
    found = {}
    for at in numpy.nonzero(is_free[corner])[0].tolist():
        here = corner[at]
        beside = {
            int(corner[to])
            for to in (at - 1, at + 1)
            if 0 <= to < len(edge) and edge[to] == edge[at] and is_then[corner[to]]
        }
        found[here] = found.get(here, beside) & {
            one for one in beside if numpy.abs(hot.points[one] - hot.points[here]).max() == 1
        }
    kept = ~numpy.isin(corner, [here for here, beside in found.items() if beside])
    if kept.all():
        return hot, edge, corner, network
    edge, corner = edge[kept], corner[kept]
    return hot, edge, corner, edges.network(hot, edge, corner)


def straightened(edges, then, hot, edge, corner, network):
    """The network without new corners on a border that last year had straight, where this year's source has it straight
    too. Such a corner is none of `then`, nor beside one; two edges of the network meet there, and each end in its pixel
    lies on an edge that goes through, which the corners of `then` bound on both sides.
    """
    is_then, is_beside = are_in(hot.points, then)
    is_free, ends = (network.degrees() == 2) & ~is_then & ~is_beside, edges.ends.reshape(-1, 2)
    at = hot.numbers(pixel(ends))
    through = numpy.nonzero(is_free[corner] & (corner != at[::2][edge]) & (corner != at[1::2][edge]))[0]
    order = numpy.argsort(at, kind="stable")
    begins = numpy.searchsorted(at[order], numpy.arange(len(hot.points) + 1))
    over = {
        one
        for one in through.tolist()
        if are_on(edges.ends[edge[one]].tolist(), ends[order[begins[corner[one]] : begins[corner[one] + 1]]].tolist())
    }
    moved = numpy.arange(len(hot.points))
    for one in over:
        before, behind = (
            next(place for place in range(one, one + step * len(edge), step) if place not in over) for step in (-1, 1)
        )
        if is_then[corner[before]] and is_then[corner[behind]]:
            moved[corner[one]] = corner[before]  # all corners between the same two come to the lesser of these
    return edges.network(hot, edge, moved[corner]) if (moved != numpy.arange(len(moved))).any() else network


def are_on(edge, points):
    """Whether all of some points lie within `ON` parts of an edge's line; exact."""
    x, y, dx, dy = edge[0], edge[1], edge[2] - edge[0], edge[3] - edge[1]
    return all((dx * (b - y) - dy * (a - x)) ** 2 <= ON * ON * (dx * dx + dy * dy) for a, b in points)


def network_of(founds, then=None):
    """The borders of shapes as edges in whole millimetres that meet at corners alone; owners are the shapes' numbers.
    `then` has last year's borders: the pixels of their corners are hot as if an end lay in them, unless one that is in
    none of them lies in a pixel around: such a corner has moved.
    """
    edges = Edges.of(founds, then)
    if then:
        ends = edges.pixels()
        edges.points = numpy.concatenate(
            [edges.points, then.points[~are_beside(then.points, ends[then.corners.found(ends) < 0])]]
        )
    *ways, network = drawn(edges)
    return straightened(edges, then.points, *without_strays(edges, then.points, *ways, network)) if then else network
