"""Rings, edges and corners in arrays: the edges of shapes, the cells that they lie in, and a network of edges in whole
millimetres between numbered corners, with who lies beside them. By numpy; no shape is made: GEOS nodes in floating
point, where a crossing is rounded."""

from __future__ import annotations

from fractions import Fraction

import numpy

from ..formats import wkb

PART = 1 << 16  # edges or shapes at once
WIDE = 1 << 31  # differences below it have products that fit a number of 64 bits


class Rings:
    """The rings of shapes in one array of points, in metres. A shape may be None."""

    def __init__(self, founds, first=0):
        parts, sizes, owners, holes = [], [], [], []
        for owner, found in enumerate(founds, first):
            if found and wkb.is_one_ring(found.blob):
                parts.append(found.blob[wkb.POINTS :])
                sizes.append(len(parts[-1]) // 16)
                owners.append(owner)
                holes.append(False)
                continue
            for at, count, is_hole in wkb.rings_of(found.blob) if found else ():
                parts.append(found.blob[at : at + 16 * count])
                sizes.append(count)
                owners.append(owner)
                holes.append(is_hole)
        self.points = numpy.frombuffer(b"".join(parts), "<f8").reshape(-1, 2)
        self.sizes, self.owners, self.holes = (
            numpy.array(sizes, int),
            numpy.array(owners, int),
            numpy.array(holes, bool),
        )
        self.starts = numpy.cumsum(self.sizes) - self.sizes

    def ways(self):
        """The place of each edge's first point, behind which its second is, and the ring that it is of."""
        ring = numpy.repeat(numpy.arange(len(self.sizes)), self.sizes)
        first = numpy.nonzero(ring[:-1] == ring[1:])[0]
        return first, ring[first]

    def edges(self):
        """Each edge as x, y, x, y with its owner, which lies to its left."""
        inner, ring = self.ways()
        first, second = self.points[inner], self.points[inner + 1]
        about = self.points[self.starts][ring]
        one, other = (first[:, 0] - about[:, 0]) * (second[:, 1] - about[:, 1]), (second[:, 0] - about[:, 0]) * (
            first[:, 1] - about[:, 1]
        )
        doubled = numpy.bincount(ring, one - other, len(self.sizes))
        # what doubles may have wrong
        room = numpy.bincount(ring, numpy.abs(one) + numpy.abs(other), len(self.sizes)) * (self.sizes + 8) * 2.0**-52
        for number in numpy.nonzero(numpy.abs(doubled) <= room)[0].tolist():
            doubled[number] = self.sign_of(number)
        backwards = ((doubled < 0) != self.holes)[ring]
        edges = numpy.where(backwards[:, None], numpy.hstack([second, first]), numpy.hstack([first, second])) + 0.0
        return edges, self.owners[ring]

    def sign_of(self, ring):
        """Below 0 where a ring goes clockwise: exact."""
        start = self.starts[ring]
        way = [(Fraction(x), Fraction(y)) for x, y in self.points[start : start + self.sizes[ring]].tolist()]
        area = sum(ax * by - bx * ay for (ax, ay), (bx, by) in zip(way, way[1:]))
        return (area > 0) - (area < 0)


def edges_of(founds):
    """The edges of many shapes, some of them at a time."""
    parts = [Rings(founds[start : start + PART], start).edges() for start in range(0, len(founds), PART)]
    return (numpy.concatenate(some) for some in zip(*parts)) if parts else (numpy.zeros((0, 4)), numpy.zeros(0, int))


def expanded(counts):
    """For each of so many things its place in the list, and its number among its own."""
    which = numpy.repeat(numpy.arange(len(counts)), counts)
    return which, numpy.arange(len(which)) - numpy.repeat(numpy.cumsum(counts) - counts, counts)


def unique_edges(edges):
    """The edges without direction, each once; the number of each, and whether it is walked backwards."""
    backwards = (edges[:, 0] > edges[:, 2]) | ((edges[:, 0] == edges[:, 2]) & (edges[:, 1] > edges[:, 3]))
    edges[backwards] = edges[backwards][:, [2, 3, 0, 1]]
    bits, key = edges.view(numpy.uint64), numpy.zeros(len(edges), numpy.uint64)
    for column in range(4):
        key = (key ^ bits[:, column]) * numpy.uint64(0x9E3779B97F4A7C15)
        key ^= key >> numpy.uint64(29)
    _, first, number = numpy.unique(key, return_index=True, return_inverse=True)
    # two edges of one key
    if any((edges[first[number[at : at + PART]]] != edges[at : at + PART]).any() for at in range(0, len(edges), PART)):
        _, first, number = numpy.unique(edges, axis=0, return_index=True, return_inverse=True)
    return edges[first], number, backwards


class Corners:
    """Different points in whole millimetres, numbered by x and then y."""

    def __init__(self, points):
        points = (
            numpy.unique(points, axis=0)
            if len(points) and numpy.ptp(points, axis=0).max() >= WIDE
            else self.packed(points)
        )
        self.points = points

    @staticmethod
    def packed(points):
        if not len(points):
            return points.reshape(-1, 2)
        least = points.min(axis=0)
        moved = points - least
        keys = numpy.unique((moved[:, 0] << 32) | moved[:, 1])
        return numpy.stack([keys >> 32, keys & 0xFFFFFFFF], axis=1) + least

    def numbers(self, points):
        """The number of each of some points, which are among the corners."""
        if not len(points):
            return numpy.zeros(0, int)
        if numpy.ptp(self.points, axis=0).max() >= WIDE:
            places = {tuple(point): number for number, point in enumerate(self.points.tolist())}
            return numpy.array([places[tuple(point)] for point in points.tolist()], int)
        least = self.points[:, 0].min(), self.points[:, 1].min()
        keys = ((self.points[:, 0] - least[0]) << 32) | (self.points[:, 1] - least[1])
        return numpy.searchsorted(keys, ((points[:, 0] - least[0]) << 32) | (points[:, 1] - least[1]))

    def found(self, points):
        """The number of each of some points, or -1 where it is none of the corners."""
        numbers = numpy.full(len(points), -1)
        if len(self.points):
            least, most = self.points.min(axis=0), self.points.max(axis=0)
            inside = numpy.nonzero(((points >= least) & (points <= most)).all(axis=1))[0]
            height = int(most[1] - least[1]) + 1
            kind = numpy.int64 if height * (int(most[0] - least[0]) + 1) < 1 << 62 else object
            keys, wanted = (
                (moved[:, 0] * height + moved[:, 1])
                for moved in ((some - least).astype(kind) for some in (self.points, points[inside]))
            )
            places = numpy.minimum(numpy.searchsorted(keys, wanted), len(keys) - 1)
            numbers[inside] = numpy.where(keys[places] == wanted, places, -1)
        return numbers


def summed(keys, counts):
    """The different keys, in order, and the sum of the counts of each."""
    order = numpy.argsort(keys, kind="stable")
    keys = keys[order]
    starts = numpy.nonzero(numpy.append(numpy.ones(min(1, len(keys)), bool), keys[1:] != keys[:-1]))[0]
    return keys[starts], numpy.add.reduceat(counts[order], starts, dtype=int) if len(keys) else numpy.zeros(0, int)


def size_of_cells(edges, least=1000):
    """The side of a cell in millimetres: about the middle length of an edge."""
    if not len(edges):
        return least
    lengths = numpy.abs(edges[:, 2:] - edges[:, :2]).max(axis=1)
    return int(max(least, numpy.median(lengths), lengths.mean() / 4, lengths.max() / 100_000))


def cells_along(edges, side):
    """The cells that each edge comes within two millimetres of: pairs of an edge's number and a cell's column and
    row."""
    swap = edges[:, 0] > edges[:, 2]
    ax, ay, bx, by = (
        numpy.where(swap, edges[:, i], edges[:, j]).astype(float) for i, j in ((2, 0), (3, 1), (0, 2), (1, 3))
    )
    slope = numpy.divide(by - ay, bx - ax, out=numpy.zeros(len(ax)), where=bx > ax)
    low = numpy.floor((ax - 2) / side).astype(int)
    edge, step = expanded(numpy.floor((bx + 2) / side).astype(int) - low + 1)
    column = low[edge] + step
    left, right = (numpy.clip(value, ax[edge], bx[edge]) for value in (column * side - 2.0, (column + 1) * side + 2.0))
    ends = [
        numpy.where(bx[edge] > ax[edge], ay[edge] + slope[edge] * (end - ax[edge]), other)
        for end, other in ((left, ay[edge]), (right, by[edge]))
    ]
    bottom = numpy.floor((numpy.minimum(*ends) - 4) / side).astype(int)
    entry, step = expanded(numpy.floor((numpy.maximum(*ends) + 4) / side).astype(int) - bottom + 1)
    return edge[entry], column[entry], bottom[entry] + step


def key_of(column, row):
    return (column << 32) + row


def keys_along(edges, side):
    """The cells that each edge comes within two millimetres of: pairs of an edge's number and a cell's key."""
    found = [(start, cells_along(edges[start : start + PART], side)) for start in range(0, len(edges), PART)]
    edge = numpy.concatenate([numpy.zeros(0, int), *(start + cells[0] for start, cells in found)])
    return edge, numpy.concatenate([numpy.zeros(0, int), *(key_of(*cells[1:]) for _, cells in found)])


class Network:
    """Edges between numbered corners, each once and from the lesser corner to the greater; and the sides: an edge, an
    owner and how often the owner lies to its left more than to its right."""

    def __init__(self, corners, first, last, sides):
        """`sides` are an edge, an owner and a count."""
        self.points = corners.points
        self.take(first, last, sides)

    def take(self, first, last, sides):
        backwards = first > last
        first, last = numpy.where(backwards, last, first), numpy.where(backwards, first, last)
        keys, number = numpy.unique((first << 32) | last, return_inverse=True)
        self.first, self.last = keys >> 32, keys & 0xFFFFFFFF
        edge, owner, count = sides
        count = numpy.where(backwards[edge], -count, count)
        pairs, counts = summed((number[edge] << 32) | owner, count)
        kept = counts != 0
        self.edge, self.owner, self.count = pairs[kept] >> 32, pairs[kept] & 0xFFFFFFFF, counts[kept]
        self.starts = numpy.searchsorted(self.edge, numpy.arange(len(self.first) + 1))  # of the sides of each edge

    def degrees(self):
        """How many edges meet at each corner."""
        return numpy.bincount(self.first, minlength=len(self.points)) + numpy.bincount(
            self.last, minlength=len(self.points)
        )


def pairs_in_cells(edge, key, low, high):
    """Pairs of edges that lie in one cell and share an x, some at a time: cells are crowded where some edges are far
    shorter than most, so they are in order of their least x there, and none is held beside all. Of the entries of edges
    in cells, and the least and the greatest x of each edge.
    """
    order = numpy.lexsort((low[edge], key))
    edge, cell, leasts = edge[order], numpy.unique(key[order], return_inverse=True)[1] << 32, numpy.unique(low)
    begins = cell | numpy.searchsorted(leasts, low[edge])
    behind = (
        numpy.searchsorted(begins, cell | numpy.searchsorted(leasts, high[edge], "right")) - numpy.arange(len(edge)) - 1
    )
    for first, last in parts_of(behind):
        entry, step = expanded(behind[first:last])
        yield edge[first + entry], edge[first + entry + 1 + step]


def parts_of(counts, most=1 << 19):
    """Ranges of a list whose counts are together at most so many, or one alone."""
    ends, low = numpy.cumsum(counts), 0
    while low < len(counts):
        high = max(low + 1, int(numpy.searchsorted(ends, (ends[low - 1] if low else 0) + most, "right")))
        yield low, high
        low = high


def is_opposite(one, other):
    return ((one > 0) & (other < 0)) | ((one < 0) & (other > 0))


def side_of(lines, points):
    """Above 0 where a point lies left of its line, 0 where on it; exact."""
    return (lines[:, 2] - lines[:, 0]) * (points[:, 1] - lines[:, 1]) - (lines[:, 3] - lines[:, 1]) * (
        points[:, 0] - lines[:, 0]
    )
