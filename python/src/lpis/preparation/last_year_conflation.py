"""This year's edges conflated with last year's borders, before they are rounded: so what did not change comes out as it
was, to the millimetre.

1. An end that lies in the pixel of none of last year's corners, and within a millimetre of one in x and in y, moves to
the nearest place in the pixel of the
   nearest: by no more than half a millimetre in x and in y.
2. An edge between two of these corners that no border joined goes by the corners between them on a way along it, where
all of these lie within `ASIDE` of it:
   where it misses the pixel of one, by the place in there that is nearest to it.

What becomes of an edge hangs on last year's borders beside it alone, whoever has it and whatever is around. Then all
edges are rounded together, with last year's corners, as any others would be: so nothing crosses, and there are no
passes. No border comes to lie further from the source's than `ASIDE`: the place in a pixel is nearer to the edge
than its middle by as much as rounding may add. An edge that did not change is left as it is."""

from __future__ import annotations

import numpy

from ..geometry.noding import Corners
from ..rounding.snap_rounding import BITS, HALF, WHOLE, meets, pixel

# parts: from an end in x and in y, and from an edge, to the corners of last year that it goes to
NEAR, ASIDE = WHOLE, 3 * HALF
AROUND = [(x, y) for x in (-1, 0, 1) for y in (-1, 0, 1) if (x, y) != (0, 0)]
MOST_STEPS = 1000  # of the search for a way


def clipped(points, pixels):
    """The nearest places in pixels to points, in parts."""
    low = (pixels << BITS) - HALF
    return numpy.clip(points, low, low + WHOLE - 1)


class Borders:
    """Last year's borders: edges between corners in whole millimetres, as rows of x, y, x, y, in any direction and
    any number of times."""

    def __init__(self, edges):
        self.corners = Corners(edges.reshape(-1, 2))
        self.points = self.corners.points
        first, last = self.corners.numbers(edges[:, :2]), self.corners.numbers(edges[:, 2:])
        self.keys = numpy.unique(numpy.concatenate([(first << 32) | last, (last << 32) | first]))
        self.starts = numpy.searchsorted(self.keys, numpy.arange(len(self.points) + 1) << 32)

    def __len__(self):
        return len(self.points)

    def conflated(self, ends, owners):
        """Edges in parts with their owners, as they are with these borders."""
        moved, corner = self.moved(ends.reshape(-1, 2))
        before, ends, corner = ends, moved.reshape(-1, 4), corner.reshape(-1, 2)
        asked = (corner >= 0).all(axis=1) & (corner[:, 0] != corner[:, 1])
        asked[asked] = ~numpy.isin((corner[asked, 0] << 32) | corner[asked, 1], self.keys)
        found, ways, is_whole = [], {}, numpy.ones(len(ends), bool)
        for one in numpy.nonzero(asked)[0].tolist():
            way = self.way_of(before[one], ends[one], corner[one], ways)
            if len(way):
                is_whole[one] = False
                places = numpy.concatenate([ends[one, :2], way.ravel(), ends[one, 2:]]).reshape(-1, 2)
                found.append((owners[one], numpy.hstack([places[:-1], places[1:]])))
        more = [numpy.full(len(edges), owner) for owner, edges in found]
        return numpy.concatenate([ends[is_whole], *(edges for _, edges in found)]), numpy.concatenate(
            [owners[is_whole], *more]
        )

    def moved(self, points):
        """Points in parts, each in the pixel of the corner that it is; and the number of that, or -1."""
        points, corner = points.copy(), self.corners.found(pixel(points))
        loose = numpy.nonzero(corner < 0)[0]
        found, least = numpy.full(len(loose), -1), numpy.full(len(loose), 2 * NEAR * NEAR + 1)
        for way in AROUND:
            beside = pixel(points[loose]) + way
            number, apart = self.corners.found(beside), numpy.abs(points[loose] - (beside << BITS))
            far = (apart**2).sum(axis=1)
            nearer = (number >= 0) & (apart <= NEAR).all(axis=1) & (far < least)
            found[nearer], least[nearer] = number[nearer], far[nearer]
        loose, found = loose[found >= 0], found[found >= 0]
        points[loose], corner[loose] = clipped(points[loose], self.points[found]), found
        return points, corner

    def way_of(self, before, after, corner, ways):
        """The places that an edge goes by, in parts, from its first end to its last: the same from both sides. It is
        known as it was, and with its ends moved."""
        if tuple(before[:2]) > tuple(before[2:]):
            return self.way_of(before[[2, 3, 0, 1]], after[[2, 3, 0, 1]], corner[::-1], ways)[::-1]
        key = tuple(corner.tolist())
        if key not in ways:
            ways[key] = self.points[self.between(*key)]
        over = ways[key]
        if (aside(before, over << BITS) > ASIDE).any():
            return over[:0]
        over = over[~meets(numpy.tile(after, (len(over), 1)), over, object)]
        return clipped(nearest(after, over << BITS), over)

    def between(self, first, last):
        """The corners between two on a way along the line from the one to the other, that which is nearest to the
        line at each step; none where no way is."""
        line = numpy.concatenate([self.points[first], self.points[last]]) << BITS
        waiting, steps = [(first, [])], 0
        while waiting and steps < MOST_STEPS:
            steps += 1
            here, way = waiting.pop()
            others = self.keys[self.starts[here] : self.starts[here + 1]] & 0xFFFFFFFF
            if last in others:
                return way
            others = others[self.lead(line, here, others)]
            far = aside(line, self.points[others] << BITS)
            waiting += [
                (int(others[one]), [*way, int(others[one])])
                for one in numpy.argsort(-far, kind="stable").tolist()
                if far[one] <= ASIDE
            ]
        return []

    def lead(self, line, here, others):
        """Which steps from a corner go on along a line, and not beyond its end."""
        way, points = (line[2:] - line[:2]).astype(float), self.points[others] << BITS
        return ((points - (self.points[here] << BITS)) @ way > 0) & ((line[2:] - points) @ way > 0)


def nearest(line, points):
    """The places of a line between two ends that are nearest to points."""
    way = (line[2:] - line[:2]).astype(float)
    share = numpy.clip((points - line[:2]).astype(float) @ way / max(way @ way, 1.0), 0.0, 1.0)
    return line[:2] + numpy.rint(share[:, None] * way).astype(int)


def aside(line, points):
    """How far points are from a line between two ends."""
    return numpy.hypot(*(points - nearest(line, points)).T.astype(float))
