"""Whether polygons of tables are those of a source with each point rounded: of many at once by numpy, and of those
that this leaves open one by one."""

from __future__ import annotations

from itertools import chain

import numpy

from ..geometry.noding import Rings
from .snap_rounding import pixel_of, pixels_of

PIXEL = 0.75  # millimetres from an edge to a corner that it takes
SURE = 1 - 1e-9  # of that: doubles of numpy and of Python may differ in their last digits
BITS = 26  # of a coordinate about its shape's first corner: 67 km
AT_ONCE = 2048  # shapes, so that all of a point is a number of 63 bits


def are_rounded(pairs):
    """Of pairs, a shape's polygons in metres and those in whole millimetres that stand in a table, whether
    `is_rounded` says yes."""
    answers = []
    for start in range(0, len(pairs), AT_ONCE):
        some = pairs[start : start + AT_ONCE]
        try:
            are_sure = Following(some).are()
        except OverflowError:  # a table of somebody has numbers that no map has
            are_sure = [False] * len(some)
        answers += [sure or is_rounded(found.members, members) for (found, members), sure in zip(some, are_sure)]
    return answers


class Following:
    """Shapes whose corners are all different, and how the rings of tables walk over them. `corner` has the place of
    each table's point among the corners."""

    def __init__(self, pairs):
        source = Rings([found for found, _ in pairs])
        last = numpy.zeros(len(source.points), bool)
        last[source.starts + source.sizes - 1] = True
        self.corners, self.ring_sizes, self.ring_rows = source.points[~last], source.sizes - 1, source.owners
        self.starts = numpy.cumsum(self.ring_sizes) - self.ring_sizes
        self.ring_of = numpy.repeat(numpy.arange(len(self.ring_sizes)), self.ring_sizes)
        ways = [(row, ring) for row, (_, members) in enumerate(pairs) for member in members for ring in member]
        self.way_rows, self.way_sizes = numpy.array([row for row, _ in ways], int), numpy.array(
            [len(ring) - 1 for _, ring in ways], int
        )
        self.points = numpy.array(
            list(chain.from_iterable(chain.from_iterable(ring[:-1] for _, ring in ways))), numpy.int64
        ).reshape(-1, 2)
        self.way_of = numpy.repeat(numpy.arange(len(ways)), self.way_sizes)
        self.is_sure = numpy.bincount(self.ring_rows, minlength=len(pairs)) == numpy.bincount(
            self.way_rows, minlength=len(pairs)
        )
        self.is_sure[self.ring_rows[self.ring_sizes < 3]] = False

    def are(self):
        """Whether each is sure to be rounded."""
        if len(self.points) and len(self.corners):
            self.meet()
            self.walk()
        else:
            self.is_sure[:] = False
        return self.is_sure.tolist()

    def doubt(self, rows, condition):
        self.is_sure[rows[condition]] = False

    def meet(self):
        """Finds the corner at each point, and leaves open shapes of which a corner is there twice, or is not once in
        the table."""
        rows, rows_there = self.ring_rows[self.ring_of], self.way_rows[self.way_of]
        pixels = pixels_of(self.corners)
        about = numpy.zeros((len(self.is_sure), 2), numpy.int64)
        about[rows[::-1]] = pixels[::-1]
        keys, keys_there = self.keys(rows, pixels - about[rows]), self.keys(rows_there, self.points - about[rows_there])
        order = numpy.argsort(keys, kind="stable")
        ordered = keys[order]
        self.doubt(rows[order[1:]], ordered[1:] == ordered[:-1])
        places = numpy.minimum(numpy.searchsorted(ordered, keys_there), len(ordered) - 1)
        self.is_corner = ordered[places] == keys_there
        self.corner = order[places]
        self.doubt(rows, numpy.bincount(self.corner[self.is_corner], minlength=len(keys)) != 1)

    def keys(self, rows, offsets):
        """A number for each point of each row. Of a point too far off the row is left open."""
        half = 1 << (BITS - 1)
        is_far = ((offsets < -half) | (offsets >= half)).any(axis=1)
        self.doubt(rows, is_far)
        offsets = numpy.where(is_far[:, None], 0, offsets) + half
        return (rows << 2 * BITS) | (offsets[:, 0] << BITS) | offsets[:, 1]

    def walk(self):
        """Leaves open shapes of whose rings one does not come to the corners of one ring, in order, or over a point
        that is not beside the edge there."""
        met = numpy.nonzero(self.is_corner)[0]
        counts = numpy.bincount(self.way_of[met], minlength=len(self.way_sizes))
        self.doubt(self.way_rows, counts == 0)
        first = numpy.cumsum(counts) - counts
        following = numpy.arange(1, len(met) + 1)
        following[(first + counts - 1)[counts > 0]] = first[counts > 0]  # behind the last the first again
        corner, way = self.corner[met], self.way_of[met]
        ring, after = self.ring_of[corner], corner[following]
        size = self.ring_sizes[ring]
        self.doubt(self.way_rows[way], (self.ring_of[after] != ring) | (counts[way] != size))
        step = (after - corner) % size
        forwards, backwards = (numpy.bincount(way, step == which, len(counts)) == counts for which in (1, size - 1))
        self.doubt(self.way_rows, ~(forwards | backwards))
        others = numpy.nonzero(~self.is_corner & (counts > 0)[self.way_of])[0]
        of = self.way_of[others]
        before = numpy.cumsum(self.is_corner)[others] - 1
        before = numpy.where(before < first[of], first[of] + counts[of] - 1, before)
        one, other = corner[before], after[before]
        is_along = forwards[of]
        ends = numpy.where(is_along, one, other), numpy.where(is_along, other, one)
        self.doubt(self.way_rows[of], ~are_beside(self.points[others], *(self.corners[end] * 1000 for end in ends)))


def are_beside(points, starts, ends):
    """Whether each point is sure to be beside an edge, as `is_beside` tells."""
    (px, py), (ax, ay), (bx, by) = points.T, starts.T, ends.T
    dx, dy = bx - ax, by - ay
    square = dx * dx + dy * dy
    room = SURE * PIXEL * numpy.sqrt(square)
    along = (px - ax) * dx + (py - ay) * dy
    return (-room <= along) & (along <= square + room) & (numpy.abs((px - ax) * dy - (py - ay) * dx) <= room)


def is_rounded(before, after):
    """Whether polygons in millimetres are others with each point rounded, and with corners more that lie on their edges
    within a pixel: quick, and only a yes counts. What changed is then no more than the border's length has room for."""
    rings, ways = [corners_of(ring) for member in before for ring in member], [
        ring[:-1] for member in after for ring in member
    ]
    if len(rings) != len(ways) or any(len(corners) < 3 for corners in rings):
        return False
    starts = {corners[0][0]: [] for corners in rings}
    for way in ways:
        for place, point in enumerate(way):
            if point in starts:
                starts[point].append((way, place))
    return all(any(walks(corners, way, place) for way, place in starts[corners[0][0]]) for corners in rings)


def corners_of(ring):
    """The different corners of a ring one after the other, each rounded and in millimetres as it was."""
    corners = []
    for x, y in ring[:-1]:
        point = pixel_of(x), pixel_of(y)
        if not corners or corners[-1][0] != point:
            corners.append((point, (x * 1000, y * 1000)))
    while len(corners) > 1 and corners[-1][0] == corners[0][0]:
        corners.pop()
    return corners


def walks(corners, way, place):
    """Whether a way goes along the corners, from a place in it on and either way round."""
    turned = way[place:] + way[:place]
    return goes_along(corners, turned) or goes_along(corners, turned[:1] + turned[:0:-1])


def goes_along(corners, way):
    """Whether a way from the first corner goes over all corners, in order, and else over points beside the edges
    alone."""
    at, count = 0, len(corners)
    for point in [*way[1:], way[0]]:
        if at == count:
            return False
        if point == corners[(at + 1) % count][0]:
            at += 1
        elif not is_beside(point, corners[at][1], corners[(at + 1) % count][1]):
            return False
    return at == count


def is_beside(point, a, b):
    dx, dy = b[0] - a[0], b[1] - a[1]
    square = dx * dx + dy * dy
    along = (point[0] - a[0]) * dx + (point[1] - a[1]) * dy
    return (
        -PIXEL * square**0.5 <= along <= square + PIXEL * square**0.5
        and abs((point[0] - a[0]) * dy - (point[1] - a[1]) * dx) <= PIXEL * square**0.5
    )
