"""Which edges lie along a border: no point of them is further than a width from it. By numpy: GEOS makes a buffer for
that, which takes seconds where the border has thousands of rings.

What lies within a width of one segment is convex, two discs and the rectangle between them: so it has one interval of a
line. An edge lies along the border where the intervals of all segments cover it whole, from end to end. The discs are
round, intervals reach further by `TINY`, so that those that touch join, and what is not longer than that says nothing.

Which segments are near is found by cells. A crowded one is parted into four as long as that leaves fewer pairs, and in
a cell only those make a pair that overlap across its longest line: so neither a crowd of short edges nor a bundle of
long ones costs the square of it."""

from __future__ import annotations

import numpy

from ..formats import wkb
from ..geometry.noding import PART, Rings, expanded, parts_of
from .snap_rounding import side_of

TINY = 1e-9  # metres: of doubles
CROWDED = 8  # times as many pairs as lines: such a cell is parted
GAIN = 1.25  # times as many pairs as before: where parting would leave more, it does not help
QUARTERS = (0, 0), (1, 0), (0, 1), (1, 1)
FEW = 1 << 13  # pairs: so many are looked at all, without cells
HELD = 1 << 18  # intervals that wait to be joined, at least


class Along:
    """Edges, and a border's segments, as rows of x, y, x, y in metres. `looked` counts the pairs that were looked at,
    and how often a line was put into a cell."""

    def __init__(self, edges, segments, width):
        self.width, self.looked = width, 0
        self.is_long = length_of(edges) > TINY
        about = numpy.tile(edges[0, :2], 2) if len(edges) else 0.0
        self.edges, self.segments = edges[self.is_long] - about, segments[length_of(segments) > TINY] - about

    def are(self):
        """Whether each of the edges lies along the border."""
        lies = ~self.is_long
        lies[self.is_long] = self.covered()
        return lies

    def covered(self):
        """Whether each edge with a length is within the width of segments from end to end."""
        whole = numpy.zeros(len(self.edges), bool)
        found, waiting = (numpy.zeros(0, int), numpy.zeros(0), numpy.zeros(0)), []
        for edge, segment in self.pairs():
            waiting.append(self.intervals(edge, segment, whole))
            if sum(len(edge) for edge, *_ in waiting) > max(HELD, len(found[0])):
                found, waiting = joined(*map(numpy.concatenate, zip(found, *waiting))), []
        edge, low, high = joined(*map(numpy.concatenate, zip(found, *waiting)))
        whole[edge[(low <= 0) & (high >= 1)]] = True
        return whole

    def intervals(self, edge, segment, whole):
        """Of pairs, each edge and from which to which share of it is within the width of the segment: where that is
        all of it, it is set in `whole`."""
        self.looked += len(edge)
        asked = ~whole[edge]
        edge, segment = edge[asked], segment[asked]
        near = self.are_near(self.edges[edge], self.segments[segment])
        edge, segment = edge[near], segment[near]
        edges = self.edges[edge]
        low, high = within(edges, self.segments[segment], self.width)
        room = TINY / length_of(edges)
        low, high = numpy.maximum(low - room, 0.0), numpy.minimum(high + room, 1.0)
        whole[edge[(low <= 0) & (high >= 1)]] = True
        some = (low <= high) & ~whole[edge]
        return edge[some], low[some], high[some]

    def are_near(self, edges, segments):
        """Whether the boxes of pairs come within the width of each other."""
        near = numpy.ones(len(edges), bool)
        for axis in (0, 1):
            apart = numpy.abs(edges[:, axis] + edges[:, axis + 2] - segments[:, axis] - segments[:, axis + 2])
            sizes = numpy.abs(edges[:, axis + 2] - edges[:, axis]) + numpy.abs(
                segments[:, axis + 2] - segments[:, axis]
            )
            near &= apart <= sizes + 2 * (self.width + TINY)
        return near

    def pairs(self):
        """Pairs of an edge and a segment that may be near, some at a time."""
        if not len(self.edges) or not len(self.segments):
            return
        if len(self.edges) * len(self.segments) <= FEW:
            edge, segment = numpy.indices((len(self.edges), len(self.segments)))
            yield edge.ravel(), segment.ravel()
            return
        ends, lines = self.edges.reshape(-1, 2), (self.edges, self.segments)
        all_of_them = [(numpy.zeros(len(some), int), numpy.arange(len(some))) for some in lines]
        cells = Cells(lines, ends.min(axis=0)[None], float(numpy.ptp(ends, axis=0).max()), self.width, all_of_them)
        while len(cells.corners):
            self.looked += sum(len(line) for _, line in cells.entries)
            whole, cells = cells.parted()
            if len(whole.corners):
                yield from whole.overlapping()


class Cells:
    """Square cells of one size, by their lower left corners, and for each of two lists of lines the pairs of a cell and
    a line: one of the first that meets it, or one of the second that comes within a width of it."""

    def __init__(self, lines, corners, side, width, entries):
        self.lines, self.corners, self.side, self.width, self.entries = lines, corners, side, width, entries

    def quartered(self):
        """The quarters of all cells."""
        half = self.side / 2
        corners = (self.corners[:, None] + numpy.array(QUARTERS) * half).reshape(-1, 2)
        entries = [
            self.in_quarters(lines, half / 2 + width, *entry)
            for lines, width, entry in zip(self.lines, (TINY, self.width + TINY), self.entries)
        ]
        return Cells(self.lines, corners, half, self.width, entries)

    def in_quarters(self, lines, reach, cell, line):
        """The pairs of a quarter and a line that comes within a reach of its middle in x and in y."""
        found = [(numpy.zeros(0, int), numpy.zeros(0, int))]
        for start in range(0, len(cell), PART):
            cells, numbers = cell[start : start + PART], line[start : start + PART]
            ends, corners = lines[numbers], self.corners[cells]
            dx, dy = ((ends[:, k + 2] - ends[:, k]) / 2 for k in (0, 1))
            # from the middle of the first quarter
            x, y = ((ends[:, k] + ends[:, k + 2]) / 2 - corners[:, k] - self.side / 4 for k in (0, 1))
            wide, high = numpy.abs(dx), numpy.abs(dy)
            for quarter, (right, up) in enumerate(QUARTERS):
                u, v = x - right * self.side / 2, y - up * self.side / 2
                near = (
                    (numpy.abs(u) <= wide + reach)
                    & (numpy.abs(v) <= high + reach)
                    & (numpy.abs(dx * v - dy * u) <= reach * (wide + high))
                )
                found.append((4 * cells[near] + quarter, numbers[near]))
        return tuple(map(numpy.concatenate, zip(*found)))

    def counts(self):
        """How many pairs of lines each cell has, and how many lines."""
        one, other = (numpy.bincount(cell, minlength=len(self.corners)) for cell, _ in self.entries)
        return one * other, one + other

    def only(self, kept):
        """Some of the cells."""
        number = numpy.cumsum(kept) - 1
        return Cells(
            self.lines,
            self.corners[kept],
            self.side,
            self.width,
            [(number[cell[kept[cell]]], line[kept[cell]]) for cell, line in self.entries],
        )

    def parted(self):
        """The cells that stay whole, and the quarters of the others. Those without a pair go."""
        pairs, lines = self.counts()
        crowded = (pairs > CROWDED * lines) & (self.side > self.width)
        quarters = self.only(crowded).quartered()
        helps = quarters.counts()[0].reshape(-1, 4).sum(axis=1) <= GAIN * pairs[crowded]
        whole = pairs > 0
        whole[numpy.nonzero(crowded)[0][helps]] = False
        return self.only(whole), quarters.only(numpy.repeat(helps, 4))

    def overlapping(self):
        """Pairs of one line of each list that share a cell, and come within the width of each other across its
        longest line: some at a time."""
        across = self.across()
        (begin, end, edge), (first, last, segment) = (self.spans(across, number) for number in (0, 1))
        for one, other in among(first, begin, end, "left"):  # segments that begin over an edge
            yield edge[one], segment[other]
        for one, other in among(begin, first, last, "right"):  # edges that begin over a segment, behind its beginning
            yield edge[other], segment[one]

    def across(self):
        """The direction at right angles to the longest line of each cell."""
        cell = numpy.concatenate([cell for cell, _ in self.entries])
        ends = numpy.concatenate([lines[line] for lines, (_, line) in zip(self.lines, self.entries)])
        length = length_of(ends)
        order = numpy.lexsort((length, cell))
        longest = order[numpy.searchsorted(cell[order], numpy.arange(len(self.corners)), "right") - 1]
        way = (ends[longest, 2:] - ends[longest, :2]) / length[longest, None]
        return numpy.stack([-way[:, 1], way[:, 0]], axis=1)

    def spans(self, across, number):
        """Of one of the lists the least and the greatest that each line has in the direction of its cell, and the line,
        in order. Keys are complex numbers, whose order is that of cells and then of places."""
        cell, line = self.entries[number]
        ends, corners, way = self.lines[number][line], self.corners[cell], across[cell]
        places = [dot(ends[:, k : k + 2] - corners, way) for k in (0, 2)]
        room = self.width / 2 + TINY
        begin, end = numpy.empty(len(cell), complex), numpy.empty(len(cell), complex)
        begin.real, begin.imag, end.real, end.imag = (
            cell,
            numpy.minimum(*places) - room,
            cell,
            numpy.maximum(*places) + room,
        )
        order = numpy.argsort(begin)
        return begin[order], end[order], line[order]


def among(places, begin, end, side):
    """Which of some places, in order, lie from a beginning to an end: pairs of the span's number and the place's,
    some at a time."""
    low = numpy.searchsorted(places, begin, side)
    counts = numpy.searchsorted(places, end, "right") - low
    for start, stop in parts_of(counts, PART):
        span, step = expanded(counts[start:stop])
        yield start + span, low[start + span] + step


def within(edges, segments, width):
    """From which to which share of each edge's line it is within a width of its segment; where it is nowhere, the
    first is greater."""
    way, line, begin = edges[:, 2:] - edges[:, :2], segments[:, 2:] - segments[:, :2], edges[:, :2] - segments[:, :2]
    length, size = numpy.hypot(*way.T), numpy.hypot(*line.T)
    low, high = shares(dot(begin, line) / size, dot(way, line) / size, 0.0, size)  # of the rectangle
    least, most = shares(side_of(line, begin) / size, side_of(line, way) / size, -width, width)
    low, high = numpy.maximum(low, least), numpy.minimum(high, most)
    low, high = numpy.where(low > high, numpy.inf, low), numpy.where(low > high, -numpy.inf, high)
    for k in (0, 2):  # of the discs
        to = segments[:, k : k + 2] - edges[:, :2]
        middle, beside = dot(to, way) / length**2, side_of(way, to) / length
        half, met = numpy.sqrt(numpy.maximum(width**2 - beside**2, 0.0)) / length, numpy.abs(beside) <= width
        low, high = numpy.where(met, numpy.minimum(low, middle - half), low), numpy.where(
            met, numpy.maximum(high, middle + half), high
        )
    return low, high


def shares(start, slope, least, most):
    """From where to where what starts at 0 and goes on at a slope lies between two bounds."""
    with numpy.errstate(divide="ignore", invalid="ignore", over="ignore"):
        one, other = (least - start) / slope, (most - start) / slope
    far = numpy.where((start >= least) & (start <= most), numpy.inf, -numpy.inf)
    level = slope == 0
    return numpy.where(level, -far, numpy.minimum(one, other)), numpy.where(level, far, numpy.maximum(one, other))


def joined(edge, low, high):
    """Intervals of edges as those that are apart, in order."""
    edges, places, steps = (
        numpy.concatenate([edge, edge]),
        numpy.concatenate([low, high]),
        numpy.repeat([1, -1], len(edge)),
    )
    order = numpy.lexsort((-steps, places, edges))  # what begins comes before what ends there
    over = numpy.cumsum(steps[order])
    begins, ends = order[(over == 1) & (steps[order] == 1)], order[over == 0]
    return edges[begins], places[begins], places[ends]


def dot(one, other):
    return one[:, 0] * other[:, 0] + one[:, 1] * other[:, 1]


def length_of(lines):
    return numpy.hypot(lines[:, 2] - lines[:, 0], lines[:, 3] - lines[:, 1])


def edges_of(polygons):
    """The edges of polygons of Shapely, as rows of x, y, x, y, and the number of the polygon that each is of."""
    if not polygons:
        return numpy.zeros((0, 4)), numpy.zeros(0, int)
    rings = Rings([wkb.Found.of_blob(wkb.several(polygon.wkb)) for polygon in polygons])
    first, ring = rings.ways()
    return numpy.hstack([rings.points[first], rings.points[first + 1]]), rings.owners[ring]
