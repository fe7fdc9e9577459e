"""The borders of land that nobody has, as ways along it, of which each cell writes those beside its parcels: with
nobody to the left, and a parcel to the right of each edge. A way ends where another cell's parcel follows, and where a
line ends within the land: a part of a parcel that is wide in the whole may have no width in a cell, so what goes on
there is told by the ways of all cells. Most ways are closed."""

from __future__ import annotations

import json
import math
from itertools import groupby

import numpy

from ..rounding import overlay
from ..rounding.gaps import Names
from ..rounding.facing_borders import straightened

KIND = "way"


def ways_of(made, wanted):
    """The records of a rounded map's ways beside the parcels that are wanted."""
    held, network = made.held(), made.network
    rings = overlay.Rings(
        made.faces, numpy.where(numpy.array([name is None for name in held], bool), 0, overlay.NOBODY)
    )
    names = [held[there] for there in made.faces.cycle[rings.halves ^ 1].tolist()]
    own = numpy.array([name in wanted for name in names], bool)
    a, b = (network.points[made.faces.start[some]] for some in (rings.halves, rings.halves ^ 1))
    for way, is_closed in walked(own, own & own[rings.following] & rings.is_clear, rings.following):
        points = numpy.concatenate([a[way], b[way[-1:]]])
        runs = [(name, len(list(some))) for name, some in groupby(names[one] for one in way)]
        yield KIND, head_of(points, is_closed), [name for name, _ in runs], [
            count for _, count in runs
        ], points.ravel().tolist()


def walked(own, goes_on, following):
    """The ways over what is own, each with whether it is closed: first those that begin where none goes on. A closed
    one begins at its least."""
    behind = numpy.zeros(len(own), bool)
    behind[following[goes_on]] = True
    goes, after, seen = goes_on.tolist(), following.tolist(), [False] * len(own)
    for first in [*numpy.nonzero(own & ~behind)[0].tolist(), *numpy.nonzero(own)[0].tolist()]:
        way, at = [], first
        while not seen[at]:
            seen[at] = True
            way.append(at)
            at = after[at] if goes[at] else at
        if way:
            yield way, goes[way[-1]]


def head_of(points, is_closed):
    """What is known of a way without its points: whether it is closed, its part of a ring's doubled area, its length
    in metres, its box, and its first and last edge."""
    base, ways = points[0], numpy.diff(points, axis=0)
    about = points - base if numpy.ptp(points, axis=0).max() < 1 << 30 else (points - base).astype(object)
    doubled = sum((about[:-1, 0] * about[1:, 1] - about[1:, 0] * about[:-1, 1]).tolist())
    (x, y), (dx, dy) = base.tolist(), (points[-1] - base).tolist()
    return [
        int(is_closed),
        doubled + x * dy - y * dx,
        math.fsum(numpy.hypot(*ways.T.astype(float)).tolist()) / 1000,
        *points.min(axis=0).tolist(),
        *points.max(axis=0).tolist(),
        *points[:2].ravel().tolist(),
        *points[-2:].ravel().tolist(),
    ]


class Way:
    """A way that was read: its edges from a to b, and the name beside each of them."""

    def __init__(self, line):
        kind, head, runs, counts, points = json.loads(line)
        if kind != KIND:
            raise ValueError(kind)
        points = numpy.array(points, numpy.int64).reshape(-1, 2)
        self.a, self.b = points[:-1], points[1:]
        names = Names(runs)
        self.all, self.whose = names.all, numpy.repeat(names.numbers, counts)
        self.following = numpy.arange(1, len(points))
        self.following[-1] = 0 if head[0] else -1

    def names(self, whose):
        return [self.all[number] for number in whose.tolist()]

    def lines(self):
        """The edges with lines in place of short ones in a row, and the names beside them."""
        a, b, whose = straightened(self.a, self.b, self.whose, self.following)
        return a, b, self.names(whose)


class Files:
    """The ways of the cells, by the files that have them."""

    def __init__(self, path_of):
        self.path_of, self.cell, self.file = path_of, None, None

    def read(self, cell, at):
        if cell != self.cell:
            self.close()
            self.cell, self.file = cell, open(self.path_of(cell), "rb")
        self.file.seek(at)
        return Way(self.file.readline())

    def close(self):
        if self.file:
            self.file.close()
        self.cell = self.file = None
