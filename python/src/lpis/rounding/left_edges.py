"""Which edge lies next to the left of a place, for many places at once, among edges that meet at corners alone. Exact:
in whole numbers, and in fractions where two edges are near one another. Cells are quick where edges are spread out;
where they lie in heaps, or far from the places, a line that goes upward over all of them finds what is left, in the
time of a sort."""

from __future__ import annotations

from fractions import Fraction

import numpy

from ..geometry.noding import WIDE, expanded, key_of, keys_along, parts_of, side_of, size_of_cells

NONE = -1
NEAR = 0.01  # millimetres: places on a line that doubles may take for one another
MOST = 32  # edges that are looked at for each edge and each place before the rest is swept
TURN = 256  # what each turn over the places that wait counts besides


class Leftward:
    """Edges (x, y, x, y in whole millimetres) by the cells that they go through. A place is taken a little above
    where it is, so that no edge ends there."""

    def __init__(self, edges):
        upward = edges[:, 1] <= edges[:, 3]
        self.edges = numpy.where(upward[:, None], edges, edges[:, [2, 3, 0, 1]])
        self.side, self.looked = size_of_cells(edges), 0
        steep = numpy.nonzero(self.edges[:, 1] != self.edges[:, 3])[0]
        edge, cells = keys_along(self.edges[steep][:, [1, 0, 3, 2]], self.side)
        order = numpy.argsort(cells, kind="stable")
        self.edge, cells = steep[edge[order]], cells[order]
        self.cells, self.starts = numpy.unique(cells, return_index=True)
        self.counts = numpy.diff(numpy.append(self.starts, len(cells)))

    def next_to(self, places):
        """The number of the next edge to the left of each place, or NONE. No edge goes through a place."""
        found, best = numpy.full(len(places), NONE), numpy.full(len(places), -numpy.inf)
        row, column = places[:, 1] // self.side, places[:, 0] // self.side
        cell = numpy.searchsorted(self.cells, key_of(row, column), "right") - 1
        waiting = numpy.arange(len(places))
        while True:
            waiting = waiting[cell[waiting] >= 0]
            key = self.cells[cell[waiting]]
            end = (key - key_of(row[waiting], 0) + 1) * self.side + NEAR  # of the cell, to its right
            waiting = waiting[((key + (1 << 31)) >> 32 == row[waiting]) & (end >= best[waiting])]
            if not len(waiting):
                return found
            more = TURN + len(waiting) + int(self.counts[cell[waiting]].sum())
            if self.looked + more > MOST * (len(self.edges) + len(places) + TURN):
                found[waiting] = swept(self.edges, places[waiting])
                return found
            self.looked += more
            self.look(waiting, cell[waiting], places, found, best)
            cell[waiting] -= 1

    def look(self, waiting, cell, places, found, best):
        """Looks at the edges of one cell for each place that is waiting."""
        for low, high in parts_of(self.counts[cell]):
            which, step = expanded(self.counts[cell[low:high]])
            edge, place = self.edge[self.starts[cell[low:high][which]] + step], waiting[low:high][which]
            y = places[place, 1]
            spans = (self.edges[edge, 1] <= y) & (self.edges[edge, 3] > y)
            edge, place = edge[spans], place[spans]
            lines, points = self.edges[edge], places[place]
            if (
                len(lines)
                and max(numpy.abs(lines[:, 2:] - lines[:, :2]).max(), numpy.abs(points - lines[:, :2]).max())
                >= WIDE // 2
            ):
                lines, points = lines.astype(object), points.astype(object)
            left = (side_of(lines, points) < 0).astype(bool)
            self.take(edge[left], place[left], places, found, best)

    def take(self, edge, place, places, found, best):
        """Takes the next ones of some edges to the left of places."""
        lines = self.edges[edge].astype(float)
        x = lines[:, 0] + (places[place, 1] - lines[:, 1]) / (lines[:, 3] - lines[:, 1]) * (lines[:, 2] - lines[:, 0])
        _, first, which = numpy.unique(place, return_index=True, return_inverse=True)
        most = best[place[first]]
        numpy.maximum.at(most, which, x)
        near = x >= most[which] - NEAR
        edge, place, x = edge[near], place[near], x[near]
        for one, where, at in sorted(zip(edge.tolist(), place.tolist(), x.tolist()), key=lambda found: found[2]):
            if (
                found[where] == NONE
                or at > best[where] + NEAR
                or self.exact(one, places[where]) > self.exact(found[where], places[where])
            ):
                found[where] = one
            best[where] = max(best[where], at)

    def exact(self, edge, place):
        """Where an edge passes a place's level, and how it goes on above it: what is greater lies further to the
        right."""
        ax, ay, bx, by = self.edges[edge].tolist()
        slope = Fraction(bx - ax, by - ay)
        return ax + (int(place[1]) - ay) * slope, slope


def swept(edges, places):
    """The number of the next edge to the left of each place, or NONE, of edges that lead upward. The line has the
    edges that it goes through in order."""
    levels = numpy.unique(places[:, 1])
    numbers = numpy.nonzero(numpy.searchsorted(levels, edges[:, 1]) < numpy.searchsorted(levels, edges[:, 3]))[0]
    lines, found, crossed = edges[numbers].tolist(), numpy.full(len(places), NONE), []
    for (y, kind, x), some in events_of(lines, places.tolist()):
        at = behind(crossed, lines, x, y)
        if kind == ENDS:
            del crossed[at : at + len(some)]
        elif kind == BEGINS:
            crossed[at:at] = (
                some
                if len(some) == 1
                else sorted(
                    some, key=lambda one: Fraction(lines[one][2] - lines[one][0], lines[one][3] - lines[one][1])
                )
            )
        elif at:
            found[some] = numbers[crossed[at - 1]]
    return found


ENDS, BEGINS, ASKED = range(3)


def events_of(lines, places):
    """What the line meets on its way upward: where edges end, then where some begin, then places, each with all that
    are there."""
    events = {}
    for number, (ax, ay, bx, by) in enumerate(lines):
        events.setdefault((ay, BEGINS, ax), []).append(number)
        events.setdefault((by, ENDS, bx), []).append(number)
    for number, (x, y) in enumerate(places):
        events.setdefault((y, ASKED, x), []).append(number)
    return sorted(events.items())


def behind(crossed, lines, x, y):
    """How many edges of a line lie left of a place on it."""
    low, high = 0, len(crossed)
    while low < high:
        middle = (low + high) // 2
        ax, ay, bx, by = lines[crossed[middle]]
        if (bx - ax) * (y - ay) < (by - ay) * (x - ax):
            low = middle + 1
        else:
            high = middle
    return low
