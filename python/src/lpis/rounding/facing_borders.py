"""Which borders face each other over land that nobody has, up to a width: over each place of a border, at right angles,
the nearest other one. What is near is looked for first, and further away only over the places where nothing was
found: so what lies behind is not looked at, however wide the search is."""

from __future__ import annotations

import numpy

from ..geometry.noding import PART, cells_along, expanded, key_of, parts_of, size_of_cells

OPPOSITE = -0.866  # of two borders' directions: they face each other within thirty degrees
TINY = 1e-6  # millimetres, of doubles
LEAST = 16  # millimetres: the side of a cell, and half of what is looked at first
# millimetres: borders whose direction rounding has changed, and how far from a line that stands for them
SHORT, ASIDE, LONGEST = 20.0, 1.5, 200.0
# pairs of a place and a border in a cell of its land that are looked at, in all or for each border
MOST_NEAR, NEAR_EACH = 1 << 26, 400
MOST_OVER, OVER_EACH = 1 << 20, 64  # such pairs of which the border lies over the place


class Facing:
    """Borders from a to b (in millimetres), with nobody's land to their left, and the number of whom each one
    belongs to."""

    def __init__(self, a, b, whose):
        order = numpy.lexsort((*b.T, *a.T))  # so that nothing hangs on where else borders are
        a, b = a[order], b[order]
        self.a, self.b, self.whose, self.looked = a, b, whose[order].tolist(), 0
        self.length = numpy.hypot(*(b - a).T)
        self.along = (b - a) / self.length[:, None]
        self.normal = numpy.stack([-self.along[:, 1], self.along[:, 0]], axis=1)
        self.frames = numpy.hstack([a, self.along]).tolist()
        self.edges = numpy.hstack([a, b])
        self.side = size_of_cells(self.edges, LEAST)
        # how many places of each one's borders were left out, where borders lie in heaps
        self.most_over, self.unsearched = max(MOST_OVER, OVER_EACH * len(a)), {}

    def strips(self, most):
        """Whose border lies next to whose, a polygon of the land between in metres, and how often its depth has its
        width: by the borders, and along each."""
        found, width = [], min(most, 2 * self.side)
        waiting = [(number, 0.0, length) for number, length in enumerate(self.length.tolist())]
        while waiting:
            left = []
            self.fill(width)
            for start in range(0, len(waiting), PART):
                left += self.look(waiting[start : start + PART], width, found)
            waiting, width = left if width < most else [], min(most, 2 * width)
        for border, owner, pieces in in_a_row(sorted(found), self.whose):
            yield self.whose[border], owner, self.polygon(border, pieces), max(max(piece[2:4]) for piece in pieces) / (
                pieces[-1][1] - pieces[0][0]
            )

    def look(self, waiting, width, found):
        """Adds what faces some places, (border, from, to), up to a width: how far it is at both ends, and which
        line. Gives those that nothing faces."""
        one, low, high = (numpy.array(some) for some in zip(*waiting))
        item, other = self.near(one, low, high, width)
        e = one[item]
        u1, v1, u2, v2 = (
            ((ends[other] - self.a[e]) * axis[e]).sum(axis=1)
            for ends in (self.a, self.b)
            for axis in (self.along, self.normal)
        )
        over = (
            (numpy.minimum(u1, u2) < high[item] - TINY)
            & (numpy.maximum(u1, u2) > low[item] + TINY)
            & (numpy.minimum(v1, v2) < width)
            & (numpy.maximum(v1, v2) > TINY)
        )
        facing = ((self.normal[e] * self.normal[other]).sum(axis=1) <= OPPOSITE)[over].tolist()
        lines, others = numpy.stack([u1, v1, u2, v2], axis=1)[over].tolist(), other[over].tolist()
        is_kept = self.kept(one, numpy.bincount(item[over], minlength=len(one)), self.most_over)
        self.most_over -= int(numpy.count_nonzero(is_kept[item[over]]))
        starts = numpy.searchsorted(item[over], numpy.arange(len(waiting) + 1)).tolist()
        left, waiting = [], [place if kept else None for place, kept in zip(waiting, is_kept.tolist())]
        for place, start, behind in zip(waiting, starts, starts[1:]):
            border, begin, end = place or (0, 0.0, 0.0)
            for number, *piece in envelope(lines[start:behind], begin, end, width) if place else ():
                if number is None:
                    left.append((border, *piece))
                elif facing[start + number] and self.whose[others[start + number]] != self.whose[border]:
                    found.append((border, *piece, others[start + number]))
        return left

    def kept(self, one, loads, most):
        """Which places of borders are looked at, of which each has so much to look at. The others are told."""
        is_kept = within(loads, most)
        for border in one[~is_kept].tolist():
            self.unsearched[self.whose[border]] = self.unsearched.get(self.whose[border], 0) + 1
        return is_kept

    def polygon(self, border, pieces):
        """What lies over a part of a border, up to lines one after the other."""
        x, y, dx, dy = self.frames[border]
        corners = [
            (pieces[-1][1], 0.0),
            *(
                (u, v)
                for low, high, at_low, at_high, _ in reversed(pieces)
                for u, v in ((high, at_high), (low, at_low))
            ),
            (pieces[0][0], 0.0),
        ]
        return [((x + u * dx - v * dy) / 1000, (y + u * dy + v * dx) / 1000) for u, v in corners]

    def fill(self, width):
        """The borders by the cells that they go through, of a size that suits a width."""
        self.cell = int(max(self.side, width / 8))
        edge, column, row = cells_along(self.edges, self.cell)
        key = key_of(column, row)
        order = numpy.argsort(key, kind="stable")
        self.keys, self.held = key[order], edge[order]

    def near(self, one, low, high, width):
        """Pairs of a place and a border that may lie over it within a width, in order: by the cells that the land
        over the place meets."""
        p, q = (self.a[one] + self.along[one] * at[:, None] for at in (low, high))
        far = self.normal[one] * width
        # lines across, no further from one another than a cell is wide
        item, step = expanded(((high - low) // self.cell).astype(int) + 2)
        across = p[item] + (q - p)[item] * (step / (((high - low) // self.cell)[item] + 1))[:, None]
        numbers = numpy.arange(len(one))
        line, column, row = cells_along(
            numpy.concatenate(
                [numpy.hstack([p, q]), numpy.hstack([p + far, q + far]), numpy.hstack([across, across + far[item]])]
            ),
            self.cell,
        )
        key, asked = key_of(column, row), numpy.concatenate([numbers, numbers, item])[line]
        key, asked = unique_pairs(key, asked)
        first = numpy.searchsorted(self.keys, key)
        counts = numpy.searchsorted(self.keys, key, "right") - first
        is_kept = self.kept(
            one, numpy.bincount(asked, counts, len(one)), max(MOST_NEAR, NEAR_EACH * len(self.a)) - self.looked
        )[asked]
        first, counts, asked = first[is_kept], counts[is_kept], asked[is_kept]
        self.looked += len(key) + int(counts.sum())
        corners = numpy.stack([p, q, p + far, q + far])
        least, most = corners.min(axis=0) - TINY, corners.max(axis=0) + TINY
        pairs = [numpy.zeros(0, int)]
        for start, end in parts_of(counts):
            which, step = expanded(counts[start:end])
            place, other = asked[start:end][which], self.held[first[start:end][which] + step]
            apart = one[place] == other
            for axis in (0, 1):
                apart |= (numpy.minimum(self.a[other, axis], self.b[other, axis]) > most[place, axis]) | (
                    numpy.maximum(self.a[other, axis], self.b[other, axis]) < least[place, axis]
                )
            pairs.append(numpy.unique((place[~apart] << 32) | other[~apart]))
        pairs = numpy.unique(numpy.concatenate(pairs))
        return pairs >> 32, pairs & 0xFFFFFFFF


def within(loads, most):
    """Which of some loads are taken, the least first, so that they are together at most so many."""
    order, is_taken = numpy.argsort(loads, kind="stable"), numpy.ones(len(loads), bool)
    is_taken[order] = numpy.cumsum(loads[order]) <= most
    return is_taken


def straightened(a, b, whose, following):
    """The borders with one in place of those that are short, lie in a row beside one line, and are the same one's.
    `following` has the next border of each, or -1."""
    short = numpy.hypot(*(b - a).T) < SHORT
    goes_on = (following >= 0) & short & short[following] & (whose == whose[following])
    if not goes_on.any():
        return a, b, whose
    behind = numpy.zeros(len(a), bool)
    behind[following[goes_on]] = True
    ends, seen, lines = numpy.hstack([a, b]).tolist(), numpy.zeros(len(a), bool), []
    goes, after = goes_on.tolist(), following.tolist()
    for first in [*numpy.nonzero(~behind)[0].tolist(), *range(len(a))]:
        way, at = [ends[first][:2]], first
        while not seen[at]:
            seen[at] = True
            way.append(ends[at][2:])
            at = after[at] if goes[at] else at
        lines += [(first, *way[start], *way[end]) for start, end in along(way)]
    lines.sort(key=lambda line: line[0])
    number, lines = numpy.array([line[0] for line in lines]), numpy.array([line[1:] for line in lines])
    return lines[:, :2], lines[:, 2:], whose[number]


def along(way):
    """The corners of a way that stay, by pairs: all between two of them lie beside the line between these."""
    start = 0
    while start < len(way) - 1:
        end = start + 1
        while end < len(way) - 1 and is_beside(way[start], way[end + 1], way[start + 1 : end + 1]):
            end += 1
        yield start, end
        start = end


def is_beside(one, other, corners):
    """Whether corners lie beside the line from one to another, and in its turn."""
    dx, dy = other[0] - one[0], other[1] - one[1]
    length, last = (dx * dx + dy * dy) ** 0.5, 0.0
    if not 0 < length <= LONGEST:
        return False
    for x, y in corners:
        at = ((x - one[0]) * dx + (y - one[1]) * dy) / length
        if not last <= at <= length or abs((x - one[0]) * dy - (y - one[1]) * dx) > ASIDE * length:
            return False
        last = at
    return True


def in_a_row(found, whose):
    """Over each border the pieces that follow one another and have lines of one owner above them, with the owner.
    What goes on under the same line is one piece."""
    rows = []
    for border, low, high, at_low, at_high, line in found:
        goes_on = rows and rows[-1][:2] == (border, whose[line]) and low - rows[-1][2][-1][1] <= TINY
        if not goes_on:
            rows.append((border, whose[line], [(low, high, at_low, at_high, line)]))
        elif rows[-1][2][-1][4] == line:
            before = rows[-1][2][-1]
            rows[-1][2][-1] = before[0], high, before[2], at_high, line
        else:
            rows[-1][2].append((low, high, at_low, at_high, line))
    return rows


def unique_pairs(one, other):
    order = numpy.lexsort((other, one))
    one, other = one[order], other[order]
    first = numpy.ones(len(one), bool)
    first[1:] = (one[1:] != one[:-1]) | (other[1:] != other[:-1])
    return one[first], other[first]


def envelope(lines, low, high, width):
    """Of lines over a part of a border (along it, and away from it) the nearest one at each place: its number, where
    that begins and ends, and how far it is there. Where none is as near as a width, None, and where that begins and
    ends. The lines do not cross, so their order is kept while they last.
    """
    cuts = sorted({low, high, *(u for line in lines for u in ends_of(line, width) if low < u < high)})
    coming = sorted(range(len(lines)), key=lambda number: min(lines[number][0], lines[number][2]), reverse=True)
    going = sorted(range(len(lines)), key=lambda number: max(lines[number][0], lines[number][2]), reverse=True)
    over, open_from = [], None
    for start, end in zip(cuts, cuts[1:]):
        if end - start <= TINY:
            continue
        middle = (start + end) / 2
        while coming and min(lines[coming[-1]][::2]) < middle:
            number = coming.pop()
            if max(lines[number][::2]) > middle:
                over.insert(place_of(number, over, lines, middle), number)
        while going and max(lines[going[-1]][::2]) <= middle:
            number = going.pop()
            if number in over:
                over.remove(number)
        number = next((one for one in over if v_at(lines[one], middle) > TINY), None)
        if number is not None and v_at(lines[number], middle) <= width:
            if open_from is not None:
                yield None, open_from, start
                open_from = None
            yield number, start, end, max(0.0, v_at(lines[number], start)), max(0.0, v_at(lines[number], end))
        elif open_from is None:
            open_from = start
    if open_from is not None:
        yield None, open_from, high


def ends_of(line, width):
    """Where a line begins and ends, and where it is as far as a width."""
    u1, v1, u2, v2 = line
    return (u1, u2) if v1 == v2 else (u1, u2, u1 + (width - v1) / (v2 - v1) * (u2 - u1))


def place_of(number, over, lines, u):
    """The place of a line among those over the same place, from near to far."""
    low, high, v = 0, len(over), v_at(lines[number], u)
    while low < high:
        middle = (low + high) // 2
        if v_at(lines[over[middle]], u) < v:
            low = middle + 1
        else:
            high = middle
    return low


def v_at(line, u):
    u1, v1, u2, v2 = line
    return v1 + (u - u1) / (u2 - u1) * (v2 - v1)
