"""Grids of triangles of very different widths, what heaps of them have for borders, and how a border is drawn as a
polygon: in rings that touch themselves and one another wherever they can, with points left out and put in along
straight edges, points repeated, spikes and bridges drawn, and rings added that cancel. None of that changes which
points the polygon contains."""

import math

from lpis_helpers.tables import orient, shoelace

WIDTHS = [[1], [1, 2, 3], [1, 1, 2, 7, 1_000], [1, 40, 90_000], [5, 6, 7], [400, 500, 600]]


class Mesh:
    """Counter-clockwise triangles of a grid, laid out by a map of whole numbers and perhaps with loose points. The
    cells of its rim are nobody's: their outer points stay where they are, so that no loose point can fold the grid
    over itself."""

    def __init__(self, numbers, limit):
        self.numbers, self.limit = numbers, limit
        self.columns, self.rows = numbers.randint(3, 7), numbers.randint(3, 7)
        widths, heights = numbers.choice(WIDTHS), numbers.choice(WIDTHS)
        xs, ys = self.places(self.columns, widths), self.places(self.rows, heights)
        a, b, c, d = numbers.choice(
            [(1, 0, 0, 1)] * 3 + [(1, 1, 0, 1), (1, 0, -2, 1), (2, 1, -1, 1), (0, -1, 1, 0), (3, 7, -1, 5)]
        )
        self.points = {
            (i, j): (a * xs[i] + b * ys[j], c * xs[i] + d * ys[j])
            for i in range(self.columns + 1)
            for j in range(self.rows + 1)
        }
        cells = [(i, j) for i in range(self.columns) for j in range(self.rows)]
        self.triangles = [t for cell in cells if self.is_inner(*cell) for t in self.halves(*cell)]
        rim = [t for cell in cells if not self.is_inner(*cell) for t in self.halves(*cell)]
        if numbers.random() < 0.4:
            self.loosen(max(widths + heights), self.triangles + rim)
        self.shift()

    def is_inner(self, i, j):
        return 0 < i < self.columns - 1 and 0 < j < self.rows - 1

    def places(self, count, widths):
        values = [0]
        for _ in range(count):
            values.append(values[-1] + self.numbers.choice(widths))
        return values

    def halves(self, i, j):
        a, b, c, d = (i, j), (i + 1, j), (i + 1, j + 1), (i, j + 1)
        return [(a, b, c), (a, c, d)] if self.numbers.random() < 0.5 else [(a, b, d), (b, c, d)]

    def loosen(self, most, triangles):
        for key, old in self.points.items():
            if 0 < key[0] < self.columns and 0 < key[1] < self.rows:
                self.points[key] = tuple(value + self.numbers.randint(-most, most) for value in old)
                if any(orient(*(self.points[corner] for corner in t)) <= 0 for t in triangles if key in t):
                    self.points[key] = old

    def shift(self):
        """To the origin's surroundings, somewhere, or into a corner of the range."""
        lows, highs = ([most(p[k] for p in self.points.values()) for k in (0, 1)] for most in (min, max))
        kind = self.numbers.randint(0, 5)
        if kind == 0:
            by = [
                self.limit - high if self.numbers.random() < 0.5 else -self.limit - low
                for low, high in zip(lows, highs)
            ]
        else:
            by = [
                self.numbers.randint(-500, 500) if kind < 4 else self.numbers.randint(-(10**8), 10**8) for _ in lows
            ]
        self.points = {key: (x + by[0], y + by[1]) for key, (x, y) in self.points.items()}

    def neighbours(self):
        """For each triangle those across its edges."""
        across = {}
        for number, t in enumerate(self.triangles):
            for a, b in zip(t, t[1:] + t[:1]):
                across[a, b] = number
        return [[across[b, a] for a, b in zip(t, t[1:] + t[:1]) if (b, a) in across] for t in self.triangles]

    def deal(self, triangles, shares):
        """The triangles in so many heaps: as connected patches, or each on its own."""
        triangles = sorted(triangles)
        if self.numbers.random() < 0.3:
            heaps = [self.numbers.randrange(shares) for _ in triangles]
            return [{t for t, heap in zip(triangles, heaps) if heap == k} for k in range(shares)]
        beside, heap_of = self.neighbours(), {}
        for k, seed in enumerate(self.numbers.sample(triangles, min(shares, len(triangles)))):
            heap_of[seed] = k
        while len(heap_of) < len(triangles):
            border = [(t, heap_of[n]) for t in triangles if t not in heap_of for n in beside[t] if n in heap_of]
            if not border:
                border = [(t, self.numbers.randrange(shares)) for t in triangles if t not in heap_of]
            t, heap = self.numbers.choice(border)
            heap_of[t] = heap
        return [{t for t in triangles if heap_of[t] == k} for k in range(shares)]

    def rings(self, triangles):
        """The border of a set of triangles, which lies left of it, walked in rings; which way on is chosen anew in
        each point."""
        left = set()
        for number in triangles:
            t = self.triangles[number]
            for a, b in zip(t, t[1:] + t[:1]):
                if (b, a) in left:
                    left.remove((b, a))
                else:
                    left.add((a, b))
        ways = {}
        for a, b in sorted(left):
            ways.setdefault(a, []).append(b)
        found = []
        while ways:
            start = self.numbers.choice(sorted(ways))
            ring, at = [], start
            while at in ways:
                ring.append(at)
                on = ways[at].pop(self.numbers.randrange(len(ways[at])))
                if not ways[at]:
                    del ways[at]
                at = on
                if at == start and self.numbers.random() < 0.6:
                    break
            found.append([self.points[key] for key in ring])
        return found


class Drawing:
    """A polygon of rings whose insides lie left of them."""

    def __init__(self, numbers, rings, limit):
        self.numbers, self.limit = numbers, limit
        self.rings = rings
        self.plain = numbers.random() < 0.3

    def some(self, share):
        return not self.plain and self.numbers.random() < share

    def anywhere(self):
        """A point of the polygon, or one a little beside it."""
        x, y = self.numbers.choice(self.numbers.choice(self.rings))
        if self.numbers.random() < 0.5:
            x, y = (max(-self.limit, min(self.limit, value + self.numbers.randint(-9, 9))) for value in (x, y))
        return x, y

    def polygon(self):
        self.rings = [self.thinned(ring) for ring in self.rings]
        while len(self.rings) > 1 and self.some(0.3):
            self.bridge()
        rings = [self.dressed(ring) for ring in self.rings]
        members = self.members(rings)
        if self.some(0.1):
            members.append(self.cancelled())
        self.numbers.shuffle(members)
        return members

    def thinned(self, ring):
        """Leaves out points in the middle of straight edges."""
        share, place = self.numbers.choice([0, 0.5, 1]), 0
        ring = list(ring)
        while place < len(ring) and len(ring) > 3:
            a, b, c = ring[place - 1], ring[place], ring[(place + 1) % len(ring)]
            straight = orient(a, b, c) == 0 and (a[0] - b[0]) * (c[0] - b[0]) + (a[1] - b[1]) * (c[1] - b[1]) < 0
            if straight and self.numbers.random() < share:
                ring.pop(place)
            else:
                place += 1
        return ring

    def bridge(self):
        """Joins two rings by a line that is walked there and back."""
        one, other = (self.rings.pop(self.numbers.randrange(len(self.rings))) for _ in range(2))
        i, j = self.numbers.randrange(len(one)), self.numbers.randrange(len(other))
        self.rings.append(one[: i + 1] + other[j:] + other[: j + 1] + one[i:])

    def dressed(self, ring):
        """The ring with repeated points, points along its edges, and spikes."""
        dressed = []
        for a, b in zip(ring, ring[1:] + ring[:1]):
            dressed += [a] * (2 if self.some(0.05) else 1)
            if self.some(0.05):
                spike = [self.anywhere() for _ in range(self.numbers.randint(1, 2))]
                dressed += spike + spike[-2::-1] + [a]
            parts = math.gcd(a[0] - b[0], a[1] - b[1])
            if parts > 1 and self.some(0.3):
                part = self.numbers.randint(1, parts - 1)
                dressed.append(tuple(a[k] + (b[k] - a[k]) // parts * part for k in (0, 1)))
        first = self.numbers.randrange(len(dressed))
        return dressed[first:] + dressed[:first]

    def members(self, rings):
        """Rings with an area above 0 become shells, the others holes of whichever member; each is written in either
        orientation."""
        shells = [ring for ring in rings if shoelace(ring) > 0]
        members = [[ring] for ring in shells]
        for ring in rings:
            if shoelace(ring) <= 0:
                self.numbers.choice(members).append(ring)
        return [
            [ring[::-1] if shoelace(ring) != 0 and self.some(0.5) else ring for ring in member] for member in members
        ]

    def cancelled(self):
        """A member that is all hole."""
        ring = [self.anywhere() for _ in range(self.numbers.randint(3, 6))]
        return [ring, ring[::-1]]
