"""Two years of one map with marked splits and merges, each pair from its number.

Shapes are heaps of a mesh's triangles, drawn as mesh.py draws them, in each year anew, or halves of a convex ring along
a line. Between the years a corner moves by a millimetre, or land is lost, gained or exchanged; a line has its ends on
lattice points of the border or beside it, where they are rounded. So a group may be exact or not, whatever was done:
exact_lineage.py says it. Each parcel has one piece, which is its own shape. Polygons are as in tables.py, of whole
millimetres."""

import os
import random

from lpis_helpers.exact_lineage import Change, Row, corners_of
from lpis_helpers.exact_map import LIMIT, Truth
from lpis_helpers.mesh import Drawing, Mesh
from lpis_helpers.tables import orient, shoelace, write_lines, write_release

LETTERS = "abcdefghijklmnopqrstuvwxyzABCDEFGHIJKLMNOPQRSTUVWXYZ"
SIZES = [20, 1_000, 60_000, 10**7]
CLASSES, UNMARKED = ["class,percent", "G,100"], ["", "0"]


class TwoYears:
    """`old` and `new` are the parcels of the two years by identifier, `rows` the lineage between them, each (old,
    new, is marked)."""

    def __init__(self, number):
        for attempt in range(100):
            self.numbers = random.Random(1_000 * number + attempt)
            self.old, self.new, self.rows, self.place, self.names, self.done = {}, {}, [], 0, set(), []
            for _ in range(self.numbers.choice([1, 1, 2, 3, 5])):
                self.numbers.choice(CHANGES)(self)
            self.shift()
            self.numbers.shuffle(self.rows)
            if self.old and all(is_sound(parcels) for parcels in (self.old, self.new)):
                break
        if self.numbers.random() < 0.12 and self.rows:
            self.mark_another()

    def a_name(self):
        while True:
            name = self.numbers.choice(LETTERS) + self.numbers.choice(["", "", "1", "2", "10", "-a", "/B"])
            if name not in self.names:
                self.names.add(name)
                return name

    def put(self, before, after, joined=False):
        """Puts the shapes of a change beside all that were put before; answers their names, those of after and before
        the same where they are joined."""
        points = corners_of(before + after)
        by = (self.place - min(p[0] for p in points), -min(p[1] for p in points))
        self.place = max(p[0] for p in points) + by[0] + self.numbers.choice([0, 1, 5, 1_000])

        def moved(polygon):
            return [[[(x + by[0], y + by[1]) for x, y in ring] for ring in member] for member in polygon]

        olds = [self.a_name() for _ in before]
        news = [olds[k] if joined and k < len(olds) else self.a_name() for k in range(len(after))]
        self.old.update(zip(olds, map(moved, before)))
        self.new.update(zip(news, map(moved, after)))
        return olds, news

    def shift(self):
        """To the origin's surroundings, somewhere, or into a corner of the range."""
        points = corners_of([*self.old.values(), *self.new.values()])
        by = []
        for k in (0, 1):
            low, high = min(p[k] for p in points), max(p[k] for p in points)
            by.append(
                self.numbers.choice(
                    [
                        0,
                        0,
                        self.numbers.randint(-500, 500),
                        self.numbers.randint(-(10**8), 10**8),
                        LIMIT - high,
                        -LIMIT - low,
                    ]
                )
            )
        for parcels in (self.old, self.new):
            for name, polygon in parcels.items():
                parcels[name] = [[[(x + by[0], y + by[1]) for x, y in ring] for ring in member] for member in polygon]

    def mark_another(self):
        """The mark of one row is another: a row of a group that is not marked whole, mostly."""
        place = self.numbers.randrange(len(self.rows))
        old, new, is_marked = self.rows[place]
        self.rows[place] = (old, new, not is_marked)

    def write(self, folder, numbers):
        """The releases of both years, with their tables of lineage."""
        for year, parcels in (("2024", self.old), ("2025", self.new)):
            write_release(os.path.join(folder, year), list(parcels.items()), pieces_of(parcels), 3, CLASSES)
        write_lines(os.path.join(folder, "2024"), "lineage.csv", ["old,new"])
        rows = [f"{old},{new},{'1' if is_marked else numbers.choice(UNMARKED)}" for old, new, is_marked in self.rows]
        write_lines(os.path.join(folder, "2025"), "lineage.csv", ["old,new,exact", *rows])

    def change(self):
        """What the rows say."""
        return Change(self.old, self.new, [Row(*row, number) for number, row in enumerate(self.rows, 1)], self.old)


def pieces_of(parcels):
    return [(f"p.{name}", name, "G", polygon) for name, polygon in parcels.items()]


def is_sound(parcels):
    truth = Truth(list(parcels.items()), pieces_of(parcels))
    return not (truth.bad or truth.uneven or truth.faces)


# Changes from year to year.


class Heaps:
    """A mesh with the triangles of the land that changes, and those beside it."""

    def __init__(self, numbers):
        self.numbers, self.mesh = numbers, Mesh(numbers, 10**8)
        every = list(range(len(self.mesh.triangles)))
        numbers.shuffle(every)
        count = (
            len(every) if len(every) < 4 or numbers.random() < 0.4 else numbers.randint(len(every) // 2, len(every) - 1)
        )
        self.land, self.beside = set(every[:count]), set(every[count:])
        self.parts = [heap for heap in self.mesh.deal(self.land, numbers.randint(2, 4)) if heap]

    def drawn(self, heaps):
        return [Drawing(self.numbers, self.mesh.rings(heap), LIMIT).polygon() for heap in heaps]

    def change(self, heaps):
        """The heaps after a change of the land, or of the mesh. Nothing is changed in half of the cases."""
        heaps = [set(heap) for heap in heaps]
        kind = self.numbers.choice(["none"] * 5 + ["moved", "moved", "lost", "gained", "exchanged"])
        if kind == "moved":
            self.move()
        if kind in ("gained", "exchanged") and self.beside:
            self.numbers.choice(heaps).add(self.numbers.choice(sorted(self.beside)))
        if kind in ("lost", "exchanged"):
            heap = self.numbers.choice(heaps)
            if len(heap) > 1:
                heap.remove(self.numbers.choice(sorted(heap & self.land)))
        return heaps, kind

    def move(self):
        """A corner of the mesh moves by a millimetre, where no triangle is turned over by it."""
        points = self.mesh.points
        key = self.numbers.choice(sorted({corner for number in self.land for corner in self.mesh.triangles[number]}))
        old, (dx, dy) = points[key], self.numbers.choice([(1, 0), (-1, 0), (0, 1), (0, -1)])
        points[key] = old[0] + dx, old[1] + dy
        if any(orient(*(points[corner] for corner in t)) <= 0 for t in self.mesh.triangles if key in t):
            points[key] = old


def split(years):
    heaps = Heaps(years.numbers)
    before = heaps.drawn([heaps.land])
    after, kind = heaps.change(heaps.parts)
    add_split(years, before, heaps.drawn(after), f"split, {kind}")


def merge(years):
    heaps = Heaps(years.numbers)
    before = heaps.drawn(heaps.parts)
    after, kind = heaps.change([heaps.land])
    add_merge(years, before, heaps.drawn(after), f"merge, {kind}")


def split_by_a_line(years):
    whole, parts, kind = by_a_line(years.numbers)
    add_split(years, [whole], parts, f"split by a line, {kind}")


def merge_by_a_line(years):
    whole, parts, kind = by_a_line(years.numbers)
    add_merge(years, parts, [whole], f"merge by a line, {kind}")


def add_split(years, before, after, kind):
    (old,), news = years.put(before, after)
    is_marked = years.numbers.random() < 0.85
    years.rows += [(old, new, is_marked) for new in news] if len(news) > 1 else [(old, news[0], False)]
    years.done.append(kind)


def add_merge(years, before, after, kind):
    """Into a new parcel, or into one of the old ones, which is kept."""
    is_kept = years.numbers.random() < 0.4
    olds, (new,) = years.put(before, after, is_kept)
    is_marked = years.numbers.random() < 0.85 and len(olds) > 1
    years.rows += [(old, new, is_marked) for old in olds if old != new]
    years.done.append(f"{kind}{', kept' if is_kept else ''}")


def others(years):
    """Parcels that are kept, named anew, ended, new or redrawn, with no mark."""
    heaps = Heaps(years.numbers)
    kind = years.numbers.choice(["kept", "replaced", "ended", "new", "redrawn"])
    if kind == "redrawn" and len(heaps.parts) > 1:
        after = [heap for heap in heaps.mesh.deal(heaps.land, 2) if heap]
        olds, news = years.put(heaps.drawn(heaps.parts), heaps.drawn(after))
        years.rows += [(old, new, False) for old in olds for new in news]
    else:
        before, after = heaps.drawn([heaps.land]), heaps.drawn([heaps.land])
        olds, news = years.put([] if kind == "new" else before, [] if kind == "ended" else after, kind == "kept")
        years.rows += (
            [(olds[0], "" if kind == "ended" else news[0], False)] if kind in ("ended", "replaced", "redrawn") else []
        )
    years.done.append(kind)


def hull(points):
    """The corners of the convex hull, counter-clockwise."""

    def half(points):
        way = []
        for p in points:
            while len(way) > 1 and orient(way[-2], way[-1], p) <= 0:
                way.pop()
            way.append(p)
        return way[:-1]

    points = sorted(set(points))
    return half(points) + half(points[::-1])


def by_a_line(numbers):
    """A convex ring and its two halves along a line, or along two."""
    while True:
        size = numbers.choice(SIZES)
        ring = hull([(numbers.randint(0, size), numbers.randint(0, size)) for _ in range(numbers.randint(4, 12))])
        i, j = sorted(numbers.sample(range(len(ring)), 2))
        ends = [end_on(numbers, ring[k], ring[(k + 1) % len(ring)]) for k in (i, j)]
        way = [ends[1][0], ends[0][0]]
        if numbers.random() < 0.3:  # by way of a point near the middle
            way.insert(1, tuple((a + b) // 2 + numbers.randint(-2, 2) for a, b in zip(*way)))
        halves = [
            without_repeats(ring[i + 1 : j + 1] + way),
            without_repeats(ring[j + 1 :] + ring[: i + 1] + way[::-1]),
        ]
        if all(len(half) > 2 and shoelace(half) > 0 for half in halves):
            return [[ring]], [[[half]] for half in halves], " and ".join(sorted(kind for _, kind in ends))


def end_on(numbers, a, b):
    """A point of an edge, and what it is: its first corner, a lattice point on it, or any point of it rounded."""
    kind = numbers.choice(["corner", "lattice", "rounded"])
    step = [(b[k] - a[k]) for k in (0, 1)]
    if kind == "lattice":
        for parts in (2, 3, 5, 7):
            if all(value % parts == 0 for value in step):
                part = numbers.randint(1, parts - 1)
                return tuple(a[k] + step[k] // parts * part for k in (0, 1)), kind
        kind = "corner"
    if kind == "rounded":
        part = numbers.random()
        return tuple(round(a[k] + part * step[k]) for k in (0, 1)), kind
    return a, kind


def without_repeats(ring):
    return [point for place, point in enumerate(ring) if point != ring[place - 1]]


CHANGES = [split, split, merge, merge, split_by_a_line, merge_by_a_line, others]
