"""Small countries through three years, each from its number: a rectangle that lines part into parcels, which are kept,
split, merged, redrawn, replaced or ended from year to year, exactly or a millimetre beside it; cut into regions by
lines of its own in each year, or by those of the year before. Rows of lineage lie in any region's table.

A shape is a ring of whole millimetres without its closing point. Rings only become smaller, so that no two overlap."""

import os
import random

from lpis_helpers.tables import metres, write_lines

YEARS = (2024, 2025, 2027)
CLASSES = ["class,percent", "G,100", "W,37"]
LETTERS = "abcdefghijklmnopqrstuvwxyzABCDEFGHIJKLMNOPQRSTUVWXYZ"


class Shape:
    """A parcel's ring. `box` is there for a rectangle, `whole` for the half of one that a slanted line parted: the
    rectangle."""

    def __init__(self, ring, box=None, whole=None):
        self.ring, self.box, self.whole = ring, box, whole


def rectangle(box):
    left, low, right, high = box
    return Shape([(left, low), (right, low), (right, high), (left, high)], box)


def smaller(shape, numbers):
    """A rectangle a millimetre smaller on one side; another shape as it is."""
    if shape.box is None:
        return shape
    side = numbers.randrange(4)
    box = list(shape.box)
    box[side] += 1 if side < 2 else -1
    return rectangle(tuple(box)) if box[0] < box[2] and box[1] < box[3] else shape


def parted(shape, numbers):
    """A rectangle cut in two, by a line along an axis or by a slanted one; None where it is too small, or no
    rectangle."""
    if shape.box is None or min(shape.box[2] - shape.box[0], shape.box[3] - shape.box[1]) < 20:
        return None
    left, low, right, high = shape.box
    if numbers.random() < 0.3:
        a, b = numbers.randint(left + 5, right - 5), numbers.randint(left + 5, right - 5)
        return [
            Shape([(left, low), (a, low), (b, high), (left, high)], None, shape.box),
            Shape([(a, low), (right, low), (right, high), (b, high)], None, shape.box),
        ]
    if numbers.random() < 0.5:
        at = numbers.randint(left + 5, right - 5)
        return [rectangle((left, low, at, high)), rectangle((at, low, right, high))]
    at = numbers.randint(low + 5, high - 5)
    return [rectangle((left, low, right, at)), rectangle((left, at, right, high))]


def joined(one, two):
    """The rectangle that two shapes make up, or None."""
    if one.whole is not None and one.whole == two.whole and one.ring != two.ring:
        return rectangle(one.whole)
    if one.box is None or two.box is None:
        return None
    (a, b, c, d), (e, f, g, h) = one.box, two.box
    if (b, d) == (f, h) and (c == e or g == a) or (a, c) == (e, g) and (d == f or h == b):
        return rectangle((min(a, e), min(b, f), max(c, g), max(d, h)))
    return None


class Map:
    """The parcels of a year, and the rows of lineage that led to them, each (old, new, is marked)."""

    def __init__(self, numbers):
        self.numbers, self.used, self.rows = numbers, set(), []
        size = numbers.choice([200, 10_000, 10**6])
        by = [
            numbers.choice([0, numbers.randint(-(10**9), 10**9), 20_000_000_000 - size, -20_000_000_000])
            for _ in range(2)
        ]
        shapes = [rectangle((by[0], by[1], by[0] + size, by[1] + size))]
        for _ in range(numbers.randint(0, 9)):
            self.cut(shapes)
        self.parcels = {self.name(): shape for shape in shapes}

    def cut(self, shapes):
        place = self.numbers.randrange(len(shapes))
        shapes[place : place + 1] = parted(shapes[place], self.numbers) or [shapes[place]]

    def name(self):
        while True:
            name = self.numbers.choice(LETTERS) + self.numbers.choice(["", "", "1", "2", "10", "-a", "/B", ".row"])
            if name not in self.used:
                self.used.add(name)
                return name

    def is_marked(self):
        return self.numbers.random() < 0.75

    def next_year(self):
        """Every parcel goes on in some way."""
        before, self.parcels, self.rows = list(self.parcels.items()), {}, []
        self.numbers.shuffle(before)
        while before:
            old = before.pop()
            other = next((it for it in before if joined(old[1], it[1])), None)
            kind = self.numbers.choices(
                ["kept", "split", "merge", "replaced", "redrawn", "ended", "moved"], [8, 5, 5, 1, 1, 1, 1]
            )[0]
            if kind in ("merge", "redrawn") and other:
                before.remove(other)
                getattr(self, kind)(old, other)
            elif kind == "moved" and before:
                other = before.pop()
                self.parcels.update({old[0]: other[1], other[0]: old[1]})
            elif kind == "ended":
                self.rows.append((old[0], "", False))
            elif kind == "replaced":
                self.rows.append((old[0], self.put(old[1]), False))
            elif kind == "split" and (parts := parted(old[1], self.numbers)):
                self.split(old[0], parts)
            else:
                self.parcels[old[0]] = smaller(old[1], self.numbers) if self.numbers.random() < 0.1 else old[1]
        if self.numbers.random() < 0.3:
            self.parcels = dict(self.numbers.sample(list(self.parcels.items()), len(self.parcels)))
        self.numbers.shuffle(self.rows)

    def put(self, shape):
        name = self.name()
        self.parcels[name] = shape
        return name

    def split(self, old, parts):
        if self.numbers.random() < 0.4:
            self.cut(parts)
        if self.numbers.random() < 0.15:
            parts[0] = smaller(parts[0], self.numbers)
        is_marked = self.is_marked()
        self.rows += [(old, self.put(part), is_marked) for part in parts]

    def merge(self, one, two):
        """Into a new parcel, or into one of the two, which is kept."""
        whole, is_marked = joined(one[1], two[1]), self.is_marked()
        if self.numbers.random() < 0.15:
            whole = smaller(whole, self.numbers)
        if self.numbers.random() < 0.4:
            self.parcels[one[0]] = whole
            self.rows.append((two[0], one[0], is_marked))
        else:
            new = self.put(whole)
            self.rows += [(name, new, is_marked) for name in (one[0], two[0])]

    def redrawn(self, one, two):
        """Both become the same two; or the second only one of them."""
        parts = parted(joined(one[1], two[1]), self.numbers) or [one[1], two[1]]
        news = [self.put(part) for part in parts]
        self.rows += [(one[0], new, False) for new in news] + [
            (two[0], new, False) for new in news[: self.numbers.randint(1, 2)]
        ]


# Folders.


class Tiling:
    """The lines of country.txt, and the tile of each region."""

    def __init__(self, numbers, box):
        self.numbers, self.box, self.lines, self.tiles = numbers, box, ["lpis-country 1"], {}
        self.names = iter(
            numbers.sample(
                ["west", "east", "north", "south", "r0001", "r0002", "R-1", "a_b", "middle", "x", "region", "row"], 12
            )
        )
        self.part([(None, None)] * 2, numbers.randint(0, 3))

    def part(self, sides, depth):
        """A side is (least, greatest), None where the plane has no end."""
        if depth == 0 or self.numbers.random() < 0.2:
            name = next(self.names)
            self.lines.append(f"region {name}")
            self.tiles[name] = sides
            return
        side = self.numbers.randrange(2)
        at = self.numbers.randint(self.box[side], self.box[side + 2])
        self.lines.append(f"{'xy'[side]} {at}")
        low, high = list(sides), list(sides)
        low[side], high[side] = (sides[side][0], at), (at, sides[side][1])
        if not self.is_open(low[side]) or not self.is_open(high[side]):
            self.lines.pop()
            self.part(sides, depth - 1)
            return
        self.part(low, depth - 1)
        self.part(high, depth - 1)

    @staticmethod
    def is_open(side):
        return None in side or side[0] < side[1]

    def met(self, ring):
        """The names of the regions whose tile the box of a ring meets."""

        def meets(side, values):
            return (side[1] is None or min(values) < side[1]) and (side[0] is None or side[0] < max(values))

        return [
            name
            for name, sides in self.tiles.items()
            if all(meets(side, [point[k] for point in ring]) for k, side in enumerate(sides))
        ]


def box_of(shapes):
    points = [point for shape in shapes for point in shape.ring]
    return (
        (*(min(p[k] for p in points) for k in (0, 1)), *(max(p[k] for p in points) for k in (0, 1)))
        if points
        else (0, 0, 1, 1)
    )


def wkt(ring):
    return '"POLYGON((' + ",".join(metres(point, 3) for point in ring + ring[:1]) + '))"'


def pieces_of(name, shape):
    """A parcel's pieces: itself, or for some rectangles the two halves."""
    if shape.box is None or shape.box[2] - shape.box[0] < 2 or sum(map(ord, name)) % 3:
        return [f"p.{name},{name},G,{wkt(shape.ring)}"]
    left, low, right, high = shape.box
    middle = (left + right) // 2
    return [
        f"{name}:1,{name},G,{wkt(rectangle((left, low, middle, high)).ring)}",
        f"{name}:2,{name},W,{wkt(rectangle((middle, low, right, high)).ring)}",
    ]


def write_region(folder, parcels):
    os.makedirs(folder, exist_ok=True)
    write_lines(folder, "parcels.csv", ["parcel,wkt", *(f"{name},{wkt(shape.ring)}" for name, shape in parcels)])
    write_lines(
        folder,
        "covers.csv",
        ["piece,parcel,class,wkt", *(line for name, shape in parcels for line in pieces_of(name, shape))],
    )
    write_lines(folder, "classes.csv", CLASSES)


def write_rows(numbers, folder, rows):
    """A table of lineage, with a column of marks where one is wanted or by chance."""
    has_marks = any(row[2] for row in rows) or numbers.random() < 0.5
    lines = [
        f"{old},{new}" + (f",{1 if is_marked else numbers.choice(['', '0'])}" if has_marks else "")
        for old, new, is_marked in rows
    ]
    write_lines(folder, "lineage.csv", ["old,new" + ",exact" * has_marks, *lines])


def write_country(numbers, folder, parcels, rows, tiling):
    """The folders of a country; the rows are dealt out at random, and keep their order in each table."""
    os.makedirs(folder)
    write_lines(folder, "country.txt", tiling.lines)
    write_lines(folder, "classes.csv", CLASSES)
    places = {name: tiling.met(shape.ring) for name, shape in parcels.items()}
    dealt = [numbers.choice(list(tiling.tiles)) for _ in rows]
    for region in tiling.tiles:
        write_region(
            os.path.join(folder, region), [(name, shape) for name, shape in parcels.items() if region in places[name]]
        )
        write_rows(numbers, os.path.join(folder, region), [row for row, it in zip(rows, dealt) if it == region])


class Years:
    """The three years of a number: `folder` writes them one by one."""

    def __init__(self, number):
        self.numbers = random.Random(number)
        self.map, self.tiling = Map(self.numbers), None

    def write(self, folder, place):
        """The country of a year; the tiling of the year before is used again in half of the years."""
        if place:
            self.map.next_year()
        if self.tiling is None or self.numbers.random() < 0.5:
            self.tiling = Tiling(self.numbers, box_of(self.map.parcels.values()))
        write_country(self.numbers, folder, self.map.parcels, self.map.rows, self.tiling)
        return list(self.tiling.tiles)
