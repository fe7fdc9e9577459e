"""Releases of nasty shapes, each from its number: the triangles of a mesh (mesh.py) are dealt out to parcels and pieces
in patches or at random, and what each has is drawn. A release with a mutation has a change, or several, that mostly
change which points a polygon contains. One half of the releases is of whole centimetres and of classes that are
eligible or not, the other of whole millimetres and percentages."""

import math
import random

from lpis_helpers.exact_map import LIMIT
from lpis_helpers.mesh import Drawing, Mesh
from lpis_helpers.tables import orient, write_release

THIN = 10_000_000  # from this number on each mutation is a thin overlap


class Release:
    """The release of a number: `parcels` and `pieces` as write_release takes them, of so many decimals, its classes
    with their percentages, and the name of its mutation."""

    def __init__(self, number, mutated):
        self.numbers = random.Random(number)
        self.mutation = "none"
        if number % 6 < 3:
            self.decimals, self.limit, self.percents = 2, LIMIT // 10, {"G": 100, "W": 0}
            self.classes = ["class,eligible", "G,1", "W,0"]
        else:
            self.decimals, self.limit, self.percents = 3, LIMIT, {"G": 37 * number % 101, "W": 61 * number % 101}
            self.classes = ["class,percent", *(f"{kind},{percent}" for kind, percent in self.percents.items())]
        self.mesh = Mesh(self.numbers, self.limit)
        heaps = [heap for heap in self.mesh.deal(range(len(self.mesh.triangles)), self.numbers.randint(1, 4)) if heap]
        if len(heaps) > 1 and self.numbers.random() < 0.5:
            heaps.pop()  # nobody's
        self.heaps = [
            [set(heap), [share for share in self.mesh.deal(heap, self.numbers.randint(1, 3)) if share]]
            for heap in heaps
        ]
        changes = [self.numbers.choice(HEAP_MUTATIONS + POLYGON_MUTATIONS)] if mutated else []
        if mutated and number >= THIN:
            changes = [thin_overlap]
        elif mutated and self.numbers.random() < 0.2:
            changes += [self.numbers.choice(POLYGON_MUTATIONS) for _ in range(self.numbers.randint(1, 3))]
        for change in changes:
            if change in HEAP_MUTATIONS:
                change(self)
        self.draw()
        for change in changes:
            if change not in HEAP_MUTATIONS:
                change(self)
        if changes:
            self.mutation = "several" if len(changes) > 1 else changes[0].__name__.replace("_", " ")

    def drawn(self, triangles):
        return Drawing(self.numbers, self.mesh.rings(triangles), self.limit).polygon()

    def draw(self):
        self.parcels, self.pieces = [], []
        for k, (heap, shares) in enumerate(self.heaps):
            self.parcels.append((f"P{k}", self.drawn(heap)))
            self.pieces += [(f"C{k}.{j}", f"P{k}", "GW"[j % 2], self.drawn(share)) for j, share in enumerate(shares)]
        self.numbers.shuffle(self.pieces)

    def write(self, folder):
        write_release(folder, self.parcels, self.pieces, self.decimals, self.classes)

    def in_millimetres(self):
        """The parcels and the pieces, in whole millimetres."""
        factor = 10 ** (3 - self.decimals)

        def scaled(polygon):
            return [[[(factor * x, factor * y) for x, y in ring] for ring in member] for member in polygon]

        return [(name, scaled(polygon)) for name, polygon in self.parcels], [
            (*row, scaled(polygon)) for *row, polygon in self.pieces
        ]

    def any_polygon(self):
        rows = self.numbers.choice([self.parcels, self.pieces])
        return self.numbers.choice(rows)[-1]

    def any_ring(self, polygon):
        return self.numbers.choice(self.numbers.choice(polygon))

    def beside(self, point):
        dx, dy = self.numbers.choice([(1, 0), (-1, 0), (0, 1), (0, -1)])
        return tuple(max(-self.limit, min(self.limit, value)) for value in (point[0] + dx, point[1] + dy))


def copied(polygon):
    return [[list(ring) for ring in member] for member in polygon]


def replace_point(polygon, old, new):
    for member in polygon:
        for ring in member:
            ring[:] = [new if point == old else point for point in ring]


def lost_triangle(release):
    """A parcel or a piece lacks a triangle."""
    heap, shares = release.numbers.choice(release.heaps)
    chosen = release.numbers.choice([one for one in [heap, *shares] if len(one) > 1] or [heap])
    if len(chosen) > 1:
        chosen.remove(release.numbers.choice(sorted(chosen)))


def triangle_given_twice(release):
    """A piece, or a parcel with one of its pieces, has a triangle too many."""
    heap, shares = release.numbers.choice(release.heaps)
    added = release.numbers.randrange(len(release.mesh.triangles))
    release.numbers.choice(shares).add(added)
    if release.numbers.random() < 0.6:
        heap.add(added)


def corner_moved(release):
    """One polygon has a corner that lies a centimetre or a millimetre beside that of the others."""
    polygon = release.any_polygon()
    old = release.numbers.choice(release.any_ring(polygon))
    replace_point(polygon, old, release.beside(old))


def corner_moved_in_parcel_and_pieces(release):
    """A parcel and its pieces agree on a corner that lies a hair's breadth beside that of the neighbours: a hair is
    shared, or left free."""
    name, polygon = release.numbers.choice(release.parcels)
    old = release.numbers.choice(release.any_ring(polygon))
    new = release.beside(old)
    for changed in [polygon] + [piece for _, parcel, _, piece in release.pieces if parcel == name]:
        replace_point(changed, old, new)


def hair(release):
    """An edge bends by way of a point that is nearly on it."""
    ring = release.any_ring(release.any_polygon())
    place = release.numbers.randrange(len(ring))
    a, b = ring[place], ring[(place + 1) % len(ring)]
    part = release.numbers.random()
    ring.insert(place + 1, release.beside(tuple(round(a[k] + part * (b[k] - a[k])) for k in (0, 1))))


def ring_twice(release):
    """A ring is written twice."""
    polygon = release.any_polygon()
    member = release.numbers.choice(polygon)
    ring = release.numbers.choice(member)
    if release.numbers.random() < 0.5:
        polygon.append([list(ring)])
    else:
        member.append(list(ring))


def ring_left_out(release):
    polygon = release.any_polygon()
    member = release.numbers.choice(polygon)
    if len(member) > 1:
        member.pop(release.numbers.randrange(1, len(member)))
    elif len(polygon) > 1:
        polygon.remove(member)


def points_exchanged(release):
    """Two points of a ring change places: mostly it crosses itself."""
    ring = release.any_ring(release.any_polygon())
    i, j = (release.numbers.randrange(len(ring)) for _ in range(2))
    ring[i], ring[j] = ring[j], ring[i]


def piece_of_another_parcel(release):
    place = release.numbers.randrange(len(release.pieces))
    name, _, kind, polygon = release.pieces[place]
    if sum(parcel == release.pieces[place][1] for _, parcel, _, _ in release.pieces) > 1:
        release.pieces[place] = (name, release.numbers.choice(release.parcels)[0], kind, polygon)


def piece_twice(release):
    name, parcel, kind, polygon = release.numbers.choice(release.pieces)
    release.pieces.append((f"{name}.{len(release.pieces)}", parcel, kind, copied(polygon)))


def replaced(release, **rings):
    """In place of the release: a parcel with one piece of each ring, laid out by one map."""
    a, b, c, d = release.numbers.choice([(1, 0, 0, 1), (0, -1, 1, 0), (1, -1, 1, 1), (2, 1, 1, 1)])
    polygons = {name: [[[(a * x + b * y, c * x + d * y) for x, y in ring]]] for name, ring in rings.items()}
    release.parcels = [(name, copied(polygon)) for name, polygon in polygons.items()]
    release.pieces = [(f"C.{name}", name, "G", polygon) for name, polygon in polygons.items()]


def edges_cross_in_threes(release):
    """Three edges that cross in one point which is no corner, so that the polygon turns 0 or 1 times and cannot be cut
    all the same; or not quite in one point."""
    size = release.numbers.choice([1, 3, 100, 10**7])
    ring = [(2 * size, 0), (-2 * size, 0), (-size, 2 * size), (size, -2 * size), (-size, -2 * size), (size, 2 * size)]
    if release.numbers.random() < 0.5:
        place = release.numbers.randrange(len(ring))
        ring[place] = release.beside(ring[place])
    replaced(release, star=ring)


def parcels_on_a_hair(release):
    """Two parcels whose long borders cross in hairs of one unit's width."""
    length = release.numbers.choice([50, 3_000, 10**6, 5 * 10**8])
    low = [(0, 0), (length, release.numbers.randint(-1, 1)), (length, -20), (0, -20)]
    high = [(0, 0), (length, release.numbers.randint(-1, 1)), (length + 3, 40), (1, 30)]
    replaced(release, low=low, high=high)


def thin_overlap(release):
    """Two parcels, triangles: they nearly share a long edge, or a corner of one is by a hair on the wrong side of an
    edge of the other."""
    numbers = release.numbers
    length = numbers.choice([60, 3_000, 10**5, 10**6, 10**7, 10**9 // 3])

    def somewhere(most):
        return numbers.randint(-most, most), numbers.randint(-most, most)

    def beside(point, most):
        return tuple(value + step for value, step in zip(point, somewhere(most)))

    end = numbers.choice([somewhere(length), (length, numbers.randint(-3, 3)), (length, numbers.randint(1, length))])
    part, wide = numbers.random(), numbers.choice([3, 50, length])
    low = [(0, 0), end, beside([round(part * value) for value in end], wide)]
    if numbers.random() < 0.4:
        high = [beside((0, 0), 1), beside(end, 1), beside([round(part * value) for value in end], wide)]
    else:
        corner = close_point(end, numbers.randint(1, 5), part)
        high = [corner, beside(corner, numbers.choice([3, 50, length])), beside(corner, length)]
    rings = {name: ring if orient(*ring) > 0 else ring[::-1] for name, ring in (("low", low), ("high", high))}
    if all(orient(*ring) > 0 for ring in rings.values()):
        replaced(release, **rings)


def close_point(end, off, part):
    """A point near the line from the origin to an end: so many times as far from it as the nearest that is not on it,
    about that part of the way along."""
    x, y = end
    shared = math.gcd(x, y)
    if abs(x) <= 1 or shared == 0:
        return end
    x, y = x // shared, y // shared
    there = pow(y, -1, abs(x)) * -off % abs(x)  # y * there + off is a multiple of x
    point = there, (y * there + off) // x
    times = round(part * shared)
    return point[0] + times * x, point[1] + times * y


HEAP_MUTATIONS = [lost_triangle, triangle_given_twice]
POLYGON_MUTATIONS = [
    corner_moved,
    corner_moved_in_parcel_and_pieces,
    hair,
    ring_twice,
    ring_left_out,
    points_exchanged,
    piece_of_another_parcel,
    piece_twice,
    parcels_on_a_hair,
    edges_cross_in_threes,
]
