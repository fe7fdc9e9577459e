"""The parts that generated lands are made of: what may stand in one cell of a grid whose corners are shared. Nothing of
tools/ is used.

Each part is a function of the land that is made and of the cell's corners a, b, c and d, counter-clockwise. CLEAN parts
fit their neighbours; the others overlap, leave gaps, or are thinner than rounding can show."""

import math

from lpis_helpers.lands_shapes import Shape
from lpis_helpers.make_coverage import on


def closed(*points):
    return [*points, points[0]]


def boxed(x, y, width, height=None):
    height = width if height is None else height
    return closed((x, y), (x + width, y), (x + width, y + height), (x, y + height))


def middle(points):
    return sum(x for x, _ in points) / len(points), sum(y for _, y in points) / len(points)


def shrunk(points, share):
    """A ring about the same middle."""
    centre = middle(points)
    return closed(*(on(centre, point, share) for point in points))


# Parts that fit.


def undivided(land, a, b, c, d):
    land.parcel([closed(a, b, c, d)])


def halved(land, a, b, c, d):
    """Two pieces, whose seam ends on the parcel's border: T-junctions."""
    s, t = on(a, b, land.share()), on(d, c, land.share())
    land.parcel([closed(a, b, c, d)], [closed(a, s, t, d)], [closed(s, b, c, t)])


def strips(land, a, b, c, d):
    """Parcels side by side, each ending where its neighbour begins."""
    cuts = [0.0, *sorted(land.random.random() for _ in range(land.random.randrange(1, 7))), 1.0]
    for low, high in zip(cuts, cuts[1:]):
        land.parcel([closed(on(a, b, low), on(a, b, high), on(d, c, high), on(d, c, low))])


def junctions(land, a, b, c, d):
    """Many corners on each side, which the neighbours do not have."""
    ring = []
    for p, q in ((a, b), (b, c), (c, d), (d, a)):
        ring += [
            p,
            *(on(p, q, share) for share in sorted(land.random.random() for _ in range(land.random.randrange(8)))),
        ]
    land.parcel([closed(*ring)])


def fan(land, a, b, c, d):
    """Four parcels about a point."""
    m = on(a, c, land.share())
    for p, q in ((a, b), (b, c), (c, d), (d, a)):
        land.parcel([closed(p, q, m)])


def islands(land, a, b, c, d):
    """Islands in islands, each a parcel or a piece of the one about it."""
    rings = [
        closed(a, b, c, d),
        *(shrunk((a, b, c, d), 0.8**depth * 0.9) for depth in range(1, land.random.randrange(2, 7))),
    ]
    shapes = [[ring, inner[::-1]] for ring, inner in zip(rings, rings[1:])] + [[rings[-1]]]
    if land.random.random() < 0.5:
        for shape in shapes:
            land.parcel(shape)
    else:
        land.parcel([rings[0]], *shapes)


def two_parts(land, a, b, c, d):
    """A parcel of two members that touch in a point, and another of the rest."""
    m = on(a, c, land.share())
    land.add([[closed(a, b, m)], [closed(c, d, m)]], [[[closed(a, b, m)], [closed(c, d, m)]]])
    land.add([[closed(b, c, m)], [closed(d, a, m)]], [[[closed(b, c, m)]], [[closed(d, a, m)]]])


def pond(land, a, b, c, d):
    """A piece with a hole in which another piece lies, drawn from other corners."""
    hole = shrunk((a, b, c, d), land.share())
    land.parcel([closed(a, b, c, d)], [closed(a, b, c, d), hole[::-1]], [hole[2:] + hole[1:3]])


def lattice(land, a, b, c, d):
    """Many pieces in rows, each row cut elsewhere."""
    rows, pieces = land.random.randrange(1, 6), []
    for row in range(rows):
        low, high = row / rows, (row + 1) / rows
        left, right = (on(a, d, low), on(a, d, high)), (on(b, c, low), on(b, c, high))
        cuts = [0.0, *sorted(land.random.uniform(0.05, 0.95) for _ in range(land.random.randrange(4))), 1.0]
        pieces += [
            [
                closed(
                    on(left[0], right[0], s),
                    on(left[0], right[0], t),
                    on(left[1], right[1], t),
                    on(left[1], right[1], s),
                )
            ]
            for s, t in zip(cuts, cuts[1:])
        ]
    land.parcel([closed(a, b, c, d)], *pieces)


# Parts that rounding, or an earlier program, has to settle.


def moved(land, a, b, c, d):
    """The cell's corners, each a hair elsewhere."""
    land.parcel([closed(*map(land.moved, (a, b, c, d)))])


def sliver(land, a, b, c, d):
    """A strip of a hair along one side, in whichever direction that is, and the rest."""
    a, b, c, d = land.turned(a, b, c, d)
    share = land.hair / max(1e-9, math.dist(a, d))
    s, t = on(a, d, share), on(b, c, share)
    land.parcel([closed(a, b, t, s)])
    land.parcel([closed(s, t, c, d)])


def beside(land, corners, parts):
    """Two parcels, or two pieces of one."""
    if land.random.random() < 0.5:
        for part in parts:
            land.parcel(part)
    else:
        land.parcel([closed(*corners)], *parts)


def gap(land, a, b, c, d):
    """A strip of a hair that nobody has: between two parcels, or between two pieces of one."""
    share = 0.5 + land.hair / max(1e-9, math.dist(a, d))
    parts = [closed(a, b, on(b, c, 0.5), on(a, d, 0.5))], [closed(on(a, d, share), on(b, c, share), c, d)]
    beside(land, (a, b, c, d), parts)


def overlapping(land, a, b, c, d):
    """Two that share a strip: parcels, or pieces of one."""
    low, high = sorted((land.random.random(), land.random.random()))
    low = high - land.hair / max(1e-9, math.dist(a, d)) if land.random.random() < 0.6 else low
    parts = [closed(a, b, on(b, c, high), on(a, d, high))], [closed(on(a, d, low), on(b, c, low), c, d)]
    beside(land, (a, b, c, d), parts)


def outside(land, a, b, c, d):
    """A piece that leaves its parcel, or the other way round."""
    larger = shrunk((a, b, c, d), 1 + land.hair)
    land.parcel(*land.random.sample([[larger], [closed(a, b, c, d)]], 2))


def needles(land, a, b, c, d):
    """Needles out of one corner, as wide as a hair."""
    for _ in range(land.random.randrange(1, 9)):
        p = on(b, c, land.random.random())
        land.parcel([closed(a, p, land.moved(p))])


def long_needle(land, a, b, c, d):
    """A needle of 90 km, or over many other parcels."""
    angle, length = land.random.uniform(0, 2 * math.pi), land.random.choice([90_000.0, land.step * 5])
    far = a[0] + length * math.cos(angle), a[1] + length * math.sin(angle)
    land.parcel([closed(a, far, land.moved(far))])
    land.parcel([closed(a, b, c, d)])


def heap(land, a, b, c, d):
    """Triangles that all overlap."""
    for _ in range(land.random.randrange(2, 12)):
        land.parcel([closed(*(land.near(middle((a, b, c, d)), land.step) for _ in range(3)))])


def grains(land, a, b, c, d):
    """Shapes of a millimetre, alone or within another: they round to a line or a point."""
    width = land.random.choice([0.0004, 0.001, 0.003, 0.01])
    for _ in range(land.random.randrange(1, 12)):
        centre = land.near(middle((a, b, c, d)), land.step / 4)
        land.parcel([closed(*(land.near(centre, width) for _ in range(3)))])
    if land.random.random() < 0.7:
        land.parcel([closed(a, b, c, d)])


def line_like(land, a, b, c, d):
    """A parcel of one metre by less than a millimetre, alone or within another, level, upright or slanted."""
    x, y = middle((a, b, c, d))
    thin = land.random.choice([0.0001, 0.0004, 0.0005, 0.0009, land.hair])
    ring = land.random.choice(
        [
            boxed(x, y, 1.0, thin),
            boxed(x, y, thin, 1.0),
            closed((x, y), (x + 0.8, y + 0.6), (x + 0.8, y + 0.6 + thin), (x, y + thin)),
        ]
    )
    if land.random.random() < 0.5:
        land.parcel([closed(a, b, c, d)])
    land.parcel([ring])


def comb(land, a, b, c, d):
    """A comb whose teeth nearly meet."""
    teeth, ring = land.random.randrange(2, 20), [a, b]
    for tooth in range(teeth):
        ring += [on(b, c, tooth / teeth), on(on(b, c, (tooth + 0.5) / teeth), a, 1 - land.hair)]
    land.parcel([closed(*ring, c, d)])


def twins(land, a, b, c, d):
    """Two of the same place, one of them a hair elsewhere or not at all."""
    land.parcel([closed(a, b, c, d)])
    land.parcel([closed(*map(land.moved, (a, b, c, d)))] if land.random.random() < 0.7 else [closed(b, c, d, a)])


def within(land, a, b, c, d):
    """A parcel within another that has no hole for it."""
    land.parcel([closed(a, b, c, d)])
    land.parcel([shrunk((a, b, c, d), land.share())])


def moved_fan(land, a, b, c, d):
    m = on(a, c, land.share())
    for p, q in ((a, b), (b, c), (c, d), (d, a)):
        land.parcel([closed(land.moved(p), land.moved(q), land.moved(m))])


def on_pixels(land, a, b, c, d):
    """Corners on half millimetres, or a hair beside them."""

    def snapped(point):
        return tuple(
            round(value * 2000) / 2000 + land.random.choice([0, 0, 1e-9, -1e-9, 1e-7, -1e-7]) for value in point
        )

    p, q = snapped(on(a, b, 0.5)), snapped(on(d, c, 0.5))
    land.parcel([closed(snapped(a), p, q, snapped(d))])
    land.parcel([closed(p, snapped(b), snapped(c), q)])


def members(land, a, b, c, d):
    """A parcel of many members, or of many holes that another fills."""
    count = land.random.choice([10, 50, 200, 1000, 5000] if land.is_large else [10, 50])
    across = math.ceil(count**0.5)
    centre, width = middle((a, b, c, d)), land.step * 0.5 / across
    boxes = [
        boxed(
            centre[0] + (k % across - across / 2) * width, centre[1] + (k // across - across / 2) * width, width * 0.6
        )
        for k in range(count)
    ]
    land.add([[ring] for ring in boxes], [[[ring] for ring in boxes]])
    if land.random.random() < 0.5:
        land.parcel([closed(a, b, c, d), *(ring[::-1] for ring in boxes)])


def many_points(land, a, b, c, d):
    """A round shape of many points."""
    count, (x, y) = land.random.choice([100, 1000, 5000 if land.is_large else 500]), middle((a, b, c, d))
    radius = land.step * 0.3
    land.parcel(
        [
            closed(
                *(
                    (x + radius * math.cos(2 * math.pi * k / count), y + radius * math.sin(2 * math.pi * k / count))
                    for k in range(count)
                )
            )
        ]
    )


def curved(land, a, b, c, d):
    """Arcs and curves, whole circles and nearly straight arcs."""
    bend = land.random.choice([0.2, 1e-3, 1e-6, 1e-9, 0.0])
    ring = [a]
    for p, q in ((a, b), (b, c), (c, d), (d, a)):
        m = on(p, q, 0.5)
        ring += [(m[0] + (q[1] - p[1]) * bend, m[1] - (q[0] - p[0]) * bend), q]
    ring = ring if land.random.random() < 0.8 else [a, c, a]
    shape = [[ring]] if land.random.random() < 0.8 else [[ring], [[(x + land.step * 50, y) for x, y in ring]]]
    land.add(shape, [shape], land.random.choice(["arcs", "arcs", "mixed"]) if len(ring) > 3 else "arcs")


def touching_hole(land, a, b, c, d):
    """A hole that touches its shell in a point, on a side or all along."""
    p = on(a, b, 0.5)
    hole = land.random.choice(
        [
            closed(a, on(a, c, 0.5), on(a, d, 0.5)),
            closed(p, on(p, c, 0.5), on(p, d, 0.5)),
            closed(on(a, b, 0.2), on(a, b, 0.6), on(p, d, 0.5)),
        ]
    )
    land.parcel([closed(a, b, c, d), hole])
    land.parcel([hole])


def bow(a, b, c, d):
    return closed(a, c, b, d)


def crossing(land, a, b, c, d):
    """Rings that cross, touch or repeat themselves, turn the wrong way round, or have spikes; holes outside, alike
    and within holes."""
    ring, m = closed(a, b, c, d), on(a, c, 0.5)
    small, far = shrunk((a, b, c, d), 0.4), shrunk(
        ((a[0] + 3 * land.step, a[1]), (b[0] + 3 * land.step, b[1]), (c[0] + 3 * land.step, c[1])), 0.3
    )
    spike = closed(a, b, on(b, c, 0.5), on(m, c, 3.0), on(b, c, 0.5), c, d)
    members = land.random.choice(
        [
            [[bow(a, b, c, d)]],
            [[ring[::-1]]],
            [[ring, small]],
            [[ring, small, small]],
            [[ring, far]],
            [[ring, ring]],
            [[spike]],
            [[ring], [ring]],
            [[ring], [small]],
            [[closed(a, b, m, c, d, m)]],
            [[closed(a, b, b, c, c, c, d)]],
            [[ring + ring[1:]]],
            [[ring, small, shrunk((a, b, c, d), 0.2)]],
            [[closed(a, b, a, b)]],
            [[closed(a, a, a, a)]],
            [[closed(a, b, c), closed(a, c, d)]],
            [[ring, closed(a, b, c)]],
            [[closed(a, b, on(a, b, 0.3), c, d)]],
        ]
    )
    other = [[ring]] if land.random.random() < 0.5 else members
    land.add(*land.random.choice([(members, [other]), (other, [members])]))


def without_shape(land, a, b, c, d):
    """No shape, an empty one, a line, a point, a collection, an open or a short ring, beside one that is sound."""
    ring = closed(a, b, c, d)
    form = land.random.choice(
        ["null", "empty", "hollow", "line", "point", "collection", "open", "short", "one", "none"]
    )
    wrong = {"open": ring[:-1], "short": [a, b, a], "one": [a], "none": []}.get(form, ring)
    shape = Shape([[wrong]], None if form in ("open", "short", "one", "none") else form)
    parcel, (piece,) = land.add([[ring]], [[[ring]]])
    (parcel if land.random.random() < 0.5 else piece).shape = shape


def elsewhere(land, a, b, c, d):
    """Degrees among metres, coordinates out of range or no numbers, and a zone's number before eastings."""
    parcel, (piece,) = land.parcel([closed(a, b, c, d)])
    move = land.random.choice(
        [
            lambda x, y: (9 + x % 1, 48 + y % 1),
            lambda x, y: (x + 2e7, y),
            lambda x, y: (x, y - 4e8),
            lambda x, y: (x * 1e300, y),
            lambda x, y: (x + 32_000_000, y),
            lambda x, y: (math.nan, y),
            lambda x, y: (x, math.inf),
            lambda x, y: (y, x),
            lambda x, y: (x / 1e6, y / 1e6),
            lambda x, y: (x * 1000, y * 1000),
        ]
    )
    for row in land.random.choice([[parcel], [piece], [parcel, piece]]):
        row.shape = Shape([[[move(*point) for point in ring] for ring in member] for member in row.shape.members])


def heights(land, a, b, c, d):
    parcel, pieces = land.parcel([closed(a, b, c, d)])
    for row in (parcel, *pieces):
        row.shape.has_z, row.shape.has_m, row.shape.is_big_endian = (land.random.random() < 0.5 for _ in range(3))


def bare_or_strange(land, a, b, c, d):
    """A parcel without pieces, or pieces without a parcel."""
    parcel, pieces = land.parcel([closed(a, b, c, d)])
    if land.random.random() < 0.5:
        land.drop(pieces[0])
    else:
        land.drop(parcel)


CLEAN = [undivided, halved, strips, junctions, fan, islands, two_parts, pond, lattice]
NASTY = [
    moved,
    sliver,
    gap,
    overlapping,
    outside,
    needles,
    long_needle,
    heap,
    grains,
    line_like,
    comb,
    twins,
    within,
    moved_fan,
    on_pixels,
    members,
    many_points,
    curved,
    touching_hole,
    crossing,
    without_shape,
    elsewhere,
    heights,
    bare_or_strange,
]
