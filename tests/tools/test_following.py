"""Tests that what is done for many shapes at once gives what is done for each: whether polygons of a table are those of
a source rounded, whether shapes are valid, texts of points, and polygons of texts."""

import random

import pytest

numpy = pytest.importorskip("numpy", reason="no numpy (Debian: python3-numpy)")
pytest.importorskip("shapely", reason="no Shapely (Debian: python3-shapely)")

from lpis.formats import millimetres, polygons, wkb
from lpis.geometry import validity
from lpis.rounding import rounded_polygons
from lpis.source import wkt  # noqa: E402
from lpis.rounding.snap_rounding import pixel_of  # noqa: E402
from shapely import wkb as shapely_wkb  # noqa: E402


def star(numbers, x, y, size):
    """A closed ring around a place, in metres."""
    count = numbers.randrange(3, 9)
    angles = sorted(numbers.uniform(0, 6.28) for _ in range(count))
    ring = [
        (
            x + size * numbers.uniform(0.3, 1) * float(numpy.cos(angle)),
            y + size * numbers.uniform(0.3, 1) * float(numpy.sin(angle)),
        )
        for angle in angles
    ]
    if numbers.random() < 0.1:
        ring.insert(1, ring[numbers.randrange(count)])
    return [*ring, ring[0]]


def in_table(numbers, ring):
    """A ring with each point rounded and points between, begun anywhere, either way round; now and then with
    something else."""
    way = []
    for (ax, ay), (bx, by) in zip(ring, ring[1:]):
        shares = sorted(numbers.random() for _ in range(numbers.choice((0, 0, 0, 1, 2))))
        way += [(ax, ay), *((ax + share * (bx - ax), ay + share * (by - ay)) for share in shares)]
    points = [(pixel_of(x), pixel_of(y)) for x, y in way]
    start, other = numbers.randrange(len(points)), numbers.randrange(len(points))
    kind = numbers.randrange(12)
    if kind == 0:
        points[other] = points[other][0] + numbers.choice((-2, -1, 1, 2)), points[other][1]
    elif kind == 1:
        points.insert(other, points[start])
    elif kind == 2:
        points[start], points[other] = points[other], points[start]
    elif kind == 3:
        del points[other]
    turned = points[start:] + points[:start]
    turned = turned if numbers.random() < 0.5 else turned[::-1]
    return [*turned, *turned[:1]]


def pair(numbers):
    """A shape in metres and what may stand in a table of it, in millimetres."""
    place, size = numbers.choice(((0, 0), (550_000, 5_400_000), (-1e6, 2e6))), numbers.choice(
        (0.002, 0.1, 10, 300, 60_000)
    )
    members = [
        [star(numbers, place[0] + 3 * size * number, place[1], size) for _ in range(numbers.choice((1, 1, 2)))]
        for number in range(numbers.choice((1, 1, 1, 2)))
    ]
    made = [[in_table(numbers, ring) for ring in member] for member in members]
    if numbers.random() < 0.1:
        made[0].append(made[0][0])
    numbers.shuffle(made)
    return wkb.Found(members), made


@pytest.mark.parametrize("seed", range(4))
def test_are_rounded(seed):
    numbers = random.Random(seed)
    pairs = [pair(numbers) for _ in range(600)]
    wanted = [rounded_polygons.is_rounded(found.members, members) for found, members in pairs]
    assert rounded_polygons.are_rounded(pairs) == wanted
    assert [sure and not answer for sure, answer in zip(rounded_polygons.Following(pairs).are(), wanted)] == [
        False
    ] * len(pairs)
    assert sum(wanted) > 100 and sum(rounded_polygons.Following(pairs).are()) > 100


def test_odd_tables():
    """Tables of somebody, of which no number fits, or that have points without an area."""
    found = wkb.Found([[[(0, 0), (1, 0), (1, 1), (0, 0)]]])
    for members in (
        [[[(0, 0), (1000, 0), (1000, 1000), (0, 0)]]],
        [[[(10**20, 0), (1000, 0), (1000, 1000), (10**20, 0)]]],
        [[[(0, 0)]]],
        [[[(0, 0), (0, 0)]]],
        [[[(10**17, 0), (1, 0), (2, 3), (10**17, 0)]]],
    ):
        assert rounded_polygons.are_rounded([(found, members)]) == [rounded_polygons.is_rounded(found.members, members)]
    assert rounded_polygons.are_rounded([]) == []


def test_validity():
    numbers, is_valid = random.Random(1), validity.tester()
    for _ in range(300):
        blob = wkb.written(
            [[star(numbers, 0, 0, 10) for _ in range(numbers.choice((1, 2)))] for _ in range(numbers.choice((1, 2)))]
        )
        assert is_valid(blob) == shapely_wkb.loads(blob).is_valid
    with pytest.raises(Exception, match="(?i)pars|input"):
        is_valid(b"\x01\x06\x00\x00")


def test_texts_of_points():
    numbers = random.Random(1)
    for size in range(60):
        values = [
            numbers.choice(
                (
                    0,
                    -1,
                    1,
                    999,
                    1000,
                    -1000,
                    10**7 - 1,
                    10**7,
                    -(10**10),
                    10**11 - 1,
                    numbers.randrange(-(10**10), 10**10),
                )
            )
            for _ in range(2 * size)
        ]
        values += [10**11, -(10**14)] if size % 7 == 0 else []
        points = numpy.array(values, numpy.int64).reshape(-1, 2)
        assert millimetres.texts_of(points) == [
            f"{polygons.metres(x)} {polygons.metres(y)}" for x, y in points.tolist()
        ]


@pytest.mark.parametrize(
    "text",
    [
        "POLYGON((0 0,1 0,1 1,0 0))",
        " multipolygon ( ( (0 0 , 1.5 0,1 +1.25,0 0) , (.1 .1,.2 .1,.2 .2,.1 .1) ) ,((5 5,6. 5,6 6,5 5)))",
        "POLYGON((0 0,1 0,0 0))",
        "POLYGON((0 0,1 0,1 1,0 1))",
        f"POLYGON((0 0,{'9' * 400} 0,1 1,0 0))",
        f"POLYGON(({'9' * 400} 0,1 0,1 1,{'9' * 400} 0))",
        "POLYGON((-0 -0.0,1 0,1 1,0 0))",
    ],
)
def test_plain_texts(text):
    """The fast way over a text says what the machine over its tokens says."""

    def said(call):
        try:
            found = call()
            return found.blob, found.notes, found.srid, found.bounds, str(found.members)
        except wkb.Unreadable as error:
            return str(error), error.place

    assert said(lambda: wkt.plain(text, 0)) == said(lambda: wkt.Reader(text, 0).shape())
