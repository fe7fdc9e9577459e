"""Tests the rounding of all borders: the pixels that edges meet and cross in against fractions; over generated lands
that are hard to round that no two edges cross or touch but in corners, that no border moves by more than 0.708 mm, that
the order of rows changes nothing, and that each parcel alone, with the rows beside it, has the very text that it has
in the whole land. Wants Shapely."""

import random
from fractions import Fraction

import pytest
from lpis_helpers import hard
from lpis.system import shapely_there
from lpis_helpers.tables import orient

if shapely_there.is_there():
    import numpy
    from lpis.formats import wkb
    from lpis.rounding import coverage, snap_rounding
    from lpis.rounding.snap_rounding import HALF, WHOLE
STEPS = (0.002, 0.02, 0.3, 3.0, 30.0)  # metres: the cells of the lands
MOST = 0.708  # millimetres that a border moves


def meets(edge, pixel):
    """Whether an edge in parts has a point in the half-open square about a whole point, by fractions."""
    low, high, is_low_open, is_high_open = Fraction(0), Fraction(1), False, False
    for start, end, middle in zip(edge[:2], edge[2:], (value * WHOLE for value in pixel)):
        least, most, way = middle - HALF, middle + HALF, end - start
        if way == 0:
            if not least <= start < most:
                return False
            continue
        first, last = (Fraction(least - start, way), False), (Fraction(most - start, way), True)
        (first, is_first_open), (last, is_last_open) = (first, last) if way > 0 else (last, first)
        if first > low or (first == low and is_first_open):
            low, is_low_open = first, is_first_open
        if last < high or (last == high and is_last_open):
            high, is_high_open = last, is_last_open
    return low < high or (low == high and not is_low_open and not is_high_open)


def crossing(one, other):
    """The pixel of the proper crossing of two edges in parts, by fractions; None where there is none."""
    a, b, c, d = one[:2], one[2:], other[:2], other[2:]
    before, behind = orient(c, d, a), orient(c, d, b)
    if before * behind >= 0 or orient(a, b, c) * orient(a, b, d) >= 0:
        return None
    share = Fraction(before, before - behind)
    return tuple(((start + share * (end - start)) + HALF) // WHOLE for start, end in zip(a, b))


def texts(parcels, covers):
    """The text of each parcel, of the pieces that the rows have, and of each piece."""
    land, numbers = coverage.Map(parcels, covers, lambda words: None), {}
    for row in covers:
        numbers.setdefault(row["parcel"], len(numbers))
    of_piece = numpy.array([numbers[row["parcel"]] for row in covers] + [-1], int)
    found = dict(land.polygons(of_piece[land.pieces]))
    return {name: found.get(number) for name, number in numbers.items()}, {
        covers[number]["piece"]: text for number, text in land.polygons(land.pieces)
    }


def grown(row, by):
    left, low, right, high = row.found.box()
    return left - by, low - by, right + by, high + by


def beside(rows, boxes):
    """The rows whose boxes meet one of some boxes."""
    return [
        row
        for row in rows
        if any(
            left <= box[2] and low <= box[3] and box[0] <= right and box[1] <= high
            for box in (row.found.box(),)
            for left, low, right, high in boxes
        )
    ]


@pytest.mark.skipif(not shapely_there.is_there(), reason=shapely_there.LACKING)
class TestPixels:
    """Edges over few pixels, many of them along their sides and through their corners, as short ones and as numbers
    of any size."""

    @pytest.fixture(autouse=True)
    def begin(self):
        numbers = random.Random(3)

        def value():
            return numbers.choice(
                [
                    numbers.randrange(-3000, 3000),
                    numbers.randrange(-6, 7) * HALF,
                    numbers.randrange(-3, 4) * WHOLE + numbers.choice([-1, 0, 1]),
                ]
            )

        edges = [[value() for _ in range(4)] for _ in range(12_000)]
        self.edges = [edge for edge in edges if edge[:2] != edge[2:]]
        self.pixels = [[numbers.randrange(-3, 4), numbers.randrange(-3, 4)] for _ in self.edges]

    def test_meets(self):
        wanted = [meets(edge, pixel) for edge, pixel in zip(self.edges, self.pixels)]
        assert sum(wanted) > 500
        for kind in (numpy.int64, object):
            assert snap_rounding.meets(numpy.array(self.edges), numpy.array(self.pixels), kind).tolist() == wanted

    def test_crossings(self):
        half = len(self.edges) // 2
        first, second = self.edges[:half], self.edges[half : 2 * half]
        wanted = [found for found in map(crossing, first, second) if found]
        assert len(wanted) > 500
        for kind in (numpy.int64, object):
            assert (
                list(map(tuple, snap_rounding.crossing_pixels(numpy.array(first), numpy.array(second), kind).tolist()))
                == wanted
            )

    def test_points(self):
        """A point on a side belongs to the greater pixel, on either side of naught."""
        points = numpy.array([[0.0005, -0.0005], [0.000499, -0.000501], [-0.0015, 1.2345], [0.0004996, 0.0]])
        assert snap_rounding.pixels_of(points).tolist() == [[1, 0], [0, -1], [-1, 1235], [1, 0]]


@pytest.mark.skipif(not shapely_there.is_there(), reason=shapely_there.LACKING)
class TestLands:
    def lands(self, count):
        """Lands of cells of each size, again and again."""
        for seed in range(count):
            yield hard.Land(seed, 9 + seed % 30, STEPS[seed % len(STEPS)])

    def test_no_two_edges_meet(self):
        """But in corners of both: looked for among all pairs, in whole numbers."""
        for land in self.lands(10):
            network = snap_rounding.network_of([row.found for row in land.parcels + land.covers])
            ends = numpy.hstack([network.points[network.first], network.points[network.last]]).tolist()
            order = sorted(range(len(ends)), key=lambda n: min(ends[n][0], ends[n][2]))
            for place, number in enumerate(order):
                a, b = ends[number][:2], ends[number][2:]
                for other in order[place + 1 :]:
                    c, d = ends[other][:2], ends[other][2:]
                    if min(c[0], d[0]) > max(a[0], b[0]):
                        break
                    if min(c[1], d[1]) > max(a[1], b[1]) or max(c[1], d[1]) < min(a[1], b[1]):
                        continue
                    sides = orient(a, b, c), orient(a, b, d), orient(c, d, a), orient(c, d, b)
                    assert not (sides[0] * sides[1] < 0 and sides[2] * sides[3] < 0), (a, b, c, d)
                    for side, (p, q), point in zip(sides, ((a, b), (a, b), (c, d), (c, d)), (c, d, a, b)):
                        is_between = min(p[0], q[0]) <= point[0] <= max(p[0], q[0]) and min(p[1], q[1]) <= point[
                            1
                        ] <= max(p[1], q[1])
                        assert not (side == 0 and is_between and point not in (p, q)), (p, q, point)

    def test_borders_stay_near(self):
        """Each corner of the way of an edge lies within the bound of the edge."""
        for land in self.lands(5):
            edges = snap_rounding.Edges.of([row.found for row in land.parcels + land.covers])
            corners, edge, corner, _ = snap_rounding.drawn(edges)
            ends, points = edges.ends[edge] / WHOLE, corners.points[corner]
            way, from_start = ends[:, 2:] - ends[:, :2], points - ends[:, :2]
            along = numpy.clip((from_start * way).sum(axis=1) / (way * way).sum(axis=1), 0, 1)
            assert numpy.sqrt(((from_start - along[:, None] * way) ** 2).sum(axis=1)).max() < MOST
            assert sorted(set(edge.tolist())) == list(range(len(edges.ends)))

    def test_order_of_rows(self):
        for land in self.lands(5):
            whole = texts(land.parcels, land.covers)
            numbers = random.Random(1)
            assert texts(*(numbers.sample(rows, len(rows)) for rows in (land.parcels, land.covers))) == whole

    def alone(self, land, reach):
        """How many of some parcels have another text where only the rows within a reach of their pieces are there."""
        (whole, pieces), count, different = texts(land.parcels, land.covers), 0, 0
        for name in random.Random(1).sample(sorted(whole), min(15, len(whole))):
            own = [row for row in land.covers if row["parcel"] == name]
            boxes = [grown(row, reach) for row in own]
            found, its = texts(beside(land.parcels, boxes), beside(land.covers, boxes))
            is_same = found.get(name) == whole[name] and all(
                its.get(row["piece"]) == pieces.get(row["piece"]) for row in own
            )
            count, different = count + 1, different + (not is_same)
        return count, different

    def test_alone(self):
        found = [self.alone(land, snap_rounding.REACH) for land in self.lands(20)]
        assert sum(count for count, _ in found) > 250
        assert sum(different for _, different in found) == 0

    def test_alone_with_less(self):
        """The test can fail: with rows that overlap the pieces by some length alone, parcels differ."""
        assert sum(self.alone(land, -land.step / 2)[1] for land in self.lands(20)) > 0

    @pytest.mark.parametrize("length", (3_000.0, 40_000.0))
    def test_long_edges(self, length):
        """Of three and of forty kilometres, whose products do not fit 64 bits: by numbers of any size."""
        land = hard.Land(1, 9, length / 3)
        network = snap_rounding.network_of([row.found for row in land.covers])
        assert len(network.first)
        assert self.alone(land, snap_rounding.REACH)[1] == 0

    def test_nothing(self):
        """A land without edges, and one whose shapes are points."""
        assert texts([], []) == ({}, {})
        row = hard.Row(
            0,
            {"piece": "K", "parcel": "P", "class": "A"},
            wkb.Found([[[(1.0, 1.0), (1.0000001, 1.0), (1.0, 1.0000001), (1.0, 1.0)]]]),
        )
        assert texts([], [row]) == ({"P": None}, {})
