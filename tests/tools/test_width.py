"""Tests how wide land is told to be: a conflict is as wide as its widest place, and what is joined by thin parts is
several. In one and by cells. Wants Shapely."""

import math

import pytest
from lpis.system import shapely_there
from lpis_helpers.cells_case import ByCells, Case
from lpis_helpers.written_tables import of_folder

if shapely_there.is_there():
    from shapely.affinity import rotate, translate
    from shapely.geometry import GeometryCollection, LineString, Point, Polygon, box
    from shapely.ops import unary_union
    from lpis.formats import wkb
    from lpis.geometry import widths
    from lpis.preparation import conflicts, land_balance, row_outcomes
    from lpis.rounding import coverage, gaps
    from lpis.source import land as land_module

EAST, NORTH = 550_000.25, 5_400_000.5
NOISE = 1e-6  # metres


class Land:
    """Rows of parcels, and of pieces with their parcels, by shapes in metres from a corner and turned by an angle in
    degrees."""

    def __init__(self, parcels, covers, turn=0.0):
        self.turn = turn
        self.parcels = [self.row(number, {"parcel": name}, shape) for number, (name, shape) in enumerate(parcels, 1)]
        self.covers = [
            self.row(number, {"piece": f"{parcel}.{number}", "parcel": parcel, "class": "GRASS"}, shape)
            for number, (parcel, shape) in enumerate(covers, 1)
        ]

    def row(self, number, fields, shape):
        return land_module.Row(
            number,
            fields,
            wkb.Found(conflicts.members_of(translate(rotate(shape, self.turn, origin=(0, 0)), EAST, NORTH))),
        )


def lands(kind, place, turn, length=100.0):
    """A land with a conflict of one kind that has a place, which lies to the right of x = 0."""
    left, right = box(-50, 0, 0, length), box(0, 0, 50, length)
    both = unary_union([left, place])
    if kind == "overlap":
        return Land([("A", both), ("B", right)], [("A", both), ("B", right)], turn)
    if kind == "gap":
        return Land([("A", left), ("B", right)], [("A", left), ("B", right.difference(place))], turn)
    return Land([("A", left)], [("A", both)], turn)


def comb(count, side, apart, thin):
    """Squares on a border, joined along it by what is thin."""
    return unary_union(
        [
            *(box(0, apart * number + 1, side, apart * number + 1 + side) for number in range(count)),
            box(0, 1, thin, apart * count),
        ]
    )


def places():
    """Shapes, and how wide their places are that stop."""
    yield unary_union([box(0, 10, 2.4, 12.4), box(0, 12, 0.000_1, 90)]), [2.4]
    yield unary_union([box(0, 10, 1.3, 11.2), box(0, 11, 0.000_4, 90)]), [1.2]
    # at both ends
    yield unary_union([box(0, 0, 2.4, 2.4), box(0, 2, 0.000_1, 100), box(0, 99.7, 0.5, 100)]), [0.3, 2.4]
    yield comb(10, 1.0, 5.0, NOISE), [1.0] * 10
    yield comb(60, 0.05, 0.1, 0.019), [0.05] * 60
    # what is thin goes around a hole
    yield unary_union(
        [box(0, 10, 20, 30).difference(box(0.000_2, 10.000_2, 19.999_8, 29.999_8)), box(19, 15, 20, 16)]
    ), [1.0]
    yield box(0, 10, 0.02, 20), [0.02]
    yield box(0, 10, 0.019_9, 20), []
    yield Polygon([(0, 10), (0.3, 11), (0.000_4, 12), (0.000_4, 50), (0, 50)]), [0.2935]
    yield Point(0, 50).buffer(1.0, 64).intersection(box(0, 0, 9, 99)), [1.0]


def stopping(told):
    return [
        (kind, width, area, place)
        for kind, _, _, _, width, area, place in told
        if kind in ("overlap", "gap", "outside") and width >= 0.02 - NOISE
    ]


class TestConflicts(ByCells):
    @pytest.mark.parametrize("kind", ("overlap", "gap", "outside"))
    @pytest.mark.parametrize("turn", (0.0, 17.0))
    def test_places(self, kind, turn):
        """Each place that is wide has a row and stops, alone and with thin neighbours; what is thin is there beside
        it, and nothing is lost or told twice."""
        for place, wide in places():
            land = lands(kind, place, turn)
            told = self.whole(land)
            found = stopping(told)
            assert sorted(round(width, 4) for _, width, _, _ in found) == pytest.approx(wide, abs=0.0002), (
                place.wkt[:60],
                told,
            )
            assert {one for one, *_ in found} <= {kind}
            area = sum(loss[5] for loss in told if loss[0] == kind)
            assert area <= place.area + NOISE and place.area - area <= 0.05, place.wkt[:60]
            for _, _, _, at in found:
                x, y = at[0] - EAST, at[1] - NORTH
                assert rotate(Point(x, y), -turn, origin=(0, 0)).within(place.buffer(NOISE))
            assert self.by_cells(land, 1)[1] == told

    def test_thin_rest(self):
        """What is thin beside a place is one row, from a millimetre on; below it is rounding."""
        for thin, rows in ((0.001, 2), (0.000_9, 1), (0.015, 2)):
            found = self.whole(lands("overlap", unary_union([box(0, 10, 1, 11), box(0, 5, thin, 90)]), 0.0))
            found = sorted((loss[4], loss[5]) for loss in found)
            assert [round(width, 4) for width, _ in found] == [thin, 1.0][-rows:]
            assert rows == 1 or found[0][1] == pytest.approx(84 * thin, abs=0.001)

    @pytest.mark.parametrize("kind", ("overlap", "gap", "outside"))
    def test_thin_neighbours(self, kind):
        """None of 51 conflicts of 5 cm to 1.5 m that has a thin neighbour passes."""
        for number in range(51):
            width = 0.05 * 30 ** (number / 50)
            place = unary_union(
                [box(0, 20, width, 20 + max(width, 0.3)), box(0, 20.1, 0.000_1 + 0.000_02 * number, 95)]
            )
            ((_, found, _, _),) = stopping(self.whole(lands(kind, place, 7.0 * (number % 4))))
            assert found == pytest.approx(min(width, max(width, 0.3)), abs=0.0001)

    def test_long_borders(self):
        """Along a border of 900 m with 3,000 points, one place in the middle."""
        xs = [0.000_3 * (number % 2) for number in range(3_001)]
        place = unary_union(
            [
                Polygon([(-1, 0), *((x, 0.3 * number) for number, x in enumerate(xs)), (-1, 900)]).intersection(
                    box(0, 0, 9, 900)
                ),
                box(0, 450, 0.5, 451),
            ]
        )
        ((_, width, area, _),) = stopping(self.whole(lands("overlap", place, 17.0, 900.0)))
        assert (width, area) == (pytest.approx(0.5, abs=0.0005), pytest.approx(0.5, abs=0.01))


class TestSilence(ByCells):
    """Conflicts of rows that are hard to see each other."""

    def told_of(self, land):
        told = self.whole(land)
        assert self.by_cells(land, 1)[1] == told
        return [(kind, names, round(area, 6)) for kind, names, _, _, _, area, _ in told]

    def test_three_pieces(self):
        """A third piece lies over the overlap of two, and over more; and two pieces of one parcel share a place:
        each pair is told."""
        left, right, third = box(-50, 0, 2, 100), box(0, 0, 50, 100), box(-1, 10, 1, 11)
        parcels = [("A", left), ("B", right), ("C", third)]
        assert self.told_of(Land(parcels, parcels)) == [
            ("overlap", ["A.1", "B.2"], 200),
            ("overlap", ["A.1", "C.3"], 2),
            ("overlap", ["B.2", "C.3"], 1),
        ]
        same = [("A", box(0, 0, 6, 10)), ("A", box(5, 0, 10, 10)), ("A", box(5, 4, 6, 5))]
        assert self.told_of(Land([("A", box(0, 0, 10, 10))], same)) == [
            ("overlap", ["A.1", "A.2"], 10),
            ("overlap", ["A.1", "A.3"], 1),
            ("overlap", ["A.2", "A.3"], 1),
        ]

    def test_one_has_pieces(self):
        """Two parcels overlap, and one of them alone has pieces there, or none has."""
        left, right = box(-50, 0, 2, 100), box(0, 0, 50, 100)
        parcels = [("A", left), ("B", right)]
        assert self.told_of(Land(parcels, [("A", left), ("B", right.difference(left))])) == [("overlap", ["B"], 200)]
        assert self.told_of(Land(parcels, [("A", left.difference(right)), ("B", right.difference(left))])) == [
            ("overlap", ["A"], 200),
            ("overlap", ["B"], 200),
        ]

    @pytest.mark.parametrize("count", (1, 2, 11, 150))
    def test_namesakes(self, count):
        """A piece lies outside of its parcel where no parcel of the name has the place, however many there are; a
        piece in another of them is not outside."""
        shapes = [box(20 * number, 0, 20 * number + 10, 10) for number in range(count)]
        covers = [("A", box(*shape.bounds[:3], 13) if number == 0 else shape) for number, shape in enumerate(shapes)]
        layers = {
            name: land_module.Layer(name, rows)
            for name, rows in vars(Land([("A", shape) for shape in shapes], covers)).items()
            if name != "turn"
        }
        source = conflicts.Source(layers)
        conflicts.find_conflicts(source, lambda words: None, between=None)
        assert [
            (loss.kind, loss.names, loss.rows, round(loss.width, 4), round(loss.area, 4)) for loss in source.losses
        ] == [("outside", ["A.1", "A"], [1, 1], 3, 30)]


class TestChanges(Case):
    def test_wide(self):
        """A change that is as wide as a place stops, however long the border is, and is told where it is."""
        before = box(0, 0, 3000, 300)
        for side, wide in ((1.0, [1.0]), (0.02, [0.02]), (0.019, [])):
            source, changed = (
                Land([("A", shape)], [("A", shape)])
                for shape in (before, before.difference(box(100, 0, 100 + side, side)))
            )
            layers, tables = (
                {
                    name: land_module.Layer(name, rows)
                    for name, rows in (("parcels", one.parcels), ("covers", one.covers))
                }
                for one in (source, changed)
            )
            coverage.release(tables, self.path("tables"), lambda words: None)
            made = conflicts.Source(layers)
            row_outcomes.Outcome(made, of_folder(self.path("tables")), land_balance.Balance(layers)).find()
            found = [loss for loss in made.losses if loss.kind == "changed" and loss.stops()]
            assert [round(loss.width, 4) for loss in found] == pytest.approx(wide * 2, abs=0.001)
            for loss in found:
                assert (loss.place()[0] - EAST, loss.place()[1] - NORTH) == (
                    pytest.approx(100 + side / 2, abs=0.002),
                    pytest.approx(side / 2, abs=0.002),
                )


class TestWidths(Case):
    def test_known(self):
        """Shapes whose width is known."""
        for shape, width in (
            (box(0, 0, 10, 0.02), 0.02),
            (Point(0, 0).buffer(0.5, 256), 1.0),
            (Polygon([(0, 0), (4, 0), (0, 3)]), 2.0),
            (box(0, 0, 9, 9).difference(box(3, 3, 6, 6)), 6 * (2 - 2**0.5)),
            (box(0, 0, 134.8, 5), 5.0),
            (box(0, 0, 134.8, 134.8), 134.8),
            (box(0, 0, 1, 1e-9), 1e-9),
        ):
            for turn in (0.0, 31.0, 45.0):
                turned = translate(rotate(shape, turn, origin=(0, 0)), 3_500_000.123, 5_900_000.456)
                assert widths.width_of(turned) == pytest.approx(width, rel=0.0002, abs=1e-8)

    def test_a_collection(self):
        """Lines and points beside polygons, as a difference may have them, count nothing."""
        square = Polygon([(0, 0), (0.5, 0), (0.5, 3), (0, 3)])
        shape = GeometryCollection([square, LineString([(5, 0), (900, 0)])])
        assert widths.is_as_wide(shape, 0.49) and not widths.is_as_wide(shape, 0.51)
        assert widths.width_of(shape) == pytest.approx(0.5, abs=0.001)

    def test_bounds(self):
        """At 5 million metres 0.02 m are as wide as that and 0.0199 are not: bands, discs, lenses, and necks between
        places."""
        far = 3_500_000.123, 5_000_000.456
        lens = [
            Point(0, 0).buffer(50, 512).intersection(Point(100 - width, 0).buffer(50, 512))
            for width in (0.020_1, 0.019_9)
        ]
        shapes = [
            [box(0, 0, width, 7) for width in (0.02, 0.0199)],
            [Point(0, 0).buffer(width / 2, 256) for width in (0.020_01, 0.0199)],
            lens,
        ]
        for wide, thin in shapes:
            for turn in (0.0, 17.0, 45.0):
                wide_one, thin_one = (translate(rotate(shape, turn, origin=(0, 0)), *far) for shape in (wide, thin))
                assert (widths.is_as_wide(wide_one, 0.02 - NOISE), widths.is_as_wide(thin_one, 0.02 - NOISE)) == (
                    True,
                    False,
                )
        for neck, count in ((0.0199, 5), (0.0201, 1)):
            shape = translate(
                rotate(
                    unary_union([*(box(3 * n, 0, 3 * n + 1, 1) for n in range(5)), box(0, 0, 12, neck)]),
                    17,
                    origin=(0, 0),
                ),
                *far,
            )
            found, thin = widths.places_of(shape, 0.02 - NOISE)
            assert (len(found), thin.area > 0.1) == (count, count > 1)
            assert sum(place.area for place in found) + thin.area == pytest.approx(shape.area, abs=1e-6)

    def test_narrow(self):
        """Land that nobody has is narrow where its widest place is: not by its area over its length."""
        bulge = unary_union([box(0, 0, 100, 0.1), box(40, 0, 43, 3)])
        assert (gaps.is_narrow(bulge, 1.0), gaps.is_narrow(bulge, 3.0), gaps.is_narrow(bulge, 2.9)) == (
            False,
            True,
            False,
        )
        assert math.isclose(widths.width_of(bulge), 3.0, abs_tol=0.001)
