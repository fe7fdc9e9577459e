"""Tests which parcels get another text by tools/country prepare --previous though their source is the same: those
beside a new border that ends on their own border, by its end alone. Wants Shapely."""

import math
import random

from lpis_helpers.calls import ended_with, tool
from lpis_helpers.places import run_helper
from lpis_helpers.cells_case import Case
from lpis_helpers.lands_parts import on
from lpis.system import shapely_there

if shapely_there.is_there():
    from shapely import wkb

    from lpis_helpers import dirty
    from lpis_helpers import edits
    from lpis_helpers import neighbours
    from lpis_helpers import two_years
    from lpis.preparation import last_year_conflation
    from lpis.rounding import coverage, snap_rounding
    from lpis.source import land as land_module

PARCELS, SPLITS = 100, 25
A, B = (550000.1234, 5400000.5678), (550047.9876, 5400031.2345)  # the ends of a border
OUT = (550010.0, 5400040.0), (550040.0, 5399990.0)  # what lies on both sides of it


def points_of(shape):
    """The points of a row's shape, as a GeoPackage has it."""
    found = wkb.loads(shape[8:])
    return [
        point
        for part in getattr(found, "geoms", [found])
        for ring in (part.exterior, *part.interiors)
        for point in ring.coords
    ]


def row(name, *ring):
    """A row with a ring."""
    return land_module.Row(0, {"parcel": name, "piece": name}, land_module.wkb.Found([[[*ring, ring[0]]]]))


class TestBorders(Case):
    """Two parcels on both sides of a border, and a year later a new corner on it."""

    def map(self, *rows, then=()):
        borders = last_year_conflation.Borders(coverage.numpy.array(then)) if len(then) else None
        made = coverage.Map([], list(rows), lambda words: None, then=borders)
        return {
            rows[number]["piece"]: neighbours.turned(neighbours.rings(text)[0])
            for number, text in made.polygons(made.pieces)
        }

    def set_up(self):
        self.before = self.map(row("left", A, B, OUT[0]), row("right", B, A, OUT[1]))
        self.then = [
            [*first, *last] for ring in self.before.values() for first, last in zip(ring, [*ring[1:], ring[0]])
        ]

    def test_corner_of_one_side(self):
        """A corner that only one side has, on the straight border, is needless in the second year; in a first year
        it stays."""
        for shares in ((0.37,), (0.2, 0.200001, 0.7), tuple(number / 97 for number in range(1, 97))):
            corners = [on(A, B, share) for share in shares]
            rows = row("left", A, *corners, B, OUT[0]), row("right", B, A, OUT[1])
            assert self.map(*rows, then=self.then) == self.before
            assert len(self.map(*rows)["right"]) > 3

    def test_corner_of_both_sides(self):
        """It is meant: no edge of the source goes through."""
        corner = on(A, B, 0.37)
        made = self.map(row("left", A, corner, B, OUT[0]), row("right", B, corner, A, OUT[1]), then=self.then)
        assert [neighbours.pixel(corner) in ring for ring in made.values()] == [True, True]

    def test_corner_beside_the_border(self):
        """A new corner within 0.79 mm of a straight border is none of it; one farther away is."""
        (ax, ay), (bx, by) = A, B
        length = ((bx - ax) ** 2 + (by - ay) ** 2) ** 0.5
        for share, aside, stays in ((0.37, 1e-6, False), (0.37, -4e-4, False), (0.37, 2e-3, True)):
            x, y = on(A, B, share)
            corner = x - (by - ay) / length * aside, y + (bx - ax) / length * aside
            made = self.map(row("left", A, corner, B, OUT[0]), row("right", B, A, OUT[1]), then=self.then)
            assert (neighbours.pixel(corner) in made["left"]) == stays, aside
            assert neighbours.pixel(corner) not in made["right"], aside

    def test_end_of_a_border(self):
        """A new border that ends there has the corner on all its sides."""
        corner = on(A, B, 0.37)
        made = self.map(
            row("one", A, corner, OUT[0]), row("other", corner, B, OUT[0]), row("right", B, A, OUT[1]), then=self.then
        )
        assert [neighbours.pixel(corner) in ring for ring in made.values()] == [True] * 3

    def test_corner_of_last_year(self):
        """One that last year had stays, also where it is only beside that."""
        corner = on(A, B, 0.37)
        for by in ((0, 0), (1, 0), (1, -1)):
            beside = [at + step for at, step in zip(neighbours.pixel(corner), by)]
            old = [*self.then, [*beside, *beside]]
            assert len(self.map(row("left", A, corner, B, OUT[0]), row("right", B, A, OUT[1]), then=old)["right"]) == 4

    def test_on_an_edge(self):
        """Points of edges of any length and way, in whole numbers."""
        numbers = random.Random(1)
        for size in (1 << 12, 1 << 28, 1 << 40):
            for _ in range(200):
                ax, ay, bx, by = (numbers.randrange(-size, size) for _ in range(4))
                share = numbers.random()
                x, y = round(ax + (bx - ax) * share), round(ay + (by - ay) * share)
                assert snap_rounding.are_on([ax, ay, bx, by], [(x, y)])
                far = math.ceil(3 * snap_rounding.ON)  # across, at most by the root of two less
                away = (0, far) if abs(bx - ax) >= abs(by - ay) else (far, 0)
                assert not snap_rounding.are_on([ax, ay, bx, by], [(x, y), (x + away[0], y + away[1])])


class TestCountries(Case):
    """Two years of a small country in which some parcels were split between the corners of their borders."""

    def source(self, folder, path):
        rows = [
            two_years.rows(folder, *layer)
            for layer in (("parcels", ["parcel"]), ("covers", ["piece", "parcel", "class"]))
        ]
        dirty.put(path, *rows, two_years.CLASSES)

    def prepared(self, year, *words):
        ended_with(
            0,
            tool(
                "country",
                "prepare",
                self.path(f"{year}.gpkg"),
                self.path(year),
                "--accept",
                "--quiet",
                "--parcels",
                60,
                *words,
            ),
        )

    def test_new_borders(self):
        """Each parcel of another text lies beside a split one, and has the ends of the new borders more, all of it
        by whole numbers."""
        run_helper("make_coverage", PARCELS, 3, self.path("one"))
        land, chance = edits.Land(self.path("one")), random.Random(3)
        names = list(land.parcels)
        chance.shuffle(names)
        assert sum(land.split_across(name, chance) for name in names[:SPLITS]) > SPLITS // 2
        land.write(self.path("two"), lambda point: point)
        for year, folder in (("first", "one"), ("second", "two")):
            self.source(self.path(folder), self.path(f"{year}.gpkg"))
        self.prepared("first")
        self.prepared("second", "--previous", self.path("first"))
        found = neighbours.Neighbours(
            self.path("first.gpkg"), self.path("second.gpkg"), self.path("first"), self.path("second")
        )
        assert len(found.other()) > SPLITS // 2
        assert len(found.unchanged()) > 2 * len(found.other())
        assert found.faults(points_of) == []
