"""Tests the tools by whole lands: 40 generated ones (12 without --long), damaged sources, and each land that once
failed, made small. What has to hold is said in lands_trial.py. Wants Shapely."""

import math
import os

import pytest
from lpis.system import shapely_there
from lpis_helpers import lands_run
from lpis_helpers import lands_trial
from lpis_helpers import starter
from lpis_helpers.lands_land import Land
from lpis_helpers.lands_parts import boxed
from lpis_helpers.lands_shapes import Shape
from lpis_helpers.lands_shrink import Shrinking
from lpis_helpers.spare import few_at_once

LANDS, FEW, MOST, DAMAGED = 40, 6, 200, 40
# Damaged sources that once ended in a traceback, or never: arcs without a radius, a table without a name, a number for
# a shape, a view without an end, curves within curves.
ONCE = (57, 123, 126, 510, 516, 580, 587, 1211, 1527)
E, N = 550_000.0, 5_400_000.0


def box(x, y, width=10.0, height=10.0):
    """A rectangle about the corner of the land."""
    return boxed(E + x, N + y, width, height)


def alike(*members, form=None):
    """A parcel that is one piece, for each shape."""
    shapes = [Shape(member, form) for member in members]
    return [(f"P{number}", shape) for number, shape in enumerate(shapes)], [
        (f"K{number}", f"P{number}", "GRASS", shape) for number, shape in enumerate(shapes)
    ]


def circle(x, y, radius, count):
    """A ring of so many corners."""
    ring = [
        (E + x + radius * math.cos(2 * math.pi * k / count), N + y + radius * math.sin(2 * math.pi * k / count))
        for k in range(count)
    ]
    return [*ring, ring[0]]


def bent(x, bend):
    """A rectangle whose sides are arcs."""
    ring = box(x, 0)[:1]
    for (ax, ay), (bx, by) in zip(box(x, 0), box(x, 0)[1:]):
        ring += [((ax + bx) / 2 + (by - ay) * bend, (ay + by) / 2 - (bx - ax) * bend), (bx, by)]
    return ring


def needle(angle):
    """A ring of 90 km, a decimetre wide at its far end."""
    x, y = E + 90_000 * math.cos(angle), N + 90_000 * math.sin(angle)
    return [(E, N), (x, y), (x + 0.1, y + 0.05), (E, N)]


# Each once ended in a traceback, lost land in silence, or took a table without a row for a success.
CASES = {
    "a parcel that rounds to a line within another": alike([[box(0, 0)]], [[box(4, 4, 1.0, 0.0001)]]),
    "a parcel that rounds to a line, beside another": alike([[box(0, 0)]], [[box(20, 4, 1.0, 0.0004)]]),
    "a parcel that rounds to a line, alone": alike([[box(0, 0, 1.0, 0.0001)]]),
    "a parcel that rounds to a point, within another": alike([[box(0, 0)]], [[box(4.0003, 4, 0.0004, 0.0004)]]),
    "a parcel beyond the range, in a system without zones before eastings": alike(
        [[box(0, 0)]], [[box(32_000_020, 0)]]
    ),
    "needles of 90 km beside fine shapes": alike(
        *([[circle(5 * k, 5, 0.9, 500)]] for k in range(10)), *([[needle(0.3 + 0.2 * k)]] for k in range(5))
    ),
    "an arc of three equal points, and one that is nearly straight": alike(
        [[[(E, N)] * 3]], [[bent(0, 1e-12)]], [[bent(20, 1e-9)]], [[bent(40, 0.2)]], form="arcs"
    ),
    "parcels beyond the range alone": alike([[box(19_450_500, 0)]], [[box(19_450_510, 0)]]),
}


@pytest.mark.skipif(not shapely_there.is_there(), reason=shapely_there.LACKING)
class TestLands:
    @pytest.fixture(autouse=True, scope="class")
    def begin(self, request, tmp_path_factory):
        spare = str(tmp_path_factory.mktemp("lands"))
        starter.preload()
        request.cls.folder, request.cls.runner = os.path.join(spare, "land"), lands_run.Runner(spare)

    @pytest.mark.parametrize("name, rows", CASES.items())
    def test_cases(self, name, rows):
        for form in ("package", "csv")[: 1 if "90 km" in name else 2]:
            assert lands_trial.of_land(Land.of_rows(*rows, form), self.runner, self.folder) == []

    @pytest.mark.parametrize("number", few_at_once(range(LANDS), FEW))
    def test_generated(self, number):
        assert lands_trial.of_land(Land(number, MOST), self.runner, self.folder) == []

    @pytest.mark.parametrize("number", (*few_at_once(range(DAMAGED), DAMAGED // 2), *ONCE))
    def test_damaged(self, number):
        assert lands_trial.of_damaged(number, self.runner, self.folder)[0] == []

    def test_shrinking(self):
        """A land that fails is made as small as it goes: the parcel and its hole that are at fault, and nothing
        else, in coordinates of few digits."""

        def fails(land):
            return any(
                len(member) > 1 and abs(member[1][0][0] - E) < 100
                for row in land.parcels
                for member in row.shape.members
            )

        shapes = [[[circle(30 * k, 5.123456, 9.87654321, 12), circle(30 * k, 5, 2.5, 5)]] for k in range(4)]
        whole = Land.of_rows(
            *alike(
                *([[box(200 + 20 * k, 0)]] for k in range(30)),
                shapes[1],
                *([[box(200 + 20 * k, 30)]] for k in range(30)),
            )
        )
        small = Shrinking(whole, fails).run()
        (row,) = small.rows()
        assert (fails(small), [len(ring) for ring in row.shape.members[0]]) == (True, [4, 4])
        assert all(value == round(value) for point in row.shape.points() for value in point), row.shape.points()
        assert len(whole.rows()) == 122
