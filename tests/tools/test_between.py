"""Tests that land between parcels which nobody has is named with its area, its width and both neighbours: closed and
open, in every direction, up to a width. Wants Shapely."""

import json
import math
import os
from pathlib import Path

import pytest
from lpis_helpers import dirty
from lpis_helpers.calls import ended_with, records
from lpis_helpers.lands_parts import boxed
from lpis_helpers.preparing_case import Case
from lpis.system import shapely_there

if shapely_there.is_there():
    import numpy
    from lpis.rounding import facing_borders, gaps
    from shapely.geometry import Polygon
WIDTHS = (0.005, 0.02, 0.3, 0.9, 0.999)
BLOCK = 200  # metres from a case to the next


def lands():
    """Parcels about a place, and the rows that they have: the parcels beside it, the width and the area, up to a
    metre wide."""
    for gap in WIDTHS:
        # open at both ends
        yield [("a", boxed(0, 0, 50, 40)), ("b", boxed(50 + gap, 0, 50, 40))], [("a b", gap, 40 * gap)]
        # closed
        yield (
            [
                ("a", boxed(0, 0, 50, 20)),
                ("b", boxed(0, 20 + gap, 50, 20)),
                ("c", boxed(-9, 0, 9, 40 + gap)),
                ("d", boxed(50, 0, 9, 40 + gap)),
            ],
            [("a b", gap, 50 * gap)],
        )
        yield [("a", boxed(0, 0, 50, 40)), ("b", boxed(50 + gap, 0, 50, 20)), ("c", boxed(50 + gap, 20, 50, 20))], [
            ("a b", gap, 20 * gap),
            ("a c", gap, 20 * gap),
        ]
    yield [("a", boxed(0, 0, 50, 40)), ("b", boxed(53, 0, 50, 40))], []  # a road
    yield [("a", boxed(0, 0, 50, 40)), ("b", boxed(50, 0, 50, 40))], []
    # an arm within one parcel
    yield [("a", [(0, 0), (50, 0), (50, 20), (20, 20), (20, 20.5), (50, 20.5), (50, 40), (0, 40), (0, 0)])], []
    yield [("a", boxed(0, 0, 50, 40)), ("b", boxed(50.5, 40.5, 50, 40))], []  # corner to corner
    # corners of a road
    yield [("a", boxed(0, 0, 50, 40)), ("b", boxed(0, 40, 20, 40)), ("c", boxed(60, 0, 40, 80))], []
    wedge = [("a", [(0, 0), (100, 0), (100, 20), (0, 20), (0, 0)]), ("b", [(0, 20), (100, 30), (100, 60), (0, 20)])]
    yield wedge, [("a b", 0.9496, 5.0)]  # up to where it is a metre wide
    # nothing across a narrow parcel
    yield [("a", boxed(0, 0, 50, 40)), ("b", boxed(50.4, 0, 0.2, 40)), ("c", boxed(51, 0, 50, 40))], [
        ("a b", 0.4, 16.0),
        ("b c", 0.4, 16.0),
    ]


@pytest.mark.skipif(not shapely_there.is_there(), reason=shapely_there.LACKING)
class TestBetween(Case):
    def source(self, turn):
        """All lands in one, each turned by an angle, and what is to be found by the names of its parcels."""
        parcels, wanted = [], []
        for number, (shapes, found) in enumerate(lands()):
            c, s = math.cos(turn), math.sin(turn)
            east, north = dirty.EAST + BLOCK * (number % 5), dirty.NORTH + BLOCK * (number // 5)
            for name, way in shapes:
                parcels.append(
                    (f"{name}{number}", dirty.polygon([(east + c * x - s * y, north + s * x + c * y) for x, y in way]))
                )
            wanted += [
                (" ".join(f"{name}{number}" for name in names.split()), width, area) for names, width, area in found
            ]
        return self.package(parcels, [(f"{name}.1", name, "GRASS", shape) for name, shape in parcels]), sorted(wanted)

    @pytest.mark.parametrize("turn", (0.0, 0.3, 1.2, 2.9))
    def test_named(self, turn):
        source, wanted = self.source(turn)
        ended_with(0, self.run_on(source))
        found = sorted(
            (row["identifiers"], float(row["width_m"]), float(row["area_m2"]), row["stops"])
            for row in records(self.out, "report.csv")
            if row["kind"] == "between"
        )
        assert [name for name, *_ in found] == [name for name, *_ in wanted], turn
        for (name, width, area, stops), (_, right, true) in zip(found, wanted):
            assert width == pytest.approx(right, abs=0.002), name
            assert area == pytest.approx(true, abs=0.11), name
            assert stops == "0"
        os.remove(source)
        (of_balance,) = (row for row in records(self.out, "balance.csv") if row["layer"] == "between")
        assert float(of_balance["tables_m2"]) == pytest.approx(sum(area for _, _, area, _ in found), abs=0.01)
        assert len(json.loads(Path(self.out, "between.geojson").read_text(encoding="utf-8"))["features"]) == len(found)
        assert '"between"' not in Path(self.out, "report.geojson").read_text(encoding="utf-8")

    def test_width(self):
        """--between sets up to which width; where there is none there is no layer, and no line of the balance."""
        source = self.package(
            *[
                [
                    (*fields(name), dirty.polygon(dirty.box(*at)))
                    for name, *at in (("a", 0, 0, 50, 40), ("b", 53, 0, 50, 40))
                ]
                for fields in (lambda name: [name], lambda name: [f"{name}.1", name, "GRASS"])
            ]
        )
        for width, found in (("3.1", ["a b"]), ("2.9", []), ("3", ["a b"])):
            run = self.run_on(source, "--between", width)
            assert (
                run.returncode,
                [row["identifiers"] for row in records(self.out, "report.csv") if row["kind"] == "between"],
            ) == (0, found), (
                run.stdout + run.stderr
            )
            assert (
                "between parcels, nobody" in run.stdout,
                os.path.exists(os.path.join(self.out, "between.geojson")),
            ) == (bool(found), bool(found))

    def test_wide(self):
        """A search of any width looks at what is near each border, and not at what lies behind that: a number of
        borders for each, however many there are."""
        for count in (8, 24):
            boxes = [
                [
                    (x * 1500.0, y * 1500.0),
                    (x * 1500.0, y * 1500.0 + 1000),
                    (x * 1500.0 + 1000, y * 1500.0 + 1000),
                    (x * 1500.0 + 1000, y * 1500.0),
                ]
                for x in range(count)
                for y in range(count)
            ]
            creek = [(count * 1500.0 + 3000 + 10 * (k % 2), 1500.0 * count - 20 * k) for k in range(75 * count)]
            ways = [
                *boxes,
                [*creek, (creek[0][0] + 10**6, 0.0)],
                [(-(10.0**6), 0.0), (-4000.0, -50.0), (-4000.0, 1500.0 * count)],
            ]
            borders = numpy.array([(*a, *b) for way in ways for a, b in zip(way, [*way[1:], way[0]])])
            whose = numpy.array([number for number, way in enumerate(ways) for _ in way])
            for width in (600, 100_000):
                found = facing_borders.Facing(borders[:, :2], borders[:, 2:], whose)
                area = sum(
                    Polygon(strip).area for one, other, strip, _ in found.strips(width) if max(one, other) < len(boxes)
                )
                assert area == pytest.approx(2 * 2 * count * (count - 1) * 0.5, abs=0.001), (count, width)
                assert found.looked < 700 * len(borders), (count, width)

    def test_fine(self):
        """Borders of a millimetre have no direction that rounding left them: lines stand for them, within a
        millimetre and a half, and the gap has its area."""
        count = 5000
        circle = numpy.array(
            [
                (round(900 * math.cos(2 * math.pi * k / count)), round(900 * math.sin(2 * math.pi * k / count)))
                for k in range(count)
            ],
            float,
        )
        ends = circle[numpy.any(circle != numpy.roll(circle, -1, axis=0), axis=1)]
        a, b, whose = facing_borders.straightened(
            ends, numpy.roll(ends, -1, axis=0), numpy.zeros(len(ends), int), (numpy.arange(len(ends)) + 1) % len(ends)
        )
        assert len(a) < 200
        assert (whose == 0).all() and (numpy.sort(a, axis=0) == numpy.sort(b, axis=0)).all()
        assert abs(numpy.hypot(*((a + b) / 2).T) - 900).max() < 3
        rings = [
            [
                (
                    dirty.EAST + east + 0.9 * math.cos(2 * math.pi * k / count),
                    dirty.NORTH + 0.9 * math.sin(2 * math.pi * k / count),
                )
                for k in [*range(count), 0]
            ]
            for east in (0, 1.9, 3.8)
        ]
        parcels = [(f"c{number}", dirty.polygon(way)) for number, way in enumerate(rings)]
        run = self.run_on(self.package(parcels, [(f"{name}.1", name, "GRASS", shape) for name, shape in parcels]))
        found = {
            row["identifiers"]: float(row["area_m2"])
            for row in records(self.out, "report.csv")
            if row["kind"] == "between"
        }
        assert (run.returncode, sorted(found)) == (0, ["c0 c1", "c1 c2"]), run.stdout + run.stderr
        assert all(0.05 < area < 0.06 for area in found.values()), found

    def test_many_corners(self):
        """Circles of many corners that face each other: what their strips make together has no more corners than
        these have, times a number."""
        for count in (100, 400):
            sides = []
            for east, way in ((0, 1), (2.1, -1)):
                ends = [
                    [
                        (east + way * radius * math.cos(k / count - 0.5), radius * math.sin(k / count - 0.5))
                        for k in range(count + 1)
                    ]
                    for radius in (0.9, 1.2)
                ]
                sides.append(
                    [
                        ([inner, after, far, outer], 0.3 * count)
                        for inner, after, far, outer in zip(ends[0], ends[0][1:], ends[1][1:], ends[1])
                    ]
                )
            land = gaps.land_of(sides)
            assert (
                sum(
                    len(ring.coords)
                    for part in getattr(land, "geoms", [land])
                    for ring in (part.exterior, *part.interiors)
                )
                < 6 * count
            )
