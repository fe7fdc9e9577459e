"""Tests that coordinates which no map has are findings of a source with words, in the whole and in parts, and that the
balance holds beside them. Wants Shapely."""

import math

import pytest
from lpis_helpers import dirty
from lpis_helpers.calls import ended_with, records, tool
from lpis_helpers.spare import Spare, exhaustive
from lpis.formats import identifiers
from lpis.preparation import identifier_passes
from lpis.system import shapely_there

EAST, NORTH = dirty.EAST, dirty.NORTH


def triangle(value):
    return dirty.polygon([(EAST + 10, NORTH), (value, NORTH), (EAST + 10, NORTH + 10), (EAST + 10, NORTH)])


def arc(value):
    return dirty.arc((value, value), (2 * value, value), (-value, -value), (-value, value), (value, value))


SHAPES = [
    ("far", triangle(1e16)),
    ("far", triangle(1e300)),
    ("far", triangle(-1.7e308)),
    ("far", triangle(2e15)),
    ("far", arc(8e307)),
    ("far", dirty.polygon(dirty.box(10, 0), [(1e300, 0), (0, 1e300), (1, 1), (1e300, 0)])),
    ("shape", triangle(math.inf)),
    ("shape", triangle(math.nan)),
    ("shape", arc(1.5e308)),
]


# By tools/country two of three wait for --long.
CASES = [
    *((["prepare"], *case) for case in SHAPES),
    *(
        (exhaustive if number % 3 else pytest.param)(["country", "prepare"], *case)
        for number, case in enumerate(SHAPES)
    ),
]


@pytest.mark.skipif(not shapely_there.python(), reason=shapely_there.LACKING)
class TestFar(Spare):
    def land(self, shape):
        """Three parcels with a piece each, the second of which has this shape."""
        rows = [(str(number), dirty.polygon(dirty.box(10 * number, 0))) for number in range(3)]
        rows[1] = "1", shape
        package = dirty.Package(self.path("land.gpkg"))
        package.layer("parcels", ["parcel"], rows)
        package.layer("covers", ["piece", "parcel", "class"], [(name, name, "GRASS", found) for name, found in rows])
        package.table("classes", ["class", "percent"], [("GRASS", "100")])
        package.close()
        return self.path("land.gpkg")

    @pytest.mark.parametrize("words, kind, shape", CASES)
    def test_found(self, words, kind, shape):
        land, out = self.land(shape), self.path("out")
        ended_with(1, tool(*words, land, out))
        run = ended_with(0, tool(*words, land, out, "--accept"))
        found = [row for row in records(out, "prepared.csv") if row["kind"] == kind]
        assert [(row["layer"], row["identifier"], len(row["x"]) < 20) for row in found] == [
            ("parcels", "1", True),
            ("covers", "1", True),
        ], run.stdout
        assert "a coordinate is" in found[0]["words"]
        assert "the balance adds up to the square metre" in run.stdout


def test_numbered():
    """A name with a number behind it is an identifier, however many there are."""
    for name in ("a" * 40, "a" * 36, "b"):
        for number in (2, 999, 1000, 123_456, 10**9):
            made = identifier_passes.numbered(name, number)
            assert (identifiers.is_one(made), made.endswith(f"-{number}"), len(made) <= 40) == (True, True, True)
