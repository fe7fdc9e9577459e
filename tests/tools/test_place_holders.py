"""Tests that a place in conflict says who has it, before anything is accepted and in the tables: overlapping parcels
are called so, a hole is told apart, and all who have a share are told with their areas."""

from typing import NamedTuple

import pytest
from lpis_helpers import dirty, preparing_case
from lpis_helpers.calls import records, tool
from shapely.geometry import box

from lpis.formats import wkb
from lpis.preparation import conflicts, place_holders, row_outcomes
from lpis.report import remedies
from lpis.source import land

EAST, NORTH = 550_000, 5_400_000
A, B = (0, 0, 10, 10), (9.5, 0, 20, 10)  # B reaches half a metre over A
B_ALONE = (10, 0, 20, 10)


def at(sides):
    return box(sides[0] + EAST, sides[1] + NORTH, sides[2] + EAST, sides[3] + NORTH)


def row(number, fields, sides):
    return land.Row(number, fields, wkb.Found(conflicts.members_of(at(sides))))


def losses(parcels, pieces):
    """What stops of parcels and pieces, each with its parcel's name and box."""
    covers = [
        row(number, {"piece": f"{name}{number}", "parcel": name, "class": "GRASS"}, sides)
        for number, (name, sides) in enumerate(pieces, 1)
    ]
    parcels = [row(number, {"parcel": name}, sides) for number, (name, sides) in enumerate(parcels, 1)]
    layers = {name: land.Layer(name, rows) for name, rows in (("parcels", parcels), ("covers", covers))}
    source = conflicts.Source(layers)
    conflicts.find_conflicts(source, lambda words: None, between=None)
    return [loss for loss in source.losses if loss.stops()]


class Case(NamedTuple):
    parcels: list
    pieces: list
    told: list  # the kind, the layer, the names, the area and the words of each


FILLED, NO_PIECE = "whose pieces fill it", "and no piece has it"
HOLE = "this place is in the parcel and in none of its pieces"
CASES = {
    "a parcel over another, which has a piece there": Case(
        [("A", A), ("B", B)],
        [("A", A), ("B", B_ALONE)],
        [("overlap", "parcels", ["B"], 5, f"B has no piece here, and parcel A (5.000 m2) has the place too, {FILLED}")],
    ),
    "two parcels, and no piece": Case(
        [("A", A), ("B", B)],
        [("A", (0, 0, 9.5, 10)), ("B", B_ALONE)],
        [
            (
                "overlap",
                "parcels",
                [one],
                5,
                f"{one} has no piece here, and parcel {other} (5.000 m2) has the place too," f" {NO_PIECE}",
            )
            for one, other in ("AB", "BA")
        ],
    ),
    "two parcels, and a piece in half of it": Case(
        [("A", A), ("B", B)],
        [("A", (0, 0, 9.5, 10)), ("A", (9.5, 0, 10, 5)), ("B", B_ALONE)],
        [
            (
                "overlap",
                "parcels",
                ["A"],
                2.5,
                f"A has no piece here, and parcel B (2.500 m2) has the place too, {NO_PIECE}",
            ),
            (
                "overlap",
                "parcels",
                ["B"],
                5,
                "B has no piece here, and parcel A (5.000 m2) has the place too, whose pieces have 2.500 m2 of it",
            ),
        ],
    ),
    "a parcel over three others": Case(
        [("A", (0, 0, 10, 4)), ("C", (0, 4, 10, 7)), ("D", (0, 7, 10, 10)), ("B", B)],
        [("A", (0, 0, 10, 4)), ("C", (0, 4, 10, 7)), ("D", (0, 7, 10, 10)), ("B", B_ALONE)],
        [
            (
                "overlap",
                "parcels",
                ["B"],
                5,
                "B has no piece here, and parcels A (2.000 m2), C (1.500 m2) and D (1.500 m2) have the place too,"
                f" {FILLED}",
            )
        ],
    ),
    "a hole": Case([("A", A)], [("A", (0, 0, 8, 10))], [("gap", "parcels", ["A"], 20, HOLE)]),
    "a hole beside a neighbour that ends at the border": Case(
        [("A", A), ("B", B_ALONE)], [("A", (0, 0, 8, 10)), ("B", B_ALONE)], [("gap", "parcels", ["A"], 20, HOLE)]
    ),
    "a piece of another parcel, which is outside of it": Case(
        [("A", A), ("B", B_ALONE)],
        [("A", (0, 0, 9, 10)), ("B", (9, 0, 20, 10))],
        [
            ("gap", "parcels", ["A"], 10, f"{HOLE}; it is in piece B2 of parcel B (10.000 m2)"),
            (
                "outside",
                "covers",
                ["B2", "B"],
                10,
                "this place is in the piece and not in its parcel; it is in parcel A (10.000 m2)",
            ),
        ],
    ),
    "a piece outside, where nobody is": Case(
        [("A", A)],
        [("A", (0, 0, 10, 12))],
        [("outside", "covers", ["A1", "A"], 20, "this place is in the piece and not in its parcel")],
    ),
    "over a neighbour and over a hole beside it": Case(
        [("A", (0, 0, 10, 5)), ("B", B)],
        [("A", (0, 0, 10, 5)), ("B", B_ALONE)],
        [
            (
                "overlap",
                "parcels",
                ["B"],
                2.5,
                f"B has no piece here, and parcel A (2.500 m2) has the place too, {FILLED}",
            ),
            ("gap", "parcels", ["B"], 2.5, HOLE),
        ],
    ),
    "a hole of three centimetres, a part of which a neighbour has too": Case(
        [("A", (0, 0, 10.012, 10)), ("B", (10, 0, 20, 10))],
        [("A", (0, 0, 10.012, 10)), ("B", (10.03, 0, 20, 10))],
        [
            (
                "gap",
                "parcels",
                ["B"],
                0.3,
                f"{HOLE}; it is in piece A1 of parcel A (0.120 m2) and in parcel A (0.120 m2)",
            )
        ],
    ),
}


class TestSource:
    @pytest.mark.parametrize("name", CASES)
    def test_words(self, name):
        parcels, pieces, told = CASES[name]
        found = losses(parcels, pieces)
        assert [
            (loss.kind, loss.layer, loss.names, pytest.approx(loss.area, abs=1e-6), loss.words) for loss in found
        ] == told

    def test_all_of_the_place_is_told(self):
        """A place that is told in parts is told whole."""
        parcels, pieces, _ = CASES["over a neighbour and over a hole beside it"]
        shapes = [loss.shape for loss in losses(parcels, pieces)]
        assert (shapes[0].union(shapes[1]).area, shapes[0].intersection(shapes[1]).area) == pytest.approx((5, 0))


class TestRemedies:
    def test_kinds(self):
        """What helps against a hole would make an overlap where others have the place."""
        assert remedies.of("overlap", "parcels").startswith("cut the place out of the parcel that has no piece there")
        assert remedies.of("overlap", "covers").startswith("draw the border between the two once")
        assert remedies.of("gap", "parcels").startswith("where nobody else has the place, stretch a piece over it")
        assert "where no other parcel has the place" in remedies.of("outside", "covers")
        assert "--accept overlap: the place stays with the pieces that have it" in remedies.of("overlap", "parcels")
        assert "--accept overlap: the one whose identifier sorts first" in remedies.of("overlap", "covers")


class TestWords:
    @pytest.mark.parametrize(
        "shares, words",
        (
            ([("A", 1.0)], "A (1.000 m2)"),
            ([("A", 1.0), ("B", 2.0)], "B (2.000 m2) and A (1.000 m2)"),
            ([(name, 1.0) for name in "CBA"], "A (1.000 m2), B (1.000 m2) and C (1.000 m2)"),
            ([(name, 1.0) for name in "DCBA"], "A (1.000 m2), B (1.000 m2), C (1.000 m2) and 1 other"),
            (
                [(f"{number:02}", 1.0) for number in range(11)],
                "00 (1.000 m2), 01 (1.000 m2), 02 (1.000 m2) and 8 others",
            ),
        ),
    )
    def test_shares(self, shares, words):
        assert place_holders.in_words(shares) == words

    @pytest.mark.parametrize(
        "taken, words",
        (
            ([("P", (0, 0, 10, 10))], "p0 of parcel P gets it in the tables"),
            (
                [("P", (0, 0, 10, 3)), ("Q", (0, 3, 10, 10))],
                "p1 of parcel Q (70.000 m2) and p0 of parcel P (30.000 m2) get it in the tables",
            ),
            (
                [("P", (0, 0, 10, 3))],
                "p0 of parcel P (30.000 m2) gets it in the tables, and nobody 70.000 m2, it is left out of the parcel",
            ),
            (
                [("P", (0, number, 10, number + 1)) for number in range(10)],
                "p0 of parcel P (10.000 m2), p1 of parcel P (10.000 m2), p2 of parcel P (10.000 m2) and 7 others get"
                " it in the tables",
            ),
            ([("P", (-10, -10, 0.0007, 10))], "in the tables nobody gets it, it is left out of the parcel"),
            ([("P", (-2000, -2000, 2000, 2000))], "p0 of parcel P gets it in the tables"),  # many cells of the grid
        ),
    )
    def test_taken(self, taken, words):
        """Whoever has some of a place in the tables has it with its area, but for what rounding moves."""
        loss = conflicts.Loss("gap", ["A"], "a hole", at((0, 0, 10, 10)), 10.0, 100.0, "parcels", [1])
        places = row_outcomes.Places([loss])
        for number, (parcel, sides) in enumerate(taken):
            shape = at(sides)
            places.give(f"p{number}", parcel, shape, places.near(shape.bounds))
        places.tell()
        assert loss.words == f"a hole: {words}"


class TestRuns(preparing_case.Case):
    def test_check(self):
        """What stops, what to do about it, and what the tables say of it once it is accepted."""
        squares = [(name, dirty.polygon(dirty.box(x, 0, width))) for name, x, width in (("A", 0, 10), ("B", 9.5, 10.5))]
        covers = [("A1", "A", "GRASS", squares[0][1]), ("B1", "B", "GRASS", dirty.polygon(dirty.box(10, 0)))]
        land_of_it = self.package(squares, covers)
        ran = tool("check", land_of_it, "--out", self.out)
        assert ran.returncode == 1 and "\nno: 1 finding stops (1 overlap)" in ran.stdout, ran.stdout
        assert f": B has no piece here, and parcel A (5.000 m2) has the place too, {FILLED}" in ran.stdout
        assert "\n  overlap of parcels: cut the place out of the parcel that has no piece there; or" in ran.stdout
        ran = tool("check", land_of_it, "--out", self.out, "--accept", "overlap,changed")
        assert (ran.returncode, ran.stdout.splitlines()[-1]) == (0, "yes"), ran.stdout
        (found,) = (one for one in records(self.out, "report.csv") if one["kind"] == "overlap")
        assert found["words"].endswith(f"{FILLED}: A1 of parcel A gets it in the tables"), found
