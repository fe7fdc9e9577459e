"""Tests that what comes of a finding stands below it, and that one fault is one row at the top."""

import pytest
from lpis_helpers import dirty, preparing_case
from lpis_helpers.calls import tool
from lpis.formats import wkb
from lpis.preparation.finding_rows import Finding
from lpis.report.finding_views import ACCEPTED, STOPS, TOLD, Found, Picture
from lpis.system import shapely_there

if shapely_there.is_there():
    from lpis.preparation import consequences

lacks_shapely = pytest.mark.skipif(not shapely_there.is_there(), reason=shapely_there.LACKING)


def box(x, y, width=1.0, height=1.0):
    return [[[(x, y), (x + width, y), (x + width, y + height), (x, y + height), (x, y)]]]


def finding(kind, names, members=None, row="1", layer="covers", done="left out"):
    return Finding(kind, layer, row, names, "words", done, blob=members and wkb.written(members))


def one(kind, names, members=None, state=STOPS, row="1", layer="covers", area=1.0, number=None, comes_from=""):
    return Found(kind, layer, row, names, "words", state, "do", area, None, None, members, number, comes_from)


OVERLAP, GAP = finding("overlap", "a b", box(0, 0), "1 2"), finding(
    "gap", "P", box(500, 500, 900, 900), layer="parcels"
)


@lacks_shapely
class TestCauses:
    @pytest.mark.parametrize(
        "changed, causes",
        (
            (finding("changed", "b", box(0, 0)), [0]),
            (finding("changed", "b", box(0.2, 0.001, 0.8, 1.0)), [0]),  # a millimetre beside it
            (finding("changed", "b", [*box(0, 0), *box(1, 0, 40, 0.0009)]), [0]),  # and the rounding of a border
            (finding("changed", "b", [*box(0, 0), *box(1, 0, 40, 0.019)]), [0]),  # and what is too narrow to stop
            (finding("changed", "b", [*box(0, 0), *box(1, 0, 40, 0.023)]), []),  # more than that
            (finding("changed", "b", box(0, 0, 1, 1.5)), []),  # more of it changed
            (finding("changed", "b", [*box(0, 0), *box(1000, 1000)]), [0, 2]),  # of two places: of both
            (finding("changed", "b", [*box(0, 0), *box(40, 40)]), []),  # one of its places comes of nothing
            (finding("changed", "b", None), []),
            (finding("lost", "b", box(0.1, 0.1, 0.5, 0.5)), [0]),
            (finding("outside", "b B", box(0, 0)), [0]),  # the overlap of the same piece has its place already
            (finding("outside", "b B", box(0, 0, 1, 1.5)), []),  # more of it is outside
            (finding("outside", "c B", box(0, 0)), []),  # another piece: a fault of its own
            (finding("overlap", "P", box(0, 0), layer="parcels"), []),
        ),
    )
    def test_places(self, changed, causes):
        assert consequences.causes_of([OVERLAP, changed, GAP]) == ({1: causes} if causes else {})

    def test_one_mistake_of_two_layers(self):
        """A border that pieces and parcels draw otherwise, and a piece that names no parcel, are one to decide."""
        outside, gap = finding("outside", "b B", box(0, 0)), finding("gap", "A", box(0, 0), layer="parcels")
        hole, stranger = finding("gap", "A", box(9, 9), layer="parcels"), finding("stranger", "c X", box(5, 5))
        bare, alone = finding("bare", "C", box(5, 5), layer="parcels"), finding("bare", "D", box(7, 7), layer="parcels")
        assert consequences.causes_of([outside, gap, hole, stranger, bare, alone]) == {1: [0], 4: [3]}
        of_parcels = finding("overlap", "b", box(0, 0), layer="parcels")
        assert consequences.causes_of([of_parcels, outside]) == {}

    def test_rows(self):
        """What is left out or made comes of what was found of the same row of the same layer."""
        rows = [
            finding("shape", "b", row=7),
            finding("nameless", "", row=7),
            finding("shape", "c", row=7, layer="parcels"),
            finding("overlap", "b c", box(0, 0), 7),
            finding("left out", "b", row=7),
            finding("made", "c", row=7, layer="parcels"),
            finding("left out", "d", row=8),
        ]
        assert consequences.causes_of(rows) == {4: [0, 1], 5: [2]}

    def test_a_layer_of_another_system(self):
        """What lies far away comes of it, and it stands first, however large the others are."""
        rows = [
            finding("far", "x", box(3e7, 0), row="7"),
            finding("bare", "P", row="2", layer="parcels"),
            finding("system", "", row=None),
            GAP,
        ]
        assert consequences.causes_of(rows) == {0: [2], 1: [2]}
        assert consequences.causes_of(rows[:2]) == {}


class TestPicture:
    def test_order(self):
        rows = [
            one("far", "x", box(3e7, 0), area=9e9, row="7", number=1, comes_from="3"),
            one("bare", "P", row="2", layer="parcels", number=2, comes_from="3"),
            one("system", "", row="", area=None, number=3),
            one("gap", "P", box(500, 500), number=4),
        ]
        assert [row.kind for row in Picture(rows).all] == ["system", "far", "bare", "gap"]

    def test_counts(self):
        """What goes with another is counted apart; what is lost is to be decided, and stands below it all the same."""
        picture = Picture(
            [
                one("changed", "b", box(0, 0), number=3, comes_from="1"),
                one("gap", "P", box(500, 500, 900, 900), area=3.0, number=2),
                one("changed", "B", box(0, 0), layer="parcels", number=4, comes_from="1 2"),
                one("overlap", "a b", box(0, 0), area=2.0, number=1),
                one("lost", "c", box(0, 0), number=5, comes_from="2"),
                one("changed", "d", box(0, 0), TOLD),
                one("changed", "e", box(0, 0), ACCEPTED, number=6, comes_from="7"),
            ]
        )
        assert [row.title() for row in picture.all if row.state == STOPS] == [
            "gap P",
            "lost c",
            "overlap a b",
            "changed B",
            "changed b",
        ]
        assert picture.last_line() == "no: 3 findings stop (1 gap, 1 lost, 1 overlap), and 2 that come from them"
        below = [line for line in picture.lines(5) if line.startswith(" ")]
        assert below == ["  this also causes: changed B; changed b"]
        assert [row[8] for row in picture.tables()[0].rows if row[0] == STOPS] == [
            "do",
            "do",
            "do",
            "comes from overlap a b",
            "comes from overlap a b",
        ]
        assert "  changed: it comes from another finding, and is settled with it; or --accept changed" in picture.todo()


class TestRuns(preparing_case.Case):
    def test_check(self):
        """An overlap and a gap are two findings; what changed by them is below."""
        squares = [(name, dirty.polygon(dirty.box(x, 0))) for name, x in (("A", 0), ("B", 9.5), ("C", 30))]
        covers = [
            *((f"{name}1", name, "GRASS", shape) for name, shape in squares[:2]),
            ("C1", "C", "GRASS", dirty.polygon(dirty.box(30, 0, 6))),
        ]
        ran = tool("check", self.package(squares, covers), "--out", self.out)
        assert (ran.returncode, ran.stdout.splitlines()[-1]) == (
            1,
            "no: 2 findings stop (1 gap, 1 overlap), and 3 that come from them",
        ), ran.stdout
        assert "  this also causes: changed B; changed B1\n" in ran.stdout
