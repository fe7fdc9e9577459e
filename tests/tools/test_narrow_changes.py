"""Tests that what is too narrow in a change to be a conflict is told: slits that the tables have and the source has
not, which a crack between pieces leaves, and spikes that the tables have no longer."""

import pytest
from lpis_helpers.places import BUILT
from lpis_helpers import dirty
from lpis_helpers.calls import ended_with, records, tool
from lpis_helpers.spare import Spare
from lpis.source.land import Row
from lpis.system import shapely_there

if shapely_there.is_there():
    from lpis.preparation import narrow_changes
    from shapely.geometry import Polygon, box

pytestmark = pytest.mark.skipif(not shapely_there.is_there(), reason=shapely_there.LACKING)
SQUARE = [(0, 0), (100, 0), (100, 100), (0, 100)]


def found(before, after, told=()):
    row = Row(7, {"parcel": "A"})
    losses = narrow_changes.found(
        "parcels", row, before, after, before.difference(after), after.difference(before), lambda part: told
    )
    return [(loss.kind, loss.words.split(",")[0], round(loss.area, 3), loss.rows) for loss in losses]


class TestChanges:
    """A parcel before and after."""

    def test_a_slit(self):
        """A hole, and a notch from the border on; also one beside which the border moved by its rounding."""
        for slit in (box(20, 50, 80, 50.001), box(20, 50, 120, 50.002)):
            after = Polygon(SQUARE).difference(slit)
            ((kind, words, area, rows),) = found(Polygon(SQUARE), after)
            assert (kind, words[:6], rows) == ("slit", "a slit", [7])
            assert area == pytest.approx(Polygon(SQUARE).area - after.area, abs=0.001)
        moved = Polygon([(0.0005, 0.0003), (100, 0), (100, 100), (0, 100)]).difference(box(-1, 50, 80, 50.001))
        ((kind, _, area, _),) = found(Polygon(SQUARE), moved)
        assert (kind, area) == ("slit", pytest.approx(0.08, abs=0.001))

    def test_a_strip_that_is_added(self):
        assert [one[:2] for one in found(Polygon(SQUARE), Polygon(SQUARE).union(box(100, 50, 130, 50.001)))] == [
            ("slit", "a strip of 30.000 m")
        ]

    def test_rounding_is_no_slit(self):
        """A border that moved by less than a millimetre and a half, and what a conflict tells already."""
        assert not found(Polygon(SQUARE), box(0.0007, -0.0007, 100.0005, 100))
        slit = box(20, 50, 80, 50.0015)
        told = [type("Loss", (), {"shape": slit})]
        assert not found(Polygon(SQUARE), Polygon(SQUARE).difference(slit), told)

    def test_a_spike_is_told_as_one(self):
        spike = Polygon(SQUARE).union(Polygon([(100, 50), (130, 50.0004), (100, 50.0008)]))
        assert [one[:2] for one in found(spike, Polygon(SQUARE))] == [("spike", "a spike of 30.000 m")]

    def test_very_many(self, monkeypatch):
        monkeypatch.setattr(narrow_changes, "MOST", 3)
        after = Polygon(SQUARE)
        for number in range(5):
            after = after.difference(box(20, 10 + number, 80, 10.001 + number))
        *first, last = found(Polygon(SQUARE), after)
        assert len(first) == 3 and last[1].startswith("2 more slits and strips of this row")


@pytest.mark.skipif(BUILT is None, reason="the program is not built")
class TestCracks(Spare):
    def test_a_crack_between_pieces(self):
        """Its slit in the parcel is a row of findings.csv, which stops nothing, and is on the page."""
        x, y = dirty.EAST + 0.3, dirty.NORTH + 0.2
        way = [(x + 20.0, y), (x + 20.4007, y + 41.3), (x + 19.8, y + 100)]
        crack = [(way[0][0], way[0][1]), (way[1][0] + 0.0009, way[1][1]), (way[2][0], way[2][1])]
        left = [(x, y), *way, (x, y + 100)]
        right = [*crack[::-1], (x + 60, y), (x + 60, y + 100)]
        shapes = [dirty.polygon([*ring, ring[0]]) for ring in (left, right)]
        whole = dirty.polygon([(x, y), (x + 60, y), (x + 60, y + 100), (x, y + 100), (x, y)])
        land = dirty.put(
            self.path("land.gpkg"),
            [("A", whole)],
            [("A.1", "A", "GRASS", shapes[0]), ("A.2", "A", "GRASS", shapes[1])],
            [("GRASS", 100)],
        )
        ran = ended_with(0, tool("check", land, "--out", self.path("out")))
        assert ran.stdout.endswith("\nyes\n")
        rows = [row for row in records(self.path("out"), "findings.csv") if row["layer"] == "parcels"]
        assert [(row["kind"], row["state"], row["identifiers"]) for row in rows] == [("slit", "told", "A")] * len(rows)
        assert rows and "is cut out of it in the tables" in rows[0]["words"]
        assert '"slit"' in self.text("out", "index.html")

    def text(self, *names):
        with open(self.path(*names), encoding="utf-8") as file:
            return file.read()
