"""Tests what small sources that cross, overlap or lie in heaps cost: past a budget a row is named, and nothing is
left out in silence. Wants Shapely."""

import re

import pytest

from lpis_helpers.calls import tool
from lpis_helpers.spare import Spare
from lpis_helpers.written_tables import of_folder
from lpis.system import shapely_there

if shapely_there.is_there():
    from lpis.formats import wkb
    from lpis.preparation import conflicts, land_balance, narrow_changes, row_outcomes
    from lpis.rounding import coverage, snap_rounding
    from lpis.source import land
    from lpis.system.trouble import Trouble

pytestmark = pytest.mark.skipif(not shapely_there.is_there(), reason=shapely_there.LACKING)
E, N = 550_000.0, 5_400_000.0


def box(left, low, right, high):
    """A row's ring, in metres from the corner of the land."""
    ring = [(left, low), (right, low), (right, high), (left, high), (left, low)]
    return [(E + x, N + y) for x, y in ring]


def row(number, name, ring, is_piece):
    fields = {"piece": name.lower(), "parcel": name, "class": "G"} if is_piece else {"parcel": name}
    return land.Row(number, fields, wkb.Found([[ring]]))


def strips(count):
    """Strips across strips: the rows of parcels and pieces."""
    rings = [(f"H{k:02}", box(0, 4 * k, 4 * count, 4 * k + 2)) for k in range(count)]
    rings += [(f"V{k:02}", box(4 * k + 1, -1, 4 * k + 3, 4 * count)) for k in range(count)]
    return [
        [row(number, name, ring, is_piece) for number, (name, ring) in enumerate(rings, 1)]
        for is_piece in (False, True)
    ]


def text_of(ring):
    return "POLYGON((" + ",".join(f"{x:.4f} {y:.4f}" for x, y in ring) + "))"


class TestBudgets(Spare):
    def test_borders_that_cross_too_often(self, monkeypatch):
        monkeypatch.setattr(snap_rounding, "MOST_CROSSINGS", 50)
        monkeypatch.setattr(snap_rounding, "CROSSINGS_EACH", 0)
        parcels, covers = strips(6)
        with pytest.raises(
            Trouble,
            match=r"cross one another more than \d+ times, those of [hvHV]\d\d \(row \d+\) most: mend these rows",
        ):
            coverage.Map(parcels, covers, lambda words: None)

    def test_a_piece_that_lies_on_very_many(self, monkeypatch):
        monkeypatch.setattr(conflicts, "MOST_OVERLAPS", 20)
        monkeypatch.setattr(conflicts, "OVERLAPS_EACH", 4)
        parcels, covers = strips(6)
        layers = {
            "parcels": land.Layer("parcels", parcels),
            "covers": land.Layer("covers", covers),
        }
        source = conflicts.Source(layers)
        conflicts.find_conflicts(source, lambda words: None)
        heaps = [loss for loss in source.losses if loss.kind == "overlap"]
        assert [loss.names for loss in heaps] == [[f"h{k:02}"] for k in range(6)]
        assert all(
            loss.stops() and "lies on 6 others" in loss.words and loss.shape.area == pytest.approx(48.0)
            for loss in heaps
        )

    def test_a_few_are_measured_one_by_one(self):
        parcels, covers = strips(3)
        layers = {
            "parcels": land.Layer("parcels", parcels),
            "covers": land.Layer("covers", covers),
        }
        source = conflicts.Source(layers)
        conflicts.find_conflicts(source, lambda words: None)
        assert sum(loss.kind == "overlap" for loss in source.losses) == 9

    def test_borders_in_heaps(self, monkeypatch):
        """Two combs whose teeth stand between one another: where the budget ends, both parcels are named."""
        rings = []
        for left, low, high in ((0.0, 0.0, 9.0), (0.002, 10.0, 1.0)):
            ring = [(left, low), (left + 0.4, low)]
            for tooth in range(49, -1, -1):
                x = left + 0.008 * tooth
                ring += [(x + 0.002, low), (x + 0.002, high), (x, high), (x, low)]
            rings.append([(E + x, N + y) for x, y in [*ring, ring[0]]])
        parcels = [row(number, name, ring, False) for number, (name, ring) in enumerate(zip("AB", rings), 1)]
        covers = [row(number, name, ring, True) for number, (name, ring) in enumerate(zip("AB", rings), 1)]
        made = coverage.Map(parcels, covers, lambda words: None)
        assert all(gap.shape is not None for gap in made.between(1.0))
        monkeypatch.setattr("lpis.rounding.facing_borders.MOST_NEAR", 5_000)
        monkeypatch.setattr("lpis.rounding.facing_borders.NEAR_EACH", 0)
        told = conflicts.between_all(made.between(1.0))
        unsearched = [loss for loss in told if loss.shape is None]
        assert sorted(name for loss in unsearched for name in loss.names) == ["A", "B"]
        assert all(
            "lie among too many others: next to them land between parcels was not looked for" in loss.words
            and not loss.stops()
            for loss in unsearched
        )

    def test_very_many_spikes(self, monkeypatch):
        """A comb of teeth half a millimetre wide: the first are told one by one, and all others in one row."""
        monkeypatch.setattr(narrow_changes, "MOST", 20)
        teeth = 60
        top = [(0.0005 * place / 2, 12.0 if place % 2 else 10.0) for place in range(2 * teeth, -1, -1)]
        ring = [(E + x, N + y) for x, y in [(0.0, 0.0), (0.0005 * teeth, 0.0), *top, (0.0, 0.0)]]
        layers = {
            "parcels": land.Layer("parcels", [row(1, "A", ring, False)]),
            "covers": land.Layer("covers", [row(1, "A", ring, True)]),
        }
        coverage.release(layers, self.path("out"), lambda words: None)
        source = conflicts.Source(layers)
        row_outcomes.Outcome(source, of_folder(self.path("out")), land_balance.Balance(layers)).find()
        for layer in ("parcels", "covers"):
            *found, last = [loss for loss in source.losses if loss.kind == "spike" and loss.layer == layer]
            assert 0 < len(found) <= 20 and last.words.startswith(f"{teeth - 20} more spikes and notches of this row")
            assert (
                len(last.shape.geoms) == teeth - 20 and last.area == pytest.approx(last.shape.area) and not last.stops()
            )

    def test_many_crossings_end_at_once(self):
        """160,000 crossings of 800 strips, in 200 kB: no table, and the words name a row."""
        count = 400
        rings = [(f"H{k}", box(0, 4 * k, 4 * count, 4 * k + 2)) for k in range(count)]
        rings += [(f"V{k}", box(4 * k + 1, -1, 4 * k + 3, 4 * count)) for k in range(count)]
        with open(self.path("parcels.csv"), "w", encoding="ascii") as file:
            file.write("parcel,wkt\n" + "".join(f'{name},"{text_of(ring)}"\n' for name, ring in rings))
        with open(self.path("covers.csv"), "w", encoding="ascii") as file:
            file.write(
                "piece,parcel,class,wkt\n"
                + "".join(f'{name.lower()},{name},G,"{text_of(ring)}"\n' for name, ring in rings)
            )
        run = tool("prepare", self.folder, self.path("out"), "--accept")
        assert (
            run.returncode == 64 and "the borders cross one another more than" in run.stderr and "(row " in run.stderr
        )
        kind, number, row = re.search(r"those of ([HV])(\d+) \(row (\d+)\) most", run.stderr).groups()
        assert int(row) == int(number) + 1 + count * (kind == "V"), run.stderr
