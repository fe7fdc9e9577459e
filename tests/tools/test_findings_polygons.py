"""Tests that each row that settles, mends, leaves out, makes or changes has in findings.gpkg the polygon of what it is
about, whether the run stops or not; and that outside of these the tables say what the source says. Wants Shapely."""

import os
import re
import shutil
import sqlite3
import sys
from collections import Counter
from pathlib import Path

import pytest
from lpis_helpers import dirty
from lpis_helpers.calls import ended_with, records, run
from lpis_helpers.places import TOP
from lpis_helpers.preparing_case import Case
from lpis.system import shapely_there

if shapely_there.is_there():
    from lpis_helpers import found_layers
    from shapely import wkt
    from shapely.ops import unary_union

COLUMNS = [
    "fid",
    "geom",
    "kind",
    "layer",
    "row",
    "identifiers",
    "width_m",
    "area_m2",
    "x",
    "y",
    "stops",
    "done",
    "words",
    "number",
    "state",
    "comes_from",
]
NOTES = {"curve", "z", "m", "identifier", "column", "blanks", "alike", "prefix", "system"}
# no shape, one that cannot be read, or one without an area
PLACELESS = {"null.2", "empty", "line.2", "short.2", "open", "flat.2"}
BOW = (0, 0), (10, 10), (10, 0), (0, 10), (0, 0)


def polygon(*rings):
    return f"POLYGON(({'),('.join(','.join(f'{dirty.EAST + x} {dirty.NORTH + y}' for x, y in one) for one in rings)}))"


def box(x, y, width=10.0, height=10.0):
    return polygon([(x, y), (x + width, y), (x + width, y + height), (x, y + height), (x, y)])


def same(shape, *texts):
    """Whether a shape is the land of texts, to a square decimetre."""
    return (
        shape is not None
        and shape.is_valid
        and shape.symmetric_difference(unary_union([wkt.loads(text).buffer(0) for text in texts])).area < 0.01
    )


class Polygons(Case):
    def prepared(self, parcels, covers, *words, status=0):
        """The rows of findings.gpkg of a run over tables, which has to end with that status."""
        shutil.rmtree(self.out, ignore_errors=True)
        self.tables(parcels, covers)
        self.ran = ended_with(status, self.run_on(self.sheets, *words))
        return found_layers.rows_of(self.out)

    def only(self, rows, kind):
        found = [row for row in rows if row["kind"] == kind]
        assert len(found) == 1, (kind, rows)
        return found[0]

    def assert_promise(self):
        """Outside of the polygons the tables say what the source says."""
        ended_with(0, run(sys.executable, os.path.join(TOP, "audit", "source.py"), self.sheets, self.out))


class TestFormat(Polygons):
    def test_of_dirt(self):
        """Of every kind of dirt, whether the run stops or not: rows that stop have polygons, notes have none, and
        the rows are those of both tables; those with a number are the findings."""
        source = dirty.make(self.path("land.gpkg"), dirty.ALL)
        for words, status in (((), 1), (("--accept",), 0)):
            ended_with(status, self.run_on(source, *words))
            rows = found_layers.rows_of(self.out)
            tables = [*self.found(), *records(self.out, "report.csv")]
            key = [(row["kind"], row["layer"], row["row"], row["area_m2"] or "0") for row in tables]
            assert sorted((kind, layer, number, round(float(area), 3)) for kind, layer, number, area in key) == sorted(
                (row["kind"], row["layer"], row["row"], round(row["area_m2"] or 0, 3)) for row in rows
            )
            key = ("number", "state", "comes_from", "kind", "layer", "row")
            assert sorted([row[name] for name in key] for row in records(self.out, "findings.csv")) == sorted(
                [str(row[name]) for name in key] for row in rows if row["number"] is not None
            )
            for row in rows:
                is_placed = not (
                    row["kind"] in NOTES
                    or row["identifiers"] in PLACELESS
                    and row["kind"] in ("shape", "invalid", "left out")
                )
                assert (row["geom"] is not None) == is_placed, row
                assert row["geom"] is None or row["geom"].is_valid, row
            assert all(row["stops"] == 0 for row in rows if row["kind"] in NOTES)
            with sqlite3.connect(found_layers.path_of(self.out)) as base:
                assert [row[1] for row in base.execute("PRAGMA table_info(overlap)")] == COLUMNS
                assert base.execute("PRAGMA integrity_check").fetchall() == [("ok",)]
                assert {system for (system,) in base.execute("SELECT srs_id FROM gpkg_contents")} == {25832, None}
                every = "SELECT name FROM sqlite_master WHERE type = 'table' AND name NOT LIKE 'gpkg%'"
                assert {*base.execute(every)} == {*base.execute("SELECT table_name FROM gpkg_contents")}

    def test_names(self):
        """The names are those of the tables."""
        ended_with(0, self.run_on(dirty.make(self.path("land.gpkg"), ["umlaut", "doubled", "crossing"]), "--accept"))
        rows = found_layers.rows_of(self.out)
        assert {row["identifiers"] for row in rows if row["kind"] == "identifier" and row["layer"] == "parcels"} == {
            row["parcel"] for row in records(self.out, "parcels.csv") if row["parcel"].startswith("Muehle")
        }

    def test_bytes(self):
        """The same source gives the same bytes."""
        source = dirty.make(self.path("land.gpkg"), dirty.ALL)
        found = []
        for _ in range(2):
            ended_with(0, self.run_on(source, "--accept"))
            found.append(Path(found_layers.path_of(self.out)).read_bytes())
        assert found[0] == found[1]

    def read_by_gdal(self):
        """What ogrinfo prints of findings.gpkg, without a warning: each row, and a style for each layer."""
        ran = ended_with(0, run("ogrinfo", "-al", found_layers.path_of(self.out)))
        rows = Counter(row["kind"].replace(" ", "_") for row in found_layers.rows_of(self.out))
        styles = Counter(re.findall(r"f_table_name \(String\) = (\w+)", ran.stdout))
        found = Counter(re.findall(r"OGRFeature\((\w+)\)", ran.stdout))
        assert (ran.stderr, styles, found.pop("layer_styles", 0), found) == ("", Counter({*rows}), len(rows), rows)
        return ran.stdout

    @pytest.mark.skipif(not shutil.which("ogrinfo"), reason="no ogrinfo")
    def test_read_by_gdal(self):
        """GDAL reads all rows, and the system where there is one; and a file without layers."""
        for kinds, words in ((dirty.ALL, ("overlap", "left_out", "EPSG", "25832")), ([], ())):
            ended_with(0, self.run_on(dirty.make(self.path("land.gpkg"), kinds), "--accept"))
            told = self.read_by_gdal()
            assert all(word in told for word in words)
        self.prepared([("A", box(0, 0))], [("1", "A", "GRASS", box(0, 0, 4))], "--accept")
        self.read_by_gdal()


class TestKinds(Polygons):
    """Each kind of row by a source that is made for it, in a run that stops and in one that accepts."""

    WHOLE = [("A", box(0, 0)), ("B", box(10, 0))]
    PIECES = [("1", "A", "GRASS", box(0, 0)), ("2", "B", "GRASS", box(10, 0))]

    def both(self, parcels, covers, kind, *texts):
        """The row of a kind, which has the land of these texts in both runs."""
        row = self.only(self.prepared(parcels, covers, status=1), kind)
        assert same(row["geom"], *texts), row
        assert row["stops"] == 1
        assert not os.path.exists(os.path.join(self.out, "parcels.csv"))
        rows = self.prepared(parcels, covers, "--accept")
        row = self.only([row for row in rows if row["done"] or row["kind"] in ("overlap", "gap", "outside")], kind)
        assert same(row["geom"], *texts), row
        self.assert_promise()
        return rows

    def test_conflicts(self):
        self.both(self.WHOLE, [("1", "A", "GRASS", box(0, 0, 11)), self.PIECES[1]], "overlap", box(10, 0, 1))
        self.both(self.WHOLE, [("1", "A", "GRASS", box(0, 0, 9)), self.PIECES[1]], "gap", box(9, 0, 1))
        self.both(self.WHOLE, [self.PIECES[0], ("2", "B", "GRASS", box(10, 0, 11))], "outside", box(20, 0, 1))

    def test_invalid(self):
        """What the border encloses, whoever reads it: both halves of a bow, a hole outside of its shell, the hole
        that two holes share; not a sound hole."""
        bow, ring_of = polygon(BOW), [(0, 0), (10, 0), (10, 10), (0, 10), (0, 0)]
        halves = [polygon([(0, 0), (5, 5), (0, 10), (0, 0)]), polygon([(10, 10), (5, 5), (10, 0), (10, 10)])]
        self.both(self.WHOLE, [("1", "A", "GRASS", bow), self.PIECES[1]], "invalid", *halves)
        beyond = polygon(ring_of, [(8, 2), (12, 2), (12, 4), (8, 4), (8, 2)])
        self.both([self.WHOLE[0]], [("1", "A", "GRASS", beyond)], "invalid", box(0, 0), box(8, 2, 4, 2))
        shared = polygon(ring_of, [(2, 2), (5, 2), (5, 5), (2, 5), (2, 2)], [(4, 4), (7, 4), (7, 7), (4, 7), (4, 4)])
        self.both([self.WHOLE[0]], [("1", "A", "GRASS", shared)], "invalid", box(0, 0))
        tail = [(0, 0), (10, 0), (10, 10), (5, 10), (6, 11), (5, 11), (6, 10), (0, 10), (0, 0)]
        sound = polygon(tail, [(2, 2), (5, 2), (5, 5), (2, 5), (2, 2)])
        rows = self.prepared([self.WHOLE[0]], [("1", "A", "GRASS", sound)], status=1)
        assert not self.only(rows, "invalid")["geom"].intersects(wkt.loads(box(3, 3, 1, 1)))

    def test_rows_that_go(self):
        """Of a row that is left out its whole shape, in both rows that tell it."""
        nowhere = ("3", "nowhere", "GRASS", box(30, 0))
        rows = self.both(self.WHOLE, [*self.PIECES, nowhere], "stranger", box(30, 0))
        assert same(self.only(rows, "left out")["geom"], box(30, 0))
        rows = self.both([*self.WHOLE, ("C", box(30, 0))], self.PIECES, "bare", box(30, 0))
        assert same(self.only(rows, "left out")["geom"], box(30, 0))
        rows = self.both([*self.WHOLE, ("", box(30, 0))], self.PIECES, "nameless", box(30, 0))
        assert same(self.only(rows, "left out")["geom"], box(30, 0))
        degrees = polygon(
            [
                (9 - dirty.EAST, 48 - dirty.NORTH),
                (9.1 - dirty.EAST, 48 - dirty.NORTH),
                (9.1 - dirty.EAST, 48.1 - dirty.NORTH),
                (9 - dirty.EAST, 48 - dirty.NORTH),
            ]
        )
        row = self.only(self.prepared(self.WHOLE, [*self.PIECES, ("3", "A", "GRASS", degrees)], status=1), "degrees")
        assert row["geom"].area == pytest.approx(0.005, rel=0.01)

    def test_rows_that_change(self):
        """A piece without a name, a piece and a parcel of a name that another has: their whole shapes; a parcel that
        is made of its pieces: what it has then."""
        self.both(self.WHOLE, [self.PIECES[0], ("", "B", "GRASS", box(10, 0))], "nameless", box(10, 0))
        self.both(self.WHOLE, [self.PIECES[0], ("1", "B", "GRASS", box(10, 0))], "doubled", box(10, 0))
        self.both([("A", box(0, 0)), ("A", box(10, 0))], [("1", "A", "GRASS", box(0, 0, 20))], "doubled", box(10, 0))
        rows = self.prepared([("A", ""), self.WHOLE[1]], self.PIECES, "--accept")
        assert same(self.only(rows, "made")["geom"], box(0, 0))
        assert self.only(rows, "shape")["geom"] is None
        self.assert_promise()

    def test_zone(self):
        """A zone's number that was taken off is off the polygons too, of rows that are left out and of those that
        cross themselves."""

        def far(text):
            return "SRID=25832;" + text.replace("5500", "325500")

        rows = self.prepared(
            [(name, far(text)) for name, text in self.WHOLE],
            [
                ("1", "A", "GRASS", far(polygon(BOW))),
                ("2", "B", "GRASS", far(box(10, 0))),
                ("3", "C", "GRASS", far(box(10, 0))),
            ],
            "--accept",
        )
        assert {row["kind"] for row in rows if row["geom"]} >= {"invalid", "stranger", "left out", "gap"}
        assert all(row["geom"] is None or 550_000 <= row["geom"].bounds[0] < 551_000 for row in rows), rows

    def test_what_comes_from_another(self):
        """A gap that comes of a piece which is left out, and that piece: both have polygons."""
        rows = self.prepared(
            self.WHOLE,
            [self.PIECES[0], ("2", "B", "GRASS", box(10, 0, 5)), ("3", "b", "GRASS", box(15, 0, 5))],
            "--accept",
        )
        assert "it comes from piece 3" in self.only(rows, "gap")["words"]
        assert all(same(self.only(rows, kind)["geom"], box(15, 0, 5)) for kind in ("gap", "stranger", "left out"))
        self.assert_promise()

    def test_what_is_lost(self):
        """A piece whose whole place another has is lost, and the tables say so of its whole shape."""
        rows = self.prepared(
            [self.WHOLE[0]], [("1", "A", "GRASS", box(0, 0)), ("2", "A", "TREES", box(2, 2, 3, 3))], "--accept"
        )
        assert same(self.only(rows, "lost")["geom"], box(2, 2, 3, 3))
        assert same(self.only(rows, "overlap")["geom"], box(2, 2, 3, 3))
        self.assert_promise()

    def test_notes_excuse_nothing(self):
        """A row whose name or heights alone were changed, or that was rounded alone, has no polygon of its land:
        nothing else is excused there."""
        rows = self.prepared(
            [("M\u00fchle", "POLYGON Z((550000 5400000 1,550010 5400000 1,550010 5400010 1,550000 5400000 1))")],
            [("1", "M\u00fchle", "GRASS", "POLYGON((550000 5400000,550010 5400000,550010 5400010,550000 5400000))")],
        )
        assert {row["kind"] for row in rows} == {"z", "identifier", "changed"}
        assert all(row["geom"] is None or row["geom"].area < 0.001 for row in rows)
