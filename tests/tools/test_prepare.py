"""Tests tools/prepare over a source with every kind of dirt. Wants Shapely; a system of coordinates is transformed
where ogr2ogr is there, and the tables go through `lpis` where it is built or named by LPIS: else that is left out."""

import json
import os
import shutil
import subprocess
import sys
import unittest.mock
from pathlib import Path

import pytest
from lpis_helpers.calls import done, ended_with, records, tool
from lpis_helpers.places import BUILT, PACKAGE
from lpis_helpers.spare import Kept, Spare, read
from lpis_helpers import dirty
from lpis_helpers import exact
from lpis.formats import identifiers
from lpis.register import table_standing
from lpis.system import shapely_there

# Kind, layer, identifier and words that must come, for each kind of dirt.
WANTED = [
    ("shape", "covers", "null.2", "no shape (NULL)", "left out"),
    ("shape", "parcels", "empty", "an empty shape", "made of its pieces"),
    ("shape", "covers", "line.2", "no polygon but a line", "left out"),
    ("curve", "parcels", "curve", "arcs made straight", "arcs"),
    ("curve", "covers", "curve.1", "arcs made straight", "arcs"),
    ("z", "parcels", "z", "heights dropped", "heights"),
    ("m", "parcels", "m", "measures dropped", "measures"),
    ("z", "covers", "m.2", "heights dropped", "heights"),
    ("m", "covers", "m.2", "measures dropped", "measures"),
    ("shape", "parcels", "open", "a ring is open", "made of its pieces"),
    ("invalid", "covers", "flat.2", "nothing of it has an area", "left out"),
    ("shape", "covers", "short.2", "a ring has 3 points", "left out"),
    ("degrees", "parcels", "degrees", "looks like degrees", "made of its pieces"),
    ("invalid", "covers", "crossing.2", "Self-intersection", "made valid"),
    ("identifier", "parcels", "field 7", "is not a valid identifier", "now field_7_"),
    ("identifier", "parcels", "M\u00fchle", "is not a valid identifier", "now Muehle_"),
    ("identifier", "parcels", "a" * 41, "is not a valid identifier", "now aaaaa"),
    ("nameless", "parcels", "", "no parcel identifier", "left out"),
    ("doubled", "parcels", "doubled", "fid 15 has this identifier too", "joined"),
    ("stranger", "covers", "stranger.3", "parcel nowhere is not there", "left out"),
    ("bare", "parcels", "bare", "no piece", "left out"),
]


@pytest.mark.skipif(not shapely_there.python(), reason=shapely_there.LACKING)
class TestDirt(Kept):
    @classmethod
    def set_up(cls):
        cls.land = dirty.make(cls.path("land.gpkg"), dirty.ALL)
        cls.outs = [cls.path("tested"), cls.path("mended")]
        cls.runs = [tool("prepare", cls.land, cls.outs[0]), tool("prepare", cls.land, cls.outs[1], "--accept")]

    def test_tested(self):
        run = self.runs[0]
        assert (run.returncode, sorted(os.listdir(self.outs[0]))) == (
            1,
            [
                ".cells",
                table_standing.FILE,
                "balance.csv",
                "findings.csv",
                "findings.gpkg",
                "identifiers.csv",
                "prepared.csv",
                "report.csv",
                "report.geojson",
            ],
        ), run.stderr
        found = records(self.outs[0], "prepared.csv")
        for kind, layer, name, words, _ in WANTED:
            assert any(
                row["kind"] == kind and row["layer"] == layer and row["identifier"] == name and words in row["words"]
                for row in found
            ), run.stdout
            assert f"{kind}: " in run.stdout
        assert not any(line.endswith(": left out") for line in run.stdout.splitlines())
        assert any(
            row["kind"] == "overlap" and row["identifiers"] == "wide-2.1 wide.2" and row["x"] and row["state"] == "open"
            for row in records(self.outs[0], "findings.csv")
        ), found
        for words in ("overlap wide-2.1 wide.2 0.020 m wide", "overlap twin-2.1 twin.1", "no table is written"):
            assert words in run.stdout

    def test_mended(self):
        run = ended_with(0, self.runs[1])
        found = records(self.outs[1], "prepared.csv")
        for kind, layer, name, words, mended in WANTED:
            assert any(
                row["kind"] == kind
                and row["layer"] == layer
                and row["identifier"] == name
                and words in row["words"]
                and mended in row["done"]
                for row in found
            ), run.stdout
        parcels, covers = {row["parcel"] for row in records(self.outs[1], "parcels.csv")}, records(
            self.outs[1], "covers.csv"
        )
        assert {
            "clean1",
            "null",
            "empty",
            "curve",
            "z",
            "degrees",
            "crossing",
            "doubled",
            "wide",
            "wide-2",
            "narrow",
            "stranger",
            "line",
            "m",
            "open",
        } <= parcels
        assert not ({"bare", "twin"} & parcels)
        assert {row["parcel"] for row in covers} == parcels
        assert "lost twin (parcel)" in run.stdout
        names = {(row["kind"], row["old"]): row["new"] for row in records(self.outs[1], "identifiers.csv")}
        assert names["parcel", "M\u00fchle"] in parcels
        assert all(identifiers.is_one(name) for row in covers for name in (row["piece"], row["parcel"], row["class"]))
        features = json.loads(read(self.outs[1], "report.geojson"))["features"]
        left = {
            feature["properties"]["identifiers"]: feature
            for feature in features
            if feature["properties"]["kind"] == "left out"
        }
        assert (left["bare"]["properties"]["area_m2"], bool(left["bare"]["geometry"])) == (100, True)
        assert records(self.outs[1], "classes.csv") == [
            {"class": "GRASS", "percent": "100"},
            {"class": "TREES", "percent": "30"},
        ]

    def test_sound(self):
        wrong, lines = exact.judged(self.outs[1])
        assert (wrong, lines[-1]) == ([], "yes")

    @pytest.mark.skipif(not BUILT, reason="the program is not built")
    def test_yes(self):
        cert = self.path("cert.txt")
        for command in ("cut", "check"):
            told = done(BUILT, command, self.outs[1], cert)
        assert told.splitlines() == exact.judged(self.outs[1])[1]


@pytest.mark.skipif(not shapely_there.python(), reason=shapely_there.LACKING)
class TestSources(Spare):
    def set_up(self):
        self.out = self.path("out")

    def test_clean(self):
        run = tool("prepare", dirty.make(self.path("l.gpkg"), []), self.out)
        assert (run.returncode, records(self.out, "prepared.csv")) == (0, []), run.stdout
        assert "parcels 4 of 4 pieces 8 of 8" in run.stdout

    def test_missing(self):
        package = dirty.Package(self.path("l.gpkg"))
        package.layer("blocks", ["block_id"], [("A", dirty.polygon(dirty.box(0, 0)))])
        package.layer("cover", ["id", "block", "kind"], [("P", "A", "GRASS", dirty.polygon(dirty.box(0, 0)))])
        package.close()
        run = tool("prepare", self.path("l.gpkg"), self.out)
        assert (run.returncode, run.stderr.count("no layer")) == (64, 2), run.stderr
        words = [
            word
            for name in (
                "parcels=blocks",
                "covers=cover",
                "parcels.parcel=block_id",
                "covers.piece=id",
                "covers.parcel=block",
                "covers.class=kind",
            )
            for word in ("--name", name)
        ]
        run = ended_with(0, tool("prepare", self.path("l.gpkg"), self.out, *words))
        assert "classes.csv, a row class,percent for each of: GRASS" in run.stdout
        assert tool("prepare", self.path("l.gpkg"), self.out, "--name", "blocks").returncode == 64

    def test_zone(self):
        with unittest.mock.patch.object(dirty, "EAST", 32_550_000):
            dirty.make(self.path("l.gpkg"), [], 4647)
        ended_with(0, tool("prepare", self.path("l.gpkg"), self.out))
        assert {row["identifier"] for row in records(self.out, "prepared.csv") if row["kind"] == "prefix"} == {
            f"clean{number}{part}" for number in range(1, 5) for part in ("", ".1", ".2")
        }
        assert records(self.out, "parcels.csv")[0]["wkt"].startswith("MULTIPOLYGON(((5500")

    def degrees(self):
        def box(x, y, width=10.0, height=10.0):
            corners = ((x, y), (x + width, y), (x + width, y + height), (x, y + height), (x, y))
            return [(9.1 + a / 1e5, 48.1 + b / 1e5) for a, b in corners]

        with unittest.mock.patch.object(dirty, "box", box):
            return dirty.make(self.path("l.gpkg"), [], 4326)

    def test_degrees(self):
        run = tool("prepare", self.degrees(), self.out)
        assert (run.returncode, run.stdout.count("EPSG:4326 (degrees): name a system in metres by --epsg")) == (
            1,
            2,
        ), run.stdout

    def test_feet(self):
        run = tool("prepare", dirty.make(self.path("l.gpkg"), [], 2263), self.out)
        units = "units of 0.304800609601219 m; until then areas and widths are in these units"
        words = f"EPSG:2263 ({units}): name a system in metres by --epsg, such as 32618"
        assert (run.returncode, run.stdout.count(words)) == (1, 2), run.stdout

    @pytest.mark.skipif(not shutil.which("ogr2ogr"), reason="no ogr2ogr")
    def test_transformed(self):
        run = tool("prepare", self.degrees(), self.out, "--epsg", "25832")
        assert (run.returncode, run.stdout.count("transformed to EPSG:25832")) == (0, 2), run.stdout + run.stderr
        assert records(self.out, "parcels.csv")[0]["wkt"].startswith("MULTIPOLYGON(((5074")

    @pytest.mark.skipif(not shutil.which("ogr2ogr"), reason="no ogr2ogr")
    def test_other_formats(self):
        subprocess.run(
            [
                "ogr2ogr",
                "-q",
                "-f",
                "GML",
                self.path("l.gml"),
                dirty.make(self.path("l.gpkg"), []),
                "parcels",
                "covers",
            ],
            check=True,
            capture_output=True,
        )
        ended_with(0, tool("prepare", self.path("l.gml"), self.out))
        assert len(records(self.out, "covers.csv")) == 8

    @pytest.mark.skipif(not shutil.which("ogr2ogr"), reason="no ogr2ogr")
    def test_folders(self):
        for kind, name in (("ESRI Shapefile", "shapes"), ("OpenFileGDB", "land.gdb")):
            words = [
                "ogr2ogr",
                "-q",
                "-f",
                kind,
                self.path(name),
                dirty.make(self.path("l.gpkg"), []),
                "parcels",
                "covers",
                "-nlt",
                "MULTIPOLYGON",
            ]
            if subprocess.run(words, check=False, capture_output=True).returncode:
                continue  # this GDAL does not write it
            run = tool("prepare", self.path(name), self.out)
            assert (run.returncode, len(records(self.out, "covers.csv"))) == (0, 8), run.stdout + run.stderr

    def test_spreadsheet(self):
        os.mkdir(self.path("sheets"))
        left = (
            "POLYGON((550000.5 5400000.25,550005.125 5400000.25,550005.125 5400010,550000.5 5400010,550000.5"
            " 5400000.25))"
        )
        right = (
            "POLYGON((550005.125 5400000.25,550010 5400000.25,550010 5400010,550005.125 5400010,550005.125 5400000.25))"
        )
        both = "POLYGON((550000.5 5400000.25,550010 5400000.25,550010 5400010,550000.5 5400010,550000.5 5400000.25))"
        tables = {
            "parcels.csv": ["parcel;wkt", f"M\u00fchle 1;{both}"],
            "covers.csv": [
                "Piece;Parcel;Class;WKT",
                f"1;M\u00fchle 1;Gr\u00fcnland;{left}",
                f"2;M\u00fchle 1;Wald;{right}",
            ],
            "classes.csv": ["class;percent", "Gr\u00fcnland;100%", "Wald;30"],
        }
        for encoding in ("utf-16", "utf-8-sig", "cp1252"):
            for name, lines in tables.items():
                with open(self.path(os.path.join("sheets", name)), "w", encoding=encoding, newline="") as file:
                    file.write("\r\n".join(lines) + "\r\n")
            run = ended_with(0, tool("prepare", self.path("sheets"), self.out))
            assert "parcels 1 of 1 pieces 2 of 2" in run.stdout
            covers, classes = records(self.out, "covers.csv"), records(self.out, "classes.csv")
            assert {row["class"] for row in covers} == {row["class"] for row in classes}
            assert "550005.125 5400000.250" in covers[0]["wkt"]
            assert "550010.000 5400000.250" in covers[1]["wkt"]

    def test_written_over(self):
        os.mkdir(self.path("sheets"))
        run = tool("prepare", self.path("sheets"), self.path("sheets/."))
        assert (run.returncode, "is the source" in run.stderr) == (64, True), run.stderr

    def test_a_spike_is_no_place(self):
        """A place that is reported lies in the shape's land, and not in a spike along a neighbour's border."""
        code = (
            "import sys; sys.path.insert(0, sys.argv[1]); from lpis.preparation.conflicts import Loss; from"
            " shapely.geometry import Polygon; print(*Loss('gap', [], '', Polygon([(0, 90), (0, -500), (1e-9, 90), (20,"
            " 90), (20, 100), (0, 100)])).place())"
        )
        run = subprocess.run([shapely_there.python(), "-c", code, PACKAGE], capture_output=True, text=True, check=True)
        x, y = map(float, run.stdout.split())
        assert 0 < x < 20 and 90 < y < 100, run.stdout

    def test_classes(self):
        path = dirty.make(self.path("l.gpkg"), [])
        for text, words in (
            (
                "class,percent\nGRASS,100\n",
                (
                    "4 pieces have this class, clean1.2 (fid 2), clean2.2 (fid 4), clean3.2 (fid 6) .., which the table"
                    " of classes does not have: add the line TREES,? to that table, with its percentage in place of"
                    " the ?"
                ),
            ),
            ("class,percent\nGRASS,33.5\nTREES,30\n", "'33.5', no whole number"),
            ("class,percent\nTREES,30\nWATER,0\n", "4 pieces have this class"),
            ("class,percent\nGRASS,1_00\nTREES,30\n", "'1_00', no whole number"),
            ("class,percent\nGRASS,1\nTREES,0\n", "which may be a share"),
        ):
            Path(self.path("classes.csv")).write_text(text, encoding="ascii")
            run = tool("prepare", path, self.out, "--classes", self.path("classes.csv"), "--accept")
            assert (run.returncode, words in run.stdout) == (1, True), run.stdout

    def test_given_identifiers(self):
        path = dirty.make(self.path("l.gpkg"), ["umlaut"])
        Path(self.path("names.csv")).write_text(
            "kind,old,new\nparcel,M\u00fchle,Mill\nparcel,clean1,clean2\n", encoding="utf-8"
        )
        run = tool("prepare", path, self.out, "--identifiers", self.path("names.csv"))
        assert (run.returncode, "would become clean2, which another row has" in run.stdout) == (1, True), run.stdout
        Path(self.path("names.csv")).write_text("kind,old,new\nparcel,M\u00fchle,Mill\n", encoding="utf-8")
        ended_with(0, tool("prepare", path, self.out, "--identifiers", self.path("names.csv")))
        assert "Mill" in {row["parcel"] for row in records(self.out, "parcels.csv")}


def test_identifiers():
    """Of names in other letters or forms of Unicode, with blanks, or of control characters: no two have the same."""
    names = (
        "M\u00fchle",
        "Muehle ",
        "field 7",
        "field_7",
        "\u6c34\u7530",
        "a" * 80,
        "\u00c9t\u00e9",
        "Mu\u0308hle",
        "x\x07",
        "x\x08",
        "\u200b",
    )
    made = [identifiers.made_of(name) for name in names]
    assert all(map(identifiers.is_one, made)), made
    assert len(set(made)) == len(made)
    assert (made[0][:7], made[6][:4]) == ("Muehle_", "Ete_")


def test_the_tool_goes_on_there():
    """Where this Python has no Shapely, and the system's has."""
    is_there = unittest.mock.patch.object(shapely_there, "is_there", lambda python=None: python == shapely_there.SYSTEM)
    with is_there, unittest.mock.patch.object(sys, "executable", "/nowhere/python3"), unittest.mock.patch.object(
        os, "execv"
    ) as begun:
        shapely_there.go_on_if_there()
        assert shapely_there.python() == shapely_there.SYSTEM
    begun.assert_called_once_with(shapely_there.SYSTEM, [shapely_there.SYSTEM, *sys.argv])
