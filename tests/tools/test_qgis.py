"""Tests the QGIS plugin without a window: each algorithm by `qgis_process`, over worked data in a folder with a space
and an umlaut, its results beside those of the tools. Wants QGIS, Shapely and the program, built or named by LPIS."""

import filecmp
import json
import os
import re
import shutil
import sqlite3
import struct
import subprocess
import zipfile
from pathlib import Path

import pytest
from lpis_helpers.calls import done, ended_with, records, run, tool
from lpis_helpers import dirty
from lpis_helpers import registers
from lpis_helpers.places import BUILT, TOOLS, TOP
from lpis_helpers.spare import Kept, read, write
from lpis.system import shapely_there

EXAMPLES = os.path.join(TOP, "examples")
# Debian's script hands on options of the window, which the program behind it does not know.
PROCESS = shutil.which("qgis_process.bin") or shutil.which("qgis_process")
LACKING = (
    "no qgis_process (Debian: qgis)"
    if not PROCESS
    else "the program is not built"
    if not BUILT
    else ""
    if shapely_there.python()
    else shapely_there.LACKING
)
SECONDS = 1800  # a machine may be slow, and busy


def layer(path):
    """The rows of a layer that QGIS wrote, by sqlite3: a GeoPackage has one table of features."""
    base = sqlite3.connect(path)
    base.row_factory = sqlite3.Row
    table = base.execute(
        "SELECT table_name FROM gpkg_contents WHERE data_type IN ('features', 'attributes')"
    ).fetchone()[0]
    rows = [dict(row) for row in base.execute(f'SELECT * FROM "{table}"')]
    base.close()
    return rows


def system(path):
    """The EPSG number of a layer."""
    ((number,),) = registers.rows(
        path, "SELECT organization_coordsys_id FROM gpkg_geometry_columns JOIN gpkg_spatial_ref_sys USING (srs_id)"
    )
    return number


def test_a_zip_has_the_plugin(tmp_path):
    plugin = os.path.join(TOOLS, "qgis", "lpis")
    made = [done(os.path.join(TOP, "dev", "qgis_zip"), tmp_path / name).strip() for name in ("a", "b")]
    assert filecmp.cmp(*made, shallow=False)
    with zipfile.ZipFile(made[0]) as file:
        found = {name: file.read(name) for name in file.namelist()}
    names = [name for name in os.listdir(plugin) if name.endswith((".py", ".txt"))]
    assert {f"lpis/{name}" for name in names} == set(found)
    for name in names:
        assert Path(plugin, name).read_bytes() == found[f"lpis/{name}"]


@pytest.mark.skipif(bool(LACKING), reason=LACKING)
class TestAlgorithms(Kept):
    prefix = "Fläche von "

    @classmethod
    def set_up(cls):
        cls.surroundings = {
            **os.environ,
            "HOME": cls.folder,
            "XDG_RUNTIME_DIR": cls.folder,
            "QT_QPA_PLATFORM": "offscreen",
            # QGIS takes its modules from beside the first python3 there
            "PATH": f"/usr/bin:{os.environ['PATH']}",
            "QGIS_PLUGINPATH": os.path.join(TOOLS, "qgis"),
            "LPIS": BUILT,
            "LPIS_FOLDER": TOOLS,
        }
        # Its status is not looked at: QGIS 3.22 may crash as it ends, with all done. That the algorithms are there is a
        # test.
        subprocess.run(
            [PROCESS, "plugins", "enable", "lpis"],
            env=cls.surroundings,
            capture_output=True,
            check=False,
            timeout=SECONDS,
        )
        for year in ("2024", "2025"):
            shutil.copytree(os.path.join(EXAMPLES, "exact", year), cls.path(year))

    def run_it(self, name, **values):
        """The results of an algorithm."""
        words = [f"--{key}={value}" for key, value in values.items()]
        ran = ended_with(
            0,
            subprocess.run(
                [PROCESS, "--json", "run", f"lpis:{name}", *words],
                env=self.surroundings,
                capture_output=True,
                text=True,
                check=False,
                timeout=SECONDS,
            ),
        )
        return json.loads(ran.stdout[ran.stdout.index("{") :])["results"]

    def test_all_are_there(self):
        ran = subprocess.run(
            [PROCESS, "list"], env=self.surroundings, capture_output=True, text=True, check=True, timeout=SECONDS
        )
        names = {line.split()[0] for line in ran.stdout.splitlines() if line.strip().startswith("lpis:")}
        assert {
            f"lpis:{name}"
            for name in (
                "allfaults",
                "checkcountry",
                "checkrelease",
                "keptshapes",
                "lineage",
                "locatepoints",
                "preparerelease",
                "publish",
                "trace",
            )
        } == names

    def test_a_sound_release(self):
        found = self.run_it("checkrelease", DIR=self.path("2024"), REPORT=self.path("report.gpkg"))
        assert ("yes", 0) == (found["VERDICT"], found["STATUS"])
        told = subprocess.run(
            [BUILT, "check", self.path("2024")],
            capture_output=True,
            text=True,
            check=True,
        ).stdout
        wanted = [tuple(line.split()[1::2]) for line in told.splitlines() if line.startswith("parcel ")]
        assert sorted(wanted) == sorted(
            (row["parcel"], row["area"], row["eligible"]) for row in layer(self.path("report.gpkg"))
        )

    def test_a_refused_release(self):
        shutil.copytree(os.path.join(EXAMPLES, "overlap"), self.path("overlap"))
        found = self.run_it(
            "checkrelease",
            DIR=self.path("overlap"),
            FAULT_POINTS=self.path("points.gpkg"),
            FAULT_POLYGONS=self.path("polygons.gpkg"),
        )
        assert ("refused 41 parcels west east at 50020 23980 1", 1) == (found["VERDICT"], found["STATUS"])
        assert (1, {"west", "east"}) == (
            len(layer(self.path("points.gpkg"))),
            {row["name"] for row in layer(self.path("polygons.gpkg"))} & {"west", "east"},
        )

    def test_all_faults(self):
        folder = os.path.join(EXAMPLES, "overlap")
        found = self.run_it(
            "allfaults", DIR=folder, POINTS=self.path("p.gpkg"), LINES=self.path("l.gpkg"), POLYGONS=self.path("a.gpkg")
        )
        out = self.path("faults.geojson")
        told = tool("faults", folder, out, "--lpis", BUILT).stdout
        wanted = sorted(
            feature["properties"]["code"] for feature in json.loads(read(out))["features"] if feature["geometry"]
        )
        rows = [row["code"] for name in "pla" for row in layer(self.path(f"{name}.gpkg"))]
        assert (wanted, int(told.splitlines()[-1].split()[1])) == (sorted(rows), found["COUNT"])
        (overlap,) = layer(self.path("a.gpkg"))
        assert ("overlap", 3.0, 1) == (overlap["kind"], overlap["area_m2"], overlap["row"])

    def test_a_register(self):
        base = self.path("one_year.db")
        assert (
            "published 2024"
            == self.run_it("publish", REGISTER=base, YEAR=2024, DIR=self.path("2024"), NEW="true")["VERDICT"]
        )
        self.run_it("keptshapes", REGISTER=base, SHAPES=self.path("kept.gpkg"))
        assert {row["parcel"] for row in records(self.path("2024", "parcels.csv"))} == {
            row["parcel"] for row in layer(self.path("kept.gpkg"))
        }
        found = self.run_it("trace", REGISTER=base, ID="slope", DESCENDANTS=self.path("slope.gpkg"))
        assert (1, ["slope"]) == (found["COUNT"], [row["parcel"] for row in layer(self.path("slope.gpkg"))])

    @pytest.mark.long
    def test_two_years(self):
        base = self.path("two_years.db")
        assert (
            "published 2024"
            == self.run_it("publish", REGISTER=base, YEAR=2024, DIR=self.path("2024"), NEW="true")["VERDICT"]
        )
        os.remove(self.path("2025", "lineage.csv"))
        self.run_it("lineage", REGISTER=base, NEW=self.path("2025"), SHARED=self.path("shared.gpkg"))
        wanted = {
            (row["old"], row["new"], row["exact"] or "0") for row in records(EXAMPLES, "exact", "2025", "lineage.csv")
        }
        assert wanted == {
            (row["old"], row["new"], row["exact"])
            for row in layer(self.path("shared.gpkg"))
            if row["row"] == "proposed"
        }
        assert "published 2025" == self.run_it("publish", REGISTER=base, YEAR=2025, DIR=self.path("2025"))["VERDICT"]
        found = self.run_it("trace", REGISTER=base, ID="slope", DESCENDANTS=self.path("slope_two_years.gpkg"))
        assert (2, ["slope-1", "slope-2"]) == (
            found["COUNT"],
            sorted(row["parcel"] for row in layer(self.path("slope_two_years.gpkg"))),
        )
        words = [f"--REGISTER={base}", "--ID=-15", f"--DESCENDANTS={self.path('none.gpkg')}"]
        ran = run(PROCESS, "--json", "run", "lpis:trace", *words, env=self.surroundings, timeout=SECONDS)
        assert "lpis trace ended with status 1: refused 83" in ran.stdout + ran.stderr  # a name, and no option
        self.run_it("keptshapes", REGISTER=base, SHAPES=self.path("kept_two_years.gpkg"))
        assert {row["parcel"] for row in records(self.path("2025", "parcels.csv"))} == {
            row["parcel"] for row in layer(self.path("kept_two_years.gpkg"))
        }

    def test_a_country(self):
        country = self.path("country")
        shutil.copytree(os.path.join(EXAMPLES, "country"), country, symlinks=False)
        for name in os.listdir(country):
            if os.path.isdir(os.path.join(country, name)):
                subprocess.run(
                    [BUILT, "cut", os.path.join(country, name), os.path.join(country, name, "cert.txt")],
                    check=True,
                    capture_output=True,
                )
        found = self.run_it("checkcountry", DIR=country, REGIONS=self.path("regions.gpkg"))
        told = subprocess.run([BUILT, "country", country], capture_output=True, text=True, check=True).stdout
        wanted = [line.split()[1] for line in told.splitlines() if line.startswith("region ")]
        assert ("yes", wanted) == (found["VERDICT"], [row["region"] for row in layer(self.path("regions.gpkg"))])

    def land(self):
        """The example as two layers in whole metres, moved to where no system has degrees."""
        source, land = self.path("land.gpkg"), os.path.join(EXAMPLES, "exact", "2024")
        for name in () if os.path.exists(source) else ("parcels", "covers"):
            path = self.path(f"{name}.csv")
            write(
                re.sub(
                    r"([(,])(-?\d+) (-?\d+)",
                    lambda it: f"{it[1]}{int(it[2]) + 500000} {int(it[3]) + 5000000}",
                    read(land, f"{name}.csv"),
                ),
                path,
            )
            subprocess.run(
                [
                    "ogr2ogr",
                    "-f",
                    "GPKG",
                    "-update",
                    "-append",
                    source,
                    path,
                    "-oo",
                    "GEOM_POSSIBLE_NAMES=wkt",
                    "-nln",
                    name,
                    "-a_srs",
                    "EPSG:25832",
                    "-nlt",
                    "PROMOTE_TO_MULTI",
                ],
                check=True,
            )
        return source, os.path.join(land, "classes.csv")

    def prepared(self, out, **more):
        source, classes = self.land()
        return self.run_it(
            "preparerelease",
            PARCELS=f"{source}|layername=parcels",
            COVERS=f"{source}|layername=covers",
            CLASSES=classes,
            OUT=self.path(out),
            PARCEL_ID="parcel",
            PIECE_ID="piece",
            PIECE_PARCEL="parcel",
            PIECE_CLASS="class",
            **more,
        )

    def test_prepare(self):
        found = self.prepared("out")
        assert 0 == found["STATUS"], found["SUMMARY"]
        source, classes = self.land()
        subprocess.run(
            [os.path.join(TOOLS, "prepare"), source, self.path("beside"), "--classes", classes],
            check=True,
            capture_output=True,
        )
        for name in ("parcels", "covers", "classes"):
            assert filecmp.cmp(self.path("out", f"{name}.csv"), self.path("beside", f"{name}.csv"), shallow=False)

    def test_prepare_with_last_year(self):
        source, classes = self.land()
        subprocess.run(
            [os.path.join(TOOLS, "prepare"), source, self.path("last"), "--classes", classes],
            check=True,
            capture_output=True,
        )
        found = self.prepared("this", PREVIOUS=self.path("last"), REPORT_POLYGONS=self.path("changed.gpkg"))
        assert (0, True) == (
            found["STATUS"],
            f"parcels as in {self.path('last')}, to the millimetre: " in found["SUMMARY"],
        ), found["SUMMARY"]
        assert [] == layer(self.path("changed.gpkg"))  # the parcel that changed most has lost and won no land
        assert 25832 == system(self.path("changed.gpkg"))
        found = self.prepared("none", PREVIOUS=self.path("nowhere"))
        assert (1, True) == (found["STATUS"], "has no table covers.csv of last year" in found["SUMMARY"]), found[
            "SUMMARY"
        ]

    def test_findings_have_their_places(self):
        """Accepted, what was settled is a layer; without, each finding is a point, and nothing is shown of the
        report that stands there."""
        source = dirty.make(self.path("dirty.gpkg"), ["null", "wide", "stranger"])
        words = {
            "PARCELS": f"{source}|layername=parcels",
            "COVERS": f"{source}|layername=covers",
            "CLASSES": os.path.join(self.folder, "classes.csv"),
            "OUT": self.path("mended"),
            "PARCEL_ID": "parcel",
            "PIECE_ID": "piece",
            "PIECE_PARCEL": "parcel",
            "PIECE_CLASS": "class",
        }
        Path(words["CLASSES"]).write_text("class,percent\nGRASS,100\nTREES,30\n", encoding="ascii")
        found = self.run_it("preparerelease", **words, ACCEPT="true", REPORT_POLYGONS=self.path("settled.gpkg"))
        assert (0, True) == (
            found["STATUS"],
            {"overlap", "gap"} <= {row["kind"] for row in layer(self.path("settled.gpkg"))},
        ), found["SUMMARY"]
        found = self.run_it(
            "preparerelease", **words, FINDINGS=self.path("findings.gpkg"), REPORT_POLYGONS=self.path("nothing.gpkg")
        )
        rows = layer(self.path("findings.gpkg"))
        assert (1, [], {"shape", "stranger", "overlap", "gap"}) == (
            found["STATUS"],
            layer(self.path("nothing.gpkg")),
            {row["kind"] for row in rows} & {"shape", "stranger", "overlap", "gap"},
        )
        assert all(row["geom"] for row in rows if row["kind"] in ("overlap", "gap")), rows
        assert all(isinstance(row["area_m2"], float) for row in rows if row["kind"] in ("overlap", "gap")), rows

    def test_findings_have_their_land(self):
        """Before anything is accepted each conflict is a polygon with width and area, in the system of the source."""
        source = dirty.make(self.path("conflicts.gpkg"), ["null", "wide"])
        Path(self.path("shares.csv")).write_text("class,percent\nGRASS,100\nTREES,30\n", encoding="ascii")
        found = self.run_it(
            "preparerelease",
            PARCELS=f"{source}|layername=parcels",
            COVERS=f"{source}|layername=covers",
            CLASSES=self.path("shares.csv"),
            OUT=self.path("conflicts"),
            PARCEL_ID="parcel",
            PIECE_ID="piece",
            PIECE_PARCEL="parcel",
            PIECE_CLASS="class",
            LAND=self.path("polygons of findings.gpkg"),
        )
        rows = {row["kind"]: row for row in layer(self.path("polygons of findings.gpkg"))}
        assert (1, {"overlap", "gap"}, 25832) == (
            found["STATUS"],
            {kind for kind in rows if kind != "changed"},  # what comes from them
            system(self.path("polygons of findings.gpkg")),
        )
        assert (0.2, 50.0) == (round(rows["overlap"]["area_m2"], 3), round(rows["gap"]["area_m2"], 3))
        assert (0.02, 5.0, 1) == (
            round(rows["overlap"]["width_m"], 3),
            round(rows["gap"]["width_m"], 3),
            rows["gap"]["stops"],
        )

    def test_names_beside_the_layers(self):
        """Fields, classes and system that are left out are those of lpis.toml beside the layers' file; a field that
        is nowhere is named."""
        os.mkdir(self.path("named"))
        squares = [(name, dirty.polygon(dirty.box(x, 0))) for name, x in (("A", 0), ("B", 10))]
        source = dirty.put_named(
            self.path("named", "land.gpkg"), squares, [(f"{name}1", name, "Gras", shape) for name, shape in squares]
        )
        write("Klasse;percent\nGras;100\n", self.path("named", "Klassen.csv"))
        layers = {
            "PARCELS": f"{source}|layername=Feldbl\u00f6cke",
            "COVERS": f"{source}|layername=Bodenbedeckung",
            "OUT": self.path("named out"),
        }
        ran = run(
            PROCESS,
            "--json",
            "run",
            "lpis:preparerelease",
            *(f"--{key}={value}" for key, value in layers.items()),
            env=self.surroundings,
            timeout=SECONDS,
        )
        assert "parcels have no field parcel: PARCEL_ID names the field that has parcel" in ran.stdout + ran.stderr
        columns = (
            'parcels.parcel = "FLIK"\ncovers.piece = "LE"\ncovers.parcel = "FLIK"\ncovers.class ='
            ' "Nutzung"\nclasses.class = "Klasse"\n'
        )
        write(f'classes = "Klassen.csv"\nepsg = 25832\n[columns]\n{columns}', self.path("named", "lpis.toml"))
        found = self.run_it("preparerelease", **layers)
        assert 0 == found["STATUS"], found["SUMMARY"]
        assert [row["parcel"] for row in records(self.path("named out"), "parcels.csv")] == ["A", "B"]
        assert records(self.path("named out"), "classes.csv") == [{"class": "Gras", "percent": "100"}]

    def points(self, name, points, number=25832):
        package = dirty.Package(self.path(name), number)
        package.layer(
            "photos",
            ["name", "parcel"],
            [(str(place), "?", struct.pack("<BIdd", 1, 1, x, y)) for place, (x, y) in enumerate(points)],
        )
        package.close()
        return f"{self.path(name)}|layername=photos"

    def test_points(self):
        source, classes = self.land()
        subprocess.run(
            [os.path.join(TOOLS, "prepare"), source, self.path("located"), "--classes", classes],
            check=True,
            capture_output=True,
        )
        points = [
            (500000 + x, 5000000 + y)
            for x, y in ((10, 10), (-500.25, 3), (40, 30.123456789), (20, 20), (0, 0), (60, 5))
        ]
        photos = self.points("photos.gpkg", points)
        write(
            "point,x,y\n" + "".join(f"{number},{x:.9f},{y:.9f}\n" for number, (x, y) in enumerate(points)),
            self.path("points.csv"),
        )
        found = self.run_it("locatepoints", INPUT=photos, DIR=self.path("located"), LOCATED=self.path("answers.gpkg"))
        told = subprocess.run(
            [BUILT, "locate", self.path("located"), self.path("points.csv")],
            capture_output=True,
            text=True,
            check=True,
        ).stdout
        wanted = [line.split()[3::2] if line.split()[2] == "parcel" else [None] * 3 for line in told.splitlines()[:-1]]
        rows = layer(self.path("answers.gpkg"))
        assert wanted == [[row[name] for name in ("parcel_2", "piece", "class")] for row in rows]
        assert ("yes", sum(row[0] is not None for row in wanted), 25832) == (
            found["VERDICT"],
            found["INSIDE"],
            system(self.path("answers.gpkg")),
        )
        assert 0 < found["INSIDE"] < len(points) and [row["name"] for row in rows] == list("012345")
        # By degrees, as a telephone has them: the report beside the tables names the system of the release.
        subprocess.run(
            [
                "ogr2ogr",
                "-f",
                "GPKG",
                self.path("degrees.gpkg"),
                self.path("photos.gpkg"),
                "photos",
                "-t_srs",
                "EPSG:4326",
            ],
            check=True,
            capture_output=True,
        )
        again = self.run_it(
            "locatepoints", INPUT=self.path("degrees.gpkg"), DIR=self.path("located"), LOCATED=self.path("again.gpkg")
        )
        assert (wanted[:4], "yes") == (
            [[row[name] for name in ("parcel_2", "piece", "class")] for row in layer(self.path("again.gpkg"))][:4],
            again["VERDICT"],
        )

    def test_no_point_of_a_refused_release(self):
        shutil.copytree(os.path.join(EXAMPLES, "overlap"), self.path("refused"))
        found = self.run_it(
            "locatepoints",
            INPUT=self.points("some.gpkg", [(50, 20)]),
            DIR=self.path("refused"),
            LOCATED=self.path("none.gpkg"),
            FAULT_POLYGONS=self.path("shapes.gpkg"),
        )
        assert ("refused 41 parcels west east at 50020 23980 1", 1, []) == (
            found["VERDICT"],
            found["STATUS"],
            layer(self.path("none.gpkg")),
        )
        assert layer(self.path("shapes.gpkg"))
