"""Tests that tools/prepare names what is rare in a source, or takes it whole: other programs that hold it, views,
columns that are worked out, line ends in names, coordinates that no map has. Wants Shapely."""

import os
import shutil
import struct
import subprocess
import unittest.mock

import pytest
from lpis_helpers import dirty
from lpis_helpers import places
from lpis_helpers.calls import records
from lpis_helpers.preparing_case import CLASSES, Case, ring
from lpis_helpers.registers import made


class TestUnusual(Case):
    """Sources of kinds that are rare: each is named or comes through whole."""

    POINT = struct.pack("<BI2d", 1, 1, dirty.EAST, dirty.NORTH)

    def set_up(self):
        super().set_up()
        self.bases = []

    def put_away(self):
        """The source of a case, with those who hold it."""
        while self.bases:
            self.bases.pop().close()
        for name in ("land.gpkg", "land.gpkg-wal", "land.gpkg-shm"):
            if os.path.exists(self.path(name)):
                os.remove(self.path(name))

    def changed(self, *statements):
        """A clean source with statements made in it."""
        source = self.package(
            [("A", dirty.polygon(dirty.box(0, 0)))], [("A.1", "A", "GRASS", dirty.polygon(dirty.box(0, 0)))]
        )
        return made(source, *statements)

    def locked(self):
        source = self.changed()
        base = dirty.sqlite3.connect(source, isolation_level=None)
        base.execute("BEGIN EXCLUSIVE")
        self.bases.append(base)
        return source

    def written(self):
        """In the mode WAL, with a row that was committed, while another process writes."""
        source = self.changed("PRAGMA journal_mode = WAL")
        base = dirty.sqlite3.connect(source, isolation_level=None)
        base.execute("UPDATE covers SET class = 'TREES'")
        base.execute("BEGIN IMMEDIATE")
        base.execute("DELETE FROM covers")
        self.bases.append(base)
        return source

    def cut_off(self):
        source = self.changed()
        os.truncate(source, os.path.getsize(source) * 2 // 3)
        return source

    def with_row(self, name, shape):
        return self.package(
            [("A", dirty.polygon(dirty.box(0, 0)))],
            [("A.1", "A", "GRASS", dirty.polygon(dirty.box(0, 0))), (name, "A", "TREES", shape)],
        )

    def sheet(self, encoding, text="piece;parcel;class;wkt\n1;A;GRASS;{}\n"):
        for name, table in (("parcels", "parcel;wkt\nA;{}\n"), ("covers", text)):
            with open(os.path.join(self.sheets, f"{name}.csv"), "wb") as file:
                file.write(table.format(f'"POLYGON(({ring(0, 0)}))"').encode(encoding))
        self.write("classes.csv", CLASSES)
        return self.sheets

    def cases(self):
        """A source, and what is told of it: a status, and words."""
        far = dirty.polygon([(1e300, 0.0), (1e301, 0.0), (1e300, 1e300), (1e300, 0.0)])
        touching = struct.pack("<BII", 1, 6, 2) + dirty.polygon(dirty.box(0, 0, 5)) + dirty.polygon(dirty.box(5, 0, 5))
        return (
            (self.locked, (64, "another program is writing it")),
            (self.cut_off, (64, "malformed")),
            (lambda: self.with_row("far", far), (1, "a coordinate is beyond 20,000,000 m (1e+301)")),
            (lambda: self.with_row("line\nend", dirty.EMPTY), (1, "covers 'line\\nend' (fid 2): an empty shape")),
            (lambda: self.package([], []), (1, "covers: it has no row")),
            (
                lambda: self.changed(
                    "ALTER TABLE covers ADD centre BLOB",
                    "INSERT INTO gpkg_geometry_columns VALUES ('covers', 'centre', 'POINT', 25832, 0, 0)",
                ),
                (64, "2 columns of shapes: there are geom, centre (--name covers.wkt=COLUMN says which it is)"),
            ),
            (
                lambda: self.changed(
                    "UPDATE gpkg_geometry_columns SET column_name = 'shape' WHERE table_name = 'covers'"
                ),
                (64, "layer covers: it has no column of shapes"),
            ),
            (
                lambda: self.package(*[[(*fields, self.POINT)] * 3 for fields in (["A"], ["A.1", "A", "GRASS"])]),
                (1, "no table is written"),
            ),
            (
                lambda: self.changed("ALTER TABLE covers ADD owner TEXT GENERATED ALWAYS AS (class) VIRTUAL"),
                (0, "owner: not taken over"),
            ),
            (
                lambda: self.package([("A", touching)], [("A.1", "A", "GRASS", touching)]),
                (1, "invalid: covers A.1 (fid 1) (100.000 m2)"),
            ),
        )

    def whole(self):
        """Sources that come through whole."""
        return (
            self.written,
            lambda: self.changed("UPDATE gpkg_geometry_columns SET table_name = 'COVERS' WHERE table_name = 'covers'"),
            lambda: self.changed(
                "ALTER TABLE covers RENAME TO base", "CREATE VIEW covers AS SELECT piece, parcel, class, geom FROM base"
            ),
            lambda: self.sheet("utf-16"),
            lambda: self.sheet("utf-8-sig", "sep=;\npiece;parcel;class;wkt\n1;A;GRASS;{}\n"),
            lambda: self.sheet("utf-8", "piece\tparcel\tclass\twkt\n1\tA\tGRASS\t{}\n"),
        )

    def told(self, source, *words):
        """A run into an empty folder: its status, and all that it says."""
        shutil.rmtree(self.out, ignore_errors=True)
        return self.ended(self.run_on(source, *words))

    def test_named(self):
        for make, (right, words) in self.cases():
            status, told = self.told(make())
            assert (status, words in told, "Traceback" in told) == (right, True, False), told
            self.put_away()

    def test_columns(self):
        """--name LAYER.wkt chooses among columns of shapes, in any mix of cases; one that is not there is named with
        those that are."""
        source = self.changed(
            "ALTER TABLE covers ADD outline BLOB",
            "INSERT INTO gpkg_geometry_columns VALUES ('covers', 'outline', 'POLYGON', 25832, 0, 0)",
            "UPDATE covers SET outline = geom, geom = NULL",
        )
        for word, status, words in (
            ("covers.wkt=Outline", 0, "columns that the tables do not have: geom"),
            ("covers.wkt=geom", 1, "no shape (NULL)"),
            ("covers.wkt=way", 64, "no column of shapes way: there are geom, outline"),
            ("classes=kinds", 64, "no layer kinds: there are "),
        ):
            run = self.run_on(source, "--name", word)
            assert (run.returncode, words in run.stdout + run.stderr) == (status, True), run.stdout + run.stderr
        if shutil.which("ogr2ogr"):  # which calls the column by a name of its own
            self.put_away()
            source = self.changed(
                "ALTER TABLE covers RENAME COLUMN geom TO shape",
                "UPDATE gpkg_geometry_columns SET column_name = 'shape' WHERE table_name = 'covers'",
            )
            run = self.run_on(source, "--name", "covers.wkt=shape", "--epsg", "25833")
            assert (run.returncode, run.stdout.count("transformed to EPSG:25833")) == (0, 2), run.stdout + run.stderr

    def test_nothing(self):
        """Where nothing is left no table is written, whatever is accepted, and the reasons are counted; only what
        has pieces is made of them."""
        box, thin = dirty.polygon(dirty.box(0, 0)), dirty.polygon(dirty.box(0, 0, 50, 0.0002))
        for parcels, covers, words in (
            (
                [("A", self.POINT), ("B", self.POINT)],
                [("A.1", "A", "GRASS", self.POINT)],
                "nothing is left: 3 rows: no polygon but a point",
            ),
            ([("A", box)], [("A.1", "A", "GRASS", None)], "nothing is left: 1 row: no shape (NULL)"),
            (
                [("A", thin)],
                [("A.1", "A", "GRASS", thin)],
                "nothing is left: 1 row: narrower than a millimetre, or other",
            ),
        ):
            source = self.package(parcels, covers)
            status, told = self.told(source, "--accept")
            assert (status, words in told, "made of its pieces" in told, "parcels.csv" in os.listdir(self.out)) == (
                1,
                True,
                False,
                False,
            ), told
            os.remove(source)
        shutil.rmtree(self.out)
        source = self.package([("A", self.POINT), ("B", self.POINT)], [("A.1", "A", "GRASS", box)])
        assert self.run_on(source, "--accept").returncode == 0
        assert [row["done"] for row in self.found() if row["kind"] == "shape"] == ["made of its pieces", "left out"]

    def far(self, east, system, others=()):
        """A source of one parcel beside others, at an easting, in a system."""
        shapes = [
            dirty.polygon([(x - dirty.EAST + at, y) for x, y in dirty.box(10 * number, 0)])
            for number, at in enumerate((east, *others))
        ]
        with unittest.mock.patch.dict(
            dirty.SYSTEMS,
            {
                2154: (
                    "Lambert-93",
                    dirty.SYSTEMS[25832][1].replace("Transverse_Mercator", "Lambert_Conformal_Conic_2SP"),
                ),
                32720: dirty.SYSTEMS[25832],
            },
        ):
            return dirty.put(
                self.path("land.gpkg"),
                [(f"A{number}", shape) for number, shape in enumerate(shapes)],
                [(f"A{number}.1", f"A{number}", "GRASS", shape) for number, shape in enumerate(shapes)],
                [("GRASS", 100)],
                system,
            )

    @pytest.mark.parametrize(
        "east, system, kind",
        (
            (32_550_000, 25832, "prefix"),
            (32_550_000, 4647, "prefix"),
            (30_550_000, 25832, "far"),
            (32_550_000, 2154, "far"),
            (20_000_139, 32720, "prefix"),
            (20_000_139, 25832, "far"),
            (33_550_000, 4647, "far"),
            (61_000_000, 25832, "far"),
        ),
    )
    def test_zones(self, east, system, kind):
        """A zone's number is taken off where the system has that zone, each parcel by name; nothing else is moved."""
        run = self.run_on(self.far(east, system, [550_000]))
        found = [(row["kind"], row["identifier"]) for row in self.found() if row["kind"] in ("prefix", "far")]
        assert (run.returncode, found) == (int(kind == "far"), [(kind, "A0"), (kind, "A0.1")]), (
            east,
            system,
            run.stdout,
        )

    def test_degrees_among_metres(self):
        """A parcel in degrees among metres is a row that stops."""
        source = self.far(9, 25832, [550_000])
        degrees = (
            b"GP\0\1" + struct.pack("<i", 25832) + dirty.polygon([(9.1, 48.1), (9.2, 48.1), (9.2, 48.2), (9.1, 48.1)])
        )
        made(source, *(f"UPDATE {name} SET geom = x'{degrees.hex()}' WHERE fid = 1" for name in ("parcels", "covers")))
        status, told = self.told(source)
        assert (status, told.count("which looks like degrees among metres") >= 2) == (1, True), told
        status, told = self.told(source, "--accept")
        balance = {row["layer"]: row for row in records(self.out, "balance.csv")}
        assert (
            status,
            balance["parcels"]["source_m2"],
            balance["parcels"]["left_out_m2"],
            "the balance adds up" in told,
        ) == (0, "100.005", "-0.005", True), told

    def test_spikes(self):
        """Spikes and notches that are narrower than a millimetre have each a row: of parcels, of pieces, in a corner
        and in an edge, in every direction."""
        spikes = [(tip, base) for tip in ((50, 110), (50, 90), (110, 110), (55, 130)) for base in (0.0002, 0.0004)]
        parcels = []
        for number, ((x, y), base) in enumerate(spikes):
            corner = (100, 100) if x > 100 else (50, 100)
            way = [
                (0, 0),
                (100, 0),
                *([] if x > 100 else [(100, 100)]),
                (corner[0] + base, corner[1] - base * (x > 100)),
                (x, y),
                corner,
                (0, 100),
                (0, 0),
            ]
            parcels.append(
                (f"A{number}", dirty.polygon([(dirty.EAST + 200 * number + a, dirty.NORTH + b) for a, b in way]))
            )
        source = self.package(parcels, [(f"{name}.1", name, "GRASS", shape) for name, shape in parcels])
        status, told = self.told(source)
        found = [row["identifiers"] for row in records(self.out, "report.csv") if row["kind"] == "spike"]
        assert (status, sorted(found)) == (
            0,
            sorted([name for name, _ in parcels] + [f"{name}.1" for name, _ in parcels]),
        ), told

    def test_whole(self):
        for make in self.whole():
            source = make()
            status, told = self.told(source)
            assert (status, len(records(self.out, "parcels.csv")), "left out" in told.split("balance of land")[0]) == (
                0,
                1,
                False,
            ), told
            assert [float(row["tables_m2"]) for row in records(self.out, "balance.csv")] == [100.0] * 3, told
            self.put_away()

    def slivers(self):
        """Shapes that round to a line or to a point, in metres from the corner of the land: alone, in a row, inside
        another or inside each other."""
        thin = 0.0003
        return (
            [("B", 0, 0, thin, 100)],
            [("B", 0, 0, 1, 0.0001)],
            [("B", 0, 0, thin, thin)],
            [("B", 0, 0, thin, 90_000)],
            [(f"B{number}", 2 * number, 0, thin, 50) for number in range(200)],
            [("A", 0, 0, 100, 100), ("B", 50.0003, 50, thin, thin)],
            [("A", 0, 0, 100, 100), ("B", 20, 50.0001, 60, thin)],
            [("A", 0, 0, 100, 100), ("B", 50, -10, thin, 120)],
            [
                ("A", 0, 0, 100, 100),
                ("B", 20, 50, 60, thin),
                ("B2", 30, 50.0001, 40, thin / 2),
                ("0", 40, 20, 20, 20),
                ("B3", 45, 30, thin, 5),
            ],
            [("A", 0, 0, 1, 0.1), ("B", 0.0003, 0.05, 0.9, thin)],
        )

    def test_slivers(self):
        """What is no more than a line or a point has a row, with its place and area, whatever lies about it; all
        else comes through."""
        for land in self.slivers():
            shapes = [(name, f"POLYGON(({ring(*box)}))", box) for name, *box in land]
            self.tables(
                [(name, text) for name, text, _ in shapes],
                [(f"{name}.1", name, "GRASS", text) for name, text, _ in shapes],
            )
            wanted = sorted((name, f"{box[2] * box[3]:.4f}") for name, _, box in shapes if name.startswith("B"))
            for words, status in ((["--accept"], int(len(wanted) == len(land))), ([], 1)):
                run = self.run_on(self.sheets, *words)
                assert (run.returncode, "Traceback" in run.stderr) == (status, False), run.stdout + run.stderr
                lost = [row for row in records(self.out, "report.csv") if row["kind"] == "lost"]
                assert (
                    sorted((row["identifiers"], row["area_m2"]) for row in lost if row["layer"] == "parcels") == wanted
                )
                assert sorted(row["identifiers"] for row in lost if row["layer"] == "covers") == sorted(
                    f"{name}.1" for name, _ in wanted
                )
                assert all(row["x"] and row["y"] for row in lost)

    # Shapes by their members and rings, in metres from the corner of the land, as test suites of other programs have
    # them: parts of them have no width, or less than rounding can show.
    COLLAPSING = {
        "corners on a line": [[[(0, 0), (10, 0), (20, 0), (0, 0)]]],
        "one corner again and again": [[[(5, 5), (5, 5), (5, 5), (5, 5)]]],
        "a spike outward, and one inward": [
            [[(0, 0), (10, 0), (10, 5), (25, 5), (10, 5), (10, 10), (5, 10), (5, 2), (5, 10), (0, 10), (0, 0)]]
        ],
        "an edge there and back between two triangles": [
            [[(0, 0), (5, 5), (15, 5), (20, 0), (20, 10), (15, 5), (5, 5), (0, 10), (0, 0)]]
        ],
        "a bow tie of which one wing is thin": [
            [[(0, 0), (10, 10), (30, 10.0003), (30, 10), (10, 10), (0, 10), (0, 0)]]
        ],
        "a member of 0.4 mm beside one of 10 m": [
            [[(0, 0), (10, 0), (10, 10), (0, 10), (0, 0)]],
            [[(20, 0), (20.0004, 0), (20.0004, 10), (20, 10), (20, 0)]],
        ],
        "a hole of 0.3 mm": [
            [[(0, 0), (10, 0), (10, 10), (0, 10), (0, 0)], [(2, 5), (8, 5), (8, 5.0003), (2, 5.0003), (2, 5)]]
        ],
        "a hole that is the shell": [
            [[(0, 0), (10, 0), (10, 10), (0, 10), (0, 0)], [(0, 0), (10, 0), (10, 10), (0, 10), (0, 0)]]
        ],
        "a hole that leaves a frame of 0.3 mm": [
            [
                [(0, 0), (10, 0), (10, 10), (0, 10), (0, 0)],
                [(0.0003, 0.0003), (9.9997, 0.0003), (9.9997, 9.9997), (0.0003, 9.9997), (0.0003, 0.0003)],
            ]
        ],
        "a hole on a line that touches the shell": [
            [[(0, 0), (10, 0), (10, 10), (0, 10), (0, 0)], [(0, 5), (10, 5), (5, 5), (0, 5)]]
        ],
        "the same member twice": [
            [[(0, 0), (10, 0), (10, 10), (0, 10), (0, 0)]],
            [[(0, 0), (10, 0), (10, 10), (0, 10), (0, 0)]],
        ],
        "a needle of 50 km that crosses itself": [[[(0, 0), (50_000, 0.0004), (50_000, 0), (0, 0.0004), (0, 0)]]],
    }

    @staticmethod
    def placed(shapes):
        """Each shape with its name, in a block of its own."""

        def way(ring, number):
            return (
                "("
                + ",".join(f"{dirty.EAST + 300 * number + a!r} {dirty.NORTH + 300 * number + b!r}" for a, b in ring)
                + ")"
            )

        return [
            (
                name,
                (
                    f"MULTIPOLYGON({','.join('(' + ','.join(way(ring, number) for ring in member) + ')' for member in members)})"  # noqa: E501
                ),
            )
            for number, (name, members) in enumerate(shapes)
        ]

    def test_collapsing(self):
        """Each ends in tables, with a yes, beside a parcel that is sound, and all of them in one land; a row has
        what is gone."""
        sound = ("sound", [[[(0, 0), (10, 0), (10, 10), (0, 10), (0, 0)]]])
        shapes = [(f"B{number}", members) for number, members in enumerate(self.COLLAPSING.values())]
        for some in (*([shape] for shape in shapes), shapes):
            land = self.placed([*some, sound])
            self.tables(land, [(f"{name}.1", name, "GRASS", text) for name, text in land])
            status, told = self.told(self.sheets, "--accept")
            assert (status, "Traceback" in told, "the balance adds up" in told) == (0, False, True), (some, told)
            written, named = {row["parcel"] for row in records(self.out, "parcels.csv")}, self.named()
            assert {name for name, _ in land} - written - named == set(), told
            assert "sound" in written
            if places.BUILT:
                for words in (["cut", self.out, self.path("cert.txt")], ["check", self.out, self.path("cert.txt")]):
                    run = subprocess.run([places.BUILT, *words], capture_output=True, text=True, check=False)
                    assert run.returncode == 0, (some, run.stdout)
                assert run.stdout.splitlines()[-1] == "yes"
            shutil.rmtree(self.out)

    def named(self):
        """Who stands in a report."""
        tables = [
            (table, column)
            for table, column in (("prepared.csv", "identifier"), ("report.csv", "identifiers"))
            if os.path.exists(os.path.join(self.out, table))
        ]
        return {name for table, column in tables for row in records(self.out, table) for name in row[column].split()}

    @staticmethod
    def ended(run):
        return run.returncode, run.stdout + run.stderr
