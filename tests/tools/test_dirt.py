"""Tests that tools/prepare loses and adds nothing in silence: each kind of source that once lost land with status 0.
Wants Shapely."""

import os
import resource
import shutil
import signal
import struct
import subprocess
import sys
import unittest.mock
from pathlib import Path

import pytest
from lpis_helpers.registers import made
from lpis_helpers import dirty
from lpis_helpers import stopping
from lpis_helpers.calls import ended_with, records
from lpis_helpers.preparing_case import PREPARE, Case, ring
from lpis.register import table_standing
from lpis.system import files

EAST, NORTH = dirty.EAST, dirty.NORTH


class TestTexts(Case):
    def test_broken(self):
        """A point without its y, a comma that is missing, commas alone: never half of the land, and never a corner
        that is not there."""
        x, y = EAST, NORTH
        broken = [
            f"POLYGON(({x} {y}, {x + 10} {y}, {x + 10}, {x} {y + 10}, {x} {y}))",
            f"POLYGON(({x} {y},{x + 10} {y} {x + 10} {y + 10},{x} {y + 10},{x} {y}))",
            f"POLYGON(({x},{y},{x + 10},{y},{x + 10},{y + 10},{x},{y}))",
            f"POLYGON(({x} {y},{x + 10} {y},{x + 10} {y + 10},{x} {y + 10}))",
            f"POLYGON(({x} {y},{x + 10} {y},{x} {y}))",
        ]
        for text in broken:
            self.tables([("A", f"POLYGON(({ring(0, 0)}))")], [("1", "A", "GRASS", text)])
            self.assert_refused(
                self.run_on(self.sheets),
                "shape: covers 1 (row 1)",
                "balance of land in hectares",
                "  parcels                              0.0100         0.0000        -0.0100         0.0000",
                "the balance adds up to the square metre",
            )

    def test_left_out(self):
        """With --accept a piece that cannot be read is left out, and the parcel's land with it: the balance has
        both."""
        self.tables(
            [("A", f"POLYGON(({ring(0, 0)}))")],
            [("1", "A", "GRASS", f"POLYGON(({ring(0, 0, 5)}))"), ("2", "A", "TREES", f"POLYGON(({ring(5, 0, 5)})")],
        )
        run = ended_with(0, self.run_on(self.sheets, "--accept"))
        assert [row["done"] for row in self.found() if row["kind"] == "shape"] == ["left out"]
        assert "gap A" in run.stdout
        assert "the balance adds up" in run.stdout


class TestTables(Case):
    def test_tables(self):
        """Two columns of one name, records longer or shorter than the header, headers alone: no table, whatever is
        accepted."""
        head, piece = "piece,parcel,class,wkt", f'1,A,GRASS,"POLYGON(({ring(0, 0)}))"'
        for text, words in (
            (f"{head},CLASS\n{piece},WATER\n", "two columns are called class: class and CLASS"),
            (f"{head}\n{piece}\n2,A,GRASS\n", "line 3 has 3 fields, and the header has 4"),
            (f"{head}\n{piece},x\n", "line 2 has 5 fields"),
            (f"{head}\n", "it has no row"),
            (f"{head}\n{piece[:-1]}\n", "a quotation mark that is not closed"),
        ):
            self.tables([("A", f"POLYGON(({ring(0, 0)}))")], [])
            self.write("covers.csv", text)
            for accept in ([], ["--accept"]):
                self.assert_refused(self.run_on(self.sheets, *accept), "table: covers", words)

    def test_columns(self):
        self.tables([("A", f"POLYGON(({ring(0, 0)}))")], [])
        self.write("covers.csv", f'piece,parcel,class,wkt,owner\n1,A,GRASS,"POLYGON(({ring(0, 0)}))",me\n')
        run = self.run_on(self.sheets)
        assert (
            run.returncode,
            "column: covers: columns that the tables do not have: owner: not taken over" in run.stdout,
        ) == (0, True), run.stdout

    @pytest.mark.parametrize("word", ("--classes", "--identifiers"))
    def test_classes_first(self, word):
        """A path of --classes or --identifiers that is wrong is found before the source is read."""
        run = self.run_on(self.path("none.gpkg"), word, self.path("none.csv"))
        assert (run.returncode, "none.csv" in run.stderr, "reading" in run.stderr) == (64, True, False), run.stderr

    def test_classes_kept(self):
        """A table of classes beside the tables is not written over by another one of the source."""
        source = dirty.make(self.path("l.gpkg"), [])
        os.mkdir(self.out)
        Path(self.out, "classes.csv").write_text("class,percent\nGRASS,100\nTREES,50\n", encoding="ascii")
        run = self.run_on(source, "--accept")
        self.assert_refused(run, "classes.csv has other rows than the table classes of the source")
        assert records(self.out, "classes.csv")[1]["percent"] == "50"
        run = self.run_on(source, "--classes", os.path.join(self.out, "classes.csv"))
        assert (run.returncode, records(self.out, "classes.csv")[1]["percent"]) == (0, "50"), run.stdout


class TestSystems(Case):
    def source(self, number, text):
        """The clean land in a system of that number and definition."""
        shapes = (
            f"UPDATE {name} SET geom = CAST(substr(geom, 1, 4) || x'{struct.pack('<i', number).hex()}' || substr(geom,"
            " 9) AS BLOB)"
            for name in ("parcels", "covers")
        )
        return made(
            dirty.make(self.path("l.gpkg"), []),
            f"INSERT OR REPLACE INTO gpkg_spatial_ref_sys VALUES ('x', {number}, 'EPSG', {number}, '{text}', NULL)",
            f"UPDATE gpkg_geometry_columns SET srs_id = {number}",
            *shapes,
        )

    def test_false_areas(self):
        geographic = 'GEOGCS["x",DATUM["d",SPHEROID["s",6378137,298.257]],PRIMEM["Greenwich",0],UNIT["degree",0.0174532925199433]]'  # noqa: E501
        for number, text, words in (
            (
                3857,
                f'PROJCS["m",{geographic},PROJECTION["Mercator_1SP"],UNIT["metre",1]]',
                "are not those of the land: there about 1.91 times as large",
            ),
            (
                4978,
                'GEOCCS["g",DATUM["d",SPHEROID["s",6378137,298.257]],PRIMEM["Greenwich",0],UNIT["metre",1]]',
                "no plane",
            ),
            (
                9999,
                f'COMPD_CS["c",PROJCS["p",{geographic},PROJECTION["Transverse_Mercator"],UNIT["foot",0.3048]],VERT_CS["h",VERT_DATUM["v",2005],UNIT["metre",1]]]',  # noqa: E501
                "units of 0.3048 m",
            ),
        ):
            source = self.source(number, text)
            self.assert_refused(self.run_on(source, "--accept"), words, "name a system in metres by --epsg")
            self.assert_refused(self.run_on(source, "--epsg", str(number)), words)

    @pytest.mark.skipif(not shutil.which("ogr2ogr"), reason="no ogr2ogr")
    def test_transformed(self):
        """Web Mercator at 50 degrees: 2.4 times the land there, and the land itself by --epsg."""
        with unittest.mock.patch.object(dirty, "EAST", 1_001_875), unittest.mock.patch.object(
            dirty, "NORTH", 6_446_275
        ):
            dirty.make(self.path("l.gpkg"), [])
        source = self.path("m.gpkg")
        subprocess.run(
            ["ogr2ogr", "-q", "-f", "GPKG", source, self.path("l.gpkg"), "-a_srs", "EPSG:3857", "parcels", "covers"],
            check=True,
        )
        self.assert_refused(self.run_on(source), "there about 2.42 times as large")
        ended_with(0, self.run_on(source, "--epsg", "25832"))
        assert sum(self.areas().values()) == pytest.approx(400 / 2.42, abs=2)

    def test_degrees(self):
        """Degrees that extend over many degrees, degrees in a layer of metres, and where most rows are degrees."""
        wide = "POLYGON((0 40,40 40,40 60,0 60,0 40))"
        self.tables([("A", wide)], [("1", "A", "GRASS", wide)])
        self.assert_refused(self.run_on(self.sheets, "--accept"), "the whole layer looks like degrees")
        small = "POLYGON((9 48,9.1 48,9.1 48.1,9 48))"
        self.tables(
            [("A", small), ("B", small), ("C", f"POLYGON(({ring(0, 0)}))")],
            [("1", "C", "GRASS", f"POLYGON(({ring(0, 0)}))"), ("2", "A", "GRASS", small), ("3", "B", "GRASS", small)],
        )
        self.assert_refused(
            self.run_on(self.sheets),
            "degrees: covers 2 (row 2)",
            "degrees: covers 3 (row 3)",
            "degrees: parcels A (row 1)",
        )

    def test_mixed(self):
        self.tables(
            [("A", f"SRID=25832;POLYGON(({ring(0, 0)}))")],
            [
                ("1", "A", "GRASS", f"SRID=25832;POLYGON(({ring(0, 0, 5)}))"),
                ("2", "A", "GRASS", f"SRID=25833;POLYGON(({ring(5, 0, 5)}))"),
            ],
        )
        self.assert_refused(self.run_on(self.sheets), "shape: covers 2 (row 2)", "its own system has the number 25833")
        self.assert_refused(
            self.run_on(self.sheets, "--epsg", "25833"),
            "could not be transformed to EPSG:25833: texts of shapes are not transformed here",
        )


class TestShapes(Case):
    # Rings in metres of a piece's place of ten metres, what its border encloses and what it has after it was mended.
    SHAPES = {
        "hole outside": (
            [[[(0, 0), (10, 0), (10, 10), (0, 10), (0, 0)], [(20, 0), (30, 0), (30, 10), (20, 10), (20, 0)]]],
            100,
            100,
        ),
        "bow tie": ([[[(0, 0), (10, 10), (10, 0), (0, 10), (0, 0)]]], 50, 50),
        "twice": ([[[(0, 0), (10, 0), (10, 10), (0, 10), (0, 0)]]] * 2, 100, 100),
        "members overlap": (
            [[[(0, 0), (6, 0), (6, 10), (0, 10), (0, 0)]], [[(4, 0), (10, 0), (10, 10), (4, 10), (4, 0)]]],
            100,
            100,
        ),
        "goes round twice": ([[[(0, 0), (6, 0), (6, 8), (4, 8), (4, 2), (10, 2), (10, 10), (0, 10), (0, 0)]]], 92, 80),
        "hole twice": (
            [[[(0, 0), (10, 0), (10, 10), (0, 10), (0, 0)], *[[(2, 2), (4, 2), (4, 4), (2, 4), (2, 2)]] * 2]],
            96,
            96,
        ),
        "hole is the shell": ([[[(0, 0), (10, 0), (10, 10), (0, 10), (0, 0)]] * 2], 0, None),
        "holes overlap": (
            [
                [
                    [(0, 0), (10, 0), (10, 10), (0, 10), (0, 0)],
                    [(2, 2), (6, 2), (6, 6), (2, 6), (2, 2)],
                    [(4, 4), (8, 4), (8, 8), (4, 8), (4, 4)],
                ]
            ],
            72,
            72,
        ),
        "spike": ([[[(0, 0), (10, 0), (20, 0), (10, 0), (10, 10), (0, 10), (0, 0)]]], 100, 100),
        "hole across": (
            [[[(0, 0), (10, 0), (10, 10), (0, 10), (0, 0)], [(5, 2), (15, 2), (15, 4), (5, 4), (5, 2)]]],
            90,
            90,
        ),
    }

    def source(self):
        """A parcel for each shape, one above the other."""
        parcels, covers = [], []
        for number, (members, _, _) in enumerate(self.SHAPES.values()):
            moved = [[[(EAST + x, NORTH + 20 * number + y) for x, y in way] for way in member] for member in members]
            shape = struct.pack("<BII", 1, 6, len(moved)) + b"".join(dirty.polygon(*member) for member in moved)
            parcels.append((f"P{number}", dirty.polygon(dirty.box(0, 20 * number))))
            covers.append((str(number), f"P{number}", "GRASS", shape))
        return self.package(
            [*parcels, ("B", dirty.polygon(dirty.box(40, 0)))],
            [*covers, ("other", "B", "TREES", dirty.polygon(dirty.box(40, 0)))],
        )

    def test_mended(self):
        """A repair adds no land unsaid: what a border encloses and what is left, a hole takes land away wherever it
        lies, and nobody's land is taken unnamed."""
        source = self.source()
        self.assert_refused(
            self.run_on(source),
            *(
                f"invalid: covers {number} (fid {number + 1}) ({after or 0:.3f} m2)"
                for number, (_, _, after) in enumerate(self.SHAPES.values())
            ),
        )
        run = ended_with(0, self.run_on(source, "--accept"))
        done = {row["identifier"]: row["words"] + row["done"] for row in self.found() if row["kind"] == "invalid"}
        for number, (name, (_, enclosed, after)) in enumerate(self.SHAPES.items()):
            assert (
                f"made valid: {after:.3f} m2 of the {enclosed:.3f} that its border encloses"
                if after
                else "nothing of it has an area"
            ) in done[str(number)], name
        assert self.areas() == {"GRASS": sum(after or 0 for _, _, after in self.SHAPES.values()), "TREES": 100}
        assert "the balance adds up" in run.stdout

    def test_taken(self):
        """A mended piece that lies on its neighbour: who loses how much is in the finding."""
        bow = [(EAST, NORTH), (EAST + 20, NORTH + 10), (EAST + 20, NORTH), (EAST, NORTH + 10), (EAST, NORTH)]
        source = self.package(
            [("A", dirty.polygon(dirty.box(0, 0))), ("B", dirty.polygon(dirty.box(10, 0)))],
            [("1", "A", "GRASS", dirty.polygon(bow)), ("2", "B", "TREES", dirty.polygon(dirty.box(10, 0)))],
        )
        self.assert_refused(self.run_on(source), "once mended it overlaps 50.000 m2 of 2")

    def test_greatest_change(self):
        """The greatest change of a parcel is that from the source, not from the mended shape."""
        bow = [(EAST, NORTH), (EAST + 10, NORTH + 10), (EAST + 10, NORTH), (EAST, NORTH + 10), (EAST, NORTH)]
        source = self.package([("A", dirty.polygon(bow))], [("1", "A", "GRASS", dirty.polygon(bow))])
        ended_with(0, self.run_on(source, "--accept"))
        assert [(row["layer"], row["class"], row["mended_m2"]) for row in records(self.out, "balance.csv")] == [
            ("covers", "GRASS", "50.000"),
            ("covers", "", "50.000"),
            ("parcels", "", "50.000"),
        ]


class TestGaps(Case):
    # Of a parcel's second piece: whether it names the parcel and its shape, from the parcel's corner on; and what is
    # said of the gap.
    HALF, BOW, DEGREES = (
        [(5, 0), (10, 0), (10, 10), (5, 10), (5, 0)],
        [(5, 0), (10, 10), (10, 0), (5, 10), (5, 0)],
        "POLYGON((9 48,9.1 48,9.1 48.1,9 48))",
    )
    CASES = {
        "none": (None, None, ""),
        "empty": ("empty", "", "; it may come from piece {0} (row {0}, shape)"),
        "degrees": ("degrees", DEGREES, "; it may come from piece {0} (row {0}, degrees)"),
        "nameless": ("", HALF, "; it comes from piece {0} (row {0}, nameless)"),
        "stranger": ("nowhere", HALF, "; it comes from piece {0} (row {0}, stranger)"),
        "elsewhere": ("nowhere", [(x + 200, y + 200) for x, y in HALF], ""),
        "crossing": ("crossing", BOW, "; it may come from piece {0} (row {0}, invalid)"),
    }

    def test_causes(self):
        """A gap has the row of its parcel, and says which piece it comes of that was left out or mended; one of the
        source says nothing of the kind."""
        parcels, pieces, wanted = [], [], {}
        for number, (name, (parcel, shape, told)) in enumerate(self.CASES.items()):
            parcels.append((name, f"POLYGON(({ring(20 * number, 0)}))"))
            pieces.append((str(len(pieces) + 1), name, "GRASS", f"POLYGON(({ring(20 * number, 0, 5)}))"))
            wanted[name] = str(number + 1), told.format(len(pieces) + 1)
            if parcel is not None:
                points = (
                    shape
                    if isinstance(shape, str)
                    else "POLYGON((" + ",".join(f"{EAST + 20 * number + x} {NORTH + y}" for x, y in shape) + "))"
                )
                pieces.append((str(len(pieces) + 1), parcel, "GRASS", points))
        self.tables(parcels, pieces)
        for words, table, column in (((), "findings.csv", "identifiers"), (("--accept",), "report.csv", "identifiers")):
            ended = self.run_on(self.sheets, *words)
            found = [row for row in records(self.out, table) if row["kind"] == "gap"]
            assert {row[column] for row in found} == set(self.CASES), ended.stdout + ended.stderr
            for row in found:
                number, told = wanted[row[column]]
                assert (row["row"], f"none of its pieces{told}" in row["words"], "come" in row["words"]) == (
                    number,
                    True,
                    bool(told),
                ), row

    def test_plain_words(self):
        """Rows without identifier and in degrees: what was done with the row, and what one may do."""
        shape, degrees = f"POLYGON(({ring(0, 0)}))", "POLYGON((9 48,9.1 48,9.1 48.1,9 48))"
        self.tables(
            [("A", degrees), ("", f"POLYGON(({ring(20, 0)}))")],
            [("", "A", "GRASS", shape), ("2", "A", "GRASS", degrees)],
        )
        wanted = (
            ("nameless", "parcels", "or --accept leaves the row out", "left out"),
            ("nameless", "covers", "or --accept keeps the row and names the piece row-1", "kept, and named row-1"),
            ("degrees", "parcels", "or --accept makes the parcel of its pieces", "made of its pieces"),
            ("degrees", "covers", "or --accept leaves the piece out", "left out"),
        )
        for words in ((), ("--accept",)):
            self.run_on(self.sheets, *words)
            found = {(row["kind"], row["layer"]): row for row in self.found()}
            for kind, layer, remedy, done in wanted:
                row = found[kind, layer]
                assert (remedy in row["words"], "in the source" in row["words"], row["done"]) == (
                    True,
                    True,
                    done if words else "",
                ), row


class TestNames(Case):
    def test_blanks(self):
        """Padded identifiers are trimmed alike in all tables, and no digest is put behind them."""
        self.tables(
            [("A".ljust(20), f"POLYGON(({ring(0, 0)}))"), ("B", f"POLYGON(({ring(10, 0)}))")],
            [("1 ", "A", "GRASS ", f"POLYGON(({ring(0, 0)}))"), ("2", "B\u00a0", "TREES", f"POLYGON(({ring(10, 0)}))")],
        )
        run = ended_with(0, self.run_on(self.sheets))
        assert [row["parcel"] for row in records(self.out, "parcels.csv")] == ["A", "B"]
        assert [(row["piece"], row["parcel"], row["class"]) for row in records(self.out, "covers.csv")] == [
            ("1", "A", "GRASS"),
            ("2", "B", "TREES"),
        ]
        assert sum(row["kind"] == "blanks" for row in self.found()) == 4, run.stdout
        assert {"kind": "parcel", "old": "A".ljust(20), "new": "A"} in records(self.out, "identifiers.csv")

    def test_alike(self):
        """Names that differ in case, in forms of letters or in .0 alone: named, and a piece whose parcel is not
        there with the one that is."""
        self.tables(
            [("A", f"POLYGON(({ring(0, 0)}))"), ("a", f"POLYGON(({ring(10, 0)}))"), ("7", f"POLYGON(({ring(20, 0)}))")],
            [
                ("1", "A", "GRASS", f"POLYGON(({ring(0, 0)}))"),
                ("2", "a", "Grass", f"POLYGON(({ring(10, 0)}))"),
                ("3", "7.0", "TREES", f"POLYGON(({ring(20, 0)}))"),
            ],
        )
        run = self.run_on(self.sheets)
        self.assert_refused(
            run,
            "the parcels A and a differ only in case",
            "the classes GRASS and Grass differ only in case",
            "its parcel 7.0 is not there; 7 is, which differs only in case, or in .0",
            "which the table of classes does not have; it has GRASS, which differs",
        )

    def test_nameless(self):
        source = self.package(
            [("A", dirty.polygon(dirty.box(0, 0)))],
            [
                ("1", "A", "GRASS", dirty.polygon(dirty.box(0, 0, 5))),
                (None, "A", "TREES", dirty.polygon(dirty.box(5, 0, 5))),
            ],
        )
        made(source, "UPDATE covers SET fid = 4711 WHERE piece IS NULL")
        self.assert_refused(self.run_on(source), "nameless: covers (fid 4711) (50.000 m2) at")
        run = self.run_on(source, "--accept")
        assert (run.returncode, records(self.out, "covers.csv")[1]["piece"]) == (0, "fid-4711"), run.stdout


class TestWhole(Case):
    def test_overlap_alone(self):
        """Overlaps or gaps alone: without --accept no table is written."""
        run = self.run_on(dirty.make(self.path("l.gpkg"), ["wide"]))
        self.assert_refused(run, "overlap wide-2.1 wide.2", "no table is written")
        assert sorted(name for name in os.listdir(self.out) if name.startswith(".")) == [
            ".cells",
            table_standing.FILE,
        ]
        run = self.run_on(dirty.make(self.path("l.gpkg"), ["wide"]), "--accept")
        assert [name for name in os.listdir(self.out) if name.startswith(".")] == [table_standing.FILE]
        assert (run.returncode, len(records(self.out, "parcels.csv"))) == (0, 6), run.stdout

    def test_full_disk(self):
        """Where a table cannot be written whole the old ones stay, all of them."""
        small = dirty.make(self.path("l.gpkg"), [])
        assert self.run_on(small).returncode == 0
        before = {
            name: open(os.path.join(self.out, name), "rb").read()
            for name in ("parcels.csv", "covers.csv", "classes.csv")
        }
        shapes = [(f"P{number}", dirty.polygon(dirty.box(20 * number, 0))) for number in range(300)]
        dirty.put(self.path("m.gpkg"), shapes, [(f"{name}.1", name, "GRASS", shape) for name, shape in shapes])

        def limit():
            signal.signal(signal.SIGXFSZ, signal.SIG_IGN)
            resource.setrlimit(resource.RLIMIT_FSIZE, (20_000, 20_000))

        run = subprocess.run(
            [PREPARE, self.path("m.gpkg"), self.out], capture_output=True, text=True, check=False, preexec_fn=limit
        )
        assert (run.returncode, "Traceback" in run.stderr) == (64, False), run.stderr
        assert before == {name: open(os.path.join(self.out, name), "rb").read() for name in before}
        assert ([name for name in os.listdir(self.out) if name.startswith(".")], table_standing.of(self.out).state) == (
            [table_standing.FILE],
            "unfinished",
        )

    def test_interrupted(self):
        """Nothing of this run stays, and nothing of one that was killed; what another run locks does."""
        os.makedirs(os.path.join(self.out, ".prepare-killed00", "deep"))
        living = files.folder(self.out, ".prepare-")
        source = dirty.make(self.path("l.gpkg"), dirty.ALL)
        status, told = stopping.stopped([PREPARE, source, self.out], "prepare: reading")
        assert (status, "Traceback" in told, "stopped by SIGINT: no table is written" in told) == (
            130,
            False,
            True,
        ), told
        assert sorted(os.listdir(self.out)) == [table_standing.FILE, os.path.basename(living)]


def test_help(tmp_path):
    """--help and --version need no Shapely."""
    (tmp_path / "shapely.py").write_text("raise ImportError\n", encoding="ascii")
    for word, wanted in (("--help", "--accept"), ("--version", "lpis-prepare ")):
        run = subprocess.run(
            [sys.executable, PREPARE, word],
            capture_output=True,
            text=True,
            check=False,
            env={**os.environ, "PYTHONPATH": str(tmp_path)},
        )
        assert (run.returncode, wanted in run.stdout) == (0, True), run.stdout + run.stderr
