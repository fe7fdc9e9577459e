"""Tests what tools do with what strangers hand them: no crash is an answer, nothing of it is run or written through,
and it is printed fit for people."""

import contextlib
import csv
import io
import os
import sqlite3
import stat
import struct
import subprocess
import sys
import unittest.mock
from pathlib import Path

import pytest
from lpis_helpers.calls import tool
from lpis_helpers.registers import made
from lpis_helpers import dirty
from lpis_helpers import spare
from lpis_helpers import stopping
from lpis_helpers.places import PACKAGE, TOOLS
from lpis.faults import country_explanation, explanation
from lpis.formats import byte_tables, polygons, refusal_line, register_rows, table_streams, wkb
from lpis.lineage import two_years
from lpis.preparation import origin
from lpis.register import ledger
from lpis.report import html_page, release_report
from lpis.source import coordinate_systems
from lpis.system import command_line, files, printing, shapely_there, unforeseen

DIGITS = "1" * 5000
DEEP = 20_000
ENDLESS = (
    "WITH RECURSIVE n(fid) AS (SELECT 1 UNION ALL SELECT fid + 1 FROM n) SELECT fid, 'a' AS parcel, NULL AS geom FROM n"
)
# Words of tools/faults, explain and report over the folder {0} with tables of DIGITS and DEEP; standard input; the
# status, and what is told of it.
TOOL_CASES = (
    ("faults {0} {0}/f.geojson --lpis a'b", "", 64, "is no command"),
    ("faults {0} {0}/f.geojson --lpis /dev/null", "", 70, "Permission denied"),
    ("explain {0}", f"refused 40 parcel a at {DIGITS} 1 1\n", 1, "no such line"),
    ("explain {0}", "refused 41 parcels a b at 1 1 0\n", 1, "no such line"),
    ("explain {0}", "refused 50 pair a b\n", 2, "no such line"),
    ("explain {0} --svg {0}/f.svg", "refused 37 parcels row 1\n", 2, "parcel 'a'"),
    ("explain {0} --svg {0}/f.svg", "refused 37 parcels row 2\n", 2, "parcel 'b'"),
    ("explain {0}", f"refused 50 cert line {DIGITS}\n", 2, "no such line"),
    ("report {0} {0}/none --lpis false --html {0}/r.html --json {0}/r.json", "", 1, "lpis printed nothing"),
    ("year --verify {0}/parcels.csv", "", 1, "has no log"),
)
# Texts, and what is printed of them.
PRINTED = (
    ("plain \u00fc\n", "plain \u00fc\n"),
    ("a\x1b[31mb\n", "a\\x1b[31mb\n"),
    ("\rrows 1\r2\n", "\rrows 1\\r2\n"),
    ("a\u202eb", "a\\u202eb"),
    ("caf\udce9", "caf\\xe9"),
    ("tab\t", "tab\t"),
)


def fails(_words=None):
    unforeseen.at("land.gpkg", "parcels", 17)
    raise TypeError("'int' object is not\nsubscriptable")


def deep(_words=None):
    return deep()


def raises(kind):
    def run():
        raise kind

    return run


def ended_in(main):
    """The status of a tool, and what it tells."""
    with unittest.mock.patch("lpis.system.printing.begin"), contextlib.redirect_stderr(io.StringIO()) as told:
        return command_line.ended("tool", main), told.getvalue()


class Case(spare.Spare):
    def write(self, name, text):
        spare.write(text, self.path(name))
        return self.path(name)

    def read(self, name):
        return spare.read(self.path(name))

    def run_tool(self, text, told=""):
        name, *rest = text.split()
        return tool(name, *(word.format(self.folder) for word in rest), input=told, timeout=120)


class TestLastResort(Case):
    """An error that nobody foresaw."""

    def ended(self, main, folder=None):
        unforeseen.PLACE.step = ""
        with unittest.mock.patch("tempfile.tempdir", folder or self.folder):
            found = ended_in(main)
        unforeseen.at()
        return found

    def test_sentence(self):
        status, told = self.ended(fails)
        (kept,) = os.listdir(self.folder)
        assert (status, told.count("\n"), "Traceback" in told) == (70, 1, False), told
        assert [
            word
            for word in (
                "TypeError",
                "row 17 of the layer parcels of land.gpkg",
                "object is not subscriptable",
                self.path(kept),
            )
            if word not in told
        ] == [], told
        assert "Traceback" in self.read(kept)
        assert stat.S_IMODE(os.stat(self.path(kept)).st_mode) == 0o600

    def test_no_room(self):
        status, told = self.ended(fails, self.path("none"))
        assert (status, "could not be written" in told, told.count("\n")) == (70, True, 1), told

    @pytest.mark.parametrize(
        "main, status, word",
        (
            (deep, 70, "nested deeper"),
            (raises(MemoryError()), 64, "not enough memory"),
            (raises(BrokenPipeError()), 64, ""),
            (raises(KeyboardInterrupt()), 130, ""),
            (raises(SystemExit(3)), 3, ""),
            (raises(OSError(5, "gone", "a\x1bb")), 64, "gone"),
            (lambda: 1, 1, ""),
        ),
    )
    def test_kinds(self, main, status, word):
        found, told = self.ended(main)
        assert (found, word in told, "Traceback" in told) == (status, True, False), told

    def test_place(self):
        """Rows of another table in between, and no row after the last."""
        for number, _ in unforeseen.each("covers", "ab", "land.gpkg"):
            assert unforeseen.PLACE.words() == f", at row {number} of the layer covers of land.gpkg"
            unforeseen.at("other")
        assert unforeseen.PLACE.words() == ""


class TestRead(Case):
    """What is read of numbers and brackets without end."""

    def test_polygons(self):
        for text in (
            f"POLYGON{'(' * DEEP}1 1{')' * DEEP}",
            f"MULTIPOLYGON((({DIGITS}.000 1.000,2.000 2.000,3.000 1.000,1.000 1.000)))",
            f"POLYGON(({DIGITS} 1,1 1,1 2,1 1))",
        ):
            assert polygons.read(text.encode()) is None
            table_streams.measured(text)
        assert polygons.read(b"POLYGON((000000000000000000001 1,2 1,2 2,1 1))") == [
            [[(1000, 1000), (2000, 1000), (2000, 2000), (1000, 1000)]]
        ]

    @pytest.mark.parametrize(
        "text",
        (
            'PROJCS["x",PROJECTION["Lambert_Conformal_Conic_2SP"],PARAMETER["standard_parallel_1","none"],UNIT["metre",1]]',  # noqa: E501
            'PROJCS["x",PROJECTION["Transverse_Mercator"],UNIT["metre",inf]]',
            "A[" * 5000 + "]" * 5000,
            "A[" * 5000 + 'PROJCS["x",PROJECTION["Transverse_Mercator"],UNIT["metre",1]]' + "]" * 5000,
            "PROJCS[" * 5000,
            '"' * 5000,
        ),
    )
    def test_systems(self, text):
        assert not coordinate_systems.of_definition(None, text).suits(), text[:100]

    def test_shapes(self):
        curve = b"".join(
            [
                struct.pack("<BII", 1, 10, 1),
                struct.pack("<BII", 1, 9, 1) * 3000,
                dirty.line((0, 0), (1, 0), (1, 1), (0, 0)),
            ]
        )
        for field in (5, 5.5, "text", b"", b"GP\0\1" + b"\0" * 4 + curve):
            with pytest.raises(wkb.Unreadable):
                wkb.of_package(field)

    @pytest.mark.parametrize(
        "line",
        (
            "refused 41 parcels a b at 1 1 0",
            f"refused 41 parcels a b at {DIGITS} 1 1",
            "refused 37 parcels row -1",
            "refused 50 pair 1 b",
            "refused 37 parcels row \u0661",
        ),
    )
    def test_refusals(self, line):
        assert refusal_line.read(line) is None, line

    def test_registers(self):
        """Registers of another shape: texts for years, bytes for texts, a schema that is no text, and pages that are
        none."""
        first, *others = (
            (
                "CREATE TABLE lpis_release (year); CREATE TABLE lpis_span (id, since, until); CREATE TABLE lpis_text"
                " (id, wkt);"
            ),
            "INSERT INTO lpis_release VALUES ('x'); INSERT INTO lpis_span VALUES ('a', 1, 0);",
            "INSERT INTO lpis_release VALUES (2024); INSERT INTO lpis_span VALUES ('a', 1, 'y');",
            (
                "INSERT INTO lpis_release VALUES (2024); INSERT INTO lpis_span VALUES ('a', 1, 0); INSERT INTO"
                " lpis_text VALUES ('a', x'ff');"
            ),
        )
        for number, more in enumerate(others):
            path = self.path(f"{number}.db")
            made(path, first + more)
            pytest.raises(two_years.Trouble, two_years.of_register, path)
            ledger.content_of(path)
            register_rows.Kept(path).shape(b"a")
        pytest.raises(register_rows.Unreadable, register_rows.facts, self.path("0.db"))
        whole = Path(path).read_bytes()
        for damaged in (
            whole.replace(b"CREATE TABLE lpis_span", b"CREATE \xdfTABLE lpis_spa"),
            whole[:4096] + b"\xff" * 5000,
        ):
            Path(path).write_bytes(damaged)
            pytest.raises(two_years.Trouble, two_years.of_register, path)
            pytest.raises(register_rows.Unreadable, register_rows.facts, path)
            status, told = ended_in(lambda: register_rows.Kept(path).text(b"a") and 0)
            assert (status, "cannot be read" in told) == (64, True), told

    def test_lines(self):
        """Lines that name less than their code wants, or something else, over a country."""
        self.write("country.txt", "lpis-country 1\nregion west\n")
        for line in (
            "81 lineage 73 row 1",
            "3d parcels row 1 wkt 18 at 5",
            "90",
            "93",
            "94 cert line 1",
            "96",
            "96 classes row 1",
            "40",
            "41 parcels a",
            "43",
            "45 exact a",
        ):
            for region in ("", " region west"):
                assert explanation.Explained(f"refused {line}{region}", self.folder).words, line

    def test_logs(self):
        """Lines of another shape are lines that were changed."""
        lines = [
            b"[1]",
            b"3",
            b"null",
            b'{"own": 1}',
            b'{"own": "", "before": "", "year": "x", "content": {}}',
            b'{"own": "", "before": "", "year": 1, "content": [[]]}',
            b"[" * 100_000,
            b"\xff",
            DIGITS.encode(),
        ]
        assert [fault.endswith("was changed since it was written") for fault in ledger.entries_of(lines)[1]] == [
            True
        ] * len(lines)


class TestTools(Case):
    def set_up(self):
        ring = f"{DIGITS}.000 1.000,2.000 2.000,3.000 1.000,1.000 1.000"
        self.write("parcels.csv", f'parcel,wkt\na,"POLYGON{"(" * DEEP}1 1{")" * DEEP}"\nb,"MULTIPOLYGON((({ring})))"\n')
        self.write("covers.csv", "piece,parcel,class,wkt\n")
        self.write("classes.csv", f"class,percent\nG,{'9' * 5000}\n")

    @pytest.mark.parametrize("text, told, status, word", TOOL_CASES)
    def test_cases(self, text, told, status, word):
        run = self.run_tool(text, told)
        assert (run.returncode, word in run.stdout + run.stderr, "Traceback" in run.stderr) == (status, True, False), (
            run.stdout[-500:],
            run.stderr[-500:],
        )

    def test_folder(self):
        """A folder whose name is not UTF-8."""
        odd = os.path.join(os.fsencode(self.folder), b"caf\xe9")
        os.mkdir(odd)
        for name in ("parcels.csv", "covers.csv", "classes.csv"):
            os.rename(self.path(name), os.path.join(odd, os.fsencode(name)))
        for name, rest in (
            ("report", [odd + b"/none", "--html", odd + b"/r.html", "--json", odd + b"/r.json", "--lpis", "false"]),
            ("faults", [odd + b"/f.geojson", "--html", odd + b"/f.html", "--lpis", "false"]),
        ):
            run = subprocess.run(
                [os.path.join(TOOLS, name), odd, *rest], capture_output=True, text=True, check=False, errors="replace"
            )
            assert (run.returncode in (1, 64), "Traceback" in run.stderr, "encode" in run.stderr) == (
                True,
                False,
                False,
            ), run.stderr
        assert os.path.exists(odd + b"/r.html")

    @pytest.mark.parametrize("text", ("explain --codes", "explain 43"))
    def test_output(self, text):
        """Standard output that takes nothing, or that nobody reads."""
        with open("/dev/full", "w", encoding="ascii") as full:
            run = subprocess.run(
                [os.path.join(TOOLS, text.split()[0]), *text.split()[1:]],
                stdout=full,
                stderr=subprocess.PIPE,
                text=True,
                check=False,
            )
        assert (run.returncode, run.stderr.count("\n"), "No space" in run.stderr) == (64, 1, True), run.stderr
        closed = subprocess.run(
            ["bash", "-c", f"{os.path.join(TOOLS, text)} >&-"], stderr=subprocess.PIPE, text=True, check=False
        )
        assert (closed.returncode, "closed" in closed.stderr) == (64, True), closed.stderr
        gone = subprocess.run(
            ["bash", "-c", f"{os.path.join(TOOLS, text)} | true; exit ${{PIPESTATUS[0]}}"],
            stderr=subprocess.PIPE,
            text=True,
            check=False,
        )
        assert (gone.returncode in (0, 64), gone.stderr) == (True, "")

    def test_passed_on(self):
        """What explain reads is passed on byte for byte."""
        run = subprocess.run(
            [os.path.join(TOOLS, "explain"), self.folder], input=b"x\xff\x1b y\nyes\n", capture_output=True, check=False
        )
        assert (run.stdout, b"Traceback" in run.stderr) == (b"x\xff\x1b y\nyes\n", False)


@pytest.mark.skipif(not shapely_there.python(), reason=shapely_there.LACKING)
class TestPackages(Case):
    def test_names(self):
        """A source, tables and a register in a folder whose name is not UTF-8."""
        odd = os.path.join(os.fsencode(self.folder), b"caf\xe9 ?#%20")
        os.mkdir(odd)
        dirty.make(self.path("land.gpkg"), ["clean"])
        os.rename(self.path("land.gpkg"), odd + b"/land.gpkg")
        sqlite3.connect(odd + b"/r.db").close()
        for words_of, wanted in (
            (("prepare", odd + b"/land.gpkg", odd + b"/out"), 0),
            (("country", "split", odd + b"/out", odd + b"/country"), 0),
            (("lineage", odd + b"/out", odd + b"/out", odd + b"/l.csv"), 0),
            (("year", "--verify", odd + b"/r.db"), 1),
        ):
            run = subprocess.run(
                [os.path.join(TOOLS, words_of[0]), *words_of[1:]], capture_output=True, text=True, check=False
            )
            assert (run.returncode, "decode" in run.stderr) == (wanted, False), (words_of, run.stdout, run.stderr)

    def test_schema(self):
        """A schema that is no text."""
        path = dirty.make(self.path("land.gpkg"), ["clean"])
        whole = Path(path).read_bytes()
        Path(path).write_bytes(whole.replace(b"CREATE TABLE gpkg_contents", b"CREATE \xc5TABLE gpkg_cont"))
        run = self.run_tool("prepare {0}/land.gpkg {0}/out")
        assert (run.returncode, "land.gpkg" in run.stderr) == (64, True), run.stderr

    def endless(self, name):
        """A GeoPackage whose layer of parcels is a view that never ends."""
        dirty.put(self.path(name), [], [])
        made(
            self.path(name),
            (
                f"DROP TABLE parcels; CREATE VIEW parcels AS {ENDLESS} WHERE fid < 0;"
                if name == "silent.gpkg"
                else f"DROP TABLE parcels; CREATE VIEW parcels AS {ENDLESS};"
            ),
        )
        return self.path(name)

    @pytest.mark.parametrize("name", ("silent.gpkg", "loud.gpkg"))
    def test_endless(self, name):
        self.endless(name)
        run = self.run_tool(f"prepare {{0}}/{name} {{0}}/out")
        assert (run.returncode, "a view without an end" in run.stderr) == (64, True), run.stderr

    def test_stopped(self):
        """TERM is heard while a view runs."""
        path = self.endless("silent.gpkg")
        text = (
            "from lpis.system import databases; from lpis.source import land; from lpis.system import command_line as"
            " words\nimport sys\ndatabases.STEPS = 10 ** 12\nprint('begun', flush=True)\nsys.exit(words.ended('tool',"
            f" lambda: land.read({path!r}) and 0, land.Trouble))"
        )
        run = subprocess.Popen(
            [sys.executable, "-c", text],
            cwd=PACKAGE,
            stdout=subprocess.PIPE,
            stderr=subprocess.PIPE,
            text=True,
            preexec_fn=stopping.hears_signals,
        )
        run.stdout.readline()
        stopping.until(lambda: ending_soon(run.pid), "the view runs")
        run.terminate()
        told = run.communicate(timeout=60)[1]
        assert (run.returncode, "stopped by SIGTERM" in told) == (128 + 15, True), told


def ending_soon(pid):
    """Whether a process has used half a second of a processor."""
    fields = Path(f"/proc/{pid}/stat").read_text(encoding="ascii").rpartition(")")[2].split()
    return (int(fields[11]) + int(fields[12])) / os.sysconf("SC_CLK_TCK") > 0.5


class TestSilent(Case):
    """What cannot be read is no absent table and no shorter one."""

    @pytest.fixture
    def narrow(self):
        """No field is longer than 100,000 bytes."""
        before = csv.field_size_limit(100_000)
        yield
        csv.field_size_limit(before)

    def test_tables(self, narrow):
        path = self.write("parcels.csv", "parcel,wkt\na,POLYGON EMPTY\n" + "b" * 200_000 + ",POLYGON EMPTY\n")
        for read, kind in (
            (lambda: byte_tables.Table(path, "parcels"), OSError),
            (
                lambda: list(table_streams.records(table_streams.Folder(self.folder).lines("parcels"))),
                table_streams.Trouble,
            ),
        ):
            with pytest.raises(kind, match="cannot be read after line"):
                read()

    def test_unreadable(self):
        """A folder in the place of a table: the report and the words about a country say so."""
        self.write("parcels.csv", "parcel,wkt\n")
        self.write("classes.csv", "class,percent\n")
        os.mkdir(self.path("covers.csv"))
        pytest.raises(OSError, release_report.read, self.folder)
        os.mkdir(self.path("west"))
        os.mkdir(self.path("west", "parcels.csv"))
        self.write("country.txt", "lpis-country 1\nregion west\n")
        pytest.raises(OSError, list, country_explanation.Together(self.folder, ["west"], "parcels").rows())
        run = self.run_tool("explain {0}", "refused 93 parcel a region east\n")
        assert "region west cannot be looked at" in run.stdout
        os.mkdir(self.path("identifiers.csv"))
        run = self.run_tool("explain {0} --name a")
        assert (run.returncode, run.stdout) == (64, ""), run.stderr

    def test_balance(self):
        """Numbers of a balance that are none, in words and on the page."""
        rows = [
            "covers,GRASS,1e999,nan,0,0,9,x",
            f"parcels,,{DIGITS},inf,,,,",
            "covers,\x1b[1m,1,1",
            "other,a,1,2,3,4,5,6",
        ]
        self.write(
            "balance.csv",
            "layer,class,source_m2,mended_m2,left_out_m2,settled_m2,tables_m2,unaccounted_m2\n"
            + "\n".join(rows)
            + "\n",
        )
        self.write("report.csv", f"kind,layer,area_m2,stops\nlost,parcels,{DIGITS},1\nlost,parcels\n")
        found = origin.facts(self.folder, [])
        assert origin.balance_lines(found)[-1].startswith("the balance does not add up")
        assert "\n" not in origin.brief(self.folder)
        html_page.page(
            "x",
            "no",
            False,
            [],
            None,
            [
                html_page.Table("b", origin.BALANCE, origin.balance_rows(found)),
                html_page.Table("r", origin.COLUMNS, origin.rows(found)),
            ],
        )

    def test_no_counts(self):
        """A country without the counts of a source is not compared, and that is no success."""
        spare.write_script("#!/bin/sh\necho lpis 0\necho yes\n", self.path("lpis"))
        for counts, status in ((None, 1), ("", 1), ("parcels 1", 1)):
            if counts is not None:
                self.write("split.txt", counts)
            run = self.run_tool("country check {0} --lpis {0}/lpis")
            assert (run.returncode, "compared" in run.stderr or "the source had" in run.stderr) == (
                status,
                True,
            ), run.stderr


class TestFiles(Case):
    def test_links(self):
        """A link is replaced, and what it leads to stays; the mode of a file stays too."""
        self.write("kept", "kept")
        for name, mode in (("a", None), ("b", 0o600), ("c", 0o664)):
            if mode is None:
                os.symlink(self.path("kept"), self.path(name))
            else:
                self.write(name, "old")
                os.chmod(self.path(name), mode)
            with files.anew(self.path(name)) as file:
                file.write("new")
            assert (self.read(name), os.path.islink(self.path(name))) == ("new", False)
            assert stat.S_IMODE(os.stat(self.path(name)).st_mode) == (
                mode or stat.S_IMODE(os.stat(self.path("kept")).st_mode)
            )
        os.symlink(self.path("kept"), self.path("d"))
        files.fresh(self.path("d")).close()
        os.symlink(self.path("kept"), self.path("e"))
        pytest.raises(OSError, files.more, self.path("e"))
        assert self.read("kept") == "kept"

    def test_broken(self):
        """Where it breaks off, what stood there stands, and nothing is beside it."""
        self.write("a", "old")
        with pytest.raises(ValueError), files.anew(self.path("a")) as file:
            file.write("half")
            raise ValueError
        assert (self.read("a"), os.listdir(self.folder)) == ("old", ["a"])
        with files.anew("/dev/null") as file:
            file.write("gone")

    def test_devices(self):
        """What can't be renamed over is written to; a file in memory is a file."""
        for path, wanted in (
            ("/dev/null", True),
            ("/dev/stdout", True),
            ("/dev/fd/1", True),
            ("/proc/self/fd/1", True),
            ("/dev/shm/lpis-none/a.csv", False),
            (self.path("a"), False),
            (self.folder, True),
        ):
            assert files.is_device(path) == wanted, path

    def test_said(self):
        """What the scripts say has no letters that move the cursor."""
        run = subprocess.run(
            ["bash", "-c", f". {os.path.join(TOOLS, 'run.sh')}; say $'a\\x1b[31mb\\nc \u00fc'"],
            capture_output=True,
            check=False,
            env={**os.environ, "LC_ALL": "C.UTF-8"},
        )
        assert run.stderr.decode() == "lpis: a?[31mb?c \u00fc\n"

    def test_printed(self):
        for text, wanted in PRINTED:
            into = io.BytesIO()
            printed = printing.Printed(into, encoding="utf-8", errors="backslashreplace", newline="")
            printed.write(text)
            printed.flush()
            assert into.getvalue().decode() == wanted
        assert (printing.readable("a\nb"), printing.readable("ab"), printing.escaped("a\tb\U000e0001")) == (
            "'a\\nb'",
            "ab",
            "a\\tb\\U000e0001",
        )
