"""Tests tools/country prepare: a source with every kind of dirt against tools/prepare, its regions by `lpis country`
where the program is built or named by LPIS. Wants Shapely."""

import argparse
import contextlib
import csv
import os
import re
import resource
import shutil
import signal
import subprocess
import time
from pathlib import Path
from unittest import mock

import pytest
from lpis_helpers.registers import made
from lpis_helpers.calls import ended_with, records, run, tool
from lpis_helpers.places import BUILT, TOOLS
from lpis_helpers import dirty
from lpis_helpers.terminal import Terminal
from lpis_helpers.cells_case import Case, read, write
from lpis.country import engines, jobs
from lpis.system import shapely_there

if shapely_there.is_there():
    from lpis.rounding import coverage
    from lpis.source import land as land_module
PARCELS = 110  # of the dirty source
TABLES = ("parcels.csv", "covers.csv", "classes.csv")
REPORTS = (
    "prepared.csv",
    "findings.gpkg",
    "identifiers.csv",
    "report.csv",
    "report.geojson",
    "balance.csv",
    "classes.csv",
)


def rows_of(folder, table, regions=None):
    """The rows of a table, or of that of all regions, each once."""
    names = regions if regions is not None else [""]
    return sorted({row for name in names for row in read(folder, name, f"{table}.csv").splitlines()[1:]})


def assert_same(one, other, *names):
    """Files of two folders are the same."""
    for name in names:
        assert Path(one, name).read_bytes() == Path(other, name).read_bytes(), name


def workers_of(folder):
    """The words of each process that name something in a folder."""
    found = []
    for words in Path("/proc").glob("[0-9]*/cmdline"):
        with contextlib.suppress(OSError):
            found.append(words.read_bytes())
    return [words for words in found if os.fsencode(folder) in words]


def stopping(folder):
    """The rows of findings.csv, but for what is settled without asking."""
    return [row for row in records(folder, "findings.csv") if row["state"] != "told"]


class TestSources(Case):
    """A source with every kind of dirt, prepared as one release and as a country."""

    @pytest.fixture(autouse=True, scope="class")
    def prepared(self, request, tmp_path_factory):
        cls, spare = request.cls, str(tmp_path_factory.mktemp("country"))
        cls.land = dirty.make_large(os.path.join(spare, "land.gpkg"), PARCELS)
        cls.whole, cls.country = os.path.join(spare, "whole"), os.path.join(spare, "country")
        cls.runs = {
            "refused": (tool("prepare", cls.land, cls.whole), tool("country", "prepare", cls.land, cls.country))
        }
        cls.refused = [sorted(os.listdir(folder)) for folder in (cls.whole, cls.country)]
        cls.findings = [read(folder, "prepared.csv") for folder in (cls.whole, cls.country)]
        cls.rows = [stopping(folder) for folder in (cls.whole, cls.country)]
        cls.polygons = [Path(folder, "findings.gpkg").read_bytes() for folder in (cls.whole, cls.country)]
        cls.runs["accepted"] = tool("prepare", cls.land, cls.whole, "--accept"), tool(
            "country",
            "prepare",
            cls.land,
            cls.country,
            "--accept",
            "--parcels",
            30,
            "--tables",
            f"{cls.country}-tables",
        )
        cls.regions = (
            re.findall(r"region (\w+)", read(cls.country, "country.txt"))
            if cls.runs["accepted"][1].returncode == 0
            else []
        )

    def test_refused(self):
        """Nothing is written but what was found, and that is what tools/prepare finds."""
        one, other = self.runs["refused"]
        assert (one.returncode, other.returncode) == (1, 1), other.stdout + other.stderr
        assert self.findings[0] == self.findings[1]
        assert self.polygons[0] == self.polygons[1]
        whole, country = ([name for name in found if not name.startswith(".")] for found in self.refused)
        assert whole == country
        assert "mend the source, or take the tables as they are by --accept" in other.stdout
        assert any(
            row["kind"] == "gap" and re.search(r"; it comes from piece \S+ \(fid \d+, stranger\)", row["words"])
            for row in self.rows[1]
        )

    def test_one_round(self):
        """The run that reports tells all that the run that accepts takes, what comes from others too; what it found is
        kept beside what the accepting run writes, under a number, and once."""
        told = re.search(
            r"(?m)^to look at: (\d+) \(.*, and (\d+) that come from others: ", self.runs["refused"][1].stdout
        )
        accepted = re.search(
            r"(?m)^to look at: (\d+), accepted, and (\d+) that come from others$", self.runs["accepted"][1].stdout
        )
        assert told.groups() == accepted.groups()
        assert self.rows[0] == self.rows[1] and len(self.rows[0]) == sum(map(int, told.groups()))
        later = [stopping(folder) for folder in (self.whole, self.country)]
        assert later[0] == later[1]
        for one, other in zip(self.rows[0], later[0]):
            assert (one["number"], one["comes_from"], one["place"]) == (
                other["number"],
                other["comes_from"],
                other["place"],
            )
            assert (one["state"], other["state"]) == ("open", "accepted")
        for folder, findings, ran in zip((self.whole, self.country), self.findings, self.runs["accepted"]):
            assert read(folder, "prepared-1.csv") == findings
            assert f"{folder}/prepared.csv of the last run is {folder}/prepared-1.csv now\n" in ran.stderr
        for _ in range(2):
            assert tool("prepare", self.land, self.path("again")).returncode == 1
        assert [name for name in os.listdir(self.path("again")) if name.startswith("prepared")] == ["prepared.csv"]

    def test_taken_up(self):
        """The run that accepts reads no row again, and takes up what was rounded without looking at a cell."""
        told = self.runs["accepted"][1].stderr
        assert "are taken from the last run, which rounded them\n" in told
        assert "rounding" not in told
        cells = os.listdir(os.path.join(self.country, ".cells"))
        assert {"cells.json", "gaps.json"} <= set(cells)
        assert not ({"plan.json", "parts", "count", "0.cell"} & set(cells))

    def test_changed(self):
        """A source of which a row changed: how many cells are as they were; and other widths between parcels look at
        no cell."""
        folder, source = shutil.copytree(self.country, self.path("country")), shutil.copy(
            self.land, self.path("land.gpkg")
        )
        made(source, "DELETE FROM covers WHERE fid = 1")
        ended = ended_with(0, tool("country", "prepare", source, folder, "--accept", "--parcels", 30))
        assert re.search(r"cells as they were: \d+ of \d+, rounded: 1\n", ended.stderr)
        again = tool("country", "prepare", source, folder, "--accept", "--parcels", 30, "--between", 2)
        assert (again.returncode, "are taken from the last run, which rounded them\n" in again.stderr) == (
            0,
            True,
        ), again.stderr
        for number, (kind, status) in enumerate((("jsonl", 0), ("part", 64)), 2):
            for path in Path(folder, ".cells").glob(f"*.{kind}"):
                path.write_text("x", encoding="ascii")
            made(source, f"DELETE FROM covers WHERE fid = {number}")
            words = ("country", "prepare", source, folder, "--accept", "--parcels", 30, "--between", 2)
            assert ("is not as it was written" in ended_with(status, tool(*words)).stderr) == bool(status)

    def test_corrected(self):
        """Of a piece that gets another class its part is read, its cell is rounded, and one table is another: no
        other region is cut again."""
        folder, source = shutil.copytree(self.country, self.path("country")), shutil.copy(
            self.land, self.path("land.gpkg")
        )
        parts = {path.name for path in Path(folder, ".cells").glob("*.part")}
        pieces = [row["piece"] for row in records(folder, self.regions[0], "covers.csv") if row["class"] == "TREES"]
        piece = next(name for name in pieces if re.fullmatch(r"P\d+\.2", name))
        made(source, f"UPDATE covers SET class = 'WATER' WHERE piece = '{piece}'")
        ended = ended_with(0, tool("country", "prepare", source, folder, "--accept", "--parcels", 30))
        assert len({path.name for path in Path(folder, ".cells").glob("*.part")} - parts) == 1
        assert re.search(r"cells as they were: \d+ of \d+, rounded: 1\n", ended.stderr)
        for region in self.regions:
            for table in ("parcels.csv", "covers.csv", "classes.csv"):
                path, before = Path(folder, region, table), Path(self.country, region, table)
                is_same = path.read_bytes() == before.read_bytes()
                assert is_same == (path.stat().st_mtime_ns == before.stat().st_mtime_ns)
                has_piece = table == "covers.csv" and f"{piece}," in path.read_text(encoding="utf-8")
                assert is_same != has_piece, path

    def test_as_one_release(self):
        one, other = self.runs["accepted"]
        assert (one.returncode, other.returncode) == (0, 0), other.stdout + other.stderr
        assert len(self.regions) > 3
        for name in ("parcels", "covers"):
            assert rows_of(self.country, name, self.regions) == rows_of(self.whole, name)
        assert_same(self.country, self.whole, *REPORTS)
        assert_same(f"{self.country}-tables", self.whole, *TABLES)

    def test_tables(self):
        """A folder of tables goes into the store as it is read, and gives what tools/prepare makes of it."""
        source, whole, country, tables = map(self.path, ("source", "whole", "country", "tables"))
        os.mkdir(source)
        for name, layer in land_module.read(self.land, wanted=("parcels", "covers", "classes")).items():
            with open(os.path.join(source, f"{name}.csv"), "w", newline="", encoding="utf-8") as file:
                table = csv.writer(file)
                table.writerow([*land_module.COLUMNS[name], *(["wkt"] if name != "classes" else [])])
                for row in layer.rows:
                    shape = (
                        [f"SRID=25832;{coverage.shape_of(row.found).wkt}" if row.found else ""]
                        if name != "classes"
                        else []
                    )
                    table.writerow([*map(row.fields.get, land_module.COLUMNS[name]), *shape])
        one, other = tool("prepare", source, whole, "--accept"), tool(
            "country", "prepare", source, country, "--accept", "--tables", tables
        )
        assert (one.returncode, other.returncode) == (0, 0), other.stdout + other.stderr
        assert_same(country, whole, *REPORTS)
        assert_same(tables, whole, *TABLES)

    @pytest.mark.skipif(not BUILT, reason="the program is not built")
    def test_yes_and_no(self):
        """The country is a yes; with a corner of a guest a millimetre elsewhere in one region it is refused."""
        folder = shutil.copytree(self.country, self.path("country"))
        assert tool("country", "cut", folder, "--lpis", BUILT).returncode == 0
        checked = tool("country", "check", folder, "--lpis", BUILT)
        assert (checked.returncode, checked.stdout.splitlines()[-1]) == (0, "yes"), checked.stdout + checked.stderr
        places = {}
        for region in self.regions:
            for row in read(folder, region, "parcels.csv").splitlines()[1:]:
                places.setdefault(row.split(",")[0], []).append(region)
        guest = next(name for name, found in places.items() if len(found) > 1)
        for name in ("parcels", "covers"):
            path = os.path.join(folder, places[guest][0], f"{name}.csv")
            text = "".join(self.moved(line) if guest in line else line for line in read(path).splitlines(keepends=True))
            Path(path).write_text(text, encoding="utf-8")
        tool("country", "cut", folder, "--lpis", BUILT)
        assert tool("country", "check", folder, "--lpis", BUILT).returncode != 0

    @staticmethod
    def moved(line):
        """A row whose eastings are a millimetre greater."""
        return re.sub(
            r"([(,])(\d+)\.(\d{3}) ",
            lambda found: (
                f"{found[1]}{(int(found[2] + found[3]) + 1) // 1000}.{(int(found[2] + found[3]) + 1) % 1000:03} "
            ),
            line,
        )

    def test_again(self):
        """A second run changes no file of a region, and rounds nothing."""
        folder = shutil.copytree(self.country, self.path("country"))
        cells = {
            name: os.stat(os.path.join(folder, ".cells", name)).st_mtime_ns
            for name in os.listdir(os.path.join(folder, ".cells"))
        }
        again = tool("country", "prepare", self.land, folder, "--accept", "--parcels", 30)
        assert (again.returncode, "files changed 0 " in again.stdout.splitlines()[-1]) == (0, True), (
            again.stdout + again.stderr
        )
        assert {
            name: os.stat(os.path.join(folder, ".cells", name)).st_mtime_ns
            for name in os.listdir(os.path.join(folder, ".cells"))
        } == cells

    def assert_as_before(self, folder):
        """A country has the bytes of that which was accepted."""
        of_regions = [
            f"{region}/{table}.csv" for region in self.regions for table in ("parcels", "covers", "classes", "lineage")
        ]
        assert_same(folder, self.country, *REPORTS, "country.txt", "split.txt", *of_regions)

    def killed(self, folder, *words):
        """Kills a run that rounds, with all that it began, while another one is kept away: no table is there then,
        and the next run, which is answered, has the same bytes."""
        command = [os.path.join(TOOLS, "country"), "prepare", self.land, folder, "--accept", "--parcels", "30", *words]
        with Terminal() as terminal, subprocess.Popen(
            command, stdout=subprocess.DEVNULL, stderr=terminal.end, start_new_session=True
        ) as started:
            for line in terminal.handed_on().parts():
                if "rounding" in line:
                    os.killpg(started.pid, signal.SIGSTOP)
                    assert f"another run works in {folder}" in ended_with(64, run(*command)).stderr
                    os.killpg(started.pid, signal.SIGKILL)
                    break
        assert not [name for name in os.listdir(folder) if re.fullmatch(r"r\d+|country.txt|report.*", name)]
        again = ended_with(0, run(*command))
        assert not [name for name in os.listdir(folder) if name.startswith((".prepare", ".source"))]
        self.assert_as_before(folder)
        return again

    def test_killed(self):
        self.killed(self.path("country"))

    def test_full_disk(self):
        """Where no file may grow over a size there is no table and nothing half, and the next run has the same
        bytes."""
        folder = self.path("country")
        words = [os.path.join(TOOLS, "country"), "prepare", self.land, folder, "--accept", "--parcels", "30"]
        for most in (50_000, 150_000):
            ended = subprocess.run(
                words,
                capture_output=True,
                text=True,
                check=False,
                preexec_fn=lambda most=most: resource.setrlimit(resource.RLIMIT_FSIZE, (most, most)),
            )
            assert (ended.returncode, "Traceback" in ended.stderr) == (64, False), ended.stdout + ended.stderr
            assert [name for name in os.listdir(folder) if not name.startswith(".")] == []
            assert [
                name
                for name in os.listdir(os.path.join(folder, ".cells"))
                if name.endswith(".new") or name == "rows.db"
            ] == []
        assert tool("country", "prepare", self.land, folder, "--accept", "--parcels", 30).returncode == 0
        self.assert_as_before(folder)

    def test_stopped(self):
        """A signal ends the workers too, and leaves no folder of its own."""
        folder = self.path("country")
        command = [os.path.join(TOOLS, "country"), "prepare", self.land, folder, "--accept", "--workers", "2"]
        with Terminal() as terminal, subprocess.Popen(
            command, stdout=subprocess.DEVNULL, stderr=terminal.end
        ) as started:
            for line in terminal.handed_on().parts():
                if "rounding" in line:
                    started.terminate()
        assert started.returncode == 128 + signal.SIGTERM
        assert not [name for name in os.listdir(folder) if name.startswith(".prepare")]
        last = time.monotonic() + 10
        while workers_of(folder) and time.monotonic() < last:
            time.sleep(0.05)
        assert workers_of(folder) == []

    @pytest.mark.long
    @pytest.mark.skipif(not shutil.which("snakemake"), reason="there is no snakemake")
    def test_snakemake(self):
        """The same bytes by Snakemake: where a run before was killed, and where the folder has files that would be
        run if they were taken."""
        folder, hit = self.path("country"), self.path("hit")
        os.makedirs(os.path.join(folder, "profiles", "default"))
        for name in ("sitecustomize", "snakemake", "yaml", "shlex", "lpis"):
            write(f"import os\nos.mkdir({hit!r})\n", folder, f"{name}.py")
        write(f"config: [hit]\ncluster: touch {hit} && bash\njobs: 1\n", folder, "profiles", "default", "config.yaml")
        write(f"import os\nos.mkdir({hit!r})\n", folder, "Snakefile")
        assert "(100%) done" in self.killed(folder, "--snakemake").stderr
        assert not os.path.exists(hit)

    def test_words(self):
        shape = dirty.polygon(dirty.box(0, 0))
        bare = dirty.put(self.path("bare.gpkg"), [("A", shape)], [("P", "A", "GRASS", shape)], ())
        fine = dirty.put(self.path("fine.gpkg"), [("A", shape)], [("P", "A", "GRASS", shape)])
        far, wrong = os.path.join(self.folder, "far"), os.path.join(self.folder, "wrong")
        for folder, x, text in (
            (far, 9, "POLYGON(({0} 1,{0} 2,8 2,{0} 1))"),
            (wrong, 9, "POLYGON(({0}.0001 1,{0} 2,8 2,{0}.0001 1))"),
        ):
            os.mkdir(folder)
            for name, row in (("parcels", "parcel,wkt\nA"), ("covers", "piece,parcel,class,wkt\nP,A,GRASS")):
                Path(folder, f"{name}.csv").write_text(f'{row},"{text.format(x)}"\n', encoding="ascii")
        for words, status, told in (
            ((bare, self.path("out"), "--previous", self.path("none")), 1, "has no table covers.csv of last year"),
            ((fine, self.path("out"), "--previous", far), 64, "is it another area"),
            (
                (fine, self.path("out"), "--previous", wrong),
                64,
                "covers.csv row 1: P: its wkt is no polygon in millimetres",
            ),
            ((bare, self.path("out")), 1, "there is no table of classes"),
            ((self.path("none.gpkg"), self.path("out")), 64, "none.gpkg"),
            ((bare, self.path("out"), "--parcels", "0"), 64, "limits are 1 or more"),
            ((bare, self.path("out"), "--name", "x"), 64, "--name is"),
            ((bare, self.path("out"), "--workers", "-1"), 64, "--workers is"),
            ((bare, self.path("out"), "--tables", self.path("out")), 64, "--tables names"),
            ((bare, self.path("out"), "--previous", far, "--tables", far), 64, "--tables names"),
            ((bare, self.path("out"), "--tables", self.path("out/r0001")), 64, "--tables names"),
            ((bare, far, "--previous", far), 64, "is last year's folder"),
        ):
            ended = tool("country", "prepare", *words)
            assert (ended.returncode, told in ended.stdout + ended.stderr, "Traceback" in ended.stderr) == (
                status,
                True,
                False,
            ), (
                ended.stdout + ended.stderr
            )


@pytest.mark.parametrize("workers, count, here", ((None, 1, True), (None, 2, True), (None, 3, False), (1, 1, False)))
def test_few_jobs_are_done_here(tmp_path, workers, count, here):
    """No process is begun for one or two, unless it is asked for."""
    words = argparse.Namespace(workers=workers, snakemake=False, profile=None)
    with mock.patch.object(jobs.Worker, "do", lambda self, kind, number: f"{kind} {number}"), mock.patch.object(
        jobs, "do_all", lambda *words: ["in others"]
    ):
        assert engines.prepared(words, str(tmp_path), "cell", [None] * count) == (
            [f"cell {number}" for number in range(count)] if here else ["in others"]
        )
