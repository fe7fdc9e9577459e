"""Tests what the guide tells to do with a register beside lpis: a backup while another process uses it, and the queries
of tools/audit.sql. Wants the system's sqlite3. The register is made by SQLite as docs/FORMATS.md has it, and by
`lpis` where that is built or named by LPIS."""

import hashlib
import json
import os
import re
import shutil
import sqlite3
import subprocess
import sys
from pathlib import Path

import pytest
from lpis_helpers.registers import MARK, TABLES, TEXT, made, rows
from lpis_helpers.calls import ended_with, records, tool
from lpis_helpers.places import BUILT, PACKAGE, TOOLS, TOP
from lpis_helpers.spare import Spare
from lpis_helpers import dirty
from lpis.system import printing, shapely_there

SECOND = (
    TABLES[2]
    + """
INSERT INTO lpis_format VALUES (1, 2);
INSERT INTO lpis_release VALUES (2024), (2025), (2027);
INSERT INTO lpis_span VALUES ('A', 2024, 2024), ('B', 2025, 0), ('C', 2025, 2025), ('D', 2024, 2025), ('E', 2027, 0);
INSERT INTO lpis_row VALUES (2025, 0, 'A', 'B'), (2025, 1, 'A', 'C'), (2027, 0, 'C', 'E'), (2027, 1, 'D', '');
"""
)
THIRD = (
    TEXT
    + MARK
    + """
UPDATE lpis_format SET version = 3;
INSERT INTO lpis_text VALUES ('B', 'POLYGON((0.000 0.000,1.000 0.000,1.000 1.000,0.000 0.000))');
INSERT INTO lpis_mark VALUES (2025, 0), (2025, 1);
"""
)


def asked(path, queries="audit.sql"):
    """What the queries print, line by line."""
    with open(os.path.join(TOOLS, queries), encoding="utf-8") as file:
        run = subprocess.run(["sqlite3", "-readonly", path], stdin=file, capture_output=True, text=True, check=False)
    assert run.returncode == 0 and not run.stderr, run.stderr
    return [line for line in run.stdout.splitlines() if line and not line.endswith(":")]


@pytest.mark.skipif(not shutil.which("sqlite3"), reason="no sqlite3 (Debian: sqlite3)")
class TestRegisters(Spare):
    def set_up(self):
        self.register = self.path("register.db")

    @pytest.mark.parametrize("scripts, version", (((SECOND,), "2"), ((SECOND, THIRD), "3")))
    def test_audit(self, scripts, version):
        path = made(self.register, *scripts)
        assert asked(path) == [
            version,
            "ok",
            "2024|2|2|0|0",
            "2025|3|2|1|2",
            "2027|2|1|2|2",
            "2025|0|0|1",
            "2027|1|1|0",
            "2025|A|2",
        ]
        os.remove(path)

    def test_audit_shapes(self):
        path = made(self.register, SECOND, THIRD)
        assert asked(path, "audit_shapes.sql") == ["1|2|58", "B|58", "2025|2"]
        made(path, "INSERT INTO lpis_text VALUES ('A', 'x')")
        assert asked(path, "audit_shapes.sql") == ["2|2|59", "A", "B|58", "A|1", "2025|2"]

    def test_faults(self):
        path = made(
            self.register,
            SECOND,
            "DELETE FROM lpis_row WHERE year = 2027; INSERT INTO lpis_row VALUES (2025, 2, 'B', 'X')",
        )
        assert asked(path)[-5:] == [
            "2025|A|2",
            "dropped without a row|C|2025",
            "dropped without a row|D|2025",
            "no such successor|X|2025",
            "not dropped|B|2025",
        ]

    def backup(self, path):
        """The command as the guide has it, on other files."""
        command = re.search(
            r"^ +(sqlite3 register\.db .*\.backup.*?)\s*(?:#.*)?$",
            Path(TOP, "docs", "GUIDE.md").read_text(encoding="utf-8"),
            re.MULTILINE,
        )[1]
        copy = os.path.join(self.folder, "copy.db")
        return (
            subprocess.run(
                ["bash", "-c", command.replace("register.db", path).replace("register-2026.db", copy)],
                capture_output=True,
                text=True,
                check=False,
            ),
            copy,
        )

    def test_backup(self):
        path = made(self.register, SECOND)
        base = sqlite3.connect(path)
        base.execute("BEGIN")
        base.execute("SELECT * FROM lpis_row").fetchall()  # another process reads
        run, copy = self.backup(path)
        assert (run.returncode, run.stderr) == (0, "")
        base.rollback()
        assert asked(copy) == asked(path)
        writer = subprocess.Popen(
            [
                sys.executable,
                "-c",
                (
                    "import sqlite3, sys, time; b = sqlite3.connect(sys.argv[1]); b.execute('BEGIN EXCLUSIVE');"
                    " b.execute(\"INSERT INTO lpis_span VALUES ('Z', 2027, 0)\"); print(1, flush=True); time.sleep(2);"
                    " b.commit()"
                ),
                path,
            ],
            stdout=subprocess.PIPE,
        )
        writer.stdout.readline()
        run, copy = self.backup(path)  # another process writes: the backup waits for it
        writer.wait()
        writer.stdout.close()
        assert (run.returncode, run.stderr) == (0, "")
        assert rows(copy, "SELECT count(*) FROM lpis_span WHERE id = 'Z'") == [(1,)]

    def lines_of_the_guide(self):
        """The queries of the guide, line by line, and what it advises for another user's register."""
        page = Path(TOP, "docs", "GUIDE.md").read_text(encoding="utf-8")
        lines = [
            line.strip()
            for line in page.split("### Reading the register")[1].split("###")[0].splitlines()
            if line.startswith("    sqlite3 -readonly")
        ]
        advice = re.search(r"`attempt to write a readonly database`: (db=\S+)$", page, re.MULTILINE)[1]
        assert len(lines) > 8
        return [line.replace("<tools/", f"<{TOOLS}/").replace(">kept.csv", "") for line in lines], advice.replace(
            "register.db", self.register
        )

    def asked_as(self, line, setting, *before):
        return subprocess.run(
            [*before, "bash", "-c", f"{setting}; {line}"], capture_output=True, text=True, check=False, cwd="/"
        )

    def test_queries_of_the_guide(self):
        """As the owner, and as somebody who may not write beside the register."""
        made(made(self.register, SECOND, THIRD), "PRAGMA journal_mode = WAL")
        os.chmod(self.folder, 0o755)
        before = ["setpriv", "--reuid=65534", "--regid=65534", "--clear-groups"] if os.geteuid() == 0 else []
        lines, advice = self.lines_of_the_guide()
        if not before:
            os.chmod(self.folder, 0o555)
        assert "readonly database" in self.asked_as(lines[0], f"db={self.register}", *before).stderr
        if not before or os.stat(TOOLS).st_mode & 0o5 == 5:  # as the tools read it
            wanted = (
                "import sys; sys.path.insert(0, sys.argv[1]); from lpis.formats import register_rows as registers;"
                " print(registers.facts(sys.argv[2])['years'])"
            )
            run = subprocess.run(
                [*before, sys.executable, "-B", "-c", wanted, PACKAGE, self.register],
                capture_output=True,
                text=True,
                check=False,
                cwd="/",
            )
            assert (run.stdout, run.stderr) == ("[2024, 2025, 2027]\n", "")
        others = [self.asked_as(line, advice, *before) for line in lines]
        assert [(run.returncode, run.stderr) for run in others] == [(0, "")] * len(lines)
        os.chmod(self.folder, 0o755)
        assert [self.asked_as(line, f"db={self.register}").stdout for line in lines] == [run.stdout for run in others]

    @pytest.mark.skipif(not BUILT, reason="the program is not built")
    def test_of_the_program(self):
        for year in ("2024", "2025"):
            folder, cert = os.path.join(TOP, "examples", "years", year), os.path.join(self.folder, "cert.txt")
            for words in (["cut", folder, cert], ["publish", self.register, year, folder, cert]):
                subprocess.run([BUILT, *words], check=True, capture_output=True)
        lines = asked(self.register)
        assert lines[1:4] == ["ok", "2024|5|5|0|0", "2025|4|3|4|5"]
        assert lines[-1] == "2025|valley|2"
        run, copy = self.backup(self.register)
        assert (run.returncode, run.stderr) == (0, "")
        assert asked(copy) == lines
        found = [
            subprocess.run([BUILT, "trace", path, "north"], capture_output=True, text=True, check=False).stdout
            for path in (self.register, copy)
        ]
        assert found == ["north-1\nnorth-2\n"] * 2


@pytest.mark.skipif(not (BUILT and shapely_there.python()), reason="the program is not built, or Shapely is not there")
class TestBeforeTheTables(Spare):
    """A report names and sums what was left out before the tables that have the yes."""

    def set_up(self):
        self.out = self.path("release")
        land = dirty.make(self.path("land.gpkg"), ["null", "twin", "bare", "blank", "wide"])
        ended_with(0, tool("prepare", land, self.out, "--accept"))

    def report(self):
        run = ended_with(
            0,
            tool(
                "report",
                self.out,
                "--json",
                self.path("r.json"),
                "--html",
                self.path("r.html"),
                "--lpis",
                BUILT,
            ),
        )
        told = json.loads(Path(self.path("r.json")).read_text(encoding="utf-8"))
        return run.stdout, told, Path(self.path("r.html")).read_text(encoding="utf-8")

    def test_beside(self):
        text, told, html = self.report()
        gone = [
            row
            for row in records(self.out, "report.csv")
            if row["kind"] in ("lost", "left out") and row["layer"] == "parcels"
        ]
        area = sum(float(row["area_m2"]) for row in gone)
        assert (len(gone), area) == (2, 200.0)
        assert "left out of the source: 2 parcels, 0.0200 ha; 3 pieces, 0.0100 ha" in text
        assert "left out of the source: 2 parcels, 0.0200 ha; 3 pieces, 0.0100 ha" in html
        assert told["origin"]["gone"][0] == {"layer": "parcels", "rows": 2, "area": "200.000"}
        assert told["origin"]["faults"] == []
        # rows of several kinds, and of all pieces beside each class: no sum of them is any land
        for title in ("Before the tables", "Balance of land"):
            assert "in all" not in html.split(f"<h2>{title}</h2>")[1].split("</thead>")[0], title
        assert "in all" in html.split("<h2>Classes</h2>")[1].split("</thead>")[0]
        changed = {row["layer"]: row for row in told["origin"]["report"] if row["kind"] == "changed"}
        wanted = (
            f"{printing.counted(changed[layer]['stopping'], word)},"
            f" {float(changed[layer]['area_of_stopping']) / 10000:.4f} ha"
            for layer, word in (("covers", "piece"), ("parcels", "parcel"))
        )
        assert "changed by more than rounding: " + "; ".join(wanted) in text
        for name in ("prepared.csv", "report.csv", "balance.csv", "identifiers.csv"):
            digest = hashlib.sha256(Path(self.out, name).read_bytes()).hexdigest()
            assert (told["files"][name]["sha256"], digest in html) == (digest, True), name

    def test_said(self):
        """The script says in one line what was left out, and `tools/year` ends with it; where nothing was, nothing
        is said."""
        words = "left out of the source: 2 parcels, 0.0200 ha; 3 pieces, 0.0100 ha"
        command = [
            "bash",
            "-c",
            f'. {os.path.join(TOOLS, "run.sh")}; run_program "$@"',
            "_",
            os.path.dirname(BUILT),
            "check",
            self.out,
        ]
        run = subprocess.run(command, capture_output=True, text=True, check=False)
        told = [line for line in run.stderr.splitlines() if "left out" in line]
        assert (run.returncode, len(told), words in told[0], "accepted by --accept" in told[0]) == (
            0,
            1,
            True,
            True,
        ), run.stderr
        assert "left out" not in run.stdout
        run = tool("year", self.path("r.db"), "2026", self.out, "--new", "--lpis", BUILT)
        assert (run.returncode, run.stdout.splitlines()[-4:-2]) == (
            0,
            ["the balance adds up to the square metre", words],
        ), (
            run.stdout + run.stderr
        )
        assert re.search(
            "^accepted by --accept: [0-9]+; [0-9]+ rows of report.csv: ([0-9]+ [a-z ]+, )*[0-9]+ [a-z ]+$",
            run.stdout.splitlines()[-1],
        )
        for name in ("prepared.csv", "report.csv"):
            Path(self.out, name).write_text("kind,layer,stops\nkept,covers,0\n", encoding="ascii")
        assert "left out" not in subprocess.run(command, capture_output=True, text=True, check=False).stderr

    def test_of_other_tables(self):
        path = os.path.join(self.out, "balance.csv")
        text = Path(path).read_text(encoding="utf-8")
        Path(path).write_text(
            re.sub(r"covers,GRASS,(.*),([0-9.]+),0.000", r"covers,GRASS,\1,9.000,0.000", text), encoding="utf-8"
        )
        assert (
            "balance.csv, report.csv and prepared.csv are of other tables: GRASS has 9.000 m2 there" in self.report()[0]
        )

    def test_nothing_beside(self):
        for name in ("prepared.csv", "findings.csv", "report.csv", "report.geojson", "balance.csv", "identifiers.csv"):
            os.remove(os.path.join(self.out, name))
        text, told, html = self.report()
        assert (told["origin"], "left out" in text, "no file with the tables says" in html) == (None, False, True)
