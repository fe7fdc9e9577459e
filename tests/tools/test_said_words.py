"""Tests that the script ./lpis puts a refusal into words on standard error, where that is a terminal or --explain is
given, and that what the program prints is the same byte for byte. Wants the program."""

import os
import pty
import shlex
import subprocess

import pytest
from lpis_helpers import dirty
from lpis_helpers.calls import run, tool
from lpis_helpers.places import BUILT, TOP
from lpis_helpers.spare import Spare, read

LPIS = os.path.join(TOP, "lpis")
OVERLAP, SQUARE = os.path.join(TOP, "examples", "overlap"), os.path.join(TOP, "examples", "square.csv")
LINE = "refused 41 parcels west east at 50020 23980 1\n"
WORDS = (
    "code 41: two parcels, or two pieces, overlap",
    "parcel west: row 1 of parcels.csv, line 2",
    "place in metres: x 50.0200, y 23.9800",
)


def on_terminal(*words, stdout=None):
    """Status, standard output and what a terminal shows of a run whose standard error is one; standard output too,
    where it goes into nothing else."""
    reading, writing = pty.openpty()
    with subprocess.Popen(
        [LPIS, *map(str, words)], stdin=subprocess.DEVNULL, stdout=writing if stdout is None else stdout, stderr=writing
    ) as process:
        os.close(writing)
        shown = b""
        while True:
            try:
                part = os.read(reading, 1 << 16)
            except OSError:  # the last one closed it
                part = b""
            if not part:
                break
            shown += part
        printed = process.stdout.read().decode() if process.stdout else ""
    os.close(reading)
    return process.returncode, printed, shown.decode().replace("\r\n", "\n")


@pytest.mark.skipif(BUILT is None, reason="the program is not built")
class TestWords(Spare):
    def test_they_are_asked_for(self):
        """Into a pipe and into a file alike; what is printed is as without."""
        cert = self.path("cert.txt")
        for words in (("cut", OVERLAP, cert), ("--explain", "cut", OVERLAP, cert), ("cut", OVERLAP, cert, "--explain")):
            ran = run(LPIS, *words)
            assert (ran.returncode, ran.stdout) == (1, LINE)
            assert [word in ran.stderr for word in WORDS] == ["--explain" in words] * 3, ran.stderr
        with open(self.path("out.txt"), "wb") as file:
            ran = subprocess.run(
                [LPIS, "cut", "--explain", OVERLAP, cert], stdout=file, stderr=subprocess.PIPE, text=True, check=False
            )
        assert (ran.returncode, read(self.folder, "out.txt"), all(word in ran.stderr for word in WORDS)) == (
            1,
            LINE,
            True,
        ), ran.stderr

    def test_a_terminal_has_them(self):
        """Where standard output is a pipe its reader explains; a yes has none."""
        cert = self.path("cert.txt")
        status, _, shown = on_terminal("cut", OVERLAP, cert)
        assert (status, shown.startswith(LINE), all(word in shown for word in WORDS)) == (1, True, True), shown
        assert on_terminal("cut", OVERLAP, cert, stdout=subprocess.PIPE) == (1, LINE, "")
        assert on_terminal("area", SQUARE) == (0, "", run(LPIS, "area", SQUARE).stdout)

    def test_a_geopackage_names_what_reads_it(self):
        land = dirty.put(self.path("land.gpkg"), *dirty.rows_of([]))
        assert "land.gpkg is a GeoPackage: tools/check reads it" in run(LPIS, "area", land, "--explain").stderr
        assert "it is a GeoPackage, which tools/check reads" in run(LPIS, "cut", land, self.path("cert.txt")).stderr
        assert "it is a GeoPackage, which tools/check reads" in run(LPIS, "check", land).stderr
        lpis = ("--lpis", shlex.quote(BUILT))
        of_tables = [
            ("faults", land, self.path("out.geojson"), *lpis),
            ("report", land, self.path("cert.txt"), *lpis),
            ("country", "check", land, *lpis),
        ]
        for words in (
            *of_tables,
            ("lineage", land, OVERLAP, self.path("x.csv")),
            ("lineage", OVERLAP, land, self.path("x.csv")),
            ("lineage", "--check", OVERLAP, land),
        ):
            ended = tool(*words)
            told = f"{land} is a GeoPackage: tools/check reads it, and makes the folder of tables that is wanted here\n"
            assert (ended.returncode, told in ended.stderr) == (64, True), ended.stderr

    def test_an_output_that_takes_nothing_stays_a_failure(self):
        with open("/dev/full", "wb") as full:
            ran = subprocess.run(
                [LPIS, "area", SQUARE, "--explain"], stdout=full, stderr=subprocess.PIPE, text=True, check=False
            )
        assert (ran.returncode, ran.stderr.splitlines()[0]) == (3, "failed write out"), ran.stderr
