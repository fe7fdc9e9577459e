"""Tests that a standard error which is full or closed takes nothing of a run's status, and that a standard output which
is full or closed is no success."""

import os
import shutil
import subprocess

import pytest
from lpis_helpers import dirty
from lpis_helpers.places import BUILT, PACKAGE, TOOLS, TOP
from lpis_helpers.spare import Spare
from lpis.system import shapely_there

UNHEARD = ("2>/dev/full", "2>&-", "<&- 2>&-")
FAILING = (">/dev/full", ">&-", ">/dev/full 2>/dev/full", ">&- 2>&-")


def status_of(words, streams, **more):
    """The status of a command whose streams lead elsewhere, and its standard output."""
    script = 'streams=$1; shift; eval "\\"\\$@\\" $streams"'
    ended = subprocess.run(
        ["bash", "-c", script, "bash", streams, *map(str, words)],
        capture_output=True,
        text=True,
        check=False,
        timeout=300,
        **more,
    )
    return ended.returncode, ended.stdout


@pytest.mark.skipif(not BUILT, reason="the program is not built")
class TestLauncher(Spare):
    LPIS = os.path.join(TOP, "lpis")

    @pytest.mark.parametrize("streams", UNHEARD)
    def test_status(self, streams):
        """The launcher has the program's status, whatever it would say beside it."""
        square, none = os.path.join(TOP, "examples", "square.csv"), self.path("none.csv")
        for words, wanted in ((["area", square], (0, "100.0000000\n")), (["area", none], (3, "")), (["area"], (2, ""))):
            assert status_of([self.LPIS, *words], streams) == wanted, words

    @pytest.mark.parametrize("streams", UNHEARD)
    def test_published(self, streams):
        """A year is published, and what is said of a new register and of the source is lost."""
        release = shutil.copytree(os.path.join(TOP, "examples", "exact", "2024"), self.path("release"))
        for name, text in (
            ("prepared.csv", "kind,layer,done\nshape,parcels,left out\n"),
            ("report.csv", "kind,layer,stops,area_m2\nleft out,parcels,1,1.0\n"),
        ):
            with open(os.path.join(release, name), "w", encoding="ascii") as file:
                file.write(text)
        cert = self.path("cert.txt")
        assert status_of([self.LPIS, "cut", release, cert], streams)[0] == 0
        status, told = status_of([self.LPIS, "publish", self.path("new.db"), "2024", release, cert], streams)
        assert (status, told.splitlines()[-1]) == (0, "published 2024")

    @pytest.mark.parametrize("streams", FAILING)
    def test_output(self, streams):
        assert status_of([self.LPIS, "area", os.path.join(TOP, "examples", "square.csv")], streams)[0] == 3


@pytest.mark.skipif(not shapely_there.python(), reason=shapely_there.LACKING)
class TestTools(Spare):
    def prepared(self, streams, kinds=()):
        """The status of a run, and whether the tables are there."""
        land, out = dirty.make(self.path("land.gpkg"), kinds), self.path("out")
        status, told = status_of([os.path.join(TOOLS, "prepare"), land, out], streams)
        return status, os.path.exists(os.path.join(out, "parcels.csv")), told

    @pytest.mark.parametrize("streams", UNHEARD)
    def test_status(self, streams):
        status, is_written, told = self.prepared(streams)
        assert (status, is_written, told.splitlines()[-1:]) == (0, True, ["the balance adds up to the square metre"])
        assert self.prepared(streams, ["null"])[0] == 1

    @pytest.mark.parametrize("streams", (*FAILING, "| true"))
    def test_output(self, streams):
        """A standard output that takes no more is no success, and no reason to lose the tables."""
        status, is_written, _ = self.prepared(f"{streams}; exit ${{PIPESTATUS[0]}}")
        assert (status, is_written) == (64, True)

    def test_numbers(self):
        """What a tool opens gets no number of a stream that was closed: what it runs would write there."""
        code = (
            "import os, sys; sys.path.insert(0, sys.argv[1]); from lpis.system import printing; printing.begin(); "
            "found = os.open(os.devnull, os.O_RDONLY); "
            "sys.exit(0 if found > 2 else 1)"
        )
        for streams in ("2>&-", "<&- >&- 2>&-", "<&- 2>&-"):
            assert status_of([shapely_there.python(), "-c", code, PACKAGE], streams)[0] == 0, streams
