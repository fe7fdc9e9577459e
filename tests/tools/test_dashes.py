"""Tests that a name which begins with a dash reaches a command as a name, and is no option."""

import os
import shutil
from pathlib import Path

import pytest
from lpis_helpers.calls import done, ended_with, tool
from lpis_helpers.places import BUILT, TOP
from lpis_helpers.spare import Spare, exhaustive


@pytest.mark.skipif(not BUILT, reason="the program is not built")
class TestDashes(Spare):
    def country(self, folder):
        """A country with a region -rf."""
        shutil.copytree(os.path.join(TOP, "examples", "country"), folder)
        os.rename(os.path.join(folder, "west"), os.path.join(folder, "-rf"))
        path = Path(folder, "country.txt")
        path.write_text(path.read_text(encoding="ascii").replace("region west", "region -rf"), encoding="ascii")
        for cert in Path(folder).glob("*/cert.txt"):
            cert.unlink()

    @pytest.mark.parametrize("words", ([], exhaustive(["--snakemake"])))
    def test_region(self, words):
        if words and not shutil.which("snakemake"):
            pytest.skip("there is no snakemake")
        folder = self.path("country")
        self.country(folder)
        run = ended_with(0, tool("country", "cut", folder, "--lpis", BUILT, *words))
        assert run.stdout.splitlines()[-1] == "regions 3 refused 0"
        assert "region -rf parcels" in done(BUILT, "country", folder)

    def test_folders(self):
        """Folders and a register of such names, in the folder where the tools run."""
        shutil.copytree(os.path.join(TOP, "examples", "exact", "2024"), self.path("-release"))
        shutil.copyfile(self.path("-release", "lineage.csv"), self.path("lineage.csv"))
        run = ended_with(
            0, tool("year", "--new", "--year-anyway", "--lpis", BUILT, "--", "-db", 2024, "-release", cwd=self.folder)
        )
        assert "published 2024" in run.stdout
        ended_with(0, tool("report", "--lpis", BUILT, "--", "-release", cwd=self.folder))
        done(BUILT, "cut", "--", "-release", "-cert.txt", cwd=self.folder)
        run = ended_with(0, tool("report", "--lpis", BUILT, "--", "-release", "-cert.txt", cwd=self.folder))
        assert "yes" in run.stdout
