"""Tests the page of Windows and containers: its lines of Linux, beside stand-ins for what Windows has; and the image of
Containerfile, where podman or docker runs."""

import os
import re
import shutil
from pathlib import Path

import pytest
from lpis_helpers import dirty
from lpis_helpers.calls import done, run
from lpis_helpers.packing import house
from lpis_helpers.places import BUILT, TOOLS, TOP
from lpis_helpers.spare import Spare, write_script
from lpis.system import installation, shapely_there

PAGE = Path(TOP, "docs", "WINDOWS.md").read_text(encoding="utf-8")
STAND_INS = ("sudo", "explorer.exe", "wslpath", "wsl", "docker", "podman")
SECONDS = 1200  # an image of Debian comes over the network


def lines():
    """The commands of the page."""
    return [line.strip() for line in PAGE.splitlines() if re.match(r" {4,7}\S", line)]


def engine():
    """A program that builds and runs images here, or None."""
    found = filter(None, map(shutil.which, ("podman", "docker")))
    return next((path for path in found if run(path, "info", timeout=60).returncode == 0), None)


@pytest.mark.skipif(not (BUILT and shapely_there.python()), reason="the program is not built, or there is no Shapely")
class TestPage(Spare):
    def set_up(self):
        for folder in ("bin", "Documents", "home"):
            os.mkdir(self.path(folder))
        for name in installation.COMMANDS:
            os.symlink(os.path.join(TOOLS, name), self.path("bin", f"lpis-{name}"))
        os.symlink(os.path.join(TOP, "lpis"), self.path("bin", "lpis"))
        for name in STAND_INS:
            write_script(f'#!/bin/sh\necho "{name} $*" >>"{self.path("called")}"\n', self.path("bin", name))

    def test_lines(self):
        """From the package to a yes, its page and its findings."""
        dirty.make(self.path("Documents", "land.gpkg"), [])
        script = "\n".join(["set -e", *lines()]).replace("/mnt/c/Users/NAME", self.folder)
        ran = run(
            "bash",
            "-c",
            script,
            env={
                **os.environ,
                "HOME": self.path("home"),
                "PATH": f"{self.path('bin')}:{os.environ['PATH']}",
                "LPIS": BUILT,
            },
            cwd=self.folder,
        )
        assert (ran.returncode, ran.stdout.splitlines()[-1]) == (0, "yes"), ran.stdout + ran.stderr
        assert os.path.isfile(self.path("Documents", "findings.gpkg"))
        called = Path(self.path("called")).read_text(encoding="utf-8")
        for words in (
            f"sudo apt install {self.folder}/Downloads/lpis_*_amd64.deb",
            "explorer.exe",
            "podman build -t lpis .",
            "lpis lpis-check land.gpkg",
        ):
            assert words in called

    def test_names(self):
        """The package, the image and the page have one name each, and what the image installs is what the package
        recommends."""
        text = Path(TOP, "Containerfile").read_text(encoding="utf-8")
        recommended = re.search(
            r"(?m)^Recommends: (.*)$", Path(TOP, "dev", "debian", "control").read_text(encoding="utf-8")
        )[1].split(", ")
        assert set(recommended) <= set(re.search(r"apt-get install .*", text)[0].split())
        assert ("release/lpis_*_amd64.deb" in text, "lpis_*_amd64.deb" in PAGE, "docs/WINDOWS.md" in text) == (
            True,
            True,
            True,
        )


@pytest.mark.skipif(not (BUILT and shutil.which("dpkg-deb")), reason="the program is not built, or there is no dpkg")
class TestImage(Spare):
    def test_image(self):
        """It is built of this tree's package, and checks a land in a folder of its user."""
        program = engine()
        if not program:
            pytest.skip("neither podman nor docker runs here")
        if run(program, "pull", "docker.io/library/debian:12-slim", timeout=SECONDS).returncode:
            pytest.skip("the image of Debian cannot be had: there is no network")
        place, context = house(Path(self.path("house"))), Path(self.path("context"))
        done(place / "dev" / "package", "--unfinished", "--without-page")
        (context / "release").mkdir(parents=True)
        shutil.copy(next((place / "out" / "package").glob("*.deb")), context / "release")
        done(program, "build", "-t", "lpis-test", "-f", os.path.join(TOP, "Containerfile"), context, timeout=SECONDS)
        dirty.make(self.path("land.gpkg"), [])
        try:
            ran = run(
                program,
                "run",
                "--rm",
                "-v",
                f"{self.folder}:/data",
                "lpis-test",
                "lpis-check",
                "land.gpkg",
                timeout=SECONDS,
            )
            assert (ran.returncode, ran.stdout.splitlines()[-1]) == (0, "yes"), ran.stdout + ran.stderr
        finally:
            run(program, "rmi", "-f", "lpis-test")
