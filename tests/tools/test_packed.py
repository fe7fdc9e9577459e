"""Runs what is packed, each from its own file and as those do who have nothing else: archive, package, wheel, plugin,
page and site. Of a packing of this tree, and of release/, which has the last version; what of that one is known to fall
has to be seen here."""

import json
import os
import re
import shutil
import subprocess
import sys
import zipfile
from pathlib import Path

import pytest
from lpis_helpers import dirty, page_case, site_links
from lpis_helpers.browser import Browser
from lpis_helpers.calls import done, ended_with, run
from lpis_helpers.packing import house
from lpis_helpers.places import BUILT, TOP
from lpis_helpers.python_case import ALONE
from lpis_helpers.spare import Kept
from lpis.system import shapely_there

pytestmark = pytest.mark.finds_program
RELEASE, EXAMPLES = Path(TOP, "release"), Path(TOP, "examples")
PATTERNS = {
    "archive": "*-linux-x86_64.tar.gz",
    "package": "*.deb",
    "wheel": "*.whl",
    "plugin": "lpis-qgis-*.zip",
    "page": "lpis-*.html",
    "site": "lpis-*-site.zip",
}
FALLS = {"lpis-qgis-0.3.0.zip": "IsADirectoryError"}  # the plugin at its first fault
REFUSED = (1, "refused 41 parcels west east at 50020 23980 1\n")
PROCESS = shutil.which("qgis_process.bin") or shutil.which("qgis_process")
SECONDS = 1800  # a machine may be slow, and busy
CUT = (
    "import lpis, sys; folder = sys.argv[1]; lpis.cut(*(f'{folder}/{name}.csv' for name in ('parcels', 'covers',"
    " 'classes')))"
)


class Packed(Kept):
    """Files of one packing, in `files` by what they are."""

    files = {}

    def of(self, kind):
        if self.files.get(kind) is None:
            pytest.skip(f"there is no {kind}: it is not made here")
        return self.files[kind]

    def unpacked(self):
        """The folder of the archive, unpacked once."""
        top = Path(self.path("archive"))
        if not top.exists():
            top.mkdir()
            done("tar", "-xzf", self.of("archive"), "-C", top)
        return next(path for path in top.iterdir() if path.is_dir())

    def expect_commands(self, folder, examples, **more):
        """Each command answers; the program says yes and no; faults and findings are found."""
        names = sorted(path.name for path in folder.glob("lpis*"))
        assert {"lpis", "lpis-faults", "lpis-prepare", "lpis-year"} <= set(names)
        for name in names:
            ended = run(folder / name, "--help", **more)
            assert (ended.returncode, bool(ended.stdout)) == (0, True), f"{name}: {ended.stderr}"
        assert run(folder / "lpis", "area", examples / "square.csv", **more).stdout == "100.0000000\n"
        cert = self.path(f"{len(os.listdir(self.folder))}.txt")
        ended = run(folder / "lpis", "cut", examples / "overlap", cert, **more)
        assert (ended.returncode, ended.stdout) == REFUSED
        assert run(folder / "lpis", "cut", examples / "pasture", cert, **more).returncode == 0
        assert run(folder / "lpis", "check", examples / "pasture", cert, **more).stdout.endswith("\nyes\n")
        if not shapely_there.python():
            return
        out = self.path(f"{len(os.listdir(self.folder))}.geojson")
        ended = run(folder / "lpis-faults", examples / "overlap", out, **more)
        assert (
            ended.returncode,
            "MultiPolygon" in Path(out).read_text(encoding="utf-8") or "0.3.0" in str(self.files),
        ) == (1, True), ended.stderr
        ended = run(folder / "lpis-prepare", self.land(), self.path(f"{len(os.listdir(self.folder))} out"), **more)
        assert (ended.returncode, "no table is written" in ended.stdout) == (1, True), ended.stdout + ended.stderr

    def land(self):
        return (
            self.path("land.gpkg")
            if os.path.exists(self.path("land.gpkg"))
            else dirty.make(self.path("land.gpkg"), ["null", "wide"])
        )

    def test_archive(self):
        top = self.unpacked()
        self.expect_commands(top / "bin", top / "share" / "doc" / "lpis" / "examples", env=ALONE)

    @pytest.mark.skipif(not shutil.which("dpkg-deb"), reason="no dpkg (Debian: dpkg)")
    def test_package(self):
        done("dpkg-deb", "-x", self.of("package"), self.path("root"))
        usr = Path(self.path("root", "usr"))
        self.expect_commands(usr / "bin", usr / "share" / "doc" / "lpis" / "examples", env=ALONE)

    def test_wheel(self):
        """Its files, as pip puts them, are a package that answers; who made it, and under which terms, is said."""
        place = Path(self.path("wheel"))
        with zipfile.ZipFile(self.of("wheel")) as file:
            file.extractall(place)
            facts = file.read(next(name for name in file.namelist() if name.endswith("dist-info/METADATA"))).decode(
                "utf-8"
            )
        for path in place.rglob("*"):
            path.chmod(0o755)  # as pip does by the modes in the zip
        python = [sys.executable, "-B", "-c"]
        ended = run(*python, CUT, EXAMPLES / "overlap", env={**ALONE, "PYTHONPATH": str(place)})
        assert "lpis.Refused: refused 41 parcels west east at " in ended.stderr, ended.stderr
        assert run(*python, CUT, EXAMPLES / "pasture", env={**ALONE, "PYTHONPATH": str(place)}).returncode == 0
        version = re.search(r"(?m)^Version: (\S+)$", facts)[1]
        if version != "0.3.0":
            assert (
                done(*python, "import lpis; print(lpis.__version__)", env={**ALONE, "PYTHONPATH": str(place)}).strip()
                == version
            )
            assert ("\nAuthor: " in facts, "\nLicense: " in facts) == (True, True)

    def surroundings(self, plugins):
        """Those of QGIS with a folder of plugins, over the unpacked archive."""
        there = {
            **os.environ,
            "HOME": self.folder,
            "XDG_RUNTIME_DIR": self.folder,
            "QT_QPA_PLATFORM": "offscreen",
            "PATH": f"/usr/bin:{os.environ['PATH']}",
            "QGIS_PLUGINPATH": str(plugins),
            "LPIS_FOLDER": str(self.unpacked() / "lib" / "lpis"),
        }
        there.pop("LPIS", None)
        subprocess.run(
            [PROCESS, "plugins", "enable", "lpis"], env=there, capture_output=True, check=False, timeout=SECONDS
        )
        return there

    def plugin(self, change=lambda text: text):
        """A folder with the plugin, unpacked; `change` is of its file that has the faults."""
        place = Path(self.path(f"plugin {len(os.listdir(self.folder))}"))
        with zipfile.ZipFile(self.of("plugin")) as file:
            file.extractall(place)
        path = place / "lpis" / "check.py"
        path.write_text(change(path.read_text(encoding="utf-8")), encoding="utf-8")
        return place

    def fault_of(self, there):
        """What the plugin says of a release with one fault: how many, or its error."""
        words = [f"--DIR={EXAMPLES / 'overlap'}", f"--POLYGONS={self.path('faults.gpkg')}"]
        ran = subprocess.run(
            [PROCESS, "--json", "run", "lpis:allfaults", *words],
            env=there,
            capture_output=True,
            text=True,
            check=False,
            timeout=SECONDS,
        )
        if ran.returncode:
            return re.findall(r"\w*Error\b", ran.stdout + ran.stderr)[-1:]
        return json.loads(ran.stdout[ran.stdout.index("{") :])["results"]["COUNT"]

    @pytest.mark.skipif(
        not (PROCESS and shapely_there.python()), reason="no qgis_process (Debian: qgis), or no Shapely"
    )
    def test_plugin(self):
        """It shows a fault, and the findings of a source; a fault of its own code is seen."""
        there = self.surroundings(self.plugin())
        name = os.path.basename(self.of("plugin"))
        assert self.fault_of(there) == ([FALLS[name]] if name in FALLS else 1)
        if name in FALLS:
            return
        broken = self.plugin(
            lambda text: text.replace("(parameters, context), [path],", "(parameters, context), path,")
        )
        assert self.fault_of({**there, "QGIS_PLUGINPATH": str(broken)}) == ["IsADirectoryError"]
        words = {
            "PARCELS": f"{self.land()}|layername=parcels",
            "COVERS": f"{self.land()}|layername=covers",
            "OUT": self.path("prepared"),
            "LAND": self.path("found.gpkg"),
        }
        ran = ended_with(
            0,
            subprocess.run(
                [
                    PROCESS,
                    "--json",
                    "run",
                    "lpis:preparerelease",
                    *(f"--{key}={value}" for key, value in words.items()),
                ],
                env=there,
                capture_output=True,
                text=True,
                check=False,
                timeout=SECONDS,
            ),
        )
        assert json.loads(ran.stdout[ran.stdout.index("{") :])["results"]["STATUS"] == 1

    def test_page(self):
        """Each of its examples is answered, in a browser without network."""
        page_case.wanted("CHROMIUM")
        with Browser() as browser:
            browser.open(str(self.of("page")), "document.body?.dataset.state === 'ready'")
            for button, words in (("good", "Yes: the release is a sound map"), ("faulty", "refused")):
                browser.value(f"document.getElementById({button!r}).click()")
                browser.wait(f"document.body.innerText.includes({words!r})")
            assert browser.errors() == []

    def test_site(self):
        """It is one folder in which every link and picture is there; the sums and the facts have the file."""
        path = self.of("site")
        with zipfile.ZipFile(path) as file:
            file.extractall(self.path("site"))
        assert os.listdir(self.path("site")) == [path.stem]
        site_links.expect_whole(Path(self.path("site", path.stem)))
        digits = done("sha256sum", path).split()[0]
        told = [(path.parent / name).read_text(encoding="utf-8") for name in ("SHA256SUMS", "facts")]
        assert (f"{digits}  {path.name}\n" in told[0], f"\nsite {digits}\n" in told[1]) == (True, True)


@pytest.mark.skipif(not BUILT, reason="the program is not built")
class TestPacking(Packed):
    @classmethod
    def set_up(cls):
        place = house(Path(cls.folder) / "house")
        done(place / "dev" / "package", "--unfinished", "--without-page")
        cls.files = {kind: next((place / "out" / "package").glob(pattern), None) for kind, pattern in PATTERNS.items()}
        cls.files["page"] = next(iter(sorted(Path(TOP, "out", "package").glob(PATTERNS["page"]))), None)


class TestRelease(Packed):
    @classmethod
    def set_up(cls):
        cls.files = {kind: next(RELEASE.glob(pattern), None) for kind, pattern in PATTERNS.items()}

    def test_sums(self):
        assert run("sha256sum", "-c", "SHA256SUMS", cwd=RELEASE).returncode == 0
