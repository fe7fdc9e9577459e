"""Tests the wheel of the package `lpis`: its bytes and facts, and an environment that has Python and nothing else,
which is made and filled without network. Wants pip, and the program; carries the library where that is built."""

import json
import os
import pathlib
import re
import shutil
import sys
import zipfile

import pytest
from lpis_helpers.places import BUILT, TOOLS
from lpis_helpers.spare import Kept
from lpis_helpers.python_case import ALONE, BACKENDS, EXAMPLES, LIBRARY, PYTHON, TOP, done, has, mypy, run
import wheels

pytestmark = pytest.mark.finds_program

EIGHT_LINES = """
import lpis
corners = lambda x: [[x, 0], [x + 10, 0], [x + 10, 10], [x, 10], [x, 0]]
shapes = {name: {"type": "Polygon", "coordinates": [corners(x)]} for name, x in (("west", 1000), ("east", 1010))}
parcels = [{"parcel": name, "geometry": shape} for name, shape in shapes.items()]
covers = [{"piece": name, "parcel": name, "class": "GRASS", "geometry": shape} for name, shape in shapes.items()]
print(lpis.check(parcels, covers, {"GRASS": 30}, lpis.cut(parcels, covers, {"GRASS": 30})).eligible)
shapes["west"]["coordinates"] = [corners(1000.25)]
print(lpis.cut(parcels, covers, {"GRASS": 30}))
"""


def pip():
    """The words that call a pip which can install into another Python's folder, or None."""
    for python in (sys.executable, "/usr/bin/python3"):
        found = re.match(r"pip (\d+)\.(\d+)", run(python, "-m", "pip", "--version").stdout)
        if found and (int(found[1]), int(found[2])) >= (22, 3):
            return [python, "-m", "pip"]
    return None


@pytest.mark.skipif(
    not (BUILT and pip()), reason="the program is not built, or there is no pip of 22.3 or later (Debian: python3-pip)"
)
class TestInstalled(Kept):
    """The wheel in an environment that has Python and nothing else."""

    @classmethod
    def set_up(cls):
        cls.top = pathlib.Path(cls.folder)
        library = {"library": LIBRARY} if LIBRARY else {}
        cls.wheel = cls.top / wheels.build_wheel(cls.top, library)
        done(sys.executable, "-m", "venv", "--without-pip", cls.top / "new")
        cls.bin = cls.top / "new" / "bin"
        done(*pip(), "--python", cls.bin / "python", "install", "-q", "--no-index", cls.wheel, cwd=cls.top)

    def python(self, text, **more):
        return run(self.bin / "python", "-I", "-c", text, **{"cwd": self.top, **more})

    def test_eight_lines(self):
        """From two tables to a yes, and to a refusal with its place."""
        ended = self.python(EIGHT_LINES)
        assert (ended.stdout, len(EIGHT_LINES.strip().splitlines())) == ("60.000000000\n", 8), ended.stderr
        assert "lpis.Refused: refused 41 parcels west east at " in ended.stderr
        assert re.search(r"\nat POINT\(1010\.[012]\d+ \d\.\d+\)\n$", ended.stderr)

    def test_who_answers(self):
        assert self.python("import lpis; print(lpis.backend())").stdout == f"{BACKENDS[-1]}\n"
        assert self.python("import lpis; lpis.backend('program'); print(lpis.backend())").stdout == "program\n"

    def test_notebook(self):
        """Its cells in their order, in a folder like that of the examples."""
        folder = self.top / "examples"
        shutil.copytree(EXAMPLES / "exact", folder / "exact")
        found = json.loads((EXAMPLES / "two-years.ipynb").read_text(encoding="utf-8"))
        code = [cell for cell in found["cells"] if cell["cell_type"] == "code"]
        assert [(cell["outputs"], cell["execution_count"]) for cell in code] == [([], None)] * len(code)
        ended = self.python("\n".join("".join(cell["source"]) for cell in code), cwd=folder)
        assert (ended.returncode, ended.stdout.count("refused")) == (0, 3), ended.stderr

    def test_commands(self):
        """Those of the archive, and each answers; the pages of the manual are where they are looked for."""
        wanted = sorted(
            [
                "lpis",
                *(
                    f"lpis-{name}"
                    for name in os.listdir(TOOLS)
                    if name != "installed"
                    and os.path.isfile(f"{TOOLS}/{name}")
                    and os.access(f"{TOOLS}/{name}", os.X_OK)
                ),
            ]
        )
        assert sorted(path.name for path in self.bin.glob("lpis*")) == wanted
        assert sorted(wheels.project()["project.scripts"]) == wanted
        assert sorted(path.stem for path in (self.top / "new" / "share" / "man" / "man1").iterdir()) == wanted
        for name in wanted:
            ended = run(self.bin / name, "--help", cwd=self.top)
            assert (ended.returncode, bool(ended.stdout)) == (0, True), f"{name}: {ended.stderr}"
        assert done(self.bin / "lpis", "area", EXAMPLES / "square.csv") == "100.0000000\n"
        assert done(BUILT, "--version").split()[1] in done(self.bin / "lpis-report", "--version")
        ended = run(self.bin / "lpis", "cut", EXAMPLES / "overlap", self.top / "none")
        assert (ended.returncode, ended.stdout) == (1, "refused 41 parcels west east at 50020 23980 1\n")

    def test_one_tree(self):
        """What it carries is what ./install puts, byte for byte but for the names of places, and each file may be
        run as there."""
        done(TOP / "install", self.top / "there")
        carried = next((self.top / "new" / "lib").glob("python*/site-packages/lpis/carried"))
        for top in ("lib", "share/doc"):
            ours = {
                path.relative_to(carried): path
                for path in (carried / top).rglob("*")
                if path.is_file() and path.suffix != ".pyc" and path.name != "liblpis.so"
            }
            theirs = {
                path.relative_to(self.top / "there"): path
                for path in (self.top / "there" / top).rglob("*")
                if path.is_file()
            }
            package = pathlib.Path("lib", "lpis", "python", "lpis")
            for name in [name for name in theirs if package in name.parents]:
                assert (carried.parent / name.relative_to(package)).read_bytes() == theirs.pop(name).read_bytes()
            assert sorted(ours) == sorted(theirs)
            for name, path in ours.items():
                wanted = theirs[name].read_bytes().replace(os.fsencode(self.top / "there"), b"lpis/carried")
                if name.suffix in ("", ".sh") and b"\0" not in wanted:
                    wanted = re.sub(rb'(?<=["/])python(?=["/])', wheels.UP.encode(), wanted)
                assert (path.read_bytes() == wanted, os.access(path, os.X_OK)) == (
                    True,
                    os.access(theirs[name], os.X_OK),
                ), name

    def test_same_bytes(self):
        """In another folder, by another mask of modes, at another time."""
        made = (
            "import os, sys; os.umask(0o077); sys.path.insert(0, sys.argv[1]); import wheels;"
            " print(wheels.build_wheel(sys.argv[2], {'library': sys.argv[3]} if sys.argv[3] else {}))"
        )
        other = self.top / "an other"
        other.mkdir()
        name = done(
            sys.executable, "-B", "-c", made, TOP / "dev", other, LIBRARY or "", env={**ALONE, "TZ": "Asia/Tokyo"}
        ).strip()
        assert ((other / name).read_bytes(), name) == (self.wheel.read_bytes(), self.wheel.name)

    def test_facts(self):
        """The platform is that of the newest C library which is wanted, and pyproject.toml reads as everybody reads
        it."""
        assert (
            f"-py3-none-manylinux_{wheels.libc_of(pathlib.Path(BUILT)).replace('.', '_')}_x86_64.whl" in self.wheel.name
        )
        names = zipfile.ZipFile(self.wheel).namelist()
        assert ("lpis/py.typed" in names, [name for name in names if "pycache" in name]) == (True, [])
        if has("tomllib"):
            import tomllib

            found = tomllib.loads((TOP / "pyproject.toml").read_text(encoding="utf-8"))["project"]
            for key in ("scripts", "optional-dependencies", "license"):
                assert wheels.project()[f"project.{key}"] == found[key]
            assert [wheels.project()["project.authors"]] == found["authors"]

    def test_version_and_owner(self):
        """Python asks for them by the usual names."""
        version, told = (
            done(BUILT, "--version").split()[1],
            (
                "import lpis; from importlib import metadata; print(lpis.__version__,"
                " *map(metadata.metadata('lpis').get, ('Version', 'Author', 'License')), sep='|')"
            ),
        )
        found = self.python(told).stdout.strip().split("|")
        assert found == [f"{version}.dev0+unfinished"] * 2 + [
            "The founder of lpis",
            "No licence is given yet: all rights are the owner's",
        ]
        clone = "import sys; sys.path.insert(0, sys.argv[1]); import lpis; print(lpis.__version__); lpis.none"
        ended = run(sys.executable, "-c", clone, TOP / "python" / "src", cwd=self.top)
        assert (ended.stdout, "has no attribute 'none'" in ended.stderr) == (f"{version}\n", True), ended.stderr

    @pytest.mark.skipif(not mypy(), reason="no mypy (Debian: mypy)")
    def test_types(self):
        """Who calls it has its types."""
        script = self.top / "caller.py"
        script.write_text(
            (
                "import lpis\n\nreport: lpis.Report = lpis.check('p', 'c', {'G': 1}, b'')\nplace: lpis.Point ="
                " lpis.Refused('x').place\n"
            ),
            encoding="ascii",
        )
        ended = run(
            *mypy(),
            "--strict",
            "--cache-dir",
            self.top / "cache",
            "--python-executable",
            self.bin / "python",
            script,
            env=os.environ,
        )
        assert (
            ended.stdout.count("error"),
            'caller.py:4: error: Incompatible types in assignment (expression has type "Optional[Point]"'
            in ended.stdout.replace('"Point | None"', '"Optional[Point]"'),
        ) == (2, True), ended.stdout

    def test_plugin(self):
        """QGIS's plugin finds the tools of an environment whose commands are on the path."""
        stand_ins = {
            "processing.core.ProcessingConfig": "class ProcessingConfig: getSetting = staticmethod(lambda name: None)",
            "qgis.core": "class QgsProcessingException(Exception): pass",
        }
        for name, text in stand_ins.items():
            path = self.top / "stand-ins" / f"{name.replace('.', '/')}.py"
            path.parent.mkdir(parents=True, exist_ok=True)
            path.write_text(f"{text}\n", encoding="ascii")
        shutil.copytree(TOP / "tools" / "qgis" / "lpis", self.top / "plugins" / "lpis")
        (self.top / "plugins" / "lpis" / "__init__.py").write_text("", encoding="ascii")
        path = [str(self.top / "stand-ins"), str(self.top / "plugins")]
        told = done(
            sys.executable,
            "-B",
            "-c",
            f"import sys; sys.path[:0] = {path}; from lpis import places; print(places.tool('prepare'), places.lpis())",
            env={**ALONE, "PATH": f"{self.bin}:/usr/bin:/bin"},
        )
        home = next(self.top.glob("new/lib/python3*/site-packages/lpis/carried/lib/lpis"))
        assert told == f"{home}/prepare {home}/program/lpis\n"

    def test_clone(self):
        """Pip makes the package of a clone, and an environment may lead to the clone."""
        done(sys.executable, "-m", "venv", "--without-pip", self.top / "clone")
        done(
            *pip(),
            "--python",
            self.top / "clone" / "bin" / "python",
            "install",
            "-q",
            "--no-index",
            "-e",
            TOP,
            cwd=self.top,
        )
        place = done(
            self.top / "clone" / "bin" / "python", "-B", "-c", "import lpis; print(lpis.__file__)", cwd=self.top
        )
        assert place == f"{PYTHON / 'src' / 'lpis' / '__init__.py'}\n"
        assert run(self.top / "clone" / "bin" / "lpis", "area", EXAMPLES / "square.csv").stdout == "100.0000000\n"
        assert "usage" in run(self.top / "clone" / "bin" / "lpis-report", "--help").stdout
