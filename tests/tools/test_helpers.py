"""The helpers of tests and benches are found where other modules of their names are installed: PyTables, for one, is
called `tables`."""

import os
import subprocess
import sys
from pathlib import Path

import pytest

from lpis_helpers.places import TOP, run_helper

HELPERS = sorted(path.stem for path in Path(TOP, "tests", "lpis_helpers").glob("*.py") if path.stem != "__init__")
BENCHES = ("exact", "country", "publish_country", "nasty", "lands", "cut")


@pytest.fixture(name="installed", scope="module")
def installed_modules(tmp_path_factory):
    """A folder of packages that has a module of each helper's name, which ends whoever imports it."""
    folder = tmp_path_factory.mktemp("site-packages")
    for name in [*HELPERS, "common", "years", "program"]:
        (folder / f"{name}.py").write_text(f"raise SystemExit('the installed {name} was taken')\n", encoding="utf-8")
    return folder


def started(folder, *words):
    """A run with a folder on the path where pip's packages are."""
    code = "import os, runpy, site, sys; site.addsitedir(sys.argv[1]); sys.argv = sys.argv[2:]; "
    code += "sys.path.insert(0, os.path.dirname(sys.argv[0])); runpy.run_path(sys.argv[0], run_name='__main__')"
    return subprocess.run(
        [sys.executable, "-B", "-c", code, folder, *words],
        cwd=TOP,
        capture_output=True,
        text=True,
        timeout=120,
        check=False,
    )


@pytest.mark.parametrize("bench", BENCHES)
def test_a_bench_finds_its_own(installed, bench):
    run = started(installed, os.path.join(TOP, "bench", bench), "--help")
    assert "was taken" not in run.stdout + run.stderr and "Error" not in run.stderr, run.stderr


def test_a_script_finds_its_own(installed, tmp_path, monkeypatch):
    monkeypatch.setenv("PYTHONUSERBASE", str(installed))
    run_helper("make_parcels", 4, tmp_path / "land")
    assert (tmp_path / "land" / "parcels.csv").exists()
