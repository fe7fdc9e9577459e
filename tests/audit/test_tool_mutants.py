"""Tests that audit/source.py sees each mutant of the tools' code (tool_mutants.py): tables that a copy of the tools
made, with one edit in it. Of the copy without an edit it says yes, of each other one no."""

import argparse
import compileall
import os
import runpy
import shutil
import sys
import traceback
from pathlib import Path

import pytest
import source
from lpis_helpers import places
from lpis_helpers.spare import few_at_once
from tool_mutants import COUNTRY, GROUPS, LANDS, LATER, MUTANTS, PREPARE

EACH = 2  # mutants of a group; the others wait for --long
FEW_POINTS = 8  # of a cell, so that a small land has several


class Copy:
    """A copy of the tools, and the lands."""

    def __init__(self, folder: Path) -> None:
        self.tools, self.package, self.folder = folder / "tools", folder / "python" / "src", folder
        for here, there in ((places.TOOLS, self.tools), (places.PACKAGE, self.package)):
            shutil.copytree(here, there, ignore=shutil.ignore_patterns("__pycache__"))
        compileall.compile_dir(self.package, quiet=1)
        self.lands = {}
        for name, write in LANDS.items():
            (folder / name).mkdir()
            self.lands[name] = write(folder / name / ("tables" if name == "sheets" else "land.gpkg"))

    def ended(self, tool: str, land: str, out: Path) -> int:
        """The status of a tool over a land, in a process that has Shapely already."""
        last = ["--previous", str(self.folder / LATER / "last")] if land == LATER else []
        command = ["prepare"] if tool == COUNTRY else []
        words = [str(self.tools / tool), *command, str(self.lands[land]), str(out), "--accept", "--quiet", *last]
        sys.stdout.flush()
        child = os.fork()
        if child == 0:
            self.go(words, f"{out}.log")
        return os.waitstatus_to_exitcode(os.waitpid(child, 0)[1])

    def go(self, words: list, log: str) -> None:
        """Runs a tool of the copy in this process, and ends it."""
        status = 70
        try:
            handle = os.open(log, os.O_WRONLY | os.O_CREAT)
            os.dup2(handle, 1)
            os.dup2(handle, 2)
            sys.stdout, sys.stderr = (open(number, "w", encoding="utf-8", closefd=False) for number in (1, 2))
            for name in [name for name in sys.modules if name.partition(".")[0] == "lpis"]:
                del sys.modules[name]
            sys.path.insert(0, str(self.package))
            sys.argv = words
            if words[0].endswith(COUNTRY):
                by_cells()
            runpy.run_path(words[0], run_name="__main__")
        except SystemExit as end:
            status = end.code or 0
        except BaseException:
            traceback.print_exc()
        finally:
            sys.stdout.flush()
            sys.stderr.flush()
            os._exit(status)

    def with_edit(self, mutant):
        """Makes the edit; answers what takes it back. The text stands once, or the mutant has to be written anew."""
        path = self.package / "lpis" / mutant.file
        text, times = path.read_text(encoding="utf-8"), os.stat(path)
        count = text.count(mutant.old)
        assert count == 1, f"this text of a mutant stands {count} times in {mutant.file}, write it anew: {mutant.old}"
        path.write_text(text.replace(mutant.old, mutant.new), encoding="utf-8")

        def back():
            path.write_text(text, encoding="utf-8")
            os.utime(path, ns=(times.st_atime_ns, times.st_mtime_ns))

        return back


def by_cells() -> None:
    """Has a country made in many cells, and all of them in this process."""
    from lpis.country import jobs, row_store

    row_store.MOST_POINTS, row_store.LEAST = FEW_POINTS, 0

    def do_all(folder, kind, count, workers, shown):
        worker = jobs.Worker(folder)
        return [worker.do(kind, number) for number in range(count)]

    jobs.do_all = do_all


@pytest.fixture(scope="module")
def copy(tmp_path_factory):
    return Copy(tmp_path_factory.mktemp("copy"))


def told(copy, tool, land, out):
    """What the second checker says of the tables that a run makes, which ends with 0."""
    status = copy.ended(tool, land, out)
    assert status == 0, Path(f"{out}.log").read_text(encoding="utf-8")
    words = {"name": [], "classes": None, "epsg": None, "previous": land == LATER}
    return source.answer(argparse.Namespace(land=str(copy.lands[land]), out=str(out), **words))


@pytest.mark.parametrize("tool, land", [*((PREPARE, land) for land in LANDS), (COUNTRY, "land")])
def test_without_an_edit(tool, land, copy, tmp_path):
    assert told(copy, tool, land, tmp_path / "out") == "yes"


@pytest.mark.parametrize("name", [name for group in GROUPS for name in few_at_once([*group], EACH)])
def test_mutants(name, copy, tmp_path):
    mutant = MUTANTS[name]
    back = copy.with_edit(mutant)
    try:
        assert told(copy, mutant.tool, mutant.land, tmp_path / "out").startswith("no"), mutant.why
    finally:
        back()
