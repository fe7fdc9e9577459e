"""Tests ./test itself: what it counts; and the seconds of a processor and the marks of tests."""

import importlib.util
import os
import re
import subprocess
import sys
from importlib.machinery import SourceFileLoader
from pathlib import Path

import pytest
from lpis_helpers.places import TESTS, TOP

LOADER = SourceFileLoader("test_script", os.path.join(TOP, "test"))
script = importlib.util.module_from_spec(importlib.util.spec_from_loader("test_script", LOADER))
LOADER.exec_module(script)


KINDS = """import pytest
def test_passes(): pass
def test_fails(): assert False
def test_left_out(): pytest.skip("no program")
@pytest.fixture
def broken(): assert False
def test_broken(broken): pass
@pytest.mark.long
def test_long(): pass
"""
COUNTING = """import importlib.util, sys
from importlib.machinery import SourceFileLoader
loader = SourceFileLoader("test_script", sys.argv[1])
script = importlib.util.module_from_spec(importlib.util.spec_from_loader("test_script", loader))
loader.exec_module(script)
counts = script.Counts()
counts.tests(*sys.argv[2:])
counts.step("true")
counts.step("false")
sys.exit(counts.tell(0.001))
"""


def in_folder(folder, words, text):
    """A run of Python in a folder with these tests, and with what tests share."""
    conftest = Path(TESTS, "conftest.py").read_text(encoding="utf-8")
    most = re.search(r"(?m)^MOST = (\d+)\b", conftest)
    assert int(most[1]) <= 15
    (folder / "conftest.py").write_text(conftest.replace(most[0], "MOST = 0.5"), encoding="utf-8")
    (folder / "test_small.py").write_text(text, encoding="utf-8")
    settings = Path(TOP, "pyproject.toml").read_text(encoding="utf-8")
    settings = settings.replace('testpaths = ["tests"]', 'testpaths = ["."]')
    (folder / "pyproject.toml").write_text(settings, encoding="utf-8")
    named = {**os.environ, "PYTHONPATH": f"{TESTS}{os.pathsep}{TOP}/python/src"}
    return subprocess.run([sys.executable, *words], cwd=folder, capture_output=True, text=True, check=False, env=named)


@pytest.mark.parametrize("words, long", ((["-p", "no:xdist", "-p", "no:xdist.looponfail"], 0), (["--long"], 1)))
def test_counts(tmp_path, words, long):
    """Each kind once, by one process and by several: the fixture that fails and the step that does are failures. The
    seconds of a processor beyond those that it may take are told."""
    if "-p" in words:
        (tmp_path / "xdist.py").write_text("raise ImportError", encoding="utf-8")
    ended = in_folder(tmp_path, ["-c", COUNTING, os.path.join(TOP, "test"), *words], KINDS)
    *_, waiting, seconds, last = ended.stdout.splitlines()
    assert ended.returncode == 1 and last == f"{2 + long} passed, 3 failed", ended.stdout + ended.stderr
    assert re.fullmatch(r"\d+ s of a processor, beyond the 0.001 that it may take, in \d+ s", seconds)
    assert waiting.startswith("1 left out: " if long else "1 for --long")
    assert "1 left out: what they want stands above" in ended.stdout and "no program" in ended.stdout


def test_nothing_is_tried(tmp_path):
    """A run of tests that ends badly with none that failed has failed."""
    ended = in_folder(tmp_path, ["-c", COUNTING, os.path.join(TOP, "test"), "-p", "no:xdist", "none.py"], KINDS)
    assert ended.stdout.splitlines()[-1] == "1 passed, 2 failed", ended.stdout + ended.stderr


def test_steps_are_there():
    for name in (*script.PAGES, *script.QUICK, "dev/carried"):
        assert os.path.exists(os.path.join(TOP, name)), name
    assert script.MOST <= 600


SMALL = """import pytest, time
def test_quick():
    pass
def test_heavy():
    busy()
@pytest.mark.long
def test_long():
    busy()
def busy():
    until = time.process_time() + 0.6
    while time.process_time() < until:
        pass
"""


@pytest.mark.parametrize(
    "words, told, heavy",
    (
        ([], "2 passed, 1 deselected in", ["test_heavy"]),
        (["--long"], "3 passed in", ["test_heavy"]),
        (["--long", "-k", "long"], "1 passed, 2 deselected in", []),
    ),
)
def test_heavy(tmp_path, words, told, heavy):
    """A test that is not marked `long` and takes more than its seconds of a processor is named; what is marked waits
    for --long."""
    ended = in_folder(tmp_path, ["-m", "pytest", "-q", *words], SMALL)
    assert told in ended.stdout.splitlines()[-1], ended.stdout + ended.stderr
    assert (
        re.findall(r"(?m)^heavy: test_small.py::(\w+) took \d+ s of a processor: make it smaller", ended.stdout)
        == heavy
    )
