"""Runs of the program, of the tools and of others, the tables that these write, and copies of what they find."""

import contextlib
import csv
import os
import shutil
import subprocess
import tempfile
from pathlib import Path

from lpis_helpers.places import BUILT, TOOLS
from lpis_helpers.starts import SHEBANG, STARTS
from lpis.system import shapely_there

CAPTURED = {"capture_output": True, "text": True, "check": False}


def run(*words, **more):
    """A run, with what it printed."""
    return subprocess.run([str(word) for word in words], **{**CAPTURED, **more})


def done(*words, **more):
    """What a run printed that has to end well."""
    return ended_with(0, run(*words, **more)).stdout


def ended_with(status, ended):
    """A run, which has to have ended with this status."""
    assert ended.returncode == status, (ended.args, ended.stdout, ended.stderr)
    return ended


def lpis(*words, **more):
    """Status, standard output and standard error of a run of the program, which reads no standard input."""
    ended = run(BUILT, *words, **{"stdin": subprocess.DEVNULL, "timeout": 600, **more})
    return ended.returncode, ended.stdout, ended.stderr


def tool(name, *words, **more):
    """A run of a script of tools/, as `run` has it; its Python has loaded already what the tools load, wherever that
    makes no difference."""
    path, more = os.path.join(TOOLS, name), {**CAPTURED, **more}
    return STARTS.run([path, *words], **more) if STARTS.can(path, more) else run(path, *words, **more)


def with_shapely(text, *words):
    """A run of a text of Python, which has to end well, in a Python that has Shapely."""
    with tempfile.TemporaryDirectory() as folder:
        script = Path(folder, "text")
        script.write_bytes(SHEBANG + text.encode())
        python = shapely_there.python()
        is_forked = os.path.realpath(shutil.which("python3") or "") == os.path.realpath(python) and STARTS.can(
            script, CAPTURED
        )
        return ended_with(0, STARTS.run([script, *words], **CAPTURED) if is_forked else run(python, script, *words))


def records(*path):
    """The rows of a table; none where it is not there."""
    if not os.path.exists(os.path.join(*path)):
        return []
    with open(os.path.join(*path), newline="", encoding="utf-8") as file:
        return list(csv.DictReader(file))


@contextlib.contextmanager
def copy_of(folder):
    """A copy of a folder beside it, for a while."""
    copy = Path(tempfile.mkdtemp(dir=folder.parent))
    try:
        yield shutil.copytree(folder, copy, dirs_exist_ok=True)
    finally:
        shutil.rmtree(copy)
