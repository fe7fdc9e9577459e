"""What the tests of the page and of the library share: the page, built anew, the native program's answers, calls of
Node, and releases."""

import functools
import importlib.util
import json
import os
import pathlib
import resource
import shutil
import signal
import subprocess
from importlib.machinery import SourceFileLoader

import pytest
from lpis_helpers.browser import CHROMIUM  # noqa: F401 which `wanted` finds by its name
from lpis_helpers.places import BUILT, TOP
from lpis_helpers.starts import STARTS

SOURCES, TESTS, EXAMPLES = (os.path.join(TOP, *path) for path in (("page",), ("tests", "page"), ("examples",)))
CC, NODE, WASM_OPT = shutil.which("cc"), shutil.which("node"), shutil.which("wasm-opt")
RT = shutil.which("rt") or "/opt/rattle/bin/rt"
WHOLE = bool(os.environ.get("WHOLE"))
SECONDS = 300  # for the page, which else would wait for proofs of all crates below it


def loaded(path):
    loader = SourceFileLoader("dev_page", path)
    module = importlib.util.module_from_spec(importlib.util.spec_from_loader("dev_page", loader))
    loader.exec_module(module)
    return module


dev_page = loaded(os.path.join(TOP, "dev", "page"))


def crates_to_prove():
    """How many crates below lpis_page `rt lib` would prove anew: those without its stamp, such as `rt ci` leaves
    them, or with a source that is newer."""
    told = subprocess.run(
        [os.path.join(TOP, "dev", "sources"), "--crates", "lpis_page"], capture_output=True, text=True, check=True
    ).stdout.split()
    return sum(not is_stamped(pathlib.Path(TOP, "crates", name)) for name in told[:-1])


def is_stamped(crate):
    stamp = crate / "out" / "rlib" / "stamp"
    sources = [path for part in ("src", "specs", "proofs") for path in (crate / part).rglob("*")]
    return stamp.exists() and all(path.stat().st_mtime <= stamp.stat().st_mtime for path in sources)


@functools.cache
def built():
    """The path of the page, built anew, or why there is none."""
    if not os.access(RT, os.X_OK):
        return None, "there is no kit"
    if not WASM_OPT:
        return None, "there is no wasm-opt"
    if not BUILT:
        return None, "there is no program"
    unproved = crates_to_prove()
    if unproved and not WHOLE:
        return None, f"{unproved} crates below lpis_page were to be proved first, by dev/library"
    before = resource.getrusage(resource.RUSAGE_CHILDREN)
    with subprocess.Popen(
        [os.path.join(TOP, "dev", "page")],
        stdout=subprocess.PIPE,
        stderr=subprocess.PIPE,
        text=True,
        start_new_session=True,
    ) as run:
        try:
            told, faults = run.communicate(timeout=None if WHOLE else SECONDS)
        except subprocess.TimeoutExpired:
            os.killpg(run.pid, signal.SIGKILL)
            run.communicate()
            return None, f"the page was not built in {SECONDS} seconds: the crates below it were to be proved anew"
    after = resource.getrusage(resource.RUSAGE_CHILDREN)
    STARTS.apart += after.ru_utime + after.ru_stime - before.ru_utime - before.ru_stime
    if run.returncode:
        raise RuntimeError(faults)
    return told.split()[-1], ""


def wanted(*programs):
    """Leaves a test out where one of these is not there: names of programs, or `page`."""
    for name in programs:
        if name == "page" and not built()[0]:
            pytest.skip(built()[1])
        if name != "page" and not globals()[name]:
            pytest.skip(f"there is no {name.lower()}")


def node(task, **words):
    run = subprocess.run(
        [NODE, os.path.join(TESTS, "scripts.js"), task],
        input=json.dumps(words),
        capture_output=True,
        text=True,
        check=False,
    )
    if run.returncode:
        raise RuntimeError(run.stderr[-2000:])
    return json.loads(run.stdout)


def native(*words):
    run = subprocess.run([BUILT, *words], capture_output=True, check=False)
    return run.returncode, run.stdout


def read(path):
    return pathlib.Path(path).read_bytes()


def releases_of(folder):
    return sorted(
        place for place, _, names in os.walk(folder) if {"parcels.csv", "covers.csv", "classes.csv"} <= set(names)
    )
