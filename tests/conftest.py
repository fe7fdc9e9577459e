"""What all tests share: the program, named to the tools that they run, compiled modules, libraries in C, which tests
begin first, which wait for `--long`, and what each uses of a processor."""

import os
import resource
import shutil
import subprocess
import sys
import tempfile

import pytest
from lpis_helpers import places, starter
from lpis_helpers.starts import STARTS
from lpis.system import shapely_there

# Modules whose tests take longest: they begin first, and short ones fill the cores at the end.
LONGEST = (
    "test_page",
    "test_benches",
    "test_country_cells",
    "test_package",
    "test_lands",
    "test_country_prepare",
    "test_guests",
    "test_far",
    "test_compare",
    "test_placing",
    "test_nation",
    "test_wheel",
)
# Those of which each test goes to whatever process is free; of all others a module, or a class, is run by one.
SPREAD = ("test_refusals", "test_prefixes", "test_audited_releases", "test_audited_years")
TOGETHER = ("test_page",)  # all go to one process, which builds the page once
MOST = 15  # seconds of a processor of a test that is not marked `long`, with all that it was the first to want
HEAVY = []
sys.dont_write_bytecode = True
os.environ["PYTHONDONTWRITEBYTECODE"] = "1"


@pytest.fixture(scope="module", autouse=True)
def named_program(request):
    """Names the program to the tools, so that none asks ./lpis at each start; but where a module's tests look for it
    as users do."""
    with pytest.MonkeyPatch.context() as surroundings:
        if places.BUILT and not request.node.get_closest_marker("finds_program"):
            surroundings.setenv("LPIS", places.BUILT)
        yield


@pytest.fixture(scope="session")
def preloaded(tmp_path_factory):
    """Makes a file in C into a library that LD_PRELOAD names."""

    def made(source):
        compiler = shutil.which("cc") or shutil.which("gcc") or pytest.skip("there is no C compiler (Debian: gcc)")
        path = tmp_path_factory.mktemp("preloaded") / f"{source.stem}.so"
        subprocess.run([compiler, "-O2", "-shared", "-fPIC", "-o", path, source], check=True)
        return path

    return made


def pytest_addoption(parser):
    parser.addoption("--long", action="store_true", help="also what is marked `long`: the exhaustive part of the tests")


def pytest_configure(config):
    """What a test starts finds its modules compiled, in a folder that goes away, and compiles what is not there yet:
    nothing is written beside sources, and the tools write no bytecode at all."""
    at_work, config.compiled = getattr(config, "workerinput", None), None
    if "PYTHONPYCACHEPREFIX" not in os.environ:
        config.compiled = at_work["compiled"] if at_work else compiled()
        if at_work or not config.getoption("numprocesses", None):
            os.environ["PYTHONPYCACHEPREFIX"] = config.compiled
    if "PYTHONPYCACHEPREFIX" in os.environ:
        os.environ.pop("PYTHONDONTWRITEBYTECODE", None)


def compiled():
    """A folder with the bytecode of what the tools load, by each Python that they may start in."""
    folder = tempfile.mkdtemp(prefix="lpis-compiled-")
    os.chmod(folder, 0o755)
    surroundings = {name: value for name, value in os.environ.items() if name != "PYTHONDONTWRITEBYTECODE"}
    for python in {os.path.realpath(path) for path in (shutil.which("python3"), shapely_there.python()) if path}:
        subprocess.run([python, starter.__file__], env={**surroundings, "PYTHONPYCACHEPREFIX": folder}, check=False)
    return folder


@pytest.hookimpl(optionalhook=True)
def pytest_configure_node(node):
    node.workerinput["compiled"] = node.config.compiled


def pytest_unconfigure(config):
    if config.compiled and not hasattr(config, "workerinput"):
        shutil.rmtree(config.compiled, ignore_errors=True)


def pytest_collection_modifyitems(config, items):
    items.sort(
        key=lambda item: LONGEST.index(item.module.__name__) if item.module.__name__ in LONGEST else len(LONGEST)
    )
    waiting = [] if config.getoption("long") else [item for item in items if item.get_closest_marker("long")]
    if waiting:
        items[:] = [item for item in items if item not in set(waiting)]
        config.hook.pytest_deselected(items=waiting)
        if hasattr(config, "workeroutput"):
            config.workeroutput["waiting"] = len(waiting)


@pytest.hookimpl(optionalhook=True)
def pytest_testnodedown(node):
    """Counts what waits for --long once: each process has looked at all tests."""
    waiting = getattr(node, "workeroutput", {}).get("waiting", 0)
    if not node.config.pluginmanager.getplugin("terminalreporter").stats.get("deselected"):
        node.config.hook.pytest_deselected(items=[node] * waiting)


def processor():
    """The seconds of a processor that this process and all that it waited for have used for tests."""
    used = [resource.getrusage(whose) for whose in (resource.RUSAGE_SELF, resource.RUSAGE_CHILDREN)]
    return STARTS.seconds - STARTS.apart + sum(one.ru_utime + one.ru_stime for one in used)


@pytest.hookimpl(hookwrapper=True)
def pytest_runtest_protocol(item):
    """Keeps what a test used, with what it was the first to want: it goes with the report of its last part."""
    item.config.began = processor()
    yield


@pytest.hookimpl(hookwrapper=True)
def pytest_runtest_makereport(item, call):
    report = (yield).get_result()
    if call.when == "teardown":
        report.processor = processor() - item.config.began


def pytest_runtest_logreport(report):
    seconds = getattr(report, "processor", 0)
    if seconds > MOST and not report.keywords.get("long"):
        HEAVY.append(f"heavy: {report.nodeid} took {seconds:.0f} s of a processor")


def pytest_terminal_summary(terminalreporter):
    for line in HEAVY:
        terminalreporter.write_line(
            f"{line}: make it smaller, or mark it `long`; a test outside of --long has {MOST} s"
        )


@pytest.hookimpl(optionalhook=True)
def pytest_xdist_make_scheduler(config, log):
    from xdist.scheduler import LoadScopeScheduling  # is there where it calls this

    class Scheduling(LoadScopeScheduling):
        def _split_scope(self, nodeid):
            module = nodeid.partition(".py::")[0].rpartition("/")[2]
            return nodeid if module in SPREAD else module if module in TOGETHER else super()._split_scope(nodeid)

    return Scheduling(config, log)
