"""Where the tests find the tools, the repository and the built program, and how the scripts of this package are run.
Importing it puts the package `lpis` on the path of modules, also for scripts."""

import os
import subprocess
import sys

TOP = os.path.dirname(os.path.dirname(os.path.dirname(os.path.realpath(__file__))))
TOOLS, TESTS, PACKAGE = (os.path.join(TOP, *names) for names in (("tools",), ("tests",), ("python", "src")))
sys.path.insert(0, PACKAGE)
from lpis.system import program  # noqa: E402

# The path of the program: named by LPIS, or the one that ./lpis runs; None where there is none.
BUILT = os.path.realpath(os.environ["LPIS"]) if os.environ.get("LPIS") else program.beside()


def run_helper(name, *words):
    """Runs a module of this package as a script, such as `make_parcels`, with these words."""
    surroundings = {**os.environ, "PYTHONPATH": os.pathsep.join((TESTS, PACKAGE)), "PYTHONDONTWRITEBYTECODE": "1"}
    subprocess.run([sys.executable, "-m", f"lpis_helpers.{name}", *map(str, words)], check=True, env=surroundings)
