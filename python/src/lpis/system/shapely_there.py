"""Shapely is no part of Python: where this Python has none and the system's has, the system's goes on with the same
words."""

import importlib.util
import os
import subprocess
import sys

SYSTEM = "/usr/bin/python3"
LACKING = "Shapely is not there: install the package python3-shapely (Debian, Ubuntu), in a clone by dev/packages"


def is_there(python=None):
    if python is None:
        return importlib.util.find_spec("shapely") is not None
    return (
        os.access(python, os.X_OK)
        and subprocess.run([python, "-c", "import shapely"], capture_output=True, check=False).returncode == 0
    )


def python():
    """A Python that has Shapely, or None."""
    return sys.executable if is_there() else SYSTEM if is_there(SYSTEM) else None


def go_on_if_there():
    """Returns in a Python that has Shapely, or where none has it."""
    if not is_there() and os.path.realpath(sys.executable) != os.path.realpath(SYSTEM) and is_there(SYSTEM):
        sys.stdout.flush()
        os.execv(SYSTEM, [SYSTEM, *sys.argv])


def go_on(name):
    """Returns where Shapely is there."""
    go_on_if_there()
    if is_there():
        return
    print(f"{name}: {LACKING}", file=sys.stderr)
    sys.exit(64)
