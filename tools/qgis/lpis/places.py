"""Where the program and its tools are, and how they are run: with their lines as progress, and ended where the user
cancels."""

import glob
import importlib
import importlib.util
import os
import shutil
import subprocess
import sys
import threading

from processing.core.ProcessingConfig import ProcessingConfig
from qgis.core import QgsProcessingException

SETTING = "LPIS_FOLDER"
HERE = os.path.dirname(os.path.realpath(__file__))
PACKAGE = "lpis_of_tools"
OF_TOOLS = ("python/lpis", "../python/src/lpis", "../../..")  # beside the tools: installed, in a clone, in a wheel
WAIT = 0.2  # seconds between two looks at the button 'Cancel'
# where pip puts what its commands run
OF_WHEEL = os.path.join("lib", "python3*", "*-packages", "lpis", "carried", "lib", "lpis")


def folders():
    """Where tools may lie: as set, beside the plugin (installed, or in the repository), or beside the command on the
    path."""
    found = shutil.which("lpis-prepare")
    beside = os.path.dirname(os.path.realpath(found)) if found else ""
    up = [os.path.normpath(os.path.join(HERE, *[".."] * steps)) for steps in (2, 3, 4)]
    by_pip = glob.glob(os.path.join(glob.escape(os.path.dirname(beside)), OF_WHEEL)) if beside else []
    return [
        ProcessingConfig.getSetting(SETTING) or "",
        os.environ.get("LPIS_FOLDER", ""),
        *(os.path.join(place, *more) for place in up for more in ((), ("lib", "lpis"))),
        beside,
        *by_pip,
    ]


def tool(name):
    """The path of a tool."""
    for folder in folders():
        path = os.path.join(folder, name) if folder else ""
        if path and os.path.isfile(path) and os.access(path, os.X_OK):
            return path
    raise QgsProcessingException(
        f"lpis-{name} is not found: install lpis, or set its folder in Settings > Options > Processing > Providers >"
        " LPIS release checks"
    )


def lpis():
    """The program itself."""
    named = os.environ.get("LPIS")
    if named:
        return named
    tools = os.path.dirname(tool("report"))
    top = os.path.dirname(tools)
    for path in (
        os.path.join(tools, "program", "lpis"),
        os.path.join(top, "out", "program", "lpis"),
        os.path.join(top, "program", "lpis"),
    ):
        if os.access(path, os.X_OK):
            return path
    found = shutil.which("lpis")
    if not found:
        raise QgsProcessingException("the program lpis is neither in the folder of its tools nor on the path")
    return found


def module(name):
    """A module of the package of the tools, which has a name of its own here: `lpis` is the plugin."""
    if PACKAGE not in sys.modules:
        folder = os.path.dirname(tool("prepare"))
        places = [os.path.normpath(os.path.join(folder, place)) for place in OF_TOOLS]
        place = next(place for place in places if os.path.isfile(os.path.join(place, "system", "program.py")))
        head = os.path.join(place, "__init__.py")
        spec = importlib.util.spec_from_file_location(PACKAGE, head, submodule_search_locations=[place])
        sys.modules[PACKAGE] = importlib.util.module_from_spec(spec)
        spec.loader.exec_module(sys.modules[PACKAGE])
    return importlib.import_module(f"{PACKAGE}.{name}")


def said_beside(source):
    """What lpis.toml beside a layer's file says, by the tools' own reader; None where there is none, or no file."""
    path = source.split("|")[0]
    if not os.path.exists(path):
        return None
    source_settings, trouble = module("source.source_settings"), module("system.trouble")
    try:
        return source_settings.beside(path)
    except trouble.Trouble as error:
        raise QgsProcessingException(str(error)) from None


def surroundings():
    """Python of QGIS is not handed on: the tools find their own."""
    return {name: value for name, value in os.environ.items() if name not in ("PYTHONHOME", "PYTHONPATH")}


class Ran:
    """What a run printed, its status, and the lines of its progress and its trouble."""

    def __init__(self, status, lines, told=()):
        self.status, self.lines, self.told = status, lines, told

    def last(self):
        return self.lines[-1] if self.lines else ""


def run(words, feedback, quiet=False, given=None):
    """Runs a program, with a line on its standard input where one is given. Its lines are shown as they come, unless it
    is quiet; a cancelled run is ended."""
    feedback.pushCommandInfo(" ".join(words))
    source = subprocess.DEVNULL if given is None else subprocess.PIPE
    with subprocess.Popen(
        words,
        stdout=subprocess.PIPE,
        stderr=subprocess.PIPE,
        stdin=source,
        text=True,
        errors="replace",
        env=surroundings(),
    ) as process:
        if given is not None:
            process.stdin.write(given + "\n")
            process.stdin.close()
        lines, told = [], []
        readers = [
            threading.Thread(target=take, args=(process.stdout, lines, None if quiet else feedback.pushInfo)),
            threading.Thread(target=take, args=(process.stderr, told, feedback.pushInfo)),
        ]
        for reader in readers:
            reader.start()
        while True:
            try:
                process.wait(WAIT)
                break
            except subprocess.TimeoutExpired:
                if feedback.isCanceled():
                    process.terminate()
        for reader in readers:
            reader.join()
    if feedback.isCanceled():
        raise QgsProcessingException("cancelled")
    return Ran(process.returncode, lines, told)


def take(stream, lines, show):
    for line in stream:
        lines.append(line.rstrip("\n"))
        if show:
            show(lines[-1])


def done(ran, what, also=()):
    """Stops the algorithm where a run ended otherwise than it may."""
    if ran.status not in (0, *also):
        raise QgsProcessingException(f"{what} ended with status {ran.status}: {next(iter(ran.told[-1:]), ran.last())}")
    return ran
