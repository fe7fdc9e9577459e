"""A process that has loaded what the tools load, and forks for each start of one, as `starts.py` asks it; without a
word it loads them and ends. What a tool meets is what it meets after a start of its own: its words, surroundings,
folder and streams, and modules that nobody used before."""

import atexit
import gc
import importlib
import json
import os
import pathlib
import runpy
import socket
import sys
import threading
import traceback

PACKAGE = os.path.join(os.path.dirname(os.path.dirname(os.path.dirname(os.path.realpath(__file__)))), "python", "src")
PRELOADED = [
    "numpy",
    "shapely.geometry",
    "shapely.ops",
    "shapely.strtree",
    "shapely.validation",
    "shapely.prepared",
    "pyproj",
    "sqlite3",
    "csv",
    "json",
    "tempfile",
]
STREAMS = 3  # standard input, standard output and standard error: behind them comes the file that has the request


def modules():
    """The modules of the package."""
    top = pathlib.Path(PACKAGE)
    for path in sorted((top / "lpis").glob("*/*.py")):
        yield ".".join(path.relative_to(top).with_suffix("").parts).removesuffix(".__init__")


def preload():
    """Loads what the tools load, so that each run begins at once."""
    if PACKAGE not in sys.path:
        sys.path.insert(0, PACKAGE)
    for name in [*PRELOADED, *modules()]:
        try:
            importlib.import_module(name)
        except ImportError:
            continue  # a run that needs it will tell
    gc.collect()
    gc.freeze()


def become(asked, files):
    """Takes the streams and surroundings of a request."""
    for number, file in enumerate(files[:STREAMS]):
        os.dup2(file, number)
    for file in files:
        os.close(file)
    os.umask(asked["umask"])
    os.chdir(asked["folder"])
    os.environ.clear()
    os.environ.update(asked["surroundings"])
    sys.argv = asked["words"]
    sys.path[0] = os.path.dirname(os.path.realpath(sys.argv[0]))


def serve(line):
    """Forks for each request, and tells the number of the process, and then its status and its seconds of a processor.
    Returns in the process that is to be the tool, and ends where nobody asks any more."""
    while True:
        text, files, _, _ = socket.recv_fds(line, 16, STREAMS + 1)
        if not text:
            sys.exit()
        asked = json.loads(os.pread(files[STREAMS], os.fstat(files[STREAMS]).st_size, 0))
        number = os.fork()
        if number == 0:
            line.close()
            return become(asked, files)
        for file in files:
            os.close(file)
        line.send(b"%d" % number)
        _, status, used = os.wait4(number, 0)
        line.send(json.dumps([os.waitstatus_to_exitcode(status), used.ru_utime + used.ru_stime]).encode())


def ended():
    """Runs the tool of `sys.argv`; the status with which Python would end, told as Python would tell it. What it
    would then free is not waited for."""
    status = 0
    try:
        runpy.run_path(sys.argv[0], run_name="__main__")
    except SystemExit as end:
        status = end.code
        if status is not None and not isinstance(status, int):
            print(status, file=sys.stderr)
            status = 1
        status = status or 0
    except BaseException:
        status = 1
        try:
            sys.excepthook(*sys.exc_info())
        except BaseException:
            traceback.print_exc()
    for thread in threading.enumerate():
        if thread is not threading.current_thread() and not thread.daemon:
            thread.join()
    atexit._run_exitfuncs()
    return status


def leave(status):
    """Ends this process as it is; what it has printed is written."""
    try:
        sys.stdout.flush()
        sys.stderr.flush()
    finally:
        os._exit(status)


if __name__ == "__main__":
    sys.path[0] = PACKAGE
    preload()
    if sys.argv[1:]:
        serve(socket.socket(fileno=int(sys.argv[1])))
        leave(ended())
