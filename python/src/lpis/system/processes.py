"""The end of a tool by a signal: no program that it runs goes on after it, nor one that such a program runs.

    ending.listen()             from now on INT, TERM and HUP end all of them, and then raise `Stopped`
    ending.run, ending.start    as `subprocess.run` and `subprocess.Popen`, and never after such a signal
    with ending.held()          what is done to its end: a signal that comes meanwhile ends the programs, and is raised
        behind it
    ending.end_with_parent(pid) this process ends with the one that started it, KILL or not
    ending.tell(words)          how far the tool is, which such a signal tells
"""

import contextlib
import ctypes
import os
import signal
import subprocess
import sys
import threading
import time

SIGNALS = (signal.SIGINT, signal.SIGTERM, signal.SIGHUP)
# What the programs are sent, and after how many seconds: some programs do not hear INT.
STEPS = ((0, signal.SIGINT), (1, signal.SIGTERM), (10, signal.SIGKILL))

PARENT_DEATH = 1  # PR_SET_PDEATHSIG

_starting = threading.RLock()
_stops, _held = [], []
_said = {"state": "", "last": None}


class Stopped(KeyboardInterrupt):
    """A signal has come."""

    def __init__(self, number):
        state = _said["state"]
        super().__init__(f"stopped by {signal.Signals(number).name}" + (f": {state}" if state else ""))
        self.status = 128 + number


def stopped():
    """The signal that has come, as an exception, or None."""
    return Stopped(_stops[0]) if _stops else None


def tell(words):
    _said["state"] = words


@contextlib.contextmanager
def held():
    _held.append(True)
    try:
        yield
    finally:
        _held.pop()
        if _stops and not _held:
            heard(_stops[0])


def heard(number):
    if _said["last"]:
        _said["last"](Stopped(number))
    raise Stopped(number)


def start(words, **more):
    """A program. Where its text is read, bytes that are no letters are no crash."""
    if more.get("text") or more.get("encoding"):
        more.setdefault("errors", "backslashreplace")
    with _starting:
        if _stops:
            raise Stopped(_stops[0])
        return subprocess.Popen(words, **more)


def run(words, capture_output=False, check=False, input=None, **more):
    if capture_output:
        more["stdout"] = more["stderr"] = subprocess.PIPE
    if input is not None:
        more["stdin"] = subprocess.PIPE
    with start(words, **more) as process:
        out, err = process.communicate(input)
    if check and process.returncode:
        raise subprocess.CalledProcessError(process.returncode, words, out, err)
    return subprocess.CompletedProcess(words, process.returncode, out, err)


def listen(last=None):
    """What the parent ignores (a job in the background INT, nohup HUP) stays ignored. `last` is called with the
    exception in place of its raising: one that is raised while Shapely frees a shape is lost."""

    def stop(number, _frame):
        for other in SIGNALS:
            signal.signal(other, signal.SIG_IGN)
        with _starting:
            _stops.append(number)
        end_programs()
        if not _held:
            heard(number)

    _said["last"] = last
    for number in SIGNALS:
        if signal.getsignal(number) is not signal.SIG_IGN:
            signal.signal(number, stop)
    sys.unraisablehook = unraisable


def unraisable(lost, usual=sys.unraisablehook):
    if isinstance(lost.exc_value, Stopped):
        os._exit(lost.exc_value.status)
    usual(lost)


def end_programs():
    """Ends what this process runs, and what that runs: those too that are started meanwhile."""
    began, seen, told = time.monotonic(), {}, {}
    while True:
        for pid in below(os.getpid()):
            seen.setdefault(pid, stat_of(pid)[1:2])
        alive = [pid for pid, since in seen.items() if since and stat_of(pid)[1:2] == since]
        if not alive:
            return
        step = max(number for number, (after, _) in enumerate(STEPS) if time.monotonic() >= began + after)
        for pid in alive:
            if told.get(pid) != step:
                told[pid] = step
                send(pid, STEPS[step][1])
        time.sleep(0.01)


def end_with_parent(parent):
    """Has the system end this process when the one that started it ends, however that ends: KILL is heard by nobody."""
    with contextlib.suppress(OSError, AttributeError):  # no such call in this system
        ctypes.CDLL(None, use_errno=True).prctl(PARENT_DEATH, signal.SIGKILL, 0, 0, 0)
    if os.getppid() != parent:
        os._exit(128 + signal.SIGKILL)


def send(pid, number):
    try:
        os.kill(pid, number)
    except OSError:
        pass  # it has ended, or is another user's


def stat_of(pid):
    """The parent and the start of a process that runs; nothing of one that has ended."""
    try:
        with open(f"/proc/{pid}/stat", encoding="latin-1") as file:
            fields = file.read().rpartition(")")[2].split()
    except OSError:
        return ()
    return () if fields[0] in "ZX" else (int(fields[1]), fields[19])


def below(pid):
    """The processes that a process has started, with theirs."""
    parents, found = {}, [pid]
    for name in filter(str.isdigit, os.listdir("/proc")):
        parents.setdefault((stat_of(name) or (0,))[0], []).append(int(name))
    for one in found:
        found += parents.get(one, [])
    return found[1:]
