"""Runs the tools over generated lands, each run in a process of its own with bounds of time and memory. Nothing of a
tool's answer is taken from this process: it only has loaded what every run loads, and forks, so that a run does not
begin with a second of imports."""

import atexit
import io
import os
import resource
import select
import signal
import sys
import tempfile
from dataclasses import dataclass
from pathlib import Path

from lpis_helpers import starter
from lpis_helpers.places import TOOLS

# What a run may take, by the points of its source: seconds of a processor, and megabytes beyond those of a process that
# has loaded all.
SECONDS, SECONDS_EACH = 10.0, 0.001
ROOM, ROOM_EACH = 500_000_000, 4_000
WALL = 30  # times as long by the clock, beside other work


@dataclass
class Run:
    """A run's end. The status is negative where a signal ended it, and None where it was out of time."""

    status: int | None
    text: str
    told: str
    seconds: float
    peak: int


class Runner:
    """Runs tools over sources of so many points."""

    def __init__(self, folder):
        self.folder = folder

    def run(self, tool, *words, points=1000):
        """A run of a script of tools/ with these words."""
        words = [os.path.join(TOOLS, tool), *map(str, words)]
        seconds, room = SECONDS + SECONDS_EACH * points, ROOM + ROOM_EACH * points
        with tempfile.TemporaryFile(dir=self.folder) as out, tempfile.TemporaryFile(dir=self.folder) as err:
            sys.stdout.flush()
            sys.stderr.flush()
            pid = os.fork()
            if pid == 0:
                os.environ["TMPDIR"], tempfile.tempdir = self.folder, None
                in_child(words, out.fileno(), err.fileno(), seconds, room)
            status, usage = waited(pid, WALL * seconds)
            texts = []
            for file in (out, err):
                file.seek(0)
                texts.append(file.read().decode("utf-8", "replace"))
        return Run(status, *texts, usage.ru_utime + usage.ru_stime, usage.ru_maxrss * 1024)


def waited(pid, wall):
    """Waits for a child; after so many seconds it is ended, and its status is None."""
    end = os.pidfd_open(pid)
    try:
        is_done = bool(select.select([end], [], [], wall)[0])
    finally:
        os.close(end)
    if not is_done:
        os.kill(pid, signal.SIGKILL)
    _, status, usage = os.wait4(pid, 0)
    code = os.waitstatus_to_exitcode(status)
    return (None if not is_done or code == -signal.SIGXCPU else code), usage


def in_child(words, out, err, seconds, room):
    """Becomes the tool, and never comes back."""
    status = 1
    try:
        atexit._clear()  # what this process would do at its end is not the tool's
        os.setpgid(0, 0)
        os.dup2(os.open(os.devnull, os.O_RDONLY), 0)
        os.dup2(out, 1)
        os.dup2(err, 2)
        sys.stdout = io.TextIOWrapper(os.fdopen(1, "wb", closefd=False), encoding="utf-8", errors="strict")
        sys.stderr = io.TextIOWrapper(
            os.fdopen(2, "wb", closefd=False), encoding="utf-8", errors="backslashreplace", line_buffering=True
        )
        begun = int(Path("/proc/self/statm").read_text(encoding="ascii").split()[0]) * resource.getpagesize()
        resource.setrlimit(resource.RLIMIT_AS, (begun + room, begun + room))
        resource.setrlimit(resource.RLIMIT_CPU, (int(seconds) + 1, int(seconds) + 1))
        resource.setrlimit(resource.RLIMIT_CORE, (0, 0))
        sys.argv = words
        status = starter.ended()
    finally:
        starter.leave(status)
