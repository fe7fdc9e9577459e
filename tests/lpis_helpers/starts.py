"""Starts of tools without a start of Python: a process that has loaded what they load forks for each (`starter.py`).
Two of them take turns, since each has an order of sets of its own: what hangs on that order differs from one start to
the next, as between starts of Python.

A start that such a process could not give is one as usual: in another Python, language or home, or with other words of
`subprocess.run` than these.
"""

import atexit
import json
import locale
import os
import select
import shutil
import signal
import socket
import subprocess
import tempfile
import threading

from lpis_helpers import starter

# The beginnings of the names that Python and the libraries look for once, when they begin.
AT_START = (
    "PYTHON",
    "LD_",
    "LC_",
    "LANG",
    "HOME",
    "TZ",
    "PROJ",
    "GDAL",
    "OGR",
    "GEOS",
    "OMP",
    "OPENBLAS",
    "MALLOC",
    "GLIBC",
)
WORDS = {
    "capture_output",
    "text",
    "encoding",
    "errors",
    "check",
    "env",
    "cwd",
    "input",
    "stdin",
    "stdout",
    "stderr",
    "timeout",
}
SHEBANG = b"#!/usr/bin/env python3\n"


class Starter:
    """A process that forks for each start."""

    def __init__(self, python):
        self.line, other = socket.socketpair(socket.AF_UNIX, socket.SOCK_SEQPACKET)
        with other:
            self.process = subprocess.Popen(
                [python, starter.__file__, str(other.fileno())],
                pass_fds=[other.fileno()],
                stdin=subprocess.DEVNULL,
                stdout=subprocess.DEVNULL,
            )

    def start(self, asked, streams, timeout):
        """The status of a start, None where it was out of time and ended, and its seconds of a processor."""
        with tempfile.TemporaryFile() as request:
            request.write(json.dumps(asked).encode())
            request.flush()
            socket.send_fds(self.line, [b"start"], [*streams, request.fileno()])
            number = int(self.line.recv(16))
        is_done = bool(select.select([self.line], [], [], timeout)[0])
        if not is_done:
            os.kill(number, signal.SIGKILL)
        status, seconds = json.loads(self.line.recv(64))
        return status if is_done else None, seconds

    def end(self):
        self.line.close()
        self.process.wait()


class Starts:
    """The starts that a process of tests asks for."""

    def __init__(self):
        self.seconds = 0.0  # of a processor, of all starts
        self.apart = 0.0  # of what is built for several tests, which counts for none of them
        self.count, self.starters, self.held, self.known, self.python = 0, [], threading.Lock(), None, None

    def begin(self):
        self.known, self.python = at_start(os.environ), shutil.which("python3")
        self.starters = [Starter(self.python) for _ in range(2)]
        atexit.register(self.end)

    def end(self):
        for one in self.starters:
            one.end()
        self.starters = []

    def can(self, path, more):
        """Whether a fork gives this start."""
        with open(path, "rb") as file:
            is_python = file.read(len(SHEBANG)) == SHEBANG
        if not (is_python and set(more) <= WORDS and hasattr(socket, "send_fds")):
            return False
        if not self.starters:
            self.begin()
        surroundings = os.environ if more.get("env") is None else more["env"]
        found = shutil.which("python3", path=surroundings.get("PATH"))
        return (
            found is not None
            and os.path.realpath(found) == os.path.realpath(self.python)
            and at_start(surroundings) == self.known
        )

    def run(self, words, env=None, cwd=None, timeout=None, check=False, **more):
        """As `subprocess.run` of a tool."""
        umask = os.umask(0)
        os.umask(umask)
        asked = {
            "words": [*map(str, words)],
            "folder": str(cwd or os.getcwd()),
            "umask": umask,
            "surroundings": dict(os.environ if env is None else env),
        }
        with self.held, Streams(**more) as streams:
            self.count += 1
            status, seconds = self.starters[self.count % 2].start(asked, streams.files, timeout)
            self.seconds += seconds
            out, err = streams.told()
        if status is None:
            raise subprocess.TimeoutExpired(asked["words"], timeout, out, err)
        ended = subprocess.CompletedProcess(asked["words"], status, out, err)
        if check:
            ended.check_returncode()
        return ended


class Streams:
    """The three streams of a start, each by the words of `subprocess.run`. What is to be read or written by this
    process is in a file meanwhile."""

    def __init__(
        self,
        input=None,
        capture_output=False,
        stdin=None,
        stdout=None,
        stderr=None,
        text=False,
        encoding=None,
        errors=None,
    ):
        self.encoding = (encoding or locale.getpreferredencoding(False)) if text or encoding or errors else None
        self.errors, self.kept = errors or "strict", []
        if input is not None:
            stdin = self.file(input.encode(self.encoding, self.errors) if self.encoding else input)
        if capture_output:
            stdout = stderr = subprocess.PIPE
        self.read = [self.file() if stream == subprocess.PIPE else None for stream in (stdout, stderr)]
        self.files = [self.number_of(stdin, 0), self.number_of(self.read[0] or stdout, 1)]
        self.files.append(self.files[1] if stderr == subprocess.STDOUT else self.number_of(self.read[1] or stderr, 2))

    def file(self, data=b"", path=None):
        self.kept.append(open(path, "r+b", buffering=0) if path else tempfile.TemporaryFile(buffering=0))
        self.kept[-1].write(data)
        self.kept[-1].seek(0)
        return self.kept[-1]

    def number_of(self, stream, number):
        if stream is None:
            return number
        if stream == subprocess.DEVNULL:
            stream = self.file(path=os.devnull)
        return stream if isinstance(stream, int) else stream.fileno()

    def told(self):
        """What came out, and what was said; None for what was not to be read."""
        return [file and self.text(file) for file in self.read]

    def text(self, file):
        file.seek(0)
        data = file.read()
        return (
            data.decode(self.encoding, self.errors).replace("\r\n", "\n").replace("\r", "\n") if self.encoding else data
        )

    def __enter__(self):
        return self

    def __exit__(self, *_):
        for file in self.kept:
            file.close()


def at_start(surroundings):
    return {name: value for name, value in surroundings.items() if name.startswith(AT_START)}


STARTS = Starts()
