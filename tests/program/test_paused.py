"""Runs that are stopped and go on while they print, as by Ctrl-Z and `fg`: a write of which the system took a part is
no failed one, and the rest follows. No clause says so, since an output may fail at any write."""

import array
import fcntl
import signal
import subprocess
import termios
from pathlib import Path

import pytest
from lpis_helpers.places import BUILT
from lpis_helpers.stopping import hears_signals, until

ROWS, PIPE = 20_000, 65_536


def waiting(pipe):
    """How many bytes of a pipe were not read."""
    count = array.array("i", [0])
    fcntl.ioctl(pipe, termios.FIONREAD, count)
    return count[0]


def is_stopped(run):
    return Path(f"/proc/{run.pid}/stat").read_text(encoding="ascii").rpartition(")")[2].split()[0] == "T"


@pytest.mark.parametrize("pauses", (1, 3))
def test_a_run_that_is_stopped_while_it_prints(tmp_path, pauses):
    table = tmp_path / "squares.csv"
    table.write_text("wkt\n" + '"POLYGON((0 0,10 0,10 10,0 10,0 0))"\n' * ROWS, encoding="ascii")
    shown = b""
    with subprocess.Popen(
        [BUILT, "area", table], stdout=subprocess.PIPE, stderr=subprocess.PIPE, bufsize=0, preexec_fn=hears_signals
    ) as run:
        for _ in range(pauses):
            until(lambda: waiting(run.stdout) == PIPE, "the pipe is full")
            run.send_signal(signal.SIGSTOP)
            until(lambda: is_stopped(run), "it is stopped")
            run.send_signal(signal.SIGCONT)
            until(lambda: not is_stopped(run), "it goes on")
            shown += run.stdout.read(PIPE // 2)
        shown += run.stdout.read()
        said = run.stderr.read()
    assert (run.returncode, said, shown) == (0, b"", b"100.0000000\n" * ROWS)
