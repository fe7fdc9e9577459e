"""Tests what is told of how much of a step is done, by a clock of its own."""

import io
import os
import re
import subprocess
import sys
import time
from unittest import mock

from lpis_helpers.places import PACKAGE
from lpis_helpers.terminal import Terminal
from lpis.system import file_progress, progress


class TestProgress:
    def told(self, seconds, is_terminal=False, count=100):
        """What is told where each of so many takes so many seconds."""
        file, now = io.StringIO(), [0.0]
        file.isatty = lambda: is_terminal
        step = progress.Progress("tool", "rounding", count, "cells", lambda: now[0], file)
        for _ in range(count):
            now[0] += seconds
            step.add()
        return file.getvalue()

    def test_quick(self):
        """A step that is done within ten seconds says nothing."""
        assert self.told(0.09) == ""
        assert self.told(0.09, True) == ""

    def test_in_a_file(self):
        """After ten seconds, then a line a minute, and one at the end."""
        lines = self.told(2.0).splitlines()
        assert lines == [
            "tool: rounding: 5 of 100 cells (5 %), 3 min left",
            "tool: rounding: 35 of 100 cells (35 %), 2 min left",
            "tool: rounding: 65 of 100 cells (65 %), 70 s left",
            "tool: rounding: 95 of 100 cells (95 %), 10 s left",
            "tool: rounding: 100 of 100 cells (100 %), took 3 min",
        ]

    def test_on_a_terminal(self):
        """One line that is written over."""
        text = self.told(1.0, True, 20)
        assert (text.count("\n"), text.count("\r")) == (0, 11)
        lines = text.split("\r")[1:]
        assert lines[0] == "tool: rounding: 10 of 20 cells (50 %), 10 s left"
        assert all(len(after) >= len(before.rstrip()) for before, after in zip(lines, lines[1:]))

    def test_quiet(self, monkeypatch):
        monkeypatch.setattr(progress.Quiet, "is_quiet", True)
        assert self.told(30.0) == ""

    def test_times(self):
        assert [progress.time_of(seconds) for seconds in (0.4, 89, 91, 5399, 5400, 20_000)] == [
            "0 s",
            "89 s",
            "2 min",
            "90 min",
            "1.5 h",
            "5.6 h",
        ]

    def test_rows(self):
        assert list(progress.each(range(2500), "tool", "reading", 2500, "rows")) == list(range(2500))
        assert list(progress.over(list("abc"), "testing")) == list("abc")

    def test_watched(self):
        """A program that says nothing: what it reads, by the system's count, and never all of it."""
        file, now = io.StringIO(), [0.0]
        shown = progress.Bytes("tool", "reading", 3 << 20, clock=lambda: now[0], file=file)
        with subprocess.Popen(
            ["sh", "-c", "head -c 4000000 /dev/zero >/dev/null; read line"], stdin=subprocess.PIPE
        ) as run, mock.patch.object(file_progress, "EACH", 0.01), file_progress.Watched(run.pid, shown):
            now[0] = 11.0
            ended = time.monotonic() + 60
            while not file.getvalue() and time.monotonic() < ended:
                time.sleep(0.01)
            run.communicate(b"\n")
        assert re.search(r"^tool: reading: [12] of 3 MB \(\d\d %\), \d+ s left\n", file.getvalue())
        assert file_progress.moved(0) is None

    def test_bytes(self):
        """Records with their lines, by the megabytes that passed by."""
        records = [(number, "", "x" * 1000) for number in range(3000)]
        assert list(progress.read(iter(records), "tool", "parcels", 3_000_000)) == records


class TestTeller:
    def test_in_a_file(self, capsys, monkeypatch):
        """Nothing of steps in the first ten seconds, then a line each; what is noted is told in any case."""
        now = [0.0]
        say = progress.Teller("tool", lambda: now[0])
        for seconds, told in ((9.9, "reading"), (9.9, progress.Note("kept")), (10.1, "rounding")):
            now[0] = seconds
            say(told)
        assert capsys.readouterr().err == "tool: kept\ntool: rounding\n"
        monkeypatch.setattr(progress.Quiet, "is_quiet", True)
        say("tables")
        say(progress.Note("moved"))
        assert capsys.readouterr().err == "tool: moved\n"

    def test_on_a_terminal(self):
        """One line, which goes before what is printed; and what stops has a colour, where NO_COLOR does not say
        otherwise."""
        script = (
            "import sys; sys.path.insert(0, sys.argv[1]); from lpis.system import printing; from lpis.system import"
            " progress; printing.begin(); say = progress.Teller('tool'); say('reading'); say('rounding'); print('yes');"
            " say('tables'); print('no: 2 findings stop (1 gap)'); print('it stops'); say(progress.Note('kept'));"
            " print('refused 41 parcels'); progress.LINE.clear(); printing.finish()"
        )
        for variable, wanted in (
            (
                "",
                (
                    "\x1b[32myes\x1b[0m",
                    "\x1b[31mno\x1b[0m: 2 findings \x1b[31mstop\x1b[0m (1 gap)",
                    "\x1b[31mrefused\x1b[0m 41 parcels",
                ),
            ),
            ("1", ("yes", "no: 2 findings stop (1 gap)", "refused 41 parcels")),
        ):
            shown = on_a_terminal([sys.executable, "-c", script, PACKAGE], NO_COLOR=variable, TERM="xterm")
            lines = [line.rpartition("\r")[2] for line in shown.replace("\r\n", "\n").split("\n")[:5]]
            assert lines == [wanted[0], wanted[1], "it stops", "tool: kept", wanted[2]], shown
            assert "tool: reading" in shown and "tool: tables" in shown


def on_a_terminal(words, **more):
    """What a program shows on a terminal."""
    with Terminal() as terminal, subprocess.Popen(
        words, stdin=terminal.end, stdout=terminal.end, stderr=terminal.end, env={**os.environ, **more}
    ) as ran:
        shown = terminal.handed_on().whole()
    assert ran.returncode == 0, shown
    return shown
