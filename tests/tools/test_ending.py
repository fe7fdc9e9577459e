"""Tests that a tool that is stopped by a signal ends what it runs, and what that runs. The programs are stand-ins
that end by no means of their own."""

import os
import shutil
import signal
import subprocess
from pathlib import Path

import pytest
from lpis_helpers import dirty
from lpis_helpers import stopping
from lpis_helpers.places import TOOLS, TOP
from lpis_helpers.spare import Spare, write_script
from lpis.system import processes, shapely_there

# Runs a program of its own in the background, which hears no INT, and waits for it.
STANDIN = """#!/bin/sh
sleep 3600 &
echo $$ $! >>"$PIDS/new.$$"
mv "$PIDS/new.$$" "$PIDS/pids.$$"
wait
"""
EXACT = os.path.join(TOP, "examples", "exact", "2024")
REGION = "lpis-country 1\nregion only\n"
# A tool, its words, and the program that it runs; {0} is a folder with a source and a country.
CASES = (
    ("faults", f"{EXACT} {{0}}/f.geojson", "lpis"),
    ("report", f"{EXACT} {{0}}/land.gpkg --html {{0}}/r.html", "lpis"),
    ("country", "cut {0}/country --jobs 2", "lpis"),
    ("country", "check {0}/country", "lpis"),
    ("year", f"{{0}}/new.db 2024 {EXACT} --new", "lpis"),
)
OF_SHAPELY = (("prepare", "{0}/land.gml {0}/out", "ogr2ogr"),)


class TestEnding(Spare):
    def set_up(self):
        for name in ("bin", "tmp", "country", "country/only"):
            os.mkdir(self.path(name))
        dirty.make(self.path("land.gpkg"), [])
        for name, text in (("land.gml", "<none/>"), ("country/country.txt", REGION)):
            Path(self.path(name)).write_text(text, encoding="ascii")
        for name in ("parcels", "covers", "classes"):
            shutil.copy(os.path.join(EXACT, f"{name}.csv"), self.path("country/only"))
        for name in ("lpis", "ogr2ogr"):
            write_script(STANDIN, self.path(f"bin/{name}"))

    def pids(self):
        """Of the stand-ins that have begun."""
        return [
            int(word) for path in Path(self.folder).glob("pids.*") for word in path.read_text(encoding="ascii").split()
        ]

    def start(self, tool, words, program, ready=stopping.hears_signals):
        surroundings = {
            **os.environ,
            "PATH": f"{self.path('bin')}:{os.environ['PATH']}",
            "LPIS": self.path("bin/lpis"),
            "PIDS": self.folder,
            "TMPDIR": self.path("tmp"),
        }
        run = subprocess.Popen(
            [os.path.join(TOOLS, tool), *words.format(self.folder).split()],
            env=surroundings,
            preexec_fn=ready,
            stdout=subprocess.DEVNULL,
            stderr=subprocess.PIPE,
            text=True,
        )
        stopping.until(lambda: self.pids() or run.poll() is not None, f"{tool} runs {program}")
        return run

    def stopped(self, number, tool, words, program):
        run = self.start(tool, words, program)
        run.send_signal(number)
        told = run.communicate()[1]
        assert (run.returncode, "Traceback" in told, f"stopped by {number.name}" in told) == (
            128 + number,
            False,
            True,
        ), told
        assert (bool(self.pids()), [pid for pid in self.pids() if processes.stat_of(pid)]) == (True, []), told
        left = [
            os.path.join(at, name)
            for at, folders, files in os.walk(self.folder)
            for name in folders + files
            if name.endswith(".new") or name.startswith((".new-", ".prepare-"))
        ]
        assert (os.listdir(self.path("tmp")), left) == ([], [])

    def all_of(self, cases):
        for place, case in enumerate(cases):
            self.stopped(stopping.SIGNALS[place % 3], *case)
            for path in Path(self.folder).glob("pids.*"):
                path.unlink()

    def test_tools(self):
        self.all_of(CASES)

    def test_signals(self):
        self.all_of([CASES[0]] * 3)

    @pytest.mark.skipif(not shapely_there.python(), reason=shapely_there.LACKING)
    def test_sources(self):
        self.all_of(OF_SHAPELY)

    def test_ignored(self):
        """A signal that the parent ignores stays ignored: nohup."""

        def ready():
            stopping.hears_signals()
            signal.signal(signal.SIGHUP, signal.SIG_IGN)

        run = self.start(*CASES[0], ready)
        for number in (signal.SIGHUP, signal.SIGTERM):
            run.send_signal(number)
        run.communicate()
        assert (run.returncode, [pid for pid in self.pids() if processes.stat_of(pid)]) == (128 + signal.SIGTERM, [])

    def test_stubborn(self):
        """A program that hears neither INT nor TERM."""
        write_script(STANDIN.replace("sleep 3600 &", 'trap "" INT TERM\nsleep 3600 &'), self.path("bin/lpis"))
        self.stopped(signal.SIGTERM, *CASES[3])
