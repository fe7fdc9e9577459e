"""Tests that a tool which is forked (`lpis_helpers/starts.py`) answers as after a start of Python, and what then is
such a start after all."""

import os
import shutil
import subprocess

import pytest
from lpis_helpers.calls import run, tool
from lpis_helpers.places import BUILT, TOOLS, TOP
from lpis_helpers.spare import Spare, write, write_script
from lpis_helpers.starts import STARTS
from lpis.system import installation

# Over copies of examples in the folder of each run.
CASES = [
    *([name, word] for name in installation.COMMANDS for word in ("--help", "--none")),
    ["explain", "square"],
    ["faults", "overlap", "faults.geojson"],
    ["report", "square", "--json", "report.json"],
    ["prepare", "square", "prepared"],
    ["lineage", "square", "square", "lineage.csv"],
    ["country", "split", "square", "country"],
    ["country", "prepare", "square", "prepared"],
    ["year", "lpis.db", "1", "square"],
]
PROBE = (
    "#!/usr/bin/env python3\nimport atexit, os, sys\nprint({!r})\nsys.stdout.flush()\natexit.register(print, 'the"
    " end')\n{}\n"
)


class TestStarts(Spare):
    @pytest.mark.skipif(BUILT is None, reason="the program is not built")
    @pytest.mark.parametrize("words", CASES, ids=[" ".join(words) for words in CASES])
    def test_equal(self, words):
        """Status, texts and files."""
        found = []
        for name, start in (
            ("forked", tool),
            ("started", lambda name, *rest, **more: run(os.path.join(TOOLS, name), *rest, **more)),
        ):
            os.mkdir(folder := self.path(name))
            for example in ("square", "overlap"):
                shutil.copytree(os.path.join(TOP, "examples", example), os.path.join(folder, example))
            before = STARTS.count
            ended = start(*words, cwd=folder, input="refused 40 piece A\n")
            assert STARTS.count - before == (name == "forked")
            files = sorted(
                os.path.relpath(os.path.join(top, file), folder) for top, _, files in os.walk(folder) for file in files
            )
            # a run of over ten seconds tells its steps
            said = [line for line in ended.stderr.splitlines() if not line.startswith("country: ")]
            found.append((ended.returncode, ended.stdout, said, files))
        assert found[0] == found[1]

    def probe(self, code, **more):
        """A script of Python, forked."""
        path = self.path("probe")
        write_script(PROBE.format("begun", code), path)
        assert STARTS.can(path, more)
        return STARTS.run([path, "a", "b c"], **{"capture_output": True, "text": True, **more})

    @pytest.mark.parametrize(
        "text, status, out",
        (
            ("", 0, ""),
            ("sys.exit(3)", 3, ""),
            ("sys.exit('no')", 1, ""),
            ("raise ValueError('no')", 1, ""),
            ("os.kill(os.getpid(), 15)", -15, None),
            ("print(sys.argv[1:])", 0, "['a', 'b c']\n"),
            ("print(sys.stdin.read())", 0, "told\n\n"),
            ("os.system('echo from below')", 0, "from below\n"),
        ),
    )
    def test_ends(self, text, status, out):
        ended = self.probe(text, input="told\n")
        assert (ended.returncode, ended.stdout) == (status, "begun\n" + ("" if out is None else out + "the end\n"))
        assert ("no" in ended.stderr) == ("no" in text)

    def test_streams(self):
        text = "print('out'); print('err', file=sys.stderr)"
        assert (
            self.probe(text, capture_output=False, stdout=subprocess.PIPE, stderr=subprocess.STDOUT).stdout.count(
                "err\n"
            )
            == 1
        )
        assert (
            self.probe(text, capture_output=False, stdout=subprocess.DEVNULL, stderr=subprocess.PIPE).stderr == "err\n"
        )
        assert self.probe(text, text=False).stderr == b"err\n"

    def test_surroundings(self):
        """Its own, as is the folder; nothing of them stays for the next start."""
        text = "print(os.environ.get('LPIS_PROBE'), os.getcwd()); os.environ['LPIS_PROBE'] = 'left'"
        assert (
            self.probe(text, env={**os.environ, "LPIS_PROBE": "given"}, cwd=self.folder).stdout.splitlines()[1]
            == f"given {os.path.realpath(self.folder)}"
        )
        assert self.probe(text).stdout.splitlines()[1] == f"None {os.getcwd()}"

    def test_order_of_sets(self):
        """Another one from start to start: a tool whose files hang on it is found out."""
        told = {self.probe("print(hash('a'))").stdout for _ in range(2)}
        assert len(told) == 2 or os.environ.get("PYTHONHASHSEED")

    def test_out_of_time(self):
        with pytest.raises(subprocess.TimeoutExpired) as out_of_time:
            self.probe("import time; time.sleep(60)", timeout=0.5)
        assert out_of_time.value.stdout == "begun\n"
        assert self.probe("").returncode == 0

    def test_started(self):
        """What a fork could not give is a start."""
        path = self.path("probe")
        write_script(PROBE.format("begun", ""), path)
        write("#!/bin/sh\n", self.folder, "other")
        os.mkdir(self.path("bin"))
        os.symlink("/bin/true", self.path("bin", "python3"))
        for more in (
            {"env": {**os.environ, "PYTHONPATH": self.folder}},
            {"env": {**os.environ, "LC_ALL": "C"}},
            {"env": {**os.environ, "PATH": self.path("bin")}},
            {"start_new_session": True},
        ):
            assert not STARTS.can(path, more), more
        assert not STARTS.can(self.path("other"), {})
