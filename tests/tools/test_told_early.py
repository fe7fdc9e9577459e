"""Tests what a run says of its surroundings: what stops is told before anything is rounded; a password is told nowhere;
an error of the system names its file; workers end with the run that began them; the log names the commit of a clone;
and a worker is no command of people."""

import os
import re
import shutil
import signal
import subprocess
import sys
import time
from pathlib import Path

import pytest
from lpis_helpers import dirty
from lpis_helpers.calls import ended_with, records, run, tool
from lpis_helpers.places import BUILT, PACKAGE, TOOLS, TOP
from lpis_helpers.spare import Spare, read, write, write_script
from lpis.source import output_names
from lpis.system import command_line as of_tools, files, printing, processes, program, shapely_there, unforeseen

lacks_shapely = pytest.mark.skipif(not shapely_there.python(), reason=shapely_there.LACKING)
SECRET = "s3cret"
CONNECTION = f"PG:dbname=land host=db user=clerk password={SECRET}"


def is_rounded(told):
    """Whether a run went on to the borders or cells."""
    return bool(re.search(r"(?m)^\w+: (borders|faces|rounding|land between)", told))


@lacks_shapely
class TestStops(Spare):
    def set_up(self):
        self.land, self.out = dirty.make(self.path("land.gpkg"), ["wide"]), self.path("out")

    def stops(self, *more, says, status=1):
        """Both ways of preparing stop with these words, and round nothing."""
        for name, words in (("prepare", ()), ("country", ("--workers", 1))):
            out = f"{self.out}-{name}"
            ended = ended_with(
                status, tool(*[name, "prepare"][: 1 + (name == "country")], self.land, out, *words, *more)
            )
            told = ended.stdout + ended.stderr
            assert all(word in told for word in says), told
            assert not is_rounded(told), told
            assert not os.path.exists(os.path.join(out, "parcels.csv"))
            if status == 1:
                assert "to look at: " in ended.stdout.splitlines()[-1]
                assert {row["kind"] for row in records(out, "findings.csv")} == {
                    row["kind"] for row in records(out, "prepared.csv") if not row["done"]
                }

    def test_previous(self):
        """Last year's folder that is none, has no tables, or is unfinished."""
        os.mkdir(self.path("empty"))
        self.stops("--previous", self.path("none"), says=["previous: ", "none"])
        self.stops("--previous", self.path("empty"), says=["previous: ", "covers.csv"])
        self.stops("--accept", "--previous", self.path("empty"), says=["previous: "])

    @pytest.mark.skipif(not shutil.which("ogr2ogr"), reason="there is no ogr2ogr")
    def test_system(self):
        """A system whose areas are not those of the land."""
        self.stops("--epsg", 3857, says=["system: ", "EPSG:3857"])

    def test_classes(self):
        """The line that mends the table is told, and mends it."""
        write("class,percent\nNONE,100\n", self.folder, "classes.csv")
        ended = ended_with(1, tool("prepare", self.land, self.path("first"), "--classes", self.path("classes.csv")))
        lines = re.findall(r"add the line (\S+,)\? to that table, with its percentage in place of the \?", ended.stdout)
        assert lines
        self.stops(
            "--classes",
            self.path("classes.csv"),
            says=[f"add the line {lines[0]}? to that table, with its percentage in place of the ?"],
        )
        write("class,percent\nNONE,100\n" + "".join(f"{line}100\n" for line in lines), self.folder, "classes.csv")
        assert (
            "\nclass: "
            not in tool("prepare", self.land, self.path("then"), "--classes", self.path("classes.csv")).stdout
        )

    def test_no_table_of_classes(self):
        shape = dirty.polygon(dirty.box(0, 0))
        bare = dirty.put(self.path("bare.gpkg"), [("A", shape)], [("P", "A", "GRASS", shape)], ())
        ended = ended_with(1, tool("country", "prepare", bare, self.out, "--workers", 1))
        assert (
            "class,percent and a line for each of these, with its percentage in place of the ?: GRASS,?"
            in ended.stdout,
            is_rounded(ended.stderr),
        ) == (True, False)

    def test_files_in_place_of_folders(self):
        for place in (self.path("out-prepare"), self.path("out-country")):
            write("mine", place)
        for name, more in (("prepare", ()), ("country", ("prepare",)), ("check", ())):
            out = self.path("out-prepare")
            ended = ended_with(64, tool(name, *more, self.land, *(["--out", out] if name == "check" else [out])))
            assert ("is there, and no folder" in ended.stderr, "Errno" in ended.stderr, is_rounded(ended.stderr)) == (
                True,
                False,
                False,
            ), ended.stderr
        assert read(self.folder, "out-prepare") == "mine"
        self.out = self.path("new")
        self.stops("--previous", self.path("land.gpkg"), says=["land.gpkg"])

    def test_devices_in_place_of_folders(self):
        """Below what is no folder nothing can be written: that is said at once, before the source is read."""
        for name, more in (("prepare", ()), ("country", ("prepare",)), ("check", ())):
            for out, words in (("/dev/full/x", "/dev/full is no file and no folder"), (self.land + "/x", "land.gpkg is ")):
                place = ["--out", out] if name == "check" else [out]
                ended = ended_with(64, tool(name, *more, self.land, *place, timeout=60))
                assert words in ended.stderr and "reading" not in ended.stderr, ended.stderr


class TestPasswords(Spare):
    def test_words(self):
        for text, wanted in (
            (CONNECTION, "PG:dbname=land host=db user=clerk password=***"),
            (f"password='my {SECRET}' user=x", "password=*** user=x"),
            (f'PASSWORD="{SECRET} b", c', "PASSWORD=***, c"),
            (f"postgresql://clerk:{SECRET}@db:5432/land", "postgresql://clerk:***@db:5432/land"),
            (f"MYSQL:land,user=a,password={SECRET},port=1", "MYSQL:land,user=a,password=***"),
            (f"pwd = {SECRET};x", "pwd = ***"),
            (f"a/b password=don\\'t{SECRET}", "a/b password=***"),
            ("x = 1 and passwords are none", "x = 1 and passwords are none"),
            ("http://host/a@b", "http://host/a@b"),
        ):
            assert printing.without_passwords(text) == wanted
        assert output_names.stem_of(CONNECTION) == "PG_dbname_land_host_db_user_clerk_password"

    @lacks_shapely
    def test_runs(self):
        """Neither what is printed nor any file has it, whatever goes wrong."""
        write_script('#!/bin/sh\necho "ERROR 1: cannot connect to $*" >&2\nexit 1\n', self.folder, "ogr2ogr")
        surroundings = {
            **os.environ,
            "PATH": f"{self.folder}:{os.environ['PATH']}",
            "LPIS": BUILT or "false",
            "TMPDIR": self.folder,
        }
        for words in (
            ("prepare", CONNECTION, "out"),
            ("country", "prepare", CONNECTION, "country"),
            ("check", CONNECTION),
            ("year", "r.db", "2026", f"'{CONNECTION}' --between 2", "--new"),
            ("prepare", CONNECTION, "out", "--none"),
        ):
            ended = tool(*words, env=surroundings, cwd=self.folder)
            assert (ended.returncode != 0, SECRET in ended.stdout + ended.stderr) == (True, False), ended.stderr
        names = [str(path) for path in Path(self.folder).rglob("*")]
        assert not [name for name in names if SECRET in name]
        assert not [name for name in names if os.path.isfile(name) and SECRET.encode() in Path(name).read_bytes()]

    def test_tracebacks(self):
        try:
            raise KeyError(CONNECTION)
        except KeyError as error:
            path = unforeseen.kept("test", error).rsplit(" ", 1)[1]
        assert ("password=***" in read(path), SECRET in read(path)) == (True, False)
        os.remove(path)


class TestErrors(Spare):
    def test_words(self):
        """With the file: that which the system names, else that which was written last."""
        path = self.path("table.csv")
        with files.anew(path) as file:
            file.write("x")
        for error, wanted in (
            (OSError(28, "No space left on device"), f"{path}: No space left on device"),
            (OSError(17, "File exists", "there"), "there: File exists"),
            (OSError(28, "No space left on device", ".new", None, "table.csv"), "table.csv: No space left on device"),
            (OSError(13, "Permission denied"), "Permission denied"),
            (OSError("in words"), "in words"),
        ):
            assert str(of_tools.words_of(error)) == wanted

    @pytest.mark.skipif(not os.path.exists("/dev/full"), reason="there is no /dev/full")
    def test_a_full_disk(self):
        ended = run(
            os.path.join(TOOLS, "faults"),
            os.path.join(TOP, "examples", "exact", "2024"),
            "/dev/full",
            env={**os.environ, "LPIS": BUILT or "false"},
        )
        assert (ended.returncode, "/dev/full: No space left on device" in ended.stderr, "Errno" in ended.stderr) == (
            64,
            True,
            False,
        ) or not BUILT, ended.stderr


class TestWorkers(Spare):
    def test_choices(self):
        ended = ended_with(64, tool("country", "none"))
        assert "status" in ended.stderr
        assert "job" not in ended.stderr
        ended_with(64, tool("country", "job"))

    def test_a_worker_ends(self):
        """With the process that began it, killed; one whose parent is gone does not begin."""
        script = (
            f"import sys, time; sys.path.insert(0, {PACKAGE!r}); from lpis.system import processes as ending;"
            " ending.end_with_parent(int(sys.argv[1])); print(1, flush=True); time.sleep(600)"
        )
        parent = (
            f"import os, subprocess, sys; run = subprocess.Popen([sys.executable, '-c', {script!r}, str(os.getpid())],"
            " stdout=subprocess.PIPE); run.stdout.readline(); print(run.pid, flush=True); run.wait()"
        )
        with subprocess.Popen([sys.executable, "-c", parent], stdout=subprocess.PIPE, text=True) as started:
            worker = int(started.stdout.readline())
            assert processes.stat_of(worker)
            started.kill()
        end = time.monotonic() + 60
        while processes.stat_of(worker) and time.monotonic() < end:
            time.sleep(0.05)
        assert not processes.stat_of(worker)
        assert run(sys.executable, "-c", script, 1).returncode == 128 + signal.SIGKILL

    @pytest.mark.skipif(not shutil.which("make"), reason="there is no make")
    def test_the_lock_stays_theirs(self):
        """Where what cuts goes on after the run was killed, no other run begins until it has ended."""
        country = self.path("country")
        os.makedirs(os.path.join(country, "only"))
        write("lpis-country 1\nregion only\n", country, "country.txt")
        for name in ("parcels", "covers", "classes"):
            shutil.copy(os.path.join(TOP, "examples", "exact", "2024", f"{name}.csv"), os.path.join(country, "only"))
        write_script(
            f'#!/bin/sh\n[ "$1" = --version ] || {{ echo $$ >{self.path("pid")}; exec sleep 600; }}\n',
            self.folder,
            "lpis",
        )
        with subprocess.Popen(
            [os.path.join(TOOLS, "country"), "cut", country, "--lpis", self.path("lpis")],
            stdout=subprocess.DEVNULL,
            stderr=subprocess.DEVNULL,
            text=True,
        ) as started:
            while not (os.path.exists(self.path("pid")) and read(self.folder, "pid").strip()):
                time.sleep(0.05)
            started.kill()
        again = [os.path.join(TOOLS, "country"), "cut", country, "--lpis", "true"]
        try:
            assert f"another run works in {country}: wait for its end" in ended_with(64, run(*again)).stderr
        finally:
            os.kill(int(read(self.folder, "pid")), signal.SIGKILL)
        end = time.monotonic() + 60
        while "another run works" in (ended := run(*again)).stderr and time.monotonic() < end:
            time.sleep(0.1)
        assert "region only: its cut failed" in ended.stdout, ended.stderr  # by `true`, so that it has begun


class TestCommits(Spare):
    def test_a_clone(self, monkeypatch):
        """The commit of the clone, and whether something changed since; of a program that knows its own that one."""
        clone, built = self.path("clone"), self.path("program")
        os.makedirs(os.path.join(clone, "tools"))
        os.makedirs(built)
        write_script("", built, "lpis")
        write("version 1\n", built, "facts")
        monkeypatch.setattr(program, "HERE", os.path.join(clone, "tools"))
        command = [os.path.join(built, "lpis")]
        assert program.commit_of(command) == ""
        write("x", clone, "tools", "year")
        for words in (
            ["init", "-q"],
            ["add", "."],
            ["-c", "user.name=a", "-c", "user.email=a@b", "commit", "-qm", "x"],
        ):
            ended_with(0, run("git", "-C", clone, *words))
        commit = run("git", "-C", clone, "rev-parse", "HEAD").stdout.strip()
        assert program.commit_of(command) == commit
        write("y", clone, "tools", "year")
        assert program.commit_of(command) == f"{commit} with changes"
        write("commit 0123\n", built, "facts")
        assert program.commit_of(command) == "0123"
