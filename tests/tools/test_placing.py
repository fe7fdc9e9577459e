"""Tests that tables take their place together: a tool is stopped at each of its renames, by each signal, by KILL and
by a full disk."""

import csv
import json
import os
import shutil
import subprocess
from pathlib import Path

import pytest
from lpis_helpers import dirty, places
from lpis_helpers.calls import tool
from lpis_helpers.country_case import Land
from lpis_helpers.spare import Spare, exhaustive, write_script
from lpis.system import files, placing, shapely_there
from lpis.system.trouble import Trouble

DRIVER = os.path.join(places.TESTS, "lpis_helpers", "stopped_renames.py")
SIGNALS = {"TERM": 143, "INT": 130, "HUP": 129, "KILL": -9}
TABLES = ("parcels.csv", "covers.csv", "classes.csv")
lacks_shapely = pytest.mark.skipif(not shapely_there.python(), reason=shapely_there.LACKING)


def trials(tool, start, how, *words):
    python = shapely_there.python() or "python3"
    ran = subprocess.run(
        [python, DRIVER, tool, str(start), how, *map(str, words)],
        capture_output=True,
        text=True,
        check=False,
        timeout=500,
    )
    assert ran.returncode == 0, ran.stdout + ran.stderr
    return json.loads(ran.stdout)


def tables_of(state, names):
    return {name: digest for name, digest in state.items() if os.path.basename(name) in names}


def judge(found, names):
    """Each run left the old tables or the new ones, and said which; the next one made the new ones."""
    last = tables_of(found[-1]["then"], names)
    first = tables_of(found[0]["after"], names)
    assert first != last
    for trial in found:
        after, told = tables_of(trial["after"], names), (trial["how"], trial["number"], trial["said"])
        if trial["how"] in SIGNALS and trial["status"] == SIGNALS[trial["how"]] and trial["how"] != "KILL":
            is_new = after == last
            assert is_new or after == first, told
            assert (
                "written" in trial["said"].splitlines()[-1] and "no table is written" not in trial["said"]
            ) == is_new, told
        elif trial["how"] == "full" and trial["status"]:
            assert (trial["status"], after, "No space left" in trial["said"], "Traceback" in trial["said"]) == (
                64,
                first,
                True,
                False,
            ), told
        elif trial["how"] == "KILL" and trial["status"]:
            assert not any(
                after.get(name) not in (first.get(name), last.get(name), None) for name in {*first, *last}
            ), told
        elif trial["how"] == "fuller" and trial["status"]:
            assert (trial["status"], "Traceback" in trial["said"]) == (64, False), told
        assert (trial["again"], tables_of(trial["then"], names)) == (0, last), (told, trial["said_again"])
        assert (
            after == last
            or trial["standing"].get("out") != "whole"
            and ("out" in trial["standing"] or "out" in trial["journals"])
        ), told
        assert trial["standing_then"]["out"] == "whole"


@lacks_shapely
class TestPrepare(Spare):
    def start(self):
        """A folder with last year's source and tables, and this year's source."""
        start = self.path("start")
        os.mkdir(start)
        for year, width in (("then", 10), ("now", 12)):
            shape = dirty.polygon(dirty.box(0, 0, width))
            dirty.put(
                os.path.join(start, f"{year}.gpkg"),
                [("A", shape)],
                [("A.1", "A", "GRASS" if year == "then" else "TREES", shape)],
            )
        Path(start, "classes.csv").write_text("class,percent\nGRASS,100\nTREES,30\n", encoding="ascii")
        run = subprocess.run(
            [
                os.path.join(places.TOOLS, "prepare"),
                os.path.join(start, "then.gpkg"),
                os.path.join(start, "out"),
                "--classes",
                os.path.join(start, "classes.csv"),
            ],
            capture_output=True,
            text=True,
            check=False,
        )
        assert run.returncode == 0, run.stdout + run.stderr
        Path(start, "out", "notes.csv").write_text("own\n", encoding="ascii")
        return start

    def words(self, start):
        Path(start, "classes.csv").write_text("class,percent\nGRASS,100\nTREES,40\n", encoding="ascii")
        return f"{start}/now.gpkg", f"{start}/out", "--classes", f"{start}/classes.csv", "--quiet"

    @pytest.mark.parametrize("how", ("KILL", "full", *map(exhaustive, ("TERM", "INT", "HUP", "fuller"))))
    def test_each_rename(self, how):
        start = self.start()
        found = trials("prepare", start, how, *self.words(start))
        assert len(found) > 6
        judge(found, TABLES)
        assert all(trial["then"]["out/notes.csv"] == found[0]["after"]["out/notes.csv"] for trial in found)


class TestSplit(Spare):
    @pytest.mark.parametrize("how", (exhaustive("TERM"), "KILL", "full"))
    def test_each_rename(self, how):
        start = self.path("start")
        for name, count in (("then", 3), ("now", 4)):
            Land(count, 4, 4).write(os.path.join(start, name))
        split = [os.path.join(places.TOOLS, "country"), "split"]
        subprocess.run([*split, f"{start}/then", f"{start}/out", "--parcels", "30"], check=True, capture_output=True)
        found = trials("country", start, how, "split", f"{start}/now", f"{start}/out", "--parcels", "30", "--quiet")
        for trial in found:
            for state in (trial["after"], trial["then"]):
                for name in [name for name in state if not name.startswith("out/")]:
                    del state[name]
        judge(found, (*TABLES, "lineage.csv", "country.txt", "split.txt", "balance.csv"))


@lacks_shapely
class TestLineage(Spare):
    @pytest.mark.parametrize("how", ("TERM", "KILL"))
    def test_each_rename(self, how):
        """Both tables, or none: a run that is told that one is there stops at it, so the next is asked only where
        none is."""
        start = self.path("start")
        for year, names in (("old", "ab"), ("new", "bc")):
            os.makedirs(os.path.join(start, year))
            with open(os.path.join(start, year, "parcels.csv"), "w", newline="", encoding="ascii") as file:
                csv.writer(file).writerows(
                    [
                        ["parcel", "wkt"],
                        *([name, f"POLYGON(({n} 0,{n + 1} 0,{n + 1} 1,{n} 1,{n} 0))"] for n, name in enumerate(names)),
                    ]
                )
        for trial in trials("lineage", start, how, f"{start}/old", f"{start}/new", f"{start}/new", "--workers", "1"):
            assert len([name for name in trial["then"] if "lineage" in name]) == 2, trial
            if how != "KILL":
                there = [name for name in trial["after"] if "lineage" in name]
                assert len(there) in (0, 2) and (len(there) == 2) == (
                    "are written" in trial["said"] or trial["status"] == 0
                ), trial


class Placed(Spare):
    def set_up(self):
        self.out = self.path("out")
        os.mkdir(self.out)
        for name in TABLES:
            Path(self.out, name).write_text("old", encoding="ascii")
        self.made = files.folder(self.out, ".prepare-")
        for name in TABLES:
            Path(self.made, name).write_text("new", encoding="ascii")

    def texts(self):
        return [
            Path(self.out, name).read_text(encoding="ascii") if os.path.exists(os.path.join(self.out, name)) else ""
            for name in TABLES
        ]


class TestJournals(Placed):
    def begin(self):
        """As a run leaves it that was killed behind its first renames."""
        move = placing.Move(self.out, os.path.basename(self.made), list(TABLES))
        move.make_ready()
        os.close(placing.begun(move)[1])
        os.replace(move.paths("classes.csv")[1], move.paths("classes.csv")[2])

    def test_put(self):
        os.chmod(os.path.join(self.out, "covers.csv"), 0o640)
        placing.put(self.made, self.out, TABLES)
        assert (self.texts(), os.stat(os.path.join(self.out, "covers.csv")).st_mode & 0o777) == (["new"] * 3, 0o640)
        assert placing.JOURNAL not in os.listdir(self.out)

    def test_a_folder_in_a_place(self):
        os.remove(os.path.join(self.out, "covers.csv"))
        os.mkdir(os.path.join(self.out, "covers.csv"))
        with pytest.raises(IsADirectoryError):
            placing.put(self.made, self.out, TABLES)
        assert (
            Path(self.out, "parcels.csv").read_text(encoding="ascii"),
            os.path.isdir(os.path.join(self.out, "covers.csv")),
        ) == ("old", True)

    def test_the_next_run_ends_it(self, capsys):
        self.begin()
        assert self.texts()[2] == ""
        placing.end(self.out)
        assert (self.texts(), sorted(os.listdir(self.out))) == (["new"] * 3, sorted(TABLES))
        assert "in their place now" in capsys.readouterr().err
        placing.end(self.out)

    def test_any_tool_ends_it(self):
        """Also one that reads alone, and of a folder in it."""
        self.begin()
        subprocess.run(
            [os.path.join(places.TOOLS, "explain"), self.out], input="", text=True, check=False, capture_output=True
        )
        assert self.texts() == ["new"] * 3

    def test_what_is_gone(self):
        """Where the new files were taken away, it is said, and nothing is moved."""
        self.begin()
        shutil.rmtree(self.made)
        with pytest.raises(Trouble, match="no longer there"):
            placing.end(self.out)

    def test_foreign_journals(self):
        """A journal moves nothing but files of its own folder into it."""
        other = self.path("other")
        os.mkdir(other)
        Path(other, "parcels.csv").write_text("other", encoding="ascii")
        for text in (
            "",
            "[]",
            "7",
            '["../other", ["parcels.csv"]]',
            '[".x", ["../out/parcels.csv"]]',
            json.dumps([self.path("other"), ["parcels.csv"]]),
            '["covers.csv", []]',
            '[".prepare", [1]]',
        ):
            Path(self.out, placing.JOURNAL).write_text(text, encoding="ascii")
            with pytest.raises(Trouble):
                placing.end(self.out)
            assert (self.texts(), os.listdir(other)) == (["old"] * 3, ["parcels.csv"])

    def test_strangers_journals(self, monkeypatch):
        """In a folder such as /tmp a journal of somebody else is none."""
        self.begin()
        monkeypatch.setattr(os, "geteuid", lambda: 4711)
        os.chmod(self.out, 0o1777)
        placing.end(self.out)
        assert self.texts()[2] == ""
        os.chmod(self.out, 0o777)
        placing.end(self.out)
        assert self.texts()[2] == "new"

    def test_a_living_run(self):
        """A journal that is locked is waited for, and then it is gone."""
        self.begin()
        path = os.path.join(self.out, placing.JOURNAL)
        with subprocess.Popen(
            ["flock", path, "sh", "-c", f"echo; sleep 1; rm {path}"], stdout=subprocess.PIPE
        ) as other:
            other.stdout.readline()
            placing.end(self.out)
        assert self.texts()[2] == ""


@pytest.mark.skipif(not places.BUILT, reason="the program is not built")
class TestYears(Spare):
    @pytest.mark.parametrize(
        "command, words, more",
        (
            ("publish", "2024 is published in {}, and its line is in the log", ()),
            ("cut", "nothing was published", ("--certificate",)),
        ),
    )
    def test_a_signal_at_a_command(self, command, words, more):
        """Behind a publication the log gets its line, whatever comes."""
        base, release, standin = self.path("lpis.db"), self.path("release"), self.path("lpis")
        shutil.copytree(os.path.join(places.TOP, "examples", "exact", "2024"), release)
        write_script(
            f'#!/bin/sh\n{places.BUILT} "$@"\nstatus=$?\n[ "$1" = {command} ] && kill -TERM $PPID\nexit $status\n',
            standin,
        )
        run = tool("year", base, "2024", release, "--new", "--year-anyway", *more, "--lpis", standin)
        assert (run.returncode, words.format(base) in run.stderr) == (143, True), run.stdout + run.stderr
        assert os.path.exists(base) == (command == "publish")
        if command == "publish":
            assert tool("year", "--verify", base).returncode == 0


class TestReports(Spare):
    def test_together(self):
        """Files of one report wait for each other."""
        one, other = self.path("one"), self.path("other")
        for name in (one, other):
            Path(name).write_text("old", encoding="ascii")
        with pytest.raises(ZeroDivisionError), files.together():
            for name in (one, other):
                with files.anew(name) as file:
                    file.write("new")
            assert Path(one).read_text(encoding="ascii") == "old"
            print(1 // 0)
        assert ([Path(name).read_text(encoding="ascii") for name in (one, other)], len(os.listdir(self.folder))) == (
            ["old"] * 2,
            2,
        )
        with files.together():
            for name in (one, other):
                with files.anew(name) as file:
                    file.write("new")
        assert [Path(name).read_text(encoding="ascii") for name in (one, other)] == ["new"] * 2
