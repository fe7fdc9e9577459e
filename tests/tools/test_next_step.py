"""Tests that whoever is stopped is told what is wrong, and the step that helps, in words to copy."""

import argparse
import os
import re
import shlex
import signal
import subprocess
import sys
import time
from pathlib import Path

import pytest
from lpis_helpers import dirty
from lpis_helpers.calls import ended_with, tool
from lpis_helpers.places import BUILT, TOOLS, TOP
from lpis_helpers.spare import Spare, write
from lpis.register import standing_lines, table_standing, year_source
from lpis.source import land, layer_guesses
from lpis.system import shapely_there
from lpis.system.trouble import Trouble

lacks_shapely = pytest.mark.skipif(not shapely_there.python(), reason=shapely_there.LACKING)
ALL = (
    "all names at once: --name parcels=LAYER --name parcels.parcel=COLUMN --name covers=LAYER --name"
    " covers.piece=COLUMN --name covers.parcel=COLUMN --name covers.class=COLUMN"
)


class TestSources(Spare):
    """A source that is not there, or has other names."""

    def test_a_name_that_is_mistyped(self):
        """Where nothing is, that is said first; what is called nearly so is named."""
        write("", self.path("land-2026.gpkg"))
        for path, more in (("land-2026.gpk", "land-2026.gpkg"), ("field.shp", None)):
            with pytest.raises(Trouble, match="No such file or directory") as found:
                land.look(self.path(path))
            meant = f"; is {self.path(more)} meant?" if more else ""
            assert str(found.value) == f"{self.path(path)}: No such file or directory{meant}"
        land.look(self.path("land-2026.gpkg"))
        land.look("PG:dbname=land")

    @lacks_shapely
    def test_beside_a_year(self):
        """The folder of a published year beside it is not what stops."""
        os.mkdir(self.path("land-check"))
        write("yes\n", self.path("land-check"), "published-2026.txt")
        dirty.make(self.path("land.gpkg"), [])
        ran = ended_with(2, tool("check", "land.gpk", cwd=self.folder))
        assert ran.stdout == "land.gpk: No such file or directory; is land.gpkg meant?\n"
        assert "another folder by --out" not in ran.stderr

    @lacks_shapely
    def test_other_names(self):
        """All names that lack are asked for in one line, and the last line says what lacks."""
        made = dirty.make(self.path("land.gpkg"), [])
        ran = ended_with(2, tool("check", made, "--name", "parcels=A", "--name", "covers=B", "--out", self.path("out")))
        assert ran.stdout == f"{made}: no layer A; no layer B\n"
        assert re.search(f"(?m)^check: {ALL}$", ran.stderr), ran.stderr
        ran = ended_with(2, tool("check", made, "--name", "covers.piece=nr", "--out", self.path("out")))
        assert ran.stdout == f"{made}: layer covers: no column nr\n"
        assert "all of it at once" not in ran.stderr

    def test_names_that_are_known(self):
        reasons = ["no layer covers: there are B (nr) (--name covers=LAYER says which it is)"]
        assert layer_guesses.all_names(reasons, {"covers.parcel": "flik"}) == [
            "all names at once: --name covers=LAYER --name covers.piece=COLUMN --name covers.class=COLUMN"
        ]
        assert layer_guesses.all_names(["no column x (--name covers.piece=COLUMN says which it is)"], {}) == []

    def test_the_second_program(self):
        """audit/source.py takes lpis.toml beside the source, and words of a command line before it."""
        square = "POLYGON((0 0,10 0,10 10,0 10,0 0))"
        os.mkdir(self.path("out"))
        for folder, parcels, covers, heads in (
            (self.folder, "blocks", "uses", ("id,wkt", "nr,id,art,wkt", "Art,Anteil")),
            (self.path("out"), "parcels", "covers", ("parcel,wkt", "piece,parcel,class,wkt", "class,percent")),
        ):
            write(f'{heads[0]}\nA,"{square}"\n', folder, f"{parcels}.csv")
            write(f'{heads[1]}\nP,A,GRASS,"{square}"\n', folder, f"{covers}.csv")
            write(f"{heads[2]}\nGRASS,100\n", folder, "kinds.csv" if folder == self.folder else "classes.csv")

        def said(*words):
            script = os.path.join(TOP, "audit", "source.py")
            ran = subprocess.run(
                [sys.executable, "-B", script, self.folder, self.path("out"), *words],
                capture_output=True,
                text=True,
                check=False,
            )
            return ran.returncode, ran.stdout + ran.stderr

        assert said()[0] == 64
        names = {"parcel": "id", "piece": "nr", "class": "art"}
        write(
            'classes = "kinds.csv"  # beside it\n[layers]\nparcels = "blocks"\ncovers = \'uses\'\n[columns]\n'
            'parcels.parcel = "id"\n[columns.covers]\n'
            + "".join(f'{what} = "{called}"\n' for what, called in names.items())
            + '[columns.classes]\nclass = "Art"\npercent = "Anteil"\n',
            self.folder,
            "lpis.toml",
        )
        assert said() == (0, "yes\n")
        assert said("--name", "covers.class=id") == (1, said("--name", "covers.class=id")[1])
        write("Art,Anteil\nGRASS,50\n", self.folder, "kinds.csv")
        assert said()[0] == 1


class TestYears(Spare):
    def test_lineage(self):
        """Both commands that lead on, with their folders."""
        words = argparse.Namespace(register="my register.db", year=2027)
        assert year_source.how_to_propose(words, "land") == (
            ": tools/lineage --register 'my register.db' land land proposes it; look at it, and then: tools/year"
            " 'my register.db' 2027 land"
        )

    @lacks_shapely
    def test_a_year_without_lineage(self):
        release = self.path("release")
        os.mkdir(release)
        for name, head in (
            ("parcels", "parcel,wkt"),
            ("covers", "piece,parcel,class,wkt"),
            ("classes", "class,percent"),
        ):
            write(f"{head}\n", release, f"{name}.csv")
        register = self.path("r.db")
        ended_with(0, tool("year", register, "2026", release, "--new", "--lpis", BUILT))
        os.mkdir(self.path("next"))
        for name in ("parcels", "covers"):
            os.link(os.path.join(release, f"{name}.csv"), os.path.join(self.path("next"), f"{name}.csv"))
        write("class,percent\nGRASS,100\n", self.path("next"), "classes.csv")
        ran = ended_with(64, tool("year", register, "2027", self.path("next"), "--lpis", BUILT))
        again = f"tools/year {register} 2027 {self.path('next')}"
        assert f"lineage.csv is not there: tools/lineage --register {register}" in ran.stderr
        assert ran.stderr.endswith(f"proposes it; look at it, and then: {again}\n"), ran.stderr

    @pytest.mark.parametrize(
        "said, words",
        (
            ("mein land/land 26.gpkg", ["mein land/land 26.gpkg"]),
            ("mein land/land 26.gpkg --accept", ["mein land/land 26.gpkg", "--accept"]),
            (
                "mein land/land 26.gpkg --accept gap --out 'a b'",
                ["mein land/land 26.gpkg", "--accept", "gap", "--out", "a b"],
            ),
            ("'mein land/land 26.gpkg' --accept", ["mein land/land 26.gpkg", "--accept"]),
            ("land.gpkg --accept", ["land.gpkg", "--accept"]),
            ("none land.gpkg --accept", []),
        ),
    )
    def test_blanks(self, said, words, monkeypatch):
        """A path with blanks needs no quotation marks of its own before the words behind it."""
        os.mkdir(self.path("mein land"))
        write("", self.path("mein land"), "land 26.gpkg")
        write("", self.folder, "land.gpkg")
        monkeypatch.chdir(self.folder)
        assert year_source.words_of(said) == words

    def test_published(self):
        """What a folder is told to do next, before and after its tables are published."""
        tables = {"parcels.csv": "d1"}
        digest = table_standing.digest_of_tables(tables)
        for published, is_done in (([], False), ([{"tables": digest}], True), ([{"tables": "other"}], False)):
            found = argparse.Namespace(state=table_standing.WHOLE, tables=tables, published=published)
            assert standing_lines.is_published(found) == is_done
        assert standing_lines.is_published(None) is False
        assert standing_lines.next_of("out", [], False) == "tools/year DB YEAR out"
        assert standing_lines.next_of("out", [], True).startswith("nothing: these tables are published")
        assert standing_lines.next_of("out", ["x"], True) == "mend what stops"


class TestWords(Spare):
    @pytest.mark.skipif(not BUILT, reason="there is no program")
    def test_a_trace(self):
        """A refusal without tables has its words too, and --help says how to get them."""
        release = self.path("release")
        os.mkdir(release)
        for name, head in (
            ("parcels", "parcel,wkt"),
            ("covers", "piece,parcel,class,wkt"),
            ("classes", "class,percent"),
        ):
            write(f"{head}\n", release, f"{name}.csv")
        write("old,new\n", release, "lineage.csv")
        lpis = os.path.join(TOP, "lpis")
        run = lambda *words: subprocess.run([lpis, *words], capture_output=True, text=True, check=False)  # noqa: E731
        register = self.path("r.db")
        assert run("publish", register, "2026", release).returncode == 0
        ran = run("trace", "--explain", register, "BY-9999")
        assert (ran.returncode, ran.stdout) == (1, "refused 83\n")
        assert "the identifier is in no release" in ran.stderr and "stands before the line" not in ran.stderr
        assert run("trace", register, "BY-9999").stderr == ""
        assert "--explain puts a refusal into words" in run("--help").stdout

    @pytest.mark.parametrize("name", sorted(path.name for path in Path(TOOLS).iterdir() if path.is_file()))
    def test_a_signal_among_the_imports(self, name):
        """A tool that is stopped before it begins leaves no traceback."""
        script = Path(TOOLS, name)
        try:
            text = script.read_text(encoding="utf-8")
        except UnicodeDecodeError:
            return
        if not text.startswith("#!/usr/bin/env python3"):
            return
        write("import time\nopen('begun', 'w').close()\ntime.sleep(60)\n", self.folder, "argparse.py")
        ran = subprocess.Popen(
            [sys.executable, script, "--help"],
            cwd=self.folder,
            env={**os.environ, "PYTHONPATH": self.folder},
            stdout=subprocess.PIPE,
            stderr=subprocess.PIPE,
            text=True,
        )
        until = time.monotonic() + 60
        while not os.path.exists(self.path("begun")) and time.monotonic() < until:
            time.sleep(0.05)
        ran.send_signal(signal.SIGINT)
        out, errors = ran.communicate()
        assert (ran.returncode, out, errors) == (-signal.SIGINT, "", ""), shlex.join([name, errors])
