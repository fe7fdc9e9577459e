"""Tests tools/check: a yes or a picture of what is wrong, its statuses, and what it leaves where it is stopped.
Wants Shapely and the program."""

import json
import os
import re
import shlex
import shutil
import signal
import sqlite3
import subprocess
import sys
from pathlib import Path

import pytest
from lpis_helpers import dirty
from lpis_helpers.browser import CHROMIUM, Browser
from lpis_helpers.calls import ended_with, lpis, run, tool
from lpis_helpers.places import BUILT, PACKAGE, TOOLS
from lpis_helpers.spare import Kept, Spare, read, write, write_script
from lpis.formats import geopackage
from lpis.register import table_standing
from lpis.report import finding_views
from lpis.system import placing, shapely_there

LACKING = "the program is not built" if BUILT is None else "" if shapely_there.python() else shapely_there.LACKING
TABLES = {"parcels.csv", "covers.csv", "classes.csv", "report.txt"}
SHOWN = "(stops OR kind <> 'changed')"
BELOW = {"left out", "made", "changed", "lost"}  # what comes of those that stop
STOPPING = {"shape", "degrees", "invalid", "nameless", "doubled", "stranger", "bare", "overlap", "gap"}


def checked(land, *words, **more):
    return tool("check", *words, "--lpis", shlex.quote(BUILT), "--", land, **more)


def data_of(page):
    """What the scripts of a page read."""
    return json.loads(re.search(r'<script id="data" type="application/json">(.*?)</script>', page, re.DOTALL)[1])


def rows_of(path):
    """All findings of a GeoPackage: kind, layer, row, identifiers, whether there is a polygon, and whether it is shown
    by itself: all but the greatest change."""
    base = sqlite3.connect(path)
    layers = geopackage.layers_of(base)
    rows = [
        row
        for name in layers
        for row in base.execute(f'SELECT kind, layer, row, identifiers, geom IS NOT NULL, {SHOWN} FROM "{name}"')
    ]
    base.close()
    return rows


def names_in(folder):
    return {name for name in os.listdir(folder) if not name.startswith(".")}


@pytest.mark.skipif(bool(LACKING), reason=LACKING)
class TestDirt(Kept):
    """One run on a land with every fault."""

    @classmethod
    def set_up(cls):
        dirty.make(cls.path("land.gpkg"), [kind for kind in dirty.ALL if kind != "clean"])
        cls.ran = checked(cls.path("land.gpkg"), "--out", cls.path("out"))
        cls.page = read(cls.path("out", "index.html"))

    def test_it_ends_with_what_stops(self):
        ended_with(1, self.ran)
        last = self.ran.stdout.splitlines()[-1]
        assert re.match(r"no: \d+ findings stop \(\d+ gap, ", last), last
        assert (
            self.ran.stdout.splitlines()[-2]
            == f"page {self.path('out', 'index.html')}, for QGIS {self.path('out', 'findings.gpkg')}"
        )
        assert all(f"\n  {kind}: " in self.ran.stdout for kind in STOPPING), self.ran.stdout
        assert not TABLES & names_in(self.path("out"))

    def test_the_page_has_each_finding(self):
        """Each that stops has its row, what stops comes first, of that the largest, and below it what comes of it; each
        with a polygon shows it, and the worst have pictures."""
        data = data_of(self.page)
        rows, keys = data["tables"][0]["rows"], data["tables"][0]["keys"]
        assert {row[1] for row in rows if row[0] == "stops"} == STOPPING | BELOW
        order = [
            (row[0] != "stops", -float(row[5] or 0))
            for row in rows
            if row[0] in ("stops", "told") and row[1] not in BELOW
        ]
        for before, row in zip(rows, rows[1:]):
            if row[8].startswith("comes from "):
                assert (
                    row[8] == f"comes from {before[1]} {before[4]}".strip() or before[8] == row[8] or before[1] in BELOW
                )
        assert self.page.count("<figure ") == finding_views.MOST_PICTURES
        assert order == sorted(order)
        assert all(row[7] and row[8] for row in rows if row[0] == "stops")
        shown = [data["map"]["findings"]["names"][key[1]] for key in keys if key and key[0] == "findings"]
        found = rows_of(self.path("out", "findings.gpkg"))
        bare = {f"{row[0]} {row[3]}" for row in found if row[1] == "parcels" and not row[4]}
        by_pieces = [name for name in shown if name in bare]  # parcels without a shape
        assert by_pieces and len(shown) - len(by_pieces) == sum(row[4] and row[5] for row in found)
        assert len(shown) == data["map"]["findings"]["count"]
        overlap = next(row for row in rows if row[1] == "overlap" and "wide.2" in row[4])
        assert (overlap[2], overlap[5:7]) == ("covers", ["0.200", "0.020"])
        assert re.fullmatch(r"\d+ \d+", overlap[3])
        assert data["map"]["parcels"]["count"] > 20 and data["map"]["pieces"]["count"] > 40

    def test_the_page_asks_no_network_and_has_the_map_first(self):
        assert not re.search(r"https?:|<link|<img|@import|src=", self.page)
        places = [self.page.index(words) for words in ("<h2>Map</h2>", "<h2>Findings", "<h2>Facts</h2>")]
        assert places == sorted(places)
        assert re.search(r'<canvas class="map" tabindex="0" role="application" aria-label="Map\.', self.page)
        assert "tools/check" in self.page and "--accept" in self.page

    @pytest.mark.skipif(not CHROMIUM, reason="no Chromium (Debian: chromium)")
    def test_the_page_by_keyboard(self):
        with Browser() as browser:
            browser.call(
                "Emulation.setDeviceMetricsOverride", width=1200, height=900, deviceScaleFactor=1, mobile=False
            )
            browser.open(self.path("out", "index.html"), "document.readyState === 'complete'")
            found = browser.value(
                """(() => {
              const key = (to, name) => to.dispatchEvent(new KeyboardEvent('keydown', { key: name, bubbles: true, cancelable: true })), told = {};
              const chosen = () => map.chosen && `${map.chosen[0].names[map.chosen[1]]}`;
              const whole = map.view.scale;
              key(canvas, 'n'); told.first = chosen(); told.label = document.getElementById('name').textContent; key(canvas, 'n'); key(canvas, 'p'); told.again = chosen();
              told.near = map.view.scale > whole; key(canvas, '0'); told.whole = map.view.scale === whole;
              const left = map.view.x; key(canvas, 'ArrowRight'); told.moved = map.view.x > left; key(canvas, '+'); told.larger = map.view.scale > whole;
              const row = [...document.querySelectorAll('tr.row')].find(one => one.textContent.includes('wide-2.1')); key(row, 'Enter'); told.row = chosen(); told.tab = row.tabIndex;
              const head = document.querySelector('table.sorted th:nth-child(2)'); key(head, 'Enter'); told.sorted = head.dataset.down;
              return told; })()"""  # noqa: E501
            )
        rows = data_of(self.page)["tables"][0]["rows"]
        first = f"{rows[0][1]} {rows[0][4]}"
        assert found == {
            "first": first,
            "label": found["label"],
            "again": first,
            "near": True,
            "whole": True,
            "moved": True,
            "larger": True,
            "row": "overlap wide-2.1 wide.2",
            "tab": 0,
            "sorted": "1",
        }
        assert found["label"].startswith(f"stops: {first}, ")

    def test_accepted_it_is_a_yes(self):
        """What is accepted stays on the page; the folder is a release, and another run that stops takes its tables
        away."""
        out = shutil.copytree(self.path("out"), self.path("accepted"))
        ran = ended_with(0, checked(self.path("land.gpkg"), "--accept", "--out", out))
        assert ran.stdout.splitlines()[-1] == "yes"
        assert "accepted by --accept: " in ran.stdout
        assert names_in(out) > TABLES | {"prepared-1.csv", "index.html"}
        assert lpis("check", out)[1] == read(out, "report.txt")
        states = {row[0] for row in data_of(read(out, "index.html"))["tables"][0]["rows"]}
        assert "accepted" in states and "stops" not in states
        ended_with(1, checked(self.path("land.gpkg"), "--out", out))
        assert names_in(out) & TABLES == {"classes.csv"}


@pytest.mark.skipif(bool(LACKING), reason=LACKING)
class TestRuns(Spare):
    def set_up(self):
        self.land, self.out = self.path("land.gpkg"), self.path("out")

    def clean(self, classes=(("GRASS", 100), ("TREES", 30))):
        dirty.put(self.land, *dirty.rows_of([]), classes)
        return self.land

    def test_a_clean_land(self):
        ran = ended_with(0, checked(self.clean(), cwd=self.folder))
        out = self.path("land-check")
        assert ran.stdout.splitlines()[-1] == "yes"
        assert names_in(out) > TABLES
        page = read(out, "index.html")
        assert data_of(page)["map"]["findings"]["count"] == 0 and "<h2>Findings" not in page
        assert '<p class="yes">yes</p>' in page
        assert sorted(os.listdir(self.folder)) == ["land-check", "land.gpkg"]  # and no register
        assert "cert.txt" not in names_in(out) and "sha256 of certificate" not in page

    def test_a_certificate(self):
        """It is kept where that is wanted, and does not outlive its tables."""
        cert = os.path.join(self.out, "cert.txt")
        ended_with(0, checked(self.clean(), "--out", self.out, "--certificate"))
        assert lpis("check", self.out, cert)[1] == read(self.out, "report.txt")
        assert "sha256 of certificate" in read(self.out, "index.html")
        ran = ended_with(0, checked(self.land, "--out", self.out))
        assert not os.path.exists(cert)
        assert f"{cert} is removed: it was the certificate of the earlier tables" in ran.stderr

    def test_a_land_without_percentages(self):
        """It stops and says what to write; once that is written, it is a yes."""
        ran = ended_with(1, checked(self.clean(classes=()), "--out", self.out))
        assert (
            f"write {self.path('out', 'classes.csv')}" in ran.stdout and "no: 1 finding stops (1 classes)" in ran.stdout
        )
        assert not TABLES & names_in(self.out)
        write("class,percent\nGRASS,100\nTREES,30\n", self.out, "classes.csv")
        ended_with(0, checked(self.land, "--out", self.out))

    def test_all_that_is_wrong(self):
        """Classes that lack hinder nobody from looking for overlaps and gaps; what hinders is told, on the page too."""
        dirty.put(self.land, *dirty.rows_of(["wide"]))
        table = self.path("classes.csv")
        write("class,percent\nNONE,100\n", table)
        for words in ((), ("--accept",)):
            ran = ended_with(1, checked(self.land, "--out", self.out, "--classes", table, *words))
            lines = ran.stdout.splitlines()
            assert any(line.startswith("class ") for line in lines), ran.stdout
            assert any(line.startswith("overlap wide") for line in lines) == (not words), ran.stdout
            assert lines[-1].startswith("no: ") and "not looked for yet" not in ran.stdout
            assert not TABLES & names_in(self.out)
        ran = ended_with(1, checked(self.land, "--out", self.out, "--previous", self.path("none")))
        told = (
            "not looked for yet: overlaps, gaps, pieces outside of their parcel, since previous stops the run first:"
            " mend that, and run it again"
        )
        assert f"\n{told}\n" in ran.stdout and told in read(self.out, "index.html")
        assert not any(line.startswith("overlap ") for line in ran.stdout.splitlines())

    def test_what_has_no_shape_is_drawn_by_its_pieces(self):
        """A parcel without a shape, and a class that lacks: the map has their pieces."""
        shapes = [dirty.polygon(dirty.box(x, 0)) for x in (0, 20)]
        covers = [("A1", "A", "GRASS", shapes[0]), ("B1", "B", "FALLOW", shapes[1])]
        dirty.put(self.land, [("A", None), ("B", shapes[1])], covers)
        ran = ended_with(1, checked(self.land, "--out", self.out))
        assert "class FALLOW, at 550025.000 5400005.000: 1 piece has this class, B1 (fid 2), which the table" in ran.stdout
        assert "add the line FALLOW,? to that table, with its percentage in place of the ?" in ran.stdout
        page = read(self.out, "index.html")
        assert '"class FALLOW"' in page and '"shape A"' in page

    def test_no_classes_and_more(self):
        """That there is no table of classes is told beside all else that is wrong."""
        shapes = [dirty.polygon(dirty.box(x, 0)) for x in (0, 9.5)]
        covers = [(f"{name}1", name, "GRASS", shape) for name, shape in zip("AB", shapes)]
        dirty.put(self.land, list(zip("AB", shapes)), covers, ())
        ran = ended_with(1, checked(self.land, "--out", self.out))
        assert re.search(
            r"(?m)^no: 2 findings stop \((1 classes, 1 overlap|1 overlap, 1 classes)\)", ran.stdout
        ), ran.stdout

    def test_what_is_accepted_is_told_from_what_stops(self):
        dirty.put(self.land, *dirty.rows_of(["wide", "crossing"]))
        ended_with(1, checked(self.land, "--out", self.out, "--accept", "invalid,gap"))
        states = {row[1]: row[0] for row in data_of(read(self.out, "index.html"))["tables"][0]["rows"]}
        assert (states["overlap"], states["gap"], states["invalid"]) == ("stops", "accepted", "accepted")

    def test_a_source_that_is_none(self):
        write("no land\n", self.path("land.txt"))
        for land, words in ((self.path("land.txt"), "cannot read it"), (self.path("none.gpkg"), "No such file")):
            ran = ended_with(2, checked(land, "--out", self.out))
            assert words in ran.stderr and ran.stdout.startswith(f"{land}: ") and words in ran.stdout
            assert not os.path.exists(self.out)
        dirty.put(self.land, *dirty.rows_of([]))
        ran = ended_with(2, checked(self.land, "--name", "parcels=blocks", "--out", self.out))
        assert (
            "no layer blocks: there are parcels (parcel), covers (piece, parcel, class), classes (class, percent)"
            " (--name parcels=LAYER says which it is)" in ran.stderr
        )

    def test_a_folder_of_somebody_else(self):
        self.clean()
        os.mkdir(self.out)
        write("old,new\n", self.out, "lineage.csv")
        write("parcel,wkt\n", self.out, "parcels.csv")
        ran = ended_with(64, checked(self.land, "--out", self.out))
        assert "tools/check did not make it (it has parcels.csv)" in ran.stderr
        assert names_in(self.out) == {"lineage.csv", "parcels.csv"}
        os.remove(self.path("out", "parcels.csv"))
        ended_with(0, checked(self.land, "--out", self.out))
        write("yes\n", self.out, "published-2026.txt")
        assert "has a year that was published" in ended_with(64, checked(self.land, "--out", self.out)).stderr
        assert "name another by --out" in ended_with(64, checked(self.land, "--out", self.land)).stderr

    def test_a_dashed_name(self):
        os.rename(self.clean(), self.path("-land.gpkg"))
        ended_with(0, checked("-land.gpkg", cwd=self.folder))
        ended_with(0, checked("-land.gpkg", "--out=-x", cwd=self.folder))
        assert sorted(os.listdir(self.folder)) == ["-land.gpkg", "-x", "land-check"]

    def test_a_pipe_that_is_closed_early(self):
        """Everything stands in its place, though nobody reads what is printed."""
        reading, writing = os.pipe()
        os.close(reading)
        words = [os.path.join(TOOLS, "check"), self.clean(), "--out", self.out, "--lpis", shlex.quote(BUILT)]
        ran = subprocess.run(words, stdout=writing, stderr=subprocess.PIPE, text=True, check=False)
        os.close(writing)
        assert (ran.returncode, "Traceback" in ran.stderr, names_in(self.out) > TABLES) == (64, False, True), ran.stderr

    def test_a_run_that_is_stopped(self):
        """A kill and a signal in the midst leave what stood there; the next run is as if they had not been."""
        dirty.put(self.land, *dirty.rows_of(["wide"]))
        ended_with(1, checked(self.land, "--out", self.out))
        before = {name: read(self.out, name) for name in ("index.html", "prepared.csv")}
        self.clean()
        killer = self.path("lpis")
        for number, status in ((signal.SIGKILL, -9), (signal.SIGTERM, 143)):
            write_script(
                f"#!/bin/bash\n[[ $1 == --version ]] && echo lpis 0 && exit\nkill -{number.value} $PPID\nsleep 30\n",
                killer,
            )
            ran = run(os.path.join(TOOLS, "check"), self.land, "--out", self.out, "--lpis", shlex.quote(killer))
            assert ran.returncode == status, ran.stderr
            assert {name: read(self.out, name) for name in before} == before
            assert not TABLES & names_in(self.out)
        ended_with(0, checked(self.land, "--out", self.out))
        assert [name for name in os.listdir(self.out) if name.startswith(".check")] == []

    def test_tables_that_lpis_refuses(self):
        """What lpis says is the answer, with its place on the map."""
        liar = self.path("lpis")
        write_script(
            f"""#!/bin/bash
[[ $1 == check && $2 == */made ]] || exec {shlex.quote(BUILT)} "$@"
echo refused 41 pieces clean1.1 clean1.2 at 550001000000 5400001000000 1000
exit 1
""",
            liar,
        )
        ran = run(os.path.join(TOOLS, "check"), self.clean(), "--out", self.out, "--lpis", shlex.quote(liar))
        ended_with(1, ran)
        assert ran.stdout.splitlines()[0].startswith("refused 41 ")
        assert ran.stdout.splitlines()[-1] == "no: lpis refuses the tables, 1 fault"
        assert len(data_of(read(self.out, "index.html"))["map"]["marks"]) == 1

    def test_a_year_of_a_source(self):
        """tools/year takes the source itself, with words of tools/check behind it; a later year wants its lineage."""
        base, more = self.path("register.db"), ["--lpis", shlex.quote(BUILT)]
        write("class,percent\nGRASS,100\nTREES,30\n", self.path("shares.csv"))
        self.clean(classes=())
        ended_with(1, tool("year", base, 2025, self.land, "--new", *more, cwd=self.folder))
        assert not os.path.exists(base)
        ran = ended_with(
            0,
            tool(
                "year", base, 2025, f"{self.land} --classes {self.path('shares.csv')}", "--new", *more, cwd=self.folder
            ),
        )
        assert "\nyes\n" in ran.stdout and "published 2025, in land-2025/published-2025.txt" in ran.stdout
        assert "<h2>Map</h2>" in read(self.folder, "land-2025", "report-2025.html")
        words = [f"{self.land} --classes shares.csv --out next", "--previous", "land-2025", *more]
        ran = ended_with(1, tool("year", base, 2026, *words, cwd=self.folder))
        assert "next has a yes, and no lineage.csv: tools/lineage --register " in ran.stderr
        write("old,new\n", self.folder, "next", "lineage.csv")
        assert (
            "byte for byte, those that were published in 2025"
            in ended_with(1, tool("year", base, 2026, *words, cwd=self.folder)).stderr
        )
        assert (
            "published 2026" in ended_with(0, tool("year", base, 2026, *words, "--year-anyway", cwd=self.folder)).stdout
        )
        assert "is not there" in ended_with(64, tool("year", base, 2027, "none", *more, cwd=self.folder)).stderr

    def test_words_that_are_not_known(self):
        ended_with(64, checked(self.clean(), "--accept", "nonsense"))
        ended_with(64, run(os.path.join(TOOLS, "check")))


@pytest.mark.skipif(bool(LACKING), reason=LACKING)
class TestCountries(Spare):
    """Sources of more rows than a release has, which has at most three here: they go by tools/country, to a yes or to
    its page."""

    LAST = "country regions 1 parcels 4 pieces 8 area 400.0000000 eligible 260.000000000"

    def set_up(self):
        self.land, self.out = self.path("land.gpkg"), self.path("out")
        dirty.put(self.land, *dirty.rows_of([]), (("GRASS", 100), ("TREES", 30)))

    def checked(self, first="", known=("tested_source", "country_checking")):
        """A run that does something first. Where `known` has no country_checking the rows are counted once they are
        read."""
        knobs = "; ".join(f"{module}.MOST_ROWS = 3" for module in known)
        script = f"import os, runpy, sys; sys.path.insert(0, {PACKAGE!r})\n"
        script += f"from lpis.checking import country_checking; from lpis.preparation import tested_source\n{knobs}\n{first}\n"
        script += f"runpy.run_path({os.path.join(TOOLS, 'check')!r}, run_name='__main__')"
        return run(
            shapely_there.python(), "-B", "-c", script, "--lpis", shlex.quote(BUILT), "--out", self.out, self.land
        )

    def yes(self, ran):
        ended_with(0, ran)
        assert ran.stdout.splitlines()[-1] == "yes" and self.LAST in ran.stdout
        assert (table_standing.of(self.out).state, table_standing.why_not(self.out)) == ("whole", "")
        assert os.path.isfile(self.path("out", "country.txt")) and "border of a region" in read(self.out, "index.html")
        assert names_in(self.out) & TABLES == {"classes.csv"}
        assert not [*Path(self.out).glob("*/cert.txt"), *Path(self.out).glob("*/cut.txt")]

    def test_to_its_end(self):
        self.yes(self.checked())
        dirty.put(self.land, *dirty.rows_of(["wide", "null"]))
        ran = ended_with(1, self.checked())
        assert (
            ran.stdout.splitlines()[-1]
            == "no: 3 findings stop (1 gap, 1 overlap, 1 shape), and 4 that come from them"
            == ended_with(1, checked(self.land, "--out", self.path("release"))).stdout.splitlines()[-1]
        ), ran.stdout
        shown = data_of(read(self.out, "index.html"))["map"]["findings"]["names"]
        assert sorted(shown) == [
            "changed null",
            "changed wide",
            "changed wide.2",
            "gap null",
            "overlap wide-2.1 wide.2",
        ]

    @pytest.mark.parametrize("known", (("tested_source", "country_checking"), ("tested_source",)))
    def test_over_a_release(self, known):
        """The folder is this run's from its first act to the last, by whichever tools it works; so is that of a
        country."""
        ended_with(0, checked(self.land, "--out", self.out))
        self.yes(self.checked(known=known))
        self.yes(self.checked(known=known))

    @pytest.mark.parametrize(
        ("number", "known"),
        ((signal.SIGTERM, ("tested_source",)), (signal.SIGKILL, ("tested_source", "country_checking"))),
    )
    def test_stopped_where_it_is_handed_over(self, number, known):
        """Nobody takes what stands in the folder then, and the next run goes to its end."""
        ended_with(0, checked(self.land, "--out", self.out))
        ran = self.checked(f"country_checking.Country.called = lambda *_: os.kill(os.getpid(), {number.value})", known)
        assert ran.returncode == (143 if number == signal.SIGTERM else -9), ran.stderr
        assert not (TABLES | {"index.html", "country.txt"}) - {"classes.csv"} & names_in(self.out)
        assert "`tools/check --lpis " in table_standing.why_not(self.out)
        assert "is unfinished" in ended_with(1, tool("country", "cut", self.out)).stderr
        self.yes(self.checked(known=known))

    def test_another_run_between_its_steps(self):
        """What it says yes to are the tables that it made: no other run begins before its end."""
        other = [sys.executable, os.path.join(TOOLS, "country"), "prepare", self.land, self.out]
        first = f"""
import subprocess
called = country_checking.Country.called
def after(self, *said):
    ran = called(self, *said)
    print(subprocess.run({other!r}, capture_output=True, text=True).stderr, file=sys.stderr)
    return ran
country_checking.Country.called = after"""
        ran = self.checked(first)
        self.yes(ran)
        assert ran.stderr.count(f"another run works in {self.out}: wait for its end") == 3, ran.stderr


class TestPlaces(Spare):
    @pytest.mark.parametrize("number", range(1, 6))
    def test_files_that_leave_their_place(self, number):
        """A kill at any rename leaves the old files or the new ones once the next run has ended it; none that goes
        stays beside a new one."""
        for name in ("a", "b"):
            write("old", self.folder, name)
        os.mkdir(self.path(".made"))
        for name in ("a", "c"):
            write("new", self.folder, ".made", name)
        script = f"""
import os, sys
sys.path.insert(0, {PACKAGE!r})
from lpis.system import placing
replace, count = os.replace, [0]
def killing(*words):
    count[0] += 1
    replace(*words)
    if count[0] == {number}:
        os.kill(os.getpid(), 9)
os.replace = killing
placing.put({self.path('.made')!r}, {self.folder!r}, ["a", "c"], "", ["b", "none"])
"""
        subprocess.run([sys.executable, "-c", script], check=False)
        placing.end(self.folder)
        there = {name: read(self.folder, name) for name in names_in(self.folder)}
        assert there in ({"a": "old", "b": "old"}, {"a": "new", "c": "new"}), there
        assert not Path(self.path(placing.JOURNAL)).exists()
