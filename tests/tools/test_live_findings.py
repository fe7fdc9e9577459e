"""Tests that findings live: one row each, with a number that holds while its kind and its place hold, from run to run
and from year to year; a state; what it comes of; and the columns of the source that go with it. A whole release and a
country give the same table."""

import argparse
import contextlib
import csv
import json
import os
import re
import sqlite3
from xml.etree import ElementTree

import pytest
from lpis_helpers import dirty
from lpis_helpers.calls import ended_with, records, tool
from lpis_helpers.places import BUILT
from lpis_helpers.preparing_case import ring
from lpis_helpers.spare import Spare, read, write
from lpis.formats import geopackage
from lpis.preparation import acceptance, decisions
from lpis.preparation.finding_rows import Finding
from lpis.report import country_changes, finding_views, html_page
from lpis.source import source_settings
from lpis.system import shapely_there

if shapely_there.is_there():
    from lpis.preparation import live_findings
    from lpis.preparation.conflicts import Loss
    from shapely.geometry import Polygon, box

lacks_shapely = pytest.mark.skipif(not shapely_there.is_there(), reason=shapely_there.LACKING)


def overlap(left, right=None, rows=(1, 2), names=("a", "b"), kind="overlap"):
    shape = box(left, 0, left + 1 if right is None else right, 1)
    return Loss(kind, list(names), "both pieces have this place", shape, 1.0, shape.area, "covers", list(rows), True)


def shapeless(row, name="x", kind="shape", words="no shape (NULL)"):
    return Finding(kind, "covers", row, name, words, "left out")


@lacks_shapely
class TestTable(Spare):
    has_row = None

    def run_of(self, found, marks=(), kinds=None, folder="out", previous=None, is_whole=True, settled=()):
        """The rows of the table after a run that found this."""
        os.makedirs(self.path(folder), exist_ok=True)
        self.told = []
        accept = acceptance.Accepting(kinds, [self.path(name) for name in marks])
        table = live_findings.Table(self.path(folder), self.path(folder), previous, accept, self.told.append)
        self.table, table.has_row = table, self.has_row
        table.take(found, is_whole, settled)
        table.write()
        return list(decisions.records(self.path(folder)))

    def told_of(self, *words, **more):
        return [(row["number"], row["state"], row["identifiers"]) for row in self.run_of(*words, **more)]

    def test_numbers_hold(self):
        """Under other rows and names, grown, shrunk and in another order; what is elsewhere or of another kind is
        new, and a number is given once."""
        first = [overlap(0), overlap(10), overlap(20), overlap(30)]
        assert self.told_of(first) == [(str(number), "open", "a b") for number in (1, 2, 3, 4)]
        then = [
            overlap(30, 30.4, (1_000_001, 1_000_002)),
            overlap(50),
            overlap(20, names=("new", "names")),
            overlap(10, kind="outside"),
            overlap(-3, 1.5),
        ]
        assert self.told_of(then) == [
            ("1", "open", "a b"),
            ("3", "open", "new names"),
            ("4", "open", "a b"),
            ("5", "new", "a b"),
            ("6", "new", "a b"),
            ("2", "gone", "a b"),
        ]
        assert self.told_of([overlap(10)]) == [
            ("2", "new", "a b"),
            *((number, "gone", names) for number, names in zip("13456", ("a b", "new names", "a b", "a b", "a b"))),
        ]
        assert {row["state"] for row in self.run_of([])} == {"gone"}
        assert self.told_of([overlap(70)])[0] == ("7", "new", "a b")

    def test_a_number_stays_with_its_row(self):
        """Where the source still has the row that had it, what lies there now is another finding; a row that was
        renamed keeps it, and so does one of the same number where nobody knows the source's rows."""
        for there, number in (("a", "2"), ("", "1"), (None, "1")):
            self.has_row = (
                None if there is None else lambda layer, name, there=there: (layer, name) == ("covers", there)
            )
            folder = f"of {there}"
            self.run_of([overlap(0, kind="changed", names=["a"], rows=[1])], folder=folder)
            (now, *_) = self.run_of([overlap(0, kind="changed", names=["a-2"], rows=[1])], folder=folder)
            assert (now["identifiers"], now["number"]) == ("a-2", number), there

    def test_what_is_settled_is_told(self):
        """Below what stops, with a number that holds; it is nothing to decide, and it may come to stop."""
        narrow = overlap(10)
        narrow.width, narrow.is_grave = 0.01, False
        rows = self.run_of([overlap(0)], settled=[narrow])
        assert [(row["number"], row["state"], row["place"] > "") for row in rows] == [
            ("1", "open", True),
            ("2", "told", True),
        ]
        assert (self.table.count(), self.table.left_open().count) == (1, 1)
        assert self.told_of([overlap(10)], settled=[]) == [("2", "new", "a b"), ("1", "gone", "a b")]

    def test_marks_that_fit_nothing_are_said(self):
        """With their rows, and why."""
        self.run_of([overlap(0), overlap(10, kind="gap")])
        self.mark("m.csv", "12")
        self.run_of([overlap(0, 2)], ["m.csv"])
        first, second = self.told
        assert "m.csv row 1: overlap a b (covers) is accepted there, and what is there now" in str(first)
        assert "m.csv row 2: gap a b (covers) is accepted there, and there is no such finding" in str(second)
        self.run_of([overlap(0), overlap(10, kind="gap")], ["m.csv"])
        assert self.told == []

    def test_the_most_in_common(self):
        """Of two places that both meet an earlier one the larger share goes first, and each row is taken once."""
        self.run_of([overlap(0, 10), overlap(11, 12)])
        found = self.run_of([overlap(0, 2), overlap(3, 11.5), overlap(11.6, 14)])
        assert [(row["number"], row["area_m2"]) for row in found] == [("1", "8.5000"), ("2", "2.4000"), ("3", "2.0000")]

    def test_without_polygons(self):
        """By names and words, the row of the same number first, else in their order; words with numbers of rows too."""
        words = "no piece identifier: --accept keeps the row and names the piece fid-{}"
        first = [shapeless(3), shapeless(4), shapeless(9, "", "nameless", words.format(9)), shapeless(5, "y")]
        assert [row[0] for row in self.told_of(first)] == ["1", "2", "3", "4"]
        then = [
            shapeless(1_000_009, "", "nameless", words.format(1_000_009)),
            shapeless(5, "y"),
            shapeless(4),
            shapeless(7),
        ]
        assert [(row["number"], row["row"], row["state"]) for row in self.run_of(then)] == [
            ("1", "7", "open"),
            ("2", "4", "open"),
            ("3", "1000009", "open"),
            ("4", "5", "open"),
        ]

    def test_a_long_outline(self):
        """Of polygons that no cell has room for the table has a digest and a place."""
        corners = [(x, (x % 2) * 9 + 1) for x in range(9000)]
        shapes = [Polygon([*corners, (8999, low), (0, low)]) for low in (0, -5)]
        found = [Loss("overlap", ["a", "b"], "", shape, 1.0, 1.0, "covers", [1, 2], True) for shape in shapes]
        (row,) = self.run_of(found[:1])
        assert row["place"].startswith("d")
        assert [row["number"] for row in self.run_of(found[1:])] == ["1"]

    def test_what_it_comes_from(self):
        """It stands below its cause and is accepted with it; what is lost is accepted for itself."""
        found = [
            overlap(0, kind="changed", names=["b"]),
            overlap(0),
            overlap(0, kind="lost", names=["c"]),
            overlap(30),
            shapeless(7, kind="left out"),
            shapeless(7),
        ]
        wanted = [("overlap", ""), ("changed", "1"), ("lost", "1"), ("overlap", ""), ("shape", ""), ("left out", "5")]
        rows = self.run_of(found)
        assert [(row["kind"], row["comes_from"]) for row in rows] == wanted
        assert [row["number"] for row in rows] == ["1", "2", "3", "4", "5", "6"]
        rows = self.run_of(found, kinds=frozenset(["overlap"]))
        assert [(row["state"], row["accepted_by"]) for row in rows] == [
            ("accepted", "--accept"),
            ("accepted", "its cause"),
            ("open", ""),
            ("accepted", "--accept"),
            ("open", ""),
            ("open", ""),
        ]
        assert [row["comes_from"] for row in self.run_of(found[4:])][:2] == ["", "5"]

    def test_two_causes(self):
        """Both are wanted for what comes of both."""
        change = overlap(0, kind="changed")
        change.shape = box(0, 0, 1, 1).union(box(30, 0, 31, 1))
        found = [overlap(0), overlap(30), change]
        assert self.run_of(found)[1]["comes_from"] == "1 3"
        for marked, state in (("1",), "open"), (("1", "3"), "accepted"):
            self.mark("m.csv", marked)
            rows = {row["kind"]: row["state"] for row in self.run_of(found, ["m.csv"])}
            assert rows["changed"] == state

    def mark(self, name, numbers, folder="out", **more):
        """A copy of the table with marks."""
        rows = records(self.path(folder), "findings.csv")
        with open(self.path(name), "w", newline="", encoding="utf-8") as file:
            table = csv.DictWriter(file, dict.fromkeys([*rows[0], *more]))
            table.writeheader()
            table.writerows({**row, **({"accepted": "1", **more} if row["number"] in numbers else {})} for row in rows)

    def test_a_table_is_one_of_marks(self):
        """What was accepted is marked in the table of a run, with who did: it is taken the next year as it is, in the
        folder of last year too, and may be marked on where it stands."""
        found = [overlap(0), overlap(10), overlap(20)]
        self.run_of(found)
        self.mark("m.csv", "12", who="Ada", why="seen")
        assert [row["accepted"] for row in self.run_of(found, ["m.csv"])] == ["1", "1", ""]
        later = self.run_of(found[1:], ["out/findings.csv"], folder="next", previous=self.path("out"))
        assert [(row["number"], row["state"], row["accepted_by"], row["who"], row["why"]) for row in later] == [
            ("2", "accepted", "Ada", "Ada", "seen"),
            ("3", "open", "", "", ""),
            ("1", "gone", "", "Ada", "seen"),
        ]
        assert [str(note).split("findings.csv ")[1].split(" is accepted")[0] for note in self.told] == [
            "row 1: overlap a b (covers)"  # its place is gone
        ]

    def test_notes(self):
        """What somebody wrote beside a row stays, also where it is not accepted; and a table with marks that no run was
        asked to take is kept."""
        found = [overlap(0), overlap(10)]
        self.run_of(found)
        self.mark("m.csv", "12", who="Ada", Why="'=later", accepted="0")
        rows = self.run_of(found, ["m.csv"])
        assert [(row["state"], row["who"], row["why"]) for row in rows] == [("open", "Ada", "=later")] * 2
        assert [(row["who"], row["why"]) for row in self.run_of(found)] == [("Ada", "=later")] * 2
        self.mark("out/findings.csv", "1")
        marked = read(self.path("out"), "findings.csv")
        assert [row["state"] for row in self.run_of(found)] == ["open", "open"]
        assert read(self.path("out"), "findings-1.csv") == marked
        assert "has marks, and --accept-from does not name it" in self.told[0]

    def test_a_run_that_stopped_at_once(self):
        """It looked for some kinds alone: the other rows stay as they were."""
        found = [overlap(0), overlap(10)]
        self.run_of(found, kinds=frozenset(["overlap"]))
        hopeless = Finding("class", "covers", None, "", "no percentage")
        rows = self.run_of([hopeless], kinds=frozenset(acceptance.KINDS), is_whole=False)
        assert [(row["number"], row["state"]) for row in rows] == [("3", "new"), ("1", "accepted"), ("2", "accepted")]
        rows = self.run_of(found)
        assert [(row["number"], row["state"]) for row in rows] == [("1", "open"), ("2", "open"), ("3", "gone")]

    def test_changes_since_last_year(self):
        """Those rows are of a published year, and none of a run."""
        self.run_of([overlap(0)])
        write(
            read(self.path("out"), "findings.csv") + f"9,accepted,,,,area,{decisions.CHANGE}\n",
            self.path("out"),
            "findings.csv",
        )
        assert [row["number"] for row in self.run_of([overlap(0), overlap(10)])] == ["1", "2"]


def land_of(path, shift=0, is_mended=False):
    """Twelve parcels in three districts, with overlaps, also over the border of two districts, a gap, and rows without
    a name or a shape. `shift` is added to each fid."""
    parcels, covers = [], []
    for place in range(12):
        x, name = 10.137 * place, f"P{place}"
        width = 10.447 if place in (1, 3, 9) and not (is_mended and place == 9) else 10.137
        parcels.append((name, dirty.polygon(dirty.box(x, 0, width))))
        covers.append((f"{name}.1", name, "GRASS", dirty.polygon(dirty.box(x, 0, 5))))
        covers.append((f"{name}.2", name, "TREES", dirty.polygon(dirty.box(x + 5, 0, width - 5 - 0.7 * (place == 6)))))
    dirty.put(path, parcels, covers)
    with contextlib.closing(sqlite3.connect(path)) as base:
        base.execute("ALTER TABLE parcels ADD COLUMN District TEXT")
        base.execute("UPDATE parcels SET District = char(65 + (fid - 1) / 4)")
        for piece, values in (
            ("P2.1", "geom = NULL"),
            ("P5.1", "piece = NULL"),
            ("P7.1", "piece = NULL, geom = NULL"),
            ("P11.1", "piece = NULL, geom = NULL"),
        ):
            base.execute(f"UPDATE covers SET {values} WHERE piece = '{piece}'")
        for table in ("parcels", "covers") if shift else ():
            base.execute(f"UPDATE {table} SET fid = -fid")
            base.execute(f"UPDATE {table} SET fid = {shift} - fid")
        base.commit()
    return path


@pytest.mark.skipif(not shapely_there.python(), reason=shapely_there.LACKING)
class TestRuns(Spare):
    def set_up(self):
        write("class,percent\nGRASS,100\nTREES,30\n", self.folder, "classes.csv")

    def both(self, status, land, *words):
        """The rows of the table after both ways of preparing, which write the same bytes."""
        tables = []
        for folder, way in (("whole", ["prepare"]), ("country", ["country", "prepare", "--workers", 1])):
            taken = [self.path(folder, word[1:]) if str(word).startswith("@") else word for word in words]
            ran = ended_with(
                status, tool(*way, land, self.path(folder), "--classes", self.path("classes.csv"), "--quiet", *taken)
            )
            tables.append(read(self.path(folder), "findings.csv"))
            self.last = ran.stdout.splitlines()
        assert tables[0] == tables[1]
        return [row for row in records(self.path("whole"), "findings.csv") if row["state"] != "told"]

    def test_districts(self):
        """A sheet goes to each district and comes back, while the source has other fids; a year later the numbers
        hold."""
        rows = self.both(1, land_of(self.path("one.gpkg")), "--keep", "district")
        assert {row["state"] for row in rows} == {"open"}
        assert [row["number"] for row in rows] == [str(number) for number in range(1, len(rows) + 1)]
        assert {row["district"] for row in rows} == {"A", "B", "C", "A / B"}
        assert all(row["district"] for row in rows)
        below = [row for row in rows if row["comes_from"]]
        assert {row["kind"] for row in below} == {"left out", "changed"} and len(below) == 11
        sheets = []
        for district in "ABC":
            some = [row for row in rows if row["district"].startswith(district)]
            sheets += ["--accept-from", self.path(f"{district}.csv")]
            with open(sheets[-1], "w", newline="", encoding="utf-16") as file:
                table = csv.DictWriter(file, [*some[0]], delimiter=";")
                table.writeheader()
                table.writerows({**row, "accepted": "" if row["comes_from"] else "1", "who": district} for row in some)
        then = self.both(0, land_of(self.path("one.gpkg"), 1_000_000), "--keep", "District", *sheets)
        assert [(row["number"], row["state"]) for row in then] == [(row["number"], "accepted") for row in rows]
        assert all(int(row["row"].split()[0]) > 1_000_000 for row in then)
        assert {row["accepted_by"] for row in then} == {"A", "B", "C", "its cause"}
        os.rename(self.path("country"), self.path("2026-country"))
        os.rename(self.path("whole"), self.path("2026"))
        land = land_of(self.path("next.gpkg"), 7, is_mended=True)
        next_year = ["--previous", self.path("2026"), "--accept-from", self.path("2026", "findings.csv")]
        later = self.both(0, land, *next_year)
        places = {row["number"]: row["place"] for row in rows}
        gone = [row for row in later if row["state"] == "gone"]
        assert {row["kind"] for row in gone} == {"overlap", "changed"} and len(gone) == 3
        assert all(places[row["number"]] == row["place"] for row in later)

    @pytest.mark.skipif(not BUILT, reason="the program is not built")
    def test_the_page_of_a_country(self):
        """It shows how many findings lie where, the worst with the parcels beside them, and what there is by district;
        each row has its place, and is found by its state, its kind and its district."""
        land, out, page = land_of(self.path("one.gpkg")), self.path("country"), self.path("page.html")
        words = ["--classes", self.path("classes.csv"), "--keep", "District", "--workers", 1, "--accept", "--quiet"]
        ended_with(0, tool("country", "prepare", land, out, *words))
        ended_with(0, tool("country", "cut", out, "--quiet", "--lpis", BUILT))
        ended_with(0, tool("report", out, "--html", page, "--lpis", BUILT))
        text = read(page)
        data = json.loads(re.search(r'<script id="data" type="application/json">(.*?)</script>', text, re.DOTALL)[1])
        own = [row for row in records(out, "findings.csv") if not row["comes_from"]]
        districts = {row[0]: row[1:3] for row in data["tables"][0]["rows"]}
        assert districts == {
            name: [0, sum(row["district"] == name for row in own)] for name in ("A", "B", "C", "A / B")
        }
        assert sum(cell[2] for cell in data["map"]["cells"]["counts"]) == sum(
            bool(row["x"]) for row in records(out, "findings.csv")
        )
        assert len(data["map"]["parcels"]["names"]) == 12
        assert 5 < text.count("<figure data-finding=") <= finding_views.MOST_PICTURES
        row = next(row for row in data["tables"][1]["rows"] if row[1] == "overlap" and "P9.2" in row[4])
        assert row[0] == "accepted" and row[9] == "C" and re.fullmatch(r"[0-9]+\.[0-9]{3},[0-9]+\.[0-9]{3}", row[11])
        assert [f'data-column="{column}"' in text for column in (0, 1, 9)] == [True] * 3

    def test_no_such_column(self):
        """It is told before anything is rounded, with those that there are."""
        land = land_of(self.path("one.gpkg"))
        ran = ended_with(64, tool("prepare", land, self.path("out"), "--keep", "Land"))
        assert "--keep land: no layer has this column: there are parcels parcel, District; covers piece" in ran.stderr

    def test_tables_and_settings(self):
        """A folder of tables; what lpis.toml keeps; a column of the pieces alone goes with their parcel."""
        os.mkdir(self.path("sheets"))
        squares = [f"POLYGON(({ring(x, 0)}))" for x in (0, 10, 20)]
        write("parcel;Kreis;wkt\nA;Nord;{}\nB;Süd;{}\nC;Süd;{}\n".format(*squares), self.path("sheets"), "parcels.csv")
        half = f"POLYGON(({ring(0, 0, 5)}))"
        write(
            f'piece,parcel,class,editor,wkt\na,A,GRASS,Bo,"{half}"\nb,B,GRASS,Cy,"{squares[1]}"\nc,C,GRASS,,\n',
            self.path("sheets"),
            "covers.csv",
        )
        write('keep = "Kreis, editor"\n', self.path("sheets"), "lpis.toml")
        rows = self.both(1, self.path("sheets"))
        assert {(row["kind"], row["identifiers"], row["kreis"], row["editor"]) for row in rows} == {
            ("gap", "A", "Nord", "Bo"),
            ("changed", "A", "Nord", "Bo"),
            ("shape", "c", "Süd", ""),
            ("bare", "C", "Süd", ""),
            ("left out", "c", "Süd", ""),
            ("left out", "C", "Süd", ""),
        }
        kept = source_settings.Options(keep="Kreis,editor")
        assert 'keep = "Kreis,editor"\n' in list(source_settings.lines_of(kept, self.folder))


class TestCounts(Spare):
    def test_rows_without_a_number(self):
        """They are counted by their own kind; what was left out by what was found of its row."""
        write(
            "kind,layer,row,words\ncolumn,parcels,,more\nalike,parcels,,A\nalike,parcels,,B\nshape,covers,7,none\n",
            self.folder,
            "prepared.csv",
        )
        write("kind,layer,row,stops,words\nleft out,covers,7,1,x\nidentifier,covers,,1,y\n", self.folder, "report.csv")
        _, nowhere = country_changes.reported(self.folder, argparse.Namespace(folders=["r"]))
        told = {column: {one["kind"]: one["rows"] for one in some} for column, some in nowhere.items()}
        assert told == {"findings": {"alike": 2, "column": 1, "shape": 1}, "accepted": {"shape": 1, "identifier": 1}}


class TestStyle(Spare):
    def test_layers(self):
        """Each layer of a GeoPackage has the style by which QGIS draws it: the states in the colours of the page."""
        path = self.path("f.gpkg")
        values = ("gap", "parcels", "1", "a", 1.0, 1.0, 1.0, 1.0, 1, "", "words", 7, "open", "")
        with geopackage.anew(path, 25832) as package:
            package.add("gap", None, values)
            package.add("left out", None, values)
        with contextlib.closing(sqlite3.connect(path)) as base:
            found = base.execute("SELECT f_table_name, f_geometry_column, useAsDefault, styleQML FROM layer_styles")
            rows = found.fetchall()
        assert [row[:3] for row in rows] == [("gap", "geom", 1), ("left_out", "geom", 1)]
        style = ElementTree.fromstring(rows[0][3])
        renderer = style.find("renderer-v2")
        assert renderer.get("attr") == "state"
        states = {one.get("value"): one.get("symbol") for one in renderer.iter("category")}
        assert set(states) == {"open", "new", "accepted", "told"}
        for state, colour in (("new", "stops"), ("accepted", "accepted"), ("told", "told")):
            symbol = next(one for one in renderer.iter("symbol") if one.get("name") == states[state])
            (line,) = (one.get("value") for one in symbol.iter("Option") if one.get("name") == "outline_color")
            assert "#{:02x}{:02x}{:02x}".format(*map(int, line.split(",")[:3])) == html_page.COLOURS[colour]
