"""Tests what tools/year, `tools/country publish` and `tools/report --diff` say of a year against the one before it.
Wants Shapely where parcels move, and the program where a year is published."""

import csv
import json
import os
import shutil
from pathlib import Path

import pytest
from lpis_helpers.calls import ended_with, records, tool
from lpis_helpers.places import BUILT
from lpis_helpers.registers import rows
from lpis_helpers.spare import Spare
from lpis.lineage import accepted_changes, two_years, year_comparison
from lpis.register import ledger
from lpis.system import shapely_there
from lpis.system.trouble import Trouble

# Parcels side by side: left side, width, height and class.
LAND = {
    "DEBY0405": (0, 100, 100, "Acker"),
    "DEBY0406": (100, 100, 130, "Acker"),
    "DEBY0407": (200, 3, 1, "Gruenland"),
    "DEBY0408": (300, 200, 200, "Gruenland"),
}
PERCENTS = {"Acker": 100, "Gruenland": 40}


def box(left, width, height):
    return f"POLYGON(({left} 0,{left + width} 0,{left + width} {height},{left} {height},{left} 0))"


def write(folder, land, percents, lineage=()):
    os.makedirs(folder, exist_ok=True)
    tables = {
        "parcels": ["parcel,wkt"],
        "covers": ["piece,parcel,class,wkt"],
        "classes": ["class,percent", *(f"{name},{value}" for name, value in percents.items())],
        "lineage": ["old,new", *lineage],
    }
    for name, (*sides, land_class) in land.items():
        tables["parcels"].append(f'{name},"{box(*sides)}"')
        tables["covers"].append(f'{name}.1,{name},{land_class},"{box(*sides)}"')
    for name, lines in tables.items():
        Path(folder, f"{name}.csv").write_text("\n".join(lines) + "\n", encoding="ascii")
    return folder


class Case(Spare):
    def folder_of(self, name, changed=(), percents=(), lineage=()):
        land = {**LAND, **dict(changed)}
        return write(
            self.path(name),
            {name: sides for name, sides in land.items() if sides},
            {**PERCENTS, **dict(percents)},
            lineage,
        )

    def found(self, changed=(), percents=(), lineage=(), jump=year_comparison.Jump()):
        """Kind, of, identifier, and square metres or percentages before and now."""
        with year_comparison.Comparison(self.folder_of("new", changed, percents, lineage), jump) as found:
            found.compare(None, self.folder_of("old"))
            return [(row.kind, row.of, row.identifier, row.before, row.after) for row in found.rows()]


class TestRows(Case):
    def test_nothing(self):
        assert self.found() == []

    def test_percentages(self):
        assert self.found(percents={"Acker": 1}) == [
            ("percent", "class", "Acker", 100, 1),
            ("eligible", "all", "", 39001.2, 16231.2),
            ("eligible", "class", "Acker", 23000, 230),
            ("eligible", "parcel", "DEBY0405", 10000, 100),
            ("eligible", "parcel", "DEBY0406", 13000, 130),
        ]
        # The smallest change of a percentage is told, though no sum jumps.
        assert self.found(percents={"Gruenland": 41}, jump=year_comparison.Jump(5, 20)) == [
            ("percent", "class", "Gruenland", 40, 41)
        ]

    def test_classes(self):
        """Land of another class, and a class that is new."""
        found = self.found({"DEBY0408": (300, 200, 200, "Wald")}, {"Wald": 40})
        assert [row[:3] for row in found] == [("eligible", "class", "Gruenland"), ("eligible", "class", "Wald")]
        found = self.found({"DEBY0408": (300, 200, 200, "Wald")}, {"Wald": 0})
        assert ("eligible", "parcel", "DEBY0408", 16000, 0) in found

    def test_parcels(self):
        """A parcel that jumps; one of three square metres is no jump, nor is one that loses a tenth."""
        assert self.found({"DEBY0407": (200, 2, 1, "Gruenland")}) == []
        assert self.found({"DEBY0405": (0, 95, 100, "Acker")}, jump=year_comparison.Jump(5, 20)) == []
        found = self.found({"DEBY0405": (0, 60, 100, "Acker")})
        assert ("area", "parcel", "DEBY0405", 10000, 6000) in found
        assert ("area", "all", "", 63003, 59003) in found
        assert not [row for row in found if row[:2] == ("eligible", "parcel")]

    def test_merges(self):
        """A kept parcel is compared with those that were merged into it."""
        changed = {"DEBY0406": None, "DEBY0405": (-130, 230, 100, "Acker")}
        assert [row[:3] for row in self.found(changed)] == [("area", "parcel", "DEBY0405")]
        assert self.found(changed, lineage=["DEBY0406,DEBY0405"]) == []

    def test_lost_and_new(self):
        """Of an identifier that is gone or new the sums speak alone."""
        assert [row[:2] for row in self.found({"DEBY0406": None})] == [
            ("area", "all"),
            ("eligible", "all"),
            ("eligible", "class"),
        ]
        assert self.found({"DEBY0406": None, "DEBY9": (600, 100, 130, "Acker")}) == []

    @pytest.mark.skipif(not shapely_there.is_there(), reason=shapely_there.LACKING)
    def test_exchanged(self):
        found = self.found({"DEBY0405": LAND["DEBY0406"], "DEBY0406": LAND["DEBY0405"]})
        assert [row[:3] for row in found if row[0] == "moved"] == [
            ("moved", "parcel", "DEBY0405"),
            ("moved", "parcel", "DEBY0406"),
        ]

    def test_exchanged_without_shapely(self, monkeypatch):
        monkeypatch.setattr(shapely_there, "is_there", lambda: False)
        with year_comparison.Comparison(
            self.folder_of("new", {"DEBY0405": LAND["DEBY0406"], "DEBY0406": LAND["DEBY0405"]})
        ) as found:
            found.compare(None, self.folder_of("old"))
            told = accepted_changes.judged(found, accepted_changes.Marks(()), "2024")
        assert [line for line in told.lines if "it has the land that DEBY0406 had" in line and "moved DEBY0405" in line]
        assert told.lines[-1] == year_comparison.NO_SHAPELY

    def test_shapes_alone(self):
        """A folder of last year that has parcels alone."""
        old = self.folder_of("old")
        os.remove(os.path.join(old, "covers.csv"))
        with year_comparison.Comparison(self.folder_of("new", {"DEBY0405": (0, 60, 100, "Acker")})) as found:
            found.compare(None, old)
            assert {row.kind for row in found.rows()} == {"area"}
            assert "has not all tables of pieces and classes" in " ".join(found.lacking)

    def test_many(self):
        """A country: a parcel of two regions counts once, and rows are counted behind the first twenty."""
        for year, width in (("old", 100), ("new", 150)):
            folder = self.path(year)
            for region, names in (("a", range(0, 30)), ("b", range(29, 40))):
                write(
                    os.path.join(folder, region),
                    {f"P{name}": (1000 * name, width, 100, "Acker") for name in names},
                    PERCENTS,
                )
            Path(folder, "country.txt").write_text("lpis-country 1\nx 29100000\nregion a\nregion b\n", encoding="ascii")
            shutil.copy(os.path.join(folder, "a", "classes.csv"), folder)
        with year_comparison.Comparison(self.path("new"), workers=2) as found:
            found.compare(None, self.path("old"))
            told, sums = accepted_changes.judged(found, accepted_changes.Marks(()), "2024"), [
                row for row in found.rows() if row.of == "all"
            ]
        assert [(row.kind, row.before, row.after) for row in sums] == [
            ("area", 400_000, 600_000),
            ("eligible", 400_000, 600_000),
        ]
        assert (told.left, told.lines[0], told.lines[-1]) == (
            43,
            "against 2024: 43 changes to look at",
            "  and 23 more",
        )


class TestMarks(Case):
    def marks(self, text):
        Path(self.path("marks.csv")).write_text(text, encoding="utf-8")
        return accepted_changes.Marks([self.path("marks.csv")])

    def test_a_mark_is_of_its_figures(self):
        row = year_comparison.Row("area", "parcel", "A", 100.5, 200.25)
        head = "kind;of;identifier;before;after;accepted\n"
        assert self.marks(head + "area;parcel;A;100,5;200,250;1\n").takes(row)
        for line in (
            "area;parcel;A;100,5;200,25;0",
            "area;parcel;A;100,5;200,26;1",
            "area;parcel;A;100,6;200,25;1",
            "area;parcel;B;100,5;200,25;1",
            "eligible;parcel;A;100,5;200,25;1",
            "area;class;A;100,5;200,25;1",
        ):
            assert not self.marks(f"{head}{line}\n").takes(row), line
        for text, words in (
            ("kind,of\n", "no column identifier"),
            (f"{head}area;parcel;A;1;2;x\n", "not 1, 0 or empty"),
            (f"{head}area;parcel;A;x;2;1\n", "no number"),
        ):
            with pytest.raises(Trouble, match=words):
                self.marks(text)

    def test_jumps(self):
        assert year_comparison.jump_of("2") == year_comparison.Jump(2, 20)
        assert year_comparison.jump_of("2,30.5") == year_comparison.Jump(2, 30.5)
        for text in ("", "x", "-1", "1,-1", "inf", "nan"):
            with pytest.raises(ValueError):
                year_comparison.jump_of(text)


@pytest.mark.skipif(not BUILT, reason="the program is not built")
class TestYears(Case):
    def set_up(self):
        self.base = self.path("lpis.db")
        self.first = ended_with(0, self.year("2025", "--new"))

    def year(self, year, *words, **changed):
        return tool("year", self.base, year, self.folder_of(year, **changed), "--year-anyway", *words)

    def marked(self):
        path = self.path("marked.csv")
        with open(self.path("2026", "against-2025.csv"), encoding="utf-8", newline="") as file:
            found = list(csv.reader(file))
        with open(path, "w", encoding="utf-8", newline="") as file:
            csv.writer(file).writerows(
                [[*fields, "1" if number else "accepted"] for number, fields in enumerate(found)]
            )
        return path

    def years_of_register(self):
        return [year for (year,) in rows(self.base, "SELECT year FROM lpis_release ORDER BY year")]

    def test_it_stops_until_it_is_accepted(self):
        assert "a first year: there is nothing to compare it with\n" in self.first.stdout
        before = ledger.content_of(self.base)
        ran = ended_with(1, self.year("2026", percents={"Acker": 1}))
        assert "percentage of class Acker: 100 before, 1 now" in ran.stdout
        assert f"in {self.path('2026', 'against-2025.csv')}; nothing was published" in ran.stderr
        assert (ledger.content_of(self.base), len(ledger.lines_of(self.base))) == (before, 1)
        marked = self.marked()
        ended_with(1, self.year("2026", "--accept-from", marked, percents={"Acker": 2}))
        assert self.years_of_register() == [2025]
        ran = ended_with(0, self.year("2026", "--accept-from", marked, percents={"Acker": 1}))
        assert (self.years_of_register(), "5 changes to look at, 5 of them accepted" in ran.stdout) == (
            [2025, 2026],
            True,
        ), ran.stdout

    def test_exchanged(self):
        ran = ended_with(1, self.year("2026", changed={"DEBY0405": LAND["DEBY0406"], "DEBY0406": LAND["DEBY0405"]}))
        assert "moved DEBY0405: " in ran.stdout and "it has the land that DEBY0405 had" in ran.stdout
        assert self.years_of_register() == [2025]

    def test_without_last_years_tables(self):
        """The shapes are those of the register; what is not compared is said, and how it can be."""
        shutil.move(self.path("2025"), self.path("elsewhere"))
        changed = {"changed": {"DEBY0405": (0, 50, 100, "Acker")}, "percents": {"Acker": 1}}
        ran = ended_with(1, self.year("2026", **changed))
        assert (
            "percentages of classes and eligible areas are not compared: " in ran.stdout
            and "--previous FOLDER" in ran.stdout
        )
        assert "area of parcel DEBY0405: " in ran.stdout and "percentage of class" not in ran.stdout
        ran = ended_with(1, self.year("2026", "--previous", self.path("elsewhere"), **changed))
        assert (
            "percentage of class Acker: 100 before, 1 now" in ran.stdout
            and "other tables than were published" not in ran.stdout
        )
        Path(self.path("elsewhere"), "classes.csv").write_text(
            "class,percent\nAcker,1\nGruenland,40\n", encoding="ascii"
        )
        ran = ended_with(1, self.year("2026", "--previous", self.path("elsewhere"), **changed))
        assert "has other tables than were published in 2025, by the log" in ran.stdout

    def test_marks_in_the_table_itself_stay(self):
        ended_with(1, self.year("2026", percents={"Acker": 1}))
        shutil.copy(self.marked(), self.path("2026", "against-2025.csv"))
        ended_with(0, self.year("2026", "--accept-from", self.path("2026", "against-2025.csv"), percents={"Acker": 1}))
        assert {row["accepted"] for row in records(self.path("2026"), "against-2025-1.csv")} == {"1"}

    def test_reports(self):
        """`report --diff` has the same rows, and the status."""
        new = self.folder_of("2026", percents={"Acker": 1})
        words = (
            "report",
            new,
            "--diff",
            self.path("2025"),
            "--json",
            self.path("r.json"),
            "--changes",
            self.path("changes.csv"),
        )
        ran = ended_with(1, tool(*words))
        assert "percentage of class Acker: 100 before, 1 now" in ran.stdout and "to look at: 5" in ran.stdout
        with open(self.path("r.json"), encoding="utf-8") as file:
            assert [row["kind"] for row in json.load(file)["difference"]["against"]] == [
                row["kind"] for row in records(self.folder, "changes.csv")
            ]
        Path(self.path("marked.csv")).write_text(
            "".join(
                f"{line},{'1' if number else 'accepted'}\n"
                for number, line in enumerate(Path(self.path("changes.csv")).read_text(encoding="utf-8").splitlines())
            ),
            encoding="utf-8",
        )
        ended_with(0, tool(*words, "--accept-from", self.path("marked.csv")))
        assert tool("report", new, "--changes", self.path("x.csv")).returncode == 64


def test_register_and_folder_agree(tmp_path):
    """Areas and moves are the same from a register's shapes as from a folder's."""
    old = write(tmp_path / "old", LAND, PERCENTS)
    new = write(tmp_path / "new", {**LAND, "DEBY0405": (0, 50, 100, "Acker")}, PERCENTS)
    found = {}
    for which in ("folder", "register"):
        with year_comparison.Comparison(new) as one, pytest.MonkeyPatch.context() as patch:
            patch.setattr(two_years, "of_register", lambda path, place="", _=None: two_years.of_folder(old, place))
            one.compare("register" if which == "register" else None, old)
            found[which] = [row.fields() for row in one.rows()]
    assert found["folder"] == found["register"]
