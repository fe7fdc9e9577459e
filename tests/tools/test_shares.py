"""Tests which percentage each text of a table of classes is taken for: a share of 1 and one percent are told apart, or
the run stops."""

import contextlib
import sqlite3
from pathlib import Path

import pytest
from lpis_helpers import dirty
from lpis_helpers.calls import ended_with, records, tool
from lpis_helpers.spare import Spare
from lpis.source import percentages
from lpis.system import shapely_there

ODD = ["100%", " 50", "50\u00a0%", "050", "+50", "1E+02", "5e1"]
NONE = [
    "33.5",
    "0,5 %",
    "101",
    "150",
    "200",
    "-0",
    "-1",
    "1_00",
    "inf",
    "nan",
    "5 0",
    "50 %%",
    "%",
    "ja",
    "\u0665",
    "1e400",
]
NONE += ["9" * 5000, ".", "1/2", "0x10", "1,000,000"]

# Texts of a table's column percent, what each is taken for (None: it stops), and which of them are told.
TABLES = [
    (["100", "30", "0"], [100, 30, 0], []),
    (["1", "0", "100"], [1, 0, 100], []),
    (["0", "0"], [0, 0], []),
    (["1,0", "100"], [None, 100], ["1,0"]),
    (["1.0", "100"], [None, 100], ["1.0"]),
    (["0.5", "100"], [None, 100], ["0.5"]),
    (["0,5", "50 %"], [None, 50], ["0,5", "50 %"]),
    (["01", "100"], [None, 100], ["01"]),
    (["1e0", "100"], [None, 100], ["1e0"]),
    (["+1", "100"], [None, 100], ["+1"]),
    (["1 %", "100"], [1, 100], ["1 %"]),
    (["0,5", "1", "0"], [50, 100, 0], ["0,5", "1", "0"]),
    (["0.29", "1.0", ".07", "1e-2"], [29, 100, 7, 1], ["0.29", "1.0", ".07", "1e-2"]),
    (["0.335", "1"], [None, 100], ["0.335", "1"]),
    (["0.5", "-1"], [50, None], ["0.5", "-1"]),
    (["1", "0"], [None, 0], ["1"]),
    (["1"], [None], ["1"]),
    (["1.0", "0.0"], [None, 0], ["1.0", "0.0"]),
    (["1 %", "0 %"], [1, 0], ["1 %", "0 %"]),
    (["100.0", "30,0", "0.0"], [100, 30, 0], ["100.0", "30,0", "0.0"]),
    (ODD, [100, 50, 50, 50, 50, 100, 50], ODD),
    (["100", *NONE], [100, *[None] * len(NONE)], NONE),
    (["100", "", "  ", None], [100, None, None, None], ["", "  ", None]),
    ([], [], []),
]


@pytest.mark.parametrize(("texts", "percents", "told"), TABLES)
def test_percent(texts, percents, told):
    taken = percentages.read(texts, "percent")
    assert [one.percent for one in taken] == percents
    assert [text for text, one in zip(texts, taken) if one.words] == told


@pytest.mark.parametrize(
    ("texts", "percents", "told"),
    [
        (["1", "0"], [100, 0], []),
        (["1.0", "0,0", " 1"], [100, 0, 100], ["1.0", "0,0", " 1"]),
        (["0.5", "1"], [50, 100], ["0.5"]),
        (["50", "1", "1 %", "", "true", "-0"], [None, 100, None, None, None, None], ["50", "1 %", "", "true", "-0"]),
    ],
)
def test_eligible(texts, percents, told):
    taken = percentages.read(texts, "eligible")
    assert [one.percent for one in taken] == percents
    assert [text for text, one in zip(texts, taken) if one.words] == told


@pytest.mark.skipif(not shapely_there.python(), reason=shapely_there.LACKING)
class TestPrepared(Spare):
    def set_up(self):
        self.land, self.out = dirty.make(self.path("land.gpkg"), []), self.path("out")

    def tables(self, text):
        path = Path(self.path("classes.csv"))
        path.write_text(text, encoding="utf-8")
        return ["--classes", path]

    def type_percent(self, kind, *values):
        """Gives the column of percentages of the land a type, and its rows values."""
        columns = f"fid INTEGER PRIMARY KEY, class TEXT, percent {kind}"
        with contextlib.closing(sqlite3.connect(self.land)) as base:
            base.executescript(f"DROP TABLE classes; CREATE TABLE classes ({columns})")
            rows = zip(("GRASS", "TREES", "WATER"), values)
            base.executemany("INSERT INTO classes (class, percent) VALUES (?, ?)", rows)
            base.commit()

    def assert_stopped(self, run, *words):
        ended_with(1, run)
        assert (records(self.out, "classes.csv"), [word for word in words if word not in run.stdout]) == (
            [],
            [],
        ), run.stdout

    def assert_taken(self, run, *percents):
        ended_with(0, run)
        assert [row["percent"] for row in records(self.out, "classes.csv")] == list(percents)

    def test_one_beside_percentages(self):
        """A share among percentages stops, whatever is accepted, in the whole and in parts."""
        words = [self.land, self.out, *self.tables("class;percent\nGRASS;1,0\nTREES;100\n"), "--accept"]
        told = "its percent is '1,0', which looks like a share, and '100' in the same table is a percentage"
        for run in (tool("prepare", *words), tool("country", "prepare", *words)):
            self.assert_stopped(run, f"percent: classes GRASS: {told}")

    def test_shares_are_told(self):
        words = [self.land, self.out, *self.tables("class;percent\nGRASS;1\nTREES;0,5\n")]
        run = tool("prepare", *words)
        self.assert_taken(run, "100", "50")
        for line in (
            "GRASS: its percent is '1': taken as 100, since all values of",
            "TREES: its percent is '0,5': taken as 50, since all values of",
        ):
            assert f"percent: classes {line} the table are shares" in run.stdout
        found = [(row["kind"], row["identifier"], row["done"][:11]) for row in records(self.out, "prepared.csv")]
        assert found == [("percent", "GRASS", "taken as 10"), ("percent", "TREES", "taken as 50")]

    @pytest.mark.parametrize(
        ("kind", "values", "percents", "words"),
        [
            ("REAL", (100.0, 30.0, 0.0), ["100", "30", "0"], ""),
            ("REAL", (1.0, 0.5, 0.0), ["100", "50", "0"], "GRASS: its percent is '1.0': taken as 100"),
            ("REAL", (1.0, 100.0, 0.0), [], "GRASS: its percent is '1.0', which looks like a share"),
            ("REAL", (1.0, 0.0, -0.0), [], "GRASS: its percent is '1.0', which may be a share"),
            ("REAL", (100.0, 50.0, None), [], "WATER: its percent is empty"),
            ("INTEGER", (1, 100, 0), ["1", "100", "0"], ""),
        ],
    )
    def test_numbers_of_a_package(self, kind, values, percents, words):
        """A column of numbers has 1.0 for one percent and for the whole, and stops; 1 of whole numbers is one
        percent."""
        self.type_percent(kind, *values)
        run = ended_with(0 if percents else 1, tool("prepare", self.land, self.out))
        assert [row["percent"] for row in records(self.out, "classes.csv")] == percents
        assert words in run.stdout if words else "percent:" not in run.stdout, run.stdout
