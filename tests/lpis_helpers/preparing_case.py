"""What tests of tools/prepare share: a source, and a run on it."""

import csv
import os

import pytest
from lpis_helpers.calls import records, tool
from lpis_helpers import dirty
from lpis_helpers import places
from lpis.system import shapely_there
from lpis_helpers.spare import Spare

PREPARE = os.path.join(places.TOOLS, "prepare")
CLASSES = "class,percent\nGRASS,100\nTREES,30\nWATER,0\n"


def ring(x, y, width=10.0, height=10.0):
    return ",".join(f"{east} {north}" for east, north in dirty.box(x, y, width, height))


@pytest.mark.skipif(not shapely_there.python(), reason=shapely_there.LACKING)
class Case(Spare):
    def set_up(self):
        self.out, self.sheets = self.path("out"), self.path("sheets")
        os.mkdir(self.sheets)

    def write(self, name, text):
        with open(os.path.join(self.sheets, name), "w", encoding="utf-8", newline="") as file:
            file.write(text)

    def tables(self, parcels, covers, classes=CLASSES):
        """A folder of tables, of rows (parcel, wkt) and (piece, parcel, class, wkt)."""
        for name, header, found in (
            ("parcels.csv", ["parcel", "wkt"], parcels),
            ("covers.csv", ["piece", "parcel", "class", "wkt"], covers),
        ):
            with open(os.path.join(self.sheets, name), "w", encoding="utf-8", newline="") as file:
                csv.writer(file).writerows([header, *found])
        self.write("classes.csv", classes)

    def package(self, parcels, covers):
        return dirty.put(self.path("land.gpkg"), parcels, covers)

    def run_on(self, source, *words):
        return tool("prepare", source, self.out, *words)

    def found(self):
        return records(self.out, "prepared.csv")

    def assert_refused(self, run, *words):
        """Status 1, no table, and a finding with the words."""
        assert run.returncode == 1, run.stdout + run.stderr
        assert not ({"parcels.csv", "covers.csv"} & set(os.listdir(self.out)))
        for word in words:
            assert word in run.stdout

    def areas(self):
        return {
            row["class"]: float(row["tables_m2"])
            for row in records(self.out, "balance.csv")
            if row["layer"] == "covers" and row["class"]
        }
