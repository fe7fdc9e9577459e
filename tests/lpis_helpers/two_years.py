"""Two years of a nation's source, with dirt and with exact splits and merges, as GeoPackages: for the guide's path. By
Shapely.

    PYTHONPATH=tests python3 -m lpis_helpers.two_years COUNT FOLDER     writes FOLDER/land-2026.gpkg and land-2027.gpkg,
        and FOLDER/country/country.txt with nine tiles
"""

import os
import sys
import tempfile
from itertools import chain
from pathlib import Path
from unittest import mock

from shapely import wkb, wkt

from lpis_helpers import dirty
from lpis_helpers import edits
from lpis_helpers.calls import records
from lpis_helpers.places import run_helper

KINDS = ["crossing", "null", "blank", "umlaut", "stranger", "bare", "z", "wide"]
CLASSES = [("ARABLE", 100), ("GRASS", 100), ("TREES", 30), ("WATER", 0)]
EDITED, SEED = 0.1, 2  # of the parcels; by this seed no edit of a few puts a corner on a border that others have
APART = 450_000  # the easting of dirt


def rows(folder, name, columns):
    for row in records(folder, f"{name}.csv"):
        yield (*(row[column] for column in columns), wkb.dumps(wkt.loads(row["wkt"])))


def package(path, folder):
    """The tables of a folder, and some dirty parcels far from them."""
    with mock.patch.object(dirty, "EAST", APART):
        parcels, covers = dirty.rows_of(KINDS)
    dirty.put(
        path,
        chain(rows(folder, "parcels", ["parcel"]), parcels),
        chain(rows(folder, "covers", ["piece", "parcel", "class"]), covers),
        CLASSES,
    )


def cuts_of(folder):
    """Two whole millimetres in x and two in y that part a land's parcels into nine tiles of about as many."""
    corners = [wkt.loads(row["wkt"]).bounds[:2] for row in records(folder, "parcels.csv")]
    return [
        [int(1000 * sorted(corner[axis] for corner in corners)[len(corners) * part // 3]) for part in (1, 2)]
        for axis in (0, 1)
    ]


def tiling(columns, lines):
    """The text of country.txt."""

    def column(number):
        return (
            "".join(f"y {line}\nregion {name}{number}\n" for name, line in zip(("low", "middle"), lines))
            + f"region high{number}\n"
        )

    return (
        "lpis-country 1\n" + "".join(f"x {cut}\n{column(number)}" for number, cut in enumerate(columns, 1)) + column(3)
    )


def make(count, folder):
    """Writes all of it; how many splits and merges there are."""
    with tempfile.TemporaryDirectory() as spare:
        first, second = os.path.join(spare, "first"), os.path.join(spare, "second")
        run_helper("make_coverage", count, 1, first)
        done = edits.make(first, second, int(count * EDITED), SEED)
        for year, tables in ((2026, first), (2027, second)):
            package(os.path.join(folder, f"land-{year}.gpkg"), tables)
        os.makedirs(os.path.join(folder, "country"))
        Path(folder, "country", "country.txt").write_text(tiling(*cuts_of(first)), encoding="ascii")
    return sum(done.values())


if __name__ == "__main__":
    print(make(int(sys.argv[1]), sys.argv[2]))
