"""A balance of land: the square metres of a source and of the tables made of it, by class, and what became of the
difference. No column is worked out from the others, so land for which nobody accounts shows.

    whole = land_balance.Balance(layers)    what was read of rows, before any repair
    whole.add_table(layer, record, area)    a row of a table
    whole.book(row, mended, change)         what became of a row
"""

from __future__ import annotations

import math
import os

from ..formats import guarded_csv
from ..system import files

SHAPED = ("parcels", "covers")
COLUMNS = ("source", "mended", "left out", "settled", "tables")
FILE = "balance.csv"
ZONE = 1_000_000  # metres: eastings may have the number of their zone before them
NEAR = 0.5  # square metres: what a balance that adds up may miss
UNIT = 1 << 40  # parts of a square metre: sums are whole numbers of them, so that their order changes nothing


class Entry:
    """A row of the source as it was read."""

    __slots__ = ("area", "founds", "layer", "row")

    def __init__(self, layer, row, area):
        self.layer, self.row, self.area = layer, row, area
        self.founds = (row.found,) if row.found else ()  # its shape as it was read

    def group(self):
        return group_of(self.layer, self.row)

    def members(self):
        """Its polygons as they were read."""
        return without_zone(
            [member for found in self.founds for member in found.members], self.row.found and self.row.found.members
        )


def group_of(layer, row):
    return layer, (row["class"] or "(no class)") if layer == "covers" else ""


class Balance:
    """The sums of each column, by layer and class."""

    def __init__(self, layers):
        self.sums, self.entries = {}, {}
        self.between = 0.0  # square metres between parcels that nobody has
        for name in SHAPED if layers else ():
            from ..geometry.ring_areas import areas_of  # by numpy, which not all who use this module have

            rows = layers[name].rows if name in layers else []
            for row, area in zip(rows, areas_of([row.found for row in rows])):
                self.entries[id(row)] = Entry(name, row, area)

    def area_of(self, row):
        return self.entries[id(row)].area

    def is_as_read(self, row):
        """Whether a row has the polygons that were read of it."""
        founds = self.entries[id(row)].founds
        return len(founds) == 1 and founds[0] is row.found

    def source_of(self, row):
        """The polygons of a row as they were read; None where it has them still, or never had any."""
        entry = self.entries[id(row)]
        return None if self.is_as_read(row) or not entry.founds else entry.members()

    def add_table(self, layer, record, area):
        """A row of a table that was written."""
        self.add(group_of(layer, record), "tables", area)

    def add(self, group, column, area):
        self.add_exact(group, column, int(area * UNIT))

    def add_exact(self, group, column, parts):
        sums = self.sums.get(group)
        if sums is None:
            sums = self.sums[group] = dict.fromkeys(COLUMNS, 0)
        sums[column] += parts

    def book(self, row, mended, change):
        """A row that the layers have: its area after all repairs, and the land that it gained by rounding less what it
        lost; None where it is in no table."""
        entry = self.entries[id(row)]
        self.add(entry.group(), "mended", mended - entry.area)
        self.add(entry.group(), "left out" if change is None else "settled", -mended if change is None else change)

    def write(self, out):
        """balance.csv in a folder."""
        with files.anew(os.path.join(out, FILE), newline="") as file:
            table = guarded_csv.Writer(file)
            table.writerow(
                ["layer", "class", *(f"{column.replace(' ', '_')}_m2" for column in COLUMNS), "unaccounted_m2"]
            )
            if self.between:
                table.writerow(["between", "", *(f"{value:.3f}" for value in (self.between, 0, 0, 0, self.between, 0))])
            table.writerows(
                [layer, guarded_csv.text(land_class), *(f"{value:.3f}" for value in (*found.values(), missing(found)))]
                for (layer, land_class), found in self.lines()
            )

    def lines(self):
        """Each class, then all pieces, then the parcels."""
        classes = sorted(group for group in self.sums if group[0] == "covers")
        whole = {column: sum(self.sums[group][column] for group in classes) for column in COLUMNS}
        found = [
            *((group, self.sums[group]) for group in classes),
            (("covers", ""), whole),
            *((group, self.sums[group]) for group in sorted(self.sums) if group[0] == "parcels"),
        ]
        return [(group, {column: parts / UNIT for column, parts in sums.items()}) for group, sums in found]

    def words(self):
        """The balance for people, in hectares, and whether it adds up."""
        rows, wrong = [["balance of land in hectares", *COLUMNS]], []
        for (layer, land_class), found in self.lines():
            name = {"covers": "all pieces", "parcels": "parcels"}[layer] if not land_class else land_class
            rows.append(
                [f"  {name}", *(hectares(value, sign=0 < number < 4) for number, value in enumerate(found.values()))]
            )
            if abs(missing(found)) >= NEAR:
                wrong.append(f"{name} by {missing(found):+.3f} m2")
        if self.between:
            rows.append(["  between parcels, nobody", hectares(self.between), "", "", "", hectares(self.between)])
        return [
            *aligned(rows),
            "the balance does not add up: " + ", ".join(wrong) if wrong else "the balance adds up to the square metre",
        ]

    def is_even(self):
        return all(abs(missing(found)) < NEAR for _, found in self.lines())


def without_zone(members, now):
    """Polygons as they were read; a zone's number before their eastings that was taken off the polygons of `now` is
    taken off here too."""
    away = round((members[0][0][0][0] - now[0][0][0][0]) / ZONE) * ZONE if members and now else 0
    return [[[(x - away, y) for x, y in ring] for ring in member] for member in members] if away else members


def aligned(rows):
    """Rows of cells as lines, a name and columns to the right, with a blank before each cell, however long it is."""
    widths = [
        max(least, *(len(cell) + 1 for cell in column)) for least, column in zip((30, *[15] * len(rows[0])), zip(*rows))
    ]
    return [
        "".join([f"{row[0]:{widths[0]}}", *(f"{cell:>{width}}" for cell, width in zip(row[1:], widths[1:]))]).rstrip()
        for row in rows
    ]


def missing(found):
    """The square metres of the tables beyond those accounted for."""
    return found["tables"] - math.fsum(found[column] for column in COLUMNS[:4])


def hectares(value, sign=False):
    text = f"{value / 10_000:{'+' if sign else ''},.4f}"
    return text if text.strip("+-0.,") else "0.0000"
