"""Judges, in whole numbers alone, which parcels of a country have another text than a year before though their source
is the same, and by what. Shares no code with the tools.

A border that is new this year may end on the border of a parcel that did not change: both sides of the place need the
corner. So such a parcel has another text where it lies beside a changed one, and only by corners at ends of new
borders, each within a millimetre, in x and in y, of the border that it had.
"""

import glob
import os
import re
import sqlite3
from fractions import Fraction

from lpis_helpers.calls import records

RING = re.compile(r"\(([^()]+)\)")
MOVED = 1  # millimetres in x and in y: half of one from the source to each year's border


def sources(path):
    """The rows of each parcel in a GeoPackage, as they stand there, in an order of their own."""
    base, found = sqlite3.connect(path), {}
    for parcel, *row in [
        *base.execute("SELECT parcel, '', '', geom FROM parcels"),
        *base.execute("SELECT parcel, piece, class, geom FROM covers"),
    ]:
        found.setdefault(parcel, []).append(row)
    base.close()
    return {parcel: sorted(rows, key=repr) for parcel, rows in found.items()}


def texts(folder):
    """The text of each parcel of a country."""
    found = {}
    for path in glob.glob(os.path.join(folder, "*", "parcels.csv")):
        found.update((row["parcel"], row["wkt"]) for row in records(path))
    return found


def rings(text):
    """The rings of a polygon in whole millimetres, without the corner that closes them."""
    return [
        [tuple(int(Fraction(value) * 1000) for value in corner.split()) for corner in ring.split(",")][:-1]
        for ring in RING.findall(text)
    ]


def turned(ring):
    """A ring from its least corner on."""
    return ring[ring.index(min(ring)) :] + ring[: ring.index(min(ring))]


def pixel(point):
    """The whole millimetres that a point in metres rounds to: to parts first, of which a millimetre has 1024, as
    everything does."""
    return tuple((round(Fraction(value) * 1_024_000) + 512) // 1024 for value in point)


def is_near(corner, a, b):
    """Whether a point comes within MOVED, in x and in y, of the border between two."""
    (x, y), (dx, dy) = corner, (b[0] - a[0], b[1] - a[1])
    return (
        min(a[0], b[0]) - MOVED <= x <= max(a[0], b[0]) + MOVED
        and min(a[1], b[1]) - MOVED <= y <= max(a[1], b[1]) + MOVED
        and abs(dx * (y - a[1]) - dy * (x - a[0])) <= MOVED * (abs(dx) + abs(dy))
    )


def added(before, after):
    """The corners that a text has more than that of a year before, each with the two corners of that between which it
    lies; None where it differs by anything else."""
    old, found = list(map(turned, rings(before))), []
    there = {corner for ring in old for corner in ring}
    for ring in rings(after):
        places = [place for place, corner in enumerate(ring) if corner in there]
        kept = turned([ring[place] for place in places]) if places else []
        if kept not in old:
            return None
        old.remove(kept)
        for place in set(range(len(ring))) - set(places):
            first, last = max((one for one in places if one < place), default=places[-1]), min(
                (one for one in places if one > place), default=places[0]
            )
            found.append((ring[place], ring[first], ring[last]))
    return None if old else found


class Neighbours:
    """Two years of a country: the sources, and the folders that have the regions."""

    def __init__(self, first, second, before, after):
        self.sources, self.texts = (sources(first), sources(second)), (texts(before), texts(after))

    def unchanged(self):
        """The parcels of both years whose rows are the same, to the byte."""
        return {
            parcel
            for parcel in self.texts[0]
            if parcel in self.texts[1] and self.sources[0].get(parcel) == self.sources[1].get(parcel)
        }

    def other(self):
        """Those of them that have another text."""
        return sorted(parcel for parcel in self.unchanged() if self.texts[0][parcel] != self.texts[1][parcel])

    def new_ends(self, points_of):
        """The pixels of points that the sources of this year have and those of last year have not, of parcels that
        changed. `points_of` reads a shape."""
        unchanged = self.unchanged()
        old, new = (
            {
                point
                for parcel, rows in source.items()
                if parcel not in unchanged
                for *_, shape in rows
                if shape
                for point in points_of(shape)
            }
            for source in self.sources
        )
        return set(map(pixel, new - old))

    def faults(self, points_of):
        """What is not as it has to be of the parcels that have another text."""
        ends, unchanged, found = self.new_ends(points_of), self.unchanged(), []
        changed = {
            corner
            for parcel, text in self.texts[1].items()
            if parcel not in unchanged
            for ring in rings(text)
            for corner in ring
        }
        for parcel in self.other():
            corners = added(self.texts[0][parcel], self.texts[1][parcel])
            if not corners:
                found.append(f"{parcel} differs by more than new corners")
            for corner, a, b in corners or ():
                for is_right, words in (
                    (corner in ends, "is at no end of a new border"),
                    (corner in changed, "is on no parcel that changed"),
                    (is_near(corner, a, b), "lies too far away"),
                ):
                    if not is_right:
                        found.append(f"{parcel}: the corner {corner} {words}")
        return found
