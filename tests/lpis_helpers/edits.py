"""A source in doubles as it is a year later: exact splits and merges along corners that it had, for the tests of
`tools/prepare --previous`. By Shapely.

    PYTHONPATH=tests python3 -m lpis_helpers.edits FOLDER NEW [COUNT [SEED [NOISE]]]     FOLDER has parcels.csv and
        covers.csv of make_coverage.py

A parcel is split along its pieces or along a line between two of its corners; two neighbours are merged, with their
pieces kept, or drawn anew as one piece without the corners that then lie on a straight line. NOISE metres are added to
each corner, the same wherever the corner stands.
"""

import csv
import os
import random
import shutil
import sys

from shapely import wkt
from shapely.geometry import LineString, MultiPolygon, Polygon
from shapely.ops import split, unary_union

from lpis_helpers.calls import records

STRAIGHT = 1e-6  # metres beside its neighbours' line: a corner that a GIS drops
SAME = 5  # decimals of metres to which two corners at one place agree
KINDS = ("split by a line", "split by pieces", "merged", "drawn anew")


def parts_of(shape):
    return [part for part in getattr(shape, "geoms", [shape]) if part.geom_type == "Polygon" and part.area > STRAIGHT]


class Land:
    """Parcels and pieces as shapes, which edits change."""

    def __init__(self, folder):
        self.folder = folder
        self.parcels = {row["parcel"]: wkt.loads(row["wkt"]) for row in records(folder, "parcels.csv")}
        self.pieces, self.of_parcel = {}, {}  # pieces, and the names of those of each parcel
        for row in records(folder, "covers.csv"):
            self.put(row["piece"], row["parcel"], row["class"], wkt.loads(row["wkt"]))

    def put(self, name, parcel, land_class, shape):
        """A new piece, or one that gets another parcel."""
        if name in self.pieces:
            self.of_parcel[self.pieces[name][0]].remove(name)
        self.pieces[name] = parcel, land_class, shape
        self.of_parcel.setdefault(parcel, []).append(name)

    def take(self, name):
        """A piece that goes."""
        piece = self.pieces.pop(name)
        self.of_parcel[piece[0]].remove(name)
        return piece

    def pieces_of(self, parcel):
        return list(self.of_parcel.get(parcel, ()))

    def write(self, folder, moved):
        os.makedirs(folder, exist_ok=True)
        for name, header, lines in (
            ("parcels", ["parcel", "wkt"], [[key, self.text(shape, moved)] for key, shape in self.parcels.items()]),
            (
                "covers",
                ["piece", "parcel", "class", "wkt"],
                [[key, *piece[:2], self.text(piece[2], moved)] for key, piece in self.pieces.items()],
            ),
        ):
            with open(os.path.join(folder, f"{name}.csv"), "w", newline="", encoding="ascii") as file:
                table = csv.writer(file, lineterminator="\n")
                table.writerows([header, *lines])
        shutil.copy(os.path.join(self.folder, "classes.csv"), folder)

    @staticmethod
    def text(shape, moved):
        def ring(way):
            return "(" + ",".join(f"{x!r} {y!r}" for x, y in map(moved, way.coords)) + ")"

        return (
            "MULTIPOLYGON("
            + ",".join(
                "(" + ",".join(map(ring, (part.exterior, *part.interiors))) + ")"
                for part in getattr(shape, "geoms", [shape])
            )
            + ")"
        )

    # Edits: each answers whether it was done.

    def split_by_a_line(self, name, chance):
        """Between two corners of the parcel; its pieces are cut too."""
        return self.split_by(name, lambda border: LineString(chance.sample(list(border.coords)[:-1], 2)), 20)

    def split_across(self, name, chance):
        """Along a line that ends somewhere between the corners of two borders; those that the parcel shares them
        with have no corner there."""

        def across(border):
            a, b = (border.interpolate(chance.random(), normalized=True) for _ in range(2))
            return LineString([(2 * a.x - b.x, 2 * a.y - b.y), (2 * b.x - a.x, 2 * b.y - a.y)])

        return self.split_by(name, across)

    def split_by(self, name, line_of, least=0):
        """By the first of twenty lines, drawn for the border of a parcel of one part, that is longer than that and
        leaves two large halves."""
        shape = self.parcels[name]
        if shape.geom_type != "Polygon" and len(shape.geoms) != 1:
            return False
        outline = getattr(shape, "geoms", [shape])[0]
        for _ in range(20):
            line = line_of(outline.exterior)
            halves = parts_of(split(outline, line))
            if len(halves) == 2 and line.length > least and min(half.area for half in halves) > shape.area / 5:
                self.divide(name, halves)
                return True
        return False

    def divide(self, name, halves):
        del self.parcels[name]
        pieces = {piece: self.take(piece) for piece in self.pieces_of(name)}
        for number, half in enumerate(halves, 1):
            self.parcels[f"{name}-{number}"] = half
            for piece, (_, land_class, shape) in pieces.items():
                found = parts_of(shape.intersection(half))
                if found:
                    self.put(f"{piece}-{number}", f"{name}-{number}", land_class, MultiPolygon(found))

    def split_by_pieces(self, name, chance):
        pieces = self.pieces_of(name)
        first = chance.choice(pieces)
        groups = [[first], [piece for piece in pieces if piece != first]]
        if (
            any(
                len(parts_of(unary_union([self.pieces[piece][2] for piece in group]))) != 1 for group in groups if group
            )
            or not groups[1]
        ):
            return False
        del self.parcels[name]
        for number, group in enumerate(groups, 1):
            self.parcels[f"{name}-{number}"] = unary_union([self.pieces[piece][2] for piece in group])
            for piece in group:
                self.put(piece, f"{name}-{number}", *self.pieces[piece][1:])
        return True

    def merge(self, name, chance, is_anew=False):
        """With the next parcel of its row."""
        other = f"P{int(name[1:]) + 1:06}"
        if other not in self.parcels:
            return False
        whole = unary_union([self.parcels[name], self.parcels[other]])
        if whole.geom_type != "Polygon":
            return False
        new, pieces = f"{name}-{other}", [*self.pieces_of(name), *self.pieces_of(other)]
        del self.parcels[name], self.parcels[other]
        if is_anew:
            whole = Polygon(whole.exterior).simplify(STRAIGHT)
            for piece in pieces:
                self.take(piece)
            self.put(f"{new}.1", new, "GRASS", whole)
        for piece in () if is_anew else pieces:
            self.put(piece, new, *self.pieces[piece][1:])
        self.parcels[new] = whole
        return True

    def edit(self, kind, name, chance):
        if kind == "split by a line":
            return self.split_by_a_line(name, chance)
        return (
            self.split_by_pieces(name, chance)
            if kind == "split by pieces"
            else self.merge(name, chance, kind == "drawn anew")
        )


def make(folder, new, count=90, seed=1, noise=0.0):
    """Writes the edited source: how many edits of each kind."""
    land, chance, done = Land(folder), random.Random(seed), dict.fromkeys(KINDS, 0)
    names = list(land.parcels)
    chance.shuffle(names)
    while sum(done.values()) < count and names:
        name, kind = names.pop(), KINDS[sum(done.values()) % len(KINDS)]
        done[kind] += name in land.parcels and land.edit(kind, name, chance)
    by_place = {}

    def moved(point):
        place = tuple(round(value, SAME) for value in point)
        if place not in by_place:
            by_place[place] = [chance.uniform(-noise, noise) for _ in point]
        return tuple(value + more for value, more in zip(point, by_place[place]))

    land.write(new, moved)
    return done


if __name__ == "__main__":
    print(make(sys.argv[1], sys.argv[2], *map(int, sys.argv[3:5]), *map(float, sys.argv[5:6])))
