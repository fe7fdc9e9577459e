"""Lands whose conflicts hang together: along each side of each parcel the parcel's own border and that of its piece
leave the side by steps of their own, so that overlaps, gaps and pieces outside of their parcel lie beside, along and
inside one another, thin ones on wide ones, at ends, at junctions and as combs. What has to hold is judged by Shapely
here and by audit/source.py; nothing of tools/ is used."""

from __future__ import annotations

import math
import os
import random
import subprocess
import sys

from lpis_helpers.lands_land import Land, Row
from lpis_helpers.lands_shapes import Shape
from lpis_helpers.places import TOP

THIN = (0.0, 1e-7, 1e-5, 1e-4, 4e-4, 9e-4, 1.4e-3, 1.9e-3, 5e-3, 1.5e-2)  # metres beside the side
WIDE = (0.021, 0.03, 0.05, 0.2, 0.5, 1.3, 2.4)
MOST_TEETH = 12
SIDES = (12.0, 40.0, 300.0, 3000.0)  # metres of a parcel's side
ORIGIN = 550_000.0, 5_400_000.0
WIDTH, ROOM = 0.02, 0.0002  # metres: what stops, and what buffers may be off


class Conflicts(Land):
    """A land of a number, of a few parcels with one or two pieces each."""

    def __init__(self, seed: int, most: int = 2000) -> None:
        self.seed, self.random = seed, random.Random(f"conflicts {seed}")
        self.parcels, self.covers, self.parts, self.is_clean, self.is_large = [], [], ["conflicts"], False, False
        self.classes, self.classes_given, self.hair = [("GRASS", 100), ("TREES", 30), ("WATER", 0)], "land", 0.0
        self.form = self.random.choice(["package", "package", "csv", "semicolons"])
        self.step = self.random.choice(SIDES)
        self.grain = self.random.choice([None, None, None, 0.001])  # a layer that was rounded alone
        turn = self.random.choice([0.0, self.random.uniform(0, 2 * math.pi)])
        self.turn = math.cos(turn), math.sin(turn)
        self.is_quiet = self.random.random() < 0.3  # thin steps alone: nothing stops
        across, up = self.random.choice([(2, 1), (2, 2), (3, 2)])
        self.count = min(most, across * up)
        corners = {(i, j): self.corner(i, j) for i in range(across + 1) for j in range(up + 1)}
        for i in range(across):
            for j in range(up):
                self.add_parcel([corners[i, j], corners[i + 1, j], corners[i + 1, j + 1], corners[i, j + 1]])
        self.number_rows()

    def corner(self, i: int, j: int) -> tuple[float, float]:
        x, y = ((place + self.random.uniform(-0.15, 0.15)) * self.step for place in (i, j))
        return ORIGIN[0] + self.turn[0] * x - self.turn[1] * y, ORIGIN[1] + self.turn[1] * x + self.turn[0] * y

    def add_parcel(self, corners: list) -> None:
        name = f"P{len(self.parcels) + 1}"
        shape = Shape([[self.ring(corners)]])
        if self.random.random() < 0.6:
            pieces = [self.ring(corners)]
        else:
            a, b, c, d = corners
            s, t = ((0.5 * (p[0] + q[0]), 0.5 * (p[1] + q[1])) for p, q in ((a, b), (d, c)))
            pieces = [self.ring([a, s, t, d]), self.ring([s, b, c, t])]
        self.parcels.append(Row("parcels", {"parcel": name}, shape))
        for ring in pieces:
            fields = {"piece": f"K{len(self.covers) + 1}", "parcel": name, "class": self.random.choice(self.classes)[0]}
            self.covers.append(Row("covers", fields, Shape([[ring]])))

    def ring(self, corners: list) -> list:
        """A ring along the sides, by steps beside each."""
        ring = [point for a, b in zip(corners, [*corners[1:], corners[0]]) for point in self.side(a, b)]
        return [self.settled(point) for point in [*ring, ring[0]]]

    def side(self, a: tuple, b: tuple) -> list:
        """The way from one corner to the next, without the last: steps beside it, outwards or inwards."""
        length = math.dist(a, b)
        along = (b[0] - a[0]) / length, (b[1] - a[1]) / length
        points = [a]
        for low, high, depth in self.steps(length):
            for at, off in ((low, depth), (high, depth)):
                points.append((a[0] + along[0] * at + along[1] * off, a[1] + along[1] * at - along[0] * off))
        return points

    def steps(self, length: float) -> list:
        """Steps along a side: from, to, and how far outwards."""
        kind = self.random.randrange(6)
        if kind < 2:
            return []
        sign = self.random.choice([1, -1])
        if kind == 2:  # one all along
            return [(0.0, length, sign * self.depth())]
        if kind == 3:  # a comb
            count = self.random.randrange(2, MOST_TEETH)
            depth, thin = self.depth(), self.random.choice(THIN)
            return [
                (length * k / count, length * (k + 1) / count, sign * (thin if k % 2 else depth)) for k in range(count)
            ]
        cuts = sorted(self.random.choice([0.0, 1.0, self.random.random()]) for _ in range(self.random.randrange(2, 5)))
        if self.random.random() < 0.5:  # a short place on a thin one
            start = self.random.choice([0.0, length - 2.0, self.random.uniform(0, length - 2.0)])
            cuts = [0.0, start / length, (start + self.random.uniform(0.05, 2.0)) / length, 1.0]
        depths = [self.depth() if k % 2 else self.random.choice(THIN) for k in range(len(cuts))]
        return [
            (low * length, high * length, sign * depth)
            for low, high, depth in zip(cuts, cuts[1:], depths)
            if high > low
        ]

    def depth(self) -> float:
        return self.random.choice(THIN[:8] if self.is_quiet else WIDE + THIN)


def widest(land: Conflicts) -> tuple[bool, bool]:
    """Whether some conflict is surely two centimetres wide, and whether one may be: by Shapely's buffers, over all
    pairs."""
    from shapely.geometry import Polygon
    from shapely.ops import unary_union
    from shapely.validation import make_valid

    shapes = {id(row): make_valid(Polygon(row.shape.members[0][0])) for row in land.rows()}
    found = []
    for number, row in enumerate(land.covers):
        found += [shapes[id(row)].intersection(shapes[id(other)]) for other in land.covers[:number]]
    for parcel in land.parcels:
        own = [shapes[id(row)] for row in land.covers if row.fields["parcel"] == parcel.name()]
        found.append(shapes[id(parcel)].difference(unary_union(own)))
        found += [piece.difference(shapes[id(parcel)]) for piece in own]
    return tuple(any(not shape.buffer(-(WIDTH / 2 + room)).is_empty for shape in found) for room in (ROOM, -ROOM))


def audited(source: str, out: str, *more: str) -> str:
    """What the second checker says of a source and the tables that were made of it."""
    words = [sys.executable, "-B", os.path.join(TOP, "audit", "source.py"), source, out, *more]
    ran = subprocess.run(words, capture_output=True, text=True, check=False, timeout=600)
    return (ran.stdout + ran.stderr).strip() or f"status {ran.returncode}"


def try_conflicts(trial, land: Conflicts, source: str) -> None:
    """The runs over such a land: what is wide stops, and what is written keeps the promise, of a release and of a
    country."""
    is_wide, _ = widest(land)
    first = trial.prepared(source, trial.path("plain"))
    if is_wide and first.status == 0:
        trial.say("silent", "a conflict of two centimetres or more does not stop")
    for tool, words in (("prepare", []), ("country", ["prepare"])):
        out = trial.path(f"accepted-{tool}")
        run = trial.run(tool, *words, source, out, "--accept")
        if run.status == 0 and (told := audited(source, out)) != "yes":
            trial.say(f"audit of {tool}", told[:300])
        elif run.status:
            trial.say("status", f"{tool} --accept ended with {run.status}")
    if first.status == 0 and (told := audited(source, trial.path("plain"))) != "yes":
        trial.say("audit", told[:300])
    trial.proved(trial.path("accepted-prepare"))
