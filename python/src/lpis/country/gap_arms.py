"""The narrow arms of land that nobody has, of which the first of both parcels is a cell's: by the borders of its
parcels, and of all that are near them."""

from __future__ import annotations

import hashlib
import json
import os

import numpy

from . import gap_borders
from ..preparation import conflicts
from ..rounding import gaps
from .cell_rounding import record_of, written
from ..geometry.noding import cells_along, key_of

RULE = "lpis gaps 2"  # what another rule gave is not taken
LEAST = 100_000  # millimetres: the side of the squares in which near borders are looked for
BESIDE = (
    "SELECT id, cell, at FROM box_of_way JOIN way USING (id) WHERE left <= ? AND right >= ? AND low <= ? AND high >= ?"
    " AND NOT is_narrow"
)


class Lines:
    """The borders of a cell's parcels and those within twice the width of them: over each place of these that faces
    one of the cell's all nearer ones are there."""

    def __init__(self, base, number, folder):
        (self.width,) = base.execute("SELECT width FROM asked").fetchone()
        self.side = max(LEAST, int(2 * gaps.millimetres(self.width)) + 10)
        read = gap_borders.Files(lambda cell: os.path.join(folder, name_of(folder, cell)))
        mine = base.execute(
            "SELECT id, cell, at FROM way WHERE cell = ? AND NOT is_narrow ORDER BY at", (number,)
        ).fetchall()
        parts = [read.read(cell, at).lines() for _, cell, at in mine]
        self.own = {name for _, _, names in parts for name in names}
        squares = self.squares(parts)
        others = {way for square in squares for way in base.execute(BESIDE, square)} - set(mine)
        keys = numpy.array([key_of(int(column), int(row)) for column, row in self.places], numpy.int64)
        for _, cell, at in sorted(others, key=lambda way: way[1:]):
            a, b, names = read.read(cell, at).lines()
            edge, column, row = cells_along(numpy.hstack([a, b]), self.side)
            near = numpy.unique(edge[numpy.isin(key_of(column, row), keys)])
            parts.append((a[near], b[near], [names[one] for one in near.tolist()]))
        read.close()
        self.put(parts)

    def squares(self, parts):
        """The squares around those that borders go through, in metres."""
        edges = numpy.concatenate([numpy.zeros((0, 4), int), *(numpy.hstack([a, b]) for a, b, _ in parts)])
        _, column, row = cells_along(edges, self.side)
        places = numpy.unique(numpy.stack([column, row], axis=1), axis=0)
        self.places = numpy.unique(
            numpy.concatenate([places + (east, north) for east in (-1, 0, 1) for north in (-1, 0, 1)]), axis=0
        )
        low, high = self.places * (self.side / 1000), (self.places + 1) * (self.side / 1000)
        return [(right, left, top, bottom) for (left, bottom), (right, top) in zip(low.tolist(), high.tolist())]

    def put(self, parts):
        a, b = (numpy.concatenate([numpy.zeros((0, 2), int), *(part[end] for part in parts)]) for end in (0, 1))
        names = [name for part in parts for name in part[2]]
        order = numpy.lexsort((*b.T, *a.T))
        self.a, self.b, self.names = a[order], b[order], [names[one] for one in order.tolist()]

    def name(self):
        """A digest of all that the arms hang on."""
        digest = hashlib.sha256(json.dumps([RULE, self.width, sorted(self.own), self.names]).encode())
        for ends in (self.a, self.b):
            digest.update(ends.astype("<i8").tobytes())
        return f"{digest.hexdigest()}.jsonl"


def name_of(folder, cell):
    """The name of the file that has what a cell gave."""
    with open(os.path.join(folder, f"{cell}.cell"), encoding="utf-8") as file:
        return file.read()


def made(base, number, results):
    """The name of the file that has the arms of a cell; it is made where it is not there."""
    return written(results, Lines(base, number, results), records_of)


def records_of(lines):
    for loss in conflicts.between_all(gaps.arms(lines.a, lines.b, lines.names, lines.width, lines.own)):
        yield "loss", record_of(loss, loss.words)
