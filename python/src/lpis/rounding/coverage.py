"""An exactly consistent map from one in doubles: all borders are rounded to millimetres together, in one pass. Each
face between them goes to the piece that has it, and parcels become the unions of their pieces. What a parcel becomes
depends on the rows beside it alone."""

from __future__ import annotations

import csv
import os
import warnings
from dataclasses import dataclass

import numpy
from shapely import wkb as shapely_wkb

from . import overlay, snap_rounding
from .gaps import Between
from ..source.land import BETWEEN
from ..formats.millimetres import texts_of
from ..system.trouble import Trouble

warnings.filterwarnings("ignore", module="shapely")


def shape_of(found):
    """Polygons as Shapely has them."""
    return shapely_wkb.loads(found.blob)


@dataclass
class Conflicts:
    """The rows that have a face in conflict: two pieces, a parcel and none of its pieces, a piece and none of the
    parcels of its parcel's name, with the first of these."""

    overlaps: list
    gaps: list
    outsides: list
    between: list  # land that nobody has between parcels


class Map:
    """A land with all borders rounded together, with last year's borders or without: the piece of each face."""

    def __init__(self, parcels, covers, say, then=None):
        self.parcels, self.covers = parcels, covers
        say("borders, as those of last year where they are the same" if then else "borders")
        self.network = self.rounded(then)
        say("faces")
        self.faces = overlay.Faces(self.network)
        self.windings = self.faces.windings()
        self.pieces = self.owners()
        self.texts, self.places = [], []

    def rounded(self, then):
        """The borders. Where they cross one another too often, a row is named that others cross most."""
        rows = self.parcels + self.covers
        try:
            return snap_rounding.network_of([row.found for row in rows], then)
        except snap_rounding.Crossed as crossed:
            row = rows[crossed.owner]
            layer, name = ("covers", row["piece"]) if row["piece"] else ("parcels", row["parcel"])
            number = getattr(row, "stands", row.number)
            where = f" (row {number})" if isinstance(number, int) else ""
            raise Trouble(
                f"{layer}: the borders cross one another more than {crossed.count} times, those of {name}{where} most:"
                " mend these rows, which lie on many others"
            ) from None

    def owners(self):
        """The piece of each face: where several have it, that with the least identifier."""
        start = len(self.parcels)
        order = sorted(range(len(self.covers)), key=lambda number: self.covers[number]["piece"])
        rank = {start + number: place for place, number in enumerate(order)}
        least = [
            min((rank[who] for who, times in winding if who >= start and times > 0), default=None)
            for winding in self.windings
        ]
        return numpy.array([overlay.NOBODY if place is None else order[place] for place in least], int)

    def conflicts(self, between=BETWEEN):
        """The rows of which the rounded map says that they share a face, or do not share one that they should; and land
        that nobody has, up to a width in metres, unless that is None."""
        start, parcels_of, gaps, outsides = len(self.parcels), {}, {}, {}
        names, names_of_pieces = [row["parcel"] for row in self.parcels], [row["parcel"] for row in self.covers]
        named = set(names_of_pieces)
        for number, name in enumerate(names):
            parcels_of.setdefault(name, []).append(number)
        for winding in set(self.windings):
            pieces = [who - start for who, times in winding if who >= start and times > 0]
            parcels = {who for who, times in winding if who < start and times > 0}
            held, there = {names_of_pieces[number] for number in pieces}, {names[number] for number in parcels}
            gaps.update((number, None) for number in parcels if names[number] not in held and names[number] in named)
            outsides.update(
                ((number, one), None)
                for number in pieces
                for one in parcels_of.get(names_of_pieces[number], ())[:1]
                if names_of_pieces[number] not in there
            )
        return Conflicts(
            [(self.covers[a], self.covers[b]) for a, b in self.overlaps()],
            [self.parcels[number] for number in sorted(gaps)],
            [(self.covers[piece], self.parcels[number]) for piece, number in sorted(outsides)],
            self.between(between) if between else [],
        )

    def between(self, width):
        """Land that nobody has, up to a width in metres."""
        held = self.held()
        return Between(
            self.faces,
            numpy.array([name is None for name in held], bool),
            lambda halves: [held[there] for there in self.faces.cycle[halves ^ 1].tolist()],
            width,
        ).find()

    def held(self):
        """The parcel that has each cycle's face, by its piece or else by its own shape; None where nobody has it."""
        count, names = len(self.parcels), [row["parcel"] for row in self.covers]
        own = [
            next((self.parcels[who]["parcel"] for who, times in winding if times > 0 and who < count), None)
            for winding in self.windings
        ]
        return [mine if piece == overlay.NOBODY else names[piece] for piece, mine in zip(self.pieces.tolist(), own)]

    def overlaps(self):
        """Each two pieces that share a face, by their numbers: where what they share begins, one of them does."""
        start, network, others = len(self.parcels), self.network, {}
        held = [[who - start for who, times in winding if who >= start and times > 0] for winding in self.windings]
        cycle = self.faces.cycle[2 * network.edge + (network.count < 0)]
        begins = (network.owner >= start) & numpy.array([len(pieces) > 1 for pieces in held], bool)[cycle]
        for key in numpy.unique((network.owner[begins] << 32) | cycle[begins]).tolist():
            others.setdefault((key >> 32) - start, set()).update(held[key & 0xFFFFFFFF])
        return sorted(
            {(min(one, other), max(one, other)) for one, some in others.items() for other in some if one != other}
        )

    def polygons(self, owners):
        """Each owner that has a face with the text of what it has, by the owners of the faces."""
        return ((owner, self.text(members)) for owner, members in self.members(owners))

    def members(self, owners):
        """The same with polygons of corners, by their numbers."""
        before, rings = None, []
        for owner, member, ring in overlay.Rings(self.faces, owners).walked():
            if owner != before and rings:
                yield before, self.closed(rings)
                rings = []
            before = owner
            rings.append((member, ring))
        if rings:
            yield before, self.closed(rings)

    def closed(self, rings):
        return [[[*ring, ring[0]] for ring in member] for member in overlay.members_of(rings, self.network.points)]

    def text(self, members):
        """The text of polygons of corners."""
        if not self.texts:
            self.texts = [text for part in numpy.array_split(self.network.points, 100) for text in texts_of(part)]
        text_of = self.texts.__getitem__
        shells = (",".join(f"({','.join(map(text_of, ring))})" for ring in member) for member in members)
        return "MULTIPOLYGON(" + ",".join(f"({rings})" for rings in shells) + ")"

    def in_millimetres(self, members):
        """Polygons of corners with the places of these: what their text says."""
        if not self.places:
            self.places = list(map(tuple, self.network.points.tolist()))
        place_of = self.places.__getitem__
        return [[list(map(place_of, ring)) for ring in member] for member in members]

    def parcels_of_faces(self, rows):
        """The parcel of each face: that of its piece, by the number of the first row of that name."""
        number_of = {}
        for number, row in enumerate(rows):
            number_of.setdefault(row["parcel"], number)
        of_piece = numpy.array(
            [number_of.get(row["parcel"], overlay.NOBODY) for row in self.covers] + [overlay.NOBODY], int
        )
        return of_piece[self.pieces]


def release(layers, out, say, then=None, between=BETWEEN):
    """Writes parcels.csv and covers.csv of a land into a folder, and gives the conflicts that its map shows. Rows
    without a shape are passed over. `then` has last year's borders: those that did not change stay."""
    covers = [row for row in layers["covers"].rows if row.found]
    parcels = [row for row in layers["parcels"].rows if row.found]
    land, rows = Map(parcels, covers, say, then), layers["parcels"].rows
    os.makedirs(out, exist_ok=True)
    say("tables")
    write(
        out,
        "covers.csv",
        ["piece", "parcel", "class", "wkt"],
        (
            [covers[number]["piece"], covers[number]["parcel"], covers[number]["class"], text]
            for number, text in land.polygons(land.pieces)
        ),
    )
    write(
        out,
        "parcels.csv",
        ["parcel", "wkt"],
        ([rows[number]["parcel"], text] for number, text in land.polygons(land.parcels_of_faces(rows))),
    )
    return land.conflicts(between)


def write(out, name, header, records):
    with open(os.path.join(out, name), "w", newline="", encoding="utf-8") as file:
        table = csv.writer(file, lineterminator="\n")
        table.writerow(header)
        table.writerows(records)
