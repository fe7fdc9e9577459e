"""What a cell of a country gives, of its rows and those beside them alone: the texts of its parcels and pieces, what
was lost, settled or changed of them, and their part of the balance. All of it goes into one file, a record a line,
which is named by all that it hangs on."""

from __future__ import annotations

import hashlib
import json
import os

import numpy
from shapely import wkb as shapely_wkb
from shapely.geometry import box
from shapely.prepared import prep

from . import gap_borders, last_year_corners, row_store
from ..formats import polygons, wkb
from ..preparation import conflicts, land_balance, last_year_conflation, row_outcomes
from ..rounding import coverage
from ..source import land
from ..system import files
from ..rounding.snap_rounding import REACH

FAR = 2 * REACH  # from a shape, whose borders move
RULE = "lpis cells 9"  # what another rule gave is not taken
OWN = (
    "SELECT row.id, is_cover, row.parcel, left, low, right, high FROM row JOIN cell USING (parcel) WHERE cell.number ="
    " ? AND is_kept"
)
BESIDE = "SELECT id, left, low, right, high FROM box WHERE left <= ? AND right >= ? AND low <= ? AND high >= ?"
FIELDS = (
    "SELECT id, number, is_cover, name, parcel, class, area, why, shape, read FROM row JOIN shape USING (id) WHERE id"
    " IN (SELECT value FROM json_each(?)) AND is_kept ORDER BY id"
)


class Row(land.Row):
    """A row of the store, as the rounding and the report want it. `read` is its shape as it was read, where that is
    another. Its number is its name: who reads a result finds the row by it, wherever it stands then. `stands` is where
    it stands now, for what ends the run."""

    __slots__ = ("area", "id", "is_cover", "read", "stands")

    def __init__(self, own, stands, is_cover, name, parcel, land_class, area, why, shape, read):
        self.fields = {"piece": name, "parcel": parcel, "class": land_class} if is_cover else {"parcel": parcel}
        self.id, self.number, self.is_cover, self.area, self.why = own, (is_cover, name), is_cover, area, why
        self.stands = stands
        self.found, self.read = (wkb.Found.of_blob(blob) if blob else None for blob in (shape, read))

    def words(self):
        """What is known of it but its shapes, and these."""
        blobs = [found.blob if found else b"" for found in (self.found, self.read)]
        return repr((self.is_cover, self.fields, self.why, *map(len, blobs))).encode(errors="backslashreplace"), *blobs


class Near:
    """What comes within reach of a row's box, or of its shape where the box is large: its rounding hangs on that."""

    def __init__(self, base, number, left, low, right, high):
        self.base, self.box, self.shape = base, (left - REACH, low - REACH, right + REACH, high + REACH), None
        if is_large(left, low, right, high):
            self.shape = prep(
                shapely_wkb.loads(base.execute("SELECT shape FROM shape WHERE id = ?", (number,)).fetchone()[0])
            )

    def those(self, query):
        """What a query gives of the rows of a table with boxes, which stand behind it."""
        left, low, right, high = self.box
        found = self.base.execute(query, (right, left, high, low))
        if self.shape is None:
            return [one for one, *_ in found]
        return [
            one
            for one, west, south, east, north in found
            if self.shape.intersects(box(west - FAR, south - FAR, east + FAR, north + FAR))
        ]


def is_large(left, low, right, high):
    return max(right - left, high - low) > row_store.LARGE


def asked(rows):
    """The rows to ask what is near them: those in the box of their parcel's own row, unless that is large, are not
    asked."""
    rows = list(rows)
    parcels = {
        parcel: found
        for _, is_cover, parcel, *found in rows
        if not is_cover and found[0] is not None and not is_large(*found)
    }
    for number, is_cover, parcel, left, low, right, high in rows:
        of_parcel = parcels.get(parcel) if is_cover else None
        if left is not None and not (
            of_parcel
            and of_parcel[0] <= left
            and of_parcel[1] <= low
            and right <= of_parcel[2]
            and high <= of_parcel[3]
        ):
            yield number, left, low, right, high


class Cell:
    """A cell: the names of its parcels, its rows and those that their rounding hangs on, with last year's borders
    beside all of these."""

    def __init__(self, base, number):
        rows, numbers = base.execute(OWN, (number,)).fetchall(), set()
        own = {one for one, *_ in rows}
        for found in asked(rows):
            numbers.update(Near(base, *found).those(BESIDE))
        rows = [Row(*fields) for fields in base.execute(FIELDS, (json.dumps(sorted(numbers | own)),))]
        self.rows, self.mine = rows, own
        self.wanted, self.then = {row["parcel"] for row in rows if row.id in own}, then_of(base, rows)
        self.own = {
            name: [row for row in rows if row.is_cover == is_cover and row.id in own]
            for is_cover, name in enumerate(("parcels", "covers"))
        }
        self.parcels, self.covers = (
            [row for row in rows if row.is_cover == is_cover and row.found] for is_cover in (0, 1)
        )

    def name(self):
        """A digest of the parcels that are wanted, of last year's borders, and of the rows, in their order."""
        digest = hashlib.sha256(
            RULE.encode() + (self.then.points.tobytes() + self.then.keys.tobytes() if self.then else b"")
        )
        for row in self.rows:
            for words in (b"own " if row.id in self.mine else b"near ", *row.words()):
                digest.update(words)
        return f"{digest.hexdigest()}.jsonl"


def then_of(base, rows):
    """Last year's borders beside rows, where there are any."""
    if not base.execute("SELECT EXISTS (SELECT 1 FROM corner)").fetchone()[0]:
        return None
    near = [
        Near(base, *found)
        for found in asked((row.id, row.is_cover, row["parcel"], *row.found.box()) for row in rows if row.found)
    ]
    return last_year_conflation.Borders(
        numpy.concatenate(
            [
                numpy.zeros((0, 4), int),
                *(last_year_corners.edges_in(one.box, one.those(last_year_corners.THEN)) for one in near),
            ]
        )
    )


def made(base, number, results):
    """The name of the file that has what a cell gives; it is made where it is not there."""
    return written(results, Cell(base, number), records_of)


def written(results, found, records_of_it):
    """The name of the file that has the records of what was read of a store; it is made where it is not there."""
    name = found.name()
    if not os.path.exists(os.path.join(results, name)):
        with files.anew(os.path.join(results, name)) as file:
            file.writelines(json.dumps(record) + "\n" for record in records_of_it(found))
    return name


def records_of(cell):
    """The records of a cell: `piece` and `parcel` with the text, `loss`, `greatest` with the greatest change of a
    parcel, `sum` of the balance, and the ways beside land that nobody has."""
    made_map = coverage.Map(cell.parcels, cell.covers, lambda words: None, then=cell.then)
    own = cell.own["parcels"]
    # The texts of pieces of other cells are right near this one's alone.
    made = {
        "covers": [(cell.covers[number], members) for number, members in made_map.members(made_map.pieces)],
        "parcels": [(own[number], members) for number, members in made_map.members(made_map.parcels_of_faces(own))],
    }
    for kind, name in (("piece", "covers"), ("parcel", "parcels")):
        yield from (
            (kind, row[kind], made_map.text(members)) for row, members in made[name] if row["parcel"] in cell.wanted
        )
    whole = land_balance.Balance({})
    for name, rows in cell.own.items():
        for row in rows:
            entry = whole.entries[id(row)] = land_balance.Entry(name, row, row.area)
            entry.founds = (row.read,) if row.read else entry.founds
    source = conflicts.Source(
        {name: land.Layer(name, rows) for name, rows in (("parcels", cell.parcels), ("covers", cell.covers))}
    )
    conflicts.find_conflicts(source, lambda words: None, conflicts_of(cell, made_map))
    before = [loss.words for loss in source.losses]
    compared = Compared(source, cell, made_map, made, whole)
    compared.compare_tables()
    for number, loss in enumerate(source.losses):
        yield "loss", record_of(loss, before[number] if number < len(before) else loss.words)
    if compared.greatest:
        change, loss = compared.greatest
        yield "greatest", change, record_of(loss, loss.words), any(one is loss for one in source.losses)
    for (layer, land_class), sums in whole.sums.items():
        yield "sum", layer, land_class, list(sums.values())
    yield from gap_borders.ways_of(made_map, cell.wanted)


def conflicts_of(cell, made_map):
    """The conflicts that are this cell's to tell: an overlap is that of the lesser piece."""
    found, wanted = made_map.conflicts(None), cell.wanted
    found.overlaps = [pair for pair in found.overlaps if min(pair, key=lambda row: row["piece"])["parcel"] in wanted]
    found.gaps = [row for row in found.gaps if row["parcel"] in wanted]
    found.outsides = [(piece, row) for piece, row in found.outsides if piece["parcel"] in wanted]
    return found


class Compared(row_outcomes.Outcome):
    """The tables of a cell beside its rows. Pieces of other cells are there only where they may have a place in
    conflict."""

    def __init__(self, source, cell, made_map, made, whole):
        super().__init__(source, self.own_records, whole)
        self.cell, self.map, self.made = cell, made_map, made
        source.layers = {name: land.Layer(name, rows) for name, rows in cell.own.items()}

    def own_records(self, name):
        for row, corners in self.made[name]:
            is_own = row["parcel"] in self.cell.wanted
            if not is_own and not self.places:
                continue
            members = self.map.in_millimetres(corners)
            if is_own:
                yield row.fields, members, polygons.doubled(members) / 2_000_000
            else:
                self.hold(row, members)


def record_of(loss, words):
    """A loss as a record: what was known before the tables were made, and what is told of them behind it."""
    shape = None if loss.shape is None else shapely_wkb.dumps(loss.shape).hex()
    return {
        "kind": loss.kind,
        "names": loss.names,
        "words": words,
        "told": loss.words[len(words) :],
        "shape": shape,
        "width": loss.width,
        "area": loss.area,
        "layer": loss.layer,
        "rows": loss.rows,
        "is_grave": loss.is_grave,
        "place": loss.place(),
    }
