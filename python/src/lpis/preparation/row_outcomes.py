"""What became of each row of a source in the tables that were made of it: lost, added, made of its pieces, changed by
more than rounding does; its account in the balance of land; and who has a place that was in conflict."""

from __future__ import annotations

from itertools import chain, islice, product

from shapely.geometry import Point
from shapely.prepared import prep

from ..formats import polygons
from . import narrow_changes, place_holders
from ..system import progress
from ..system.printing import readable
from .conflicts import WIDE, Loss, Source, by_geos, polygons_by
from ..rounding.rounded_polygons import are_rounded
from ..geometry.widths import ROUNDING, is_as_wide, widest_of

ROUNDED = 0.001  # metres: what a border moves by rounding, at most
TINY = 0.000_001  # square metres: of doubles
CELL = 100.0  # metres: conflicts are found by the cells of a grid
MOST_CELLS = 100  # of a conflict or a piece that are looked up; what has more is looked at each time
AT_ONCE = 2048  # records
NAMESAKE = "the tables have fewer rows of its identifier"
OTHERS = {"parcels": (), "covers": ("parcel", "class")}


class Places:
    """The conflicts by their places, so that a piece of the tables finds those of which it has some."""

    def __init__(self, losses):
        self.losses = [loss for loss in losses if loss.kind in ("overlap", "gap", "outside") and loss.place()]
        self.middles = [Point(loss.place()) for loss in self.losses]
        self.shares = [[] for _ in self.losses]  # the pieces that have some of it, with their parcels and areas
        self.counts = [0] * len(self.losses)  # of those that have its middle
        self.cells, self.large, self.boxes = {}, [], [loss.shape.bounds for loss in self.losses]
        for number, box in enumerate(self.boxes):
            if many_cells(box):
                self.large.append(number)
            for cell in cells_of(box):
                self.cells.setdefault(cell, []).append(number)

    def __bool__(self):
        return bool(self.losses)

    def near(self, box):
        """The conflicts whose boxes meet a box."""
        if many_cells(box):
            found = range(len(self.losses))
        else:
            found = sorted({*self.large, *chain.from_iterable(self.cells.get(cell, ()) for cell in cells_of(box))})
        west, south, east, north = box
        return [
            number
            for number, (left, low, right, high) in ((number, self.boxes[number]) for number in found)
            if left <= east and right >= west and low <= north and high >= south
        ]

    def of_row(self, name, box):
        """The conflicts near a box that name a row."""
        return [loss for number in self.near(box) if name in (loss := self.losses[number]).names]

    def give(self, name, parcel, shape, near):
        """What a piece has of conflicts."""
        whole = prep(shape) if near else None
        for number in near:
            loss, has_middle = self.losses[number], whole.contains(self.middles[number])
            self.counts[number] += has_middle
            if has_middle or whole.intersects(loss.shape):
                share = by_geos("the share", [("covers", name, None)], shape.intersection, loss.shape)
                if has_middle or place_holders.is_share(share):
                    self.shares[number].append((f"{readable(name)} of parcel {readable(parcel)}", share.area))

    def tell(self):
        """Says in each conflict what was done with the place."""
        for loss, count, shares in zip(self.losses, self.counts, self.shares):
            if loss.kind == "overlap" and loss.layer == "covers" and count > 1:
                loss.is_grave, loss.words = True, "both pieces have this place, in the tables too: lpis refuses them"
            else:
                loss.words += f": {settled_words(loss, shares)}"


def settled_words(loss, shares):
    """Who has the place of a conflict in the tables."""
    left_out = ", it is left out of the parcel" if loss.is_of_parcel() else ""
    if not shares:
        return f"in the tables nobody gets it{left_out}"
    rest = loss.shape.area - sum(area for _, area in shares)
    rest = f", and nobody {rest:.3f} m2{left_out}" if rest > loss.shape.length * ROUNDED + TINY else ""
    if len(shares) == 1 and not rest:
        return f"{shares[0][0]} gets it in the tables"
    return f"{place_holders.in_words(shares)} {'get' if len(shares) > 1 else 'gets'} it in the tables{rest}"


def cells_of(box):
    """The cells of a grid that a box meets, unless they are too many."""
    return (
        () if many_cells(box) else product(*(range(int(box[s] // CELL), int(box[s + 2] // CELL) + 1) for s in (0, 1)))
    )


def many_cells(box):
    return ((box[2] - box[0]) / CELL + 1) * ((box[3] - box[1]) / CELL + 1) > MOST_CELLS


class Outcome:
    """Compares tables with a source. `records` gives the records of a table by its name, each with its polygons in
    whole millimetres and its area in square metres."""

    def __init__(self, source, records, whole):
        self.source, self.records, self.whole = source, records, whole
        self.places, self.found = Places(source.losses), {}
        self.greatest = None
        self.covers = set()

    def compare_tables(self):
        for name in ("covers", "parcels"):
            self.table(name, Source.KEYS[name])
        self.places.tell()

    def find(self):
        self.compare_tables()
        if self.greatest and not any(loss is self.greatest[1] for loss in self.source.losses):
            self.source.losses.append(self.greatest[1])
        return self.found["parcels"], self.found["covers"]

    def table(self, name, column):
        waiting, told = {}, set()
        for row in reversed(self.source.layers[name].rows):
            waiting.setdefault(row[column], []).append(row)
        self.found[name] = 0
        every = progress.each(
            self.records(name), progress.Quiet.tool, f"comparing {name}", len(self.source.layers[name].rows), "rows"
        )
        records = self.holding(every) if name == "covers" else every
        while some := list(islice(records, AT_ONCE)):
            self.found[name] += len(some)
            told.update(record[column] for record, _, _ in some)
            self.some(
                name,
                column,
                some,
                [rows.pop() if (rows := waiting.get(record[column])) else None for record, _, _ in some],
            )
        for who, row in ((who, row) for who, rows in waiting.items() for row in rows):
            self.lose(name, column, row, who in told)

    def some(self, name, column, records, rows):
        """Some records of a table, each with the row that it comes of, or None."""
        as_read = [row is not None and id(row) in self.source.shaped and self.whole.is_as_read(row) for row in rows]
        rounded = iter(
            are_rounded(
                [(row.found, members) for row, (_, members, _), is_as_read in zip(rows, records, as_read) if is_as_read]
            )
        )
        for (record, members, area), row, is_as_read in zip(records, rows, as_read):
            self.whole.add_table(name, record, area)
            if row is None:
                self.add(
                    "added",
                    name,
                    [record[column]],
                    "the tables have it, and the source has not",
                    [],
                    self.valid(name, record[column], members),
                )
            else:
                self.row(name, column, row, record, members, area, is_as_read and next(rounded))

    def holding(self, records):
        """Pieces as they come, each of which may hold places in conflict."""
        for record, members, area in records:
            self.hold(record, members)
            yield record, members, area

    def hold(self, piece, members):
        if self.places:
            near = self.places.near([value / 1000 for value in polygons.box([members])])
            if near:
                who = piece["piece"]
                self.places.give(who, piece["parcel"], self.valid("covers", who, members), near)

    def add(self, kind, name, names, words, rows, shape, area=None):
        loss = Loss(
            kind, names, words, shape, None, shape.area if area is None and shape is not None else area, name, rows
        )
        self.source.losses.append(loss)
        return loss

    def row(self, name, column, row, record, members, area, is_rounded):
        """A row that has a row in the tables, and whether its points alone are rounded there."""
        for other in OTHERS[name]:
            if record[other] != row[other]:
                words = f"its {other} is {row[other]} in the source and {record[other]} in the tables"
                self.add(
                    "changed", name, [row[column]], words, [row.number], self.either(name, row, column, members)
                ).is_grave = True
        if id(row) not in self.source.shaped:
            after = self.valid(name, row[column], members)
            self.add(
                "made",
                name,
                [row[column]],
                f"{row.why or 'it has no shape that can be used'}: it was made of its pieces",
                [row.number],
                after,
            )
            self.whole.book(row, after.area, 0.0)
            return
        if is_rounded:
            before = self.whole.area_of(row)
            self.whole.book(row, before, area - before)
            self.least(name, row, column, before, area, members)
            return
        now = self.source.shape(row)
        self.compare(name, row, column, self.before(row, now), now, self.valid(name, row[column], members))

    def either(self, name, row, column, members):
        """The land that a row has in the source or in the tables."""
        before, after = self.source.shape(row), self.valid(name, row[column], members)
        return after if before is None else by_geos("the land", [(name, row[column], row)], before.union, after)

    @staticmethod
    def valid(name, who, members):
        """A shape of the tables, in metres."""
        metres = [[[(x / 1000, y / 1000) for x, y in ring] for ring in member] for member in members]
        return by_geos("the shape in the tables", [(name, who, None)], polygons_by, metres)

    def before(self, row, now):
        """The row's shape as it was read, before any repair."""
        members = self.whole.source_of(row)
        return (
            now
            if members is None
            else by_geos(
                "the shape",
                [("source", row[Source.KEYS["covers"]] or row[Source.KEYS["parcels"]], row)],
                polygons_by,
                members,
            )
        )

    def compare(self, name, row, column, before, now, after):
        named = [(name, row[column], row)]
        gone, come = (
            by_geos("the change", named, one.difference, other) for one, other in ((now, after), (after, now))
        )
        self.whole.book(row, now.area, come.area - gone.area)
        if before is not now:
            gone, come = (
                by_geos("the change", named, one.difference, other) for one, other in ((before, after), (after, before))
            )
        change = gone.area + come.area
        is_grave = change > before.length * ROUNDED + TINY or any(
            by_geos("the width of the change", named, is_as_wide, one, WIDE - ROUNDING) for one in (gone, come)
        )
        if is_grave or self.is_greatest(name, change):
            words = (
                f"{gone.area:.3f} m2 went and {come.area:.3f} m2 came, from {before.area:.3f} to {after.area:.3f} m2"
            )
            width, place = (
                by_geos("the width of the change", named, widest_of, (gone, come)) if is_grave else (None, None)
            )
            loss = Loss(
                "changed",
                [row[column]],
                words,
                by_geos("the change", named, gone.union, come),
                width,
                change,
                name,
                [row.number],
                is_grave,
                place,
            )
            self.source.losses += [loss] if is_grave else []
            self.keep_greatest(name, change, loss)
        self.source.losses += narrow_changes.found(
            name, row, before, after, gone, come, lambda part: self.places.of_row(row[column], part.bounds)
        )

    def least(self, name, row, column, before, area, members):
        """Of a row that was rounded alone the change is no more than its border has room for. Its place is one in
        the row."""
        change = abs(area - before)
        if self.is_greatest(name, change):
            now, after, named = (
                self.source.shape(row),
                self.valid(name, row[column], members),
                [(name, row[column], row)],
            )
            words, place = f"rounded alone, from {before:.3f} to {area:.3f} m2", Loss("changed", [], "", now).place()
            loss = Loss(
                "changed",
                [row[column]],
                words,
                by_geos("the change", named, now.symmetric_difference, after),
                None,
                change,
                name,
                [row.number],
                False,
                place,
            )
            self.keep_greatest(name, change, loss)

    def is_greatest(self, name, change):
        return name == "parcels" and (self.greatest is None or change > self.greatest[0])

    def keep_greatest(self, name, change, loss):
        if self.is_greatest(name, change):
            self.greatest = change, loss

    def lose(self, name, column, row, is_told):
        shape = self.source.shape(row)
        whole = self.before(row, shape)
        self.add(
            "lost",
            name,
            [row[column]],
            NAMESAKE if is_told and row.found else self.why_lost(name, row),
            [row.number],
            whole,
            self.whole.area_of(row),
        )
        self.whole.book(row, self.whole.area_of(row) if shape is None else shape.area, None)

    def why_lost(self, name, row):
        if row.found is None:
            return row.why
        if row.found and self.source.shape(row) is None:
            return "its shape has no area"
        if name == "parcels":
            return (
                "narrower than a millimetre, or other parcels' pieces have its whole place"
                if row["parcel"] in self.source.pieces_of
                else "no piece names it"
            )
        return "narrower than a millimetre, or other pieces have its whole place"
