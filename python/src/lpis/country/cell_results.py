"""What the cells of a country gave, put together: the tables in the order of the source, the losses as a report has
them, and the balance."""

from __future__ import annotations

import hashlib
import json
import math
import os

from shapely import wkb as shapely_wkb

from . import gap_borders, gap_rings
from ..formats import wkb
from ..preparation import conflicts
from ..rounding import coverage
from ..source import land
from ..preparation.conflicts import ORDER, Loss

CONFLICTS = ("overlap", "gap", "outside")
FOUND = "SELECT id FROM row WHERE is_cover = ? AND name = ? AND is_kept"
TEXT = "SELECT cell, at FROM row JOIN text USING (id) WHERE is_cover = 0 AND name = ? AND is_kept"
AS_TOLD, AS_FOUND = "words || told", "words"
DAMAGED = (ValueError, TypeError, KeyError, IndexError)  # what reading a file gives that is none of a cell
MOST_OPEN = 200  # files at once
WAY = f'["{gap_borders.KIND}", '.encode()
BETWEEN = "\x01"  # names in the order of lists of names
# Where losses stand that are as grave as each other: those of a cell by its number, then what is known of all of them.
GREATEST, LAND, LEFT_OUT, COLUMN = ((1 << 29) + step for step in range(4))
STEP = 32  # bits: a loss is known by its step, and by its place there
TEXT_OF = b', "MULTI'  # where the text of a record begins, which needs no more than to be cut out


def named(line):
    """The kind and the name of a record with a text."""
    kind, name = line[2 : line.index(TEXT_OF)].split(b'", ', 1)
    return kind.decode("ascii"), json.loads(name) if b"\\" in name else name[1:-1].decode("ascii")


def head_of(line):
    """What is known of a way without its points."""
    return json.loads(line[len(WAY) : line.index(b"]") + 1])


class Stored(Loss):
    """A loss of a store, whose shape is made when it is asked for."""

    @property
    def shape(self):
        return None if self.blob is None else shapely_wkb.loads(self.blob)

    @shape.setter
    def shape(self, blob):
        self.blob = blob

    def polygons(self):
        return (wkb.several(self.blob) if self.blob else None) or super().polygons()


class Losses:
    """The losses of a store, the gravest first; gone over as often as is asked."""

    def __init__(self, base):
        self.base, self.next = base, 0

    def at(self, step):
        """The losses of a step come next, in place of those that are there."""
        self.next = step << STEP
        self.base.execute("DELETE FROM loss WHERE seq BETWEEN ? AND ?", (self.next, self.next + (1 << STEP) - 1))

    def add(self, loss, told="", blob=None):
        """Adds a loss, with what is told behind its words. `blob` is its shape where that is not made."""
        blob = shapely_wkb.dumps(loss.shape) if blob is None and loss.shape is not None else blob
        sizes = (
            ORDER.index(loss.kind),
            loss.width or loss.area or 0,
            BETWEEN.join(loss.names),
            loss.words,
            told,
            blob,
            loss.width,
            loss.area,
        )
        self.base.execute(
            f"INSERT INTO loss VALUES (?{', ?' * 14})",
            (
                self.next,
                loss.stops(),
                *sizes,
                loss.layer,
                json.dumps(loss.rows),
                loss.is_grave,
                *(loss.place() or (None, None)),
            ),
        )
        self.next += 1

    def __iter__(self):
        return self.those("1 ORDER BY is_stopping DESC, kind, size DESC, names, seq", AS_TOLD)

    def gaps(self, cells):
        """The places that a parcel has and none of its pieces, each with its number, in cells."""
        kinds = ORDER.index("gap"), ORDER.index("overlap")
        query = "SELECT seq FROM loss WHERE kind IN (?, ?) AND layer = 'parcels'"
        for seq in [seq for (seq,) in self.base.execute(query, kinds) if seq >> STEP in cells]:
            yield from ((seq, loss) for loss in self.those(f"seq = {seq}", AS_FOUND))

    def those(self, condition, words):
        for kind, names, said, shape, width, area, layer, rows, is_grave, x, y in self.base.execute(
            f"SELECT kind, names, {words}, shape, width, area, layer, rows, is_grave, x, y FROM loss WHERE {condition}"
        ):
            yield Stored(
                ORDER[kind],
                names.split(BETWEEN),
                said,
                shape,
                width,
                area,
                layer,
                json.loads(rows),
                bool(is_grave),
                () if x is None else (x, y),
            )


class Gathered:
    """What cells gave, by the names of their files in a folder. The store has it, cell by cell."""

    def __init__(self, base, folder, names, whole):
        self.base, self.folder, self.names, self.whole = base, folder, names, whole
        self.losses, self.open = Losses(base), {}
        self.counts = [0, 0]

    def path(self, cell):
        return os.path.join(self.folder, self.names[cell])

    def read(self, cells, progress):
        """Takes where the texts of cells are, and all else, in place of what they gave before. Answers whether the
        land that nobody has beside them is as it was."""
        as_before = []
        for cell in cells:
            try:
                as_before.append(self.read_cell(cell))
            except DAMAGED:
                raise self.damaged(self.names[cell]) from None
            progress.add()
        self.sum_up()
        self.base.commit()
        return all(as_before)

    def sum_up(self):
        """The sums of all cells, and the greatest change of a parcel."""
        found, self.counts = None, [0, 0]
        for parcels, pieces, records in self.base.execute("SELECT parcels, pieces, records FROM given"):
            self.counts = [self.counts[0] + parcels, self.counts[1] + pieces]
            for kind, *words in json.loads(records):
                if kind == "sum":
                    layer, land_class, sums = words
                    for column, parts in zip(("mended", "left out", "settled", "tables"), sums[1:]):
                        self.whole.add_exact((layer, land_class), column, parts)
                    continue
                change, loss, is_there = words
                (place,) = self.places(loss)
                if found is None or (change, -place) > found[0]:
                    found = (change, -place), loss, is_there
        self.losses.at(GREATEST)
        if found and not found[2]:
            self.add_loss(found[1])

    def damaged(self, name):
        return land.Trouble(
            f"{os.path.join(self.folder, name)} is not as it was written: delete {self.folder} and run it again"
        )

    def tell_causes(self, of_gaps, cells):
        """Says of the gaps of cells what they come of."""
        for seq, loss in self.losses.gaps(cells):
            self.base.execute("UPDATE loss SET words = words || ? WHERE seq = ?", (of_gaps.words(loss), seq))
        self.base.commit()

    def read_narrow(self, width):
        """Joins the ways of all cells, and takes the land between parcels that is narrow as a whole."""
        gap_rings.close(self.base)
        self.base.execute("INSERT INTO asked VALUES (?)", (width,))
        self.losses.at(LAND)
        read = gap_borders.Files(self.path)
        for loss in conflicts.between_all(gap_rings.narrow(self.base, read, width)):
            self.losses.add(loss)
        read.close()
        self.base.commit()

    def read_arms(self, names, progress):
        """Takes the land between parcels that is a narrow arm, by the files that have it."""
        for name in names:
            try:
                with open(os.path.join(self.folder, name), encoding="utf-8") as file:
                    for line in file:
                        self.add_loss(json.loads(line)[1])
            except DAMAGED:
                raise self.damaged(name) from None
            progress.add()
        self.base.commit()

    def sum_between(self):
        """The land that nobody has between parcels."""
        self.whole.between = math.fsum(
            area for (area,) in self.base.execute("SELECT area FROM loss WHERE kind = ?", (ORDER.index("between"),))
        )

    def put_ways(self):
        """Takes the ways of all cells anew."""
        self.base.executescript(gap_rings.AWAY + gap_rings.WAYS)
        for cell in range(len(self.names)):
            with open(self.path(cell), "rb") as file:
                at = 0
                for line in file:
                    if line.startswith(WAY):
                        gap_rings.put(self.base, cell, at, head_of(line))
                    at += len(line)

    def read_cell(self, cell):
        """Whether its ways are as they were before; new ones of a cell that was never read are taken."""
        texts, ways, digest, records = {"parcel": [], "piece": []}, [], hashlib.sha256(), []
        self.losses.at(cell)
        with open(self.path(cell), "rb") as file:
            at = 0
            for line in file:
                if line.startswith((b'["piece"', b'["parcel"')):
                    kind, name = named(line)
                    texts[kind].append((name, cell, at))
                elif line.startswith(WAY):
                    digest.update(line)
                    ways.append((at, head_of(line)))
                else:
                    kind, *words = json.loads(line)
                    if kind == "loss":
                        self.add_loss(*words)
                    else:
                        records.append([kind, *words])
                at += len(line)
        before = self.base.execute("SELECT ways FROM given WHERE cell = ?", (cell,)).fetchone()
        if before:
            self.base.execute("DELETE FROM text WHERE cell = ?", (cell,))
        self.put_texts(texts)
        self.base.execute(
            "INSERT OR REPLACE INTO given VALUES (?, ?, ?, ?, ?)",
            (cell, len(texts["parcel"]), len(texts["piece"]), json.dumps(records), digest.hexdigest()),
        )
        return self.ways_as_before(cell, ways, before and before[0] == digest.hexdigest())

    def ways_as_before(self, cell, ways, are_same):
        if are_same is None:
            for at, head in ways:
                gap_rings.put(self.base, cell, at, head)
        elif are_same:  # they stand elsewhere in the file
            numbers = self.base.execute("SELECT id FROM way WHERE cell = ? ORDER BY at", (cell,)).fetchall()
            self.base.executemany(
                "UPDATE way SET at = ? WHERE id = ?", ((at, number) for (at, _), (number,) in zip(ways, numbers))
            )
        return are_same is not False

    def put_texts(self, texts):
        for is_cover, kind in enumerate(("parcel", "piece")):
            self.base.executemany(
                f"INSERT INTO text SELECT id, ?2, ?3 FROM row WHERE is_cover = {is_cover} AND name = ?1 AND is_kept",
                texts[kind],
            )

    def places(self, found):
        """The ids of a loss's rows."""
        return [self.base.execute(FOUND, tuple(row)).fetchone()[0] for row in found["rows"]]

    def add_loss(self, found):
        places, kind = self.places(found), found["kind"]
        numbers = [self.base.execute("SELECT number FROM row WHERE id = ?", (place,)).fetchone()[0] for place in places]
        loss = Loss(
            kind,
            found["names"],
            found["words"],
            None,
            found["width"],
            found["area"],
            found["layer"],
            numbers,
            found["is_grave"],
            tuple(found["place"] or ()),
        )
        self.losses.add(loss, found["told"], bytes.fromhex(found["shape"]) if found["shape"] else None)

    # The tables.

    def text_of(self, cell, at):
        file = self.open.get(cell)
        if file is None:
            if len(self.open) == MOST_OPEN:
                self.open.pop(next(iter(self.open))).close()
            file = self.open[cell] = open(self.path(cell), "rb")
        file.seek(at)
        line = file.readline()
        return line[line.index(TEXT_OF) + 3 : line.rindex(b'"')].decode("ascii")

    def text_of_parcel(self, name):
        """The text of a parcel, or None."""
        found = self.base.execute(TEXT, (name,)).fetchone()
        return self.text_of(*found) if found else None

    def tables(self, out, tracked):
        """Writes covers.csv and parcels.csv in the order of the source. `tracked`: rows as they come, with their
        progress."""
        for is_cover, name, header in (
            (1, "covers.csv", ["piece", "parcel", "class", "wkt"]),
            (0, "parcels.csv", ["parcel", "wkt"]),
        ):
            found = self.base.execute(
                "SELECT name, parcel, class, cell, at FROM text JOIN row USING (id) WHERE is_cover = ? ORDER BY id",
                (is_cover,),
            )
            rows = (
                [piece, parcel, land_class, self.text_of(cell, at)] if is_cover else [parcel, self.text_of(cell, at)]
                for piece, parcel, land_class, cell, at in found
            )
            coverage.write(out, name, header, tracked(rows, name, self.counts[is_cover]))
        for file in self.open.values():
            file.close()
        self.open = {}
