"""The rows of a source with their boxes, in a file of SQLite with an R-tree: so that what needs the whole country is
asked in SQL, and a part of it is rounded without the rest. Rows stand in the order of the source, the parcels first.
What is left out of the tables stays, and is not kept."""

from __future__ import annotations

import os
import sqlite3

import numpy

from . import gap_rings
from ..formats import wkb
from ..source import land
from ..system import files, progress
from ..preparation.finding_rows import Finding

PAGE = 20_000  # rows in memory at once
ROWS = """
CREATE TABLE row (id INTEGER PRIMARY KEY, is_cover INTEGER, number, name TEXT, parcel TEXT, class TEXT, is_odd INTEGER, is_kept INTEGER, is_joined INTEGER,
  area REAL, points INTEGER, why TEXT, x REAL, y REAL, left REAL, low REAL, right REAL, high REAL);
CREATE TABLE shape (id INTEGER PRIMARY KEY, shape BLOB, read BLOB);
CREATE TABLE finding (seq INTEGER PRIMARY KEY, step INTEGER, place REAL, is_shapeless INTEGER, kind TEXT, layer TEXT, number, name TEXT, words TEXT, done TEXT, is_mended INTEGER, area REAL, x REAL, y REAL, key TEXT,
  blob BLOB, final TEXT, width REAL, of INTEGER);
"""  # noqa: E501
WHOLE = """
CREATE VIRTUAL TABLE box USING rtree(id, left, right, low, high);
CREATE TABLE cell (parcel TEXT PRIMARY KEY, number INTEGER) WITHOUT ROWID;
CREATE TABLE used (name TEXT PRIMARY KEY) WITHOUT ROWID;
CREATE TABLE text (id INTEGER PRIMARY KEY, cell INTEGER, at INTEGER);
CREATE TABLE given (cell INTEGER PRIMARY KEY, parcels INTEGER, pieces INTEGER, records TEXT, ways TEXT);
CREATE TABLE booked (layer TEXT, class TEXT, sums TEXT);
CREATE TABLE corner (id INTEGER PRIMARY KEY, places BLOB);
CREATE VIRTUAL TABLE box_of_corner USING rtree(id, left, right, low, high);
CREATE TABLE loss (seq INTEGER PRIMARY KEY, is_stopping INTEGER, kind INTEGER, size REAL, names TEXT, words TEXT, told TEXT, shape BLOB, width REAL,
  area REAL, layer TEXT, rows TEXT, is_grave INTEGER, x REAL, y REAL);
"""  # noqa: E501
INDICES = (
    "by_parcel ON row (parcel, is_cover)",
    "by_name ON row (name, is_cover)",
    "odd ON row (id) WHERE is_odd",
    "in_order ON finding (step, place, seq)",
    "gravest ON loss (is_stopping DESC, kind, size DESC, names, seq)",
)
FAST = "PRAGMA synchronous = OFF; PRAGMA journal_mode = OFF; PRAGMA temp_store = FILE; PRAGMA cache_size = -65536;"
COLUMNS = "id, is_cover, number, name, parcel, class, why, x, y, left, low, right, high"
SIZED = "left = ?, low = ?, right = ?, high = ?, points = ?"
LAYERS = ("parcels", "covers")
KEY = "key_of"  # the function of SQL that gives what names have in common


def new(path, *tables):
    """A new file with tables, which nobody reads before it is whole."""
    base = sqlite3.connect(path)
    base.executescript(FAST + "".join(tables))
    return base


def reopened(path):
    """A store that is there, to go on with."""
    base = sqlite3.connect(path)
    base.executescript(FAST)
    return base


class Row(land.Row):
    """A row of the store. Its shape is read when it is asked for, and written when it is set."""

    __slots__ = ("base", "box", "id", "read")

    def __init__(self, base, number, is_cover, own, name, parcel, land_class, why, x, y, *box):
        self.base, self.id, self.number, self.why, self.box = (
            base,
            number,
            own,
            why,
            box if box[0] is not None else None,
        )
        self.place = None if x is None else (x, y)
        self.fields = {"piece": name, "parcel": parcel, "class": land_class} if is_cover else {"parcel": parcel}
        self.read = dict(self.fields)

    @property
    def found(self):
        if self.box is None:
            return None
        found = wkb.Found.of_blob(self.base.execute("SELECT shape FROM shape WHERE id = ?", (self.id,)).fetchone()[0])
        found.bounds = self.box
        return found

    @found.setter
    def found(self, found):
        self.box = found.box() if found else None
        self.base.execute(
            f"UPDATE row SET {SIZED} WHERE id = ?", (*(self.box or (None,) * 4), found.count() if found else 0, self.id)
        )
        self.base.execute("UPDATE shape SET shape = ? WHERE id = ?", (found.blob if found else None, self.id))
        self.base.execute("DELETE FROM box WHERE id = ?", (self.id,))
        if found:
            left, low, right, high = self.box
            self.base.execute("INSERT INTO box VALUES (?, ?, ?, ?, ?)", (self.id, left, right, low, high))

    def save(self):
        if self.fields != self.read:
            fields = self.fields
            self.base.execute(
                "UPDATE row SET name = ?, parcel = ?, class = ? WHERE id = ?",
                (fields.get("piece", fields["parcel"]), fields["parcel"], fields.get("class"), self.id),
            )


class Layer:
    """The rows of a layer in a store that the passes over names look at: those whose names are not identifiers as
    they stand."""

    def __init__(self, base, name, outline):
        self.base, self.name, self.is_cover = base, name, int(name == "covers")
        self.key, self.others, self.system, self.notes = outline.key, outline.others, outline.system, outline.notes

    def among(self, condition, words=()):
        """The kept rows with a condition, in their order; what changes in their fields is written."""
        last = -1
        while True:
            found = self.base.execute(
                (
                    f"SELECT {COLUMNS} FROM row WHERE {condition} AND is_cover = ? AND is_kept AND id > ? ORDER BY id"
                    f" LIMIT {PAGE}"
                ),
                (*words, self.is_cover, last),
            ).fetchall()
            if not found:
                return
            rows = [Row(self.base, *fields) for fields in found]
            yield from rows
            last = rows[-1].id
            for row in rows:
                row.save()

    def count(self):
        return self.base.execute(
            "SELECT count(*) FROM row WHERE is_cover = ? AND is_kept", (self.is_cover,)
        ).fetchone()[0]

    @property
    def rows(self):
        return self.among("is_odd")

    def keep(self, test):
        dropped = [(row.id,) for row in self.rows if not test(row)]
        self.base.executemany("UPDATE row SET is_kept = 0 WHERE id = ?", dropped)

    def groups(self, column, _key):
        """The different names of a column that have one key, in lists of two or more. The key is the base's."""
        column = "name" if column == "piece" else column
        different = f"SELECT DISTINCT {column} AS name FROM row WHERE is_cover = {self.is_cover} AND is_kept"
        self.base.execute(f"CREATE TEMP TABLE keyed AS SELECT {KEY}(name) AS key, name FROM ({different})")
        found, groups = (
            self.base.execute(
                "SELECT key, name FROM keyed WHERE key IN (SELECT key FROM keyed GROUP BY key HAVING count(*) > 1)"
                " ORDER BY key, name"
            ).fetchall(),
            {},
        )
        self.base.execute("DROP TABLE keyed")
        for key, name in found:
            groups.setdefault(key, []).append(name or "")
        return list(groups.values())


class Findings:
    """The findings of a store, in the order of the steps, and within one in that of the rows."""

    def __init__(self, base):
        self.base, self.step, self.place, self.after = base, 0, 0.0, 0.0

    def append(self, finding):
        self.base.execute(
            f"INSERT INTO finding VALUES (NULL, ?, ?, 0{', ?' * FIELDS})",
            (self.step, self.place, *fields_of(finding, getattr(finding.of, "id", None))),
        )

    def __iter__(self):
        return self.those("1")

    def those(self, condition):
        for kind, layer, number, name, words, done, is_mended, area, x, y, key, blob, final, width in self.base.execute(
            THOSE.format(condition)
        ):
            yield Finding(
                kind,
                layer,
                number,
                name,
                words,
                done,
                bool(is_mended),
                area,
                None if x is None else (x, y),
                key,
                blob,
                None,
                final,
                width,
            )


FIELDS = 15
THOSE = """SELECT kind, layer, finding.number, finding.name, words, done, is_mended, finding.area, finding.x, finding.y, key, blob,
  CASE WHEN final = '' AND of IS NOT NULL THEN (SELECT name FROM row WHERE id = of) ELSE final END, width FROM finding WHERE {} ORDER BY step, place, seq"""  # noqa: E501


def fields_of(finding, of):
    """A finding's values in its table, about the row with that id."""
    return (
        finding.kind,
        finding.layer,
        finding.row,
        finding.name,
        finding.words,
        finding.done,
        finding.is_mended,
        finding.area,
        *(finding.place or (None, None)),
        finding.key,
        finding.blob,
        finding.final,
        finding.width,
        of,
    )


def merged(path, parts):
    """A new store of the parts of a source, in their order; and where each begins in it."""
    files.remove(path)
    try:
        base = new(path, ROWS, WHOLE, gap_rings.WAYS)
        return base, filled(base, parts)
    except sqlite3.DatabaseError as error:
        files.remove(path)
        if isinstance(error, sqlite3.OperationalError) and "no such" not in str(error):
            raise land.Trouble(f"{path} cannot be written: {error}") from None
        raise land.Trouble(
            f"a part next to {path} is not as it was written ({error}): delete {os.path.dirname(path)} and run it again"
        ) from None


def in_memory(parts):
    """A new store in memory, with the rows that each part puts into it behind those before; and where each begins."""
    base, starts, count = new(":memory:", ROWS, WHOLE, gap_rings.WAYS), [], 0
    for put in parts:
        starts.append(count)
        count += put(base, count)
    found(base, starts, count, progress.Progress(progress.Quiet.tool, "places of rows", len(parts), "steps"))
    return base, starts


def filled(base, parts):
    """Takes the parts into the store; answers where each begins in it."""
    starts, count, shown = (
        [],
        0,
        progress.Progress(progress.Quiet.tool, "writing all rows", 2 * len(parts) + len(INDICES), "steps"),
    )
    for part in parts:
        base.execute("ATTACH ? AS part", (part,))
        starts.append(count)
        base.execute(
            (
                "INSERT INTO row SELECT id + ?, is_cover, number, name, parcel, class, is_odd, is_kept, is_joined,"
                " area, points, why, x, y, left, low, right, high FROM part.row"
            ),
            (count,),
        )
        base.execute("INSERT INTO shape SELECT id + ?, shape, read FROM part.shape", (count,))
        base.execute(
            (
                "INSERT INTO finding SELECT NULL, step, place + ?1, is_shapeless, kind, layer, number, name, words,"
                " done, is_mended, area, x, y, key, blob, final, width, of + ?1 FROM part.finding ORDER BY seq"
            ),
            (count,),
        )
        (rows,) = base.execute("SELECT count(*) FROM part.row").fetchone()
        count += rows
        base.commit()
        base.execute("DETACH part")
        shown.add()
    found(base, starts, count, shown)
    return starts


def found(base, starts, count, shown):
    """Makes rows known by their boxes and names; `shown` is told of each step."""
    for start, end in zip(starts, [*starts[1:], count]):
        base.execute(
            "INSERT INTO box SELECT id, left, right, low, high FROM row WHERE left IS NOT NULL AND id >= ? AND id < ?",
            (start, end),
        )
        shown.add()
    for index in INDICES:
        base.execute(f"CREATE INDEX {index}")
        shown.add()
    base.commit()
    shown.end()


# Cells.

MOST_POINTS = 40_000  # of a cell's parcels, unless one has more
SIDE, LEAST = 36, 10  # powers of two: the side of all cells in millimetres, and that of the smallest
LARGE = 2000.0  # metres: a parcel with a longer box, a road or a river, is a cell of its own
EXTENTS = (
    "SELECT min(id), min(left), min(low), max(right), max(high), sum(points) FROM row WHERE is_cover AND is_kept GROUP"
    " BY parcel"
)
EXTENT = [("id", "i8"), ("left", "f8"), ("low", "f8"), ("right", "f8"), ("high", "f8"), ("points", "i8")]


def put_cells(base, table="cell"):
    """Parts the kept parcels into cells, in a table; answers how many there are. A cell is a square whose sides are
    powers of two millimetres; a parcel is in the cell that has the lower left corner of its pieces' box."""
    found, count = numpy.fromiter(base.execute(EXTENTS), dtype=EXTENT), 0
    is_large = numpy.maximum(found["right"] - found["left"], found["high"] - found["low"]) > LARGE
    usual = found[~is_large]
    places = numpy.floor(numpy.stack([usual["left"], usual["low"]], axis=1) * 1000).astype(numpy.int64)
    for ids in (
        *(usual["id"][numbers] for numbers in cells_of(places, usual["points"], MOST_POINTS)),
        *found["id"][is_large].reshape(-1, 1),
    ):
        base.executemany(
            f"INSERT INTO {table} SELECT parcel, ? FROM row WHERE id = ?", ((count, number) for number in ids.tolist())
        )
        count += 1
    if table == "cell":
        base.execute("CREATE INDEX by_cell ON cell (number)")
    base.commit()
    return count


def cells_of(places, points, most):
    """The numbers of the places in each cell: a cell with too many points is parted in four."""
    waiting = [(numpy.arange(len(places)), SIDE)] if len(places) else []
    while waiting:
        numbers, side = waiting.pop()
        if side <= LEAST or len(numbers) == 1 or points[numbers].sum() <= most:
            yield numbers
            continue
        quarter = (places[numbers] >> (side - 1) & 1) @ (1, 2) if side < SIDE else (places[numbers] >= 0) @ (1, 2)
        waiting += [(numbers[quarter == which], side - 1) for which in (3, 2, 1, 0) if (quarter == which).any()]
