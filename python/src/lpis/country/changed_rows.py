"""The rows of a source that changed since the run before, put into the store that this has left. Only rows of which
nothing else of the store hangs but what lies beside them: of the same number, name and parcel, with a shape before and
now, found in order as they stand, in no name that several rows have. Where another row changed, the store is made anew:
what is wrong with names and what comes of it is a matter of all rows."""

from __future__ import annotations

import os
import sqlite3
from dataclasses import dataclass

from . import row_store
from ..preparation import finding_rows, tested_source
from ..rounding.snap_rounding import REACH
from ..system import files

MOST = 200  # rows: of more the store is made anew
ABOUT = REACH + 2  # metres about a box: an R-tree has it in floats of 32 bits
ROW = (
    "is_cover, number, name, parcel, class, is_odd, is_kept, is_joined, area, points, why, x, y, left, low, right, high"
)
SAME = ("is_cover", "number", "name", "parcel", "is_odd", "is_kept", "is_joined", "why")
DIFFERENT = f"""SELECT id FROM (SELECT id, {ROW} FROM now.row EXCEPT SELECT id, {ROW} FROM before.row) UNION
  SELECT id FROM now.shape JOIN before.shape AS was USING (id) WHERE now.shape.shape IS NOT was.shape OR now.shape.read IS NOT was.read"""  # noqa: E501
FINDING = """SELECT step, place, is_shapeless, kind, layer, number, name, words, done, is_mended, area, x, y, key, blob, final, width, of
  FROM {}.finding ORDER BY seq"""  # noqa: E501
COUNT = "SELECT count(*), min(id), max(id) FROM {}.row"
NEAR = "left <= ?2 AND right >= ?1 AND low <= ?4 AND high >= ?3"
EXTENT = "SELECT min(id), min(left), min(low), max(right), max(high), sum(points) FROM row WHERE is_cover AND is_kept AND parcel = ?"  # noqa: E501


class Other(Exception):
    """The store cannot be taken up."""


@dataclass
class Changed:
    """A row that changed, by its number in the store, with its values before and now."""

    id: int
    before: dict
    now: dict

    def booked(self):
        """Its group of the balance and its area, before and now."""
        return [
            (("covers", row["class"] or "(no class)") if row["is_cover"] else ("parcels", ""), row["area"])
            for row in (self.before, self.now)
        ]


def taken(path, folder, record, plan):
    """The store at a path with the rows of the parts that are planned, and those that changed; None where it cannot be
    taken up."""
    if len(plan) != len(record.plan) or any(facts_of(part)[:3] != then[:3] for part, then in zip(plan, record.plan)):
        return None
    base = row_store.reopened(path)
    try:
        changed = []
        for part, then, start in zip(plan, record.plan, record.begins):
            if part["file"] != then[3]:
                changed += changed_of(base, os.path.join(folder, then[3]), os.path.join(folder, part["file"]), start)
        if len(changed) > MOST:
            raise Other
        put(base, changed)
        base.commit()
        return base, changed
    except (Other, sqlite3.DatabaseError):
        base.close()
        files.remove(path)
        return None


def facts_of(part):
    """What a part of a source is known by: its layer and range, and the file that has it."""
    return [part["layer"], part["among"] and list(part["among"]), part["first"], part["file"]]


def changed_of(base, before, now, start):
    """The rows of a part that are others now, of which each may change."""
    if not os.path.isfile(before):
        raise Other
    base.execute("ATTACH ? AS before", (before,))
    base.execute("ATTACH ? AS now", (now,))
    try:
        for query in (COUNT, FINDING):
            if list(base.execute(query.format("before"))) != list(base.execute(query.format("now"))):
                raise Other
        numbers = [number for (number,) in base.execute(DIFFERENT)]
        if len(numbers) > MOST:
            raise Other
        return [changed_row(base, number, start) for number in sorted(numbers)]
    finally:
        base.commit()
        base.execute("DETACH before")
        base.execute("DETACH now")


def row_of(base, name, number):
    """The values of a row of a store, with its shapes."""
    found = base.execute(
        f"SELECT {ROW}, shape, read FROM {name}.row JOIN {name}.shape USING (id) WHERE id = ?", (number,)
    ).fetchone()
    return dict(zip([*ROW.split(", "), "shape", "read"], found)) if found else None


def changed_row(base, number, start):
    """A row that changed, where it is as it was read, and nothing hangs on what it was."""
    before, now = (row_of(base, name, number) for name in ("before", "now"))
    if not before or before != row_of(base, "main", number + start):
        raise Other
    is_plain = all(before[name] == now[name] for name in SAME) and not now["is_odd"] and not now["why"]
    if not is_plain or None in (before["left"], now["left"]):
        raise Other
    layer = row_store.LAYERS[now["is_cover"]]
    found = base.execute("SELECT kind FROM main.finding WHERE layer = ? AND number = ?", (layer, now["number"]))
    if any(kind not in finding_rows.NOTES for (kind,) in found) or has_namesake(base, layer, now["name"]):
        raise Other
    return Changed(number + start, before, now)


def has_namesake(base, layer, name):
    """Whether rows that have a name were joined, or told apart."""
    return base.execute(
        "SELECT EXISTS (SELECT 1 FROM main.finding WHERE kind = 'doubled' AND layer = ? AND name = ?)", (layer, name)
    ).fetchone()[0]


def put(base, changed):
    """Writes rows into the store, where it stays what it would be with them from the beginning."""
    classes, land = classes_of(base), land_of(base)
    parcels = {row.now["parcel"] for row in changed}
    extents = {name: base.execute(EXTENT, (name,)).fetchone() for name in parcels}
    base.execute("DELETE FROM finding WHERE step IN (?, ?)", (tested_source.TABLES, tested_source.CLASSES))
    for row in changed:
        if is_by_mended(base, row):
            raise Other
        values = [*(row.now[name] for name in ROW.split(", ")), row.id]
        base.execute(f"UPDATE row SET {' = ?, '.join(ROW.split(', '))} = ? WHERE id = ?", values)
        base.execute("UPDATE shape SET shape = ?, read = ? WHERE id = ?", (row.now["shape"], row.now["read"], row.id))
        base.execute(
            "UPDATE box SET left = ?, right = ?, low = ?, high = ? WHERE id = ?",
            (*(row.now[name] for name in ("left", "right", "low", "high")), row.id),
        )
    if classes_of(base) != classes or land_of(base) != land:
        raise Other
    if any(base.execute(EXTENT, (name,)).fetchone() != extents[name] for name in parcels):
        judge_cells(base)


def judge_cells(base):
    """The parcels are in the cells in which they were."""
    base.execute("CREATE TEMP TABLE cell_now (parcel TEXT PRIMARY KEY, number INTEGER) WITHOUT ROWID")
    row_store.put_cells(base, "cell_now")
    query = "SELECT EXISTS (SELECT * FROM {} EXCEPT SELECT * FROM {})"
    pair = ("cell", "cell_now")
    are_others = any(base.execute(query.format(*names)).fetchone()[0] for names in (pair, pair[::-1]))
    base.execute("DROP TABLE cell_now")
    if are_others:
        raise Other


def classes_of(base):
    return base.execute("SELECT DISTINCT class, is_kept FROM row WHERE is_cover ORDER BY 1, 2").fetchall()


def land_of(base):
    """The box of all land, where last year's borders are beside it: whether these are of the same place hangs on it."""
    if not base.execute("SELECT EXISTS (SELECT 1 FROM corner)").fetchone()[0]:
        return None
    return base.execute("SELECT min(left), min(low), max(right), max(high) FROM row").fetchone()


def boxes_of(row):
    """The boxes of a row before and now, with all about them that its land may touch: left, right, low, high."""
    for one in (row.before, row.now):
        yield one["left"] - ABOUT, one["right"] + ABOUT, one["low"] - ABOUT, one["high"] + ABOUT


def is_by_mended(base, row):
    """Whether a piece that was mended lies beside a row: what it has of its neighbours' places was told of it."""
    query = f"SELECT EXISTS (SELECT 1 FROM finding JOIN row ON row.id = place WHERE kind = 'invalid' AND {NEAR})"
    return any(base.execute(query, box).fetchone()[0] for box in boxes_of(row))


def cells_beside(base, changed):
    """The cells that have rows which changed, and those of which a row lies beside one: no other's rounding hangs on
    them."""
    tables = "box JOIN row USING (id) JOIN cell USING (parcel)"
    query = f"SELECT DISTINCT cell.number FROM {tables} WHERE is_kept AND {NEAR}"
    for name in ("left", "right", "low", "high"):
        query = query.replace(f"{name} <=", f"box.{name} <=").replace(f"{name} >=", f"box.{name} >=")
    return sorted({cell for row in changed for box in boxes_of(row) for (cell,) in base.execute(query, box)})
