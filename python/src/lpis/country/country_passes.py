"""What needs the whole country, in SQL over the store: names, doubled identifiers, pieces without parcel, parcels
without pieces, classes, and the balance. The rules are those of `naming`, and of `balance`; rows are looked at one
by one only where something is wrong with them."""

from __future__ import annotations

import json
from collections import Counter

from ..formats import wkb
from ..preparation import identifier_passes, land_balance
from ..source import land
from ..preparation.conflicts import Loss, polygons_by
from ..preparation.tested_source import BARE, NAMES, OF_ROW, PARCELS, PIECES, STRANGERS
from .row_store import Row

STEPS = 17  # of all that is done about names


def named(work, names, starts, are_metres, has_limits):
    """Does what needs the names of all rows, one step after the other."""
    yield work.of_layers(starts, are_metres, has_limits)
    yield work.tell_taken()
    work.at(NAMES)
    yield from names.steps()
    yield from joining(work)
    yield work.tell_shapeless()


class Used:
    """The names of pieces that are taken."""

    def __init__(self, base):
        self.base = base

    def __contains__(self, name):
        return any(
            self.base.execute(statement, (name,)).fetchone()
            for statement in (
                "SELECT 1 FROM row WHERE name = ? AND is_cover = 1 AND is_kept LIMIT 1",
                "SELECT 1 FROM used WHERE name = ?",
            )
        )

    def add(self, name):
        self.base.execute("INSERT OR IGNORE INTO used VALUES (?)", (name,))


def joining(work):
    """As `naming.join`, one step after the other."""
    base = work.base
    for step, name, column, doubled in (
        (PARCELS, "parcels", "parcel", identifier_passes.doubled_parcels),
        (PIECES, "covers", "name", lambda *words: identifier_passes.doubled_pieces(*words, Used(base))),
    ):
        work.at(step)
        condition = (
            f"{column} IN (SELECT {column} FROM row WHERE is_cover = {int(name == 'covers')} AND is_kept GROUP BY"
            f" {column} HAVING count(*) > 1)"
        )
        rest = land.Layer(name, list(work.layers[name].among(condition)), key=work.layers[name].key)
        join_rows(base, doubled(work, rest))
        for row in rest.rows:
            row.save()
        yield
    work.at(STRANGERS)
    unknown = "parcel NOT IN (SELECT parcel FROM row WHERE is_cover = 0 AND is_kept)"
    strangers = list(work.layers["covers"].among(unknown))
    identifier_passes.tell_strangers(work, strangers, known_like(base, strangers))
    base.execute(f"UPDATE row SET is_kept = 0 WHERE is_cover AND is_kept AND (left IS NULL OR {unknown})")
    yield
    work.at(BARE)
    bare = "parcel NOT IN (SELECT parcel FROM row WHERE is_cover AND is_kept)"
    identifier_passes.tell_bare(work, work.layers["parcels"].among(bare))
    base.execute(f"UPDATE row SET is_kept = 0 WHERE is_cover = 0 AND is_kept AND {bare}")
    base.commit()
    yield


def known_like(base, strangers):
    """The parcels which people may take for those that strangers name, in order."""
    if not strangers:
        return []
    base.execute("CREATE TEMP TABLE wanted (key TEXT PRIMARY KEY) WITHOUT ROWID")
    base.executemany(
        "INSERT OR IGNORE INTO wanted VALUES (?)", ((identifier_passes.alike(row["parcel"]),) for row in strangers)
    )
    return [
        name
        for (name,) in base.execute(
            "SELECT parcel FROM row WHERE is_cover = 0 AND is_kept AND key_of(parcel) IN (SELECT key FROM wanted) ORDER"
            " BY parcel"
        )
    ]


def join_rows(base, joined):
    """The land of rows goes on in the first of them; what was read of it stays."""
    for before, *others in joined.values():
        rows = [before, *others]
        founds = [row.found for row in rows if row.found]
        read = [
            blob
            for (blob,) in base.execute(
                f"SELECT coalesce(read, shape) FROM shape WHERE id IN ({', '.join(str(row.id) for row in rows)}) ORDER"
                " BY id"
            )
            if blob
        ]
        is_as_read = len(read) == 1 and len(founds) == 1 and founds[0].blob == read[0]
        before.found = identifier_passes.united(founds)
        of_all = wkb.written([member for blob in read for member in wkb.unpacked(blob)])
        base.execute("UPDATE shape SET read = ? WHERE id = ?", (None if is_as_read or not read else of_all, before.id))
        base.executemany("UPDATE row SET is_kept = 0, is_joined = 1 WHERE id = ?", ((row.id,) for row in others))


def classes_used(base):
    return Counter(dict(base.execute("SELECT class, count(*) FROM row WHERE is_cover AND is_kept GROUP BY class")))


class Balance(land_balance.Balance):
    """The balance of a store."""

    def __init__(self, base):
        super().__init__({})
        self.base = base

    def begin(self, _layers=None):
        self.sums = {}
        for is_cover, land_class, area, is_kept, is_joined in self.base.execute(
            "SELECT is_cover, class, area, is_kept, is_joined FROM row"
        ):
            group = ("covers", land_class or "(no class)") if is_cover else ("parcels", "")
            self.add(group, "source", area)
            if not is_kept:
                self.add(group, "mended" if is_joined else "left out", -area)
        self.keep()

    def keep(self):
        """Has the store keep what was booked of its rows, for a run that takes it up."""
        self.base.execute("DELETE FROM booked")
        self.base.executemany(
            "INSERT INTO booked VALUES (?, ?, ?)", ((*group, json.dumps(sums)) for group, sums in self.sums.items())
        )

    def begin_again(self, changed):
        """Takes what was booked of the rows of a store, but for those that changed: each with its group and its area
        before, and the same now."""
        self.sums = {
            (layer, land_class): json.loads(sums)
            for layer, land_class, sums in self.base.execute("SELECT layer, class, sums FROM booked ORDER BY rowid")
        }
        for before, now in changed:
            for sign, (group, area) in ((-1, before), (1, now)):
                self.add_exact(group, "source", sign * int(area * land_balance.UNIT))
        self.keep()

    def reasons(self):
        return Counter(dict(self.base.execute("SELECT why, count(*) FROM row WHERE why <> '' GROUP BY why")))


def left_out(base):
    """A loss for each row that is left out before the rounding."""
    for *fields, area, read, now in base.execute(
        f"SELECT {OF_ROW}, area, read, shape"
        " FROM row JOIN shape USING (id) WHERE NOT is_kept AND NOT is_joined ORDER BY row.id"
    ):
        row = Row(base, *fields)
        layer = "covers" if "piece" in row.fields else "parcels"
        members = [wkb.unpacked(blob) if blob else [] for blob in (read or now, now)]
        shape = polygons_by(land_balance.without_zone(*members)) if members[0] else None
        yield Loss(
            "left out",
            [row["piece" if layer == "covers" else "parcel"]],
            "it was left out before the rounding: prepared.csv has the reason",
            shape,
            None,
            area,
            layer,
            [row.number],
        )
